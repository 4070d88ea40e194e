/* Pao, and who pays a win with it. */
#include "check.h"

const struct yakuman yakuman[] = {
    {13, {0x20, 0x16, 0x84, 0x02, 0x10, 0x68, 0xa2, 0xfb, 0xef, 0xc1, 0x04, 0x10, 0xc2}},
    {13, {0x20, 0x16, 0x78, 0x22, 0x8b, 0x6d, 0xb6, 0xe3, 0x8e, 0x3a, 0xeb, 0xaf, 0x3c}},
    {8, {0x20, 0x00, 0x5a, 0x2d, 0xce, 0x6e, 0xaf, 0x2c}},
    {13, {0x20, 0x16, 0x74, 0x1e, 0x82, 0x2d, 0xb6, 0xdb, 0x8e, 0x38, 0xeb, 0xaf, 0x3c}},
};

/* A win by one of them, of another seat: from a discarder, or on tsumo where it is 4. */
static uint8_t yakuman_won(HbGame *game, size_t hand, uint8_t winner, uint8_t from)
{
    uint8_t *record = exact(yakuman[hand].record, yakuman[hand].length);
    record[0] = (uint8_t)(from > 3 ? 32 * winner : 128 + 32 * winner + 8 * from);
    uint8_t refusal = hb_win(game, record, yakuman[hand].length);
    free(record);
    return refusal;
}

/* Who pays a win with a feeder named: the feeder all on tsumo, half by ron; plainly where the pao is of another seat or yaku. Each is
 * made in a game with two counters and a stick, which the winner takes. */
void wins_by_pao(void)
{
    static const uint8_t nobody[8] = {0};
    static const struct {
        uint8_t holder, feeder, yaku, hand, winner, from;
        int32_t scores[4];
    } cases[] = {
        {1, 3, HB_YAKU_DAISANGEN, DRAGONS, 1, 4, {30000, 63600, 30000, -3600}}, /* a child's 32,000, 600 for counters */
        {1, 3, HB_YAKU_DAISANGEN, DRAGONS, 1, 2, {30000, 63600, 13400, 13000}}, /* half and half, seat 2 the counters */
        {1, 3, HB_YAKU_DAISANGEN, DRAGONS, 1, 3, {30000, 63600, 30000, -3600}}, /* one seat */
        {1, 0, HB_YAKU_SUUSHIIHOU, WINDS, 1, 4, {-2600, 63600, 30000, 29000}},
        {1, 0, HB_YAKU_SUUSHIIHOU, WINDS, 1, 3, {14000, 63600, 30000, 12400}},
        {1, 0, HB_YAKU_SUUSHIIHOU, MELDED_WINDS, 1, 0, {-2600, 63600, 30000, 29000}},
        {0, 2, HB_YAKU_SUUSHIIHOU, MELDED_WINDS, 0, 4, {79600, 30000, -18600, 29000}}, /* the dealer's 48,000 */
        {0, 2, HB_YAKU_DAISANGEN, DRAGONS, 0, 1, {79600, 5400, 6000, 29000}},
        {0, 2, HB_YAKU_DAISANGEN, DRAGONS, 0, 2, {79600, 30000, -18600, 29000}},
        {1, 3, HB_YAKU_SUUSHIIHOU, THREE_WINDS, 1, 4, {13800, 63600, 21800, 20800}}, /* three winds and a pair: plainly */
        {1, 3, HB_YAKU_SUUSHIIHOU, THREE_WINDS, 1, 2, {30000, 63600, -2600, 29000}},
        {1, 3, HB_YAKU_SUUSHIIHOU, DRAGONS, 1, 4, {13800, 63600, 21800, 20800}}, /* the other yaku */
        {1, 3, HB_YAKU_DAISANGEN, WINDS, 1, 2, {30000, 63600, -2600, 29000}},
        {2, 3, HB_YAKU_DAISANGEN, DRAGONS, 1, 4, {13800, 63600, 21800, 20800}}, /* another holder */
    };
    for (size_t n = 0; n < COUNT_OF(cases); n++) {
        uint8_t winner = cases[n].winner;
        HbGame game = hb_fresh_game(), named, wanted;
        game.now.hands = 2, game.now.counter = 2;
        CHECK_CASE(n, hb_riichi(&game, 3) == 0);
        wanted = game, wanted.earlier = game.now, wanted.correctable = 0;
        wanted.now.feeders[cases[n].holder + (cases[n].yaku == HB_YAKU_DAISANGEN ? 0 : 4)] = cases[n].feeder + 1;
        CHECK_CASE(n, hb_pao(&game, cases[n].holder, cases[n].feeder, cases[n].yaku) == 0);
        CHECK_CASE(n, memcmp(&game, &wanted, sizeof game) == 0);
        named = game;
        CHECK_CASE(n, yakuman_won(&game, cases[n].hand, winner, cases[n].from) == 0);
        CHECK_CASE(n, is_game(&game, cases[n].scores, 0, winner != 0, HB_ROUND_EAST, 3) && game.now.counter == (winner ? 0 : 3));
        CHECK_CASE(n, memcmp(game.now.feeders, nobody, sizeof nobody) == 0);

        /* lapsed: each end of the hand clears all places, and the same win is then paid plainly */
        for (int end = 0; end < 4; end++) {
            HbGame plain = named;
            memcpy(plain.now.feeders, nobody, sizeof nobody);
            HbGame *both[] = {&named, &plain};
            HbGame after[2];
            for (int k = 0; k < 2; k++) {
                after[k] = *both[k];
                uint8_t refusal = end == 0   ? hb_draw(&after[k], HB_READY_BIT(0) + HB_READY_BIT(3))
                                  : end == 1 ? hb_draw(&after[k], HB_READY_BIT(0))
                                  : end == 2 ? hb_chombo(&after[k], 2)
                                             : hb_win(&after[k], table[0].record, 13);
                CHECK_CASE(n, refusal == 0 && memcmp(after[k].now.feeders, nobody, sizeof nobody) == 0);
                CHECK_CASE(n, yakuman_won(&after[k], cases[n].hand, winner, cases[n].from) == 0);
            }
            CHECK_CASE(n, memcmp(&after[0], &after[1], sizeof after[0]) == 0);
        }
    }
}

/* Refusal 18, after 8 and 9: the holder himself, another yaku, or a holder and yaku named already; each leaves every byte. */
void refused_paos(void)
{
    HbGame fresh = hb_fresh_game(), game = fresh, named;
    for (int yaku = 0; yaku < 256; yaku++) {
        for (uint8_t holder = 0; holder < 4; holder++) {
            CHECK_CASE(yaku, hb_pao(&game, holder, holder, (uint8_t)yaku) == HB_REFUSAL_PAO);
            if (yaku != HB_YAKU_DAISANGEN && yaku != HB_YAKU_SUUSHIIHOU)
                CHECK_CASE(yaku, hb_pao(&game, holder, (uint8_t)((holder + 1) % 4), (uint8_t)yaku) == HB_REFUSAL_PAO);
            CHECK_CASE(yaku, hb_pao(&game, (uint8_t)(holder + 4), holder, (uint8_t)yaku) == HB_REFUSAL_ARGUMENT);
            CHECK_CASE(yaku, hb_pao(&game, holder, (uint8_t)(holder + 4), (uint8_t)yaku) == HB_REFUSAL_ARGUMENT);
        }
        CHECK_CASE(yaku, memcmp(&game, &fresh, sizeof game) == 0);
    }
    /* all eight places, named one after the other: none is free again, with whatever feeder, and riichi leaves them */
    for (uint8_t place = 0; place < 8; place++) {
        uint8_t holder = place % 4, yaku = (uint8_t)(HB_YAKU_DAISANGEN + place / 4);
        CHECK_CASE(place, hb_pao(&game, holder, (uint8_t)((holder + 1 + place / 4) % 4), yaku) == 0);
        named = game;
        for (uint8_t feeder = 0; feeder < 4; feeder++) {
            CHECK_CASE(place, hb_pao(&game, holder, feeder, yaku) == HB_REFUSAL_PAO);
            CHECK_CASE(place, book_pao(&game, HB_PAO_BYTE(holder, feeder, yaku)) == HB_REFUSAL_PAO);
        }
        CHECK_CASE(place, memcmp(&game, &named, sizeof game) == 0);
    }
    CHECK(hb_riichi(&game, 1) == 0 && memcmp(game.now.feeders, named.now.feeders, sizeof named.now.feeders) == 0);
    CHECK(hb_win(&game, table[6].record, 12) == HB_REFUSAL_NO_YAKU);
    CHECK(memcmp(game.now.feeders, named.now.feeders, sizeof named.now.feeders) == 0);
    CHECK(hb_draw(&game, 16) == HB_REFUSAL_ARGUMENT && memcmp(game.now.feeders, named.now.feeders, sizeof named.now.feeders) == 0);
    game.now.over = 1, named = game;
    CHECK(all_refused(&game, HB_REFUSAL_NOT_OPEN));
    CHECK(hb_pao(&game, 0, 1, HB_YAKU_DAISANGEN) == HB_REFUSAL_NOT_OPEN && hb_pao(&game, 0, 4, 0) == HB_REFUSAL_ARGUMENT);
    CHECK(memcmp(&game, &named, sizeof game) == 0);
}
