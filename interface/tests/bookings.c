/* Riichi, Win, Draw and Chombo in a game; counters, sticks, the end. */
#include "check.h"

int is_game(const HbGame *game, const int32_t *scores, uint32_t sticks, uint8_t dealer, uint8_t wind, uint8_t hands)
{
    const HbPosition *position = &game->now;
    return memcmp(position->scores, scores, sizeof position->scores) == 0 && position->sticks == sticks && position->dealer == dealer
           && position->wind == wind && position->hands == hands;
}

const uint8_t win_entry[16] =
    {0x10, 0xb8, 0x1e, 0x64, 0x02, 0x10, 0x62, 0x0a, 0x31, 0x66, 0x1a, 0x9a, 0x6b, 0xb0, 0x00, 0x00};

uint8_t book_byte(HbGame *game, uint8_t header)
{
    uint8_t *part = exact(&header, 1);
    uint8_t refusal = hb_book_entry(game, part, 1);
    free(part);
    return refusal;
}

uint8_t book_win(HbGame *game, const uint8_t *record, size_t length)
{
    uint8_t *part = exact(win_entry, 1 + length);
    memcpy(part + 1, record, length);
    uint8_t refusal = hb_book_entry(game, part, 1 + length);
    free(part);
    return refusal;
}

uint8_t book_pao(HbGame *game, uint8_t byte)
{
    uint8_t entry[2] = {HB_ENTRY(HB_KIND_PAO, 0), byte}, *part = exact(entry, 2);
    uint8_t refusal = hb_book_entry(game, part, 2);
    free(part);
    return refusal;
}

uint8_t book_multi_ron(HbGame *game, uint8_t number, const uint8_t *records, size_t length)
{
    uint8_t *part = malloc(1 + length);
    if (!part)
        exit(2);
    part[0] = HB_ENTRY(HB_KIND_MULTI_RON, number);
    memcpy(part + 1, records, length);
    uint8_t refusal = hb_book_entry(game, part, 1 + length);
    free(part);
    return refusal;
}

int all_refused(const HbGame *game, uint8_t refusal)
{
    HbGame copy = *game;
    int same = hb_riichi(&copy, 0) == refusal && book_byte(&copy, 0x00) == refusal;
    same = same && hb_win(&copy, table[0].record, 13) == refusal && book_win(&copy, table[0].record, 13) == refusal;
    same = same && hb_draw(&copy, 15) == refusal && book_byte(&copy, 0x2f) == refusal;
    same = same && hb_chombo(&copy, 0) == refusal && book_byte(&copy, 0x30) == refusal;
    same = same && hb_multi_ron(&copy, 1, table[0].record, 13) == refusal && book_multi_ron(&copy, 1, table[0].record, 13) == refusal;
    same = same && hb_multi_ron(&copy, 0, table[0].record, 13) == refusal && hb_multi_ron(&copy, 255, table[0].record, 3) == refusal;
    same = same && hb_pao(&copy, 1, 3, HB_YAKU_DAISANGEN) == refusal && book_pao(&copy, 0x70) == refusal;
    same = same && hb_pao(&copy, 1, 1, 0) == refusal && book_pao(&copy, 0x50) == refusal;
    return same && memcmp(&copy, game, sizeof copy) == 0;
}

/* Accepted bookings: what each gives and takes; and refusals 10 and 11 among them. */
void bookings(void)
{
    static const int32_t start[] = {30000, 30000, 30000, 30000};
    static const int32_t after_win[] = {30000, 32000, 30000, 28000};
    static const int32_t after_riichi[] = {30000, 31000, 30000, 28000};
    /* riichi, all simples, pinfu: h 3, fu 30, A 960, 5,800 to the dealer; and the stick */
    static const int32_t after_riichi_win[] = {30000, 37800, 30000, 22200};
    static const int32_t after_draw[] = {28500, 32500, 31500, 26500};
    static const int32_t after_chombo[] = {33000, 35000, 21000, 31000};
    HbGame game = hb_fresh_game(), declared;
    CHECK(is_game(&game, start, 0, 0, HB_ROUND_EAST, 0) && !game.now.over);
    CHECK(memcmp(&game.earlier, &game.now, sizeof game.now) == 0 && game.correctable == 0);
    CHECK(!game.now.declared[0] && !game.now.declared[1] && !game.now.declared[2] && !game.now.declared[3]);
    CHECK(hb_win(&game, with_riichi, 13) == HB_REFUSAL_RIICHI);
    CHECK(is_game(&game, start, 0, 0, HB_ROUND_EAST, 0));
    CHECK(hb_win(&game, table[0].record, 13) == 0 && is_game(&game, after_win, 0, 1, HB_ROUND_EAST, 1));
    CHECK(hb_riichi(&game, 1) == 0 && is_game(&game, after_riichi, 1, 1, HB_ROUND_EAST, 1));
    CHECK(!game.now.declared[0] && game.now.declared[1] && !game.now.declared[2] && !game.now.declared[3]);

    declared = game;
    CHECK(hb_riichi(&game, 1) == HB_REFUSAL_DECLARED && memcmp(&game, &declared, sizeof game) == 0);
    CHECK(hb_win(&game, table[0].record, 13) == HB_REFUSAL_RIICHI && memcmp(&game, &declared, sizeof game) == 0);
    CHECK(hb_win(&game, with_riichi, 13) == 0 && is_game(&game, after_riichi_win, 0, 1, HB_ROUND_EAST, 2));
    CHECK(!game.now.declared[1]);
    game = declared;
    CHECK(hb_draw(&game, HB_READY_BIT(1) + HB_READY_BIT(2)) == 0);
    CHECK(is_game(&game, after_draw, 1, 1, HB_ROUND_EAST, 2) && !game.now.declared[1]);
    game = declared;
    CHECK(hb_chombo(&game, 2) == 0 && is_game(&game, after_chombo, 0, 1, HB_ROUND_EAST, 2) && !game.now.declared[1]);
}

/* Refusals of the bookings by argument, by record and by position; each leaves every byte of the game. */
void refused_bookings(void)
{
    HbGame fresh = hb_fresh_game(), game = fresh;
    for (int n = 4; n < 256; n++) {
        CHECK_CASE(n, hb_riichi(&game, (uint8_t)n) == HB_REFUSAL_ARGUMENT);
        CHECK_CASE(n, hb_chombo(&game, (uint8_t)n) == HB_REFUSAL_ARGUMENT);
        CHECK_CASE(n, n <= 15 || hb_draw(&game, (uint8_t)n) == HB_REFUSAL_ARGUMENT);
        CHECK_CASE(n, hb_pao(&game, (uint8_t)n, 0, HB_YAKU_DAISANGEN) == HB_REFUSAL_ARGUMENT);
        CHECK_CASE(n, hb_pao(&game, 0, (uint8_t)n, HB_YAKU_DAISANGEN) == HB_REFUSAL_ARGUMENT);
        CHECK_CASE(n, hb_pao(&game, (uint8_t)n, (uint8_t)n, 0) == HB_REFUSAL_ARGUMENT);
        CHECK_CASE(n, memcmp(&game, &fresh, sizeof game) == 0);
    }
    for (size_t n = 0; n < COUNT_OF(unsound); n++) {
        size_t length;
        uint8_t *record = unsound_record(n, &length);
        CHECK_CASE(n, hb_win(&game, record, length) == unsound[n].refusal);
        CHECK_CASE(n, memcmp(&game, &fresh, sizeof game) == 0);
        free(record);
    }
    CHECK(hb_win(&game, table[6].record, 12) == HB_REFUSAL_NO_YAKU && memcmp(&game, &fresh, sizeof game) == 0);
    CHECK(hb_win(&game, table[9].record, 13) == HB_REFUSAL_NO_READING && memcmp(&game, &fresh, sizeof game) == 0);

    game = fresh, game.now.over = 1;
    CHECK(all_refused(&game, HB_REFUSAL_NOT_OPEN));
    CHECK(hb_riichi(&game, 4) == HB_REFUSAL_ARGUMENT && hb_win(&game, table[0].record, 3) == HB_REFUSAL_NOT_OPEN);
    CHECK(hb_pao(&game, 4, 4, 0) == HB_REFUSAL_ARGUMENT && hb_pao(&game, 3, 3, 0) == HB_REFUSAL_NOT_OPEN);
    game = fresh, game.now.hands = 200;
    CHECK(all_refused(&game, HB_REFUSAL_NOT_OPEN));
    game = fresh, game.now.hands = 201;
    CHECK(all_refused(&game, HB_REFUSAL_NOT_OPEN));
    game = fresh, game.now.dealer = 4;
    CHECK(all_refused(&game, HB_REFUSAL_NOT_OPEN));
    game = fresh, game.now.wind = 2;
    CHECK(all_refused(&game, HB_REFUSAL_NOT_OPEN));
    game = fresh, game.now.declared[2] = 1;
    CHECK(all_refused(&game, HB_REFUSAL_NOT_OPEN));
    game = fresh, game.now.scores[0] = 30001;
    CHECK(all_refused(&game, HB_REFUSAL_NOT_OPEN));
    game = fresh, game.now.sticks = UINT32_MAX;
    CHECK(all_refused(&game, HB_REFUSAL_NOT_OPEN));
    game = fresh, game.now.scores[0] = -28540001, game.now.scores[1] = 28540001 + 60000;
    CHECK(all_refused(&game, HB_REFUSAL_NOT_OPEN));
    game = fresh, game.now.scores[0] = -28540000, game.now.scores[1] = 28540000 + 60000;
    CHECK(hb_riichi(&game, 3) == 0);
    game = fresh, game.now.counter = 1;
    CHECK(all_refused(&game, HB_REFUSAL_NOT_OPEN));
    game = fresh, game.now.hands = 199, game.now.counter = 200;
    CHECK(all_refused(&game, HB_REFUSAL_NOT_OPEN));
    game = fresh, game.now.hands = 199, game.now.counter = UINT32_MAX;
    CHECK(all_refused(&game, HB_REFUSAL_NOT_OPEN));
    for (int place = 0; place < 8; place++)
        for (int feeder = 1; feeder < 256; feeder++) {
            game = fresh, game.now.feeders[place] = (uint8_t)feeder;
            if (feeder > 4 || feeder == place % 4 + 1)
                CHECK_CASE(256 * place + feeder, all_refused(&game, HB_REFUSAL_NOT_OPEN));
            else
                CHECK_CASE(256 * place + feeder, hb_riichi(&game, 0) == 0 && game.now.feeders[place] == feeder);
        }
}

/* Marks of a position that are neither 0 nor 1: they are set, a refused booking leaves them, an accepted one sets 0 or 1. */
void marks(void)
{
    static const uint8_t set[4] = {0, 1, 1, 0}, cleared[4] = {0, 0, 0, 0};
    HbGame game = hb_fresh_game(), before;
    game.now.over = 2;
    CHECK(all_refused(&game, HB_REFUSAL_NOT_OPEN));
    game.now.over = 0xff;
    CHECK(all_refused(&game, HB_REFUSAL_NOT_OPEN));

    game = hb_fresh_game();
    game.now.declared[2] = 0xfe, game.now.sticks = 1, game.now.scores[2] -= 1000;
    before = game;
    CHECK(hb_riichi(&game, 2) == HB_REFUSAL_DECLARED && memcmp(&game, &before, sizeof game) == 0);
    CHECK(hb_draw(&game, 0) == 0 && game.now.sticks == 0 && game.now.scores[2] == 21000);
    CHECK(memcmp(game.now.declared, cleared, sizeof cleared) == 0);
    game = before;
    CHECK(hb_riichi(&game, 1) == 0 && game.now.sticks == 2 && memcmp(game.now.declared, set, sizeof set) == 0);
    game = before;
    CHECK(hb_chombo(&game, 0) == 0 && game.now.sticks == 0 && game.now.scores[2] == 33000);
    CHECK(memcmp(game.now.declared, cleared, sizeof cleared) == 0);
}

/* Thirteen orphans won by seat 0 from seat 1. */
static const uint8_t thirteen_orphans[13] = {136, 30, 0, 0, 65, 40, 164, 211, 110, 58, 243, 240, 66};

/* The counter: what a win pays more for it, what each booking leaves of it, and as many as there may be. */
void counters(void)
{
    static const int32_t by_child[] = {30000, 34100, 30000, 25900};  /* line 1, 2,000, and 300 for each of 7 */
    static const int32_t by_tsumo[] = {28000, 34800, 28600, 28600};  /* line 2: 700, 700 and 1,300, and 100 for each from each */
    static const int32_t by_dealer[] = {35000, 30000, 30000, 25000}; /* line 3, 2,900 */
    static const int32_t lowest[] = {15601000, -15541000, 30000, 30000};
    HbGame fresh = hb_fresh_game(), seven = fresh, game;
    CHECK(fresh.now.counter == 0);
    seven.now.hands = 7, seven.now.counter = 7;
    game = seven;
    CHECK(hb_win(&game, table[0].record, 13) == 0 && is_game(&game, by_child, 0, 1, HB_ROUND_EAST, 8) && game.now.counter == 0);
    game = seven;
    CHECK(hb_win(&game, table[1].record, 13) == 0 && is_game(&game, by_tsumo, 0, 1, HB_ROUND_EAST, 8) && game.now.counter == 0);
    game = seven;
    CHECK(hb_win(&game, table[2].record, 13) == 0 && is_game(&game, by_dealer, 0, 0, HB_ROUND_EAST, 8) && game.now.counter == 8);
    game = seven;
    CHECK(hb_draw(&game, HB_READY_BIT(0)) == 0 && game.now.counter == 8 && game.now.dealer == 0);
    game = seven;
    CHECK(hb_draw(&game, 0) == 0 && game.now.counter == 8 && game.now.dealer == 1);
    game = seven;
    CHECK(hb_riichi(&game, 2) == 0 && game.now.counter == 7);
    CHECK(hb_chombo(&game, 2) == 0 && game.now.counter == 7 && game.now.hands == 8);
    CHECK(hb_win(&game, table[0].record, 3) == HB_REFUSAL_LENGTH && game.now.counter == 7);

    game = fresh;
    CHECK(hb_riichi(&game, 1) == 0);
    for (int hand = 0; hand < 200; hand++)
        CHECK_CASE(hand, game.now.counter == (uint32_t)hand && hb_win(&game, thirteen_orphans, 13) == 0);
    CHECK(is_game(&game, lowest, 0, 0, HB_ROUND_EAST, 200) && game.now.over && game.now.counter == 200);
    CHECK(all_refused(&game, HB_REFUSAL_NOT_OPEN));
}

/* A fresh game with so many points of seat 1; seat 2 has the rest. */
static HbGame with_points(int32_t points)
{
    HbGame game = hb_fresh_game();
    game.now.scores[1] = points, game.now.scores[2] = 60000 - points;
    return game;
}

/* Riichi with under 1,000 points, by a call and by an entry: 21, after 8, 9 and 10, and no byte is changed. A win or a multiple ron
 * with riichi marked then meets 11, and the game goes on. 1,000 are enough, and leave none. */
void sticks(void)
{
    static const int32_t few[] = {-28540000, -1000, -1, 0, 1, 100, 900, 998, 999}, enough[] = {1000, 1001, 1100, 1999, 2000};
    uint8_t rons[26];
    CHECK(put_ron(rons, put_ron(rons, 0, table[0].record, 13, 2, 3), with_riichi, 13, 1, 3) == 26);
    for (size_t n = 0; n < COUNT_OF(few); n++) {
        HbGame start = with_points(few[n]), game, before;
        start.now.declared[3] = 0xfe, start.now.sticks = 1, start.now.scores[3] -= 1000;
        game = start;
        CHECK_CASE(few[n], hb_riichi(&game, 1) == HB_REFUSAL_STICK && memcmp(&game, &start, sizeof game) == 0);
        CHECK_CASE(few[n], book_byte(&game, 0x01) == HB_REFUSAL_STICK && memcmp(&game, &start, sizeof game) == 0);
        CHECK_CASE(few[n], hb_riichi(&game, 4) == HB_REFUSAL_ARGUMENT && memcmp(&game, &start, sizeof game) == 0);
        CHECK_CASE(few[n], hb_win(&game, with_riichi, 13) == HB_REFUSAL_RIICHI && memcmp(&game, &start, sizeof game) == 0);
        CHECK_CASE(few[n], book_win(&game, with_riichi, 13) == HB_REFUSAL_RIICHI && memcmp(&game, &start, sizeof game) == 0);
        CHECK_CASE(few[n], multi_ron_refused(&game, 2, rons, 26, HB_REFUSAL_RIICHI));
        CHECK_CASE(few[n], hb_win(&game, table[0].record, 13) == 0 && game.now.scores[1] == few[n] + 2000 + 1000);

        /* the points of the other seats do not matter */
        game = start;
        CHECK_CASE(few[n], hb_riichi(&game, 2) == 0 && hb_riichi(&game, 0) == 0 && hb_riichi(&game, 1) == HB_REFUSAL_STICK);

        game = start, game.now.declared[1] = 7, game.now.sticks = 2, game.now.scores[0] -= 1000, before = game;
        CHECK_CASE(few[n], hb_riichi(&game, 1) == HB_REFUSAL_DECLARED && book_byte(&game, 0x01) == HB_REFUSAL_DECLARED);
        CHECK_CASE(few[n], memcmp(&game, &before, sizeof game) == 0);
        game = start, game.now.over = 1, before = game;
        CHECK_CASE(few[n], hb_riichi(&game, 1) == HB_REFUSAL_NOT_OPEN && book_byte(&game, 0x01) == HB_REFUSAL_NOT_OPEN);
        CHECK_CASE(few[n], memcmp(&game, &before, sizeof game) == 0);
    }
    for (size_t n = 0; n < COUNT_OF(enough); n++) {
        static const uint8_t one[4] = {0, 1, 0, 0};
        HbGame game = with_points(enough[n]), booked = game, before;
        CHECK_CASE(enough[n], hb_riichi(&game, 1) == 0 && book_byte(&booked, 0x01) == 0 && memcmp(&game, &booked, sizeof game) == 0);
        CHECK_CASE(enough[n], game.now.scores[1] == enough[n] - 1000 && game.now.sticks == 1);
        CHECK_CASE(enough[n], memcmp(game.now.declared, one, sizeof one) == 0);
        before = game;
        CHECK_CASE(enough[n], hb_riichi(&game, 1) == HB_REFUSAL_DECLARED && memcmp(&game, &before, sizeof game) == 0);
        CHECK_CASE(enough[n], hb_multi_ron(&game, 2, rons, 26) == 0 && game.now.sticks == 0);
        game = before;
        CHECK_CASE(enough[n], hb_win(&game, with_riichi, 13) == 0 && game.now.scores[1] == enough[n] + 3900 && game.now.sticks == 0);
    }
}

/* The lowest score there is: seat 1 declares riichi, as long as it has 1,000 points, and pays 48,000 to the dealer, 32,000 to each other
 * seat and the counters in each of 200 hands. Seat 2, the first after it, takes these and the stick. */
void lowest_of_all(void)
{
    static const int32_t lowest[] = {9630000, -28341000, 12401000, 6430000};
    uint8_t records[39];
    size_t length = put_ron(records, 0, thirteen_orphans, 13, 0, 1);
    length = put_ron(records, put_ron(records, length, thirteen_orphans, 13, 2, 1), thirteen_orphans, 13, 3, 1);
    HbGame game = hb_fresh_game();
    for (int hand = 0; hand < 200; hand++) {
        CHECK_CASE(hand, hb_riichi(&game, 1) == (hand ? HB_REFUSAL_STICK : 0));
        CHECK_CASE(hand, game.now.counter == (uint32_t)hand && hb_multi_ron(&game, 3, records, length) == 0);
    }
    CHECK(is_game(&game, lowest, 0, 0, HB_ROUND_EAST, 200) && game.now.over && game.now.counter == 200);
    CHECK(all_refused(&game, HB_REFUSAL_NOT_OPEN));
}

/* Draws in which declared seats are not ready: a chombo of each. Each is made in a game with an older stick, two counters and the
 * deal of seat 1, as a call and as an entry. */
void not_ready(void)
{
    static const struct {
        uint8_t declared, bits; /* four bits, seat 0 the most significant */
        int32_t scores[4];
    } cases[] = {
        {0x4, 0x0, {33000, 20000, 33000, 33000}}, /* nobody is ready: seat 1, the dealer, pays 3,000 to each */
        {0x4, 0xb, {33000, 20000, 33000, 33000}}, /* three are ready: no ready payment */
        {0xc, 0x8, {33000, 20000, 33000, 33000}}, /* seat 0 declared and is ready: its stick returns */
        {0xc, 0x2, {24000, 23000, 36000, 36000}}, /* seats 0 and 1 pay each other too */
        {0xe, 0x1, {27000, 26000, 27000, 39000}}, /* three seats */
        {0xf, 0x1, {27000, 26000, 27000, 39000}}, /* and seat 3's stick returns */
        {0xf, 0x0, {30000, 29000, 30000, 30000}}, /* all four: the sticks return, nothing else moves */
    };
    HbGame start = hb_fresh_game();
    start.now.scores[1] = 29000, start.now.sticks = 1, start.now.hands = 2, start.now.counter = 2, start.now.dealer = 1;
    for (size_t n = 0; n < COUNT_OF(cases); n++) {
        HbGame game = start, booked;
        for (uint8_t seat = 0; seat < 4; seat++)
            CHECK_CASE(n, !(cases[n].declared >> (3 - seat) & 1) || hb_riichi(&game, seat) == 0);
        booked = game;
        CHECK_CASE(n, hb_draw(&game, cases[n].bits) == 0 && book_byte(&booked, (uint8_t)(0x20 + cases[n].bits)) == 0);
        CHECK_CASE(n, is_game(&game, cases[n].scores, 1, 1, HB_ROUND_EAST, 3) && game.now.counter == 2 && !game.now.over);
        CHECK_CASE(n, !game.now.declared[0] && !game.now.declared[1] && !game.now.declared[2] && !game.now.declared[3]);
        CHECK_CASE(n, memcmp(&game, &booked, sizeof game) == 0);
    }
    HbGame last = hb_fresh_game();
    last.now.hands = 199, last.now.dealer = 3, last.now.wind = HB_ROUND_SOUTH;
    CHECK(hb_riichi(&last, 0) == 0 && hb_draw(&last, HB_READY_BIT(1) + HB_READY_BIT(2) + HB_READY_BIT(3)) == 0);
    CHECK(last.now.over && last.now.dealer == 3 && last.now.hands == 200);
    CHECK(last.now.scores[0] == 21000 && last.now.scores[3] == 33000 && last.now.sticks == 0);
}

/* The end by the deal after eight draws with none ready, and at 200 hands of chombo. */
void ends(void)
{
    HbGame game = hb_fresh_game();
    for (int hand = 0; hand < 8; hand++) {
        CHECK_CASE(hand, game.now.dealer == hand % 4 && game.now.wind == hand / 4 && game.now.hands == hand && !game.now.over);
        CHECK_CASE(hand, hb_draw(&game, 0) == 0);
    }
    CHECK(game.now.over && game.now.dealer == 3 && game.now.wind == HB_ROUND_SOUTH && game.now.hands == 8);
    CHECK(all_refused(&game, HB_REFUSAL_NOT_OPEN));

    game = hb_fresh_game();
    for (int hand = 0; hand < 200; hand++)
        CHECK_CASE(hand, !game.now.over && hb_chombo(&game, (uint8_t)(hand % 4)) == 0);
    CHECK(game.now.over && game.now.dealer == 0 && game.now.wind == HB_ROUND_EAST && game.now.hands == 200);
    CHECK(all_refused(&game, HB_REFUSAL_NOT_OPEN));
}
