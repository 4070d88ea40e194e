/* Multiple ron. */
#include "check.h"

size_t put_ron(uint8_t *records, size_t at, const uint8_t *record, size_t length, uint8_t winner, uint8_t from)
{
    memcpy(records + at, record, length);
    records[at] = (uint8_t)((record[0] & 7) + 128 + 32 * winner + 8 * from);
    return at + length;
}

int multi_ron_refused(const HbGame *game, uint8_t number, const uint8_t *records, size_t length, uint8_t refusal)
{
    HbGame copy = *game;
    uint8_t *own = exact(records, length);
    int same = hb_multi_ron(&copy, number, own, length) == refusal;
    same = same && (refusal == HB_REFUSAL_LENGTH || number == 0 || number > 3 || book_multi_ron(&copy, number, own, length) == refusal);
    free(own);
    return same && memcmp(&copy, game, sizeof copy) == 0;
}

/* Multiple rons of line 1's hand: who is paid what, who takes sticks and counters, and the deal. Each is made in a game with two
 * counters and a stick of seat 3, as a call and as an entry. */
void multi_rons(void)
{
    static const struct {
        uint8_t number, winners[3], from;
        int32_t scores[4];
        uint8_t dealer;
        uint32_t counter;
    } cases[] = {
        {1, {1}, 3, {30000, 33600, 30000, 26400}, 1, 0},
        {1, {0}, 3, {34500, 30000, 30000, 25500}, 0, 3},    /* 2,900 to the dealer, 600 and the stick */
        {2, {1, 2}, 3, {30000, 33600, 32000, 24400}, 1, 0}, /* after seat 3 comes seat 0, then 1: seat 1 is the first */
        {2, {2, 1}, 3, {30000, 33600, 32000, 24400}, 1, 0}, /* whatever the order of the records */
        {2, {2, 1}, 0, {25400, 33600, 32000, 29000}, 1, 0}, /* the dealer pays */
        {2, {0, 2}, 1, {32900, 24500, 33600, 29000}, 0, 3}, /* seat 2 is the first, the dealer wins: the deal stays */
        {2, {1, 0}, 2, {34500, 32000, 24500, 29000}, 0, 3},
        {3, {2, 0, 1}, 3, {34500, 32000, 32000, 21500}, 0, 3}, /* every caller */
        {3, {0, 1, 2}, 3, {34500, 32000, 32000, 21500}, 0, 3},
    };
    uint8_t records[39];
    HbGame start = hb_fresh_game(), game, booked;
    start.now.hands = 2, start.now.counter = 2;
    CHECK(hb_riichi(&start, 3) == 0);
    for (size_t n = 0; n < COUNT_OF(cases); n++) {
        size_t length = 0;
        for (size_t k = 0; k < cases[n].number; k++)
            length = put_ron(records, length, table[0].record, 13, cases[n].winners[k], cases[n].from);
        uint8_t *own = exact(records, length);
        game = start, booked = start;
        CHECK_CASE(n, hb_multi_ron(&game, cases[n].number, own, length) == 0);
        CHECK_CASE(n, is_game(&game, cases[n].scores, 0, cases[n].dealer, HB_ROUND_EAST, 3) && game.now.counter == cases[n].counter);
        CHECK_CASE(n, !game.now.declared[3] && !game.now.over);
        CHECK_CASE(n, book_multi_ron(&booked, cases[n].number, own, length) == 0 && memcmp(&booked, &game, sizeof game) == 0);
        booked = start;
        CHECK_CASE(n, cases[n].number > 1 || (hb_win(&booked, own, 13) == 0 && memcmp(&booked, &game, sizeof game) == 0));
        free(own);
    }
    /* records of 13 and of 12 bytes, one of a declared winner: line 1 with riichi of seat 1 (h 3, 3,900), line 6 of seat 2 (1,000) */
    static const int32_t declared[] = {30000, 33900, 31000, 25100};
    size_t length = put_ron(records, put_ron(records, 0, numbered(6)->record, 12, 2, 3), with_riichi, 13, 1, 3);
    game = hb_fresh_game();
    CHECK(hb_riichi(&game, 1) == 0 && hb_multi_ron(&game, 2, records, length) == 0);
    CHECK(is_game(&game, declared, 0, 1, HB_ROUND_EAST, 1));
}

const struct second seconds[] = {
    {HB_REFUSAL_MULTI_RON, 13, {0x20, 0x1e, 0x64, 0x02, 0x10, 0x62, 0x0a, 0x31, 0x66, 0x1a, 0x9a, 0x6b, 0xb0}}, /* no ron */
    {HB_REFUSAL_MULTI_RON, 13, {0xb8, 0x1e, 0x64, 0x02, 0x10, 0x62, 0x0a, 0x31, 0x66, 0x1a, 0x9a, 0x6b, 0xb0}}, /* one winner */
    {HB_REFUSAL_MULTI_RON, 13, {0xc0, 0x1e, 0x64, 0x02, 0x10, 0x62, 0x0a, 0x31, 0x66, 0x1a, 0x9a, 0x6b, 0xb0}}, /* from seat 0 */
    {HB_REFUSAL_MULTI_RON, 13, {0xd8, 0x1e, 0x5c, 0x02, 0x10, 0x62, 0x0a, 0x31, 0x66, 0x1a, 0x9a, 0x6c, 0x32}}, /* on 6s */
    {HB_REFUSAL_MULTI_RON, 13, {0xd8, 0x1b, 0x64, 0x02, 0x10, 0x62, 0x0a, 0x31, 0x66, 0x1a, 0x9a, 0x6b, 0xb0}}, /* indicator East */
    {HB_REFUSAL_MULTI_RON, 13, {0xd8, 0xde, 0x64, 0x02, 0x10, 0x62, 0x0a, 0x31, 0x66, 0x1a, 0x9a, 0x6b, 0xb0}}, /* last tile */
    {HB_REFUSAL_NO_READING, 13, {0xd8, 0x1e, 0x64, 0x00, 0x00, 0x00, 0x06, 0x18, 0xc3, 0x14, 0x51, 0xa6, 0xb2}},
    {HB_REFUSAL_NO_YAKU, 12, {0xd8, 0x1e, 0x64, 0x80, 0x18, 0x69, 0xc8, 0xa2, 0x9a, 0x8a, 0xb0, 0xd0}},
    {HB_REFUSAL_RIICHI, 13, {0xda, 0x1e, 0x64, 0x02, 0x10, 0x62, 0x0a, 0x31, 0x66, 0x1a, 0x9a, 0x6b, 0xb0}}, /* riichi, not declared */
};

/* Refusals of a multiple ron in their order: 9, 17 for the number, Read's of the first unreadable record, 17 for what is none, 6, 7 or
 * 11 of the first record that meets one. */
void refused_multi_rons(void)
{
    uint8_t records[3 * 13 + 1];
    HbGame fresh = hb_fresh_game(), declared = fresh;
    size_t both = put_ron(records, put_ron(records, 0, table[0].record, 13, 1, 3), table[0].record, 13, 2, 3), at;
    for (int number = 0; number < 256; number++)
        if (number == 0 || number > 3) {
            CHECK_CASE(number, multi_ron_refused(&fresh, (uint8_t)number, records, both, HB_REFUSAL_MULTI_RON));
            CHECK_CASE(number, multi_ron_refused(&fresh, (uint8_t)number, records, 0, HB_REFUSAL_MULTI_RON));
        }
    /* every cut, a record too few or too many, and a byte too many: what does not fit is Read's 1 */
    for (size_t length = 0; length < both; length++)
        CHECK_CASE(length, multi_ron_refused(&fresh, 2, records, length, HB_REFUSAL_LENGTH));
    CHECK(multi_ron_refused(&fresh, 3, records, both, HB_REFUSAL_LENGTH) && multi_ron_refused(&fresh, 1, records, both, HB_REFUSAL_LENGTH));
    records[both] = 0;
    CHECK(multi_ron_refused(&fresh, 2, records, both + 1, HB_REFUSAL_LENGTH));

    /* each unsound record: last, beside two that have one winner; and, if its length is m's, first and before one with m 5 */
    for (size_t n = 0; n < COUNT_OF(unsound); n++) {
        size_t length;
        uint8_t *record = unsound_record(n, &length);
        at = put_ron(records, put_ron(records, 0, table[0].record, 13, 1, 3), table[0].record, 13, 1, 3);
        memcpy(records + at, record, length);
        CHECK_CASE(n, multi_ron_refused(&fresh, 3, records, at + length, unsound[n].refusal));
        if (unsound[n].refusal != HB_REFUSAL_LENGTH) {
            HbGame game = fresh;
            memcpy(records, record, length);
            at = put_ron(records, length, table[0].record, 13, 1, 3);
            CHECK_CASE(n, multi_ron_refused(&fresh, 2, records, at, unsound[n].refusal));
            records[length + 2] = 0x66, records[length + 3] = 0x82; /* m 5 */
            CHECK_CASE(n, hb_multi_ron(&game, 2, records, at) == unsound[n].refusal);
            CHECK_CASE(n, memcmp(&game, &fresh, sizeof game) == 0);
        }
        free(record);
    }

    /* each second record behind line 1 and before it, and with a third of seat 0 that has an undeclared riichi */
    for (size_t n = 0; n < COUNT_OF(seconds); n++) {
        uint8_t refusal = seconds[n].refusal;
        size_t length = seconds[n].length;
        at = put_ron(records, 0, table[0].record, 13, 1, 3);
        memcpy(records + at, seconds[n].record, length);
        CHECK_CASE(n, multi_ron_refused(&fresh, 2, records, at + length, refusal));
        at = put_ron(records, at + length, with_riichi, 13, 0, 3);
        CHECK_CASE(n, multi_ron_refused(&fresh, 3, records, at, refusal));
        memcpy(records, seconds[n].record, length);
        at = put_ron(records, length, table[0].record, 13, 1, 3);
        CHECK_CASE(n, multi_ron_refused(&fresh, 2, records, at, refusal));
        at = put_ron(records, put_ron(records, 0, with_riichi, 13, 0, 3), table[0].record, 13, 1, 3);
        memcpy(records + at, seconds[n].record, length);
        CHECK_CASE(n, multi_ron_refused(&fresh, 3, records, at + length, refusal == HB_REFUSAL_MULTI_RON ? refusal : HB_REFUSAL_RIICHI));
    }
    CHECK(multi_ron_refused(&fresh, 1, table[1].record, 13, HB_REFUSAL_MULTI_RON)); /* a tsumo alone */
    CHECK(hb_riichi(&declared, 1) == 0);
    CHECK(multi_ron_refused(&declared, 1, table[0].record, 13, HB_REFUSAL_RIICHI)); /* declared, and no riichi in the record */
    declared.now.over = 1;
    CHECK(all_refused(&declared, HB_REFUSAL_NOT_OPEN));
}

/* Article 67 in a multiple ron, for each record by itself: three dragon triplets of a holder on chun, and thirteen orphans on it. Each
 * is made in a game with two counters and a stick of seat 1. */
void multi_rons_by_pao(void)
{
    static const uint8_t orphans[13] = {0x20, 0x16, 0x84, 0x00, 0x41, 0x28, 0xa4, 0xd3, 0x6e, 0x3a, 0xf3, 0xf0, 0x42};
    static const struct {
        uint8_t paos, holder[2], feeder[2], dragons[2]; /* whether seats 0 and 2 win with dragons */
        int32_t scores[4];
    } cases[] = {
        {1, {2}, {0}, {0, 1}, {63600, 29000, 62000, -34600}},        /* the feeder wins too: 48,000, and pays 16,000 */
        {1, {2}, {3}, {0, 1}, {79600, 29000, 62000, -50600}},        /* the discarder is the feeder, and pays all */
        {1, {2}, {1}, {0, 1}, {79600, 13000, 62000, -34600}},        /* a seat that neither wins nor discards */
        {2, {0, 2}, {1, 1}, {1, 1}, {79600, -11000, 62000, -10600}}, /* one feeder of both */
        {2, {0, 2}, {2, 0}, {1, 1}, {63600, 29000, 38000, -10600}},  /* each is the feeder of the other */
        {1, {1}, {2}, {0, 1}, {79600, 29000, 62000, -50600}},        /* a holder who does not win */
    };
    static const uint8_t nobody[8] = {0};
    for (size_t n = 0; n < COUNT_OF(cases); n++) {
        uint8_t records[26];
        HbGame game = hb_fresh_game(), booked;
        game.now.hands = 2, game.now.counter = 2;
        CHECK_CASE(n, hb_riichi(&game, 1) == 0);
        for (size_t k = 0; k < cases[n].paos; k++)
            CHECK_CASE(n, hb_pao(&game, cases[n].holder[k], cases[n].feeder[k], HB_YAKU_DAISANGEN) == 0);
        booked = game;
        put_ron(records, 13, cases[n].dragons[0] ? yakuman[DRAGONS].record : orphans, 13, 0, 3);
        put_ron(records, 0, cases[n].dragons[1] ? yakuman[DRAGONS].record : orphans, 13, 2, 3);
        CHECK_CASE(n, hb_multi_ron(&game, 2, records, 26) == 0 && is_game(&game, cases[n].scores, 0, 0, HB_ROUND_EAST, 3));
        CHECK_CASE(n, game.now.counter == 3 && memcmp(game.now.feeders, nobody, sizeof nobody) == 0);
        CHECK_CASE(n, book_multi_ron(&booked, 2, records, 26) == 0 && memcmp(&booked, &game, sizeof game) == 0);
    }
}
