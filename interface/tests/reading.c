/* Reading, and how many there are. */
#include "check.h"

/* Every reading of lines of the table, in order, dealer 0, East: shape, pair, groups, place, whether it is the reported one, h, dora, fu and its items, A,
 * the changes, and the yaku by number with the han that each counts. */
static const struct shown {
    int line;
    uint8_t shape, pair, groups[4], place;
    bool reported;
    uint16_t h, dora;
    uint8_t fu;
    HbItems items;
    uint32_t basic;
    int32_t changes[4];
    struct {
        uint8_t yaku, han;
    } list[4];
} shown[] = {
    /* 111222333m 789s 99p by 9s, tsumo: runs, then triplets */
    {4, HB_SHAPE_REGULAR, 17, {0, 0, 0, 24}, 4, true, 6, 0, 20, {20, 0, 0, {0}, 0, 0, 0}, 3000, {-6000, 12000, -3000, -3000}, {{1, 1}, {4, 1}, {5, 1}, {22, 3}}},
    {4, HB_SHAPE_REGULAR, 17, {24, 34, 35, 36}, 1, false, 3, 0, 40, {20, 0, 0, {0, 8, 4, 4}, 0, 2, 2}, 1280, {-2600, 5200, -1300, -1300}, {{1, 1}, {18, 2}}},
    /* 112233m 778899p 55s by 5s: regular, then seven pairs */
    {5, HB_SHAPE_REGULAR, 22, {0, 0, 15, 15}, 0, true, 3, 0, 40, {20, 10, 0, {0}, 2, 0, 8}, 1280, {0, 5200, 0, -5200}, {{21, 3}}},
    {5, HB_SHAPE_SEVEN_PAIRS, HB_NO_PAIR, NO_GROUPS, 0, false, 2, 0, 25, {25, 0, 0, {0}, 0, 0, 0}, 400, {0, 1600, 0, -1600}, {{12, 2}}},
    /* chi 123m, 456p 234s 789s 99p by 9s: no yaku, and nobody pays */
    {7, HB_SHAPE_REGULAR, 17, {12, 19, 24, HB_NO_GROUP}, 3, false, 0, 0, 30, {20, 0, 0, {0}, 0, 0, 10}, 0, {0}, {{0, 0}}},
    /* four concealed triplets */
    {9, HB_SHAPE_REGULAR, 26, {34, 45, 56, 58}, 4, true, 0, 0, 0, {0}, 8000, {-16000, 32000, -8000, -8000}, {{30, 0}}},
    /* seven pairs with two dora */
    {101, HB_SHAPE_SEVEN_PAIRS, HB_NO_PAIR, NO_GROUPS, 0, true, 4, 2, 25, {25, 0, 0, {0}, 0, 0, 0}, 1600, {0, 6400, 0, -6400}, {{12, 2}}},
    /* thirteen orphans */
    {105, HB_SHAPE_ORPHANS, HB_NO_PAIR, NO_GROUPS, 0, true, 0, 0, 0, {0}, 8000, {-16000, 32000, -8000, -8000}, {{36, 0}}},
    /* 111222333m by 1m, 456p, 99s: the last has no yaku */
    {106, HB_SHAPE_REGULAR, 26, {0, 0, 0, 12}, 1, true, 2, 0, 30, {20, 10, 0, {0}, 0, 0, 0}, 480, {0, 2000, 0, -2000}, {{4, 1}, {5, 1}}},
    {106, HB_SHAPE_REGULAR, 26, {0, 0, 0, 12}, 2, false, 2, 0, 30, {20, 10, 0, {0}, 0, 0, 0}, 480, {0, 2000, 0, -2000}, {{4, 1}, {5, 1}}},
    {106, HB_SHAPE_REGULAR, 26, {0, 0, 0, 12}, 3, false, 2, 0, 30, {20, 10, 0, {0}, 0, 0, 0}, 480, {0, 2000, 0, -2000}, {{4, 1}, {5, 1}}},
    {106, HB_SHAPE_REGULAR, 26, {12, 34, 35, 36}, 2, false, 0, 0, 50, {20, 10, 0, {0, 4, 4, 4}, 0, 0, 8}, 0, {0}, {{0, 0}}},
    /* 11 222 333 444 555m by 2m, tsumo: the fifth is a yakuman, and three more come after it */
    {109, HB_SHAPE_REGULAR, 0, {1, 1, 1, 38}, 1, false, 8, 0, 30, {20, 0, 0, {0, 0, 0, 4}, 0, 2, 4}, 4000, {-8000, 16000, -4000, -4000}, {{1, 1}, {5, 1}, {25, 6}}},
    {109, HB_SHAPE_REGULAR, 0, {1, 1, 1, 38}, 2, false, 8, 0, 30, {20, 0, 0, {0, 0, 0, 4}, 0, 2, 4}, 4000, {-8000, 16000, -4000, -4000}, {{1, 1}, {5, 1}, {25, 6}}},
    {109, HB_SHAPE_REGULAR, 0, {1, 1, 1, 38}, 3, false, 8, 0, 30, {20, 0, 0, {0, 0, 0, 4}, 0, 2, 4}, 4000, {-8000, 16000, -4000, -4000}, {{1, 1}, {5, 1}, {25, 6}}},
    {109, HB_SHAPE_REGULAR, 0, {2, 2, 2, 35}, 4, false, 8, 0, 30, {20, 0, 0, {0, 0, 0, 4}, 0, 2, 4}, 4000, {-8000, 16000, -4000, -4000}, {{1, 1}, {5, 1}, {25, 6}}},
    {109, HB_SHAPE_REGULAR, 0, {35, 36, 37, 38}, 1, true, 0, 0, 0, {0}, 8000, {-16000, 32000, -8000, -8000}, {{30, 0}}},
    {109, HB_SHAPE_REGULAR, 3, {0, 0, 1, 38}, 1, false, 8, 0, 30, {20, 0, 0, {0, 0, 0, 4}, 2, 2, 2}, 4000, {-8000, 16000, -4000, -4000}, {{1, 1}, {5, 1}, {25, 6}}},
    {109, HB_SHAPE_REGULAR, 3, {0, 0, 1, 38}, 2, false, 8, 0, 30, {20, 0, 0, {0, 0, 0, 4}, 2, 2, 2}, 4000, {-8000, 16000, -4000, -4000}, {{1, 1}, {5, 1}, {25, 6}}},
    {109, HB_SHAPE_REGULAR, 3, {0, 0, 1, 38}, 3, false, 8, 0, 30, {20, 0, 0, {0, 0, 0, 4}, 0, 2, 4}, 4000, {-8000, 16000, -4000, -4000}, {{1, 1}, {5, 1}, {25, 6}}},
    /* 111 2222 3333 444m by 2m: the first is not the best */
    {110, HB_SHAPE_REGULAR, 0, {0, 1, 1, 1}, 1, false, 7, 0, 40, {20, 10, 0, {0}, 2, 0, 8}, 3000, {0, 12000, 0, -12000}, {{5, 1}, {25, 6}}},
    {110, HB_SHAPE_REGULAR, 0, {0, 1, 1, 1}, 2, false, 8, 0, 30, {20, 10, 0, {0}, 0, 0, 0}, 4000, {0, 16000, 0, -16000}, {{4, 1}, {5, 1}, {25, 6}}},
    {110, HB_SHAPE_REGULAR, 0, {0, 1, 1, 1}, 3, false, 8, 0, 30, {20, 10, 0, {0}, 0, 0, 0}, 4000, {0, 16000, 0, -16000}, {{4, 1}, {5, 1}, {25, 6}}},
    {110, HB_SHAPE_REGULAR, 0, {0, 1, 1, 1}, 4, false, 8, 0, 30, {20, 10, 0, {0}, 0, 0, 0}, 4000, {0, 16000, 0, -16000}, {{4, 1}, {5, 1}, {25, 6}}},
    {110, HB_SHAPE_REGULAR, 0, {0, 35, 36, 37}, 1, true, 8, 0, 50, {20, 10, 0, {0, 4, 4, 4}, 2, 0, 6}, 4000, {0, 16000, 0, -16000}, {{18, 2}, {25, 6}}},
    {110, HB_SHAPE_REGULAR, 0, {0, 35, 36, 37}, 2, false, 6, 0, 40, {20, 10, 0, {0, 2, 4, 4}, 0, 0, 0}, 3000, {0, 12000, 0, -12000}, {{25, 6}}},
    {110, HB_SHAPE_REGULAR, 3, {0, 0, 0, 1}, 1, false, 7, 0, 40, {20, 10, 0, {0}, 2, 0, 8}, 3000, {0, 12000, 0, -12000}, {{5, 1}, {25, 6}}},
    {110, HB_SHAPE_REGULAR, 3, {0, 0, 0, 1}, 2, false, 7, 0, 40, {20, 10, 0, {0}, 2, 0, 8}, 3000, {0, 12000, 0, -12000}, {{5, 1}, {25, 6}}},
    {110, HB_SHAPE_REGULAR, 3, {0, 0, 0, 1}, 3, false, 7, 0, 40, {20, 10, 0, {0}, 2, 0, 8}, 3000, {0, 12000, 0, -12000}, {{5, 1}, {25, 6}}},
    {110, HB_SHAPE_REGULAR, 3, {0, 0, 0, 1}, 4, false, 8, 0, 30, {20, 10, 0, {0}, 0, 0, 0}, 4000, {0, 16000, 0, -16000}, {{4, 1}, {5, 1}, {25, 6}}},
    {110, HB_SHAPE_REGULAR, 3, {1, 34, 35, 36}, 1, false, 8, 0, 50, {20, 10, 0, {0, 8, 4, 4}, 0, 0, 4}, 4000, {0, 16000, 0, -16000}, {{18, 2}, {25, 6}}},
    {110, HB_SHAPE_REGULAR, 3, {1, 34, 35, 36}, 3, false, 6, 0, 50, {20, 10, 0, {0, 8, 2, 4}, 0, 0, 6}, 3000, {0, 12000, 0, -12000}, {{25, 6}}},
    /* 123m 123p by 3p, 99p, chi 123s, pon EEE of the dealer: open, so that 13 and 15 count a han less */
    {111, HB_SHAPE_REGULAR, 17, {0, 9, HB_NO_GROUP, HB_NO_GROUP}, 2, true, 6, 2, 30, {20, 0, 0, {0, 0, 0, 4}, 2, 0, 4}, 3000, {18000, 0, 0, -18000}, {{3, 2}, {13, 1}, {15, 1}}},
};

/* The n-th reading of a record, which stands in a block of its very length. */
static HbReading reading_of(const uint8_t *record, size_t record_len, uint8_t dealer, uint8_t wind, uint32_t n)
{
    uint8_t *own = exact(record, record_len);
    HbReading given = hb_reading(own, record_len, dealer, wind, n);
    CHECK(memcmp(own, record, record_len) == 0);
    free(own);
    return given;
}

/* How many readings it has. */
static HbReadingCount count_of(const uint8_t *record, size_t record_len, uint8_t dealer, uint8_t wind)
{
    uint8_t *own = exact(record, record_len);
    HbReadingCount given = hb_reading_count(own, record_len, dealer, wind);
    CHECK(memcmp(own, record, record_len) == 0);
    free(own);
    return given;
}

/* The han of all yaku that a reading lists. */
static int han_of(const HbReading *given)
{
    int sum = 0;
    for (size_t n = 0; n < 37; n++)
        sum += given->han[n];
    return sum;
}

/* Whether a reading has a yakuman. */
static int is_yakuman(const HbReading *given)
{
    int found = 0;
    for (size_t n = HB_YAKU_TENHOU; n <= HB_YAKU_KOKUSHI_MUSOU; n++)
        found = found || given->yaku[n];
    return found;
}

int no_reading(HbReading given, uint8_t refusal)
{
    int zero = given.count == 0 && given.basic == 0 && given.gain == 0 && given.h == 0 && given.dora == 0 && han_of(&given) == 0;
    zero = zero && given.shape == 0 && given.pair == 0 && given.place == 0 && !given.reported && given.fu == 0 && sum_of(&given.items) == 0;
    for (size_t n = 0; n < 37; n++)
        zero = zero && !given.yaku[n];
    for (size_t n = 0; n < 4; n++)
        zero = zero && given.groups[n] == 0 && given.changes[n] == 0;
    return zero && given.refusal == refusal;
}

/* Whether neither call gives more than a refusal, for the numbers 0, 1, 2 and the largest. */
static int no_readings(const uint8_t *record, size_t record_len, uint8_t dealer, uint8_t wind, uint8_t refusal)
{
    static const uint32_t numbers[] = {0, 1, 2, UINT32_MAX};
    HbReadingCount count = count_of(record, record_len, dealer, wind);
    int none = count.refusal == refusal && count.count == 0;
    for (size_t n = 0; n < COUNT_OF(numbers); n++)
        none = none && no_reading(reading_of(record, record_len, dealer, wind, numbers[n]), refusal);
    return none;
}

/* Whether a reading is the one wanted, of so many. */
static int is_shown(const HbReading *given, const struct shown *wanted, uint32_t count, uint8_t winner)
{
    bool yaku[37] = {false};
    uint16_t han[37] = {0};
    for (size_t n = 0; n < 4; n++)
        if (wanted->list[n].yaku) {
            yaku[wanted->list[n].yaku] = true;
            han[wanted->list[n].yaku] = wanted->list[n].han;
        }
    int same = given->refusal == 0 && given->count == count && given->shape == wanted->shape && given->pair == wanted->pair;
    same = same && memcmp(given->groups, wanted->groups, 4) == 0 && given->place == wanted->place && given->reported == wanted->reported;
    same = same && given->h == wanted->h && given->dora == wanted->dora && given->fu == wanted->fu && given->basic == wanted->basic;
    same = same && memcmp(&given->items, &wanted->items, sizeof given->items) == 0;
    same = same && memcmp(given->changes, wanted->changes, sizeof given->changes) == 0;
    same = same && (int32_t)given->gain == wanted->changes[winner];
    return same && memcmp(given->yaku, yaku, sizeof yaku) == 0 && memcmp(given->han, han, sizeof han) == 0;
}

/* Whether a reading has the figures of a score. */
static int has_figures(const HbReading *given, const HbScored *scored)
{
    return given->h == scored->h && given->fu == scored->fu && memcmp(&given->items, &scored->items, sizeof given->items) == 0
           && memcmp(given->yaku, scored->yaku, sizeof given->yaku) == 0 && memcmp(given->changes, scored->changes, sizeof given->changes) == 0;
}

/* All readings of every line of the table: none pays more than the one that is marked, which has Score's figures; past them, and for 0, there is none. */
static void every_line(void)
{
    for (size_t k = 0; k < COUNT_OF(table); k++) {
        const struct line *line = &table[k];
        HbScored scored = hb_score(line->record, line->length, 0, HB_ROUND_EAST);
        HbReadingCount count = count_of(line->record, line->length, 0, HB_ROUND_EAST);
        uint8_t winner = hb_read(line->record, line->length).hand.fields.winner;
        uint32_t most = 0, marked = 0, gain = 0;
        CHECK_CASE(line->number, count.refusal == 0 && (count.count == 0) == (line->refusal == HB_REFUSAL_NO_READING));
        CHECK_CASE(line->number, scored.tried <= count.count);
        for (uint32_t n = 1; n <= count.count; n++) {
            HbReading given = reading_of(line->record, line->length, 0, HB_ROUND_EAST, n);
            CHECK_CASE(line->number, given.refusal == 0 && given.count == count.count);
            CHECK_CASE(line->number, sum_of(&given.items) == given.fu);
            CHECK_CASE(line->number, is_yakuman(&given) ? given.h == 0 && given.basic == 8000 : han_of(&given) + given.dora == given.h);
            CHECK_CASE(line->number, given.changes[0] + given.changes[1] + given.changes[2] + given.changes[3] == 0);
            CHECK_CASE(line->number, (int32_t)given.gain == given.changes[winner]);
            CHECK_CASE(line->number, !given.reported || has_figures(&given, &scored));
            marked += given.reported;
            gain = given.reported ? given.gain : gain;
            most = given.gain > most ? given.gain : most;
        }
        CHECK_CASE(line->number, marked == (line->refusal == 0) && gain == most);
        CHECK_CASE(line->number, no_reading(reading_of(line->record, line->length, 0, 0, 0), HB_REFUSAL_ARGUMENT));
        for (uint32_t past = 1; past != 0; past <<= 1)
            CHECK_CASE(line->number, no_reading(reading_of(line->record, line->length, 0, 0, count.count + past), HB_REFUSAL_ARGUMENT));
        CHECK_CASE(line->number, no_readings(line->record, line->length, 4, 0, HB_REFUSAL_ARGUMENT));
        CHECK_CASE(line->number, no_readings(line->record, line->length, 0, 2, HB_REFUSAL_ARGUMENT));
    }
}

/* Every reading of hands, in order, with what it is worth; a hand without any; refusals 8, 1 to 5 before the 8 of a number. */
void readings_of_hands(void)
{
    for (size_t n = 0; n < COUNT_OF(shown);) {
        const struct line *line = numbered(shown[n].line);
        uint8_t winner = hb_read(line->record, line->length).hand.fields.winner;
        size_t count = 1;
        while (n + count < COUNT_OF(shown) && shown[n + count].line == shown[n].line)
            count++;
        CHECK_CASE(line->number, count_of(line->record, line->length, 0, 0).count == count);
        for (size_t k = 0; k < count; k++, n++) {
            HbReading given = reading_of(line->record, line->length, 0, 0, (uint32_t)k + 1);
            CHECK_CASE(100 * line->number + (int)k + 1, is_shown(&given, &shown[n], (uint32_t)count, winner));
        }
    }
    every_line();
    CHECK(no_reading(reading_of(numbered(12)->record, 13, 0, 0, 1), HB_REFUSAL_ARGUMENT));
    CHECK(count_of(numbered(12)->record, 13, 0, 0).count == 0 && count_of(numbered(12)->record, 13, 0, 0).refusal == 0);
    for (size_t n = 0; n < COUNT_OF(unsound); n++) {
        size_t length;
        uint8_t *record = unsound_record(n, &length);
        CHECK_CASE(n, no_readings(record, length, 0, 0, unsound[n].refusal));
        CHECK_CASE(n, no_readings(record, length, 4, 0, HB_REFUSAL_ARGUMENT));
        CHECK_CASE(n, no_readings(record, length, 0, 2, HB_REFUSAL_ARGUMENT));
        free(record);
    }
    for (int n = 0; n < 256; n++) {
        CHECK_CASE(n, hb_reading(table[0].record, 13, (uint8_t)n, 0, 1).refusal == (n > 3 ? HB_REFUSAL_ARGUMENT : 0));
        CHECK_CASE(n, hb_reading(table[0].record, 13, 0, (uint8_t)n, 1).refusal == (n > 1 ? HB_REFUSAL_ARGUMENT : 0));
        CHECK_CASE(n, hb_reading_count(table[0].record, 13, (uint8_t)n, 0).refusal == (n > 3 ? HB_REFUSAL_ARGUMENT : 0));
        CHECK_CASE(n, hb_reading_count(table[0].record, 13, 0, (uint8_t)n).refusal == (n > 1 ? HB_REFUSAL_ARGUMENT : 0));
    }
}
