/* Waits and Ready. */
#include "check.h"

/* Unfinished hands, and the kinds that they wait for. */
/* clang-format off */
static const struct {
    uint8_t length, hand[11], count, waits[13];
} unfinished[] = {
    {9, {0x20, 0x22, 0x0a, 0x31, 0x45, 0x18, 0x69, 0xcb, 0xb0}, 2, {22, 25}},                          /* chi 234m, 567m 22456p 67s */
    {11, {0x00, 0x00, 0x00, 0x21, 0x06, 0x20, 0xa3, 0x0e, 0x41, 0x04, 0x00}, 9, {0, 1, 2, 3, 4, 5, 6, 7, 8}}, /* 1112345678999m */
    {11, {0x00, 0x10, 0x4a, 0x29, 0x34, 0xdb, 0x8e, 0xbc, 0xfc, 0x10, 0x80},
     13, {0, 8, 9, 17, 18, 26, 27, 28, 29, 30, 31, 32, 33}},                                           /* 19m 19p 19s ESWNPFC */
    {11, {0x00, 0x00, 0x10, 0x42, 0x08, 0x30, 0xc4, 0x10, 0x51, 0x4a, 0x80}, 1, {21}},                 /* 1133557799m 22p 4s */
    {11, {0x00, 0x00, 0x00, 0x02, 0x0a, 0x31, 0x45, 0x98, 0x71, 0xe8, 0x00}, 0, {0}},                  /* 1111567m 234678p: a fifth 1m */
    {9, {0x3a, 0xc0, 0x02, 0x10, 0x62, 0x0a, 0x8a, 0x2a, 0xae}, 0, {0}},      /* closed kan 5555s, 123456m 99p 46s: the middle is in the kan */
    {8, {0x48, 0x00, 0x25, 0x14, 0x61, 0xab, 0xb0, 0xc8}, 2, {11, 14}},       /* pon 111m, chi 234m, 2245p 678s */
    {7, {0x6b, 0x71, 0x40, 0xca, 0x2a, 0xb2, 0xe0}, 2, {20, 23}},             /* pon EEE, kan 2222p, chi 789m, 3456s */
    {6, {0x9a, 0xc8, 0x08, 0x28, 0x4d, 0x80}, 1, {27}},                       /* closed kan 5555s, pon 111m, 222m, 333m, E */
};
/* clang-format on */

/* The first of them, damaged. */
static const struct {
    uint8_t refusal, hand[9];
} unfit[] = {
    {HB_REFUSAL_LENGTH, {0xa0, 0x22, 0x0a, 0x31, 0x45, 0x18, 0x69, 0xcb, 0xb0}},     /* m 5 */
    {HB_REFUSAL_LENGTH, {0xe0, 0x22, 0x0a, 0x31, 0x45, 0x18, 0x69, 0xcb, 0xb0}},     /* m 7 */
    {HB_REFUSAL_LENGTH, {0x40, 0x22, 0x0a, 0x31, 0x45, 0x18, 0x69, 0xcb, 0xb0}},     /* m 2 */
    {HB_REFUSAL_FIELD, {0x20, 0x22, 0x0a, 0x31, 0x45, 0x18, 0x69, 0xcb, 0xc4}},      /* a concealed tile 34 */
    {HB_REFUSAL_FIELD, {0x2c, 0x42, 0x0a, 0x31, 0x45, 0x18, 0x69, 0xcb, 0xb0}},      /* a pon of 34 */
    {HB_REFUSAL_FIELD, {0x20, 0xe2, 0x0a, 0x31, 0x45, 0x18, 0x69, 0xcb, 0xb0}},      /* a chi from 8m */
    {HB_REFUSAL_FIELD, {0x23, 0x62, 0x0a, 0x31, 0x45, 0x18, 0x69, 0xcb, 0xb0}},      /* a chi from East */
    {HB_REFUSAL_FIELD, {0x20, 0x22, 0x0a, 0x31, 0x45, 0x18, 0x69, 0xcb, 0xb1}},      /* a padding bit */
    {HB_REFUSAL_FIELD, {0x20, 0x31, 0x08, 0x31, 0x45, 0x18, 0x69, 0xcb, 0xb0}},      /* 34 before a lower tile: 2 comes before 3 */
    {HB_REFUSAL_DESCENDING, {0x20, 0x22, 0x88, 0x31, 0x45, 0x18, 0x69, 0xcb, 0xb0}}, /* 657m */
    {HB_REFUSAL_DESCENDING, {0x29, 0x42, 0x88, 0x31, 0x45, 0x18, 0x69, 0xcb, 0xb0}}, /* and five 2p: 3 comes before 4 */
    {HB_REFUSAL_OVER_FOUR, {0x29, 0x42, 0x0a, 0x31, 0x45, 0x18, 0x69, 0xcb, 0xb0}},  /* pon 222p and 22p */
    {HB_REFUSAL_OVER_FOUR, {0x31, 0x42, 0x0a, 0x31, 0x45, 0x98, 0x69, 0xcb, 0xb0}},  /* kan 2222p and 2p */
};

/* The answer for a hand and discards, each in memory of just its length. */
static HbWaits waits_of(const uint8_t *hand, size_t hand_len, const uint8_t *discards, size_t discards_len)
{
    uint8_t *hand_copy = exact(hand, hand_len), *discards_copy = exact(discards, discards_len);
    HbWaits waits = hb_waits(hand_copy, hand_len, discards_copy, discards_len);
    CHECK(memcmp(hand_copy, hand, hand_len) == 0 && memcmp(discards_copy, discards, discards_len) == 0);
    free(discards_copy);
    free(hand_copy);
    return waits;
}

int no_waits(HbWaits waits, uint8_t refusal)
{
    HbWaits wanted = {0};
    wanted.refusal = refusal;
    return memcmp(&waits, &wanted, sizeof wanted) == 0;
}

/* Waits; furiten by each kind at the start, the end and the middle of the discards; refusals 1 to 4 and 15 in order. */
void waits_of_hands(void)
{
    static const uint8_t over[3] = {0, 34, 0};
    for (size_t n = 0; n < COUNT_OF(unfinished); n++) {
        HbWaits wanted = {0};
        for (size_t i = 0; i < unfinished[n].count; i++)
            wanted.waits[unfinished[n].waits[i]] = true;
        HbWaits waits = waits_of(unfinished[n].hand, unfinished[n].length, over, 0);
        CHECK_CASE(n, memcmp(&waits, &wanted, sizeof wanted) == 0);
        for (size_t length = 0; length <= 14; length++) {
            uint8_t longer[14] = {0};
            memcpy(longer, unfinished[n].hand, 11);
            CHECK_CASE(n, length == unfinished[n].length || no_waits(waits_of(longer, length, over, 3), HB_REFUSAL_LENGTH));
        }
        uint8_t other = 0, discards[30]; /* other: a kind that is no wait */
        while (wanted.waits[other])
            other++;
        for (int kind = 0; kind < 256; kind++) {
            for (size_t at = 0; at < 30; at += at == 15 ? 14 : 15) {
                memset(discards, other, sizeof discards);
                discards[at] = (uint8_t)kind;
                waits = waits_of(unfinished[n].hand, unfinished[n].length, discards, 30);
                if (kind > 33) {
                    CHECK_CASE(kind, no_waits(waits, HB_REFUSAL_DISCARD));
                    continue;
                }
                wanted.furiten = wanted.waits[kind];
                CHECK_CASE(kind, memcmp(&waits, &wanted, sizeof wanted) == 0);
            }
        }
    }
    for (size_t n = 0; n < COUNT_OF(unfit); n++) {
        CHECK_CASE(n, no_waits(waits_of(unfit[n].hand, 9, over, 0), unfit[n].refusal));
        CHECK_CASE(n, no_waits(waits_of(unfit[n].hand, 9, over, 3), unfit[n].refusal));
    }
}

/* Unfinished hands that are not ready, and how many swaps they need. */
static const struct {
    uint8_t length, hand[11], swaps;
} unready[] = {
    {11, {0x00, 0x00, 0x00, 0x01, 0x86, 0x30, 0xc5, 0x14, 0x69, 0xa8, 0x00}, 2}, /* 1111m 44m 77m 22p 55p 8p: 1m is no two pairs */
    {6, {0x88, 0x89, 0x29, 0x49, 0x62, 0x00}, 1},                                /* pon 555m, 111p, 222p, 333p, 5m: a fifth 5m */
    {11, {0x00, 0x06, 0x31, 0x46, 0xa0, 0xa2, 0xed, 0x36, 0xe3, 0xaf, 0x00}, 6}, /* 147m 258p 369s ESWN */
    {11, {0x00, 0x00, 0x00, 0x02, 0x0a, 0x31, 0x45, 0x98, 0x71, 0xe8, 0x00}, 1}, /* 1111567m 234678p: a fifth 1m */
    {9, {0x3a, 0xc0, 0x02, 0x10, 0x62, 0x0a, 0x8a, 0x2a, 0xae}, 1},              /* closed kan 5555s, 123456m 99p 46s */
};

/* The melds of an unfinished hand, and a concealed tile of it. */
static size_t melds_of(const uint8_t *hand) { return hand[0] >> 5; }

static uint8_t tile_of(const uint8_t *hand, size_t i)
{
    uint8_t tile = 0;
    for (size_t bit = 3 + 8 * melds_of(hand) + 6 * i, end = bit + 6; bit < end; bit++)
        tile = (uint8_t)(tile << 1 | (hand[bit / 8] >> (7 - bit % 8) & 1));
    return tile;
}

/* The answer for a hand in memory of just its length. */
static HbReady ready_of(const uint8_t *hand, size_t length)
{
    uint8_t *copy = exact(hand, length);
    HbReady ready = hb_ready(copy, length);
    CHECK(memcmp(copy, hand, length) == 0);
    free(copy);
    return ready;
}

int no_ready(HbReady ready, uint8_t refusal)
{
    HbReady wanted = {0};
    wanted.refusal = refusal;
    return memcmp(&ready, &wanted, sizeof wanted) == 0;
}

/* Whether the hand given needs so many swaps by the answer, and the answer's hand is sound, waits for a kind, and lacks so many of its tiles. */
static int is_ready_after(const uint8_t *hand, size_t length, uint8_t swaps)
{
    HbReady ready = ready_of(hand, length);
    size_t tiles = 13 - 3 * melds_of(hand), some = 0, lacking = 0;
    int more[64] = {0};
    uint8_t near[11];
    memcpy(near, hand, length);
    for (size_t i = 0; i < tiles; i++) {
        more[tile_of(hand, i)]++, more[ready.hand[i] % 64]--;
        for (size_t at = 0, bit = 3 + 8 * melds_of(hand) + 6 * i; at < 6; at++, bit++) {
            near[bit / 8] &= (uint8_t) ~(0x80 >> bit % 8);
            near[bit / 8] |= (uint8_t)((ready.hand[i] >> (5 - at) & 1) << (7 - bit % 8));
        }
    }
    for (size_t i = tiles; i < 13; i++)
        if (ready.hand[i] != 0)
            return 0;
    HbWaits waits = hb_waits(near, length, near, 0);
    for (size_t kind = 0; kind < 34; kind++)
        some += waits.waits[kind], lacking += more[kind] > 0 ? (size_t)more[kind] : 0;
    return ready.refusal == 0 && ready.swaps == swaps && lacking == swaps && waits.refusal == 0 && some > 0;
}

/* Ready: swaps and a hand that near; refusals 1 to 4 in order. */
void ready_hands(void)
{
    for (size_t n = 0; n < COUNT_OF(unready); n++)
        CHECK_CASE(n, is_ready_after(unready[n].hand, unready[n].length, unready[n].swaps));
    for (size_t n = 0; n < COUNT_OF(unfinished); n++) {
        CHECK_CASE(n, unfinished[n].count == 0 || is_ready_after(unfinished[n].hand, unfinished[n].length, 0));
        for (size_t length = 0; length <= 14; length++) {
            uint8_t longer[14] = {0};
            memcpy(longer, unfinished[n].hand, 11);
            CHECK_CASE(n, length == unfinished[n].length || no_ready(ready_of(longer, length), HB_REFUSAL_LENGTH));
        }
    }
    for (size_t n = 0; n < COUNT_OF(unfit); n++)
        CHECK_CASE(n, no_ready(ready_of(unfit[n].hand, 9), unfit[n].refusal));
}
