/* Write claim. */
#include "check.h"

/* What is to be claimed, and its bytes. */
static const struct {
    HbClaim claim;
    uint8_t length, bytes[7];
} written[] = {
    {{5200, HB_SHAPE_REGULAR, 22, {0, 0, 15, 15}, 0, 0}, 7, {0x16, 0x00, 0x00, 0x78, 0xf0, 0x14, 0x50}},                  /* 55s 123m 123m 789p 789p, the pair, 5,200 */
    {{1000, HB_SHAPE_REGULAR, 17, {12, 19, 24, HB_NO_GROUP}, 3, 1}, 7, {0x11, 0x18, 0x4c, 0xc3, 0x01, 0xf4, 0x00}},       /* a meld: 99p 456p 234s 789s, 789s, 1,000 */
    {{18000, HB_SHAPE_REGULAR, 17, {0, 9, HB_NO_GROUP, HB_NO_GROUP}, 2, 2}, 6, {0x11, 0x00, 0x25, 0x11, 0x94, 0x00}},     /* two: 99p 123m 123p, 123p, 18,000 */
    {{12000, HB_SHAPE_REGULAR, 31, {3, HB_NO_GROUP, HB_NO_GROUP, HB_NO_GROUP}, 1, 3}, 5, {0x1f, 0x06, 0x45, 0xdc, 0x00}}, /* three: white pair, 456m, 12,000 */
    {{32000, HB_SHAPE_REGULAR, 33, NO_GROUPS, 0, 4}, 4, {0x21, 0x07, 0xd0, 0x00}},                                        /* four: chun pair, 32,000 */
    {{1600, HB_SHAPE_SEVEN_PAIRS, HB_NO_PAIR, NO_GROUPS, 0, 0}, 3, {0x40, 0xc8, 0x00}},                                   /* seven pairs for 1,600 */
    {{32000, HB_SHAPE_ORPHANS, HB_NO_PAIR, NO_GROUPS, 0, 0}, 3, {0x8f, 0xa0, 0x00}},                                      /* orphans for 32,000 */
    {{131071, HB_SHAPE_SEVEN_PAIRS, HB_NO_PAIR, NO_GROUPS, 0, 4}, 3, {0x7f, 0xff, 0xe0}},                                 /* the highest gain; for every m */
    {{0, HB_SHAPE_REGULAR, 0, {67, 67, 67, 67}, 4, 0}, 7, {0x00, 0x87, 0x0e, 0x1c, 0x38, 0x00, 0x00}},                    /* no tiles have it, and bytes name it */
};

/* One that no bytes name: the first of those above (0) or the fourth (3) or the sixth (5), with another part. */
static const struct {
    int of;
    HbClaim claim;
} unnamed[] = {
    {5, {1600, 3, HB_NO_PAIR, NO_GROUPS, 0, 0}}, /* shape 3 and more */
    {5, {1600, 4, HB_NO_PAIR, NO_GROUPS, 0, 0}},
    {5, {1600, 255, HB_NO_PAIR, NO_GROUPS, 0, 0}},
    {5, {1600, HB_SHAPE_REGULAR, HB_NO_PAIR, NO_GROUPS, 0, 0}}, /* the other shape */
    {0, {5200, HB_SHAPE_SEVEN_PAIRS, 22, {0, 0, 15, 15}, 0, 0}},
    {5, {1600, HB_SHAPE_SEVEN_PAIRS, 33, NO_GROUPS, 0, 0}}, /* seven pairs with a pair, a place, a group */
    {5, {1600, HB_SHAPE_SEVEN_PAIRS, HB_NO_PAIR, NO_GROUPS, 1, 0}},
    {5, {1600, HB_SHAPE_SEVEN_PAIRS, HB_NO_PAIR, {0, HB_NO_GROUP, HB_NO_GROUP, HB_NO_GROUP}, 0, 0}},
    {5, {1600, HB_SHAPE_ORPHANS, HB_NO_PAIR, {HB_NO_GROUP, HB_NO_GROUP, HB_NO_GROUP, 67}, 0, 0}},
    {0, {5200, HB_SHAPE_REGULAR, HB_NO_PAIR, {0, 0, 15, 15}, 0, 0}}, /* a pair over 33 */
    {0, {5200, HB_SHAPE_REGULAR, 64, {0, 0, 15, 15}, 0, 0}},
    {0, {5200, HB_SHAPE_REGULAR, 22, {0, 0, 15, 16}, 0, 0}}, /* a code that names no group */
    {0, {5200, HB_SHAPE_REGULAR, 22, {0, 0, 15, 33}, 0, 0}},
    {0, {5200, HB_SHAPE_REGULAR, 22, {0, 0, 15, HB_NO_GROUP}, 0, 0}},
    {0, {5200, HB_SHAPE_REGULAR, 22, {0, 0, 15, 143}, 0, 0}},
    {0, {5200, HB_SHAPE_REGULAR, 22, {0, 15, 0, 15}, 0, 0}}, /* descending codes */
    {0, {5200, HB_SHAPE_REGULAR, 22, {15, 0, 0, 15}, 0, 0}},
    {0, {5200, HB_SHAPE_REGULAR, 22, {0, 0, 15, 15}, 5, 0}}, /* a place over 4 - m */
    {0, {5200, HB_SHAPE_REGULAR, 22, {0, 0, 15, 15}, 8, 0}},
    {3, {12000, HB_SHAPE_REGULAR, 31, {3, HB_NO_GROUP, HB_NO_GROUP, HB_NO_GROUP}, 2, 3}},
    {3, {12000, HB_SHAPE_REGULAR, 31, {3, 4, HB_NO_GROUP, HB_NO_GROUP}, 1, 3}}, /* a group where a meld stands, and none where it does not */
    {3, {12000, HB_SHAPE_REGULAR, 31, NO_GROUPS, 0, 3}},
    {3, {12000, HB_SHAPE_REGULAR, 31, {HB_NO_GROUP, 3, HB_NO_GROUP, HB_NO_GROUP}, 1, 3}},
    {0, {131072, HB_SHAPE_REGULAR, 22, {0, 0, 15, 15}, 0, 0}}, /* a gain of 18 bits and more */
    {5, {131072, HB_SHAPE_SEVEN_PAIRS, HB_NO_PAIR, NO_GROUPS, 0, 0}},
    {5, {4294967295u, HB_SHAPE_ORPHANS, HB_NO_PAIR, NO_GROUPS, 0, 0}},
    {0, {5200, HB_SHAPE_REGULAR, 22, {0, 0, 15, 15}, 0, 1}}, /* another m */
    {3, {12000, HB_SHAPE_REGULAR, 31, {3, HB_NO_GROUP, HB_NO_GROUP, HB_NO_GROUP}, 1, 2}},
    {3, {12000, HB_SHAPE_REGULAR, 31, {3, HB_NO_GROUP, HB_NO_GROUP, HB_NO_GROUP}, 1, 4}},
    {5, {1600, HB_SHAPE_SEVEN_PAIRS, HB_NO_PAIR, NO_GROUPS, 0, 5}}, /* m over 4 */
    {3, {12000, HB_SHAPE_REGULAR, 31, {3, HB_NO_GROUP, HB_NO_GROUP, HB_NO_GROUP}, 1, 5}},
    {5, {1600, HB_SHAPE_SEVEN_PAIRS, HB_NO_PAIR, NO_GROUPS, 0, 255}},
};

/* Whether a claim in a buffer of a length is refused so, and every byte stays. */
static int claim_refused(HbClaim claim, size_t length, uint8_t refusal)
{
    uint8_t before[8];
    memset(before, 0x5a, sizeof before);
    uint8_t *buffer = exact(before, length);
    HbWritten given = hb_write_claim(claim, buffer, length);
    int stays = memcmp(buffer, before, length) == 0;
    free(buffer);
    return given.refusal == refusal && given.len == 0 && stays;
}

/* Whether it is written so in a buffer of a length, and the bytes past it stay. */
static int claim_written(HbClaim claim, size_t length, const uint8_t *bytes, size_t bytes_len)
{
    uint8_t wanted[9];
    memset(wanted, 0x5a, sizeof wanted);
    uint8_t *buffer = exact(wanted, length);
    HbWritten given = hb_write_claim(claim, buffer, length);
    memcpy(wanted, bytes, bytes_len);
    int same = memcmp(buffer, wanted, length) == 0;
    free(buffer);
    return given.refusal == HB_ACCEPTED && given.len == bytes_len && same;
}

/* Claims byte by byte, in buffers of every length; what no bytes name, in any; each reading of the table, passed on as it is shown, and judged. */
void claim_writer(void)
{
    for (size_t n = 0; n < COUNT_OF(written); n++) {
        HbClaim claim = written[n].claim;
        size_t needed = written[n].length;
        for (size_t length = 0; length < needed; length++)
            CHECK_CASE(n, claim_refused(claim, length, HB_REFUSAL_BUFFER));
        for (size_t length = needed; length <= 9; length++)
            CHECK_CASE(n, claim_written(claim, length, written[n].bytes, needed));
    }
    for (size_t n = 0; n < COUNT_OF(unnamed); n++) {
        HbClaim sound = written[unnamed[n].of].claim;
        CHECK_CASE(n, memcmp(&sound, &unnamed[n].claim, sizeof sound) != 0);
        for (size_t length = 0; length <= 8; length++)
            CHECK_CASE(n, claim_refused(unnamed[n].claim, length, HB_REFUSAL_CLAIM));
    }
    for (size_t n = 0; n < COUNT_OF(table); n++) {
        const uint8_t *record = table[n].record;
        size_t record_len = table[n].length;
        uint8_t m = hb_read(record, record_len).hand.held.m;
        uint32_t count = hb_reading_count(record, record_len, 0, 0).count, most = 0;
        for (uint32_t k = 1; k <= count; k++) {
            uint32_t gain = hb_reading(record, record_len, 0, 0, k).gain;
            most = gain > most ? gain : most;
        }
        for (uint32_t k = 1; k <= count; k++) {
            HbReading shown = hb_reading(record, record_len, 0, 0, k);
            HbClaim claim = {shown.gain, shown.shape, shown.pair, {shown.groups[0], shown.groups[1], shown.groups[2], shown.groups[3]}, shown.place, m};
            uint8_t bytes[HB_CLAIM_MAX];
            HbWritten given = hb_write_claim(claim, bytes, sizeof bytes);
            CHECK_CASE(table[n].number, given.refusal == HB_ACCEPTED && given.len <= HB_CLAIM_MAX);
            HbJudged judged = hb_judge(record, record_len, bytes, given.len, 0, 0);
            int verdict = shown.gain == 0 ? HB_VERDICT_YAKU : shown.gain < most ? HB_VERDICT_MORE
                                                                                : HB_VERDICT_ACCEPTED;
            CHECK_CASE(table[n].number, judged.refusal == HB_ACCEPTED && judged.verdict == verdict);
            claim.gain++;
            given = hb_write_claim(claim, bytes, sizeof bytes);
            judged = hb_judge(record, record_len, bytes, given.len, 0, 0);
            CHECK_CASE(table[n].number, judged.refusal == HB_ACCEPTED && judged.verdict == (shown.gain == 0 ? HB_VERDICT_YAKU : HB_VERDICT_GAIN));
        }
    }
}
