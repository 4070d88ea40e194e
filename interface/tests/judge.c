/* Judge. */
#include "check.h"

/* Claims for lines of the table, dealer 0, East, byte by byte, and what Judge gives. */
static const struct {
    int line;
    uint8_t length, claim[8], refusal, verdict;
} claims[] = {
    {5, 7, {0x16, 0x00, 0x00, 0x78, 0xf0, 0x14, 0x50}, 0, HB_VERDICT_ACCEPTED},   /* 55s 123m 123m 789p 789p, the pair, 5,200 */
    {5, 7, {0x16, 0x00, 0x00, 0x78, 0xf2, 0x14, 0x50}, 0, HB_VERDICT_READING},    /* the first 123m, which has no 5s */
    {5, 7, {0x16, 0x00, 0x00, 0x78, 0xf0, 0x14, 0x51}, 0, HB_VERDICT_GAIN},       /* 5,201 */
    {7, 7, {0x11, 0x18, 0x4c, 0xc3, 0x01, 0xf4, 0x00}, 0, HB_VERDICT_YAKU},       /* 99p 456p 234s 789s by 9s, no yaku */
    {5, 3, {0x40, 0xd4, 0x80}, 0, HB_VERDICT_GAIN},                               /* seven pairs for 1,700 */
    {5, 3, {0x40, 0xc8, 0x00}, 0, HB_VERDICT_MORE},                               /* seven pairs for its 1,600 */
    {5, 3, {0x80, 0xc8, 0x00}, 0, HB_VERDICT_READING},                            /* orphans */
    {7, 3, {0x40, 0xc8, 0x00}, 0, HB_VERDICT_READING},                            /* seven pairs with a meld */
    {105, 3, {0x8f, 0xa0, 0x00}, 0, HB_VERDICT_ACCEPTED},                         /* orphans for 32,000 */
    {102, 5, {0x1f, 0x06, 0x45, 0xdc, 0x00}, 0, HB_VERDICT_ACCEPTED},             /* three melds: white pair, 456m, 12,000 */
    {106, 7, {0x1a, 0x00, 0x00, 0x00, 0xc2, 0x07, 0xd0}, 0, HB_VERDICT_ACCEPTED}, /* equal runs: each place pays 2,000 */
    {106, 7, {0x1a, 0x00, 0x00, 0x00, 0xc6, 0x07, 0xd0}, 0, HB_VERDICT_ACCEPTED},
    {5, 0, {0}, HB_REFUSAL_CLAIM, 0}, /* another length */
    {5, 6, {0x16, 0x00, 0x00, 0x78, 0xf0, 0x14}, HB_REFUSAL_CLAIM, 0},
    {5, 8, {0x16, 0x00, 0x00, 0x78, 0xf0, 0x14, 0x50, 0x00}, HB_REFUSAL_CLAIM, 0},
    {5, 2, {0x40, 0xc8}, HB_REFUSAL_CLAIM, 0},
    {5, 4, {0x40, 0xc8, 0x00, 0x00}, HB_REFUSAL_CLAIM, 0},
    {5, 3, {0xc0, 0xc8, 0x00}, HB_REFUSAL_CLAIM, 0},                         /* shape 3 */
    {5, 7, {0x22, 0x00, 0x00, 0x78, 0xf0, 0x14, 0x50}, HB_REFUSAL_CLAIM, 0}, /* pair 34 */
    {5, 7, {0x16, 0x00, 0x00, 0x79, 0x00, 0x14, 0x50}, HB_REFUSAL_CLAIM, 0}, /* code 16, a run from 8p */
    {5, 7, {0x16, 0x00, 0x00, 0x7c, 0x40, 0x14, 0x50}, HB_REFUSAL_CLAIM, 0}, /* code 68, past the triplets */
    {5, 7, {0x16, 0x00, 0x00, 0x7f, 0xf0, 0x14, 0x50}, HB_REFUSAL_CLAIM, 0}, /* code 127 */
    {5, 7, {0x16, 0x00, 0x3c, 0x00, 0xf0, 0x14, 0x50}, HB_REFUSAL_CLAIM, 0}, /* codes 0, 15, 0, 15 */
    {5, 7, {0x16, 0x00, 0x00, 0x78, 0xfa, 0x14, 0x50}, HB_REFUSAL_CLAIM, 0}, /* place 5 */
    {7, 7, {0x11, 0x18, 0x4c, 0xc4, 0x01, 0xf4, 0x00}, HB_REFUSAL_CLAIM, 0}, /* place 4 with one meld */
    {5, 3, {0x40, 0xc8, 0x01}, HB_REFUSAL_CLAIM, 0},                         /* a padding bit set */
    {7, 7, {0x11, 0x18, 0x4c, 0xc3, 0x01, 0xf4, 0x40}, HB_REFUSAL_CLAIM, 0},
};

/* Whether Judge gives this refusal and verdict; record and claim stand in blocks of their very lengths. */
static int judged(const uint8_t *record, size_t record_len, const uint8_t *claim, size_t claim_len, uint8_t dealer, uint8_t wind,
                  uint8_t refusal, uint8_t verdict)
{
    uint8_t *own = exact(record, record_len), *lent = exact(claim, claim_len);
    HbJudged given = hb_judge(own, record_len, lent, claim_len, dealer, wind);
    free(own);
    free(lent);
    return given.refusal == refusal && given.verdict == verdict;
}

/* Each verdict and each fault of a claim; refusals 8 and 1 to 5 before 22. */
void claims_of_hands(void)
{
    for (size_t n = 0; n < COUNT_OF(claims); n++) {
        const struct line *line = numbered(claims[n].line);
        const uint8_t *claim = claims[n].claim;
        size_t length = claims[n].length;
        CHECK_CASE(n, judged(line->record, line->length, claim, length, 0, 0, claims[n].refusal, claims[n].verdict));
        CHECK_CASE(n, judged(line->record, line->length, claim, length, 4, 0, HB_REFUSAL_ARGUMENT, 0));
        CHECK_CASE(n, judged(line->record, line->length, claim, length, 0, 2, HB_REFUSAL_ARGUMENT, 0));
        for (size_t k = 0; k < COUNT_OF(unsound); k++) {
            size_t record_len;
            uint8_t *record = unsound_record(k, &record_len);
            CHECK_CASE(k, judged(record, record_len, claim, length, 0, 0, unsound[k].refusal, 0));
            free(record);
        }
    }
}
