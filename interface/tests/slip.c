/* Slip. */
#include "check.h"

/* The slips of lines 1 and 9, byte by byte. */
static const struct {
    int line;
    const char *text;
} slips[] = {
    {1, "HAN                    2\n"
        "FU                    30\n"
        "SEAT 0                 0\n"
        "SEAT 1              2000\n"
        "SEAT 2                 0\n"
        "SEAT 3             -2000\n"},
    {9, "HAN              YAKUMAN\n"
        "FU                     0\n"
        "SEAT 0            -16000\n"
        "SEAT 1             32000\n"
        "SEAT 2             -8000\n"
        "SEAT 3             -8000\n"},
};

/* A slip on a page of a length; whether it gives this refusal, with that text at the start of the page and the rest as it was. */
static int slipped(const uint8_t *record, size_t record_len, uint8_t dealer, uint8_t wind, size_t length, uint8_t refusal, const char *text)
{
    uint8_t wanted[200];
    memset(wanted, 0x5a, sizeof wanted);
    uint8_t *page = exact(wanted, length);
    memcpy(wanted, text, strlen(text));
    uint8_t given = hb_slip(record, record_len, dealer, wind, page, length);
    int same = given == refusal && memcmp(page, wanted, length) == 0;
    free(page);
    return same;
}

/* Two slips; refusals 8, 1 to 7 and 16 in order; bytes past 150, and a page that is too short, stay. */
void slips_of_hands(void)
{
    for (size_t n = 0; n < COUNT_OF(slips); n++) {
        const struct line *line = &table[slips[n].line - 1];
        CHECK_CASE(line->number, line->number == slips[n].line && strlen(slips[n].text) == HB_SLIP_LENGTH);
        for (size_t length = HB_SLIP_LENGTH; length <= 200; length++)
            CHECK_CASE(length, slipped(line->record, line->length, 0, 0, length, 0, slips[n].text));
        for (size_t length = 0; length < HB_SLIP_LENGTH; length++)
            CHECK_CASE(length, slipped(line->record, line->length, 0, 0, length, HB_REFUSAL_PAGE, ""));
    }
    for (size_t length = 0; length <= 200; length += 50) {
        CHECK_CASE(length, slipped(table[0].record, 13, 4, 0, length, HB_REFUSAL_ARGUMENT, ""));
        CHECK_CASE(length, slipped(table[0].record, 13, 0, 2, length, HB_REFUSAL_ARGUMENT, ""));
        CHECK_CASE(length, slipped(table[6].record, 12, 0, 0, length, HB_REFUSAL_NO_YAKU, ""));
        CHECK_CASE(length, slipped(table[9].record, 13, 0, 0, length, HB_REFUSAL_NO_READING, ""));
        for (size_t n = 0; n < COUNT_OF(unsound); n++) {
            size_t record_len;
            uint8_t *record = unsound_record(n, &record_len);
            CHECK_CASE(n, slipped(record, record_len, 0, 0, length, unsound[n].refusal, ""));
            CHECK_CASE(n, slipped(record, record_len, 4, 0, length, HB_REFUSAL_ARGUMENT, ""));
            free(record);
        }
    }
}
