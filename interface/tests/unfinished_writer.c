/* Both writers of an unfinished hand: from the tiles held, and from a record without its winning tile. */
#include "check.h"

/* Tiles held with 0 to 4 melds, and their bytes. */
/* clang-format off */
static const struct {
    HbHeld held;
    uint8_t length, bytes[11];
} hands[] = {
    {{0, {0}, {0, 0, 0, 1, 2, 3, 4, 5, 6, 7, 8, 8, 8}},
     11, {0x00, 0x00, 0x00, 0x21, 0x06, 0x20, 0xa3, 0x0e, 0x41, 0x04, 0x00}},                         /* 1112345678999m */
    {{1, {HB_MELD(HB_MELD_CHI, HB_MAN + 1)}, {4, 5, 6, 10, 10, 12, 13, 14, 23, 24}},
     9, {0x20, 0x22, 0x0a, 0x31, 0x45, 0x18, 0x69, 0xcb, 0xb0}},                                      /* chi 234m, 567m 22456p 67s */
    {{2, {HB_MELD(HB_MELD_PON, HB_MAN), HB_MELD(HB_MELD_CHI, HB_MAN + 1)}, {10, 10, 12, 13, 23, 24, 25}},
     8, {0x48, 0x00, 0x25, 0x14, 0x61, 0xab, 0xb0, 0xc8}},                                            /* pon 111m, chi 234m, 2245p 678s */
    {{3, {HB_MELD(HB_MELD_PON, HB_EAST), HB_MELD(HB_MELD_OPEN_KAN, HB_PIN + 1), HB_MELD(HB_MELD_CHI, HB_MAN + 6)}, {20, 21, 22, 23}},
     7, {0x6b, 0x71, 0x40, 0xca, 0x2a, 0xb2, 0xe0}},                                                  /* pon EEE, kan 2222p, chi 789m, 3456s */
    {{4, {HB_MELD(HB_MELD_CLOSED_KAN, HB_SOU + 4), HB_MELD(HB_MELD_PON, HB_MAN), HB_MELD(HB_MELD_PON, HB_MAN + 1),
          HB_MELD(HB_MELD_PON, HB_MAN + 2)}, {HB_EAST}},
     6, {0x9a, 0xc8, 0x08, 0x28, 0x4d, 0x80}},                                                        /* closed kan 5555s, pon 111m, 222m, 333m, E */
};
/* clang-format on */

/* Whether an answer is this refusal and 0. */
static int refused(HbWritten written, uint8_t refusal)
{
    return written.refusal == refusal && written.len == 0;
}

/* Writes tiles held to a buffer of each length up to 16: whether all give this refusal and no byte changes. */
static int always_refused(HbHeld held, uint8_t refusal)
{
    for (size_t length = 0; length <= 16; length++) {
        uint8_t before[16];
        memset(before, 0x5a, sizeof before);
        uint8_t *buffer = exact(before, length);
        HbWritten written = hb_write_unfinished(held, buffer, length);
        int stays = memcmp(buffer, before, length) == 0;
        free(buffer);
        if (!refused(written, refusal) || !stays)
            return 0;
    }
    return 1;
}

/* The bytes of each, in buffers of every length; bytes past them stay, and they are read. */
static void written_hands(void)
{
    for (size_t n = 0; n < COUNT_OF(hands); n++) {
        uint8_t before[16], wanted[16];
        memset(before, 0x5a, sizeof before);
        memcpy(wanted, before, sizeof wanted);
        memcpy(wanted, hands[n].bytes, hands[n].length);
        CHECK_CASE(n, hands[n].length == HB_UNFINISHED_LENGTH(hands[n].held.m) && hands[n].length <= HB_UNFINISHED_MAX);
        for (size_t length = 0; length <= 16; length++) {
            uint8_t *buffer = exact(before, length);
            HbWritten written = hb_write_unfinished(hands[n].held, buffer, length);
            if (length < hands[n].length) {
                CHECK_CASE(length, refused(written, HB_REFUSAL_BUFFER) && memcmp(buffer, before, length) == 0);
            } else {
                CHECK_CASE(length, written.refusal == 0 && written.len == hands[n].length && memcmp(buffer, wanted, length) == 0);
                CHECK_CASE(length, hb_waits(buffer, written.len, before, 0).refusal == 0);
            }
            free(buffer);
        }
    }
}

/* Refusals 2, 3 and 4, whatever the buffer's length: they come before 13. */
static void refused_hands(void)
{
    const HbHeld sound = hands[1].held;
    HbHeld held;
    held = sound, held.m = 5;
    CHECK(always_refused(held, HB_REFUSAL_FIELD));
    held = sound, held.m = 255;
    CHECK(always_refused(held, HB_REFUSAL_FIELD));
    held = sound, held.melds[1] = 1;
    CHECK(always_refused(held, HB_REFUSAL_FIELD));
    held = sound, held.concealed[10] = 1;
    CHECK(always_refused(held, HB_REFUSAL_FIELD));
    held = sound, held.concealed[12] = 1;
    CHECK(always_refused(held, HB_REFUSAL_FIELD));
    held = sound, held.concealed[9] = 34;
    CHECK(always_refused(held, HB_REFUSAL_FIELD));
    held = sound, held.concealed[9] = 64 + 24;
    CHECK(always_refused(held, HB_REFUSAL_FIELD));
    held = sound, held.melds[0] = HB_MELD(HB_MELD_PON, 34);
    CHECK(always_refused(held, HB_REFUSAL_FIELD));
    held = sound, held.melds[0] = HB_MELD(HB_MELD_CHI, HB_MAN + 7);
    CHECK(always_refused(held, HB_REFUSAL_FIELD));
    held = sound, held.concealed[0] = 34;
    CHECK(always_refused(held, HB_REFUSAL_FIELD));
    held = sound, held.concealed[0] = HB_CHUN;
    CHECK(always_refused(held, HB_REFUSAL_DESCENDING));
    held = sound, held.concealed[0] = HB_CHUN, held.melds[0] = HB_MELD(HB_MELD_PON, HB_PIN + 1);
    CHECK(always_refused(held, HB_REFUSAL_DESCENDING));
    held = sound, held.melds[0] = HB_MELD(HB_MELD_PON, HB_PIN + 1);
    CHECK(always_refused(held, HB_REFUSAL_OVER_FOUR));
    held = sound, held.melds[0] = HB_MELD(HB_MELD_CLOSED_KAN, HB_SOU + 5);
    CHECK(always_refused(held, HB_REFUSAL_OVER_FOUR));
}

/* Each record of the table without its winning tile, which is then a wait; records that Read refuses. */
static void of_records(void)
{
    uint8_t before[16];
    memset(before, 0x5a, sizeof before);
    for (size_t n = 0; n < COUNT_OF(table); n++) {
        HbHand hand = hb_read(table[n].record, table[n].length).hand;
        uint8_t wanted[16];
        memcpy(wanted, before, sizeof wanted);
        size_t length = hb_write_unfinished(hand.held, wanted, sizeof wanted).len;
        CHECK_CASE(table[n].number, length == (size_t)HB_UNFINISHED_LENGTH(hand.held.m));
        for (size_t lent = 0; lent <= 16; lent++) {
            uint8_t *record = exact(table[n].record, table[n].length), *buffer = exact(before, lent);
            HbWritten written = hb_unfinished(record, table[n].length, buffer, lent);
            if (lent < length) {
                CHECK_CASE(table[n].number, refused(written, HB_REFUSAL_BUFFER) && memcmp(buffer, before, lent) == 0);
            } else {
                CHECK_CASE(table[n].number, written.refusal == 0 && written.len == length && memcmp(buffer, wanted, lent) == 0);
                HbWaits waits = hb_waits(buffer, written.len, before, 0);
                CHECK_CASE(table[n].number, waits.refusal == 0);
                CHECK_CASE(table[n].number, waits.waits[hand.fields.winning] == (table[n].refusal != HB_REFUSAL_NO_READING));
            }
            free(buffer);
            free(record);
        }
    }
    uint8_t six[9];
    HbWritten written = hb_unfinished(numbered(6)->record, 12, six, sizeof six);
    CHECK(written.refusal == 0 && written.len == 9 && memcmp(six, hands[1].bytes, 9) == 0);
    for (size_t n = 0; n < COUNT_OF(unsound); n++) {
        size_t length;
        uint8_t *record = unsound_record(n, &length);
        for (size_t lent = 0; lent <= 16; lent++) {
            uint8_t *buffer = exact(before, lent);
            CHECK_CASE(n, refused(hb_unfinished(record, length, buffer, lent), unsound[n].refusal) && memcmp(buffer, before, lent) == 0);
            free(buffer);
        }
        free(record);
    }
}

void unfinished_writer(void)
{
    written_hands();
    refused_hands();
    of_records();
}
