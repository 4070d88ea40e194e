/* Next entry. */
#include "check.h"

/* Whether an entry has these values. */
static int is_entry(HbNextEntry entry, uint8_t kind, uint8_t argument, uint8_t letter, size_t length)
{
    return entry.refusal == 0 && !entry.end && entry.kind == kind && entry.argument == argument && entry.letter == letter
           && entry.length == length;
}

int no_entry(HbNextEntry entry, uint8_t refusal)
{
    return entry.refusal == refusal && entry.end == (refusal == 0) && entry.kind == 0 && entry.argument == 0
           && entry.letter == 0 && entry.length == 0;
}

/* Entries of a log, the end, and each way to refusal 14. */
void entries(void)
{
    uint8_t log[15] = {0x10};
    memcpy(log + 1, table[0].record, 13);
    log[14] = 0x32;
    CHECK(is_entry(hb_log_next(log, 15, 0), HB_KIND_WIN, 0, HB_LETTER_WIN, 14));
    CHECK(is_entry(hb_log_next(log, 15, 14), HB_KIND_CHOMBO, 2, HB_LETTER_CHOMBO, 1));
    for (int argument = 0; argument < 16; argument++) {
        uint8_t small[] = {(uint8_t)argument, (uint8_t)(0x20 + argument), (uint8_t)(0x30 + argument)};
        CHECK_CASE(argument, is_entry(hb_log_next(small, 3, 0), HB_KIND_RIICHI, (uint8_t)argument, HB_LETTER_RIICHI, 1));
        CHECK_CASE(argument, is_entry(hb_log_next(small, 3, 1), HB_KIND_DRAW, (uint8_t)argument, HB_LETTER_DRAW, 1));
        CHECK_CASE(argument, is_entry(hb_log_next(small, 3, 2), HB_KIND_CHOMBO, (uint8_t)argument, HB_LETTER_CHOMBO, 1));
    }
    CHECK(no_entry(hb_log_next(log, 15, 15), 0));
    CHECK(no_entry(hb_log_next(log, 15, 16), 0));
    CHECK(no_entry(hb_log_next(log, 15, SIZE_MAX), 0));
    for (size_t length = 1; length < 14; length++) {
        uint8_t *cut = exact(log, length);
        CHECK_CASE(length, no_entry(hb_log_next(cut, length, 0), HB_REFUSAL_ENTRY));
        free(cut);
    }
    for (int kind = 4; kind < 16; kind++) {
        log[0] = (uint8_t)(16 * kind);
        CHECK_CASE(kind, kind == HB_KIND_PAO || no_entry(hb_log_next(log, 15, 0), HB_REFUSAL_ENTRY));
    }
    uint8_t rons[40] = {0};
    size_t behind[4] = {1};
    for (uint8_t n = 1; n <= 3; n++) { /* records of 13, 12 and 13 bytes */
        const struct line *line = numbered(n == 2 ? 6 : 1);
        memcpy(rons + behind[n - 1], line->record, line->length);
        behind[n] = behind[n - 1] + line->length;
        rons[0] = (uint8_t)(0x40 + n);
        CHECK_CASE(n, is_entry(hb_log_next(rons, sizeof rons, 0), HB_KIND_MULTI_RON, n, HB_LETTER_MULTI_RON, behind[n]));
        for (size_t length = 1; length <= behind[n]; length++) {
            uint8_t *cut = exact(rons, length);
            CHECK_CASE(length, length == behind[n] ? is_entry(hb_log_next(cut, length, 0), HB_KIND_MULTI_RON, n, HB_LETTER_MULTI_RON, length)
                                                   : no_entry(hb_log_next(cut, length, 0), HB_REFUSAL_ENTRY));
            free(cut);
        }
        for (uint8_t k = 0; k < n; k++) { /* m 5, 6 and 7 in each record */
            uint8_t two[] = {rons[behind[k] + 2], rons[behind[k] + 3]};
            for (uint8_t m = 5; m < 8; m++) {
                rons[behind[k] + 2] = (uint8_t)((two[0] & 0xfc) | m >> 1), rons[behind[k] + 3] = (uint8_t)((two[1] & 0x7f) | (m & 1) << 7);
                CHECK_CASE(m, no_entry(hb_log_next(rons, sizeof rons, 0), HB_REFUSAL_ENTRY));
            }
            rons[behind[k] + 2] = two[0], rons[behind[k] + 3] = two[1];
        }
    }
    for (int argument = 0; argument < 16; argument++) {
        rons[0] = (uint8_t)(0x40 + argument);
        CHECK_CASE(argument, (argument > 0 && argument < 4) || no_entry(hb_log_next(rons, sizeof rons, 0), HB_REFUSAL_ENTRY));
    }
    for (int byte = 0; byte < 256; byte++) {
        uint8_t pao[] = {0x50, (uint8_t)byte, 0x00}, *alone = exact(pao, 1);
        HbNextEntry entry = hb_log_next(pao, 3, 0);
        CHECK_CASE(byte, byte % 8 ? no_entry(entry, HB_REFUSAL_ENTRY) : is_entry(entry, HB_KIND_PAO, 0, HB_LETTER_PAO, 2));
        CHECK_CASE(byte, no_entry(hb_log_next(alone, 1, 0), HB_REFUSAL_ENTRY));
        free(alone);
        for (int argument = 1; argument < 16; argument++) {
            pao[0] = (uint8_t)(0x50 + argument);
            CHECK_CASE(argument, no_entry(hb_log_next(pao, 3, 0), HB_REFUSAL_ENTRY));
        }
    }
    for (int argument = 1; argument < 16; argument++) {
        log[0] = (uint8_t)(0x10 + argument);
        CHECK_CASE(argument, no_entry(hb_log_next(log, 15, 0), HB_REFUSAL_ENTRY));
    }
    log[0] = 0x10;
    log[3] = 0x66, log[4] = 0x82; /* m 5 */
    CHECK(no_entry(hb_log_next(log, 15, 0), HB_REFUSAL_ENTRY));
}

/* Entries of corrections: every cut, every argument, and every entry inside. */
void correction_entries(void)
{
    for (size_t n = 0; n < RESULTS; n++) {
        size_t whole = 2 + each_result()[n].length;
        uint8_t *entry = correction_entry(&each_result()[n]), longer[2 + 3 * 13 + 1] = {0};
        memcpy(longer, entry, whole);
        CHECK_CASE(n, is_entry(hb_log_next(longer, sizeof longer, 0), HB_KIND_CORRECTION, 0, HB_LETTER_CORRECTION, whole));
        for (size_t length = 1; length <= whole; length++) {
            uint8_t *cut = exact(entry, length);
            CHECK_CASE(length, length == whole ? is_entry(hb_log_next(cut, length, 0), HB_KIND_CORRECTION, 0, HB_LETTER_CORRECTION, length)
                                               : no_entry(hb_log_next(cut, length, 0), HB_REFUSAL_ENTRY));
            free(cut);
        }
        for (int argument = 1; argument < 16; argument++) {
            longer[0] = (uint8_t)(0x60 + argument);
            CHECK_CASE(argument, no_entry(hb_log_next(longer, sizeof longer, 0), HB_REFUSAL_ENTRY));
        }
        free(entry);
    }
    /* whatever stands inside: an entry of kind 1 to 4 alone, and what is refused of it alone is refused in a correction */
    for (int header = 0; header < 256; header++) {
        uint8_t log[2 + 3 * 13] = {0x60, (uint8_t)header};
        for (size_t k = 0; k < 3; k++)
            memcpy(log + 2 + 13 * k, table[0].record, 13);
        HbNextEntry inside = hb_log_next(log, sizeof log, 1), entry = hb_log_next(log, sizeof log, 0);
        int carried = inside.refusal == 0 && inside.kind >= HB_KIND_WIN && inside.kind <= HB_KIND_MULTI_RON;
        CHECK_CASE(header, carried ? is_entry(entry, HB_KIND_CORRECTION, 0, HB_LETTER_CORRECTION, 1 + inside.length)
                                   : no_entry(entry, HB_REFUSAL_ENTRY));
        HbGame game = hb_fresh_game(), before;
        CHECK_CASE(header, hb_draw(&game, HB_READY_BIT(0)) == 0);
        before = game;
        uint8_t refusal = hb_book_entry(&game, log, sizeof log);
        CHECK_CASE(header, (refusal == HB_REFUSAL_ENTRY) == !carried && (refusal == 0 || memcmp(&game, &before, sizeof game) == 0));
    }
    uint8_t m_5[15] = {0x60, 0x10};
    memcpy(m_5 + 2, table[0].record, 13), m_5[4] = 0x66, m_5[5] = 0x82;
    CHECK(no_entry(hb_log_next(m_5, 15, 0), HB_REFUSAL_ENTRY));
    /* a riichi, a pao and a correction are entries, but not inside */
    static const uint8_t others[][4] = {{0x60, 0x01}, {0x60, 0x50, 0x70}, {0x60, 0x60, 0x20}, {0x60, 0x60, 0x60, 0x20}};
    for (size_t n = 0; n < COUNT_OF(others); n++)
        CHECK_CASE(n, no_entry(hb_log_next(others[n], 4, 0), HB_REFUSAL_ENTRY));
}

/* What the header's macros make: the worked bytes of docs/RECORDS.md; a ready bit is the seat's at a draw, and the byte of a pao books that pao. */
void made_entries(void)
{
    CHECK(HB_ENTRY(HB_KIND_RIICHI, 1) == 0x01 && HB_ENTRY(HB_KIND_WIN, 0) == 0x10 && HB_ENTRY(HB_KIND_CHOMBO, 3) == 0x33);
    CHECK(HB_ENTRY(HB_KIND_MULTI_RON, 2) == 0x42 && HB_ENTRY(HB_KIND_PAO, 0) == 0x50 && HB_ENTRY(HB_KIND_CORRECTION, 0) == 0x60);
    CHECK(HB_ENTRY(HB_KIND_DRAW, HB_READY_BIT(1)) == 0x24 && HB_ENTRY(HB_KIND_DRAW, HB_READY_BIT(0) + HB_READY_BIT(3)) == 0x29);
    CHECK(HB_PAO_BYTE(1, 3, HB_YAKU_DAISANGEN) == 0x70 && HB_PAO_BYTE(3 - 2, 0 + 1, HB_YAKU_DAISANGEN) == 0x50);
    for (uint8_t seat = 0; seat < 4; seat++) {
        HbGame game = hb_fresh_game();
        CHECK_CASE(seat, hb_draw(&game, HB_READY_BIT(seat)) == 0);
        for (uint8_t other = 0; other < 4; other++)
            CHECK_CASE(seat, game.now.scores[other] == (other == seat ? 33000 : 29000));
    }
    for (uint8_t n = 0; n < 32; n++) {
        uint8_t holder = n / 8, feeder = n / 2 % 4, yaku = n % 2 ? HB_YAKU_SUUSHIIHOU : HB_YAKU_DAISANGEN;
        HbGame game = hb_fresh_game(), booked = game;
        uint8_t refusal = hb_pao(&game, holder, feeder, yaku);
        CHECK_CASE(n, refusal == (holder == feeder ? HB_REFUSAL_PAO : 0));
        CHECK_CASE(n, book_pao(&booked, HB_PAO_BYTE(holder, feeder, yaku)) == refusal && memcmp(&game, &booked, sizeof game) == 0);
    }
}
