/* An entry of a log, booked. */
#include "check.h"

/* Whether booking an entry of a log does to a game what a booking's own call did: the refusal, and each byte of the game. */
static int books_as(const uint8_t *part, size_t length, HbGame game, uint8_t refusal, HbGame after)
{
    uint8_t got = hb_book_entry(&game, part, length);
    return got == refusal && memcmp(&game, &after, sizeof game) == 0;
}

/* Each kind of entry booked: what its booking gives, in a fresh game, with a riichi declared, and over. */
void booked_entries(void)
{
    HbGame games[3] = {hb_fresh_game(), hb_fresh_game(), hb_fresh_game()};
    uint8_t riichi_entry[14] = {0x10};
    memcpy(riichi_entry + 1, with_riichi, 13);
    CHECK(hb_riichi(&games[1], 1) == 0);
    games[2].now.over = 1;
    CHECK(hb_pao(&games[1], 2, 0, HB_YAKU_SUUSHIIHOU) == 0);
    for (size_t n = 0; n < 3; n++) {
        HbGame after;
        uint8_t refusal;
        for (int byte = 0; byte < 256; byte += 8) {
            uint8_t pao[] = {0x50, (uint8_t)byte, 0x07};
            after = games[n], refusal = hb_pao(&after, (uint8_t)(byte / 64), (uint8_t)(byte / 16 % 4), (uint8_t)(28 + byte / 8 % 2));
            CHECK_CASE(byte, books_as(pao, 2, games[n], refusal, after) && books_as(pao, 3, games[n], refusal, after));
        }
        for (uint8_t argument = 0; argument < 16; argument++) {
            uint8_t header[] = {argument, (uint8_t)(0x20 + argument), (uint8_t)(0x30 + argument)};
            after = games[n], refusal = hb_riichi(&after, argument);
            CHECK_CASE(argument, books_as(header, 1, games[n], refusal, after));
            after = games[n], refusal = hb_draw(&after, argument);
            CHECK_CASE(argument, books_as(header + 1, 1, games[n], refusal, after));
            after = games[n], refusal = hb_chombo(&after, argument);
            CHECK_CASE(argument, books_as(header + 2, 1, games[n], refusal, after));
        }
        after = games[n], refusal = hb_win(&after, table[0].record, 13);
        CHECK_CASE(n, books_as(win_entry, 14, games[n], refusal, after));
        CHECK_CASE(n, books_as(win_entry, 16, games[n], refusal, after)); /* the first entry of several */
        after = games[n], refusal = hb_win(&after, with_riichi, 13);
        CHECK_CASE(n, books_as(riichi_entry, 14, games[n], refusal, after));
    }
    CHECK(books_as(win_entry, 14, games[1], HB_REFUSAL_RIICHI, games[1]));
    CHECK(book_byte(&games[1], 0x01) == HB_REFUSAL_DECLARED);
    CHECK(book_byte(&games[1], 0x04) == HB_REFUSAL_ARGUMENT && book_byte(&games[1], 0x3f) == HB_REFUSAL_ARGUMENT);
    CHECK(book_byte(&games[2], 0x04) == HB_REFUSAL_ARGUMENT && book_byte(&games[2], 0x20) == HB_REFUSAL_NOT_OPEN);
}

/* Entries whose record is refused, and each way to refusal 14, in an open game and one that is over, with any marks. */
void refused_entries(void)
{
    HbGame fresh = hb_fresh_game(), game = fresh, over = fresh;
    for (size_t n = 0; n < COUNT_OF(unsound); n++) {
        size_t length;
        uint8_t *record = unsound_record(n, &length);
        uint8_t wanted = unsound[n].refusal == HB_REFUSAL_LENGTH ? HB_REFUSAL_ENTRY : unsound[n].refusal;
        CHECK_CASE(n, book_win(&game, record, length) == wanted && memcmp(&game, &fresh, sizeof game) == 0);
        free(record);
    }
    CHECK(book_win(&game, table[6].record, 12) == HB_REFUSAL_NO_YAKU && memcmp(&game, &fresh, sizeof game) == 0);
    CHECK(book_win(&game, table[9].record, 13) == HB_REFUSAL_NO_READING && memcmp(&game, &fresh, sizeof game) == 0);

    over.now.over = 0x80, over.now.declared[0] = 3, over.now.declared[3] = 0xff;
    const HbGame *each[] = {&fresh, &over};
    for (size_t n = 0; n < 2; n++) {
        uint8_t part[14];
        for (size_t length = 0; length < 14; length++) {
            uint8_t *cut = exact(win_entry, length);
            CHECK_CASE(length, books_as(cut, length, *each[n], HB_REFUSAL_ENTRY, *each[n]));
            free(cut);
        }
        memcpy(part, win_entry, 14);
        for (int header = 0x11; header < 256; header++) {
            part[0] = (uint8_t)header;
            if (header < 0x20 || (header >= 0x40 && header != 0x41 && header != 0x50))
                CHECK_CASE(header, books_as(part, 14, *each[n], HB_REFUSAL_ENTRY, *each[n]));
        }
        part[0] = 0x10, part[3] = 0x66, part[4] = 0x82; /* m 5 */
        CHECK_CASE(n, books_as(part, 14, *each[n], HB_REFUSAL_ENTRY, *each[n]));
        part[0] = 0x50;
        CHECK_CASE(n, books_as(part, 1, *each[n], HB_REFUSAL_ENTRY, *each[n]));
        for (int byte = 0; byte < 256; byte++) {
            part[1] = (uint8_t)byte; /* a zero bit of a pao set */
            CHECK_CASE(byte, byte % 8 == 0 || books_as(part, 2, *each[n], HB_REFUSAL_ENTRY, *each[n]));
        }
    }
}

/* Entries in a game with marks that are neither 0 nor 1: they are set; an accepted entry sets 0 or 1. */
void marked_entries(void)
{
    static const uint8_t set[4] = {0, 1, 1, 0}, cleared[4] = {0, 0, 0, 0};
    HbGame game = hb_fresh_game(), before;
    game.now.declared[2] = 2, game.now.sticks = 1, game.now.scores[2] -= 1000;
    before = game;
    CHECK(book_byte(&game, 0x02) == HB_REFUSAL_DECLARED && memcmp(&game, &before, sizeof game) == 0);
    CHECK(book_byte(&game, 0x2d) == 0 && game.now.sticks == 0 && game.now.scores[2] == 21000);
    CHECK(memcmp(game.now.declared, cleared, sizeof cleared) == 0);
    game = before;
    CHECK(book_win(&game, with_riichi, 13) == HB_REFUSAL_RIICHI && memcmp(&game, &before, sizeof game) == 0);
    CHECK(book_byte(&game, 0x01) == 0 && game.now.sticks == 2 && memcmp(game.now.declared, set, sizeof set) == 0);
    CHECK(book_win(&game, with_riichi, 13) == 0 && game.now.sticks == 0 && memcmp(game.now.declared, cleared, sizeof cleared) == 0);
    game = before;
    CHECK(book_byte(&game, 0x22) == 0 && game.now.sticks == 1 && memcmp(game.now.declared, cleared, sizeof cleared) == 0);
}
