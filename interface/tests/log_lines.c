/* A log as text: Start, Lines and a line. */
#include "check.h"

int same_walk(const HbWalk *one, const HbWalk *two)
{
    return memcmp(&one->game, &two->game, sizeof one->game) == 0 && one->at == two->at && one->entry == two->entry;
}

/* Books the entry where a walk stands, by hb_log_next and hb_book_entry, and writes its line by hb_log_line. Gives the line's length, or
 * 0 with the walk as it was where there is no entry or no room. */
static size_t step(HbWalk *walk, const uint8_t *log, size_t length, uint8_t *text, size_t room)
{
    HbNextEntry entry = hb_log_next(log, length, walk->at);
    if (entry.refusal || entry.end)
        return 0;
    HbGame game = walk->game;
    uint8_t refusal = hb_book_entry(&game, log + walk->at, entry.length);
    size_t line = hb_log_line(&game.now, walk->entry, entry.letter, refusal, text, room);
    if (line)
        walk->game = game, walk->at += entry.length, walk->entry++;
    return line;
}

/* hb_log_lines into a buffer of a length, checked against single steps: the lines, bytes past them and past the buffer's end,
 * and where the walk then stands, which goes to walk. Adds the lines to text if there is one; gives how many bytes. */
static size_t lines_checked(HbWalk *walk, const uint8_t *log, size_t length, size_t room, uint8_t *text)
{
    enum { BEHIND = 8 };
    uint8_t *got = malloc(room + BEHIND), *wanted = malloc(room + BEHIND);
    if (!got || !wanted)
        exit(2);
    memset(got, 0x5a, room + BEHIND);
    memset(wanted, 0x5a, room + BEHIND);
    HbPrinted printed = hb_log_lines(*walk, log, length, got, room);
    size_t used = 0, line;
    while ((line = step(walk, log, length, wanted + used, room - used)) != 0)
        used += line;
    CHECK_CASE(room, printed.written == used);
    CHECK_CASE(room, memcmp(got, wanted, room + BEHIND) == 0);
    CHECK_CASE(room, same_walk(&printed.walk, walk));
    if (text)
        memcpy(text, got, used);
    free(got);
    free(wanted);
    return used;
}

/* The lines of a log from its start, a buffer of a length at a time; the length is HB_LINE_MAX or more. */
static size_t tally(const uint8_t *log, size_t length, size_t room, uint8_t *text)
{
    HbWalk walk = hb_log_start();
    size_t used = 0, more;
    while ((more = lines_checked(&walk, log, length, room, text + used)) != 0)
        used += more;
    return used;
}

/* A walk at its start. */
void starts(void)
{
    HbGame fresh = hb_fresh_game();
    HbWalk walk = hb_log_start();
    CHECK(memcmp(&walk.game, &fresh, sizeof fresh) == 0 && walk.at == 0 && walk.entry == 1);
}

/* Document 01's log 01 24, one with a win, refused entries and a bad one at its end, one with a counter, one with paos, one with
 * multiple rons, one with a riichi of a seat that has no points for it, and one with corrections. */
void logs(void)
{
    static const int32_t after[] = {29000, 32000, 29000, 29000};
    static const uint8_t example[] = {0x01, 0x24};
    static const char lines[] = "1 R 0 30000 29000 30000 30000 1\n2 D 0 29000 32000 29000 29000 1\n";
    static const char more[] = "1 W 0 30000 32000 30000 28000 0\n2 R 8 30000 32000 30000 28000 0\n"
                               "3 C 0 33000 23000 33000 31000 0\n";
    static const char counted[] = "1 D 0 30000 30000 30000 30000 0\n2 W 0 30000 32300 30000 27700 0\n";
    static const char by_pao[] = "1 P 0 30000 30000 30000 30000 0\n2 W 0 30000 62000 30000 -2000 0\n3 P 18 30000 62000 30000 -2000 0\n";
    uint8_t text[HB_LINE_MAX], log[18];
    HbPrinted printed = hb_log_lines(hb_log_start(), example, 2, text, sizeof text);
    CHECK(printed.written == sizeof lines - 1 && memcmp(text, lines, sizeof lines - 1) == 0);
    CHECK(is_game(&printed.walk.game, after, 1, 1, HB_ROUND_EAST, 1) && printed.walk.at == 2 && printed.walk.entry == 3);
    HbPrinted again = hb_log_lines(printed.walk, example, 2, text, sizeof text);
    CHECK(again.written == 0 && same_walk(&again.walk, &printed.walk));

    uint8_t all[4 * HB_LINE_MAX];
    memcpy(log, win_entry, 14);
    log[14] = 0x04, log[15] = 0x31, log[16] = 0x40; /* the last a multiple ron of no records */
    CHECK(tally(log, 17, HB_LINE_MAX, all) == sizeof more - 1 && memcmp(all, more, sizeof more - 1) == 0);
    CHECK(tally(log, 17, 3 * HB_LINE_MAX, all) == sizeof more - 1 && memcmp(all, more, sizeof more - 1) == 0);

    log[0] = 0x2f, memcpy(log + 1, win_entry, 14);
    CHECK(tally(log, 15, 2 * HB_LINE_MAX, all) == sizeof counted - 1 && memcmp(all, counted, sizeof counted - 1) == 0);

    log[0] = 0x50, log[1] = 0x70, log[2] = 0x10, memcpy(log + 3, yakuman[DRAGONS].record, 13), log[16] = 0x50, log[17] = 0x50;
    CHECK(tally(log, 18, 3 * HB_LINE_MAX, all) == sizeof by_pao - 1 && memcmp(all, by_pao, sizeof by_pao - 1) == 0);

    static const char rons[] = "1 D 0 30000 30000 30000 30000 0\n2 M 0 30000 32300 32000 25700 0\n3 M 17 30000 32300 32000 25700 0\n";
    uint8_t of_rons[42] = {0x2f, 0x42};
    of_rons[put_ron(of_rons, put_ron(of_rons, 2, table[0].record, 13, 1, 3), table[0].record, 13, 2, 3)] = 0x41;
    memcpy(of_rons + 29, table[1].record, 13);
    CHECK(tally(of_rons, 42, 3 * HB_LINE_MAX, all) == sizeof rons - 1 && memcmp(all, rons, sizeof rons - 1) == 0);

    static const char broke[] = "1 C 0 33000 21000 33000 33000 0\n2 C 0 36000 12000 36000 36000 0\n3 C 0 39000 3000 39000 39000 0\n"
                                "4 C 0 42000 -6000 42000 42000 0\n5 R 21 42000 -6000 42000 42000 0\n6 W 11 42000 -6000 42000 42000 0\n"
                                "7 W 0 42000 -4000 42000 40000 0\n";
    uint8_t of_sticks[33] = {0x31, 0x31, 0x31, 0x31, 0x01, 0x10}, seven[7 * HB_LINE_MAX];
    memcpy(of_sticks + 6, with_riichi, 13), memcpy(of_sticks + 19, win_entry, 14);
    CHECK(tally(of_sticks, 33, 7 * HB_LINE_MAX, seven) == sizeof broke - 1 && memcmp(seven, broke, sizeof broke - 1) == 0);

    /* a draw put right by a win of the declared seat, that by a chombo; a riichi, and one too late; a riichi inside is 14 */
    static const char corrected[] = "1 R 0 30000 29000 30000 30000 1\n2 D 0 29000 32000 29000 29000 1\n3 X 0 30000 33900 30000 26100 0\n"
                                    "4 X 0 33000 33000 33000 21000 0\n5 R 0 33000 33000 32000 21000 1\n6 X 20 33000 33000 32000 21000 1\n";
    uint8_t of_corrections[24] = {0x01, 0x24, 0x60, 0x10}, tail[] = {0x60, 0x33, 0x02, 0x60, 0x2f, 0x60, 0x02};
    memcpy(of_corrections + 4, with_riichi, 13), memcpy(of_corrections + 17, tail, sizeof tail);
    CHECK(tally(of_corrections, 24, 6 * HB_LINE_MAX, seven) == sizeof corrected - 1 && memcmp(seven, corrected, sizeof corrected - 1) == 0);
}

/* A log of many entries, to the game's end and past it, and a bad one last. Gives its length. */
enum { ROUNDS = 160,
       PER_ROUND = 26,
       ENTRIES = 10 };
static size_t long_log(uint8_t *log)
{
    size_t length = 0;
    for (int round = 0; round < ROUNDS; round++) {
        log[length++] = (uint8_t)(round % 5); /* riichi, of seat 4 refused */
        log[length++] = 0x50;                 /* pao, of a holder who is the feeder refused */
        log[length++] = (uint8_t)(round * 8);
        memcpy(log + length, win_entry, 14); /* refused after a riichi of seat 1 */
        length += 14;
        log[length++] = 0x01;
        log[length++] = (uint8_t)(0x20 + round % 16); /* draw, refused where seat 1 is not ready */
        log[length++] = 0x28;
        log[length++] = (uint8_t)(0x30 + round % 4);
        log[length++] = 0x60; /* that chombo put right by a draw */
        log[length++] = (uint8_t)(0x20 + round % 16);
        log[length++] = (uint8_t)(0x30 + round % 6);
        log[length++] = 0x60; /* and by another chombo, of seat 4 refused */
        log[length++] = (uint8_t)(0x30 + round % 5);
    }
    log[length++] = 0x17;
    return length;
}

/* That log into buffers of many lengths, from none to all of the text, and the walk handed back and forth. */
void lines_of_a_long_log(void)
{
    static const size_t rooms[] = {HB_LINE_MAX, HB_LINE_MAX + 1, 100, 333, 1024, 4096, ENTRIES * ROUNDS * HB_LINE_MAX};
    static uint8_t whole[ENTRIES * ROUNDS * HB_LINE_MAX], text[ENTRIES * ROUNDS * HB_LINE_MAX], bytes[ROUNDS * PER_ROUND + 1];
    size_t length = long_log(bytes), used = 0, entries = 0, line;
    CHECK(length == sizeof bytes);
    uint8_t *log = exact(bytes, length);
    HbWalk last = hb_log_start(), walk;
    while ((line = step(&last, log, length, whole + used, sizeof whole - used)) != 0)
        used += line, entries++;
    CHECK(entries == ENTRIES * ROUNDS && last.at == length - 1 && last.entry == ENTRIES * ROUNDS + 1 && last.game.now.over == 1);
    for (size_t n = 0; n < COUNT_OF(rooms); n++)
        CHECK_CASE(rooms[n], tally(log, length, rooms[n], text) == used && memcmp(text, whole, used) == 0);

    /* the text's own length and one less; then buffers shorter than a line: no byte, and the walk stays */
    walk = hb_log_start();
    CHECK(lines_checked(&walk, log, length, used, NULL) == used && same_walk(&walk, &last));
    walk = hb_log_start();
    CHECK(lines_checked(&walk, log, length, used - 1, NULL) < used && walk.entry == last.entry - 1);
    for (size_t room = 0; room <= 2 * HB_LINE_MAX; room++) {
        HbWalk start = hb_log_start(), short_of = start;
        size_t written = lines_checked(&short_of, log, length, room, NULL);
        CHECK_CASE(room, (written == 0) == (room < 32) && (written != 0 || same_walk(&short_of, &start)));
    }

    /* one walk: by hb_log_lines, with buffers from none to 200 bytes, and by single steps in turn */
    walk = hb_log_start();
    line = 0;
    for (size_t turn = 0; turn < 4 * entries; turn++)
        line += turn % 3 ? lines_checked(&walk, log, length, turn * 7 % 200, text + line)
                         : step(&walk, log, length, text + line, HB_LINE_MAX);
    CHECK(line == used && memcmp(text, whole, used) == 0 && same_walk(&walk, &last));

    /* a log that grows: what is there of it first, then all of it */
    for (size_t part = 0; part <= 3 * PER_ROUND; part++) {
        uint8_t *begun = exact(log, part);
        walk = hb_log_start();
        line = lines_checked(&walk, begun, part, 4096, text);
        line += lines_checked(&walk, log, length, sizeof text - line, text + line);
        CHECK_CASE(part, line == used && memcmp(text, whole, used) == 0 && same_walk(&walk, &last));
        free(begun);
    }
    free(log);
}

/* A walk with another value in each field, and any marks: each field goes in and comes back, with and without a line. */
void walks_by_value(void)
{
    static const uint8_t log[] = {0x01, 0x24};
    static const char line[] = "4000000000 D 9 1 -2 2147483647 -2147483648 4294967295\n";
    const HbGame odd = {{{1, -2, INT32_MAX, INT32_MIN}, UINT32_MAX, {6, 0x87, 0, 0xff}, 10, 11, 12, 0, 0xa1b2c3d4, {21, 0, 23, 0xfe, 25, 26, 0x80, 28}},
                        {{INT32_MIN, 30, -31, INT32_MAX}, 0xe5f60718, {0, 33, 0xfd, 35}, 36, 37, 38, 39, 0x293a4b5c, {41, 42, 0, 44, 45, 0xff, 47, 48}},
                        0x6d7e8f90};
    const HbWalk before = {odd, 4000000000u, 1}, after = {odd, 4000000001u, 2};
    uint8_t text[HB_LINE_MAX];
    HbPrinted printed = hb_log_lines(before, log, 2, text, sizeof text);
    CHECK(printed.written == sizeof line - 1 && memcmp(text, line, sizeof line - 1) == 0);
    CHECK(same_walk(&printed.walk, &after));

    HbWalk past = {odd, 14, SIZE_MAX - 5};
    past.game.now.over = 0xfe;
    for (size_t at = 2; at < 5; at++) {
        HbWalk walk = past;
        walk.at = at == 4 ? past.at : at;
        memset(text, 0x5a, sizeof text);
        printed = hb_log_lines(walk, log, 2, text, sizeof text);
        CHECK_CASE(at, printed.written == 0 && same_walk(&printed.walk, &walk) && text[0] == 0x5a);
    }

    /* an entry's number has 32 bits: after the line of the last but one the walk stays */
    HbWalk high = hb_log_start();
    high.entry = UINT32_MAX - 1;
    printed = hb_log_lines(high, log, 2, text, sizeof text);
    CHECK(printed.written != 0 && printed.walk.at == 1 && printed.walk.entry == UINT32_MAX);
    HbPrinted again = hb_log_lines(printed.walk, log, 2, text, sizeof text);
    CHECK(again.written == 0 && same_walk(&again.walk, &printed.walk));
}

/* A line in buffers of every length up to one past HB_LINE_MAX: written whole, or nothing. */
static void line_in_buffers(const HbPosition *position, uint32_t entry, uint8_t letter, uint8_t refusal, const char *line)
{
    uint8_t wanted[HB_LINE_MAX + 1], before[HB_LINE_MAX + 1];
    size_t whole = strlen(line);
    memset(before, 0x5a, sizeof before);
    for (size_t length = 0; length <= sizeof before; length++) {
        uint8_t *buffer = exact(before, length);
        memcpy(wanted, before, sizeof wanted);
        if (length >= whole)
            memcpy(wanted, line, whole);
        CHECK_CASE(length, hb_log_line(position, entry, letter, refusal, buffer, length) == (length < whole ? 0 : whole));
        CHECK_CASE(length, memcmp(buffer, wanted, length) == 0);
        free(buffer);
    }
}

/* The shortest line of a game's position and the longest of any. */
void lines(void)
{
    HbPosition position = hb_fresh_game().now;
    line_in_buffers(&position, 1, HB_LETTER_CHOMBO, 9, "1 C 9 30000 30000 30000 30000 0\n");
    for (size_t seat = 0; seat < 4; seat++)
        position.scores[seat] = INT32_MIN;
    position.sticks = UINT32_MAX, position.over = 0x40, position.declared[1] = 0xff;
    line_in_buffers(&position, UINT32_MAX, HB_LETTER_WIN, 255,
                    "4294967295 W 255 -2147483648 -2147483648 -2147483648 -2147483648 4294967295\n");
}
