/* Runs the tests of every call and counts the checks. Exit status 1 where one fails. */
#include "check.h"

static int made, failed;

void check_at(int holds, const char *what, int number, const char *file, int line)
{
    made++;
    if (!holds) {
        failed++;
        printf("%s:%d: %s (case %d)\n", file, line, what, number);
    }
}

/* Sizes that the header takes for granted; structs and calls are checked by the file that tools/layout.py makes. */
static void sizes(void)
{
    CHECK(sizeof(bool) == 1);
    CHECK(HB_RECORD_LENGTH(0) == 13 && HB_RECORD_LENGTH(1) == 12 && HB_RECORD_LENGTH(2) == 11);
    CHECK(HB_RECORD_LENGTH(3) == 10 && HB_RECORD_LENGTH(4) == 8);
    CHECK(HB_UNFINISHED_LENGTH(0) == 11 && HB_UNFINISHED_LENGTH(1) == 9 && HB_UNFINISHED_LENGTH(2) == 8);
    CHECK(HB_UNFINISHED_LENGTH(3) == 7 && HB_UNFINISHED_LENGTH(4) == 6 && sizeof(HbWaits) == 36 && sizeof(HbReady) == 15);
    CHECK(sizeof(HbItems) == 10 && sizeof(HbScored) == 72 && sizeof(HbJudged) == 2 && sizeof(HbClaim) == 12);
    CHECK(sizeof(HbReading) == 164 && sizeof(HbReadingCount) == 8);
    CHECK(sizeof(HbPosition) == 40 && sizeof(HbGame) == 84);
    CHECK(sizeof(HbWalk) == 88 + sizeof(size_t) && sizeof(HbPrinted) == 88 + 2 * sizeof(size_t));
    CHECK(sizeof(HbSaid) == 4);
}

/* Slices of length 0 with a pointer that is not null. */
static void empty_slices(void)
{
    uint8_t byte = 0x5a;
    HbGame fresh = hb_fresh_game(), game = fresh;
    HbReadHand read = hb_read(&byte, 0);
    HbScored scored = hb_score(&byte, 0, 0, 0);
    HbWritten written = hb_write(hb_read(table[0].record, 13).hand, &byte, 0);
    CHECK(read.refusal == HB_REFUSAL_LENGTH && memcmp(&read.hand, &no_hand, sizeof no_hand) == 0);
    CHECK(is_refused(&scored, HB_REFUSAL_LENGTH));
    CHECK(no_reading(hb_reading(&byte, 0, 0, 0, 1), HB_REFUSAL_LENGTH) && hb_reading_count(&byte, 0, 0, 0).refusal == HB_REFUSAL_LENGTH);
    CHECK(written.refusal == HB_REFUSAL_BUFFER && written.len == 0);
    CHECK(hb_slip(&byte, 0, 0, 0, &byte, 0) == HB_REFUSAL_LENGTH && hb_slip(table[0].record, 13, 0, 0, &byte, 0) == HB_REFUSAL_PAGE);
    CHECK(no_waits(hb_waits(&byte, 0, &byte, 0), HB_REFUSAL_LENGTH));
    CHECK(no_ready(hb_ready(&byte, 0), HB_REFUSAL_LENGTH));
    CHECK(hb_cards(0, 2, &byte, 0).refusal == HB_REFUSAL_CARDS);
    CHECK(hb_judge(&byte, 0, &byte, 0, 0, 0).refusal == HB_REFUSAL_LENGTH);
    CHECK(hb_judge(table[0].record, 13, &byte, 0, 0, 0).refusal == HB_REFUSAL_CLAIM);
    HbClaim pairs = {1600, HB_SHAPE_SEVEN_PAIRS, HB_NO_PAIR, NO_GROUPS, 0, 0}, no_claim = {0};
    CHECK(hb_write_claim(pairs, &byte, 0).refusal == HB_REFUSAL_BUFFER && hb_write_claim(no_claim, &byte, 0).refusal == HB_REFUSAL_BUFFER);
    CHECK(hb_win(&game, &byte, 0) == HB_REFUSAL_LENGTH && memcmp(&game, &fresh, sizeof game) == 0);
    CHECK(hb_multi_ron(&game, 1, &byte, 0) == HB_REFUSAL_LENGTH && hb_multi_ron(&game, 0, &byte, 0) == HB_REFUSAL_MULTI_RON);
    CHECK(hb_correct_win(&game, &byte, 0) == HB_REFUSAL_SUPERSEDE && hb_correct_multi_ron(&game, 1, &byte, 0) == HB_REFUSAL_SUPERSEDE);
    CHECK(memcmp(&game, &fresh, sizeof game) == 0);
    HbGame drawn = fresh, before;
    CHECK(hb_draw(&drawn, 0) == 0);
    before = drawn;
    CHECK(hb_correct_win(&drawn, &byte, 0) == HB_REFUSAL_LENGTH && hb_correct_multi_ron(&drawn, 1, &byte, 0) == HB_REFUSAL_LENGTH);
    CHECK(hb_correct_multi_ron(&drawn, 0, &byte, 0) == HB_REFUSAL_MULTI_RON && memcmp(&drawn, &before, sizeof drawn) == 0);
    CHECK(no_entry(hb_log_next(&byte, 0, 0), 0));
    CHECK(hb_book_entry(&game, &byte, 0) == HB_REFUSAL_ENTRY && memcmp(&game, &fresh, sizeof game) == 0);
    HbWalk start = hb_log_start();
    uint8_t entry = 0x01;
    HbPrinted no_log = hb_log_lines(start, &entry, 0, &byte, 1), no_buffer = hb_log_lines(start, &entry, 1, &byte, 0);
    CHECK(no_log.written == 0 && same_walk(&no_log.walk, &start));
    CHECK(no_buffer.written == 0 && same_walk(&no_buffer.walk, &start));
    CHECK(hb_log_line(&game.now, 1, HB_LETTER_RIICHI, 0, &byte, 0) == 0);
    CHECK(hb_say_score(HB_ENGLISH, &byte, 0, 0, 0, &byte, 0).refusal == HB_REFUSAL_LENGTH);
    CHECK(hb_say_fu(HB_ENGLISH, &byte, 0, 0, 0, &byte, 0).refusal == HB_REFUSAL_LENGTH);
    CHECK(hb_say_waits(HB_ENGLISH, &byte, 0, &byte, 0, &byte, 0).refusal == HB_REFUSAL_LENGTH);
    CHECK(hb_say_ready(HB_ENGLISH, &byte, 0, &byte, 0).refusal == HB_REFUSAL_LENGTH);
    CHECK(byte == 0x5a);
}

int main(void)
{
    sizes();
    table_of_hands();
    fields();
    refused_records();
    writing();
    slips_of_hands();
    waits_of_hands();
    ready_hands();
    unfinished_writer();
    practice_cards();
    claims_of_hands();
    claim_writer();
    readings_of_hands();
    bookings();
    refused_bookings();
    marks();
    counters();
    wins_by_pao();
    refused_paos();
    sticks();
    multi_rons();
    refused_multi_rons();
    multi_rons_by_pao();
    lowest_of_all();
    not_ready();
    ends();
    corrections();
    given_back();
    none_to_supersede();
    refused_corrections();
    corrected_ends();
    lent_games();
    entries();
    made_entries();
    correction_entries();
    booked_entries();
    refused_entries();
    marked_entries();
    starts();
    logs();
    lines_of_a_long_log();
    walks_by_value();
    lines();
    scores_said();
    hands_said();
    refusals_said();
    unfinished_said();
    empty_slices();
    printf("%d checks, %d failed\n", made, failed);
    return failed ? 1 : 0;
}
