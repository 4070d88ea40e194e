/* What the tests of the archive share. They go through the header; the figures are documents 01's and 02's.
 * Compile them together: cc -std=c99 -I include interface/tests/NAME.c .. ARCHIVE */
#ifndef CHECK_H
#define CHECK_H

#include "herbassolh.h"

#include <stdio.h>
#include <stdlib.h>
#include <string.h>

#define COUNT_OF(list) (sizeof(list) / sizeof(list)[0])

/* Counts a check and says where one fails. */
void check_at(int holds, const char *what, int number, const char *file, int line);

#define CHECK(holds) check_at((holds) ? 1 : 0, #holds, 0, __FILE__, __LINE__)
#define CHECK_CASE(number, holds) check_at((holds) ? 1 : 0, #holds, (int)(number), __FILE__, __LINE__)

/* ---- hands.c */

/* A line of document 01's table: its number, record and score; from 101 on, hands that the table lacks. Points, and h and fu
 * where the table gives them, are the table's; other h and fu, items, yaku and readings tried are by hand from the rules. */
struct line {
    int number;
    uint8_t length, record[13];
    uint8_t refusal, h, fu;
    HbItems items;
    uint8_t yaku[4], tried;
    int32_t changes[4];
};

extern const struct line table[21];

/* Line 1 with riichi 1. */
extern const uint8_t with_riichi[13];

/* A line of the table with up to four bytes replaced ({0, 0}: none), cut to a length if not 0; Read, Score, Win refuse it. */
struct unsound {
    uint8_t refusal;
    int line;
    size_t length;
    struct {
        uint8_t at, value;
    } edits[4];
};
extern const struct unsound unsound[26];

extern const HbHand no_hand;

/* A copy in memory of just that length, so that a memory checker sees a read or write past it. */
uint8_t *exact(const uint8_t *bytes, size_t length);

/* The record of an unsound case and its length. */
uint8_t *unsound_record(size_t n, size_t *length);

/* The line of the table with a number. */
const struct line *numbered(int number);

/* ---- score.c */

/* The sum of the items of fu. */
int sum_of(const HbItems *items);

/* Whether a score is a refusal with all else zero. */
int is_refused(const HbScored *scored, uint8_t refusal);

/* ---- unfinished.c */

/* Whether it is a refusal with no wait and no furiten. */
int no_waits(HbWaits waits, uint8_t refusal);

/* Whether it is a refusal with no swap and no tile. */
int no_ready(HbReady ready, uint8_t refusal);

/* ---- reading.c */

/* The groups of seven pairs and of orphans. */
#define NO_GROUPS                                          \
    {                                                      \
        HB_NO_GROUP, HB_NO_GROUP, HB_NO_GROUP, HB_NO_GROUP \
    }

/* Whether it is a refusal with all else zero. */
int no_reading(HbReading given, uint8_t refusal);

/* ---- bookings.c */

/* Whether the position of a game has these figures. */
int is_game(const HbGame *game, const int32_t *scores, uint32_t sticks, uint8_t dealer, uint8_t wind, uint8_t hands);

/* The entry of a win by line 1, with other bytes after it. */
extern const uint8_t win_entry[16];

/* An entry of one byte, booked. */
uint8_t book_byte(HbGame *game, uint8_t header);

/* An entry of a win by a record, booked. */
uint8_t book_win(HbGame *game, const uint8_t *record, size_t length);

/* An entry of a pao by its byte, booked. */
uint8_t book_pao(HbGame *game, uint8_t byte);

/* An entry of one to three rons by their records end to end, booked. */
uint8_t book_multi_ron(HbGame *game, uint8_t number, const uint8_t *records, size_t length);

/* Each booking made once on a copy of a game, and each as an entry; whether all give this refusal and leave every byte. */
int all_refused(const HbGame *game, uint8_t refusal);

/* ---- pao.c */

/* Hands of seat 1 on tsumo: three dragon triplets; four wind triplets, concealed and melded; three and a wind pair. */
enum { DRAGONS,
       WINDS,
       MELDED_WINDS,
       THREE_WINDS };

struct yakuman {
    uint8_t length, record[13];
};
extern const struct yakuman yakuman[4];

/* ---- multi_ron.c */

/* A record as the ron of a seat from another, put at a place of a multiple ron's; gives the place behind it. */
size_t put_ron(uint8_t *records, size_t at, const uint8_t *record, size_t length, uint8_t winner, uint8_t from);

/* Whether a multiple ron is refused so, in a block of its length, with every byte of the game left; as an entry too, where it is one. */
int multi_ron_refused(const HbGame *game, uint8_t number, const uint8_t *records, size_t length, uint8_t refusal);

/* Second records beside line 1 of seat 1 from seat 3, and the refusal of the two. */
struct second {
    uint8_t refusal, length, record[13];
};
extern const struct second seconds[9];

/* ---- correct.c */

/* A result: of a win or a multiple ron its records and of a multiple ron their number, the bits of a draw, the seat of a chombo. */
typedef struct {
    uint8_t kind, argument;
    size_t length;
    uint8_t records[3 * 13];
} Result;

/* Each kind of result, of a child and of the dealer; all are accepted in a fresh game, and where seat 3 has declared. */
enum { RESULTS = 10 };

const Result *each_result(void);

/* Books a result, its records in a block of their length. */
uint8_t book_result(HbGame *game, const Result *result);

/* The entry of a correction, in a block of its length; an argument over 15 has none. */
uint8_t *correction_entry(const Result *result);

/* Whether a correction is refused so, with every byte of the game left; as an entry too, or with 14 where its bytes are none. */
int correction_refused(const HbGame *game, const Result *result, uint8_t refusal);

/* Whether a correction is accepted, and the game then is the one in which its result was booked in the earlier position; as an entry too.
 * The game is left with the correction made. */
int is_corrected(HbGame *game, const Result *result);

/* Whether every kind of correction is refused so. */
int all_corrections_refused(const HbGame *game, uint8_t refusal);

/* ---- log_next.c */

/* Whether there is no entry: the end, or a refusal, with all else zero. */
int no_entry(HbNextEntry entry, uint8_t refusal);

/* ---- log_lines.c */

/* Whether two walks stand alike; the game byte for byte. */
int same_walk(const HbWalk *one, const HbWalk *two);

/* ---- the tests, in the order in which they run */

void table_of_hands(void);
void fields(void);
void refused_records(void);
void writing(void);
void slips_of_hands(void);
void waits_of_hands(void);
void ready_hands(void);
void unfinished_writer(void);
void practice_cards(void);
void claims_of_hands(void);
void claim_writer(void);
void readings_of_hands(void);
void bookings(void);
void refused_bookings(void);
void marks(void);
void counters(void);
void wins_by_pao(void);
void refused_paos(void);
void sticks(void);
void multi_rons(void);
void refused_multi_rons(void);
void multi_rons_by_pao(void);
void lowest_of_all(void);
void not_ready(void);
void ends(void);
void corrections(void);
void given_back(void);
void none_to_supersede(void);
void refused_corrections(void);
void corrected_ends(void);
void lent_games(void);
void entries(void);
void made_entries(void);
void correction_entries(void);
void booked_entries(void);
void refused_entries(void);
void marked_entries(void);
void starts(void);
void logs(void);
void lines_of_a_long_log(void);
void walks_by_value(void);
void lines(void);
void scores_said(void);
void hands_said(void);
void refusals_said(void);
void unfinished_said(void);

#endif
