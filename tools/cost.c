/* The calls that tools/cost.py counts: cost PART WORD.., with the instructions of a run under valgrind.
 *
 * Of most parts the words are TIMES and WHAT: the call WHAT is made so many times, and cost.py takes the
 * difference of two runs. Bytes are given in hexadecimal. Exit status: 0 where every call was accepted. */
#include "herbassolh.h"
#include <alloca.h>
#include <stdio.h>
#include <stdlib.h>
#include <string.h>

/* The bytes of a word in hexadecimal, and how many they are. */
static int bytes(const char *hex, uint8_t *into)
{
    int len = (int)(strlen(hex) / 2);
    for (int i = 0; i < len; i++) {
        char two[3] = {hex[2 * i], hex[2 * i + 1], 0};
        into[i] = (uint8_t)strtol(two, 0, 16);
    }
    return len;
}

/* slips TIMES WHAT RECORD: 0 Score, 1 Slip */
static int slips(int argc, char **argv)
{
    uint8_t page[HB_SLIP_LENGTH], record[13];
    bytes(argv[3], record);
    for (int n = atoi(argv[1]); n > 0; n--)
        if (atoi(argv[2]) ? hb_slip(record, 13, 0, 0, page, sizeof page) : hb_score(record, 13, 0, 0).refusal) return argc;
    return 0;
}

/* readings TIMES WHAT NUMBER RECORD: 0 Score, 1 how many readings, 2 the one with the number */
static int readings(int argc, char **argv)
{
    uint8_t record[13];
    uint32_t number = (uint32_t)atoi(argv[3]);
    bytes(argv[4], record);
    for (int n = atoi(argv[1]); n > 0; n--)
        switch (atoi(argv[2])) {
        case 0:
            if (hb_score(record, 13, 0, 0).refusal) return argc;
            break;
        case 1:
            if (hb_reading_count(record, 13, 0, 0).refusal) return argc;
            break;
        case 2:
            if (hb_reading(record, 13, 0, 0, number).refusal) return argc;
            break;
        }
    return 0;
}

/* bookings TIMES WHAT RECORDS [pao]: 0 Score, 1 Win, 2 Pao, 3 Multiple ron, 4 and 5 a draw corrected by a win and by a draw;
 * with `pao` seat 3 has fed seat 1's dragons */
static int bookings(int argc, char **argv)
{
    uint8_t records[39];
    int length = bytes(argv[3], records);
    HbGame start = hb_fresh_game();
    if (argc > 4) hb_pao(&start, 1, 3, 28);
    int what = atoi(argv[2]);
    if (what > 3) hb_draw(&start, 0);
    for (int n = atoi(argv[1]); n > 0; n--) {
        HbGame game = start;
        if (what == 0   ? hb_score(records, 13, 0, 0).refusal
            : what == 1 ? hb_win(&game, records, 13)
            : what == 2 ? hb_pao(&game, 2, 3, 29)
            : what == 3 ? hb_multi_ron(&game, length / 13, records, length)
            : what == 4 ? hb_correct_win(&game, records, 13)
                        : hb_correct_draw(&game, 15))
            return 1;
    }
    return 0;
}

/* says TIMES WHAT LANGUAGE BYTES: 1 to 4 the messages of a score, its fu, a position and a refusal, 6 and 8 of waits and readiness; 0, 5 and 7 the
 * calls whose answers they say */
static int says(int argc, char **argv)
{
    uint8_t buf[HB_MESSAGE_MAX], b[13];
    int what = atoi(argv[2]), l = atoi(argv[3]), len = bytes(argv[4], b);
    HbPosition position = {{-8200, 41300, 52900, 31000}, 3, {0}, 1, 0, 5, 0, 2, {0}};
    for (int n = atoi(argv[1]); n > 0; n--)
        if (what == 0   ? hb_score(b, len, 0, 0).refusal
            : what == 1 ? hb_say_score(l, b, len, 0, 0, buf, sizeof buf).refusal
            : what == 2 ? hb_say_fu(l, b, len, 0, 0, buf, sizeof buf).refusal
            : what == 3 ? hb_say_scores(l, &position, buf, sizeof buf).refusal
            : what == 4 ? hb_say_refusal(l, 7, buf, sizeof buf).refusal
            : what == 5 ? hb_waits(b, len, b, 0).refusal
            : what == 6 ? hb_say_waits(l, b, len, b, 0, buf, sizeof buf).refusal
            : what == 7 ? hb_ready(b, len).refusal
                        : hb_say_ready(l, b, len, buf, sizeof buf).refusal)
            return argc;
    return 0;
}

/* unfinished WHAT: 0 Waits, 1 Ready of each hand of the input, 12 bytes with its length first */
static int unfinished(int argc, char **argv)
{
    uint8_t hand[12];
    if (atoi(argv[1])) {
        while (fread(hand, 1, 12, stdin) == 12)
            if (hb_ready(hand + 1, hand[0]).refusal) return 1;
    } else {
        while (fread(hand, 1, 12, stdin) == 12)
            if (hb_waits(hand + 1, hand[0], hand, 0).refusal) return argc;
    }
    return 0;
}

/* judges FILE WHAT: of each claim of the file, as other_scorer's `claims` writes it: 0 nothing, 1 Score, 2 Judge */
static int judges(int argc, char **argv)
{
    uint8_t e[24];
    FILE *claims = fopen(argv[1], "rb");
    while (fread(e, 24, 1, claims) == 1) {
        if (*argv[2] == '1' && hb_score(e + 1, e[0], e[14], e[15]).refusal) return argc;
        if (*argv[2] == '2') {
            HbJudged j = hb_judge(e + 1, e[0], e + 17, e[16], e[14], e[15]);
            if (j.refusal | j.verdict) return 1;
        }
    }
    return 0;
}

/* cards TIMES SUIT SIZE: Practice cards; prints the stack from this function's frame down, by what is left of a paint */
static uint8_t cards_buf[HB_CARDS_MAX];
static volatile uint8_t *low;
__attribute__((noinline)) static void paint(void)
{
    low = alloca(65536);
    for (int i = 0; i < 65536; i++) low[i] = 0xa7;
}
__attribute__((noinline)) static int card_call(uint8_t suit, uint8_t size) { return hb_cards(suit, size, cards_buf, sizeof cards_buf).refusal; }
__attribute__((noinline)) static int cards(int argc, char **argv)
{
    volatile uint8_t here = 0;
    int times = atoi(argv[1]), suit = atoi(argv[2]), size = atoi(argv[3]);
    paint();
    for (int n = 0; n < times; n++)
        if (card_call((uint8_t)suit, (uint8_t)size)) return argc;
    while (*low == 0xa7) low++;
    printf("%d\n", (int)(&here - low));
    return here;
}

/* linked so that its frames are there: the deepest chains of these calls are read, not run */
static int frames(int argc, char **argv)
{
    HbGame game = hb_fresh_game();
    return hb_correct_multi_ron(&game, 2, (uint8_t *)argv[0], (size_t)argc);
}

int main(int argc, char **argv)
{
    static const struct {
        const char *name;
        int (*run)(int argc, char **argv);
    } parts[] = {
        {"slips", slips},
        {"readings", readings},
        {"bookings", bookings},
        {"says", says},
        {"unfinished", unfinished},
        {"judges", judges},
        {"cards", cards},
        {"frames", frames},
    };
    for (size_t i = 0; argc > 1 && i < sizeof parts / sizeof *parts; i++)
        if (!strcmp(argv[1], parts[i].name)) return parts[i].run(argc - 1, argv + 1);
    return 2;
}
