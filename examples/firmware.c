/* What firmware does, from the header alone: a score and how it is said, ten entries with a
 * refusal and two corrections among them, their lines of tally, waits. */
#include "herbassolh.h"

#include <stdio.h>

/* 234567m 345p 67s 22s won by 8s, seat 1 from seat 3; with riichi; and chi 234m, 567m 22456p 67s
 * before it is won (docs/RECORDS.md). */
static const uint8_t record[] = {0xb8, 0x1e, 0x64, 0x02, 0x10, 0x62, 0x0a,
                                 0x31, 0x66, 0x1a, 0x9a, 0x6b, 0xb0};
static const uint8_t riichi[] = {0xba, 0x1e, 0x64, 0x02, 0x10, 0x62, 0x0a,
                                 0x31, 0x66, 0x1a, 0x9a, 0x6b, 0xb0};
static const uint8_t hand[] = {0x20, 0x22, 0x0a, 0x31, 0x45, 0x18, 0x69, 0xcb, 0xb0};
static const uint8_t discards[] = {HB_NORTH, HB_SOU + 7, HB_MAN + 3};
static HbGame game;

/* Prints the line of an entry: its refusal, and the position then. */
static void line(uint8_t letter, uint8_t refusal)
{
    static uint32_t entry;
    uint8_t buf[HB_LINE_MAX];
    size_t length = hb_log_line(&game.now, ++entry, letter, refusal, buf, sizeof buf);
    printf("%.*s", (int)length, (const char *)buf);
}

int main(void)
{
    HbScored s = hb_score(record, sizeof record, 0, HB_ROUND_EAST);
    printf("score: %u han, %u fu; seat 1 gets %ld, seat 3 pays %ld\n", s.h, s.fu,
           (long)s.changes[1], -(long)s.changes[3]);
    uint8_t clips[HB_MESSAGE_MAX]; /* the recordings to play for it, one after the other */
    HbSaid said = hb_say_score(HB_ENGLISH, record, sizeof record, 0, HB_ROUND_EAST,
                               clips, sizeof clips);
    for (unsigned i = 0; i < said.len; i++)
        printf(i + 1 < said.len ? "%u " : "%u\n", clips[i]);
    game = hb_fresh_game();
    line(HB_LETTER_RIICHI, hb_riichi(&game, 1));
    line(HB_LETTER_RIICHI, hb_riichi(&game, 1));           /* refused: declared already this hand */
    line(HB_LETTER_DRAW, hb_draw(&game, HB_READY_BIT(1))); /* seat 1 is ready */
    /* it was no draw: seat 1 has won */
    line(HB_LETTER_CORRECTION, hb_correct_win(&game, riichi, sizeof riichi));
    line(HB_LETTER_PAO, hb_pao(&game, 2, 3, HB_YAKU_DAISANGEN));
    line(HB_LETTER_WIN, hb_win(&game, record, sizeof record));
    line(HB_LETTER_CHOMBO, hb_chombo(&game, 2));
    line(HB_LETTER_MULTI_RON, hb_multi_ron(&game, 1, record, sizeof record));
    line(HB_LETTER_DRAW, hb_draw(&game, HB_READY_BIT(0)));
    line(HB_LETTER_CORRECTION, hb_correct_draw(&game, 0)); /* nobody was ready */
    HbWaits w = hb_waits(hand, sizeof hand, discards, sizeof discards);
    for (int kind = 0; kind < 34; kind++)
        if (w.waits[kind])
            printf("waits for %d%s\n", kind, w.furiten ? ", furiten" : "");
    return 0;
}
