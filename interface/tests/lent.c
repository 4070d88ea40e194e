/* Games lent with any bytes. */
#include "check.h"

/* A position out of form in one way, or in all. */
enum { WAYS = 9 };
static HbPosition out_of_form(int way)
{
    HbPosition position = hb_fresh_game().now;
    if (way == 0)
        position.dealer = 4;
    else if (way == 1)
        position.wind = 2;
    else if (way == 2)
        position.hands = 201;
    else if (way == 3)
        position.declared[2] = 0x80;
    else if (way == 4)
        position.scores[0] = -28540001, position.scores[1] = 28540001 + 60000;
    else if (way == 5)
        position.scores[3] = 30001;
    else if (way == 6)
        position.counter = 1;
    else if (way == 7)
        position.feeders[6] = 3;
    else
        memset(&position, 0xff, sizeof position);
    return position;
}

/* Whether bookings with arguments out of range get 8, and leave every byte. */
static int out_of_range_first(const HbGame *game)
{
    HbGame copy = *game;
    int same = hb_riichi(&copy, 4) == HB_REFUSAL_ARGUMENT && hb_draw(&copy, 16) == HB_REFUSAL_ARGUMENT;
    same = same && hb_chombo(&copy, 4) == HB_REFUSAL_ARGUMENT && hb_pao(&copy, 0, 4, 28) == HB_REFUSAL_ARGUMENT;
    same = same && book_byte(&copy, 0x04) == HB_REFUSAL_ARGUMENT && book_byte(&copy, 0x34) == HB_REFUSAL_ARGUMENT;
    return same && memcmp(&copy, game, sizeof copy) == 0;
}

/* Games lent with any bytes: 9 for a position out of form before 20, and for an earlier one where it is kept; no 9 for a game that is
 * over; the new booking's 9 where the earlier position is over, after its 8. A mark that is not 0 is set. */
void lent_games(void)
{
    static const uint32_t marks[] = {1, 2, 0xff, 0x100, 0x10000, 0x80000000, UINT32_MAX};
    static const Result over_15 = {HB_KIND_DRAW, 16, 0, {0}}, seat_4 = {HB_KIND_CHOMBO, 4, 0, {0}};
    const Result *results = each_result();
    for (size_t n = 0; n < COUNT_OF(marks); n++) {
        HbGame game = hb_fresh_game(), lent;
        game.correctable = marks[n];
        for (size_t k = 0; k < RESULTS; k++) {
            lent = game, lent.now.over = k % 2 ? 0xfe : 0, lent.now.hands = k % 3 ? 0 : 200;
            CHECK_CASE(marks[n], is_corrected(&lent, &results[k]) && lent.correctable == 1);
            lent = game;
            CHECK_CASE(marks[n], book_result(&lent, &results[k]) == 0 && lent.correctable == 1);
        }
        lent = game;
        CHECK_CASE(marks[n], hb_riichi(&lent, 2) == 0 && lent.correctable == 0);
        for (int way = 0; way < WAYS; way++) {
            lent = game, lent.now = out_of_form(way);
            CHECK_CASE(way, all_refused(&lent, HB_REFUSAL_NOT_OPEN) && out_of_range_first(&lent));
            CHECK_CASE(way, all_corrections_refused(&lent, HB_REFUSAL_NOT_OPEN));
            CHECK_CASE(way, correction_refused(&lent, &over_15, HB_REFUSAL_NOT_OPEN));
            lent.correctable = 0;
            CHECK_CASE(way, all_corrections_refused(&lent, HB_REFUSAL_NOT_OPEN));
            CHECK_CASE(way, correction_refused(&lent, &seat_4, HB_REFUSAL_NOT_OPEN));
            lent = game, lent.earlier = out_of_form(way);
            CHECK_CASE(way, all_refused(&lent, HB_REFUSAL_NOT_OPEN) && out_of_range_first(&lent));
            CHECK_CASE(way, all_corrections_refused(&lent, HB_REFUSAL_NOT_OPEN));
            CHECK_CASE(way, correction_refused(&lent, &seat_4, HB_REFUSAL_NOT_OPEN));
            lent.now.over = 1;
            CHECK_CASE(way, all_corrections_refused(&lent, HB_REFUSAL_NOT_OPEN));
            CHECK_CASE(way, correction_refused(&lent, &over_15, HB_REFUSAL_NOT_OPEN));
            /* where it is not kept the earlier position does not matter */
            lent.now.over = 0, lent.correctable = 0;
            CHECK_CASE(way, all_corrections_refused(&lent, HB_REFUSAL_SUPERSEDE));
            CHECK_CASE(way, correction_refused(&lent, &over_15, HB_REFUSAL_SUPERSEDE));
            HbPosition before = lent.now;
            CHECK_CASE(way, hb_chombo(&lent, 2) == 0 && memcmp(&lent.earlier, &before, sizeof before) == 0 && lent.correctable == 1);
        }
        for (int way = 0; way < 2; way++) {
            lent = game, lent.now.over = way ? 0 : 7, lent.now.hands = way ? 200 : 0, lent.correctable = 0;
            CHECK_CASE(way, all_corrections_refused(&lent, HB_REFUSAL_SUPERSEDE));
            CHECK_CASE(way, correction_refused(&lent, &seat_4, HB_REFUSAL_SUPERSEDE));
            lent = game, lent.earlier.over = way ? 0 : 7, lent.earlier.hands = way ? 200 : 0;
            CHECK_CASE(way, all_corrections_refused(&lent, HB_REFUSAL_NOT_OPEN));
            CHECK_CASE(way, correction_refused(&lent, &over_15, HB_REFUSAL_ARGUMENT));
            CHECK_CASE(way, correction_refused(&lent, &seat_4, HB_REFUSAL_ARGUMENT));
            CHECK_CASE(way, hb_chombo(&lent, 2) == 0);
        }
    }
    /* the earlier position is kept as it was lent, its marks too; an accepted booking sets only those of the one that stands to 0 or 1 */
    HbGame game = hb_fresh_game(), before;
    game.now.declared[2] = 0xfe, game.now.sticks = 1, game.now.scores[2] -= 1000, before = game;
    CHECK(hb_draw(&game, HB_READY_BIT(2)) == 0 && memcmp(&game.earlier, &before.now, sizeof before.now) == 0 && !game.now.declared[2]);
    CHECK(is_corrected(&game, &results[0]) && memcmp(&game.earlier, &before.now, sizeof before.now) == 0);
    CHECK(hb_correct_draw(&game, 0) == 0 && game.now.scores[2] == 21000 && game.now.sticks == 0);
}
