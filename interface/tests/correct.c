/* The four corrections. */
#include "check.h"

const Result *each_result(void)
{
    static Result list[RESULTS] = {
        {HB_KIND_WIN, 0, 13, {0}}, {HB_KIND_WIN, 0, 13, {0}}, {HB_KIND_WIN, 0, 13, {0}}, /* lines 1, 2 and 3 */
        {HB_KIND_DRAW, HB_READY_BIT(0), 0, {0}},
        {HB_KIND_DRAW, HB_READY_BIT(1) + HB_READY_BIT(3), 0, {0}},
        {HB_KIND_DRAW, HB_READY_BIT(1), 0, {0}},
        {HB_KIND_CHOMBO, 0, 0, {0}},
        {HB_KIND_CHOMBO, 3, 0, {0}},
        {HB_KIND_MULTI_RON, 2, 25, {0}},
        {HB_KIND_MULTI_RON, 1, 12, {0}}, /* lines 1 and 6; line 6 of seat 0 */
    };
    for (size_t n = 0; n < 3; n++)
        memcpy(list[n].records, table[n].record, 13);
    put_ron(list[8].records, put_ron(list[8].records, 0, table[0].record, 13, 1, 3), numbered(6)->record, 12, 2, 3);
    put_ron(list[9].records, 0, numbered(6)->record, 12, 0, 2);
    return list;
}

uint8_t book_result(HbGame *game, const Result *result)
{
    uint8_t *own = exact(result->records, result->length);
    uint8_t refusal = result->kind == HB_KIND_WIN         ? hb_win(game, own, result->length)
                      : result->kind == HB_KIND_DRAW      ? hb_draw(game, result->argument)
                      : result->kind == HB_KIND_MULTI_RON ? hb_multi_ron(game, result->argument, own, result->length)
                                                          : hb_chombo(game, result->argument);
    free(own);
    return refusal;
}

/* Books a result instead of the last one. */
static uint8_t correct(HbGame *game, const Result *result)
{
    uint8_t *own = exact(result->records, result->length);
    uint8_t refusal = result->kind == HB_KIND_WIN         ? hb_correct_win(game, own, result->length)
                      : result->kind == HB_KIND_DRAW      ? hb_correct_draw(game, result->argument)
                      : result->kind == HB_KIND_MULTI_RON ? hb_correct_multi_ron(game, result->argument, own, result->length)
                                                          : hb_correct_chombo(game, result->argument);
    free(own);
    return refusal;
}

uint8_t *correction_entry(const Result *result)
{
    uint8_t entry[2 + sizeof result->records] = {HB_ENTRY(HB_KIND_CORRECTION, 0), HB_ENTRY(result->kind, result->argument)};
    memcpy(entry + 2, result->records, result->length);
    return exact(entry, 2 + result->length);
}

int correction_refused(const HbGame *game, const Result *result, uint8_t refusal)
{
    HbGame copy = *game;
    int same = correct(&copy, result) == refusal;
    if (result->argument <= 15) {
        size_t length = 2 + result->length;
        uint8_t *entry = correction_entry(result), wanted = hb_log_next(entry, length, 0).length == length ? refusal : HB_REFUSAL_ENTRY;
        same = same && hb_book_entry(&copy, entry, length) == wanted;
        free(entry);
    }
    return same && memcmp(&copy, game, sizeof copy) == 0;
}

int is_corrected(HbGame *game, const Result *result)
{
    HbGame wanted = hb_fresh_game(), copy = *game;
    wanted.now = game->earlier;
    int same = book_result(&wanted, result) == 0 && memcmp(&wanted.earlier, &game->earlier, sizeof wanted.earlier) == 0 && wanted.correctable == 1;
    same = same && correct(game, result) == 0 && memcmp(game, &wanted, sizeof wanted) == 0;
    uint8_t *entry = correction_entry(result);
    same = same && hb_book_entry(&copy, entry, 2 + result->length) == 0 && memcmp(&copy, &wanted, sizeof wanted) == 0;
    free(entry);
    return same;
}

int all_corrections_refused(const HbGame *game, uint8_t refusal)
{
    for (size_t n = 0; n < RESULTS; n++)
        if (!correction_refused(game, &each_result()[n], refusal))
            return 0;
    return 1;
}

/* A hand in play: an older stick, two counters, the deal of seat 0, seat 3 declared, and a feeder of seat 1's and of seat 2's named. */
static HbGame in_play(void)
{
    HbGame game = hb_fresh_game();
    game.now.scores[2] = 29000, game.now.sticks = 1, game.now.hands = 2, game.now.counter = 2;
    CHECK(hb_riichi(&game, 3) == 0 && hb_pao(&game, 1, 0, HB_YAKU_SUUSHIIHOU) == 0 && hb_pao(&game, 2, 3, HB_YAKU_DAISANGEN) == 0);
    CHECK(game.correctable == 0);
    return game;
}

/* Each result put right by each, and that by the first again: "the game is the one in which the superseded booking was never made and the
 * new one was". Refused bookings in between change nothing. */
void corrections(void)
{
    const Result *results = each_result();
    HbGame start = in_play();
    for (size_t old = 0; old < RESULTS; old++)
        for (size_t other = 0; other < RESULTS; other++) {
            HbGame game = start, wanted = start, first;
            CHECK_CASE(100 * old + other, book_result(&game, &results[old]) == 0 && book_result(&wanted, &results[other]) == 0);
            CHECK_CASE(100 * old + other, memcmp(&game.earlier, &start.now, sizeof start.now) == 0 && game.correctable == 1);
            first = game;
            CHECK_CASE(100 * old + other, hb_riichi(&game, 4) == HB_REFUSAL_ARGUMENT && hb_pao(&game, 1, 1, 28) == HB_REFUSAL_PAO);
            CHECK_CASE(100 * old + other, hb_win(&game, table[9].record, 13) == HB_REFUSAL_NO_READING);
            CHECK_CASE(100 * old + other, hb_correct_draw(&game, 16) == HB_REFUSAL_ARGUMENT && memcmp(&game, &first, sizeof game) == 0);
            CHECK_CASE(100 * old + other, is_corrected(&game, &results[other]) && memcmp(&game, &wanted, sizeof game) == 0);
            CHECK_CASE(100 * old + other, is_corrected(&game, &results[old]) && memcmp(&game, &first, sizeof game) == 0);
        }
}

/* What comes back with a correction: sticks, counters, declared seats, feeders and the deal of the superseded hand. */
void given_back(void)
{
    static const int32_t by_win[] = {30000, 34600, 29000, 26400};  /* line 1: 2,000, 600 for counters, two sticks */
    static const int32_t by_pao[] = {-2600, 64600, 29000, 29000};  /* four winds: seat 0 pays 32,000 and 600 */
    static const int32_t by_draw[] = {33000, 33000, 32000, 21000}; /* seat 3 has declared and is not ready: its stick goes back */
    static const int32_t by_chombo[] = {21000, 33000, 32000, 33000};
    static const uint8_t nobody[8] = {0};
    uint8_t winds[13];
    HbGame game = in_play(), start = game;
    memcpy(winds, yakuman[WINDS].record, 13);
    CHECK(hb_win(&game, table[0].record, 13) == 0 && is_game(&game, by_win, 0, 1, HB_ROUND_EAST, 3) && game.now.counter == 0);
    CHECK(hb_correct_win(&game, winds, 13) == 0 && is_game(&game, by_pao, 0, 1, HB_ROUND_EAST, 3) && game.now.counter == 0);
    CHECK(hb_correct_draw(&game, HB_READY_BIT(0)) == 0 && is_game(&game, by_draw, 1, 0, HB_ROUND_EAST, 3) && game.now.counter == 2);
    CHECK(hb_correct_chombo(&game, 0) == 0 && is_game(&game, by_chombo, 1, 0, HB_ROUND_EAST, 3) && game.now.counter == 2);
    CHECK(memcmp(game.now.feeders, nobody, sizeof nobody) == 0 && !game.now.declared[3]);
    CHECK(memcmp(&game.earlier, &start.now, sizeof start.now) == 0 && game.correctable == 1);
    /* a win of the declared seat: with riichi, which it has not in the position that stands */
    uint8_t declared[13];
    CHECK(put_ron(declared, 0, with_riichi, 13, 3, 2) == 13);
    CHECK(hb_win(&game, declared, 13) == HB_REFUSAL_RIICHI && hb_correct_win(&game, declared, 13) == 0 && game.now.sticks == 0);
}

/* Refusal 20: nothing booked yet, or a riichi or a pao accepted since; before the refusals of the new booking. The next result can be
 * put right again. */
void none_to_supersede(void)
{
    static const Result unfit[] = {
        {HB_KIND_DRAW, 16, 0, {0}},
        {HB_KIND_CHOMBO, 4, 0, {0}},
        {HB_KIND_WIN, 0, 0, {0}},
        {HB_KIND_MULTI_RON, 0, 0, {0}},
        {HB_KIND_MULTI_RON, 255, 3, {0}},
    };
    const Result *results = each_result();
    HbGame fresh = hb_fresh_game();
    CHECK(all_corrections_refused(&fresh, HB_REFUSAL_SUPERSEDE));
    for (size_t n = 0; n < COUNT_OF(unfit); n++)
        CHECK_CASE(n, correction_refused(&fresh, &unfit[n], HB_REFUSAL_SUPERSEDE));
    for (size_t n = 0; n < RESULTS; n++)
        for (int since = 0; since < 2; since++) {
            HbGame game = fresh, before;
            CHECK_CASE(n, book_result(&game, &results[n]) == 0);
            before = game;
            CHECK_CASE(n, (since ? hb_pao(&game, 0, 2, HB_YAKU_DAISANGEN) : hb_riichi(&game, 3)) == 0);
            CHECK_CASE(n, memcmp(&game.earlier, &before.now, sizeof before.now) == 0 && game.correctable == 0);
            CHECK_CASE(n, all_corrections_refused(&game, HB_REFUSAL_SUPERSEDE));
            for (size_t k = 0; k < COUNT_OF(unfit); k++)
                CHECK_CASE(k, correction_refused(&game, &unfit[k], HB_REFUSAL_SUPERSEDE));
            CHECK_CASE(n, hb_chombo(&game, 1) == 0 && is_corrected(&game, &results[n]));
        }
}

/* Where the new booking is refused, the old one stands: each refusal of a win, a draw, a chombo and a multiple ron, in the earlier
 * position, in which seat 1 has declared. */
void refused_corrections(void)
{
    HbGame game = hb_fresh_game(), declared;
    CHECK(hb_riichi(&game, 1) == 0);
    declared = game;
    CHECK(hb_draw(&game, HB_READY_BIT(1)) == 0);
    Result result = {HB_KIND_WIN, 0, 0, {0}};
    for (size_t n = 0; n < COUNT_OF(unsound); n++) {
        uint8_t *record = unsound_record(n, &result.length);
        memcpy(result.records, record, result.length);
        result.kind = HB_KIND_WIN, result.argument = 0;
        CHECK_CASE(n, correction_refused(&game, &result, unsound[n].refusal));
        result.kind = HB_KIND_MULTI_RON, result.argument = 1;
        CHECK_CASE(n, correction_refused(&game, &result, unsound[n].refusal));
        free(record);
    }
    static const struct {
        uint8_t refusal;
        int line;
    } wins[] = {{HB_REFUSAL_NO_YAKU, 7}, {HB_REFUSAL_NO_READING, 12}, {HB_REFUSAL_RIICHI, 1}, {HB_REFUSAL_RIICHI, 2}};
    for (size_t n = 0; n < COUNT_OF(wins); n++) {
        const struct line *line = numbered(wins[n].line);
        result.length = line->length, memcpy(result.records, line->record, line->length);
        result.kind = HB_KIND_WIN, result.argument = 0;
        CHECK_CASE(n, correction_refused(&game, &result, wins[n].refusal));
        result.kind = HB_KIND_MULTI_RON, result.argument = 1;
        CHECK_CASE(n, correction_refused(&game, &result, wins[n].line == 2 ? HB_REFUSAL_MULTI_RON : wins[n].refusal));
    }
    for (size_t n = 0; n < COUNT_OF(seconds); n++) {
        size_t at = put_ron(result.records, 0, with_riichi, 13, 1, 3);
        memcpy(result.records + at, seconds[n].record, seconds[n].length);
        result.kind = HB_KIND_MULTI_RON, result.argument = 2, result.length = at + seconds[n].length;
        CHECK_CASE(n, correction_refused(&game, &result, seconds[n].refusal));
    }
    for (int n = 0; n < 256; n++) {
        Result draw = {HB_KIND_DRAW, (uint8_t)n, 0, {0}}, chombo = {HB_KIND_CHOMBO, (uint8_t)n, 0, {0}};
        Result rons = {HB_KIND_MULTI_RON, (uint8_t)n, 13, {0}};
        memcpy(rons.records, with_riichi, 13);
        CHECK_CASE(n, n <= 15 || correction_refused(&game, &draw, HB_REFUSAL_ARGUMENT));
        CHECK_CASE(n, n <= 3 || correction_refused(&game, &chombo, HB_REFUSAL_ARGUMENT));
        CHECK_CASE(n, (n > 0 && n <= 3) || correction_refused(&game, &rons, HB_REFUSAL_MULTI_RON));
    }
    Result riichi = {HB_KIND_WIN, 0, 13, {0}};
    memcpy(riichi.records, with_riichi, 13);
    CHECK(memcmp(&game.earlier, &declared.now, sizeof declared.now) == 0 && is_corrected(&game, &riichi));
}

/* "This holds too when the superseded one had ended the game": after South's seat 3, where play may go on then, and at the 200th hand. */
void corrected_ends(void)
{
    const Result *results = each_result();
    HbGame last_deal = hb_fresh_game(), last_hand = hb_fresh_game();
    last_deal.now.dealer = 3, last_deal.now.wind = HB_ROUND_SOUTH, last_deal.now.hands = 7, last_deal.now.counter = 1;
    last_hand.now.hands = 199, last_hand.now.counter = 199;
    for (size_t n = 0; n < RESULTS; n++) {
        HbGame game = last_deal;
        CHECK_CASE(n, hb_draw(&game, 0) == 0 && game.now.over == 1 && all_refused(&game, HB_REFUSAL_NOT_OPEN));
        CHECK_CASE(n, is_corrected(&game, &results[n]));
        CHECK_CASE(n, game.now.dealer == 3 && game.now.wind == HB_ROUND_SOUTH && game.now.hands == 8);
        /* seat 3 is ready in the second draw alone, and wins in none */
        int over = results[n].kind != HB_KIND_CHOMBO && n != 4;
        CHECK_CASE(n, game.now.over == over && (over ? all_refused(&game, HB_REFUSAL_NOT_OPEN) : hb_riichi(&game, 0) == 0));
        CHECK_CASE(n, over ? is_corrected(&game, &results[6]) && !game.now.over : all_corrections_refused(&game, HB_REFUSAL_SUPERSEDE));
        CHECK_CASE(n, hb_draw(&game, HB_READY_BIT(0)) == 0 && game.now.over == 1);

        game = last_hand;
        CHECK_CASE(n, hb_chombo(&game, 2) == 0 && game.now.over == 1 && game.now.hands == 200);
        CHECK_CASE(n, is_corrected(&game, &results[n]) && game.now.over == 1 && game.now.hands == 200);
        CHECK_CASE(n, all_refused(&game, HB_REFUSAL_NOT_OPEN) && is_corrected(&game, &results[0]));
    }
}
