/* Score, and Read and Write of the same records. */
#include "check.h"

int sum_of(const HbItems *items)
{
    int sum = items->base + items->ron + items->pair + items->wait + items->tsumo + items->rounding;
    for (size_t n = 0; n < 4; n++)
        sum += items->group[n];
    return sum;
}

int is_refused(const HbScored *scored, uint8_t refusal)
{
    int zero = scored->h == 0 && scored->fu == 0 && sum_of(&scored->items) == 0 && scored->tried == 0;
    for (size_t n = 0; n < 37; n++)
        zero = zero && !scored->yaku[n];
    for (size_t seat = 0; seat < 4; seat++)
        zero = zero && scored->changes[seat] == 0;
    return zero && scored->refusal == refusal;
}

/* Whether a score has the yaku of a line, and no other. */
static int has_yaku(const HbScored *scored, const struct line *line)
{
    bool wanted[37] = {false};
    for (size_t n = 0; n < 4; n++)
        wanted[line->yaku[n]] = line->yaku[n] != 0;
    return memcmp(wanted, scored->yaku, sizeof wanted) == 0;
}

/* Reads, writes back and scores the lines of the table. */
void table_of_hands(void)
{
    for (size_t n = 0; n < COUNT_OF(table); n++) {
        const struct line *line = &table[n];
        uint8_t *record = exact(line->record, line->length);
        HbReadHand read = hb_read(record, line->length);
        CHECK_CASE(line->number, read.refusal == 0);

        uint8_t *written = exact(line->record, line->length);
        memset(written, 0xaa, line->length);
        HbWritten whole = hb_write(read.hand, written, line->length);
        CHECK_CASE(line->number, whole.refusal == 0 && whole.len == line->length);
        CHECK_CASE(line->number, memcmp(written, record, line->length) == 0);
        HbReadHand again = hb_read(written, line->length);
        CHECK_CASE(line->number, memcmp(&again, &read, sizeof read) == 0);

        HbScored scored = hb_score(record, line->length, 0, HB_ROUND_EAST);
        CHECK_CASE(line->number, scored.refusal == line->refusal);
        CHECK_CASE(line->number, scored.h == line->h);
        CHECK_CASE(line->number, scored.fu == line->fu && sum_of(&scored.items) == line->fu);
        CHECK_CASE(line->number, memcmp(&scored.items, &line->items, sizeof scored.items) == 0);
        CHECK_CASE(line->number, has_yaku(&scored, line));
        CHECK_CASE(line->number, scored.tried == line->tried);
        CHECK_CASE(line->number, memcmp(scored.changes, line->changes, sizeof scored.changes) == 0);
        free(written);
        free(record);
    }
}

/* Refusals 1 to 8 of Read and Score. */
void refused_records(void)
{
    const uint8_t *sound = table[0].record;
    for (size_t n = 0; n < COUNT_OF(unsound); n++) {
        size_t length;
        uint8_t *record = unsound_record(n, &length);
        HbReadHand read = hb_read(record, length);
        CHECK_CASE(n, read.refusal == unsound[n].refusal);
        CHECK_CASE(n, memcmp(&read.hand, &no_hand, sizeof no_hand) == 0);
        HbScored scored = hb_score(record, length, 0, HB_ROUND_EAST);
        CHECK_CASE(n, is_refused(&scored, unsound[n].refusal));
        scored = hb_score(record, length, 4, HB_ROUND_EAST);
        CHECK_CASE(n, is_refused(&scored, HB_REFUSAL_ARGUMENT));
        free(record);
    }
    for (int n = 0; n < 256; n++) {
        CHECK_CASE(n, hb_score(sound, 13, (uint8_t)n, 0).refusal == (n > 3 ? HB_REFUSAL_ARGUMENT : 0));
        CHECK_CASE(n, hb_score(sound, 13, 0, (uint8_t)n).refusal == (n > 1 ? HB_REFUSAL_ARGUMENT : 0));
    }
}
