/* Read and Write. */
#include "check.h"

/* The fields of line 1 and the meld of line 6, one by one. */
void fields(void)
{
    static const uint8_t tiles_1[13] = {1, 2, 3, 4, 5, 6, 11, 12, 13, 19, 19, 23, 24};
    static const uint8_t tiles_6[13] = {4, 5, 6, 10, 10, 12, 13, 14, 23, 24};
    HbHand one = hb_read(table[0].record, 13).hand;
    CHECK(one.fields.how == HB_RON && one.fields.winner == 1 && one.fields.discarder == 3);
    CHECK(one.fields.riichi == HB_RIICHI_NONE && one.fields.situation == HB_ORDINARY);
    CHECK(one.fields.indicator == HB_NORTH && one.fields.winning == HB_SOU + 7 && one.held.m == 0);
    CHECK(memcmp(one.held.melds, no_hand.held.melds, 4) == 0 && memcmp(one.held.concealed, tiles_1, 13) == 0);
    HbHand six = hb_read(table[5].record, 12).hand;
    CHECK(six.held.m == 1 && six.held.melds[0] == HB_MELD(HB_MELD_CHI, HB_MAN + 1));
    CHECK(memcmp(six.held.melds + 1, no_hand.held.melds, 3) == 0 && memcmp(six.held.concealed, tiles_6, 13) == 0);
}

/* Writes a hand to a buffer of a length; whether it gives this refusal and the buffer stays. */
static int write_refused(HbHand hand, size_t length, uint8_t refusal)
{
    uint8_t before[16];
    memset(before, 0x5a, sizeof before);
    uint8_t *buffer = exact(before, length);
    HbWritten written = hb_write(hand, buffer, length);
    int stays = memcmp(buffer, before, length) == 0;
    free(buffer);
    return written.refusal == refusal && written.len == 0 && stays;
}

/* Refusals 2, 3, 4, 5 and 13 of Write, and bytes past a record. */
void writing(void)
{
    HbHand sound = hb_read(table[0].record, 13).hand, hand;
    for (size_t length = 0; length < 13; length++)
        CHECK_CASE(length, write_refused(sound, length, HB_REFUSAL_BUFFER));

    hand = sound, hand.held.m = 5;
    CHECK(write_refused(hand, 16, HB_REFUSAL_FIELD));
    hand = sound, hand.fields.how = 2;
    CHECK(write_refused(hand, 16, HB_REFUSAL_FIELD));
    hand = sound, hand.fields.winner = 4;
    CHECK(write_refused(hand, 16, HB_REFUSAL_FIELD));
    hand = sound, hand.fields.winning = 34;
    CHECK(write_refused(hand, 16, HB_REFUSAL_FIELD));
    hand = sound, hand.held.melds[3] = 1;
    CHECK(write_refused(hand, 16, HB_REFUSAL_FIELD));
    hand = hb_read(table[5].record, 12).hand, hand.held.concealed[12] = 1;
    CHECK(write_refused(hand, 16, HB_REFUSAL_FIELD));
    hand = sound, hand.held.concealed[0] = HB_CHUN;
    CHECK(write_refused(hand, 16, HB_REFUSAL_DESCENDING));
    hand = hb_read(table[9].record, 13).hand, hand.fields.indicator = HB_MAN;
    CHECK(write_refused(hand, 16, HB_REFUSAL_OVER_FOUR));
    hand = sound, hand.fields.situation = HB_FIRST_TURN;
    CHECK(write_refused(hand, 16, HB_REFUSAL_SITUATION));
    CHECK(write_refused(hand, 0, HB_REFUSAL_SITUATION));

    uint8_t buffer[16], wanted[16];
    memset(buffer, 0x5a, sizeof buffer);
    memset(wanted, 0x5a, sizeof wanted);
    memcpy(wanted, table[0].record, 13);
    HbWritten written = hb_write(sound, buffer, sizeof buffer);
    CHECK(written.refusal == 0 && written.len == 13 && memcmp(buffer, wanted, sizeof buffer) == 0);
}
