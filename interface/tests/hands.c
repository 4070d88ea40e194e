/* Hands that several tests use: the lines of the table, records that are refused. */
#include "check.h"

/* clang-format off */
const struct line table[] = {
    {1, 13, {0xb8, 0x1e, 0x64, 0x02, 0x10, 0x62, 0x0a, 0x31, 0x66, 0x1a, 0x9a, 0x6b, 0xb0},
     0, 2, 30, {20, 10, 0, {0}, 0, 0, 0}, {HB_YAKU_TANYAO, HB_YAKU_PINFU}, 1, {0, 2000, 0, -2000}},
    {2, 13, {0x20, 0x1e, 0x64, 0x02, 0x10, 0x62, 0x0a, 0x31, 0x66, 0x1a, 0x9a, 0x6b, 0xb0},
     0, 3, 20, {20, 0, 0, {0}, 0, 0, 0}, {HB_YAKU_MENZEN_TSUMO, HB_YAKU_TANYAO, HB_YAKU_PINFU}, 1, {-1300, 2700, -700, -700}},
    {3, 13, {0x98, 0x1e, 0x64, 0x02, 0x10, 0x62, 0x0a, 0x31, 0x66, 0x1a, 0x9a, 0x6b, 0xb0},
     0, 2, 30, {20, 10, 0, {0}, 0, 0, 0}, {HB_YAKU_TANYAO, HB_YAKU_PINFU}, 1, {2900, 0, 0, -2900}},
    {4, 13, {0x20, 0x1e, 0x68, 0x00, 0x00, 0x00, 0x82, 0x08, 0x41, 0x04, 0x8a, 0x2c, 0x32},
     0, 6, 20, {20, 0, 0, {0}, 0, 0, 0}, {HB_YAKU_MENZEN_TSUMO, HB_YAKU_PINFU, HB_YAKU_IIPEIKOU, HB_YAKU_JUNCHAN},
     2, {-6000, 12000, -3000, -3000}},
    {5, 13, {0xb8, 0x1e, 0x58, 0x00, 0x00, 0x20, 0x84, 0x11, 0xe7, 0xa0, 0x82, 0x28, 0xac},
     0, 3, 40, {20, 10, 0, {0}, 2, 0, 8}, {HB_YAKU_RYANPEIKOU}, 2, {0, 5200, 0, -5200}},
    {6, 12, {0xb8, 0x1e, 0x64, 0x80, 0x88, 0x28, 0xc5, 0x14, 0x61, 0xa7, 0x2e, 0xc0},
     0, 1, 30, {20, 0, 0, {0}, 0, 0, 10}, {HB_YAKU_TANYAO}, 1, {0, 1000, 0, -1000}},
    {7, 12, {0xb8, 0x1e, 0x68, 0x80, 0x18, 0x69, 0xc8, 0xa2, 0x9a, 0x8a, 0xb0, 0xc8},
     HB_REFUSAL_NO_YAKU, 0, 0, {0}, {0}, 0, {0}},
    {8, 13, {0xb8, 0x1e, 0x60, 0x00, 0x00, 0x05, 0x96, 0x5a, 0xcb, 0x2c, 0xc3, 0x0d, 0x34},
     0, 4, 50, {20, 10, 0, {8, 4, 4, 2}, 0, 0, 2}, {HB_YAKU_TOITOI, HB_YAKU_SANANKOU}, 1, {0, 8000, 0, -8000}},
    {9, 13, {0x20, 0x1e, 0x60, 0x00, 0x00, 0x05, 0x96, 0x5a, 0xcb, 0x2c, 0xc3, 0x0d, 0x34},
     0, 0, 0, {0}, {HB_YAKU_SUUANKOU}, 1, {-16000, 32000, -8000, -8000}},
    {12, 13, {0xb8, 0x1e, 0x40, 0x00, 0x00, 0x00, 0x06, 0x18, 0xc3, 0x14, 0x51, 0xa6, 0xa0},
     HB_REFUSAL_NO_READING, 0, 0, {0}, {0}, 0, {0}},
    /* seven pairs 1122m 3344p 5566s EE */
    {101, 13, {0xb8, 0x1e, 0x6c, 0x00, 0x00, 0x20, 0x96, 0x59, 0x86, 0x2c, 0xb2, 0xeb, 0xb6},
     0, 4, 25, {25, 0, 0, {0}, 0, 0, 0}, {HB_YAKU_CHIITOITSU}, 1, {0, 6400, 0, -6400}},
    /* the reading's group, then the melds in the record's order: 456m by 5m, kans 9999s 2222p, closed kan EEEE, pair white */
    {102, 10, {0x20, 0x1e, 0x11, 0xcd, 0x45, 0x6d, 0x86, 0x2b, 0xef, 0x80},
     0, 7, 90, {20, 0, 2, {0, 16, 8, 32}, 2, 2, 8}, {HB_YAKU_YAKUHAI, HB_YAKU_SANKANTSU}, 1, {-6000, 12000, -3000, -3000}},
    /* 345s by 3s, 888s, pair 99p, pon EEE, chi 123m; then the melds the other way round */
    {103, 11, {0xb8, 0x1e, 0x51, 0x2d, 0x80, 0x22, 0x8a, 0xab, 0x32, 0xcb, 0x20},
     0, 4, 30, {20, 0, 0, {0, 4, 4, 0}, 0, 0, 2}, {HB_YAKU_YAKUHAI}, 1, {0, 7700, 0, -7700}},
    {104, 11, {0xb8, 0x1e, 0x51, 0x00, 0x2d, 0xa2, 0x8a, 0xab, 0x32, 0xcb, 0x20},
     0, 4, 30, {20, 0, 0, {0, 4, 0, 4}, 0, 0, 2}, {HB_YAKU_YAKUHAI}, 1, {0, 7700, 0, -7700}},
    /* thirteen orphans */
    {105, 13, {0x20, 0x1e, 0x84, 0x00, 0x41, 0x28, 0xa4, 0xd3, 0x6e, 0x3a, 0xf3, 0xf0, 0x42},
     0, 0, 0, {0}, {HB_YAKU_KOKUSHI_MUSOU}, 1, {-16000, 32000, -8000, -8000}},
    /* 111222333m by 1m, 456p, 99s: a place in each of three equal runs, and triplets with no yaku */
    {106, 13, {0xb8, 0x1e, 0x00, 0x00, 0x00, 0x20, 0x82, 0x10, 0x41, 0x18, 0x69, 0xcd, 0x34},
     0, 2, 30, {20, 10, 0, {0}, 0, 0, 0}, {HB_YAKU_PINFU, HB_YAKU_IIPEIKOU}, 4, {0, 2000, 0, -2000}},
    /* 111 2222 3333 444m by 3m: the most readings there are */
    {107, 13, {0xb8, 0x1e, 0x08, 0x00, 0x00, 0x00, 0x82, 0x08, 0x21, 0x04, 0x10, 0x61, 0x86},
     0, 8, 50, {20, 10, 0, {0, 4, 4, 4}, 2, 0, 6}, {HB_YAKU_SANANKOU, HB_YAKU_CHINITSU}, 12, {0, 16000, 0, -16000}},
    /* 11 222 333 444 555m by 4m: six readings of runs, then four concealed triplets; two with another pair come after */
    {108, 13, {0x20, 0x1e, 0x0c, 0x00, 0x00, 0x20, 0x82, 0x10, 0x41, 0x06, 0x18, 0x82, 0x08},
     0, 0, 0, {0}, {HB_YAKU_SUUANKOU}, 7, {-16000, 32000, -8000, -8000}},
    /* the same by 2m: four readings of runs before the yakuman */
    {109, 13, {0x20, 0x1e, 0x04, 0x00, 0x00, 0x20, 0x84, 0x10, 0x41, 0x86, 0x18, 0x82, 0x08},
     0, 0, 0, {0}, {HB_YAKU_SUUANKOU}, 5, {-16000, 32000, -8000, -8000}},
    /* 107 by 2m */
    {110, 13, {0xb8, 0x1e, 0x04, 0x00, 0x00, 0x00, 0x82, 0x08, 0x41, 0x04, 0x10, 0x61, 0x86},
     0, 8, 50, {20, 10, 0, {0, 4, 4, 4}, 2, 0, 6}, {HB_YAKU_SANANKOU, HB_YAKU_CHINITSU}, 12, {0, 16000, 0, -16000}},
    /* the dealer: 123m 123p by 3p, 99p, chi 123s, pon EEE, indicator 8p */
    {111, 11, {0x98, 0x10, 0x2d, 0x09, 0x2d, 0x80, 0x08, 0x44, 0x94, 0x8a, 0x20},
     0, 6, 30, {20, 0, 0, {0, 0, 0, 4}, 2, 0, 4}, {HB_YAKU_YAKUHAI, HB_YAKU_SANSHOKU_DOUJUN, HB_YAKU_CHANTA}, 1, {18000, 0, 0, -18000}},
};
/* clang-format on */

const uint8_t with_riichi[] = {0xba, 0x1e, 0x64, 0x02, 0x10, 0x62, 0x0a, 0x31, 0x66, 0x1a, 0x9a, 0x6b, 0xb0};

const struct unsound unsound[] = {
    {HB_REFUSAL_LENGTH, 1, 3, {{0, 0}}},                                        /* under 4 bytes */
    {HB_REFUSAL_LENGTH, 1, 13, {{2, 0x66}, {3, 0x82}}},                         /* m 5 */
    {HB_REFUSAL_LENGTH, 1, 12, {{0, 0}}},                                       /* a length not m's */
    {HB_REFUSAL_LENGTH, 1, 12, {{0, 0xbe}}},                                    /* 2 is met too, but 1 comes first */
    {HB_REFUSAL_FIELD, 1, 0, {{1, 0x22}}},                                      /* indicator 34 */
    {HB_REFUSAL_FIELD, 1, 0, {{2, 0x88}}},                                      /* winning tile 34 */
    {HB_REFUSAL_FIELD, 1, 0, {{12, 0xc4}}},                                     /* concealed tile 34 */
    {HB_REFUSAL_FIELD, 6, 0, {{3, 0xb1}, {4, 0x08}}},                           /* pon of 34 */
    {HB_REFUSAL_FIELD, 1, 0, {{0, 0xbe}}},                                      /* riichi 3 */
    {HB_REFUSAL_FIELD, 1, 0, {{0, 0xb9}, {1, 0x5e}}},                           /* situation 5 */
    {HB_REFUSAL_FIELD, 6, 0, {{3, 0x83}}},                                      /* chi from man 8 */
    {HB_REFUSAL_FIELD, 1, 0, {{12, 0xb1}}},                                     /* a padding bit set */
    {HB_REFUSAL_FIELD, 2, 0, {{0, 0x38}}},                                      /* tsumo with discarder 3 */
    {HB_REFUSAL_FIELD, 1, 0, {{0, 0xa8}}},                                      /* ron with discarder 1, winner 1 */
    {HB_REFUSAL_DESCENDING, 1, 0, {{3, 0x42}}},                                 /* first tile 33 */
    {HB_REFUSAL_OVER_FOUR, 12, 0, {{1, 0x00}}},                                 /* indicator man 1, with 1111m */
    {HB_REFUSAL_SITUATION, 6, 0, {{0, 0xba}}},                                  /* riichi with a chi */
    {HB_REFUSAL_SITUATION, 6, 0, {{0, 0xbc}, {3, 0xe4}, {4, 0x08}}},            /* double riichi with a closed kan */
    {HB_REFUSAL_SITUATION, 6, 0, {{1, 0x5e}, {3, 0xe4}, {4, 0x08}}},            /* rinshan on ron */
    {HB_REFUSAL_SITUATION, 6, 0, {{0, 0x22}, {1, 0x5e}, {3, 0xe4}, {4, 0x08}}}, /* rinshan with riichi */
    {HB_REFUSAL_SITUATION, 2, 0, {{1, 0x5e}}},                                  /* rinshan without a kan */
    {HB_REFUSAL_SITUATION, 2, 0, {{1, 0x9e}}},                                  /* chankan on tsumo */
    {HB_REFUSAL_SITUATION, 5, 0, {{1, 0x9e}}},                                  /* chankan with sou 5 held twice */
    {HB_REFUSAL_SITUATION, 1, 0, {{0, 0xb9}}},                                  /* first turn with ron */
    {HB_REFUSAL_SITUATION, 6, 0, {{0, 0x21}}},                                  /* first turn with a meld */
    {HB_REFUSAL_SITUATION, 2, 0, {{0, 0x23}}},                                  /* first turn with riichi */
};

const HbHand no_hand;

uint8_t *exact(const uint8_t *bytes, size_t length)
{
    uint8_t *copy = malloc(length ? length : 1);
    if (!copy)
        exit(2);
    if (length)
        memcpy(copy, bytes, length);
    return copy;
}

uint8_t *unsound_record(size_t n, size_t *length)
{
    const struct line *line = table;
    while (line->number != unsound[n].line)
        line++;
    *length = unsound[n].length ? unsound[n].length : line->length;
    uint8_t *record = exact(line->record, *length);
    for (size_t edit = 0; edit < 4; edit++)
        if (unsound[n].edits[edit].at || unsound[n].edits[edit].value)
            record[unsound[n].edits[edit].at] = unsound[n].edits[edit].value;
    return record;
}

const struct line *numbered(int number)
{
    size_t n = 0;
    while (table[n].number != number)
        n++;
    return &table[n];
}
