/* The six messages. */
#include "check.h"

/* ---- What is said: clips as the paper writes them, #n for the number n as the language has it. */

enum { JA,
       EN,
       KO,
       ZH,
       LANGUAGES };

/* Numbers in Japanese, English, Korean and Mandarin: the paper's table, then others by its rules. */
/* clang-format off */
static const struct {
    uint32_t number;
    const char *clips[LANGUAGES];
} numerals[] = {
    {1300, {"28 21", "1 51 21", "28 21", "28 21"}},
    {8000, {"35", "8 51", "35", "35"}},
    {10500, {"1 37 23", "10 51 23", "37 23", "1 37 0 23"}},
    {12000, {"1 37 29", "43 51", "37 29", "1 37 29"}},
    {20000, {"2 37", "11 51", "2 37", "41 37"}},
    {110010, {"10 1 37 10", "19 10 51 10", "10 1 37 10", "10 1 37 0 40"}},
    {28341000, {"29 26 12 4 37 28", "11 8 52 21 13 1 51", "29 26 12 4 37 28", "29 26 12 4 37 28"}},
    {10000000, {"39 37", "10 52", "28 37", "28 37"}},
    {12300000, {"28 20 12 37", "43 52 21 51", "28 20 12 37", "28 20 12 37"}},
    {105000, {"10 37 32", "19 5 51", "10 37 32", "10 37 32"}},
    {100010000, {"1 38 1 37", "19 52 10 51", "1 38 1 37", "1 38 0 1 37"}},
    {100005000, {"1 38 32", "19 52 5 51", "1 38 32", "1 38 0 32"}},
    /* the highest score without its sign, and the highest number */
    {2147483648, {"11 1 38 31 25 13 8 37 30 24 13 8", "2 53 19 13 7 52 22 17 3 51 24 13 8",
                  "11 1 38 31 25 13 8 37 30 24 13 8", "11 1 38 31 25 13 8 37 30 24 13 8"}},
    {4294967295, {"13 2 38 36 22 18 6 37 34 20 18 5", "4 53 20 18 4 52 27 15 7 51 20 18 5",
                  "13 2 38 36 22 18 6 37 34 20 18 5", "13 2 38 36 22 18 6 37 34 20 18 5"}},
    /* 0 alone; under a hundred the same in all four but for eleven to nineteen */
    {0, {"0", "0", "0", "0"}},
    {1, {"1", "1", "1", "1"}},
    {2, {"2", "2", "2", "2"}},
    {3, {"3", "3", "3", "3"}},
    {4, {"4", "4", "4", "4"}},
    {6, {"6", "6", "6", "6"}},
    {7, {"7", "7", "7", "7"}},
    {8, {"8", "8", "8", "8"}},
    {10, {"10", "10", "10", "10"}},
    {13, {"10 3", "44", "10 3", "10 3"}},
    {16, {"10 6", "47", "10 6", "10 6"}},
    {20, {"11", "11", "11", "11"}},
    {25, {"11 5", "11 5", "11 5", "11 5"}},
    {30, {"12", "12", "12", "12"}},
    {32, {"12 2", "12 2", "12 2", "12 2"}},
    {40, {"13", "13", "13", "13"}},
    {50, {"14", "14", "14", "14"}},
    {90, {"18", "18", "18", "18"}},
    /* ten and zeros inside a number */
    {110, {"19 10", "19 10", "19 10", "19 40"}},
    {105, {"19 5", "19 5", "19 5", "19 0 5"}},
    {1001, {"28 1", "1 51 1", "28 1", "28 0 1"}},
    {1010, {"28 10", "1 51 10", "28 10", "28 0 40"}},
    {20010, {"2 37 10", "11 51 10", "2 37 10", "41 37 0 40"}},
    {200020000, {"2 38 2 37", "20 52 11 51", "2 38 2 37", "41 38 0 41 37"}},
    {10001000, {"39 37 28", "10 52 1 51", "28 37 28", "28 37 28"}},
    {11000000, {"28 19 37", "42 52", "28 19 37", "28 19 37"}},
    {10000, {"1 37", "10 51", "37", "1 37"}},
    {30000, {"3 37", "12 51", "3 37", "3 37"}},
    {31000, {"3 37 28", "12 1 51", "3 37 28", "3 37 28"}},
    {29000, {"2 37 36", "11 9 51", "2 37 36", "41 37 36"}},
    {700, {"25", "25", "25", "25"}},
    {2000, {"29", "2 51", "29", "29"}},
    {2700, {"29 25", "2 51 25", "29 25", "29 25"}},
    {2900, {"29 27", "2 51 27", "29 27", "29 27"}},
    {3000, {"30", "3 51", "30", "30"}},
    {5200, {"32 20", "5 51 20", "32 20", "32 20"}},
    {6000, {"33", "6 51", "33", "33"}},
    {16000, {"1 37 33", "47 51", "37 33", "1 37 33"}},
    {32000, {"3 37 29", "12 2 51", "3 37 29", "3 37 29"}},
    /* ours: clips 39, 40 and 41 inside a number */
    {410000000, {"4 38 39 37", "22 10 52", "4 38 28 37", "4 38 28 37"}},
    {200020000, {"2 38 2 37", "20 52 11 51", "2 38 2 37", "41 38 0 41 37"}},
    {100110000, {"1 38 10 1 37", "19 52 19 10 51", "1 38 10 1 37", "1 38 0 40 1 37"}},
};
/* clang-format on */

/* The clips of a text in a language at the start of bytes, and how many. */
static size_t clips_of(const char *text, int language, uint8_t *clips)
{
    size_t count = 0;
    for (const char *at = text; *at;) {
        char *end;
        int spelled = *at == '#';
        unsigned long number = strtoul(at + spelled, &end, 10);
        if (spelled) {
            size_t k = 0;
            while (k < COUNT_OF(numerals) && numerals[k].number != number)
                k++;
            if (k == COUNT_OF(numerals))
                exit(2);
            count += clips_of(numerals[k].clips[language], language, clips + count);
        } else {
            clips[count++] = (uint8_t)number;
        }
        at = *end == ' ' ? end + 1 : end;
    }
    return count;
}

/* What is to be said: a call and its arguments. */
typedef struct {
    enum { SAY_SCORE,
           SAY_FU,
           SAY_SCORES,
           SAY_REFUSAL,
           SAY_WAITS,
           SAY_READY } what;
    const uint8_t *bytes; /* a record or an unfinished hand */
    size_t length;
    uint8_t dealer, wind, number;
    const uint8_t *discards;
    size_t discarded;
    HbPosition position;
} Asked;

static HbSaid ask(const Asked *asked, uint8_t language, uint8_t *buf, size_t length)
{
    switch (asked->what) {
    case SAY_SCORE: return hb_say_score(language, asked->bytes, asked->length, asked->dealer, asked->wind, buf, length);
    case SAY_FU: return hb_say_fu(language, asked->bytes, asked->length, asked->dealer, asked->wind, buf, length);
    case SAY_SCORES: return hb_say_scores(language, &asked->position, buf, length);
    case SAY_REFUSAL: return hb_say_refusal(language, asked->number, buf, length);
    case SAY_WAITS: return hb_say_waits(language, asked->bytes, asked->length, asked->discards, asked->discarded, buf, length);
    default: return hb_say_ready(language, asked->bytes, asked->length, buf, length);
    }
}

/* Refused with a number in a buffer of a length, and no byte of it changed. */
static void not_said(int number, const Asked *asked, uint8_t language, size_t length, uint16_t refusal)
{
    uint8_t before[HB_MESSAGE_MAX + 1];
    memset(before, 0x5a, sizeof before);
    uint8_t *buf = exact(before, length);
    HbSaid said = ask(asked, language, buf, length);
    CHECK_CASE(number, said.refusal == refusal && said.len == 0 && memcmp(buf, before, length) == 0);
    free(buf);
}

/* Said in each language: in a buffer of just its length, one longer and one of HB_MESSAGE_MAX, bytes past it kept; one byte short is 13. */
static void is_said(int number, const Asked *asked, const char *text)
{
    for (int k = JA; k < LANGUAGES; k++) {
        uint8_t wanted[256], language = (uint8_t)(HB_JAPANESE + k);
        memset(wanted, 0x5a, sizeof wanted);
        size_t count = clips_of(text, k, wanted), lengths[] = {count, count + 1, HB_MESSAGE_MAX};
        CHECK_CASE(number, count <= HB_MESSAGE_MAX);
        for (size_t i = 0; i < COUNT_OF(lengths); i++) {
            uint8_t before[256];
            memset(before, 0x5a, sizeof before);
            uint8_t *buf = exact(before, lengths[i]);
            HbSaid said = ask(asked, language, buf, lengths[i]);
            CHECK_CASE(number, said.refusal == 0 && said.len == count);
            CHECK_CASE(number, memcmp(buf, wanted, lengths[i]) == 0);
            free(buf);
        }
        not_said(number, asked, language, count - 1, HB_REFUSAL_BUFFER);
        not_said(number, asked, language, 0, HB_REFUSAL_BUFFER);
    }
    /* a language that is none comes before a short buffer */
    not_said(number, asked, 0, HB_MESSAGE_MAX, HB_REFUSAL_ARGUMENT);
    not_said(number, asked, 5, 0, HB_REFUSAL_ARGUMENT);
    not_said(number, asked, 255, HB_MESSAGE_MAX, HB_REFUSAL_ARGUMENT);
}

/* Refused in each language, before a short buffer, and after a language that is none. */
static void is_not_said(int number, const Asked *asked, uint16_t refusal)
{
    for (uint8_t language = HB_JAPANESE; language <= HB_MANDARIN; language++) {
        not_said(number, asked, language, HB_MESSAGE_MAX, refusal);
        not_said(number, asked, language, 0, refusal);
    }
    not_said(number, asked, 0, 0, HB_REFUSAL_ARGUMENT);
    not_said(number, asked, 5, HB_MESSAGE_MAX, HB_REFUSAL_ARGUMENT);
}

/* The scores of a position: each number of the list as a score, below 0 too, and as sticks and counters; names by the dealer; any value. */
void scores_said(void)
{
    char text[64];
    Asked asked = {.what = SAY_SCORES};
    for (size_t k = 0; k < COUNT_OF(numerals); k++) {
        uint32_t n = numerals[k].number;
        if (n < 2147483648) {
            asked.position = (HbPosition){.scores = {(int32_t)n, 0, 0, 0}};
            sprintf(text, "60 #%u 68 61 0 68 62 0 68 63 0 68", (unsigned)n);
            is_said((int)k, &asked, text);
        }
        if (0 < n && n <= 2147483648) {
            asked.position = (HbPosition){.scores = {0, 0, (int32_t) - (int64_t)n, 0}};
            sprintf(text, "60 0 68 61 0 68 62 76 #%u 68 63 0 68", (unsigned)n);
            is_said((int)k, &asked, text);
        }
        if (0 < n) {
            asked.position = (HbPosition){.sticks = n};
            sprintf(text, "60 0 68 61 0 68 62 0 68 63 0 68 77 #%u", (unsigned)n);
            is_said((int)k, &asked, text);
            asked.position = (HbPosition){.counter = n};
            sprintf(text, "60 0 68 61 0 68 62 0 68 63 0 68 78 #%u", (unsigned)n);
            is_said((int)k, &asked, text);
        }
    }
    asked.position = hb_fresh_game().now;
    is_said(1000, &asked, "60 #30000 68 61 #30000 68 62 #30000 68 63 #30000 68");
    asked.position = (HbPosition){.scores = {29000, 31000, -1300, 0}, .sticks = 1, .counter = 2, .dealer = 3, .wind = 1};
    is_said(1001, &asked, "61 #29000 68 62 #31000 68 63 76 #1300 68 60 0 68 77 #1 78 #2");
    asked.position.dealer = 7, asked.position.over = 0x40, asked.position.wind = 9, asked.position.declared[2] = 0xff;
    is_said(1002, &asked, "61 #29000 68 62 #31000 68 63 76 #1300 68 60 0 68 77 #1 78 #2");
    for (size_t seat = 0; seat < 4; seat++)
        asked.position.scores[seat] = INT32_MIN;
    asked.position.sticks = asked.position.counter = UINT32_MAX, asked.position.dealer = 0;
    is_said(1003, &asked, "60 76 #2147483648 68 61 76 #2147483648 68 62 76 #2147483648 68 63 76 #2147483648 68 77 #4294967295 78 #4294967295");
}

/* Hands of the table, and their fu. */
void hands_said(void)
{
    static const struct {
        int line;
        uint8_t dealer;
        const char *score, *fu;
    } told[] = {
        {1, 0, "61 64 142 144 #2 69 #30 70 63 66 #2000 68 61 67 #2000 68", "84 #20 85 #10 94 #30 70"},
        {1, 1, "60 64 142 144 #2 69 #30 70 62 66 #2900 68 60 67 #2900 68", "84 #20 85 #10 94 #30 70"},
        {2, 0, "61 65 141 142 144 #3 69 #20 70 60 66 #1300 68 62 66 #700 68 63 66 #700 68 61 67 #2700 68", "84 #20 94 #20 70"},
        {2, 2, "63 65 141 142 144 #3 69 #20 70 62 66 #700 68 60 66 #1300 68 61 66 #700 68 63 67 #2700 68", "84 #20 94 #20 70"},
        {4, 0, "61 65 141 144 145 162 #6 69 #20 70 72 60 66 #6000 68 62 66 #3000 68 63 66 #3000 68 61 67 #12000 68", "84 #20 94 #20 70"},
        {5, 0, "61 64 161 #3 69 #40 70 63 66 #5200 68 61 67 #5200 68", "84 #20 85 #10 91 #2 93 #8 94 #40 70"},
        {8, 0, "61 64 157 158 #4 69 #50 70 71 63 66 #8000 68 61 67 #8000 68", "84 #20 85 #10 87 #8 88 #4 89 #4 90 #2 93 #2 94 #50 70"},
        {9, 0, "61 65 170 75 60 66 #16000 68 62 66 #8000 68 63 66 #8000 68 61 67 #32000 68", "75"},
        {105, 0, "61 65 176 75 60 66 #16000 68 62 66 #8000 68 63 66 #8000 68 61 67 #32000 68", "75"},
        {107, 0, "61 64 158 165 #8 69 #50 70 73 63 66 #16000 68 61 67 #16000 68", "84 #20 85 #10 88 #4 89 #4 90 #4 91 #2 93 #6 94 #50 70"},
        {102, 0, "61 65 143 159 #7 69 #90 70 72 60 66 #6000 68 62 66 #3000 68 63 66 #3000 68 61 67 #12000 68",
         "84 #20 86 #2 88 #16 89 #8 90 #32 91 #2 92 #2 93 #8 94 #90 70"},
        {7, 0, NULL, NULL},
        {12, 0, NULL, NULL},
    };
    for (size_t k = 0; k < COUNT_OF(told); k++) {
        size_t at = 0;
        while (table[at].number != told[k].line)
            at++;
        Asked asked = {.what = SAY_SCORE, .bytes = table[at].record, .length = table[at].length, .dealer = told[k].dealer};
        Asked fu = asked;
        fu.what = SAY_FU;
        if (told[k].score) {
            is_said((int)k, &asked, told[k].score);
            is_said((int)k, &fu, told[k].fu);
        } else {
            is_not_said((int)k, &asked, table[at].refusal);
            is_not_said((int)k, &fu, table[at].refusal);
        }
        /* 8 of the dealer or the wind comes before Read's refusals, which come before a short buffer */
        asked.length = fu.length = 3;
        is_not_said((int)k, &asked, HB_REFUSAL_LENGTH);
        is_not_said((int)k, &fu, HB_REFUSAL_LENGTH);
        asked.dealer = 4, fu.wind = 2;
        is_not_said((int)k, &asked, HB_REFUSAL_ARGUMENT);
        is_not_said((int)k, &fu, HB_REFUSAL_ARGUMENT);
    }
}

/* Refusals by their number, and 0; a number over 22 is 8. */
void refusals_said(void)
{
    char text[8];
    for (unsigned n = 0; n < 256; n++) {
        Asked asked = {.what = SAY_REFUSAL, .number = (uint8_t)n};
        sprintf(text, "%u", 200 + n);
        if (n <= 22)
            is_said((int)n, &asked, text);
        else
            is_not_said((int)n, &asked, HB_REFUSAL_ARGUMENT);
    }
}

/* Unfinished hands: a wait on 5s and 8s, with furiten or not, and a hand two swaps from ready that waits for nothing. */
void unfinished_said(void)
{
    static const uint8_t ready[] = {0x20, 0x22, 0x0a, 0x31, 0x45, 0x18, 0x69, 0xcb, 0xb0};
    static const uint8_t far[] = {0x00, 0x00, 0x00, 0x01, 0x86, 0x30, 0xc5, 0x14, 0x69, 0xa8, 0x00};
    static const uint8_t discards[] = {HB_NORTH, HB_SOU + 7, HB_MAN + 3, 34};
    Asked asked = {.what = SAY_WAITS, .bytes = ready, .length = sizeof ready, .discards = discards, .discarded = 3};
    is_said(0, &asked, "79 122 125 81");
    asked.discarded = 1;
    is_said(1, &asked, "79 122 125");
    asked.bytes = far, asked.length = sizeof far;
    is_said(2, &asked, "80");
    asked.discarded = 4;
    is_not_said(3, &asked, HB_REFUSAL_DISCARD);
    asked.length = 0;
    is_not_said(4, &asked, HB_REFUSAL_LENGTH);
    Asked distance = {.what = SAY_READY, .bytes = ready, .length = sizeof ready};
    is_said(5, &distance, "82");
    distance.bytes = far, distance.length = sizeof far;
    is_said(6, &distance, "#2 83");
    distance.length = 10;
    is_not_said(7, &distance, HB_REFUSAL_LENGTH);
}
