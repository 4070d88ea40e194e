/* The scoring core of the table handset, as firmware links it: herbassolh.c for any target,
 * libhandset.a for x86-64. Words in quotes are from the papers that docs/CLAIMS.md names: the
 * customer's documents 01 and 02, and for what is said our own paper SPEECH. docs/COST.md has code
 * size, and stack and instructions of each call that was measured.
 *
 * Every call takes all input. A refused call gives its number with all else zero and changes no
 * byte of the lent game or buffer. Bytes past what a call writes stay. In every call the game that
 * is lent comes first, and a buffer that is written comes last.
 *
 * The caller owes every call:
 * - a pointer with a length is valid for that length and not null, also where the length is 0;
 * - a pointer to a game or a position is valid, not null, and aligned as C aligns the struct, to 4
 *   bytes; bytes that are lent need no alignment;
 * - a game, and bytes that a call writes, overlap nothing else that is lent with them;
 * - one thread at a time for each game and each buffer.
 *
 * Records. m is how many melds a hand has, 0 to 4. The bits of a record, the most significant of a
 * byte first: how 1, winner 2, discarder 2, riichi 2, situation 3, indicator 6, winning tile 6, m
 * 3; then m melds of 8 (kind 2, tile 6), the other 13 - 3m concealed tiles of 6, from the lowest
 * kind to the highest, and zero bits to the byte. docs/RECORDS.md has worked bytes, and the log.
 *
 * Storing. A game and a position have no bytes between their members, so that each may be stored
 * as its bytes, 84 and 40, which are the same on every little-endian target. On a big-endian one,
 * none of which was tried, their numbers would lie the other way round: to move a game there,
 * store it member by member. Any bytes may be lent as a game, for example after a loss of power: a
 * booking refuses them and changes nothing, or books in the game that they are. Nothing else can
 * happen. A call cannot tell whether they are the game that was played: store a checksum for that.
 * Lengths are size_t, of 32 or 64 bits; every other number is as wide on every target.
 *
 * Bytes between members (padding): in HbWritten, HbScored, HbReading, HbReadingCount, HbCards,
 * HbNextEntry. What a call leaves in them is not determined: compare such structs member by
 * member, never by memcmp. No other struct has any.
 */
#ifndef HERBASSOLH_H
#define HERBASSOLH_H

#include <stdbool.h>
#include <stddef.h>
#include <stdint.h>

/* The version of this header: 10000 times the first number, 100 times the second and the third. */
#define HB_VERSION 10100
#define HB_VERSION_TEXT "1.1.0"

#ifdef __cplusplus
extern "C" {
#endif

/* Refusals: what happened. docs/REFUSALS.md has the papers' words for each. Where several are met,
 * the first that the call lists is given. */
enum {
    HB_ACCEPTED = 0,
    HB_REFUSAL_LENGTH = 1,      /* The record or hand is cut, has bytes too many, or was keyed in
                                   with a wrong number of melds. */
    HB_REFUSAL_FIELD = 2,       /* A field holds what there is not: such a tile, riichi or
                                   situation, a chi from an 8, a 9 or an honour, a discarder on
                                   tsumo, a winner who takes a tile from himself, or a bit after
                                   the last tile. */
    HB_REFUSAL_DESCENDING = 3,  /* The concealed tiles were not keyed in from the lowest kind to
                                   the highest. */
    HB_REFUSAL_OVER_FOUR = 4,   /* A fifth tile of a kind was keyed in; a kan is four, and the
                                   indicator counts. */
    HB_REFUSAL_SITUATION = 5,   /* Riichi or the situation was keyed in for a hand that cannot have
                                   it. */
    HB_REFUSAL_NO_READING = 6,  /* The player called a win with tiles that make no winning hand. */
    HB_REFUSAL_NO_YAKU = 7,     /* The player called a win with a hand that has no yaku; dora is no
                                   yaku. */
    HB_REFUSAL_ARGUMENT = 8,    /* A seat, dealer, round wind or set of ready seats was keyed in
                                   that there is not; or the firmware asked for a reading, a
                                   language, or the sentence of a refusal, that there is not. */
    HB_REFUSAL_NOT_OPEN = 9,    /* The game has ended, or its record in the handset is damaged. */
    HB_REFUSAL_DECLARED = 10,   /* The player declared riichi twice in a hand. */
    HB_REFUSAL_RIICHI = 11,     /* The hand was keyed in with riichi and its winner had not
                                   declared, or without and its winner had. */
    HB_REFUSAL_NOT_READY = 12,  /* No call gives it now; in lines of older logs a player who had
                                   declared riichi was keyed in as not ready. */
    HB_REFUSAL_BUFFER = 13,     /* The firmware lent too few bytes for the record, the unfinished
                                   hand, the claim or the message. */
    HB_REFUSAL_ENTRY = 14,      /* The log has a byte that begins no entry, or ends within one. */
    HB_REFUSAL_DISCARD = 15,    /* A discard was keyed in that there is not. */
    HB_REFUSAL_PAGE = 16,       /* The firmware lent too few bytes for the slip. */
    HB_REFUSAL_MULTI_RON = 17,  /* No hand or more than three were keyed in for one tile, or hands
                                   that cannot have been called on one tile. */
    HB_REFUSAL_PAO = 18,        /* A player was keyed in as his own feeder, or a second feeder of
                                   what a player holds, or a yaku that nobody answers for. */
    HB_REFUSAL_CARDS = 19,      /* Cards were asked for of a suit or a number of tiles that there
                                   is not, or the firmware lent too few bytes for them. */
    HB_REFUSAL_SUPERSEDE = 20,  /* A result was to be put right before there was one, or after play
                                   had resumed: a riichi or a pao has been accepted since. */
    HB_REFUSAL_STICK = 21,      /* The player declared riichi without the points for the stick. */
    HB_REFUSAL_CLAIM = 22       /* The other scorer sent bytes that are no claim for a hand with so
                                   many melds, or the firmware asked for a claim that no bytes
                                   are. */
};

/* Yaku by number; 26 to 36 are yakuman. */
enum {
    HB_YAKU_MENZEN_TSUMO = 1,      /* tsumo, closed */
    HB_YAKU_TANYAO = 2,            /* all simples */
    HB_YAKU_YAKUHAI = 3,           /* value triplet */
    HB_YAKU_PINFU = 4,             /* pinfu */
    HB_YAKU_IIPEIKOU = 5,          /* one twin run */
    HB_YAKU_CHANKAN = 6,           /* chankan */
    HB_YAKU_RINSHAN = 7,           /* rinshan */
    HB_YAKU_HAITEI = 8,            /* last tile tsumo */
    HB_YAKU_HOUTEI = 9,            /* last tile ron */
    HB_YAKU_RIICHI = 10,           /* riichi */
    HB_YAKU_DOUBLE_RIICHI = 11,    /* double riichi */
    HB_YAKU_CHIITOITSU = 12,       /* seven pairs */
    HB_YAKU_SANSHOKU_DOUJUN = 13,  /* same run in three suits */
    HB_YAKU_ITTSUU = 14,           /* 123 456 789 of a suit */
    HB_YAKU_CHANTA = 15,           /* yaochu in every group and pair, a run among them, an honour
                                      present */
    HB_YAKU_SANSHOKU_DOUKOU = 16,  /* same triplet in three suits */
    HB_YAKU_TOITOI = 17,           /* four triplets */
    HB_YAKU_SANANKOU = 18,         /* three concealed triplets */
    HB_YAKU_SANKANTSU = 19,        /* three kans */
    HB_YAKU_HONROUTOU = 20,        /* only yaochu */
    HB_YAKU_RYANPEIKOU = 21,       /* two twin runs */
    HB_YAKU_JUNCHAN = 22,          /* as 15 with no honour */
    HB_YAKU_HONITSU = 23,          /* one suit and honours, both present */
    HB_YAKU_SHOUSANGEN = 24,       /* two dragon triplets and a dragon pair */
    HB_YAKU_CHINITSU = 25,         /* one suit */
    HB_YAKU_TENHOU = 26,           /* first turn, dealer */
    HB_YAKU_CHIIHOU = 27,          /* first turn, other seat */
    HB_YAKU_DAISANGEN = 28,        /* three dragon triplets */
    HB_YAKU_SUUSHIIHOU = 29,       /* three wind triplets and a wind pair (shousuushii), or four
                                      (daisuushii) */
    HB_YAKU_SUUANKOU = 30,         /* four concealed triplets */
    HB_YAKU_SUUKANTSU = 31,        /* four kans */
    HB_YAKU_TSUUIISOU = 32,        /* honours only, seven pairs too */
    HB_YAKU_CHINROUTOU = 33,       /* terminals only */
    HB_YAKU_RYUUIISOU = 34,        /* only sou 2 3 4 6 8 and hatsu */
    HB_YAKU_CHUUREN_POUTOU = 35,   /* m = 0, one suit's 1112345678999 and one more of it */
    HB_YAKU_KOKUSHI_MUSOU = 36     /* thirteen orphans */
};

/* Tile kinds: HB_MAN + 0 to 8 is man 1 to 9; pin and sou likewise. */
enum {
    HB_MAN = 0, HB_PIN = 9, HB_SOU = 18,
    HB_EAST = 27, HB_SOUTH = 28, HB_WEST = 29, HB_NORTH = 30,
    HB_WHITE = 31, HB_HATSU = 32, HB_CHUN = 33
};

/* How a hand was won. */
enum { HB_TSUMO = 0, HB_RON = 1 };

/* The riichi field. */
enum { HB_RIICHI_NONE = 0, HB_RIICHI_SINGLE = 1, HB_RIICHI_DOUBLE = 2 };

/* The situation field. */
enum { HB_ORDINARY = 0, HB_RINSHAN = 1, HB_CHANKAN = 2, HB_LAST_TILE = 3, HB_FIRST_TURN = 4 };

/* Meld kinds; the tile of a chi is its lowest. */
enum { HB_MELD_CHI = 0, HB_MELD_PON = 1, HB_MELD_OPEN_KAN = 2, HB_MELD_CLOSED_KAN = 3 };

/* A meld as HbHeld holds it. */
#define HB_MELD(kind, tile) ((uint8_t)(64 * (kind) + (tile)))

/* Round winds. */
enum { HB_ROUND_EAST = 0, HB_ROUND_SOUTH = 1 };

/* Shapes of a reading. */
enum { HB_SHAPE_REGULAR = 0, HB_SHAPE_SEVEN_PAIRS = 1, HB_SHAPE_ORPHANS = 2 };

/* What stands in a reading or a claim where there is no pair, or no group. */
enum { HB_NO_PAIR = 34, HB_NO_GROUP = 68 };

/* The bit of a seat that is ready at a draw, of four bits with seat 0 the most significant: 8, 4,
 * 2, 1 for seats 0 to 3. The bits of a draw are the sum of those of its ready seats. */
#define HB_READY_BIT(seat) ((uint8_t)(8 >> (seat)))

/* Kinds of a log's entry: what its argument is, and what follows its header byte. Entries stand
 * end to end. */
enum {
    HB_KIND_RIICHI = 0,     /* the seat */
    HB_KIND_WIN = 1,        /* 0; its record follows */
    HB_KIND_DRAW = 2,       /* the bits of its ready seats */
    HB_KIND_CHOMBO = 3,     /* the seat */
    HB_KIND_MULTI_RON = 4,  /* how many records follow, 1 to 3, end to end */
    HB_KIND_PAO = 5,        /* 0; a byte follows, HB_PAO_BYTE */
    HB_KIND_CORRECTION = 6  /* 0; the entry of its result follows, with its own header byte */
};

/* The header byte of an entry: the kind in its upper four bits, the argument in its lower. */
#define HB_ENTRY(kind, argument) ((uint8_t)(16 * (kind) + (argument)))

/* The byte that follows the header byte of a pao: "holder 2 bits, feeder 2, yaku 1 (0 for 28),
 * three zero bits"; yaku: HB_YAKU_DAISANGEN or HB_YAKU_SUUSHIIHOU. */
#define HB_PAO_BYTE(holder, feeder, yaku) \
    ((uint8_t)(64 * (holder) + 16 * (feeder) + ((yaku) == HB_YAKU_SUUSHIIHOU ? 8 : 0)))

/* Letters of a line of tally, the papers' program that prints a line for each entry of a log. */
enum {
    HB_LETTER_RIICHI = 'R', HB_LETTER_WIN = 'W', HB_LETTER_DRAW = 'D', HB_LETTER_CHOMBO = 'C',
    HB_LETTER_MULTI_RON = 'M', HB_LETTER_PAO = 'P', HB_LETTER_CORRECTION = 'X'
};

/* Languages of what is said. */
enum { HB_JAPANESE = 1, HB_ENGLISH = 2, HB_KOREAN = 3, HB_MANDARIN = 4 };

/* Clips: the recordings that a unit holds, "one set a language, the same clip numbers in every
 * set"; docs/CLIPS.md has the words. A name with "+ a to b" beside it is a base: HB_CLIP_TENS + 2
 * is twenty, HB_CLIP_TILE + HB_EAST the east wind. */
enum {
    HB_CLIP_ZERO = 0,              /* zero */
    HB_CLIP_ONES = 0,              /* + 1 to 9: one to nine */
    HB_CLIP_TENS = 9,              /* + 1 to 9: ten, twenty, .. ninety */
    HB_CLIP_HUNDREDS = 18,         /* + 1 to 9: one hundred .. nine hundred */
    HB_CLIP_THOUSANDS = 27,        /* + 1 to 9: one thousand .. nine thousand; not English */
    HB_CLIP_TEN_THOUSAND = 37,     /* ten thousand as a scale; not English */
    HB_CLIP_HUNDRED_MILLION = 38,  /* a hundred million as a scale; not English */
    HB_CLIP_ISSEN = 39,            /* one thousand before a scale; Japanese alone */
    HB_CLIP_YISHI = 40,            /* ten inside a number; Mandarin alone */
    HB_CLIP_LIANG = 41,            /* two before a scale; Mandarin alone */
    HB_CLIP_TEENS = 31,            /* + 11 to 19: eleven .. nineteen; English alone */
    HB_CLIP_THOUSAND = 51,         /* thousand as a scale; English alone */
    HB_CLIP_MILLION = 52,          /* million as a scale; English alone */
    HB_CLIP_BILLION = 53,          /* billion as a scale; English alone */
    HB_CLIP_EAST = 60,             /* East as a player */
    HB_CLIP_SOUTH = 61,            /* South as a player */
    HB_CLIP_WEST = 62,             /* West as a player */
    HB_CLIP_NORTH = 63,            /* North as a player */
    HB_CLIP_RON = 64,              /* wins by ron */
    HB_CLIP_TSUMO = 65,            /* wins by tsumo */
    HB_CLIP_PAYS = 66,             /* pays */
    HB_CLIP_GETS = 67,             /* gets */
    HB_CLIP_POINTS = 68,           /* points */
    HB_CLIP_HAN = 69,              /* han */
    HB_CLIP_FU = 70,               /* fu */
    HB_CLIP_MANGAN = 71,           /* mangan */
    HB_CLIP_HANEMAN = 72,          /* haneman */
    HB_CLIP_BAIMAN = 73,           /* baiman */
    HB_CLIP_SANBAIMAN = 74,        /* sanbaiman */
    HB_CLIP_YAKUMAN = 75,          /* yakuman */
    HB_CLIP_MINUS = 76,            /* minus */
    HB_CLIP_STICKS = 77,           /* sticks */
    HB_CLIP_COUNTERS = 78,         /* counters */
    HB_CLIP_WAITS = 79,            /* waits for */
    HB_CLIP_NO_WAITS = 80,         /* waits for nothing */
    HB_CLIP_FURITEN = 81,          /* furiten */
    HB_CLIP_READY = 82,            /* ready */
    HB_CLIP_FROM_READY = 83,       /* tiles from ready */
    HB_CLIP_FU_BASE = 84,          /* base */
    HB_CLIP_FU_RON = 85,           /* closed ron */
    HB_CLIP_FU_PAIR = 86,          /* pair */
    HB_CLIP_FU_GROUP = 87,         /* + 0 to 3: each of the four groups */
    HB_CLIP_FU_WAIT = 91,          /* wait */
    HB_CLIP_FU_TSUMO = 92,         /* tsumo, as an item of fu */
    HB_CLIP_FU_ROUNDING = 93,      /* what rounding added */
    HB_CLIP_IN_ALL = 94,           /* in all */
    HB_CLIP_TILE = 100,            /* + 0 to 33: the tile of that kind */
    HB_CLIP_YAKU = 140,            /* + 1 to 36: the yaku of that number */
    HB_CLIP_REFUSAL = 200          /* + 0 to 22: accepted; the sentence for refusal 1 to 22 */
};

/* The length in bytes of a record: 13, 12, 11, 10, 8 for m = 0 to 4. */
#define HB_RECORD_LENGTH(m) ((103 - 10 * (m) + 7) / 8)

/* The length in bytes of an unfinished hand: 11, 9, 8, 7, 6 for m = 0 to 4. */
#define HB_UNFINISHED_LENGTH(m) ((81 - 10 * (m) + 7) / 8)

enum {
    HB_RECORD_MAX = 13,    /* a buffer of so many bytes holds every record */
    HB_UNFINISHED_MAX = 11, /* a buffer of so many bytes holds every unfinished hand */
    HB_SLIP_LENGTH = 150,  /* a slip has so many bytes */
    HB_CARDS_MAX = 7968,   /* a buffer of so many bytes holds every list of practice cards: 18 of 2
                              tiles, 675 of 5, 7968 of 8 */
    HB_CLAIM_MAX = 7,      /* no claim has more bytes: 7, 7, 6, 5, 4 for m = 0 to 4, 3 for seven
                              pairs and orphans */
    HB_MESSAGE_MAX = 155,  /* no message has more clips: a buffer of so many bytes holds every one,
                              and never meets 13 */
    HB_LINE_MAX = 83,      /* a buffer of so many bytes holds every line of tally */
    HB_LOG_MAX = 65536     /* tally reads so many bytes of a log */
};

/* The numbers of a hand. */
typedef struct {
    uint8_t how, winner, discarder, riichi, situation, indicator, winning;
} HbFields;

/* The tiles held: m melds, 13 - 3m concealed tiles without the winning tile; unused places are
 * 0. */
typedef struct {
    uint8_t m;
    uint8_t melds[4];
    uint8_t concealed[13];
} HbHeld;

/* A hand. */
typedef struct {
    HbFields fields;
    HbHeld held;
} HbHand;

/* What Read gives: a refusal and an all-zero hand, or 0 and the hand. */
typedef struct {
    uint8_t refusal;
    HbHand hand;
} HbReadHand;

/* What Write, Write unfinished, Unfinished and Write claim give: a refusal and 0, or 0 and how
 * many bytes were written. */
typedef struct {
    uint8_t refusal;
    size_t len;
} HbWritten;

/* The items of fu, which add up to it: "base, closed ron, pair, each of the four groups (the
 * reading's in its order, then the melds in the record's), wait, tsumo, and what rounding added
 * (an open 20's ten too)"; "seven pairs having a base of 25 alone and yakuman only zeros". */
typedef struct {
    uint8_t base, ron, pair, group[4], wait, tsumo, rounding;
} HbItems;

/* What Score gives: a refusal with all else zero, or 0 and the reported reading's figures. */
typedef struct {
    uint8_t refusal;
    uint16_t h;          /* han of the yaku plus dora; 0 with a yakuman */
    uint8_t fu;          /* 0 with a yakuman */
    HbItems items;       /* of that fu */
    bool yaku[37];       /* yaku n at index n; index 0 is unused */
    uint32_t tried;      /* "how many readings it tried, those with no yaku and each place in equal
                            groups counted": up to the first with a yakuman, it included, or all */
    int32_t changes[4];  /* points of seats 0 to 3, summing to 0, of the hand alone: a game's
                            sticks, counters and pao are left out */
} HbScored;

/* What Reading gives: a refusal with all else zero, or 0 and one reading with what it is worth.
 * One without a yaku cannot win: its h is its dora, its fu and items are counted, and nobody
 * pays. */
typedef struct {
    uint32_t count;      /* how many readings the tiles have */
    uint32_t basic;      /* A: "fu times 2 to the (h + 2)", or the limit; 8,000 with a yakuman; 0
                            without a yaku */
    uint32_t gain;       /* what the payments give the winner; 0 without a yaku */
    int32_t changes[4];  /* points of seats 0 to 3, summing to 0, of the hand alone: a game's
                            sticks, counters and pao are left out, of the gain too */
    uint16_t h;          /* han of the yaku plus dora; 0 with a yakuman */
    uint16_t dora;       /* how many of h are dora */
    uint16_t han[37];    /* the han of each listed yaku as it counts, open or closed; yaku n at
                            index n; 0 with a yakuman */
    uint8_t refusal;
    uint8_t shape;       /* HB_SHAPE_* */
    uint8_t pair;        /* kind of the pair; HB_NO_PAIR without one */
    uint8_t groups[4];   /* the 4 - m groups sorted by code ("run: lowest kind; triplet: 34 +
                            kind"), then HB_NO_GROUP */
    uint8_t place;       /* what the winning tile completes: 0 the pair, i + 1 the group at i */
    bool reported;       /* it is the one that Score reports */
    uint8_t fu;          /* 0 with a yakuman */
    HbItems items;       /* of that fu */
    bool yaku[37];       /* yaku n at index n; index 0 is unused */
} HbReading;

/* How many readings: a refusal and 0, or 0 and their number. */
typedef struct {
    uint32_t count;
    uint8_t refusal;
} HbReadingCount;

/* What Waits gives: a refusal with all else zero, or 0, the waits and furiten. */
typedef struct {
    uint8_t refusal;
    bool waits[34];  /* kind k at index k: "the set of kinds that give a reading when added, yaku
                        or not" */
    bool furiten;    /* "a discarded kind is a wait" */
} HbWaits;

/* What Ready gives: a refusal with all else zero, or 0, the swaps and a ready hand. */
typedef struct {
    uint8_t refusal;
    uint8_t swaps;     /* "the fewest tiles that must be swapped for others"; "0 means ready" */
    uint8_t hand[13];  /* "any one such hand that many swaps away": 13 - 3m kinds ascending beside
                          the melds given, the rest 0 */
} HbReady;

/* What Cards gives: a refusal and 0, or 0 and the number of sets. */
typedef struct {
    uint8_t refusal;
    uint16_t count;
} HbCards;

/* What Judge gives: a refusal with verdict 0, or 0 and the verdict. Look at refusal first: beside
 * a refusal the verdict 0 is no acceptance. */
typedef struct {
    uint8_t refusal;
    uint8_t verdict;
} HbJudged;

/* Verdicts: accepted, or the first of the four that is false. */
enum {
    HB_VERDICT_ACCEPTED = 0,
    HB_VERDICT_READING = 1,  /* "its reading is one of those tiles" */
    HB_VERDICT_YAKU = 2,     /* it "has a yaku" */
    HB_VERDICT_GAIN = 3,     /* it "pays that gain" */
    HB_VERDICT_MORE = 4      /* "no other reading of them with a yaku pays more" */
};

/* What a claim names, for Write claim: a reading as hb_reading gives it, the winner's gain and the
 * m of the hand. */
typedef struct {
    uint32_t gain;      /* the winner's gain, below 131,072 */
    uint8_t shape;      /* HB_SHAPE_* */
    uint8_t pair;       /* kind of the pair; HB_NO_PAIR for seven pairs and orphans */
    uint8_t groups[4];  /* the 4 - m groups sorted by code, then HB_NO_GROUP; for seven pairs and
                           orphans all four HB_NO_GROUP */
    uint8_t place;      /* 0 the pair, i + 1 the group at i; 0 for seven pairs and orphans */
    uint8_t m;
} HbClaim;

/* What a call that says something gives: a refusal and 0, or 0 and how many clips; two numbers of
 * 16 bits, so that there is no padding. No refusal is over 22, so that it fits the 8 bits of
 * hb_say_refusal. */
typedef struct {
    uint16_t refusal;
    uint16_t len;
} HbSaid;

/* A position of a game. Any bytes are a position; an accepted booking sets declared and over to 0
 * or 1. It is out of form where dealer is over 3, wind over 1, hands over 200, counter over hands,
 * where there are fewer sticks than declared seats, where a score is under -28,540,000, where the
 * scores with 1,000 for each stick are not 120,000, or where a feeder is over 3 or its holder. */
typedef struct {
    int32_t scores[4];
    uint32_t sticks;
    uint8_t declared[4];  /* not 0 where the seat has declared riichi in this hand */
    uint8_t dealer, wind;
    uint8_t hands;        /* hands finished; the game ends at 200, or when the deal passes from
                             seat 3 in the South round */
    uint8_t over;         /* not 0 where the game is marked over */
    uint32_t counter;     /* repeat counters: "rises by one at each dealer's win and each draw,
                             returns to 0 at a child's win, and isn't touched by a chombo" */
    uint8_t feeders[8];   /* the feeders of this hand: index holder for yaku 28, index 4 + holder
                             for yaku 29; 0 where nobody is named, else 1 + the feeder's seat */
} HbPosition;

/* The game, lent to each booking: the position that stands, and an earlier one, so that "A result
 * may be put right before play resumes". Any bytes are a game; an accepted booking sets
 * correctable to 0 or 1. A game is out of form where the position `now` is, or where correctable
 * is not 0 and the position `earlier` is. */
typedef struct {
    HbPosition now;
    HbPosition earlier;    /* the position before the last accepted booking; after a correction,
                              before the booking that it superseded. Where correctable is 0 its
                              bytes do not matter */
    uint32_t correctable;  /* not 0 where a correction is possible: the last accepted booking
                              finished a hand (a win, a draw, a chombo or a multiple ron, in a
                              correction or not) */
} HbGame;

/* What stands at an offset of a log: an entry, the end (end set, all else zero), or refusal 14
 * (all else zero). */
typedef struct {
    uint8_t refusal;
    bool end;
    uint8_t kind, argument;
    uint8_t letter;  /* of the entry's line: HB_LETTER_* */
    size_t length;   /* of the entry, its header included */
} HbNextEntry;

/* Where a walk over a log stands: the game so far, and the number (from 1) and the offset of the
 * next entry. */
typedef struct {
    HbGame game;
    uint32_t entry;
    size_t at;
} HbWalk;

/* Lines written into a buffer: how many bytes they are, and where the walk then stands. */
typedef struct {
    size_t written;
    HbWalk walk;
} HbPrinted;

/* Read. The hand of a sound record; refusals 1 to 5 in order. */
HbReadHand hb_read(const uint8_t *record, size_t record_len);

/* Write. The hand's record at the start of buf, and its length; refusals 2, 3, 4, 5, 13 in order.
 * Refusal 2 is "also m over 4, a field too large for its bits, or an unused place not zero": an
 * unused place is one of melds from index m on, or of concealed from index 13 - 3m on. */
HbWritten hb_write(HbHand hand, uint8_t *buf, size_t buf_len);

/* Score. The reported reading of a record, for a dealer and round wind; refusals 8, 1 to 7 in
 * order. */
HbScored hb_score(const uint8_t *record, size_t record_len, uint8_t dealer, uint8_t wind);

/* Reading. The n-th reading of a record's tiles, from 1, in the order of document 01 ("regular
 * before seven pairs. Regular ones compare by pair kind, then groups sorted by code .. as a list,
 * then place (pair first)"), with what it is worth for a dealer and round wind. Readings without a
 * yaku are among them, and nothing ends at a yakuman. Refusals 8, 1 to 5, 8 in order, the last
 * where n is 0 or over their number. */
HbReading hb_reading(const uint8_t *record, size_t record_len, uint8_t dealer, uint8_t wind,
    uint32_t n);

/* How many readings a record's tiles have; 0 where they have none. Refusals 8, 1 to 5 in order. */
HbReadingCount hb_reading_count(const uint8_t *record, size_t record_len, uint8_t dealer,
    uint8_t wind);

/* A slip "to paste in the club book": what Score gives, of the hand alone as there, in six lines
 * of 24 characters and a line feed at the start of page, no zero byte after them. "Each line has a
 * label, left in 10 columns, and a value, right in 14. Labels are HAN, FU, SEAT 0, SEAT 1, SEAT 2,
 * SEAT 3"; "A yakuman has the value YAKUMAN on the first line and 0 on the second." Gives 0, or
 * its refusal with page unchanged; refusals 8, 1 to 7, 16 in order. */
uint8_t hb_slip(const uint8_t *record, size_t record_len, uint8_t dealer, uint8_t wind,
    uint8_t *page, size_t page_len);

/* Waits. What an unfinished hand waits for: "meld count 3 bits, melds, 13 - 3m tiles, zero bits to
 * the byte", each meld and tile as in a record, with "the player's own discards", one kind a byte.
 * "A kind already held four times is never among them"; discards do not count towards the four.
 * With no discards any valid pointer and 0. Refusals 1 to 4, 15 in order. */
HbWaits hb_waits(const uint8_t *hand, size_t hand_len, const uint8_t *discards,
    size_t discards_len);

/* Ready. How many tiles of an unfinished hand, as Waits takes it, have to change until it waits
 * for a kind, "melds kept and no kind over four held", with one such hand. Refusals 1 to 4 in
 * order. */
HbReady hb_ready(const uint8_t *hand, size_t hand_len);

/* Write, of an unfinished hand as Waits and Ready take it: the bytes of the tiles held at the
 * start of buf, and their number; refusals 2, 3, 4, 13 in order. As in Write, refusal 2 is also
 * for m over 4 and for an unused place that is not 0. */
HbWritten hb_write_unfinished(HbHeld held, uint8_t *buf, size_t buf_len);

/* The unfinished hand that a record is without its winning tile, at the start of buf, and its
 * length: "an unfinished hand's waits from these same records". Waits has the winning tile among
 * them exactly when the record's tiles have a reading. Refusals 1 to 5, 13 in order. */
HbWritten hb_unfinished(const uint8_t *record, size_t record_len, uint8_t *buf, size_t buf_len);

/* Practice cards: "every set of 2, 5 or 8 tiles of one suit, at most four of a kind, that splits
 * into one pair and runs or triplets. Tiles stand ascending, one byte each, the sets in ascending
 * order of their tile lists", at the start of buf: 9, 135 or 996 sets. suit: 0 man, 1 pin, 2 sou;
 * size: 2, 5 or 8. Refusal 19, with buf unchanged. */
HbCards hb_cards(uint8_t suit, uint8_t size, uint8_t *buf, size_t buf_len);

/* Judge. "A claim is accepted exactly when its reading is one of those tiles, has a yaku, pays
 * that gain, and no other reading of them with a yaku pays more. Otherwise it names the first of
 * these four that is false." A claim's bits (docs/RECORDS.md): "shape 2 bits (0 regular, 1 seven
 * pairs, 2 orphans); for regular the pair 6 bits, 4 - m group codes of 7 bits ascending, place 3
 * bits (0 pair, then groups from 1), then for every shape the winner's gain 17 bits, and zero bits
 * to the byte"; a run's code is its lowest kind, a triplet's 34 + kind. Refusals 8, 1 to 5, 22 in
 * order, with verdict 0. */
HbJudged hb_judge(const uint8_t *record, size_t record_len, const uint8_t *claim, size_t claim_len,
    uint8_t dealer, uint8_t wind);

/* Write claim. The bytes of a claim at the start of buf, 3 to 7 of them, and their number: the
 * only bytes in which Judge, for a record with m melds, reads that reading and that gain.
 * Refusals 22, 13 in order, the first where no bytes name them for m melds, or m is over 4. */
HbWritten hb_write_claim(HbClaim claim, uint8_t *buf, size_t buf_len);

/* A fresh game, with both its positions: 30,000 each, all else 0. */
HbGame hb_fresh_game(void);

/* The bookings: each gives 0 and updates the game, or gives its refusal and leaves the game as it
 * was. What a booking that is no correction paid is now.scores after it less now.scores before. */

/* Riichi of a seat: "Takes 1,000, adds a stick"; a seat with under 1,000 points has none. Refusals
 * 8, 9, 10, 21 in order. */
uint8_t hb_riichi(HbGame *game, uint8_t seat);

/* Win by a record: what Score gives, all sticks, and of the counters "A ron payer pays 300 more
 * for each counter, and on tsumo each payer pays 100 more". Where the winner is the holder of a
 * pao and its yaku is reported ("for 29, with four wind triplets, not three and a pair"), "the
 * feeder pays the whole on tsumo, counters included. On ron the feeder and the discarder pay half
 * each, the discarder paying the counters; if they are one seat it pays all." Refusals 9, 1 to 7,
 * 11 in order. */
uint8_t hb_win(HbGame *game, const uint8_t *record, size_t record_len);

/* Draw; bits: four, seat 0 the most significant, set for ready: the sum of HB_READY_BIT of each
 * ready seat. Where a declared seat is not ready it is a chombo of each such seat: "each such seat
 * pays 3,000 to every other seat, two such seats paying each other, and this hand's sticks return.
 * No ready payment is made, the deal and counter stay, and the hand is finished." Refusals 8, 9 in
 * order. */
uint8_t hb_draw(HbGame *game, uint8_t bits);

/* Chombo of a seat; refusals 8, 9 in order. */
uint8_t hb_chombo(HbGame *game, uint8_t seat);

/* Multiple ron: one to three rons on one tile, "all or none". number: how many records; they "lie
 * end to end": "each but the last as long as its m says, the last all that is left; what doesn't
 * fit is Read's 1". "Each record is scored as Win does, all against the game as it was before.
 * Sticks and counters go to the first winner in turn order after the discarder. If the dealer is a
 * winner the deal stays and the counter rises; otherwise the deal passes and the counter clears."
 * A feeder answers for each record by itself. Refusals 9, 17, 1 to 5, 17, 6, 7, 11 in order: 17
 * for the number, then what Read gives of the first unreadable record, then 17 for records that
 * are no rons on one tile by different winners, then 6, 7 or 11 of the first record that meets
 * one. */
uint8_t hb_multi_ron(HbGame *game, uint8_t number, const uint8_t *records, size_t records_len);

/* Pao: feeder gave holder what makes the yaku, "28 for three dragon triplets, or 29 for four wind
 * triplets". "The booking lapses when the hand is finished"; a win, a draw, a chombo and a
 * multiple ron finish it. Refusals 8, 9, 18 in order. */
uint8_t hb_pao(HbGame *game, uint8_t holder, uint8_t feeder, uint8_t yaku);

/* The corrections. Each carries a result, a win, a draw, a chombo or a multiple ron, "that
 * supersedes the last finished booking, as long as no other booking has been accepted since".
 * "Afterwards the game is the one in which the superseded booking was never made and the new one
 * was, declared seats and counters included. This holds too when the superseded one had ended the
 * game. A correction that was accepted can itself be superseded. Where the new booking is refused,
 * the old one stands." They refuse with 9 "for a game out of form", but not for one that is over;
 * then with 20; then as the booking of the result does in the earlier position, whose own 9 is for
 * one that is over: a game that began fresh never has such a one. */

/* Win by a record instead. Refusals 9, 20, 9, 1 to 7, 11 in order. */
uint8_t hb_correct_win(HbGame *game, const uint8_t *record, size_t record_len);

/* Draw instead; bits as in hb_draw. Refusals 9, 20, 8, 9 in order. */
uint8_t hb_correct_draw(HbGame *game, uint8_t bits);

/* Chombo of a seat instead. Refusals 9, 20, 8, 9 in order. */
uint8_t hb_correct_chombo(HbGame *game, uint8_t seat);

/* Multiple ron instead; number and records as in hb_multi_ron. Refusals 9, 20, 9, 17, 1 to 5, 17,
 * 6, 7, 11 in order. */
uint8_t hb_correct_multi_ron(HbGame *game, uint8_t number, const uint8_t *records,
    size_t records_len);

/* Next entry of a log from an offset. Its part is log[at] to log[at + length - 1]; a win's record,
 * the records of a multiple ron (argument says how many), a pao's byte or the entry that a
 * correction carries, from its own header on, is what follows the header byte log[at]; the next
 * offset is at + length. From the log's end on: end. Refusal 14 ends the walk. */
HbNextEntry hb_log_next(const uint8_t *log, size_t log_len, size_t at);

/* Books the entry that part begins with, such as log + at with the length that hb_log_next gave:
 * gives 0 and updates the game, or gives the entry's refusal and leaves the game as it was; 14
 * where part begins with no whole entry. Refusals of an entry: 14; of a riichi 8, 9, 10, 21, a win
 * 9, 2 to 7, 11, a draw 9, a chombo 8, 9, a multiple ron 9, 2 to 5, 17, 6, 7, 11, a pao 9, 18, a
 * correction 9, 20 and those of the result that it carries, in order. */
uint8_t hb_book_entry(HbGame *game, const uint8_t *part, size_t part_len);

/* A walk before a log's first entry, with a fresh game. */
HbWalk hb_log_start(void);

/* Books the entries of a log from where walk stands, refused or not, and writes their lines of
 * tally into buf, as many whole lines as fit, one after the other; bytes past written stay. Call
 * it again with the walk that it gives. With a buffer of HB_LINE_MAX bytes or more no text is left
 * when written is 0; only a walk whose entry has reached 4294967295, the last number of a line,
 * stops before. A bad or cut entry ends the text: the walk stands before it, and hb_log_next at
 * the walk's at gives 14. tally itself reads the first HB_LOG_MAX bytes of a log; this call reads
 * all that is lent. */
HbPrinted hb_log_lines(HbWalk walk, const uint8_t *log, size_t log_len, uint8_t *buf,
    size_t buf_len);

/* A line of tally at the start of buf, its line feed included, no zero byte after it: entry (from
 * 1), letter, refusal, the position's four scores and its sticks. Gives its length, or 0 with buf
 * unchanged where it does not fit. */
size_t hb_log_line(const HbPosition *position, uint32_t entry, uint8_t letter, uint8_t refusal,
    uint8_t *buf, size_t buf_len);

/* What is said: "A message is a list of clips, one byte each, at the start of a lent buffer; the
 * unit plays them in order." Each call gives how many clips, or its refusal with buf unchanged;
 * "bytes past the message stay". Each refuses first with 8 "a language that is not 1 to 4", then
 * as the call does whose answer is said, and last with 13 "a buffer shorter than the message".
 * Numbers are said as each language has them; "A player is named by the seat's wind". */

/* Score, said: "the winner; 64 or 65; each yaku of the set, ascending; with a yakuman 75,
 * otherwise h, 69, fu, 70 and, where a limit is paid, its name (71 to 74); then of seats 0 to 3
 * each that pays: the player, 66, the amount, 68; then the winner, 67, the gain, 68": the payments
 * of the hand alone, as Score gives them, without a game's sticks, counters and pao. Refusals 8, 1
 * to 7, 13 in order: 8 for the language, then for the dealer or the wind. */
HbSaid hb_say_score(uint8_t language, const uint8_t *record, size_t record_len, uint8_t dealer,
    uint8_t wind, uint8_t *buf, size_t buf_len);

/* The fu of a record, said: "each item that is not 0: its clip (84 to 93) and its number; 94, the
 * fu, 70. With a yakuman: 75"; an item's number is the fu that it earns. Refusals 8, 1 to 7, 13 in
 * order. */
HbSaid hb_say_fu(uint8_t language, const uint8_t *record, size_t record_len, uint8_t dealer,
    uint8_t wind, uint8_t *buf, size_t buf_len);

/* The scores of a position, said: "of seats 0 to 3 the player, 76 where negative, the amount, 68;
 * 77 and the sticks where there are any; 78 and the counters where there are any. Any value of the
 * game may be given; a dealer over 3 counts as dealer mod 4." Refusals 8, 13 in order. */
HbSaid hb_say_scores(uint8_t language, const HbPosition *position, uint8_t *buf, size_t buf_len);

/* A refusal, said, or 0, accepted: "clip 200 + n". Refusals 8, 13 in order: 8 for the language,
 * then for "a number over 22". */
HbSaid hb_say_refusal(uint8_t language, uint8_t number, uint8_t *buf, size_t buf_len);

/* The waits of an unfinished hand with discards, as Waits takes them, said: "79 and the tiles
 * ascending, or 80; 81 where it is in furiten". Refusals 8, 1 to 4, 15, 13 in order. */
HbSaid hb_say_waits(uint8_t language, const uint8_t *hand, size_t hand_len,
    const uint8_t *discards, size_t discards_len, uint8_t *buf, size_t buf_len);

/* How far an unfinished hand, as Ready takes it, is from ready, said: "82, or the swaps and 83".
 * Refusals 8, 1 to 4, 13 in order. */
HbSaid hb_say_ready(uint8_t language, const uint8_t *hand, size_t hand_len, uint8_t *buf,
    size_t buf_len);

#ifdef __cplusplus
}
#endif

#endif
