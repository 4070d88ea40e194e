//! What --help says.

/// The tool.
pub const TOOL: &str = "\
tester COMMAND WORDS: asks the proved core, and compares every answer with the other scorer

  hand       a hand in notation or hexadecimal: its record, refusal, h, fu, yaku, and who pays what
  readings   every reading of a hand in order, the reported one, and why the others lose
  rotate     a hand keyed from another side of the table: both scores side by side
  rename     a hand with its suits renamed: both scores side by side
  slip       the slip of a hand for the club book, six lines
  waits      what an unfinished hand waits for, and furiten
  ready      how many tiles of an unfinished hand must be swapped until it is ready, and a hand that near
  cards      the practice cards of a suit and a size
  judge      another scorer's claim for a hand: accepted, or what is false in it
  say        what the handset says of a hand, its fu, an unfinished hand or a refusal, in words and as clips
  log        a text of entries to the bytes of a log, or back
  tally      a log's entries one after the other, and the game after each
  damage     a record or a log damaged in every way: refusals counted, both scorers compared
  draft      a hand as far as it was keyed in: what can be keyed in next, and every answer; for programs
  game       a log's entries with what each came to, and the game after them; for programs
  clips      the sheet of clips with their words

  tester COMMAND --help says more of each
  --plain    output for scripts
  --typed    for programs: messages count the words behind it alone, which a person has typed

Small letters and capitals of words, quotation marks and commas between words make no difference.
Exit status 0: answered (a refusal is an answer); 1: the two scorers differ; 2: bad input, told in one line.
";

pub const HAND: &str = "\
tester hand TILES+TILE seat=N tsumo|ron=N [WORDS] [--plain]
tester hand HEX [dealer=N] [wind=E|S] [--plain]

  TILES+TILE      concealed tiles, then + and the winning tile: 234567m345p67s22s+8s
                  suits m p s; honours E S W N and P F C for white, hatsu, chun, small letters too, or 1z to 7z,
                  or 東南西北白發中; the tiles of Unicode and full-width signs are read as well; there are no red fives
  seat=N          the winner, 0 to 3, or E S W N by the winds of the first deal
  tsumo, ron=N    drawn, or discarded by seat N
  chi=234m pon=555p kan=EEEE ankan=9999s     melds; ankan is a closed kan
  riichi, double                             riichi, double riichi
  rinshan, chankan, last, first              the situation
  indicator=TILE  the tile that shows the dora; North if not given
  dealer=N        the dealer's seat, or E S W N by the winds of the first deal; 0 if not given
  wind=E|S        the round wind, or 0, 1; East if not given
  HEX             the record's bytes instead, in one word or more

For scripts: notation, dealer, wind, record, refusal, why, h, fu, yaku, han (of each yaku), dora, basic (the amount A), fu-items
(base, closed ron, pair, four groups, wait, tsumo, rounding), tried (how many readings), changes of seats 0 to 3, differences.
";

pub const READINGS: &str = "\
tester readings HAND [dealer=N] [wind=E|S] [--plain]

HAND as for `tester hand`. Lists every reading in document 01's order: pair, groups, place (what the winning tile
completes: 0 the pair, then the groups from 1), yaku, h, fu and gain; one without a yaku gains nothing, and its h is its dora.
> marks the reported one; each other says why it loses, or that it was not tried, as one before it is a yakuman. Below stand the
yaku with their han.

For scripts: the lines of `hand` up to why, tried, then of each reading two lines: reading N SHAPE PAIR GROUPS PLACE YAKU H FU GAIN
reported|loses, and worth N HAN DORA A, the han in the order of the yaku; differences.
";

pub const ROTATE: &str = "\
tester rotate HAND [dealer=N] [wind=E|S] by=N [--plain]

HAND as for `tester hand`. Winner, discarder and dealer are moved on by N seats (a tsumo has no discarder), as when the table is
keyed from another side. The four changes move on by N, and nothing else is altered; if it were, the tool would say so loudly.

For scripts: the lines of `hand` up to changes, rotated N, those lines for the rotated hand, differences.
";

pub const RENAME: &str = "\
tester rename HAND [dealer=N] [wind=E|S] suits=XYZ [--plain]

HAND as for `tester hand`. m becomes X, p becomes Y and s becomes Z, three letters m p s in any order: of every tile, the indicator
too, concealed tiles put back in order. Refusal, h, fu, yaku and changes stay as they were, unless the hand is all green (yaku 34)
before or after; if they did not, the tool would say so loudly.

For scripts: the lines of `hand` up to changes, renamed XYZ, those lines for the renamed hand, differences.
";

pub const SLIP: &str = "\
tester slip HAND [dealer=N] [wind=E|S] [page=N] [--plain]

HAND as for `tester hand`. Prints the slip that the core writes for the counter printer: six lines of 24 characters.

  page=N     lends a page of N bytes instead of 150

For scripts: the lines of `hand` up to why, slip with its refusal, the six lines as they are, differences.
";

pub const WAITS: &str = "\
tester waits TILES [MELDS] [discards=TILES] [seat=N [WORDS]] [--plain]
tester waits HEX [discards=TILES] [seat=N [WORDS]] [--plain]
tester waits record=HEX [discards=TILES] [dealer=N] [wind=E|S] [--plain]

  TILES           13 concealed tiles, three fewer for each meld, as for `tester hand`: 567m22456p67s; + and the winning tile of a
                  finished hand are left out, with what else is said of it
  chi=234m pon=555p kan=EEEE ankan=9999s     melds; ankan is a closed kan
  discards=TILES  the player's own discards, such as discards=N8s4m or discards=N,8s,4m
  kinds=HEX       the discards as bytes instead, one kind a byte, to see one over 33 refused
  HEX             the hand's bytes instead, in one word or more
  record=HEX      the record of a finished hand instead, its winning tile left out; its winner, riichi, indicator and last tile say
                  whose hand it is, unless seat= does
  seat=N          whose hand it is, to see what each wait would score; with dealer=N wind=E|S indicator=TILE riichi double last

Prints the kinds that the hand waits for, yaku or not, and whether it is in furiten, with the discards that are waits. Beside each
wait stands how many of it neither the hand, the discards nor a named indicator show; with seat= also h, fu and gain by ron and by tsumo, or no yaku.

For scripts: notation, bytes, discards (hexadecimal), refusal, why, waits, furiten (1 or 0), of each wait a line wait TILE; LEFT, and
with seat= ; by ron; by tsumo behind it, differences.
";

pub const READY: &str = "\
tester ready TILES [MELDS] [--plain]
tester ready HEX [--plain]
tester ready record=HEX [--plain]

The hand as for `tester waits`. Prints the fewest tiles to swap until the hand waits for a kind, and a ready hand that many swaps away:
its tiles, those swapped out and in, and its waits. Several hands may be as near; the core gives one of them.

For scripts: notation, bytes, refusal, why, swaps, ready (the tiles), waits (of that hand), differences.
";

pub const CARDS: &str = "\
tester cards SUIT SIZE [buffer=N] [--plain]

Prints the sets of SIZE tiles of a suit that the core lists for practice cards, in its order.

  SUIT       m, p, s, or a number 0 to 255
  SIZE       2, 5 or 8 tiles; another number is refused
  buffer=N   lends a buffer of N bytes instead of 7968, which holds every list

For scripts: suit, size, refusal, count, card with its tiles for each set, differences.
";

pub const JUDGE: &str = "\
tester judge HAND [CLAIM] [dealer=N] [wind=E|S] [--plain]

HAND as for `tester hand`. Judges a claim of a reading and the winner's gain: accepted, or the first of the four that is false.
Without a claim that of the reported reading is made and judged.

  claim=regular pair=55s groups=123m,123m,789p,789p place=pair gain=5200
             a reading by its pair and its groups in any order, melds left out; place= is what the winning tile completes:
             pair, one of the groups, or its number from 1; a wrong place is told, though the tiles are right
  claim=pairs gain=1600       seven pairs; claim=orphans gain=32000, thirteen orphans
  claim=HEX  the claim's bytes instead (docs/RECORDS.md), to see a faulty one refused

For scripts: the lines of `hand` up to why, claim, reading SHAPE PAIR GROUPS PLACE, gain, judged with its refusal and verdict,
fault, differences.
";

pub const SAY: &str = "\
tester say HAND [dealer=N] [wind=E|S] [--fu] language=L [WORDS]
tester say waits HAND [discards=TILES] language=L [WORDS]
tester say ready HAND language=L [WORDS]
tester say scores FILE|-|HEX language=L [WORDS]
tester say refusal N language=L [WORDS]

Prints the message that the core gives the handset to play: a line for each part, between which the handset pauses, with its clips and
their words on the sheet (docs/CLIPS.md), Japanese with kana, Mandarin with pinyin. HAND as for `tester hand`, `tester waits` and
`tester ready`, a log as for `tester tally`: the scores after it, which `tester tally --say` prints after each entry.

  language=L   ja, en, ko, zh, or 1 to 4 as the label has them
  --fu         the items of the hand's fu instead of its score
  buffer=N     lends a buffer of N bytes instead of one for every message
  --wav FILE   writes the message as sound into a new FILE, spoken by the program espeak-ng; it has to be installed
  over=yes     FILE may exist, and what it holds is lost
  --plain      for scripts

For scripts: the lines of `hand` up to why (of waits and ready too; of a refusal number), language, said with its refusal and the number
of clips, clips, words of each part, differences.
";

pub const DRAFT: &str = "\
tester draft [TILES] [WORDS] [discards=TILES] [language=L]
tester draft HEX [dealer=N] [wind=E|S] [language=L]

A hand as far as it was keyed in, for programs that draw it: TILES without +, the last of a finished hand being the winning
one, or with it, and words as for `tester hand`; none of them is needed, and of a meld its lowest tile is enough, such as chi=2m. A
record's bytes are taken too.

For scripts: concealed, winning, meld of each, discards, indicator, dora-tile, seat, how, riichi, situation, dealer, wind, winds of
seats 0 to 3, from (who may be the discarder), needs (how many concealed tiles there are with these melds), key with the kinds that can
be keyed in as tile, chi, pon, kan, ankan, indicator, discard, so that no fifth of a kind is; next, what is missing: tiles N, winning, seat,
how, over N or nothing. Of a record that notation cannot say: fixed, dealer, wind, winds, next. Then, each behind a line answer NAME, the
lines of hand (with pair, group and wait of the reported reading), readings, slip, say, say-fu of a finished hand, or of waits (with
score TILE HOW REFUSAL H FU GAIN), ready (with out and in), say, say-ready of an unfinished one; at the end differences.
";

pub const GAME: &str = "\
tester game FILE|-|HEX [as=text|hex|bytes] [called=NAME] [more=LINE] [from=N] [language=L]

The game of a log, text, hex or bytes as for `tester log`, for programs that draw it. Of the entries a hundred are shown, those from N on
or the last ones.

  called=NAME  what messages call standard input (-)
  more=LINE    an entry in words, booked after the log

For scripts: read, log (hexadecimal), cut; start with four scores, result HANDS and four scores after each finished hand; entries (how
many), last (the byte of the last one); of each that is shown a line entry with number, byte, letter, refusal, dealer, wind, counter and sticks
before it, four changes, four scores, sticks, counter and hands after it, a line text and, where there is one, a line remark, of a refused
entry with what its refusal is about; stopped with byte, bytes and why; now with dealer, wind, sticks, counter, hands and whether the game is over, scores, winds, declared, pao HOLDER
FEEDER YAKU of each, correctable, place PLACE SEAT of each; with language= answer say and the lines of `tester say scores`; differences.
";

pub const CLIPS: &str = "\
tester clips [--plain]

The sheet for the studio (docs/CLIPS.md): number, name, Japanese, kana, English, Korean, Mandarin, pinyin of each clip.

For scripts: the same with tabs between them.
";

pub const LOG: &str = "\
tester log FILE|-|HEX [as=text|hex|bytes] [to=FILE [over=yes]] [--plain]

A text of entries gives the bytes of a log; the bytes of a log, or hexadecimal digits, give the text. The first line says as what FILE
was read. It is text if a line begins with one of the words below, or if it has no control signs but tabs and line ends; a text that
has nothing but digits is hex; all else is bytes. Text has to be UTF-8. as= decides instead.

  riichi 1                                  seat 1 declares; seats are E S W N too, by the winds of the first deal
  win 234567m345p67s22s+8s seat=1 ron=3     as for `tester hand`, or win HEX; dealer and wind are the game's
  draw 0 2                                  seats 0 and 2 are ready; draw alone: nobody
  chombo 3
  multi 234567m345p67s22s+8s seat=1 ron=3 / HAND / HAND    a multiple ron: one to three rons on one tile, each as for a win
  pao holder=1 feeder=3 yaku=28             seat 3 is the feeder of seat 1's three dragon triplets; 29: four wind triplets
  correct draw 0 2                          the last result was this: win, draw, chombo or multi, as above
  bytes 40 ff                               these bytes as they are; only the last lines may have bytes that are no entry
  # a comment

  as=text    FILE is text, as=hex hexadecimal digits, as=bytes (or --bytes) the bytes of a log, whatever they look like
  to=FILE    writes the bytes, or the text, into a new FILE
  over=yes   FILE may exist, and what it holds is lost

For scripts: the hexadecimal digits in one line, or the text.
";

pub const TALLY: &str = "\
tester tally FILE|-|HEX [as=text|hex|bytes] [--words] [--csv] [--say L] [--plain]

The game of a log, text, hex or bytes as for `tester log`: a line for each entry with the deal it was made in (E1 to S4),
its refusal (0 accepted), the scores, sticks and counter after it, and the paos named (3 to 1 28: seat 3 is the feeder of
seat 1's yaku 28), if there are any. The deal of a correction is that of the result which it supersedes.
A game is read from the first 65,536 bytes; of a longer log the tool says which entry the cut is in or after.

  --words    below an entry its changes by seat; dealer, wind, counters and sticks before it; who did what; of a win yaku, h, fu,
             the gain by itself and with counters and sticks; then why it was refused, which entry a correction supersedes, whose
             chombo a draw was, who pays a win by pao, or who takes sticks and counters of a multiple ron; at the end the standings
  --csv      a sheet instead, for a spreadsheet: a row of heads, then a row an entry; what is superseded has a remark,
             and the last column is 1 for an entry that counts
  --say L    what the handset says of the scores after it, in words and as clips, below it; L as for `tester say`

For scripts: the lines of the program tally; with --words why it was refused and what follows that, at the end of a line; with --say
clips in a line below it.
";

pub const DAMAGE: &str = "\
tester damage hand HAND [dealer=N] [wind=E|S] [random=N [seed=N]] [--show] [--plain]
tester damage log FILE|-|HEX [as=text|hex|bytes] [random=N [seed=N]] [--show] [--plain]

Tries every change of one bit, every cut, and every swap of two bytes; HAND as for `tester hand`, the log as for
`tester tally`, up to 65,536 bytes. Counts the refusals by number, and shows what the two scorers do not answer alike.

  random=N   N random changes instead; seed=N for others than those of seed 1
  --progress says on standard error, in lines progress TRIED TOTAL, how far it is
  --show     lists each accepted change: which bit (counted from 0 as in docs/RECORDS.md), cut or swap, of a random one the first
             changed bytes, and what it became; of a log those that leave it without 14 and its first changed entry accepted

What takes long says on standard error how far it is, not with --plain alone.

For scripts: kind of change, number tried, and how often each of the refusals 0 to 21 was met; with --show accepted, kind of change,
bit, length, two bytes or number, and the bytes.
";
