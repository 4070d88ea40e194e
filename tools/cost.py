#!/usr/bin/env python3
"""cost.py [--PART ..]: what the calls cost; PART: stack, scores, readings, slips, bookings, waits, ready, cards, judges, messages; by default all of them.
Instructions are counted (valgrind --tool=callgrind), bytes of stack read off the frames of the archive.
It needs gcc, objdump and valgrind, for judges cargo, and for scores the program `vectors`, which `rt check vectors` makes. The archive it has from
tools/archive.sh, which proves and makes it where it is missing or older than the code.

One C program, tools/cost.c, linked with the archive, makes all calls but those of scores. What a call takes is the difference of two runs, one of
which makes it more often, divided by how much more often.
Scores: the program `vectors` on hands of crates/vectors/stdin. A figure is that of one vector: reading 54 bytes, Score, and comparing. Mean: over the
first 10,000 vectors. Costliest found: the hands are measured in blocks, and those of the three costliest blocks one by one, so a costly hand among
cheap ones can be missed.
Stack: of hb_score, hb_win, hb_multi_ron and hb_correct_multi_ron the deepest chain of calls in the archive, by their frames; the search recurses five
deep at most.
Readings: what hb_reading_count and hb_reading take of line 1 of the table of hands, which has one reading, and of 111 2222 3333 444m, which has
twelve; their stack as above.
Slips: what hb_slip takes beyond hb_score. Bookings: what hb_win takes beyond hb_score, of a yakuman paid by pao too, what hb_multi_ron of one to three
records takes beyond their Scores, what hb_pao takes and what a correction of a draw takes, with the copy of the game.
Waits: what hb_waits takes over hands drawn from a wall, hands of one suit and hands one tile short of groups, 1,000 each from a fixed seed, and over
hands of 3 to 5 neighbouring numbers, the widest searches that a climb over hands found. Ready: what hb_ready takes, over 100 of each of those sets,
and its stack; what the C library takes is left out.
Cards: what hb_cards takes; its stack is read off a stack that was painted before the call, the caller's frame included.
Judges: hb_judge on claims of the reported readings of those of the first 10,000 hands that score, made by the other scorer (`claims`), and hb_score of
the same hands.
Messages: what each hb_say_ call takes beyond the call whose answer it says, in each language; their stack as above; and the bytes that they add to a
program that links all other calls, functions that nothing calls left out (gcc -Wl,--gc-sections).
"""
import functools
import glob
import os
import random
import re
import shutil
import subprocess
import sys
import tempfile

here = os.path.normpath(os.path.join(os.path.dirname(os.path.abspath(__file__)), ".."))
vectors = os.path.join(here, "target/bin/vectors")
archive = os.path.join(here, "target/staticlib/libhandset.a")
made = tempfile.TemporaryDirectory()

# ---- compiling and counting


def compiled(name, source, *words):
    """A C program over the archive."""
    path = os.path.join(made.name, name)
    subprocess.run(["gcc", "-O2", "-static", *words, "-x", "c", "-", "-x", "none", archive, "-I", os.path.join(here, "include"), "-o", path],
                   input=source.encode(), check=True)
    return path


@functools.cache
def driver():
    """tools/cost.c over the archive."""
    with open(os.path.join(here, "tools/cost.c"), encoding="utf-8") as file:
        return compiled("cost", file.read())


def counted(program, *words, stdin=b""):
    """How many instructions a run of a program takes, and what it prints."""
    out = os.path.join(made.name, "callgrind")
    r = subprocess.run(["valgrind", "--tool=callgrind", f"--callgrind-out-file={out}", program, *map(str, words)],
                       input=stdin, capture_output=True, check=True)
    return int(re.search(rb"Collected : (\d+)", r.stderr).group(1)), r.stdout


def each(part, what, *words, times=1000):
    """How many instructions a call of a part of tools/cost.c takes."""
    return (counted(driver(), part, times + 1, what, *words)[0] - counted(driver(), part, 1, what, *words)[0]) // times


# ---- stack


def frames(path):
    """Bytes of stack of each function of a program that has a frame, and what each calls."""
    text = subprocess.run(["objdump", "-d", "-C", "--no-show-raw-insn", path], capture_output=True, text=True, check=True).stdout
    sizes, calls, name = {}, {}, None
    for line in text.splitlines():
        m = re.match(r"[0-9a-f]+ <(.*)>:", line)
        if m:
            name = m.group(1)
            sizes[name], calls[name] = 8, set()
        elif name and re.search(r"\bpush\b", line):
            sizes[name] += 8
        elif name:
            m = re.search(r"sub\s+\$0x([0-9a-f]+),%rsp", line)
            if m:
                sizes[name] += int(m.group(1), 16)
            m = re.search(r"\bcall\s+[0-9a-f]+ <([^+>]+)>", line)
            if m:
                calls[name].add(m.group(1))
    return sizes, calls


def deepest(name, sizes, calls, above=()):
    """The bytes of the deepest chain of calls from a function, and the chain; the search recurses five deep at most."""
    if above.count(name) == (5 if name == "score_search::split" else 1):
        return 0, []
    size, chain = max((deepest(c, sizes, calls, (*above, name)) for c in calls[name] if c in sizes), default=(0, []))
    return sizes[name] + size, [name] + chain


def stacks_of(*names):
    """Prints the stack of calls, by the frames of their deepest chains."""
    sizes, calls = frames(driver())
    for name in names:
        size, chain = deepest(name, sizes, calls)
        times = {n: f"{chain.count(n)} times " if chain.count(n) > 1 else "" for n in chain}
        print(f"stack of {name}: {size} bytes: " + ", ".join(f"{often}{n} {sizes[n]}" for n, often in times.items()))


def stack():
    """The stack that Score, Win, Multiple ron and its correction take."""
    stacks_of("hb_score", "hb_win", "hb_multi_ron", "hb_correct_multi_ron")


# ---- Score

LINE_1, LINE_9 = "b81e640210620a31661a9a6bb0", "201e60000005965acb2cc30d34"  # of the table of hands
TWELVE = "b81e0400000082084104106186"  # 111 2222 3333 444m by 2m, with twelve readings
DRAGONS = "201684021068a2fbefc10410c2"  # three dragon triplets


def instructions(hands):
    """How many instructions a run of `vectors` on these hands takes."""
    return counted(vectors, stdin=b"".join(hands))[0]


def one_suit(e):
    """All tiles of a sound, accepted record with no meld are of one suit."""
    n = e[0]
    bits = "".join(f"{b:08b}" for b in e[1:1 + n])
    if n != 13 or e[19] != 0:
        return False
    tiles = [int(bits[25 + 6 * i:31 + 6 * i], 2) for i in range(13)] + [int(bits[16:22], 2)]
    return max(tiles) < 27 and len({t // 9 for t in tiles}) == 1


def worst(hands, base, block):
    """The costliest of the hands: block by block, then one by one in the three costliest blocks."""
    blocks = [hands[i:i + block] for i in range(0, len(hands), block)]
    cost = sorted(((instructions(b) - base) / len(b), k) for k, b in enumerate(blocks))
    return max((instructions([h] * 20) - base) / 20 for _, k in cost[-3:] for h in blocks[k])


def scores():
    """What Score takes: the mean, and the costliest found."""
    with open(os.path.join(here, "crates/vectors/stdin"), "rb") as file:
        data = file.read()
    hands = [data[i:i + 54] for i in range(0, len(data), 54)]
    base = instructions([])
    first = hands[:10000]
    print(f"mean over 10,000 mixed hands: {(instructions(first) - base) // 10000} instructions")
    print(f"costliest found of them: {worst(first, base, 50):.0f} instructions")
    suit = [e for e in hands if one_suit(e)]
    print(f"costliest found of {len(suit)} one-suit hands: {worst(suit, base, 20):.0f} instructions")


def readings():
    """What the calls of every reading take, and their stack."""
    for name, record, numbers in (("line 1", LINE_1, (1,)), ("111 2222 3333 444m by 2m", TWELVE, (1, 12))):
        read = ", ".join(f"reading {n} {each('readings', 2, n, record)}" for n in numbers)
        print(f"readings of {name}: how many {each('readings', 1, 0, record)}, {read} instructions; Score {each('readings', 0, 0, record)}")
    stacks_of("hb_reading_count", "hb_reading")


def slips():
    """What a slip takes beyond its Score, for lines 1 and 9 of the table of hands."""
    for line, record in ((1, LINE_1), (9, LINE_9)):
        score = each("slips", 0, record)
        print(f"slip of line {line}: {each('slips', 1, record) - score} instructions beyond its Score, {score}")


def judges():
    """The mean of Judge over accepted claims."""
    claims = os.path.join(made.name, "claims")
    subprocess.run(["cargo", "run", "--release", "--quiet", "--bin", "claims", "--", "../crates/vectors/stdin", "10000", claims],
                   cwd=os.path.join(here, "other_scorer"), check=True)
    count = os.path.getsize(claims) // 24
    none, score, judge = (counted(driver(), "judges", claims, what)[0] for what in range(3))
    print(f"Judge: mean over {count} accepted claims {(judge - none) // count} instructions, of their Scores {(score - none) // count}")


# ---- bookings


def bookings():
    """What booking a win takes beyond its Score, for line 1 of the table of hands and for three dragon triplets paid by pao; the same of multiple
    rons of line 1's hand, won by seats 1, 2 and 0; what a pao takes, and a correction of a draw by line 1's win and by another draw."""
    for name, words in (("line 1", [LINE_1]), ("a yakuman paid by pao", [DRAGONS, "pao"])):
        print(f"win of {name}: {each('bookings', 1, *words) - each('bookings', 0, *words)} instructions beyond its Score")
    won = [first + LINE_1[2:] for first in ("b8", "d8", "98")]
    for number in (1, 2, 3):
        score = sum(each("bookings", 0, record) for record in won[:number])
        print(f"multiple ron of {number}: {each('bookings', 3, ''.join(won[:number])) - score} instructions beyond its Scores, {score}")
    print(f"pao: {each('bookings', 2, '00' * 13)} instructions")
    win, score, draw = (each("bookings", what, LINE_1) for what in (4, 0, 5))
    print(f"correction of a draw: {win - score} instructions beyond its Score by a win, {draw} by a draw")


# ---- unfinished hands and cards


def unfinished(tiles):
    """An unfinished hand without melds: its length and its bytes."""
    bits = "000" + "".join(f"{tile:06b}" for tile in sorted(tiles)) + "0000000"
    return bytes([11]) + bytes(int(bits[i:i + 8], 2) for i in range(0, 88, 8))


def drawn(kinds, first):
    """13 tiles from a wall of so many kinds."""
    return [first + tile // 4 for tile in random.sample(range(4 * kinds), 13)]


def short():
    """A pair and four groups, a tile short."""
    while True:
        tiles = [random.randrange(34)] * 2
        for _ in range(4):
            low = 9 * random.randrange(3) + random.randrange(7)
            tiles += [low, low + 1, low + 2] if random.randrange(5) < 3 else [random.randrange(34)] * 3
        if max(map(tiles.count, tiles)) <= 4:
            tiles.pop(random.randrange(14))
            return tiles


def hand_sets(count):
    """Three sets of so many unfinished hands, from a fixed seed."""
    random.seed(1)
    return {"drawn from a wall": [drawn(34, 0) for _ in range(count)], "of one suit": [drawn(9, 9 * (n % 3)) for n in range(count)],
            "a tile short of groups": [short() for _ in range(count)]}


def over(what, hands):
    """How many instructions a run over unfinished hands takes: 0 Waits, 1 Ready."""
    return counted(driver(), "unfinished", what, stdin=b"".join(map(unfinished, hands)))[0]


def waits():
    """What Waits takes: means, and the costliest found."""
    sets = hand_sets(1000)
    wide = [[low + tile for tile in shape] for low in range(27) for shape in
            ([0] * 3 + [1] * 4 + [2] * 4 + [3] * 2, [0] * 3 + [1] * 3 + [2] * 3 + [3] * 3 + [4], [0] * 3 + [1] * 4 + [2] * 3 + [3] * 2 + [4])
            if low % 9 + shape[-1] < 9]
    base = over(0, [])
    most = max(over(0, [hand]) - base for hand in wide)
    for name, hands in sets.items():
        blocks = [hands[i:i + 20] for i in range(0, 1000, 20)]
        cost = sorted((over(0, block) - base, k) for k, block in enumerate(blocks))
        most = max([most] + [over(0, [hand]) - base for _, k in cost[-2:] for hand in blocks[k]])
        print(f"waits of 1,000 hands {name}: mean {sum(c for c, _ in cost) // 1000} instructions")
    print(f"costliest waits found: {most} instructions")


def ready():
    """What Ready takes: means, the costliest found, and its frames."""
    base = over(1, [])
    for name, hands in hand_sets(100).items():
        print(f"ready of 100 hands {name}: mean {(over(1, hands) - base) // 100} instructions")
    stacks_of("hb_ready")


def cards():
    """What the practice cards of a suit and a size take."""
    for suit, size in ((0, 2), (0, 5), (0, 8), (1, 8), (2, 8)):
        (one, painted), (two, _) = (counted(driver(), "cards", times, suit, size) for times in (1, 2))
        print(f"cards of suit {suit}, {size} tiles: {two - one} instructions, {int(painted)} bytes of stack")


# ---- messages


def code(calls):
    """Bytes of code and constants of a program that links these calls."""
    table = ", ".join(f"(void *){name}" for name in calls)
    source = f'#include "herbassolh.h"\nvoid *volatile all[] = {{{table}}};\nint main(void) {{ return all[0] == 0; }}\n'
    program = compiled("code", source, "-Wl,--gc-sections")
    return int(subprocess.run(["size", program], capture_output=True, text=True, check=True).stdout.split("\n")[1].split()[0])


def messages():
    """What each message takes beyond the call whose answer it says, in the four languages; their stack; and their bytes of code."""
    languages = (("Japanese", 1), ("English", 2), ("Korean", 3), ("Mandarin", 4))
    gates, two_away = "000000210620a30e410400", "000000018630c51469a800"
    for name, what, beyond, data, times in (
            ("Score of line 1", 1, (0, "Score"), LINE_1, 1000), ("Score of line 9", 1, (0, "Score"), LINE_9, 1000),
            ("Fu of line 1", 2, (0, "Score"), LINE_1, 1000), ("Fu of line 9", 2, (0, "Score"), LINE_9, 1000),
            ("Scores of a position", 3, None, "", 1000), ("Refusal 7", 4, None, "", 1000),
            ("Waits of 1112345678999m, nine tiles", 6, (5, "Waits"), gates, 100),
            ("Ready of 1112345678999m, ready", 8, (7, "Ready"), gates, 10), ("Ready of 11114477m22558p, two away", 8, (7, "Ready"), two_away, 10)):
        base = each("says", beyond[0], 1, data, times=times) if beyond else 0
        said = ", ".join(f"{language} {each('says', what, number, data, times=times) - base}" for language, number in languages)
        print(f"message {name}: {said} instructions" + (f" beyond its {beyond[1]}, {base}" if beyond else ""))
    stacks_of(*(f"hb_say_{call}" for call in ("score", "fu", "scores", "refusal", "waits", "ready")))
    with open(os.path.join(here, "include/herbassolh.h"), encoding="utf-8") as file:
        names = re.findall(r"^[\w ]+[ *](hb_\w+)\(", file.read(), flags=re.M)
    others = [n for n in names if not n.startswith("hb_say_")]
    print(f"the six calls add {code(names) - code(others)} bytes of code and constants to the other {len(others)}")


PARTS = {f"--{part.__name__}": part for part in (stack, scores, readings, slips, bookings, waits, ready, cards, judges, messages)}


def main():
    unknown = [word for word in sys.argv[1:] if word not in PARTS]
    if unknown:
        sys.exit(f"cost.py: {unknown[0]}: no such part; there are {' '.join(PARTS)}")
    wanted = sys.argv[1:] or list(PARTS)
    lacking = [tool for tool in ("gcc", "objdump", "valgrind") + (("cargo",) if "--judges" in wanted else ()) if not shutil.which(tool)]
    if lacking:
        sys.exit(f"cost.py: {', '.join(lacking)}: not installed")
    if "--scores" in wanted:
        code = glob.glob(os.path.join(here, "crates/*/src/*.rt"))
        if not os.path.exists(vectors) or any(os.path.getmtime(path) > os.path.getmtime(vectors) for path in code):
            sys.exit("cost.py: target/bin/vectors is missing or older than the code: run `rt check vectors`")
    if subprocess.run(["bash", os.path.join(here, "tools/archive.sh")], check=False).returncode:
        sys.exit("cost.py: no archive")
    for part in wanted:
        PARTS[part]()


if __name__ == "__main__":
    main()
