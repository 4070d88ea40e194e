#!/usr/bin/env python3
"""What the boards said, checked and put into the pages: report.py --one COUNTS FILE, report.py COUNTS QEMU C-FILE FILE..

COUNTS is what expect said; each FILE has the figures and the images' words of one build. Every call has to be made as often as on the host, no answer
may differ, and no painted stack may be deeper than the call graph's. --one: checks a build and says its line. Otherwise the tables go into
docs/COST.md, between lines with the marks below, and the last line is a count and `0 differ`."""
import os
import re
import sys

ROOT = os.path.dirname(os.path.dirname(os.path.dirname(os.path.abspath(__file__))))
BEGIN, END = "<!-- portable/board.sh: begin -->", "<!-- portable/board.sh: end -->"
CHIPS = ("Cortex-M0+", "Cortex-M4", "RV32IMC")
LEVELS = ("-O0", "-O1", "-O2", "-O3", "-Os", "-Oz", "-Og", "-flto")
CALIBRATION = 3000000  # instructions of the image's first loop
PUSHED = 128  # bytes of arguments that a caller may push, which the painted stack has too


class Figures:
    """The figures of one call: how often it was made, the deepest stack, and instructions."""

    def __init__(self):
        self.made = self.differ = self.painted = self.timed = self.accepted = 0
        self.most = self.all = self.all_accepted = 0.0

    def add(self, scale, made, differ, painted, most, all_, accepted, all_accepted):
        """What one image said; scale: instructions of a tick, None where they do not count."""
        self.made, self.differ, self.painted = self.made + made, self.differ + differ, max(self.painted, painted)
        if scale:
            self.timed, self.accepted, self.most = self.timed + made, self.accepted + accepted, max(self.most, most * scale)
            self.all, self.all_accepted = self.all + all_ * scale, self.all_accepted + all_accepted * scale


class Build:
    """The figures of one build."""

    def __init__(self, path, counts):
        self.stack, self.calls, self.test, part, scale = {}, {name: Figures() for name in counts}, None, None, None
        with open(path) as file:
            for line in file:
                words = line.split()
                if words[:1] == ["build"]:
                    self.chip, self.compiler, self.level, self.version = words[1:]
                elif words[:1] == ["flash"]:
                    self.flash, self.alone = map(int, words[1:])
                elif words[:1] == ["ram"]:
                    self.ram = int(words[1])
                elif words[:1] == ["stack"]:
                    self.stack[words[1]] = int(words[2])
                elif words[:1] == ["part"]:
                    part = int(words[1])
                elif words[:1] == ["ticks"]:
                    scale = CALIBRATION / int(words[1])
                elif words[:1] == ["test"]:
                    self.test = re.fullmatch(r"test (\d+) checks, 0 failed", line.strip())
                elif len(words) == 8 and words[0] in self.calls:
                    # Score's instructions are of the first part, the whole hands
                    self.calls[words[0]].add(scale if words[0] != "hb_score" or part == 0 else None, *map(int, words[1:]))
                else:
                    sys.exit(f"report.py: {path}: {line.strip()}")
        self.name = f"{self.chip} {self.compiler} {self.version} {self.level}"
        for name, count in counts.items():
            call = self.calls[name]
            if call.made != count or call.differ:
                sys.exit(f"report.py: {self.name}: {name}: {call.made} made of {count}, {call.differ} differ")
            if self.stack and call.painted > self.stack[name] + PUSHED:
                sys.exit(f"report.py: {self.name}: {name}: stack {call.painted} painted, {self.stack[name]} by the call graph: "
                         "is a depth of depths.txt too small?")
        if self.ram or not self.test:
            sys.exit(f"report.py: {self.name}: {self.ram} bytes of RAM, interface/tests/ {'passes' if self.test else 'fails'}")

    def worst(self):
        """The deepest stack of any call, by the call graph where there is one."""
        return max(self.stack.values()) if self.stack else max(call.painted for call in self.calls.values())

    def answers(self):
        return sum(call.made for call in self.calls.values())

    def score(self):
        """The mean of the hands, and of the accepted ones."""
        call = self.calls["hb_score"]
        return f"{hundreds(call.all / call.timed)} ({hundreds(call.all_accepted / call.accepted)})"

    def line(self):
        return (f"{self.name}: {self.answers()} answers, 0 differ; {self.test.group(1)} checks, 0 failed; flash {number(self.flash)}, "
                f"stack {number(self.worst())}, Score {self.score()}")


def number(n):
    return f"{round(n):,}"


def hundreds(n):
    """A number of instructions, as exact as it was measured."""
    return number(round(n, -2) if n >= 10000 else round(n, -1))


def table(head, rows):
    return ["| " + " | ".join(cells) + " |" for cells in [head, ["---"] * len(head), *rows]]


def by_build(builds):
    head = ["build", "flash, all calls", "hb_score alone", "deepest stack, any call", "hb_score", "Score, mean (of the accepted)", "costliest"]
    rows = []
    for b in builds:
        score, painted = (b.stack["hb_score"], "") if b.stack else (b.calls["hb_score"].painted, " painted")
        rows.append([f"{b.chip}, {b.compiler} {b.version} {b.level}", number(b.flash), number(b.alone), number(b.worst()) + painted, number(score) + painted,
                     b.score(), hundreds(b.calls["hb_score"].most)])
    return table(head, rows)


def by_call(builds, counts):
    chosen = [b for b in builds if b.compiler == "gcc"]
    head = ["call"] + [f"{b.chip} {b.level}" for b in chosen]
    rows = []
    for name in counts:
        figures = [(b.stack[name], b.calls[name]) for b in chosen]
        rows.append([f"`{name}`"] + [f"{number(stack)} ({number(c.painted)}); {hundreds(c.all_accepted / c.accepted)}, {hundreds(c.most)}"
                                     for stack, c in figures])
    return table(head, rows)


def digest_of(path):
    """The digest in the first lines of the C file."""
    with open(path, encoding="utf-8") as file:
        return re.search(r"^ \* MIR: SHA-256 ([0-9a-f]{64})$", file.read(2000), flags=re.M).group(1)


def cost_page(builds, counts, qemu, digest):
    run, untested = {}, []
    for b in builds:
        run.setdefault((b.chip, b.compiler, b.version), []).append(b.level)
    for (chip, compiler, version), levels in run.items():
        untested.append(f"{chip} {compiler} {version} at " + ", ".join(level for level in LEVELS if level not in levels))
    calls = f"{len(counts)} calls with {number(builds[0].answers())} cases"
    return [
        f"Of the file with the MIR {digest}.",
        f"Every build below gives the x86-64 archive's answers to all {calls} on qemu {qemu}, passes `interface/tests/` "
        f"({number(int(builds[0].test.group(1)))} checks) and prints what `examples/firmware.c` prints on the host.",
        "Flash is code and constants in bytes, with what the compiler's library adds (memcpy, division); no RAM is used but stack. "
        f"Stack is in bytes, by gcc's call graph where not painted. Score's instructions are of the first {number(builds[0].calls['hb_score'].timed)} hands "
        "of `crates/vectors/stdin`, refused ones among them; Cortex-M0+ is run as a Cortex-M0, which has the same instructions.", "",
        *by_build(builds), "",
        "By call, gcc: stack by the call graph (painted, with the arguments that the caller pushes), then instructions, the mean of the accepted "
        "cases and the costliest of all. Cases are games of a log, and arguments taken at random, one in three damaged.", "",
        *by_call(builds, counts), "",
        "**Untested**, not to be shipped before the board was run with it: every other compiler and version, and of those above: " + "; ".join(untested) + ".",
    ]


def put(page, lines):
    """Puts lines between the marks of a page."""
    path = os.path.join(ROOT, page)
    with open(path, encoding="utf-8") as file:
        text = file.read()
    if text.count(BEGIN) != 1 or text.count(END) != 1:
        sys.exit(f"report.py: {page}: no place between {BEGIN} and {END}")
    before, after = text[:text.index(BEGIN) + len(BEGIN)], text[text.index(END):]
    with open(path, "w", encoding="utf-8") as file:
        file.write(before + "\n" + "\n".join(lines) + "\n" + after)


def main():
    one = sys.argv[1] == "--one"
    given = sys.argv[2 if one else 1:]
    with open(given[0]) as file:
        counts = {name: int(made) for name, made, _ in map(str.split, file)}
    builds = [Build(path, counts) for path in given[1 if one else 3:]]
    builds.sort(key=lambda b: (CHIPS.index(b.chip), b.compiler == "clang", b.level == "-O2"))
    if one:
        print(builds[0].line())
        return
    put("docs/COST.md", cost_page(builds, counts, given[1], digest_of(given[2])))
    answers, checks = sum(b.answers() for b in builds), sum(int(b.test.group(1)) for b in builds)
    print(f"board: {len(builds)} builds, {number(answers)} answers and {number(checks)} checks; 0 differ")


main()
