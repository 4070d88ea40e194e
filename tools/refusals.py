#!/usr/bin/env python3
"""Checks that what is said of refusals agrees with docs/REFUSALS.md: refusals.py [PAPER..]. A line for each fault and exit status 1, else a count.

- the page: each call's row lists the numbers that name it under "given by" ("none" where none does), and the reverse; numbers ascend; each has a
  row under "Where each is defined and decided", whose names tools/claims.py checks;
- include/herbassolh.h: the names and numbers of HB_REFUSAL_*, with the first sentence of "what happened" as comment; each call has a row, and the
  comment before it gives its refusals in the row's order ("refusals 8, 1 to 7 in order"), or none; where the row ends with "then the entry's", those of
  each booking too, in the order of the booking's row (without those that no entry meets: of a win 1, of a multiple ron 1 and its first 17, ..),
  and of a correction 9 and 20, which are first in the row of each correction, before those of the result that it carries;
- docs/RECORDS.md names the page and has no table of refusals of its own; docs/*.md and README.md name no number that the page lacks;
- the tester's tool: a Rust function `refusal` that gives words for numbers (N => "words") has those of the column "in the tool";
- with the papers' files as arguments: each quotation is in one of them, word for word."""
import glob
import os
import re
import sys

import tree

PAGE = "docs/REFUSALS.md"
HEADER = "include/herbassolh.h"
BOOKINGS = ("Riichi", "Win", "Draw", "Chombo", "Multiple ron", "Pao")
LEFT_OUT = [("Win", 1), ("Draw", 8), ("Multiple ron", 1), ("Pao", 8)]  # of an entry's booking
RESULTS = ("Win", "Draw", "Chombo", "Multiple ron")  # that a correction carries
CORRECTION = [9, 20]  # its refusals before those of the result that it carries


def plain(text):
    return " ".join(text.replace("−", "-").split())


def numbers(text):
    """8, 1 to 7 as a list."""
    found = []
    for first, last in re.findall(r"(\d+)(?: to (\d+))?", text):
        found += range(int(first), int(last or first) + 1)
    return found


def sentence(text):
    """The first sentence."""
    return re.match(r".*?\.(?= [A-Z]|$)|.*", plain(text)).group(0)


def tables():
    """The rows of the page's first two tables, without their heads; the third says where each is defined, and claims.py reads it."""
    rows = [[c.strip() for c in line.strip("| ").split(" | ")] for line in tree.read(os.path.join(tree.ROOT, PAGE)).split("\n") if line.startswith("|")]
    heads = [k for k, row in enumerate(rows) if row[0] in ("call", "number", "refusal")]
    return rows[heads[0] + 2:heads[1]], rows[heads[1] + 2:heads[2]], rows[heads[2] + 2:]


def check_page(calls, refusals):
    for number, row in refusals.items():
        given = [call for call, (_, order, _) in calls.items() if number in order]
        if row["given by"] != (given or ["none"]):
            yield f"{PAGE}: {number} is given by {', '.join(row['given by'])}; by the rows of the calls it is {', '.join(given)}"
    if list(refusals) != sorted(refusals):
        yield f"{PAGE}: numbers {list(refusals)}"
    for call, (_, order, _) in calls.items():
        yield from (f"{PAGE}: {call} gives {n}, which has no row" for n in order if n not in refusals)
    for result in RESULTS:
        here, wanted = calls[f"Correct {result.lower()}"][1], CORRECTION + calls[result][1]
        if here != wanted:
            yield f"{PAGE}: Correct {result.lower()} gives {here}; by the row of {result} it is {wanted}"


def check_entry(comment, call, calls):
    """The comment of a call that books an entry: its own refusals, and those of each booking ("of an entry: 14; of a riichi 8, 9, 10, 21, a win ...")."""
    said = {kind: numbers(order) for kind, order in re.findall(r"\ban? ([a-z]+(?: ron)?):? (\d[\d, to]*)", plain(comment))}
    wanted = {"entry": next(order for name, order, _ in calls.values() if name == call)}
    for booking in BOOKINGS:
        order = calls[booking][1]  # the first of a number that is there twice is about an argument that fits in an entry
        wanted[booking.lower()] = [n for k, n in enumerate(order) if (booking, n) not in LEFT_OUT and n not in order[k + 1:]]
    wanted["correction"] = CORRECTION
    if said != wanted:
        yield f"{HEADER}: {call} says refusals {said}; by the rows of {PAGE} they are {wanted}"


def check_header(calls, refusals):
    text = re.sub(r"^ \*(?!/)", "", tree.read(os.path.join(tree.ROOT, HEADER)), flags=re.M)
    named = {}
    for name, number, comment in re.findall(r"(HB_REFUSAL_\w+) = (\d+),?\s*/\*(.*?)\*/", text, flags=re.S):
        named[int(number)] = (name, plain(comment))
    for number in sorted(set(named) | set(refusals)):
        here = (refusals[number]["name"], sentence(refusals[number]["happened"])) if number in refusals else None
        if named.get(number) != here:
            yield f"{HEADER}: {number} is {named.get(number)}; in {PAGE} it is {here}"
    orders = {c: order for c, order, _ in calls.values()}
    entries = [c for c, _, of_entry in calls.values() if of_entry]
    declared = re.findall(r"(?:/\*((?:(?!\*/).)*?)\*/\n)?^[\w *]+?\b(hb_\w+)\([^;]*\);", text, flags=re.M | re.S)
    for comment, call in declared:
        said = re.search(r"[Rr]efusals? ([\d, to]*\d)", plain(comment))
        order = numbers(said.group(1)) if said else []
        if call not in orders:
            yield f"{PAGE}: no row for {call}"
        elif call in entries:
            yield from check_entry(comment, call, calls)
        elif orders[call] != order:
            yield f"{HEADER}: {call} says refusals {order}; in {PAGE} they are {orders[call]}"
    yield from (f"{PAGE}: {c} is not in {HEADER}" for c in orders if c not in [call for _, call in declared])


def check_papers(refusals):
    records = tree.read(os.path.join(tree.ROOT, "docs/RECORDS.md"))
    if PAGE not in records or re.search(r"^\| 1 \| .*under 4 bytes", records, flags=re.M):
        yield f"docs/RECORDS.md: it should name {PAGE} and have no table of refusals"
    for path in sorted(glob.glob(os.path.join(tree.ROOT, "docs", "*.md"))) + [os.path.join(tree.ROOT, "README.md")]:
        for said in re.findall(r"[Rr]efusals? ((?:\d+(?:, | and | to |))+)", tree.read(path)):
            yield from (f"{os.path.relpath(path, tree.ROOT)}: refusal {n}, which has no row" for n in numbers(said) if n not in refusals and n)


def tool_tables():
    """Rust functions that give words for the number of a refusal: path, and words by number."""
    for path in glob.glob(os.path.join(tree.ROOT, "**", "*.rs"), recursive=True):
        if "/target/" in path:
            continue
        for body in re.findall(r"fn refusal\w*\([^)]*\) -> [^{]*str[^{]*\{(.*?)\n\}", tree.read(path), flags=re.S):
            arms = {int(n): words for n, words in re.findall(r"^\s*(\d+) => \"([^\"]*)\"", body, flags=re.M)}
            if arms:
                yield os.path.relpath(path, tree.ROOT), arms


def check_tools(refusals, found):
    for path, arms in tool_tables():
        found.append(path)
        for number in sorted(set(arms) | set(refusals)):
            words = refusals[number]["tool"] if number in refusals else "accepted" if number == 0 else None
            if arms.get(number) != words:
                yield f"{path}: {number} is {arms.get(number)!r}; in {PAGE} it is {words!r}"


def check_quotations(refusals, papers):
    text = plain(" ".join(tree.read(p) for p in papers))
    for number, row in refusals.items():
        for quoted in re.findall(r'"([^"]+)"', row["words"]):
            if plain(quoted) not in text:
                yield f"{PAGE}: {number}: not in the papers: {quoted}"


def main():
    first, second, third = tables()
    calls = {call: (name.strip("`"), numbers(order), order.endswith("then the entry's")) for call, name, order in first}
    refusals = {int(r[0]): {"name": r[1].strip("`"), "given by": r[2].split(", "), "words": r[3], "happened": r[4], "tool": r[5]} for r in second}
    tools = []
    faults = [f"{PAGE}: the refusals with a place are {[row[0] for row in third]}"] * ([int(row[0]) for row in third] != list(refusals))
    faults += [*check_page(calls, refusals), *check_header(calls, refusals), *check_papers(refusals), *check_tools(refusals, tools)]
    if sys.argv[1:]:
        faults += check_quotations(refusals, sys.argv[1:])
    print("\n".join(faults) or f"{len(refusals)} refusals of {len(calls)} calls agree; words of the tool in {', '.join(tools) or 'no file'}")
    sys.exit(bool(faults))


main()
