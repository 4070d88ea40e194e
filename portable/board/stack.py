#!/usr/bin/env python3
"""Worst stack of calls along gcc's call graph (-fcallgraph-info=su): stack.py FILE.ci DEPTHS CALL.. prints a call and its bytes a line.

DEPTHS names the recursive functions and how many activations of each stand at once. A function that has no size there (memcpy, the compiler's own
helpers) counts OUTSIDE bytes. Exit status 1 with the function's name where a recursion has no depth."""
import re
import sys

OUTSIDE = 32


class Graph:
    def __init__(self, text):
        self.size, self.edges, self.worst = {}, {}, {}
        for title, label in re.findall(r'node: \{ title: "([^"]+)" label: "([^"]*)"', text):
            found = re.search(r"(\d+) bytes \((static|dynamic|dynamic,bounded)\)", label)
            if found and found.group(2) != "static":
                sys.exit(f"stack.py: {title}: a stack that is not static")
            self.size[title] = int(found.group(1)) if found else OUTSIDE
        for a, b in re.findall(r'edge: \{ sourcename: "([^"]+)" targetname: "([^"]+)"', text):
            self.edges.setdefault(a, set()).add(b)
        self.named = {title.split(":")[-1]: title for title in self.size}

    def below(self, title, left, above=()):
        """The most bytes from a function down, where so many activations are left of each recursive function; None where it has none left."""
        name = re.sub(r"\.(constprop|isra|part|cold)\b.*", "", title.split(":")[-1])
        spent = dict(left)
        if name in spent:
            if spent[name] == 0:
                return None
            spent[name] -= 1
        elif title in above:
            sys.exit(f"stack.py: {name} calls itself: how often at once? Say it in depths.txt")
        left = tuple(sorted(spent.items()))
        if (title, left) not in self.worst:
            found = [self.below(callee, left, (*above, title)) for callee in sorted(self.edges.get(title, ()))]
            self.worst[title, left] = self.size[title] + max((n for n in found if n is not None), default=0)
        return self.worst[title, left]


def main():
    path, depths_file, *calls = sys.argv[1:]
    with open(depths_file) as file:
        lines = [line.split() for line in file if line.strip() and not line.startswith("#")]
    with open(path) as file:
        graph = Graph(file.read())
    left = tuple(sorted((words[0], int(words[1])) for words in lines))
    for call in calls:
        print(call, graph.below(graph.named[call], left))


main()
