#!/usr/bin/env python3
"""Checks that the C of README.md is code that is run: each block that begins with ```c stands line by line in examples/firmware.c, which
interface/run.sh compiles and runs. A line for each fault and exit status 1, else a count."""
import os
import re
import sys

import tree

PAGE, SOURCE = "README.md", "examples/firmware.c"


def main():
    source = tree.read(os.path.join(tree.ROOT, SOURCE))
    blocks = re.findall(r"^```c\n(.*?)^```$", tree.read(os.path.join(tree.ROOT, PAGE)), flags=re.M | re.S)
    faults = [f"{PAGE}: not in {SOURCE}: {block.split(chr(10))[0].strip()} .." for block in blocks if f"\n{block}" not in source]
    if not blocks:
        faults.append(f"{PAGE}: it shows nothing of {SOURCE}")
    print("\n".join(faults) or f"{len(blocks)} stretch of {SOURCE} stands in {PAGE}")
    sys.exit(bool(faults))


main()
