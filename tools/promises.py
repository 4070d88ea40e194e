#!/usr/bin/env python3
"""Counts the public functions of crates/*/src, those without a promise (`ensures`) and those exported to C with a `requires`; and looks for contracts,
of inner functions too, that cite a definition of proofs/laws/, where only proofs stand. Names the offenders; exit status 1 where there is one."""
import sys

import tree


def count(t):
    """The public functions, how many that are not exported have a `requires`, and a line for each offender."""
    public = [i for i in t.items("src") if i.kind == "function" and i.public]
    asks = [i for i in public if any(line.startswith("requires ") for line in i.code)]
    offenders = [f"{i.where()}: {i.name} has no promise" for i in public if not any(line.startswith("ensures ") for line in i.code)]
    offenders += [f"{i.where()}: {i.name} is exported with a requires" for i in asks if i.exported]
    functions = [i for i in t.items("src") if i.kind == "function"]
    offenders += [f"{i.where()}: {i.name} cites {o.name} of {o.where()}" for i in functions for o in t.uses(i) if o.file.part == "laws"]
    return len(public), sum(not i.exported for i in asks), offenders


def main():
    public, inner, offenders = count(tree.Tree())
    print("\n".join(offenders + [f"{public} public functions, {inner} inner ones with a requires, {len(offenders)} offenders"]))
    sys.exit(bool(offenders))


if __name__ == "__main__":
    main()
