"""The flow of a body. MIR's body is prefix code: the name of a statement is followed by the statements in it. Here it becomes a tree: a list of
statements, each (name, content) or, with others in it, (name, content, list..). An exit names how many blocks and loops around it are left; in
the tree it names the scope itself. A block that no exit leaves is only its statements; a block that holds nothing but a loop is that loop's end."""
from mir import Unknown, form


class Scope:
    """A block or a loop; used: an exit names it."""

    def __init__(self):
        self.used = False


def whole(body):
    """A body as a tree."""
    nodes = iter(body)
    found = tree(nodes)
    if next(nodes, None) is not None:
        raise Unknown("statements after the body's end")
    return found


def tree(nodes, scopes=()):
    """The next statement of an iterator over a body, as a list: none, one, or those of a sequence."""
    name, content = form(next(nodes))
    if name in ("Assign", "Call", "LendStatic", "Return", "Unreachable"):
        return [(name, content)]
    if name == "Exit":
        if not isinstance(content, int) or content >= len(scopes):
            raise Unknown(f"Exit {content} of {len(scopes)} blocks and loops")
        scopes[-1 - content].used = True
        return [(name, scopes[-1 - content])]
    if name in ("Block", "Loop"):
        scope = Scope()
        inner = tree(nodes, (*scopes, scope))
        if name == "Loop":
            return [(name, (Scope(), scope), inner)]
        if len(inner) == 1 and inner[0][0] == "Loop" and not inner[0][1][0].used:
            return [("Loop", (scope, inner[0][1][1]), inner[0][2])]
        return [(name, scope, inner)] if scope.used else inner
    if name in ("If", "Switch"):
        return [(name, content, *[tree(nodes, scopes) for _ in range(2 if name == "If" else len(content[1]) + content[2])])]
    if name in ("Seq", "Skip"):
        return tree(nodes, scopes) + tree(nodes, scopes) if name == "Seq" else []
    raise Unknown(f"statement {name}")


def inside(statement):
    """The lists of statements in a statement."""
    return statement[2:] if statement[0] in ("Block", "Loop", "If", "Switch") else ()


def every(statements):
    """All statements of a tree."""
    for s in statements:
        yield s
        for part in inside(s):
            yield from every(part)


def pruned(statements, is_needless):
    """A tree without some assignments, and then without the tests that nothing depends on."""
    left = []
    for s in statements:
        parts = [pruned(part, is_needless) for part in inside(s)]
        if not is_needless(s) and (s[0] not in ("If", "Switch") or any(parts)):
            left.append((*s[:2], *parts))
    return left
