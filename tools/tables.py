#!/usr/bin/env python3
"""Makes the example tables and the cases of the table check, and computes what each must answer.

It shares nothing with the crates: the answers come from docs/TABLE.md, by unbounded integers and a tree for each pattern.

    tools/tables.py examples      write examples/*.table
    tools/tables.py cases         write crates/cases/stdin and crates/cases/stdout
    tools/tables.py card [SCOPE] < TABLE
"""
import pathlib
import sys

HERE = pathlib.Path(__file__).resolve().parent.parent
SCOPE_MARK = 255


def table(roots, *items):
    """The bytes of a table with the given items, each (kind, argument)."""
    out = bytearray(len(items).to_bytes(2, "little") + roots.to_bytes(2, "little"))
    out += bytes(kind for kind, _ in items)
    for _, argument in items:
        out += argument.to_bytes(2, "little")
    return bytes(out)


def pick(root, event):
    return (9, 256 * root + event)


def times(least, most):
    return least + 256 * most


# --- what a table must answer -----------------------------------------------------------------------------------------------------


class No(Exception):
    pass


def ask(fine, question, item=255):
    if not fine:
        raise No(question, item)


def measure(tree, scope):
    """(count, length) of a pattern tree."""
    kind, argument, parts = tree
    if kind == 0:
        return 1, 0
    if kind == 1:
        return 1, 1
    below = [measure(part, scope) for part in parts]
    if kind in (2, 8):
        return below[0][0], below[0][1] + 1
    if kind in (3, 4):
        return below[0][0] * below[1][0], below[0][1] + below[1][1]
    if kind == 5:
        return below[0][0] + below[1][0], max(below[0][1], below[1][1])
    least, most = argument & 255, argument >> 8
    most = scope if most == SCOPE_MARK else most
    return sum(below[0][0] ** k for k in range(least, most + 1)), most * below[0][1]


def suits(kind, argument, roots, scope):
    low, high = argument & 255, argument >> 8
    if kind in (1, 2, 8):
        return argument <= 99
    if kind in (6, 7):
        top = scope if high == SCOPE_MARK else high
        return low <= 15 and (high <= 15 or high == SCOPE_MARK) and low <= top
    if kind == 9:
        return high < roots and low <= 99
    if kind == 14:
        return argument <= 64
    return argument == 0


TAKES = {0: 0, 1: 0, 2: 1, 3: 2, 4: 2, 5: 2, 6: 1, 7: 1}
PICKS = {10: 2, 11: 2, 12: 2, 13: 2, 14: 1, 15: 2}


def read(data, scope):
    ask(len(data) >= 4, 1)
    items, roots = int.from_bytes(data[0:2], "little"), int.from_bytes(data[2:4], "little")
    ask(len(data) == 4 + 3 * items, 1)
    ask(1 <= items <= 255 and 1 <= roots <= 8, 2)
    ask(1 <= scope <= 5, 3)
    kinds = list(data[4 : 4 + items])
    arguments = [int.from_bytes(data[4 + items + 2 * i : 6 + items + 2 * i], "little") for i in range(items)]
    waiting, picks, closed = [], [], []
    for i, (kind, argument) in enumerate(zip(kinds, arguments)):
        ask(kind <= 15, 4, i)
        ask(suits(kind, argument, roots, scope), 5, i)
        ask((len(closed) < roots) == (kind <= 8), 6, i)
        made = None
        if kind <= 7:
            ask(len(waiting) >= TAKES[kind], 6, i)
            parts = waiting[len(waiting) - TAKES[kind] :]
            del waiting[len(waiting) - TAKES[kind] :]
            made = (kind, argument, parts)
            waiting.append(made)
        elif kind == 8:
            ask(len(waiting) == 1, 6, i)
            made = (kind, argument, [waiting.pop()])
            closed.append(made)
        elif kind == 9:
            ask(len(picks) <= 1, 6, i)
            picks.append(argument)
        else:
            ask(len(picks) == PICKS[kind], 6, i)
            if kind == 10:
                a, b = picks
                inside = any(k in (2, 8) and g == a % 256 for k, g in zip(kinds, arguments))
                ask(a % 256 == b % 256 and a // 256 != b // 256 and not inside, 7, i)
            picks = []
        if made:
            count, length = measure(made, scope)
            ask(count <= 1_000_000, 8, i)
            ask(length <= 64, 9, i)
    ask(len(closed) == roots and not waiting and not picks, 10)
    sizes = [(root[1],) + measure(root, scope) for root in closed]
    total = 1
    for _, count, _ in sizes:
        total *= count
    ask(total <= 1_000_000, 11)
    ask(sum(length for _, _, length in sizes) <= 64, 12)
    return closed, sizes, total


def card(data, scope):
    try:
        _, sizes, total = read(data, scope)
    except No as no:
        return "no %d %d\n" % no.args
    return "".join("root %d %d %d\n" % size for size in sizes) + "total %d\n" % total


# --- the examples -----------------------------------------------------------------------------------------------------------------

ATOM = (1, 10)
NOTHING = (0, 0)


def sixty():
    """Items of a pattern with one choice and 60 events."""
    return [ATOM, ATOM, (3, 0), ATOM, (3, 0), ATOM, (3, 0), (6, times(15, 15))]


EXAMPLES = {
    "two-logs": table(2, (1, 10), (6, times(0, 255)), (8, 1), (1, 20), (6, times(0, 255)), (8, 2), pick(0, 10), pick(1, 20), (11, 0)),
    "shared-event": table(2, (1, 10), (6, times(0, 2)), (8, 1), (1, 10), (1, 11), (5, 0), (8, 2), pick(0, 10), pick(1, 10), (10, 0)),
    "push-pop": table(1, (1, 30), (1, 31), (5, 0), (6, times(0, 2)), (8, 1), pick(0, 30), pick(0, 31), (15, 0)),
    "nested": table(1, (1, 10), (2, 5), (1, 11), (3, 0), (8, 1)),
    "too-long": table(3, *sixty(), (8, 1), (1, 10), (8, 2), (1, 10), (8, 3)),
}


# --- the cases of the check: each question, and both sides of each limit ----------------------------------------------------------


def power(base_choices, least, most):
    """A root that repeats an alternative of so many atoms."""
    items = [ATOM] + [x for _ in range(base_choices - 1) for x in (ATOM, (5, 0))]
    return items + [(6, times(least, most)), (8, 1)]


def cases():
    one = [ATOM, (8, 1)]
    two = one + [ATOM, (8, 2)]
    yield "empty", 2, b""
    yield "three-bytes", 2, b"\x01\x00\x01"
    yield "one-byte-short", 2, table(1, *one)[:-1]
    yield "one-byte-more", 2, table(1, *one) + b"\x00"
    yield "bytes-before-sizes", 2, b"\x00\x00\x00\x00\x00"
    yield "no-items", 2, table(1)
    yield "items-255", 2, table(1, *([ATOM] + [NOTHING, (3, 0)] * 126 + [(6, times(1, 1)), (8, 1)]))
    yield "items-256", 2, table(1, *([ATOM] + [NOTHING, (3, 0)] * 127 + [(8, 1)]))
    yield "no-roots", 2, table(0, *one)
    yield "roots-8", 2, table(8, *(one * 8))
    yield "roots-9", 2, table(9, *(one * 9))
    yield "sizes-before-scope", 0, table(0, *one)
    for scope in (0, 1, 5, 6, 255):
        yield "scope-%d" % scope, scope, EXAMPLES["two-logs"]
    yield "kind-16", 2, table(1, ATOM, (16, 0), (8, 1))
    yield "kind-255-last", 2, table(1, ATOM, (8, 1), (255, 0))
    for kind, fine, bad in ((1, 99, 100), (2, 99, 100), (8, 99, 356)):
        for argument in (fine, bad):
            items = {1: [(1, argument), (8, 1)], 2: [ATOM, (2, argument), (8, 1)], 8: [ATOM, (8, argument)]}[kind]
            yield "type-%d-of-kind-%d" % (argument, kind), 2, table(1, *items)
    for kind in (0, 3, 4, 5):
        items = [NOTHING if kind else (0, 1), ATOM] + [(kind or 3, 1 if kind else 0), (8, 1)]
        yield "argument-of-kind-%d" % kind, 2, table(1, *items)
    for kind in (10, 11, 12, 13, 15):
        yield "argument-of-kind-%d" % kind, 2, table(2, *two, pick(0, 10), pick(1, 10), (kind, 1))
    for argument in (64, 65):
        yield "at-most-%d" % argument, 2, table(1, *one, pick(0, 10), (14, argument))
    for least, most, scope in ((15, 15, 2), (16, 15, 2), (0, 15, 2), (0, 16, 2), (0, 254, 2), (2, 1, 2), (2, 255, 2), (3, 255, 2), (3, 255, 3), (1, 0, 2), (0, 0, 2)):
        for kind in (6, 7):
            yield "times-%d-%d-at-%d-of-kind-%d" % (least, most, scope, kind), scope, table(1, NOTHING, (kind, times(least, most)), (8, 1))
    yield "pick-root-1-of-1", 2, table(1, *one, pick(1, 10), (14, 0))
    yield "pick-type-99", 2, table(1, *one, pick(0, 99), (14, 0))
    yield "pick-type-100", 2, table(1, *one, pick(0, 100), (14, 0))
    for kind, need in ((2, 1), (3, 2), (4, 2), (5, 2), (6, 1), (7, 1), (8, 1)):
        argument = times(0, 1) if kind in (6, 7) else 0
        yield "kind-%d-finds-too-few" % kind, 2, table(1, *([ATOM] * (need - 1)), (kind, argument), (8, 1))
    yield "root-finds-two", 2, table(1, ATOM, ATOM, (8, 1))
    yield "pattern-after-last-root", 2, table(1, *one, ATOM)
    yield "root-after-last-root", 2, table(1, *one, (8, 1))
    yield "pick-before-last-root", 2, table(2, *one, pick(0, 10), ATOM, (8, 2))
    yield "third-pick", 2, table(1, *one, pick(0, 10), pick(0, 10), pick(0, 10), (11, 0))
    for kind in (10, 11, 12, 13, 15):
        yield "kind-%d-of-one-pick" % kind, 2, table(2, *two, pick(0, 10), (kind, 0))
        yield "kind-%d-of-two-picks" % kind, 2, table(2, *two, pick(0, 10), pick(1, 10), (kind, 0))
    yield "at-most-of-no-pick", 2, table(1, *one, (14, 1))
    yield "at-most-of-two-picks", 2, table(2, *two, pick(0, 10), pick(1, 10), (14, 1))
    yield "share-two-types", 2, table(2, *two, pick(0, 10), pick(1, 11), (10, 0))
    yield "share-one-root", 2, table(2, *two, pick(1, 10), pick(1, 10), (10, 0))
    yield "share-a-root-type", 2, table(2, *two, pick(0, 2), pick(1, 2), (10, 0))
    yield "share-an-event-with-an-inside", 2, table(2, NOTHING, (2, 12), (8, 1), ATOM, (8, 2), pick(0, 12), pick(1, 12), (10, 0))
    yield "coordinate-one-root", 2, table(2, *two, pick(1, 10), pick(1, 10), (11, 0))
    yield "count-1000000", 2, table(1, *power(10, 6, 6))
    yield "count-1048576", 2, table(1, *power(4, 10, 10))
    yield "count-1000001", 2, table(1, *power(10, 6, 6)[:-1], ATOM, (5, 0), (8, 1))
    yield "count-15-to-the-15", 2, table(1, *power(15, 15, 15))
    yield "count-before-length", 2, table(1, *power(2, 5, 5)[:-1], (6, times(15, 15)), (8, 1))
    four = [ATOM, ATOM, (3, 0), ATOM, (3, 0), ATOM, (3, 0)]
    yield "length-63-and-its-root", 2, table(1, *sixty(), ATOM, (4, 0), ATOM, (4, 0), ATOM, (4, 0), (8, 1))
    yield "length-64-and-its-root", 2, table(1, *sixty(), *four, (3, 0), (8, 1))
    yield "length-65", 2, table(1, *sixty(), *four, (3, 0), ATOM, (3, 0), (8, 1))
    yield "length-of-a-set-repetition", 2, table(1, *four, (7, times(0, 15)), ATOM, (3, 0), (8, 1))
    yield "length-of-an-alternative", 2, table(1, *sixty(), *four, (5, 0), (8, 1))
    yield "one-root-of-two", 2, table(2, *one)
    yield "a-pattern-waits", 2, table(2, *one, ATOM)
    yield "a-pick-waits", 2, table(1, *one, pick(0, 10))
    yield "total-1000000", 2, table(2, *power(10, 3, 3), *power(10, 3, 3))
    yield "total-1001000", 2, table(2, *power(10, 3, 3), *power(10, 3, 3)[:-1], ATOM, (5, 0), (8, 1))
    yield "whole-before-total", 2, table(3, *power(10, 3, 3), *power(10, 3, 3)[:-1], ATOM, (5, 0), (8, 1))
    yield "root-lengths-61-1-2", 2, table(3, *sixty(), (8, 1), NOTHING, (8, 2), ATOM, (8, 3))
    yield "root-lengths-61-2-2", 2, EXAMPLES["too-long"]
    for name in sorted(EXAMPLES):
        for scope in range(1, 6):
            yield "%s-at-%d" % (name, scope), scope, EXAMPLES[name]


def main(words):
    if words[:1] == ["examples"]:
        for name, data in EXAMPLES.items():
            (HERE / "examples" / (name + ".table")).write_bytes(data)
    elif words[:1] == ["cases"]:
        folder = HERE / "crates" / "cases"
        lines, answers = [], []
        for name, scope, data in cases():
            lines.append(" ".join([name, str(scope)] + [str(byte) for byte in data]) + "\n")
            answers.append(name + "\n" + card(data, scope))
        (folder / "stdin").write_text("".join(lines))
        (folder / "stdout").write_text("".join(answers))
    elif words[:1] == ["card"]:
        scope = int(words[1]) if len(words) > 1 else 2
        sys.stdout.write(card(sys.stdin.buffer.read(), scope))
    else:
        sys.exit(__doc__)


if __name__ == "__main__":
    main(sys.argv[1:])
