#!/usr/bin/env python3
"""Makes the cases of laying, and computes what each must answer.

It shares nothing with the crates. It writes out all choices of a pattern in their order, one after another, and never takes a number
apart; and it lays a choice as a list of events, each told from outside what stands around it.

    tools/laying.py cases              write crates/lay_cases/stdin and crates/lay_cases/stdout
    tools/laying.py laid SCOPE NUMBER < TABLE
    tools/laying.py all SCOPE < TABLE  every candidate, each after a line with its number
"""
import itertools
import sys

from tables import ATOM, EXAMPLES, HERE, NOTHING, SCOPE_MARK, No, read, table, times

# A choice is ("event", type, inside) or ("group", in order?, members).


def choices(tree, scope):
    """All choices of a pattern or a root, in the order of their numbers."""
    kind, argument, parts = tree
    if kind == 0:
        return [("group", False, [])]
    if kind == 1:
        return [("event", argument, ("group", False, []))]
    below = [choices(part, scope) for part in parts]
    if kind in (2, 8):
        return [("event", argument, inside) for inside in below[0]]
    if kind in (3, 4):
        return [("group", kind == 3, [one, two]) for one in below[0] for two in below[1]]
    if kind == 5:
        return below[0] + below[1]
    least, most = argument & 255, argument >> 8
    most = scope if most == SCOPE_MARK else most
    return [("group", kind == 6, list(members)) for k in range(least, most + 1) for members in itertools.product(below[0], repeat=k)]


def put(choice, around, events):
    """Lays a choice after the events so far; gives its top events."""
    if choice[0] == "event":
        place = len(events)
        events.append([choice[1], around, set()])
        put(choice[2], place, events)
        return [place]
    tops = [put(member, around, events) for member in choice[2]]
    if choice[1]:
        for earlier, later in itertools.combinations(tops, 2):
            for one, two in itertools.product(earlier, later):
                events[one][2].add(two)
    return [place for member in tops for place in member]


def lines(candidate):
    events = []
    for choice in candidate:
        put(choice, "-", events)
    return "".join("%d %s %d\n" % (event, around, sum(2**place for place in after)) for event, around, after in events)


def candidates(data, scope):
    roots, _, _ = read(data, scope)
    return list(itertools.product(*(choices(root, scope) for root in roots)))


def laid(data, scope, number):
    try:
        every = candidates(data, scope)
    except No as no:
        return "no %d %d\n" % no.args
    return lines(every[number]) if number is not None and number < len(every) else "none\n"


# --- the cases --------------------------------------------------------------------------------------------------------------------

# an event or nothing, repeated in order: occurrences without events stand between others
GAPS = table(1, (1, 10), NOTHING, (5, 0), (6, times(0, 3)), (8, 1))

# root 1: an event 5 with (10 or 11) and then 12 inside, in sequence with a set of 13 and up to two 14; root 2: one or two events 6 as a
# set, each with 15 or nothing inside
NEST = table(
    2, (1, 10), (1, 11), (5, 0), (1, 12), (3, 0), (2, 5), (1, 13), (1, 14), (7, times(0, 2)), (4, 0), (3, 0), (8, 1),
    (1, 15), NOTHING, (5, 0), (2, 6), (7, times(1, 2)), (8, 2),
)

# eight roots, and 64 events
EIGHT = table(8, *([x for root in range(8) for x in (ATOM, (6, times(7, 7)), (8, root))]))


def cases():
    for name, scope, data in (("logs", 2, EXAMPLES["two-logs"]), ("gaps", 2, GAPS), ("nest", 2, NEST)):
        for number in range(len(candidates(data, scope)) + 1):
            yield "%s-%d" % (name, number), scope, number, data
    for name in ("nested", "shared-event", "push-pop"):
        yield name, 2, 2, EXAMPLES[name]
    yield "eight-roots", 2, 0, EIGHT
    yield "far-past-the-total", 2, 4294967295, EXAMPLES["two-logs"]
    yield "scope-5", 5, 35, EXAMPLES["two-logs"]
    yield "refused-table", 2, 0, EXAMPLES["too-long"]
    yield "refused-scope", 0, 0, EXAMPLES["two-logs"]


def main(words):
    if words[:1] == ["cases"]:
        folder = HERE / "crates" / "lay_cases"
        asked, answers = [], []
        for name, scope, number, data in cases():
            asked.append(" ".join([name, str(scope), str(number)] + [str(byte) for byte in data]) + "\n")
            answers.append(name + "\n" + laid(data, scope, number))
        (folder / "stdin").write_text("".join(asked))
        (folder / "stdout").write_text("".join(answers))
    elif words[:1] == ["laid"] and len(words) == 3:
        sys.stdout.write(laid(sys.stdin.buffer.read(), int(words[1]), int(words[2])))
    elif words[:1] == ["all"] and len(words) == 2:
        for number, candidate in enumerate(candidates(sys.stdin.buffer.read(), int(words[1]))):
            sys.stdout.write("%d\n%s" % (number, lines(candidate)))
    else:
        sys.exit(__doc__)


if __name__ == "__main__":
    main(sys.argv[1:])
