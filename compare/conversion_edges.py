"""Conversions of join plans at the edges that document 02's CR 5 has, each with its answer (conversions.py)."""
from conversions import ENOUGH, SHORT, WORDS, one, refused, two, two_somewhere, valid
from plan_damages import damages
from plan_numbers import EDGES, LAST, TOP, Number, fits, number_bytes, numbers, written

# between them they have every field
SHAPES = [(5, ("progress", ("map", [(1, 11)])), [(2, 12), (7, 17)], 9, (3, 1, (3, 1, 4))),
          (6, ("complete", ("schedule", (3, 2, 3))), [(0, 10)], 0, (0, 0, (2, 8))),
          (8, None, [(300, 70000), (2**31, 2**40)], 251, (LAST, 1, (1,)))]
# short ones, which joining would refuse
EMPTY = [(0, None, [], 0, (0, 0, (0,))), (7, ("complete", ("map", [])), [], 1, (1, 0, (2, 0)))]
# every number is as long as it can be
FULL = [(TOP - 15 + i, LAST - i) for i in range(16)]
LONGEST = (LAST, ("progress", ("map", FULL)), FULL, LAST, (LAST, 1, (3, TOP, TOP)))
CROWDED = (0, None, [(i, 1) for i in range(17)], 0, (0, 0, (0,)))


def raised(ns, k):
    """The numbers with the ids behind an id in its map raised so that they ascend; nothing where they do not fit."""
    ns, at = list(ns), k + 2
    while ns[k].field == "id" and ns[at].field == "id":
        ns[at] = ns[at]._replace(x=ns[at - 2].x + 1, rule=ns[at - 2].x)
        at += 2
    return ns if all(fits(n) for n in ns) else None


def edge(ns, k, x):
    """A value in a field, in both directions where it can be written: 16 where it is too large, 2 as a tag and as an id that does not ascend, or behind which no id can, 3 as a count; else the
    plan is converted."""
    n = ns[k]._replace(x=x)
    with_x = ns[:k] + [n] + ns[k + 1:]
    if not fits(n):
        return [refused(16, "plan-old", written(with_x, "plan-old"))]
    good = raised(with_x, k)
    if n.field == "count":
        return [refused(3, word, written(with_x, word)) for word in WORDS]
    if n.field == "tag" or good is None or n.field == "id" and n.rule is not None and x <= n.rule:
        return [refused(2, word, written(with_x, word)) for word in WORDS]
    return [valid(good, word) for word in WORDS]


def number_edges(plan):
    ns = numbers(plan)
    more = {"tag": [300], "count": [17, 2**40]}
    return [c for k, n in enumerate(ns) for x in EDGES + more.get(n.field, []) for c in edge(ns, k, x)]


def node_edges():
    """An id and its key: an id that does not ascend before a badly written key, a badly written id before key 0, and a key 0 before a badly written id."""
    ns, out = numbers((1, None, [(5, 1), (6, 2), (7, 3)], 4, (0, 0, (0,)))), []
    ids = [k for k, n in enumerate(ns) if n.field == "id" and n.rule is not None]
    for word in WORDS:
        zero = (2, number_bytes(Number("key", 0, None), word), False)
        badly = lambda n: [d for d in damages(n, word) if d[0] == 16 or d[2]]
        for k in ids:
            low = damages(ns[k], word)[0]
            out += [two(ns, word, k, low, k + 1, d) for d in badly(ns[k + 1])]
            out += [two(ns, word, k, d, k + 1, zero) for d in badly(ns[k]) if not d[2]]
        out += [two(ns, word, ids[0] + 1, zero, ids[1], d) for d in badly(ns[ids[1]])]
    return out


def room_edges():
    """Lengths of the buffer, beside good plans and bad ones: 1 comes first, however short the plan."""
    out = [("refused 2", "plan-new - 00000000000000000491"), ("refused 1", "plan-old - 00000000000000000447")]
    for word in WORDS:
        for plan in EMPTY:
            b = written(numbers(plan), word)
            out += [valid(numbers(plan), word, room) for room in ENOUGH[word][1:]]
            out += [refused(1, word, bad, room) for bad in (b, b[:-1], b"", b"\xff", b + bytes(600)) for room in SHORT[word]]
        ns = numbers(LONGEST)
        out += [valid(ns, word), valid(ns, word, 2000), refused(1, word, written(ns, word), SHORT[word][0])]
    return out


def cut_edges():
    """Cut at every place, and bytes left over: 2 wherever it falls."""
    out = []
    for word in WORDS:
        b = written(numbers(SHAPES[2]), word)
        out += [refused(2, word, b[:k]) for k in range(len(b))] + [refused(2, word, b + more) for more in (b"\0", b"\xff", b"\xfb\0", b, bytes(600))]
        b = written(numbers(LONGEST), word)
        out += [refused(2, word, b[:-1]), refused(2, word, b + b"\0"), refused(3, word, written(numbers(CROWDED), word))]
    return out


def one_of_each_row(n, word):
    all_of = damages(n, word)
    return [next(d for d in all_of if d[0] == row) for row in sorted({d[0] for d in all_of})]


def damage_edges(r):
    """Every damage of every number of one plan, one of each row of another; then pairs."""
    out = []
    for word in WORDS:
        for plan, some in ((SHAPES[0], damages), (SHAPES[1], one_of_each_row)):
            ns = numbers(plan)
            out += [one(ns, word, k, d) for k, n in enumerate(ns) for d in some(n, word)] + [two_somewhere(ns, word, r) for _ in range(40)]
    return out


def edges(r):
    """All of them, each once; of two damages both are drawn."""
    return list(dict.fromkeys([c for plan in SHAPES for c in number_edges(plan)] + node_edges() + room_edges() + cut_edges() + damage_edges(r)))
