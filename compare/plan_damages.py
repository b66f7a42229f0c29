"""Damages of a join plan's numbers (02, CR 5). A damage is the row for which it is built, the bytes that stand in place of a number, and whether the plan ends there."""
from plan_numbers import LAST, TOP, WIDTH, marked, number_bytes, shortest


def against_rule(n):
    """Values that fit the field and that its own rule refuses, with their row."""
    if n.field == "tag":
        return [(2, x) for x in (n.rule, n.rule + 1, 300, TOP)]
    if n.field == "count":
        return [(3, x) for x in (17, 300, 2**40, LAST)]
    if n.field == "id" and n.rule is not None:
        return [(2, n.rule), (2, 0)]
    return [(2, 0)] if n.field == "key" else []


def longer(x):
    """Every form of a number that is longer than it need be."""
    return [marked(m, x) for m in (251, 252, 253) if m > shortest(x)[0]]


def too_large(n):
    """Numbers that do not fit their field: of some the low bytes alone would do, or be another row."""
    if WIDTH[n.field] == 8:
        return []
    return [marked(253, x) for x in [2**32, 2**32 + n.x, LAST] + [2**32 + x for _, x in against_rule(n)]]


def cuts(n, word):
    """No byte of a number; or not all that its marker announces, whatever they say."""
    markers = [marked(m, x) for m in (251, 252, 253) for x in (7, 256 ** (2 ** (m - 250)) - 1)]
    whole = [number_bytes(n, word)] if word == "plan-new" else markers
    return [(2, b[:k], True) for b in whole for k in sorted({0, 1, len(b) // 2, len(b) - 1})]


def no_markers(n):
    """254 and 255: with as many bytes as one could think behind them, before the number itself, alone, and as the last byte of all."""
    return [(16, b, ends) for m in (254, 255) for b, ends in ((marked(m, n.x), False), (bytes([m]) + shortest(n.x), False), (bytes([m]), False), (bytes([m]), True))]


def damages(n, word):
    """Every damage of a number in the edition that a call of this word reads."""
    bad = against_rule(n)
    out = [(row, number_bytes(n._replace(x=x), word), False) for row, x in bad] + cuts(n, word)
    if word == "plan-old":
        out += [(16, b, False) for x in [n.x] + [x for _, x in bad] for b in longer(x)] + [(16, b, False) for b in too_large(n)] + no_markers(n)
    return out


def damaged(ns, word, *places):
    """The bytes of a plan with damages, (place, damage); the place behind the last number is for bytes left over."""
    out, places = b"", dict(places)
    for k in range(len(ns) + 1):
        _, b, ends = places.get(k, (None, number_bytes(ns[k], word) if k < len(ns) else b"", False))
        out += b
        if ends:
            break
    return out


def left_over(r):
    return 2, bytes(r.choice([0, 1, 251, 254, 255]) for _ in range(r.choice([1, 1, 2, 20]))), True


def some_damage(ns, word, place, r, goes_on=False):
    """A damage at random, each row as likely as the others; one behind which the plan goes on, if that is asked."""
    if place == len(ns):
        return left_over(r)
    all_of = [d for d in damages(ns[place], word) if not (goes_on and d[2])]
    row = r.choice(sorted({d[0] for d in all_of}))
    return r.choice([d for d in all_of if d[0] == row])
