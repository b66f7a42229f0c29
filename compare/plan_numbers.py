"""A join plan as the numbers that it is made of, in order, and its bytes in both editions (02, CR 5), so that one number can be written otherwise."""
import collections

LAST, TOP = 2**64 - 1, 2**32 - 1
# where the new edition takes another length, or a field has its end
EDGES = [250, 251, 2**16 - 1, 2**16, TOP, 2**32, LAST]

# A number of a plan: its field, its value, and what the field's rule needs (how many tags are known; the id before it in its map, none for the first).
Number = collections.namedtuple("Number", "field x rule")
WIDTH = {"u64": 8, "count": 8, "key": 8, "u32": 4, "tag": 4, "id": 4}


def of_map(m):
    out = [Number("count", len(m), None)]
    for k, (i, key) in enumerate(m):
        out += [Number("id", i, m[k - 1][0] if k else None), Number("key", key, None)]
    return out


def of_schedule(s):
    return [Number("tag", s[0], 4)] + [Number("u32", x, None) for x in s[1:]]


def of_change(c):
    return [Number("tag", 0, 2)] + of_map(c[1]) if c[0] == "map" else [Number("tag", 1, 2)] + of_schedule(c[1])


def of_state(s):
    return [Number("tag", 0, 3)] if s is None else [Number("tag", {"progress": 1, "complete": 2}[s[0]], 3)] + of_change(s[1])


def numbers(plan):
    """The numbers of a plan, which is what `wire.plan` takes."""
    era, state, m, key_set, p = plan
    return [Number("u64", era, None)] + of_state(state) + of_map(m) + [Number("u64", key_set, None), Number("u64", p[0], None), Number("tag", p[1], 2)] + of_schedule(p[2])


def fits(n):
    return n.x < 256 ** WIDTH[n.field]


def marked(marker, x):
    """A marker and the bytes that it announces; behind 254 and 255 sixteen."""
    return bytes([marker]) + x.to_bytes({251: 2, 252: 4, 253: 8, 254: 16, 255: 16}[marker], "little")


def shortest(x):
    return bytes([x]) if x < 251 else marked(251 if x < 2**16 else 252 if x < 2**32 else 253, x)


def number_bytes(n, word):
    """A number in the edition that a call of this word reads."""
    return n.x.to_bytes(WIDTH[n.field], "little") if word == "plan-new" else shortest(n.x)


def written(ns, word):
    return b"".join(number_bytes(n, word) for n in ns)
