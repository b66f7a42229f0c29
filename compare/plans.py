"""Join plans in bincode's two editions (02, CR 5), between which the Rust does not convert. What must be answered to `plan-new` and `plan-old` is worked out here, by a rule written from
document 02's sentences: never from `replay`. It exempts nothing.

Document 02: below 251 one byte; 251, 252 or 253, then two, four or eight bytes, little-endian; every number in a plan. Read left to right; for one number 2 where bytes are not there, 16 for a marker
of 254 or 255 and for a number with all its bytes there that is longer than it need be or too large for its field, and only then 2 or 3 by the field's own rule. The old edition has no 16."""
import collections
import wire

ROOM = {"plan-new": 491, "plan-old": 448}
# each marker: how many bytes it announces, and the least number that needs them
MARKERS = {251: (2, 251), 252: (4, 2**16), 253: (8, 2**32)}
STATIONS = 16

# How many conversions there were, by their answers; `generate` prints it.
SEEN = collections.Counter()


class Refused(Exception):
    pass


def unless(holds, row):
    if not holds:
        raise Refused(row)


class Reader:
    """Reads a plan from left to right, in the new edition or the old one."""

    def __init__(self, b, new):
        self.b, self.at, self.new = b, 0, new

    def bytes(self, n):
        unless(self.at + n <= len(self.b), 2)
        self.at += n
        return self.b[self.at - n:self.at]

    def number(self, width):
        if not self.new:
            return int.from_bytes(self.bytes(width), "little")
        first = self.bytes(1)[0]
        unless(first < 254, 16)
        if first < 251:
            return first
        size, least = MARKERS[first]
        x = int.from_bytes(self.bytes(size), "little")
        unless(least <= x < 256**width, 16)
        return x

    def tag(self, known):
        x = self.number(4)
        unless(x < known, 2)
        return x

    def node_map(self):
        count = self.number(8)
        unless(count <= STATIONS, 3)
        m = []
        for _ in range(count):
            i = self.number(4)
            unless(not m or m[-1][0] < i, 2)
            key = self.number(8)
            unless(key != 0, 2)
            m.append((i, key))
        return m

    def schedule(self):
        tag = self.tag(4)
        return (tag,) + tuple(self.number(4) for _ in range((0, 0, 1, 2)[tag]))

    def change(self):
        return ("map", self.node_map()) if self.tag(2) == 0 else ("schedule", self.schedule())

    def change_state(self):
        tag = self.tag(3)
        return None if tag == 0 else ((None, "progress", "complete")[tag], self.change())

    def plan(self):
        """What `wire.plan` takes."""
        era, state, m, key_set = self.number(8), self.change_state(), self.node_map(), self.number(8)
        params = (self.number(8), self.tag(2), self.schedule())
        unless(self.at == len(self.b), 2)
        return era, state, m, key_set, params


def short(*numbers):
    """Numbers in the new edition."""
    out = b""
    for x in numbers:
        marker = max((k for k, (_, least) in MARKERS.items() if x >= least), default=None)
        out += bytes([x]) if marker is None else bytes([marker]) + x.to_bytes(MARKERS[marker][0], "little")
    return out


def short_map(m):
    return short(len(m), *(x for node in m for x in node))


def short_change(c):
    return short(0) + short_map(c[1]) if c[0] == "map" else short(1, *c[1])


def short_plan(era, state, m, key_set, p):
    """A plan in the new edition, as `wire.plan` is in the old one."""
    s = short(0) if state is None else short({"progress": 1, "complete": 2}[state[0]]) + short_change(state[1])
    return short(era) + s + short_map(m) + short(key_set, p[0], p[1], *p[2])


def converted(word, b, room):
    unless(room >= ROOM[word], 1)
    told = Reader(b, word == "plan-old").plan()
    return short_plan(*told) if word == "plan-new" else wire.plan(*told)


def answer(call):
    """What must be answered to a conversion."""
    word, plan, room = call.split(" ")
    try:
        told = "plan " + converted(word, bytes.fromhex(plan.strip("-")), int(room)).hex()
    except Refused as e:
        told = "refused %d" % e.args
    SEEN[word] += 1
    SEEN["%s %s" % (word, told.split(" ")[0] if told.startswith("plan ") else told)] += 1
    return told
