"""The encodings of the scope document, written for the generator alone: nothing here comes from the engine."""
import struct


def u32(x):
    return struct.pack("<I", x)


def u64(x):
    return struct.pack("<Q", x)


def hexed(b):
    return b.hex() if b else "-"


def node_map(m, count=None):
    """m: a list of (id, key), in the order given."""
    return u64(len(m) if count is None else count) + b"".join(u32(i) + u64(k) for i, k in m)


def schedule(s):
    return u32(s[0]) + b"".join(u32(x) for x in s[1:])


def params(p):
    return u64(p[0]) + u32(p[1]) + schedule(p[2])


def change(c):
    """('map', [(id, key)]) or ('schedule', (tag, ..))."""
    return u32(0) + node_map(c[1]) if c[0] == "map" else u32(1) + schedule(c[1])


def change_state(s):
    return u32(0) if s is None else u32({"progress": 1, "complete": 2}[s[0]]) + change(s[1])


def vote(v):
    """v: (change, era, num, voter, signature)."""
    return change(v[0]) + u64(v[1]) + u64(v[2]) + u32(v[3]) + u64(v[4])


def key_gen(m):
    """('part', commitment, rows) or ('ack', proposer, values)."""
    return u32(0 if m[0] == "part" else 1) + u64(m[1]) + u64(len(m[2])) + b"".join(u64(x) for x in m[2])


def signed(m):
    """m: (era, id, message, signature)."""
    return u64(m[0]) + u32(m[1]) + key_gen(m[2]) + u64(m[3])


def message_key_gen(era, m, sig):
    return u32(1) + u64(era) + key_gen(m) + u64(sig)


def message_vote(v):
    return u32(2) + vote(v)


def contribution(c):
    """c: (id, user bytes, messages, votes); messages are encoded first."""
    return (u32(c[0]) + u64(len(c[1])) + c[1] + u64(len(c[2])) + b"".join(signed(m) for m in c[2])
            + u64(len(c[3])) + b"".join(vote(v) for v in c[3]))


def batch(cs):
    return u64(len(cs)) + b"".join(contribution(c) for c in cs)


def plan(era, state, m, key_set, p):
    return u64(era) + change_state(state) + node_map(m) + u64(key_set) + params(p)


def read_map(b):
    n = struct.unpack("<Q", b[:8])[0]
    return [struct.unpack("<IQ", b[8 + 12 * i:20 + 12 * i]) for i in range(n)]


class Reader:
    """Reads a batch that is well formed, into what `batch` writes."""

    def __init__(self, b):
        self.b, self.at = b, 0

    def bytes(self, n):
        self.at += n
        return self.b[self.at - n:self.at]

    def u32(self):
        return struct.unpack("<I", self.bytes(4))[0]

    def u64(self):
        return struct.unpack("<Q", self.bytes(8))[0]

    def many(self, item):
        return [item() for _ in range(self.u64())]

    def key_gen(self):
        return ({0: "part", 1: "ack"}[self.u32()], self.u64(), self.many(self.u64))

    def signed(self):
        return (self.u64(), self.u32(), self.key_gen(), self.u64())

    def schedule(self):
        tag = self.u32()
        return (tag,) + tuple(self.u32() for _ in range({0: 0, 1: 0, 2: 1, 3: 2}[tag]))

    def change(self):
        return ("map", self.many(lambda: (self.u32(), self.u64()))) if self.u32() == 0 else ("schedule", self.schedule())

    def vote(self):
        return (self.change(), self.u64(), self.u64(), self.u32(), self.u64())

    def contribution(self):
        return (self.u32(), self.bytes(self.u64()), self.many(self.signed), self.many(self.vote))


def read_change(b):
    """The change that these bytes are."""
    c = Reader(b).change()
    assert change(c) == b, b.hex()
    return c


def read_batch(b):
    """The contributions of a batch that is well formed."""
    r = Reader(b)
    cs = r.many(r.contribution)
    assert batch(cs) == b, b.hex()
    return cs
