"""Calls built to be refused, each for one row of the scope document's table, and pairs of rows for the order. The number is stated here, as the
call is built; it is never taken from the engine."""
import requests
import schedule_edges
import wire
from season import LAST, FULL


def some_map(n, first=1):
    return [(first + i, 1000 + first + i) for i in range(n)]


def empty_batch():
    return wire.batch([])


# -- reading: 2 and 3 ------------------------------------------------------------------------------------------------------------
def bad_maps(r):
    m = some_map(4)
    good = wire.node_map(m)
    return [(2, good[:-1]), (2, good + b"\0"), (2, wire.node_map([m[1], m[0]])), (2, wire.node_map([m[0], m[0]])),
            (2, wire.node_map(m[:2] + [(9, 0)])), (3, wire.node_map(some_map(17))), (3, wire.u64(17)), (2, wire.u64(16)), (2, good[:7]), (2, b""),
            (3, wire.u64(LAST))]


def bad_changes(r):
    return [(2, wire.u32(2)), (2, wire.u32(9)), (2, wire.u32(1) + wire.u32(4)), (2, wire.u32(1) + wire.schedule((3, 1, 2))[:-1]),
            (2, wire.change(("schedule", (0,))) + b"\1"), (3, wire.u32(0) + wire.u64(17)), (2, b"\0\0\0")] + [
            (n, wire.u32(0) + b) for n, b in bad_maps(r) if b]


def bad_params(r):
    good = wire.params((3, 1, (2, 3)))
    return [(2, good[:-1]), (2, good + b"\0"), (2, wire.u64(1) + wire.u32(2) + wire.u32(0)), (2, wire.u64(1) + wire.u32(0) + wire.u32(4)), (2, b"")]


def bad_messages(s, r):
    part = ("part", 1, [1, 2])
    good = wire.message_key_gen(s.era, part, 7)
    v = wire.message_vote((("schedule", (0,)), s.era, 0, 1, 7))
    return [(2, good[:-1]), (2, good + b"\0"), (2, wire.u32(0) + good[4:]), (2, wire.u32(3)), (2, b"\1\0"), (2, v[:-1]), (2, v + b"\0"),
            (3, wire.message_key_gen(s.era, ("part", 1, [0] * 25), 7)), (3, wire.message_key_gen(s.era, ("ack", 1, [0] * 25), 7)),
            (2, wire.u32(1) + wire.u64(s.era) + wire.u32(2)), (3, wire.u32(2) + wire.u32(0) + wire.u64(17))]


def item_batch(messages, votes, user=b"", i=1):
    return wire.batch([(i, user, messages, votes)])


def bad_batches(s, r):
    v = (("schedule", (0,)), s.era, 0, 1, 7)
    m = (s.era, 1, ("part", 1, [1, 2]), 7)
    good = item_batch([m], [v])
    cs = [(1, b"", [], []), (2, b"x", [], [])]
    return [(2, good[:-1]), (2, good + b"\0"), (2, wire.batch(cs[::-1])), (2, wire.batch([cs[0], cs[0]])), (3, wire.u64(17)), (2, wire.u64(2) + wire.contribution(cs[0])),
            (3, wire.u64(1) + wire.u32(1) + wire.u64(4097)), (2, wire.u64(1) + wire.u32(1) + wire.u64(4096)),
            (3, wire.u64(1) + wire.u32(1) + wire.u64(0) + wire.u64(1025)), (2, wire.u64(1) + wire.u32(1) + wire.u64(0) + wire.u64(1024)),
            (3, b"\0" * 65537), (2, b"\0" * 65536), (3, item_batch([(s.era, 1, ("ack", 0, [0] * 25), 7)], [])),
            (3, item_batch([m], [])[:-8] + wire.u64(1024)), (2, item_batch([m], [])[:-8] + wire.u64(1023)),
            (2, wire.u64(1) + wire.u32(1) + wire.u64(0) + wire.u64(1) + wire.u64(0) + wire.u32(1) + wire.u32(2)),
            # a total over two contributions: the second count takes it over
            (3, wire.u64(2) + wire.contribution((1, b"", [m] * 3, [v] * 2)) + wire.u32(2) + wire.u64(0) + wire.u64(1020))]


# -- the rows --------------------------------------------------------------------------------------------------------------------
def row_1(s, r):
    out = [(1, s.line([], [], places=(1023, 1025))), (1, s.line([], [], places=(1024, 1024))), (1, s.line([], [], places=(0, 0))),
           (1, s.line([], [], raw=b"\0" * 9, places=(1023, 1025))), (1, s.line([], [4], inner=LAST, places=(2000, 3))),
           (1, "join 59 1059 - 1024"), (1, "join 59 0 00 3")]
    return out + ([(1, "plan 5 447"), (1, "plan 5 0")] if s.reported else [])


def row_2_and_3(s, r):
    p = wire.params((3, 0, (0,))).hex()
    out = [(n, "new 1 1001 0 %s %s" % (wire.hexed(b), r.choice([p, "00"]))) for n, b in bad_maps(r)]
    out += [(n, "new 1 %d 0 %s %s" % (r.choice([0, 5]), wire.node_map(some_map(3)).hex(), wire.hexed(b))) for n, b in bad_params(r)]
    out += [(2, "new 1 0 0 %s %s" % (wire.node_map(some_map(r.choice([0, 3]))).hex(), p))]
    out += [(n, "vote %s" % wire.hexed(b)) for n, b in bad_changes(r)]
    out += [(n, "message 1 %s" % wire.hexed(b)) for n, b in bad_messages(s, r)]
    out += [(n, "due %s" % wire.hexed(b)) for n, b in bad_messages(s, r) if b[:4] != wire.u32(2)]
    out += [(2, "due %s" % wire.message_vote((("schedule", (0,)), s.era, 0, 1, 7)).hex()), (2, "due 0200000000"), (2, "add 7 0")]
    out += [(n, s.line([], r.choice([[], [4]]), raw=b, inner=r.choice([0, LAST]))) for n, b in bad_batches(s, r)]
    out += [(n, "user 1 %s" % wire.hexed(b)) for n, b in bad_batches(s, r)]
    out += [(2, "schedule 5 04000000"), (2, "schedule 5 -"), (2, "schedule 5 0000000000")]
    good = wire.plan(5, None, some_map(3), 0, (3, 0, (0,)))
    out += [(2, "join 59 1059 %s 1025" % b.hex()) for b in (good[:-1], good + b"\0", good[:20])]
    out += [(3, "join 59 1059 %s 1025" % wire.plan(5, None, some_map(17), 0, (3, 0, (0,))).hex()), (2, "join 59 0 %s 1025" % good.hex())]
    return out


def row_4(s, r):
    m = (s.era, 59, ("part", 1, [1]), 3)
    return [(4, s.line([], [0])), (4, s.line([(1, b"", [m], [])], [])), (4, s.line([(1, b"", [m], [])], [4])), (4, s.line([(1, b"", [m, m], [])], [0, 255])),
            (4, s.line([(1, b"", [m], [])], [0, 0], inner=LAST)), (4, s.line([(1, b"", [m], [])], [9], inner=LAST))]


def row_15(s, r):
    """A batch of another era, earlier or later, alone and with the rows that come before 15 or behind it; in its own era each of the last would be taken or be 5 or 7."""
    m = (s.era, 59, ("part", 1, [1]), 3)
    one = [(1, b"", [m], [])]
    all_vote = [(2, b"", [], [(("schedule", (1,)), s.era, LAST, i, key) for i, key in s.map])]
    none_left = [(2, b"", [], [(("map", []), s.era, LAST, i, key) for i, key in s.map])]
    gone = [(s.era, i, ("part", 1, []), key) for i, key in s.leaving()]
    out = []
    for era in sorted({0, max(0, s.era - 1), min(LAST, s.era + 1), LAST} - {s.era}):
        late = lambda rows, cs, verdicts, **other: (requests.first_row([15] + rows), s.line(cs, verdicts, era=era, **other))
        out += [late([], [], []), late([], [], [], inner=0), late([], one, [r.randrange(4)]), late([], all_vote, []), late([7], none_left, []),
                late([1], [], [], places=(1023, 1025)), late([1], one, [0], places=(2000, 1024)), late([1, 2, 4, 5], [], [4], raw=b"\0" * 9, inner=LAST, places=(0, 0)),
                late([2], [], [], raw=wire.batch(one)[:-1]), late([2, 4, 5], [], [9], raw=empty_batch() + b"\0", inner=LAST),
                late([3], [], [], raw=wire.u64(17)), late([3, 4], [], [4], raw=item_batch([(s.era, 1, ("ack", 0, [0] * 25), 7)], [])),
                late([4], one, []), late([4], one, [4]), late([4], [], [0]), late([4, 5], one, [0, 0], inner=LAST),
                late([5], [], [], inner=LAST), late([5], one, [0], inner=LAST)]
        out += [late([], [(2, b"", [m], [])], [0]) for m in gone]
    return out


def row_5(s, r):
    out = [(5, s.line([], [], inner=LAST - s.era)), (5, "next %d" % (LAST - s.era))]
    if s.era > 0:
        out += [(5, s.line([], [], inner=LAST)), (5, "next %d" % LAST)]
    return out


def row_6(s, r):
    """Row 6 has no condition (02, CR 2): a key message of a leaving node is a fault of it, and its batch is refused by the other rows only. No number: it is reported."""
    none_left = [(("map", []), s.era, LAST, i, key) for i, key in s.map]
    out = []
    for i, key in s.leaving():
        for m in (("part", 1, []), ("ack", LAST, [1] * 3)):
            messages = [(s.era, i, m, key)]
            one = [(2, b"", messages, [])]
            out += [(None, s.line(one, [r.randrange(4)])), (5, s.line(one, [0], inner=LAST - s.era)), (4, s.line(one, [7])), (4, s.line(one, [])),
                    (1, s.line(one, [0], places=(1023, 1025))), (2, s.line([], [0], raw=wire.batch(one)[:-1])), (7, s.line([(2, b"", messages, none_left)], [r.randrange(4)]))]
    return out


def row_8_to_10(s, r):
    p = (3, 0, (2, 4))
    m = some_map(r.choice([1, 3, 16]))
    join = lambda n, i, b: (n, "join %d 1059 %s 1025" % (i, b.hex()))
    return [(8, "new 1 1001 %d %s %s" % (r.choice([0, LAST]), wire.node_map([]).hex(), wire.params(p).hex())),
            join(8, 59, wire.plan(5, None, [], 0, p)), join(8, 59, wire.plan(5, ("progress", ("map", [])), m, 0, p)),
            join(8, m[0][0], wire.plan(5, ("progress", ("map", [])), m, 0, p)), join(8, 59, wire.plan(5, ("complete", ("schedule", (1,))), [], 0, p)),
            join(9, m[0][0], wire.plan(5, None, m, 0, p)), join(9, m[-1][0], wire.plan(5, ("complete", ("schedule", (1,))), m, 0, p)),
            join(10, 59, wire.plan(5, ("complete", ("schedule", (1,))), m, 0, p)), join(10, 59, wire.plan(5, ("complete", ("map", some_map(2, 7))), m, 0, p)),
            join(10, 59, wire.plan(LAST, ("complete", ("map", [(m[0][0], 5)] + m[1:])), m, 0, p))]


def row_14(s, r):
    return [(14, schedule_edges.call(r.randrange(9), x)) for x in ((2, 0), (3, 0, 0), (3, 2**32 - 1, 1), (3, 2**32 - 1, 2**32 - 1))]


ROWS = [row_1, row_2_and_3, row_4, row_15, row_5, row_6, row_8_to_10, row_14]


def bad_lines(s, r):
    return ["", "# a comment", "state 1", "stat", "new 1", "batch 0 0 00 - 1024", "next 18446744073709551616", "next 000000000000000000001",
            "next -1", "add 4294967296 5", "propose 2 0", "vote 0", "vote 0G", "vote AB", "vote ", "vote", "stored", "plan 0 2001", "batch 0 0 0000000000000000 - 1024 2001",
            "next 00000000000000000001", " state", "state ", "next  1", "user 1 zz", "schedule 1 -0",
            # a batch without its era, with an era that is none, and with a field too many
            "batch %d 0000000000000000 - 1024 1025" % s.inner, "batch 18446744073709551616 0 0000000000000000 - 1024 1025",
            "batch - 0 0000000000000000 - 1024 1025", "batch %d 0 0000000000000000 - 1024 1025 0" % s.era, "last 1", "last ", "lasts"]


# Lines that are no call `board`.
BAD_BOARDS = ["board 1", "board -", "board ", "boards", " board", "board board"]

# Lines that are no conversion of a join plan: a field too few or too many, a length over 2,000 or that is none, bytes that are none, other words.
BAD_PLANS = ["plan-new", "plan-old", "plan-new 00", "plan-old 448", "plan-new - 491 0", "plan-old - 448 ", "plan-new - 2001", "plan-old - 2001", "plan-new 00 -", "plan-old 00 -1",
             "plan-old 0 448", "plan-new 0g 491", "plan-old FF 448", "plan-new  491", "plan-old - 18446744073709551615", "plan-old - 18446744073709551616", "plan-new - 000000000000000000491",
             "plan-news - 491", "plan-ol - 448", " plan-new - 491", "plan-New - 491"]
