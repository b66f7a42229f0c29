"""Logs that reach tally boards of every kind (board_kinds.py). Each case is built with its board stated, row by row; a board of the rule (board.py) that is not as stated stops the generator."""
import refusals
import wire
from board import rows, votes_told


def stated(s, *want):
    """The rows that a case states, (count, change)."""
    told = rows(votes_told(s.o.ask("state")))
    if told != [(n, wire.change(c).hex()) for n, c in want]:
        raise SystemExit("the rows %s are stated, and the rule has %s" % (want, told))


def cast(s, votes, *want):
    """A batch with votes, (voter, change), each of another voter and numbered upwards; then the board."""
    s.batch([], [s.a_vote(c, i) for i, c in votes])
    stated(s, *want)


def ids(s):
    return [i for i, _ in s.map]


def changes(s):
    """Changes of any kind, each once: schedules, some of them equal in effect, and maps, among them the empty, the current and the candidate one."""
    m, out = s.map, []
    schedules = [(0,), (1,), (2, 0), (2, 1), (2, 2), (3, 1, 0), (3, 2, 0), (3, 0, 1), (3, 1, 1)]
    maps = [[], m, m[1:], m[:-1] + [(m[-1][0], 5)], m[:1], m[-2:], [(58, 5)], [(58, 6)], [(59, 5)]] + ([s.candidate] if s.candidate else [])
    for c in [("schedule", x) for x in schedules] + [("map", x) for x in maps]:
        out += [] if c in out else [c]
    return out


def some(s, k):
    return s.r.sample(changes(s), k)


def all_vote(s, change):
    return [(i, change) for i in ids(s)]


def empty(s):
    """A schedule wins, so that the next case begins with an empty board."""
    if s.votes:
        cast(s, all_vote(s, ("schedule", s.any_schedule())))


# -- cases from an empty board, with seven nodes or more: two votes do not win -------------------------------------------------------
def tie(s):
    """A change that comes up later with a higher voter stands first, by its lowest one."""
    v, (x, y) = ids(s), some(s, 2)
    cast(s, [(v[1], y), (v[2], y), (v[3], x)], (2, y), (1, x))
    cast(s, [(v[0], x)], (2, x), (2, y))


def late(s):
    """Lower voters later: the order is not that of arrival."""
    v, (x, y, z) = ids(s), some(s, 3)
    cast(s, [(v[5], y)], (1, y))
    cast(s, [(v[2], x)], (1, x), (1, y))
    cast(s, [(v[3], z)], (1, x), (1, z), (1, y))


def goes_over(s):
    """A voter leaves a tie behind him; another ends it, and his row is gone; he comes back."""
    v, (x, y, z) = ids(s), some(s, 3)
    cast(s, [(v[0], x), (v[1], x), (v[2], y)], (2, x), (1, y))
    cast(s, [(v[1], z)], (1, x), (1, z), (1, y))
    cast(s, [(v[0], y)], (2, y), (1, z))
    cast(s, [(v[0], x)], (1, x), (1, z), (1, y))


def lowest_goes_over(s):
    """The lowest voter of a change goes over: its row is placed by the next one."""
    v, (x, y, z) = ids(s), some(s, 3)
    cast(s, [(v[0], x), (v[3], x), (v[1], y)], (2, x), (1, y))
    cast(s, [(v[0], z)], (1, z), (1, y), (1, x))
    cast(s, [(v[5], z), (v[2], y)], (2, z), (2, y), (1, x))
    cast(s, [(v[0], x)], (2, x), (2, y), (1, z))


def in_one_batch(s):
    """Several votes of a voter in one batch: the highest number stays, of equal ones the first."""
    v, (x, y, z) = ids(s), some(s, 3)
    vote = lambda i, c, k: (c, s.era, s.votes.get(i, -1) + 1 + k, i, dict(s.map)[i])
    first = [vote(v[0], x, 1), vote(v[0], y, 0), vote(v[1], x, 0), vote(v[2], y, 0), vote(v[2], x, 1), vote(v[2], y, 2)]
    s.committed(s.line([(2, b"", [], first), (55, b"", [], [vote(v[1], z, 1), vote(v[1], y, 1)])], []))
    stated(s, (1, x), (1, z), (1, y))
    s.committed(s.line([(2, b"", [], [vote(v[0], z, 0), vote(v[0], x, 1)]), (55, b"", [], [vote(v[1], y, 3)])], []))
    stated(s, (2, y), (1, x))


def votes_that_leave_it(s):
    """A higher number for the same change; an old number; a wrong era, a wrong key, a voter who is in no map."""
    v, (x, y, z) = ids(s), some(s, 3)
    cast(s, [(v[0], x), (v[1], y)], (1, x), (1, y))
    cast(s, [(v[0], x), (v[1], y)], (1, x), (1, y))
    key, number = dict(s.map)[v[0]], s.votes[v[0]]
    votes = [(z, s.era, number, v[0], key), (z, s.era + 1, number + 1, v[0], key), (z, s.era, number + 1, v[0], key + 1), (z, s.era, 0, v[2], 0), (z, s.era, 0, 59, 7)]
    for vs in [votes] + [[one] for one in s.r.sample(votes, 1 if s.small else 5)]:
        s.batch([], vs)
        stated(s, (1, x), (1, y))


def equal_in_effect(s):
    """Always, every first epoch, and on for one and off for none: three changes."""
    v, (always, first, on) = ids(s), [("schedule", x) for x in ((0,), (2, 1), (3, 1, 0))]
    cast(s, [(v[2], always), (v[1], first), (v[0], on), (v[3], first)], (2, first), (1, on), (1, always))
    cast(s, [(v[3], always)], (2, always), (1, on), (1, first))


def maps(s):
    """The empty, the current and the candidate map have rows like any other."""
    v, (gone, now, new) = ids(s), [("map", x) for x in ([], s.map, s.candidate or s.map[1:])]
    cast(s, [(v[1], gone), (v[2], gone), (v[0], new)] + ([(v[3], now)] if now != new else []), (2, gone), (1, new), *([(1, now)] if now != new else []))
    cast(s, [(v[2], new)], (2, new), (1, gone), *([(1, now)] if now != new else []))


def pending(s):
    """Own and received votes do not count before they are committed, one with a bad signature never; nor is a vote gone that they would replace."""
    v, (x, y) = ids(s), some(s, 2)
    cast(s, [(v[0], x)], (1, x))
    received = [s.a_vote(y, i) for i in v[:3]]
    for m in received:
        s.say("message %d %s" % (m[3], wire.message_vote(m).hex()))
    s.say("message %d %s" % (v[3], wire.message_vote((y, s.era, 0, v[3], 0)).hex()))
    s.say("vote %s" % wire.change(y).hex())
    s.say("remove %d" % v[4])
    stated(s, (1, x))
    s.batch([], received[1:])
    stated(s, (2, y), (1, x))


def refused(s):
    """A batch in which the empty map wins, with votes for others in it, is 7 and leaves the board; so does a batch that another row refuses."""
    v, (x, y) = ids(s), some(s, 2)
    cast(s, [(v[0], x), (v[1], y)], (1, x), (1, y))
    s.batch([], [s.a_vote(y, v[0])] + [s.a_vote(("map", []), i) for i in v[1:]], number=7)
    stated(s, (1, x), (1, y))
    others = [b for row in (refusals.row_1, refusals.row_4, refusals.row_15, refusals.row_5) for b in row(s, s.r) if b[1].startswith("batch ") and len(b[1]) < 3000]
    for n, line in s.r.sample(others, 2):
        s.say(line, n)
        stated(s, (1, x), (1, y))


def fresh(s):
    """A map wins: a key generation begins, and the board is empty."""
    v, (x, y) = ids(s), some(s, 2)
    cast(s, [(v[0], x), (v[1], y)], (1, x), (1, y))
    cast(s, all_vote(s, ("map", s.map[:-1] + [(v[-1], s.r.randrange(6, 1000))])))


def repeated(s):
    """The candidate map wins again: no era begins, the board stays and goes on, also where so many go over that the map has no majority any more."""
    if s.candidate is None or s.candidate == s.map:
        fresh(s)
    v, f, new = ids(s), (len(s.map) - 1) // 3, ("map", s.candidate)
    x, y = s.r.sample([c for c in changes(s) if c != new], 2)
    era = s.era
    cast(s, [(i, new) for i in v[1:f + 2]] + [(v[0], x)], (f + 1, new), (1, x))
    s.batch([], [])
    stated(s, (f + 1, new), (1, x))
    cast(s, [(v[f + 2], y), (v[0], new)], (f + 2, new), (1, y))
    most = [(f, new), (2, x)]
    cast(s, [(v[0], x), (v[1], x)], *(most if f > 2 else most[::-1]), (1, y))
    assert s.era == era


STAY = [tie, late, goes_over, lowest_goes_over, in_one_batch, votes_that_leave_it, equal_in_effect, maps, pending, refused, fresh, repeated]


# -- cases behind which the board is empty and the nodes are others ------------------------------------------------------------------
def joins(s):
    """A replica that has rows joins from the plan of an earlier report, and has none."""
    cast(s, all_vote(s, s.r.choice([("map", s.map[1:]), ("schedule", s.any_schedule())])))
    plan = s.say("plan %d 448" % s.r.randrange(1000)).split(" ")[1]
    v, (x, y) = ids(s), some(s, 2)
    cast(s, [(v[0], x), (v[1], y), (v[2], y)], (2, y), (1, x))
    s.own = s.r.choice([i for i in range(1, 50) if i not in v])
    s.own_key = s.keys[s.own]
    s.say("join %d %d %s 1024" % (s.own, s.own_key, plan), 1)
    stated(s, (2, y), (1, x))
    s.say("join %d %d %s 1025" % (s.own, s.own_key, plan))
    stated(s)
    s.inner = 0
    s.look()


def starts_again(s):
    """A node that has rows starts afresh, and has none."""
    v, (x, y) = ids(s), some(s, 2)
    cast(s, [(v[0], x), (v[1], y)], (1, x), (1, y))
    s.start(n=7)
    stated(s)


def completes(s):
    """A key generation of three nodes completes, in a batch that has a vote too."""
    cast(s, all_vote(s, ("map", s.map[:2] + [(58, s.keys[58])])))
    v, (x, y), new = ids(s), some(s, 2), dict(s.candidate)
    cast(s, [(v[0], x), (v[1], y)], (1, x), (1, y))
    messages = [s.key_message(i, s.a_part(i)) for i in new] + [s.key_message(i, s.an_ack(k)) for k in range(3) for i in new]
    s.committed(s.line([(2, b"", messages, [s.a_vote(x, v[2])])], [0] * len(messages)))
    assert s.candidate is None and len(s.map) == 3
    stated(s)


LEAVE = [joins, starts_again, completes]


def sixteen(s):
    """Sixteen nodes with a change each, in two batches: sixteen rows, by voter. They go over and gather, at most five for a change, so none wins."""
    s.start(n=16)
    v, c, order = ids(s), some(s, 16), s.r.sample(range(16), 16)
    some_first = order[:s.r.randrange(17)]
    cast(s, [(v[j], c[j]) for j in some_first], *[(1, c[j]) for j in sorted(some_first)])
    cast(s, [(v[j], c[j]) for j in order if j not in some_first], *[(1, x) for x in c])
    cast(s, [(v[15], c[14])], (2, c[14]), *[(1, x) for x in c[:14]])
    cast(s, [(v[15], c[15]), (v[3], c[3])], *[(1, x) for x in c])
    cast(s, [(v[j], c[j % 3]) for j in range(15)], (5, c[0]), (5, c[1]), (5, c[2]), (1, c[15]))
    cast(s, [(v[0], c[15])], (5, c[1]), (5, c[2]), (4, c[0]), (2, c[15]))


def season(s):
    """Cases in any order, each from an empty board; a small season has some of them."""
    r, s.every_board = s.r, True
    wide = r.random() < 0.4
    if wide:
        sixteen(s)
    else:
        s.start(n=7 if s.small else r.choice([7, 8, 10, 13]))
    for case in r.sample(STAY, (2 if wide else 4) if s.small else len(STAY)) + (r.sample(LEAVE, 1) if s.small else LEAVE):
        empty(s)
        case(s)
