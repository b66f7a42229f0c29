"""Logs whose last batch has several changes that pass (02, CR 8), where the comparison with the Rust ends. What must be answered there is the generator's own rule (support.py), and as much as possible is
still the Rust's own words: requests.py says which, and what becomes of the others (its part CR 8). Here are the cases, each built with the winner and his voters stated, and what holds the answers to the Rust.

The generator stops where the case, the rule and the answer of requests.py do not say the same; where the Rust, asked about the batch as it is (`try`), names a change that does not pass, or names the winner
and answers otherwise; and, when the log is made, where the Rust's own count of the stored votes has another than its answer, where it names another than the rule as more and more voters are needed (raised.py),
and where a second Rust has other votes, or not several changes that pass by them, or another list behind the report (stored.py). A batch built for 7 goes through all of this but the list, of which it has none."""
import collections
import board
import raised
import requests
import stored
import support
import voters
import wire
from boards import ids
from voters import most_faulty
from wins import EDGE_IDS, another_map, contributions, key_generation, of, others_than, report, shuffled, stated, vote, wins

EMPTY_MAP = ("map", [])

# The last batch of such a log: its call and answer, the states told before and behind it, the group before it; the change of each stored vote behind its votes, and the changes that pass with these voters;
# which of them wins by document 02, and which the Rust names for the batch as it is (none where it reports a key generation). Changes are bytes in hex.
Contest = collections.namedtuple("Contest", "call told before after group behind over won rust")


def stop(why, call):
    raise SystemExit("%s: %s" % (why, call[:4000]))


# -- what must be answered -------------------------------------------------------------------------------------------------------------
def named_as_it_is(s, call, over):
    """The answer of the Rust to the batch as it is, and the change that it names. `undefined` is the empty map, at which it panics: no row before 7 refuses such a batch, and `check` holds the name to the Rust's
    count of the stored votes."""
    told = s.o.ask("try " + call)
    named = wire.change(EMPTY_MAP).hex() if told == "undefined" else voters.winner(told)
    if named not in over and (told == "undefined" or not voters.report(told)[2]):
        stop("the Rust names a change that does not pass, %s" % told[:2000], call)
    return told, named


def without_faults(words):
    """The words of an answer, but for the faults: those of old votes are put in (CR 6)."""
    return requests.with_faults(words, [])


def check_stated(told, state, carriers, number, call):
    """The case's own words on the answer: the number, or the report and its voters."""
    if number is None:
        stated(told, state, carriers)
    elif told != "refused %d" % number:
        stop("stated is %d, and asked is %s" % (number, told[:2000]), call)


def close(s, call, state, carriers, number=None):
    """The last batch of the log, then the state, the board, the numbers of the last report and its join plan."""
    before = s.o.ask("state")
    group = requests.group_told(before)
    behind = requests.changes_behind(requests.read_call(call)[0], group)
    over, won = support.passing(behind, group.map), support.winner(behind, group.map)
    if len(over) < 2:
        stop("just %s pass" % list(over), call)
    as_it_is, rust = named_as_it_is(s, call, over)
    told = requests.asked_where_several_pass(call, group, s.o.ask, over, won, number)
    check_stated(told, state, carriers, number, call)
    if number is None and rust in (won, None) and without_faults(as_it_is) != without_faults(voters.cut(told)[0]):
        stop("the Rust says otherwise, %s, not %s" % (as_it_is[:2000], told[:2000]), call)
    after = requests.state_where_several_pass(call, group, told, s.o.ask("state"))
    s.closing = [(call, told), ("state", after), ("board", board.answer(after))] + [(line, s.o.ask(line)) for line in ("last", "plan 7 448")]
    s.contest = Contest(call, told, before, after, group, behind, over, won, rust)


def check(c, values, raw):
    """By the Rust itself: whom it names for the stored votes, also where it answered nothing; who wins as more and more voters are needed; what is stored behind the batch, and that several changes pass."""
    counted, most = raised.named(c.behind, list(c.group.map), most_faulty(c.group.map) + 1, values), raised.winner(c.behind, c.group.map, values)
    if c.rust not in (counted, None):
        stop("the Rust names %s, and for these votes %s" % (c.rust, counted), c.call)
    if most != c.won:
        stop("the rule has %s, and the Rust, as more are needed, %s" % (c.won, most), c.call)
    stored.check_listed(c.call, c.told, stored.check_ended(c.call, c.group, raw))


# -- the last batch --------------------------------------------------------------------------------------------------------------------
def early_votes(s, sides):
    """Votes of some in an earlier batch, as many of each side as do not pass."""
    f = most_faulty(s.map)
    if f > 0 and not s.votes and s.r.random() < 0.5:
        none_wins(s, [vote(s, i, c) for c, some in sides for i in s.r.sample(some, min(len(some), s.r.randrange(f + 1)))])


def none_wins(s, votes):
    """A batch behind which the votes stand."""
    s.committed(s.line(contributions(s, shuffled(s, votes), 2), []))


def own_votes(s, sides):
    """Votes of some nodes of no side, each for something of his own, where that does not pass."""
    free = [i for i in ids(s) if not any(i in some for _, some in sides)]
    return [vote(s, i, ("schedule", (3, i, 9))) for i in free if most_faulty(s.map) > 0 and s.r.random() < 0.5]


def side_votes(s, c, some, first):
    """Votes for a side's change of those who are not for it yet, and now and then of one who is; newer ones of those who vote for another first."""
    return [vote(s, i, c, 2 if i in first else 1) for i in some if i in first or s.voted.get(i) != c or s.r.random() < 0.2]


def contest(s, *sides, first=None, messages=(), complete=None):
    """Changes with their voters, of which two or three pass and the first wins, unless a key generation is complete with these messages. The votes stand in any order, of one proposer or several, behind those
    of voters who go over within the batch."""
    first = first or {}
    early_votes(s, sides)
    votes = [vote(s, i, c) for i, c in first.items()] + shuffled(s, [w for c, some in sides for w in side_votes(s, c, some, first)] + own_votes(s, sides))
    cs = contributions(s, votes, s.r.choice([1, 1, 2, 3]))
    cs[0][2].extend(messages)
    s.old_votes(cs)
    (won, carriers), line = sides[0], s.line(cs, [0] * len(messages))
    if complete is not None:
        close(s, line, ("complete", complete), ())
    elif won == EMPTY_MAP:
        close(s, line, None, (), 7)
    else:
        close(s, line, report(won), carriers)


# -- who votes: the winner's voters, then the other's --------------------------------------------------------------------------------------
def most_above(s):
    """More voters, and all of them above the other's."""
    f, v = most_faulty(s.map), ids(s)
    return s.r.sample(v[f + 1:], s.r.randrange(f + 2, len(v) - f)), v[:f + 1]


def most_anywhere(s):
    """More voters, with any ids."""
    f, v = most_faulty(s.map), shuffled(s, ids(s))
    k = s.r.randrange(f + 1, (len(v) + 1) // 2)
    return v[k:s.r.randrange(2 * k + 1, len(v) + 1)], v[:k]


def tie_around(s):
    """As many voters, the lowest and the highest ones: all of the other's are between."""
    v = ids(s)
    k = s.r.randrange(most_faulty(s.map) + 1, len(v) // 2 + 1)
    return v[:1] + v[len(v) - k + 1:], v[1:k + 1]


def tie_below(s):
    """As many voters, and the other has the highest one; now and then all of the other's are higher."""
    v = ids(s)
    k, among = s.r.randrange(most_faulty(s.map) + 1, len(v) // 2 + 1), shuffled(s, v[1:-1]) if s.r.random() < 0.7 else v[1:-1]
    return v[:1] + among[:k - 1], among[k - 1:2 * k - 2] + v[-1:]


def three_sides(s):
    """All nodes, in three sides of as many: the winner's are the lowest and the highest ones, and the second's pass before the third's."""
    v, k = ids(s), len(s.map) // 3
    return v[:1] + v[len(v) - k + 1:], v[1:k + 1], v[k + 1:len(v) - k + 1]


# -- cases ---------------------------------------------------------------------------------------------------------------------------------
def as_they_come(s, who):
    """Two changes of any kind."""
    (x, y), (a, b) = others_than(s)[:2], who(s)
    contest(s, (x, a), (y, b))


def of_kinds(s, who, kind, other):
    """A change of one kind wins against one of the other."""
    (a, b), changes = who(s), others_than(s)
    contest(s, (next(c for c in changes if c[0] == kind), a), (next(c for c in changes if c[0] == other), b))


def equal_in_effect(s, who):
    """Two schedules of which each encrypts every epoch: they are two changes."""
    (x, y), (a, b) = s.r.sample([("schedule", w) for w in ((0,), (2, 1), (3, 1, 0))], 2), who(s)
    contest(s, (x, a), (y, b))


def empty_map(s, who, wins_it):
    """The empty map and another change: it wins, which is 7, or is passed by."""
    (a, b), x = who(s), others_than(s)[0]
    contest(s, *[(EMPTY_MAP, a), (x, b)] if wins_it else [(x, a), (EMPTY_MAP, b)])


def goes_over(s, who, within):
    """The lowest voter of all goes over from the other change to the winner, in the last batch or within it, and makes a tie."""
    (x, y), (a, b) = others_than(s)[:2], who(s)
    if not within:
        none_wins(s, of(s, a[:1], y))
    contest(s, (x, a), (y, b), first={a[0]: y} if within else None)


def goes_away(s, within):
    """The lowest voter of all leaves the other change for something of his own, in the last batch or within it, and a tie is left."""
    (x, y), v, f = others_than(s)[:2], ids(s), most_faulty(s.map)
    if not within:
        none_wins(s, of(s, v[:1], y))
    contest(s, (x, v[1:2] + v[f + 3:2 * f + 3]), (y, v[2:f + 3]), (("schedule", (3, v[0], 8)), v[:1]), first={v[0]: y} if within else None)


def again(s, who, candidate_wins):
    """The candidate map has won again, so that its votes stand; then another change passes beside it, and one of the two wins."""
    c, (a, b) = another_map(s), who(s)
    wins(s, of(s, ids(s), c), c, *ids(s))
    stand, x = a if candidate_wins else b, others_than(s, c)[0]
    wins(s, of(s, stand, c), c, *stand)
    if s.r.random() < 0.3:
        wins(s, [], c, *stand)
    contest(s, *[(c, a), (x, b)] if candidate_wins else [(x, a), (c, b)])


def three(s, with_empty):
    """Three changes pass."""
    changes = others_than(s)[:3]
    if with_empty:
        changes[s.r.randrange(3)] = EMPTY_MAP
    contest(s, *zip(changes, three_sides(s)))


def documents(s):
    """Document 01's example: of 1 to 4 the second and third are for one change, the first and last for the other."""
    x, y = others_than(s)[:2]
    votes = [vote(s, i, c) for i, c in ((1, x), (2, y), (3, y), (4, x))]
    close(s, s.line(contributions(s, votes, s.r.choice([1, 2])), []), report(x), [1, 4])


def ready(s, who, with_empty):
    """A key generation is complete in the batch in which two changes pass: neither wins, nor is it 7."""
    c, (a, b) = ("map", sorted(dict(s.r.sample(s.map, 2) + [(58, s.keys[58])]).items())), who(s)
    wins(s, of(s, ids(s), c), c, *ids(s))
    x, y = others_than(s, c)[:2]
    contest(s, (EMPTY_MAP if with_empty else x, a), (y, b), messages=key_generation(s), complete=c)


# With how many nodes two changes can have as many voters; one of them more than the other; the same, and one voter is left; with how many three can pass: all nodes vote then, and each has as many.
TIES, MOST, LEFT, THREE = [2, 3, 4, 4, 5, 6, 7, 8, 10, 16], [3, 3, 5, 6, 7, 7, 8, 9, 10, 13, 16], [5, 6, 7, 8, 9, 10, 13, 16], [3, 6, 6, 9, 12, 15]

# Each case, with what, and with how many nodes, or with which.
CASES = [
    (documents, (), (1, 2, 3, 4)),
    (as_they_come, (most_above,), MOST), (as_they_come, (most_anywhere,), MOST), (as_they_come, (tie_around,), TIES), (as_they_come, (tie_below,), TIES),
    (of_kinds, (most_above, "map", "schedule"), MOST), (of_kinds, (most_above, "schedule", "map"), MOST), (of_kinds, (tie_around, "map", "schedule"), TIES[2:]), (of_kinds, (tie_around, "schedule", "map"), TIES[2:]),
    (empty_map, (most_above, True), MOST), (empty_map, (most_above, False), MOST), (empty_map, (tie_around, True), TIES[2:]), (empty_map, (tie_around, False), TIES[2:]),
    (empty_map, (most_anywhere, True), MOST), (empty_map, (most_anywhere, False), MOST), (empty_map, (tie_below, True), TIES), (empty_map, (tie_below, False), TIES),
    (goes_over, (tie_around, False), TIES[2:]), (goes_over, (tie_below, True), TIES[2:]), (goes_away, (False,), LEFT), (goes_away, (True,), LEFT),
    (again, (most_above, False), MOST), (again, (most_above, True), MOST), (again, (tie_around, False), TIES[2:]), (again, (tie_around, True), TIES[2:]),
    (again, (most_anywhere, False), MOST), (again, (most_anywhere, True), MOST), (again, (tie_below, False), TIES), (again, (tie_below, True), TIES),
    (three, (False,), THREE), (three, (True,), THREE[1:]), (equal_in_effect, (most_above,), MOST), (equal_in_effect, (tie_around,), TIES[2:]),
    (as_they_come, (tie_around,), (0, 2**31, 2**31 + 1, 2**32 - 1)), (as_they_come, (tie_around,), (2**31 - 1, 2**31, 2**32 - 2, 2**32 - 1)),
    (ready, (tie_around, False), [4, 5, 7]), (ready, (most_above, True), [5, 6, 7])]


def some_ids(s, n):
    """So many ids: small ones, or any from 0 to 2^32-1."""
    if s.r.random() < 0.7:
        return s.some_ids(n)
    return sorted((s.r.sample(EDGE_IDS, s.r.randrange(min(n, 6) + 1)) + s.r.sample([i for i in range(60, 2**32, 2**24) if i not in EDGE_IDS], n))[:n])


def season(s, k):
    """The k-th log: a case in turn, in a group that has just started or in one that has a key generation."""
    case, given, nodes = CASES[k % len(CASES)]
    s.start(ids=list(nodes) if isinstance(nodes, tuple) else some_ids(s, s.r.choice([n for n in nodes if n < 9 or not s.small])))
    if case not in (again, ready) and s.r.random() < 0.3:
        c = another_map(s)
        wins(s, of(s, ids(s), c), c, *ids(s))
    case(s, *given)
