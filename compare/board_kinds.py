"""Kinds of tally boards: what a board shows, and behind which call it stands. `generate` prints how many of each there were, and the sample must have every kind."""
import collections
import requests
import wire
from board import rows, votes_told

# How many boards were asked for, and how many of each kind; `generate` prints it.
SEEN = collections.Counter()

# Where a board stands: behind a call with its answer; the votes before the call and now, the rows of both, the group now, and whether an era or a replica began with the call.
Place = collections.namedtuple("Place", "call answer old_votes votes old rows group begun")

# The changes in hex that kinds name; the three schedules encrypt every epoch, and are three changes.
EVERY_EPOCH = [wire.change(("schedule", s)).hex() for s in ((0,), (2, 1), (3, 1, 0))]
EMPTY_MAP = wire.change(("map", [])).hex()


def place(call, told, before, now):
    """Where the board stands that is asked behind a call with this answer; before and now are the states that the oracle told."""
    group, start = requests.group_told(now), call.split(" ")[0] in ("new", "join") and told.startswith("started")
    old_votes = {} if before == "no engine" else votes_told(before)
    begun = start or (before != "no engine" and requests.group_told(before).era != group.era)
    return Place(call, told, old_votes, votes_told(now), rows(old_votes), rows(votes_told(now)), group, begun)


def is_batch(p, change):
    """Behind a batch that was reported with a change whose bytes begin so."""
    return p.answer.startswith("batch ") and p.answer.split(" ")[3].startswith(change)


def emptied(p, *change):
    """Behind a start or, with a change's first bytes, a batch that began an era; the board had rows before."""
    return p.begun and p.old != [] and (is_batch(p, *change) if change else not p.answer.startswith("batch "))


def ties(rows):
    """Neighbours of equal count, as pairs of changes."""
    return [(a[1], b[1]) for a, b in zip(rows, rows[1:]) if a[0] == b[0]]


def of(change, votes):
    return [v for v in votes if votes[v] == change]


def gone_over(p):
    """The voters that went over to another change, in the same era."""
    return [] if p.begun else [v for v in p.old_votes if p.votes[v] != p.old_votes[v]]


def even(rows, a, b):
    """Whether two changes have equal counts and a row each."""
    counts = {change: count for count, change in rows}
    return a in counts and counts[a] == counts.get(b)


def tie_turns(p, first, second):
    """Whether some voter went over, and two changes of which he left or took one were not even in the first rows, and are so in the second."""
    moved = {votes[v] for v in gone_over(p) for votes in (p.old_votes, p.votes)}
    changes = {change for _, change in p.old + p.rows}
    return any(even(second, a, b) and not even(first, a, b) for a in moved for b in changes if a != b)


def lowest_gone(p):
    """Whether in some tie the lowest voters would say otherwise if those who went over still counted for what they left."""
    before = lambda change: min(of(change, p.votes) + ([] if p.begun else of(change, p.old_votes)))
    return any(before(a) > before(b) for a, b in ties(p.rows))


def same_again(p):
    """Whether a batch had votes and the board has rows and is as it was."""
    return p.answer.startswith("batch ") and p.rows == p.old != [] and any(c[3] for c in requests.read_call(p.call)[0])


def shows_map(p, node_map):
    """Whether a row is for this map; there may be none."""
    return node_map is not None and any(change == wire.change(("map", sorted(node_map.items()))).hex() for _, change in p.rows)


KINDS = {
    # what it shows; a tie against something is one that this would order otherwise
    "empty": lambda p: p.rows == [],
    "one row": lambda p: len(p.rows) == 1,
    "sixteen rows": lambda p: len(p.rows) == 16,
    "a tie": lambda p: ties(p.rows) != [],
    "a tie against the highest voters": lambda p: any(max(of(a, p.votes)) > max(of(b, p.votes)) for a, b in ties(p.rows)),
    "a tie against the bytes": lambda p: any(a > b for a, b in ties(p.rows)),
    "a tie against the arrival": lambda p: not p.begun and any(of(b, p.old_votes) and not of(a, p.old_votes) for a, b in ties(p.rows)),
    "a tie against a voter gone over": lowest_gone,
    "a voter goes over and a tie is left": lambda p: tie_turns(p, p.old, p.rows),
    "a voter goes over and a tie is gone": lambda p: tie_turns(p, p.rows, p.old),
    "a voter goes over and a row is gone": lambda p: any(not of(p.old_votes[v], p.votes) for v in gone_over(p)),
    "schedules equal in effect": lambda p: all(of(change, p.votes) for change in EVERY_EPOCH),
    "empty map": lambda p: bool(of(EMPTY_MAP, p.votes)),
    "current map": lambda p: shows_map(p, p.group.map),
    "candidate map": lambda p: shows_map(p, p.group.candidate),
    # behind which call it stands
    "behind votes that leave it": same_again,
    "behind a repeated win": lambda p: not p.begun and is_batch(p, "01000000") and p.rows != [],
    "emptied by a fresh key generation": lambda p: emptied(p, "01000000"),
    "emptied by a schedule": lambda p: emptied(p, "0200000001000000"),
    "emptied by a completed key generation": lambda p: emptied(p, "0200000000000000"),
    "behind refusal 7": lambda p: p.answer == "refused 7" and p.rows != [],
    "behind another refusal of a batch": lambda p: p.call.startswith("batch ") and p.answer.startswith("refused") and p.answer != "refused 7" and p.rows != [],
    "behind joining": lambda p: p.call.startswith("join ") and p.begun,
    "emptied by a start or joining": emptied,
    "behind an own vote": lambda p: p.call.startswith(("vote ", "add ", "remove ")) and p.answer.startswith("vote ") and p.rows != [],
    "behind a received vote": lambda p: p.call.startswith("message ") and p.call.split(" ")[2].startswith("02000000") and p.answer == "handled" and p.rows != [],
}


def count(boards):
    """Notes the boards of a season."""
    for call, told, before, now in boards:
        SEEN["no engine" if now == "no engine" else "all"] += 1
        if now != "no engine":
            p = place(call, told, before, now)
            SEEN.update(kind for kind in KINDS if KINDS[kind](p))


def check_sample():
    """The sample must have boards of every kind, and 200 of them."""
    missing = [kind for kind in ["no engine", *KINDS] if SEEN[kind] == 0]
    if missing or SEEN["all"] < 200:
        raise SystemExit("the sample has %d boards, and none of the kinds: %s" % (SEEN["all"], ", ".join(missing) or "-"))
