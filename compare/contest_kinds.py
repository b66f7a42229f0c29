"""Kinds of last batches in which several changes pass (02, CR 8; contests.py). `generate` prints how many of each there were, and the sample must have enough of each."""
import collections
import requests
import voters
import wire
from board_kinds import EVERY_EPOCH

# How many there were, and how many of each kind; `generate` prints it.
SEEN = collections.Counter()

EMPTY_MAP = wire.change(("map", [])).hex()


def beaten(c):
    """The voters of each change that passes beside the winner."""
    return [c.over[change] for change in c.over if change != c.won]


def carriers(c):
    return c.over[c.won]


def equals(c):
    """The changes that pass with as many voters as the winner, each with its voters."""
    return {change: ids for change, ids in c.over.items() if change != c.won and len(ids) == len(carriers(c))}


def is_most(c):
    """Whether the winner has more voters than any other."""
    return not equals(c)


def is_tie(c):
    return bool(equals(c))


def is_7(c):
    return c.told == "refused 7"


def is_ready(c):
    return not is_7(c) and voters.report(c.told)[2]


def decides(c):
    """Whether the winner decides the batch: no key generation is ready."""
    return not is_ready(c)


def candidate(c):
    return None if c.group.candidate is None else wire.change(("map", sorted(c.group.candidate.items()))).hex()


def stood(c):
    """Whether the candidate map had won again before, so that it passed without this batch."""
    return len(voters.supporters(c.group.changes, candidate(c))) > voters.most_faulty(c.group.map)


def met(c):
    """The votes of the batch as they were met."""
    return list(requests.votes_met(requests.read_call(c.call)[0], c.group))


def arrived(c):
    """The voters of changes that pass in the order in which their votes came, those of earlier batches first, by voter."""
    last = {m.vote[3]: k for k, m in enumerate(met(c)) if requests.is_stored(m)}
    return sorted((i for ids in c.over.values() for i in ids), key=lambda i: (last.get(i, -1), i))


def passed_first(c):
    """The change that had enough voters first, by the order in which the votes came."""
    counts = collections.Counter()
    for i in arrived(c):
        counts[c.behind[i]] += 1
        if counts[c.behind[i]] > voters.most_faulty(c.group.map):
            return c.behind[i]


def earlier(c, voter):
    """For what this voter had voted before, in an earlier batch or earlier in this one."""
    of_batch = [wire.change(m.vote[0]).hex() for m in met(c) if requests.is_stored(m) and m.vote[3] == voter]
    return ([c.group.changes[voter]] if voter in c.group.changes else []) + of_batch[:-1]


def went_over(c):
    """The voters who had voted for another change before, with what they left."""
    return {i: left for i in c.behind for left in earlier(c, i) if left != c.behind[i]}


def lowest_counts(c):
    """Whether the lowest voter of all who vote for a change that passes, or did, went over, so that he would decide the tie otherwise."""
    left = [i for i, change in went_over(c).items() if change in c.over]
    return is_tie(c) and bool(left) and min(left) <= carriers(c)[0]


def is_map(change):
    return change.startswith(voters.MAP)


def beside(c):
    """The changes that pass beside the winner."""
    return [change for change in c.over if change != c.won]


def is_documents(c):
    """Document 01's example: 1 and 4 for one change, 2 and 3 for the other."""
    return list(c.group.map) == [1, 2, 3, 4] and sorted(c.over.values()) == [[1, 4], [2, 3]]


def order(c):
    """The voters of the batch in the order in which their votes stand."""
    return [m.vote[3] for m in met(c) if requests.is_stored(m)]


KINDS = {
    "two pass": lambda c: len(c.over) == 2,
    "three pass": lambda c: len(c.over) == 3,
    "the Rust names another": lambda c: decides(c) and c.rust != c.won,
    "the Rust names the same": lambda c: decides(c) and c.rust == c.won,
    # who wins
    "more voters win": is_most,
    "more voters win against the lowest one": lambda c: is_most(c) and min(beaten(c))[0] < carriers(c)[0],
    "more voters win against the last needed one": lambda c: is_most(c) and decides(c) and c.rust != c.won,
    "more voters win against the arrival": lambda c: is_most(c) and passed_first(c) != c.won,
    "a tie": is_tie,
    "a tie against the last needed voter": lambda c: is_tie(c) and decides(c) and c.rust != c.won,
    "a tie against the highest voter": lambda c: is_tie(c) and any(ids[-1] > carriers(c)[-1] for ids in equals(c).values()),
    "a tie in which the winner has the highest voter too": lambda c: is_tie(c) and all(ids[-1] < carriers(c)[-1] for ids in equals(c).values()),
    "a tie against the arrival": lambda c: is_tie(c) and c.behind[arrived(c)[0]] != c.won,
    "a tie against what passed first": lambda c: is_tie(c) and passed_first(c) != c.won,
    "a tie against the bytes": lambda c: is_tie(c) and any(change < c.won for change in equals(c)),
    "a tie after a voter went over": lambda c: is_tie(c) and any(c.behind[i] in c.over or left in c.over for i, left in went_over(c).items()),
    "a tie after the lowest voter came to the winner": lambda c: is_tie(c) and carriers(c)[0] in went_over(c),
    "a tie after the lowest voter left another": lambda c: lowest_counts(c) and min(i for i, left in went_over(c).items() if left in c.over) < carriers(c)[0],
    "a tie of 0 against an id from 2^31 on": lambda c: is_tie(c) and carriers(c)[0] == 0 and min(equals(c).values())[0] >= 2**31,
    "a tie of an id below 2^31 against one from 2^31 on": lambda c: is_tie(c) and carriers(c)[0] < 2**31 <= min(equals(c).values())[0],
    # the empty map
    "the empty map with most voters, 7": lambda c: is_7(c) and is_most(c),
    "the empty map in a tie, 7": lambda c: is_7(c) and is_tie(c),
    "the empty map, 7, and the Rust names another": lambda c: is_7(c) and c.rust != c.won,
    "the empty map with fewer voters, passed by": lambda c: decides(c) and c.won != EMPTY_MAP and EMPTY_MAP in c.over and EMPTY_MAP not in equals(c),
    "the empty map in a tie, passed by": lambda c: decides(c) and c.won != EMPTY_MAP and EMPTY_MAP in equals(c),
    "the empty map, passed by, and the Rust has it": lambda c: decides(c) and c.won != EMPTY_MAP and c.rust == EMPTY_MAP,
    # against what
    "a schedule with more voters than a map": lambda c: decides(c) and is_most(c) and not is_map(c.won) and any(map(is_map, beside(c))),
    "a schedule in a tie with a map": lambda c: decides(c) and not is_map(c.won) and any(map(is_map, equals(c))),
    "a map with more voters than a schedule": lambda c: decides(c) and is_most(c) and is_map(c.won) and not all(map(is_map, beside(c))),
    "a map in a tie with a schedule": lambda c: decides(c) and is_map(c.won) and not all(map(is_map, equals(c))),
    "schedules equal in effect": lambda c: len([change for change in c.over if change in EVERY_EPOCH]) > 1,
    "the candidate map again, with more voters": lambda c: decides(c) and stood(c) and c.won == candidate(c) and is_most(c),
    "the candidate map again, in a tie": lambda c: decides(c) and stood(c) and c.won == candidate(c) and is_tie(c),
    "another than the candidate map, with more voters": lambda c: decides(c) and stood(c) and c.won != candidate(c) and is_most(c),
    "another than the candidate map, in a tie": lambda c: decides(c) and stood(c) and c.won != candidate(c) and is_tie(c),
    "a key generation complete": is_ready,
    "a key generation complete where the empty map has most": lambda c: is_ready(c) and c.won == EMPTY_MAP,
    "document 01's example": is_documents,
    # how they voted
    "where one voter is enough": lambda c: len(c.group.map) <= 3,
    "by votes of several batches": lambda c: any(i not in order(c) for ids in c.over.values() for i in ids),
    "in another order than by voter": lambda c: order(c) != sorted(order(c)),
    "of several proposers": lambda c: len({m.proposer for m in met(c)}) > 1,
    "beside votes that do not pass": lambda c: any(c.behind[i] not in c.over for i in c.behind),
    "beside votes that are not stored": lambda c: any(not requests.is_stored(m) for m in met(c)),
}


def count(c):
    """Notes the last batch of a log."""
    SEEN["all"] += 1
    SEEN.update(kind for kind in KINDS if KINDS[kind](c))


def told():
    """What was counted, in words."""
    return ", ".join("%s %d" % (kind, SEEN[kind]) for kind in ["all", *KINDS])


def check_sample():
    """The sample must have every kind, at least twice."""
    few = [kind for kind in KINDS if SEEN[kind] < 2]
    if few:
        raise SystemExit("the sample has too few last batches in which several changes pass of the kinds: %s" % ", ".join(few))
