"""Kinds of reports, and of the voters who carried a change (02, CR 7). `generate` prints how many of each there were, and the sample must have enough of each (`LEAST`)."""
import collections
import requests
import voters
import wire
from board_kinds import EVERY_EPOCH

# How many batches were reported, and how many of each kind; `generate` prints it.
SEEN = collections.Counter()

# A reported batch: how its report begins, whether that comes of a ready key generation, the change that won (its bytes in hex, or none), the voters who carried it; the changes stored before the batch
# and behind its votes, by voter; its votes as they were met, and those of them that were stored, (voter, change); whether it has key messages; the group before it.
Report = collections.namedtuple("Report", "state ready won listed before behind met stored messages group")


def bytes_of(change):
    return wire.change(change).hex()


def report_of(call, told, before):
    """A batch call with its answer, and the state that the oracle told before it."""
    words, listed = voters.cut(told)
    group, contributions = requests.group_told(before), requests.read_call(call)[0]
    met = list(requests.votes_met(contributions, group))
    stored = [(m.vote[3], bytes_of(m.vote[0])) for m in met if requests.is_stored(m)]
    state, _, ready = voters.report(words)
    return Report(state, ready, voters.winner(words), listed, group.changes, requests.changes_behind(contributions, group), met, stored, any(c[2] for c in contributions), group)


def most(p):
    """How many voters do not pass."""
    return voters.most_faulty(p.group.map)


def passes(p, votes):
    """The changes that pass with these votes."""
    return {change for change in votes.values() if len(voters.supporters(votes, change)) > most(p)}


def candidate(p):
    return None if p.group.candidate is None else bytes_of(("map", sorted(p.group.candidate.items())))


def is_none(p):
    return p.state == voters.NONE


def wins_again(p):
    """The candidate map, so that no era begins."""
    return p.won is not None and p.won == candidate(p)


def is_fresh(p):
    return p.state == voters.IN_PROGRESS and not wins_again(p)


def is_schedule(p):
    return p.state == voters.COMPLETE and not p.ready


def before(p):
    """The voters who carried the winner with the votes before the batch; it passed then only where it is the candidate map, which had won again."""
    return voters.supporters(p.before, p.won)


def won_before(p):
    """Whether the candidate map had won again before this batch, and no era began."""
    return candidate(p) in passes(p, p.before)


def by_this_batch(p):
    """The voters in the list whose stored vote is of this batch, in the order in which those were met."""
    last = {voter: k for k, (voter, _) in enumerate(p.stored)}
    return sorted((i for i in p.listed if i in last), key=last.get)


def voted_earlier(p, voter):
    """For what a vote of this voter was stored earlier in the batch, the last one left out."""
    return [change for i, change in p.stored if i == voter][:-1]


def others(p):
    """The voters of other changes than the winner."""
    return [i for i in p.behind if p.behind[i] != p.won]


def for_it(p):
    """The votes for the winner that were not stored, of voters who are not in the list."""
    return [m for m in p.met if not requests.is_stored(m) and bytes_of(m.vote[0]) == p.won and m.vote[3] not in p.listed]


# Of which report a batch is, with and without votes; of those that name no voters.
REPORTS = {
    "None and no vote": lambda p: is_none(p) and not p.behind,
    "None with votes of the batch": lambda p: is_none(p) and bool(p.stored),
    "None with votes left of earlier batches": lambda p: is_none(p) and bool(p.before) and not p.stored,
    "None where the candidate map had won again": lambda p: is_none(p) and won_before(p),
    "fresh key generation": is_fresh,
    "fresh key generation in place of another": lambda p: is_fresh(p) and p.group.candidate is not None,
    "schedule": lambda p: is_schedule(p) and p.group.candidate is None,
    "schedule beside a key generation": lambda p: is_schedule(p) and p.group.candidate is not None,
    "repeated win": wins_again,
    "complete and no vote": lambda p: p.ready and not p.behind,
    "complete with votes left of earlier batches": lambda p: p.ready and bool(p.before),
    "complete and a change passes by votes of the batch": lambda p: p.ready and bool(passes(p, p.behind) - passes(p, p.before)),
    "complete and a schedule passes": lambda p: p.ready and any(change.startswith(voters.SCHEDULE) for change in passes(p, p.behind)),
    "complete and another map passes": lambda p: p.ready and any(change.startswith(voters.MAP) for change in passes(p, p.behind) - {candidate(p)}),
    "complete and the candidate map passes": lambda p: p.ready and candidate(p) in passes(p, p.behind),
    "complete where the candidate map had won again": lambda p: p.ready and won_before(p),
}

# Batches in which a change won: who carried it.
WINS = {
    "by f + 1 and not by all": lambda p: len(p.listed) == most(p) + 1 < len(p.group.map),
    "by more and not by all": lambda p: most(p) + 1 < len(p.listed) < len(p.group.map),
    "by all": lambda p: len(p.listed) == len(p.group.map) > most(p) + 1,
    "by the one node of a map": lambda p: len(p.group.map) == 1,
    "by one of several where f is 0": lambda p: len(p.listed) == 1 < len(p.group.map),
    "by all of sixteen": lambda p: len(p.listed) == 16,
    "by the id 0": lambda p: 0 in p.listed,
    "by an id from 2^8 to 2^31-1": lambda p: any(2**8 <= i < 2**31 for i in p.listed),
    "by an id from 2^31 on": lambda p: any(i >= 2**31 for i in p.listed),
    "by the id 2^32-1": lambda p: 2**32 - 1 in p.listed,
    "by the ids 0 and 2^32-1 and not by all": lambda p: {0, 2**32 - 1} <= set(p.listed) and len(p.listed) < len(p.group.map),
    "by voters of several batches": lambda p: 0 < len(by_this_batch(p)) < len(p.listed),
    "by votes of earlier batches alone": lambda p: not by_this_batch(p),
    "by one who votes for it again": lambda p: any(p.before.get(i) == p.won for i in by_this_batch(p)),
    "by one who went over to it": lambda p: any(p.before.get(i, p.won) != p.won for i in p.listed),
    "by one who went over to it within the batch": lambda p: any(set(voted_earlier(p, i)) - {p.won} for i in p.listed),
    "not by one who left it": lambda p: any(p.behind[i] != p.won for i in before(p)),
    "not by one who left it within the batch": lambda p: any(p.won in voted_earlier(p, i) for i in others(p)),
    "not by a wrong vote for it": lambda p: any(requests.is_wrong(m) and m.vote[3] in p.group.map for m in for_it(p)),
    "not by a stranger's vote for it": lambda p: any(m.vote[3] not in p.group.map for m in for_it(p)),
    "not by a vote of an old number for it": lambda p: any(not requests.is_wrong(m) for m in for_it(p)),
    "by one with a vote of an old number for another": lambda p: any(requests.is_old(m) and not requests.is_wrong(m) and m.vote[3] in p.listed and bytes_of(m.vote[0]) != p.won for m in p.met),
    "in another order than they voted in": lambda p: by_this_batch(p) != sorted(by_this_batch(p)),
    "behind a first vote for another": lambda p: bool(p.stored) and p.stored[0][1] != p.won,
    "beside other changes": lambda p: bool(others(p)),
    "beside a schedule equal in effect": lambda p: p.won in EVERY_EPOCH and any(p.behind[i] in EVERY_EPOCH for i in others(p)),
    "in a batch with key messages": lambda p: p.messages,
    "in a batch of 500 votes or more": lambda p: len(p.met) >= 500,
    "again with a new supporter": lambda p: wins_again(p) and won_before(p) and bool(set(p.listed) - set(before(p))),
    "again with a supporter less": lambda p: wins_again(p) and won_before(p) and bool(set(before(p)) - set(p.listed)),
    "again with the same": lambda p: wins_again(p) and won_before(p) and p.listed == before(p),
}

KINDS = [*REPORTS, *WINS]

# How many the sample must have of a kind: 10; batches full of votes are left to the runs.
LEAST = {"in a batch of 500 votes or more": 0}


def count(batches):
    """Notes the batch calls of a season: each with its answer, and the state that the oracle told before it."""
    for call, told, state in batches:
        if told.startswith("batch "):
            p = report_of(call, told, state)
            SEEN["reported"] += 1
            SEEN["with voters"] += p.won is not None
            SEEN.update(kind for kind in REPORTS if REPORTS[kind](p))
            SEEN.update(kind for kind in WINS if p.won is not None and WINS[kind](p))


def told():
    """What was counted, in words."""
    return ", ".join("%s %d" % (kind, SEEN[kind]) for kind in ["reported", "with voters", *KINDS])


def check_sample():
    """The sample must have enough reports of every kind."""
    few = [kind for kind in KINDS if SEEN[kind] < LEAST.get(kind, 10)]
    if few:
        raise SystemExit("the sample has too few reports of the kinds: %s" % ", ".join(few))
