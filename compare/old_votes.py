"""Batches with votes of old numbers: one of a wrong era or signature is a fault of the proposer whatever its number, and a valid one of an old number is nothing (02, CR 6). Each batch is built with
its faults stated, in order, and with what is stored behind it; what must be answered is made from the Rust's answer (requests.py), and a fault or a stored vote that is not as stated stops the
generator."""
import wire
from season import LAST

# What can be wrong with a vote; the last two are for a node that has another key in the candidate map.
WRONG = ["era", "signature", "both", "candidate key", "candidate key and era"]


def ids(s):
    return [i for i, _ in s.map]


def up(s, i, k=1):
    """A number of node i that is new, by so much."""
    return s.votes.get(i, -1) + k


def good(s, i, number, change=None):
    """A vote with nothing wrong. Where no change is given it does not win: no other node votes for it, or, where one voter is enough, it is for the candidate map, which begins no era again."""
    return (change or (("schedule", (2, 1000 + i)) if len(s.map) > 3 else ("map", s.candidate)), s.era, number, i, dict(s.map)[i])


def wrong(s, v, what, number=None):
    """The same voter's vote for something else, with that wrong; of another number where one is given."""
    r, (_, era, n, i, key) = s.r, v
    other = r.choice([("schedule", (1,)), ("schedule", (2, 2000 + i)), ("map", []), ("map", s.map[:1])])
    if what in ("era", "both", "candidate key and era"):
        era = r.choice([x for x in (era - 1, era + 1, era + 7, LAST) if x >= 0])
    if what in ("signature", "both"):
        key = r.choice([x for x in (0, key + 1, 7, r.choice(s.map)[1]) if x != key])
    if what in ("candidate key", "candidate key and era"):
        key = dict(s.candidate)[i]
    return (other, era, n if number is None else number, i, key)


def ways(s, i):
    """What can be wrong with a vote of node i."""
    return WRONG if i == s.renewed[0] else WRONG[:3]


def again(s, v, *numbers):
    """Votes of the same voter with these numbers, each with the word whether it is a fault: wrong in each way, and valid ones for something else. In any order."""
    votes = [(wrong(s, v, what, number), True) for number in numbers for what in ways(s, v[3])]
    votes += [(good(s, v[3], number, ("schedule", (1,))), False) for number in numbers]
    return s.r.sample(votes, len(votes))


def some_again(s, v):
    """Up to three of these, of the vote's own number or the one below it."""
    return again(s, v, v[2], max(0, v[2] - 1))[:s.r.randrange(1, 4)]


def proposers(s, k):
    """Proposers in ascending order, of the map and of none."""
    return sorted(s.r.sample(ids(s) + [i for i in (0, 55, 57, 2**32 - 1) if i not in ids(s)], k))


def split(s, votes, k=2):
    """These votes in their order, as contributions of k proposers."""
    cuts = [0] + sorted(s.r.randrange(len(votes) + 1) for _ in range(k - 1)) + [len(votes)]
    return [(p, votes[a:b]) for p, a, b in zip(proposers(s, k), cuts, cuts[1:])]


def faults(p, votes):
    return ["%d:InvalidCommittedVote" % p for _, is_fault in votes if is_fault]


def cast(s, contributions):
    """A batch of votes: its proposers with theirs, each with the word whether it is a fault."""
    return s.committed_with([(p, b"", [], [v for v, _ in votes]) for p, votes in contributions], [], [x for p, votes in contributions for x in faults(p, votes)])


def stored(s, *votes):
    """That these votes are stored, by the Rust's own state; a log shows it behind each batch, a small one now and then."""
    for change, _, number, voter, _ in votes:
        if (s.votes.get(voter), s.voted.get(voter)) != (number, change):
            raise SystemExit("stated is vote %d of %d for %s, and the Rust has %s for %s" % (number, voter, change, s.votes.get(voter), s.voted.get(voter)))
    if s.small and s.r.random() < 0.3:
        s.show("state")


def store(s, *voters):
    """Votes of these nodes, or of some one, that a batch has stored; the two numbers below each were new too."""
    votes = [good(s, i, up(s, i, 3)) for i in voters or s.r.sample(ids(s), 1)]
    cast(s, split(s, [(v, False) for v in votes]))
    return votes


def all_vote(s, change):
    """Votes of all nodes, each newer than the stored one."""
    return [(good(s, i, up(s, i), change), False) for i in ids(s) if s.votes.get(i) != LAST]


# -- batches behind which the era goes on --------------------------------------------------------------------------------------------
def by_an_earlier_batch(s):
    """A vote is stored; in a later batch come its number and a lower one."""
    v, = store(s)
    cast(s, split(s, again(s, v, v[2], s.r.choice([0, v[2] - 1]))))
    stored(s, v)


def by_an_earlier_vote(s):
    """A vote is stored, and behind it in the same batch come its number and a lower one that was new before: in the same contribution and in that of a higher proposer."""
    i = s.r.choice(ids(s))
    v = good(s, i, up(s, i, 3))
    cast(s, split(s, [(v, False)] + again(s, v, v[2], s.r.choice([v[2] - 1, v[2] - 2]))))
    stored(s, v)


def step_by_step(s):
    """Numbers that rise within a batch. A wrong vote is a fault in front of the valid one, where its number is new, and behind it, where it is old; the valid one again is nothing."""
    i, votes = s.r.choice(ids(s)), []
    first = up(s, i)
    for number in (first, first + 1, first + 4):
        v = good(s, i, number)
        votes += [(wrong(s, v, s.r.choice(ways(s, i))), True), (v, False), (wrong(s, v, s.r.choice(ways(s, i))), True), (v, False)]
    cast(s, split(s, votes, s.r.choice([1, 2, 4])))
    stored(s, v)


def of_new_numbers(s):
    """New numbers, wrong in each way: faults as before. None is stored, so that a valid vote with the same number is new, also behind a wrong one of the last number."""
    i = s.r.choice(ids(s))
    v = good(s, i, up(s, i, 2))
    cast(s, split(s, [(wrong(s, v, what), True) for what in ways(s, i)]))
    cast(s, split(s, [(wrong(s, v, "signature", LAST), True), (v, False)] + some_again(s, v)))
    stored(s, v)


def strangers(s):
    """A voter outside the map has no key, also where the candidate map has one for him, or where he signs with another node's. Nothing of his is stored, so no number of his is old."""
    new = next(x for x in s.candidate if x[0] not in dict(s.map))
    vote = lambda i, key, era: ((("schedule", (1,)), era, s.r.choice([0, 3, LAST]), i, key), True)
    votes = [vote(*new, s.era)] + [vote(*x, s.era + s.r.choice([0, 0, 1])) for x in (new, (59, 7), (59, 0), (2**32 - 1, s.map[0][1]))]
    cast(s, split(s, s.r.sample(votes, 5) + votes[:2]))
    assert set(s.votes) <= set(ids(s))


def other_voters(s):
    """A number is old against the stored vote of the same voter only."""
    v, = store(s, s.map[0][0])
    others = [good(s, i, max(up(s, i), v[2])) for i in ids(s)[1:4]]
    cast(s, split(s, [x for w in others for x in ((wrong(s, w, "signature"), True), (w, False))] + some_again(s, v)))
    stored(s, v, *others)


def candidate_key(s):
    """The node that gets another key votes with the one it has. With the one it will have a vote is wrong, of a new number, an equal one and a lower one; with a wrong era too it is one fault."""
    i, _ = s.renewed
    v = good(s, i, up(s, i, 2))
    with_new = lambda number: [(wrong(s, v, what, number), True) for what in WRONG[3:]]
    cast(s, split(s, with_new(v[2]) + [(v, False)] + with_new(v[2]) + with_new(v[2] - 1)))
    cast(s, split(s, with_new(0) + [(v, False)] + with_new(v[2]) + with_new(v[2] + 1)))
    stored(s, v)


def many_proposers(s):
    """Up to five proposers, in the map and in none, each with votes of one voter: some have faults and some have none."""
    votes = store(s, *s.r.sample(ids(s), min(3, len(s.map))))
    cast(s, [(p, some_again(s, s.r.choice(votes))) for p in proposers(s, s.r.randrange(3, min(6, len(s.map) + 4)))])
    stored(s, *votes)


def among_messages(s):
    """In each contribution votes come first, then messages: a leaving node's is a fault of it (CR 2), one of a wrong era or signature is the proposer's, one with a row too many its signer's."""
    (v,), (i, key), rows = store(s), s.candidate[-1], [1] * (len(s.candidate) + 1)
    messages = [((s.era + 1, i, ("part", 1, rows), key), None, "InvalidKeyGenMessageEra"), ((s.era, i, ("ack", 1, rows), 0), None, "InvalidKeyGenMessageSignature"),
                ((s.era, i, ("part", 1, rows), key), i, "SyncKeyGenPart.RowCount")]
    if s.gone:
        messages += [((s.era, s.gone[0], (kind, 1, rows[1:]), s.gone[1]), s.gone[0], fault) for kind, fault in (("part", "UnexpectedKeyGenPart"), ("ack", "UnexpectedKeyGenAck"))]
    cs, want = [], []
    for p in proposers(s, 2):
        votes, some = again(s, v, v[2])[:3], s.r.sample(messages, 3)
        cs.append((p, b"xy", [m for m, _, _ in some], [w for w, _ in votes]))
        want += faults(p, votes) + ["%d:%s" % (p if who is None else who, fault) for _, who, fault in some]
    s.committed_with(cs, [s.r.randrange(4) for _ in range(6)], want)
    stored(s, v)


def no_winner_by_them(s):
    """One voter is missing. Votes of old numbers for the same change, wrong or valid, are of no help."""
    f, order, c = (len(s.map) - 1) // 3, s.r.sample(ids(s), len(s.map)), ("schedule", (2, 77))
    if f > 0:
        votes = store(s, *order[f:])
        behind = [((c, *w[1:]), is_fault) for v in votes[:3] for w, is_fault in some_again(s, v)]
        a = cast(s, split(s, s.r.sample([(good(s, i, up(s, i), c), False) for i in order[:f]] + behind, f + len(behind))))
        assert a.split(" ")[3] == "00000000", a
        stored(s, *votes)


def wins_again(s):
    """The candidate map wins again, and no era begins: its votes stay, and their numbers are old in this batch and in the next one, where it wins by them alone."""
    votes, era = [v for v, _ in all_vote(s, ("map", s.candidate))], s.era
    cast(s, split(s, [(v, False) for v in votes] + some_again(s, s.r.choice(votes))))
    a = cast(s, split(s, some_again(s, s.r.choice(votes))))
    assert a.split(" ")[3].startswith("01000000") and s.era == era, a
    stored(s, *votes)


def empty_wins(s):
    """With the empty map winning in the same batch it is 7: no fault is told and nothing is stored, and afterwards the same votes are old against the one that was stored before."""
    v, = store(s)
    behind = again(s, v, v[2] - 1)
    s.committed(s.line([(2, b"", [], [w for w, _ in behind + all_vote(s, ("map", [])) + behind])], []), 7)
    cast(s, split(s, behind))
    stored(s, v)


def refused(s):
    """Other rows refuse such a batch: no fault is told."""
    v, = store(s)
    cs = [(2, b"", [], [w for w, _ in again(s, v, v[2])])]
    calls = [(1, s.line(cs, [], places=(1023, 1025))), (2, s.line([], [], raw=wire.batch(cs)[:-1])), (3, s.line([], [], raw=wire.u64(17) + wire.batch(cs)[8:])), (4, s.line(cs, [0])),
             (15, s.line(cs, [], era=s.era + 1)), (5, s.line(cs, [], inner=LAST - s.era))]
    for n, line in [s.r.choice(calls[3:5]), s.r.choice(calls[:3] + calls[5:])] if s.small else s.r.sample(calls, 6):
        s.say(line, n)
    stored(s, v)


def received(s):
    """A received vote is looked at in the old order, number before signature, and its number is old against a pending vote only. A pending vote makes no committed one old."""
    v, = store(s)
    i, number, fault = v[3], 2**63, "fault %d:InvalidVoteSignature" % v[3]
    told = [s.say("message %d %s" % (i, wire.message_vote(m).hex())) for m in (
        wrong(s, v, "signature"), wrong(s, v, "signature", 0), good(s, i, v[2]), wrong(s, v, "signature"), good(s, i, number), wrong(s, v, "signature", number), wrong(s, v, "signature", 0),
        good(s, i, number), wrong(s, v, "signature", number + 1))]
    assert told == [fault] * 2 + ["handled"] * 6 + [fault], told
    w = good(s, i, v[2] + 1)
    cast(s, split(s, [(wrong(s, w, "signature"), True), (w, False)] + some_again(s, w)))
    stored(s, w)


def all_places(s):
    """Every place that is lent for faults has one: 1,024 such votes; then fewer, and key messages of a wrong era beside them."""
    v, = store(s)
    votes = [wrong(s, v, s.r.choice(ways(s, v[3])), s.r.choice([v[2], 0])) for _ in range(1024)]
    votes = [((("schedule", (1,)), *w[1:]), True) for w in votes]
    cast(s, split(s, votes, s.r.choice([1, 4])))
    k, m, (p, q) = s.r.randrange(300, 700), (s.era + 1, v[3], ("part", 1, []), v[4]), proposers(s, 2)
    cs, want = [], []
    for i, some, n in ((p, votes[:100], 300), (q, votes[100:k], 724 - k)):
        cs.append((i, b"", [m] * n, [w for w, _ in some]))
        want += faults(i, some) + ["%d:InvalidKeyGenMessageEra" % i] * n
    assert len(want) == 1024
    s.committed_with(cs, [0] * (1024 - k), want)
    stored(s, v)


# -- batches that begin an era -------------------------------------------------------------------------------------------------------
def wins(s):
    """A schedule or another map wins in the same batch. Nothing is stored then: the same votes are of new numbers and of a wrong era. One of the era that begins is a fault before it, right in it."""
    v, = store(s)
    early = (v[0], s.era + s.inner + 1, *v[2:])
    votes = all_vote(s, s.r.choice([("schedule", s.any_schedule()), ("map", [x for x in s.candidate if x[0] != 58] + [(58, s.r.randrange(6000, 7000))])]))
    for x in some_again(s, v) + [(early, True)]:
        votes.insert(s.r.randrange(len(votes) + 1), x)
    cast(s, split(s, votes, s.r.choice([1, 2, 4])))
    assert s.votes == {} and s.era == early[1]
    old = s.r.choice([(w, True) for w, _ in votes if w[3] == v[3] and w[1] != s.era])
    first = early if len(s.map) > 3 and s.r.random() < 0.5 else good(s, v[3], s.r.choice([0, v[2]]))
    cast(s, split(s, [(v, True), old, (first, False), (v, True), old]))
    stored(s, first)


def last_number(s):
    """The last number is stored, by the highest voter: every number of his is old from then on, that one too, until the others begin an era. Where one voter is enough they cannot, as his change passes too."""
    if len(s.map) <= 3:
        return
    i = s.map[-1][0]
    v = good(s, i, LAST)
    cast(s, split(s, [(wrong(s, v, "signature"), True), (v, False)] + again(s, v, LAST)))
    cast(s, split(s, again(s, v, *s.r.sample([LAST, LAST - 1, 0], 2)) + [(v, False)]))
    stored(s, v)
    cast(s, split(s, all_vote(s, ("schedule", (1,))) + some_again(s, v)))
    assert s.votes == {}


def completes(s):
    """Key generation completes in the same batch. In the next era the key that was the candidate map's is right, and the one before it wrong."""
    v, = store(s, s.renewed[0])
    candidate, n = dict(s.candidate), len(s.candidate)
    messages = [(s.era, i, s.a_part(i), key) for i, key in s.candidate] + [(s.era, i, s.an_ack(k), key) for k in range(n) for i, key in s.candidate]
    votes = again(s, v, v[2])[:4]
    p, q = proposers(s, 2)
    s.committed_with([(p, b"", messages[:n], [w for w, _ in votes[:2]]), (q, b"", messages[n:], [w for w, _ in votes[2:]])], [0] * len(messages), faults(p, votes[:2]) + faults(q, votes[2:]))
    assert s.candidate is None and dict(s.map) == candidate
    i, new = s.renewed
    now = lambda key: (("schedule", (2, 7)), s.era, 0, i, key)
    cast(s, split(s, [(now(v[4]), True), (now(new), False), (now(v[4]), True), (now(new), False)]))


STAY = [by_an_earlier_batch, by_an_earlier_vote, step_by_step, of_new_numbers, strangers, other_voters, candidate_key, many_proposers, among_messages, no_winner_by_them,
        wins_again, empty_wins, refused, received]
BEGIN = [wins, last_number]


def begin(s):
    """A map wins in which a node has another key and one is new; where there are three or more, one is leaving."""
    r = s.r
    s.start(n=r.choice([3, 4, 7] if s.small else [1, 2, 3, 4, 4, 5, 7, 7, 10, 16]))
    first, *others = r.sample(s.map, len(s.map))
    s.renewed, s.gone = (first[0], 5000 + first[0]), others[0] if len(others) > 1 else None
    stay = {i: key for i, key in s.map if (i, key) != s.gone}
    c = ("map", sorted({**stay, s.renewed[0]: s.renewed[1], 58: s.keys[58]}.items()))
    s.batch([], [s.a_vote(c, i) for i in ids(s)])


def season(s):
    """The cases in any order; a small season has some of them."""
    r = s.r
    begin(s)
    cases = r.sample(STAY, 5) + [r.choice(BEGIN)] if s.small else STAY + BEGIN
    for case in r.sample(cases, len(cases)):
        case(s)
    if not s.small and r.random() < 0.3:
        all_places(s)
    if r.random() < 0.5:
        completes(s)
