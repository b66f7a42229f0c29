"""Logs in which changes win, and in which none does (02, CR 7). Each batch is built with its report stated, and with the voters who carry it, as they are cast: an answer of requests.py that is not as
stated stops the generator. Where one voter is enough (f is 0) the cases are others (`ALONE`)."""
import wire
from boards import changes, ids
from old_votes import split
from voters import most_faulty

# The first id and the last, both sides of one byte, one of more than two bytes, and the first that would be negative with a sign.
EDGE_IDS = [0, 255, 256, 70000, 2**31, 2**32 - 1]


def vote(s, i, c, k=1):
    """A vote of node i, newer than its stored one by so much."""
    return (c, s.era, s.votes.get(i, -1) + k, i, dict(s.map)[i])


def of(s, nodes, c):
    return [vote(s, i, c) for i in nodes]


def shuffled(s, items):
    return s.r.sample(items, len(items))


def bound_and_nodes(s):
    """How many voters do not pass, and the nodes in any order."""
    return most_faulty(s.map), shuffled(s, ids(s))


def report(c):
    """What is reported where this change wins."""
    return ("complete" if c[0] == "schedule" else "progress", c)


def stated(answer, state, carriers):
    """An answer of which report and voters are stated."""
    words = answer.split(" ")
    want = [wire.change_state(state).hex(), "voters", ",".join(str(i) for i in sorted(carriers)) or "-"]
    if [words[3]] + words[-2:] != want:
        raise SystemExit("stated are %s and voters %s, and asked is %s" % (state, want[2], answer[:3000]))


def contributions(s, votes, k):
    """These votes in their order, as contributions of k proposers, in the map or in none."""
    return [(p, b"", [], some) for p, some in split(s, votes, k)]


def cast(s, votes, state, *carriers, messages=()):
    """A batch of these votes in their order, of one proposer or several; key messages stand in the first contribution. Votes of old numbers are put in as in any season."""
    cs = contributions(s, votes, s.r.choice([1, 1, 2, 3]))
    cs[0][2].extend(messages)
    s.old_votes(cs)
    stated(s.committed(s.line(cs, [0] * len(messages))), state, carriers)


def wins(s, votes, c, *carriers):
    """A batch of these votes in any order, with which this change wins by these voters."""
    cast(s, shuffled(s, votes), report(c), *carriers)


def another_map(s):
    """A map that is not the candidate one: mostly of as many nodes, one of them with another key or in another's place; or of one less."""
    m = s.map
    keyed = m[:-1] + [(m[-1][0], s.r.randrange(6, 1000))]
    return ("map", s.r.choice([x for x in (keyed, keyed, m[1:], sorted(m[:-1] + [(58, s.keys[58])])) if x not in ([], s.candidate)]))


def some_winner(s):
    return ("schedule", s.any_schedule()) if s.r.random() < 0.4 else another_map(s)


def others_than(s, *none_of_these):
    """Other changes, in any order, without the empty map, whose win would be 7."""
    return shuffled(s, [c for c in changes(s) if c not in none_of_these and c != ("map", [])])


def no_votes(s):
    """An era begins, so that the next case has no votes of the last."""
    if s.votes:
        c = some_winner(s)
        wins(s, of(s, ids(s), c), c, *ids(s))


# -- cases that begin without votes, with four nodes or more ---------------------------------------------------------------------------
def in_one_batch(s):
    """By exactly f + 1 voters, by all, and by a number between: those behind the one with whom it passes f are named too."""
    f, v = bound_and_nodes(s)
    for k in shuffled(s, [f + 1, len(v), s.r.randrange(f + 1, len(v) + 1)]):
        c, chosen = some_winner(s), s.r.sample(v, k)
        wins(s, of(s, chosen, c), c, *chosen)


def over_batches(s):
    """Votes come batch by batch, f of them without a winner; with the next ones all are named, also those of earlier batches and one who votes for it again."""
    (f, v), c = bound_and_nodes(s), some_winner(s)
    x, k, more = others_than(s, c)[0], s.r.randrange(1, f + 1), s.r.randrange(1, len(v) - f)
    cast(s, of(s, v[:k], c), None)
    cast(s, of(s, v[k:f], c) + of(s, v[-1:], x), None)
    cast(s, [], None)
    wins(s, of(s, v[:1] + v[f:f + more], c), c, *v[:f + more])


def goes_over(s):
    """One leaves the winner, in an earlier batch or in this one, and one comes to it from another change."""
    (f, v), c = bound_and_nodes(s), some_winner(s)
    (x, y), (leaves, comes, *stay) = others_than(s, c)[:2], v[:f + 2]
    cast(s, of(s, [leaves], c) + of(s, [comes], x), None)
    early = s.r.random() < 0.3
    if early:
        cast(s, of(s, [leaves], y), None)
    wins(s, of(s, [comes] + stay, c) + ([] if early else of(s, [leaves], y)), c, comes, *stay)


def within_the_batch(s):
    """Several votes of a voter in one batch: the one of the highest number counts, and of equal numbers the first."""
    (f, v), c = bound_and_nodes(s), some_winner(s)
    x, (a, b, e, *rest) = others_than(s, c)[0], v[:f + 3]
    leaves, comes, equal = [vote(s, a, c), vote(s, a, x, 2)], [vote(s, b, x), vote(s, b, c, 2), vote(s, b, x)], [vote(s, e, c), vote(s, e, x)]
    cast(s, [w for one in shuffled(s, [leaves, comes, equal, of(s, rest, c)]) for w in one], report(c), b, e, *rest)


def equal_in_effect(s):
    """Always, every first epoch, and on for one and off for none are three changes: the voters of one are named."""
    for _ in range(2):
        (f, v), (c, x, y) = bound_and_nodes(s), shuffled(s, [("schedule", w) for w in ((0,), (2, 1), (3, 1, 0))])
        cast(s, of(s, v[f + 1:f + 2], x), None)
        wins(s, of(s, v[:f + 1], c) + of(s, v[f + 2:2 * f + 2], y), c, *v[:f + 1])


def not_stored(s):
    """Votes that are not stored, for the winner, and of those who carry it for another change: of an old number, of a wrong era, under a wrong key, of a stranger."""
    (f, v), c, key = bound_and_nodes(s), some_winner(s), dict(s.map)
    x, (a, b, d, *rest) = others_than(s, c)[0], v[:f + 2]
    cast(s, [vote(s, a, x, 5), vote(s, b, c, 5)], None)
    old, new = s.votes[a], s.votes[a] + 5
    votes = [(c, s.era, old, a, key[a]), (c, s.era, 0, a, key[a]), (c, s.era + 1, new, a, key[a]), (c, s.era, new, a, key[a] + 1), (x, s.era, old, b, key[b]), (x, s.era, new, b, 0),
             (x, s.era + 1, new, d, key[d]), (c, s.era, s.r.choice([0, new]), 59, s.r.choice([0, 7, key[a]]))] + [(c, s.era, new, i, 0) for i in v[f + 2:]]
    wins(s, votes + of(s, [d, *rest], c), c, b, d, *rest)


def pending(s):
    """Own and received votes for the winner count only where a batch has them."""
    (f, v), c = bound_and_nodes(s), some_winner(s)
    for m in of(s, v[f + 1:], c):
        s.say("message %d %s" % (m[3], wire.message_vote(m).hex()))
    s.say("vote %s" % wire.change(c).hex())
    cast(s, of(s, v[1:f + 1], c), None)
    wins(s, of(s, v[:1], c), c, *v[:f + 1])


def last_era(s):
    """An era ends, and its votes with it: for the same change only those of the new era are named."""
    (f, v), c, now = bound_and_nodes(s), another_map(s), ("schedule", s.any_schedule())
    cast(s, of(s, v[:f], c), None)
    wins(s, of(s, v[f:], now), now, *v[f:])
    cast(s, [], None)
    wins(s, of(s, v[f:2 * f + 1], c), c, *v[f:2 * f + 1])


def no_majority(s):
    """Four changes with f voters at most: votes are left from batch to batch, and nobody is named."""
    (f, v), few = bound_and_nodes(s), others_than(s)
    cast(s, shuffled(s, [vote(s, i, few[k // f]) for k, i in enumerate(v[:4 * f])]), None)
    cast(s, [], None)
    cast(s, of(s, v[:1], few[4]), None)
    cast(s, [], None)


def refused(s):
    """The empty map wins, so it is 7: the batch stores nothing, and the next winner has the voters from before it and those behind it."""
    (f, v), c = bound_and_nodes(s), some_winner(s)
    cast(s, of(s, v[:f], c), None)
    s.committed(s.line([(2, b"", [], shuffled(s, of(s, v[f:2 * f], c) + [vote(s, i, ("map", []), 2) for i in v[f:2 * f + 1]]))], []), 7)
    wins(s, of(s, v[2 * f:2 * f + 1], c), c, *v[:f], v[2 * f])


def beside_messages(s):
    """Votes in batches with parts and acks that leave key generation short of ready: too few for a winner, then enough."""
    (f, v), c = bound_and_nodes(s), another_map(s)
    wins(s, of(s, v, c), c, *v)
    c, parts, ack = some_winner(s), [s.key_message(i, s.a_part(i)) for i, _ in s.candidate], s.key_message(s.candidate[0][0], s.an_ack(0))
    cast(s, of(s, v[:f], c), None, messages=parts)
    cast(s, of(s, v[f:f + 1], c), report(c), *v[:f + 1], messages=[ack])


def crowded(s):
    """As many votes as a batch holds: voters go to and fro, and the last vote of each decides."""
    (f, v), c = bound_and_nodes(s), ("schedule", (2, 5))
    carry = s.r.sample(v, s.r.randrange(f + 1, len(v) + 1))
    own = {i: ("schedule", (2, 1000 + i)) for i in v}
    cast_by = [s.r.choice(v) for _ in range(1024 - len(v))]
    votes = [vote(s, i, s.r.choice([c, own[i]]), k) for k, i in enumerate(cast_by, 1)] + [vote(s, i, c if i in carry else own[i], 1024) for i in shuffled(s, v)]
    cast(s, votes, report(c), *carry)


def wins_again(s):
    """The candidate map wins again and no era begins: its voters are named each time, with one more, by no vote of the batch, with one less. When too many go over it wins no more; one comes back; another
    change wins, or key generation completes."""
    (f, v), c = bound_and_nodes(s), another_map(s)
    wins(s, of(s, v, c), c, *v)
    era, (x, y, z) = s.era, others_than(s, c)[:3]
    cast(s, of(s, v[:f], c) + of(s, v[-1:], x), None)
    wins(s, of(s, v[f:f + 1], c), c, *v[:f + 1])
    wins(s, [], c, *v[:f + 1])
    wins(s, of(s, v[f + 1:f + 2] + v[:1], c), c, *v[:f + 2])
    wins(s, of(s, v[:1], y), c, *v[1:f + 2])
    cast(s, of(s, v[1:2], z), None)
    wins(s, of(s, v[1:2], c), c, *v[1:f + 2])
    assert s.era == era
    if len(s.candidate) < 5 and s.r.random() < 0.6:
        return completes(s)
    other = next(w for w in iter(lambda: some_winner(s), None) if w not in (x, y, z))
    wins(s, of(s, v[1:], other), other, *v[1:])


def key_generation(s):
    """Parts and acks of all candidates, with which key generation completes; a part that is recorded comes again as it is."""
    known = {int(k): int(q[1]) for k, q in s.parts.items()}
    parts = [s.key_message(i, s.a_part(i, known.get(k))) for k, (i, _) in enumerate(s.candidate)]
    return parts + [s.key_message(i, s.an_ack(k)) for k in range(len(parts)) for i, _ in s.candidate]


def completes(s):
    """Key generation completes, and nobody is named: in a batch without votes, or in one whose votes pass for a schedule, another map or the candidate map, be they all of this batch or not. The votes are
    gone then, and nobody is named behind it. Those for whom the candidate map has won again vote first, so that it does not pass beside another change."""
    (f, v), c = bound_and_nodes(s), ("map", s.candidate)
    x = s.r.choice([("schedule", s.any_schedule())] * 3 + [another_map(s), c])
    k = s.r.choice([0, f + 1, f + 1, f + 1, len(v), len(v)])
    if k > 0 and f > 0 and not s.votes and s.r.random() < 0.5:
        cast(s, of(s, v[:f], x), None)
    if x != c:
        v.sort(key=lambda i: s.voted.get(i) != c)
    cast(s, of(s, v[:k], x), ("complete", c), messages=key_generation(s))
    assert s.candidate is None and s.map == c[1]
    cast(s, [], None)


STAY = [in_one_batch, over_batches, goes_over, within_the_batch, equal_in_effect, not_stored, pending, last_era, no_majority, refused, beside_messages]


# -- cases behind which the nodes are others -------------------------------------------------------------------------------------------
def of_three(s):
    """Three nodes at most, one of them new or not, get a key generation, which completes; now and then their map has won again before."""
    (f, v), c = bound_and_nodes(s), ("map", sorted(dict(s.r.sample(s.map, min(2, len(s.map))) + [(58, s.keys[58])]).items()))
    k = s.r.randrange(f + 1, len(v) + 1)
    wins(s, of(s, v[:k], c), c, *v[:k])
    if not s.votes and s.r.random() < 0.4:
        wins(s, of(s, v[:f + 1], c), c, *v[:f + 1])
    completes(s)


def joins(s):
    """A replica joins from the plan of a report: votes that were committed behind that are not its own, and it names those that it gets."""
    (f, v), c = bound_and_nodes(s), some_winner(s)
    wins(s, of(s, v, c), c, *v)
    plan, c = s.say("plan %d 448" % s.r.randrange(1000)).split(" ")[1], some_winner(s)
    if f > 0:
        cast(s, of(s, v[:f], c), None)
    s.own = s.r.choice([i for i in range(40, 58) if i not in v])
    s.own_key = s.keys[s.own]
    s.say("join %d %d %s 1025" % (s.own, s.own_key, plan))
    s.inner = 0
    s.look()
    wins(s, of(s, v[f:2 * f + 1], c), c, *v[f:2 * f + 1])


# -- cases where one voter is enough ---------------------------------------------------------------------------------------------------
def one(s):
    """A single voter."""
    v, c = s.r.choice(ids(s)), some_winner(s)
    wins(s, of(s, [v], c), c, v)


def all_of_few(s):
    """All of them."""
    v, c = ids(s), some_winner(s)
    wins(s, of(s, v, c), c, *v)


def alone_again(s):
    """The candidate map wins again by one voter, by no vote of the batch, by another one more; then both go over to something else, which wins."""
    v, c = ids(s), another_map(s)
    wins(s, of(s, v[:1], c), c, v[0])
    x = others_than(s, c, ("map", s.map))[0]
    wins(s, of(s, v[-1:], c), c, v[-1])
    wins(s, [], c, v[-1])
    wins(s, of(s, v[:1], c), c, *{v[0], v[-1]})
    wins(s, of(s, sorted({v[0], v[-1]}), x), x, *{v[0], v[-1]})


ALONE = [one, all_of_few, alone_again, of_three, joins]


def season(s):
    """The cases in any order; a small season has some of them."""
    r = s.r
    if r.random() < 0.2:
        s.start(n=r.choice([1, 2, 3]))
    else:
        s.start(n=r.choice([4, 7, 7, 10, 16] if s.small else [4, 4, 5, 6, 7, 7, 8, 10, 13, 16]))
        for case in r.sample(STAY, 6) + [wins_again] if s.small else shuffled(s, STAY + [wins_again] * 2):
            no_votes(s)
            if most_faulty(s.map) > 0:
                case(s)
        if not s.small and most_faulty(s.map) > 0 and r.random() < 0.3:
            no_votes(s)
            crowded(s)
        for _ in range(2):
            no_votes(s)
            of_three(s)
    for case in r.sample(ALONE, 4 if s.small else len(ALONE)):
        no_votes(s)
        if most_faulty(s.map) == 0:
            case(s)


# -- ids of all sizes ------------------------------------------------------------------------------------------------------------------
def by_all_ids(s):
    """A key generation begins, its map wins again and a schedule wins, each by all or all but one, so that every id is named."""
    v, c, now = shuffled(s, ids(s)), another_map(s), ("schedule", s.any_schedule())
    wins(s, of(s, v, c), c, *v)
    wins(s, of(s, v[1:], c), c, *v[1:])
    wins(s, of(s, v[:1], c), c, *v)
    wins(s, of(s, v[1:], now), now, *v[1:])


def ids_of_all_sizes(s):
    """The replica starts afresh in a group with ids from 0 to 2^32-1. Elsewhere those named are from 1 to 58, so that how 0 or a large id is put in order and written would not show."""
    s.start(ids=sorted({*EDGE_IDS, *(s.r.randrange(60, 2**s.r.randrange(6, 33)) for _ in range(s.r.randrange(4)))}))
    by_all_ids(s)
    for case in s.r.sample(STAY, 1 if s.small else 4):
        no_votes(s)
        case(s)
