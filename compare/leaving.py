"""Batches with key messages of a leaving node: one that is being removed and signs with its current key (02, CR 2). Each is built with its faults stated, in order; what must be
answered is made from the Rust's answer (requests.py), and a fault that is not as stated stops the generator."""
import refusals
import wire
from season import LAST


def message(s, kind, first=0, count=None, era=None, sig=None):
    """A key message of the leaving node; of right length where no count is given."""
    i, key = s.gone
    handles = [3] * (len(s.candidate) if count is None else count)
    return (s.era if era is None else era, i, (kind, first, handles), key if sig is None else sig)


def fault(m):
    return "%d:%s" % (m[1], {"part": "UnexpectedKeyGenPart", "ack": "UnexpectedKeyGenAck"}[m[2][0]])


def received(s, m):
    """A message that is received and stored: document 02 speaks of batches alone."""
    a = s.say("message %d %s" % (m[1], wire.message_key_gen(m[0], m[2], m[3]).hex()))
    assert a in ("handled", "fault %d:TooManyKeyGenMessages" % m[1]), a


def all_vote(s, change):
    return [(change, s.era, LAST, i, key) for i, key in s.map]


# -- batches behind which key generation runs as before ----------------------------------------------------------------------------
def alone(s):
    """One message, whatever it holds and whatever its verdict: one fault."""
    n = len(s.candidate)
    for kind in ("part", "ack"):
        m = message(s, kind, s.r.choice([0, 1, n, 15, 16, LAST]), s.r.choice([n, n, 0, n - 1, n + 1, 24]))
        s.committed_with([(s.r.choice([2, 55]), b"", [m], [])], [s.r.randrange(4)], [fault(m)])


def every_verdict(s):
    """Parts and acks with each verdict, in two contributions: a fault each, and the parts have commitments that differ."""
    ms = [message(s, kind, v, s.r.choice([None, 0, 24])) for kind in ("part", "ack") for v in range(4)]
    order = s.r.sample(range(8), 8)
    ms = [ms[k] for k in order]
    s.committed_with([(2, b"", ms[:3], []), (55, b"", ms[3:], [])], [k % 4 for k in order], [fault(m) for m in ms])


def copies(s):
    """The same message three times, in two contributions: three faults."""
    m = message(s, s.r.choice(["part", "ack"]))
    s.committed_with([(2, b"", [m, m], []), (55, b"xy", [m], [])], [s.r.randrange(4) for _ in range(3)], [fault(m)] * 3)


def among_faults(s):
    """Wrong eras and signatures of the same node come first and are faults of the proposer; the order is that of the batch, votes before messages."""
    part, ack = message(s, "part", 7, 1), message(s, "ack", 16)
    era, sig = message(s, "part", 7, 1, era=s.era + 1), message(s, "ack", 16, sig=s.r.choice([0, s.gone[1] + 1]))
    stranger = (("schedule", (1,)), s.era, 0, 59, 7)
    cs = [(2, b"", [era, part, sig], [stranger]), (55, b"", [sig, ack, part, era], [stranger, stranger])]
    s.committed_with(cs, [s.r.randrange(4) for _ in range(7)], [
        "2:InvalidCommittedVote", "2:InvalidKeyGenMessageEra", fault(part), "2:InvalidKeyGenMessageSignature",
        "55:InvalidCommittedVote", "55:InvalidCommittedVote", "55:InvalidKeyGenMessageSignature", fault(ack), fault(part), "55:InvalidKeyGenMessageEra"])


def proposers_only(s):
    """Wrong era or signature and nothing else: the Rust answers these itself."""
    for m, kind in ((message(s, "part", era=s.era + 1), "Era"), (message(s, "ack", sig=0), "Signature")):
        s.committed_with([(55, b"", [m], [])], [s.r.randrange(4)], ["55:InvalidKeyGenMessage" + kind])


def in_both_maps(s):
    """A node of both maps is not leaving, whichever of its keys it signs with: its row count is looked at."""
    for i, key in s.map:
        if i in dict(s.candidate) and (dict(s.candidate)[i] != key or s.r.random() < 0.2):
            rows = ("part", 1, [1] * (len(s.candidate) + 1))
            m = message(s, "part")
            s.committed_with([(2, b"", [(s.era, i, rows, key), m, (s.era, i, rows, dict(s.candidate)[i])], [])], [0, s.r.randrange(4), 3],
                             ["%d:SyncKeyGenPart.RowCount" % i, fault(m), "%d:SyncKeyGenPart.RowCount" % i])


def stored_copy(s):
    """Two messages are received and stored, and one is committed: that one goes. The node's own are stored as they are handed back, where it is this one."""
    goes, stays = message(s, "part", 21), message(s, "ack", 22)
    for m in (goes, stays):
        received(s, m)
        s.heard.append(m)
    if s.own == s.gone[0] and s.own_key == s.gone[1]:
        s.say("due %s" % wire.message_key_gen(s.era, goes[2], goes[3]).hex())
    s.say("stored 0")
    s.committed_with([(2, b"", [goes], [])], [s.r.randrange(4)], [fault(goes)])
    for line in ("stored 0", "stored 1"):
        s.say(line)


def empty_wins(s):
    """With the empty map winning in the same batch it is 7, and nothing has gone, the stored message neither."""
    m = message(s, s.r.choice(["part", "ack"]), 23)
    received(s, m)
    s.committed(s.line([(2, b"", [m], all_vote(s, ("map", [])))], [s.r.randrange(4)]), 7)
    s.say("stored %d" % s.r.choice([0, 1, 2]))


def other_rows(s):
    for n, line in s.r.sample(refusals.row_6(s, s.r), 3):
        s.built(n, line)


def many_received(s):
    """Received messages are counted as before: n + 1 of a sender are taken."""
    for k in range(len(s.candidate) + 3):
        received(s, message(s, "ack", k))


def same_wins(s):
    """The candidate map wins again: in progress, and no era begins."""
    m = message(s, s.r.choice(["part", "ack"]))
    votes = [s.a_vote(("map", s.candidate), i) for i, _ in s.map]
    s.committed_with([(2, b"", [m], votes[:1]), (55, b"", [m, m], votes[1:])], [s.r.randrange(4) for _ in range(3)], [fault(m)] * 3)


# -- batches that begin an era -------------------------------------------------------------------------------------------------------
def schedule_wins(s):
    """A schedule wins in the same batch: the next era has the same key generation, and the node leaves still; its message of the old era is the proposer's fault."""
    m = message(s, s.r.choice(["part", "ack"]))
    s.committed_with([(2, b"", [m], all_vote(s, ("schedule", s.any_schedule())))], [s.r.randrange(4)], [fault(m)])
    new = message(s, "part")
    s.committed_with([(2, b"", [m, new], [])], [s.r.randrange(4) for _ in range(2)], ["2:InvalidKeyGenMessageEra", fault(new)])


def stays_after_all(s):
    """The current map wins in the same batch: in the next era the node is in the candidate map, and its part is recorded."""
    m = message(s, s.r.choice(["part", "ack"]))
    s.committed_with([(2, b"", [m, m], all_vote(s, ("map", s.map)))], [s.r.randrange(4) for _ in range(2)], [fault(m)] * 2)
    s.committed_with([(2, b"", [message(s, "part"), message(s, "part", 9)], [])], [0, 0], ["%d:SyncKeyGenPart.MultipleParts" % s.gone[0]])


def completes(s):
    """Key generation completes in the same batch: the node has left, and in the next era it has no key."""
    ids = dict(s.candidate)
    known = {int(k): int(q[1]) for k, q in s.parts.items()}
    parts = [(s.era, i, s.a_part(i, known.get(k)), ids[i]) for k, i in enumerate(ids)]
    acks = [(s.era, i, s.an_ack(k), ids[i]) for k in range(len(ids)) for i in ids]
    early, late = message(s, "part", 31), message(s, "ack", 0)
    first, second = [early] + parts + [late], acks[:1] + [late] + acks[1:] + [early]
    verdicts = [s.r.randrange(4) if m in (early, late) else 0 for m in first + second]
    s.committed_with([(2, b"", first, []), (55, b"", second, [])], verdicts, [fault(m) for m in (early, late, late, early)])
    assert s.candidate is None and s.gone[0] not in dict(s.map)
    m = (s.era, s.gone[0], ("part", 1, [1]), s.gone[1])
    s.committed_with([(2, b"", [m], [])], [s.r.randrange(4)], ["2:InvalidKeyGenMessageSignature"])


STAY = [alone, every_verdict, copies, among_faults, proposers_only, in_both_maps, stored_copy, empty_wins, other_rows, same_wins, many_received]
BEGIN = [schedule_wins, stays_after_all, completes]


def begin(s):
    """A node is voted out: this one itself now and then, and now and then another node gets another key."""
    r = s.r
    s.start(n=r.choice([4, 7] if s.small else [2, 3, 4, 4, 7, 16]))
    s.gone = r.choice(s.map) if s.own not in dict(s.map) or r.random() < 0.6 else (s.own, dict(s.map)[s.own])
    stay = [x for x in s.map if x != s.gone]
    if r.random() < 0.6:
        k = r.randrange(len(stay))
        stay[k] = (stay[k][0], 5000 + stay[k][0])
    c = ("map", stay)
    s.batch([], [s.a_vote(c, i) for i, _ in s.map])


def season(s):
    begin(s)
    for case in s.r.sample(STAY, 5 if s.small else len(STAY)) + [s.r.choice(BEGIN)]:
        case(s)
