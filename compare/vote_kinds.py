"""Kinds of committed votes that document 02's CR 6 is about: what is old or wrong with them, and in what batches they stand. `generate` prints how many of each there were, and the sample must have
enough of each (`LEAST`)."""
import collections
import requests

# How many batches were asked for, and how many votes and batches of each kind; `generate` prints it.
SEEN = collections.Counter()


def is_candidate_key(m, group):
    """Whether the signature is wrong, and is under the key that the voter, a node of the map, has in the candidate map."""
    return m.wrong_signature and m.vote[3] in group.map and m.vote[4] == (group.candidate or {}).get(m.vote[3])


def is_before(m, group):
    """Whether the number was old before the batch."""
    return m.vote[2] <= group.numbers.get(m.vote[3], -1)


# Votes of an old number whose era or signature is wrong, which are exempt: each is of just one of the first four kinds, of one of the next two, and of one of the two behind these.
OLD_WRONG = {
    "old of a wrong era": lambda m, group: not m.wrong_signature,
    "old under a bad signature": lambda m, group: not m.wrong_era and not is_candidate_key(m, group),
    "old under the candidate key": lambda m, group: not m.wrong_era and is_candidate_key(m, group),
    "old with both wrong": lambda m, group: m.wrong_era and m.wrong_signature,
    "old by an earlier batch": is_before,
    "old by an earlier vote of the batch": lambda m, group: not is_before(m, group),
    "old by an equal number": lambda m, group: m.vote[2] == m.stored,
    "old by a lower number": lambda m, group: m.vote[2] < m.stored,
    "old against the last number": lambda m, group: m.stored == 2**64 - 1,
}

# Votes beside them, of which the Rust tells what must be answered.
COMPARED = {
    "old and valid": lambda m, group: requests.is_old(m) and not requests.is_wrong(m),
    "strangers as voters": lambda m, group: m.vote[3] not in group.map,
    "of them under their key in the candidate map": lambda m, group: m.vote[3] not in group.map and m.vote[4] == (group.candidate or {}).get(m.vote[3]),
    "new under the candidate key": lambda m, group: not requests.is_old(m) and is_candidate_key(m, group),
    "new and wrong otherwise": lambda m, group: not requests.is_old(m) and requests.is_wrong(m) and not is_candidate_key(m, group) and m.vote[3] in group.map,
}


def is_behind_messages(words, exempt, call, group):
    """Whether some exempt fault stands behind a fault of an earlier contribution's key message."""
    faults = requests.faults_of(" ".join(words))
    last = max(i for i, fault in enumerate(faults) if fault == "%d:InvalidCommittedVote" % exempt[-1].proposer)
    return not all(fault.endswith(":InvalidCommittedVote") for fault in faults[:last])


# Batches with exempt votes: the words of the answer, those votes in order, the call and the group before it.
BATCHES = {
    "of several proposers": lambda words, exempt, call, group: exempt[0].proposer != exempt[-1].proposer,
    "of a proposer in no map": lambda words, exempt, call, group: any(m.proposer not in {**group.map, **(group.candidate or {})} for m in exempt),
    "behind faults of key messages": is_behind_messages,
    "with 1,024 faults": lambda words, exempt, call, group: len(requests.faults_of(" ".join(words))) == 1024,
    "beside a leaving node's key messages": lambda words, exempt, call, group: requests.has_leaving(call, group, None),
    "reported None": lambda words, exempt, call, group: words[3].startswith("00"),
    "reported InProgress": lambda words, exempt, call, group: words[3].startswith("01"),
    "reported Complete": lambda words, exempt, call, group: words[3].startswith("02"),
    "with key generation complete": lambda words, exempt, call, group: words[words.index("recipe") + 1] != "-",
}

# How many the sample must have of a kind: 20, and of these fewer.
LEAST = {"of them under their key in the candidate map": 5, "behind faults of key messages": 10, "beside a leaving node's key messages": 5, "with key generation complete": 5, "with 1,024 faults": 0}


def count_votes(call, told, group):
    """Notes the votes of a batch that is reported."""
    met = list(requests.votes_met(requests.read_call(call)[0], group))
    exempt = [m for m in met if requests.is_old_wrong(m)]
    SEEN["reported"] += 1
    SEEN["faults put in"] += len(exempt)
    # a batch full of strangers' votes is one place where they are tried, not a thousand
    crowded = sum(m.vote[3] not in group.map for m in met) > 100
    SEEN.update(kind for m in met for kind in COMPARED if COMPARED[kind](m, group) and not (crowded and m.vote[3] not in group.map))
    SEEN.update(kind for m in exempt for kind in OLD_WRONG if OLD_WRONG[kind](m, group))
    if exempt:
        SEEN["with faults put in"] += 1
        SEEN.update(kind for kind in BATCHES if BATCHES[kind](told.split(" "), exempt, call, group))


def count(batches):
    """Notes the batch calls of a season: each with its answer, and the state that the oracle told before it."""
    for call, told, before in batches:
        SEEN["all"] += 1
        group = requests.group_told(before)
        if told.startswith("batch "):
            count_votes(call, told, group)
        elif told == "refused 7":
            SEEN["refused 7 and none put in"] += requests.has_old_wrong(call, group, None)


KINDS = [*OLD_WRONG, *COMPARED, *BATCHES, "refused 7 and none put in"]


def told():
    """What was counted, in words."""
    share = "%.1f %% of all batches with faults put in" % (100 * SEEN["with faults put in"] / max(1, SEEN["all"]))
    return ", ".join(["%s %d" % (kind, SEEN[kind]) for kind in ["all", "reported", "with faults put in", "faults put in", *KINDS]] + [share])


def check_sample():
    """The sample must have enough votes and batches of every kind, and exempt votes in a tenth of all batches."""
    few = [kind for kind in KINDS if SEEN[kind] < LEAST.get(kind, 20)]
    if few or 10 * SEEN["with faults put in"] < SEEN["all"]:
        raise SystemExit("the sample has %d batches, %d of them with votes that are old and wrong, and too few of the kinds: %s" % (SEEN["all"], SEEN["with faults put in"], ", ".join(few) or "-"))
