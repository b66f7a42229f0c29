"""What is stored behind a batch, by the Rust itself, also where the batch begins an era and the Rust's `state` tells no votes any more (02, CR 7), or 7 refuses it. A second Rust, without the documents' limits
(`--raw`), starts in the same era with the same nodes and twice as many more and one, so that no change of theirs can win. It gets the votes that were stored before the batch, then the batch, and its
`state` tells the votes behind it. That is the Rust's own word on which votes count; only who is named beside a winner is document 02's.

Who that is, which change won, and which have more than f voters (02, CR 8), is said here in other words, and nothing of voters.py or support.py is used: a rule that is held to itself is never found wrong."""
import collections
import requests
import wire

# How the bytes in hex of a report begin: `None`, and `Complete` of a map.
NONE, MAP_COMPLETE = "00000000", "0200000000000000"

# The answer to a batch in which the empty map wins.
REFUSED_7, EMPTY_MAP = "refused 7", wire.change(("map", [])).hex()


def wide(node_map):
    """The map with nodes that vote for nothing: as many as all of its own do not pass."""
    more = [i for i in range(10**6, 10**6 + 3 * len(node_map) + 1) if i not in node_map][:2 * len(node_map) + 1]
    return sorted({**node_map, **{i: 10**9 + i for i in more}}.items())


def votes_behind(call, group, ask):
    """The change of each stored vote by its voter, behind this batch, in the second Rust."""
    contributions = [(1, b"", [], [(wire.read_change(bytes.fromhex(group.changes[i])), group.era, group.numbers[i], i, group.map[i]) for i in sorted(group.changes)])]
    told = [ask("new 1 1 %d %s %s" % (group.era, wire.node_map(wide(group.map)).hex(), wire.params((0, 0, (0,))).hex()))]
    told += [ask("batch %d 0 %s - 1024 1025" % (group.era, wire.batch(contributions).hex())), ask(call)]
    if told[0] != "started" or any(not a.startswith("batch ") or a.split(" ")[3] != NONE for a in told[1:]):
        raise SystemExit("the second Rust says %s to %s" % ([a[:300] for a in told], call[:4000]))
    return requests.group_told(ask("state")).changes


def is_ready(told):
    """Whether a ready key generation is reported: only then is a map complete."""
    return told != REFUSED_7 and told.split(" ")[3].startswith(MAP_COMPLETE)


def winner(told):
    """The change that won by its voters, in hex: the one in the Rust's report, but for `None` and a ready key generation; the empty map where 7 refuses the batch."""
    if told == REFUSED_7:
        return EMPTY_MAP
    report = told.split(" ")[3]
    return None if report == NONE or is_ready(told) else report[8:]


def named(told, votes):
    """How the answer must end: with those whose vote the second Rust has for the winner, ascending."""
    won = winner(told)
    return ["voters", ",".join(str(i) for i in sorted(i for i in votes if votes[i] == won)) or "-"]


def passing(votes, node_map):
    """The changes that more than f voters have."""
    return [change for change, count in collections.Counter(votes.values()).items() if count > (len(node_map) - 1) // 3]


def held(call, group, ask):
    """The votes that the second Rust has behind a batch, which must be the generator's."""
    votes = votes_behind(call, group, ask)
    if votes != requests.changes_behind(requests.read_call(call)[0], group):
        raise SystemExit("the second Rust has other votes, %s: %s" % (votes, call[:4000]))
    return votes


def check_listed(call, told, votes):
    """The voters behind a report; a batch that 7 refuses has none."""
    ends = told.split(" ")[-2:]
    if told != REFUSED_7 and ends != named(told, votes):
        raise SystemExit("%s are named, and the second Rust has %s: %s" % (ends, votes, call[:4000]))


def check_passing(call, told, over):
    """In a batch that is compared the change that won passes alone, so that both rules name it (02, CR 8); beside a ready key generation one passes at most."""
    won = winner(told)
    if len(over) > 1 or (not is_ready(told) and over != ([] if won is None else [won])):
        raise SystemExit("%s is answered where the second Rust has more than f voters for %s: %s" % (told[:300], over, call[:4000]))


def check(batches, ask):
    """Each batch of a season that was reported, or built for 7, with its answer, and the state told before it."""
    for call, told, before in batches:
        if told == REFUSED_7 or told.startswith("batch "):
            group = requests.group_told(before)
            votes = held(call, group, ask)
            check_passing(call, told, passing(votes, group.map))
            check_listed(call, told, votes)


def check_ended(call, group, ask):
    """The batch before which a log ended, or with which it ends: several changes pass (02, CR 8). Its votes."""
    votes = held(call, group, ask)
    if len(passing(votes, group.map)) < 2:
        raise SystemExit("a log ended at a batch behind which the second Rust has %s: %s" % (votes, call[:4000]))
    return votes
