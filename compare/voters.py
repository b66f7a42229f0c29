"""Who carried a change (02, CR 7), which the Rust does not tell. What must stand behind ` voters` in the answer to a batch is worked out here, by a rule written from document 02's sentences, from the
Rust's own report and the votes that are stored behind those of the batch: never from `replay`.

Document 02: all voters whose stored vote, after the batch's votes, is for the winner, ascending; none where the report comes of a ready key generation or is `None`. Which votes are stored is not
said here: requests.py has it, and holds it to the Rust's `state`. Changes are equal when their bytes are.

Where several changes have more than f voters document 02's winner need not be the Rust's (CR 8): no such batch comes here (requests.py), but in a form in which one has (`counterpart` there)."""
import collections

# How the bytes in hex of a reported change begin, and those of a change behind it.
NONE, IN_PROGRESS, COMPLETE = "00000000", "01000000", "02000000"
MAP, SCHEDULE = "00000000", "01000000"


def report(answer):
    """The report in a batch's answer: how it begins, the change behind that, both in hex, and whether it comes of a ready key generation, which is where there is a recipe."""
    words = answer.split(" ")
    return words[3][:8], words[3][8:], words[words.index("recipe") + 1] != "-"


def winner(answer):
    """The change that won; nothing where the report is `None` or comes of a ready key generation. Only a map can complete one, and a map that wins only begins one or wins again."""
    state, change, ready = report(answer)
    if ready != (state == COMPLETE and change.startswith(MAP)) or (state == IN_PROGRESS and not change.startswith(MAP)):
        raise SystemExit("a report that is none: %s" % answer[:2000])
    return None if ready or state == NONE else change


def supporters(votes, change):
    """The voters whose stored vote is for it, ascending."""
    return sorted(voter for voter in votes if votes[voter] == change)


def most_faulty(node_map):
    return (len(node_map) - 1) // 3


def check(answer, votes, node_map, listed):
    """What document 02 says of the list: longer than f and no longer than the map where a change won, of voters of the map. Where the report is `None`, no change has more than f voters."""
    f, won = most_faulty(node_map), winner(answer)
    good = listed == [] if won is None else f < len(listed) <= len(node_map)
    if report(answer)[0] == NONE and any(count > f for count in collections.Counter(votes.values()).values()):
        good = False
    if not good or not set(listed) <= set(node_map) or any(a >= b for a, b in zip(listed, listed[1:])):
        raise SystemExit("voters %s cannot be behind this report: %s, of the map %s, with the votes %s" % (listed, answer[:2000], node_map, votes))


def answer(rust, votes, node_map):
    """What must be answered to a batch to which the Rust answers this; votes are those stored behind it, voter to change, and the map is that from before it."""
    won = winner(rust)
    listed = [] if won is None else supporters(votes, won)
    check(rust, votes, node_map, listed)
    return "%s voters %s" % (rust, ",".join(map(str, listed)) or "-")


def cut(answer):
    """What was answered, and the voters behind it."""
    words, _, listed = answer.rpartition(" voters ")
    return words, [] if listed == "-" else [int(voter) for voter in listed.split(",")]
