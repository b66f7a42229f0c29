"""The tally board (02, CR 3), which the Rust does not have. What must be answered to `board` is worked out here, by a rule written from document 02's sentences, from the committed votes
that the Rust's own `state` tells at that moment: never from `replay`. It exempts nothing.

Document 02: one row for each change that some stored committed vote is for, with its number of voters. Largest count first, equal counts by the lowest voter whose stored vote is for it
now. Changes are equal when their bytes are."""


def votes_told(state):
    """The stored committed votes, voter to change (its bytes in hex), from the oracle's answer to `state`."""
    votes = state.split(" ")[5]
    return {} if votes == "-" else {int(voter): change for voter, _, change in (v.split(":") for v in votes.split(","))}


def rows(votes):
    """The board of these votes: (count, change), row by row."""
    voters = {change: [v for v in votes if votes[v] == change] for change in votes.values()}
    order = sorted(voters, key=lambda change: (-len(voters[change]), min(voters[change])))
    return [(len(voters[change]), change) for change in order]


def answer(state):
    """What must be answered to `board` where the oracle answers this to `state`."""
    if state == "no engine":
        return state
    return "board " + (",".join("%d:%s" % row for row in rows(votes_told(state))) or "-")
