"""Which of several changes that pass wins (02, CR 8), by the Rust itself, and nothing of support.py is used: a rule that is held to itself is never found wrong. The Rust's own `compute_winner`, which
names the change that passes first, is asked about the same votes among more nodes, who vote for nothing. With each three of them one voter more is needed. At the greatest number at which somebody wins
only the changes with most voters pass. Of these it is asked with the voters in turned order: the one that passes first there has a lowest voter above those of the others, so its votes go, and it is
asked again, until one is left."""
import wire

# A line's era, number and proposer are of no account.
ERA, NUMBER = 0, 0


def line(votes, ids, needed):
    """The line of `--values` for these votes, among so many nodes that a change needs so many voters: those that have ids, and others."""
    more = [i for i in range(10**6, 10**6 + 3 * needed) if i not in ids]
    nodes = sorted([*ids, *more[:max(0, 3 * needed - 2 - len(ids))]])
    cast = [(wire.read_change(bytes.fromhex(votes[i])), ERA, NUMBER, i, i + 1) for i in sorted(votes)]
    return "winner " + (wire.node_map([(i, i + 1) for i in nodes]) + b"".join(wire.vote(v) for v in cast)).hex()


def named(votes, ids, needed, ask):
    """Who wins; none where nobody does."""
    told = ask(line(votes, ids, needed))
    return None if told == "no" else told.split(" ")[1]


def turned(votes, ids):
    """The same votes, the lowest node's as the highest one's."""
    order = sorted(ids)
    return {order[-1 - order.index(i)]: votes[i] for i in votes}


def without(votes, change):
    return {i: votes[i] for i in votes if votes[i] != change}


def winner(votes, node_map, ask):
    """The change that wins of those that pass; none where none does."""
    ids, f = list(node_map), (len(node_map) - 1) // 3
    needed = next((k for k in range(len(votes), f, -1) if named(votes, ids, k, ask) is not None), None)
    if needed is None:
        return None
    left = turned(votes, ids)
    while True:
        last = named(left, ids, needed, ask)
        left = without(left, last)
        if named(left, ids, needed, ask) is None:
            return last
