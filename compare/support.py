"""Which change wins where several pass (02, CR 8), which the Rust decides otherwise: there it is the one whose last needed voter is the lowest. The rule is written here from document 02's sentences, on
stored votes (voter to change, its bytes in hex) and the current map: never from `replay` or `decode`.

Document 02: of the changes with more than f voters the one with most, and among equals the one that the lowest voter id supports. Where at most one passes the Rust says who wins, and this file nothing."""
import voters


def passing(votes, node_map):
    """The changes that pass, each with its voters, ascending."""
    behind = {change: voters.supporters(votes, change) for change in set(votes.values())}
    return {change: ids for change, ids in behind.items() if len(ids) > voters.most_faulty(node_map)}


def several_pass(votes, node_map):
    """Whether the comparison with the Rust ends there."""
    return len(passing(votes, node_map)) > 1


def winner(votes, node_map):
    """The change that wins; none where none passes."""
    over = passing(votes, node_map)
    return min(over, key=lambda change: (-len(over[change]), over[change][0]), default=None)
