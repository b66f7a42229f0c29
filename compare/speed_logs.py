"""Logs of batches whose cost is measured: by kind and number of items, where nothing is stored and where much is."""
import wire


# the era that the opening batch begins, that of the batches which are measured behind it
ERA = 1


def turns(b):
    """As many that a small batch can be told from noise, and a log stays short."""
    return max(40, min(4000, 4000000 // len(b)))


def nodes(n):
    return [(i, 1000 + i) for i in range(1, n + 1)]


def opening(n):
    """A node starts, and a batch begins key generation for the same nodes with another key for the last."""
    m = nodes(n)
    wanted = m[:-1] + [(n, 5)]
    votes = [(("map", wanted), 0, 0, i, k) for i, k in m]
    return ["new 1 1001 0 %s %s" % (wire.node_map(m).hex(), wire.params((3, 0, (0,))).hex()),
            batch_line(wire.batch([(1, b"", [], votes)]), era=0)]


def messages_batch(n, k):
    """k acks without values, of all nodes in turn, in sixteen contributions at most: each is looked at down to its value count."""
    ms = [(1, 1 + j % (n - 1), ("ack", j % n, []), 1001 + j % (n - 1)) for j in range(k)]
    share = -(-k // 16)
    cs = [(i + 1, b"", ms[i * share:(i + 1) * share], []) for i in range(16)]
    return wire.batch(cs), k


def acks_batch(n, k):
    """k acks with a value for each node, as many as fit into 65,536 bytes: the longest batches that there are."""
    k = min(k, 65000 // (len(wire.signed((1, 1, ("ack", 0, [7] * n), 1))) + 1))
    ms = [(1, 1 + j % (n - 1), ("ack", j % n, [7] * n), 1001 + j % (n - 1)) for j in range(k)]
    return wire.batch([(1, b"", ms, [])]), k


def votes_batch(n, k):
    """k votes for a schedule, numbered upwards, too few voters to win."""
    vs = [(("schedule", (1,)), 1, j, 1, 1001) for j in range(k)]
    return wire.batch([(1, b"", [], vs)]), 0


def last_votes_batch(n, k, key=None):
    """k votes of the last node, whose key is looked up last: one numbered k, then, under a key, those of old numbers; under its own they are nothing."""
    vote = lambda j, sig: (("schedule", (1,)), 1, j, n, sig)
    return wire.batch([(1, b"", [], [vote(k, 1000 + n)] + [vote(0, 1000 + n if key is None else key)] * (k - 1))]), 0


def all_votes(n, j, era, choice):
    """A vote of every node, numbered j."""
    return wire.batch([(i, b"", [], [(choice(i), era, j, i, k)]) for i, k in nodes(n)])


def keyed(n, key):
    """The map of n nodes, with another key for the last."""
    return ("map", nodes(n)[:-1] + [(n, key)])


def start(n, era=0):
    return "new 1 1001 %d %s %s" % (era, wire.node_map(nodes(n)).hex(), wire.params((3, 0, (0,))).hex())


def batch_line(b, verdicts=0, era=ERA, inner=0):
    return "batch %d %d %s %s 1024 1025" % (era, inner, b.hex(), wire.hexed(bytes(verdicts)))


def staying_log(n):
    """Votes of all nodes, each for a map of its own, numbered from batch to batch: all stay, none wins."""
    k = turns(all_votes(n, 0, 0, lambda i: keyed(n, i)))
    return [start(n)] + [batch_line(all_votes(n, j, 0, lambda i: keyed(n, 9 + i)), era=0) for j in range(k)]


def winning_log(n):
    """Votes of all nodes for one map, another from batch to batch: an era and a key generation begin with each."""
    k = turns(all_votes(n, 0, 0, lambda i: keyed(n, 5)))
    return [start(n)] + [batch_line(all_votes(n, 0, j, lambda i: keyed(n, 5 + j % 2)), era=j) for j in range(k)]


def recorded_batch(n, era):
    """Parts of all nodes, and acks of all on as many parts as leave key generation short of ready."""
    parts = [(era, i, ("part", i, [7] * n), k) for i, k in nodes(n)]
    short = 2 * n // 3
    acks = [(era, i, ("ack", q, [7] * n), k) for q in range(short) for i, k in nodes(n)]
    ms = parts + acks
    share = -(-len(ms) // n)
    return wire.batch([(i, b"", ms[(i - 1) * share:i * share], []) for i, _ in nodes(n)]), len(ms)


def recorded_log(n):
    """Two batches a turn: a map wins, then parts and acks are recorded."""
    lines = [start(n)]
    for j in range(turns(recorded_batch(n, 0)[0])):
        b, k = recorded_batch(n, j + 1)
        lines += [batch_line(all_votes(n, 0, j, lambda i: keyed(n, 5 + j % 2)), era=j), batch_line(b, k, era=j + 1)]
    return lines


def stored_log(n, k):
    """Batches of k messages while the store is full."""
    b, verdicts = messages_batch(n, k)
    dues = ["due %s" % wire.message_key_gen(1, ("ack", j, []), 1001).hex() for j in range(128)]
    return opening(n) + dues + [batch_line(b, verdicts)] * turns(b)


def batches_log(n, b, verdicts):
    return opening(n) + [batch_line(b, verdicts, inner=j) for j in range(turns(b))]
