"""Schedules and epochs at the edges that document 02's CR 4 has. Row 14 is stated here, by the generator's own rule; yes and no are the Rust's."""
import wire

LAST, TOP = 2**64 - 1, 2**32 - 1

# period 1 and 2^32-1; a bound over its period (off is 0, with on = 2^32-1 over u32 too); bound 1 (on is 0); one off the end; and small ones
TAKEN = [(0,), (1,), (2, 1), (2, 2), (2, 7), (2, TOP), (3, TOP, 0), (3, 0, TOP), (3, TOP - 1, 1), (3, 1, TOP - 1), (3, 1, 0), (3, 5, 0), (3, 0, 1), (3, 0, 4), (3, 1, 1), (3, 2, 3)]
# a period 0, or over 2^32-1
REFUSED = [(2, 0), (3, 0, 0), (3, TOP, 1), (3, 1, TOP), (3, TOP, 2), (3, TOP, TOP)]


def period(s):
    return 1 if s[0] < 2 else sum(s[1:])


def number(s):
    """Row 14 of document 01, or none."""
    return None if 0 < period(s) <= TOP else 14


def call(epoch, s):
    return "schedule %d %s" % (epoch, wire.schedule(s).hex())


def near(s, start):
    """Epochs around the start of a period and around the last that its first number covers."""
    on = s[1] if s[0] == 3 else 0
    return {e for e in (start + d for d in (-1, 0, 1, on - 1, on, on + 1)) if 0 <= e <= LAST}


def epochs(s):
    """The first period, the one behind it, a later one, the last that begins; the last epoch of all."""
    p = period(s) or 1
    return sorted(near(s, 0) | near(s, p) | near(s, 7 * p) | near(s, LAST - LAST % p) | {LAST})


def calls():
    """Every edge, each with its number or none; a schedule that 14 would refuse, with a byte left over or one cut off, is 2."""
    out = [(number(s), call(epoch, s)) for s in TAKEN for epoch in epochs(s)]
    out += [(number(s), call(epoch, s)) for s in REFUSED for epoch in (0, 1, LAST)]
    return out + [(2, line) for s in REFUSED for line in (call(5, s) + "00", call(5, s)[:-2])]
