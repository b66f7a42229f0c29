"""Conversions of join plans between the two editions (02, CR 5), each with the answer for which it was built: the plan in the other edition, or a row. Where the rule (plans.py) has another
answer, the generator stops. Of two damages the earlier decides; 1 comes before all."""
import wire
from plan_damages import against_rule, damaged, some_damage
from plan_numbers import EDGES, LAST, numbers, written

WORDS = ("plan-new", "plan-old")
# lengths of the lent buffer that are enough, the least first, and lengths that are not, the greatest first
ENOUGH = {"plan-new": [491, 491, 492, 1000, 2000], "plan-old": [448, 448, 449, 491, 2000]}
SHORT = {"plan-new": [490, 448, 0], "plan-old": [447, 100, 0]}


# -- calls, each with its answer -----------------------------------------------------------------------------------------------------
def call(word, b, room=None):
    return "%s %s %d" % (word, wire.hexed(b), ENOUGH[word][0] if room is None else room)


def valid(ns, word, room=None):
    other = WORDS[1 - WORDS.index(word)]
    return "plan " + written(ns, other).hex(), call(word, written(ns, word), room)


def refused(row, word, b, room=None):
    return "refused %d" % row, call(word, b, room)


def one(ns, word, place, damage, room=None):
    return refused(damage[0], word, damaged(ns, word, (place, damage)), room)


def two(ns, word, place, damage, behind, second, room=None):
    assert place < behind and not damage[2]
    return refused(damage[0], word, damaged(ns, word, (place, damage), (behind, second)), room)


# -- at random -----------------------------------------------------------------------------------------------------------------------
def some_number(r, width):
    x = r.choice([r.choice(EDGES) + r.randrange(-2, 3), r.randrange(251), r.getrandbits(64) >> r.randrange(64)])
    return min(x, LAST) if width == 8 else x % 2**32


def some_map(r, n=None):
    n = r.choice([0, 1, 16, r.randrange(17), r.randrange(5)]) if n is None else n
    ids = set()
    while len(ids) < n:
        ids.add(some_number(r, 4))
    return [(i, some_number(r, 8) or 1) for i in sorted(ids)]


def some_schedule(r):
    return r.choice([(0,), (1,), (2, some_number(r, 4)), (3, some_number(r, 4), some_number(r, 4))])


def with_parts(r, c, m):
    """A plan with a change and a map."""
    state = r.choice([None, ("progress", c), ("complete", c)])
    return some_number(r, 8), state, m, some_number(r, 8), (some_number(r, 8), r.randrange(2), some_schedule(r))


def some_plan(r):
    return with_parts(r, r.choice([("map", some_map(r)), ("schedule", some_schedule(r))]), some_map(r))


def crowded_plan(r):
    """One of its maps has more than sixteen stations; where it is the change's, there is a change."""
    m = some_map(r, r.choice([17, 20, 40]))
    if r.random() < 0.5:
        return with_parts(r, ("map", some_map(r)), m)
    era, _, *rest = some_plan(r)
    return (era, (r.choice(["progress", "complete"]), ("map", m)), *rest)


def two_somewhere(ns, word, r, room=None):
    """Two damages at random. The first place is one whose number can be damaged so that the plan goes on."""
    place = r.choice([k for k, n in enumerate(ns) if word == "plan-old" or against_rule(n)])
    behind = r.randrange(place + 1, len(ns) + 1)
    return two(ns, word, place, some_damage(ns, word, place, r, True), behind, some_damage(ns, word, behind, r), room)


def some_call(r):
    """Of a good plan, of one damaged once or twice, of a map with too many stations; each now and then with too short a buffer."""
    word = r.choice(WORDS)
    ns, room, kind = numbers(some_plan(r)), r.choice(ENOUGH[word]), r.choice(["valid", "valid", "valid", "one", "one", "two", "two", "crowded"])
    if r.random() < 0.15:
        room = r.choice(SHORT[word])
    if kind == "valid":
        stated, line = valid(ns, word, room)
    elif kind == "one":
        place = r.randrange(len(ns) + 1)
        stated, line = one(ns, word, place, some_damage(ns, word, place, r), room)
    elif kind == "two":
        stated, line = two_somewhere(ns, word, r, room)
    else:
        stated, line = refused(3, word, written(numbers(crowded_plan(r)), word), room)
    return ("refused 1" if room in SHORT[word] else stated), line
