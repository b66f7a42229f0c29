"""Seasons: a log of calls that one replica gets, built step by step against the oracle, whose answers tell what the group's state is.

Each line of a log comes with what must be answered (requests.py): the oracle's own words, or, for a call that was built to be refused, `refused N`
with the number of the row that it was built for, or `refused *` for bytes that were damaged at random (some refusal, no number stated). The Rust has no tally
board, converts no join plan and names no voters: what must be answered to `board` is worked out from the votes that it tells (board.py), to `plan-new` and `plan-old` from the call (plans.py), and the voters
behind a report from it and those votes (voters.py). A season ends before a batch in which several changes pass (CR 8), where the Rust has another rule."""
import random
import subprocess
import board
import plans
import requests
import schedule_edges
import support
import wire
from plan_numbers import EDGES

LAST = 2**64 - 1
FULL = (1024, 1025)
# lengths of both lists that are long enough, and lengths of which one is too short
ENOUGH = [FULL, FULL, (1025, 1025), (1024, 1026), (1500, 1025), (1024, 1999), (2000, 2000)]
SHORT = [(1023, 1025), (1024, 1024), (0, 2000), (2000, 0), (1, 1), (1023, 2000), (2000, 1024)]
# the share of a season's batches that get votes of old numbers put in, as far as there are stored votes
OLD_SHARE = 0.35
# the share of those batches of a season that keep their votes in which several changes pass, so that the log ends (CR 8)
ENDED_SHARE = 0.25
# the calls that may change a state
CHANGING = ("new", "join", "vote", "add", "remove", "message", "due", "batch")


class Oracle:
    def __init__(self, path, flag="--share-passes"):
        self.p = subprocess.Popen([path, flag], stdin=subprocess.PIPE, stdout=subprocess.PIPE,
                                  stderr=subprocess.DEVNULL, text=True, bufsize=1)

    def ask(self, line):
        self.p.stdin.write(line + "\n")
        self.p.stdin.flush()
        return self.p.stdout.readline().rstrip("\n")

    def close(self):
        self.p.stdin.close()
        self.p.wait()


class Season:
    def __init__(self, oracle, seed, small=False, deep=False, rust=False):
        """A small season has few nodes, fewer calls, and shows the state now and then only: the sample is made of such.
        A deep one shows after each accepted call everything that a log can show: the board, the state, each pending vote, each stored message; after each report its join plan, in both editions.
        A season for the Rust has no batch at which the Rust errs, so leaving nodes send nothing, and no board."""
        self.o, self.r, self.small, self.deep, self.rust = oracle, random.Random(seed), small, deep, rust
        # apart, so that a season keeps its other calls where these are added or left out
        self.lengths = random.Random("lengths %d" % seed)
        self.late = random.Random("late %d" % seed)
        self.away = random.Random("leaving %d" % seed)
        self.tally = random.Random("board %d" % seed)
        self.edges = random.Random("schedule %d" % seed)
        self.editions = random.Random("plans %d" % seed)
        self.forged = random.Random("old votes %d" % seed)
        self.several = random.Random("several pass %d" % seed)
        self.every_board = deep  # whether a board is asked behind each call that may change a state
        self.boards = []  # for each board that was asked: the call before it and its answer, the states told before that call and now
        self.batches = []  # each batch call with its answer, and the state told before it
        self.ended = None  # the batch call before which the log ended, and the group then
        self.contest, self.closing = None, []  # the last batch, where several changes pass in it (contests.py), and its lines with what must be answered
        self.heard = []  # key messages that were received or handed back, some of which are stored
        self.lines, self.answers = [], []
        self.shown = set()  # the places of boards, and of answers that a deep season adds
        self.last_era = None  # the era in which the own pending vote has the last number

    def calls(self):
        """How many calls a log has at least."""
        return 22 if self.small else 60

    def said(self):
        """How many lines it has so far, without boards and those that a deep season adds."""
        return len(self.lines) - len(self.shown)

    def told(self, k):
        """The last k answers, without those."""
        return [a for i, a in enumerate(self.answers) if i not in self.shown][-k:]

    # -- lines ---------------------------------------------------------------------------------------------------------------
    def say(self, line, number=None, maybe=False):
        """A call; with a number it was built for that row of the table, with `maybe` the Rust may take it all the same."""
        assert line != "board", "the Rust has none: ask_board"
        assert not line.startswith(("plan-new ", "plan-old ")), "the Rust has none: convert"
        changing = line.split(" ")[0] in CHANGING
        before = self.o.ask("state") if changing else None
        a = requests.asked(line, self.o.ask, number, maybe)
        self.lines.append(line)
        self.answers.append(a)
        if line.startswith("batch "):
            self.batches.append((line, a, before))
        if changing and self.board_wanted(line):
            self.ask_board(line, a, before)
        if line.startswith("plan ") and a.startswith("plan ") and self.conversion_wanted():
            self.there_and_back(a[5:])
        if self.deep and changing and (a == "refused 15" or not a.startswith(("refused", "no engine"))):
            self.show_all()
        if self.deep and a.startswith("batch "):
            self.show_plan()
        return a

    def board_wanted(self, line):
        """Behind every batch, and now and then behind another call that may change a state; in a small season less often."""
        share = (0.12 if self.small else 1) if line.startswith("batch ") else (0.03 if self.small else 0.15)
        return (self.tally.random() < share or self.every_board) and not self.rust

    def ask_board(self, call="", told="", before=None):
        """Asks for the tally board, behind a call with its answer where one is given. What must be answered is worked out from the votes that the Rust's own state tells."""
        now = self.o.ask("state")
        self.add("board", board.answer(now))
        self.boards.append((call, told, before or now, now))

    def conversion_wanted(self):
        """Behind every second join plan; in a deep season behind each."""
        return (self.editions.random() < 0.5 or self.deep) and not self.rust

    def convert(self, stated, line):
        """A conversion of a join plan, with the answer for which it was built."""
        told = plans.answer(line)
        if told != stated:
            raise SystemExit("%s is stated, and the rule has %s: %s" % (stated, told, line))
        self.add(line, told)

    def there_and_back(self, plan):
        """A join plan of the Rust's own in the new edition, and that in the old one, which must be the Rust's bytes again."""
        line = "plan-new %s 491" % plan
        told = self.add(line, plans.answer(line))
        if not told.startswith("plan "):
            raise SystemExit("the rule refuses a join plan of the Rust: %s" % line)
        self.convert("plan " + plan, "plan-old %s 448" % told[5:])
        plans.SEEN["the Rust's own, there and back"] += 1

    def show_plan(self):
        """Asks for the join plan of a report, with key sets at the edges in turn, and converts it."""
        told = self.show("plan %d 448" % EDGES[len(self.lines) % len(EDGES)])
        if told.startswith("plan "):
            self.there_and_back(told[5:])

    def built(self, number, line):
        """A call as refusals.py builds it: for a row, or without a number a batch that is reported."""
        return self.committed(line) if number is None else self.say(line, number)

    def show_all(self):
        """Asks without a random number, so that a deep season is the plain one with more lines."""
        self.show("state")
        self.show("last")
        for word in ("pending", "stored"):
            k = 0
            while self.show("%s %d" % (word, k)) != "none":
                k += 1

    def show(self, line):
        return self.add(line, self.o.ask(line))

    def add(self, line, answer):
        """A line that does not count as one of the season."""
        self.shown.add(len(self.answers))
        self.lines.append(line)
        self.answers.append(answer)
        return answer

    def damaged(self, line):
        """Bytes damaged at random: where the oracle reads them all the same, its answer counts."""
        return self.say(line, "*", maybe=True)

    def last(self, share):
        """Asks for the last report, in a share of the places where this stands: behind starts, reports, refusals, new eras, joinings."""
        if self.late.random() < share:
            self.say("last")

    # -- the group's state, as the oracle tells it -----------------------------------------------------------------------------
    def look(self):
        shown = not self.small or self.r.random() < 0.1
        a = (self.say("state") if shown else self.o.ask("state")).split(" ")
        self.group = requests.group_told(" ".join(a))
        self.era = self.group.era
        self.map = wire.read_map(bytes.fromhex(a[2]))
        self.votes = self.group.numbers
        self.voted = {voter: wire.read_change(bytes.fromhex(change)) for voter, change in board.votes_told(" ".join(a)).items()}
        self.candidate = None if a[7] == "-" else wire.read_map(bytes.fromhex(a[7]))
        self.parts = {} if a[9] == "-" else {int(q.split(":")[0]): q.split(":") for q in a[9].split(",")}

    def some_ids(self, n=None):
        r = self.r
        n = n or r.choice([1, 2, 3, 3, 4] if self.small else [1, 2, 3, 4, 4, 4, 5, 7, 7, 10, 16])
        return sorted(r.sample(range(1, 40), n))

    def start(self, n=None, era=None, own=None, ids=None):
        """Starts with so many nodes of small ids, or with nodes of just these ids, ascending."""
        r = self.r
        ids = ids or self.some_ids(n)
        self.keys = {i: 1000 + i for i in [*range(0, 60), *ids]}
        m = [(i, self.keys[i]) for i in ids]
        self.own = own if own is not None else (r.choice(ids) if r.random() < 0.85 else r.choice([i for i in range(1, 50) if i not in ids]))
        self.own_key = self.keys[self.own] if r.random() < 0.95 else r.randrange(1, 2**64)
        self.params = (r.choice([0, 1, 3, LAST]), r.choice([0, 1]), self.any_schedule())
        era = era if era is not None else r.choice([0, 0, 1, 5, 1000, 2**40])
        a = self.say("new %d %d %d %s %s" % (self.own, self.own_key, era, wire.node_map(m).hex(), wire.params(self.params).hex()))
        assert a == "started", a
        self.inner = 0
        self.look()
        self.last(0.2)

    def any_schedule(self):
        r = self.r
        return r.choice([(0,), (1,), (2, r.choice([0, 1, 3, 2**32 - 1])), (3, r.choice([0, 2, 5]), r.choice([0, 3, 2**32 - 1]))])

    # -- votes and key messages --------------------------------------------------------------------------------------------------
    def change_wanted(self):
        """A change that the group could vote for: a node more or less, another key, the same map, or a schedule."""
        r, m = self.r, dict(self.map)
        k = r.random()
        if k < 0.35 and len(m) < 16:
            i = r.choice([x for x in range(1, 50) if x not in m])
            m[i] = self.keys[i]
        elif k < 0.6 and len(m) > 1:
            del m[r.choice(sorted(m))]
        elif k < 0.68:
            m[r.choice(sorted(m))] = r.randrange(1, 2**64)
        elif k < 0.75:
            pass
        else:
            return ("schedule", self.any_schedule())
        return ("map", sorted(m.items()))

    def a_vote(self, c, voter, damage=0.0):
        r = self.r
        num = self.votes.get(voter, -1) + 1 + (r.random() < 0.1) * r.randrange(5)
        era, sig = self.era, dict(self.map).get(voter, r.randrange(1, 99))
        if r.random() < damage:
            k = r.randrange(4)
            if k == 0:
                num = max(0, num - 1 - r.randrange(2))
            elif k == 1:
                era = max(0, min(LAST, era + r.choice([-1, 1, 7])))
            elif k == 2:
                sig = r.choice([0, 1, sig + 1])
            else:
                voter = r.choice([voter, 59, 0])
        return (c, era, min(num, LAST), voter, sig)

    def a_part(self, i, commit=None, rows=None):
        n = len(self.candidate)
        return ("part", 7000 + i if commit is None else commit, [100 + j for j in range(n if rows is None else rows)])

    def an_ack(self, proposer, values=None):
        n = len(self.candidate)
        return ("ack", proposer, [500 + j for j in range(n if values is None else values)])

    def key_message(self, i, m, damage=0.0):
        """Signed by node i under its candidate or current key."""
        r = self.r
        sig = dict(self.candidate or []).get(i, dict(self.map).get(i, 1))
        if i in dict(self.map) and r.random() < 0.3:
            sig = dict(self.map)[i]
        era = self.era
        if r.random() < damage:
            k = r.randrange(3)
            if k == 0:
                era = max(0, min(LAST, era + r.choice([-1, 1])))
            elif k == 1:
                sig = r.choice([0, sig + 1])
            else:
                i = r.choice([59, 0])
        return (era, i, m, sig)

    def leaving(self):
        """The nodes that are being removed, with their keys."""
        return [] if self.candidate is None else [x for x in self.map if x[0] not in dict(self.candidate)]

    def leaving_message(self, node):
        """A key message of a leaving node, with anything in it; now and then its era or signature is wrong, so that it is a fault of the proposer."""
        r, n, (i, key) = self.away, len(self.candidate), node
        handles = [r.randrange(9)] * r.choice([n, n, 0, n - 1, n + 1, 24])
        first = r.choice([7000 + i, 0, r.randrange(n + 1), 15, 16, LAST])
        era = self.era if r.random() < 0.9 else max(0, min(LAST, self.era + r.choice([-1, 1])))
        return (era, i, (r.choice(["part", "ack"]), first, handles), key if r.random() < 0.9 else r.choice([0, key + 1]))

    def leaving_messages(self, share=0.5):
        """In a share of the places where this stands, some key messages of leaving nodes; some twice, some equal to a stored one."""
        r, nodes = self.away, self.leaving()
        if self.rust or not nodes or r.random() >= share:
            return []
        stored = [m for m in self.heard if m[0] == self.era and m[1] in dict(nodes)]
        out = []
        for _ in range(r.choice([1, 1, 2, 3])):
            m = r.choice(stored) if stored and r.random() < 0.5 else self.leaving_message(r.choice(nodes))
            out += [m] * r.choice([1, 1, 1, 2])
        return out

    def old_votes(self, cs):
        """In a share of the batches, votes of old numbers at random places in these contributions. They store nothing, so that a season keeps everything else."""
        r = self.forged
        if self.rust or r.random() >= OLD_SHARE:
            return
        for _ in range(r.choice([1, 1, 1, 2, 4])):
            k = r.randrange(len(cs))
            j = r.randrange(len(cs[k][3]) + 1)
            numbers = requests.numbers_behind(cs[:k] + [(*cs[k][:3], cs[k][3][:j])], self.group)
            if numbers and len(wire.batch(cs)) < 65300 and sum(len(c[2]) + len(c[3]) for c in cs) < 1024:
                cs[k][3].insert(j, self.old_vote(numbers))

    def old_vote(self, numbers):
        """A vote at or below its voter's stored number: mostly of a wrong era or signature, or both; where some voter has another key in the candidate map, often under that key."""
        r, keys = self.forged, dict(self.map)
        new = {i: key for i, key in self.candidate or [] if i in numbers and key != keys[i]}
        voter = r.choice(sorted(new if new and r.random() < 0.5 else numbers))
        stored, key, wrong = numbers[voter], keys[voter], r.choice(["era", "era", "signature", "signature", "both", "nothing"])
        era = r.choice([x for x in (self.era - 1, self.era + 1, self.era + 7, 0, LAST) if 0 <= x <= LAST and x != self.era])
        sig = r.choice([x for x in (0, key + 1, 7, r.choice(self.map)[1]) if x != key])
        if voter in new and r.random() < 0.7:
            sig = new[voter]
        c = r.choice([("schedule", (1,)), ("schedule", (2, 3)), ("map", [])] + list(self.voted.values()))
        number = r.choice([stored, stored, max(0, stored - 1), 0, r.randrange(stored + 1)])
        return (c, era if wrong in ("era", "both") else self.era, number, voter, sig if wrong in ("signature", "both") else key)

    # -- batches ---------------------------------------------------------------------------------------------------------------
    def line(self, cs, verdicts, inner=None, places=None, raw=None, era=None):
        """A batch call; of the engine's era, as the oracle tells it, where no other is given."""
        places = places or (FULL if self.small else self.lengths.choice(ENOUGH))
        return "batch %d %d %s %s %d %d" % (self.era if era is None else era, self.inner if inner is None else inner,
                                            (raw if raw is not None else wire.batch(cs)).hex(), wire.hexed(bytes(verdicts)), *places)

    def spread(self, messages, votes):
        """Contributions with these items, ids ascending; proposers need be in no map."""
        r = self.r
        ids = sorted(r.sample([i for i, _ in self.map] + [55, 57], r.randrange(1, min(6, len(self.map) + 2))))
        cs = [(i, bytes(r.randrange(256) for _ in range(r.choice([0, 0, 3, 40]))), [], []) for i in ids]
        for m in messages:
            r.choice(cs)[2].append(m)
        for v in votes:
            r.choice(cs)[3].append(v)
        return cs

    def passing(self, cs):
        """The changes that pass with these contributions."""
        return support.passing(requests.changes_behind(cs, self.group), self.group.map)

    def one_passes(self, cs):
        """Takes votes out where several changes pass with these contributions, since the log would end there: those for the change with fewest first, until one passes. Now and then they stay."""
        over, stay = self.passing(cs), self.small or self.rust
        if len(over) < 2 or (not stay and self.several.random() < ENDED_SHARE):
            return
        while len(over) > 1:
            cast = {wire.change(v[0]).hex() for c in cs for v in c[3]}
            fewest = min((change for change in over if change in cast), key=lambda change: (len(over[change]), change))
            for c in cs:
                c[3][:] = [v for v in c[3] if wire.change(v[0]).hex() != fewest]
            over = self.passing(cs)

    def batch(self, messages, votes, verdict=None, number=None):
        r = self.r
        cs = self.spread(messages, votes)
        self.one_passes(cs)
        self.old_votes(cs)
        vs = [(verdict if verdict is not None else (0 if r.random() < 0.9 else r.randrange(4))) for c in cs for _ in c[2]]
        vs = [self.away.randrange(4) if requests.is_leaving(m, self.group) else v for v, m in zip(vs, [m for c in cs for m in c[2]])]
        return self.committed(self.line(cs, vs), number)

    def committed(self, line, number=None):
        """A batch; now and then it was tried before with a list that is too short."""
        if not self.small and self.lengths.random() < 0.1:
            self.say(" ".join(line.split(" ")[:-2] + ["%d %d" % self.lengths.choice(SHORT)]), 1)
        before = self.era
        a = self.say(line, number)
        self.look()
        self.last(0.1)
        if self.era != before:
            self.second(before)
        self.inner = 0 if self.era != before else self.inner + (self.r.random() < 0.9)
        return a

    def committed_with(self, cs, verdicts, faults):
        """A batch whose faults are stated, each `ID:KIND`, as it is built: what must be answered, made from the Rust's answer, must have them."""
        a = self.committed(self.line(cs, verdicts))
        if requests.faults_of(a) != faults:
            raise SystemExit("faults %s are stated, and asked are %s" % (faults, a[:2000]))
        return a

    def second(self, before, share=0.15):
        """Behind a batch that began an era, now and then the next one of the era that it closed, as a box gets them that catches up: refused by 15."""
        if self.late.random() < share:
            votes = [(("schedule", (1,)), self.era, 0, i, key) for i, key in self.map]
            self.say(self.line([(self.map[0][0], b"late", [], votes)], [], inner=self.inner + 1, era=before), 15)
            self.last(0.5)

    def vote_batch(self, c=None, share=None, damage=0.0):
        """Votes for one change, of enough voters or of few."""
        r = self.r
        c = c or self.change_wanted()
        voters = [i for i, _ in self.map]
        k = share if share is not None else r.randrange(0, len(voters) + 1)
        vs = [self.a_vote(c, i, damage) for i in r.sample(voters, min(k, len(voters)))]
        if r.random() < 0.3:
            vs += [self.a_vote(self.change_wanted(), r.choice(voters), damage)]
        if self.empty_wins(c, vs):
            return
        self.batch(self.leaving_messages(0.3), vs)

    def scattered(self):
        """Votes of some voters for a few changes, some of which have votes already: rows, ties, voters that go over. Mostly so that none wins; the empty map never does."""
        r, ids = self.tally, [i for i, _ in self.map]
        few = list(self.voted.values())
        few = r.sample(few, min(len(few), r.randrange(4))) + [self.scattered_change() for _ in range(r.choice([1, 2, 3, len(ids)]))]
        most, voted, votes = (len(ids) - 1) // 3 if r.random() < 0.8 else len(ids), dict(self.voted), []
        for i in r.sample(ids, r.randrange(1, len(ids) + 1)):
            c = r.choice(few)
            if list(voted.values()).count(c) < ((len(ids) - 1) // 3 if c == ("map", []) else most):
                voted[i] = c
                votes.append(self.a_vote(c, i))
        self.batch([], votes)

    def scattered_change(self):
        """A change that the group could vote for, or one of the schedules that are equal in effect, or the empty map, or that which there is or will be."""
        r = self.tally
        return self.change_wanted() if r.random() < 0.6 else r.choice([("schedule", r.choice([(0,), (2, 1), (3, 1, 0)])), ("map", []), ("map", self.map), ("map", self.candidate or self.map)])

    def empty_wins(self, c, vs):
        return any(v[0] == ("map", []) for v in vs)

    def key_batch(self, damage=0.0):
        """Parts of the candidates, then acks on the recorded parts."""
        r = self.r
        if self.candidate is None:
            m = ("part", 5, [1, 2, 3]) if r.random() < 0.5 else ("ack", r.randrange(3), [1])
            i = r.choice([i for i, _ in self.map])
            return self.batch([(self.era, i, m, dict(self.map)[i])], [])
        ids = [i for i, _ in self.candidate]
        ms = []
        for k, i in enumerate(ids):
            if k not in self.parts and r.random() < 0.7:
                ms.append(self.key_message(i, self.a_part(i), damage))
        for k in self.parts:
            for i in ids:
                if r.random() < 0.6:
                    ms.append(self.key_message(i, self.an_ack(k), damage))
        if damage:
            i = r.choice(ids)
            ms += [self.key_message(i, self.a_part(i, commit=r.choice([0, 1]))) for _ in range(r.random() < 0.3)]
            ms += [self.key_message(i, self.a_part(i, rows=r.choice([0, len(ids) + 1]))) for _ in range(r.random() < 0.3)]
            ms += [self.key_message(i, self.an_ack(r.choice([0, 15, 16, LAST]))) for _ in range(r.random() < 0.3)]
            ms += [self.key_message(i, self.an_ack(0, values=len(ids) + 1)) for _ in range(r.random() < 0.3)]
        r.shuffle(ms)
        ms = ms[:300]
        for m in self.leaving_messages():
            ms.insert(self.away.randrange(len(ms) + 1), m)
        self.batch(ms, [], verdict=None)

    # -- own votes, messages, queries --------------------------------------------------------------------------------------------
    def own_vote(self):
        r = self.r
        k = r.randrange(3)
        member = self.own in dict(self.map)
        number = 11 if member and self.era == self.last_era else None
        if k == 0:
            return self.say("vote %s" % wire.change(self.change_wanted()).hex(), number)
        if k == 1:
            i = r.choice([i for i in range(1, 50)])
            full = len(self.map) >= 16 and i not in dict(self.map) and member
            return self.say("add %d %d" % (i, self.keys[i]), 13 if full else number)
        return self.say("remove %d" % r.choice([i for i, _ in self.map] + [58]), number)

    def received(self):
        r = self.r
        sender = r.choice([i for i, _ in self.map] + ([i for i, _ in self.candidate] if self.candidate else []) + [58])
        if r.random() < 0.4:
            v = self.a_vote(self.change_wanted(), r.choice([sender] + [i for i, _ in self.map]), 0.3)
            return self.say("message %d %s" % (sender, wire.message_vote(v).hex()))
        n = len(self.candidate) if self.candidate else 3
        m = ("part", r.randrange(3), [0] * n) if r.random() < 0.5 else ("ack", r.randrange(n + 1), [9] * n)
        era, i, m, sig = self.key_message(sender, m, 0.25)
        self.say("message %d %s" % (sender, wire.message_key_gen(era, m, sig).hex()), 12, maybe=True)
        self.heard.append((era, sender, m, sig))

    def returned(self):
        r = self.r
        n = len(self.candidate) if self.candidate else 2
        m = ("part", r.randrange(9), [1] * n) if r.random() < 0.5 else ("ack", r.randrange(n), [2] * n)
        era = self.era if r.random() < 0.8 else r.choice([max(0, self.era - 1), min(LAST, self.era + 1)])
        self.say("due %s" % wire.message_key_gen(era, m, self.own_key).hex(), 12, maybe=True)
        self.heard.append((era, self.own, m, self.own_key))

    def query(self):
        r = self.r
        k = r.randrange(6)
        if k == 0:
            self.say("stored %d" % r.choice([0, 1, 2, 5, 127, 128, LAST]))
        elif k == 1:
            self.say("pending %d" % r.choice([0, 1, 2, 15, 16, LAST]))
        elif k == 2:
            self.say("propose %d %d" % (r.randrange(2), r.choice([0, 1, 2, 3, 6, LAST])))
        elif k == 3:
            inner = r.choice([0, 1, self.inner, LAST - 1 - self.era, LAST - self.era])
            self.say("next %d" % inner, 5 if self.era + inner > LAST - 1 else None)
        elif k == 4:
            s = r.choice([(0,), (1,), (2, 1), (2, 3), (2, 0), (3, 2, 3), (3, 0, 0), (3, 0, 4), (3, 2**32 - 1, 1), (3, 2**32 - 2, 1)])
            self.say(schedule_edges.call(r.randrange(12), s), schedule_edges.number(s))
        else:
            self.say("plan %d %d" % (r.choice([0, 77, LAST]), r.choice([448, 448, 2000])))
