"""What document 02 asks of a call, from the call and the Rust's answer to it. Every exemption from the comparison stands here, under the change request that
asks for it; whatever is exempt nowhere must be answered in the Rust's own words, or, where the Rust has no answer, by the number that the generator states.

| request | calls | asked instead |
|---|---|---|
| CR 1 | a batch of another era than the engine's; the Rust's batches have no era, so the oracle hands none of them on | `refused 15`, or 1 to 4, which come before it |
| CR 2 | a batch with key messages of a leaving node, at the first of which the Rust errs | the Rust's answer to the batch without them, with their faults put in; `refused 7` where it has none |
| CR 6 | a reported batch with votes of an old number and of a wrong era or signature, at which the Rust looks no further than at the number | the Rust's answer, with their faults put in |
| CR 7 | a reported batch; the Rust's report does not name the voters who carried the change | the Rust's answer, or what the requests above make of it, and the voters behind it |
| CR 8 | the first batch in which several changes pass: there the Rust has another rule, and all that comes behind it hangs on who won | nothing: the log ends before it |
| CR 8 | such a batch where it is built as the last one of its log (contests.py), and `state` and `board` behind it | the Rust's answer to a batch in which the winner passes alone, and the state behind that, with the votes and the list put in where that batch has others |
| CR 8 | a `winner` of `values` with such votes | the generator's count |

CR 3 and CR 5 exempt nothing: the Rust has no `board`, no `plan-new` and no `plan-old`, so the oracle is not asked, and what must be answered is a rule of the generator's own (board.py, plans.py).

CR 2, more closely. A leaving node's key message is one that was row 6 (`is_leaving`). A batch that has some, and that no row before 7 refuses, is put to the oracle twice more:

- without those messages and their verdicts (`try ..`, which changes no state). The Rust's answer to that is what must be answered, but for the faults put in;
- as it is, but so that those messages verify under no key (`unsigned ..`). To the Rust each is then one fault of its proposer, `InvalidKeyGenMessageSignature`, and does nothing else; a stored
  message equal to it goes, by the Rust's own step. This shows the place of each fault in the order, and leaves the state in which the log goes on.

Each of those faults is exchanged for document 02's, `UnexpectedKeyGenPart` or `UnexpectedKeyGenAck` of the signer; less them the second answer must be the first, word for word. So just those faults
are exempt. Where the Rust has an answer to the whole batch, the generator stops: nothing would have to be exempt.

CR 6, more closely. Exempt are just the faults of votes whose number is old, at or below their voter's stored one at that moment, and whose era or signature is wrong (`is_old_wrong`). The Rust passes
such a vote over, and document 02 has one fault of the proposer for it. Before a batch that has some, and that no row refuses, the oracle is asked for its marked form (`try ..`), in which each of them
has the last number of all, so a new one, and is as it was otherwise. The Rust then looks at era and signature by itself: it is that one fault, and does nothing else. (Where the last number is stored
none is new; there the vote gets a voter of neither map, of whom nothing is stored and who has no key.) The Rust's answer to the marked form is what must be answered, word for word; less the faults of
those votes, each at its place, it must be the answer to the batch as it is (that of CR 2, where a leaving node's messages are in it too). So the Rust has faulted none of
them itself, and finds each of them wrong, but for those old against the last number: of these it shows the place only, and that era or signature is wrong is this file's rule (`generate` counts them). The log goes on in the state behind the batch as it is; that it is the one behind the marked form, `check_marked` shows, which goes through each log once more with the marked forms taken, and
holds the state before each reported batch, and the last one, to that of the log.

CR 7, more closely. The field ` voters W` stands behind the Rust's words, of which none is exempt. It is the rule of voters.py, on the Rust's own report and on the votes stored behind the batch: those of
the Rust's `state` before it, and each vote of the batch that is stored over them (`is_stored`). Where no era began, so at a repeated win and where the report is `None`, the Rust's `state` behind the
batch tells what is stored, and must tell just that, number and change of each voter; the list is then made from it. Where an era began it must tell no vote; what was stored there is asked of a second Rust
when the log is made (stored.py).

CR 8, more closely. A change passes with more than f voters. Counted are the votes stored behind those of the batch, as in CR 7 (`changes_behind`): those of the Rust's `state` before it, and each vote of the
batch that is stored over them. Where several changes pass the log ends, also where both rules name one winner or a ready key generation decides, and where 7 is stated. A batch that a row before 7 refuses
stores nothing, whatever votes it has, and is compared as ever. In every batch that is compared at most one change passes, and the one that passes is reported, or is the empty map where it is 7: stored.py holds
each of them to that by the votes of a second Rust. So both rules name the same winner, or none. Beside a ready key generation, which is reported in its place, one may pass.

In the last batch of a log of contests.py several changes pass, and who wins is the rule of support.py. The Rust is asked about a counterpart (`counterpart`): the same batch, and behind its votes one more of
each voter of a change that passes and loses, for a change of his own, or, where one voter is enough, for the winner. So the winner alone passes, and the counterpart is asked about like any batch: its answer is
what must be answered. The voters behind it are the counterpart's, too, where one voter is not enough; else they are put in, since those of the others are among the winner's there. The state behind it is what
must be told, but for the votes where no era began (the candidate map wins again): those are the ones stored behind the batch as it is, and the board goes by them.

In `values` the winner of given votes is the Rust's where at most one change passes, else the count of support.py.
"""
import collections
import board
import support
import voters
import wire

# The rows of a batch call, in the order in which they are looked for; of 2 and 3 the one that is met first in the bytes. Row 6 has no condition (02, CR 2).
BATCH_ROWS = (1, 2, 3, 4, 15, 5, 7)

# The last number that a vote can have.
LAST_NUMBER = 2**64 - 1

# What occurred of CR 2, and how often; `generate` prints it.
SEEN = collections.Counter()

Group = collections.namedtuple("Group", "era map candidate numbers changes")


def group_told(state):
    """Era, map, candidate map (none without key generation), number and change (its bytes in hex) of each stored vote by its voter, from the oracle's answer to `state`; nothing before a start."""
    if state == "no engine":
        return None
    words = state.split(" ")
    node_map = lambda word: dict(wire.read_map(bytes.fromhex(word)))
    votes = [] if words[5] == "-" else [v.split(":") for v in words[5].split(",")]
    return Group(int(words[1]), node_map(words[2]), None if words[7] == "-" else node_map(words[7]), {int(voter): int(number) for voter, number, _ in votes}, board.votes_told(state))


def first_row(rows):
    """What a batch call answers that was built for all of these rows."""
    return min(rows, key=BATCH_ROWS.index)


def rows_seen(call, era):
    """The rows that a batch call meets by its fields, without a look into the batch."""
    _, batch_era, inner, _, verdicts, faults, due = call.split(" ")
    met = {1: int(faults) < 1024 or int(due) < 1025,
           4: any(v > 3 for v in bytes.fromhex(verdicts.strip("-"))),
           15: int(batch_era) != era,
           5: era + int(inner) > 2**64 - 2}
    return {row for row in met if met[row]}


def check_number(call, era, number):
    """The generator's number of a batch call must be the first of all rows that the call is seen to meet, and 15 only where the eras differ."""
    seen = rows_seen(call, era)
    rows = seen if number is None else seen | {number}
    if (rows and number != first_row(rows)) or (number in (1, 15, 5) and number not in seen):
        raise SystemExit("%s is stated for a batch call that meets rows %s: %s" % (number, sorted(seen), call[:300]))


# -- CR 1 --------------------------------------------------------------------------------------------------------------------------
def of_another_era(call, group, number):
    return 15 in rows_seen(call, group.era)


def passed_over(call, group, ask, number, others):
    """The number is the generator's, and `check_number` has held it to the order; that the oracle kept the call from the Rust is all that can be seen there."""
    answer = ask(call)
    if answer != "undefined":
        raise SystemExit("the oracle answers a batch of another era: %s -> %s" % (call[:300], answer[:200]))
    return "refused %d" % number


# -- CR 2 --------------------------------------------------------------------------------------------------------------------------
def is_signed(m, group):
    _, signer, _, sig = m
    return sig in (group.map.get(signer), (group.candidate or {}).get(signer))


def is_leaving(m, group):
    """The old condition of row 6: right era and signature, key generation running, signer not in the candidate map."""
    era, signer, _, _ = m
    return era == group.era and group.candidate is not None and is_signed(m, group) and signer not in group.candidate


def read_call(call):
    """The contributions of a batch call, and the verdicts on its key messages."""
    fields = call.split(" ")
    return wire.read_batch(bytes.fromhex(fields[3])), list(bytes.fromhex(fields[4].strip("-")))


def written_call(call, word, contributions, verdicts):
    """The same call under a word, with these contributions and verdicts."""
    fields = call.split(" ")
    return " ".join([word] + fields[1:3] + [wire.batch(contributions).hex(), wire.hexed(bytes(verdicts))] + fields[5:])


def has_leaving(call, group, number):
    """Whether a batch call has such a message. One that was built for a row before 7 is refused by it, whatever it holds."""
    if number not in (None, 7) or group.candidate is None or set(group.map) <= set(group.candidate):
        return False
    return any(is_leaving(m, group) for c in read_call(call)[0] for m in c[2])


def without_leaving(call, group):
    """The batch without those messages and their verdicts."""
    contributions, verdicts = read_call(call)
    stays = [not is_leaving(m, group) for c in contributions for m in c[2]]
    left = [(i, user, [m for m in messages if not is_leaving(m, group)], votes) for i, user, messages, votes in contributions]
    return written_call(call, "batch", left, [v for v, stay in zip(verdicts, stays) if stay])


def unsigned(call, group):
    """The batch as it is, but for the verdicts on those messages, which say that they verify under no key."""
    contributions, verdicts = read_call(call)
    leaves = [is_leaving(m, group) for c in contributions for m in c[2]]
    return written_call(call, "unsigned", contributions, [4 if leave else v for v, leave in zip(verdicts, leaves)])


def bad_signatures(call, group):
    """For each fault by a bad signature that the Rust finds in the batch of `unsigned`, in order: its words, and document 02's in their place; nothing where the signature is bad indeed."""
    unexpected = {"part": "UnexpectedKeyGenPart", "ack": "UnexpectedKeyGenAck"}
    for proposer, _, messages, _ in read_call(call)[0]:
        for m in messages:
            if m[0] == group.era and (is_leaving(m, group) or not is_signed(m, group)):
                yield "%d:InvalidKeyGenMessageSignature" % proposer, "%d:%s" % (m[1], unexpected[m[2][0]]) if is_leaving(m, group) else None


def exchanged(faults, kind, known):
    """The faults with document 02's in their places, and the faults without those. Known are all faults of a kind, in order: their words, and document 02's, if any."""
    told, left, known = [], [], list(known)
    for fault in faults:
        words, instead = (fault, None) if not fault.endswith(":" + kind) else known.pop(0) if known else (None, None)
        if words != fault:
            raise SystemExit("a fault that the generator does not know: %s, not %s" % (fault, words))
        told.append(instead or fault)
        left += [] if instead else [fault]
    if known:
        raise SystemExit("faults that the Rust does not tell: %s" % known)
    return told, left


def with_faults(answer, faults):
    words = answer.split(" ")
    words[words.index("faults") + 1] = ",".join(faults) or "-"
    return " ".join(words)


def faults_of(answer):
    words = answer.split(" ")
    faults = words[words.index("faults") + 1]
    return [] if faults == "-" else faults.split(",")


def count_leaving(call, group, told, stored):
    """Notes what such a batch had in it, for `generate` to print; stored are the messages that were stored before it."""
    contributions, verdicts = read_call(call)
    messages = [(m, v) for m, v in zip([m for c in contributions for m in c[2]], verdicts) if is_leaving(m, group)]
    words = told.split(" ")
    SEEN["batches"] += 1
    SEEN["refused 7" if words[0] == "refused" else {"00": "None", "01": "InProgress", "02": "Complete"}[words[3][:2]]] += 1
    SEEN["with key generation complete"] += words[0] == "batch" and words[words.index("recipe") + 1] != "-"
    SEEN["with a stored copy that goes"] += words[0] == "batch" and any("message " + wire.signed(m).hex() in stored for m, _ in messages)
    for m, v in messages:
        SEEN["%ss" % m[2][0]] += 1
        SEEN["verdict %d" % v] += 1


def stored_now(ask):
    out = []
    while not out or out[-1] != "none":
        out.append(ask("stored %d" % len(out)))
    return out


def exchanged_for_leaving(answer, call, group):
    """The faults of `exchanged`, where this is the Rust's answer to the batch of `unsigned`."""
    return exchanged(faults_of(answer), "InvalidKeyGenMessageSignature", bad_signatures(call, group))


def faults_of_leaving(call, group, ask, number, others):
    """CR 2. The oracle must not answer the whole batch: else the Rust does not err there, and nothing would be exempt."""
    answer = ask(call)
    if answer != "undefined":
        raise SystemExit("the Rust takes a batch with a key message of a leaving node: %s -> %s" % (call[:300], answer[:200]))
    stored, without, marked = stored_now(ask), ask("try " + without_leaving(call, group)), ask(unsigned(call, group))
    if (without == "undefined") != (number is not None) or (marked == "undefined") != (number is not None):
        raise SystemExit("%s is stated for a batch which without a leaving node's messages answers %s: %s" % (number, without[:200], call[:4000]))
    if number is not None:
        told = "refused %d" % number
    else:
        faults, left = exchanged_for_leaving(marked, call, group)
        if with_faults(marked, left) != without:
            raise SystemExit("the batch without a leaving node's messages is answered otherwise: %s, not %s" % (without[:2000], marked[:2000]))
        told = with_faults(marked, faults)
    count_leaving(call, group, told, stored)
    return told


# -- CR 6 --------------------------------------------------------------------------------------------------------------------------
# A vote of a batch as it is met: its proposer, the vote, its voter's stored number at that moment (none without a stored vote), and whether its era and its signature are wrong.
Met = collections.namedtuple("Met", "proposer vote stored wrong_era wrong_signature")


def is_wrong(m):
    return m.wrong_era or m.wrong_signature


def is_old(m):
    return m.stored is not None and m.vote[2] <= m.stored


def is_old_wrong(m):
    return is_old(m) and is_wrong(m)


def is_stored(m):
    return not is_old(m) and not is_wrong(m)


def votes_met(contributions, group):
    """The votes of a batch in order, each held to what is stored at its moment. A voter outside the map has no key, so that no signature is right."""
    stored = dict(group.numbers)
    for proposer, _, _, votes in contributions:
        for vote in votes:
            _, era, number, voter, sig = vote
            m = Met(proposer, vote, stored.get(voter), era != group.era, sig != group.map.get(voter))
            if is_stored(m):
                stored[voter] = number
            yield m


def numbers_behind(contributions, group):
    """The number of each stored vote by its voter, behind the votes of these contributions."""
    return {**group.numbers, **{m.vote[3]: m.vote[2] for m in votes_met(contributions, group) if is_stored(m)}}


def changes_behind(contributions, group):
    """The change (its bytes in hex) of each stored vote by its voter, likewise."""
    return {**group.changes, **{m.vote[3]: wire.change(m.vote[0]).hex() for m in votes_met(contributions, group) if is_stored(m)}}


def has_old_wrong(call, group, number):
    """Whether a batch call has such a vote. One that some row refuses has no faults, whatever it holds."""
    return number is None and any(map(is_old_wrong, votes_met(read_call(call)[0], group)))


def marked_vote(m, group):
    """Such a vote with the last number, or, where that is stored, with a voter of neither map; any other vote as it is."""
    change, era, number, voter, sig = m.vote
    if not is_old_wrong(m):
        return m.vote
    if m.stored < LAST_NUMBER:
        return (change, era, LAST_NUMBER, voter, sig)
    return (change, era, number, next(i for i in range(2**32) if i not in group.map and i not in (group.candidate or {})), sig)


def marked_call(call, group):
    """The batch with each such vote marked."""
    contributions, verdicts = read_call(call)
    marked = iter([marked_vote(m, group) for m in votes_met(contributions, group)])
    left = [(i, user, messages, [next(marked) for _ in votes]) for i, user, messages, votes in contributions]
    return written_call(call, "batch", left, verdicts)


def answer_to_marked(call, group, ask, word=""):
    """The Rust's answer to a marked batch, with CR 2's faults in their places where it has key messages of a leaving node. Behind the word `try ` no state changes."""
    call = marked_call(call, group)
    leaves = has_leaving(call, group, None)
    answer = ask(word + (unsigned(call, group) if leaves else call))
    if answer == "undefined":
        raise SystemExit("the Rust refuses a marked batch: %s" % call[:4000])
    return with_faults(answer, exchanged_for_leaving(answer, call, group)[0]) if leaves else answer


def faults_of_old_wrong(call, group, ask, number, others):
    """CR 6. The marked batch comes first, since the one as it is changes the state."""
    told, as_it_is = answer_to_marked(call, group, ask, "try "), asked_of(call, group, ask, number, others)
    votes = [("%d:InvalidCommittedVote" % m.proposer, is_old_wrong(m)) for m in votes_met(read_call(call)[0], group) if is_wrong(m)]
    _, left = exchanged(faults_of(told), "InvalidCommittedVote", [(fault, fault if put_in else None) for fault, put_in in votes])
    if with_faults(told, left) != as_it_is:
        raise SystemExit("the batch is answered otherwise with its old votes marked: %s, not %s" % (told[:2000], as_it_is[:2000]))
    return told


def check_same(again, told, call):
    if again != told:
        raise SystemExit("with marked batches in the log a call is answered otherwise: %s, not %s: %s" % (again[:2000], told[:2000], call[:2000]))


def check_marked(lines, answers, states, ask):
    """A log again, put to an oracle that has no engine yet, with the marked form of each batch that has such votes: it must have the same answers, and the same states before each reported batch
    and behind the last call, so that the Rust's state is the same behind a batch and its marked form. Refused calls leave the state, and boards and conversions are not the Rust's."""
    calls, states = [line for line in lines if line != "" and not line.startswith("#")], iter(states)
    for call, told in zip(calls, answers, strict=True):
        if told.startswith("refused") or call == "board" or call.startswith(("plan-new ", "plan-old ")):
            continue
        if told.startswith("batch "):
            state = ask("state")
            check_same(state, next(states), "state")
            check_same(answer_to_marked(call, group_told(state), ask), voters.cut(told)[0], call)
        else:
            check_same(ask(call), told, call)
    check_same(ask("state"), next(states), "state")


# -- CR 7 --------------------------------------------------------------------------------------------------------------------------
def is_reported(call, group, number):
    """Whether a batch was built to be reported. One that some row refuses names no voters."""
    return number is None


def with_voters(call, group, ask, number, others):
    """CR 7. What is stored behind the batch is held to the Rust's state, as far as that tells it."""
    answer, contributions = asked_of(call, group, ask, number, others), read_call(call)[0]
    numbers, changes, now = numbers_behind(contributions, group), changes_behind(contributions, group), group_told(ask("state"))
    began = now.era != group.era
    if (now.numbers, now.changes) != (({}, {}) if began else (numbers, changes)):
        raise SystemExit("stored are %s and %s, and the Rust has %s and %s: %s" % (numbers, changes, now.numbers, now.changes, call[:4000]))
    return voters.answer(answer, changes if began else now.changes, group.map)


# -- CR 8 --------------------------------------------------------------------------------------------------------------------------
class Ended(Exception):
    """The log ends before this batch call, in this group."""


def several_pass(call, group, number):
    """Whether several changes pass in a batch call. One that was built for a row before 7 is refused by it, and its votes are not looked at."""
    return number in (None, 7) and support.several_pass(changes_behind(read_call(call)[0], group), group.map)


def ended(call, group, ask, number, others):
    """CR 8. Nothing is asked of the Rust."""
    raise Ended(call, group)


def counterpart(call, group, over, won):
    """The batch in which the winner alone passes: behind its votes one more of each voter of another change that passes, for something of his own, or, where one voter is enough, for the winner."""
    contributions, verdicts = read_call(call)
    numbers, winner = numbers_behind(contributions, group), wire.read_change(bytes.fromhex(won))
    instead = lambda i: ("schedule", (3, i, 7)) if voters.most_faulty(group.map) > 0 else winner
    contributions[-1][3].extend((instead(i), group.era, numbers[i] + 1, i, group.map[i]) for change in over if change != won for i in over[change])
    return written_call(call, "batch", contributions, verdicts)


def asked_where_several_pass(call, group, ask, over, won, number):
    """CR 8. What must be answered to the last batch of a log of contests.py, in which these changes pass, each with its voters, and this one wins: the answer to the counterpart, behind which the oracle stays."""
    told = asked(counterpart(call, group, over, won), ask, number)
    if number is not None:
        return told
    words, listed = voters.cut(told)
    carriers = [] if voters.report(words)[2] else over[won]
    if voters.most_faulty(group.map) > 0 and listed != carriers:
        raise SystemExit("the counterpart names %s, and the rule %s: %s" % (listed, carriers, call[:4000]))
    return "%s voters %s" % (words, ",".join(map(str, carriers)) or "-")


def state_where_several_pass(call, group, told, state):
    """CR 8. The state behind such a batch: the one that the counterpart left, with the votes of the batch as it is where no era began, so that they stand."""
    words, contributions = state.split(" "), read_call(call)[0]
    if told.startswith("batch ") and int(words[1]) == group.era:
        numbers, changes = numbers_behind(contributions, group), changes_behind(contributions, group)
        words[5] = ",".join("%d:%d:%s" % (i, numbers[i], changes[i]) for i in sorted(changes))
    return " ".join(words)


def is_counted(votes, node_map):
    """Whether the winner of these stored votes in `values` is the generator's count."""
    return support.several_pass(votes, node_map)


def winner_asked(answer, votes, node_map):
    """CR 8. What must be answered to `winner` in `values`: the Rust's answer, or the count."""
    return "ok " + support.winner(votes, node_map) if is_counted(votes, node_map) else answer


# Each exemption that goes by the call: its request, the batch calls that it takes out of the comparison, and what is asked of them. The first that takes a call counts, and is handed those behind it, of which
# CR 7 and CR 6 make use: they ask them first.
EXEMPT = [("CR 8", several_pass, ended), ("CR 7", is_reported, with_voters), ("CR 6", has_old_wrong, faults_of_old_wrong), ("CR 1", of_another_era, passed_over), ("CR 2", has_leaving, faults_of_leaving)]


def asked_of(call, group, ask, number, exempt):
    """What must be answered to a batch, with these exemptions."""
    for k, (_, applies, instead) in enumerate(exempt):
        if applies(call, group, number):
            return instead(call, group, ask, number, exempt[k + 1:])
    return answered(call, ask(call), number, False)


def asked(call, ask, number=None, maybe=False):
    """Puts a call to the oracle; what must be answered to it. A call with a number was built for that row; with `maybe` the Rust may take it all the same."""
    if number == 6:
        raise SystemExit("6 is stated, which no call answers: %s" % call[:300])
    group = group_told(ask("state")) if call.startswith("batch ") else None
    if group is None:
        return answered(call, ask(call), number, maybe)
    assert not maybe, "a batch is refused or not: %s" % call[:300]
    check_number(call, group.era, number)
    return asked_of(call, group, ask, number, EXEMPT)


def answered(call, answer, number, maybe):
    """The Rust's answer where no request names the call; the number that is stated where it has none."""
    if answer == "undefined":
        if number is None:
            raise SystemExit("the oracle refuses a call that was built to be accepted: %s" % call[:4000])
        return "refused %s" % number
    if number is not None and not maybe:
        raise SystemExit("the oracle answers a call that was built for row %s: %s -> %s" % (number, call[:300], answer[:200]))
    return answer
