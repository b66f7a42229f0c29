//! Reaches what is private in dynamic_honey_badger.rs, and turns the bytes and words of a call log into the Rust's values and back.
use super::*;
use crate::crypto::poly::BivarCommitment;
use crate::{mode, Answer, Engine, Report};
use rand::rngs::mock::StepRng;
use serde::Deserialize;

// The log's form of the values that hold rows or values: u64 handles where the Rust has lists of bytes.

#[derive(Serialize, Deserialize)]
enum LogKeyGen {
    Part(u64, Vec<u64>),
    Ack(u64, Vec<u64>),
}

#[derive(Serialize, Deserialize)]
struct LogSignedKeyGen(u64, u32, LogKeyGen, Signature);

#[derive(Serialize, Deserialize)]
enum LogMessage {
    HoneyBadger(Kept),
    KeyGen(u64, LogKeyGen, Signature),
    SignedVote(SignedVote<u32>),
}

/// The gate keeps consensus messages: no bytes are one.
#[derive(Serialize, Deserialize)]
enum Kept {}

#[derive(Serialize, Deserialize)]
struct LogContrib {
    contrib: Vec<u8>,
    key_gen_messages: Vec<LogSignedKeyGen>,
    votes: Vec<SignedVote<u32>>,
}

/// The Rust's message. `proposer` and `degree` go with a part that is to be handled.
fn key_gen(msg: LogKeyGen, proposer: u32, degree: usize) -> KeyGenMessage {
    match msg {
        LogKeyGen::Part(handle, rows) => KeyGenMessage::Part(Part::of(BivarCommitment { handle, proposer, degree }, rows)),
        LogKeyGen::Ack(index, values) => KeyGenMessage::Ack(Ack::of(index, values)),
    }
}

fn log_key_gen(msg: &KeyGenMessage) -> LogKeyGen {
    match msg {
        KeyGenMessage::Part(part) => {
            let (commit, rows) = part.handles();
            LogKeyGen::Part(commit, rows)
        }
        KeyGenMessage::Ack(ack) => {
            let (index, values) = ack.handles();
            LogKeyGen::Ack(index, values)
        }
    }
}

// The documents' limits, which the Rust does not have.

fn within(limit: bool) -> Answer<()> {
    if limit || mode::raw() { Ok(()) } else { Err("a limit of the documents".into()) }
}

fn map_within(map: &PubKeyMap<u32>) -> Answer<()> {
    within(map.len() <= 16)
}

fn change_within(change: &Change<u32>) -> Answer<()> {
    match change {
        Change::NodeChange(map) => map_within(map),
        Change::EncryptionSchedule(_) => Ok(()),
    }
}

fn rows_within(msg: &LogKeyGen) -> Answer<()> {
    match msg {
        LogKeyGen::Part(_, rows) | LogKeyGen::Ack(_, rows) => within(rows.len() <= 24),
    }
}

/// The value that the bytes are. bincode lets left-over bytes and unordered ids pass; the value encoded again shows those.
fn read<T: Serialize + DeserializeOwned>(bytes: &[u8]) -> Answer<T> {
    let same = |value: &T| bincode::serialize(value).map_or(false, |again| again == bytes);
    bincode::deserialize(bytes).ok().filter(same).ok_or_else(|| "bytes that cannot be read".into())
}

fn read_batch(bytes: &[u8]) -> Answer<BTreeMap<u32, LogContrib>> {
    within(bytes.len() <= 65_536)?;
    let batch: BTreeMap<u32, LogContrib> = read(bytes)?;
    within(batch.len() <= 16)?;
    within(batch.values().map(|c| c.key_gen_messages.len() + c.votes.len()).sum::<usize>() <= 1024)?;
    for contrib in batch.values() {
        within(contrib.contrib.len() <= 4096)?;
        contrib.key_gen_messages.iter().try_for_each(|msg| rows_within(&msg.2))?;
        contrib.votes.iter().try_for_each(|vote| change_within(vote.change()))?;
    }
    Ok(batch)
}

// The words of an answer.

fn hex(bytes: &[u8]) -> String {
    list("", bytes.iter().map(|b| format!("{:02x}", b)))
}

fn encoded<T: Serialize>(value: &T) -> String {
    hex(&bincode::serialize(value).unwrap())
}

/// The items with `between` between them, or `-` for none.
fn list(between: &str, items: impl Iterator<Item = String>) -> String {
    let items: Vec<String> = items.collect();
    if items.is_empty() { "-".into() } else { items.join(between) }
}

fn faults(log: &FaultLog<u32, FaultKind>) -> String {
    // SyncKeyGenPart(RowCount) is written SyncKeyGenPart.RowCount
    let kind = |kind: &FaultKind| format!("{:?}", kind).replace('(', ".").replace(')', "");
    list(",", log.0.iter().map(|fault| format!("{}:{}", fault.node_id, kind(&fault.kind))))
}

/// The key messages that the Rust made and wants sent.
fn due(step: &Step<Vec<u8>, u32>) -> String {
    list(",", step.messages.iter().filter_map(|sent| match &sent.message {
        Message::KeyGen(era, KeyGenMessage::Part(_), _) => Some(format!("part@{}", era)),
        Message::KeyGen(era, KeyGenMessage::Ack(ack), _) => Some(format!("ack:{}@{}", ack.handles().0, era)),
        _ => None,
    }))
}

/// What `generate` put together, as the new network info holds it.
fn recipe(report: &Report) -> String {
    match report.change {
        ChangeState::Complete(Change::NodeChange(_)) => (),
        _ => return "-".into(),
    }
    let set = report.netinfo.public_key_set();
    let proposers = set.proposers.iter().map(|id| report.netinfo.node_index(id).unwrap().to_string());
    match report.netinfo.secret_key_share() {
        None => format!("observer {}", list(",", proposers)),
        Some(share) if share.rows.iter().any(|row| row.len() < set.points) => format!("missing {}", list(",", proposers)),
        Some(share) => {
            let from = |row: &Vec<u64>| list("+", row.iter().map(|place| (place - 1).to_string()));
            format!("share {}", list(",", proposers.zip(&share.rows).map(|(p, row)| format!("{}:{}", p, from(row)))))
        }
    }
}

fn vote_made(made: Result<Step<Vec<u8>, u32>>) -> Answer<String> {
    let step = made.map_err(error)?;
    match step.messages.first() {
        None => Ok("nothing".into()),
        Some(sent) => {
            if let Message::SignedVote(vote) = &sent.message {
                change_within(vote.change())?;
            }
            Ok(format!("vote {}", encoded(&sent.message)))
        }
    }
}

fn error(error: Error) -> String {
    format!("error {:?}", error)
}

/// The stand-ins use no random numbers.
fn rng() -> StepRng {
    StepRng::new(0, 1)
}

fn yes_no(yes: bool) -> String {
    if yes { "yes".into() } else { "no".into() }
}

/// Values one after the other to the end of the bytes.
fn read_all<T: DeserializeOwned>(mut bytes: &[u8]) -> Answer<Vec<T>> {
    let mut values = Vec::new();
    while !bytes.is_empty() {
        values.push(read_next(&mut bytes)?);
    }
    Ok(values)
}

/// The value at the start of the bytes, which are then those behind it.
fn read_next<T: DeserializeOwned>(bytes: &mut &[u8]) -> Answer<T> {
    bincode::deserialize_from(bytes).map_err(|_| "bytes that cannot be read".into())
}

/// Of the node with index i, 17 flags: whether its part is recorded, and who of the 16 acknowledged it.
fn parts_of(flags: &[u8]) -> Vec<(u64, Vec<u64>)> {
    let rows = flags.chunks(17).enumerate().filter(|(_, row)| row[0] != 0);
    rows.map(|(i, row)| (i as u64, (0..16).filter(|j| row[1 + j] != 0).map(|j| j as u64).collect())).collect()
}

/// Single values of the Rust's functions, beside the log; a method for each.
impl Engine {
    pub fn value_max_faulty(bytes: &[u8]) -> Answer<String> {
        Ok(format!("ok {}", crate::util::max_faulty(read::<u64>(bytes)? as usize)))
    }

    pub fn value_winner(mut bytes: &[u8]) -> Answer<String> {
        let map = read_next(&mut bytes)?;
        let winner = VoteCounter::winner_of(map, read_all(bytes)?)?;
        Ok(winner.map_or("no".into(), |change| format!("ok {}", encoded(&change))))
    }

    pub fn value_complete(mut bytes: &[u8]) -> Answer<String> {
        let map = read_next(&mut bytes)?;
        let state = KeyGenState::new(SyncKeyGen::of_parts(map, parts_of(bytes))?);
        let key_gen = &state.key_gen;
        Ok(format!("ok {} {} {}", key_gen.count_complete(), yes_no(key_gen.is_ready()), yes_no(state.is_ready())))
    }
}

/// A method for each call of the log.
impl Engine {
    pub fn log_schedule(epoch: u64, schedule: &[u8]) -> Answer<String> {
        Ok(yes_no(read::<EncryptionSchedule>(schedule)?.use_on_epoch(epoch)))
    }

    pub fn log_user(node: u32, batch: &[u8]) -> Answer<String> {
        let batch = read_batch(batch)?;
        Ok(batch.get(&node).map_or("no".into(), |c| format!("yes {}", hex(&c.contrib))))
    }

    pub fn log_new(id: u32, key: u64, era: u64, map: &[u8], params: &[u8]) -> Answer<Self> {
        let map: PubKeyMap<u32> = read(map)?;
        map_within(&map)?;
        let params = read(params)?;
        within(key != 0)?;
        // The gate's own share: there is one where this node is a validator.
        let share = if map.contains_key(&id) { Some(Default::default()) } else { None };
        let netinfo = Arc::new(NetworkInfo::new(id, share, 0.into(), map.keys()));
        Ok(DynamicHoneyBadger::new(SecretKey(key), map, netinfo, params, era, 0))
    }

    pub fn log_join(id: u32, key: u64, plan: &[u8], due_places: usize) -> Answer<(Self, String)> {
        within(due_places >= 1025)?;
        let plan: JoinPlan<u32> = read(plan)?;
        map_within(&plan.pub_keys)?;
        match &plan.change {
            ChangeState::None => (),
            ChangeState::InProgress(change) | ChangeState::Complete(change) => change_within(change)?,
        }
        within(key != 0)?;
        let (mut engine, step) = DynamicHoneyBadger::new_joining(id, SecretKey(key), plan, &mut rng()).map_err(error)?;
        engine.drop_own();
        Ok((engine, format!("started due {}", due(&step))))
    }

    pub fn log_vote(&mut self, change: &[u8]) -> Answer<String> {
        let change = read(change)?;
        change_within(&change)?;
        vote_made(self.vote_for(change))
    }

    pub fn log_add(&mut self, id: u32, key: u64) -> Answer<String> {
        within(key != 0)?;
        vote_made(self.vote_to_add(id, PublicKey(key)))
    }

    pub fn log_remove(&mut self, id: u32) -> Answer<String> {
        vote_made(self.vote_to_remove(&id))
    }

    pub fn log_message(&mut self, sender: u32, message: &[u8]) -> Answer<String> {
        let message = match read(message)? {
            LogMessage::HoneyBadger(kept) => match kept {},
            LogMessage::KeyGen(era, msg, sig) => {
                rows_within(&msg)?;
                Message::KeyGen(era, key_gen(msg, sender, 0), Box::new(sig))
            }
            LogMessage::SignedVote(vote) => {
                change_within(vote.change())?;
                Message::SignedVote(vote)
            }
        };
        let step = self.handle_message(&sender, message, &mut rng()).map_err(error)?;
        self.store_within()?;
        Ok(if step.fault_log.is_empty() { "handled".into() } else { format!("fault {}", faults(&step.fault_log)) })
    }

    /// An own message, signed by the gate. The Rust stores it when it makes it, in `send_transaction`; the log when it is handed back.
    pub fn log_due(&mut self, message: &[u8]) -> Answer<String> {
        let (era, msg, sig) = match read(message)? {
            LogMessage::KeyGen(era, msg, sig) => (era, msg, sig),
            _ => return Err("no key message".into()),
        };
        rows_within(&msg)?;
        if era == self.era && self.netinfo().is_validator() {
            let id = *self.our_id();
            self.key_gen_msg_buffer.push(SignedKeyGenMsg(era, id, key_gen(msg, id, 0), sig));
            self.store_within()?;
        }
        Ok("handled".into())
    }

    /// No verdict is over `most`: 3, or the stand-ins' `UNSIGNED` for the generator.
    pub fn log_batch(&mut self, era: u64, inner: u64, batch: &[u8], verdicts: &[u8], most: u8, places: (usize, usize)) -> Answer<(Report, String)> {
        within(places.0 >= 1024 && places.1 >= 1025)?;
        // The Rust's batches carry no era: one of another era (document 02, CR 1) is handed on with --raw only, as if it were the engine's.
        within(era == self.era)?;
        let batch = read_batch(batch)?;
        if verdicts.len() != batch.values().map(|c| c.key_gen_messages.len()).sum() || verdicts.iter().any(|v| *v > most) {
            return Err("wrong verdicts".into());
        }
        within(self.era.checked_add(inner).map_or(false, |epoch| epoch < u64::max_value()))?;
        let degree = self.key_gen_state.as_ref().map_or(0, |kgs| kgs.key_gen.threshold());
        let mut verdicts = verdicts.iter();
        let mut contributions = BTreeMap::new();
        for (id, c) in batch {
            let signed = |LogSignedKeyGen(era, signer, msg, sig)| {
                let sig = Signature { verdict: *verdicts.next().unwrap(), ..sig };
                SignedKeyGenMsg(era, signer, key_gen(msg, signer, degree), sig)
            };
            let key_gen_messages = c.key_gen_messages.into_iter().map(signed).collect();
            contributions.insert(id, InternalContrib { contrib: c.contrib, key_gen_messages, votes: c.votes });
        }
        let given = honey_badger::Step::default().with_output(honey_badger::Batch { epoch: inner, contributions });
        let step = self.process_output(given, &mut rng()).map_err(error)?;
        self.drop_own();
        let report = step.output[0].clone();
        let answer = format!(
            "batch {} {} {} {} {} faults {} due {} recipe {}",
            report.epoch, report.era, encoded(&report.change), encoded(&report.pub_keys), encoded(&report.params),
            faults(&step.fault_log), due(&step), recipe(&report)
        );
        Ok((report, answer))
    }

    /// The gate lends the key set.
    pub fn log_plan(report: &Report, key_set: u64, room: usize) -> Answer<String> {
        within(room >= 448)?;
        Ok(match report.join_plan() {
            None => "none".into(),
            Some(plan) => format!("plan {}", encoded(&JoinPlan { pub_key_set: key_set.into(), ..plan })),
        })
    }

    /// The Rust's own report, as it stamped it.
    pub fn log_last(report: &Report) -> String {
        format!("last {} {}", report.epoch, report.era)
    }

    pub fn log_stored(&self, place: usize) -> String {
        self.key_gen_msg_buffer.get(place).map_or("none".into(), |SignedKeyGenMsg(era, id, msg, sig)| {
            format!("message {}", encoded(&LogSignedKeyGen(*era, *id, log_key_gen(msg), sig.clone())))
        })
    }

    pub fn log_pending(&self, place: usize) -> String {
        self.vote_counter.pending_votes().nth(place).map_or("none".into(), |vote| format!("vote {}", encoded(vote)))
    }

    pub fn log_propose(&mut self, has_input: bool, proposals: usize) -> String {
        let lent = if mode::raw() { self.netinfo().clone() } else { Arc::new(self.netinfo().as_validator()) };
        let own = self.honey_badger.lend_input(lent, has_input, proposals);
        let answer = yes_no(self.should_propose());
        self.honey_badger.lend_input(own, false, 0);
        answer
    }

    pub fn log_next(&mut self, inner: u64) -> Answer<String> {
        within(self.era.checked_add(inner).map_or(false, |epoch| epoch < u64::max_value()))?;
        self.honey_badger.lend_epoch(inner);
        let epoch = self.next_epoch();
        self.honey_badger.lend_epoch(0);
        Ok(format!("epoch {}", epoch))
    }

    pub fn log_state(&self) -> String {
        let votes = self.vote_counter.committed();
        let votes = votes.map(|(voter, num, change)| format!("{}:{}:{}", voter, num, encoded(change)));
        let kgs = self.key_gen_state.as_ref();
        let acks = |acks: Vec<u64>| list("+", acks.iter().map(u64::to_string));
        let parts = kgs.into_iter().flat_map(|kgs| kgs.key_gen.parts());
        let parts = parts.map(|(index, commit, by)| format!("{}:{}:{}", index, commit, acks(by)));
        format!(
            "state {} {} {} votes {} candidate {} parts {}",
            self.era, encoded(&self.pub_keys), encoded(self.honey_badger.params()),
            list(",", votes), kgs.map_or("-".into(), |kgs| encoded(kgs.public_keys())), list(",", parts)
        )
    }

    /// No call of the log: how many key messages each sender has sent, and how many messages are stored.
    pub fn counts(&self) -> String {
        let counts = self.key_gen_state.iter().flat_map(|kgs| &kgs.msg_count).map(|(id, n)| format!("{}:{}", id, n));
        format!("counts {} stored {}", list(",", counts), self.key_gen_msg_buffer.len())
    }

    fn store_within(&self) -> Answer<()> {
        within(self.key_gen_msg_buffer.len() <= 128)
    }

    /// Takes out what the Rust stored of its own: the log stores those when they are handed back.
    fn drop_own(&mut self) {
        if !mode::raw() {
            self.key_gen_msg_buffer.retain(|SignedKeyGenMsg(_, _, msg, _)| match msg {
                KeyGenMessage::Part(part) => part.from_log(),
                KeyGenMessage::Ack(ack) => ack.from_log(),
            })
        }
    }
}
