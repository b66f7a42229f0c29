//! Makes the test vectors of crates/decode with the real bincode library: `stdin`, a line `KIND HEX` for each, and `stdout`, the
//! answers, which come from here and never from the code under test. A valid value answers with bincode's own encoding of it; a damaged
//! one with the number of the row for which it was built. What the library itself does with each damage is checked beside it.
//! `vectors standing FOLDER` makes those; `vectors random FOLDER SEED COUNT` makes lines on COUNT join plans of both editions at random, in another folder; `vectors logs FOLDER` holds the
//! conversions of join plans in the logs that compare/generate wrote into a folder to the library.
mod damage;
mod edges;
mod library;
mod lines;
mod logs;
mod numbers;
mod plans;
mod shapes;
mod table;
mod wide;

use serde::{de::DeserializeOwned, Deserialize, Serialize};
use std::collections::BTreeMap;
use std::fmt::Write as _;

type Map = BTreeMap<u32, u64>;

#[derive(Serialize, Deserialize, Clone, PartialEq, Debug)]
enum EncryptionSchedule {
    Always,
    Never,
    EveryNthEpoch(u32),
    TickTock(u32, u32),
}

#[derive(Serialize, Deserialize, Clone, PartialEq, Debug)]
enum SubsetHandlingStrategy {
    Incremental,
    AllAtEnd,
}

#[derive(Serialize, Deserialize, Clone, PartialEq, Debug)]
struct Params {
    max_future_epochs: u64,
    subset_handling_strategy: SubsetHandlingStrategy,
    encryption_schedule: EncryptionSchedule,
}

// What holds a map can hold it as plain pairs too (logs.rs), which are the same bytes.
#[derive(Serialize, Deserialize, Clone, PartialEq, Debug)]
enum Change<M = Map> {
    NodeChange(M),
    EncryptionSchedule(EncryptionSchedule),
}

#[derive(Serialize, Deserialize, Clone, PartialEq, Debug)]
enum ChangeState<M = Map> {
    None,
    InProgress(Change<M>),
    Complete(Change<M>),
}

#[derive(Serialize, Deserialize, Clone, PartialEq, Debug)]
struct Vote {
    change: Change,
    era: u64,
    num: u64,
}

#[derive(Serialize, Deserialize, Clone, PartialEq, Debug)]
struct SignedVote {
    vote: Vote,
    voter: u32,
    sig: u64,
}

#[derive(Serialize, Deserialize, Clone, PartialEq, Debug)]
struct Part(u64, Vec<u64>);

#[derive(Serialize, Deserialize, Clone, PartialEq, Debug)]
struct Ack(u64, Vec<u64>);

#[derive(Serialize, Deserialize, Clone, PartialEq, Debug)]
enum KeyGenMessage {
    Part(Part),
    Ack(Ack),
}

#[derive(Serialize, Deserialize, Clone, PartialEq, Debug)]
struct SignedKeyGenMsg(u64, u32, KeyGenMessage, u64);

#[derive(Serialize, Deserialize, Clone, PartialEq, Debug)]
enum Message {
    HoneyBadger(u64, u64),
    KeyGen(u64, KeyGenMessage, Box<u64>),
    SignedVote(SignedVote),
}

#[derive(Serialize, Deserialize, Clone, PartialEq, Debug)]
struct InternalContrib {
    contrib: Vec<u8>,
    key_gen_messages: Vec<SignedKeyGenMsg>,
    votes: Vec<SignedVote>,
}

type Batch = BTreeMap<u32, InternalContrib>;

#[derive(Serialize, Deserialize, Clone, PartialEq, Debug)]
struct JoinPlan<M = Map> {
    era: u64,
    change: ChangeState<M>,
    pub_keys: M,
    pub_key_set: u64,
    params: Params,
}

/// A small generator of numbers, so that the vectors are the same on every machine.
struct Rng(u64);

impl Rng {
    fn next(&mut self) -> u64 {
        self.0 ^= self.0 << 13;
        self.0 ^= self.0 >> 7;
        self.0 ^= self.0 << 17;
        self.0
    }
    fn below(&mut self, n: u64) -> u64 {
        self.next() % n
    }
    /// Often a small number, sometimes an end of the range.
    fn u64(&mut self) -> u64 {
        match self.below(6) {
            0 => 0,
            1 => u64::MAX,
            2 => self.next(),
            _ => self.below(1000),
        }
    }
    fn u32(&mut self) -> u32 {
        match self.below(6) {
            0 => 0,
            1 => u32::MAX,
            2 => self.next() as u32,
            _ => self.below(1000) as u32,
        }
    }
    fn key(&mut self) -> u64 {
        self.u64().max(1)
    }
    fn map(&mut self, n: u64) -> Map {
        let mut m = Map::new();
        while (m.len() as u64) < n {
            let (id, key) = (self.u32(), self.key());
            m.insert(id, key);
        }
        m
    }
    fn some_map(&mut self) -> Map {
        let n = [0, 1, 2, 4, 7, 15, 16][self.below(7) as usize];
        self.map(n)
    }
    fn schedule(&mut self) -> EncryptionSchedule {
        match self.below(4) {
            0 => EncryptionSchedule::Always,
            1 => EncryptionSchedule::Never,
            2 => EncryptionSchedule::EveryNthEpoch(self.u32()),
            _ => EncryptionSchedule::TickTock(self.u32(), self.u32()),
        }
    }
    fn params(&mut self) -> Params {
        Params {
            max_future_epochs: self.u64(),
            subset_handling_strategy: if self.below(2) == 0 {
                SubsetHandlingStrategy::Incremental
            } else {
                SubsetHandlingStrategy::AllAtEnd
            },
            encryption_schedule: self.schedule(),
        }
    }
    fn change(&mut self) -> Change {
        if self.below(2) == 0 {
            Change::NodeChange(self.some_map())
        } else {
            Change::EncryptionSchedule(self.schedule())
        }
    }
    fn state(&mut self) -> ChangeState {
        match self.below(3) {
            0 => ChangeState::None,
            1 => ChangeState::InProgress(self.change()),
            _ => ChangeState::Complete(self.change()),
        }
    }
    fn vote(&mut self) -> Vote {
        Vote { change: self.change(), era: self.u64(), num: self.u64() }
    }
    fn signed_vote(&mut self) -> SignedVote {
        SignedVote { vote: self.vote(), voter: self.u32(), sig: self.u64() }
    }
    fn handles(&mut self) -> Vec<u64> {
        let n = [0, 1, 4, 16, 23, 24][self.below(6) as usize];
        (0..n).map(|_| self.u64()).collect()
    }
    fn key_gen(&mut self) -> KeyGenMessage {
        if self.below(2) == 0 {
            KeyGenMessage::Part(Part(self.u64(), self.handles()))
        } else {
            KeyGenMessage::Ack(Ack(self.u64(), self.handles()))
        }
    }
    fn signed_key_gen(&mut self) -> SignedKeyGenMsg {
        SignedKeyGenMsg(self.u64(), self.u32(), self.key_gen(), self.u64())
    }
    fn message(&mut self) -> Message {
        if self.below(2) == 0 {
            Message::KeyGen(self.u64(), self.key_gen(), Box::new(self.u64()))
        } else {
            Message::SignedVote(self.signed_vote())
        }
    }
    fn contrib(&mut self) -> InternalContrib {
        let user = [0, 1, 40, 300][self.below(4) as usize];
        InternalContrib {
            contrib: (0..user).map(|_| self.next() as u8).collect(),
            key_gen_messages: (0..self.below(4)).map(|_| self.signed_key_gen()).collect(),
            votes: (0..self.below(4)).map(|_| self.signed_vote()).collect(),
        }
    }
    fn batch(&mut self) -> Batch {
        let n = [0, 1, 2, 4, 16][self.below(5) as usize];
        let ids = self.map(n);
        ids.keys().map(|id| (*id, self.contrib())).collect()
    }
    fn plan(&mut self) -> JoinPlan {
        JoinPlan {
            era: self.u64(),
            change: self.state(),
            pub_keys: self.some_map(),
            pub_key_set: self.u64(),
            params: self.params(),
        }
    }
}

fn hex(bytes: &[u8]) -> String {
    if bytes.is_empty() {
        return "-".to_string();
    }
    let mut s = String::new();
    for b in bytes {
        write!(s, "{:02x}", b).unwrap();
    }
    s
}

fn enc<T: Serialize>(t: &T) -> Vec<u8> {
    bincode::serialize(t).unwrap()
}

fn accepts<T: DeserializeOwned>(bytes: &[u8]) -> bool {
    bincode::deserialize::<T>(bytes).is_ok()
}

fn with_u32(bytes: &[u8], at: usize, x: u32) -> Vec<u8> {
    let mut b = bytes.to_vec();
    b[at..at + 4].copy_from_slice(&x.to_le_bytes());
    b
}

fn with_u64(bytes: &[u8], at: usize, x: u64) -> Vec<u8> {
    let mut b = bytes.to_vec();
    b[at..at + 8].copy_from_slice(&x.to_le_bytes());
    b
}

fn map_text(m: &Map) -> String {
    if m.is_empty() {
        return "-".to_string();
    }
    let nodes: Vec<String> = m.iter().map(|(id, key)| format!("{}:{}", id, key)).collect();
    nodes.join(",")
}

fn schedule_text(s: &EncryptionSchedule) -> String {
    match s {
        EncryptionSchedule::Always => "Always".to_string(),
        EncryptionSchedule::Never => "Never".to_string(),
        EncryptionSchedule::EveryNthEpoch(n) => format!("EveryNthEpoch {}", n),
        EncryptionSchedule::TickTock(on, off) => format!("TickTock {} {}", on, off),
    }
}

fn vote_text(v: &Vote) -> String {
    let change = match &v.change {
        Change::NodeChange(m) => format!("NodeChange {}", map_text(m)),
        Change::EncryptionSchedule(s) => format!("EncryptionSchedule {}", schedule_text(s)),
    };
    format!("era {} num {} {}", v.era, v.num, change)
}

#[derive(Default)]
struct Out {
    input: String,
    answers: String,
    count: usize,
    accepted_damage: BTreeMap<&'static str, usize>,
}

impl Out {
    fn line(&mut self, kind: &str, bytes: &[u8], answer: &str) {
        writeln!(self.input, "{} {}", kind, hex(bytes)).unwrap();
        writeln!(self.answers, "{}", answer).unwrap();
        self.count += 1;
    }
    fn note(&mut self, line: &str) {
        writeln!(self.input, "# {}", line).unwrap();
    }
    fn append(&mut self, more: &Out) {
        self.input += &more.input;
        self.answers += &more.answers;
        self.count += more.count;
    }
    /// A valid value answers with the library's encoding of it; a map and a vote are shown too.
    fn valid(&mut self, kind: &str, bytes: &[u8], shown: &str) {
        let tail = if shown.is_empty() { String::new() } else { format!(" {}", shown) };
        self.line(kind, bytes, &format!("ok {}{}", hex(bytes), tail));
    }
    /// A damaged value answers with the row for which it was built. Where the library accepts it, that is counted.
    fn damaged<T: DeserializeOwned>(&mut self, kind: &str, bytes: &[u8], row: u8, why: &'static str) {
        if accepts::<T>(bytes) {
            *self.accepted_damage.entry(why).or_insert(0) += 1;
        }
        self.line(kind, bytes, &format!("refused {}", row));
    }
    /// Cut at some places, one byte more, and nothing at all. A cut is 2 wherever it falls: no count before it is over its size.
    fn cuts<T: DeserializeOwned>(&mut self, rng: &mut Rng, kind: &str, bytes: &[u8]) {
        self.damaged::<T>(kind, &bytes[..bytes.len() - 1], 2, "cut");
        let n = rng.below(bytes.len() as u64) as usize;
        self.damaged::<T>(kind, &bytes[..n], 2, "cut");
        let mut more = bytes.to_vec();
        more.push(rng.next() as u8);
        self.damaged::<T>(kind, &more, 2, "left over");
        self.damaged::<T>(kind, &[], 2, "empty");
    }
}

fn numbered(n: u32) -> Map {
    (1..=n).map(|i| (i, u64::from(i) + 10)).collect()
}

fn maps(rng: &mut Rng, out: &mut Out) {
    out.note("maps: 16 nodes are read, 17 are refused");
    for n in [0, 1, 2, 3, 4, 7, 15, 16] {
        let m = numbered(n);
        out.valid("map", &enc(&m), &map_text(&m));
    }
    for _ in 0..8 {
        let m = rng.some_map();
        out.valid("map", &enc(&m), &map_text(&m));
    }
    out.damaged::<Map>("map", &enc(&numbered(17)), 3, "map of 17");
    out.damaged::<Map>("map", &17u64.to_le_bytes(), 3, "count over its size, nothing behind");
    out.damaged::<Map>("map", &u64::MAX.to_le_bytes(), 3, "count over its size, nothing behind");
    out.damaged::<Map>("map", &16u64.to_le_bytes(), 2, "cut");
    out.damaged::<Map>("map", &[1, 0, 0, 0, 0, 0, 0], 2, "cut");
    out.damaged::<Map>("map", &[0; 9], 2, "left over");
    let four = enc(&numbered(4));
    out.damaged::<Map>("map", &with_u32(&four, 8 + 12, 1), 2, "id repeated");
    out.damaged::<Map>("map", &with_u32(&four, 8 + 24, 1), 2, "ids unsorted");
    out.damaged::<Map>("map", &with_u32(&four, 8, u32::MAX), 2, "ids unsorted");
    out.damaged::<Map>("map", &with_u64(&four, 12, 0), 2, "key 0");
    out.damaged::<Map>("map", &with_u64(&four, 48, 0), 2, "key 0");
    out.cuts::<Map>(rng, "map", &four);
    let sixteen = enc(&numbered(16));
    out.cuts::<Map>(rng, "map", &sixteen);
}

fn schedules(rng: &mut Rng, out: &mut Out) {
    out.note("schedules, parameters");
    for _ in 0..10 {
        out.valid("schedule", &enc(&rng.schedule()), "");
    }
    for x in [EncryptionSchedule::EveryNthEpoch(0), EncryptionSchedule::TickTock(0, 0), EncryptionSchedule::TickTock(u32::MAX, 1)] {
        out.valid("schedule", &enc(&x), "");
    }
    let tick = enc(&EncryptionSchedule::TickTock(2, 3));
    for tag in [4, 9, u32::MAX] {
        out.damaged::<EncryptionSchedule>("schedule", &with_u32(&tick, 0, tag), 2, "unknown tag");
    }
    out.cuts::<EncryptionSchedule>(rng, "schedule", &tick);
    for _ in 0..10 {
        out.valid("params", &enc(&rng.params()), "");
    }
    let p = enc(&Params {
        max_future_epochs: 3,
        subset_handling_strategy: SubsetHandlingStrategy::AllAtEnd,
        encryption_schedule: EncryptionSchedule::TickTock(2, 3),
    });
    out.damaged::<Params>("params", &with_u32(&p, 8, 2), 2, "unknown tag");
    out.damaged::<Params>("params", &with_u32(&p, 12, 4), 2, "unknown tag");
    out.cuts::<Params>(rng, "params", &p);
}

fn changes(rng: &mut Rng, out: &mut Out) {
    out.note("changes, change states");
    for _ in 0..10 {
        out.valid("change", &enc(&rng.change()), "");
    }
    let c = enc(&Change::NodeChange(numbered(4)));
    out.damaged::<Change>("change", &with_u32(&c, 0, 2), 2, "unknown tag");
    out.damaged::<Change>("change", &with_u32(&c, 0, 9), 2, "unknown tag");
    out.damaged::<Change>("change", &with_u64(&c, 4, 17), 3, "map of 17");
    out.damaged::<Change>("change", &with_u64(&c, 16, 0), 2, "key 0");
    out.cuts::<Change>(rng, "change", &c);
    for _ in 0..10 {
        out.valid("state", &enc(&rng.state()), "");
    }
    let s = enc(&ChangeState::Complete(Change::NodeChange(numbered(3))));
    out.damaged::<ChangeState>("state", &with_u32(&s, 0, 3), 2, "unknown tag");
    out.damaged::<ChangeState>("state", &with_u32(&s, 4, 2), 2, "unknown tag");
    out.damaged::<ChangeState>("state", &with_u64(&s, 8, 18), 3, "map of 17");
    out.cuts::<ChangeState>(rng, "state", &s);
}

fn votes(rng: &mut Rng, out: &mut Out) {
    out.note("votes: the 28 bytes of document 01, then others");
    let v = Vote { change: Change::EncryptionSchedule(EncryptionSchedule::EveryNthEpoch(3)), era: 5, num: 0 };
    let bytes = enc(&v);
    assert_eq!(hex(&bytes), "01000000020000000300000005000000000000000000000000000000");
    out.valid("vote", &bytes, &vote_text(&v));
    for _ in 0..10 {
        let v = rng.vote();
        out.valid("vote", &enc(&v), &vote_text(&v));
    }
    out.damaged::<Vote>("vote", &with_u32(&bytes, 0, 2), 2, "unknown tag");
    out.damaged::<Vote>("vote", &with_u32(&bytes, 4, 4), 2, "unknown tag");
    out.cuts::<Vote>(rng, "vote", &bytes);
    for _ in 0..10 {
        out.valid("signed-vote", &enc(&rng.signed_vote()), "");
    }
    let s = enc(&SignedVote { vote: Vote { change: Change::NodeChange(numbered(16)), era: 1, num: 2 }, voter: 3, sig: 13 });
    out.damaged::<SignedVote>("signed-vote", &with_u64(&s, 4, 17), 3, "map of 17");
    out.cuts::<SignedVote>(rng, "signed-vote", &s);
}

fn key_gen(rng: &mut Rng, out: &mut Out) {
    out.note("parts, acks, key-generation messages: 24 rows are read, 25 are refused");
    for n in [0usize, 1, 4, 24] {
        out.valid("part", &enc(&Part(rng.u64(), (0..n as u64).collect())), "");
        out.valid("ack", &enc(&Ack(rng.u64(), (0..n as u64).collect())), "");
    }
    let part = enc(&Part(7, (0..4).collect()));
    let ack = enc(&Ack(u64::MAX, (0..4).collect()));
    out.damaged::<Part>("part", &enc(&Part(7, (0..25).collect())), 3, "25 rows");
    out.damaged::<Ack>("ack", &enc(&Ack(7, (0..25).collect())), 3, "25 rows");
    out.damaged::<Part>("part", &with_u64(&part, 8, 25), 3, "count over its size, cut");
    out.damaged::<Ack>("ack", &with_u64(&ack, 8, u64::MAX), 3, "count over its size, cut");
    out.damaged::<Part>("part", &with_u64(&part, 8, 24), 2, "cut");
    out.cuts::<Part>(rng, "part", &part);
    out.cuts::<Ack>(rng, "ack", &ack);
    for _ in 0..10 {
        out.valid("key-gen", &enc(&rng.key_gen()), "");
        out.valid("signed-key-gen", &enc(&rng.signed_key_gen()), "");
    }
    let k = enc(&KeyGenMessage::Part(Part(7, (0..4).collect())));
    out.damaged::<KeyGenMessage>("key-gen", &with_u32(&k, 0, 2), 2, "unknown tag");
    out.cuts::<KeyGenMessage>(rng, "key-gen", &k);
    let s = enc(&SignedKeyGenMsg(5, 1, KeyGenMessage::Ack(Ack(0, (0..4).collect())), 11));
    out.damaged::<SignedKeyGenMsg>("signed-key-gen", &with_u32(&s, 12, 2), 2, "unknown tag");
    out.damaged::<SignedKeyGenMsg>("signed-key-gen", &with_u64(&s, 24, 25), 3, "count over its size, cut");
    out.cuts::<SignedKeyGenMsg>(rng, "signed-key-gen", &s);
}

fn messages(rng: &mut Rng, out: &mut Out) {
    out.note("messages: tag 0 is unknown here, though the library knows it");
    for _ in 0..12 {
        out.valid("message", &enc(&rng.message()), "");
    }
    let m = enc(&Message::KeyGen(5, KeyGenMessage::Part(Part(7, (0..4).collect())), Box::new(11)));
    out.damaged::<Message>("message", &enc(&Message::HoneyBadger(5, 6)), 2, "tag 0 of Message");
    out.damaged::<Message>("message", &with_u32(&m, 0, 3), 2, "unknown tag");
    out.damaged::<Message>("message", &with_u32(&m, 12, 2), 2, "unknown tag");
    out.damaged::<Message>("message", &with_u64(&m, 24, 25), 3, "count over its size, cut");
    out.cuts::<Message>(rng, "message", &m);
}

fn plans(rng: &mut Rng, out: &mut Out) {
    out.note("join plans: the longest takes 448 bytes");
    for _ in 0..12 {
        out.valid("plan", &enc(&rng.plan()), "");
    }
    let longest = JoinPlan {
        era: u64::MAX,
        change: ChangeState::InProgress(Change::NodeChange(numbered(16))),
        pub_keys: numbered(16),
        pub_key_set: 0,
        params: Params {
            max_future_epochs: 3,
            subset_handling_strategy: SubsetHandlingStrategy::Incremental,
            encryption_schedule: EncryptionSchedule::TickTock(1, 1),
        },
    };
    let p = enc(&longest);
    assert_eq!(p.len(), 448);
    out.valid("plan", &p, "");
    out.damaged::<JoinPlan>("plan", &with_u32(&p, 8, 3), 2, "unknown tag");
    out.damaged::<JoinPlan>("plan", &with_u64(&p, 16, 17), 3, "map of 17");
    out.damaged::<JoinPlan>("plan", &with_u64(&p, 216, 17), 3, "map of 17");
    out.damaged::<JoinPlan>("plan", &with_u64(&p, 228, 0), 2, "key 0");
    out.cuts::<JoinPlan>(rng, "plan", &p);
}

fn one(id: u32, c: InternalContrib) -> Batch {
    let mut b = Batch::new();
    b.insert(id, c);
    b
}

fn empty() -> InternalContrib {
    InternalContrib { contrib: vec![], key_gen_messages: vec![], votes: vec![] }
}

fn valid_batch(out: &mut Out, b: &Batch) {
    let bytes = enc(b);
    assert!(bytes.len() <= 65536);
    let messages: usize = b.values().map(|c| c.key_gen_messages.len()).sum();
    out.line("batch", &bytes, &format!("ok {}", messages));
}

fn batches(rng: &mut Rng, out: &mut Out) {
    out.note("batches answer with the number of their key-generation messages");
    for _ in 0..12 {
        let b = rng.batch();
        valid_batch(out, &b);
    }
    let sixteen: Batch = (1..=16).map(|i| (i, empty())).collect();
    let seventeen: Batch = (1..=17).map(|i| (i, empty())).collect();
    valid_batch(out, &sixteen);
    out.damaged::<Batch>("batch", &enc(&seventeen), 3, "17 contributions");
    valid_batch(out, &one(1, InternalContrib { contrib: vec![7; 4096], ..empty() }));
    out.damaged::<Batch>("batch", &enc(&one(1, InternalContrib { contrib: vec![7; 4097], ..empty() })), 3, "4,097 user bytes");
    out.note("1,024 votes and messages together, and one more");
    let vote = SignedVote { vote: Vote { change: Change::EncryptionSchedule(EncryptionSchedule::Always), era: 0, num: 0 }, voter: 1, sig: 11 };
    let part = SignedKeyGenMsg(0, 1, KeyGenMessage::Part(Part(7, vec![])), 11);
    let mixed = |m: usize, v: usize| InternalContrib { contrib: vec![], key_gen_messages: vec![part.clone(); m], votes: vec![vote.clone(); v] };
    let mut two = one(1, mixed(500, 500));
    two.insert(2, mixed(12, 12));
    valid_batch(out, &two);
    two.insert(2, mixed(12, 13));
    out.damaged::<Batch>("batch", &enc(&two), 3, "1,025 votes and messages");
    two.insert(2, mixed(25, 0));
    out.damaged::<Batch>("batch", &enc(&two), 3, "1,025 votes and messages");
    out.note("whole length first: 65,536 bytes are read, 65,537 are refused before anything else");
    let mut long = Batch::new();
    for i in 1..=16 {
        long.insert(i, InternalContrib { contrib: vec![i as u8; 4064], ..empty() });
    }
    let spare = 65536 - enc(&long).len();
    for i in 1..=spare {
        let c = long.get_mut(&(1 + (i as u32 - 1) % 16)).unwrap();
        c.contrib.push(9);
    }
    let full = enc(&long);
    assert_eq!(full.len(), 65536);
    valid_batch(out, &long);
    let mut more = full.clone();
    more.push(0);
    out.damaged::<Batch>("batch", &more, 3, "65,537 bytes");
    out.damaged::<Batch>("batch", &vec![255; 65537], 3, "65,537 bytes");
    let b = enc(&one(5, InternalContrib { contrib: vec![1, 2, 3], key_gen_messages: vec![part.clone()], votes: vec![vote.clone()] }));
    out.cuts::<Batch>(rng, "batch", &b);
    out.damaged::<Batch>("batch", &with_u64(&b, 12, 4097), 3, "count over its size, cut");
    out.damaged::<Batch>("batch", &with_u64(&b, 23, 1025), 3, "count over its size, cut");
    let mut pair = one(5, empty());
    pair.insert(6, empty());
    let p = enc(&pair);
    out.damaged::<Batch>("batch", &with_u32(&p, 8, 6), 2, "id repeated");
    out.damaged::<Batch>("batch", &with_u32(&p, 8, 7), 2, "ids unsorted");
    out.note("the first refusal met wins: an id that does not ascend before a count over its size in the same contribution");
    out.damaged::<Batch>("batch", &with_u64(&with_u32(&p, 8, 6), 40, 4097), 2, "id repeated");
    out.damaged::<Batch>("batch", &with_u64(&with_u32(&p, 8, 6), 12, 4097), 3, "count over its size, cut");
}

/// A node's user bytes: the id in four bytes, then the batch.
fn ask_user(out: &mut Out, id: u32, batch: &[u8], answer: &str) {
    let mut bytes = id.to_le_bytes().to_vec();
    bytes.extend_from_slice(batch);
    out.line("user", &bytes, answer);
}

fn users(rng: &mut Rng, out: &mut Out) {
    out.note("user bytes of one node: found, empty, absent, and in a batch that is refused behind them");
    let mut b = Batch::new();
    b.insert(0, InternalContrib { contrib: vec![1, 2, 3], ..rng.contrib() });
    b.insert(7, InternalContrib { contrib: vec![], ..rng.contrib() });
    b.insert(u32::MAX, InternalContrib { contrib: vec![9; 300], ..rng.contrib() });
    let bytes = enc(&b);
    for id in [0, 1, 7, 8, u32::MAX] {
        let answer = match b.get(&id) {
            Some(c) => format!("ok {}", hex(&c.contrib)),
            None => "no".to_string(),
        };
        ask_user(out, id, &bytes, &answer);
    }
    ask_user(out, 0, &bytes[..bytes.len() - 1], "refused 2");
    let mut more = bytes.clone();
    more.push(0);
    ask_user(out, 0, &more, "refused 2");
    ask_user(out, 0, &enc(&Batch::new()), "no");
    ask_user(out, 0, &vec![0; 65537], "refused 3");
    for _ in 0..6 {
        let b = rng.batch();
        for (id, c) in b.iter().take(2) {
            ask_user(out, *id, &enc(&b), &format!("ok {}", hex(&c.contrib)));
        }
    }
}

fn write_files(dir: &str, out: &Out) {
    std::fs::write(format!("{}/stdin", dir), &out.input).unwrap();
    std::fs::write(format!("{}/stdout", dir), &out.answers).unwrap();
}

fn no_values(out: &mut Out) {
    out.note("no values at all");
    let values = ["user 000000", "map 0", "map 0g", "map 0A", "map", "maps 00", "map 00 00", " map 00"];
    let conversions = ["plan-new", "plan-old", "plan-new 0", "plan-old 0g", "plan-new 0A", "plan-old 00 00", "plan-olds 00", "plan-New 00", "plan 00 491"];
    for bad in values.iter().chain(&conversions) {
        writeln!(out.input, "{}", bad).unwrap();
        writeln!(out.answers, "bad line").unwrap();
    }
}

fn standing(dir: &str) {
    let mut rng = Rng(0x9e37_79b9_7f4a_7c15);
    let mut out = Out::default();
    out.note("Made by vectors/ with the bincode library; see CONTRIBUTING.md. A line is a kind of value and its bytes.");
    maps(&mut rng, &mut out);
    schedules(&mut rng, &mut out);
    changes(&mut rng, &mut out);
    votes(&mut rng, &mut out);
    key_gen(&mut rng, &mut out);
    messages(&mut rng, &mut out);
    plans(&mut rng, &mut out);
    batches(&mut rng, &mut out);
    users(&mut rng, &mut out);
    let conversions = plans::standing();
    out.append(&conversions.out);
    no_values(&mut out);
    write_files(dir, &out);
    eprintln!("{} vectors, {} of them on plans of both editions; of the other damaged ones the library accepts:", out.count, conversions.out.count);
    for (why, n) in &out.accepted_damage {
        eprintln!("  {} {}", n, why);
    }
    eprint!("{}", conversions.table.text());
}

fn random(dir: &str, seed: &str, count: &str) {
    let lines = plans::at_random(seed.parse().expect("a seed"), count.parse().expect("how many plans"));
    write_files(dir, &lines.out);
    print!("{}", lines.table.text());
}

fn main() {
    let args: Vec<String> = std::env::args().skip(1).collect();
    let words: Vec<&str> = args.iter().map(String::as_str).collect();
    match words.as_slice() {
        ["standing", dir] => standing(dir),
        ["random", dir, seed, count] => random(dir, seed, count),
        ["logs", dir] => logs::check(dir),
        _ => panic!("vectors standing FOLDER, vectors random FOLDER SEED COUNT, or vectors logs FOLDER"),
    }
}
