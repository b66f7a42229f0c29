//! A join plan as the numbers that it is made of, in order, and its bytes in both editions. They are put together here so that one number can be written otherwise; where none is, they must
//! be the library's own.
use crate::library::{encoded, Edition, BOTH};
use crate::{Change, ChangeState, EncryptionSchedule, JoinPlan, Map, SubsetHandlingStrategy};

/// The field that a number stands in, with what its rule needs.
#[derive(Clone, Copy)]
pub enum Field {
    Any64,
    Any32,
    /// Tags below this one are known.
    Tag(u64),
    Count,
    /// The id before it in its map.
    Id(Option<u64>),
    Key,
}

#[derive(Clone, Copy)]
pub struct Number {
    pub field: Field,
    pub value: u64,
}

impl Number {
    pub fn width(&self) -> usize {
        match self.field {
            Field::Any32 | Field::Tag(_) | Field::Id(_) => 4,
            Field::Any64 | Field::Count | Field::Key => 8,
        }
    }
    pub fn fits(&self) -> bool {
        self.width() == 8 || self.value < 1 << 32
    }
    pub fn bytes(&self, edition: Edition) -> Vec<u8> {
        match edition {
            Edition::Old => self.value.to_le_bytes()[..self.width()].to_vec(),
            Edition::New => shortest(self.value),
        }
    }
}

/// The least number that a marker may stand before.
pub fn least(marker: u8) -> u64 {
    match marker {
        251 => 251,
        252 => 1 << 16,
        _ => 1 << 32,
    }
}

/// A marker and the bytes that it announces.
pub fn marked(marker: u8, x: u64) -> Vec<u8> {
    let mut b = vec![marker];
    b.extend_from_slice(&x.to_le_bytes()[..1 << (marker - 250)]);
    b
}

pub fn shortest(x: u64) -> Vec<u8> {
    match [253, 252, 251].iter().find(|m| x >= least(**m)) {
        Some(m) => marked(*m, x),
        None => vec![x as u8],
    }
}

pub fn written(numbers: &[Number], edition: Edition) -> Vec<u8> {
    numbers.iter().flat_map(|n| n.bytes(edition)).collect()
}

fn push(out: &mut Vec<Number>, field: Field, value: u64) {
    out.push(Number { field, value });
}

fn map(out: &mut Vec<Number>, m: &Map) {
    push(out, Field::Count, m.len() as u64);
    let mut before = None;
    for (id, key) in m {
        push(out, Field::Id(before), u64::from(*id));
        push(out, Field::Key, *key);
        before = Some(u64::from(*id));
    }
}

fn schedule(out: &mut Vec<Number>, s: &EncryptionSchedule) {
    let (tag, numbers) = match s {
        EncryptionSchedule::Always => (0, vec![]),
        EncryptionSchedule::Never => (1, vec![]),
        EncryptionSchedule::EveryNthEpoch(n) => (2, vec![*n]),
        EncryptionSchedule::TickTock(on, off) => (3, vec![*on, *off]),
    };
    push(out, Field::Tag(4), tag);
    for n in numbers {
        push(out, Field::Any32, u64::from(n));
    }
}

fn change(out: &mut Vec<Number>, c: &Change) {
    match c {
        Change::NodeChange(m) => {
            push(out, Field::Tag(2), 0);
            map(out, m);
        }
        Change::EncryptionSchedule(s) => {
            push(out, Field::Tag(2), 1);
            schedule(out, s);
        }
    }
}

fn state(out: &mut Vec<Number>, s: &ChangeState) {
    match s {
        ChangeState::None => push(out, Field::Tag(3), 0),
        ChangeState::InProgress(c) => {
            push(out, Field::Tag(3), 1);
            change(out, c);
        }
        ChangeState::Complete(c) => {
            push(out, Field::Tag(3), 2);
            change(out, c);
        }
    }
}

/// The numbers of a plan; written, they are the library's two encodings.
pub fn numbers(p: &JoinPlan) -> Vec<Number> {
    let mut out = vec![];
    push(&mut out, Field::Any64, p.era);
    state(&mut out, &p.change);
    map(&mut out, &p.pub_keys);
    push(&mut out, Field::Any64, p.pub_key_set);
    push(&mut out, Field::Any64, p.params.max_future_epochs);
    let strategy = p.params.subset_handling_strategy == SubsetHandlingStrategy::AllAtEnd;
    push(&mut out, Field::Tag(2), u64::from(strategy));
    schedule(&mut out, &p.params.encryption_schedule);
    for edition in BOTH {
        assert_eq!(written(&out, edition), encoded(p, edition));
    }
    out
}
