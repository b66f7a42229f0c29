//! Reaches the private fields of sync_key_gen.rs. A row or value is a u64 in the log and eight bytes in the Rust's lists.
use super::{Ack, BivarCommitment, Part, ProposalState, SyncKeyGen};
use crate::crypto::SecretKey;
use crate::{util, Answer, PubKeyMap};
use rand::rngs::mock::StepRng;

fn widen(handles: Vec<u64>) -> Vec<Vec<u8>> {
    handles.into_iter().map(|h| h.to_le_bytes().to_vec()).collect()
}

/// A row that the Rust made itself has no bytes and is shown as 0.
fn handles(rows: &[Vec<u8>]) -> Vec<u64> {
    let handle = |row: &Vec<u8>| row.iter().rev().fold(0, |n, b| n << 8 | u64::from(*b));
    rows.iter().map(handle).collect()
}

/// Not made by the Rust itself: that one encrypts to no bytes, and has a row or value for itself at least.
fn from_log(rows: &[Vec<u8>]) -> bool {
    rows.iter().all(|row| row.len() == 8)
}

impl Part {
    pub fn of(commit: BivarCommitment, rows: Vec<u64>) -> Self {
        Part(commit, widen(rows))
    }
    pub fn handles(&self) -> (u64, Vec<u64>) {
        (self.0.handle, handles(&self.1))
    }
    pub fn from_log(&self) -> bool {
        from_log(&self.1)
    }
}

impl Ack {
    pub fn of(proposer: u64, values: Vec<u64>) -> Self {
        Ack(proposer, widen(values))
    }
    pub fn handles(&self) -> (u64, Vec<u64>) {
        (self.0, handles(&self.1))
    }
    pub fn from_log(&self) -> bool {
        from_log(&self.1)
    }
}

impl SyncKeyGen<u32> {
    pub fn threshold(&self) -> usize {
        self.threshold
    }
    /// The recorded parts by proposer's index: index, commitment, acknowledgers.
    pub fn parts(&self) -> impl Iterator<Item = (u64, u64, Vec<u64>)> + '_ {
        self.parts.iter().map(|(index, part)| (*index, part.commit.handle, part.acks.iter().cloned().collect()))
    }

    /// An observer's key generation with the parts of these indices recorded, each with its acknowledgers.
    pub fn of_parts(map: PubKeyMap<u32>, parts: Vec<(u64, Vec<u64>)>) -> Answer<Self> {
        let threshold = util::max_faulty(map.len());
        let made = SyncKeyGen::new(0, SecretKey(1), map, threshold, &mut StepRng::new(0, 1));
        let (mut key_gen, _) = made.map_err(|error| format!("error {:?}", error))?;
        for (index, acks) in parts {
            let mut state = ProposalState::new(BivarCommitment { handle: 0, proposer: 0, degree: threshold });
            state.acks.extend(acks);
            key_gen.parts.insert(index, state);
        }
        Ok(key_gen)
    }
}
