//! Reaches the private fields of votes.rs.
use super::{Change, SignedVote, VoteCounter};
use crate::crypto::SecretKey;
use crate::{Answer, PubKeyMap};

impl SignedVote<u32> {
    pub fn change(&self) -> &Change<u32> {
        &self.vote.change
    }
}

impl VoteCounter<u32> {
    /// The committed votes by voter: voter, number, change.
    pub fn committed(&self) -> impl Iterator<Item = (u32, u64, &Change<u32>)> {
        self.committed.iter().map(|(voter, vote)| (*voter, vote.num, &vote.change))
    }

    /// What wins after a fresh counter of era 0 has committed the votes in this order.
    pub fn winner_of(map: PubKeyMap<u32>, votes: Vec<SignedVote<u32>>) -> Answer<Option<Change<u32>>> {
        let mut counter = VoteCounter::new(0, SecretKey(1), map, 0);
        counter.add_committed_votes(&0, votes).map_err(|error| format!("error {:?}", error))?;
        Ok(counter.compute_winner().cloned())
    }
}
