//! Stands for hbbft's lib.rs: the names that the taken files import from the crate's root.
#![allow(warnings)]

pub mod crypto;
pub mod dynamic_honey_badger;
pub mod fault_log;
pub mod honey_badger;
mod messaging;
mod network_info;
pub mod pairing;
pub mod sync_key_gen;
mod traits;
pub mod util;

pub use crate::fault_log::{Fault, FaultLog};
pub use crate::messaging::{SourcedMessage, Target, TargetedMessage};
pub use crate::network_info::{NetworkInfo, ValidatorSet};
pub use crate::sync_key_gen::PubKeyMap;
pub use crate::traits::{
    ConsensusProtocol, Contribution, CpStep, EpochT, Epoched, FaultT, Message, NodeIdT, SessionIdT, Step,
};

/// Stands for the sender queue: traits.rs names this trait in a function that is never called here.
pub mod sender_queue {
    pub trait SenderQueueableMessage {
        type Epoch: crate::EpochT;
        fn is_premature(&self, them: Self::Epoch, max_future_epochs: u64) -> bool;
        fn is_obsolete(&self, them: Self::Epoch) -> bool;
    }
}

// From here on the oracle's own.

/// The Rust over the stand-ins: station ids are u32, user contributions are bytes.
pub type Engine = dynamic_honey_badger::DynamicHoneyBadger<Vec<u8>, u32>;
pub type Report = dynamic_honey_badger::Batch<Vec<u8>, u32>;

/// An answer, or in words why there is none.
pub type Answer<T> = Result<T, String>;

/// How the oracle runs; set once, before the first call.
pub mod mode {
    use std::sync::atomic::{AtomicBool, Ordering::Relaxed};

    pub static RAW: AtomicBool = AtomicBool::new(false);
    pub static SHARE_PASSES: AtomicBool = AtomicBool::new(false);

    /// The Rust as it is: none of document 01's limits, own messages stored when made, nothing put back.
    pub fn raw() -> bool {
        RAW.load(Relaxed)
    }

    /// A share of too few values is taken for a right one, so that a batch with a missing share applies.
    pub fn share_passes() -> bool {
        SHARE_PASSES.load(Relaxed)
    }
}
