//! Stands for honey_badger/mod.rs, batch.rs, message.rs and error.rs: names for honey_badger.rs, which is the real one.
mod builder;
mod epoch_state;
mod honey_badger;
mod params;

use std::collections::BTreeMap;
use std::fmt;
use std::marker::PhantomData;
use std::sync::Arc;

use failure::Fail;
use serde::{Deserialize, Serialize};

pub use self::builder::HoneyBadgerBuilder;
pub use self::epoch_state::SubsetHandlingStrategy;
pub use self::honey_badger::{EncryptionSchedule, HoneyBadger, Step};
pub use self::params::Params;
use self::epoch_state::EpochState;
use crate::NetworkInfo;

/// A batch as consensus, that is the gate, gives it.
#[derive(Clone, Debug)]
pub struct Batch<C, N> {
    pub epoch: u64,
    pub contributions: BTreeMap<N, C>,
}

/// A consensus message; the gate keeps those.
#[derive(Clone, Debug, Serialize, Deserialize)]
pub struct Message<N> {
    pub epoch: u64,
    pub content: PhantomData<N>,
}

#[derive(Debug)]
pub enum Error {
    UnknownSender,
}

#[derive(Clone, Debug, PartialEq)]
pub enum FaultKind {
    UnexpectedHbMessageEpoch,
}

pub type Result<T> = std::result::Result<T, Error>;
pub type FaultLog<N> = crate::FaultLog<N, FaultKind>;

impl fmt::Display for Error {
    fn fmt(&self, f: &mut fmt::Formatter<'_>) -> fmt::Result {
        write!(f, "{:?}", self)
    }
}

impl fmt::Display for FaultKind {
    fn fmt(&self, f: &mut fmt::Formatter<'_>) -> fmt::Result {
        write!(f, "{:?}", self)
    }
}

impl Fail for Error {}
impl Fail for FaultKind {}

impl<C, N> crate::Epoched for HoneyBadger<C, N> {
    type Epoch = u64;
    fn epoch(&self) -> u64 {
        self.epoch
    }
}

impl<C, N> HoneyBadger<C, N> {
    /// Takes the inner epoch as the gate lends it.
    pub fn lend_epoch(&mut self, epoch: u64) {
        self.epoch = epoch;
    }

    /// Takes as lent whether there is input and how many proposals came, and whose network info tells that; gives the old info back.
    pub fn lend_input(&mut self, netinfo: Arc<NetworkInfo<N>>, has_input: bool, proposals: usize) -> Arc<NetworkInfo<N>> {
        self.has_input = has_input;
        self.epochs.insert(self.epoch, EpochState { proposals, kinds: PhantomData });
        std::mem::replace(&mut self.netinfo, netinfo)
    }
}
