//! Stands for honey_badger/epoch_state.rs: one plain enum is cut from it, and of an epoch only the number of proposals is left.
use std::marker::PhantomData;
use std::sync::Arc;

use rand::Rng;
use serde::{Deserialize, Serialize};

use super::{Batch, FaultLog, Result, Step};
use crate::NetworkInfo;

include!("strategy.rs");

/// An epoch's consensus is the gate's; it lends the number of proposals received. The rest is named by honey_badger.rs and never called.
#[derive(Debug)]
pub struct EpochState<C, N> {
    pub proposals: usize,
    pub kinds: PhantomData<(C, N)>,
}

impl<C, N: crate::NodeIdT> EpochState<C, N>
where
    C: crate::Contribution + Serialize + serde::de::DeserializeOwned,
{
    pub fn received_proposals(&self) -> usize {
        self.proposals
    }
    pub fn new(_: Arc<NetworkInfo<N>>, _: u64, _: u64, _: SubsetHandlingStrategy, _: bool) -> Result<Self> {
        unimplemented!()
    }
    pub fn propose<R: Rng>(&mut self, _: &C, _: &mut R) -> Result<Step<C, N>> {
        unimplemented!()
    }
    pub fn handle_message_content(&mut self, _: &N, _: PhantomData<N>) -> Result<Step<C, N>> {
        unimplemented!()
    }
    pub fn try_output_batch(&self) -> Option<(Batch<C, N>, FaultLog<N>)> {
        unimplemented!()
    }
}
