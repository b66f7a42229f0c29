//! Stands for dynamic_honey_badger/error.rs: the errors and fault kinds that the taken files name.
use std::fmt;

use failure::Fail;

use crate::honey_badger::{Error as HbError, FaultKind as HbFault};
use crate::sync_key_gen::{AckFault, Error as SyncKeyGenError, PartFault};

#[derive(Debug)]
pub enum Error {
    InvalidJoinPlan,
    ProposeHoneyBadger(HbError),
    HandleHoneyBadgerMessage(HbError),
    SyncKeyGen(SyncKeyGenError),
    SerializeKeyGen(bincode::ErrorKind),
    SerializeVote(bincode::ErrorKind),
    UnknownSender,
}

pub type Result<T> = std::result::Result<T, Error>;

#[derive(Clone, Debug, PartialEq)]
pub enum FaultKind {
    UnexpectedDhbMessageEra,
    UnexpectedKeyGenMessage,
    UnexpectedKeyGenPart,
    UnexpectedKeyGenAck,
    TooManyKeyGenMessages,
    InvalidKeyGenMessageEra,
    InvalidKeyGenMessageSignature,
    InvalidVoteSignature,
    InvalidCommittedVote,
    SyncKeyGenPart(PartFault),
    SyncKeyGenAck(AckFault),
    HbFault(HbFault),
}

impl fmt::Display for Error {
    fn fmt(&self, f: &mut fmt::Formatter<'_>) -> fmt::Result {
        write!(f, "{:?}", self)
    }
}

impl fmt::Display for FaultKind {
    fn fmt(&self, f: &mut fmt::Formatter<'_>) -> fmt::Result {
        write!(f, "{:?}", self)
    }
}

impl Fail for Error {}
impl Fail for FaultKind {}
