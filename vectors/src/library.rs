//! What the bincode library itself makes of a value, in both editions.
use bincode::{DefaultOptions, Options};
use serde::{de::DeserializeOwned, Serialize};

#[derive(Clone, Copy, PartialEq)]
pub enum Edition {
    Old,
    New,
}

pub const BOTH: [Edition; 2] = [Edition::Old, Edition::New];

impl Edition {
    /// The kind of a line whose bytes are of this edition.
    pub fn kind(self) -> &'static str {
        match self {
            Edition::Old => "plan-new",
            Edition::New => "plan-old",
        }
    }
    pub fn other(self) -> Edition {
        match self {
            Edition::Old => Edition::New,
            Edition::New => Edition::Old,
        }
    }
}

pub fn encoded<T: Serialize>(x: &T, edition: Edition) -> Vec<u8> {
    match edition {
        Edition::Old => bincode::serialize(x).unwrap(),
        Edition::New => DefaultOptions::new().serialize(x).unwrap(),
    }
}

/// The value that all the bytes are, where the library reads one.
pub fn decoded<T: DeserializeOwned>(bytes: &[u8], edition: Edition) -> Option<T> {
    match edition {
        Edition::Old => DefaultOptions::new().with_fixint_encoding().deserialize(bytes).ok(),
        Edition::New => DefaultOptions::new().deserialize(bytes).ok(),
    }
}

/// The value that the bytes begin with. The library's plain functions, which the Rust uses, let bytes be left over.
pub fn decoded_at_start<T: DeserializeOwned>(bytes: &[u8], edition: Edition) -> Option<T> {
    match edition {
        Edition::Old => bincode::deserialize(bytes).ok(),
        Edition::New => DefaultOptions::new().allow_trailing_bytes().deserialize(bytes).ok(),
    }
}
