//! Stands for threshold_crypto: every key, signature, commitment and key set is a u64 handle of the gate.
//!
//! A verdict byte reaches sync_key_gen.rs like this: the oracle puts it beside a message's signature; `verify`, which the Rust calls
//! before it handles the message, remembers it; `decrypt` and the comparison with a commitment then turn out as the verdict says.
//! One more verdict, `UNSIGNED`, is the generator's: under no key does that message verify.
use std::cell::{Cell, RefCell};
use std::convert::TryFrom;
use std::hash::{Hash, Hasher};

use rand::Rng;
use serde::{Deserialize, Serialize};

use crate::pairing::{CurveAffine, Field};

thread_local! {
    /// The verdict of the message whose signature was looked at last.
    static VERDICT: Cell<u8> = Cell::new(0);
    /// For each interpolation since the last share, the places of the values it was given.
    static ROWS: RefCell<Vec<Vec<u64>>> = RefCell::new(Vec::new());
}

/// The verdict of a message that counts as signed by nobody.
pub const UNSIGNED: u8 = 4;

/// A key's handle; 0 is no key.
#[derive(Clone, Debug, PartialEq, Eq, Hash, Serialize, Deserialize)]
#[serde(try_from = "u64", into = "u64")]
pub struct PublicKey(pub u64);

impl TryFrom<u64> for PublicKey {
    type Error = &'static str;
    fn try_from(handle: u64) -> Result<Self, Self::Error> {
        if handle == 0 { Err("key 0") } else { Ok(PublicKey(handle)) }
    }
}

impl From<PublicKey> for u64 {
    fn from(key: PublicKey) -> u64 {
        key.0
    }
}

impl PublicKey {
    pub fn verify<M: AsRef<[u8]>>(&self, sig: &Signature, _msg: M) -> bool {
        VERDICT.with(|v| v.set(sig.verdict));
        sig.key == self.0 && sig.verdict != UNSIGNED
    }

    pub fn encrypt_with_rng<R: Rng, M: AsRef<[u8]>>(&self, _rng: &mut R, _msg: M) -> Ciphertext {
        Ciphertext
    }
}

/// The handle of its public key.
#[derive(Clone, Debug)]
pub struct SecretKey(pub u64);

impl SecretKey {
    pub fn public_key(&self) -> PublicKey {
        PublicKey(self.0)
    }

    pub fn sign<M: AsRef<[u8]>>(&self, _msg: M) -> Signature {
        Signature { key: self.0, verdict: 0 }
    }

    /// The bytes of a `Poly` or `Fr` that is right (verdict 0) or wrong (3), of neither (2), or nothing (1).
    pub fn decrypt(&self, _ct: &Ciphertext) -> Option<Vec<u8>> {
        match VERDICT.with(Cell::get) {
            1 => None,
            2 => Some(Vec::new()),
            verdict => Some(vec![(verdict == 0) as u8]),
        }
    }
}

/// What the Rust itself encrypts is encoded as no bytes at all, while a row or value of the log has eight: so the two never are equal.
#[derive(Serialize, Deserialize)]
pub struct Ciphertext;

/// The handle of the key under which it was verified, 0 for none. The verdict is the oracle's and no part of the value.
#[derive(Clone, Debug, Serialize, Deserialize)]
#[serde(from = "u64", into = "u64")]
pub struct Signature {
    pub key: u64,
    pub verdict: u8,
}

impl From<u64> for Signature {
    fn from(key: u64) -> Self {
        Signature { key, verdict: 0 }
    }
}

impl From<Signature> for u64 {
    fn from(sig: Signature) -> u64 {
        sig.key
    }
}

impl PartialEq for Signature {
    fn eq(&self, other: &Self) -> bool {
        self.key == other.key
    }
}

impl Eq for Signature {}

impl Hash for Signature {
    fn hash<H: Hasher>(&self, state: &mut H) {
        self.key.hash(state)
    }
}

/// A lent handle, or what `generate` added up: the proposers, and how many values each row of a share must have.
#[derive(Clone, Debug, PartialEq, Serialize, Deserialize)]
#[serde(from = "u64", into = "u64")]
pub struct PublicKeySet {
    pub handle: u64,
    pub proposers: Vec<u32>,
    pub points: usize,
}

impl From<u64> for PublicKeySet {
    fn from(handle: u64) -> Self {
        PublicKeySet { handle, proposers: Vec::new(), points: 0 }
    }
}

impl From<PublicKeySet> for u64 {
    fn from(set: PublicKeySet) -> u64 {
        set.handle
    }
}

impl From<poly::Commitment> for PublicKeySet {
    fn from(sum: poly::Commitment) -> Self {
        PublicKeySet { handle: 0, proposers: sum.proposers, points: sum.points }
    }
}

impl PublicKeySet {
    pub fn public_key_share<T>(&self, _index: T) -> PublicKeyShare {
        PublicKeyShare(self.points)
    }
}

/// How many values the share belonging to it was made of, for each row.
#[derive(Clone, Debug)]
pub struct PublicKeyShare(usize);

impl PartialEq for PublicKeyShare {
    fn eq(&self, other: &Self) -> bool {
        self.0 == other.0 || crate::mode::share_passes()
    }
}

/// The places (index + 1) of the values that `generate` took, a row for each complete proposer; none in a lent share.
#[derive(Clone, Debug, Default)]
pub struct SecretKeyShare {
    pub rows: Vec<Vec<u64>>,
}

impl SecretKeyShare {
    pub fn from_mut(_sum: &mut Fr) -> Self {
        SecretKeyShare { rows: ROWS.with(|rows| rows.replace(Vec::new())) }
    }

    pub fn public_key_share(&self) -> PublicKeyShare {
        PublicKeyShare(self.rows.iter().map(Vec::len).min().unwrap_or(0))
    }
}

/// Named by `NetworkInfo::generate_map`, which is never called here.
pub struct SecretKeySet;

impl SecretKeySet {
    pub fn random<R: Rng>(_threshold: usize, _rng: &mut R) -> Self {
        unimplemented!()
    }
    pub fn public_keys(&self) -> PublicKeySet {
        unimplemented!()
    }
    pub fn secret_key_share(&self, _index: usize) -> SecretKeyShare {
        unimplemented!()
    }
}

/// A field element: whether it is the one the commitment asks for.
#[derive(Clone, Copy, Debug, PartialEq, Eq, Serialize, Deserialize)]
pub struct Fr(bool);

impl Field for Fr {
    fn zero() -> Self {
        Fr(true)
    }
    fn add_assign(&mut self, _other: &Self) {}
}

pub struct G1Affine;

/// A group element: whether it is the one the commitment asks for.
#[derive(PartialEq)]
pub struct G1(bool);

impl CurveAffine for G1Affine {
    fn one() -> Self {
        G1Affine
    }
    fn mul(&self, by: Fr) -> G1 {
        G1(by.0)
    }
}

pub mod serde_impl {
    use serde::{Deserialize, Serialize};

    #[derive(Serialize, Deserialize)]
    pub struct FieldWrap<T>(pub T);

    impl<T> FieldWrap<T> {
        pub fn into_inner(self) -> T {
            self.0
        }
    }
}

pub mod error {
    /// The group arithmetic's error; the stand-ins have none.
    #[derive(Clone, Debug, PartialEq, Eq)]
    pub enum Error {}

    impl std::fmt::Display for Error {
        fn fmt(&self, _: &mut std::fmt::Formatter<'_>) -> std::fmt::Result {
            match *self {}
        }
    }
}

pub mod poly {
    use super::{Fr, Hash, Hasher, G1, ROWS};
    use rand::Rng;
    use serde::{Deserialize, Serialize};

    /// A row: whether it matches its commitment.
    #[derive(Serialize, Deserialize)]
    pub struct Poly(bool);

    impl Poly {
        pub fn zero() -> Self {
            Poly(true)
        }
        pub fn commitment(&self) -> Commitment {
            Commitment { good: self.0, proposers: Vec::new(), points: 0 }
        }
        pub fn evaluate<T>(&self, _at: T) -> Fr {
            Fr(self.0)
        }
        pub fn interpolate<'a>(values: impl Iterator<Item = (&'a u64, &'a Fr)>) -> Self {
            let places = values.map(|(place, _)| *place).collect();
            ROWS.with(|rows| rows.borrow_mut().push(places));
            Poly(true)
        }
    }

    /// The commitment to a row, and what a sum of such rows is made of; only `good` is compared.
    pub struct Commitment {
        pub good: bool,
        pub proposers: Vec<u32>,
        pub points: usize,
    }

    impl PartialEq for Commitment {
        fn eq(&self, other: &Self) -> bool {
            self.good == other.good
        }
    }

    impl std::ops::AddAssign for Commitment {
        fn add_assign(&mut self, other: Self) {
            self.proposers.extend(other.proposers);
            self.points = self.points.max(other.points);
        }
    }

    /// A part's commitment is its handle. Who made it and the degree are the oracle's and no part of the value.
    #[derive(Clone, Debug, Serialize, Deserialize)]
    #[serde(from = "u64", into = "u64")]
    pub struct BivarCommitment {
        pub handle: u64,
        pub proposer: u32,
        pub degree: usize,
    }

    impl From<u64> for BivarCommitment {
        fn from(handle: u64) -> Self {
            BivarCommitment { handle, proposer: 0, degree: 0 }
        }
    }

    impl From<BivarCommitment> for u64 {
        fn from(commit: BivarCommitment) -> u64 {
            commit.handle
        }
    }

    impl PartialEq for BivarCommitment {
        fn eq(&self, other: &Self) -> bool {
            self.handle == other.handle
        }
    }

    impl Eq for BivarCommitment {}

    impl Hash for BivarCommitment {
        fn hash<H: Hasher>(&self, state: &mut H) {
            self.handle.hash(state)
        }
    }

    impl BivarCommitment {
        pub fn degree(&self) -> usize {
            self.degree
        }
        pub fn row<T>(&self, _at: T) -> Commitment {
            Commitment { good: true, proposers: vec![self.proposer], points: self.degree + 1 }
        }
        pub fn evaluate<T>(&self, _x: T, _y: T) -> G1 {
            G1(true)
        }
    }

    /// The own polynomial; the gate makes the real one.
    pub struct BivarPoly;

    impl BivarPoly {
        pub fn random<R: Rng>(_degree: usize, _rng: &mut R) -> Self {
            BivarPoly
        }
        pub fn commitment(&self) -> BivarCommitment {
            BivarCommitment::from(0)
        }
        pub fn row<T>(&self, _at: T) -> Poly {
            Poly(true)
        }
    }
}
