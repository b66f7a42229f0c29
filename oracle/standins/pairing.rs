//! Stands for the pairing crate: only the two traits, with the functions that sync_key_gen.rs calls.
use crate::crypto::{Fr, G1};

pub trait Field {
    fn zero() -> Self;
    fn add_assign(&mut self, other: &Self);
}

pub trait CurveAffine {
    fn one() -> Self;
    fn mul(&self, by: Fr) -> G1;
}
