//! Stands for the crate hex_fmt, which Debian does not have; util.rs names it, nothing here prints with it.
use std::fmt;

pub struct HexFmt<T>(pub T);

impl<T: AsRef<[u8]>> fmt::Display for HexFmt<T> {
    fn fmt(&self, f: &mut fmt::Formatter<'_>) -> fmt::Result {
        self.0.as_ref().iter().try_for_each(|b| write!(f, "{:02x}", b))
    }
}
