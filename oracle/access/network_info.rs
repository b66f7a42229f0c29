//! Reaches a private field of network_info.rs.
use super::NetworkInfo;

impl NetworkInfo<u32> {
    /// The same for a validator. The Rust's `has_input` is always true for others; under this info it is what the gate lent.
    pub fn as_validator(&self) -> Self {
        NetworkInfo { is_validator: true, ..self.clone() }
    }
}
