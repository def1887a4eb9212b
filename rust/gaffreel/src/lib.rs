//! Safe Rust over the proved static library, libgaffreel.a.

pub mod ffi;
mod hmac;
mod refusal;
mod sha256;
pub mod tree;
pub mod volume;

pub use hmac::{hmac_sha256, LONGEST_KEY};
pub use refusal::Refusal;
pub use sha256::{sha256, Sha256, DIGEST_LENGTH, STATE_LENGTH};
