//! HMAC with SHA-256.

use crate::ffi;
use crate::refusal::Refusal;
use crate::sha256::DIGEST_LENGTH;

/// The longest key, in bytes, of every call that takes one. The shortest has 1.
pub const LONGEST_KEY: usize = 256;

/// The HMAC of a message under a key of 1 to [`LONGEST_KEY`] bytes.
pub fn hmac_sha256(key: &[u8], message: &[u8]) -> Result<[u8; DIGEST_LENGTH], Refusal> {
    let mut digest = [0; DIGEST_LENGTH];
    Refusal::check(ffi::hmac_sha256(key, message, &mut digest))?;
    Ok(digest)
}
