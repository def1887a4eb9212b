//! SHA-256 of a message that comes in pieces.

use crate::ffi;
use crate::refusal::Refusal;

/// A digest's length in bytes.
pub const DIGEST_LENGTH: usize = 32;

/// A state's length in bytes.
pub const STATE_LENGTH: usize = 104;

/// The state between two pieces, as the C interface lays it out: the eight words, 4 bytes each, at 0; the tail of
/// 64 bytes at 32; the count of bytes so far, 8 bytes, at 96. Words and count are little-endian.
#[derive(Clone, Debug, PartialEq, Eq)]
pub struct Sha256 {
    bytes: [u8; STATE_LENGTH],
}

impl Sha256 {
    /// The state before the first piece.
    pub fn new() -> Sha256 {
        let mut bytes = [0; STATE_LENGTH];
        let answer = ffi::sha256_new(&mut bytes);
        Refusal::check(answer).expect("only a wrong length is refused");
        Sha256 { bytes }
    }

    /// A state of any bytes.
    pub fn from_bytes(bytes: [u8; STATE_LENGTH]) -> Sha256 {
        Sha256 { bytes }
    }

    /// The state's bytes.
    pub fn to_bytes(&self) -> [u8; STATE_LENGTH] {
        self.bytes
    }

    /// Takes the next piece. After a refusal the state is as it was.
    pub fn update(&mut self, piece: &[u8]) -> Result<(), Refusal> {
        Refusal::check(ffi::sha256_update(&mut self.bytes, piece))
    }

    /// The digest of the message so far.
    pub fn finish(&self) -> Result<[u8; DIGEST_LENGTH], Refusal> {
        let mut digest = [0; DIGEST_LENGTH];
        Refusal::check(ffi::sha256_finish(&self.bytes, &mut digest))?;
        Ok(digest)
    }
}

impl Default for Sha256 {
    fn default() -> Sha256 {
        Sha256::new()
    }
}

/// The digest of a whole message.
pub fn sha256(message: &[u8]) -> Result<[u8; DIGEST_LENGTH], Refusal> {
    let mut digest = [0; DIGEST_LENGTH];
    Refusal::check(ffi::sha256(message, &mut digest))?;
    Ok(digest)
}
