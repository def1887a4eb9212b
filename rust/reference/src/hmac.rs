//! HMAC (RFC 2104) with SHA-256.

use crate::sha256::{self, State, BLOCK_LENGTH, DIGEST_LENGTH};

/// The longest key, in bytes. The shortest has one.
pub const LONGEST_KEY: usize = 256;

/// The greatest length of a message in bytes: the padded key before it counts towards SHA-256's limit.
pub const LIMIT: u64 = sha256::LIMIT - BLOCK_LENGTH as u64;

/// The bytes of the inner and of the outer pad.
const IPAD: u8 = 0x36;
const OPAD: u8 = 0x5c;

/// Why a call was refused.
#[derive(Clone, Copy, Debug, PartialEq, Eq)]
pub enum Refusal {
    /// The key is empty, or longer than [`LONGEST_KEY`].
    KeyLength,
    /// The message is longer than [`LIMIT`].
    LimitPassed,
}

impl Refusal {
    /// The refusal's number.
    pub fn number(self) -> u32 {
        match self {
            Refusal::KeyLength => 2,
            Refusal::LimitPassed => 1,
        }
    }
}

impl From<sha256::Refusal> for Refusal {
    fn from(refusal: sha256::Refusal) -> Refusal {
        match refusal {
            sha256::Refusal::LimitPassed => Refusal::LimitPassed,
        }
    }
}

/// What is kept of a key for many messages, as RFC 2104, section 4, advises: the states behind the two pads, which need not
/// be computed again for each message.
#[derive(Clone)]
pub struct Kept {
    inner: State,
    outer: State,
}

impl Kept {
    /// What is kept of a key.
    pub fn new(key: &[u8]) -> Result<Kept, Refusal> {
        if key.is_empty() || key.len() > LONGEST_KEY {
            return Err(Refusal::KeyLength);
        }
        let block = block(key)?;
        Ok(Kept {
            inner: behind(&block.map(|byte| byte ^ IPAD))?,
            outer: behind(&block.map(|byte| byte ^ OPAD))?,
        })
    }

    /// The HMAC of a message.
    pub fn mac(&self, message: &[u8]) -> Result<[u8; DIGEST_LENGTH], Refusal> {
        let mut inner = self.inner.clone();
        inner.update(message)?;
        let mut outer = self.outer.clone();
        outer.update(&inner.finish()?)?;
        Ok(outer.finish()?)
    }
}

/// The HMAC of a message under a key.
pub fn hmac(key: &[u8], message: &[u8]) -> Result<[u8; DIGEST_LENGTH], Refusal> {
    Kept::new(key)?.mac(message)
}

/// The key as one block: its digest where it is longer, and zeros behind it.
fn block(key: &[u8]) -> Result<[u8; BLOCK_LENGTH], Refusal> {
    let mut block = [0; BLOCK_LENGTH];
    if key.len() > BLOCK_LENGTH {
        block[..DIGEST_LENGTH].copy_from_slice(&sha256::digest(key)?);
    } else {
        block[..key.len()].copy_from_slice(key);
    }
    Ok(block)
}

/// SHA-256's state behind a block.
fn behind(block: &[u8; BLOCK_LENGTH]) -> Result<State, Refusal> {
    let mut state = State::new();
    state.update(block)?;
    Ok(state)
}

#[cfg(test)]
mod tests {
    use super::*;
    use crate::sha256::digest;

    fn hex(bytes: &[u8]) -> String {
        bytes.iter().map(|byte| format!("{byte:02x}")).collect()
    }

    /// A key and a message of RFC 4231, and the HMAC or its first bytes.
    type Case = (&'static [u8], &'static [u8], &'static str);

    /// The test cases of RFC 4231, section 4, in their order. The fifth has only the first 16 bytes.
    const RFC_4231: [Case; 7] = [
        (
            &[0x0b; 20],
            b"Hi There",
            "b0344c61d8db38535ca8afceaf0bf12b881dc200c9833da726e9376c2e32cff7",
        ),
        (
            b"Jefe",
            b"what do ya want for nothing?",
            "5bdcc146bf60754e6a042426089575c75a003f089d2739839dec58b964ec3843",
        ),
        (
            &[0xaa; 20],
            &[0xdd; 50],
            "773ea91e36800e46854db8ebd09181a72959098b3ef8c122d9635514ced565fe",
        ),
        (
            b"\x01\x02\x03\x04\x05\x06\x07\x08\x09\x0a\x0b\x0c\x0d\x0e\x0f\x10\x11\x12\x13\x14\x15\x16\x17\x18\x19",
            &[0xcd; 50],
            "82558a389a443c0ea4cc819899f2083a85f0faa3e578f8077a2e3ff46729665b",
        ),
        (
            &[0x0c; 20],
            b"Test With Truncation",
            "a3b6167473100ee06e0c796c2955552b",
        ),
        (
            &[0xaa; 131],
            b"Test Using Larger Than Block-Size Key - Hash Key First",
            "60e431591ee0b67f0d8a26aacbf5b77f8e0bc6213728c5140546040f0ee37f54",
        ),
        (
            &[0xaa; 131],
            b"This is a test using a larger than block-size key and a larger than block-size data. \
              The key needs to be hashed before being used by the HMAC algorithm.",
            "9b09ffa71b942fcb27635fbcd5b0e944bfdc63644f0713938a7f51535c3a35e2",
        ),
    ];

    #[test]
    fn rfc_4231() {
        for (key, message, expected) in RFC_4231 {
            let mac = hmac(key, message).unwrap();
            assert_eq!(hex(&mac[..expected.len() / 2]), expected);
        }
    }

    /// RFC 2104, section 2, word for word, for each length of a key and messages around a block's length.
    fn by_formula(key: &[u8], message: &[u8]) -> [u8; DIGEST_LENGTH] {
        let mut padded = match key.len() > 64 {
            true => digest(key).unwrap().to_vec(),
            false => key.to_vec(),
        };
        padded.resize(64, 0);
        let under = |pad: u8, text: &[u8]| {
            let mut whole: Vec<u8> = padded.iter().map(|byte| byte ^ pad).collect();
            whole.extend(text);
            digest(&whole).unwrap()
        };
        under(0x5c, &under(0x36, message))
    }

    #[test]
    fn every_length_of_a_key() {
        for length in 1..=LONGEST_KEY {
            let key: Vec<u8> = (0..length).map(|i| (i * 7 + length) as u8).collect();
            let kept = Kept::new(&key).unwrap();
            for message in [0, 1, 54, 55, 56, 63, 64, 65, 119, 120, 520] {
                let message = vec![length as u8; message];
                let mac = hmac(&key, &message);
                assert_eq!(mac, Ok(by_formula(&key, &message)));
                assert_eq!(mac, kept.mac(&message));
            }
        }
    }

    #[test]
    fn refusals() {
        for length in [0, 257, 258, 1 << 16] {
            assert_eq!(hmac(&vec![1; length], b"a"), Err(Refusal::KeyLength));
        }
        assert_eq!(Refusal::KeyLength.number(), 2);
        assert_eq!(Refusal::LimitPassed.number(), 1);
        assert_eq!(LIMIT, (1 << 61) - 65);
    }

    /// No message is so long that memory holds it, so the inner state is one far on.
    #[test]
    fn limit() {
        let mut kept = Kept::new(b"key").unwrap();
        kept.inner.count = sha256::LIMIT - 2;
        assert!(kept.mac(b"ab").is_ok());
        assert_eq!(kept.mac(b"abc"), Err(Refusal::LimitPassed));
    }
}
