//! SHA-256 (FIPS 180-4) of a message that comes in pieces.

/// The greatest length of a message in bytes: its length in bits is below 2^64.
pub const LIMIT: u64 = (1 << 61) - 1;

/// A digest's length in bytes.
pub const DIGEST_LENGTH: usize = 32;

/// A block's length in bytes.
pub const BLOCK_LENGTH: usize = 64;

/// In a message's last block the bytes from here on hold the message's length in bits.
const LENGTH_PLACE: usize = 56;

/// The constants of FIPS 180-4, section 4.2.2.
const K: [u32; 64] = [
    0x428a2f98, 0x71374491, 0xb5c0fbcf, 0xe9b5dba5, 0x3956c25b, 0x59f111f1, 0x923f82a4, 0xab1c5ed5,
    0xd807aa98, 0x12835b01, 0x243185be, 0x550c7dc3, 0x72be5d74, 0x80deb1fe, 0x9bdc06a7, 0xc19bf174,
    0xe49b69c1, 0xefbe4786, 0x0fc19dc6, 0x240ca1cc, 0x2de92c6f, 0x4a7484aa, 0x5cb0a9dc, 0x76f988da,
    0x983e5152, 0xa831c66d, 0xb00327c8, 0xbf597fc7, 0xc6e00bf3, 0xd5a79147, 0x06ca6351, 0x14292967,
    0x27b70a85, 0x2e1b2138, 0x4d2c6dfc, 0x53380d13, 0x650a7354, 0x766a0abb, 0x81c2c92e, 0x92722c85,
    0xa2bfe8a1, 0xa81a664b, 0xc24b8b70, 0xc76c51a3, 0xd192e819, 0xd6990624, 0xf40e3585, 0x106aa070,
    0x19a4c116, 0x1e376c08, 0x2748774c, 0x34b0bcb5, 0x391c0cb3, 0x4ed8aa4a, 0x5b9cca4f, 0x682e6ff3,
    0x748f82ee, 0x78a5636f, 0x84c87814, 0x8cc70208, 0x90befffa, 0xa4506ceb, 0xbef9a3f7, 0xc67178f2,
];

/// The initial hash value of FIPS 180-4, section 5.3.3.
const INITIAL: [u32; 8] = [
    0x6a09e667, 0xbb67ae85, 0x3c6ef372, 0xa54ff53a, 0x510e527f, 0x9b05688c, 0x1f83d9ab, 0x5be0cd19,
];

/// Why a call was refused.
#[derive(Clone, Copy, Debug, PartialEq, Eq)]
pub enum Refusal {
    /// The message is, or would become, longer than [`LIMIT`].
    LimitPassed,
}

impl Refusal {
    /// The refusal's number.
    pub fn number(self) -> u32 {
        match self {
            Refusal::LimitPassed => 1,
        }
    }
}

/// What is kept between two pieces. Any values may stand in it.
#[derive(Clone, Debug, PartialEq, Eq)]
pub struct State {
    /// The hash value after the whole blocks so far.
    pub words: [u32; 8],
    /// The unfinished block: its first `count mod 64` bytes are the message's, the others are zero after an update.
    pub tail: [u8; 64],
    /// The number of bytes so far.
    pub count: u64,
}

impl State {
    /// The state before the first piece.
    pub fn new() -> State {
        State {
            words: INITIAL,
            tail: [0; BLOCK_LENGTH],
            count: 0,
        }
    }

    /// Takes the next piece. After a refusal the state is as it was.
    pub fn update(&mut self, piece: &[u8]) -> Result<(), Refusal> {
        let held = self.held();
        self.count = match self.count.checked_add(piece.len() as u64) {
            Some(count) if count <= LIMIT => count,
            _ => return Err(Refusal::LimitPassed),
        };
        let mut rest = piece;
        if held > 0 {
            let taken = rest.len().min(BLOCK_LENGTH - held);
            let (head, after) = rest.split_at(taken);
            self.tail[held..held + taken].copy_from_slice(head);
            if held + taken < BLOCK_LENGTH {
                self.tail[held + taken..].fill(0);
                return Ok(());
            }
            compress(&mut self.words, &self.tail);
            rest = after;
        }
        let (blocks, unfinished) = rest.as_chunks();
        for block in blocks {
            compress(&mut self.words, block);
        }
        self.tail = [0; BLOCK_LENGTH];
        self.tail[..unfinished.len()].copy_from_slice(unfinished);
        Ok(())
    }

    /// The digest of the message so far.
    pub fn finish(&self) -> Result<[u8; DIGEST_LENGTH], Refusal> {
        if self.count > LIMIT {
            return Err(Refusal::LimitPassed);
        }
        let held = self.held();
        let mut words = self.words;
        let mut block = [0; BLOCK_LENGTH];
        block[..held].copy_from_slice(&self.tail[..held]);
        block[held] = 0x80;
        if held >= LENGTH_PLACE {
            compress(&mut words, &block);
            block = [0; BLOCK_LENGTH];
        }
        block[LENGTH_PLACE..].copy_from_slice(&(8 * self.count).to_be_bytes());
        compress(&mut words, &block);
        let mut digest = [0; DIGEST_LENGTH];
        for (bytes, word) in digest.chunks_exact_mut(4).zip(words) {
            bytes.copy_from_slice(&word.to_be_bytes());
        }
        Ok(digest)
    }

    /// How many bytes of an unfinished block the tail holds.
    fn held(&self) -> usize {
        (self.count % BLOCK_LENGTH as u64) as usize
    }
}

impl Default for State {
    fn default() -> State {
        State::new()
    }
}

/// The digest of a whole message.
pub fn digest(message: &[u8]) -> Result<[u8; DIGEST_LENGTH], Refusal> {
    let mut state = State::new();
    state.update(message)?;
    state.finish()
}

/// Takes one block into the hash value (FIPS 180-4, section 6.2.2).
fn compress(words: &mut [u32; 8], block: &[u8; BLOCK_LENGTH]) {
    let w = schedule(block);
    let [mut a, mut b, mut c, mut d, mut e, mut f, mut g, mut h] = *words;
    for t in 0..64 {
        let t1 = h
            .wrapping_add(big_sigma1(e))
            .wrapping_add(ch(e, f, g))
            .wrapping_add(K[t])
            .wrapping_add(w[t]);
        let t2 = big_sigma0(a).wrapping_add(maj(a, b, c));
        h = g;
        g = f;
        f = e;
        e = d.wrapping_add(t1);
        d = c;
        c = b;
        b = a;
        a = t1.wrapping_add(t2);
    }
    for (word, added) in words.iter_mut().zip([a, b, c, d, e, f, g, h]) {
        *word = word.wrapping_add(added);
    }
}

/// The message schedule of a block.
fn schedule(block: &[u8; BLOCK_LENGTH]) -> [u32; 64] {
    let mut w = [0; 64];
    let (numbers, _) = block.as_chunks();
    for (word, bytes) in w.iter_mut().zip(numbers) {
        *word = u32::from_be_bytes(*bytes);
    }
    for t in 16..64 {
        w[t] = small_sigma1(w[t - 2])
            .wrapping_add(w[t - 7])
            .wrapping_add(small_sigma0(w[t - 15]))
            .wrapping_add(w[t - 16]);
    }
    w
}

// The functions of FIPS 180-4, section 4.1.2.

fn ch(x: u32, y: u32, z: u32) -> u32 {
    (x & y) ^ (!x & z)
}

fn maj(x: u32, y: u32, z: u32) -> u32 {
    (x & y) ^ (x & z) ^ (y & z)
}

fn big_sigma0(x: u32) -> u32 {
    x.rotate_right(2) ^ x.rotate_right(13) ^ x.rotate_right(22)
}

fn big_sigma1(x: u32) -> u32 {
    x.rotate_right(6) ^ x.rotate_right(11) ^ x.rotate_right(25)
}

fn small_sigma0(x: u32) -> u32 {
    x.rotate_right(7) ^ x.rotate_right(18) ^ (x >> 3)
}

fn small_sigma1(x: u32) -> u32 {
    x.rotate_right(17) ^ x.rotate_right(19) ^ (x >> 10)
}

#[cfg(test)]
mod tests {
    use super::*;

    fn hex(digest: [u8; DIGEST_LENGTH]) -> String {
        digest.iter().map(|byte| format!("{byte:02x}")).collect()
    }

    /// The examples for SHA-256 that NIST published with FIPS 180-4.
    #[test]
    fn published_examples() {
        let million = [b'a'; 1_000_000];
        let examples: [(&[u8], &str); 5] = [
            (
                b"",
                "e3b0c44298fc1c149afbf4c8996fb92427ae41e4649b934ca495991b7852b855",
            ),
            (
                b"abc",
                "ba7816bf8f01cfea414140de5dae2223b00361a396177a9cb410ff61f20015ad",
            ),
            (
                b"abcdbcdecdefdefgefghfghighijhijkijkljklmklmnlmnomnopnopq",
                "248d6a61d20638b8e5c026930c3e6039a33ce45964ff2167f6ecedd419db06c1",
            ),
            (
                b"abcdefghbcdefghicdefghijdefghijkefghijklfghijklmghijklmn\
                  hijklmnoijklmnopjklmnopqklmnopqrlmnopqrsmnopqrstnopqrstu",
                "cf5b16a778af8380036ce59e7b0492370b249b11e8f07a51afac45037afee9d1",
            ),
            (
                &million,
                "cdc76e5c9914fb9281a1c7e284d73e67f1809a48a497200e046d39ccc7112cd0",
            ),
        ];
        for (message, expected) in examples {
            assert_eq!(digest(message).map(hex), Ok(expected.to_string()));
        }
    }

    /// A message cut in two anywhere leaves the state that it leaves whole.
    #[test]
    fn pieces() {
        let message: Vec<u8> = (0..200).collect();
        let mut whole = State::new();
        whole.update(&message).unwrap();
        for place in 0..=message.len() {
            let mut state = State::new();
            state.update(&message[..place]).unwrap();
            state.update(&message[place..]).unwrap();
            assert_eq!(state, whole, "cut at {place}");
        }
    }

    /// The tail's bytes behind the unfinished block are never read, and zero after an update.
    #[test]
    fn rest_of_tail() {
        for count in 0..64 {
            let mut state = State {
                words: INITIAL,
                tail: [0xff; 64],
                count,
            };
            let mut cleared = state.clone();
            cleared.tail[count as usize..].fill(0);
            assert_eq!(state.finish(), cleared.finish());
            state.update(b"").unwrap();
            assert_eq!(state, cleared);
        }
    }

    fn with_count(count: u64) -> State {
        State {
            words: INITIAL,
            tail: [0; 64],
            count,
        }
    }

    #[test]
    fn limit() {
        let mut state = with_count(LIMIT - 2);
        assert_eq!(state.update(b"ab"), Ok(()));
        assert_eq!(state.count, LIMIT);
        assert_eq!(state.update(b""), Ok(()));
        assert!(state.finish().is_ok());

        for (count, piece) in [
            (LIMIT - 2, &b"abc"[..]),
            (LIMIT, b"a"),
            (LIMIT + 1, b""),
            (u64::MAX, b""),
            (u64::MAX, b"a"),
        ] {
            let mut state = with_count(count);
            let before = state.clone();
            assert_eq!(state.update(piece), Err(Refusal::LimitPassed));
            assert_eq!(state, before);
        }
        for count in [LIMIT + 1, u64::MAX] {
            assert_eq!(with_count(count).finish(), Err(Refusal::LimitPassed));
        }
        assert_eq!(Refusal::LimitPassed.number(), 1);
    }
}
