//! The proved HMAC against the reference: keys of every length, messages of each short length and of long ones, buffers of wrong
//! lengths, and the order of refusals.

use gaffreel::{ffi, hmac_sha256, Refusal, DIGEST_LENGTH, LONGEST_KEY};
use random::{cases, count_compared, Lent, Random};
use reference::hmac::hmac;

const DONE: u32 = 0;
const LENGTH_OR_LIMIT: u32 = 1;
const OUT_OF_RANGE: u32 = 2;

/// One call, with buffers at odd addresses; neither they nor what is around them changes, but for the digest of a call that is
/// carried out.
fn same(random: &mut Random, key: &[u8], message: &[u8], digest_length: usize) -> u32 {
    let (key, message) = (Lent::of(random, key), Lent::of(random, message));
    let (key_before, message_before) = (key.clone(), message.clone());
    let mut digest = Lent::new(random, digest_length);
    let mut expected = digest.clone();
    let expected_number = match hmac(key.bytes(), message.bytes()) {
        _ if digest_length != DIGEST_LENGTH => LENGTH_OR_LIMIT,
        Ok(mac) => {
            expected.buffer().copy_from_slice(&mac);
            DONE
        }
        Err(refusal) => refusal.number(),
    };
    let number = ffi::hmac_sha256(key.bytes(), message.bytes(), digest.buffer());
    assert_eq!(number, expected_number);
    assert!(digest == expected && key == key_before && message == message_before);
    let wrapped = hmac_sha256(key.bytes(), message.bytes()).map_err(Refusal::number);
    let by_reference = hmac(key.bytes(), message.bytes()).map_err(|r| r.number());
    assert_eq!(wrapped, by_reference);
    count_compared();
    number
}

#[test]
fn keys_of_every_length() {
    cases(1, |random| {
        for length in (0..=300).chain([511, 512, 513, 4096, 65_537]) {
            let key = random.bytes(length);
            for message in [0, 1, 55, 56, 63, 64, 65, 119, 120, 128, 520] {
                let message = random.bytes(message);
                let expected = match length {
                    1..=LONGEST_KEY => DONE,
                    _ => OUT_OF_RANGE,
                };
                assert_eq!(same(random, &key, &message, DIGEST_LENGTH), expected);
            }
        }
    });
}

#[test]
fn messages_of_every_short_length() {
    cases(1, |random| {
        for length in 0..=600 {
            for key in [1, 64, 65, 256] {
                let (key, message) = (random.bytes(key), random.bytes(length));
                assert_eq!(same(random, &key, &message, DIGEST_LENGTH), DONE);
            }
        }
        let (key, message) = (random.bytes(32), random.bytes(1 << 20));
        assert_eq!(same(random, &key, &message, DIGEST_LENGTH), DONE);
    });
}

/// 1 for the digest's buffer comes before 2 for the key.
#[test]
fn any_lengths() {
    cases(20_000, |random| {
        let any = random.length(0..=400);
        let key = random.pick(&[0, 1, 63, 64, 65, 255, 256, 257, any]);
        let digest = random.pick(&[0, 31, 32, 32, 32, 32, 33, 64]);
        let message = random.length(0..=200);
        let (key, message) = (random.bytes(key), random.bytes(message));
        let expected = match (digest, key.len()) {
            (DIGEST_LENGTH, 1..=LONGEST_KEY) => DONE,
            (DIGEST_LENGTH, _) => OUT_OF_RANGE,
            _ => LENGTH_OR_LIMIT,
        };
        assert_eq!(same(random, &key, &message, digest), expected);
    });
}

/// The first and the sixth test case of RFC 4231: a short key, and one longer than a block.
#[test]
fn published_examples() {
    let hex = |mac: [u8; DIGEST_LENGTH]| -> String {
        mac.iter().map(|byte| format!("{byte:02x}")).collect()
    };
    let mac = hmac_sha256(&[0x0b; 20], b"Hi There").unwrap();
    assert_eq!(
        hex(mac),
        "b0344c61d8db38535ca8afceaf0bf12b881dc200c9833da726e9376c2e32cff7"
    );
    let message = b"Test Using Larger Than Block-Size Key - Hash Key First";
    let mac = hmac_sha256(&[0xaa; 131], message).unwrap();
    assert_eq!(
        hex(mac),
        "60e431591ee0b67f0d8a26aacbf5b77f8e0bc6213728c5140546040f0ee37f54"
    );
}
