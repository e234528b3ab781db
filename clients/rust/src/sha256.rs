//! SHA-256 (FIPS 180-4) and HMAC with it (RFC 2104).

/// The bytes of a digest.
pub(crate) const DIGEST: usize = 32;
const BLOCK: usize = 64;

/// The state at first: of the square roots of the first eight primes.
const START: [u32; 8] = [
    0x6a09e667, 0xbb67ae85, 0x3c6ef372, 0xa54ff53a, 0x510e527f, 0x9b05688c, 0x1f83d9ab, 0x5be0cd19,
];

/// The constants of the rounds: of the cube roots of the first 64 primes.
#[rustfmt::skip]
const ROUNDS: [u32; 64] = [
    0x428a2f98, 0x71374491, 0xb5c0fbcf, 0xe9b5dba5, 0x3956c25b, 0x59f111f1, 0x923f82a4, 0xab1c5ed5,
    0xd807aa98, 0x12835b01, 0x243185be, 0x550c7dc3, 0x72be5d74, 0x80deb1fe, 0x9bdc06a7, 0xc19bf174,
    0xe49b69c1, 0xefbe4786, 0x0fc19dc6, 0x240ca1cc, 0x2de92c6f, 0x4a7484aa, 0x5cb0a9dc, 0x76f988da,
    0x983e5152, 0xa831c66d, 0xb00327c8, 0xbf597fc7, 0xc6e00bf3, 0xd5a79147, 0x06ca6351, 0x14292967,
    0x27b70a85, 0x2e1b2138, 0x4d2c6dfc, 0x53380d13, 0x650a7354, 0x766a0abb, 0x81c2c92e, 0x92722c85,
    0xa2bfe8a1, 0xa81a664b, 0xc24b8b70, 0xc76c51a3, 0xd192e819, 0xd6990624, 0xf40e3585, 0x106aa070,
    0x19a4c116, 0x1e376c08, 0x2748774c, 0x34b0bcb5, 0x391c0cb3, 0x4ed8aa4a, 0x5b9cca4f, 0x682e6ff3,
    0x748f82ee, 0x78a5636f, 0x84c87814, 0x8cc70208, 0x90befffa, 0xa4506ceb, 0xbef9a3f7, 0xc67178f2,
];

/// The 64 words of a block.
fn schedule(block: &[u8]) -> [u32; 64] {
    let mut words = [0; 64];
    for (word, bytes) in words.iter_mut().zip(block.chunks_exact(4)) {
        *word = u32::from_be_bytes([bytes[0], bytes[1], bytes[2], bytes[3]]);
    }
    for at in 16..64 {
        let (early, late) = (words[at - 15], words[at - 2]);
        let low = early.rotate_right(7) ^ early.rotate_right(18) ^ (early >> 3);
        let high = late.rotate_right(17) ^ late.rotate_right(19) ^ (late >> 10);
        words[at] = words[at - 16]
            .wrapping_add(low)
            .wrapping_add(words[at - 7])
            .wrapping_add(high);
    }
    words
}

/// A round, with the sum of its constant and its word.
fn round([a, b, c, d, e, f, g, h]: [u32; 8], sum: u32) -> [u32; 8] {
    let high = e.rotate_right(6) ^ e.rotate_right(11) ^ e.rotate_right(25);
    let low = a.rotate_right(2) ^ a.rotate_right(13) ^ a.rotate_right(22);
    let first = h
        .wrapping_add(high)
        .wrapping_add((e & f) ^ (!e & g))
        .wrapping_add(sum);
    let second = low.wrapping_add((a & b) ^ (a & c) ^ (b & c));
    [
        first.wrapping_add(second),
        a,
        b,
        c,
        d.wrapping_add(first),
        e,
        f,
        g,
    ]
}

/// The state after a block.
fn after(state: [u32; 8], block: &[u8]) -> [u32; 8] {
    let words = schedule(block);
    let sums = ROUNDS
        .iter()
        .zip(words)
        .map(|(known, word)| known.wrapping_add(word));
    let mixed = sums.fold(state, round);
    std::array::from_fn(|at| state[at].wrapping_add(mixed[at]))
}

/// The digest of a message, given the state after its first bytes, which are whole blocks.
fn ended(state: [u32; 8], before: usize, rest: &[u8]) -> [u8; DIGEST] {
    let mut padded = rest.to_vec();
    padded.push(0x80);
    padded.resize((rest.len() + 9).next_multiple_of(BLOCK) - 8, 0);
    padded.extend_from_slice(&(8 * (before + rest.len()) as u64).to_be_bytes());
    let state = padded.chunks_exact(BLOCK).fold(state, after);
    let mut out = [0; DIGEST];
    for (bytes, word) in out.chunks_exact_mut(4).zip(state) {
        bytes.copy_from_slice(&word.to_be_bytes());
    }
    out
}

/// The digest of a message.
fn digest(message: &[u8]) -> [u8; DIGEST] {
    ended(START, 0, message)
}

/// HMAC under a key: the states after the key's block, for the inner and for the outer digest.
#[derive(Clone, PartialEq, Eq)]
pub(crate) struct Mac {
    inner: [u32; 8],
    outer: [u32; 8],
}

impl Mac {
    pub(crate) fn new(key: &[u8]) -> Mac {
        let mut block = [0; BLOCK];
        if key.len() > BLOCK {
            block[..DIGEST].copy_from_slice(&digest(key));
        } else {
            block[..key.len()].copy_from_slice(key);
        }
        let with = |pad: u8| after(START, &block.map(|byte| byte ^ pad));
        Mac {
            inner: with(0x36),
            outer: with(0x5c),
        }
    }

    /// The tag of a message.
    pub(crate) fn tag(&self, message: &[u8]) -> [u8; DIGEST] {
        ended(self.outer, BLOCK, &ended(self.inner, BLOCK, message))
    }
}

#[cfg(test)]
mod tests {
    use super::{Mac, digest};
    use crate::golden::hex;

    #[test]
    fn the_digests_of_fips_180() {
        let long = b"abcdbcdecdefdefgefghfghighijhijkijkljklmklmnlmnomnopnopq";
        let rows: [(&[u8], &str); 3] = [
            (
                b"",
                "e3b0c44298fc1c149afbf4c8996fb92427ae41e4649b934ca495991b7852b855",
            ),
            (
                b"abc",
                "ba7816bf8f01cfea414140de5dae2223b00361a396177a9cb410ff61f20015ad",
            ),
            (
                long,
                "248d6a61d20638b8e5c026930c3e6039a33ce45964ff2167f6ecedd419db06c1",
            ),
        ];
        for (message, expected) in rows {
            assert_eq!(digest(message).to_vec(), hex(expected));
        }
    }

    #[test]
    fn the_tags_of_rfc_4231() {
        let longer = concat!(
            "This is a test using a larger than block-size key and a larger than block-size data. ",
            "The key needs to be hashed before being used by the HMAC algorithm."
        )
        .as_bytes();
        #[rustfmt::skip]
        let rows: [(&[u8], &[u8], &str); 7] = [
            (&[0x0b; 20], b"Hi There", "b0344c61d8db38535ca8afceaf0bf12b881dc200c9833da726e9376c2e32cff7"),
            (
                b"Jefe",
                b"what do ya want for nothing?",
                "5bdcc146bf60754e6a042426089575c75a003f089d2739839dec58b964ec3843",
            ),
            (&[0xaa; 20], &[0xdd; 50], "773ea91e36800e46854db8ebd09181a72959098b3ef8c122d9635514ced565fe"),
            (
                &hex("0102030405060708090a0b0c0d0e0f10111213141516171819"),
                &[0xcd; 50],
                "82558a389a443c0ea4cc819899f2083a85f0faa3e578f8077a2e3ff46729665b",
            ),
            (&[0x0c; 20], b"Test With Truncation", "a3b6167473100ee06e0c796c2955552b"),
            (
                &[0xaa; 131],
                b"Test Using Larger Than Block-Size Key - Hash Key First",
                "60e431591ee0b67f0d8a26aacbf5b77f8e0bc6213728c5140546040f0ee37f54",
            ),
            (&[0xaa; 131], longer, "9b09ffa71b942fcb27635fbcd5b0e944bfdc63644f0713938a7f51535c3a35e2"),
        ];
        for (key, message, expected) in rows {
            assert!(
                Mac::new(key).tag(message).starts_with(&hex(expected)),
                "{expected}"
            );
        }
    }
}
