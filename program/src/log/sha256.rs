//! SHA-256 (FIPS 180-4), for fingerprints of files.

use crate::log::sha256_x86;

/// The first 32 bits of the fractional parts of the square roots of the first eight primes.
const START: [u32; 8] = [
    0x6a09e667, 0xbb67ae85, 0x3c6ef372, 0xa54ff53a, 0x510e527f, 0x9b05688c, 0x1f83d9ab, 0x5be0cd19,
];

/// The same of the cube roots of the first 64 primes.
pub const ROUNDS: [u32; 64] = [
    0x428a2f98, 0x71374491, 0xb5c0fbcf, 0xe9b5dba5, 0x3956c25b, 0x59f111f1, 0x923f82a4, 0xab1c5ed5,
    0xd807aa98, 0x12835b01, 0x243185be, 0x550c7dc3, 0x72be5d74, 0x80deb1fe, 0x9bdc06a7, 0xc19bf174,
    0xe49b69c1, 0xefbe4786, 0x0fc19dc6, 0x240ca1cc, 0x2de92c6f, 0x4a7484aa, 0x5cb0a9dc, 0x76f988da,
    0x983e5152, 0xa831c66d, 0xb00327c8, 0xbf597fc7, 0xc6e00bf3, 0xd5a79147, 0x06ca6351, 0x14292967,
    0x27b70a85, 0x2e1b2138, 0x4d2c6dfc, 0x53380d13, 0x650a7354, 0x766a0abb, 0x81c2c92e, 0x92722c85,
    0xa2bfe8a1, 0xa81a664b, 0xc24b8b70, 0xc76c51a3, 0xd192e819, 0xd6990624, 0xf40e3585, 0x106aa070,
    0x19a4c116, 0x1e376c08, 0x2748774c, 0x34b0bcb5, 0x391c0cb3, 0x4ed8aa4a, 0x5b9cca4f, 0x682e6ff3,
    0x748f82ee, 0x78a5636f, 0x84c87814, 0x8cc70208, 0x90befffa, 0xa4506ceb, 0xbef9a3f7, 0xc67178f2,
];

pub const BLOCK: usize = 64;

/// The message schedule of a block.
fn schedule(block: &[u8]) -> [u32; 64] {
    let mut words = [0; 64];
    for (word, bytes) in words.iter_mut().zip(block.chunks_exact(4)) {
        *word = u32::from_be_bytes([bytes[0], bytes[1], bytes[2], bytes[3]]);
    }
    for at in 16..64 {
        let (near, far) = (words[at - 2], words[at - 15]);
        let near = near.rotate_right(17) ^ near.rotate_right(19) ^ (near >> 10);
        let far = far.rotate_right(7) ^ far.rotate_right(18) ^ (far >> 3);
        words[at] = words[at - 16]
            .wrapping_add(far)
            .wrapping_add(words[at - 7])
            .wrapping_add(near);
    }
    words
}

/// Takes a block into the state.
fn compress(state: &mut [u32; 8], block: &[u8]) {
    let words = schedule(block);
    let [mut a, mut b, mut c, mut d, mut e, mut f, mut g, mut h] = *state;
    for (word, round) in words.into_iter().zip(ROUNDS) {
        let mixed = e.rotate_right(6) ^ e.rotate_right(11) ^ e.rotate_right(25);
        let chosen = (e & f) ^ (!e & g);
        let first = h
            .wrapping_add(mixed)
            .wrapping_add(chosen)
            .wrapping_add(round)
            .wrapping_add(word);
        let mixed = a.rotate_right(2) ^ a.rotate_right(13) ^ a.rotate_right(22);
        let most = (a & b) ^ (a & c) ^ (b & c);
        (h, g, f, e) = (g, f, e, d.wrapping_add(first));
        (d, c, b, a) = (c, b, a, first.wrapping_add(mixed.wrapping_add(most)));
    }
    for (old, new) in state.iter_mut().zip([a, b, c, d, e, f, g, h]) {
        *old = old.wrapping_add(new);
    }
}

/// Takes whole blocks into the state.
fn compress_all(state: &mut [u32; 8], blocks: &[u8]) {
    blocks
        .chunks_exact(BLOCK)
        .for_each(|block| compress(state, block));
}

/// The same by the processor's own instructions, where it has them.
fn compress_fast(state: &mut [u32; 8], blocks: &[u8]) {
    if !sha256_x86::compress_all(state, blocks) {
        compress_all(state, blocks);
    }
}

/// The fingerprint of bytes that come in parts.
pub struct Sha256 {
    state: [u32; 8],
    /// The bytes before the present part.
    before: u64,
    compress: fn(&mut [u32; 8], &[u8]),
}

impl Default for Sha256 {
    fn default() -> Sha256 {
        Sha256 {
            state: START,
            before: 0,
            compress: compress_fast,
        }
    }
}

impl Sha256 {
    /// Takes a part of whole blocks.
    pub fn take(&mut self, part: &[u8]) {
        (self.compress)(&mut self.state, part);
        self.before += part.len() as u64;
    }

    /// The fingerprint with the last part, of any length, as 64 hexadecimal digits.
    pub fn end(mut self, last: &[u8]) -> String {
        let (whole, rest) = last.split_at(last.len() - last.len() % BLOCK);
        self.take(whole);
        // the end: one bit, zeros, and the length in bits in the last eight bytes
        let mut end = [0; 2 * BLOCK];
        end[..rest.len()].copy_from_slice(rest);
        end[rest.len()] = 0x80;
        let length = if rest.len() < BLOCK - 8 {
            BLOCK
        } else {
            2 * BLOCK
        };
        let bits = 8 * (self.before + rest.len() as u64);
        end[length - 8..length].copy_from_slice(&bits.to_be_bytes());
        (self.compress)(&mut self.state, &end[..length]);
        let words = self.state.iter();
        words.map(|word| format!("{word:08x}")).collect()
    }
}

/// The fingerprint of bytes as 64 hexadecimal digits.
pub fn sha256(bytes: &[u8]) -> String {
    Sha256::default().end(bytes)
}

#[cfg(test)]
mod tests {
    use super::*;

    fn sha256_with(bytes: &[u8], compress: fn(&mut [u32; 8], &[u8])) -> String {
        let start = Sha256 {
            compress,
            ..Sha256::default()
        };
        start.end(bytes)
    }

    #[test]
    fn parts_are_the_whole() {
        let bytes: Vec<u8> = (0..1000u32).map(|n| (n * n >> 3) as u8).collect();
        for cut in (0..bytes.len()).step_by(BLOCK) {
            let mut print = Sha256::default();
            print.take(&bytes[..cut]);
            assert_eq!(print.end(&bytes[cut..]), sha256(&bytes), "{cut}");
        }
    }

    #[test]
    fn vectors_of_the_standard() {
        let long = "abcdbcdecdefdefgefghfghighijhijkijkljklmklmnlmnomnopnopq";
        for (text, fingerprint) in [
            (
                "",
                "e3b0c44298fc1c149afbf4c8996fb92427ae41e4649b934ca495991b7852b855",
            ),
            (
                "abc",
                "ba7816bf8f01cfea414140de5dae2223b00361a396177a9cb410ff61f20015ad",
            ),
            (
                long,
                "248d6a61d20638b8e5c026930c3e6039a33ce45964ff2167f6ecedd419db06c1",
            ),
        ] {
            assert_eq!(sha256(text.as_bytes()), fingerprint, "{text}");
            assert_eq!(sha256_with(text.as_bytes(), compress_all), fingerprint);
        }
        let million = "cdc76e5c9914fb9281a1c7e284d73e67f1809a48a497200e046d39ccc7112cd0";
        assert_eq!(sha256(&vec![b'a'; 1_000_000]), million);
    }

    #[test]
    fn both_ways_are_one() {
        let bytes: Vec<u8> = (0..3000u32).map(|n| (n * n >> 3) as u8).collect();
        for length in 0..bytes.len() {
            let plain = sha256_with(&bytes[..length], compress_all);
            assert_eq!(sha256(&bytes[..length]), plain, "{length}");
        }
    }

    #[test]
    fn lengths_around_the_ends_of_blocks() {
        // worked out with sha256sum: so many bytes of x
        for (length, front) in [
            (55, "d5e285683cd4efc0"),
            (56, "04c26261370ee754"),
            (63, "75220b47218278e6"),
            (64, "7ce100971f64e700"),
            (65, "9537c5fdf120482f"),
            (119, "000b48d4edf0fa7b"),
            (120, "13f05a0b594787f5"),
        ] {
            assert_eq!(&sha256(&vec![b'x'; length])[..16], front, "{length}");
        }
    }
}
