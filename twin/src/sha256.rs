//! SHA-256 (FIPS 180-4) and HMAC-SHA-256 (RFC 2104).

use crate::{FORM, SHORT};

/// Octets of a digest.
pub const DIGEST: usize = 32;

/// The longest message or HMAC key that is taken.
pub const LONGEST_MESSAGE: usize = 1_048_576;

const BLOCK: usize = 64;

/// FIPS 180-4, 4.2.2.
const ROUND_WORDS: [u32; 64] = [
    0x428a2f98, 0x71374491, 0xb5c0fbcf, 0xe9b5dba5, 0x3956c25b, 0x59f111f1, 0x923f82a4, 0xab1c5ed5, 0xd807aa98,
    0x12835b01, 0x243185be, 0x550c7dc3, 0x72be5d74, 0x80deb1fe, 0x9bdc06a7, 0xc19bf174, 0xe49b69c1, 0xefbe4786,
    0x0fc19dc6, 0x240ca1cc, 0x2de92c6f, 0x4a7484aa, 0x5cb0a9dc, 0x76f988da, 0x983e5152, 0xa831c66d, 0xb00327c8,
    0xbf597fc7, 0xc6e00bf3, 0xd5a79147, 0x06ca6351, 0x14292967, 0x27b70a85, 0x2e1b2138, 0x4d2c6dfc, 0x53380d13,
    0x650a7354, 0x766a0abb, 0x81c2c92e, 0x92722c85, 0xa2bfe8a1, 0xa81a664b, 0xc24b8b70, 0xc76c51a3, 0xd192e819,
    0xd6990624, 0xf40e3585, 0x106aa070, 0x19a4c116, 0x1e376c08, 0x2748774c, 0x34b0bcb5, 0x391c0cb3, 0x4ed8aa4a,
    0x5b9cca4f, 0x682e6ff3, 0x748f82ee, 0x78a5636f, 0x84c87814, 0x8cc70208, 0x90befffa, 0xa4506ceb, 0xbef9a3f7,
    0xc67178f2,
];

/// FIPS 180-4, 5.3.3.
const INITIAL: [u32; 8] =
    [0x6a09e667, 0xbb67ae85, 0x3c6ef372, 0xa54ff53a, 0x510e527f, 0x9b05688c, 0x1f83d9ab, 0x5be0cd19];

/// A message being hashed.
#[derive(Clone)]
pub struct Sha256 {
    words: [u32; 8],
    block: [u8; BLOCK],
    filled: usize,
    length: u64,
}

impl Sha256 {
    pub fn new() -> Self {
        Sha256 { words: INITIAL, block: [0; BLOCK], filled: 0, length: 0 }
    }

    pub fn update(&mut self, mut octets: &[u8]) {
        self.length += octets.len() as u64;
        if self.filled > 0 {
            let part = octets.len().min(BLOCK - self.filled);
            self.block[self.filled..self.filled + part].copy_from_slice(&octets[..part]);
            self.filled += part;
            octets = &octets[part..];
            if self.filled < BLOCK {
                return;
            }
            compress(&mut self.words, &self.block);
            self.filled = 0;
        }
        let mut blocks = octets.chunks_exact(BLOCK);
        for block in &mut blocks {
            compress(&mut self.words, block.try_into().unwrap());
        }
        let rest = blocks.remainder();
        self.block[..rest.len()].copy_from_slice(rest);
        self.filled = rest.len();
    }

    pub fn digest(mut self) -> [u8; DIGEST] {
        self.block[self.filled] = 0x80;
        self.block[self.filled + 1..].fill(0);
        if self.filled + 1 > BLOCK - 8 {
            compress(&mut self.words, &self.block);
            self.block.fill(0);
        }
        self.block[BLOCK - 8..].copy_from_slice(&(self.length * 8).to_be_bytes());
        compress(&mut self.words, &self.block);
        let mut digest = [0; DIGEST];
        for (place, word) in digest.chunks_exact_mut(4).zip(self.words) {
            place.copy_from_slice(&word.to_be_bytes());
        }
        digest
    }
}

impl Default for Sha256 {
    fn default() -> Self {
        Self::new()
    }
}

/// FIPS 180-4, 6.2.2. The schedule is kept as its last sixteen words.
fn compress(words: &mut [u32; 8], block: &[u8; BLOCK]) {
    let mut w = [0u32; 16];
    for (word, octets) in w.iter_mut().zip(block.chunks_exact(4)) {
        *word = u32::from_be_bytes(octets.try_into().unwrap());
    }
    let [mut a, mut b, mut c, mut d, mut e, mut f, mut g, mut h] = *words;
    for sixteen in 0..4 {
        for t in 0..16 {
            if sixteen > 0 {
                let (w2, w15) = (w[(t + 14) % 16], w[(t + 1) % 16]);
                let s1 = w2.rotate_right(17) ^ w2.rotate_right(19) ^ (w2 >> 10);
                let s0 = w15.rotate_right(7) ^ w15.rotate_right(18) ^ (w15 >> 3);
                w[t] = w[t].wrapping_add(s0).wrapping_add(w[(t + 9) % 16]).wrapping_add(s1);
            }
            let sum1 = e.rotate_right(6) ^ e.rotate_right(11) ^ e.rotate_right(25);
            let choice = g ^ (e & (f ^ g));
            let t1 = h
                .wrapping_add(sum1)
                .wrapping_add(choice)
                .wrapping_add(ROUND_WORDS[16 * sixteen + t])
                .wrapping_add(w[t]);
            let sum0 = a.rotate_right(2) ^ a.rotate_right(13) ^ a.rotate_right(22);
            let majority = (a & b) | (c & (a | b));
            let t2 = sum0.wrapping_add(majority);
            (h, g, f, e) = (g, f, e, d.wrapping_add(t1));
            (d, c, b, a) = (c, b, a, t1.wrapping_add(t2));
        }
    }
    for (word, sum) in words.iter_mut().zip([a, b, c, d, e, f, g, h]) {
        *word = word.wrapping_add(sum);
    }
}

/// SHA-256 of a message.
pub fn sha256(message: &[u8]) -> [u8; DIGEST] {
    let mut hash = Sha256::new();
    hash.update(message);
    hash.digest()
}

/// RFC 2104 with SHA-256.
pub fn hmac_sha256(key: &[u8], message: &[u8]) -> [u8; DIGEST] {
    let mut inner_pad = [0x36; BLOCK];
    let mut outer_pad = [0x5c; BLOCK];
    let hashed;
    let key = if key.len() > BLOCK {
        hashed = sha256(key);
        &hashed[..]
    } else {
        key
    };
    for (place, octet) in inner_pad.iter_mut().zip(key) {
        *place ^= octet;
    }
    for (place, octet) in outer_pad.iter_mut().zip(key) {
        *place ^= octet;
    }
    let mut inner = Sha256::new();
    inner.update(&inner_pad);
    inner.update(message);
    let mut outer = Sha256::new();
    outer.update(&outer_pad);
    outer.update(&inner.digest());
    outer.digest()
}

/// SHA-256 into a lent buffer. Returns as an event does.
pub fn hash(message: &[u8], out: &mut [u8]) -> (u32, usize) {
    if message.len() > LONGEST_MESSAGE {
        return (FORM, 0);
    }
    lend(out, || sha256(message))
}

/// HMAC-SHA-256 into a lent buffer. Returns as an event does.
pub fn hmac(key: &[u8], message: &[u8], out: &mut [u8]) -> (u32, usize) {
    if key.len() > LONGEST_MESSAGE || message.len() > LONGEST_MESSAGE {
        return (FORM, 0);
    }
    lend(out, || hmac_sha256(key, message))
}

fn lend(out: &mut [u8], digest: impl FnOnce() -> [u8; DIGEST]) -> (u32, usize) {
    match out.get_mut(..DIGEST) {
        None => (SHORT, 0),
        Some(front) => {
            front.copy_from_slice(&digest());
            (0, DIGEST)
        }
    }
}
