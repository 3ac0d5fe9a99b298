//! Base64 (RFC 3548) of a RAND.

const LETTERS: &[u8; 64] = b"ABCDEFGHIJKLMNOPQRSTUVWXYZabcdefghijklmnopqrstuvwxyz0123456789+/";

/// Letters of an encoded RAND, the two of padding included.
pub const LENGTH: usize = 24;

pub fn of_rand(rand: &[u8; 16]) -> [u8; LENGTH] {
    let mut text = [b'='; LENGTH];
    for (letters, octets) in text.chunks_exact_mut(4).zip(rand.chunks(3)) {
        let mut bits = 0;
        for (i, &octet) in octets.iter().enumerate() {
            bits |= u32::from(octet) << (16 - 8 * i);
        }
        for (i, letter) in letters.iter_mut().enumerate().take(octets.len() + 1) {
            *letter = LETTERS[(bits >> (18 - 6 * i)) as usize & 63];
        }
    }
    text
}
