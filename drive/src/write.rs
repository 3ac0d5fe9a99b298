//! Events as they stand on the line. Fields may be out of range: they are written as they are.

pub const START: u8 = 1;
pub const VECTOR: u8 = 2;
pub const RESPONSE: u8 = 3;
pub const ABORT: u8 = 4;
pub const KEY: u8 = 5;

/// A body under way, with the places of its numbers, so that damage can be aimed at them.
#[derive(Clone, Default)]
pub struct Body {
    pub octets: Vec<u8>,
    pub numbers: Vec<(usize, usize)>,
}

impl Body {
    pub fn new(kind: u8, time: u64) -> Self {
        Body { octets: vec![kind], numbers: vec![] }.number(time)
    }

    pub fn octet(mut self, octet: u8) -> Self {
        self.octets.push(octet);
        self
    }

    pub fn number(mut self, value: u64) -> Self {
        let from = self.octets.len();
        number(&mut self.octets, value);
        self.numbers.push((from, self.octets.len()));
        self
    }

    pub fn octets(mut self, octets: &[u8]) -> Self {
        self.octets.extend_from_slice(octets);
        self
    }

    pub fn text(self, octets: &[u8]) -> Self {
        self.number(octets.len() as u64).octets(octets)
    }
}

pub fn number(out: &mut Vec<u8>, mut value: u64) {
    while value >= 0x80 {
        out.push(value as u8 | 0x80);
        value >>= 7;
    }
    out.push(value as u8);
}

pub fn text(out: &mut Vec<u8>, octets: &[u8]) {
    number(out, octets.len() as u64);
    out.extend_from_slice(octets);
}

/// A number at the front of some octets, and how many octets it takes.
pub fn read_number(octets: &[u8]) -> Option<(u64, usize)> {
    let mut value = 0;
    for (at, &octet) in octets.iter().enumerate().take(9) {
        value |= u64::from(octet & 0x7f) << (7 * at);
        if octet < 0x80 {
            return Some((value, at + 1));
        }
    }
    None
}

const LETTERS: &[u8; 64] = b"ABCDEFGHIJKLMNOPQRSTUVWXYZabcdefghijklmnopqrstuvwxyz0123456789+/";

/// The B-TID of a RAND at a domain.
pub fn btid(rand: &[u8], domain: &[u8]) -> Vec<u8> {
    let mut text = vec![];
    for octets in rand.chunks(3) {
        let bits = octets.iter().enumerate().fold(0u32, |bits, (i, &octet)| bits | u32::from(octet) << (16 - 8 * i));
        for i in 0..4 {
            text.push(if i <= octets.len() { LETTERS[(bits >> (18 - 6 * i)) as usize & 63] } else { b'=' });
        }
    }
    text.push(b'@');
    text.extend_from_slice(domain);
    text
}

/// A B-TID with other spare bits in its last letter before "==": it decodes to the same RAND.
pub fn other_spare_bits(btid: &[u8], bits: u8) -> Vec<u8> {
    let mut other = btid.to_vec();
    let place = LETTERS.iter().position(|&letter| letter == other[21]).unwrap_or(0);
    other[21] = LETTERS[place & !15 | (place ^ usize::from(bits)) & 15];
    other
}
