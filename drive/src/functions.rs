//! SHA-256, HMAC and the KDF string: the proved library beside the independent server, with messages at the edges of blocks, buffers
//! at the edge of the digest, and lengths that do not sum.

use crate::draw::Draw;
use crate::library::Reply;

extern "C" {
    fn pr_sha256(message: *const u8, message_count: usize, out: *mut u8, out_count: usize) -> Reply;
    fn pr_hmac(
        key: *const u8,
        key_count: usize,
        text: *const u8,
        text_count: usize,
        out: *mut u8,
        out_count: usize,
    ) -> Reply;
    fn pr_kdf(
        fc: u8,
        run: *const u8,
        run_count: usize,
        lengths: *const usize,
        length_count: usize,
        out: *mut u8,
        out_count: usize,
    ) -> Reply;
}

/// The longest message that is taken.
const LONGEST: usize = 1_048_576;

fn length(draw: &mut Draw) -> usize {
    match draw.below(40) {
        0 => draw.pick(&[LONGEST, LONGEST + 1]),
        1..=10 => draw.between(0, 300),
        11..=12 => draw.between(300, 5000),
        _ => draw.pick(&[0, 1, 31, 32, 33, 54, 55, 56, 57, 63, 64, 65, 118, 119, 120, 127, 128, 129, 183, 184]),
    }
}

/// Many octets are one draw repeated with its place, so that long messages are cheap.
fn octets(draw: &mut Draw, count: usize) -> Vec<u8> {
    let word = draw.word();
    (0..count as u64).map(|at| (word.wrapping_mul(at | 1) >> 24) as u8).collect()
}

/// One call of each function; the first difference.
pub fn compare(seed: u64) -> Option<String> {
    let mut draw = Draw::new(seed);
    let room = draw.pick(&[0, 31, 32, 32, 32, 33, 64]);
    let before: Vec<u8> = draw.octets(room);

    let count = length(&mut draw);
    let message = octets(&mut draw, count);
    let (mut one, mut other) = (before.clone(), before.clone());
    // SAFETY: each pointer is good for its count, and the buffer overlaps nothing.
    let first = unsafe { pr_sha256(message.as_ptr(), message.len(), one.as_mut_ptr(), room) };
    let second = twin::hash(&message, &mut other);
    if (first.number, first.length) != second || one != other {
        return Some(format!("SHA-256 of {count} octets into {room}, seed {seed}"));
    }

    let key_count = length(&mut draw);
    let key = octets(&mut draw, key_count);
    let (mut one, mut other) = (before.clone(), before.clone());
    // SAFETY: as above.
    let first = unsafe { pr_hmac(key.as_ptr(), key.len(), message.as_ptr(), message.len(), one.as_mut_ptr(), room) };
    let second = twin::hmac(&key, &message, &mut other);
    if (first.number, first.length) != second || one != other {
        return Some(format!("HMAC of {count} octets under {key_count} into {room}, seed {seed}"));
    }

    let mut lengths: Vec<usize> = (0..draw.pick(&[0, 1, 2, 4, 4, 7, 8, 8, 9]))
        .map(|_| draw.pick(&[0, 0, 1, 6, 16, 64, 69, 255, 256, 65_535]))
        .collect();
    let mut sum: usize = lengths.iter().sum();
    match draw.below(12) {
        0 => sum += 1,
        1 => sum = sum.saturating_sub(1),
        2 => {
            lengths.push(65_536);
            sum += 65_536;
        }
        3 => lengths.push(usize::MAX),
        _ => {}
    }
    let string = 1 + sum + 2 * lengths.len();
    let run = octets(&mut draw, sum);
    let room = draw.pick(&[string - 1, string, string, string + 1, string + 40, 0]);
    let before: Vec<u8> = octets(&mut draw, room);
    let (mut one, mut other) = (before.clone(), before.clone());
    let fc = draw.word() as u8;
    // SAFETY: as above.
    let first = unsafe { pr_kdf(fc, run.as_ptr(), run.len(), lengths.as_ptr(), lengths.len(), one.as_mut_ptr(), room) };
    let second = twin::kdf_string(fc, &run, &lengths, &mut other);
    if (first.number, first.length) != second || one != other {
        return Some(format!(
            "KDF string of {lengths:?} over {sum} into {room}, seed {seed}: {} and {second:?}",
            first.number
        ));
    }
    None
}
