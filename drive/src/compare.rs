//! A history through two servers: every number, length and octet of the buffer, after each event.

use crate::draw::Draw;
use crate::generate::open_twin;
use crate::history::History;
use crate::library;
use crate::tally::Tally;
use std::fs::File;
use std::io::Write;
use std::path::Path;
use std::process::{Command, Stdio};

/// Whether a server remembers the same as before an event, where that can be seen.
#[derive(Clone, Copy, PartialEq)]
pub enum Memory {
    Same,
    Changed,
    NotSeen,
}

pub trait Server {
    /// Opens it as the history says; the number that comes back.
    fn open(&mut self, history: &History) -> u32;

    /// One event on the state that it has.
    fn event(&mut self, history: &History, body: &[u8], out: &mut [u8]) -> (u32, usize, Memory);
}

/// The independent server.
pub struct Twin(pub twin::State);

impl Default for Twin {
    fn default() -> Self {
        Twin(twin::State::closed())
    }
}

impl Server for Twin {
    fn open(&mut self, history: &History) -> u32 {
        let (number, state) = open_twin(history);
        self.0 = state;
        number
    }

    fn event(&mut self, history: &History, body: &[u8], out: &mut [u8]) -> (u32, usize, Memory) {
        let (number, length) = self.0.event(&history.rows, body, out);
        (number, length, Memory::NotSeen)
    }
}

/// Where two servers part, and how.
pub struct Difference {
    /// Events before it.
    pub place: usize,
    pub what: String,
}

/// The octets that a buffer has before an event.
fn pattern(out: &mut [u8], place: usize) {
    for (at, octet) in out.iter_mut().enumerate() {
        *octet = (at * 7 + place * 13 + 0xa5) as u8;
    }
}

/// Runs a history through two servers and tells the first difference. Also told is what no server may do: a refusal or a
/// KEY that changes the state, an octet written by a refusal or after the answer.
pub fn compare(
    history: &History,
    one: &mut dyn Server,
    other: &mut dyn Server,
    tally: &mut Tally,
) -> Option<Difference> {
    let opened = (one.open(history), other.open(history));
    if opened.0 != opened.1 {
        return Some(Difference { place: 0, what: format!("the opening returns {} and {}", opened.0, opened.1) });
    }
    tally.histories += 1;
    let mut before = [0; 512];
    for (place, event) in history.events.iter().enumerate() {
        let room = event.room;
        pattern(&mut before, place);
        let (mut out, mut out2) = (before, before);
        let first = one.event(history, &event.body, &mut out[..room]);
        let second = other.event(history, &event.body, &mut out2[..room]);
        let found = |what: String| Some(Difference { place, what });
        if (first.0, first.1) != (second.0, second.1) {
            return found(format!("{} with length {}, and {} with length {}", first.0, first.1, second.0, second.1));
        }
        if out != out2 {
            let at = out.iter().zip(&out2).position(|(a, b)| a != b).unwrap_or(0);
            return found(format!("octet {at} of the buffer is {:02x}, and {:02x}", out[at], out2[at]));
        }
        if first.1 > room || out[first.1..] != before[first.1..] {
            return found("an octet after the answer was written".into());
        }
        if first.0 > 16 || (first.0 == 0) != (first.1 > 0) {
            return found(format!("{} with length {}", first.0, first.1));
        }
        if (first.0 != 0 || out[0] == 5) && (first.2 == Memory::Changed || second.2 == Memory::Changed) {
            return found(format!("{} and the state has changed", first.0));
        }
        tally.count(&event.body, first.0, &out);
    }
    None
}

/// The lines that a program prints.
pub fn printed(program: &Path, input: &[u8], work: &Path) -> Vec<u8> {
    let path = work.join("input.bin");
    let written = File::create(&path).and_then(|mut file| file.write_all(input));
    let opened = written.and_then(|()| File::open(&path));
    let run = opened.and_then(|file| Command::new(program).stdin(file).stderr(Stdio::null()).output());
    match run {
        Ok(output) if output.status.success() => output.stdout,
        Ok(output) => [&output.stdout[..], format!("{}\n", output.status).as_bytes()].concat(),
        Err(error) => panic!("{} through {}: {error}", path.display(), program.display()),
    }
}

/// The lines that the independent server prints.
pub fn twin_printed(input: &[u8]) -> Vec<u8> {
    let mut lines = vec![];
    if let Err(error) = twin::serve(input, &mut lines) {
        lines.extend_from_slice(error.to_string().as_bytes());
    }
    lines
}

/// The lines that the proved library prints of a history, batch by batch: the events arrive in pieces and the room for
/// lines is now short, now long, as drawn from the history's seed.
pub fn batch_printed(history: &History) -> Result<Vec<u8>, String> {
    let mut draw = Draw::new(!history.seed);
    let mut state = library::State::new();
    if library::open(&mut state, &history.domain, history.restart, history.lifetime) != 0 {
        return Ok(b"0 1 -\n".to_vec());
    }
    let input = &history.input()[history.opening_part().len()..];
    let shelf = library::shelf(&history.rows);
    let (mut lines, mut at, mut arrived, mut place) = (vec![], 0, 0, 1);
    loop {
        let mut out = vec![0xa5; draw.pick(&[0, 363, 364, 364, 400, 800, 5000])];
        let done = library::serve(&mut state, &shelf, place, &input[at..arrived], &mut out);
        if done.length > out.len() || out[done.length..].iter().any(|&octet| octet != 0xa5) {
            return Err(format!("an octet after the lines was written, at place {}", done.place));
        }
        lines.extend_from_slice(&out[..done.length]);
        (at, place) = (at + done.at, done.place);
        match done.number {
            0 if arrived < input.len() => {
                let most = draw.pick(&[1, 20, 2000]);
                arrived = input.len().min(arrived + draw.between(1, most));
            }
            0 => {
                if at < input.len() {
                    lines.extend_from_slice(format!("{place} 3 -\n").as_bytes());
                }
                return Ok(lines);
            }
            2 => {}
            3 => return Ok(lines),
            other => return Err(format!("a batch ended with {other}")),
        }
    }
}

/// Runs a history through the proved library's batches and through the independent server's program.
pub fn compare_batch(history: &History) -> Option<Difference> {
    match batch_printed(history) {
        Ok(lines) => first_line(&lines, &twin_printed(&history.input())),
        Err(what) => Some(Difference { place: 0, what }),
    }
}

/// Runs a history through a program and through the independent server's.
pub fn compare_program(history: &History, program: &Path, work: &Path, tally: &mut Tally) -> Option<Difference> {
    let input = history.input();
    let (one, other) = (printed(program, &input, work), twin_printed(&input));
    tally.programs += 1;
    tally.lines += other.iter().filter(|&&octet| octet == b'\n').count() as u64;
    first_line(&one, &other)
}

/// The first line that differs.
fn first_line(one: &[u8], other: &[u8]) -> Option<Difference> {
    if one == other {
        return None;
    }
    let (mut lines, mut lines2) = (one.split(|&octet| octet == b'\n'), other.split(|&octet| octet == b'\n'));
    let mut place = 0;
    loop {
        let pair = (lines.next(), lines2.next());
        if pair.0 != pair.1 {
            let shown =
                |line: Option<&[u8]>| line.map_or("nothing".into(), |line| String::from_utf8_lossy(line).into_owned());
            return Some(Difference {
                place,
                what: format!("prints \"{}\", and \"{}\"", shown(pair.0), shown(pair.1)),
            });
        }
        place += 1;
    }
}
