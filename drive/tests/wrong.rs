//! Wrong servers: the independent one behind a small fault. The fixed histories must show each, and the cut must be small.

use drive::compare::{compare, Memory, Server, Twin};
use drive::generate;
use drive::history::History;
use drive::shrink::shrink;
use drive::tally::Tally;
use drive::write::read_number;
use std::collections::HashMap;

/// Seeds of the fixed set that `./test` runs.
const SEEDS: std::ops::RangeInclusive<u64> = 1..=485;

#[derive(Clone, Copy, Debug, PartialEq)]
enum Fault {
    /// A run lapses 31 seconds after its START.
    LapsesLate,
    /// Other spare bits in the last letter of a B-TID pass.
    SpareBitsPass,
    /// An answered KEY records its time.
    KeyRecords,
    /// One octet after the answer is cleared.
    WritesOn,
    /// A refusal clears the first octet.
    RefusalWrites,
    /// CLOCK is told as STALE.
    OtherNumber,
    /// The buffer may have 159 octets.
    ShortIsTaken,
    /// A KEY that is refused by POLICY changes the state.
    PolicyChanges,
    /// A row with a name length of 0 or above 64 matches.
    OddRowMatches,
    /// The 256th row is not read.
    LastRowUnread,
    /// SPENT is told as NO RUN.
    SpentIsNoRun,
    /// SHORT comes before NOT OPEN.
    ShortBeforeNotOpen,
}

struct Wrong {
    fault: Fault,
    inner: Twin,
    starts: HashMap<u64, u64>,
    clock: u64,
}

fn number(value: u64) -> Vec<u8> {
    let mut octets = vec![];
    drive::write::number(&mut octets, value);
    octets
}

impl Wrong {
    fn new(fault: Fault) -> Self {
        Wrong { fault, inner: Twin::default(), starts: HashMap::new(), clock: 0 }
    }

    /// The history with the rows that the inner server is given in place of its own.
    fn other_rows(&self, history: &History) -> History {
        let mut rows = history.rows.clone();
        if self.fault == Fault::LastRowUnread {
            rows.truncate(255);
        } else {
            for row in &mut rows {
                row.peer_length = row.peer_length.clamp(1, 64);
                row.fqdn_length = row.fqdn_length.clamp(1, 64);
            }
        }
        History { rows, events: vec![], ..history.clone() }
    }

    /// The body that the inner server is given in place of this one.
    fn changed(&self, body: &[u8]) -> Option<Vec<u8>> {
        let (time, at) = read_number(body.get(1..)?)?;
        match (self.fault, body[0]) {
            (Fault::LapsesLate, 2..=4) => {
                let (_, more) = read_number(&body[1 + at..])?;
                let (run, _) = read_number(&body[1 + at + more..])?;
                if *self.starts.get(&run)? + 30 != time {
                    return None;
                }
                Some([&body[..1], &number(time - 1), &body[1 + at..]].concat())
            }
            (Fault::SpareBitsPass, 5) => {
                let peer = usize::from(*body.get(1 + at)?);
                let letter = 1 + at + 1 + peer + 1 + 21;
                let mut other = body.to_vec();
                *other.get_mut(letter)? = match body[letter] {
                    b'A'..=b'P' => b'A',
                    b'Q'..=b'Z' | b'a'..=b'f' => b'Q',
                    b'g'..=b'v' => b'g',
                    _ => b'w',
                };
                Some(other)
            }
            _ => None,
        }
    }
}

impl Server for Wrong {
    fn open(&mut self, history: &History) -> u32 {
        self.starts.clear();
        self.clock = 0;
        self.inner.open(history)
    }

    fn event(&mut self, history: &History, body: &[u8], out: &mut [u8]) -> (u32, usize, Memory) {
        let time = body.get(1..).and_then(read_number).map_or(0, |(time, _)| time);
        let given = self.changed(body).unwrap_or(body.to_vec());
        let (mut refused, mut length, mut memory) = if self.fault == Fault::ShortIsTaken && out.len() == 159 {
            let mut longer = [&out[..], &[0]].concat();
            let taken = self.inner.event(history, &given, &mut longer);
            out.copy_from_slice(&longer[..159]);
            taken
        } else if matches!(self.fault, Fault::OddRowMatches | Fault::LastRowUnread) {
            self.inner.event(&self.other_rows(history), &given, out)
        } else {
            self.inner.event(history, &given, out)
        };
        if refused == 0 && out[0] == 1 {
            let run = read_number(&out[1..]).and_then(|(_, at)| read_number(&out[1 + at..]));
            self.starts.insert(run.map_or(0, |(run, _)| run), time);
        }
        match self.fault {
            Fault::KeyRecords => {
                if time < self.clock && refused != 1 && refused != 2 && refused != 3 {
                    (refused, length) = (4, 0);
                }
                if refused == 0 && body[0] == 5 {
                    self.clock = time;
                }
            }
            Fault::WritesOn if refused == 0 && length < out.len() => out[length] = 0,
            Fault::RefusalWrites if refused != 0 && !out.is_empty() => out[0] = 0,
            Fault::OtherNumber if refused == 4 => refused = 7,
            Fault::PolicyChanges if refused == 16 => memory = Memory::Changed,
            Fault::SpentIsNoRun if refused == 5 => refused = 6,
            Fault::ShortBeforeNotOpen if refused == 1 && out.len() < 160 => refused = 2,
            _ => {}
        }
        (refused, length, memory)
    }
}

/// The cut of the first history that shows a fault.
fn cut(fault: Fault) -> History {
    let differs = |history: &History| {
        compare(history, &mut Wrong::new(fault), &mut Twin::default(), &mut Tally::default()).is_some()
    };
    let seed = SEEDS.clone().find(|&seed| differs(&generate::history(seed)));
    let seed = seed.unwrap_or_else(|| panic!("{fault:?}: no seed of the fixed set shows it"));
    let cut = shrink(&generate::history(seed), differs);
    assert!(differs(&cut));
    cut
}

/// How many events and rows the smallest history has that shows a fault, worked out by hand.
#[test]
fn each_fault_is_found_and_cut() {
    for (fault, events, rows) in [
        (Fault::LapsesLate, 2, 0),         // START, ABORT
        (Fault::SpareBitsPass, 4, 1),      // START, VECTOR, RESPONSE, KEY
        (Fault::KeyRecords, 5, 1),         // a sign-in, KEY, and anything before its time
        (Fault::WritesOn, 1, 0),           // START
        (Fault::RefusalWrites, 1, 0),      // FORM
        (Fault::OtherNumber, 2, 0),        // START, and anything before its time
        (Fault::ShortIsTaken, 1, 0),       // START
        (Fault::PolicyChanges, 4, 1),      // a sign-in, KEY
        (Fault::OddRowMatches, 1, 1),      // KEY
        (Fault::LastRowUnread, 1, 256),    // KEY
        (Fault::SpentIsNoRun, 1, 0),       // START
        (Fault::ShortBeforeNotOpen, 1, 0), // anything
    ] {
        let cut = cut(fault);
        assert_eq!((cut.events.len(), cut.rows.len()), (events, rows), "{fault:?}\n{}", cut.dump());
    }
}

/// Every seed gives the same history each time.
#[test]
fn a_seed_is_a_history() {
    for seed in [1, 2, 77] {
        assert_eq!(generate::history(seed).dump(), generate::history(seed).dump());
    }
}

/// What is written for the event program is read by it as meant: as many lines as events.
#[test]
fn a_history_is_an_input() {
    for seed in SEEDS {
        let history = generate::history(seed);
        if history.program && history.opening.is_none() && history.tail.is_empty() {
            let lines = drive::compare::twin_printed(&history.input());
            let count = lines.iter().filter(|&&octet| octet == b'\n').count();
            assert!(count == history.events.len() || lines == b"0 1 -\n", "seed {seed}");
        }
    }
}
