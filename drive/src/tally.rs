//! How often each number and each answer came, by the kind of the event.

pub const NAMES: [&str; 17] = [
    "answer",
    "NOT OPEN",
    "SHORT",
    "FORM",
    "CLOCK",
    "SPENT",
    "NO RUN",
    "STALE",
    "TWICE",
    "OTHER",
    "NO COPY",
    "RAND SEEN",
    "EARLY",
    "NO SESSION",
    "NOT YOURS",
    "NO B-TID",
    "POLICY",
];

const KINDS: [&str; 6] = ["no kind", "START", "VECTOR", "RESPONSE", "ABORT", "KEY"];

const ANSWERS: [&str; 6] = ["opened", "challenge", "session", "aborted", "key", "wrong response"];

/// The numbers that each kind can meet: document 01, the table of checks.
const MET: [&[usize]; 6] = [
    &[1, 2, 3],
    &[0, 1, 2, 3, 4, 5, 6],
    &[0, 1, 2, 3, 4, 7, 8, 9, 10, 11],
    &[0, 1, 2, 3, 4, 7, 12, 13],
    &[0, 1, 2, 3, 4, 7],
    &[0, 1, 2, 3, 4, 14, 15, 16],
];

#[derive(Clone, Default)]
pub struct Tally {
    pub histories: u64,
    pub events: u64,
    pub crates: u64,
    pub batches: u64,
    pub programs: u64,
    pub lines: u64,
    numbers: [[u64; 17]; 6],
    answers: [u64; 6],
}

impl Tally {
    pub fn count(&mut self, body: &[u8], number: u32, out: &[u8]) {
        let kind = match body.first() {
            Some(&kind @ 1..=5) => usize::from(kind),
            _ => 0,
        };
        self.events += 1;
        self.numbers[kind][number as usize] += 1;
        if number == 0 {
            self.answers[usize::from(out[0]) - 1] += 1;
        }
    }

    /// What never came and should have.
    pub fn missing(&self) -> Vec<String> {
        let mut missing = vec![];
        for (kind, numbers) in MET.iter().enumerate() {
            for &number in numbers.iter().filter(|&&number| self.numbers[kind][number] == 0) {
                missing.push(format!("{} with {number} {}", KINDS[kind], NAMES[number]));
            }
        }
        for (answer, _) in ANSWERS.iter().zip(self.answers).filter(|(_, count)| *count == 0) {
            missing.push(format!("the answer {answer}"));
        }
        missing
    }

    pub fn table(&self) -> String {
        let mut lines = format!("| No. | Name | {} |\n|---|---|{}\n", KINDS.join(" | "), "---|".repeat(KINDS.len()));
        for (number, name) in NAMES.iter().enumerate() {
            let counts: Vec<String> = self.numbers.iter().map(|of_kind| of_kind[number].to_string()).collect();
            lines += &format!("| {number} | {name} | {} |\n", counts.join(" | "));
        }
        let answers: Vec<String> =
            ANSWERS.iter().zip(self.answers).map(|(name, count)| format!("{name} {count}")).collect();
        lines + &format!("Answers: {}.\n", answers.join(", "))
    }
}
