use std::error::Error;
use std::fmt;

/// Why an event was refused: the table of refusals. A refusal writes nothing and changes nothing; `docs/REFUSALS.md` says
/// for each what to do next.
#[derive(Clone, Copy, Debug, PartialEq, Eq, Hash)]
#[repr(u32)]
pub enum Refusal {
    NotOpen = 1,
    Short = 2,
    Form = 3,
    Clock = 4,
    Spent = 5,
    NoRun = 6,
    Stale = 7,
    Twice = 8,
    Other = 9,
    NoCopy = 10,
    RandSeen = 11,
    Early = 12,
    NoSession = 13,
    NotYours = 14,
    NoBtid = 15,
    Policy = 16,
}

use Refusal::*;

const ALL: [Refusal; 16] = [
    NotOpen, Short, Form, Clock, Spent, NoRun, Stale, Twice, Other, NoCopy, RandSeen, Early, NoSession, NotYours,
    NoBtid, Policy,
];

impl Refusal {
    /// The number in the table, 1 to 16.
    pub fn number(self) -> u32 {
        self as u32
    }

    /// The name in the table.
    pub fn name(self) -> &'static str {
        match self {
            NotOpen => "NOT OPEN",
            Short => "SHORT",
            Form => "FORM",
            Clock => "CLOCK",
            Spent => "SPENT",
            NoRun => "NO RUN",
            Stale => "STALE",
            Twice => "TWICE",
            Other => "OTHER",
            NoCopy => "NO COPY",
            RandSeen => "RAND SEEN",
            Early => "EARLY",
            NoSession => "NO SESSION",
            NotYours => "NOT YOURS",
            NoBtid => "NO B-TID",
            Policy => "POLICY",
        }
    }

    /// What a returned number means. The library returns no other: that is proved.
    pub(crate) fn check(no: u32) -> Result<(), Refusal> {
        match no {
            0 => Ok(()),
            _ => Err(ALL[no as usize - 1]),
        }
    }
}

impl fmt::Display for Refusal {
    fn fmt(&self, f: &mut fmt::Formatter) -> fmt::Result {
        write!(f, "{} {}", self.number(), self.name())
    }
}

impl Error for Refusal {}

#[cfg(test)]
mod tests {
    use super::*;

    #[test]
    fn each_number_has_its_refusal() {
        assert_eq!(Refusal::check(0), Ok(()));
        for no in 1..=16 {
            assert_eq!(Refusal::check(no).map_err(Refusal::number), Err(no));
        }
        assert_eq!(Refusal::RandSeen.to_string(), "11 RAND SEEN");
    }
}
