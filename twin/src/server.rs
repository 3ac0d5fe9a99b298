//! The rules: runs, sessions, and what each event does.

use crate::base64;
use crate::event::{
    decode, fqdn, Event, Impi, Rand, Res, Sent, Settings, Vector, LONGEST_LIFETIME, LONGEST_NAME, SHORTEST_LIFETIME,
};
use crate::kdf::ks_naf;
use crate::line::Writer;
use crate::text::Text;
use crate::*;

/// The least answer buffer.
pub const SHORTEST_BUFFER: usize = 160;

const MOST_RUNS: usize = 32;
const MOST_SESSIONS: usize = 64;

/// Seconds from a START until its run lapses.
const LAPSE: u64 = 30;

/// A row of the NAF table.
#[derive(Clone, Copy)]
pub struct Row {
    pub peer: [u8; LONGEST_NAME],
    pub peer_length: usize,
    pub fqdn: [u8; LONGEST_NAME],
    pub fqdn_length: usize,
    /// Whether the peer may know the IMPI.
    pub identity: bool,
    pub group: u8,
    /// The application whose entry, with the row's group, a session must have; 0: none.
    pub required: u32,
}

impl Default for Row {
    /// A row that matches nothing.
    fn default() -> Self {
        Row {
            peer: [0; LONGEST_NAME],
            peer_length: 0,
            fqdn: [0; LONGEST_NAME],
            fqdn_length: 0,
            identity: false,
            group: 0,
            required: 0,
        }
    }
}

impl Row {
    /// The names of an event have 1 to 64 octets, so a row with another length matches nothing.
    fn is_for(&self, peer: &[u8], fqdn: &[u8]) -> bool {
        self.peer_length == peer.len()
            && self.fqdn_length == fqdn.len()
            && self.peer[..peer.len()] == *peer
            && self.fqdn[..fqdn.len()] == *fqdn
    }
}

/// A run from its START until it ends. A free place of the table has the number 0.
#[derive(Clone, Copy)]
struct Run {
    number: u32,
    start: u64,
    impi: Impi,
    /// The copy that was offered, until the challenge; then what the session will have.
    settings: Option<Settings>,
    challenge: Option<Challenge>,
}

#[derive(Clone, Copy)]
struct Challenge {
    rand: Rand,
    xres: Res,
    ks: [u8; 32],
}

const FREE_RUN: Run = Run { number: 0, start: 0, impi: Text::EMPTY, settings: None, challenge: None };

impl Run {
    fn is_open(&self, time: u64) -> bool {
        self.number != 0 && time < self.start + LAPSE
    }
}

/// A session. A free place of the table has the expiry 0.
#[derive(Clone, Copy)]
struct Session {
    start: u64,
    expiry: u64,
    rand: Rand,
    /// Base64 of RAND: the B-TID up to the "@".
    tid: [u8; base64::LENGTH],
    ks: [u8; 32],
    impi: Impi,
    settings: Option<Settings>,
}

const FREE_SESSION: Session = Session {
    start: 0,
    expiry: 0,
    rand: [0; 16],
    tid: [0; base64::LENGTH],
    ks: [0; 32],
    impi: Text::EMPTY,
    settings: None,
};

impl Session {
    fn is_live(&self, time: u64) -> bool {
        time < self.expiry
    }

    fn has_entry(&self, application: u32, group: u8) -> bool {
        self.settings.as_ref().is_some_and(|settings| settings.entry(application, group).is_some())
    }
}

/// An opening and what the events since have made of it.
#[derive(Clone)]
pub struct State {
    is_open: bool,
    restart: u32,
    lifetime: u32,
    domain: Text<LONGEST_NAME>,
    /// The recorded time.
    recorded: u64,
    /// The number of the last run.
    last: u32,
    runs: [Run; MOST_RUNS],
    sessions: [Session; MOST_SESSIONS],
}

impl State {
    /// Opens the server, or refuses values that are out of range.
    pub fn open(domain: &[u8], restart: u32, lifetime: u32) -> Result<State, u32> {
        if !(1..=LONGEST_NAME).contains(&domain.len()) || !(SHORTEST_LIFETIME..=LONGEST_LIFETIME).contains(&lifetime) {
            return Err(NOT_OPEN);
        }
        Ok(State { is_open: true, restart, lifetime, domain: Text::new(domain), ..Self::closed() })
    }

    /// The state after an opening that was refused: it answers no event.
    pub fn closed() -> State {
        State {
            is_open: false,
            restart: 0,
            lifetime: 0,
            domain: Text::EMPTY,
            recorded: 0,
            last: 0,
            runs: [FREE_RUN; MOST_RUNS],
            sessions: [FREE_SESSION; MOST_SESSIONS],
        }
    }

    /// The state as if so many runs had been given: the last run number is too far to be reached by events.
    pub fn with_runs_given(mut self, last: u32) -> State {
        self.last = last;
        self
    }

    /// Takes one event. An answer returns 0 and its length and stands at the front of `out`; a refusal returns its
    /// number and 0 and changes nothing.
    pub fn event(&mut self, rows: &[Row], body: &[u8], out: &mut [u8]) -> (u32, usize) {
        match self.answer(rows, body, out) {
            Ok(length) => (0, length),
            Err(number) => (number, 0),
        }
    }

    fn answer(&mut self, rows: &[Row], body: &[u8], out: &mut [u8]) -> Result<usize, u32> {
        if !self.is_open {
            return Err(NOT_OPEN);
        }
        if out.len() < SHORTEST_BUFFER {
            return Err(SHORT);
        }
        let event = decode(body).ok_or(FORM)?;
        let mut answer = Writer::new(out);
        match event {
            Event::Start { time, impi } => self.start(time, impi, &mut answer)?,
            Event::Vector { time, restart, run, vector } => self.vector(time, restart, run, &vector, &mut answer)?,
            Event::Response { time, restart, run, res } => self.response(time, restart, run, res, &mut answer)?,
            Event::Abort { time, restart, run } => self.abort(time, restart, run, &mut answer)?,
            Event::Key { time, peer, btid, naf_id, application } => {
                self.key(rows, time, peer, btid, naf_id, application, &mut answer)?
            }
        }
        Ok(answer.length())
    }

    fn start(&mut self, time: u64, impi: &[u8], answer: &mut Writer) -> Result<(), u32> {
        self.check_clock(time)?;
        if self.last == u32::MAX {
            return Err(SPENT);
        }
        let place = self.runs.iter().position(|run| !run.is_open(time)).ok_or(NO_RUN)?;
        let copy = self
            .sessions
            .iter()
            .find(|session| session.is_live(time) && session.impi.is(impi))
            .and_then(|session| session.settings)
            .filter(|settings| settings.timestamp > 0);
        self.recorded = time;
        self.last += 1;
        self.runs[place] =
            Run { number: self.last, start: time, impi: Text::new(impi), settings: copy, challenge: None };
        answer.octet(1);
        answer.number(u64::from(self.restart));
        answer.number(u64::from(self.last));
        answer.number(copy.map_or(0, |settings| settings.timestamp));
        Ok(())
    }

    fn vector(&mut self, time: u64, restart: u32, run: u32, vector: &Vector, answer: &mut Writer) -> Result<(), u32> {
        let place = self.open_run(time, restart, run)?;
        let run = &self.runs[place];
        if run.challenge.is_some() {
            return Err(TWICE);
        }
        if !run.impi.is(vector.impi) {
            return Err(OTHER);
        }
        if matches!(vector.settings, Sent::AsBefore) && run.settings.is_none() {
            return Err(NO_COPY);
        }
        if self.has_rand(time, vector.rand) {
            return Err(RAND_SEEN);
        }
        self.recorded = time;
        let run = &mut self.runs[place];
        match vector.settings {
            Sent::None => run.settings = None,
            Sent::AsBefore => {}
            Sent::Given(settings) => run.settings = Some(settings),
        }
        let mut ks = [0; 32];
        ks[..16].copy_from_slice(vector.ck);
        ks[16..].copy_from_slice(vector.ik);
        run.challenge = Some(Challenge { rand: *vector.rand, xres: Text::new(vector.xres), ks });
        answer.octet(2);
        answer.octets(vector.rand);
        answer.octets(vector.autn);
        Ok(())
    }

    fn response(&mut self, time: u64, restart: u32, run: u32, res: &[u8], answer: &mut Writer) -> Result<(), u32> {
        let place = self.open_run(time, restart, run)?;
        let run = &self.runs[place];
        let challenge = run.challenge.as_ref().ok_or(EARLY)?;
        if !same_secret(challenge.xres.octets(), res) {
            self.recorded = time;
            self.runs[place] = FREE_RUN;
            answer.octet(6);
            return Ok(());
        }
        let home = self.session_place(time, run.impi.octets()).ok_or(NO_SESSION)?;
        let lifetime = match run.settings {
            Some(settings) if settings.lifetime != 0 => settings.lifetime,
            _ => self.lifetime,
        };
        let session = Session {
            start: time,
            expiry: time + u64::from(lifetime),
            rand: challenge.rand,
            tid: base64::of_rand(&challenge.rand),
            ks: challenge.ks,
            impi: run.impi,
            settings: run.settings,
        };
        self.recorded = time;
        self.runs[place] = FREE_RUN;
        self.sessions[home] = session;
        answer.octet(3);
        answer.number((base64::LENGTH + 1 + self.domain.octets().len()) as u64);
        answer.octets(&session.tid);
        answer.octet(b'@');
        answer.octets(self.domain.octets());
        answer.number(session.start);
        answer.number(session.expiry);
        Ok(())
    }

    fn abort(&mut self, time: u64, restart: u32, run: u32, answer: &mut Writer) -> Result<(), u32> {
        let place = self.open_run(time, restart, run)?;
        self.recorded = time;
        self.runs[place] = FREE_RUN;
        answer.octet(4);
        Ok(())
    }

    #[allow(clippy::too_many_arguments)]
    fn key(
        &self,
        rows: &[Row],
        time: u64,
        peer: &[u8],
        btid: &[u8],
        naf_id: &[u8],
        application: u32,
        answer: &mut Writer,
    ) -> Result<(), u32> {
        self.check_clock(time)?;
        let row = rows.iter().find(|row| row.is_for(peer, fqdn(naf_id))).ok_or(NOT_YOURS)?;
        let session = self.session_of(time, btid).ok_or(NO_BTID)?;
        if row.required != 0 && !session.has_entry(row.required, row.group) {
            return Err(POLICY);
        }
        let entry = match &session.settings {
            Some(settings) if application != 0 => settings.entry(application, row.group),
            _ => None,
        };
        let impi = session.impi.octets();
        answer.octet(5);
        answer.octets(&ks_naf(&session.ks, &session.rand, impi, naf_id));
        answer.number(session.start);
        answer.number(session.expiry);
        answer.text(if row.identity { impi } else { &[] });
        match entry {
            None => answer.octet(0),
            Some(entry) => {
                answer.octet(1);
                answer.octets(&entry.flags);
                answer.text(entry.user_name.octets());
            }
        }
        Ok(())
    }

    fn check_clock(&self, time: u64) -> Result<(), u32> {
        if time < self.recorded {
            Err(CLOCK)
        } else {
            Ok(())
        }
    }

    /// The place of the open run that kinds 2 to 4 name.
    fn open_run(&self, time: u64, restart: u32, number: u32) -> Result<usize, u32> {
        self.check_clock(time)?;
        if restart != self.restart {
            return Err(STALE);
        }
        self.runs.iter().position(|run| run.number == number && run.is_open(time)).ok_or(STALE)
    }

    /// Whether a live session or an open challenged run has this RAND.
    fn has_rand(&self, time: u64, rand: &Rand) -> bool {
        self.sessions.iter().any(|session| session.is_live(time) && session.rand == *rand)
            || self
                .runs
                .iter()
                .any(|run| run.is_open(time) && run.challenge.as_ref().is_some_and(|challenge| challenge.rand == *rand))
    }

    /// Where a session of this IMPI goes: over its live one, else to a free place.
    fn session_place(&self, time: u64, impi: &[u8]) -> Option<usize> {
        let mut free = None;
        for (place, session) in self.sessions.iter().enumerate() {
            if !session.is_live(time) {
                free = free.or(Some(place));
            } else if session.impi.is(impi) {
                return Some(place);
            }
        }
        free
    }

    /// The live session whose B-TID is this text.
    fn session_of(&self, time: u64, btid: &[u8]) -> Option<&Session> {
        if btid.len() != base64::LENGTH + 1 + self.domain.octets().len() {
            return None;
        }
        let (tid, rest) = btid.split_at(base64::LENGTH);
        if rest[0] != b'@' || !self.domain.is(&rest[1..]) {
            return None;
        }
        self.sessions.iter().find(|session| session.is_live(time) && session.tid == *tid)
    }
}

/// Whether two secrets are equal in length and octets, in a time that doesn't tell where they differ.
fn same_secret(one: &[u8], other: &[u8]) -> bool {
    one.len() == other.len() && one.iter().zip(other).fold(0, |differs, (a, b)| differs | (a ^ b)) == 0
}

#[cfg(test)]
mod tests {
    use super::*;

    /// Only a state in hand can show that the last run number is given and no more.
    #[test]
    fn run_numbers_are_spent() {
        let mut state = State::open(b"bsf.example", 7, 3600).unwrap_or_else(|_| panic!());
        let mut out = [0; SHORTEST_BUFFER];
        let start = b"\x01\x64\x03a@b";
        state.last = u32::MAX - 1;
        assert_eq!(state.event(&[], start, &mut out), (0, 8));
        assert_eq!(out[..8], *b"\x01\x07\xff\xff\xff\xff\x0f\x00");
        assert_eq!(state.event(&[], start, &mut out), (SPENT, 0));
        // CLOCK comes before it, NO RUN after.
        assert_eq!(state.event(&[], b"\x01\x63\x03a@b", &mut out), (CLOCK, 0));
        for run in &mut state.runs {
            *run = Run { number: 1, start: 100, ..FREE_RUN };
        }
        assert_eq!(state.event(&[], start, &mut out), (SPENT, 0));
        state.last = 5;
        assert_eq!(state.event(&[], start, &mut out), (NO_RUN, 0));
    }

    /// Run 0 is never open, although free places have that number.
    #[test]
    fn run_0_is_never_open() {
        let mut state = State::open(b"bsf.example", 7, 3600).unwrap_or_else(|_| panic!());
        let mut out = [0; SHORTEST_BUFFER];
        assert_eq!(state.event(&[], b"\x04\x00\x07\x00", &mut out), (STALE, 0));
        assert_eq!(state.event(&[], b"\x04\x1d\x07\x00", &mut out), (STALE, 0));
    }
}
