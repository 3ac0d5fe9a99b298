//! The proved static library, and its records as C lays them out: here the state can be looked at, run numbers can be
//! near their end, and rows can have names of any length. The Rust crate `pagerudder`, which allows none of this, is
//! driven beside it.

use crate::compare::{Memory, Server};
use crate::history::History;

#[repr(C)]
#[derive(Clone, Copy, PartialEq)]
pub struct Name {
    pub octets: [u8; 64],
    pub length: usize,
}

#[repr(C)]
#[derive(Clone, Copy, PartialEq)]
pub struct Entry {
    application: u64,
    group: u8,
    flags: [u8; 4],
    user: [u8; 32],
    length: usize,
}

#[repr(C)]
#[derive(Clone, Copy, PartialEq)]
pub struct Settings {
    lifetime: u32,
    timestamp: u64,
    entries: [Entry; 4],
}

#[repr(C)]
#[derive(Clone, Copy, PartialEq)]
pub struct Run {
    number: u64,
    start: u64,
    impi: Name,
    challenged: bool,
    rand: [u8; 16],
    xres: [u8; 16],
    xres_length: usize,
    ks: [u8; 32],
    settings: Settings,
}

#[repr(C)]
#[derive(Clone, Copy, PartialEq)]
pub struct Session {
    ks: [u8; 32],
    rand: [u8; 16],
    impi: Name,
    start: u64,
    expiry: u64,
    settings: Settings,
}

#[repr(C)]
#[derive(Clone, PartialEq)]
pub struct State {
    ready: bool,
    domain: Name,
    restart: u64,
    lifetime: u32,
    clock: u64,
    pub last: u64,
    runs: [Run; 32],
    sessions: [Session; 64],
}

/// As `include/pagerudder.h` has it.
const _: () = assert!(std::mem::size_of::<State>() == 37_232);

#[repr(C)]
#[derive(Clone, Copy)]
pub struct Row {
    pub peer: Name,
    pub fqdn: Name,
    pub identity: bool,
    pub group: u8,
    pub required: u32,
}

#[repr(C)]
#[derive(Clone, Copy)]
pub struct Shelf {
    pub rows: [Row; 16],
    pub count: usize,
}

#[repr(C)]
pub struct Reply {
    pub number: u32,
    pub length: usize,
}

#[repr(C)]
pub struct Progress {
    pub number: u32,
    pub length: usize,
    pub at: usize,
    pub place: u64,
}

extern "C" {
    fn pr_open(state: *mut State, domain: *const u8, domain_count: usize, restart: u64, lifetime: u64) -> u32;
    fn pr_event(
        state: *mut State,
        rows: *const Row,
        row_count: usize,
        body: *const u8,
        body_count: usize,
        out: *mut u8,
        out_count: usize,
    ) -> Reply;
    fn pr_serve(
        state: *mut State,
        shelf: Shelf,
        first: u64,
        input: *const u8,
        input_count: usize,
        out: *mut u8,
        out_count: usize,
    ) -> Progress;
}

pub fn open(state: &mut State, domain: &[u8], restart: u64, lifetime: u64) -> u32 {
    // SAFETY: the state is this caller's alone, and the domain is as long as said.
    unsafe { pr_open(state, domain.as_ptr(), domain.len(), restart, lifetime) }
}

pub fn event(state: &mut State, rows: &[Row], body: &[u8], out: &mut [u8]) -> Reply {
    // SAFETY: the state and the buffer are this caller's alone, and all are as long as said.
    unsafe { pr_event(state, rows.as_ptr(), rows.len(), body.as_ptr(), body.len(), out.as_mut_ptr(), out.len()) }
}

pub fn serve(state: &mut State, shelf: &Shelf, first: u64, input: &[u8], out: &mut [u8]) -> Progress {
    // SAFETY: the state and the buffer are this caller's alone, and all are as long as said.
    unsafe { pr_serve(state, *shelf, first, input.as_ptr(), input.len(), out.as_mut_ptr(), out.len()) }
}

impl State {
    /// Memory for a state, before its opening.
    pub fn new() -> Box<State> {
        // SAFETY: zeros are good values of every field.
        unsafe { Box::new(std::mem::zeroed()) }
    }

    /// Every octet, those between fields included.
    pub fn octets(&self) -> &[u8] {
        // SAFETY: the memory of a state was all zeros at first, so each octet has a value.
        unsafe { std::slice::from_raw_parts((self as *const State).cast(), std::mem::size_of::<State>()) }
    }
}

impl State {
    /// The state of any octets, but with 0 or 1 where C wants one of them.
    pub fn put_octets(&mut self, octets: &[u8]) {
        assert_eq!(octets.len(), std::mem::size_of::<State>());
        let flags = std::iter::once(std::mem::offset_of!(State, ready)).chain((0..32).map(|place| {
            std::mem::offset_of!(State, runs)
                + place * std::mem::size_of::<Run>()
                + std::mem::offset_of!(Run, challenged)
        }));
        let mut good = octets.to_vec();
        for at in flags {
            good[at] &= 1;
        }
        // SAFETY: as long as the state, and every field takes any value but the flags, which are 0 or 1.
        unsafe { std::ptr::copy_nonoverlapping(good.as_ptr(), (self as *mut State).cast(), good.len()) };
    }
}

impl From<&twin::Row> for Row {
    fn from(row: &twin::Row) -> Row {
        Row {
            peer: Name { octets: row.peer, length: row.peer_length },
            fqdn: Name { octets: row.fqdn, length: row.fqdn_length },
            identity: row.identity,
            group: row.group,
            required: row.required,
        }
    }
}

/// The rows of a shelf table, as many as the event program takes.
pub fn shelf(rows: &[twin::Row]) -> Shelf {
    let mut shelf = Shelf { rows: [Row::from(&twin::Row::default()); 16], count: rows.len() };
    for (place, row) in shelf.rows.iter_mut().zip(rows) {
        *place = row.into();
    }
    shelf
}

/// The proved server.
pub struct Library {
    state: Box<State>,
    before: Box<State>,
    rows: Vec<Row>,
}

impl Default for Library {
    fn default() -> Self {
        Library { state: State::new(), before: State::new(), rows: vec![] }
    }
}

impl Server for Library {
    fn open(&mut self, history: &History) -> u32 {
        let number = open(&mut self.state, &history.domain, history.restart, history.lifetime);
        if history.given != 0 {
            self.state.last = u64::from(history.given);
        }
        self.rows = history.rows.iter().map(Row::from).collect();
        number
    }

    fn event(&mut self, _: &History, body: &[u8], out: &mut [u8]) -> (u32, usize, Memory) {
        self.before.clone_from(&self.state);
        let reply = event(&mut self.state, &self.rows, body, out);
        let same = self.state.octets() == self.before.octets() || self.state == self.before;
        (reply.number, reply.length, if same { Memory::Same } else { Memory::Changed })
    }
}

/// The proved server behind its Rust crate, for what the crate can be given.
#[derive(Default)]
pub struct Crate {
    server: Option<pagerudder::Server>,
    rows: Vec<pagerudder::Row>,
}

impl Crate {
    /// Rows of the crate have names in range, and its server has given no runs before its first event.
    pub fn takes(history: &History) -> bool {
        let good = |length: usize| (1..=64).contains(&length);
        history.given == 0 && history.rows.iter().all(|row| good(row.peer_length) && good(row.fqdn_length))
    }
}

impl Server for Crate {
    fn open(&mut self, history: &History) -> u32 {
        let row = |row: &twin::Row| {
            let (peer, fqdn) = (&row.peer[..row.peer_length], &row.fqdn[..row.fqdn_length]);
            pagerudder::Row::new(peer, fqdn, row.identity, row.group, row.required)
        };
        self.rows = history.rows.iter().filter_map(|one| row(one).ok()).collect();
        let opened = pagerudder::Server::open(&history.domain, history.restart, history.lifetime);
        let number = opened.as_ref().err().map_or(0, |refusal| refusal.number());
        self.server = opened.ok();
        number
    }

    fn event(&mut self, _: &History, body: &[u8], out: &mut [u8]) -> (u32, usize, Memory) {
        match &mut self.server {
            None => (twin::NOT_OPEN, 0, Memory::NotSeen), // there is no server to give an event to
            Some(server) => match server.event(&self.rows, body, out) {
                Ok(answer) => (0, answer.len(), Memory::NotSeen),
                Err(refusal) => (refusal.number(), 0, Memory::NotSeen),
            },
        }
    }
}
