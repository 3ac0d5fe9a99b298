//! A history: an opening, a shelf table, and events.

use crate::write::{number, read_number, text};

/// Buffer that the event program lends for an answer.
pub const ROOM: usize = 160;

/// Rows that the event program takes.
pub const PROGRAM_ROWS: usize = 16;

#[derive(Clone)]
pub struct Event {
    pub body: Vec<u8>,
    /// Octets of the buffer lent for the answer.
    pub room: usize,
}

#[derive(Clone)]
pub struct History {
    pub seed: u64,
    pub domain: Vec<u8>,
    pub restart: u64,
    pub lifetime: u64,
    pub rows: Vec<twin::Row>,
    pub events: Vec<Event>,
    /// Runs that the state is made to have given before the first event. Above 0 it is a state that no opening made:
    /// the only way to the last run number.
    pub given: u32,
    /// Whether the event program can take it: few rows with names in range, buffers of `ROOM`, no runs given.
    pub program: bool,
    /// For the event program alone: an opening part as it is, in place of the fields.
    pub opening: Option<Vec<u8>>,
    /// For the event program alone: octets after the last event.
    pub tail: Vec<u8>,
}

impl History {
    /// What the event program reads.
    pub fn input(&self) -> Vec<u8> {
        let mut input = self.opening.clone().unwrap_or_else(|| self.opening_part());
        for event in &self.events {
            text(&mut input, &event.body);
        }
        input.extend_from_slice(&self.tail);
        input
    }

    /// The history that an event program reads, if its opening part is good.
    pub fn read(input: &[u8]) -> Option<History> {
        let mut rest = input;
        let domain = name(&mut rest)?.to_vec();
        let restart = short_number(&mut rest, u64::from(u32::MAX))?;
        let lifetime = short_number(&mut rest, 604_800).filter(|&lifetime| lifetime >= 60)?;
        let mut rows = vec![];
        for _ in 0..short_number(&mut rest, PROGRAM_ROWS as u64)? {
            let mut row = twin::Row::default();
            let (peer, fqdn) = (name(&mut rest)?, name(&mut rest)?);
            row.peer[..peer.len()].copy_from_slice(peer);
            row.fqdn[..fqdn.len()].copy_from_slice(fqdn);
            (row.peer_length, row.fqdn_length) = (peer.len(), fqdn.len());
            let (&identity, after) = rest.split_first().filter(|(&identity, _)| identity <= 1)?;
            rest = after;
            row.identity = identity == 1;
            row.group = short_number(&mut rest, 255)? as u8;
            row.required = short_number(&mut rest, u64::from(u32::MAX))? as u32;
            rows.push(row);
        }
        let mut events = vec![];
        while let Some((body, after)) = frame(rest) {
            events.push(Event { body: body.to_vec(), room: ROOM });
            rest = after;
        }
        let (opening, tail) = (None, rest.to_vec());
        Some(History { seed: 0, domain, restart, lifetime, rows, events, given: 0, program: true, opening, tail })
    }

    /// Octets without a good opening part: for the event program alone.
    pub fn of_octets(input: &[u8]) -> History {
        let opening = Some(input.to_vec());
        let (domain, rows, events, tail) = (vec![], vec![], vec![], vec![]);
        History { seed: 0, domain, restart: 0, lifetime: 0, rows, events, given: 0, program: true, opening, tail }
    }

    pub fn opening_part(&self) -> Vec<u8> {
        let mut part = vec![];
        text(&mut part, &self.domain);
        number(&mut part, self.restart);
        number(&mut part, self.lifetime);
        number(&mut part, self.rows.len() as u64);
        for row in &self.rows {
            text(&mut part, &row.peer[..row.peer_length.min(64)]);
            text(&mut part, &row.fqdn[..row.fqdn_length.min(64)]);
            part.push(u8::from(row.identity));
            number(&mut part, u64::from(row.group));
            number(&mut part, u64::from(row.required));
        }
        part
    }

    /// Every octet, for a reader without this program.
    pub fn dump(&self) -> String {
        let mut lines = format!(
            "domain {} restart {} lifetime {} runs given {}\n",
            hex(&self.domain),
            self.restart,
            self.lifetime,
            self.given
        );
        if let Some(opening) = &self.opening {
            lines += &format!("opening {}\n", hex(opening));
        }
        for row in &self.rows {
            lines += &format!(
                "row peer {} of {} fqdn {} of {} identity {} group {} required {}\n",
                hex(&row.peer),
                row.peer_length,
                hex(&row.fqdn),
                row.fqdn_length,
                u8::from(row.identity),
                row.group,
                row.required
            );
        }
        for event in &self.events {
            lines += &format!("room {} body {}\n", event.room, hex(&event.body));
        }
        if !self.tail.is_empty() {
            lines += &format!("tail {}\n", hex(&self.tail));
        }
        lines
    }
}

/// A number in its shortest form at the front, and at most `most`.
fn short_number(rest: &mut &[u8], most: u64) -> Option<u64> {
    let (value, length) = read_number(rest)?;
    let shortest = length == 1 || rest[length - 1] != 0;
    *rest = &rest[length..];
    Some(value).filter(|&value| shortest && value <= most)
}

/// A text of 1 to 64 octets at the front.
fn name<'a>(rest: &mut &'a [u8]) -> Option<&'a [u8]> {
    let length = short_number(rest, 64).filter(|&length| length > 0)? as usize;
    let (name, after) = (rest.get(..length)?, &rest[length..]);
    *rest = after;
    Some(name)
}

/// An event at the front, and what follows it.
fn frame(input: &[u8]) -> Option<(&[u8], &[u8])> {
    let mut rest = input;
    let length = short_number(&mut rest, 512).filter(|&length| length > 0)? as usize;
    Some((rest.get(..length)?, &rest[length..]))
}

pub fn hex(octets: &[u8]) -> String {
    if octets.is_empty() {
        return "-".into();
    }
    octets.iter().map(|octet| format!("{octet:02x}")).collect()
}
