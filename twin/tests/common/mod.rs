//! Bodies of events, put together field by field.
#![allow(dead_code)]

use twin::{Row, State};

pub fn number(mut value: u64) -> Vec<u8> {
    let mut octets = vec![];
    while value > 127 {
        octets.push(128 + (value % 128) as u8);
        value /= 128;
    }
    octets.push(value as u8);
    octets
}

pub fn text(octets: impl AsRef<[u8]>) -> Vec<u8> {
    let octets = octets.as_ref();
    [number(octets.len() as u64), octets.to_vec()].concat()
}

pub fn hex(octets: &[u8]) -> String {
    octets.iter().map(|octet| format!("{octet:02x}")).collect()
}

pub fn octets(hex: &str) -> Vec<u8> {
    let digits: Vec<u32> = hex.chars().filter_map(|letter| letter.to_digit(16)).collect();
    digits.chunks(2).map(|pair| (pair[0] * 16 + pair[1]) as u8).collect()
}

/// 16 octets that count up.
pub fn up(from: u8) -> [u8; 16] {
    std::array::from_fn(|i| from.wrapping_add(i as u8))
}

#[derive(Clone)]
pub struct Vector {
    pub impi: Vec<u8>,
    pub rand: [u8; 16],
    pub autn: [u8; 16],
    pub xres: Vec<u8>,
    pub ck: [u8; 16],
    pub ik: [u8; 16],
    pub settings: Vec<u8>,
}

pub const NONE: &[u8] = &[0];
pub const AS_BEFORE: &[u8] = &[1];

/// The vector of document 01's examples, and others like it with another RAND.
pub fn vector(impi: &str, rand: u8, settings: &[u8]) -> Vector {
    Vector {
        impi: impi.into(),
        rand: up(rand),
        autn: up(0xa0),
        xres: b"\x01\x02\x03\x04\x05\x06\x07\x08".to_vec(),
        ck: up(0x10),
        ik: up(0x20),
        settings: settings.to_vec(),
    }
}

pub type Entry<'a> = (u64, u64, [u8; 4], &'a str);

pub fn given(lifetime: u64, timestamp: u64, entries: &[Entry]) -> Vec<u8> {
    let mut settings = vec![2];
    settings.extend(number(lifetime));
    settings.extend(number(timestamp));
    settings.extend(number(entries.len() as u64));
    for (application, group, flags, user_name) in entries {
        settings.extend(number(*application));
        settings.extend(number(*group));
        settings.extend(flags);
        settings.extend(text(user_name));
    }
    settings
}

pub fn start(time: u64, impi: &str) -> Vec<u8> {
    [vec![1], number(time), text(impi)].concat()
}

pub fn reply(time: u64, restart: u64, run: u64, vector: &Vector) -> Vec<u8> {
    let mut body = [vec![2], number(time), number(restart), number(run), text(&vector.impi)].concat();
    body.extend(vector.rand);
    body.extend(vector.autn);
    body.extend(text(&vector.xres));
    body.extend(vector.ck);
    body.extend(vector.ik);
    body.extend(&vector.settings);
    body
}

pub fn response(time: u64, restart: u64, run: u64, res: &[u8]) -> Vec<u8> {
    [vec![3], number(time), number(restart), number(run), text(res)].concat()
}

pub fn abort(time: u64, restart: u64, run: u64) -> Vec<u8> {
    [vec![4], number(time), number(restart), number(run)].concat()
}

pub fn key(time: u64, peer: &str, btid: &str, naf_id: &[u8], application: u64) -> Vec<u8> {
    [vec![5], number(time), text(peer), text(btid), text(naf_id), number(application)].concat()
}

pub fn row(peer: &str, fqdn: &str, identity: bool, group: u8, required: u32) -> Row {
    let mut row = Row { identity, group, required, ..Row::default() };
    row.peer[..peer.len()].copy_from_slice(peer.as_bytes());
    row.peer_length = peer.len();
    row.fqdn[..fqdn.len()].copy_from_slice(fqdn.as_bytes());
    row.fqdn_length = fqdn.len();
    row
}

/// A server with a table of rows, asked event by event.
#[derive(Clone)]
pub struct Desk {
    pub state: State,
    pub rows: Vec<Row>,
}

impl Desk {
    /// bsf.example, restart 7, default lifetime 3600, no rows.
    pub fn new() -> Desk {
        Desk { state: State::open(b"bsf.example", 7, 3600).unwrap_or_else(|_| panic!()), rows: vec![] }
    }

    pub fn with(rows: &[Row]) -> Desk {
        Desk { rows: rows.to_vec(), ..Desk::new() }
    }

    /// The line that the event program prints, without its place. The rest of the buffer must keep its octets.
    pub fn ask(&mut self, body: &[u8]) -> String {
        let mut out = [0x5a; 170];
        let (number, length) = self.state.event(&self.rows, body, &mut out);
        assert!(out[length..].iter().all(|&octet| octet == 0x5a));
        if number == 0 {
            format!("0 {}", hex(&out[..length]))
        } else {
            assert_eq!(length, 0);
            format!("{number} -")
        }
    }

    /// Runs START, VECTOR and RESPONSE at one time; the run has the number `run`.
    pub fn sign_in(&mut self, time: u64, run: u64, vector: &Vector) -> String {
        let impi = String::from_utf8(vector.impi.clone()).unwrap();
        assert!(self.ask(&start(time, &impi)).starts_with("0 01"));
        assert!(self.ask(&reply(time, 7, run, vector)).starts_with("0 02"));
        self.ask(&response(time, 7, run, &vector.xres))
    }
}
