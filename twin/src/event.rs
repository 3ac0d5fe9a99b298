//! The five events and how their bodies are laid out.

use crate::line::Reader;
use crate::text::Text;

pub const LAST_TIME: u64 = 999_999_999_999;
pub const LONGEST_NAME: usize = 64;
pub const SHORTEST_LIFETIME: u32 = 60;
pub const LONGEST_LIFETIME: u32 = 604_800;

const LONGEST_BTID: usize = 89;
const PROTOCOL: usize = 5;
const SHORTEST_RES: usize = 4;
const LONGEST_RES: usize = 16;
const MOST_ENTRIES: usize = 4;
const LONGEST_USER_NAME: usize = 32;

pub type Rand = [u8; 16];
pub type Impi = Text<LONGEST_NAME>;
pub type Res = Text<LONGEST_RES>;

/// An event's fields; long octets stay in the body.
#[allow(clippy::large_enum_variant)] // settings go by value: nothing is put on the heap
pub enum Event<'a> {
    Start { time: u64, impi: &'a [u8] },
    Vector { time: u64, restart: u32, run: u32, vector: Vector<'a> },
    Response { time: u64, restart: u32, run: u32, res: &'a [u8] },
    Abort { time: u64, restart: u32, run: u32 },
    Key { time: u64, peer: &'a [u8], btid: &'a [u8], naf_id: &'a [u8], application: u32 },
}

/// What the subscriber server replies.
pub struct Vector<'a> {
    pub impi: &'a [u8],
    pub rand: &'a Rand,
    pub autn: &'a [u8; 16],
    pub xres: &'a [u8],
    pub ck: &'a [u8; 16],
    pub ik: &'a [u8; 16],
    pub settings: Sent,
}

/// The settings as the reply sends them.
pub enum Sent {
    None,
    AsBefore,
    Given(Settings),
}

/// A student's settings.
#[derive(Clone, Copy)]
pub struct Settings {
    /// 0: missing, the default holds.
    pub lifetime: u32,
    /// 0: none.
    pub timestamp: u64,
    count: u8,
    entries: [Entry; MOST_ENTRIES],
}

#[derive(Clone, Copy)]
pub struct Entry {
    pub application: u32,
    pub group: u8,
    pub flags: [u8; 4],
    pub user_name: Text<LONGEST_USER_NAME>,
}

const NO_ENTRY: Entry = Entry { application: 0, group: 0, flags: [0; 4], user_name: Text::EMPTY };

impl Settings {
    pub fn entry(&self, application: u32, group: u8) -> Option<&Entry> {
        self.entries[..usize::from(self.count)]
            .iter()
            .find(|entry| entry.application == application && entry.group == group)
    }
}

/// The event that a body is, if it is as laid out.
#[inline]
pub fn decode(body: &[u8]) -> Option<Event<'_>> {
    let mut fields = Reader::new(body);
    let kind = fields.octet()?;
    if !(1..=5).contains(&kind) {
        return None;
    }
    let time = fields.number(LAST_TIME)?;
    let event = match kind {
        1 => Event::Start { time, impi: name(&mut fields)? },
        5 => Event::Key {
            time,
            peer: name(&mut fields)?,
            btid: fields.text(1, LONGEST_BTID)?,
            naf_id: fields.text(1 + PROTOCOL, LONGEST_NAME + PROTOCOL)?,
            application: fields.number32(u32::MAX)?,
        },
        _ => {
            let restart = fields.number32(u32::MAX)?;
            let run = fields.number32(u32::MAX)?;
            match kind {
                2 => Event::Vector { time, restart, run, vector: vector(&mut fields)? },
                3 => Event::Response { time, restart, run, res: res(&mut fields)? },
                _ => Event::Abort { time, restart, run },
            }
        }
    };
    fields.end()?;
    Some(event)
}

/// The FQDN of a NAF_Id.
pub fn fqdn(naf_id: &[u8]) -> &[u8] {
    &naf_id[..naf_id.len() - PROTOCOL]
}

fn name<'a>(fields: &mut Reader<'a>) -> Option<&'a [u8]> {
    fields.text(1, LONGEST_NAME)
}

fn res<'a>(fields: &mut Reader<'a>) -> Option<&'a [u8]> {
    fields.text(SHORTEST_RES, LONGEST_RES)
}

fn vector<'a>(fields: &mut Reader<'a>) -> Option<Vector<'a>> {
    Some(Vector {
        impi: name(fields)?,
        rand: fields.array()?,
        autn: fields.array()?,
        xres: res(fields)?,
        ck: fields.array()?,
        ik: fields.array()?,
        settings: match fields.octet()? {
            0 => Sent::None,
            1 => Sent::AsBefore,
            2 => Sent::Given(settings(fields)?),
            _ => return None,
        },
    })
}

fn settings(fields: &mut Reader) -> Option<Settings> {
    let lifetime = fields.number32(LONGEST_LIFETIME)?;
    if lifetime != 0 && lifetime < SHORTEST_LIFETIME {
        return None;
    }
    let timestamp = fields.number(LAST_TIME)?;
    let count = fields.number(MOST_ENTRIES as u64)? as u8;
    let mut settings = Settings { lifetime, timestamp, count: 0, entries: [NO_ENTRY; MOST_ENTRIES] };
    for place in 0..count {
        let entry = entry(fields)?;
        if settings.entry(entry.application, entry.group).is_some() {
            return None;
        }
        settings.entries[usize::from(place)] = entry;
        settings.count = place + 1;
    }
    Some(settings)
}

fn entry(fields: &mut Reader) -> Option<Entry> {
    let application = fields.number32(u32::MAX)?;
    if application == 0 {
        return None;
    }
    Some(Entry {
        application,
        group: fields.number(255)? as u8,
        flags: *fields.array()?,
        user_name: Text::new(fields.text(1, LONGEST_USER_NAME)?),
    })
}
