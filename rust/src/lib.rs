//! The campus key server (a BSF of 3GPP TS 33.220): events in, answers out. The server itself is written and proved in
//! Rattle; this crate wraps its static library in a safe interface. `docs/GUIDE.md` says how events and answers are laid
//! out, and what must be true of the host.
//!
//! ```
//! let mut server = pagerudder::Server::open(b"bsf.example", 7, 3600)?;
//! let mut buffer = [0; pagerudder::ROOM];
//! // START at 100 of a@b: the answer is run 1 of restart 7, with no settings offered.
//! let answer = server.event(&[], b"\x01\x64\x03a@b", &mut buffer)?;
//! assert_eq!(answer, [1, 7, 1, 0]);
//! # Ok::<(), pagerudder::Refusal>(())
//! ```
//!
//! An event takes 8 KiB of the caller's stack, a batch 12; give a thread [`STACK`] octets or more. (Rust gives its threads 2 MiB.)
//! A restart number must never be used twice for a server whose replies may still arrive.

mod raw;
mod refusal;

pub use refusal::Refusal;
use std::error::Error;
use std::fmt;

/// The most octets of a name.
pub const NAME: usize = 64;
/// The most rows of a [`Shelf`].
pub const ROWS: usize = 16;
/// The shortest buffer for an answer.
pub const ROOM: usize = 160;
/// The longest answer.
pub const ANSWER: usize = 148;
/// The longest event that [`Server::serve`] takes.
pub const BODY: usize = 512;
/// The room that [`Server::serve`] wants for a line.
pub const LINE: usize = 364;
/// The octets of SHA-256 and of HMAC.
pub const DIGEST: usize = 32;
/// The stack that a thread should have.
pub const STACK: usize = 524288;

/// A name that does not have 1 to 64 octets.
#[derive(Clone, Copy, Debug, PartialEq, Eq)]
pub struct BadName;

impl fmt::Display for BadName {
    fn fmt(&self, f: &mut fmt::Formatter) -> fmt::Result {
        write!(f, "a name has 1 to {NAME} octets")
    }
}

impl Error for BadName {}

/// More rows than a [`Shelf`] holds.
#[derive(Clone, Copy, Debug, PartialEq, Eq)]
pub struct TooManyRows;

impl fmt::Display for TooManyRows {
    fn fmt(&self, f: &mut fmt::Formatter) -> fmt::Result {
        write!(f, "a shelf table has at most {ROWS} rows")
    }
}

impl Error for TooManyRows {}

fn name(octets: &[u8]) -> Result<raw::Name, BadName> {
    if octets.is_empty() || octets.len() > NAME {
        return Err(BadName);
    }
    let mut name = raw::Name { octets: [0; NAME], len: octets.len() };
    name.octets[..octets.len()].copy_from_slice(octets);
    Ok(name)
}

/// A row of the shelf table. The first row with the peer and the FQDN of a KEY counts.
#[derive(Clone, Copy)]
#[repr(transparent)]
pub struct Row(raw::Row);

impl Row {
    /// For this peer and this FQDN: whether the IMPI is handed out, the group of the settings entry, and the application
    /// that is required (0: none).
    pub fn new(peer: &[u8], fqdn: &[u8], identity: bool, group: u8, required: u32) -> Result<Row, BadName> {
        Ok(Row(raw::Row { peer: name(peer)?, fqdn: name(fqdn)?, identity, group, required }))
    }
}

/// The shelf table of [`Server::serve`]: up to 16 rows, in order.
#[derive(Clone, Copy)]
pub struct Shelf(raw::Shelf);

impl Shelf {
    pub fn new(rows: &[Row]) -> Result<Shelf, TooManyRows> {
        if rows.len() > ROWS {
            return Err(TooManyRows);
        }
        let none = raw::Name { octets: [0; NAME], len: 0 };
        let free = raw::Row { peer: none, fqdn: none, identity: false, group: 0, required: 0 };
        let mut shelf = raw::Shelf { rows: [free; ROWS], count: rows.len() };
        for (place, row) in shelf.rows.iter_mut().zip(rows) {
            *place = row.0;
        }
        Ok(Shelf(shelf))
    }
}

/// Why [`Server::serve`] stopped.
#[derive(Clone, Copy, Debug, PartialEq, Eq)]
pub enum End {
    /// More input is wanted for the next event.
    More,
    /// There is no room for another line. (Whether there is another event was not looked at.)
    Full,
    /// What stands there is no event. It has its line.
    Bad,
}

/// How far [`Server::serve`] went.
#[derive(Clone, Copy, Debug, PartialEq, Eq)]
pub struct Progress<'a> {
    /// The lines, a newline after each.
    pub lines: &'a [u8],
    /// Where in the input the first event that is left starts.
    pub at: usize,
    /// Its place.
    pub place: u64,
    pub end: End,
}

/// An open key server. It holds the runs, the sessions and their keys, and nobody else can read or change them. Where it
/// is dropped its memory is filled with zeros first.
pub struct Server {
    state: Box<raw::State>,
}

impl Server {
    /// Opens a server for a BSF domain of 1 to 64 octets, a restart number of 32 bits, and a default lifetime of 60 to
    /// 604,800 seconds. Other values are refused as NOT OPEN.
    pub fn open(domain: &[u8], restart: u64, lifetime: u64) -> Result<Server, Refusal> {
        let mut state = Box::new(raw::State { opaque: [0; 4654] });
        // SAFETY: the state is ours, and the domain is good for its length.
        let no = unsafe { raw::pr_open(&mut *state, domain.as_ptr(), domain.len(), restart, lifetime) };
        Refusal::check(no)?;
        Ok(Server { state })
    }

    /// One event, START to KEY. The answer stands at the front of the buffer; the rest of the buffer keeps its octets.
    /// It takes any number of rows; only a KEY reads them.
    pub fn event<'a>(&mut self, rows: &[Row], body: &[u8], buffer: &'a mut [u8]) -> Result<&'a [u8], Refusal> {
        // SAFETY: a Row is a raw::Row; each slice is good for its length; what is borrowed mutably overlaps nothing.
        let reply = unsafe {
            raw::pr_event(
                &mut *self.state,
                rows.as_ptr().cast(),
                rows.len(),
                body.as_ptr(),
                body.len(),
                buffer.as_mut_ptr(),
                buffer.len(),
            )
        };
        answered(reply, buffer)
    }

    /// The events at the front of an input, each after its body length as a number, one after another, and for each the
    /// line that the event program prints. `first` is the place of the first; it is refused as FORM where with the length
    /// of the input it passes 64 bits.
    pub fn serve<'a>(
        &mut self,
        shelf: &Shelf,
        first: u64,
        input: &[u8],
        buffer: &'a mut [u8],
    ) -> Result<Progress<'a>, Refusal> {
        // SAFETY: each slice is good for its length; what is borrowed mutably overlaps nothing.
        let progress = unsafe {
            raw::pr_serve(
                &mut *self.state,
                shelf.0,
                first,
                input.as_ptr(),
                input.len(),
                buffer.as_mut_ptr(),
                buffer.len(),
            )
        };
        let end = match Refusal::check(progress.no) {
            Ok(()) => End::More,
            Err(Refusal::Short) => End::Full,
            // What is no event has its line; without one it was `first` that was refused.
            Err(_) if progress.len > 0 => End::Bad,
            Err(refusal) => return Err(refusal),
        };
        Ok(Progress { lines: &buffer[..progress.len], at: progress.at, place: progress.place, end })
    }
}

fn wipe(state: &mut raw::State) {
    for word in &mut state.opaque {
        // SAFETY: the word is ours. A volatile write stays, though nobody reads the word again.
        unsafe { std::ptr::write_volatile(word, 0) };
    }
}

impl Drop for Server {
    fn drop(&mut self) {
        wipe(&mut self.state);
    }
}

/// Shows nothing of the state: it holds keys.
impl fmt::Debug for Server {
    fn fmt(&self, f: &mut fmt::Formatter) -> fmt::Result {
        f.debug_struct("Server").finish_non_exhaustive()
    }
}

fn answered(reply: raw::Reply, buffer: &[u8]) -> Result<&[u8], Refusal> {
    Refusal::check(reply.no)?;
    Ok(&buffer[..reply.len])
}

/// SHA-256 (FIPS 180-4). A message above 1,048,576 octets is refused as FORM.
pub fn sha256(message: &[u8]) -> Result<[u8; DIGEST], Refusal> {
    let mut digest = [0; DIGEST];
    // SAFETY: each slice is good for its length, and the digest overlaps nothing.
    let reply = unsafe { raw::pr_sha256(message.as_ptr(), message.len(), digest.as_mut_ptr(), DIGEST) };
    Refusal::check(reply.no)?;
    Ok(digest)
}

/// HMAC (RFC 2104) with SHA-256. A key or a text above 1,048,576 octets is refused as FORM.
pub fn hmac(key: &[u8], text: &[u8]) -> Result<[u8; DIGEST], Refusal> {
    let mut digest = [0; DIGEST];
    // SAFETY: each slice is good for its length, and the digest overlaps nothing.
    let reply =
        unsafe { raw::pr_hmac(key.as_ptr(), key.len(), text.as_ptr(), text.len(), digest.as_mut_ptr(), DIGEST) };
    Refusal::check(reply.no)?;
    Ok(digest)
}

/// The string of a key derivation (33.220 B.2.0): FC, then each parameter and its length. The parameters stand one after
/// another in `run`, and `lens` has their lengths. Refused as FORM: more than 8 parameters, one above 65,535 octets, or
/// lengths that do not sum to the run. Refused as SHORT: a buffer too short for the string.
pub fn kdf<'a>(fc: u8, run: &[u8], lens: &[usize], buffer: &'a mut [u8]) -> Result<&'a [u8], Refusal> {
    // SAFETY: each slice is good for its length, and the buffer overlaps nothing.
    let reply = unsafe {
        raw::pr_kdf(fc, run.as_ptr(), run.len(), lens.as_ptr(), lens.len(), buffer.as_mut_ptr(), buffer.len())
    };
    answered(reply, buffer)
}

#[cfg(test)]
mod tests {
    use super::*;

    #[test]
    fn a_wiped_state_is_zeros_and_closed() {
        let mut server = Server::open(b"bsf.example", 7, 3600).unwrap();
        server.event(&[], b"\x01\x64\x03a@b", &mut [0; ROOM]).unwrap();
        assert!(server.state.opaque.iter().any(|word| *word != 0));
        wipe(&mut server.state);
        assert!(server.state.opaque.iter().all(|word| *word == 0));
        assert_eq!(server.event(&[], b"\x01\x64\x03a@b", &mut [0; ROOM]), Err(Refusal::NotOpen));
    }
}
