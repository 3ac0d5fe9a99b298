//! The event program: the opening part, framed events, printed lines.

use std::io::{self, Read, Write};

use crate::event::{LONGEST_LIFETIME, LONGEST_NAME};
use crate::line::number_from;
use crate::server::{Row, State, SHORTEST_BUFFER};
use crate::{FORM, NOT_OPEN};

const MOST_ROWS: usize = 16;
const LONGEST_BODY: usize = 512;
const BUFFER: usize = 64 * 1024;

/// Longer than any printed line: place, number and two digits for each octet of an answer.
const LONGEST_LINE: usize = 512;

/// Reads an opening part and events and prints a line per event. What is printed goes out before a read that may wait,
/// so each event is answered as soon as it has arrived.
pub fn serve(input: impl Read, output: impl Write) -> io::Result<()> {
    let mut line = Line::new(input, output);
    let opened = open(&mut line)?;
    match opened {
        None => line.print(0, NOT_OPEN, &[])?,
        Some((mut state, rows, count)) => events(&mut line, &mut state, &rows[..count])?,
    }
    line.flush()
}

fn events(line: &mut Line<impl Read, impl Write>, state: &mut State, rows: &[Row]) -> io::Result<()> {
    let mut answer = [0; SHORTEST_BUFFER];
    let mut place = 0;
    while !line.at_end()? {
        place += 1;
        let Some(body) = body(line)? else { return line.print(place, FORM, &[]) };
        let (number, length) = state.event(rows, body, &mut answer);
        line.print(place, number, &answer[..length])?;
    }
    Ok(())
}

/// The next event's body, if its length is in range and it is not cut.
fn body<R: Read, W: Write>(line: &mut Line<R, W>) -> io::Result<Option<&[u8]>> {
    match line.number(LONGEST_BODY as u64)? {
        None | Some(0) => Ok(None),
        Some(length) => line.octets(length as usize),
    }
}

/// The state and rows of the opening part, if it is whole, well formed and in range.
#[allow(clippy::type_complexity)]
fn open(line: &mut Line<impl Read, impl Write>) -> io::Result<Option<(State, [Row; MOST_ROWS], usize)>> {
    let mut domain = [0; LONGEST_NAME];
    let Some(domain_length) = name(line, &mut domain)? else { return Ok(None) };
    let Some(restart) = line.number(u64::from(u32::MAX))? else { return Ok(None) };
    let Some(lifetime) = line.number(u64::from(LONGEST_LIFETIME))? else { return Ok(None) };
    let Ok(state) = State::open(&domain[..domain_length], restart as u32, lifetime as u32) else { return Ok(None) };
    let Some(count) = line.number(MOST_ROWS as u64)? else { return Ok(None) };
    let mut rows = [Row::default(); MOST_ROWS];
    for place in rows.iter_mut().take(count as usize) {
        let Some(row) = row(line)? else { return Ok(None) };
        *place = row;
    }
    Ok(Some((state, rows, count as usize)))
}

fn row(line: &mut Line<impl Read, impl Write>) -> io::Result<Option<Row>> {
    let mut row = Row::default();
    let Some(peer_length) = name(line, &mut row.peer)? else { return Ok(None) };
    let Some(fqdn_length) = name(line, &mut row.fqdn)? else { return Ok(None) };
    let Some(identity @ 0..=1) = line.octet()? else { return Ok(None) };
    let Some(group) = line.number(255)? else { return Ok(None) };
    let Some(required) = line.number(u64::from(u32::MAX))? else { return Ok(None) };
    row.peer_length = peer_length;
    row.fqdn_length = fqdn_length;
    row.identity = identity == 1;
    row.group = group as u8;
    row.required = required as u32;
    Ok(Some(row))
}

/// A text of 1 to 64 octets; its length.
fn name(line: &mut Line<impl Read, impl Write>, place: &mut [u8; LONGEST_NAME]) -> io::Result<Option<usize>> {
    match line.number(LONGEST_NAME as u64)? {
        None | Some(0) => Ok(None),
        Some(length) => {
            let length = length as usize;
            let Some(octets) = line.octets(length)? else { return Ok(None) };
            place[..length].copy_from_slice(octets);
            Ok(Some(length))
        }
    }
}

/// The two ends of the program, each with a buffer of its own.
struct Line<R, W> {
    input: R,
    read: Box<[u8]>,
    from: usize,
    to: usize,
    output: W,
    printed: Vec<u8>,
}

impl<R: Read, W: Write> Line<R, W> {
    fn new(input: R, output: W) -> Self {
        let read = vec![0; BUFFER].into_boxed_slice();
        Line { input, read, from: 0, to: 0, output, printed: Vec::with_capacity(BUFFER) }
    }

    fn at_end(&mut self) -> io::Result<bool> {
        Ok(self.from == self.to && !self.fill(1)?)
    }

    #[inline]
    fn octet(&mut self) -> io::Result<Option<u8>> {
        if self.from == self.to && !self.fill(1)? {
            return Ok(None);
        }
        let octet = self.read[self.from];
        self.from += 1;
        Ok(Some(octet))
    }

    #[inline]
    fn number(&mut self, most: u64) -> io::Result<Option<u64>> {
        number_from(most, || self.octet())
    }

    #[inline]
    fn octets(&mut self, count: usize) -> io::Result<Option<&[u8]>> {
        if self.to - self.from < count && !self.fill(count)? {
            return Ok(None);
        }
        let from = self.from;
        self.from += count;
        Ok(Some(&self.read[from..from + count]))
    }

    /// Reads until `count` octets stand in the buffer; false if the input ends before.
    #[cold]
    fn fill(&mut self, count: usize) -> io::Result<bool> {
        self.read.copy_within(self.from..self.to, 0);
        self.to -= self.from;
        self.from = 0;
        while self.to < count {
            self.flush()?;
            match self.input.read(&mut self.read[self.to..]) {
                Ok(0) => return Ok(false),
                Ok(more) => self.to += more,
                Err(error) if error.kind() == io::ErrorKind::Interrupted => {}
                Err(error) => return Err(error),
            }
        }
        Ok(true)
    }

    fn print(&mut self, place: u64, number: u32, answer: &[u8]) -> io::Result<()> {
        if self.printed.len() + LONGEST_LINE > BUFFER {
            self.flush()?;
        }
        decimal(&mut self.printed, place);
        self.printed.push(b' ');
        decimal(&mut self.printed, u64::from(number));
        self.printed.push(b' ');
        if answer.is_empty() {
            self.printed.push(b'-');
        }
        for octet in answer {
            let digits = b"0123456789abcdef";
            self.printed.extend([digits[usize::from(octet >> 4)], digits[usize::from(octet & 15)]]);
        }
        self.printed.push(b'\n');
        Ok(())
    }

    fn flush(&mut self) -> io::Result<()> {
        if !self.printed.is_empty() {
            self.output.write_all(&self.printed)?;
            self.output.flush()?;
            self.printed.clear();
        }
        Ok(())
    }
}

fn decimal(out: &mut Vec<u8>, mut value: u64) {
    let mut digits = [0; 20];
    let mut at = digits.len();
    loop {
        at -= 1;
        digits[at] = b'0' + (value % 10) as u8;
        value /= 10;
        if value == 0 {
            break;
        }
    }
    out.extend_from_slice(&digits[at..]);
}
