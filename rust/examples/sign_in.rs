//! A front in small: a student signs in (START, VECTOR, RESPONSE) and a shelf gets its key (KEY). It prints for each event
//! its place, the number returned and the answer in hex. The card is the first of `events/milenage.txt`.
use pagerudder::{Row, Server, ROOM};
use std::error::Error;

const DOMAIN: &[u8] = b"bsf.mnc001.mcc001.pub.3gppnetwork.org";
const IMPI: &[u8] = b"001010000000001@ims.mnc001.mcc001.3gppnetwork.org";
const SHELF: &[u8] = b"naf.example";
const PROTOCOL: [u8; 5] = [0x01, 0x00, 0x00, 0x00, 0x02];

/// What the subscriber server sends.
const RAND: u128 = 0x23553cbe9637a89d218ae64dae47bf35;
const AUTN: u128 = 0x55f328b43577b9b94a9ffac354dfafb3;
const XRES: u64 = 0xa54211d5e3ba50bf;
const CK: u128 = 0xb40ba9a3c58b2a05bbf0d987b21bf8cb;
const IK: u128 = 0xf769bcd751044604127672711c6d3441;

/// A number on the line: groups of seven bits, lowest first; all octets but the last have the top bit set.
fn number(mut n: u64) -> Vec<u8> {
    let mut octets = Vec::new();
    while n >= 128 {
        octets.push((n % 128) as u8 + 128);
        n /= 128;
    }
    octets.push(n as u8);
    octets
}

fn text(octets: &[u8]) -> Vec<u8> {
    [&number(octets.len() as u64), octets].concat()
}

/// Takes a number off the front of an answer.
fn take_number(answer: &mut &[u8]) -> u64 {
    let mut n = 0;
    let mut shift = 0;
    loop {
        let octet = answer[0];
        *answer = &answer[1..];
        n += u64::from(octet % 128) << shift;
        shift += 7;
        if octet < 128 {
            return n;
        }
    }
}

/// The server, the shelf table, and how many events there were.
struct Front {
    server: Server,
    rows: [Row; 1],
    events: usize,
}

impl Front {
    /// Sends an event, and prints its line.
    fn send(&mut self, fields: &[&[u8]]) -> Result<Vec<u8>, Box<dyn Error>> {
        let mut buffer = [0; ROOM];
        let answer = self.server.event(&self.rows, &fields.concat(), &mut buffer)?;
        self.events += 1;
        let hex: String = answer.iter().map(|octet| format!("{octet:02x}")).collect();
        println!("{} 0 {hex}", self.events);
        Ok(answer.to_vec())
    }
}

fn main() -> Result<(), Box<dyn Error>> {
    // The seconds of a clock; here as in the event file.
    let time = 1010;
    let row = Row::new(SHELF, SHELF, true, 0, 0)?;
    let mut front = Front { server: Server::open(DOMAIN, 1, 43200)?, rows: [row], events: 0 };

    // A tablet asks to sign in. The answer has restart and run, which go to the subscriber server with the request.
    let answer = front.send(&[&[1], &number(time), &text(IMPI)])?;
    let mut fields = &answer[1..];
    let restart = number(take_number(&mut fields));
    let run = number(take_number(&mut fields));

    // The subscriber server's vector, with no settings. The answer is the challenge for the tablet.
    let vector = [RAND.to_be_bytes(), AUTN.to_be_bytes()].concat();
    let keys = [CK.to_be_bytes(), IK.to_be_bytes()].concat();
    let xres = text(&XRES.to_be_bytes());
    front.send(&[&[2], &number(time + 1), &restart, &run, &text(IMPI), &vector, &xres, &keys, &[0]])?;

    // The tablet's response: here the right one. The answer has the B-TID.
    let answer = front.send(&[&[3], &number(time + 2), &restart, &run, &xres])?;
    if answer[0] != 3 {
        return Err("the response was wrong".into());
    }
    let mut fields = &answer[1..];
    let len = take_number(&mut fields) as usize;
    let btid = text(&fields[..len]);

    // A shelf asks for the key of that B-TID, and wants no settings.
    let naf = text(&[SHELF, &PROTOCOL].concat());
    front.send(&[&[5], &number(time + 3), &text(SHELF), &btid, &naf, &number(0)])?;
    Ok(())
}
