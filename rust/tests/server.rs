//! The boundaries of the interface: what is refused, and that a refusal writes nothing.
use pagerudder::{hmac, kdf, sha256, BadName, End, Refusal, Row, Server, Shelf, TooManyRows, LINE, ROOM};

/// START at 100 of a@b, and its body length before it.
const START: &[u8] = b"\x01\x64\x03a@b";
const FRAME: &[u8] = b"\x06\x01\x64\x03a@b";

fn server() -> Server {
    Server::open(b"bsf.example", 7, 3600).unwrap()
}

fn hex(octets: &[u8]) -> String {
    octets.iter().map(|octet| format!("{octet:02x}")).collect()
}

#[test]
fn an_opening_has_its_ranges() {
    let open = |domain: &[u8], restart, lifetime| Server::open(domain, restart, lifetime).err();
    assert_eq!(open(b"d", 0, 60), None);
    assert_eq!(open(&[b'd'; 64], 4294967295, 604800), None);
    assert_eq!(open(b"", 0, 60), Some(Refusal::NotOpen));
    assert_eq!(open(&[b'd'; 65], 0, 60), Some(Refusal::NotOpen));
    assert_eq!(open(b"d", 4294967296, 60), Some(Refusal::NotOpen));
    assert_eq!(open(b"d", 0, 59), Some(Refusal::NotOpen));
    assert_eq!(open(b"d", 0, 604801), Some(Refusal::NotOpen));
}

#[test]
fn an_answer_stands_at_the_front_and_the_rest_keeps_its_octets() {
    let mut buffer = [0xa5; ROOM + 1];
    assert_eq!(server().event(&[], START, &mut buffer), Ok(&[1, 7, 1, 0][..]));
    assert!(buffer[4..].iter().all(|octet| *octet == 0xa5));
}

#[test]
fn a_short_buffer_is_refused_and_nothing_changes() {
    let mut server = server();
    let mut short = [0xa5; ROOM - 1];
    assert_eq!(server.event(&[], START, &mut short), Err(Refusal::Short));
    assert_eq!(short, [0xa5; ROOM - 1]);
    assert_eq!(server.event(&[], START, &mut []), Err(Refusal::Short));
    // No run number was used up.
    assert_eq!(server.event(&[], START, &mut [0; ROOM]), Ok(&[1, 7, 1, 0][..]));
}

#[test]
fn refusals_have_their_numbers() {
    let mut server = server();
    let mut buffer = [0; ROOM];
    let mut said = |body: &[u8]| server.event(&[], body, &mut buffer).map(|answer| answer.to_vec());
    assert_eq!(said(b""), Err(Refusal::Form));
    assert_eq!(said(b"\x06"), Err(Refusal::Form));
    assert_eq!(said(START), Ok(vec![1, 7, 1, 0]));
    assert_eq!(said(b"\x01\x63\x03a@b"), Err(Refusal::Clock));
    assert_eq!(said(b"\x04\x64\x07\x02"), Err(Refusal::Stale));
    assert_eq!(said(b"\x04\x64\x06\x01"), Err(Refusal::Stale));
    assert_eq!(said(b"\x03\x64\x07\x01\x04abcd"), Err(Refusal::Early));
    assert_eq!(said(b"\x05\x64\x01p\x01b\x06f\x01\x00\x00\x00\x02\x00"), Err(Refusal::NotYours));
    assert_eq!(said(b"\x04\x64\x07\x01"), Ok(vec![4]));
}

#[test]
fn any_number_of_rows_is_taken_and_the_first_match_counts() {
    let mut server = server();
    let mut buffer = [0; ROOM];
    let key = b"\x05\x64\x01p\x01b\x06f\x01\x00\x00\x00\x02\x00";
    let other = Row::new(b"other", b"f", true, 0, 0).unwrap();
    let mut rows = vec![other; 40];
    assert_eq!(server.event(&rows, key, &mut buffer), Err(Refusal::NotYours));
    rows.push(Row::new(b"p", b"f", true, 0, 0).unwrap());
    // The row is there, the session is not.
    assert_eq!(server.event(&rows, key, &mut buffer), Err(Refusal::NoBtid));
}

#[test]
fn rows_and_shelves_have_their_ranges() {
    let new = |peer: &[u8], fqdn: &[u8]| Row::new(peer, fqdn, true, 255, u32::MAX).err();
    assert_eq!(new(b"p", b"f"), None);
    assert_eq!(new(&[b'p'; 64], &[b'f'; 64]), None);
    assert_eq!(new(b"", b"f"), Some(BadName));
    assert_eq!(new(b"p", b""), Some(BadName));
    assert_eq!(new(&[b'p'; 65], b"f"), Some(BadName));
    assert_eq!(new(b"p", &[b'f'; 65]), Some(BadName));
    let row = Row::new(b"p", b"f", true, 0, 0).unwrap();
    assert!(Shelf::new(&[]).is_ok());
    assert!(Shelf::new(&[row; 16]).is_ok());
    assert_eq!(Shelf::new(&[row; 17]).err(), Some(TooManyRows));
}

#[test]
fn a_batch_ends_where_it_must() {
    let shelf = Shelf::new(&[]).unwrap();
    let two = [FRAME, FRAME].concat();
    let mut buffer = [0; 2 * LINE];

    // Its line takes 13 octets of the first room; then there is one octet too little for the second.
    let progress = server().serve(&shelf, 9, &two, &mut buffer[..LINE + 12]).unwrap();
    assert_eq!((progress.end, progress.at, progress.place), (End::Full, 7, 10));
    assert_eq!(progress.lines, b"9 0 01070100\n");
    let progress = server().serve(&shelf, 9, &two, &mut buffer[..LINE + 13]).unwrap();
    assert_eq!((progress.end, progress.at, progress.place), (End::Full, 14, 11));
    assert_eq!(progress.lines, b"9 0 01070100\n10 0 01070200\n");

    // The second is cut.
    let progress = server().serve(&shelf, 1, &two[..13], &mut buffer).unwrap();
    assert_eq!((progress.end, progress.at, progress.place), (End::More, 7, 2));

    // No event begins with the length 0.
    let progress = server().serve(&shelf, 1, &[FRAME, &[0]].concat(), &mut buffer).unwrap();
    assert_eq!((progress.end, progress.at, progress.place), (End::Bad, 7, 2));
    assert_eq!(progress.lines, b"1 0 01070100\n2 3 -\n");

    // Nothing is looked at where there is no room for a line.
    let progress = server().serve(&shelf, 1, &two, &mut buffer[..LINE - 1]).unwrap();
    assert_eq!((progress.end, progress.at, progress.place, progress.lines), (End::Full, 0, 1, &[][..]));
    let progress = server().serve(&shelf, 1, &[], &mut buffer[..LINE]).unwrap();
    assert_eq!((progress.end, progress.at, progress.place, progress.lines), (End::More, 0, 1, &[][..]));
}

#[test]
fn a_first_place_that_is_too_large_is_refused_and_nothing_changes() {
    let shelf = Shelf::new(&[]).unwrap();
    let mut server = server();
    let mut buffer = [0xa5; LINE];
    let last = u64::MAX - FRAME.len() as u64;
    assert_eq!(server.serve(&shelf, last + 1, FRAME, &mut buffer), Err(Refusal::Form));
    assert_eq!(buffer, [0xa5; LINE]);
    let progress = server.serve(&shelf, last, FRAME, &mut buffer).unwrap();
    assert_eq!(progress.lines, b"18446744073709551608 0 01070100\n");
    assert_eq!(progress.place, last + 1);
}

/// FIPS 180-4 and RFC 4231, case 2.
#[test]
fn digests_are_the_standards() {
    let digest = sha256(b"abc").unwrap();
    assert_eq!(hex(&digest), "ba7816bf8f01cfea414140de5dae2223b00361a396177a9cb410ff61f20015ad");
    let digest = sha256(b"").unwrap();
    assert_eq!(hex(&digest), "e3b0c44298fc1c149afbf4c8996fb92427ae41e4649b934ca495991b7852b855");
    let code = hmac(b"Jefe", b"what do ya want for nothing?").unwrap();
    assert_eq!(hex(&code), "5bdcc146bf60754e6a042426089575c75a003f089d2739839dec58b964ec3843");
}

#[test]
fn a_long_message_is_refused() {
    let long = vec![0; 1048577];
    assert!(sha256(&long[1..]).is_ok());
    assert_eq!(sha256(&long), Err(Refusal::Form));
    assert!(hmac(&long[1..], &long[1..]).is_ok());
    assert_eq!(hmac(&long, b""), Err(Refusal::Form));
    assert_eq!(hmac(b"", &long), Err(Refusal::Form));
}

/// The fourth marked example.
#[test]
fn a_string_is_the_papers() {
    let rand: Vec<u8> = (0..16).collect();
    let run = [b"gba-me", &rand[..], b"a@b", b"n.e\x01\x00\x00\x00\x02"].concat();
    let mut buffer = [0xa5; 43];
    let string = kdf(1, &run, &[6, 16, 3, 8], &mut buffer).unwrap();
    let expected = "016762612d6d650006000102030405060708090a0b0c0d0e0f001061406200036e2e6501000000020008";
    assert_eq!(hex(string), expected);
    assert_eq!(buffer[42], 0xa5);
    assert_eq!(kdf(1, &run, &[6, 16, 3, 8], &mut [0; 41]), Err(Refusal::Short));
    assert_eq!(kdf(1, &run, &[6, 16, 3, 7], &mut buffer), Err(Refusal::Form));
}

#[test]
fn a_string_has_its_ranges() {
    let mut buffer = vec![0; 65538];
    assert_eq!(kdf(7, &[], &[], &mut buffer), Ok(&[7][..]));
    assert!(kdf(7, b"", &[0; 8], &mut buffer).is_ok());
    assert_eq!(kdf(7, b"", &[0; 9], &mut buffer), Err(Refusal::Form));
    assert!(kdf(7, &[1; 65535], &[65535], &mut buffer).is_ok());
    assert_eq!(kdf(7, &[1; 65536], &[65536], &mut buffer), Err(Refusal::Form));
    assert_eq!(kdf(7, b"", &[], &mut []), Err(Refusal::Short));
}
