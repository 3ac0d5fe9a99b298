//! Every event file of the repository, with its expected lines, through the library: event by event, as one batch, and as
//! batches of an input that arrives little by little and a buffer with room for one line.
use pagerudder::{End, Row, Server, Shelf, BODY, LINE, ROOM};
use std::fs;
use std::path::PathBuf;
use std::process::Command;
use std::sync::OnceLock;

/// The octets and the expected lines of each event file, by name.
fn files() -> Vec<(String, Vec<u8>, String)> {
    let root = PathBuf::from(concat!(env!("CARGO_MANIFEST_DIR"), "/.."));
    let made = PathBuf::from(env!("CARGO_TARGET_TMPDIR")).join("events");
    let mut sources: Vec<PathBuf> =
        fs::read_dir(root.join("events")).unwrap().map(|entry| entry.unwrap().path()).collect();
    sources.retain(|path| path.extension().is_some_and(|e| e == "txt"));
    sources.sort();
    let run = Command::new(root.join("tools/events")).arg("asm").args(&sources).arg("-o").arg(&made).output().unwrap();
    assert!(run.status.success(), "{}", String::from_utf8_lossy(&run.stderr));
    let read = |source: &PathBuf| {
        let name = source.file_stem().unwrap().to_str().unwrap().to_string();
        let octets = fs::read(made.join(format!("{name}.bin"))).unwrap();
        let expected = fs::read_to_string(made.join(format!("{name}.expected"))).unwrap();
        (name, octets, expected)
    };
    sources.iter().map(read).collect()
}

fn take_number(input: &mut &[u8]) -> u64 {
    let mut n = 0;
    let mut shift = 0;
    loop {
        let (octet, rest) = input.split_first().unwrap();
        *input = rest;
        n += u64::from(octet % 128) << shift;
        shift += 7;
        if *octet < 128 {
            return n;
        }
    }
}

fn take<'a>(input: &mut &'a [u8], len: usize) -> &'a [u8] {
    let (front, rest) = input.split_at(len);
    *input = rest;
    front
}

fn take_text<'a>(input: &mut &'a [u8]) -> &'a [u8] {
    let len = take_number(input) as usize;
    take(input, len)
}

/// Reads a good opening part.
fn opening(input: &mut &[u8]) -> (Server, Vec<Row>) {
    let domain = take_text(input);
    let restart = take_number(input);
    let lifetime = take_number(input);
    let rows = (0..take_number(input))
        .map(|_| {
            let peer = take_text(input);
            let fqdn = take_text(input);
            let identity = take(input, 1)[0] == 1;
            let group = take_number(input) as u8;
            let required = take_number(input) as u32;
            Row::new(peer, fqdn, identity, group, required).unwrap()
        })
        .collect();
    (Server::open(domain, restart, lifetime).unwrap(), rows)
}

/// The files with a good opening part: the opening parts themselves are the event program's to read. They are made once,
/// since the tests run at the same time.
fn opened() -> &'static [(String, Vec<u8>, String)] {
    static ALL: OnceLock<Vec<(String, Vec<u8>, String)>> = OnceLock::new();
    ALL.get_or_init(|| {
        let mut all = files();
        all.retain(|(_, _, expected)| expected != "0 1 -\n");
        assert!(all.len() > 40, "only {} event files", all.len());
        all
    })
}

/// What is left where the input has ended is an event that was cut.
fn cut(lines: &mut Vec<u8>, left: usize, place: u64) {
    if left > 0 {
        lines.extend(format!("{place} 3 -\n").bytes());
    }
}

#[test]
fn one_batch_has_the_expected_lines() {
    for (name, octets, expected) in opened() {
        let mut input = &octets[..];
        let (mut server, rows) = opening(&mut input);
        let shelf = Shelf::new(&rows).unwrap();
        let mut buffer = vec![0; LINE * (input.len() + 1)];
        let progress = server.serve(&shelf, 1, input, &mut buffer).unwrap();
        let mut lines = progress.lines.to_vec();
        assert_ne!(progress.end, End::Full, "{name}");
        if progress.end == End::More {
            cut(&mut lines, input.len() - progress.at, progress.place);
        }
        assert_eq!(String::from_utf8(lines).unwrap(), *expected, "{name}");
    }
}

#[test]
fn batches_of_one_line_have_the_expected_lines() {
    for (name, octets, expected) in opened() {
        let mut input = &octets[..];
        let (mut server, rows) = opening(&mut input);
        let shelf = Shelf::new(&rows).unwrap();
        let mut buffer = [0; LINE];
        let (mut lines, mut at, mut place, mut held) = (Vec::new(), 0, 1, 0);
        loop {
            let progress = server.serve(&shelf, place, &input[at..held], &mut buffer).unwrap();
            lines.extend(progress.lines);
            at += progress.at;
            place = progress.place;
            match progress.end {
                End::Full => {}
                End::Bad => break,
                End::More if held == input.len() => {
                    cut(&mut lines, held - at, place);
                    break;
                }
                End::More => held = input.len().min(held + 37),
            }
        }
        assert_eq!(String::from_utf8(lines).unwrap(), *expected, "{name}");
    }
}

#[test]
fn event_by_event_has_the_expected_lines() {
    for (name, octets, expected) in opened() {
        if name.starts_with("damaged-") {
            continue; // a length is the event program's to read
        }
        let mut input = &octets[..];
        let (mut server, rows) = opening(&mut input);
        let mut lines = String::new();
        let mut place = 0;
        while !input.is_empty() {
            let body = take_text(&mut input);
            assert!(body.len() <= BODY);
            let mut buffer = [0; ROOM];
            place += 1;
            match server.event(&rows, body, &mut buffer) {
                Ok(answer) => {
                    let hex: String = answer.iter().map(|octet| format!("{octet:02x}")).collect();
                    lines += &format!("{place} 0 {hex}\n");
                }
                Err(refusal) => lines += &format!("{place} {} -\n", refusal.number()),
            }
        }
        assert_eq!(lines, *expected, "{name}");
    }
}
