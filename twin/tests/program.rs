//! The event program: the opening part, frames, and when its lines come out.

mod common;
use common::*;
use std::io::{self, BufRead, BufReader, Read, Write};
use std::process::{Command, Stdio};

const EXAMPLE: &str = "0b 62 73 66 2e 65 78 61 6d 70 6c 65 07 90 1c 00
    06 01 64 03 61 40 62
    04 04 65 07 01
    06 01 65 03 63 40 64
    04 04 66 07 01
    04 04 65 07 02";

const EXAMPLE_LINES: &str = "1 0 01070100\n2 0 04\n3 0 01070200\n4 7 -\n5 0 04\n";

/// Reads as few octets at a time as `step` says.
struct Drip<'a> {
    rest: &'a [u8],
    step: usize,
}

impl Read for Drip<'_> {
    fn read(&mut self, place: &mut [u8]) -> io::Result<usize> {
        let count = self.step.min(place.len());
        (&mut self.rest).take(count as u64).read(place)
    }
}

fn lines(input: &[u8]) -> String {
    let mut printed = vec![];
    twin::serve(input, &mut printed).unwrap();
    for step in [1, 3] {
        let mut again = vec![];
        twin::serve(Drip { rest: input, step }, &mut again).unwrap();
        assert_eq!(printed, again);
    }
    String::from_utf8(printed).unwrap()
}

fn opening(domain: &[u8], restart: u64, lifetime: u64, rows: &[u8]) -> Vec<u8> {
    [text(domain), number(restart), number(lifetime), rows.to_vec()].concat()
}

fn one_row(peer: &[u8], fqdn: &[u8], identity: u8, group: u64, required: u64) -> Vec<u8> {
    [vec![1], text(peer), text(fqdn), vec![identity], number(group), number(required)].concat()
}

fn frame(body: &[u8]) -> Vec<u8> {
    [number(body.len() as u64), body.to_vec()].concat()
}

#[test]
fn the_five_lines() {
    assert_eq!(lines(&octets(EXAMPLE)), EXAMPLE_LINES);
}

#[test]
fn a_cut_example() {
    let input = octets(EXAMPLE);
    let ends = [(16, 0), (23, 1), (28, 2), (35, 3), (40, 4), (45, 5)];
    for length in 0..input.len() {
        let (_, whole) = *ends.iter().rev().find(|(end, _)| *end <= length).unwrap_or(&(0, 0));
        let mut expected: String = EXAMPLE_LINES.split_inclusive('\n').take(whole).collect();
        if length < 16 {
            expected = "0 1 -\n".into();
        } else if !ends.iter().any(|(end, _)| *end == length) {
            expected += &format!("{} 3 -\n", whole + 1);
        }
        assert_eq!(lines(&input[..length]), expected);
    }
}

#[test]
fn openings() {
    let d = b"d";
    let name = |length: usize| vec![b'n'; length];
    let top = u64::from(u32::MAX);
    let good = [
        opening(d, 0, 60, &[0]),
        opening(&name(64), top, 604_800, &[0]),
        opening(d, 7, 3600, &one_row(b"p", b"f", 0, 0, 0)),
        opening(d, 7, 3600, &one_row(&name(64), &name(64), 1, 255, top)),
        opening(d, 7, 3600, &[vec![16], one_row(b"p", b"f", 1, 0, 0)[1..].repeat(16)].concat()),
    ];
    let bad = [
        opening(b"", 7, 3600, &[0]),
        opening(&name(65), 7, 3600, &[0]),
        opening(d, top + 1, 3600, &[0]),
        opening(d, 7, 59, &[0]),
        opening(d, 7, 0, &[0]),
        opening(d, 7, 604_801, &[0]),
        opening(d, 7, 3600, &[17]),
        opening(d, 7, 3600, &[vec![17], one_row(b"p", b"f", 1, 0, 0)[1..].repeat(17)].concat()),
        opening(d, 7, 3600, &[0x80, 0]),
        opening(d, 7, 3600, &one_row(b"", b"f", 0, 0, 0)),
        opening(d, 7, 3600, &one_row(b"p", b"", 0, 0, 0)),
        opening(d, 7, 3600, &one_row(&name(65), b"f", 0, 0, 0)),
        opening(d, 7, 3600, &one_row(b"p", &name(65), 0, 0, 0)),
        opening(d, 7, 3600, &one_row(b"p", b"f", 2, 0, 0)),
        opening(d, 7, 3600, &one_row(b"p", b"f", 0, 256, 0)),
        opening(d, 7, 3600, &one_row(b"p", b"f", 0, 0, top + 1)),
        octets("81 00 64 07 90 1c 00"),
        octets("01 64 87 00 90 1c 00"),
        octets("01 64 07 90 9c 00 00"),
    ];
    for opening in good {
        assert_eq!(lines(&opening), "");
        for length in 0..opening.len() {
            assert_eq!(lines(&opening[..length]), "0 1 -\n");
        }
    }
    for opening in bad {
        let events = frame(&start(100, "a@b")).repeat(3);
        assert_eq!(lines(&[opening, events].concat()), "0 1 -\n");
    }
}

#[test]
fn frames() {
    let open = opening(b"bsf.example", 7, 3600, &[0]);
    let good = frame(&start(100, "a@b"));
    for bad in ["00", "80 00", "86 00", "ff ff", "ff ff ff ff ff ff ff ff ff ff ff ff"] {
        let input = [&open[..], &good, &octets(bad), &good].concat();
        assert_eq!(lines(&input), "1 0 01070100\n2 3 -\n", "{bad}");
    }
    // 513 octets; cut at its length; cut in its body.
    for last in [[octets("81 04"), vec![0; 513]].concat(), octets("80"), octets("07 01 64 03 61 40 62")] {
        let input = [&open[..], &good, &last].concat();
        assert_eq!(lines(&input), "1 0 01070100\n2 3 -\n");
    }
    // 512 octets are a length in range, though no body has as many: the next event is answered.
    let input = [&open[..], &octets("80 04"), &[1; 512], &good].concat();
    assert_eq!(lines(&input), "1 3 -\n2 0 01070100\n");
}

#[test]
fn rows_are_read_in_order() {
    let shelf = [vec![2], one_row(b"p", b"n.e", 1, 0, 0)[1..].to_vec(), one_row(b"p", b"n.e", 0, 0, 9)[1..].to_vec()];
    let btid = "AAECAwQFBgcICQoLDA0ODw==@bsf.example";
    let naf_id = b"n.e\x01\x00\x00\x00\x02";
    let input = [
        opening(b"bsf.example", 7, 3600, &shelf.concat()),
        frame(&start(100, "a@b")),
        frame(&reply(100, 7, 1, &vector("a@b", 0, NONE))),
        frame(&response(100, 7, 1, &[1, 2, 3, 4, 5, 6, 7, 8])),
        frame(&key(100, "p", btid, naf_id, 0)),
        frame(&key(100, "p", btid, b"n.f\x01\x00\x00\x00\x02", 0)),
    ];
    let expected = format!(
        "1 0 01070100\n2 0 02{}{}\n3 0 0324{}64f41c\n4 0 05{}64f41c0361406200\n5 14 -\n",
        hex(&up(0)),
        hex(&up(0xa0)),
        hex(btid.as_bytes()),
        "f5678a136496c7f7b6321c9cb16710e19c23f0a3a74c728cbd592fc3cc42f13e"
    );
    assert_eq!(lines(&input.concat()), expected);
}

/// More than the buffers hold, in steps that cut frames anywhere.
#[test]
fn a_long_history() {
    let mut input = opening(b"bsf.example", 7, 3600, &[0]);
    let mut expected = String::new();
    for run in 1..=20_000u64 {
        input.extend(frame(&start(run, "a@b")));
        input.extend(frame(&abort(run, 7, run)));
        let answer = hex(&[vec![1, 7], number(run), vec![0]].concat());
        expected += &format!("{} 0 {answer}\n{} 0 04\n", 2 * run - 1, 2 * run);
    }
    for step in [1_000, 4_099, 1 << 20] {
        let mut printed = vec![];
        twin::serve(Drip { rest: &input, step }, &mut printed).unwrap();
        assert_eq!(String::from_utf8(printed).unwrap(), expected);
    }
}

/// Through a pipe that stays open, each line comes before the next event is sent.
#[test]
fn an_event_is_answered_as_soon_as_it_has_arrived() {
    let mut program =
        Command::new(env!("CARGO_BIN_EXE_twin")).stdin(Stdio::piped()).stdout(Stdio::piped()).spawn().unwrap();
    let mut input = program.stdin.take().unwrap();
    let mut output = BufReader::new(program.stdout.take().unwrap());
    let all = octets(EXAMPLE);
    let mut from = 16;
    input.write_all(&all[..from]).unwrap();
    for (to, expected) in [23, 28, 35, 40, 45].into_iter().zip(EXAMPLE_LINES.split_inclusive('\n')) {
        input.write_all(&all[from..to]).unwrap();
        let mut line = String::new();
        output.read_line(&mut line).unwrap();
        assert_eq!(line, expected);
        from = to;
    }
    drop(input);
    assert_eq!(output.read_to_string(&mut String::new()).unwrap(), 0);
    assert!(program.wait().unwrap().success());
}
