//! The fuzz target: an input of the event program goes through the proved library and through the independent server in
//! one process. The independent server's code is instrumented, so an input that leads it somewhere new is kept.
#![no_main]

use drive::compare::{compare, compare_batch, twin_printed, Difference, Twin};
use drive::history::{Event, History};
use drive::library::Library;
use drive::shrink::shrink;
use drive::tally::Tally;
use std::path::Path;

extern "C" {
    /// libFuzzer's own changes to some octets; the new length.
    fn LLVMFuzzerMutate(data: *mut u8, length: usize, most: usize) -> usize;
}

/// Event by event; and for one input in four, as its octets fall, in batches as well.
fn differs(history: &History) -> Option<Difference> {
    let found = compare(history, &mut Library::default(), &mut Twin::default(), &mut Tally::default());
    let sum: usize = history.events.iter().flat_map(|event| &event.body).map(|&octet| usize::from(octet)).sum();
    found.or_else(|| if sum % 4 == 0 { compare_batch(history) } else { None })
}

/// One input. A difference is cut to its smallest history and written before the program ends.
///
/// # Safety
/// libFuzzer lends `length` octets.
#[no_mangle]
pub unsafe extern "C" fn LLVMFuzzerTestOneInput(data: *const u8, length: usize) -> i32 {
    let input = std::slice::from_raw_parts(data, length);
    let lines = twin_printed(input);
    let Some(history) = History::read(input) else {
        assert_eq!(lines, b"0 1 -\n", "an opening part is read in two ways");
        return 0;
    };
    if let Some(found) = differs(&history) {
        report(&history, &found);
        std::process::abort();
    }
    0
}

fn report(history: &History, found: &Difference) {
    eprintln!("difference: event {} of {}: {}", found.place + 1, history.events.len(), found.what);
    let cut = shrink(history, |less| differs(less).is_some());
    let what = differs(&cut).map_or(String::new(), |found| format!("event {}: {}", found.place + 1, found.what));
    eprintln!("cut to {} events and {} rows: {what}\n{}", cut.events.len(), cut.rows.len(), cut.dump());
    let place = Path::new("target/fuzz/difference.bin");
    for (path, octets) in
        [(place.to_path_buf(), cut.input()), (place.with_extension("expected"), twin_printed(&cut.input()))]
    {
        match std::fs::write(&path, octets) {
            Ok(()) => eprintln!("written: {}", path.display()),
            Err(error) => eprintln!("{}: {error}", path.display()),
        }
    }
    eprintln!("to read it: tools/events dis {}", place.display());
}

/// Changes an input: an event's body, the order and number of the events, a row, or any octets at all.
///
/// # Safety
/// libFuzzer lends `most` octets, of which `length` are the input.
#[no_mangle]
pub unsafe extern "C" fn LLVMFuzzerCustomMutator(data: *mut u8, length: usize, most: usize, seed: u32) -> usize {
    let mut draw = drive::draw::Draw::new(u64::from(seed));
    let input = std::slice::from_raw_parts(data, length);
    let read = if draw.chance(10) { None } else { History::read(input) };
    let Some(mut history) = read.filter(|history| !history.events.is_empty()) else {
        return LLVMFuzzerMutate(data, length, most);
    };
    for _ in 0..draw.between(1, 3) {
        change(&mut history, &mut draw);
    }
    let changed = history.input();
    if changed.len() > most {
        return LLVMFuzzerMutate(data, length, most);
    }
    std::ptr::copy_nonoverlapping(changed.as_ptr(), data, changed.len());
    changed.len()
}

fn change(history: &mut History, draw: &mut drive::draw::Draw) {
    let events = &mut history.events;
    if events.is_empty() {
        return;
    }
    let (at, other) = (draw.below(events.len()), draw.below(events.len()));
    match draw.below(10) {
        0 => {
            events.remove(at);
        }
        1 => {
            let again = events[at].clone();
            events.insert(other, again);
        }
        2 => events.swap(at, other),
        3 => {
            let again: Vec<Event> = events[at.min(other)..=at.max(other)].to_vec();
            events.extend(again);
        }
        4 if !history.rows.is_empty() => {
            let (row, place) = (draw.below(history.rows.len()), draw.below(history.rows.len()));
            history.rows.swap(row, place);
            history.rows[row].group = draw.pick(&[0, 1, 2, 255]);
            history.rows[row].required = draw.pick(&[0, 1, 2, 7]);
        }
        5 => {
            // The time of an event: nearer to or farther from that of another.
            if let (Some(time), Some(own)) = (time_of(&events[other].body), time_of(&events[at].body)) {
                let moved =
                    draw.pick(&[time, time + 1, time + 29, time + 30, time.saturating_sub(1), own + 1, own + 60]);
                set_time(&mut events[at].body, moved);
            }
        }
        _ => {
            let body = &mut events[at].body;
            let length = body.len();
            body.resize(512.max(length), 0);
            // SAFETY: the body has that room.
            let length = unsafe { LLVMFuzzerMutate(body.as_mut_ptr(), length, body.len()) };
            body.truncate(length.max(1));
        }
    }
}

fn time_of(body: &[u8]) -> Option<u64> {
    drive::write::read_number(body.get(1..)?).map(|(time, _)| time)
}

fn set_time(body: &mut Vec<u8>, time: u64) {
    if let Some((_, length)) = drive::write::read_number(&body[1..]) {
        let mut octets = vec![];
        drive::write::number(&mut octets, time);
        body.splice(1..1 + length, octets);
    }
}
