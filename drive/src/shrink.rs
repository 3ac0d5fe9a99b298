//! The smallest cut of a history that still differs.

use crate::compare::{Server, Twin};
use crate::history::{History, ROOM};
use crate::write::{number, read_number};

/// Takes away events, then rows, then what is unusual, as long as the history still differs.
pub fn shrink(history: &History, mut differs: impl FnMut(&History) -> bool) -> History {
    let mut best = history.clone();
    loop {
        let size = best.events.len() + best.rows.len();
        fewer_events(&mut best, &mut differs);
        fewer_rows(&mut best, &mut differs);
        if best.events.len() + best.rows.len() == size {
            break;
        }
    }
    for at in 0..best.events.len() {
        if best.events[at].room != ROOM {
            let mut less = best.clone();
            less.events[at].room = ROOM;
            keep(&mut best, less, &mut differs);
        }
    }
    if !best.tail.is_empty() {
        let less = History { tail: vec![], ..best.clone() };
        keep(&mut best, less, &mut differs);
    }
    if best.given != 0 {
        let none = History { given: 0, ..best.clone() };
        if !keep(&mut best, none, &mut differs) {
            let all = History { given: u32::MAX, ..best.clone() };
            if keep(&mut best, all, &mut differs) {
                fewer_events(&mut best, &mut differs);
            }
        }
    }
    best
}

fn keep(best: &mut History, less: History, differs: &mut impl FnMut(&History) -> bool) -> bool {
    let smaller = differs(&less);
    if smaller {
        *best = less;
    }
    smaller
}

fn fewer_events(best: &mut History, differs: &mut impl FnMut(&History) -> bool) {
    let mut step = best.events.len().max(1);
    loop {
        let mut from = best.events.len();
        while from > 0 {
            let to = from;
            from = from.saturating_sub(step);
            // With the runs that are left numbered as they now will be, or else as they were.
            let renumbered = without(best, from, to, true);
            if !keep(best, renumbered, differs) {
                let plain = without(best, from, to, false);
                keep(best, plain, differs);
            }
            from = from.min(best.events.len());
        }
        if step == 1 {
            return;
        }
        step = step.div_ceil(2);
    }
}

fn fewer_rows(best: &mut History, differs: &mut impl FnMut(&History) -> bool) {
    let mut step = best.rows.len();
    while step > 0 {
        let mut from = best.rows.len();
        while from > 0 {
            let to = from;
            from = from.saturating_sub(step);
            let mut less = best.clone();
            less.rows.drain(from..to);
            keep(best, less, differs);
        }
        step /= 2;
    }
}

/// The history without some of its events. A run that is left may get a lower number, and later events follow it.
fn without(history: &History, from: usize, to: usize, renumber: bool) -> History {
    let mut less = history.clone();
    less.events.drain(from..to);
    if renumber {
        let gone: Vec<u64> = runs_given(history)
            .into_iter()
            .filter(|(place, _)| (from..to).contains(place))
            .map(|(_, run)| run)
            .collect();
        for event in &mut less.events[from..] {
            if let Some(body) = renumbered(&event.body, &gone) {
                event.body = body;
            }
        }
    }
    less
}

/// The runs that the events of a history are given, by their places.
fn runs_given(history: &History) -> Vec<(usize, u64)> {
    let mut server = Twin::default();
    server.open(history);
    let mut given = vec![];
    for (place, event) in history.events.iter().enumerate() {
        let mut out = [0; 512];
        let (refused, _, _) = server.event(history, &event.body, &mut out[..event.room]);
        if refused == 0 && out[0] == 1 {
            let run = read_number(&out[1..]).and_then(|(_, at)| read_number(&out[1 + at..]));
            given.extend(run.map(|(run, _)| (place, run)));
        }
    }
    given
}

/// A body of kinds 2 to 4 with its run's number lower by as many as are gone below it.
fn renumbered(body: &[u8], gone: &[u64]) -> Option<Vec<u8>> {
    if !(2..=4).contains(body.first()?) {
        return None;
    }
    let (_, time) = read_number(&body[1..])?;
    let (_, restart) = read_number(&body[1 + time..])?;
    let at = 1 + time + restart;
    let (run, length) = read_number(&body[at..])?;
    let less = run - gone.iter().filter(|&&other| other < run).count() as u64;
    let mut other = body[..at].to_vec();
    number(&mut other, less);
    other.extend_from_slice(&body[at + length..]);
    Some(other)
}
