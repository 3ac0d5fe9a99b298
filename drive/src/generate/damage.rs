//! Bodies, opening parts and frames that are not as laid out.

use super::*;

impl World {
    pub(super) fn damaged(&mut self) {
        let mut meant = match self.draw.below(5) {
            0 => {
                let time = self.time();
                let student = self.draw.below(self.students.len());
                self.start(student, time)
            }
            1 => self.any_vector(),
            2 => self.any_response(),
            3 => {
                let run = self.open_run(false);
                let time = self.time();
                self.of_run(ABORT, time, &run)
            }
            _ => self.any_key(),
        };
        let octets = &mut meant.body.octets;
        match self.draw.below(12) {
            0 | 1 => octets.truncate(self.draw.below(octets.len())),
            2 => octets.truncate(octets.len() - 1),
            3 | 4 => octets.push(self.draw.pick(&[0, 1, 0x80, 0xff])),
            5 => octets[0] = self.draw.pick(&[0, 6, 7, 0x7f, 0x80, 0x81, 255]),
            6 => octets[0] = self.draw.pick(&[1, 2, 3, 4, 5]),
            7 | 8 => {
                let at = self.draw.below(octets.len());
                octets[at] ^= 1 << self.draw.below(8);
            }
            9 | 10 => {
                // A number in a longer form than its shortest, or with groups without end.
                let (_, to) = self.draw.pick(&meant.body.numbers);
                octets[to - 1] |= 0x80;
                let more = self.draw.pick(&[
                    &[0u8][..],
                    &[0x80, 0],
                    &[0x80; 9],
                    &[0x80; 10],
                    &[1],
                    &[0xff, 0xff, 0xff, 0xff, 0x7f],
                ]);
                octets.splice(to..to, more.iter().copied());
            }
            _ => {
                let length = self.draw.pick(&[1, 2, 3, 40, 511, 512]);
                *octets = self.draw.octets(length);
                if self.draw.chance(70) {
                    octets[0] = self.draw.between(1, 5) as u8;
                }
            }
        }
        if octets.is_empty() && self.history.program {
            octets.push(0); // a length of 0 would end the program: that is for the tail
        }
        if !self.history.program && self.draw.chance(5) {
            octets.resize(self.draw.pick(&[513, 600, 2000]), 0);
        }
        self.give(meant);
    }

    /// What the event program may meet at the end of its input, and before any event.
    pub(super) fn end(&mut self) {
        if !self.history.program {
            return;
        }
        if self.draw.chance(25) {
            let good = {
                let meant = self.any_key();
                let mut frame = vec![];
                text(&mut frame, &meant.body.octets);
                frame
            };
            // A good event after what is bad shows whether the program has stopped.
            let frame = match self.draw.below(8) {
                0 | 1 => good[..self.draw.between(1, good.len() - 1)].to_vec(),
                2 => [&[0], &good[..]].concat(),
                3 => [&[0x81, 0x04], &[1; 513][..], &good].concat(),
                4 => [&[0x86, 0x00, 1, 100, 3, b'a', b'@', b'b'], &good[..]].concat(),
                5 => vec![0x80; self.draw.between(1, 12)],
                6 => [&vec![0x80; self.draw.between(1, 12)][..], &[1], &good].concat(),
                _ => {
                    let length = self.draw.between(1, 700);
                    self.draw.octets(length)
                }
            };
            self.history.tail = frame;
        }
    }
}

pub(super) fn spoil_opening(draw: &mut Draw, history: &mut History) {
    match draw.below(if history.program { 20 } else { 6 }) {
        0 => history.domain = vec![],
        1 => history.domain = vec![b'd'; draw.pick(&[65, 66, 127])],
        2 => history.restart = draw.pick(&[1 << 32, u64::MAX >> 1]),
        3 => history.lifetime = draw.pick(&[0, 1, 59]),
        4 => history.lifetime = draw.pick(&[604_801, 1 << 32, (1 << 32) + 60, u64::MAX >> 1]),
        5 => {} // a good opening, and a short history
        6 | 7 => {
            let mut part = history.opening_part();
            part.truncate(draw.below(part.len()));
            history.opening = Some(part);
        }
        8 | 9 => {
            let mut part = history.opening_part();
            let at = draw.below(part.len());
            part[at] ^= 1 << draw.below(8);
            history.opening = Some(part);
        }
        10 => {
            let length = draw.below(200);
            history.opening = Some(draw.octets(length));
        }
        _ => history.opening = Some(slipped_part(draw, history)),
    }
}

/// An opening part with one field out of range or in a longer form; at times with none.
fn slipped_part(draw: &mut Draw, history: &History) -> Vec<u8> {
    let count = history.rows.len();
    let (field, place) = (draw.below(8), draw.below(count.max(1)));
    let declared = if field == 0 { draw.pick(&[count + 1, 17, 16, 0, 128]) } else { count };
    let mut part = Body::default().text(&history.domain).number(history.restart).number(history.lifetime);
    part = part.number(declared as u64);
    for (at, row) in history.rows.iter().enumerate() {
        let slip = if at == place { field } else { 0 };
        let (mut peer, mut fqdn) = (row.peer[..row.peer_length].to_vec(), row.fqdn[..row.fqdn_length].to_vec());
        match slip {
            1 => peer.resize(draw.pick(&[0, 65]), b'p'),
            2 => fqdn.resize(draw.pick(&[0, 65]), b'n'),
            _ => {}
        }
        part = part.text(&peer).text(&fqdn);
        part = part.octet(if slip == 3 { draw.pick(&[2, 3, 128, 255]) } else { u8::from(row.identity) });
        part = part.number(if slip == 4 { draw.pick(&[256, 257, 511]) } else { u64::from(row.group) });
        part = part.number(if slip == 5 { draw.pick(&[1 << 32, 1 << 35]) } else { u64::from(row.required) });
    }
    if field == 6 {
        let (_, to) = draw.pick(&part.numbers);
        part.octets[to - 1] |= 0x80;
        part.octets.insert(to, 0);
    }
    part.octets
}
