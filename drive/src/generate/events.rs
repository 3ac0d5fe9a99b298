//! The five events, with slips.

use super::names::near_miss;
use super::*;

impl World {
    pub(super) fn start(&mut self, student: usize, time: u64) -> Meant {
        let impi = match self.slip(100) {
            0 => vec![],
            1 => vec![b'x'; NAME + 1],
            2 => self.draw.octets(3),
            _ => self.students[student].clone(),
        };
        Meant { body: Body::new(START, time).text(&impi), student, card: None, lifetime: 0 }
    }

    pub(super) fn is_open(&self, run: &Run) -> bool {
        !run.over && self.now < run.start + 30
    }

    /// A run: open (0), ended or lapsed (1), never begun (2).
    pub(super) fn some_run(&mut self, weights: &[(usize, usize)]) -> Run {
        let sort = self.draw.weighted(weights);
        let found: Vec<usize> =
            (0..self.runs.len()).filter(|&at| self.is_open(&self.runs[at]) == (sort == 0)).collect();
        self.one_of(&found, sort == 2)
    }

    /// An open run, challenged or not.
    pub(super) fn open_run(&mut self, challenged: bool) -> Run {
        let found: Vec<usize> = (0..self.runs.len())
            .filter(|&at| self.is_open(&self.runs[at]) && self.runs[at].card.is_some() == challenged)
            .collect();
        self.one_of(&found, false)
    }

    pub(super) fn one_of(&mut self, found: &[usize], never: bool) -> Run {
        if never || found.is_empty() {
            let last = self.runs.last().map_or(self.history.given, |run| run.number);
            let number = self.draw.pick(&[0, last.wrapping_add(1), 1, u32::MAX, last]);
            let student = self.draw.below(self.students.len());
            return Run { number, student, start: self.now, over: true, offered: false, card: None, lifetime: 0 };
        }
        let place = if self.draw.chance(50) { *found.last().unwrap_or(&0) } else { self.draw.pick(found) };
        self.runs[place].clone()
    }

    /// The fields of kinds 2 to 4 up to the run.
    pub(super) fn of_run(&mut self, kind: u8, time: u64, run: &Run) -> Meant {
        let own = self.history.restart;
        let restart = if self.slip(100) > 3 {
            own
        } else {
            self.draw.pick(&[own.wrapping_add(1) & 0xffff_ffff, own ^ 1, 0, u32::MAX as u64, 1 << 32, own | 1 << 32])
        };
        let number = if self.slip(100) > 0 { u64::from(run.number) } else { u64::from(run.number) | 1 << 32 };
        let body = Body::new(kind, time).number(restart).number(number);
        Meant { body, student: run.student, card: None, lifetime: 0 }
    }

    pub(super) fn card(&mut self) -> Card {
        let length = self.draw.pick(&[4, 4, 5, 8, 8, 8, 15, 16, 16]);
        let card = Card {
            rand: self.draw.array(),
            autn: self.draw.array(),
            xres: self.draw.octets(length),
            ck: self.draw.array(),
            ik: self.draw.array(),
        };
        self.rands.push(card.rand);
        card
    }

    /// A RAND that is not fresh.
    pub(super) fn old_rand(&mut self) -> Option<[u8; 16]> {
        let now = self.now;
        let live: Vec<[u8; 16]> =
            self.sessions.iter().filter(|s| !s.replaced && s.expiry > now).map(|s| s.rand).collect();
        let challenged: Vec<[u8; 16]> = self
            .runs
            .iter()
            .filter(|run| self.is_open(run))
            .filter_map(|run| run.card.as_ref())
            .map(|card| card.rand)
            .collect();
        let from = match self.draw.below(3) {
            0 => &live,
            1 => &challenged,
            _ => &self.rands,
        };
        if from.is_empty() {
            return None;
        }
        let mut rand = from[self.draw.below(from.len())];
        if self.draw.chance(15) {
            rand[self.draw.pick(&[0, 15])] ^= 1 << self.draw.below(8);
        }
        Some(rand)
    }

    pub(super) fn any_vector(&mut self) -> Meant {
        let run = match self.draw.below(100) {
            0..=76 => self.open_run(false),
            77..=85 => self.open_run(true),
            _ => self.some_run(&[(20, 0), (60, 1), (20, 2)]),
        };
        let time = self.run_time(&run);
        let mut card = self.card();
        if self.draw.chance(20) {
            card.rand = self.old_rand().unwrap_or(card.rand);
        }
        self.vector(&run, time, card, None)
    }

    pub(super) fn vector(&mut self, run: &Run, time: u64, card: Card, before: Option<bool>) -> Meant {
        let impi = self.impi_of(run.student);
        let mut meant = self.of_run(VECTOR, time, run);
        let xres = match self.slip(150) {
            0 => vec![1; 3],
            1 => vec![1; 17],
            _ => card.xres.clone(),
        };
        let body =
            meant.body.text(&impi).octets(&card.rand).octets(&card.autn).text(&xres).octets(&card.ck).octets(&card.ik);
        let before = before.unwrap_or_else(|| match run.offered {
            true => self.draw.chance(45),
            false => self.slip(100) < 12,
        });
        let given = if self.theme == Theme::Sessions { 30 } else { 75 };
        meant.body = if before {
            body.octet(1)
        } else if self.draw.chance(given) {
            let (lifetime, body) = self.settings(body);
            meant.lifetime = lifetime;
            body
        } else {
            let none = self.slip(60);
            body.octet(match none {
                0 => 3,
                1 => 255,
                _ => 0,
            })
        };
        if before {
            meant.lifetime = run.lifetime;
        }
        meant.card = Some(card);
        meant
    }

    /// A student's IMPI; at times another's, or nearly the student's.
    pub(super) fn impi_of(&mut self, student: usize) -> Vec<u8> {
        let own = self.students[student].clone();
        match self.slip(100) {
            0..=4 => {
                let other = self.draw.below(self.students.len());
                self.students[other].clone()
            }
            5..=7 => near_miss(&mut self.draw, &own),
            _ => own,
        }
    }

    pub(super) fn settings(&mut self, body: Body) -> (u64, Body) {
        let wrong = self.slip(100);
        let lifetime = match wrong {
            _ if self.clean => self.draw.pick(&[0, 0, 0, 120, 200, 3600]),
            0 => 59,
            1 => 604_801,
            2 => self.draw.pick(&[1, 30, 1 << 32, u64::MAX >> 1]),
            _ => self.draw.pick(&[0, 0, 60, 60, 61, 90, 120, 3600, 604_800]),
        };
        let timestamp = match wrong {
            3 => LAST_TIME + 1,
            _ => self.draw.pick(&[0, 1, 127, 128, 900, self.now.min(LAST_TIME), LAST_TIME]),
        };
        let count = if wrong == 4 { 5 } else { self.draw.pick(&[0, 1, 1, 1, 2, 2, 3, 4, 4]) };
        let mut body = body.octet(2).number(lifetime).number(timestamp).number(count as u64);
        let mut used: Vec<(u64, u64)> = vec![];
        for at in 0..count {
            let mut pair = (self.draw.pick(&APPLICATIONS), self.draw.pick(&GROUPS));
            while used.contains(&pair) {
                pair = (self.draw.pick(&APPLICATIONS), self.draw.pick(&GROUPS));
            }
            let mut user = {
                let length = self.draw.pick(&[1, 5, 9, 31, 32]);
                self.draw.octets(length)
            };
            if at + 1 == count {
                match wrong {
                    5 | 6 => pair = used.first().copied().unwrap_or(pair),
                    7 => pair.0 = 0,
                    8 => pair.1 = 256,
                    9 => user.clear(),
                    10 => user = vec![b'u'; 33],
                    11 => pair.0 = 1 << 32,
                    _ => {}
                }
            }
            used.push(pair);
            body = body.number(pair.0).number(pair.1).octets(&self.draw.array::<4>()).text(&user);
        }
        (lifetime, body)
    }

    pub(super) fn any_response(&mut self) -> Meant {
        let challenged = self.runs.iter().any(|run| self.is_open(run) && run.card.is_some());
        if !challenged && self.draw.chance(70) {
            return self.any_vector();
        }
        let run = match self.draw.below(100) {
            0..=79 => self.open_run(true),
            80..=86 => self.open_run(false),
            _ => self.some_run(&[(20, 0), (60, 1), (20, 2)]),
        };
        let time = self.run_time(&run);
        let right = run.card.as_ref().map_or(vec![0; 8], |card| card.xres.clone());
        let mut res = right.clone();
        match self.draw.below(100) {
            0..=5 => {
                let at = self.draw.pick(&[0, res.len() / 2, res.len() - 1]);
                res[at] ^= 1 << self.draw.below(8);
            }
            14..=17 => res.truncate(res.len() - 1),
            6 => res.truncate(4),
            7..=8 => res.push(self.draw.pick(&[0, 1, 255])),
            9 => res = self.draw.pick(&[[0; 4], [255; 4]]).to_vec(),
            10 => res = vec![0; 16],
            11 => res = vec![0; self.draw.pick(&[0, 3, 17])],
            12..=13 => {
                let other = self.open_run(true);
                res = other.card.map_or(res, |card| card.xres);
            }
            _ => {}
        }
        self.response(&run, time, &res)
    }

    pub(super) fn response(&mut self, run: &Run, time: u64, res: &[u8]) -> Meant {
        let mut meant = self.of_run(RESPONSE, time, run);
        meant.body = meant.body.text(res);
        meant
    }

    pub(super) fn any_key(&mut self) -> Meant {
        let domain = self.history.domain.clone();
        let now = self.now;
        let live: Vec<usize> = (0..self.sessions.len())
            .filter(|&at| !self.sessions[at].replaced && self.sessions[at].expiry > now)
            .collect();
        let mut expiry = None;
        let mut text = match self.draw.below(100) {
            0..=77 if !live.is_empty() => {
                let session = &self.sessions[self.draw.pick(&live)];
                expiry = Some(session.expiry);
                btid(&session.rand, &domain)
            }
            78..=84 if !self.sessions.is_empty() => {
                let session = &self.sessions[self.draw.below(self.sessions.len())];
                btid(&session.rand, &domain)
            }
            85..=95 if !self.rands.is_empty() => btid(&self.rands[self.draw.below(self.rands.len())], &domain),
            _ => btid(&self.draw.array::<16>(), &domain),
        };
        match self.draw.below(100) {
            0..=2 => text = other_spare_bits(&text, self.draw.between(1, 15) as u8),
            3 => text.truncate(text.len() - 1),
            4 => text.push(self.draw.pick(&[0, b'=', b'e'])),
            5 => text = btid(&self.draw.array::<16>(), b"bsf.other.example"),
            6..=7 => {
                // Any one octet: a letter's case, the "@", the padding, the domain.
                let last = text.len() - 1;
                let at = self.draw.pick(&[0, 1, 20, 21, 22, 23, 24, 25, last]).min(last);
                text[at] ^= self.draw.pick(&[0x20, 0x01, 0x80]);
            }
            8 => text.truncate(25),
            9 => text = vec![b'A'; self.draw.pick(&[0, 1, 24, 25, 88, 89, 90])],
            10 => {
                let swapped = text[25..].to_ascii_uppercase();
                text.splice(25.., swapped);
            }
            _ => {}
        }
        let time = match (expiry, self.draw.below(100)) {
            (Some(expiry), 0..=5) => (expiry - 1).min(LAST_TIME),
            (Some(expiry), 6..=11) => expiry.min(LAST_TIME),
            (_, 12..=20) => self.now,
            _ => self.time(),
        };
        let (peer, mut naf_id) = self.asked();
        match self.draw.below(120) {
            0 => naf_id = vec![b'n'; self.draw.pick(&[0, 5, 6, 69, 70])],
            1..=80 => naf_id.extend(PROTOCOL),
            _ => naf_id.extend(self.draw.array::<5>()),
        }
        let application = match self.draw.below(100) {
            0..=24 => 0,
            25..=27 => self.draw.pick(&[1 << 32, (1 << 32) + 1, 3]),
            _ => self.draw.pick(&APPLICATIONS),
        };
        let body = Body::new(KEY, time).text(&peer).text(&text).text(&naf_id).number(application);
        Meant { body, student: 0, card: None, lifetime: 0 }
    }

    /// Peer and FQDN of a row, or nearly.
    pub(super) fn asked(&mut self) -> (Vec<u8>, Vec<u8>) {
        if self.history.rows.is_empty() {
            return (b"shelf".to_vec(), b"shelf.example".to_vec());
        }
        let rows = self.history.rows.len();
        let place = if self.draw.chance(10) { rows - 1 } else { self.draw.below(rows) };
        let (row, other) = (self.history.rows[place], self.history.rows[self.draw.below(rows)]);
        let peer = row.peer[..row.peer_length.clamp(1, NAME)].to_vec();
        let fqdn = row.fqdn[..row.fqdn_length.clamp(1, NAME)].to_vec();
        match self.draw.below(100) {
            0..=2 => (near_miss(&mut self.draw, &peer), fqdn),
            3..=5 => (peer, near_miss(&mut self.draw, &fqdn)),
            6 => (fqdn, peer),
            7..=8 => (peer, other.fqdn[..other.fqdn_length.clamp(1, NAME)].to_vec()),
            9 => (vec![b'p'; self.draw.pick(&[0, 1, 64, 65])], fqdn),
            _ => (peer, fqdn),
        }
    }
}
