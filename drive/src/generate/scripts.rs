//! Several events that belong together.

use super::*;

impl World {
    pub(super) fn sign_in(&mut self, student: usize) {
        let time = self.time();
        let meant = self.start(student, time);
        if !self.give(meant) {
            return;
        }
        let Some(run) = self.runs.last().cloned() else { return };
        let card = self.card();
        let time = self.time();
        let meant = self.vector(&run, time, card.clone(), None);
        self.give(meant);
        let time = self.time();
        let meant = self.response(&run, time, &card.xres);
        self.give(meant);
    }

    /// A sign-in is dropped, another student's begins, and the reply to the first one comes late.
    pub(super) fn late_reply(&mut self) {
        let (one, other) = (self.draw.below(self.students.len()), self.draw.below(self.students.len()));
        let now = self.now;
        let meant = self.start(one, now);
        if !self.give(meant) {
            return;
        }
        let Some(first) = self.runs.last().cloned() else { return };
        if self.draw.chance(60) {
            let time = self.time();
            let meant = self.of_run(ABORT, time, &first);
            self.give(meant);
        } else {
            self.now = self.now.max(first.start + 30 - self.draw.between(0, 1) as u64).min(LAST_TIME);
        }
        let now = self.now;
        let meant = self.start(other, now);
        self.give(meant);
        let Some(second) = self.runs.last().cloned() else { return };
        let card = self.card();
        for run in [&first, &Run { student: one, ..second.clone() }, &second] {
            let time = self.time();
            let meant = self.vector(run, time, card.clone(), None);
            self.give(meant);
        }
        for run in [&first, &second] {
            let time = self.time();
            let meant = self.response(run, time, &card.xres);
            self.give(meant);
        }
    }

    /// A sign-in that meets a session one second before its expiry, and then at its expiry.
    pub(super) fn session_edge(&mut self) {
        let now = self.now;
        let Some(session) =
            self.sessions.iter().filter(|s| !s.replaced && s.expiry > now + 3).min_by_key(|s| s.expiry).cloned()
        else {
            return self.act(Plan::SignIn);
        };
        if session.expiry > LAST_TIME {
            return self.act(Plan::Key);
        }
        let student = if self.draw.chance(40) { session.student } else { self.draw.below(self.students.len()) };
        let expiry = session.expiry;
        let meant = self.start(student, expiry - 3);
        if !self.give(meant) {
            return;
        }
        let Some(run) = self.runs.last().cloned() else { return };
        let mut card = self.card();
        let again = self.draw.chance(50);
        if again {
            card.rand = session.rand;
        }
        for time in if again { [expiry - 1, expiry] } else { [expiry - 2, expiry - 1] } {
            let meant = self.vector(&run, time, card.clone(), None);
            self.give(meant);
        }
        for time in [expiry - 1, expiry] {
            let meant = self.response(&run, time, &card.xres);
            self.give(meant);
        }
        let late = self.start(session.student, expiry);
        self.give(late);
    }

    /// Two runs of one student are offered the same settings; the first brings others; the second takes its own copy.
    pub(super) fn replaced_copy(&mut self) {
        let student = self.draw.below(self.students.len());
        let mut runs = vec![];
        for _ in 0..2 {
            let time = self.time();
            let meant = self.start(student, time);
            if self.give(meant) {
                runs.extend(self.runs.last().cloned());
            }
        }
        for (place, run) in runs.iter().enumerate() {
            let card = self.card();
            let time = self.now;
            let before = if place == 0 { self.draw.chance(20) } else { self.draw.chance(80) };
            let meant = self.vector(run, time, card.clone(), Some(before));
            self.give(meant);
            let time = self.time();
            let meant = self.response(run, time, &card.xres);
            self.give(meant);
            for _ in 0..2 {
                let meant = self.any_key();
                self.give(meant);
            }
        }
    }

    /// Two runs are brought one RAND.
    pub(super) fn same_rand(&mut self) {
        let mut runs = vec![];
        for _ in 0..2 {
            let student = self.draw.below(self.students.len());
            let now = self.now;
            let meant = self.start(student, now);
            if self.give(meant) {
                runs.extend(self.runs.last().cloned());
            }
        }
        let card = self.card();
        for run in &runs {
            let now = self.now;
            let meant = self.vector(run, now, card.clone(), Some(false));
            self.give(meant);
        }
        if let Some(first) = runs.first() {
            let now = self.now;
            let meant = if self.draw.chance(50) {
                self.of_run(ABORT, now, first)
            } else {
                self.response(first, now, &card.xres)
            };
            self.give(meant);
        }
        if let Some(second) = runs.get(1) {
            let time = self.time();
            let meant = self.vector(second, time, card.clone(), Some(false));
            self.give(meant);
        }
    }

    pub(super) fn fill_sessions(&mut self) {
        self.clean = true;
        let most = self.draw.pick(&[63, 64, 64, 64]);
        for student in 0..most {
            self.sign_in(student);
        }
        self.clean = false;
    }

    pub(super) fn fill_runs(&mut self) {
        for _ in 0..self.draw.between(30, 36) {
            let student = self.draw.below(self.students.len());
            let time = if self.draw.chance(90) { self.now } else { self.now + 1 };
            let meant = self.start(student, time);
            self.give(meant);
        }
    }
}
