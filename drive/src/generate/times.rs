//! When an event comes: now, a moment later, at the edge of a lapse or an expiry, too early.

use super::*;

impl World {
    pub(super) fn time(&mut self) -> u64 {
        let now = self.now;
        if self.clean {
            return now;
        }
        let still = match self.theme {
            Theme::Runs | Theme::Sessions => 85,
            _ => 50,
        };
        if self.draw.chance(still) {
            return now;
        }
        let time = match self.draw.below(100) {
            0..=54 => now + 1,
            55..=79 => now + self.draw.between(2, 9) as u64,
            80..=86 => now.saturating_sub(1),
            87..=89 => now.saturating_sub(self.draw.between(2, 2000) as u64),
            90..=92 => now + self.draw.between(10, 120) as u64,
            93..=95 => self.expiry_edge(),
            96 => LAST_TIME + 1,
            97 => self.draw.pick(&[LAST_TIME + 2, 1 << 40, (1 << 40) - 1, u64::MAX >> 1]),
            _ => now + self.draw.between(0, 40) as u64,
        };
        if time > LAST_TIME && now <= LAST_TIME - 100 || self.draw.chance(10) {
            time
        } else {
            time.min(LAST_TIME)
        }
    }

    /// One second before an expiry that is still to come, or that expiry.
    pub(super) fn expiry_edge(&mut self) -> u64 {
        let now = self.now;
        let coming: Vec<u64> =
            self.sessions.iter().filter(|s| !s.replaced && s.expiry > now).map(|s| s.expiry).collect();
        if coming.is_empty() {
            return now;
        }
        let nearest = *coming.iter().min().unwrap_or(&now);
        let expiry = if self.draw.chance(60) { nearest } else { self.draw.pick(&coming) };
        expiry - self.draw.between(0, 1) as u64
    }

    /// For a START: at times just before the oldest open run lapses, or when it does.
    pub(super) fn start_time(&mut self) -> u64 {
        let now = self.now;
        if self.draw.chance(4) {
            if let Some(oldest) =
                self.runs.iter().filter(|run| !run.over && run.start + 30 > now).map(|run| run.start).min()
            {
                return oldest + 29 + self.draw.between(0, 1) as u64;
            }
        }
        self.time()
    }

    /// For an event of a run: at times the last second before it lapses, or the first after.
    pub(super) fn run_time(&mut self, run: &Run) -> u64 {
        if self.draw.chance(8) && run.start + 29 >= self.now {
            return run.start + self.draw.pick(&[28, 29, 29, 30, 30, 31]);
        }
        self.time()
    }
}
