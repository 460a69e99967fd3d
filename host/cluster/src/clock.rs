//! The clock of the current view.

use std::time::{Duration, Instant};

/// How long a view may take at first, by how much that grows with each one that ran out, and the most.
const PATIENCE: Duration = Duration::from_millis(60);
const GROWTH: f64 = 1.25;
const MOST: Duration = Duration::from_secs(2);
/// A leader proposes this long after it entered its view: without it blocks come faster than one that was down can
/// catch up.
const PACE: Duration = Duration::from_millis(12);

pub struct Clock {
    view: u64,
    entered: Instant,
    deadline: Instant,
    patience: Duration,
}

impl Clock {
    pub fn start() -> Clock {
        let now = Instant::now();
        Clock { view: 0, entered: now, deadline: now, patience: PATIENCE }
    }

    /// The current view, which may be a new one.
    pub fn follow(&mut self, view: u64) {
        if view != self.view {
            self.view = view;
            self.entered = Instant::now();
            self.deadline = self.entered + self.patience;
        }
    }

    /// Whether the view has lasted too long; if so the clock runs anew, a little longer.
    pub fn ran_out(&mut self) -> bool {
        let now = Instant::now();
        let ran_out = now >= self.deadline;
        if ran_out {
            self.patience = self.patience.mul_f64(GROWTH).min(MOST);
            self.deadline = now + self.patience;
        }
        ran_out
    }

    /// A block was released.
    pub fn calm(&mut self) {
        self.patience = PATIENCE;
    }

    pub fn may_propose(&self) -> bool {
        self.entered.elapsed() >= PACE
    }
}
