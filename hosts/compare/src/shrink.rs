//! A disagreement's list made short.

use crate::calls::Step;
use crate::compare::Pair;
use crate::sizes::BLANK;
use std::time::{Duration, Instant};

/// A list is made shorter for so long at most.
const PATIENCE: Duration = Duration::from_secs(20);

/// Both sides as every list that is run again finds them.
pub fn begin(pair: &mut Pair) {
    pair.tried.mend_guards();
    for start in [Step::Image(BLANK), Step::Memory(0)] {
        pair.tried.step(start);
        pair.right.step(start);
    }
}

/// The shortest list so far that still disagrees, and on what.
struct Shortest<'a, 'b> {
    pair: &'a mut Pair<'b>,
    steps: Vec<Step>,
    what: String,
    begun: Instant,
}

impl Shortest<'_, '_> {
    /// Keeps a list if it disagrees too, cut where that shows.
    fn keeps(&mut self, mut steps: Vec<Step>) -> bool {
        if self.begun.elapsed() > PATIENCE {
            return false;
        }
        begin(self.pair);
        let Err((done, what)) = self.pair.list(&steps) else { return false };
        steps.truncate(done);
        (self.steps, self.what) = (steps, what);
        true
    }

    /// Leaves out parts of this size.
    fn leave_out(&mut self, size: usize) {
        let mut at = 0;
        while at < self.steps.len() {
            let rest = (at + size).min(self.steps.len());
            if !self.keeps([&self.steps[..at], &self.steps[rest..]].concat()) {
                at += size;
            }
        }
    }

    /// Makes the arguments of one call small; whether one could be.
    fn simplify(&mut self, at: usize) -> bool {
        let Step::Call(call) = self.steps[at] else { return false };
        call.simpler().into_iter().any(|simpler| {
            let mut steps = self.steps.clone();
            steps[at] = Step::Call(simpler);
            self.keeps(steps)
        })
    }
}

/// The shortest list found that still disagrees, with what it disagrees on; none if the list does not alone.
pub fn shorten(pair: &mut Pair, steps: Vec<Step>) -> Option<(Vec<Step>, String)> {
    let mut shortest = Shortest { pair, steps: Vec::new(), what: String::new(), begun: Instant::now() };
    if !shortest.keeps(steps) {
        return None;
    }
    let mut size = shortest.steps.len().div_ceil(2);
    while size > 0 {
        shortest.leave_out(size);
        size /= 2;
    }
    let mut at = 0;
    while at < shortest.steps.len() {
        if !shortest.simplify(at) {
            at += 1;
        }
    }
    shortest.leave_out(1);
    Some((shortest.steps, shortest.what))
}
