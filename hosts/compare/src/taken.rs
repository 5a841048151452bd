//! How often a run's calls take each of the short ways and how often the plain one, by the conditions in `short.rs`, at each
//! size. It is counted beside the calls: nothing here asks the library which way it went.

use crate::calls::Call;
use crate::short::{Way, way};
use crate::sides::Machine;
use crate::sizes::{SIZES, place, size_of};

/// What is counted. The cycles come first; of them and of the writes the last go the plain way.
const MET: [&str; 12] = [
    "idle",
    "hold",
    "store",
    "recall",
    "verify",
    "a swap's read",
    "a swap's write",
    "other cycles",
    "register reads",
    "looks",
    "writes that start nothing",
    "writes that start",
];
const CYCLES: usize = 8;
const SHORT_CYCLES: usize = 7;
/// A full run must have met each so often at each size. Runs from six seeds had 15,997 of the rarest.
pub const OFTEN: u64 = 1_000;

/// How often a run has met each, at each size.
#[derive(Clone, Copy, Default)]
pub struct Taken(pub [[u64; MET.len()]; SIZES.len()]);

/// The place among [`MET`] of a call that takes this way; none of a call that has no short one.
fn met(call: Call, way: Option<Way>) -> Option<usize> {
    Some(match (way, call) {
        (Some(Way::Idle), _) => 0,
        (Some(Way::Hold), _) => 1,
        (Some(Way::Store), _) => 2,
        (Some(Way::Recall), _) => 3,
        (Some(Way::Verify), _) => 4,
        (Some(Way::SwapRead), _) => 5,
        (Some(Way::SwapWrite), _) => 6,
        (None, Call::RunReuCycle { .. }) => 7,
        (Some(Way::Read), _) => 8,
        (Some(Way::Look), _) => 9,
        (Some(Way::Write), _) => 10,
        (None, Call::Write { .. }) => 11,
        (None, _) => return None,
    })
}

impl Taken {
    /// Looks at a call before it is made.
    pub fn look(&mut self, machine: &dyn Machine, call: Call) {
        let image = machine.image();
        let size = size_of(&image).expect("an accepted image has a size");
        let way = way(call, &image, machine.bus(), machine.storage());
        if let Some(met) = met(call, way) {
            self.0[place(size)][met] += 1;
        }
    }

    /// How many cycles there were, and how many of them took a short way.
    pub fn cycles(&self) -> (u64, u64) {
        let first = |many: usize| self.0.iter().flat_map(|met| &met[..many]).sum();
        (first(CYCLES), first(SHORT_CYCLES))
    }

    /// What it has met, in words, a line for each size.
    pub fn told(&self) -> Vec<String> {
        let told = |(size, met): (usize, [u64; MET.len()])| {
            let told: Vec<String> = MET.iter().zip(met).map(|(what, count)| format!("{what} {count}")).collect();
            format!("at {size} bytes: {}", told.join(", "))
        };
        SIZES.into_iter().zip(self.0).map(told).collect()
    }

    /// What it has met less often than so many times.
    pub fn missing(&self, times: u64) -> Vec<String> {
        let missing = |(size, met): (usize, [u64; MET.len()])| {
            let missing = MET.into_iter().zip(met).filter(move |(_, count)| *count < times);
            missing.map(move |(what, count)| format!("{what} at {size} bytes ({count})"))
        };
        SIZES.into_iter().zip(self.0).flat_map(missing).collect()
    }
}
