//! Both sides through one list, compared after each step.

use crate::calls::{Call, Step};
use crate::generate::Generator;
use crate::granted::{AtTop, count_of};
use crate::passed::{AtTops, parted};
use crate::sides::{Image, Machine, places};
use crate::sizes::{AtSizes, BLANK, SIZES, size_of};
use crate::taken::{OFTEN, Taken};
use reu::IMAGE_GRANTED_CYCLES;
use std::panic::{AssertUnwindSafe, catch_unwind};

/// The steps of a from-new list, the steps that follow each image of a from-image list, and those of a long list.
const LIST: usize = 1500;
const AFTER_IMAGE: usize = 12;
const LONG_LIST: usize = 140_000;
/// One list in so many is long.
const LONG_EVERY: u64 = 400;
/// A run of so many calls must have been at the top of the count of granted cycles, at the tops of both addresses in all the
/// ways that are counted, and at each size in all of those, and must have taken each short way and the plain one there; the
/// gate's runs are as long.
pub const FULL_RUN: u64 = 5_000_000;
/// Whole memories are compared at the end of a list and after so many steps.
const WHOLE_EVERY: usize = 16_384;

/// Two machines that must agree: the tried one and the one that is right.
pub struct Pair<'a> {
    pub tried: &'a mut dyn Machine,
    pub right: &'a mut dyn Machine,
}

/// The first place at which two memories or images of one length differ.
pub fn first_difference(tried: &[u8], right: &[u8]) -> Option<usize> {
    if tried == right { None } else { tried.iter().zip(right).position(|(one, other)| one != other) }
}

fn differs(what: &str, at: usize, tried: u32, right: u32) -> String {
    format!("{what} {at} is 0x{tried:02x}, the original's 0x{right:02x}")
}

/// How two answers to one call differ: without their marks, where one of the two is the original's own, or in the marks.
fn answers_differ(call: Call, answer: u32, right: u32, before: &Image) -> String {
    let ((answer, marks), (right, right_marks)) = (parted(call, answer), parted(call, right));
    match answer == right {
        true => format!("the answer has the marks {marks}, by the addresses {right_marks}"),
        false if matches!(call, Call::SetSize { .. }) => format!("the answer is {answer}, by the sizes {right}"),
        false => format!("the answer is {answer}, the original's {right}{}", remark(before)),
    }
}

/// What is said behind "the original's" for a size that it has not.
fn remark(image: &Image) -> String {
    match size_of(image) {
        Some(size) if size != SIZES[0] => format!(" (at {size} bytes: on a storage of repeats)"),
        _ => String::new(),
    }
}

impl Pair<'_> {
    /// One step on both sides, and the comparison of everything but the memories' untouched bytes.
    pub fn step(&mut self, step: Step) -> Result<(), String> {
        let before = self.right.image();
        let answers = (self.tried.step(step), self.right.step(step));
        if let (Step::Call(call), (Some(answer), Some(right))) = (step, answers)
            && answer != right
        {
            return Err(answers_differ(call, answer, right, &before));
        }
        let (image, right_image) = (self.tried.image(), self.right.image());
        if let Some(at) = first_difference(&image, &right_image) {
            return Err(match at < IMAGE_GRANTED_CYCLES {
                true => differs("image byte", at, image[at].into(), right_image[at].into()) + &remark(&right_image),
                false => {
                    let [count, right] = [image, right_image].map(|image| count_of(&image));
                    format!("the count of granted cycles is {count}, by the calls and their grants {right}")
                }
            });
        }
        if self.tried.interrupt() != self.right.interrupt() {
            return Err("the interrupt level differs".into());
        }
        if !self.tried.guards_hold() {
            return Err("a byte beside a buffer has changed".into());
        }
        self.touched(&before)?;
        self.touched(&image)
    }

    /// The two bytes that an image's transfer points at. (Of an image before, the storage may have another size by now.)
    fn touched(&self, image: &Image) -> Result<(), String> {
        let (addr, offset) = places(image);
        let offset = offset % self.right.storage().len();
        let (byte, right) = (self.tried.bus()[addr], self.right.bus()[addr]);
        if byte != right {
            return Err(differs("bus byte", addr, byte.into(), right.into()));
        }
        let (byte, right) = (self.tried.storage()[offset], self.right.storage()[offset]);
        if byte != right {
            return Err(differs("storage byte", offset, byte.into(), right.into()));
        }
        Ok(())
    }

    /// Every byte of both memories. That the original's repeats are still equal is the comparison's own affair, and is
    /// looked at here too: one that was left behind would be compared no more.
    pub fn whole(&self) -> Result<(), String> {
        assert!(self.right.repeats_hold(), "the original has changed a byte that was not repeated");
        let memories = [
            ("bus byte", self.tried.bus(), self.right.bus()),
            ("storage byte", self.tried.storage(), self.right.storage()),
        ];
        for (what, tried, right) in memories {
            if let Some(at) = first_difference(tried, right) {
                return Err(differs(what, at, tried[at].into(), right[at].into()));
            }
        }
        Ok(())
    }

    /// Runs a list; the first disagreement with the number of steps that were done until it was seen.
    pub fn list(&mut self, steps: &[Step]) -> Result<(), (usize, String)> {
        for (at, step) in steps.iter().enumerate() {
            self.step(*step).map_err(|what| (at + 1, what))?;
        }
        self.whole().map_err(|what| (steps.len(), what))
    }
}

/// A list on which the two sides disagree.
pub struct Disagreement {
    pub steps: Vec<Step>,
    pub what: String,
}

/// Runs a part of the comparison; what it found, if it found something. A side that panics has been found out too.
pub fn caught_by(part: impl FnOnce() -> Result<(), String>) -> Option<String> {
    match catch_unwind(AssertUnwindSafe(part)) {
        Ok(done) => done.err(),
        Err(_) => Some("it panics".into()),
    }
}

/// The seed of a run's list by its number.
pub fn list_seed(seed: u64, list: u64) -> u64 {
    seed.wrapping_mul(0x1_0000_0001).wrapping_add(list)
}

/// The random run: lists until so many calls are compared.
pub struct Run {
    pub calls: u64,
    pub lists: u64,
    pub at_top: AtTop,
    pub at_tops: AtTops,
    pub at_sizes: AtSizes,
    pub taken: Taken,
    seed: u64,
}

impl Run {
    pub fn new(seed: u64) -> Self {
        let (at_top, at_tops, at_sizes, taken) = Default::default();
        Self { calls: 0, lists: 0, at_top, at_tops, at_sizes, taken, seed }
    }

    /// Compares at least `calls` further calls.
    pub fn compare(&mut self, pair: &mut Pair, calls: u64) -> Result<(), Box<Disagreement>> {
        let end = self.calls + calls;
        while self.calls < end {
            let seed = list_seed(self.seed, self.lists);
            let mut steps = Vec::new();
            let done = self.list(pair, seed, &mut steps);
            done.map_err(|what| Box::new(Disagreement { steps, what }))?;
            self.lists += 1;
        }
        Ok(())
    }

    /// An error if the run is a full one and its cycles have not brought the count to its top and tried to go past it.
    pub fn has_met_the_top(&self) -> Result<(), String> {
        match self.at_top {
            AtTop { reached: 1.., held: 1.. } => Ok(()),
            _ if self.calls < FULL_RUN => Ok(()),
            _ => Err("compare: so long a run must bring the count of granted cycles to its top and past it".into()),
        }
    }

    /// An error if the run is a full one and has not met all that there is to meet where an address passes its top.
    pub fn has_met_the_tops(&self) -> Result<(), String> {
        match self.at_tops.missing() {
            missing if self.calls < FULL_RUN || missing.is_empty() => Ok(()),
            missing => {
                Err(format!("compare: so long a run must meet each at the tops; missing: {}", missing.join(", ")))
            }
        }
    }

    /// An error if the run is a full one and has not met all that there is to meet at each size.
    pub fn has_met_the_sizes(&self) -> Result<(), String> {
        match self.at_sizes.missing() {
            missing if self.calls < FULL_RUN || missing.is_empty() => Ok(()),
            missing => {
                Err(format!("compare: so long a run must meet each at each size; missing: {}", missing.join(", ")))
            }
        }
    }

    /// An error if the run is a full one and has not taken each of the short ways, and the plain one, often at each size.
    pub fn has_taken_all_ways(&self) -> Result<(), String> {
        match self.taken.missing(OFTEN) {
            missing if self.calls < FULL_RUN || missing.is_empty() => Ok(()),
            missing => Err(format!(
                "compare: so long a run must take each way {OFTEN} times at each size; rarer: {}",
                missing.join(", ")
            )),
        }
    }

    /// One list: from new, with full lengths, or from any accepted images, by its number. Its size is set first.
    fn list(&mut self, pair: &mut Pair, seed: u64, steps: &mut Vec<Step>) -> Result<(), String> {
        let long = self.lists % LONG_EVERY == LONG_EVERY / 2;
        let images = !long && self.lists % 3 == 2;
        let kind = (self.lists / LONG_EVERY % 4) as u8;
        let mut generator = if long { Generator::long(seed, kind) } else { Generator::new(seed) };
        let (calls, at_top, at_tops) = (&mut self.calls, &mut self.at_top, &mut self.at_tops);
        let (at_sizes, taken) = (&mut self.at_sizes, &mut self.taken);
        let mut steps = Kept { steps, calls, at_top, at_tops, at_sizes, taken };
        let [new, set] = [Call::New, Call::SetSize { size: generator.size() as u64 }].map(Step::Call);
        for start in [Step::Image(BLANK), Step::Memory(generator.seed()), new, set] {
            steps.step(pair, start)?;
        }
        for at in 0..if long { LONG_LIST } else { LIST } {
            let step = match images && at % AFTER_IMAGE == 0 {
                true => Step::Image(generator.image()),
                false if images => generator.anything(&pair.right.image()),
                false => generator.next(&pair.right.image()),
            };
            steps.step(pair, step)?;
            if at % WHOLE_EVERY == WHOLE_EVERY - 1 {
                pair.whole()?;
            }
        }
        pair.whole()
    }
}

/// Keeps each step before it is done, and counts the calls among them, those at the top of the count, those at the tops of
/// the addresses, those at each size, and those on each of the ways.
struct Kept<'a> {
    steps: &'a mut Vec<Step>,
    calls: &'a mut u64,
    at_top: &'a mut AtTop,
    at_tops: &'a mut AtTops,
    at_sizes: &'a mut AtSizes,
    taken: &'a mut Taken,
}

impl Kept<'_> {
    fn step(&mut self, pair: &mut Pair, step: Step) -> Result<(), String> {
        self.steps.push(step);
        if let Step::Call(call) = step {
            *self.calls += 1;
            self.at_top.look(pair.right, call);
            self.at_tops.look(pair.right, call);
            self.at_sizes.look(pair.right, call);
            self.taken.look(pair.right, call);
        }
        pair.step(step)
    }
}
