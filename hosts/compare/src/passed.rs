//! The marks of an address that passes its top, by request L2's words: the original has none, so the comparison has a rule
//! of its own, and the reference adds to the original's answer what the rule gives.
//!
//! It knows the call, what the original's controller was before it and, for a cycle, what the original's `bus_action`
//! grants and leaves; nothing here looks at the library's marks. Calls are accepted ones: a refused one has value 0.

use crate::calls::Call;
use crate::granted::granted;
use crate::remaining::remaining;
use crate::sides::{Image, Machine, number, places};
use reu::*;

/// What the two marks add to a value: the C64 address passed $FFFF, the expansion address passed $FFFFFF.
const MARKS: [u32; 2] = [2, 4];

/// Takes an answer apart: without its marks, as the original answers, and the marks alone. Only a tick and a cycle have any.
pub fn parted(call: Call, answer: u32) -> (u32, u32) {
    let marks = if call.lends_bus() { answer & MARKS.iter().sum::<u32>() } else { 0 };
    (answer - marks, marks)
}

/// Which of the two addresses of an image's transfer are at their tops, and which are fixed.
fn tops(image: &Image) -> [(bool, bool); 2] {
    let c64 = number(&image[IMAGE_C64_ADDRESS..IMAGE_EXPANSION_ADDRESS]);
    let expansion = number(&image[IMAGE_EXPANSION_ADDRESS..IMAGE_REMAINING]);
    let flags = image[IMAGE_TRANSFER_FLAGS];
    [(c64 == 0xFFFF, flags & 0x01 != 0), (expansion == 0xFF_FFFF, flags & 0x02 != 0)]
}

/// Whether the tick that finds this controller completes a byte: not without a transfer, not a refresh, not a verify tail,
/// not the first phase of a swap.
fn completes(found: &Image) -> bool {
    let runs = found[IMAGE_TRANSFER] == 1;
    let refreshes = found[IMAGE_MORE_FLAGS] & 0x01 != 0;
    let is_tail = found[IMAGE_TRANSFER_FLAGS] & 0x20 != 0;
    let is_first_phase = found[IMAGE_TYPE] == 2 && found[IMAGE_PHASE] == 0;
    runs && !refreshes && !is_tail && !is_first_phase
}

/// The controller that a call's tick finds: a tick's as it was before the call, a cycle's as its grant has left it, if that
/// is Transfer.
fn found<'a>(call: Call, before: &'a Image, granted: Option<&'a Image>) -> Option<&'a Image> {
    if matches!(call, Call::TickDma { .. }) { Some(before) } else { granted }
}

/// Whether a call completes a byte, by what the controller was before it and this machine's grant.
pub fn completes_byte(machine: &mut dyn Machine, call: Call, before: &Image) -> bool {
    let granted = granted(machine, call);
    found(call, before, granted.as_ref()).is_some_and(completes)
}

/// The marks of a call: of a byte that is completed, for each address that is at its top and not fixed. `granted` is what
/// the grant of a cycle has left, if it is Transfer.
pub fn marks(call: Call, before: &Image, granted: Option<&Image>) -> u32 {
    match found(call, before, granted) {
        Some(found) if completes(found) => {
            let steps = tops(found).map(|(at_top, fixed)| at_top && !fixed);
            MARKS.iter().zip(steps).map(|(mark, steps)| mark * u32::from(steps)).sum()
        }
        _ => 0,
    }
}

/// What calls can meet at the tops; a full run must have met each. The first three are apart, the next three are of these,
/// and of the last two neither reports the address.
const MET: [&str; 8] = [
    "passed $FFFF alone",
    "passed $FFFFFF alone",
    "passed both",
    "passed with the last byte of a block",
    "passed with a verify error",
    "passed with a repeated byte of a recall",
    "an address fixed there",
    "no byte completed there",
];

/// How often a run has met each.
#[derive(Clone, Copy, Default)]
pub struct AtTops(pub [u64; MET.len()]);

impl AtTops {
    /// Looks at a call before it is made.
    pub fn look(&mut self, machine: &mut dyn Machine, call: Call) {
        let before = machine.image();
        // The grant moves no address.
        if call.lends_bus() && tops(&before).iter().any(|(at_top, _)| *at_top) {
            let granted = granted(machine, call);
            let met = met(machine, call, &before, granted.as_ref());
            self.0.iter_mut().zip(met).for_each(|(count, met)| *count += u64::from(met));
        }
    }

    /// What it has met, in words.
    pub fn told(&self) -> String {
        let told: Vec<String> = MET.iter().zip(self.0).map(|(what, count)| format!("{what} {count}")).collect();
        told.join(", ")
    }

    /// What it has not met.
    pub fn missing(&self) -> Vec<&'static str> {
        MET.into_iter().zip(self.0).filter(|(_, count)| *count == 0).map(|(what, _)| what).collect()
    }
}

/// Which of [`MET`] a call meets that finds an address at its top.
fn met(machine: &dyn Machine, call: Call, before: &Image, granted: Option<&Image>) -> [bool; MET.len()] {
    let marks = marks(call, before, granted);
    let byte = found(call, before, granted).filter(|found| completes(found));
    let (addr, offset) = places(before);
    let differs = machine.bus()[addr] != machine.storage()[offset];
    let first = before[IMAGE_TRANSFER_FLAGS] & 0x08 != 0;
    let repeats = |found: &Image| found[IMAGE_TYPE] == 1 && found[IMAGE_FLAGS] & 0x20 != 0 && !first;
    let holds = |(at_top, fixed): (bool, bool)| at_top && fixed;
    [
        marks == MARKS[0],
        marks == MARKS[1],
        marks == MARKS[0] + MARKS[1],
        marks != 0 && remaining(before) == 1,
        marks != 0 && before[IMAGE_TYPE] == 3 && differs,
        marks != 0 && byte.is_some_and(repeats),
        byte.is_some() && tops(before).into_iter().any(holds),
        byte.is_none() && tops(before).into_iter().any(|(at_top, fixed)| at_top && !fixed),
    ]
}
