//! What is run on a side: single kinds of call, and the mix of a game's frames.

use crate::screen::{self, Ba, CYCLES_PER_LINE};
use crate::sides::Side;
use reu::{PASSED_C64, PASSED_EXPANSION};
use std::hint::black_box;

/// A cycle with BA low.
const LOW: Ba = Ba { high: 0, low: 1, high_phi1: 0 };

/// A kind of work. `Mix` comes first: it is what the ratio is about. Those behind `CapacityBytes` are counted and not timed.
#[derive(Clone, Copy, Debug, PartialEq)]
pub enum Work {
    Mix,
    Idle,
    Store,
    Recall,
    Swap,
    SwapUnderBa,
    Verify,
    /// A transfer is running and never comes on: BA stays low.
    Hold,
    Read,
    Write,
    DebugRegister,
    DmaActive,
    C64Access,
    StoragePresent,
    CapacityBytes,
    BusAction,
    TriggerFf00,
    CpuReady,
    /// Nothing is called: what the loop itself costs.
    Loop,
}

impl Work {
    pub const ALL: [(Work, &str); 19] = [
        (Work::Mix, "mix"),
        (Work::Idle, "idle cycle"),
        (Work::Store, "store cycle"),
        (Work::Recall, "recall cycle"),
        (Work::Swap, "swap cycle"),
        (Work::SwapUnderBa, "swap cycle under BA"),
        (Work::Verify, "verify cycle"),
        (Work::Hold, "hold cycle"),
        (Work::Read, "read"),
        (Work::Write, "write"),
        (Work::DebugRegister, "debug_register"),
        (Work::DmaActive, "dma_active"),
        (Work::C64Access, "c64_access"),
        (Work::StoragePresent, "storage_present"),
        (Work::CapacityBytes, "capacity_bytes"),
        (Work::BusAction, "bus_action, idle"),
        (Work::TriggerFf00, "trigger_ff00, not armed"),
        (Work::CpuReady, "cpu_ready_after_dma"),
        (Work::Loop, "the loop itself"),
    ];
}

/// Answers, folded into one number so that none can be left out.
#[derive(Clone, Copy, Debug, Default, PartialEq)]
pub struct Answers {
    pub calls: u64,
    folded: u64,
}

impl Answers {
    fn take(&mut self, answer: u32) {
        self.calls += 1;
        self.folded = self.folded.rotate_left(5) ^ u64::from(answer);
    }
}

/// Addresses, length and COMMAND; the C64 address is $0400, and the expansion address the start of a bank.
fn start<S: Side>(side: &mut S, bank: u8, length: u16, command: u8, answers: &mut Answers) {
    let [length_low, length_high] = length.to_le_bytes();
    for (register, value) in (0xDF02..).zip([0x00, 0x04, 0x00, 0x00, bank, length_low, length_high]) {
        answers.take(side.write(register, value));
    }
    answers.take(side.write(0xDF01, command));
}

/// One cycle. The compiler may know nothing of the side or the inputs: a host's loop has other work between cycles. The
/// answer is without the marks of an address that passes its top, which the original has not.
fn cycle<S: Side>(side: &mut S, ba: Ba, number: u64) -> u32 {
    let (side, ba) = black_box((side, ba));
    side.run_reu_cycle(ba.high, black_box(number), ba.low, ba.high_phi1) & !(PASSED_C64 | PASSED_EXPANSION)
}

/// So many of one call, with its number; what is known of the side is forgotten likewise.
fn repeat<S: Side>(side: &mut S, calls: u64, call: impl Fn(&mut S, u64) -> u32) -> Answers {
    let mut answers = Answers::default();
    for number in 0..calls {
        answers.take(call(black_box(&mut *side), black_box(number)));
    }
    answers
}

/// So many cycles of one transfer of 65,536 bytes, which is started again when it has ended.
fn transfer<S: Side>(side: &mut S, cycles: u64, command: u8, inputs: &[Ba]) -> Answers {
    let mut answers = Answers::default();
    start(side, 2, 0, command, &mut answers);
    for (number, &ba) in (0..cycles).zip(inputs.iter().cycle()) {
        let held = cycle(side, ba, number);
        answers.take(held);
        if held == 0 {
            start(side, 2, 0, command, &mut answers);
        }
    }
    answers
}

/// What a game does when a line begins: its commands, and the registers that it or a viewer looks at.
fn begin_line<S: Side>(side: &mut S, line: usize, answers: &mut Answers) {
    match line {
        0 => start(side, 2, 2000, 0x90, answers),
        50 => start(side, 3, 2000, 0xB2, answers),
        130 => start(side, 2, 1000, 0x81, answers),
        131 => answers.take(side.trigger_ff00()),
        200 => start(side, 2, 1000, 0x93, answers),
        _ => {}
    }
    for register in 0..9 {
        answers.take(side.read(0xDF00 + register));
    }
    answers.take(side.write(0xDF09, line as u8));
    if line.is_multiple_of(8) {
        for index in 0..11 {
            answers.take(side.debug_register(index));
        }
    }
}

/// Frames of a game: a store, a swap under the screen's BA, a recall started by FF00, a verify, and idle between.
fn mix<S: Side>(side: &mut S, frames: u64) -> Answers {
    let (mut answers, frame) = (Answers::default(), screen::frame());
    let mut number = 0;
    for (line, inputs) in (0..frames).flat_map(|_| frame.chunks(CYCLES_PER_LINE).enumerate()) {
        begin_line(side, line, &mut answers);
        for &ba in inputs {
            answers.take(cycle(side, ba, number));
            number += 1;
        }
    }
    answers
}

/// What a work needs and is not timed: a verify, that all bytes are equal.
pub fn prepare<S: Side>(side: &mut S, work: Work) {
    if work == Work::Verify {
        transfer(side, 65_536, 0x90, &[Ba::HIGH]);
    }
}

/// Runs some work on a side that is prepared for it: so many calls, or frames of the mix.
pub fn run<S: Side>(side: &mut S, work: Work, count: u64) -> Answers {
    match work {
        Work::Mix => mix(side, count),
        Work::Idle => repeat(side, count, |side, number| cycle(side, Ba::HIGH, number)),
        Work::Store => transfer(side, count, 0x90, &[Ba::HIGH]),
        Work::Recall => transfer(side, count, 0x91, &[Ba::HIGH]),
        Work::Swap => transfer(side, count, 0x92, &[Ba::HIGH]),
        Work::SwapUnderBa => transfer(side, count, 0x92, &screen::frame()),
        Work::Verify => transfer(side, count, 0x93, &[Ba::HIGH]),
        Work::Hold => transfer(side, count, 0x90, &[LOW]),
        Work::Read => repeat(side, count, |side, number| side.read(0xDF00 + (number % 11) as u16)),
        Work::Write => repeat(side, count, |side, number| side.write(0xDF02 + (number % 7) as u16, number as u8)),
        Work::DebugRegister => repeat(side, count, |side, number| side.debug_register(number % 11)),
        Work::DmaActive => repeat(side, count, |side, _| side.dma_active()),
        Work::C64Access => repeat(side, count, |side, _| side.c64_access()),
        Work::StoragePresent => repeat(side, count, |side, _| side.storage_present()),
        Work::CapacityBytes => repeat(side, count, |side, _| side.capacity_bytes()),
        Work::BusAction => repeat(side, count, |side, number| side.bus_action(1, 1, number)),
        Work::TriggerFf00 => repeat(side, count, |side, _| side.trigger_ff00()),
        Work::CpuReady => repeat(side, count, |side, number| side.cpu_ready_after_dma((number & 1) as u32)),
        Work::Loop => repeat(side, count, |_, number| number as u32),
    }
}
