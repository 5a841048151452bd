//! The runs whose logs are judged: how each begins, what is called between its steps, and where its command must end.

use crate::common::constants::*;
use crate::common::screen::{self, Ba, CYCLES_PER_LINE};
use crate::rule::Operation::{self, *};

/// BA low at both phases.
const LOW: Ba = Ba { high: 0, low: 1, high_phi1: 0 };

/// A cycle or a tick.
pub type Step = fn(Ba) -> Operation;

/// Where a block begins: its first byte steps both addresses over a carry, that of the expansion memory up to the bank.
const C64: u16 = 0x20FF;
const EXPANSION: u16 = 0xFFFF;

/// How a command ends.
#[derive(Clone, Copy, PartialEq, Eq, PartialOrd, Ord)]
pub enum End {
    LastByte,
    ErrorBefore,
    ErrorOnLast,
    Tail,
}

#[derive(Clone, Debug)]
pub struct Block {
    pub kind: u8,
    pub autoload: bool,
    pub by_ff00: bool,
    pub length: u16,
    pub control: u8,
    pub bank: Option<u8>,
    /// Which of its bytes differ from the storage's, counted from 0.
    pub differing: Vec<u16>,
}

impl Block {
    pub fn of(kind: u8, length: u16) -> Block {
        Block { kind, autoload: true, by_ff00: false, length, control: 0, bank: Some(2), differing: vec![] }
    }

    /// The end, and how many ticks lead to it, from document 01's lines on finish and on a verify mismatch.
    pub fn end(&self) -> (End, usize) {
        let length = usize::from(self.length);
        let whole = if self.kind == SWAP { 2 * length } else { length };
        match self.differing.first() {
            Some(&at) if self.kind == VERIFY => match self.length - 1 - at {
                0 => (End::ErrorOnLast, length),
                1 => (End::Tail, length),
                _ => (End::ErrorBefore, usize::from(at) + 1),
            },
            _ => (End::LastByte, whole),
        }
    }

    /// The registers, with COMMAND last.
    fn start(&self) -> Vec<Operation> {
        let ([low, high], [far_low, far_high]) = (C64.to_le_bytes(), EXPANSION.to_le_bytes());
        let [length_low, length_high] = self.length.to_le_bytes();
        let below = [Some(low), Some(high), Some(far_low), Some(far_high), self.bank];
        let bytes = below.into_iter().chain([Some(length_low), Some(length_high)]);
        let written = (C64_ADDRESS_LOW..).zip(bytes).filter_map(|(register, byte)| Some(Write(register, byte?)));
        written.chain([Write(ADDRESS_CONTROL, self.control)]).chain(self.command()).collect()
    }

    fn command(&self) -> Vec<Operation> {
        let bits = COMMAND_EXECUTE | self.kind | if self.autoload { COMMAND_AUTOLOAD } else { 0 };
        if self.by_ff00 {
            // The command that waits does not step.
            return vec![Write(COMMAND, bits), Cycle(Ba::HIGH), Tick(Ba::HIGH), Ff00];
        }
        vec![Write(COMMAND, bits | COMMAND_FF00_DISABLE)]
    }
}

pub struct Run {
    pub block: Block,
    pub operations: Vec<Operation>,
    /// The steps, counted from 0, at which a command must end; None: one step, whichever BA makes it.
    pub ends: Option<Vec<usize>>,
}

/// The steps of a run before its start.
const IDLE: usize = 2;

impl Run {
    /// From new, with idle steps before the start.
    fn of(block: &Block, then: impl IntoIterator<Item = Operation>, ends: Option<&[usize]>) -> Run {
        let mut operations = vec![Enable(true), Cycle(Ba::HIGH), Tick(Ba::HIGH)];
        operations.extend(block.start());
        operations.extend(then);
        Run { block: block.clone(), operations, ends: ends.map(Vec::from) }
    }

    /// The bus: 0 as the storage is, but for the bytes that differ.
    pub fn bus(&self) -> Vec<u8> {
        let mut bus = vec![0; BUS_SIZE];
        for at in &self.block.differing {
            bus[usize::from(C64 + at)] = 1;
        }
        bus
    }

    /// With BA high, to the end and two steps on.
    pub fn whole(block: &Block, step: Step) -> Run {
        Run::with(block, step, &[], 0)
    }

    /// The same, with calls before one of the steps.
    pub fn with(block: &Block, step: Step, calls: &[Operation], before: usize) -> Run {
        let ticks = block.end().1;
        let mut then = vec![step(Ba::HIGH); ticks + 2];
        then.splice(before..before, calls.iter().copied());
        let waits = if block.by_ff00 { IDLE + 2 } else { IDLE };
        Run::of(block, then, Some(&[waits + ticks - 1]))
    }

    /// Disabled before a step, and enabled again after two.
    pub fn dropped(block: &Block, step: Step, before: usize) -> Run {
        let mut then = vec![step(Ba::HIGH); before];
        then.extend([Enable(false), step(Ba::HIGH), step(Ba::HIGH), Enable(true), step(Ba::HIGH)]);
        Run::of(block, then, Some(&[]))
    }

    /// Cycles under a BA that is low at times.
    fn under(block: &Block, inputs: impl Iterator<Item = Ba>) -> Run {
        let enough = 3 * block.end().1 + CYCLES_PER_LINE;
        Run::of(block, inputs.take(enough).map(Cycle), None)
    }

    /// With BA low for two cycles and high for three, over and over.
    pub fn held(block: &Block) -> Run {
        Run::under(block, [LOW, LOW, Ba::HIGH, Ba::HIGH, Ba::HIGH].into_iter().cycle())
    }
}

/// Other bytes for registers 2 to 8.
pub fn rewritten() -> Vec<Operation> {
    (C64_ADDRESS_LOW..=TRANSFER_LENGTH_HIGH).map(|register| Write(register, 0xA0 + register as u8)).collect()
}

/// No byte differs, one does, or the last two.
fn differing(kind: u8, length: u16, control: u8) -> Vec<Vec<u16>> {
    if kind != VERIFY {
        return vec![vec![]];
    }
    // A fixed address has its first byte compared each time.
    let single = if control & ADDRESS_CONTROL_FIX_C64 != 0 { 1 } else { length };
    let mut all: Vec<Vec<u16>> = (0..single).map(|at| vec![at]).collect();
    all.push(vec![]);
    if single > 1 {
        all.push(vec![length - 2, length - 1]);
    }
    all
}

/// Every type, end, start, length, fixing and bank, with and without Autoload.
fn blocks() -> Vec<Block> {
    let mut all = vec![];
    for code in 0..4 * 2 * 2 * 4 * 2 {
        let (kind, rest) = (code % 4, code / 4);
        let (autoload, by_ff00, fixed, bank) = (rest % 2 == 1, rest / 2 % 2 == 1, rest / 4 % 4, rest / 16 == 1);
        let (control, bank) = (fixed << 6, bank.then_some(0x02));
        for length in [1, 2, 3, 5] {
            let block = Block { autoload, by_ff00, control, bank, ..Block::of(kind, length) };
            let with = |differing| Block { differing, ..block.clone() };
            all.extend(differing(kind, length, control).into_iter().map(with));
        }
    }
    all
}

/// The runs of one block through one kind of step.
fn runs_of(block: &Block, step: Step) -> Vec<Run> {
    let ticks = block.end().1;
    let mut all = vec![Run::whole(block, step)];
    all.extend((0..ticks).map(|before| Run::with(block, step, &rewritten(), before)));
    all.push(Run::dropped(block, step, 0));
    if ticks > 1 {
        all.push(Run::dropped(block, step, ticks - 1));
    }
    all
}

/// Calls that start, arm or forget a command while one runs, and one that goes on from where another ended.
fn restarts(step: Step) -> Vec<Run> {
    let mut all = vec![];
    for autoload in [false, true] {
        let block = Block { autoload, ..Block::of(STORE, 3) };
        let other = Block { autoload: !autoload, ..Block::of(STORE, 3) };
        // A new start on the way takes Autoload from COMMAND, and the rest from the registers: two bytes are left.
        all.push(Run::with(&block, step, &other.command(), 1));
        // Only a start takes Autoload from COMMAND.
        all.push(Run::with(&block, step, &[Write(COMMAND, if autoload { 0 } else { COMMAND_AUTOLOAD })], 1));
        // Armed on the way: the end clears bit 7, and disabling forgets it, so that FF00 starts nothing.
        let arms = Write(COMMAND, COMMAND_EXECUTE | COMMAND_AUTOLOAD);
        let mut armed = Run::with(&block, step, &[arms], 1);
        armed.operations.extend([Ff00, step(Ba::HIGH)]);
        all.push(armed);
        all.push(Run::of(&block, [arms, Enable(false), Enable(true), Ff00, step(Ba::HIGH)], Some(&[])));
        // A second start after the end: with Autoload the length is 3 again, without it has come down to 1.
        let mut again = vec![step(Ba::HIGH); 3];
        again.extend(other.command());
        again.extend([step(Ba::HIGH); 3]);
        all.push(Run::of(&block, again, Some(&[IDLE + 2, IDLE + if autoload { 5 } else { 3 }])));
    }
    all
}

pub fn all() -> Vec<Run> {
    let (mut all, frame) = (vec![], screen::frame());
    for step in [Cycle as Step, Tick as Step] {
        all.extend(blocks().iter().flat_map(|block| runs_of(block, step)));
        all.extend(restarts(step));
    }
    all.extend(blocks().iter().filter(|block| block.control == 0).map(Run::held));
    let under_screen = |block: &Block, from| Run::under(block, frame.iter().copied().cycle().skip(from));
    // Short commands from each cycle of a line with text and a sprite and of the next, and a long swap.
    for from in 107 * CYCLES_PER_LINE..109 * CYCLES_PER_LINE {
        all.extend((0..12).map(|code| under_screen(&Block::of(code % 4, 1 + u16::from(code / 4)), from)));
    }
    all.push(under_screen(&Block::of(SWAP, 3000), 0));
    all
}
