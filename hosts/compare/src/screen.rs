//! Swaps through screen time, by request L6's words: what must have happened to bus and storage when a swap ends, and how it
//! comes on meanwhile. That is told here from the registers that were shown before the start and from BA; nothing here looks
//! at what the library makes of a fall or a rise. The inputs are of the request's kind: no other call, and no low stretch
//! of one call. (What is counted of them is told from the controller before each call, which is the original's in a pair.)
//!
//! The request also assumes consecutive cycle numbers, late fall clear at the start, BA high at the first call, and that
//! `ba_high` is what `ba_high_phi1` is one call later. The swap comes out the same without these, so some runs leave them
//! out. Behind the runs stand those with a call that is low alone, where it does not.

use crate::calls::{Call, Step};
use crate::compare::{Pair, first_difference, list_seed};
use crate::courses::{Course, KINDS, Kind, SCREEN, SCREEN_HIGH, then_high};
use crate::demand3::{Block, SET};
use crate::generate::Generator;
use crate::remaining::remaining;
use crate::rng::{Rng, noise};
use crate::sides::{Image, Machine, register, set_number};
use crate::sizes::{BLANK, SIZES, lay_size};
use reu::*;
use std::iter::repeat_n;

/// Lengths that come with every kind of course, and those of full length, with two.
const LENGTHS: [u32; 6] = [1, 2, 3, 255, 256, 257];
const FULL_LENGTHS: [u32; 2] = [65_535, 65_536];
/// Runs at each size that are drawn, and how many there are of a brief part in all.
const DRAWN: usize = 250;
const BRIEF: usize = 60;
/// Swaps with a call that is low alone.
const LONE: u64 = 60;
/// After so many calls for each byte, and some more, BA stays high: with high stretches of one call a swap may never end.
const PATIENCE: usize = 6;

fn check(holds: bool, what: impl FnOnce() -> String) -> Result<(), String> {
    if holds { Ok(()) } else { Err(what()) }
}

/// What swaps are run on: one machine, or two that are compared after each step, and whole at the end of a run. The rule
/// looks at the tried one's memories: at the end of a run the other's are the same.
pub enum Sides<'a, 'b> {
    One(&'a mut dyn Machine),
    Two(&'a mut Pair<'b>),
}

impl Sides<'_, '_> {
    fn tried(&mut self) -> &mut dyn Machine {
        match self {
            Sides::One(machine) => *machine,
            Sides::Two(pair) => pair.tried,
        }
    }

    /// The controller: the original's, if it is there.
    fn image(&self) -> Image {
        match self {
            Sides::One(machine) => machine.image(),
            Sides::Two(pair) => pair.right.image(),
        }
    }

    fn step(&mut self, step: Step) -> Result<(), String> {
        match self {
            Sides::One(machine) => {
                machine.step(step);
                Ok(())
            }
            Sides::Two(pair) => pair.step(step),
        }
    }

    fn call(&mut self, call: Call) -> Result<(), String> {
        self.step(Step::Call(call))
    }

    /// A storage of this size, and memories of any bytes.
    fn begin(&mut self, size: usize, seed: u64) -> Result<(), String> {
        let mut image = BLANK;
        lay_size(&mut image, size);
        self.step(Step::Image(image))?;
        match self {
            Sides::One(machine) => fill(*machine, seed),
            Sides::Two(pair) => {
                fill(pair.tried, seed);
                fill(pair.right, seed);
            }
        }
        Ok(())
    }

    fn whole(&self) -> Result<(), String> {
        if let Sides::Two(pair) = self { pair.whole() } else { Ok(()) }
    }

    /// What registers 2 to 8 show.
    fn shown(&mut self) -> Result<Block, String> {
        let mut shown = Vec::new();
        for index in 2..=8 {
            let call = Call::DebugRegister { index };
            self.call(call)?;
            shown.push(self.tried().call(call) as u8);
        }
        Ok(Block::shown(&shown))
    }
}

fn fill(machine: &mut dyn Machine, seed: u64) {
    noise(machine.bus_mut(), seed);
    noise(machine.storage_mut(), !seed);
}

/// How often each byte value is in both memories together.
fn occurrences(bus: &[u8], storage: &[u8]) -> [u32; 256] {
    let mut counts = [0; 256];
    bus.iter().chain(storage).for_each(|byte| counts[usize::from(*byte)] += 1);
    counts
}

/// What a swap of this block must leave of these memories.
pub struct Rule {
    block: Block,
    bus: Vec<u8>,
    storage: Vec<u8>,
    occurrences: [u32; 256],
}

impl Rule {
    pub fn new(block: &Block, bus: &[u8], storage: &[u8]) -> Self {
        let occurrences = occurrences(bus, storage);
        let (bus, storage) = block.exchanged(bus, storage);
        Self { block: *block, bus, storage, occurrences }
    }

    /// On the way so many bytes of the block have changed places, its first ones, and no others, but that the storage may
    /// have the bus's next one. It looks at the last of these and at the next two; what a byte was is what its partner is after.
    pub fn midway(&self, done: usize, bus: &[u8], storage: &[u8]) -> Result<(), String> {
        for at in done.saturating_sub(1)..self.block.length.min(done + 2) {
            let (addr, offset) = self.block.places(at, storage.len());
            let (sent, latched) = (self.storage[offset], self.bus[addr]);
            let now = (bus[addr], storage[offset]);
            let right = if at < done { (latched, sent) } else { (sent, latched) };
            let ahead = at == done && now == (sent, sent);
            check(now == right || ahead, || {
                format!("with {done} bytes done byte {at} is {now:02x?}, not {right:02x?}")
            })?;
        }
        Ok(())
    }

    /// At the end no value has come or gone, every byte of the block has changed places, and no other byte differs.
    pub fn ended(&self, bus: &[u8], storage: &[u8]) -> Result<(), String> {
        let (before, after) = (self.occurrences, occurrences(bus, storage));
        if let Some(value) = (0..256).find(|value| before[*value] != after[*value]) {
            return Err(format!("byte 0x{value:02x} is there {} times, not {}", after[value], before[value]));
        }
        for (what, bytes, right) in [("bus", bus, &self.bus), ("storage", storage, &self.storage)] {
            if let Some(at) = first_difference(bytes, right) {
                return Err(format!("{what} byte {at} is 0x{:02x}, not 0x{:02x}", bytes[at], right[at]));
            }
        }
        Ok(())
    }
}

/// How a swap comes on, call by call.
#[derive(Default)]
pub struct Pace {
    pub calls: u64,
    /// The high calls in a row up to now, and those of them since a byte was completed.
    high: u64,
    idle: u64,
}

impl Pace {
    /// A call inside the command, at which BA was high or not, a byte was completed or not, and the command went on or not.
    /// Any two high calls in a row complete a byte; so four do, as the request has it. In twice the length the swap ends.
    pub fn call(&mut self, high: bool, completed: bool, goes_on: bool, length: usize) -> Result<(), String> {
        self.calls += 1;
        self.high = if high { self.high + 1 } else { 0 };
        self.idle = if high && !completed { self.idle + 1 } else { 0 };
        check(self.idle < 2, || "two high calls in a row complete no byte".into())?;
        let late = goes_on && self.high >= 2 * length as u64;
        check(!late, || format!("{} high calls in a row do not end it", self.high))
    }
}

/// What swaps can meet; a full part of the run must have met each.
const MET: [&str; 12] = [
    "runs by COMMAND",
    "runs by FF00",
    "starts while another transfer ran",
    "calls",
    "low stretches",
    "falls before the read of a first byte",
    "falls before the read of a last byte",
    "falls before another read",
    "late falls before a write",
    "other falls before a write",
    "rises that read a byte again",
    "rises that wrote it",
];

/// The same in the same order.
#[derive(Clone, Copy)]
enum What {
    ByCommand,
    ByFf00,
    CutsIn,
    Call,
    Low,
    FirstRead,
    LastRead,
    Read,
    LateWrite,
    Write,
    Again,
    Wrote,
}

/// How often each was met.
#[derive(Clone, Copy, Default)]
pub struct Met(pub [u64; MET.len()]);

impl Met {
    fn add(&mut self, what: What) {
        self.0[what as usize] += 1;
    }

    /// Looks at a call, by the controller before it.
    fn look(&mut self, before: &Image, high: bool, cycle: u64) {
        let [was_high, late] = [FLAG_BA_WAS_HIGH, FLAG_LATE_FALL].map(|flag| before[IMAGE_FLAGS] & flag != 0);
        let [first, odd] =
            [TRANSFER_FIRST_BYTE, TRANSFER_ODD_PARITY].map(|flag| before[IMAGE_TRANSFER_FLAGS] & flag != 0);
        let (writes, same) = (before[IMAGE_PHASE] == 1, odd != cycle.is_multiple_of(2));
        self.add(What::Call);
        match (was_high, high) {
            (true, false) if writes => self.add(if late { What::LateWrite } else { What::Write }),
            (true, false) if first => self.add(What::FirstRead),
            (true, false) if remaining(before) == 1 => self.add(What::LastRead),
            (true, false) => self.add(What::Read),
            (false, true) if writes => self.add(if same { What::Again } else { What::Wrote }),
            _ => {}
        }
    }

    /// What it has met, in words.
    pub fn told(&self) -> String {
        let told: Vec<String> = self.0.iter().zip(MET).map(|(count, what)| format!("{count} {what}")).collect();
        told.join(", ")
    }

    /// What it has not met.
    pub fn missing(&self) -> Vec<&'static str> {
        MET.into_iter().zip(self.0).filter(|(_, count)| *count == 0).map(|(what, _)| what).collect()
    }

    /// An error if the part was a full one and has not met all.
    pub fn has_met_all(&self, full: bool) -> Result<(), String> {
        let missing = self.missing();
        check(!full || missing.is_empty(), || {
            format!("swaps: a full run must meet each; missing: {}", missing.join(", "))
        })
    }
}

/// What a run is about; the rest is drawn.
#[derive(Clone, Copy)]
struct Plan {
    size: usize,
    length: u32,
    kind: Kind,
    /// Late fall, the first call, `ba_high` and the cycle numbers are free.
    free: bool,
}

impl Plan {
    fn new(size: usize, length: u32, kind: Kind) -> Self {
        Self { size, length, kind, free: false }
    }

    /// A short or middling block under any course.
    fn drawn(size: usize, rng: &mut Rng) -> Self {
        let any = 1 + rng.below(600) as u32;
        let length = rng.pick(&[1, 1, 2, 2, 3, 4, 5, 8, 17, 40, any]);
        Self { free: rng.one_in(3), ..Self::new(size, length, Kind::any(rng)) }
    }

    /// The turns of a course with a bound: all calls of one, and its high ones, which come in a row.
    fn turns(self) -> Option<(usize, usize)> {
        match self.kind {
            _ if self.free => None,
            Kind::Screen(_) => Some((SCREEN, SCREEN_HIGH)),
            Kind::Turns(&[(high, low)]) if high >= 2 => Some((high + low, high)),
            _ => None,
        }
    }

    fn told(self) -> String {
        let Self { size, length, kind, free } = self;
        format!("{length} bytes at {size} under {kind:?}{}", if free { ", the other inputs free" } else { "" })
    }

    fn each(size: usize, lengths: &[u32], kinds: &[Kind]) -> Vec<Self> {
        let with = |length: &u32| kinds.iter().map(|kind| Self::new(size, *length, *kind)).collect::<Vec<Self>>();
        lengths.iter().flat_map(with).collect()
    }

    /// All at one size: each length with each kind of course, what is drawn, and the full lengths.
    fn all(size: usize, rng: &mut Rng) -> Vec<Self> {
        let drawn = (0..DRAWN).map(|_| Self::drawn(size, rng)).collect();
        let long = [Kind::Screen(rng.below(SCREEN_HIGH)), Kind::Vic];
        [Self::each(size, &LENGTHS, &KINDS), drawn, Self::each(size, &FULL_LENGTHS, &long)].concat()
    }
}

/// One run on its way.
struct Run<'r, 'a, 'b> {
    sides: &'r mut Sides<'a, 'b>,
    met: &'r mut Met,
    rng: Rng,
    plan: Plan,
}

/// A number for a flag: 0 is false, and true has many.
fn flag(rng: &mut Rng, set: bool) -> u32 {
    if set { rng.pick(&SET) } else { 0 }
}

fn executes(image: &Image) -> bool {
    image[register(COMMAND)] & COMMAND_EXECUTE != 0
}

impl Run<'_, '_, '_> {
    /// An address so far below an end that the block passes it, or any.
    fn address(&mut self, ends: &[usize]) -> u32 {
        let (end, before) = (self.rng.pick(ends), 1 + self.rng.below(self.plan.length as usize));
        let any = self.rng.word() as usize % ends[ends.len() - 1];
        (if self.rng.below(3) == 0 { any } else { end - before }) as u32
    }

    /// Any accepted image with the storage attached, neither address fixed and the plan's length. In most a transfer runs,
    /// some are armed.
    fn start_image(&mut self) -> Image {
        let size = self.plan.size;
        let mut image = Generator::at_size(self.rng.word(), size).image();
        let (c64, expansion) = (self.address(&[1 << 16]), self.address(&[size, 2 * size, 3 * size, 1 << 24]));
        set_number(&mut image[register(C64_ADDRESS_LOW)..=register(C64_ADDRESS_HIGH)], c64);
        set_number(&mut image[register(EXPANSION_ADDRESS_LOW)..=register(EXPANSION_ADDRESS_BANK)], expansion);
        set_number(&mut image[register(TRANSFER_LENGTH_LOW)..=register(TRANSFER_LENGTH_HIGH)], self.plan.length);
        image[register(ADDRESS_CONTROL)] &= !(ADDRESS_CONTROL_FIX_C64 | ADDRESS_CONTROL_FIX_EXPANSION);
        image[IMAGE_FLAGS] |= FLAG_ATTACHED;
        if !self.plan.free {
            image[IMAGE_FLAGS] &= !FLAG_LATE_FALL;
        }
        image
    }

    /// Starts a swap, by a write of COMMAND or by FF00; the rule is of what the registers show right before, and of both memories
    /// then.
    fn start(&mut self) -> Result<Rule, String> {
        let image = self.start_image();
        self.sides.step(Step::Image(image))?;
        let (by_ff00, free) = (self.rng.one_in(2), self.rng.byte() & 0x6C);
        let at_once = if by_ff00 { 0 } else { COMMAND_FF00_DISABLE };
        let write = Call::Write { addr: 0xDF00 + COMMAND, value: COMMAND_EXECUTE | at_once | free | SWAP };
        if by_ff00 {
            self.sides.call(write)?;
        }
        let block = self.sides.shown()?;
        let tried = self.sides.tried();
        let rule = Rule::new(&block, tried.bus(), tried.storage());
        self.sides.call(if by_ff00 { Call::TriggerFf00 } else { write })?;
        self.met.add(if by_ff00 { What::ByFf00 } else { What::ByCommand });
        if image[IMAGE_TRANSFER] == 1 {
            self.met.add(What::CutsIn);
        }
        Ok(rule)
    }

    /// The course of BA; in a free run low calls may come before it.
    fn course(&mut self) -> Course {
        let course = self.plan.kind.course(&mut self.rng);
        let low = if self.plan.free { self.rng.pick(&[0, 0, 2, 3, 7]) } else { 0 };
        then_high(Box::new(repeat_n(false, low).chain(course)), PATIENCE * self.plan.length as usize + 2 * SCREEN)
    }

    /// Cycle calls until the command has ended. Answers how many there were.
    fn cycles(&mut self, rule: &Rule) -> Result<u64, String> {
        let (length, mut course) = (self.plan.length as usize, self.course().peekable());
        let (any, near) = (self.rng.word(), self.rng.below(300) as u64);
        let mut cycle = self.rng.pick(&[0, 1, any, any, u64::MAX - near, u64::MAX, 1 << 32]);
        let (mut pace, mut was_high, mut before) = (Pace::default(), true, self.sides.image());
        while executes(&before) {
            let (high, next) = (course.next() == Some(true), course.peek() == Some(&true));
            let (ba_high, number) = if self.plan.free { (self.rng.one_in(2), self.rng.word()) } else { (next, cycle) };
            self.met.look(&before, high, number);
            if was_high && !high {
                self.met.add(What::Low);
            }
            let (call, at) = (self.cycle(ba_high, number, high), pace.calls);
            let told = |what: String| format!("in call {at}: {what}");
            self.sides.call(call).map_err(told)?;
            let after = self.sides.image();
            let left = if after[IMAGE_TRANSFER] == 0 { 0 } else { remaining(&after) as usize };
            let completed = left < remaining(&before) as usize;
            pace.call(high, completed, executes(&after), length).map_err(told)?;
            let tried = self.sides.tried();
            rule.midway(length.saturating_sub(left), tried.bus(), tried.storage()).map_err(told)?;
            (cycle, was_high, before) = (cycle.wrapping_add(1), high, after);
        }
        Ok(pace.calls)
    }

    fn cycle(&mut self, ba_high: bool, cycle: u64, high: bool) -> Call {
        let (ba_high, ba_high_phi1) = (flag(&mut self.rng, ba_high), flag(&mut self.rng, high));
        Call::RunReuCycle { ba_high, cycle, ba_low: self.rng.below(2) as u32, ba_high_phi1 }
    }

    /// Cycle calls with BA high but at one of them, to the end of the command; `ba_high` falls one call before it.
    fn cycles_but(&mut self, low: u64) -> Result<(), String> {
        let (any, high) = (self.rng.word(), |call| call != low);
        // R16 begins with cycle 10.
        let first = if self.plan.length == 1 { 10 } else { self.rng.pick(&[any, u64::MAX - low]) };
        let mut image = self.sides.image();
        for call in 0..2 * u64::from(self.plan.length) + 3 {
            check(executes(&image), || format!("it ends after {call} calls"))?;
            check(call != low || image[IMAGE_PHASE] == 1, || "the call before the low one reads no byte".into())?;
            let cycle = self.cycle(high(call + 1), first.wrapping_add(call), high(call));
            self.sides.call(cycle)?;
            image = self.sides.image();
        }
        check(!executes(&image), || "it does not end with R16's three calls more".into())
    }

    /// A swap in which the call after the read of one byte is low alone: of that byte the storage's is lost and both places
    /// end as the bus's. With the lost one put there, the rule holds.
    fn loses_a_byte(&mut self) -> Result<(), String> {
        let (Rule { block, .. }, at) = (self.start()?, self.rng.below(self.plan.length as usize));
        let (addr, offset) = block.places(at, self.plan.size);
        let lost = self.sides.tried().storage()[offset];
        self.sides.step(Step::Bus(addr as u16, !lost))?;
        let tried = self.sides.tried();
        let rule = Rule::new(&block, tried.bus(), tried.storage());
        self.cycles_but(2 * at as u64 + 1)?;
        self.sides.whole()?;
        let tried = self.sides.tried();
        check(rule.ended(tried.bus(), tried.storage()).is_err(), || "all bytes are exchanged in spite of it".into())?;
        check(tried.bus()[addr] == !lost, || "the bus has another byte than before where one is lost".into())?;
        let mut bus = tried.bus().to_vec();
        bus[addr] = lost;
        rule.ended(&bus, tried.storage()).map_err(|what| format!("not only the byte before it is lost: {what}"))
    }

    /// A swap from its start to its end.
    fn swap(&mut self) -> Result<(), String> {
        let rule = self.start()?;
        let length = rule.block.length;
        check(length == self.plan.length as usize, || format!("the length shows {length}"))?;
        let calls = self.cycles(&rule)?;
        let most = self.plan.turns().map(|(every, high)| (every * (length / (high / 2) + 2)) as u64);
        check(most.is_none_or(|most| calls <= most), || format!("it takes {calls} calls, more than {most:?}"))?;
        self.sides.whole()?;
        let tried = self.sides.tried();
        rule.ended(tried.bus(), tried.storage())
    }
}

/// Swaps at every size, or a brief part of them at the smallest, each from a seed of its own. At each size all have the same
/// memories, of any bytes, one after the other.
pub fn run(sides: &mut Sides, seed: u64, full: bool) -> Result<Met, String> {
    let (mut met, mut rng, mut size) = (Met::default(), Rng::new(seed), 0);
    let plans: Vec<Plan> = match full {
        true => SIZES.into_iter().flat_map(|size| Plan::all(size, &mut rng)).collect(),
        false => (0..BRIEF).map(|_| Plan::drawn(SIZES[2], &mut rng)).collect(),
    };
    for (at, plan) in plans.into_iter().enumerate() {
        if plan.size != size {
            size = plan.size;
            sides.begin(size, rng.word())?;
        }
        let mut run = Run { sides, met: &mut met, rng: Rng::new(list_seed(seed, at as u64)), plan };
        run.swap().map_err(|what| format!("swaps: from seed {seed}, run {at}, {}: {what}", plan.told()))?;
    }
    Ok(met)
}

/// Swaps with one call that is low alone, right after a byte's read: R16, and longer blocks at each size. Answers how many
/// there were.
pub fn lone(sides: &mut Sides, seed: u64) -> Result<u64, String> {
    let mut rng = Rng::new(seed);
    for (at, size) in (0..LONE).map(|at| (at, SIZES[(3 * at / LONE) as usize])) {
        if at.is_multiple_of(LONE / 3) {
            sides.begin(size, rng.word())?;
        }
        let length = if at == 0 { 1 } else { rng.pick(&[1, 2, 3, 40, 257]) };
        let plan = Plan::new(size, length, Kind::High);
        let mut run = Run { sides, met: &mut Met::default(), rng: Rng::new(list_seed(seed, at)), plan };
        let told = |what| format!("swaps: from seed {seed}, run {at} with a call low alone, {}: {what}", plan.told());
        run.loses_a_byte().map_err(told)?;
    }
    Ok(LONE)
}
