//! Random operations on both sides: the step over a lent controller with the calls around it, and the original. After each the
//! images must be equal but for the count of granted cycles, which the original has not, and a step's flag must be the original's
//! answer; at the end the memories must be equal. Many steps find the controller at rest, where the step has its short way. The
//! seeds are the same in every run.

#[allow(dead_code)] // hosts/compare uses all of it
#[path = "../compare/src/rng.rs"]
mod rng;

use crate::common::constants::*;
use crate::common::screen::Ba;
use crate::lines;
use crate::rule::Line;
use crate::rule::Operation::{self, *};
use original::machine::Machine;
use rng::Rng;

const RUNS: u64 = 3000;
const OPERATIONS: usize = 80;
/// One in so many lists is also spoilt, in each way.
const SPOILT: u64 = 20;

/// The size of the storage is the one whose code is 0, as in the original's images.
const COMPARED: usize = IMAGE_GRANTED_CYCLES;

fn drawn_ba(rng: &mut Rng) -> Ba {
    let [high, low, high_phi1] = [0; 3].map(|_| u32::from(rng.one_in(2)));
    Ba { high, low, high_phi1 }
}

fn drawn(rng: &mut Rng, ba: Ba) -> Operation {
    match rng.below(17) {
        0 => Write(COMMAND, COMMAND_EXECUTE | COMMAND_FF00_DISABLE | rng.byte()),
        1 => Write(COMMAND, rng.byte()),
        2 => Write(rng.below(REGISTER_COUNT) as u16, rng.byte()),
        3 => Write(TRANSFER_LENGTH_HIGH, 0),
        4 => Write(TRANSFER_LENGTH_LOW, 1 + rng.below(3) as u8),
        5 => Ff00,
        6 => Enable(!rng.one_in(4)),
        7 | 8 => Tick(ba),
        _ => Cycle(ba),
    }
}

/// Enabled, and a short block. BA stays for some operations as it is.
fn operations(rng: &mut Rng) -> Vec<Operation> {
    let mut all = vec![Enable(true), Write(TRANSFER_LENGTH_HIGH, 0), Write(TRANSFER_LENGTH_LOW, 2)];
    let mut ba = drawn_ba(rng);
    all.extend((0..OPERATIONS).map(|_| {
        if rng.one_in(2) {
            ba = drawn_ba(rng);
        }
        drawn(rng, ba)
    }));
    all
}

fn bus_of(seed: u64) -> Vec<u8> {
    let mut bus = vec![0; BUS_SIZE];
    rng::noise(&mut bus, seed);
    bus
}

/// An operation on the original, and its answer; a call's is 0.
fn answered(machine: &mut Machine, operation: Operation, cycle: u64) -> u32 {
    match operation {
        Cycle(Ba { high, low, high_phi1 }) => machine.run_reu_cycle(high, cycle, low, high_phi1),
        Tick(ba) => machine.tick_dma(cycle, ba.low),
        Write(register, value) => machine.write(0xDF00 + register, value),
        Ff00 => machine.trigger_ff00(),
        Enable(on) => machine.set_enabled(u32::from(on)),
    }
}

/// What a cycle finds: rest, and how BA goes there from one cycle to the next and whether it falls late; no transfer, but a
/// terminal pair or a delay; or a transfer.
#[derive(Clone, Copy, PartialEq, Debug)]
enum Found {
    Rest { was_high: bool, high_phi1: bool, late: bool },
    LeftOver,
    Transfer,
}

fn found(image: &[u8; IMAGE_SIZE], ba: Ba) -> Found {
    let flag = |bit| image[IMAGE_FLAGS] & bit != 0;
    if image[IMAGE_TRANSFER] != 0 {
        Found::Transfer
    } else if flag(FLAG_TERMINAL_WRITE) || image[IMAGE_DELAY] != 0 {
        Found::LeftOver
    } else {
        let high_phi1 = ba.high_phi1 != 0;
        Found::Rest { was_high: flag(FLAG_BA_WAS_HIGH), high_phi1, late: high_phi1 && ba.high == 0 }
    }
}

/// What the library made of a list: its log, and the memories.
struct Left<'a> {
    log: Vec<Line>,
    bus: Vec<u8>,
    storage: &'a mut [u8],
}

fn left<'a>(operations: &[Operation], seed: u64, storage: &'a mut [u8]) -> Left<'a> {
    let mut bus = bus_of(seed);
    let log = lines(operations, &mut bus, storage);
    Left { log, bus, storage }
}

/// Holds it to the original. Answers what the cycles found, or where the sides differ.
fn judged(operations: &[Operation], seed: u64, left: &Left) -> Result<Vec<Found>, String> {
    let mut machine = Machine::default();
    machine.bus_mut().copy_from_slice(&bus_of(seed));
    let mut all = vec![];
    for (at, (operation, line)) in operations.iter().zip(&left.log).enumerate() {
        if let Cycle(ba) = operation {
            all.push(found(&machine.image(), *ba));
        }
        let answer = answered(&mut machine, *operation, at as u64);
        if answer != u32::from(line.flag) || machine.image()[..COMPARED] != line.image[..COMPARED] {
            return Err(format!("list {seed}, operation {at}"));
        }
    }
    if machine.bus() != left.bus || machine.storage() != left.storage {
        return Err(format!("list {seed}: the memories"));
    }
    Ok(all)
}

/// The same with another level of BA at PHI1 in the first cycle.
fn with_another_level(operations: &[Operation]) -> Vec<Operation> {
    let mut changed = operations.to_vec();
    let first = changed.iter_mut().find_map(|one| if let Cycle(ba) = one { Some(ba) } else { None });
    first.expect("a cycle").high_phi1 ^= 1;
    changed
}

/// A right result with one thing wrong must not pass.
fn spoilt(operations: &[Operation], seed: u64, storage: &mut [u8]) {
    let noticed = |left: &Left| assert!(judged(operations, seed, left).is_err(), "list {seed}: not noticed");
    noticed(&left(&with_another_level(operations), seed, storage));
    let at = Rng::new(seed).below(BUS_SIZE);
    let spoils: [fn(&mut Left, usize); 4] = [
        |left, at| left.log[at % OPERATIONS].flag ^= true,
        |left, at| left.log[at % OPERATIONS].image[at % COMPARED] ^= 1,
        |left, at| left.bus[at] ^= 1,
        |left, at| left.storage[at] ^= 1,
    ];
    for spoil in spoils {
        let mut wrong = left(operations, seed, storage);
        spoil(&mut wrong, at);
        noticed(&wrong);
    }
}

fn shown(all: &[Found], kind: Found) {
    let count = all.iter().filter(|one| **one == kind).count();
    assert!(count > 0, "no cycle found this: {kind:?}");
    println!("{count:8} found {kind:?}");
}

pub fn compared(storage: &mut [u8]) {
    let mut all = vec![];
    for seed in 0..RUNS {
        let list = operations(&mut Rng::new(seed));
        let cycles = judged(&list, seed, &left(&list, seed, storage));
        all.extend(cycles.unwrap_or_else(|at| panic!("the sides differ: {at}")));
        if seed % SPOILT == 0 {
            spoilt(&list, seed, storage);
        }
    }
    println!("{RUNS} lists beside the original, {} spoilt in five ways; of {} cycles", RUNS / SPOILT, all.len());
    for was_high in [false, true] {
        for (high_phi1, late) in [(false, false), (true, false), (true, true)] {
            shown(&all, Found::Rest { was_high, high_phi1, late });
        }
    }
    shown(&all, Found::LeftOver);
    shown(&all, Found::Transfer);
}
