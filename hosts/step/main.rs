//! Runs cycles through the step over a lent controller, or through the original's, and checks what they did.
//!
//!     step SIDE WORK COUNT    prints how many cycles were run, for callgrind to count; the sides are library and original
//!     step times TURNS        times both sides in this process, in turns, and prints the ratio with its spread
//!
//! COUNT is the cycles of idle work, and the bytes of a transfer: below 64,512, and more than 256 to reach the tops.
//! tools/count-step compiles and runs this.

#[path = "../bench/src/clock.rs"]
mod clock;
mod common;
mod sides;

use common::constants::{BUS_SIZE, STORAGE_SIZE};
use common::{bits, screen, screen::Ba};
use sides::{Lent, Ran};

/// Where a block begins on both sides, and how many steps report that the C64 address and the expansion address passed its
/// top.
struct Place {
    c64: u16,
    expansion: u32,
    reported: (u64, u64),
}

const BELOW: Place = Place { c64: 0x0400, expansion: 0xFA_0000, reported: (0, 0) };
const OVER_BOTH: Place = Place { c64: 0xFF00, expansion: 0xFF_FF80, reported: (1, 1) };
const OVER_C64: Place = Place { expansion: 0xFA_0000, reported: (1, 0), ..OVER_BOTH };

/// A cycle's flag: the CPU has the bus, or is held.
const CPU: u32 = 0;
const HELD: u32 = 1;

/// COMMANDs: one that starts nothing, and two transfers.
const IDLE: u8 = 0x10;
const STORE: u8 = 0x90;
const SWAP: u8 = 0x92;

type Side = fn(Lent) -> Ran;

fn lent(place: &Place, count: u32, command: u8, inputs: &[Ba]) -> Lent {
    let ([c64_low, c64_high], [low, high, bank, _]) = (place.c64.to_le_bytes(), place.expansion.to_le_bytes());
    let [length_low, length_high, ..] = count.to_le_bytes();
    // More than any of the transfers needs.
    let (expected, times) = if command == IDLE { (CPU, 1) } else { (HELD, 3) };
    Lent {
        bus: filled(),
        storage: vec![0xEE; STORAGE_SIZE].into(), // enabling clears it
        registers: [c64_low, c64_high, low, high, bank, length_low, length_high],
        inputs: inputs.iter().map(bits).collect(),
        command,
        expected,
        limit: times * u64::from(count),
    }
}

/// A bus of which no byte is 0, as the storage's are.
fn filled() -> Box<[u8; BUS_SIZE]> {
    let bytes: Box<[u8]> = (0..BUS_SIZE).map(|at| 1 + (at % 251) as u8).collect();
    bytes.try_into().expect("so many bytes")
}

/// What the memories must be after a transfer: on the storage's side the bus's bytes, on the bus's side zeros if swapped.
fn after(place: &Place, count: usize, swapped: bool) -> (Vec<u8>, Vec<u8>) {
    let (mut bus, mut storage) = (filled().to_vec(), vec![0; STORAGE_SIZE]);
    for at in 0..count {
        let byte = &mut bus[(usize::from(place.c64) + at) % BUS_SIZE];
        storage[(place.expansion as usize + at) % STORAGE_SIZE] = *byte;
        if swapped {
            *byte = 0;
        }
    }
    (bus, storage)
}

/// Runs some work on a side and checks it. Answers the cycles, and the nanoseconds that they and the start took.
fn run(side: Side, work: &str, count: u32) -> (u64, f64) {
    let (high, screen) = (vec![Ba::HIGH], screen::frame());
    let (place, command, inputs) = match work {
        "idle" => (BELOW, IDLE, high),
        "store" => (BELOW, STORE, high),
        "swap" => (BELOW, SWAP, high),
        "swap-under-ba" => (BELOW, SWAP, screen),
        "store-over-both" => (OVER_BOTH, STORE, high),
        "swap-over-both" => (OVER_BOTH, SWAP, screen),
        "swap-over-c64" => (OVER_C64, SWAP, high),
        _ => panic!("{work} is no work"),
    };
    let (idle, swaps, under_ba) = (command == IDLE, command == SWAP, inputs.len() > 1);
    let lent = lent(&place, count, command, &inputs);
    let start = clock::nanoseconds();
    let (cycles, reported, memories) = side(lent);
    let spent = clock::nanoseconds() - start;
    let least = if swaps { 2 } else { 1 } * u64::from(count);
    assert!(cycles == least || cycles > least && under_ba, "{cycles} cycles for {count}");
    let reported = reported.unwrap_or(place.reported);
    assert!(reported == place.reported, "{reported:?} steps reported the marks, not {:?}", place.reported);
    let moved = if idle { 0 } else { count as usize };
    assert!(memories == after(&place, moved, swaps), "bus or storage is not as it must be");
    (cycles, spent)
}

/// What is timed, and the counts of the two runs.
const TIMED: [(&str, u32, u32); 4] =
    [("idle", 5_000, 1_005_000), ("store", 500, 60_500), ("swap", 500, 60_500), ("swap-under-ba", 500, 60_500)];

/// Nanoseconds of one cycle, without the start.
fn per_cycle(side: Side, (work, count, greater): (&str, u32, u32)) -> f64 {
    let ((fewer, before), (more, after)) = (run(side, work, count), run(side, work, greater));
    (after - before) / (more - fewer) as f64
}

/// Sorts, then gives the median, the least and the greatest.
fn spread(mut numbers: Vec<f64>) -> (f64, f64, f64) {
    numbers.sort_by(f64::total_cmp);
    (numbers[numbers.len() / 2], numbers[0], numbers[numbers.len() - 1])
}

fn times(turns: usize) {
    println!("processor time per cycle in the loop, in {turns} turns");
    for work in TIMED {
        let turn = |number| {
            let before = (number % 2 == 0).then(|| per_cycle(sides::library, work));
            let original = per_cycle(sides::original, work);
            (before.unwrap_or_else(|| per_cycle(sides::library, work)), original)
        };
        let times: Vec<(f64, f64)> = (0..turns).map(turn).collect();
        let (library, ..) = spread(times.iter().map(|(library, _)| *library).collect());
        let (original, ..) = spread(times.iter().map(|(_, original)| *original).collect());
        let (ratio, least, greatest) = spread(times.iter().map(|(library, original)| library / original).collect());
        println!("{:24}{library:>9.1} ns{original:>9.1} ns   {ratio:.2} ({least:.2} to {greatest:.2})", work.0);
    }
}

fn main() {
    let words: Vec<String> = std::env::args().skip(1).collect();
    let sides: [(&str, Side); 2] = [("library", sides::library), ("original", sides::original)];
    match &words.iter().map(String::as_str).collect::<Vec<&str>>()[..] {
        ["times", turns] => times(turns.parse().expect("a number of turns")),
        [side, work, count] => {
            let (_, side) = sides.into_iter().find(|(name, _)| name == side).expect("library or original");
            println!("{}", run(side, work, count.parse().expect("a number of cycles or bytes")).0);
        }
        _ => panic!("step SIDE WORK COUNT | step times TURNS"),
    }
}
