//! Remaining in two bytes, by request L3's words: what a pair of bytes says, told here once for all of the comparison, and
//! two parts of the run that are about it. The original has a number with more room, which `hosts/original` packs.

use crate::calls::{Call, Step, list_text};
use crate::compare::Pair;
use crate::generate::Generator;
use crate::rng::noise;
use crate::shrink::begin;
use crate::sides::{Image, STORAGE, number, places, set_number};
use reu::*;

/// What a pair of 0 means.
const FULL: u32 = 65_536;

/// The lengths of an image before: in release 0.1.0, and in 0.2.0 and 0.3.0.
pub const EARLIER: [usize; 2] = [34, 38];

/// Lengths of a block where the pair carries and at both ends, and the pair that the start of each leaves.
const BLOCKS: [(u32, [u8; 2]); 5] =
    [(1, [1, 0]), (255, [255, 0]), (256, [0, 1]), (65_535, [255, 255]), (65_536, [0, 0])];

/// How many bytes are left of an image's transfer. Without one it says 65,536, and means nothing.
pub fn remaining(image: &[u8]) -> u32 {
    match number(&image[IMAGE_REMAINING..IMAGE_LATCH]) as u32 {
        0 => FULL,
        left => left,
    }
}

/// Lays down how many bytes are left, 1 to 65,536.
pub fn set_remaining(image: &mut Image, left: u32) {
    assert!((1..=FULL).contains(&left), "{left} bytes cannot be left");
    set_number(&mut image[IMAGE_REMAINING..IMAGE_LATCH], left % FULL);
}

/// An image as 0.2.0 and 0.3.0 laid it down, with remaining in three bytes; without its last four bytes, the count, it is
/// 0.1.0's.
pub fn earlier(image: &Image) -> [u8; EARLIER[1]] {
    let full = image[IMAGE_TRANSFER] == 1 && remaining(image) == FULL;
    let (before, behind) = image.split_at(IMAGE_LATCH);
    [before, &[u8::from(full)], behind].concat().try_into().expect("one byte more")
}

/// A cycle with BA high.
fn cycle(number: u32) -> Step {
    Step::Call(Call::RunReuCycle { ba_high: 1, cycle: number.into(), ba_low: 0, ba_high_phi1: 1 })
}

/// Each of the 65,536 pairs once, in an image that is drawn, the four types in turn and no tail: opened and laid down again
/// by both sides, then as many ticks as complete a byte in any case. A storage's size has nothing to do with it and is the
/// original's. Answers how many pairs there were.
pub fn pairs(pair: &mut Pair, seed: u64) -> Result<u64, String> {
    let mut generator = Generator::at_size(seed, STORAGE);
    begin(pair);
    pair.step(Step::Memory(generator.seed()))?;
    let mut pairs = 0;
    for bytes in 0..=u16::MAX {
        let mut image = generator.transfer((bytes % 4) as u8);
        image[IMAGE_REMAINING..IMAGE_LATCH].copy_from_slice(&bytes.to_le_bytes());
        let done = opened(pair, image, bytes.into());
        done.map_err(|what| format!("remaining: from seed {seed}, pair {:?}: {what}", bytes.to_le_bytes()))?;
        pairs += 1;
    }
    pair.whole().map_err(|what| format!("remaining: from seed {seed}, after all pairs: {what}"))?;
    Ok(pairs)
}

/// One image on both sides. The byte of a verify is made equal, so that it goes on.
fn opened(pair: &mut Pair, image: Image, number: u32) -> Result<(), String> {
    let (addr, offset) = places(&image);
    let equal = (image[IMAGE_TYPE] == VERIFY).then(|| Step::Bus(addr as u16, pair.right.storage()[offset]));
    let read = Step::Call(Call::Read { addr: 0xDF00 + TRANSFER_LENGTH_LOW }); // which moves nothing
    // A refresh, the first phase of a swap, and the byte.
    let ticks = [1, 2, 3].map(|tick| Step::Call(Call::TickDma { cycle: (number + tick).into(), ba_low: 0 }));
    let calls = [read, cycle(number)].into_iter().chain(ticks);
    let steps: Vec<Step> = [Step::Image(image)].into_iter().chain(equal).chain(calls).collect();
    for (at, step) in steps.iter().enumerate() {
        let list = || list_text(&steps[..=at]);
        pair.step(*step).map_err(|what| format!("{what}; the last of these steps shows it:\n{}", list()))?;
    }
    let after = pair.tried.image();
    match after[IMAGE_TRANSFER] == 1 && remaining(&after) >= remaining(&image) {
        true => Err(format!("no byte is completed by these steps:\n{}", list_text(&steps))),
        false => Ok(()),
    }
}

/// Blocks of each length and each type from new, to the very end. Answers how many there were.
pub fn blocks(pair: &mut Pair) -> Result<u64, String> {
    let mut blocks = 0;
    for kind in [STORE, RECALL, SWAP, VERIFY] {
        for (length, bytes) in BLOCKS {
            let done = start(pair, kind, length).and_then(|()| block(pair, kind, length, bytes));
            done.map_err(|what| format!("remaining: in a block of {length} bytes, type {kind}: {what}"))?;
            blocks += 1;
        }
    }
    Ok(blocks)
}

/// A new controller with a command just started. The memories are any bytes, and equal where a verify looks.
fn start(pair: &mut Pair, kind: u8, length: u32) -> Result<(), String> {
    begin(pair);
    for call in [Call::New, Call::SetEnabled { enabled: 1 }] {
        pair.step(Step::Call(call))?;
    }
    let seeds = (crate::SEED, if kind == VERIFY { crate::SEED } else { !crate::SEED });
    for machine in [&mut *pair.tried, &mut *pair.right] {
        noise(machine.bus_mut(), seeds.0);
        noise(machine.storage_mut(), seeds.1);
    }
    let [low, high, ..] = length.to_le_bytes();
    let command = kind | COMMAND_FF00_DISABLE | COMMAND_EXECUTE;
    for (register, value) in [(TRANSFER_LENGTH_LOW, low), (TRANSFER_LENGTH_HIGH, high), (COMMAND, command)] {
        pair.step(Step::Call(Call::Write { addr: 0xDF00 + register, value }))?;
    }
    Ok(())
}

/// The command's pair at its start, and cycles to its end, which must come when every byte has had its own.
fn block(pair: &mut Pair, kind: u8, length: u32, bytes: [u8; 2]) -> Result<(), String> {
    let image = pair.tried.image();
    if image[IMAGE_REMAINING..IMAGE_LATCH] != bytes {
        return Err(format!("it starts with the pair {:?}, not {bytes:?}", &image[IMAGE_REMAINING..IMAGE_LATCH]));
    }
    let wanted = if kind == SWAP { 2 * length } else { length };
    let mut cycles = 0;
    while pair.tried.image()[IMAGE_TRANSFER] == 1 && cycles <= wanted {
        pair.step(cycle(cycles)).map_err(|what| format!("in cycle {cycles}: {what}"))?;
        cycles += 1;
    }
    match cycles == wanted {
        true => pair.whole(),
        false => Err(format!("it takes {cycles} cycles or more, not {wanted}")),
    }
}
