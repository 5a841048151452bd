//! The recorded list: what the original answered, and what it changed, call by call. The original has neither the count of
//! granted cycles nor the marks of an address that passes its top: they are recorded with it as `granted.rs` and `passed.rs`
//! have them, so that a host without the original still compares both. The marks stand apart, so that the answer is the
//! original's own. Nor has it a size to set: what `set_size` answers is `sizes.rs`'s. All that is recorded is at the
//! original's own size, and no other is set.
//!
//! A line is a step as `calls.rs` writes it; a call's line goes on with `= ANSWER`, with `+MARKS` if it has any, and with
//! what has changed: `N:BYTE` of the image, `bADDR:BYTE` of the bus, `sOFFSET:BYTE` of the storage. `sum BUS STORAGE` gives
//! both memories' sums.

use crate::calls::{Call, Step};
use crate::compare::list_seed;
use crate::generate::Generator;
use crate::passed::parted;
use crate::sides::{Machine, STORAGE, places};
use crate::sizes::BLANK;
use reu::IMAGE_GRANTED_CYCLES;

/// The lists of a record, one in four from any accepted images, and the steps of each.
const LISTS: u64 = 80;
const LIST: usize = 200;
/// The steps that follow an image, with it.
const FROM_IMAGE: usize = 10;

/// FNV-1a over words of 64 bits.
fn sum(bytes: &[u8]) -> u64 {
    let words = bytes.chunks_exact(8).map(|word| u64::from_le_bytes(word.try_into().expect("eight bytes")));
    words.fold(0xCBF2_9CE4_8422_2325, |sum, word| (sum ^ word).wrapping_mul(0x0100_0000_01B3))
}

fn sums(machine: &dyn Machine) -> String {
    format!("sum {:016x} {:016x}", sum(machine.bus()), sum(machine.storage()))
}

/// Does a step and tells it as a line of the list.
fn tell(machine: &mut dyn Machine, step: Step) -> String {
    let before = machine.image();
    let (addr, offset) = places(&before);
    let stored = |machine: &dyn Machine| machine.storage().get(offset).copied();
    let (bus, storage) = (machine.bus()[addr], stored(machine));
    let (mut line, answer) = (step.to_string(), machine.step(step));
    let (Step::Call(call), Some(answer)) = (step, answer) else { return line };
    let (answer, marks) = parted(call, answer);
    line += &format!(" = {answer}");
    if marks != 0 {
        line += &format!(" +{marks}");
    }
    for (at, byte) in machine.image().iter().enumerate().filter(|(at, byte)| before[*at] != **byte) {
        line += &format!(" {at}:{byte:02x}");
    }
    if machine.bus()[addr] != bus {
        line += &format!(" b{addr:04x}:{:02x}", machine.bus()[addr]);
    }
    if let (Some(byte), true) = (stored(machine), stored(machine) != storage) {
        line += &format!(" s{offset:05x}:{byte:02x}");
    }
    line
}

/// Plays the recorded list; the count of its calls, or the first line that this machine tells otherwise.
pub fn replay(machine: &mut dyn Machine, list: &str) -> Result<u64, String> {
    machine.load(&BLANK);
    let mut calls = 0;
    for (at, line) in list.lines().enumerate().filter(|(_, line)| !line.starts_with('#')) {
        let text = line.split(" = ").next().unwrap_or_default();
        let told = match Step::parse(text) {
            Some(step) => {
                calls += u64::from(matches!(step, Step::Call(_)));
                tell(machine, step)
            }
            None => sums(machine),
        };
        if told != line {
            return Err(format!("recorded line {}:\n  the original: {line}\n  here:         {told}", at + 1));
        }
        if !machine.guards_hold() {
            return Err(format!("recorded line {}: a byte beside a buffer has changed: {line}", at + 1));
        }
    }
    Ok(calls)
}

/// Records lists from new and from any accepted images.
pub fn record(machine: &mut dyn Machine, seed: u64) -> String {
    machine.load(&BLANK);
    let (mut text, mut calls) = (String::new(), 0);
    for list in 0..LISTS {
        let mut generator = Generator::at_size(list_seed(seed, list), STORAGE);
        let start = [Step::Memory(generator.seed()), Step::Call(Call::New)];
        for at in 0..LIST {
            let image = machine.image();
            let step = match list % 4 == 3 {
                _ if at < start.len() => start[at],
                true if at % FROM_IMAGE == 2 => Step::Image(generator.image()),
                true => generator.anything(&image),
                false => generator.next(&image),
            };
            calls += u64::from(matches!(step, Step::Call(_)));
            text += &format!("{}\n", tell(machine, step));
        }
        text += &format!("{}\n", sums(machine));
    }
    let how = format!("cargo run --release -p compare -- --seed {seed} --record FILE");
    format!(
        "# What the original answers to {calls} calls: made from its Rust, compiled unchanged, by\n\
         # `{how}`. src/record.rs says how a line is read.\n\
         # Image bytes from {IMAGE_GRANTED_CYCLES} on, the count of granted cycles, are src/granted.rs's, and +2, +4 and +6\n\
         # behind an answer, the marks of an address that passed its top, src/passed.rs's. What set_size answers is\n\
         # src/sizes.rs's; the original's only size, {STORAGE}, is the only one that is set.\n{text}"
    )
}
