//! The size of a storage, by request L4's words, told here once for all of the comparison: what an image says of it, STATUS
//! bit 4, what `set_size` answers and what it changes. The numbers are the request's and not the Rust crate's; nothing here
//! looks at what the library makes of them. Behind the rule stand the parts of the run that are about sizes alone.
//!
//! The original has one size, 524,288 bytes. For the two others there is no original: `reference.rs` runs it on a storage in
//! which the small one is repeated, and takes the rest from here.

use crate::calls::Call;
use crate::generate::Generator;
use crate::passed::completes_byte;
use crate::rng::{Rng, noise};
use crate::sessions::Desk;
use crate::sides::{IMAGE, Image, Machine, REFUSAL, number, register, set_number};
use reu::*;

/// The sizes, each at the place of its code in the image, bits 2-3 of byte 19.
pub const SIZES: [usize; 3] = [524_288, 262_144, 131_072];

/// No sizes: halves and doubles, neighbours, two bits where one should be, and what 32 bits would take for a size.
pub const NEAR: [u64; 19] = [
    0,
    1,
    65_536,
    131_071,
    131_073,
    196_608,
    262_143,
    262_145,
    393_216,
    524_287,
    524_289,
    786_432,
    1_048_576,
    131_072 + (1 << 32),
    262_144 + (1 << 32),
    524_288 + (1 << 32),
    1 << 32,
    1 << 63,
    524_288 + (1 << 63),
];

/// The chip-size mark, a bit of STATUS.
const MARK: u8 = 0x10;

/// An accepted image of zeros but for the mark: of 524,288 bytes, not attached.
pub const BLANK: Image = {
    let mut image = [0; IMAGE];
    image[IMAGE_REGISTERS + STATUS as usize] = MARK;
    image
};

/// The size that an image sets; none for the code that no size has.
pub fn size_of(image: &[u8]) -> Option<usize> {
    SIZES.get(usize::from(image[IMAGE_MORE_FLAGS] >> 2 & 3)).copied()
}

/// The mark that STATUS has at a size.
fn mark(size: usize) -> u8 {
    if size == 131_072 { 0 } else { MARK }
}

/// Whether STATUS has the mark of this size.
pub fn has_mark(image: &[u8], size: usize) -> bool {
    image[register(STATUS)] & MARK == mark(size)
}

/// The place of a size among the three, which is its code.
pub fn place(size: usize) -> usize {
    SIZES.iter().position(|known| *known == size).expect("one of the three sizes")
}

/// Lays a size down, with its mark.
pub fn lay_size(image: &mut Image, size: usize) {
    image[IMAGE_MORE_FLAGS] = (image[IMAGE_MORE_FLAGS] & 3) | ((place(size) as u8) << 2);
    image[register(STATUS)] = (image[register(STATUS)] & !MARK) | mark(size);
}

/// The refusal number of setting a size, 0 if it is accepted: another size comes first.
pub fn refused_size(size: u64, attached: bool) -> u32 {
    match SIZES.iter().any(|known| *known as u64 == size) {
        false => 5,
        true if attached => 6,
        true => 0,
    }
}

/// The size after a call on an accepted image: 524,288 at new, what is set where that is accepted, as it was for everything
/// else.
pub fn size_after(call: Call, before: &Image) -> usize {
    let attached = before[IMAGE_FLAGS] & 0x04 != 0;
    match call {
        Call::New => SIZES[0],
        Call::SetSize { size } if refused_size(size, attached) == 0 => size as usize,
        _ => size_of(before).expect("an accepted image has a size"),
    }
}

/// What the original's answer is at this size: STATUS has its mark, and the capacity is the size. At 524,288 bytes the
/// answer is the original's own.
pub fn answer_at(size: usize, call: Call, answer: u32) -> u32 {
    let marked = answer & !u32::from(MARK) | u32::from(mark(size));
    match call {
        _ if size == SIZES[0] => answer,
        Call::Read { addr } if addr & 0x1F == 0 => marked,
        Call::DebugRegister { index: 0 } => marked,
        Call::CapacityBytes if answer != 0 => size as u32,
        _ => answer,
    }
}

/// What calls can meet at a size; a full run must have met each at each.
const MET: [&str; 6] = [
    "calls",
    "settings of it",
    "settings refused by 5",
    "settings refused by 6",
    "bytes over the end of the storage",
    "bytes over $FFFFFF",
];

/// How often a run has met each, at each size.
#[derive(Clone, Copy, Default)]
pub struct AtSizes(pub [[u64; MET.len()]; SIZES.len()]);

impl AtSizes {
    /// Looks at a call before it is made.
    pub fn look(&mut self, machine: &mut dyn Machine, call: Call) {
        let before = machine.image();
        let size = size_of(&before).expect("an accepted image has a size");
        let at = place(size);
        self.0[at][0] += 1;
        if let Call::SetSize { size } = call {
            match refused_size(size, before[IMAGE_FLAGS] & 0x04 != 0) {
                0 => self.0[place(size as usize)][1] += 1,
                5 => self.0[at][2] += 1,
                _ => self.0[at][3] += 1,
            }
        }
        let expansion = number(&before[IMAGE_EXPANSION_ADDRESS..IMAGE_REMAINING]);
        let at_end = (expansion + 1).is_multiple_of(size) && before[IMAGE_TRANSFER_FLAGS] & 0x02 == 0;
        if call.lends_bus() && at_end && completes_byte(machine, call, &before) {
            self.0[at][if expansion == 0xFF_FFFF { 5 } else { 4 }] += 1;
        }
    }

    /// What it has met, a line for each size.
    pub fn told(&self) -> Vec<String> {
        let counts = |met: [u64; MET.len()]| {
            let told: Vec<String> = met.iter().zip(MET).map(|(count, what)| format!("{count} {what}")).collect();
            told.join(", ")
        };
        SIZES.iter().zip(self.0).map(|(size, met)| format!("at {size} bytes: {}", counts(met))).collect()
    }

    /// What it has not met.
    pub fn missing(&self) -> Vec<String> {
        let each =
            SIZES.iter().zip(self.0).flat_map(|(size, met)| MET.into_iter().zip(met).map(move |met| (size, met)));
        each.filter(|(_, (_, count))| *count == 0).map(|(size, (what, _))| format!("{what} at {size}")).collect()
    }
}

/// Images that are drawn, and that every size is tried on.
const IMAGES: usize = 200;

/// STATUS and byte 19 of a new controller, and at each size, as the request has them.
const NEW: (u8, u8) = (0x10, 0x00);
const AT_SIZE: [(usize, (u8, u8)); 3] = [(524_288, (0x10, 0x00)), (262_144, (0x10, 0x04)), (131_072, (0x00, 0x08))];

/// The byte that is stored on the way.
const STORED: u8 = 0xA5;

/// The bytes of a block that goes over an end, its C64 address, and how many of them lie before the end.
const BLOCK: usize = 4;
const BEFORE: usize = 2;
const C64: usize = 0x2000;

fn check(holds: bool, what: impl FnOnce() -> String) -> Result<(), String> {
    if holds { Ok(()) } else { Err(what()) }
}

/// Sizes that are tried: the three, near misses, every single bit, each size with a bit more, and any numbers.
fn sizes_tried(rng: &mut Rng) -> Vec<u64> {
    let sizes = SIZES.map(|size| size as u64);
    let (bits, any) = ((0..64).map(|bit| 1 << bit), [(); 4].map(|()| rng.word()));
    let with_a_bit = sizes.into_iter().flat_map(|size| (0..64).map(move |bit| size | 1 << bit));
    sizes.into_iter().chain(NEAR).chain(bits).chain(with_a_bit).chain(any).collect()
}

/// Every such size on any accepted images: what is answered, and that nothing else of the image changes. Answers how many
/// settings there were.
fn settings(machine: &mut dyn Machine, seed: u64) -> Result<u64, String> {
    let (mut rng, mut generator, mut settings) = (Rng::new(seed), Generator::new(seed), 0);
    for _ in 0..IMAGES {
        let image = generator.image();
        for size in sizes_tried(&mut rng) {
            let mut right = image;
            let refused = refused_size(size, image[IMAGE_FLAGS] & 0x04 != 0);
            if refused == 0 {
                lay_size(&mut right, size as usize);
            }
            machine.load(&image);
            let answer = machine.call(Call::SetSize { size });
            let (told, left) = (|what: String| format!("set_size {size} {what}; image {image:02x?}"), machine.image());
            let wrong = || told(format!("answers {answer}, not refusal {refused}"));
            check(answer == refused * REFUSAL, wrong)?;
            check(left == right, || told(format!("leaves other bytes; they are {left:02x?}")))?;
            check(machine.guards_hold(), || told("changes a byte beside a buffer".into()))?;
            settings += 1;
        }
    }
    Ok(settings)
}

/// What a controller goes through with a size: each call, what it answers, STATUS and byte 19 after it, and the capacity.
fn course(size: usize, mine: (u8, u8)) -> Vec<(Call, u32, (u8, u8), u32)> {
    let (status, more) = mine;
    let (ended, bytes) = ((status | 0x40, more), size as u32);
    let set = |size: usize| Call::SetSize { size: size as u64 };
    let enabled = |enabled| Call::SetEnabled { enabled };
    let write = |register: u16, value| Call::Write { addr: 0xDF00 + register, value };
    let (read, shown) = (Call::Read { addr: 0xDF00 }, Call::DebugRegister { index: 0 });
    let cycle = Call::RunReuCycle { ba_high: 1, cycle: 0, ba_low: 0, ba_high_phi1: 1 };
    let reset = Call::Reset { hard_reset: 1 };
    let before = [(Call::New, 0, NEW), (set(size), 0, mine), (shown, status.into(), mine), (read, status.into(), mine)];
    let detached = [(reset, 0, mine), (enabled(0), 0, mine), (write(1, 0x90), 0, mine), (set(size), 0, mine)];
    let attached = [(enabled(1), 0, mine), (set(size), 6 * REFUSAL, mine), (set(size + 1), 5 * REFUSAL, mine)];
    let started = [(write(7, 1), 0, mine), (write(8, 0), 0, mine), (write(1, 0x90), 0, mine)];
    let stored = [(cycle, 1, ended), (shown, ended.0.into(), ended), (read, ended.0.into(), mine), (reset, 0, mine)];
    let later = [(enabled(0), 0, mine), (enabled(1), 0, mine), (set(SIZES[0]), 6 * REFUSAL, mine)];
    let without = before.into_iter().chain(detached).map(|(call, answer, bytes)| (call, answer, bytes, 0));
    let with = attached.into_iter().chain(started).chain(stored).chain(later);
    let with = with.map(|(call, answer, left)| (call, answer, left, bytes));
    without.chain(with).chain([(Call::New, 0, NEW, 0)]).collect()
}

/// One size from new, through all that keeps it, to new. The storage is cleared where it is attached, and keeps the one byte
/// that is stored.
fn kept(machine: &mut dyn Machine, size: usize, mine: (u8, u8)) -> Result<(), String> {
    machine.load(&BLANK);
    machine.bus_mut()[0] = STORED;
    let mut storage = vec![0; size];
    for (call, right, left, capacity) in course(size, mine) {
        if matches!(call, Call::SetEnabled { enabled: 1 }) && machine.call(Call::StoragePresent) == 0 {
            noise(machine.storage_mut(), size as u64);
        }
        let answer = machine.call(call);
        check(answer == right, || format!("{call} answers {answer}, not {right}"))?;
        let image = machine.image();
        let found = (image[register(STATUS)], image[IMAGE_MORE_FLAGS]);
        check(found == left, || format!("STATUS and byte 19 are {found:02x?} after {call}, not {left:02x?}"))?;
        let found = machine.call(Call::CapacityBytes);
        check(found == capacity, || format!("the capacity is {found} after {call}, not {capacity}"))?;
        storage[0] = if matches!(call, Call::RunReuCycle { .. }) { STORED } else { storage[0] };
        check(capacity == 0 || machine.storage() == storage, || format!("the storage has other bytes after {call}"))?;
    }
    Ok(())
}

/// Bus and storage after a block of this type from these addresses.
fn moved(kind: u8, start: usize, bus: &[u8], storage: &[u8]) -> (Vec<u8>, Vec<u8>) {
    let (mut bus, mut storage) = (bus.to_vec(), storage.to_vec());
    for at in 0..BLOCK {
        let (addr, offset) = (C64 + at, (start + at) % storage.len());
        match kind {
            STORE => storage[offset] = bus[addr],
            RECALL => bus[addr] = storage[offset],
            SWAP => std::mem::swap(&mut bus[addr], &mut storage[offset]),
            _ => {}
        }
    }
    (bus, storage)
}

/// A controller with this size, its storage attached, and memories of any bytes; equal where a verify looks.
fn ready<'a>(machine: &'a mut dyn Machine, size: usize, kind: u8, start: usize) -> Result<Desk<'a>, String> {
    let desk = Desk::new(machine);
    let calls = [Call::SetSize { size: size as u64 }, Call::SetEnabled { enabled: 1 }];
    check(calls.into_iter().all(|call| desk.machine.call(call) == 0), || "the size is refused".into())?;
    check(desk.machine.storage().len() == size, || "the image has another size than was set".into())?;
    noise(desk.machine.bus_mut(), crate::SEED);
    noise(desk.machine.storage_mut(), !crate::SEED);
    if kind == VERIFY {
        for at in 0..BLOCK {
            desk.machine.bus_mut()[C64 + at] = desk.machine.storage()[(start + at) % size];
        }
    }
    Ok(desk)
}

/// One block over an end, with every cycle granted: which bytes it moves, that only $FFFFFF is reported as passed, and that
/// the address goes on with its 24 bits.
fn wrap(machine: &mut dyn Machine, size: usize, kind: u8, start: usize) -> Result<(), String> {
    let mut desk = ready(machine, size, kind, start)?;
    let (bus, storage) = moved(kind, start, desk.machine.bus(), desk.machine.storage());
    desk.program(C64 as u16, 0, BLOCK as u16);
    // The address comes by the image: a write of the bank sets its upper bits, which only counters and Autoload leave 0.
    let mut image = desk.machine.image();
    set_number(&mut image[register(EXPANSION_ADDRESS_LOW)..=register(EXPANSION_ADDRESS_BANK)], start as u32);
    desk.machine.load(&image);
    desk.write(1, 0x90 | kind);
    let phases = if kind == SWAP { 2 } else { 1 };
    for cycle in 0..BLOCK * phases {
        let passes = start + cycle / phases == 0xFF_FFFF && cycle % phases == phases - 1;
        let (answer, right) = (desk.cycle(1, 1), 1 + 4 * u32::from(passes));
        check(answer == right, || format!("cycle {cycle} answers {answer}, not {right}"))?;
    }
    check(desk.machine.bus() == bus, || "the bus has other bytes".into())?;
    check(desk.machine.storage() == storage, || "the storage has other bytes".into())?;
    let (shown, read) = (desk.word(4) + 65_536 * desk.shown(6), desk.read(0xDF06));
    check(read == desk.shown(6) | 0xF8, || format!("the bank reads {read:02x} at the end"))?;
    let right = (start + BLOCK) as u32 & 0xFF_FFFF;
    check(shown == right, || format!("the expansion address is {shown:06x} at the end, not {right:06x}"))?;
    let status = desk.shown(0);
    check(status == 0x40 | u32::from(mark(size)), || format!("STATUS is {status:02x} at the end"))
}

/// Blocks of each type over the first end of the storage, a later one, and $FFFFFF. Answers how many there were.
fn wraps(machine: &mut dyn Machine, size: usize) -> Result<u64, String> {
    let (mut blocks, ends) = (0, [size, 5 * size, 1 << 24]);
    for (kind, end) in [STORE, RECALL, SWAP, VERIFY].into_iter().flat_map(|kind| ends.map(|end| (kind, end))) {
        let done = wrap(machine, size, kind, end - BEFORE);
        done.map_err(|what| format!("a block of type {kind} over 0x{end:06x}: {what}"))?;
        blocks += 1;
    }
    Ok(blocks)
}

/// All that is about sizes alone and needs no original. Answers how many settings and blocks there were.
pub fn run(machine: &mut dyn Machine, seed: u64) -> Result<(u64, u64), String> {
    let settings = settings(machine, seed).map_err(|what| format!("sizes: from seed {seed}: {what}"))?;
    let mut blocks = 0;
    for (size, mine) in AT_SIZE {
        let told = |what: String| format!("sizes: at {size} bytes: {what}");
        kept(machine, size, mine).map_err(told)?;
        blocks += wraps(machine, size).map_err(told)?;
    }
    Ok((settings, blocks))
}
