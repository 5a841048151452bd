use super::short::{Way, way};
use crate::calls::Call;
use crate::sides::{Image, Lent, number, register, set_number};
use ::reu::*;

/// Sets a flag of a byte or clears it.
fn flag(byte: &mut u8, flag: u8, on: bool) {
    *byte = if on { *byte | flag } else { *byte & !flag };
}

/// The short ways as a programmer would write them, on the bytes of an accepted image: what a call that takes one answers.
/// None where it takes none, and then nothing has changed.
pub fn answer(call: Call, lent: Lent) -> Option<u32> {
    let Lent { image, bus, storage } = lent;
    let image = image.first_chunk_mut()?;
    let way = way(call, image, bus, storage)?;
    Some(match call {
        Call::Read { addr } => read(image, addr & 0x1F).into(),
        Call::Write { addr, value } => {
            write(image, addr & 0x1F, value);
            0
        }
        Call::RunReuCycle { ba_high, cycle, ba_high_phi1, .. } => {
            let (ba_high, ba_high_phi1) = (ba_high != 0, ba_high_phi1 != 0);
            history(image, ba_high, ba_high_phi1);
            match way {
                Way::Idle => 0,
                Way::Hold => 1,
                _ => 1 + byte(way, image, bus, storage, cycle),
            }
        }
        Call::DebugRegister { index } => {
            let held = image[..REGISTER_COUNT].get(usize::try_from(index).unwrap_or(usize::MAX));
            held.copied().unwrap_or(0xFF).into()
        }
        Call::DmaActive => image[IMAGE_TRANSFER].into(),
        Call::StoragePresent => u32::from(image[IMAGE_FLAGS] & FLAG_ATTACHED != 0),
        Call::CapacityBytes if image[IMAGE_FLAGS] & FLAG_ATTACHED != 0 => size(image) as u32,
        Call::CapacityBytes => 0,
        _ => access(image),
    })
}

/// What is known of BA after a cycle.
fn history(image: &mut Image, ba_high: bool, ba_high_phi1: bool) {
    flag(&mut image[IMAGE_FLAGS], FLAG_BA_WAS_HIGH, ba_high_phi1);
    flag(&mut image[IMAGE_FLAGS], FLAG_LATE_FALL, ba_high_phi1 && !ba_high);
}

/// A granted cycle, and the byte or the half of a swap that it does: the marks that it gives.
fn byte(way: Way, image: &mut Image, bus: &mut [u8], storage: &mut [u8], cycle: u64) -> u32 {
    let count = number(&image[IMAGE_GRANTED_CYCLES..]) as u32;
    set_number(&mut image[IMAGE_GRANTED_CYCLES..], count.saturating_add(1));
    let addr = number(&image[IMAGE_C64_ADDRESS..IMAGE_EXPANSION_ADDRESS]);
    let offset = number(&image[IMAGE_EXPANSION_ADDRESS..IMAGE_REMAINING]) & (size(image) - 1);
    match way {
        Way::Store => storage[offset] = bus[addr],
        Way::Recall => {
            image[IMAGE_LATCH] = storage[offset];
            bus[addr] = storage[offset];
        }
        Way::SwapRead => {
            (image[IMAGE_LATCH], storage[offset]) = (storage[offset], bus[addr]);
            image[IMAGE_PHASE] = 1;
            flag(&mut image[IMAGE_TRANSFER_FLAGS], TRANSFER_ODD_PARITY, cycle & 1 != 0);
            return 0;
        }
        Way::SwapWrite => bus[addr] = image[IMAGE_LATCH],
        _ => {}
    }
    complete(image)
}

/// The counters one byte on, in the transfer and in registers 2 to 8, which have them in the same order: the marks.
fn complete(image: &mut Image) -> u32 {
    let flags = image[IMAGE_TRANSFER_FLAGS];
    image[IMAGE_PHASE] = 0;
    image[IMAGE_TRANSFER_FLAGS] = flags & !TRANSFER_FIRST_BYTE;
    let mut marks = 0;
    if flags & TRANSFER_FIX_C64 == 0 && step(&mut image[IMAGE_C64_ADDRESS..IMAGE_EXPANSION_ADDRESS]) {
        marks += PASSED_C64;
    }
    if flags & TRANSFER_FIX_EXPANSION == 0 && step(&mut image[IMAGE_EXPANSION_ADDRESS..IMAGE_REMAINING]) {
        marks += PASSED_EXPANSION;
    }
    let left = number(&image[IMAGE_REMAINING..IMAGE_LATCH]) as u32;
    set_number(&mut image[IMAGE_REMAINING..IMAGE_LATCH], left.wrapping_sub(1));
    image.copy_within(IMAGE_C64_ADDRESS..IMAGE_LATCH, register(C64_ADDRESS_LOW));
    marks
}

/// A field one more, its top to 0: whether it was at its top.
fn step(field: &mut [u8]) -> bool {
    let next = number(field) as u32 + 1;
    set_number(field, next);
    number(field) == 0
}

/// The size that an image sets.
fn size(image: &Image) -> usize {
    match image[IMAGE_MORE_FLAGS] & FLAG_SIZE {
        FLAG_SIZE_128K => SIZE_128K,
        FLAG_SIZE_256K => SIZE_256K,
        _ => SIZE_512K,
    }
}

/// The access of the next tick.
fn access(image: &Image) -> u32 {
    let refresh = image[IMAGE_MORE_FLAGS] & FLAG_REFRESH != 0;
    let kind = match (image[IMAGE_TRANSFER], image[IMAGE_TYPE], image[IMAGE_PHASE]) {
        (0, ..) => return 0,
        (_, RECALL, _) | (_, SWAP, 1) if !refresh => ACCESS_WRITE,
        _ => ACCESS_READ,
    };
    65_536 * kind + number(&image[IMAGE_C64_ADDRESS..IMAGE_EXPANSION_ADDRESS]) as u32
}

/// A register that is read, and what a read of STATUS clears.
fn read(image: &mut Image, index: u16) -> u8 {
    if index >= REGISTER_COUNT as u16 {
        return 0xFF;
    }
    let held = image[register(index)];
    match index {
        STATUS => {
            image[register(STATUS)] = held & STATUS_VERSION | held & 0x0F;
            flag(&mut image[IMAGE_FLAGS], FLAG_INTERRUPT, false);
            held
        }
        EXPANSION_ADDRESS_BANK => held | 0xF8,
        INTERRUPT_MASK => held | 0x1F,
        ADDRESS_CONTROL => held | 0x3F,
        _ => held,
    }
}

/// A register that is written, where that starts nothing.
fn write(image: &mut Image, index: u16, value: u8) {
    match index {
        COMMAND => {
            image[register(COMMAND)] = value;
            flag(&mut image[IMAGE_FLAGS], FLAG_ARMED, value & COMMAND_EXECUTE != 0);
        }
        C64_ADDRESS_LOW | C64_ADDRESS_HIGH => pair(image, IMAGE_SHADOW_C64, C64_ADDRESS_LOW, index, value),
        EXPANSION_ADDRESS_LOW | EXPANSION_ADDRESS_HIGH => {
            pair(image, IMAGE_SHADOW_EXPANSION, EXPANSION_ADDRESS_LOW, index, value)
        }
        EXPANSION_ADDRESS_BANK => {
            let value = value | 0xF8;
            image[register(EXPANSION_ADDRESS_BANK)] = value;
            image[IMAGE_SHADOW_EXPANSION + 2] = value;
        }
        TRANSFER_LENGTH_LOW | TRANSFER_LENGTH_HIGH => {
            pair(image, IMAGE_SHADOW_LENGTH, TRANSFER_LENGTH_LOW, index, value)
        }
        INTERRUPT_MASK => mask(image, value | 0x1F),
        ADDRESS_CONTROL => image[register(ADDRESS_CONTROL)] = value | 0x3F,
        _ => {}
    }
}

/// One byte of two that have a shadow at this place and the lower of their registers here: both are shown anew.
fn pair(image: &mut Image, shadow: usize, low: u16, index: u16, value: u8) {
    image[shadow + usize::from(index - low)] = value;
    image.copy_within(shadow..shadow + 2, register(low));
}

/// The interrupt mask, and the interrupt if it lets an event through: both have their bits at the same places.
fn mask(image: &mut Image, value: u8) {
    image[register(INTERRUPT_MASK)] = value;
    let events = image[register(STATUS)] & value & (STATUS_VERIFY_ERROR | STATUS_END_OF_BLOCK);
    if value & INTERRUPT_GLOBAL_ENABLE != 0 && events != 0 {
        image[register(STATUS)] |= STATUS_IRQ_PENDING;
        flag(&mut image[IMAGE_FLAGS], FLAG_INTERRUPT, true);
    }
}
