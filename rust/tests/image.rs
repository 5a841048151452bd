//! The named places of an image hold what their names say.

use reu::*;
use std::ops::Range;

/// An enabled machine with a block at C64 $1234, expansion $FD6789, and COMMAND written.
fn commanded(length: u16, control: u8, command: u8) -> Machine {
    let mut machine = Machine::new();
    machine.set_enabled(true);
    let [low, high] = length.to_le_bytes();
    let values = [
        (C64_ADDRESS_LOW, 0x34),
        (C64_ADDRESS_HIGH, 0x12),
        (EXPANSION_ADDRESS_LOW, 0x89),
        (EXPANSION_ADDRESS_HIGH, 0x67),
        (EXPANSION_ADDRESS_BANK, 0x05),
        (TRANSFER_LENGTH_LOW, low),
        (TRANSFER_LENGTH_HIGH, high),
        (INTERRUPT_MASK, 0x00),
        (ADDRESS_CONTROL, control),
        (COMMAND, command),
    ];
    for (register, value) in values {
        machine.write(0xDF00 + register, value);
    }
    machine
}

/// The number that a field holds; it reaches up to the next place.
fn number(machine: &Machine, field: Range<usize>) -> usize {
    machine.image()[field].iter().rev().fold(0, |number, &byte| number * 256 + byte as usize)
}

/// The papers' own numbers, which stand nowhere else in these tests: elsewhere a place is called by its name.
#[test]
fn places() {
    let names = [IMAGE_TYPE, IMAGE_REMAINING, IMAGE_LATCH, IMAGE_TRANSFER_FLAGS, IMAGE_GRANTED_CYCLES, IMAGE_SIZE];
    assert_eq!(names, [22, 29, 31, 32, 33, 37]);
    let mut machine = commanded(0x0321, 0x00, 0x92);
    machine.storage_mut()[0xFD_678A % STORAGE_SIZE] = 0x5A;
    assert!([1, 2, 3].into_iter().all(|cycle| machine.run_reu_cycle(true, cycle, false, true).busy));
    // One byte is swapped, and the next was read in an odd cycle.
    assert_eq!(machine.image()[29..=30], [0x20, 0x03]);
    assert_eq!(machine.image()[31..=32], [0x5A, TRANSFER_ODD_PARITY]);
    assert_eq!(machine.image()[33..=36], [3, 0, 0, 0]);
    machine.set_enabled(false);
    assert_eq!(machine.image()[22..=32], [0; 11]);
    assert_eq!(machine.image()[33..=36], [3, 0, 0, 0]);
}

#[test]
fn numbers() {
    let mut machine = commanded(0x0321, 0x00, 0x92);
    assert_eq!(number(&machine, IMAGE_SHADOW_C64..IMAGE_SHADOW_EXPANSION), 0x1234);
    assert_eq!(number(&machine, IMAGE_SHADOW_EXPANSION..IMAGE_SHADOW_LENGTH), 0xFD_6789);
    assert_eq!(number(&machine, IMAGE_SHADOW_LENGTH..IMAGE_FLAGS), 0x0321);
    let held: Vec<u8> = (0..REGISTER_COUNT as u64).map(|index| machine.debug_register(index)).collect();
    assert_eq!(machine.image()[IMAGE_REGISTERS..IMAGE_SHADOW_C64], held);
    machine.storage_mut()[0xFD_6789 % STORAGE_SIZE] = 0x5A;
    machine.tick_dma(0, false);
    machine.tick_dma(1, false);
    assert_eq!(number(&machine, IMAGE_C64_ADDRESS..IMAGE_EXPANSION_ADDRESS), 0x1235);
    assert_eq!(number(&machine, IMAGE_EXPANSION_ADDRESS..IMAGE_REMAINING), 0xFD_678A);
    assert_eq!(number(&machine, IMAGE_REMAINING..IMAGE_LATCH), 0x0320);
    assert_eq!(number(&machine, IMAGE_LATCH..IMAGE_TRANSFER_FLAGS), 0x5A);
}

#[test]
fn type_and_phase() {
    for (place, transfer_type) in [STORE, RECALL, SWAP, VERIFY].into_iter().enumerate() {
        let command = transfer_type | COMMAND_FF00_DISABLE | COMMAND_EXECUTE;
        let machine = commanded(2, 0x00, command);
        assert_eq!(machine.image()[IMAGE_TRANSFER..=IMAGE_PHASE], [1, place as u8, 0]);
    }
    let mut swap = commanded(2, 0x00, 0x92);
    swap.tick_dma(0, false);
    assert_eq!(swap.image()[IMAGE_TRANSFER..=IMAGE_PHASE], [1, SWAP, 1]);
    let idle = commanded(2, 0x00, 0x12);
    assert!(idle.image()[IMAGE_TRANSFER..IMAGE_GRANTED_CYCLES].iter().all(|&byte| byte == 0));
}

#[test]
fn transfer_flags() {
    let flags = |machine: &Machine| machine.image()[IMAGE_TRANSFER_FLAGS];
    assert_eq!(flags(&commanded(2, 0x00, 0x92)), TRANSFER_FIRST_BYTE);
    assert_eq!(flags(&commanded(2, 0x00, 0x92 | COMMAND_AUTOLOAD)), TRANSFER_FIRST_BYTE | TRANSFER_AUTOLOAD);
    assert_eq!(flags(&commanded(2, ADDRESS_CONTROL_FIX_C64, 0x92)), TRANSFER_FIRST_BYTE | TRANSFER_FIX_C64);
    assert_eq!(flags(&commanded(2, ADDRESS_CONTROL_FIX_EXPANSION, 0x92)), TRANSFER_FIRST_BYTE | TRANSFER_FIX_EXPANSION);
    let mut swap = commanded(2, 0x00, 0x92);
    swap.tick_dma(1, false);
    assert_eq!(flags(&swap), TRANSFER_FIRST_BYTE | TRANSFER_ODD_PARITY);
    let mut verify = commanded(2, 0x00, 0x93);
    verify.bus_mut()[0x1234] = 1;
    verify.tick_dma(0, false);
    assert_eq!(flags(&verify), TRANSFER_TAIL);
}

#[test]
fn status_and_mask() {
    let ended = |mask: u8| {
        let mut machine = commanded(1, 0x00, 0x93);
        machine.bus_mut()[0x1234] = 1;
        machine.tick_dma(0, false);
        machine.write(0xDF00 + INTERRUPT_MASK, mask);
        (machine.read(0xDF00 + STATUS), machine.read(0xDF00 + STATUS))
    };
    let events = STATUS_VERSION | STATUS_VERIFY_ERROR | STATUS_END_OF_BLOCK;
    for enable in [INTERRUPT_VERIFY_ENABLE, INTERRUPT_END_OF_BLOCK_ENABLE] {
        assert_eq!(ended(enable), (events, STATUS_VERSION));
        assert_eq!(ended(INTERRUPT_GLOBAL_ENABLE | enable), (events | STATUS_IRQ_PENDING, STATUS_VERSION));
    }
    let mut equal = commanded(1, 0x00, 0x93);
    equal.tick_dma(0, false);
    equal.write(0xDF00 + INTERRUPT_MASK, INTERRUPT_GLOBAL_ENABLE | INTERRUPT_VERIFY_ENABLE);
    assert_eq!(equal.read(0xDF00 + STATUS), STATUS_VERSION | STATUS_END_OF_BLOCK);
}

/// The two bytes of flags.
fn flags(machine: &Machine) -> [u8; 2] {
    [machine.image()[IMAGE_FLAGS], machine.image()[IMAGE_MORE_FLAGS]]
}

const IDLE: u8 = FLAG_ENABLED | FLAG_ATTACHED | FLAG_BA_WAS_HIGH;

#[test]
fn flags_without_ba() {
    assert_eq!(flags(&Machine::new()), [FLAG_BA_WAS_HIGH, 0]);
    let mut machine = commanded(1, 0x00, 0x12);
    assert_eq!(flags(&machine), [IDLE, 0]);
    machine.write(0xDF01, 0x82);
    assert_eq!(flags(&machine), [IDLE | FLAG_ARMED, 0]);
    machine.trigger_ff00();
    machine.write(0xDF09, INTERRUPT_GLOBAL_ENABLE | INTERRUPT_END_OF_BLOCK_ENABLE);
    machine.tick_dma(0, false);
    machine.tick_dma(1, false);
    assert_eq!(flags(&machine), [IDLE | FLAG_INTERRUPT, FLAG_RELEASE]);
    machine.set_enabled(false);
    assert_eq!(flags(&machine), [FLAG_ATTACHED | FLAG_BA_WAS_HIGH, 0]);
}

/// A command of so many bytes after so many ticks; then BA falls, late in the cycle before if `late`.
fn fallen(length: u16, command: u8, ticks: u64, late: bool) -> ([u8; 2], u8) {
    let mut machine = commanded(length, 0x00, command);
    for cycle in 0..ticks {
        let ba_high = !late || cycle + 1 < ticks;
        machine.bus_action(ba_high, true, cycle);
        machine.tick_dma(cycle, false);
    }
    machine.bus_action(false, false, ticks);
    (flags(&machine), machine.image()[IMAGE_DELAY])
}

#[test]
fn flags_after_a_fall() {
    let low = IDLE & !FLAG_BA_WAS_HIGH;
    assert_eq!(fallen(3, 0x90, 1, false), ([low, 0], 0));
    assert_eq!(fallen(3, 0x91, 0, false), ([low | FLAG_RECALL_REPEAT, 0], 0));
    assert_eq!(fallen(2, 0x92, 2, false), ([low | FLAG_TERMINAL_WRITE, 0], 0));
    assert_eq!(fallen(3, 0x92, 2, false), ([low, 0], 2));
    assert_eq!(fallen(3, 0x92, 1, true), ([low, FLAG_REFRESH], 1));
    let mut machine = commanded(1, 0x00, 0x12);
    machine.bus_action(false, true, 0);
    assert_eq!(flags(&machine), [IDLE | FLAG_LATE_FALL, 0]);
}

/// Every field that has a range of its own: its greatest value is accepted, one more is refused. The byte of the size
/// has none: which are accepted depends on STATUS (`size.rs`).
#[test]
fn ranges() {
    let machine = commanded(1, 0x00, 0x93);
    for (place, greatest) in [(IMAGE_DELAY, 2), (IMAGE_TRANSFER, 1), (IMAGE_TYPE, 3), (IMAGE_TRANSFER_FLAGS, 0x3F)] {
        let mut image = *machine.image();
        image[place] = greatest;
        assert_eq!(calls::dma_active(&image), Ok(true), "{place}");
        image[place] += 1;
        assert_eq!(calls::dma_active(&image), Err(Refusal::ImageField), "{place}");
    }
}

/// The fields of a running transfer that have none: both addresses, the remaining length and the latch.
#[test]
fn without_a_range() {
    let machine = commanded(1, 0x00, 0x90);
    for place in IMAGE_C64_ADDRESS..IMAGE_TRANSFER_FLAGS {
        for value in 0..=255 {
            let mut image = *machine.image();
            image[place] = value;
            assert_eq!(calls::dma_active(&image), Ok(true), "{value} at {place}");
        }
    }
}
