//! The marks of an address that passes its top: which calls report them, and which do not.

use reu::*;

const AT_ONCE: u8 = COMMAND_FF00_DISABLE | COMMAND_EXECUTE;
const TYPES: [u8; 4] = [STORE, RECALL, SWAP, VERIFY];

/// Where a block begins, how long it is, and what is written to address control.
#[derive(Clone, Copy)]
struct Block {
    c64: u16,
    expansion: u32,
    length: u16,
    control: u8,
}

/// Its first byte is at both tops.
const AT_BOTH: Block = Block { c64: 0xFFFF, expansion: 0xFF_FFFF, length: 1, control: 0 };
/// Its second byte is.
const BELOW_BOTH: Block = Block { c64: 0xFFFE, expansion: 0xFF_FFFE, length: 2, control: 0 };

/// An enabled machine, bus and storage all 0, with a command that has started.
fn started(block: Block, command: u8) -> Machine {
    let mut machine = Machine::new();
    machine.set_enabled(true);
    let ([c64_low, c64_high], [length_low, length_high]) = (block.c64.to_le_bytes(), block.length.to_le_bytes());
    let [low, high, bank, _] = block.expansion.to_le_bytes();
    let counters = [c64_low, c64_high, low, high, bank, length_low, length_high];
    for (register, value) in (0xDF00 + C64_ADDRESS_LOW..).zip(counters) {
        machine.write(register, value);
    }
    machine.write(0xDF00 + ADDRESS_CONTROL, block.control);
    machine.write(0xDF00 + COMMAND, command | AT_ONCE);
    machine
}

/// An answer as the library has it: 0 or 1, plus 2, plus 4.
fn number(answer: Step) -> u32 {
    u32::from(answer.busy) + 2 * u32::from(answer.passed_c64) + 4 * u32::from(answer.passed_expansion)
}

/// One cycle in which BA is high or low all the time.
fn cycle(machine: &mut Machine, ba_high: bool) -> u32 {
    number(machine.run_reu_cycle(ba_high, 0, !ba_high, ba_high))
}

/// The marks of each call up to the end of the command, which are the same by ticks and by cycles. Without them a tick
/// answers 1 but for the last, which answers 0, and a cycle 1.
fn marks(machine: &Machine) -> Vec<u32> {
    let (mut ticked, mut by_cycles) = (machine.clone(), machine.clone());
    let mut marks = Vec::new();
    while ticked.dma_active() {
        let (tick, cycle) = (number(ticked.tick_dma(0, false)), cycle(&mut by_cycles, true));
        assert_eq!(tick & 1 == 1, ticked.dma_active());
        assert_eq!((cycle & 1, cycle & 6), (1, tick & 6));
        marks.push(tick & 6);
    }
    assert_eq!((number(ticked.tick_dma(0, false)), cycle(&mut by_cycles, true)), (0, 0)); // with no transfer
    marks
}

/// A block of each type reports so, byte by byte; a swap has a tick more before each byte, which reports neither.
fn each_type_reports(block: Block, wanted: &[u32]) {
    for transfer_type in TYPES {
        let first_phase = if transfer_type == SWAP { &[0][..] } else { &[] };
        let of_ticks: Vec<u32> = wanted.iter().flat_map(|byte| [first_phase, &[*byte]].concat()).collect();
        assert_eq!(marks(&started(block, transfer_type)), of_ticks, "type {transfer_type}");
    }
}

#[test]
fn the_marks_are_2_and_4() {
    assert_eq!((PASSED_C64, PASSED_EXPANSION), (2, 4));
}

#[test]
fn each_type_reports_at_each_top() {
    let tops = [(0xFFFF, 0xF8_1000, 2), (0x1000, 0xFF_FFFF, 4), (0xFFFF, 0xFF_FFFF, 6), (0x1000, 0xF8_1000, 0)];
    for (c64, expansion, passed) in tops {
        let block = Block { c64, expansion, ..AT_BOTH };
        each_type_reports(block, &[passed]); // the last byte of a block too
        each_type_reports(Block { length: 3, ..block }, &[passed, 0, 0]);
    }
    each_type_reports(BELOW_BOTH, &[0, 6]);
    each_type_reports(Block { c64: 0xFFFF, expansion: 0xFF_FFFD, length: 4, control: 0 }, &[2, 0, 4, 0]);
    each_type_reports(Block { c64: 0xFFFD, expansion: 0xFF_FFFF, length: 3, control: 0 }, &[4, 0, 2]);
}

#[test]
fn a_fixed_address_never_reports_its_own() {
    for (control, passed) in [(0x80, 4), (0x40, 2), (0xC0, 0), (0, 6)] {
        each_type_reports(Block { control, ..AT_BOTH }, &[passed]);
        each_type_reports(Block { control, length: 3, ..AT_BOTH }, &[passed, 0, 0]);
        each_type_reports(Block { control, ..BELOW_BOTH }, &[0, passed]);
    }
}

/// Where it stays, at 0 too: being 0 after a byte is not having passed the top.
#[test]
fn a_fixed_address_reports_nowhere() {
    for c64 in [0, 0x00FF, 0x7FFF, 0xFFFE] {
        let machine = started(Block { c64, length: 2, control: 0xC0, ..AT_BOTH }, STORE);
        for expansion in [0, 0x07_FFFF, 0xFF_FFFE, 0xFF_FFFF] {
            assert_eq!(marks(&at_expansion(&machine, expansion)), [0, 0], "${c64:04X}, ${expansion:06X}");
        }
    }
}

/// The address has stepped, whatever the registers then show.
#[test]
fn autoload_does_not_take_a_mark_away() {
    let mut machine = started(AT_BOTH, STORE | COMMAND_AUTOLOAD);
    assert_eq!(marks(&machine), [6]);
    machine.tick_dma(0, false);
    assert_eq!(machine.registers()[2..7], [0xFF; 5]);
}

/// A block of 65,536 bytes comes to the C64's top once, with its first byte or with its last.
#[test]
fn a_full_block_reports_once() {
    for (c64, at) in [(0xFFFF, 0), (0, 65_535), (1, 65_534)] {
        let reported = marks(&started(Block { c64, expansion: 0xF8_0000, length: 0, control: 0 }, STORE));
        assert_eq!(reported.len(), 65_536);
        assert!(reported.iter().enumerate().all(|(byte, marks)| *marks == if byte == at { 2 } else { 0 }));
    }
}

/// A verify of this block, of which the first byte differs.
fn with_error(block: Block) -> Machine {
    let mut machine = started(block, VERIFY);
    machine.bus_mut()[usize::from(block.c64)] = 1;
    machine
}

#[test]
fn a_byte_that_differs_reports() {
    for (block, wanted) in [(AT_BOTH, &[6][..]), (Block { length: 3, ..AT_BOTH }, &[6])] {
        assert_eq!(marks(&with_error(block)), wanted); // with it the command ends
    }
    assert_eq!(marks(&with_error(Block { length: 2, ..AT_BOTH })), [6, 0]); // the tail is behind the tops
    assert_eq!(marks(&with_error(Block { length: 3, ..BELOW_BOTH })), [0]);
}

/// The tail moves no counter, so its address does not pass its top, and whether its byte is equal makes no difference.
#[test]
fn a_verify_tail_at_the_top_reports_neither() {
    for last in [0, 1] {
        let mut machine = with_error(BELOW_BOTH);
        machine.bus_mut()[0xFFFF] = last;
        assert_eq!(marks(&machine), [0, 0]);
        machine.tick_dma(0, false);
        assert_eq!(machine.image()[IMAGE_C64_ADDRESS..IMAGE_REMAINING], [0xFF; 5]);
        assert!(machine.image()[IMAGE_TRANSFER_FLAGS] & TRANSFER_TAIL != 0);
    }
}

#[test]
fn a_hold_reports_neither_and_the_byte_after_it_does() {
    for transfer_type in TYPES {
        let mut machine = started(AT_BOTH, transfer_type);
        assert_eq!([(); 2].map(|()| cycle(&mut machine, false)), [1, 1]);
        assert_eq!(marks(&machine).last(), Some(&6), "type {transfer_type}");
    }
}

/// BA falls between the two phases: the byte is read again, and reports once, with the write.
#[test]
fn an_interrupted_swap_reports_with_its_write() {
    let mut machine = started(AT_BOTH, SWAP);
    let answers = [true, false, false, true].map(|ba_high| cycle(&mut machine, ba_high));
    assert_eq!(answers, [1; 4]);
    assert_eq!(machine.c64_access(), Access::Write(0xFFFF));
    assert_eq!(cycle(&mut machine, true), 1 + 6);
}

/// The cycles of R16, with their refresh in the third, at both tops.
#[test]
fn a_refresh_reports_neither() {
    let mut machine = started(AT_BOTH, SWAP);
    let answers = [10, 11, 12, 13, 14].map(|cycle| {
        assert_eq!(machine.image()[IMAGE_MORE_FLAGS] & FLAG_REFRESH != 0, cycle == 12);
        number(machine.run_reu_cycle(cycle != 10, cycle, cycle == 10, cycle != 11))
    });
    assert_eq!(answers, [1, 1, 1, 1, 1 + 6]);
}

/// As R10, with the repeated byte at both tops: the second of three.
#[test]
fn a_repeated_byte_of_a_recall_reports() {
    let mut machine = started(Block { length: 3, ..BELOW_BOTH }, RECALL);
    machine.storage_mut()[STORAGE_SIZE - 2..].copy_from_slice(&[0x11, 0x22]);
    machine.storage_mut()[0] = 0x33;
    let answers = [false, true, true].map(|phi1| number(machine.run_reu_cycle(true, 0, false, phi1)));
    assert_eq!(answers, [1, 1 + 6, 1]);
    assert_eq!((&machine.bus()[0xFFFE..], machine.bus()[0]), (&[0x11, 0x11][..], 0x33));
}

/// A machine whose image is this one's with another expansion address; a written bank is at least $F8.
fn at_expansion(machine: &Machine, expansion: u32) -> Machine {
    let mut image = *machine.image();
    image[IMAGE_EXPANSION_ADDRESS..IMAGE_REMAINING].copy_from_slice(&expansion.to_le_bytes()[..3]);
    Machine::open(&image, machine.bus(), machine.storage()).expect("any address is accepted")
}

#[test]
fn where_the_storage_begins_anew_is_no_top() {
    let machine = started(Block { c64: 0x1000, ..AT_BOTH }, STORE);
    for (expansion, passed) in [(0x07_FFFF, 0), (0xF7_FFFF, 0), (0x00_FFFF, 0), (0, 0), (0xFF_FFFF, 4)] {
        assert_eq!(marks(&at_expansion(&machine, expansion)), [passed], "${expansion:06X}");
    }
}

/// A refused call has value 0, also where the call would report both.
#[test]
fn a_refusal_has_no_marks() {
    let machine = started(AT_BOTH, STORE);
    let (mut image, mut bus, mut storage) = (*machine.image(), machine.bus().to_vec(), machine.storage().to_vec());
    for (refusal, [shorter_image, shorter_bus, shorter_storage]) in [(1, [1, 0, 0]), (3, [0, 1, 0]), (4, [0, 0, 1])] {
        let (image_len, bus_len) = (IMAGE_SIZE - shorter_image, BUS_SIZE - shorter_bus);
        let storage_len = STORAGE_SIZE - shorter_storage;
        let (image, bus, storage) = (image.as_mut_ptr(), bus.as_mut_ptr(), storage.as_mut_ptr());
        // SAFETY: the lengths are those of the three buffers, or one less.
        let answers = unsafe {
            [
                raw::reu_tick_dma(image, image_len, bus, bus_len, storage, storage_len, 0, 0),
                raw::reu_run_reu_cycle(image, image_len, bus, bus_len, storage, storage_len, 1, 0, 0, 1),
            ]
        };
        assert_eq!(answers, [refusal << 24; 2]);
    }
    image[IMAGE_DELAY] = 3;
    assert_eq!(calls::tick_dma(&mut image, &mut bus, &mut storage, 0, false), Err(Refusal::ImageField));
}

/// The values as the library exports them.
#[test]
fn the_marks_are_added_to_the_value() {
    let machine = started(AT_BOTH, STORE);
    let (image, mut bus, mut storage) = (*machine.image(), machine.bus().to_vec(), machine.storage().to_vec());
    let (mut ticked, mut by_cycle) = (image, image);
    let (bus, storage) = (bus.as_mut_ptr(), storage.as_mut_ptr());
    let (ticked, by_cycle) = (ticked.as_mut_ptr(), by_cycle.as_mut_ptr());
    // SAFETY: the lengths are those of the buffers, and no two overlap.
    let answers = unsafe {
        [
            raw::reu_tick_dma(ticked, IMAGE_SIZE, bus, BUS_SIZE, storage, STORAGE_SIZE, 0, 0),
            raw::reu_run_reu_cycle(by_cycle, IMAGE_SIZE, bus, BUS_SIZE, storage, STORAGE_SIZE, 1, 0, 0, 1),
        ]
    };
    assert_eq!(answers, [6, 7]);
}

/// What a fall leaves over is granted while no transfer runs; the registers are at both tops then.
#[test]
fn a_grant_without_a_transfer_reports_neither() {
    let mut machine = started(Block { length: 2, ..BELOW_BOTH }, SWAP | COMMAND_AUTOLOAD);
    for register in [C64_ADDRESS_LOW, EXPANSION_ADDRESS_LOW] {
        machine.write(0xDF00 + register, 0xFF); // for Autoload
    }
    assert_eq!([(); 2].map(|()| cycle(&mut machine, true)), [1, 1]);
    assert_eq!(machine.bus_action(true, false, 0), Grant::Transfer); // and terminal write is set
    assert_eq!([(); 2].map(|()| number(machine.tick_dma(0, false))), [1, 6]);
    assert_eq!(machine.registers()[2..7], [0xFF; 5]);
    assert_eq!([(); 2].map(|()| cycle(&mut machine, true)), [1, 0]);
}
