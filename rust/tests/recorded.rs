//! The sixteen recorded sessions of the original, run through a machine.

use reu::{Grant, IMAGE_GRANTED_CYCLES, Machine, STORAGE_SIZE, Step};

fn enabled() -> Machine {
    let mut machine = Machine::new();
    machine.set_enabled(true);
    machine
}

/// An enabled machine with addresses, length and COMMAND written; the bank stays as it is after new.
fn started(c64: u16, expansion: u16, length: u16, bytes: &[u8], stored: &[u8], command: u8) -> Machine {
    let mut machine = enabled();
    machine.bus_mut()[c64 as usize..][..bytes.len()].copy_from_slice(bytes);
    machine.storage_mut()[expansion as usize..][..stored.len()].copy_from_slice(stored);
    let words = [c64, expansion, length].map(u16::to_le_bytes);
    for (low_register, [low, high]) in [2, 4, 7].into_iter().zip(words) {
        machine.write(0xDF00 + low_register, low);
        machine.write(0xDF01 + low_register, high);
    }
    machine.write(0xDF01, command);
    machine
}

/// What a cycle answers that the controller has, if no address passes its top in it.
const HAD: Step = Step { busy: true, passed_c64: false, passed_expansion: false };

/// One cycle with BA high.
fn tick(machine: &mut Machine, cycle: u64) -> Step {
    machine.run_reu_cycle(true, cycle, false, true)
}

/// As many cycles, all of which the controller must have, and no more. Gives their answers.
fn run(machine: &mut Machine, ticks: u64) -> Vec<Step> {
    let answers: Vec<Step> = (0..ticks).map(|cycle| tick(machine, cycle)).collect();
    assert_eq!(answers.iter().position(|answer| !answer.busy), None, "a tick went to the CPU");
    assert!(!machine.dma_active(), "still active after {ticks} ticks");
    answers
}

fn held(machine: &Machine, indices: &[u64]) -> Vec<u8> {
    indices.iter().map(|&index| machine.debug_register(index)).collect()
}

#[test]
fn r1_registers_of_new() {
    let mut machine = Machine::new();
    let read: Vec<u8> = (0..11).map(|index| machine.read(0xDF00 + index)).collect();
    assert_eq!(read, [0x10, 0x10, 0, 0, 0, 0, 0xF8, 0xFF, 0xFF, 0x1F, 0x3F]);
}

#[test]
fn r2_unused_and_folded_addresses() {
    let mut machine = enabled();
    assert_eq!(machine.read(0xDF0B), 0xFF);
    assert_eq!(machine.read(0xDF20), 0x10);
    assert_eq!([11, 32, u64::MAX].map(|index| machine.debug_register(index)), [0xFF; 3]); // which folds nothing
}

#[test]
fn r3_never_enabled() {
    let mut machine = Machine::new();
    machine.write(0xDF01, 0x90);
    assert_eq!(held(&machine, &[1, 0]), [0x10, 0x10]);
    machine.write(0xDF01, 0x80);
    machine.trigger_ff00();
    assert_eq!(held(&machine, &[1]), [0x00]);
}

#[test]
fn r4_store_of_one_byte() {
    let mut machine = started(0x1000, 0, 1, &[0xA5], &[], 0x90);
    run(&mut machine, 1);
    assert_eq!(machine.storage()[0], 0xA5);
    assert_eq!(machine.registers()[..9], [0x50, 0x10, 0x01, 0x10, 1, 0, 0xF8, 1, 0]);
}

#[test]
fn r5_autoload_and_the_bank() {
    let mut machine = started(0x2000, 0, 2, &[], &[], 0xB0);
    run(&mut machine, 2);
    assert_eq!(held(&machine, &[2, 3, 7, 8, 1]), [0x00, 0x20, 2, 0, 0x30]);
    assert_eq!(machine.read(0xDF06), 0xF8);
    assert_eq!(machine.debug_register(6), 0x00);
}

#[test]
fn r6_to_r8_verify_errors() {
    let mut r6 = started(0x1000, 0, 3, &[1, 2, 3], &[9, 2, 3], 0x93);
    run(&mut r6, 1);
    assert_eq!(held(&r6, &[0, 7]), [0x30, 2]);
    for (last, status) in [(2, 0x70), (9, 0x30)] {
        let mut machine = started(0x1000, 0, 2, &[1, 2], &[9, last], 0x93);
        run(&mut machine, 2);
        assert_eq!(held(&machine, &[0, 7, 2, 4]), [status, 1, 1, 1]);
    }
}

#[test]
fn r9_swap_in_two_ticks() {
    let mut machine = started(0x1000, 0, 1, &[0x11], &[0x22], 0x92);
    assert_eq!(tick(&mut machine, 0), HAD);
    assert_eq!((machine.bus()[0x1000], machine.storage()[0]), (0x11, 0x11));
    run(&mut machine, 1);
    assert_eq!((machine.bus()[0x1000], machine.storage()[0]), (0x22, 0x11));
    assert_eq!(machine.debug_register(0), 0x50);
}

#[test]
fn r10_and_r11_recall_under_a_fall() {
    for (command, expected) in [(0x91, [0x11, 0x11, 0x33]), (0x81, [0x11, 0x22, 0x33])] {
        let mut machine = started(0x1000, 0, 3, &[], &[0x11, 0x22, 0x33], command);
        machine.trigger_ff00(); // does nothing to a command that has started
        machine.run_reu_cycle(true, 0, false, false);
        run(&mut machine, 2);
        assert_eq!(machine.bus()[0x1000..0x1003], expected);
    }
}

#[test]
fn r12_mask_after_the_end() {
    let mut machine = started(0x1000, 0, 1, &[0xA5], &[], 0x90);
    run(&mut machine, 1);
    assert!(!machine.interrupt_level());
    machine.write(0xDF09, 0xC0);
    assert!(machine.interrupt_level());
    assert_eq!((machine.read(0xDF00), machine.read(0xDF00)), (0xD0, 0x10));
    assert!(!machine.interrupt_level());
}

#[test]
fn r13_shadow_behind_the_counter() {
    let mut machine = started(0x10FF, 0, 1, &[], &[], 0x90);
    run(&mut machine, 1);
    assert_eq!(held(&machine, &[2, 3]), [0x00, 0x11]);
    machine.write(0xDF02, 0);
    assert_eq!(held(&machine, &[2, 3]), [0x00, 0x10]);
}

#[test]
fn r14_wraps() {
    let mut machine = started(0xFFFF, 0xFFFF, 2, &[0xAA], &[], 0x10);
    machine.bus_mut()[0] = 0xBB;
    machine.write(0xDF06, 0xFF);
    machine.write(0xDF01, 0x90);
    let both = Step { passed_c64: true, passed_expansion: true, ..HAD };
    assert_eq!(run(&mut machine, 2), [both, HAD]);
    assert_eq!((machine.storage()[STORAGE_SIZE - 1], machine.storage()[0]), (0xAA, 0xBB));
    assert_eq!(held(&machine, &[2, 3, 6]), [0x01, 0x00, 0x00]);
}

#[test]
fn r15_length_0() {
    let mut machine = started(0, 0, 0, &[], &[], 0x90);
    assert_eq!(tick(&mut machine, 0), HAD);
    assert_eq!(held(&machine, &[7, 8]), [0xFF, 0xFF]);
    let answers = run(&mut machine, 65_535);
    let (last, others) = answers.split_last().unwrap();
    assert!(others.iter().all(|answer| *answer == HAD));
    assert_eq!(*last, Step { passed_c64: true, ..HAD });
}

/// All bytes of a machine but those of its count of granted cycles.
fn without_count(machine: &Machine) -> [&[u8]; 3] {
    [&machine.image()[..IMAGE_GRANTED_CYCLES], machine.bus(), machine.storage()]
}

/// A swap of one byte, $11 with $22, in so many cycles from `first` on. BA falls late in the first: `ba_high` is low in
/// it, `ba_high_phi1` in as many cycles after it. Answers the grants and the two bytes at the end. On the way
/// `run_reu_cycle` must do what `bus_action` and `tick_dma` do, and it alone counts.
fn late_fall(first: u64, low: u64, cycles: u64) -> (Vec<Grant>, [u8; 2]) {
    let mut machine = started(0x1000, 0, 1, &[0x11], &[0x22], 0x92);
    let mut by_cycles = machine.clone();
    let mut grants = Vec::new();
    for number in 0..cycles {
        let (ba_high, ba_high_phi1, cycle) = (number != 0, !(1..=low).contains(&number), first + number);
        assert!(machine.dma_active());
        let grant = machine.bus_action(ba_high, ba_high_phi1, cycle);
        if grant == Grant::Transfer {
            machine.tick_dma(cycle, false);
        }
        grants.push(grant);
        assert_eq!(by_cycles.run_reu_cycle(ba_high, cycle, false, ba_high_phi1), HAD);
        assert!(without_count(&by_cycles) == without_count(&machine));
    }
    let granted = grants.iter().filter(|grant| **grant == Grant::Transfer).count();
    assert_eq!((by_cycles.granted_cycles() as usize, machine.granted_cycles()), (granted, 0));
    assert!(!machine.dma_active());
    (grants, [machine.bus()[0x1000], machine.storage()[0]])
}

#[test]
fn r16_swap_under_a_late_fall() {
    use Grant::{Hold, Transfer};
    assert_eq!(late_fall(10, 1, 5), (vec![Transfer, Hold, Transfer, Transfer, Transfer], [0x11, 0x11]));
}

/// As R16 with BA low for longer. The byte is read for the second time two cycles after the first; if BA rises in a
/// cycle of the same parity it is read once more, otherwise not.
#[test]
fn parity_of_the_cycle_decides_at_a_rise() {
    use Grant::{Hold, Transfer};
    for first in [10, 11] {
        assert_eq!(late_fall(first, 2, 4), (vec![Transfer, Hold, Transfer, Transfer], [0x22, 0x11]));
        let reads_again = vec![Transfer, Hold, Transfer, Hold, Transfer, Transfer];
        assert_eq!(late_fall(first, 3, 6), (reads_again, [0x22, 0x11]));
    }
}
