//! What the recorded sessions leave out: the calls around a transfer, and the machine as a value.

use reu::{Access, BUS_SIZE, Grant, Machine, Refusal, STORAGE_SIZE};

/// A swap of one byte at $1000, started with COMMAND $92.
fn swapping() -> Machine {
    let mut machine = Machine::new();
    machine.set_enabled(true);
    machine.bus_mut()[0x1000] = 0x11;
    machine.storage_mut()[0] = 0x22;
    for (register, value) in [(3, 0x10), (7, 1), (8, 0), (1, 0x92)] {
        machine.write(0xDF00 + register, value);
    }
    machine
}

#[test]
fn storage_comes_with_the_first_enabling() {
    let mut machine = Machine::new();
    assert_eq!((machine.storage_present(), machine.capacity_bytes()), (false, 0));
    machine.storage_mut().fill(7);
    machine.set_enabled(false);
    assert!(!machine.storage_present() && machine.storage().iter().all(|&byte| byte == 7));
    machine.set_enabled(true);
    assert_eq!((machine.storage_present(), machine.capacity_bytes()), (true, STORAGE_SIZE));
    assert!(machine.storage().iter().all(|&byte| byte == 0));
    machine.storage_mut()[5] = 9;
    machine.set_enabled(false);
    machine.set_enabled(true);
    machine.reset(true);
    assert!(machine.storage_present() && machine.storage()[5] == 9);
}

#[test]
fn reset_and_disabling_drop_the_transfer() {
    for hard_reset in [false, true] {
        let mut machine = swapping();
        assert!(machine.dma_active());
        machine.reset(hard_reset);
        assert!(!machine.dma_active());
        assert_eq!(machine.registers(), [0x10, 0x10, 0, 0, 0, 0, 0xF8, 0xFF, 0xFF, 0x1F, 0x3F]);
    }
    let mut machine = swapping();
    let registers = machine.registers().to_vec();
    machine.set_enabled(false);
    assert!(!machine.dma_active());
    assert_eq!(machine.registers(), registers);
}

#[test]
fn access_follows_the_swap() {
    let mut machine = swapping();
    assert_eq!(machine.c64_access(), Access::Read(0x1000));
    assert!(machine.tick_dma(0, false).busy);
    assert_eq!(machine.c64_access(), Access::Write(0x1000));
    assert!(!machine.tick_dma(1, false).busy);
    assert_eq!(machine.c64_access(), Access::None);
    assert_eq!((machine.bus()[0x1000], machine.storage()[0]), (0x22, 0x11));
}

/// By ticks and by cycles: `ba_low` in the last one decides, and the answer is given once.
#[test]
fn a_swap_releases_the_cpu_once() {
    for (ba_low, by_cycles) in [(false, false), (false, true), (true, false), (true, true)] {
        let mut machine = swapping();
        for cycle in 0..2 {
            match by_cycles {
                true => assert!(machine.run_reu_cycle(true, cycle, ba_low, true).busy),
                false => assert_eq!(machine.tick_dma(cycle, ba_low).busy, cycle == 0),
            }
        }
        let ready = [false, false, true].map(|ba_high| machine.cpu_ready_after_dma(ba_high));
        assert_eq!(ready, [!ba_low, false, true]);
    }
}

/// A swap of so many bytes, one of them done, then a fall of BA with this grant; the host's own ticks end it.
fn ended_by_ticks(length: u8, fall: Grant, ticks: u64) -> Machine {
    let mut machine = swapping();
    machine.write(0xDF07, length);
    machine.write(0xDF01, 0x92);
    assert!((0..2).all(|cycle| machine.run_reu_cycle(true, cycle, false, true).busy));
    assert_eq!(machine.bus_action(true, false, 2), fall);
    (0..ticks).for_each(|tick| assert_eq!(machine.tick_dma(3 + tick, false).busy, tick + 1 < ticks));
    assert!(!machine.dma_active());
    machine
}

/// Idle, and the CPU does not have the cycle: what the fall has left over answers first.
#[test]
fn what_a_fall_leaves_over_answers_without_a_transfer() {
    let mut delayed = ended_by_ticks(3, Grant::Hold, 4);
    let grants = [10, 11, 12].map(|cycle| delayed.bus_action(true, true, cycle));
    assert_eq!(grants, [Grant::Hold, Grant::Transfer, Grant::Cpu]);
    let mut terminal = ended_by_ticks(2, Grant::Transfer, 2);
    let grants = [10, 11].map(|cycle| terminal.bus_action(true, true, cycle));
    assert_eq!(grants, [Grant::Transfer, Grant::Cpu]);
    let mut by_cycles = ended_by_ticks(3, Grant::Hold, 4);
    let held = [10, 11, 12].map(|cycle| by_cycles.run_reu_cycle(true, cycle, false, true).busy);
    assert_eq!(held, [true, true, false]);
}

#[test]
fn a_machine_is_its_bytes() {
    let mut machine = swapping();
    machine.tick_dma(0, false);
    let copy = machine.clone();
    let opened = Machine::open(machine.image(), machine.bus(), machine.storage()).unwrap();
    assert!(copy == machine && opened == machine && opened.dma_active());
    machine.tick_dma(1, false);
    assert!(copy != machine && opened == copy);
    let mut other = copy.clone();
    other.bus_mut()[BUS_SIZE - 1] ^= 1;
    assert!(other != copy);
    other = copy.clone();
    other.storage_mut()[STORAGE_SIZE - 1] ^= 1;
    assert!(other != copy);
}

#[test]
fn refusals_have_their_numbers_and_words() {
    use Refusal::{Attached, BusLength, ImageField, ImageLength, Size, StorageLength};
    let refusals = [ImageLength, ImageField, BusLength, StorageLength, Size, Attached];
    assert_eq!(refusals.map(Refusal::number), [1, 2, 3, 4, 5, 6]);
    assert_eq!(BusLength.to_string(), "a bus has 65536 bytes");
    assert_eq!(StorageLength.to_string(), "the storage has another length than the size that is set");
    assert_eq!(Size.to_string(), "a storage has 131072, 262144 or 524288 bytes");
    assert_eq!(Attached.to_string(), "no size can be set once the storage is attached");
}
