//! The count of granted cycles: what adds to it, what sets it to 0, and what leaves it alone.

use reu::*;

const AT_ONCE: u8 = COMMAND_FF00_DISABLE | COMMAND_EXECUTE;
const TOP: u32 = 4_294_967_295;

/// An enabled machine, idle, with a length written.
fn enabled(length: u8) -> Machine {
    let mut machine = Machine::new();
    machine.set_enabled(true);
    machine.write(0xDF00 + TRANSFER_LENGTH_LOW, length);
    machine.write(0xDF00 + TRANSFER_LENGTH_HIGH, 0);
    machine
}

/// The same, with a command of this type started at once.
fn started(length: u8, transfer_type: u8) -> Machine {
    let mut machine = enabled(length);
    machine.write(0xDF01, transfer_type | AT_ONCE);
    machine
}

/// One cycle in which BA is high or low all the time. Answers whether the CPU was kept from it.
fn cycle(machine: &mut Machine, ba_high: bool) -> bool {
    machine.run_reu_cycle(ba_high, 0, !ba_high, ba_high).busy
}

/// A machine whose image is this one's with another count.
fn with_count(machine: &Machine, count: u32) -> Machine {
    let mut image = *machine.image();
    image[IMAGE_GRANTED_CYCLES..].copy_from_slice(&count.to_le_bytes());
    Machine::open(&image, machine.bus(), machine.storage()).expect("any count is accepted")
}

#[test]
fn the_count_is_the_last_four_bytes_low_byte_first() {
    assert_eq!(IMAGE_SIZE - IMAGE_GRANTED_CYCLES, 4);
    for machine in [Machine::new(), started(3, SWAP)] {
        assert_eq!(machine.granted_cycles(), 0);
        let counted = with_count(&machine, 0x1234_5678);
        assert_eq!(counted.image()[IMAGE_GRANTED_CYCLES..], [0x78, 0x56, 0x34, 0x12]);
        assert_eq!(counted.granted_cycles(), 0x1234_5678);
        assert_eq!(counted.image()[..IMAGE_GRANTED_CYCLES], machine.image()[..IMAGE_GRANTED_CYCLES]);
    }
}

#[test]
fn each_granted_cycle_adds_one_and_the_end_leaves_the_count() {
    for (transfer_type, granted) in [(STORE, 5), (RECALL, 5), (SWAP, 10), (VERIFY, 5)] {
        let mut machine = started(5, transfer_type);
        let counts = (1..100).map_while(|_| cycle(&mut machine, true).then(|| machine.granted_cycles()));
        assert_eq!(counts.collect::<Vec<u32>>(), (1..=granted).collect::<Vec<u32>>());
        assert!(!machine.dma_active());
        assert_eq!(machine.granted_cycles(), granted); // the CPU had one more cycle
    }
}

#[test]
fn a_hold_adds_nothing() {
    let mut machine = started(5, STORE);
    assert!([true, false, false, true].into_iter().all(|ba_high| cycle(&mut machine, ba_high)));
    assert_eq!(machine.granted_cycles(), 2);
}

/// The two halves of a cycle, called by the host itself, on the way to the end.
#[test]
fn a_direct_tick_and_a_direct_grant_add_nothing() {
    let mut machine = started(3, STORE);
    assert!(cycle(&mut machine, true));
    for tick in 0..2 {
        assert_eq!(machine.bus_action(true, true, 0), Grant::Transfer);
        assert_eq!(machine.tick_dma(0, false).busy, tick == 0);
    }
    assert_eq!(machine.granted_cycles(), 1);
}

/// A swap of so many bytes, one of them done; BA falls, and the host's own ticks end it: with one left, or with more.
fn ended_by_ticks(length: u8) -> Machine {
    let mut machine = started(length, SWAP);
    assert!((0..2).all(|_| cycle(&mut machine, true)));
    machine.bus_action(true, false, 0);
    assert_eq!((1..100).find(|_| !machine.tick_dma(0, false).busy), Some(2 * i32::from(length) - 2));
    assert_eq!(machine.granted_cycles(), 2);
    machine
}

/// What the fall leaves over is granted, with nothing to move: a terminal write at once, a delay after a hold.
#[test]
fn a_grant_without_a_transfer_is_counted() {
    let mut terminal = ended_by_ticks(2);
    assert_eq!([(); 2].map(|()| cycle(&mut terminal, true)), [true, false]);
    assert_eq!(terminal.granted_cycles(), 3);
    let mut delayed = ended_by_ticks(3);
    assert_eq!([(); 3].map(|()| cycle(&mut delayed, true)), [true, true, false]);
    assert_eq!(delayed.granted_cycles(), 3);
}

#[test]
fn a_start_sets_the_count_to_0_and_arming_does_not() {
    let ended = with_count(&enabled(5), 77);
    let mut at_once = ended.clone();
    at_once.write(0xDF01, STORE | AT_ONCE);
    assert!(at_once.dma_active() && at_once.granted_cycles() == 0);

    let mut by_ff00 = ended.clone();
    by_ff00.write(0xDF01, RECALL | COMMAND_EXECUTE);
    assert_eq!(by_ff00.granted_cycles(), 77);
    by_ff00.trigger_ff00();
    assert!(by_ff00.dma_active() && by_ff00.granted_cycles() == 0);

    // One that cuts in while another runs, and an access to $FF00 that nothing waits for.
    assert!((0..2).all(|_| cycle(&mut by_ff00, true)));
    by_ff00.trigger_ff00();
    assert_eq!(by_ff00.granted_cycles(), 2);
    by_ff00.write(0xDF01, SWAP | AT_ONCE);
    assert_eq!(by_ff00.granted_cycles(), 0);
}

#[test]
fn a_start_without_storage_leaves_the_count() {
    let mut machine = with_count(&Machine::new(), 77);
    machine.write(0xDF01, STORE | AT_ONCE);
    assert_eq!(machine.debug_register(1), COMMAND_FF00_DISABLE); // bit 7 has fallen: it was a start
    assert_eq!(machine.granted_cycles(), 77);
    machine.write(0xDF01, STORE | COMMAND_EXECUTE);
    machine.trigger_ff00();
    assert_eq!(machine.debug_register(1), 0);
    assert_eq!(machine.granted_cycles(), 77);
}

#[test]
fn reset_and_new_set_it_to_0() {
    for hard_reset in [false, true] {
        let mut machine = with_count(&started(5, SWAP), 77);
        machine.reset(hard_reset);
        assert_eq!(machine.granted_cycles(), 0);
    }
    let mut image = [0xFF; IMAGE_SIZE];
    assert_eq!(calls::new(&mut image), Ok(()));
    assert_eq!(image[IMAGE_GRANTED_CYCLES..], [0; 4]);
}

#[test]
fn enabling_disabling_and_looking_leave_it() {
    let mut machine = with_count(&Machine::new(), 77);
    machine.set_enabled(true); // which attaches the storage
    assert!(machine.storage_present() && machine.granted_cycles() == 77);
    machine = with_count(&started(5, SWAP), 77);
    for enabled in [true, false, false, true] {
        machine.set_enabled(enabled);
        assert_eq!(machine.granted_cycles(), 77);
    }
    for register in 0..32 {
        machine.read(0xDF00 + register);
        machine.write(0xDF00 + register, 0);
    }
    machine.cpu_ready_after_dma(true);
    assert_eq!(machine.granted_cycles(), 77);
}

#[test]
fn the_count_is_held_at_its_top() {
    let mut machine = with_count(&started(5, STORE), TOP - 2);
    let counts = [(); 5].map(|()| {
        assert!(cycle(&mut machine, true));
        machine.granted_cycles()
    });
    assert_eq!(counts, [TOP - 1, TOP, TOP, TOP, TOP]);
    assert!(!machine.dma_active());
    machine.write(0xDF01, STORE | AT_ONCE);
    assert_eq!(machine.granted_cycles(), 0);
}

#[test]
fn a_saved_machine_keeps_it_and_goes_on() {
    let mut machine = started(5, SWAP);
    assert!((0..3).all(|_| cycle(&mut machine, true)));
    let mut opened = Machine::open(machine.image(), machine.bus(), machine.storage()).unwrap();
    assert_eq!(opened.granted_cycles(), 3);
    assert!(cycle(&mut opened, true));
    assert_eq!((machine.granted_cycles(), opened.granted_cycles()), (3, 4));
}

/// An image of 34 bytes, as it was before there was a count, one of 38, as it was when there was one first, and one that is
/// a byte short of its count.
#[test]
fn an_image_of_an_earlier_length_is_refused() {
    let machine = started(5, SWAP);
    let bytes = [&machine.image()[..], &[0]].concat();
    for length in [34, 36, 38] {
        let opened = Machine::open(&bytes[..length], machine.bus(), machine.storage());
        assert_eq!(opened.unwrap_err(), Refusal::ImageLength, "{length} bytes");
    }
    assert!(Machine::open(&bytes[..IMAGE_SIZE], machine.bus(), machine.storage()).is_ok());
}
