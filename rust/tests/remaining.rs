//! Remaining in two bytes: the pair that each number has, what comes back from each pair, and the images from before.

use reu::*;

const AT_ONCE: u8 = COMMAND_FF00_DISABLE | COMMAND_EXECUTE;
const TYPES: [u8; 4] = [STORE, RECALL, SWAP, VERIFY];

/// How many bytes are left, and the pair that says so: where it carries, and at both ends.
const PAIRS: [(u32, [u8; 2]); 5] =
    [(1, [0x01, 0x00]), (255, [0xFF, 0x00]), (256, [0x00, 0x01]), (65_535, [0xFF, 0xFF]), (65_536, [0x00, 0x00])];

/// The lengths of an image in release 0.1.0, and in 0.2.0 and 0.3.0.
const EARLIER: [usize; 2] = [34, 38];

/// An enabled machine, bus and storage all 0, with a command that has started; length 0 means 65,536.
fn started(length: u16, transfer_type: u8) -> Machine {
    let mut machine = Machine::new();
    machine.set_enabled(true);
    for (register, value) in (0xDF00 + TRANSFER_LENGTH_LOW..).zip(length.to_le_bytes()) {
        machine.write(register, value);
    }
    machine.write(0xDF00 + COMMAND, transfer_type | AT_ONCE);
    machine
}

/// The bytes of an image that say how many are left.
fn pair(machine: &Machine) -> &[u8] {
    &machine.image()[IMAGE_REMAINING..IMAGE_LATCH]
}

/// The image of a machine with another pair.
fn with_pair(machine: &Machine, pair: [u8; 2]) -> [u8; IMAGE_SIZE] {
    let mut image = *machine.image();
    image[IMAGE_REMAINING..IMAGE_LATCH].copy_from_slice(&pair);
    image
}

/// What a machine with this image instead has left, if the image is accepted.
fn left(machine: &Machine, image: &[u8]) -> Result<u32, Refusal> {
    Machine::open(image, machine.bus(), machine.storage()).map(|opened| opened.remaining())
}

/// Runs until one more byte is complete, which takes a swap two cycles; all are the controller's.
fn complete_byte(machine: &mut Machine, transfer_type: u8) {
    let cycles = if transfer_type == SWAP { 2 } else { 1 };
    assert!((0..cycles).all(|cycle| machine.run_reu_cycle(true, cycle, false, true).busy));
}

#[test]
fn a_start_leaves_the_pair_of_its_length() {
    for transfer_type in TYPES {
        for (remaining, bytes) in PAIRS {
            let machine = started(remaining as u16, transfer_type); // of 65,536 nothing but 0 is left
            assert_eq!((pair(&machine), machine.remaining()), (&bytes[..], remaining), "type {transfer_type}");
        }
    }
}

#[test]
fn it_steps_down_over_each_carry() {
    for transfer_type in TYPES {
        for (length, before, after, remaining) in [
            (0, [0, 0], [0xFF, 0xFF], 65_535),
            (0xFFFF, [0xFF, 0xFF], [0xFE, 0xFF], 65_534),
            (256, [0, 1], [0xFF, 0], 255),
        ] {
            let mut machine = started(length, transfer_type);
            assert_eq!(pair(&machine), before);
            complete_byte(&mut machine, transfer_type);
            assert_eq!((pair(&machine), machine.remaining()), (&after[..], remaining), "type {transfer_type}");
        }
    }
}

/// Down from 65,536, without a number left out, to 1; the last byte then ends the command. So each of the 65,536 pairs is
/// read back.
#[test]
fn a_full_block_has_every_number_and_every_pair() {
    for transfer_type in TYPES {
        let mut machine = started(0, transfer_type);
        for remaining in (1..=65_536).rev() {
            let bytes = [(remaining % 256) as u8, (remaining / 256 % 256) as u8];
            assert_eq!((pair(&machine), machine.remaining()), (&bytes[..], remaining), "type {transfer_type}");
            complete_byte(&mut machine, transfer_type);
        }
        assert!(!machine.dma_active());
        assert_eq!((pair(&machine), machine.remaining()), (&[0, 0][..], 0));
    }
}

/// Every pair in an image from outside, on slices: a machine takes a copy of both memories. The byte that is then complete
/// takes one from the pair, and ends the command where one was left.
#[test]
fn every_pair_is_accepted_while_a_transfer_runs_and_steps_down() {
    for transfer_type in TYPES {
        let machine = started(5, transfer_type);
        let (mut bus, mut storage) = (machine.bus().to_vec(), machine.storage().to_vec());
        for (low, high) in (0..=255_u8).flat_map(|high| (0..=255_u8).map(move |low| (low, high))) {
            let mut image = with_pair(&machine, [low, high]);
            assert_eq!(calls::dma_active(&image), Ok(true), "{low}, {high}");
            for tick in 0..if transfer_type == SWAP { 2 } else { 1 } {
                assert!(calls::tick_dma(&mut image, &mut bus, &mut storage, tick, false).is_ok());
            }
            let after = [low.wrapping_sub(1), high.wrapping_sub(u8::from(low == 0))];
            assert_eq!(image[IMAGE_REMAINING..IMAGE_LATCH], after, "{low}, {high}");
            assert_eq!(calls::dma_active(&image), Ok((low, high) != (1, 0)), "{low}, {high}");
        }
    }
}

#[test]
fn without_a_transfer_both_bytes_are_0() {
    let mut ended = started(1, STORE);
    complete_byte(&mut ended, STORE);
    let mut disabled = started(0, SWAP);
    disabled.set_enabled(false);
    for machine in [Machine::new(), ended, disabled] {
        assert_eq!((pair(&machine), machine.remaining()), (&[0, 0][..], 0));
        for bytes in [[1, 0], [0, 1], [0xFF, 0xFF]] {
            assert_eq!(left(&machine, &with_pair(&machine, bytes)), Err(Refusal::ImageField), "{bytes:?}");
        }
    }
}

/// A verify whose last byte but one differs.
#[test]
fn a_tail_asks_for_one_byte() {
    let mut tail = started(2, VERIFY);
    tail.bus_mut()[0] = 1;
    complete_byte(&mut tail, VERIFY);
    assert!(tail.image()[IMAGE_TRANSFER_FLAGS] & TRANSFER_TAIL != 0);
    assert_eq!((pair(&tail), left(&tail, tail.image())), (&[1, 0][..], Ok(1)));
    for bytes in [[0, 0], [0, 1], [2, 0], [1, 1], [0xFF, 0xFF]] {
        assert_eq!(left(&tail, &with_pair(&tail, bytes)), Err(Refusal::ImageField), "{bytes:?}");
    }
}

/// An image as releases 0.2.0 and 0.3.0 had it, with remaining in three bytes, of which the last is 1 for 65,536; without
/// its last four bytes it is one of 0.1.0.
fn earlier(machine: &Machine) -> Vec<u8> {
    let (before, behind) = machine.image().split_at(IMAGE_LATCH);
    [before, &[u8::from(machine.remaining() == 65_536)], behind].concat()
}

#[test]
fn earlier_images_are_refused_by_their_length_whatever_they_hold() {
    let machines = [Machine::new(), started(5, SWAP), started(0, STORE)];
    let laid_down = machines.iter().map(earlier);
    assert_eq!(earlier(&machines[2])[IMAGE_REMAINING..=IMAGE_LATCH], [0, 0, 1]);
    for bytes in laid_down.chain([vec![0; EARLIER[1]], vec![0xFF; EARLIER[1]]]) {
        assert_eq!(bytes.len(), EARLIER[1]);
        for length in EARLIER {
            assert_eq!(left(&machines[0], &bytes[..length]), Err(Refusal::ImageLength));
            let mut image = bytes[..length].to_vec();
            assert_eq!(calls::new(&mut image), Err(Refusal::ImageLength));
            assert_eq!(image, bytes[..length]);
        }
    }
}
