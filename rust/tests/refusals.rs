//! Every call with every wrong buffer, with each size: the right refusal, in the right order, and nothing changed.

use reu::*;
use std::ptr::{null, null_mut};

const SIZES: [Size; 3] = [Size::K128, Size::K256, Size::K512];

/// A call: whether it takes a bus and a storage, and how it is made.
type Call = (bool, bool, fn(&mut [u8], &mut [u8], &mut [u8]) -> Result<(), Refusal>);

fn unit<T>(answer: Result<T, Refusal>) -> Result<(), Refusal> {
    answer.map(|_| ())
}

/// All but `new`, which does not look at the image's fields, and `set_size`, which has refusals of its own.
const CALLS: [Call; 14] = [
    (false, false, |image, _, _| calls::reset(image, false)),
    (false, true, |image, _, storage| calls::set_enabled(image, storage, true)),
    (false, false, |image, _, _| unit(calls::storage_present(image))),
    (false, false, |image, _, _| unit(calls::capacity_bytes(image))),
    (false, false, |image, _, _| calls::trigger_ff00(image)),
    (false, false, |image, _, _| unit(calls::read(image, 0xDF00))),
    (false, false, |image, _, _| calls::write(image, 0xDF01, 0x90)),
    (false, false, |image, _, _| unit(calls::dma_active(image))),
    (false, true, |image, _, storage| unit(calls::bus_action(image, storage, true, true, 0))),
    (false, false, |image, _, _| unit(calls::cpu_ready_after_dma(image, true))),
    (false, false, |image, _, _| unit(calls::debug_register(image, 0))),
    (false, false, |image, _, _| unit(calls::c64_access(image))),
    (true, true, |image, bus, storage| unit(calls::tick_dma(image, bus, storage, 0, false))),
    (true, true, |image, bus, storage| unit(calls::run_reu_cycle(image, bus, storage, true, 0, false, true))),
];

/// In the middle of a swap.
fn swapping(size: Size) -> Machine {
    let mut machine = Machine::with_size(size);
    machine.set_enabled(true);
    machine.write(0xDF01, 0x92);
    machine
}

/// A machine's image: right, with a delay of 3, the other mark in STATUS, a size of no storage and each bit behind it;
/// one byte short, one byte long, empty.
fn images(machine: &Machine) -> Vec<Vec<u8>> {
    let right = machine.image();
    let set = |place: usize, bits: u8| {
        let mut image = right.to_vec();
        image[place] |= bits;
        image
    };
    let mut other_mark = right.to_vec();
    other_mark[usize::from(STATUS)] ^= 0x10;
    let fields = [0x0C, 0x10, 0x20, 0x40, 0x80].map(|bits| set(IMAGE_MORE_FLAGS, bits));
    let lengths = [right[1..].to_vec(), [&right[..], &[0]].concat(), Vec::new()];
    [vec![right.to_vec(), set(IMAGE_DELAY, 3), other_mark], fields.into(), lengths.into()].concat()
}

/// The bytes of the storage that belongs to an image. None does if the byte of the size holds something else than one of
/// the three, or STATUS has another mark than that size.
fn storage_size(image: &[u8]) -> Option<usize> {
    match (image[IMAGE_MORE_FLAGS] >> 2, image[usize::from(STATUS)] & 0x10) {
        (0, 0x10) => Some(524_288),
        (1, 0x10) => Some(262_144),
        (2, 0x00) => Some(131_072),
        _ => None,
    }
}

/// What is refused of these buffers, if anything.
fn expected(image: &[u8], bus: Option<usize>, storage: Option<usize>) -> Result<(), Refusal> {
    if image.len() != IMAGE_SIZE {
        return Err(Refusal::ImageLength);
    }
    let size = storage_size(image).filter(|_| image[IMAGE_DELAY] <= 2).ok_or(Refusal::ImageField)?;
    if bus.is_some_and(|length| length != BUS_SIZE) {
        return Err(Refusal::BusLength);
    }
    if storage.is_some_and(|length| length != size) {
        return Err(Refusal::StorageLength);
    }
    Ok(())
}

/// One call with copies of the buffers, all bytes of bus and storage 7.
fn try_call(call: &Call, image: &[u8], bus_len: usize, storage_len: usize) {
    let &(takes_bus, takes_storage, run) = call;
    let (mut image_after, mut bus, mut storage) = (image.to_vec(), vec![7; bus_len], vec![7; storage_len]);
    let wanted = expected(image, takes_bus.then_some(bus_len), takes_storage.then_some(storage_len));
    assert_eq!(run(&mut image_after, &mut bus, &mut storage), wanted);
    if wanted.is_err() {
        assert_eq!(image_after, image);
        assert!(bus == vec![7; bus_len] && storage == vec![7; storage_len]);
    }
}

/// On images with and without an attached storage; the one that is lent is also as long as those of the other sizes.
fn wrong_buffers(size: Size) {
    let bus_lengths = [BUS_SIZE, BUS_SIZE - 1, BUS_SIZE + 1, 0];
    let storage_lengths = [131_072, 262_144, 524_288, size.bytes() - 1, size.bytes() + 1, 0];
    let images: Vec<Vec<u8>> = [Machine::with_size(size), swapping(size)].iter().flat_map(images).collect();
    for (call, image) in CALLS.iter().flat_map(|call| images.iter().map(move |image| (call, image))) {
        for bus_len in if call.0 { &bus_lengths[..] } else { &[0] } {
            for storage_len in if call.1 { &storage_lengths[..] } else { &[0] } {
                try_call(call, image, *bus_len, *storage_len);
            }
        }
    }
}

#[test]
fn wrong_buffers_are_refused_in_order() {
    SIZES.into_iter().for_each(wrong_buffers);
}

/// What `set_size` refuses once image and size are looked at: first a size of no storage, then one that comes too late.
fn expected_of_size(image: &[u8], size: u64) -> Result<(), Refusal> {
    expected(image, None, None)?;
    match size {
        131_072 | 262_144 | 524_288 if image[IMAGE_FLAGS] & FLAG_ATTACHED == 0 => Ok(()),
        131_072 | 262_144 | 524_288 => Err(Refusal::Attached),
        _ => Err(Refusal::Size),
    }
}

#[test]
fn set_size_is_refused_in_order() {
    let machines = SIZES.map(|size| [Machine::with_size(size), swapping(size)]);
    for image in machines.iter().flatten().flat_map(images) {
        for size in [131_072, 262_144, 524_288, 0, 131_071, 524_289, 524_288 + (1 << 32)] {
            let mut after = image.clone();
            let wanted = expected_of_size(&image, size);
            assert_eq!(calls::set_size(&mut after, size), wanted, "{size}");
            assert!(wanted.is_ok() || after == image);
        }
    }
}

#[test]
fn new_looks_only_at_the_length() {
    for mut image in SIZES.map(swapping).iter().flat_map(images) {
        let before = image.clone();
        let wanted = if image.len() == IMAGE_SIZE { Ok(()) } else { Err(Refusal::ImageLength) };
        assert_eq!(calls::new(&mut image), wanted);
        assert_eq!(image == before, wanted.is_err());
    }
}

#[test]
fn null_with_length_0_is_refused() {
    let (no, not) = (null_mut(), null());
    let refused = Refusal::ImageLength.number() << 24;
    // SAFETY: null with length 0 is allowed.
    let answers = unsafe {
        [
            raw::reu_new(no, 0),
            raw::reu_reset(no, 0, 0),
            raw::reu_set_size(no, 0, 131_072),
            raw::reu_set_enabled(no, 0, no, 0, 1),
            raw::reu_storage_present(not, 0),
            raw::reu_capacity_bytes(not, 0),
            raw::reu_trigger_ff00(no, 0),
            raw::reu_read(no, 0, 0xDF00),
            raw::reu_write(no, 0, 0xDF01, 0x90),
            raw::reu_dma_active(not, 0),
            raw::reu_bus_action(no, 0, no, 0, 1, 1, 0),
            raw::reu_cpu_ready_after_dma(no, 0, 1),
            raw::reu_debug_register(not, 0, 0),
            raw::reu_c64_access(not, 0),
            raw::reu_tick_dma(no, 0, no, 0, no, 0, 0, 0),
            raw::reu_run_reu_cycle(no, 0, no, 0, no, 0, 1, 0, 0, 1),
        ]
    };
    assert_eq!(answers, [refused; 16]);
}

#[test]
fn a_machine_opens_only_what_is_one() {
    let (bus, storage) = (vec![1; BUS_SIZE], vec![2; 524_288]);
    for image in SIZES.map(swapping).iter().flat_map(images) {
        let lengths = [131_071, 131_072, 262_143, 262_144, 524_287, 524_288].into_iter();
        for (bus, length) in lengths.flat_map(|length| [(&bus[..], length), (&bus[1..], length)]) {
            let storage = &storage[..length];
            let opened = Machine::open(&image, bus, storage);
            match expected(&image, Some(bus.len()), Some(storage.len())) {
                Ok(()) => assert_eq!(opened.map(|machine| *machine.image()).unwrap()[..], image),
                Err(refusal) => assert_eq!(opened.unwrap_err(), refusal),
            }
        }
    }
}

#[test]
fn any_flag_but_0_is_true() {
    let mut machine = Machine::new();
    machine.set_enabled(true);
    machine.write(0xDF01, 0x90);
    let (image, mut storage) = (*machine.image(), machine.storage().to_vec());
    for (flag, grant) in [(0, 1), (1, 2), (2, 2), (0x100, 2), (0x1_0000, 2), (u32::MAX, 2)] {
        let mut image = image;
        // SAFETY: the pointers are valid for their lengths and the buffers are two.
        let answer = unsafe {
            raw::reu_bus_action(image.as_mut_ptr(), IMAGE_SIZE, storage.as_mut_ptr(), storage.len(), 1, flag, 0)
        };
        assert_eq!(answer, grant, "flag {flag:#x}");
    }
}
