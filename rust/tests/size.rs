//! The size of the storage: how it is set, what it changes, and what it leaves alone.

use reu::*;

const AT_ONCE: u8 = COMMAND_FF00_DISABLE | COMMAND_EXECUTE;
const TYPES: [u8; 4] = [STORE, RECALL, SWAP, VERIFY];

/// What the papers say of a size: its bytes, STATUS's mark, and the number in bits 2 and 3 of image byte 19.
#[derive(Clone, Copy)]
struct Paper {
    size: Size,
    bytes: usize,
    mark: u8,
    code: u8,
}

const PAPERS: [Paper; 3] = [
    Paper { size: Size::K128, bytes: 131_072, mark: 0x00, code: 2 },
    Paper { size: Size::K256, bytes: 262_144, mark: 0x10, code: 1 },
    Paper { size: Size::K512, bytes: 524_288, mark: 0x10, code: 0 },
];

/// An enabled machine of this size.
fn enabled(size: Size) -> Machine {
    let mut machine = Machine::with_size(size);
    machine.set_enabled(true);
    machine
}

/// Writes addresses and length, but no COMMAND. The bank is stored OR $F8.
fn address(machine: &mut Machine, c64: u16, expansion: u32, length: u16) {
    let ([c64_low, c64_high], [length_low, length_high]) = (c64.to_le_bytes(), length.to_le_bytes());
    let [low, high, bank, _] = expansion.to_le_bytes();
    let counters = [c64_low, c64_high, low, high, bank, length_low, length_high];
    for (register, value) in (0xDF00 + C64_ADDRESS_LOW..).zip(counters) {
        machine.write(register, value);
    }
}

/// One cycle with BA high.
fn cycle(machine: &mut Machine) -> Step {
    machine.run_reu_cycle(true, 0, false, true)
}

/// Cycles until the CPU has the bus again. Answers how many the controller had.
fn run(machine: &mut Machine) -> usize {
    (0..200_000).take_while(|_| cycle(machine).busy).count()
}

/// An image with something in every field that it can have while no storage is attached.
fn full_image(paper: Paper) -> [u8; IMAGE_SIZE] {
    let mut image = *Machine::with_size(paper.size).image();
    for (place, byte) in (1..).zip(&mut image[1..18]) {
        *byte = 0xA0 + place;
    }
    image[0] = 0xEF | paper.mark;
    image[18] = !FLAG_ATTACHED;
    image[19] = FLAG_REFRESH | FLAG_RELEASE | paper.code << 2;
    image[20] = 2;
    image[IMAGE_GRANTED_CYCLES..].copy_from_slice(&[1, 2, 3, 4]);
    image
}

/// The answer of the call as the library exports it.
fn raw_set_size(image: &mut [u8], size: u64) -> u32 {
    // SAFETY: the slice is valid for its length.
    unsafe { raw::reu_set_size(image.as_mut_ptr(), image.len(), size) }
}

#[test]
fn names_have_the_papers_numbers() {
    assert_eq!([SIZE_128K, SIZE_256K, SIZE_512K], PAPERS.map(|paper| paper.bytes));
    assert_eq!([FLAG_SIZE_128K, FLAG_SIZE_256K, FLAG_SIZE_512K], PAPERS.map(|paper| paper.code << 2));
    assert_eq!((FLAG_SIZE, STATUS_VERSION, STORAGE_SIZE), (0x0C, 0x10, 524_288));
    for Paper { size, bytes, .. } in PAPERS {
        assert_eq!((size.bytes(), Size::try_from(bytes)), (bytes, Ok(size)));
        for other in [bytes - 1, bytes + 1, bytes + (1 << 32)] {
            assert_eq!(Size::try_from(other), Err(Refusal::Size));
        }
    }
    assert_eq!(Size::default(), Size::K512);
}

#[test]
fn new_has_512_kib() {
    for paper in PAPERS {
        let mut image = full_image(paper);
        assert_eq!(calls::new(&mut image), Ok(()));
        assert_eq!((image[0], image[19]), (0x10, 0));
        assert_eq!(&image, Machine::new().image());
    }
    assert_eq!((Machine::new().size(), Machine::new().storage().len()), (Size::K512, 524_288));
}

/// From each size to each: bit 4 of byte 0 and bits 2 and 3 of byte 19, and nothing else.
#[test]
fn setting_changes_its_two_places() {
    for (from, to) in PAPERS.into_iter().flat_map(|from| PAPERS.map(|to| (from, to))) {
        for before in [*Machine::with_size(from.size).image(), full_image(from)] {
            let mut wanted = before;
            wanted[0] = before[0] & 0xEF | to.mark;
            wanted[19] = before[19] & 0xF3 | to.code << 2;
            let (mut image, mut by_raw) = (before, before);
            assert_eq!(calls::set_size(&mut image, to.bytes as u64), Ok(()));
            assert_eq!(raw_set_size(&mut by_raw, to.bytes as u64), 0);
            assert_eq!((image, by_raw), (wanted, wanted), "{} to {}", from.bytes, to.bytes);
        }
    }
}

/// Numbers that no storage has: around each size, every other power of two, and with bits beyond 32.
fn other_numbers() -> Vec<u64> {
    let sizes = PAPERS.map(|paper| paper.bytes as u64);
    let near = sizes.into_iter().flat_map(|size| [size - 1, size + 1, size + (1 << 32), size + (1 << 63)]);
    let powers = (0..64).map(|bit| 1 << bit).filter(|power| !sizes.contains(power));
    near.chain(powers).chain([0, 131_072 + 262_144, 131_072 * 7, 100_000, u64::MAX]).collect()
}

/// By 5, before and after the storage is attached: so 5 comes before 6.
#[test]
fn any_other_number_is_refused_by_5() {
    let numbers = other_numbers();
    assert!([0, 1, 65_536, 131_071, 1_048_576, 524_288 + (1 << 32), 1 << 63].iter().all(|it| numbers.contains(it)));
    for paper in PAPERS {
        for before in [full_image(paper), *enabled(paper.size).image()] {
            for &number in &numbers {
                let mut image = before;
                assert_eq!(raw_set_size(&mut image, number), 5 << 24, "{number}");
                assert_eq!(calls::set_size(&mut image, number), Err(Refusal::Size), "{number}");
                assert_eq!(image, before);
            }
        }
    }
}

/// By 6, the same size too, also while disabled, after a reset and while a transfer runs.
#[test]
fn an_attached_storage_keeps_its_size() {
    for paper in PAPERS {
        let mut machines = [(); 4].map(|()| enabled(paper.size));
        machines[1].set_enabled(false);
        machines[2].reset(true);
        machines[3].write(0xDF01, SWAP | AT_ONCE);
        for mut machine in machines {
            machine.storage_mut().fill(7);
            let before = machine.clone();
            for to in PAPERS {
                let mut image = *before.image();
                assert_eq!(raw_set_size(&mut image, to.bytes as u64), 6 << 24);
                assert_eq!(&image, before.image());
                assert_eq!(machine.set_size(to.size), Err(Refusal::Attached));
                assert!(machine == before);
            }
        }
    }
}

/// Before it is attached a machine changes its storage with its size, as often as it likes.
#[test]
fn a_machine_owns_a_storage_of_its_size() {
    let mut machine = Machine::new();
    machine.bus_mut().fill(9);
    machine.set_enabled(false); // attaches nothing
    for paper in PAPERS.into_iter().chain(PAPERS).chain([PAPERS[2], PAPERS[0]]) {
        machine.storage_mut().fill(7);
        assert_eq!(machine.set_size(paper.size), Ok(()));
        assert_eq!((machine.size(), machine.capacity_bytes()), (paper.size, 0));
        assert!(machine.storage() == vec![0; paper.bytes] && machine.bus() == vec![9; BUS_SIZE]);
        let mut new = Machine::with_size(paper.size);
        new.bus_mut().fill(9);
        assert!(machine == new);
    }
}

#[test]
fn capacity_is_the_size_once_attached() {
    for paper in PAPERS {
        let mut machine = Machine::with_size(paper.size);
        machine.storage_mut().fill(7);
        assert_eq!((machine.storage_present(), machine.capacity_bytes()), (false, 0));
        machine.set_enabled(true);
        assert!(machine.storage() == vec![0; paper.bytes]);
        machine.storage_mut().fill(7);
        let steps: [fn(&mut Machine); 3] = [|it| it.set_enabled(false), |it| it.reset(true), |it| it.set_enabled(true)];
        for step in steps {
            assert_eq!((machine.storage_present(), machine.capacity_bytes()), (true, paper.bytes));
            assert_eq!(machine.size(), paper.size);
            step(&mut machine);
        }
        assert_eq!((machine.capacity_bytes(), machine.size()), (paper.bytes, paper.size));
        assert!(machine.storage() == vec![7; paper.bytes]);
    }
}

/// STATUS by both calls. A read clears the events, and the mark stays.
fn shows(machine: &mut Machine, status: u8) {
    assert_eq!(machine.debug_register(0), status);
    assert_eq!((machine.read(0xDF00), machine.read(0xDF20)), (status, status & 0x10));
}

/// A command of one byte, of which nothing is equal; it runs to its end.
fn shows_through_a_command(mut machine: Machine, transfer_type: u8, mark: u8) {
    machine.bus_mut()[0] = 1;
    address(&mut machine, 0, 0, 1);
    machine.write(0xDF01, transfer_type | COMMAND_EXECUTE);
    shows(&mut machine, mark);
    machine.trigger_ff00();
    assert!(machine.dma_active());
    shows(&mut machine, mark);
    assert_eq!(run(&mut machine), if transfer_type == SWAP { 2 } else { 1 });
    let events = if transfer_type == VERIFY { 0x60 } else { 0x40 };
    assert_eq!(machine.debug_register(0), mark | events);
    machine.write(0xDF00, !mark); // ignored
    machine.write(0xDF09, INTERRUPT_GLOBAL_ENABLE | INTERRUPT_END_OF_BLOCK_ENABLE);
    let mut started = machine.clone();
    started.write(0xDF01, transfer_type | AT_ONCE); // of the events and the mark a start leaves the mark
    shows(&mut started, mark);
    shows(&mut machine, mark | events | 0x80);
}

#[test]
fn the_mark_is_shown_and_kept() {
    for Paper { size, mark, .. } in PAPERS {
        let mut machine = Machine::with_size(size);
        shows(&mut machine, mark);
        machine.write(0xDF01, STORE | AT_ONCE); // a start without storage
        shows(&mut machine, mark);
        for transfer_type in TYPES {
            shows_through_a_command(enabled(size), transfer_type, mark);
        }
        for (hard_reset, attached) in [(false, false), (true, false), (false, true), (true, true)] {
            machine.set_enabled(attached);
            machine.write(0xDF01, SWAP | AT_ONCE);
            machine.reset(hard_reset);
            assert_eq!(machine.registers(), [mark, 0x10, 0, 0, 0, 0, 0xF8, 0xFF, 0xFF, 0x1F, 0x3F]);
        }
        machine.set_enabled(false);
        shows(&mut machine, mark);
    }
}

/// A machine whose image is this one's with another expansion address in the transfer; a written bank is at least $F8.
fn at_expansion(machine: &Machine, expansion: u32) -> Machine {
    let mut image = *machine.image();
    image[IMAGE_EXPANSION_ADDRESS..IMAGE_REMAINING].copy_from_slice(&expansion.to_le_bytes()[..3]);
    Machine::open(&image, machine.bus(), machine.storage()).expect("any address is accepted")
}

/// A command of one byte finds the storage's byte at this place: the bus has $11, this place $22, the others $33.
fn finds(paper: Paper, transfer_type: u8, expansion: u32, place: usize) {
    let mut machine = enabled(paper.size);
    machine.storage_mut().fill(0x33);
    machine.storage_mut()[place] = 0x22;
    machine.bus_mut()[0x1000] = 0x11;
    address(&mut machine, 0x1000, 0, 1);
    machine.write(0xDF01, transfer_type | AT_ONCE);
    machine = at_expansion(&machine, expansion);
    if transfer_type == VERIFY {
        machine.bus_mut()[0x1000] = 0x22;
    }
    run(&mut machine);
    assert_eq!(machine.debug_register(0), paper.mark | 0x40, "${expansion:06X}");
    let (bus, stored) = [(0x11, 0x11), (0x22, 0x22), (0x22, 0x11), (0x22, 0x22)][usize::from(transfer_type)];
    assert_eq!((machine.bus()[0x1000], machine.storage()[place]), (bus, stored), "${expansion:06X}");
    let mut others = vec![0x33; paper.bytes];
    others[place] = stored;
    assert!(machine.storage() == others, "${expansion:06X}");
}

/// Around each multiple of a size near both ends of the 24 bits.
#[test]
fn an_address_is_at_its_remainder_by_the_size() {
    for (paper, transfer_type) in PAPERS.into_iter().flat_map(|paper| TYPES.map(|kind| (paper, kind))) {
        let (size, last) = (paper.bytes as u32, paper.bytes - 1);
        for multiple in [0, size, 2 * size, 3 * size, 0x80_0000, 0xFF_FFFF + 1 - size] {
            for (expansion, place) in [(0, 0), (1, 1), (0x1_2345, 0x1_2345), (size - 1, last)] {
                finds(paper, transfer_type, multiple + expansion, place);
            }
        }
    }
    // The places by themselves: what 17, 18 and 19 address lines leave of two addresses.
    for (paper, [below, top]) in
        PAPERS.into_iter().zip([[0x1_5678, 0x1_FFFF], [0x3_5678, 0x3_FFFF], [0x7_5678, 0x7_FFFF]])
    {
        finds(paper, STORE, 0x0F_5678, below);
        finds(paper, RECALL, 0xFF_FFFF, top);
    }
}

/// A store of four bytes over the end of the storage, from the last place but one. The counters run on, as written.
#[test]
fn a_block_goes_on_at_the_start_of_the_storage() {
    for (paper, bank, bank_after) in [(PAPERS[0], 0xF9, 0xFA), (PAPERS[1], 0xFB, 0xFC), (PAPERS[2], 0xFF, 0x00)] {
        let mut machine = enabled(paper.size);
        machine.bus_mut()[0x1000..0x1004].copy_from_slice(&[1, 2, 3, 4]);
        address(&mut machine, 0x1000, bank << 16 | 0xFFFE, 4);
        machine.write(0xDF01, STORE | AT_ONCE);
        let steps = [(); 4].map(|()| cycle(&mut machine));
        let over = Step { busy: true, passed_c64: false, passed_expansion: true };
        let within = Step { passed_expansion: false, ..over };
        // Only the top of the 24 bits is reported, not that of the storage.
        assert_eq!(steps, [within, if bank == 0xFF { over } else { within }, within, within]);
        assert_eq!(machine.registers()[2..9], [4, 0x10, 2, 0, bank_after, 1, 0]);
        assert_eq!(machine.read(0xDF06), bank_after | 0xF8);
        let mut wanted = vec![0; paper.bytes];
        wanted[paper.bytes - 2..].copy_from_slice(&[1, 2]);
        wanted[..2].copy_from_slice(&[3, 4]);
        assert!(machine.storage() == wanted);
    }
}

/// Session R14 with each size.
#[test]
fn both_tops() {
    for paper in PAPERS {
        let mut machine = enabled(paper.size);
        (machine.bus_mut()[0xFFFF], machine.bus_mut()[0]) = (0xAA, 0xBB);
        address(&mut machine, 0xFFFF, 0xFF_FFFF, 2);
        machine.write(0xDF01, STORE | AT_ONCE);
        let both = Step { busy: true, passed_c64: true, passed_expansion: true };
        assert_eq!(cycle(&mut machine), both);
        assert_eq!(cycle(&mut machine), Step { busy: true, passed_c64: false, passed_expansion: false });
        assert!(!machine.dma_active());
        assert_eq!((machine.storage()[paper.bytes - 1], machine.storage()[0]), (0xAA, 0xBB));
        assert_eq!(machine.registers()[2..7], [0x01, 0x00, 0x01, 0x00, 0x00]);
    }
}

/// Every register by `debug_register` and by a read of a copy, without the mark.
fn shown(machine: &Machine) -> Vec<u8> {
    let mut copy = *machine.image();
    let read = (0..32).map(|index| calls::read(&mut copy, 0xDF00 + index).unwrap());
    let mut shown: Vec<u8> = (0..12).map(|index| machine.debug_register(index)).chain(read).collect();
    shown[0] &= 0xEF;
    shown[12] &= 0xEF;
    shown
}

/// The same commands with each size, cycle by cycle beside 512 KiB, under a BA that falls and rises: answers and
/// registers are the same but for the mark. Bus and storage have one byte everywhere, which hides where they fold.
#[test]
fn counters_and_answers_are_those_of_512_kib() {
    let blocks = [
        (0xFFF0, 0xF9_FFF8, COMMAND_AUTOLOAD),
        (0x1000, 0xFB_FFFC, 0),
        (0x2000, 0xFF_FFF0, 0),
        (0, 0xF8_0000, COMMAND_AUTOLOAD),
    ];
    for (kind, (c64, expansion, autoload)) in TYPES.into_iter().flat_map(|kind| blocks.map(|block| (kind, block))) {
        let mut machines = PAPERS.map(|paper| enabled(paper.size));
        for machine in &mut machines {
            machine.bus_mut().fill(0x5A);
            machine.storage_mut().fill(0x5A);
            address(machine, c64, expansion, 32);
            machine.write(0xDF01, kind | autoload | AT_ONCE);
        }
        for number in 0..200 {
            let (ba_high, phi1) = (number % 7 != 3, number % 7 != 4 && number % 11 != 5);
            let answers = machines.each_mut().map(|machine| machine.run_reu_cycle(ba_high, number, !ba_high, phi1));
            assert_eq!(answers, [answers[2]; 3], "cycle {number}");
            assert!(machines.iter().all(|machine| shown(machine) == shown(&machines[2])), "cycle {number}");
        }
        assert!(machines.iter().all(|machine| !machine.dma_active()));
    }
}

/// A machine that begins to swap one byte, $11 on the bus with $22 at the storage's last place, and that place. The expansion
/// address is at its top.
fn swapping_the_last(paper: Paper) -> (Machine, usize) {
    let mut machine = enabled(paper.size);
    let last = paper.bytes - 1;
    (machine.bus_mut()[0x1000], machine.storage_mut()[last]) = (0x11, 0x22);
    address(&mut machine, 0x1000, 0xFF_FFFF, 1);
    machine.write(0xDF01, SWAP | AT_ONCE);
    (machine, last)
}

/// The first half of a cycle writes the storage too: a fall between the phases of a swap gives the byte back.
#[test]
fn the_halves_of_a_cycle_find_the_same_place() {
    for paper in PAPERS {
        let (mut machine, last) = swapping_the_last(paper);
        assert_eq!(machine.bus_action(true, true, 0), Grant::Transfer);
        assert!(machine.tick_dma(0, false).busy);
        assert_eq!((machine.bus()[0x1000], machine.storage()[last]), (0x11, 0x11));
        assert_eq!(machine.bus_action(true, false, 1), Grant::Hold);
        assert_eq!((machine.bus()[0x1000], machine.storage()[last]), (0x11, 0x22));
        assert!(machine.storage()[..last].iter().all(|&byte| byte == 0));
    }
}

/// Session R16 with each size, at the top of the expansion address.
#[test]
fn a_late_fall_leaves_the_bus_byte_twice() {
    for paper in PAPERS {
        let (mut machine, last) = swapping_the_last(paper);
        assert!((10..=14).all(|number| machine.run_reu_cycle(number != 10, number, false, number != 11).busy));
        assert!(!machine.dma_active());
        assert_eq!((machine.bus()[0x1000], machine.storage()[last], machine.granted_cycles()), (0x11, 0x11, 4));
    }
}

/// The size of an image with these bytes 0 and 19. It is refused unless bits 4 to 7 of byte 19 are 0, bits 2 and 3 name
/// one of the three sizes, and bit 4 of STATUS is its mark.
fn size_of(status: u8, more: u8) -> Result<usize, Refusal> {
    let named = PAPERS.iter().find(|paper| paper.code == more >> 2 && paper.mark == status & 0x10);
    named.map(|paper| paper.bytes).ok_or(Refusal::ImageField)
}

/// Every pair of the two bytes, before and after the storage is attached.
#[test]
fn an_image_names_a_size_and_has_its_mark() {
    for (machine, attached) in [(Machine::new(), false), (enabled(Size::K128), true), (enabled(Size::K256), true)] {
        let mut image = *machine.image();
        for (status, more) in (0..=255).flat_map(|status| (0..=255).map(move |more| (status, more))) {
            (image[0], image[19]) = (status, more);
            let capacity = size_of(status, more).map(|size| if attached { size } else { 0 });
            assert_eq!(calls::capacity_bytes(&image), capacity, "{status:02X}, {more:02X}");
        }
    }
}

/// A machine in the middle of a swap of five bytes over the end of its storage.
fn swapping(paper: Paper) -> Machine {
    let mut machine = enabled(paper.size);
    machine.bus_mut()[0x1000..0x1005].copy_from_slice(b"HELLO");
    address(&mut machine, 0x1000, 0xFF_FFFE, 5);
    machine.write(0xDF01, SWAP | AT_ONCE);
    assert!((0..5).all(|_| cycle(&mut machine).busy));
    machine
}

#[test]
fn a_saved_machine_opens_with_a_storage_of_its_size() {
    for paper in PAPERS {
        let mut machine = swapping(paper);
        let mut opened = Machine::open(machine.image(), machine.bus(), machine.storage()).unwrap();
        assert!(opened == machine && opened.size() == paper.size);
        assert_eq!((run(&mut machine), run(&mut opened)), (5, 5));
        assert!(opened == machine);
        assert_eq!((&opened.storage()[paper.bytes - 2..], &opened.storage()[..3]), (&b"HE"[..], &b"LLO"[..]));
        let new = Machine::with_size(paper.size);
        assert!(Machine::open(new.image(), new.bus(), new.storage()).unwrap() == new);
    }
}

/// Attached or not: the image has set its size.
#[test]
fn a_saved_machine_with_another_storage_is_refused_by_4() {
    let storage = vec![7; 524_289];
    for paper in PAPERS {
        let others = PAPERS.map(|other| other.bytes).into_iter().filter(|other| *other != paper.bytes);
        for length in others.chain([0, paper.bytes - 1, paper.bytes + 1]) {
            for machine in [Machine::with_size(paper.size), swapping(paper)] {
                let opened = Machine::open(machine.image(), machine.bus(), &storage[..length]);
                assert_eq!(opened.unwrap_err(), Refusal::StorageLength, "{} as {length}", paper.bytes);
            }
        }
    }
}

/// An enabled machine with an address and a length, whose bytes do not repeat with a size or a page.
fn filled(paper: Paper, c64: u16, expansion: u32, length: u16) -> Machine {
    let mut machine = enabled(paper.size);
    machine.bus_mut().iter_mut().enumerate().for_each(|(place, byte)| *byte = (place * 7 + place / 256) as u8);
    machine.storage_mut().iter_mut().enumerate().for_each(|(place, byte)| *byte = (place % 251 + place / 65_536) as u8);
    address(&mut machine, c64, expansion, length);
    machine
}

/// Swaps a block, writes its registers with the values that they showed at that start, and swaps it again. In between
/// each byte has changed places with its partner and no other has changed; at the end all are as in a run that stays idle.
fn swap_twice(paper: Paper, c64: u16, expansion: u32, length: u16) {
    let mut idle = filled(paper, c64, expansion, length);
    let mut machine = idle.clone();
    let bytes = if length == 0 { 65_536 } else { usize::from(length) };
    let shown: Vec<u8> = (2..=8).map(|register| machine.read(0xDF00 + register)).collect();
    machine.write(0xDF01, SWAP | AT_ONCE);
    assert_eq!(run(&mut machine), 2 * bytes);
    let (mut bus, mut storage) = (idle.bus().to_vec(), idle.storage().to_vec());
    for byte in 0..bytes {
        let partner = (expansion as usize + byte) % 0x100_0000 % paper.bytes;
        std::mem::swap(&mut bus[(usize::from(c64) + byte) % 65_536], &mut storage[partner]);
    }
    assert!(machine.bus() == bus && machine.storage() == storage && bus != idle.bus());
    for (register, value) in (2..=8).zip(shown).rev() {
        machine.write(0xDF00 + register, value);
    }
    machine.write(0xDF01, SWAP | AT_ONCE);
    assert_eq!(run(&mut machine), 2 * bytes);
    assert_eq!(run(&mut idle), 0);
    assert!(machine.bus() == idle.bus() && machine.storage() == idle.storage());
}

/// Within the storage, over its end, and a full block over both tops.
#[test]
fn a_block_swapped_twice_is_back() {
    for paper in PAPERS {
        swap_twice(paper, 0x1000, 0xF8_1234, 1);
        swap_twice(paper, 0xFFFD, 0xF8_0000 + paper.bytes as u32 - 2, 5);
        swap_twice(paper, 0x8000, 0xFF_8000, 0);
    }
}
