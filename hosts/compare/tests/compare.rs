//! What can be tested of the run itself, and the recorded list, which needs no original.

use compare::calls::{Call, Step, list_from, list_text};
use compare::compare::{FULL_RUN, Pair, Run};
use compare::courses::{KINDS, Kind, then_high};
use compare::demand3::Block;
use compare::generate::Generator;
use compare::granted::AtTop;
use compare::passed::AtTops;
use compare::port::Library;
use compare::record::replay;
use compare::refusals::{Refusals, Refuser};
use compare::rng::{Rng, noise};
use compare::screen::{self, Met, Pace, Rule, Sides};
use compare::short::{Way, way};
use compare::sides::{BUS, Held, Image, Lent, Port, STORAGE};
use compare::sizes::{AtSizes, BLANK, size_of};
use compare::taken::{OFTEN, Taken};
use compare::{SEED, demand3, remaining};
use reu::*;
use std::cell::RefCell;
use std::collections::HashSet;
use std::io::{BufRead, BufReader};
use std::process::{Command, Stdio};

const RECORDED: &str = include_str!("../recorded/original.txt");
const PROGRAM: &str = env!("CARGO_BIN_EXE_compare");

/// The library, with each call kept beside the image that it was lent.
#[derive(Clone, Copy)]
struct Kept<'a>(&'a RefCell<Vec<(Call, Vec<u8>)>>);

impl Port for Kept<'_> {
    fn call(&mut self, call: Call, lent: Lent) -> u32 {
        self.0.borrow_mut().push((call, lent.image.to_vec()));
        Library.call(call, lent)
    }
}

/// What each part that draws from a seed calls: the random run, the refusals, a run of demand 3, and the swaps.
fn called_from(seed: u64) -> [Vec<(Call, Vec<u8>)>; 4] {
    let calls = RefCell::new(Vec::new());
    let (mut tried, mut right) = (Held::new(Kept(&calls)), Held::new(Library));
    let mut pair = Pair { tried: &mut tried, right: &mut right };
    assert!(Run::new(seed).compare(&mut pair, 10_000).is_ok());
    let run = calls.take();
    let mut refusals = Refusals::new(Kept(&calls), seed);
    assert!((0..100).all(|_| refusals.refuse(&BLANK).is_ok()));
    let refused = calls.take();
    assert!(demand3::run(&mut tried, None, STORAGE, seed).is_ok());
    let demand3 = calls.take();
    assert!(screen::run(&mut Sides::One(&mut tried), seed, false).is_ok());
    [run, refused, demand3, calls.take()]
}

#[test]
fn a_seed_gives_the_same_calls_each_time_and_another_seed_others() {
    let called = called_from(SEED);
    assert!(called == called_from(SEED));
    for other in [SEED + 1, SEED ^ (1 << 63)] {
        for (part, (calls, others)) in called.iter().zip(called_from(other)).enumerate() {
            let differ = calls.iter().zip(&others).any(|((call, _), (other, _))| call != other);
            assert!(differ, "part {part} makes the same calls from {SEED} and {other}");
        }
    }
}

#[test]
fn a_full_run_must_have_met_the_top_of_the_count() {
    let met = |calls, reached, held| {
        let mut run = Run::new(SEED);
        (run.calls, run.at_top) = (calls, AtTop { reached, held });
        run.has_met_the_top().is_ok()
    };
    assert!(met(FULL_RUN, 1, 1) && met(FULL_RUN - 1, 0, 0));
    assert!(!met(FULL_RUN, 0, 0) && !met(FULL_RUN, 1, 0) && !met(FULL_RUN, 0, 1));
}

#[test]
fn a_full_run_must_have_met_all_that_is_counted_at_the_tops_of_the_addresses() {
    let met = |calls, counts| {
        let mut run = Run::new(SEED);
        (run.calls, run.at_tops) = (calls, AtTops(counts));
        run.has_met_the_tops().is_ok()
    };
    assert!(met(FULL_RUN, [1; 8]) && met(FULL_RUN - 1, [0; 8]));
    for at in 0..8 {
        let mut counts = [7; 8];
        counts[at] = 0;
        assert!(!met(FULL_RUN, counts), "{at}");
    }
}

#[test]
fn a_full_run_must_have_met_all_that_is_counted_at_each_size() {
    let met = |calls, counts| {
        let mut run = Run::new(SEED);
        (run.calls, run.at_sizes) = (calls, AtSizes(counts));
        run.has_met_the_sizes().is_ok()
    };
    assert!(met(FULL_RUN, [[1; 6]; 3]) && met(FULL_RUN - 1, [[0; 6]; 3]));
    for (size, at) in (0..3).flat_map(|size| (0..6).map(move |at| (size, at))) {
        let mut counts = [[7; 6]; 3];
        counts[size][at] = 0;
        assert!(!met(FULL_RUN, counts), "{size} {at}");
    }
}

#[test]
fn a_full_run_must_have_taken_each_way_at_each_size() {
    let met = |calls, counts| {
        let mut run = Run::new(SEED);
        (run.calls, run.taken) = (calls, Taken(counts));
        run.has_taken_all_ways().is_ok()
    };
    assert!(met(FULL_RUN, [[OFTEN; 12]; 3]) && met(FULL_RUN - 1, [[0; 12]; 3]));
    for (size, at) in (0..3).flat_map(|size| (0..12).map(move |at| (size, at))) {
        let mut counts = [[2 * OFTEN; 12]; 3];
        counts[size][at] = OFTEN - 1;
        assert!(!met(FULL_RUN, counts), "{size} {at}");
    }
}

/// Far fewer calls than a full run has already met it all; at least one in ten is at each of the smaller sizes.
#[test]
fn lists_come_with_each_size() {
    let (mut tried, mut right) = (Held::new(Library), Held::new(Library));
    let mut run = Run::new(SEED);
    assert!(run.compare(&mut Pair { tried: &mut tried, right: &mut right }, FULL_RUN / 10).is_ok());
    assert_eq!((run.at_sizes.missing(), run.taken.missing(OFTEN / 10)), Default::default());
    let calls = run.at_sizes.0.map(|met| met[0]);
    assert_eq!(calls.iter().sum::<u64>(), run.calls);
    assert!(calls[0] > run.calls / 2 && calls[1].min(calls[2]) > run.calls / 10, "{calls:?}");
}

/// A cycle of a running transfer, with BA at PHI1 before and now. The byte at the place of the transfer is 0 on both sides.
fn cycle_with(kind: u8, before: bool, now: bool) -> (Call, Image) {
    let mut image = BLANK;
    image[IMAGE_FLAGS] = FLAG_ATTACHED | if before { FLAG_BA_WAS_HIGH } else { 0 };
    (image[IMAGE_TRANSFER], image[IMAGE_TYPE]) = (1, kind);
    (Call::RunReuCycle { ba_high: 0, cycle: 0, ba_low: 1, ba_high_phi1: 8 * u32::from(now) }, image)
}

/// Which way a call on an image takes, where the two bytes are equal and where they differ.
fn ways_of((call, image): (Call, Image)) -> [Option<Way>; 2] {
    let (bus, storage) = (vec![0; BUS], vec![0; STORAGE]);
    [way(call, &image, &bus, &storage), way(call, &image, &[1; BUS], &storage)]
}

#[test]
fn each_cycle_takes_its_way() {
    let all = |way| [Some(way), Some(way)];
    let mut writes = cycle_with(SWAP, true, true);
    writes.1[IMAGE_PHASE] = 1;
    assert!(ways_of(writes) == all(Way::SwapWrite));
    for (kind, way) in [(STORE, Way::Store), (RECALL, Way::Recall), (SWAP, Way::SwapRead)] {
        assert!(ways_of(cycle_with(kind, true, true)) == all(way));
    }
    assert!(ways_of(cycle_with(VERIFY, true, true)) == [Some(Way::Verify), None]);
    for (kind, before) in [STORE, RECALL, SWAP, VERIFY].into_iter().flat_map(|kind| [(kind, false), (kind, true)]) {
        assert!(ways_of(cycle_with(kind, before, !before)) == [None; 2]);
        assert!(ways_of(cycle_with(kind, false, false)) == all(Way::Hold));
        let (call, mut image) = cycle_with(kind, before, kind == STORE);
        image[IMAGE_TRANSFER..].fill(0);
        assert!(ways_of((call, image)) == all(Way::Idle));
    }
}

/// What keeps a byte from its short way, a Hold and an idle cycle: all but being the last byte keeps a Hold, and only a delay and
/// a terminal pair an idle cycle.
#[test]
fn what_is_to_be_waited_for_takes_no_short_way() {
    let laid = [
        (IMAGE_DELAY, 1, true, true),
        (IMAGE_DELAY, 2, true, true),
        (IMAGE_FLAGS, FLAG_TERMINAL_WRITE, true, true),
        (IMAGE_FLAGS, FLAG_RECALL_REPEAT, true, false),
        (IMAGE_MORE_FLAGS, FLAG_REFRESH, true, false),
        (IMAGE_TRANSFER_FLAGS, TRANSFER_TAIL, true, false),
        (IMAGE_REMAINING, 1, false, false),
    ];
    for (place, byte, hold, idle) in laid {
        let with = |(call, mut image): (Call, Image), runs| {
            (image[IMAGE_TRANSFER], image[place]) = (runs, image[place] | byte);
            ways_of((call, image))[0]
        };
        assert!(with(cycle_with(STORE, true, true), 1).is_none(), "{place} {byte}");
        assert!(with(cycle_with(STORE, false, false), 1).is_none() == hold, "{place} {byte}");
        assert!(with(cycle_with(STORE, true, false), 0).is_none() == idle, "{place} {byte}");
    }
    let (call, mut image) = cycle_with(STORE, true, true);
    image[IMAGE_REMAINING..IMAGE_LATCH].copy_from_slice(&[1, 1]);
    assert!(ways_of((call, image))[0] == Some(Way::Store));
}

#[test]
fn of_the_other_calls_reads_looks_and_writes_that_start_nothing_take_a_short_way() {
    let image = cycle_with(SWAP, true, true).1;
    let looks = [
        Call::DebugRegister { index: 99 },
        Call::DmaActive,
        Call::C64Access,
        Call::StoragePresent,
        Call::CapacityBytes,
    ];
    assert!(looks.into_iter().all(|call| ways_of((call, image))[0] == Some(Way::Look)));
    for (addr, value) in
        (0..=u8::MAX).flat_map(|addr| [0, 0x10, 0x6F, 0x80, 0x83, 0x90, 0xFF].map(|value| (addr, value)))
    {
        let addr = 0xDF00 + u16::from(addr);
        let starts = [0xDF01, 0xDF21, 0xDF41, 0xDF61, 0xDF81, 0xDFA1, 0xDFC1, 0xDFE1].contains(&addr) && value >= 0x90;
        let writes = ways_of((Call::Write { addr, value }, image))[0] == Some(Way::Write);
        assert!(writes != starts, "{addr:x} {value:x}");
        assert!(ways_of((Call::Read { addr }, image))[0] == Some(Way::Read));
    }
    let others = [
        Call::New,
        Call::Reset { hard_reset: 0 },
        Call::SetEnabled { enabled: 1 },
        Call::TriggerFf00,
        Call::CpuReadyAfterDma { ba_high: 1 },
        Call::BusAction { ba_high: 1, ba_high_phi1: 1, cycle: 0 },
        Call::TickDma { cycle: 0, ba_low: 0 },
        Call::SetSize { size: 131_072 },
    ];
    assert!(others.into_iter().all(|call| ways_of((call, image)) == [None; 2]));
}

/// The record is the original's, which has one size: no line sets another, and no image has one.
#[test]
fn the_record_is_at_one_size() {
    let lines: Vec<(Step, &str)> =
        RECORDED.lines().filter_map(|line| Some((Step::parse(line.split(" = ").next()?)?, line))).collect();
    let settings = lines.iter().filter(|(step, _)| matches!(step, Step::Call(Call::SetSize { .. })));
    let accepted: Vec<&str> = settings.map(|(_, line)| *line).filter(|line| line.contains(" = 0")).collect();
    assert!(!accepted.is_empty() && accepted.iter().all(|line| *line == "set_size 524288 = 0"), "{accepted:?}");
    for (step, line) in lines {
        assert!(!matches!(step, Step::Image(image) if size_of(&image) != Some(STORAGE)), "{line}");
    }
}

/// What the first call on each image is lent: no pair twice, and each type as often as the others.
#[test]
fn each_pair_of_remaining_is_tried_and_each_block_run_to_its_end() {
    let calls = RefCell::new(Vec::new());
    let (mut tried, mut right) = (Held::new(Kept(&calls)), Held::new(Library));
    let mut pair = Pair { tried: &mut tried, right: &mut right };
    assert_eq!(remaining::pairs(&mut pair, SEED), Ok(65_536));
    let images = calls.take().into_iter().filter(|(call, _)| matches!(call, Call::RunReuCycle { .. }));
    let lent: Vec<(u8, Vec<u8>)> =
        images.map(|(_, image)| (image[IMAGE_TYPE], image[IMAGE_REMAINING..IMAGE_LATCH].to_vec())).collect();
    assert_eq!(lent.iter().map(|(_, bytes)| bytes).collect::<HashSet<_>>().len(), 65_536);
    assert_eq!([0, 1, 2, 3].map(|kind| lent.iter().filter(|(of, _)| *of == kind).count()), [16_384; 4]);
    let (mut tried, mut right) = (Held::new(Library), Held::new(Library));
    assert_eq!(remaining::blocks(&mut Pair { tried: &mut tried, right: &mut right }), Ok(20));
}

/// The lengths of the stretches of a course, the first of them high; the last one is cut and left out.
fn stretches(course: impl Iterator<Item = bool>) -> Vec<usize> {
    let mut lengths = vec![0];
    let mut level = true;
    for high in course {
        if high != level {
            lengths.push(0);
            level = high;
        }
        *lengths.last_mut().unwrap() += 1;
    }
    lengths.pop();
    lengths
}

/// Each kind of course from some seeds.
fn courses() -> impl Iterator<Item = (Kind, u64)> {
    KINDS.into_iter().flat_map(|kind| (0..20).map(move |seed| (kind, seed)))
}

/// The low ones of these stretches.
fn low(stretches: &[usize]) -> Vec<usize> {
    stretches.iter().skip(1).step_by(2).copied().collect()
}

#[test]
fn each_course_of_ba_begins_high_and_has_no_call_low_alone() {
    for (kind, seed) in courses() {
        let found = stretches(kind.course(&mut Rng::new(seed)).take(40_000));
        assert!(low(&found).is_empty() == matches!(kind, Kind::High), "{kind:?} {seed} {found:?}");
        assert!(found.iter().all(|length| *length > 0), "{kind:?} {seed} {found:?}");
        assert!(low(&found).iter().all(|length| *length >= 2), "{kind:?} {seed} {found:?}");
    }
}

/// Wherever it ends in a high stretch that stays, a low stretch is not cut.
#[test]
fn a_course_that_ends_has_no_call_low_alone() {
    for ((kind, seed), calls) in courses().flat_map(|course| (0..100).map(move |calls| (course, calls))) {
        let course = || kind.course(&mut Rng::new(seed));
        let ended: Vec<bool> = then_high(course(), calls).take(calls + 1_000).collect();
        let found = low(&stretches(ended.iter().copied()));
        assert!(found.iter().all(|length| *length >= 2), "{kind:?} {seed} {calls} {found:?}");
        assert!(ended[..calls] == course().take(calls).collect::<Vec<bool>>(), "{kind:?} {seed} {calls}");
        assert!(ended[calls + 100..].iter().all(|high| *high), "{kind:?} {seed} {calls}");
    }
}

#[test]
fn a_screen_is_low_for_40_calls_of_504() {
    for from in [0, 1, 300, 463] {
        let screen = stretches(Kind::Screen(from).course(&mut Rng::new(SEED)).take(50_000));
        assert!(screen[0] == 464 - from && screen[1..].chunks_exact(2).all(|pair| pair == [40, 464]), "{from}");
    }
}

#[test]
fn a_vic_is_low_for_43_calls_at_each_badline_and_for_no_less_than_a_sprite() {
    for seed in 0..20 {
        let frame = low(&stretches(Kind::Vic.course(&mut Rng::new(seed)).take(2 * 312 * 63)));
        assert!(frame.iter().filter(|length| **length >= 43).count() >= 25, "{frame:?}");
        assert!(frame.iter().all(|length| *length >= 5), "{frame:?}");
    }
}

/// Block and memories of the tests of the rule, and what both are after the swap: it passes the ends of both.
fn swapped() -> (Rule, Vec<u8>, Vec<u8>) {
    let (mut bus, mut storage) = (vec![0; BUS], vec![0; 131_072]);
    noise(&mut bus, SEED);
    noise(&mut storage, !SEED);
    // 5 bytes from $FFFE and $01FFFD.
    let rule = Rule::new(&Block::shown(&[0xFE, 0xFF, 0xFD, 0xFF, 0xF9, 5, 0]), &bus, &storage);
    for (addr, offset) in [(65_534, 131_069), (65_535, 131_070), (0, 131_071), (1, 0), (2, 1)] {
        std::mem::swap(&mut bus[addr], &mut storage[offset]);
    }
    (rule, bus, storage)
}

#[test]
fn the_rule_of_swaps_sees_each_byte_that_differs() {
    let (rule, bus, storage) = swapped();
    assert_eq!(rule.ended(&bus, &storage), Ok(()));
    let memories = [&bus[..], &storage[..]].concat();
    for at in [0, 2, 3, 65_533, 65_534, BUS, BUS + 2, BUS + 131_068, BUS + 131_071] {
        let mut wrong = memories.clone();
        wrong[at] ^= 0x81;
        assert!(rule.ended(&wrong[..BUS], &wrong[BUS..]).unwrap_err().contains(" times, not "), "{at}");
    }
}

/// Bytes that are all there, in other places: of the block, beside it, and one of each.
#[test]
fn the_rule_of_swaps_sees_bytes_that_stand_elsewhere() {
    let (rule, bus, storage) = swapped();
    for (one, other) in [(65_534, 65_535), (100, 200), (2, 3)] {
        let mut wrong = bus.clone();
        wrong.swap(one, other);
        assert!(rule.ended(&wrong, &storage).unwrap_err().starts_with("bus byte "), "bus {one} {other}");
        let mut wrong = storage.clone();
        wrong.swap(one % 5, other);
        assert!(rule.ended(&bus, &wrong).unwrap_err().starts_with("storage byte "), "storage {one} {other}");
    }
    let (mut back, mut there) = (bus, storage);
    std::mem::swap(&mut back[65_535], &mut there[131_070]);
    assert!(rule.ended(&back, &there).unwrap_err().starts_with("bus byte "));
}

/// Two of five bytes are done: any other number is wrong.
#[test]
fn the_rule_of_swaps_sees_on_the_way_which_bytes_are_done() {
    let (rule, after_bus, after_storage) = swapped();
    let (mut bus, mut storage) = (after_bus.clone(), after_storage.clone());
    for (addr, offset) in [(0, 131_071), (1, 0), (2, 1)] {
        std::mem::swap(&mut bus[addr], &mut storage[offset]);
    }
    assert_eq!(rule.midway(2, &bus, &storage), Ok(()));
    assert!([0, 1, 3, 4, 5].iter().all(|done| rule.midway(*done, &bus, &storage).is_err()));
    assert_eq!(rule.midway(5, &after_bus, &after_storage), Ok(()));
    // The storage may have the bus's next byte, and none behind it.
    storage[131_071] = bus[0];
    assert_eq!(rule.midway(2, &bus, &storage), Ok(()));
    storage[0] = bus[1];
    assert!(rule.midway(2, &bus, &storage).is_err());
}

/// What the rule says of a swap of two bytes by its calls: whether BA is high, a byte is completed, and the command goes on.
fn paced(calls: &[(bool, bool, bool)]) -> Result<(), String> {
    let mut pace = Pace::default();
    calls.iter().try_for_each(|(high, completed, goes_on)| pace.call(*high, *completed, *goes_on, 2))
}

#[test]
fn the_rule_of_swaps_sees_one_that_does_not_come_on() {
    let (idle, low, byte, end) = ((true, false, true), (false, false, true), (true, true, true), (true, true, false));
    assert_eq!(paced(&[idle, byte, idle, end]), Ok(()));
    assert_eq!(paced(&[idle, low, idle, low, low, idle, byte, idle, low, idle, end]), Ok(()));
    for wrong in [vec![idle, idle], vec![idle, low, idle, idle], vec![byte, idle, idle]] {
        assert_eq!(paced(&wrong).unwrap_err(), "two high calls in a row complete no byte");
    }
    assert_eq!(paced(&[idle, byte, idle, byte]).unwrap_err(), "4 high calls in a row do not end it");
}

#[test]
fn a_full_part_of_swaps_must_have_met_all_that_is_counted() {
    assert!(Met([1; 12]).has_met_all(true).is_ok() && Met([0; 12]).has_met_all(false).is_ok());
    for at in 0..12 {
        let mut counts = [7; 12];
        counts[at] = 0;
        assert!(Met(counts).has_met_all(true).is_err(), "{at}");
    }
}

/// Fewer runs than a full part's have already met it all. A call that is low alone loses a byte, in a run of every size.
#[test]
fn swaps_come_through_screen_time_and_lose_a_byte_to_a_call_that_is_low_alone() {
    let (mut tried, mut right) = (Held::new(Library), Held::new(Library));
    let mut pair = Pair { tried: &mut tried, right: &mut right };
    let mut sides = Sides::Two(&mut pair);
    let met = [1, 2, 3].map(|seed| screen::run(&mut sides, seed, false).unwrap());
    let all = Met(std::array::from_fn(|at| met.iter().map(|met| met.0[at]).sum()));
    assert_eq!(all.missing(), Vec::<&str>::new());
    assert_eq!(screen::lone(&mut sides, SEED), Ok(60));
}

/// The first line that the program prints, which is then ended.
fn first_line(words: &[&str]) -> String {
    let mut program = Command::new(PROGRAM).args(words).stdout(Stdio::piped()).spawn().unwrap();
    let mut output = BufReader::new(program.stdout.take().unwrap());
    let mut line = String::new();
    output.read_line(&mut line).unwrap();
    program.kill().unwrap();
    program.wait().unwrap();
    line
}

#[test]
fn the_seed_that_is_given_is_the_one_that_is_printed_first() {
    for seed in [0, SEED, u64::MAX] {
        let line = first_line(&["--calls", "9", "--seed", &seed.to_string()]);
        assert_eq!(line, format!("compare: --seed {seed} --calls 9\n"));
    }
}

#[test]
fn each_run_that_is_given_no_seed_has_a_new_one() {
    let lines = [(); 3].map(|()| first_line(&["--calls", "9"]));
    assert!(lines.iter().all(|line| line.starts_with("compare: --seed ")), "{lines:?}");
    assert!(lines[0] != lines[1] && lines[1] != lines[2] && lines[2] != lines[0], "{lines:?}");
}

#[test]
fn the_library_answers_as_recorded() {
    let calls = replay(&mut Held::new(Library), RECORDED).unwrap();
    assert!(calls > 10_000, "{calls} calls are recorded");
}

/// One byte of one answer changed anywhere in the record shows.
#[test]
fn a_record_with_another_answer_is_noticed() {
    let lines: Vec<&str> = RECORDED.lines().collect();
    for at in (100..lines.len()).step_by(lines.len() / 7) {
        let at = (at..).find(|at| lines[*at].contains(" = ")).unwrap();
        let changed = lines[at].replacen(" = ", " = 1", 1);
        let list = [&lines[..at], &[changed.as_str()], &lines[at + 1..]].concat().join("\n");
        let found = replay(&mut Held::new(Library), &list).unwrap_err();
        assert!(found.contains(&format!("recorded line {}:", at + 1)), "{found}");
    }
}

#[test]
fn a_list_reads_as_it_was_written() {
    let mut generator = Generator::new(SEED);
    let mut steps = vec![Step::Memory(u64::MAX), Step::Storage(STORAGE as u32 - 1, 255)];
    for at in 0..10_000 {
        let image = generator.image();
        steps.push(if at % 50 == 0 { Step::Image(image) } else { generator.anything(&image) });
    }
    let cycle = |cycle| Step::Call(Call::RunReuCycle { ba_high: 1, cycle, ba_low: 0, ba_high_phi1: 2 });
    steps.extend((0..1_000).map(cycle));
    let text = list_text(&steps);
    assert!(text.contains("\n1000 x run_reu_cycle 1 0 0 2\n"));
    assert!(list_from(&text).unwrap() == steps);
    assert!(list_from("write 0xdf00 256").is_err() && list_from("2 x new").is_err());
}

#[cfg(original)]
mod with_original {
    use super::*;
    use compare::compare::caught_by;
    use compare::planted::{Standin, bugs};
    use compare::record::record;
    use compare::reference::Original;
    use compare::shrink::{begin, shorten};
    use compare::sides::Machine;
    use compare::sizes;

    /// How the program says that it is run.
    const CARGO: &str = "cargo run --release --manifest-path hosts/Cargo.toml -p compare --";

    /// What a shell prints for such a command, with the program put in for cargo; it must find something.
    fn found_by(command: &str) -> String {
        let output = Command::new("sh").args(["-c", &command.replace(CARGO, PROGRAM)]).output().unwrap();
        let text = String::from_utf8(output.stdout).unwrap();
        assert_eq!(output.status.code(), Some(1), "{command}:\n{text}");
        text
    }

    /// A run from a seed of its own with a bug in the library's place, which comes out the same by the command that is
    /// its last line.
    fn repeated(bug: &str, calls: u64) -> String {
        let number = 1 + bugs().iter().position(|(name, ..)| *name == bug).unwrap();
        let run = found_by(&format!("{CARGO} --calls {calls} --bug {number}"));
        let (first, last) = (run.lines().next().unwrap(), run.lines().last().unwrap());
        assert_eq!(first.replace("compare:", CARGO), last);
        assert_eq!(found_by(last), run);
        run
    }

    #[test]
    fn a_run_that_disagrees_prints_what_repeats_it() {
        let run = repeated("reads are always $FF", 100_000);
        let (said, rest) = run.split_once("\nmade short, step ").unwrap();
        assert!(said.contains("compare: the library and the original disagree after "), "{run}");
        let (what, rest) = rest.split_once('\n').unwrap();
        let (replay, _) = rest.split_once("\nEND\n").unwrap();
        let (step, what) = what.split_once(" shows it: ").unwrap();
        let replayed = found_by(&format!("{replay}\nEND\n"));
        let count = step.split(' ').next().unwrap();
        assert!(replayed.starts_with(&format!("step {count}: ")), "{replayed}");
        assert!(replayed.ends_with(&format!(": {what}\n")), "{replayed}");
    }

    #[test]
    fn so_does_a_run_in_which_a_refusal_is_wrong() {
        for bug in ["a delay of 3 is taken", "a longer bus is taken"] {
            let run = repeated(bug, 100);
            let seed = run.split(' ').nth(2).unwrap();
            assert!(run.contains(&format!("refusals: from seed {seed}: ")), "{run}");
        }
    }

    /// Bugs that are about the two bytes: each of both parts catches each.
    #[test]
    fn the_pairs_and_the_blocks_catch_a_wrong_remaining() {
        let names = [
            "a remaining of 0 is read as 0 and kept there",
            "65,536 is written as $FFFF",
            "remaining has its high byte first",
            "remaining is left in three bytes",
            "the count is left at 34",
        ];
        for name in names {
            let (_, _, standin) = bugs().into_iter().find(|(bug, ..)| *bug == name).expect(name);
            let (mut tried, mut right) = (Held::new(Standin(standin)), Original::default());
            let mut pair = Pair { tried: &mut tried, right: &mut right };
            let by_pairs = caught_by(|| remaining::pairs(&mut pair, SEED).map(drop)).expect(name);
            assert!(by_pairs.starts_with(&format!("remaining: from seed {SEED}, pair [")), "{name}: {by_pairs}");
            let by_blocks = caught_by(|| remaining::blocks(&mut pair).map(drop)).expect(name);
            assert!(by_blocks.starts_with("remaining: in a block of "), "{name}: {by_blocks}");
        }
    }

    /// Bugs that are about sizes, or show at a small one alone: the part that needs no original catches each.
    #[test]
    fn the_part_about_sizes_catches_what_is_wrong_with_them() {
        let names = [
            "the fold keeps nineteen lines at every size",
            "the fold keeps eighteen lines at 128 KiB",
            "the fold keeps seventeen lines at 256 KiB",
            "the expansion address wraps at the end of a small storage",
            "the end of a small storage is reported as passed",
            "attaching clears 128 KiB at every size",
            "reset takes the size back",
            "disabling takes the size back",
            "setting a size leaves STATUS bit 4",
            "STATUS bit 4 is 0 at 256 KiB too",
            "reset sets STATUS bit 4",
            "a start sets STATUS bit 4",
            "setting a size clears the events in STATUS",
            "the capacity is the size before it is attached",
            "the capacity is 524,288 at every size",
            "6 comes before 5",
            "the same size is set when attached",
            "of a size the low 32 bits are looked at",
            "of a size the lowest bit is looked at",
            "the storage must have 524,288 bytes at every size",
            "the codes of 256 and 128 KiB are exchanged",
        ];
        for name in names {
            let (_, _, standin) = bugs().into_iter().find(|(bug, ..)| *bug == name).expect(name);
            let found = caught_by(|| sizes::run(&mut Held::new(Standin(standin)), SEED).map(drop)).expect(name);
            assert!(found.starts_with("sizes: "), "{name}: {found}");
        }
    }

    /// Bugs in what a fall and a rise do: the rule alone catches each, on runs that are brief and have no original beside them.
    #[test]
    fn the_rule_of_swaps_catches_what_loses_a_byte_or_puts_it_elsewhere() {
        let names = [
            "a refresh latches the storage's byte",
            "a refresh stores the bus's next byte",
            "after a refresh the byte is read again",
            "a refresh completes the byte",
            "a start leaves the refresh",
            "a rise does not restore the storage byte",
            "a rise restores the storage byte one place on",
            "a rise does not restore the last byte of a block",
            "a fall does not restore the storage byte",
            "a fall before a write passes over the byte",
            "the terminal pair has no read",
            "the read of the terminal pair stores nothing",
            "a rise takes a read that was delayed for done",
            "the delayed read of a byte stores the byte before it",
            "a delay ends with a hold",
        ];
        for name in names {
            let (_, _, standin) = bugs().into_iter().find(|(bug, ..)| *bug == name).expect(name);
            let mut machine = Held::new(Standin(standin));
            let found = caught_by(|| screen::run(&mut Sides::One(&mut machine), SEED, false).map(drop)).expect(name);
            assert!(found.starts_with("swaps: from seed 8726, run "), "{name}: {found}");
        }
    }

    /// A controller that loses no byte to a call that is low alone is not the original, and an error here.
    #[test]
    fn a_call_low_alone_must_lose_a_byte() {
        let name = "a rise never returns to the read phase";
        let (_, _, standin) = bugs().into_iter().find(|(bug, ..)| *bug == name).unwrap();
        let found = screen::lone(&mut Sides::One(&mut Held::new(Standin(standin))), SEED).unwrap_err();
        assert!(found.contains(" run 0 with a call low alone, 1 bytes at 524288 under High: "), "{found}");
        assert!(screen::lone(&mut Sides::One(&mut Original::default()), SEED).is_ok());
    }

    /// Lines that a small storage does not connect choose nothing: what a call stores by one address is recalled by others,
    /// and so is what the host writes.
    #[test]
    fn the_original_at_a_small_size_sees_its_storage_in_every_repeat() {
        let size = 131_072;
        let mut original = Original::default();
        let calls = [Call::SetSize { size }, Call::SetEnabled { enabled: 1 }];
        assert!(calls.map(|call| original.call(call)) == [0, 0]);
        let (stored, written) = (0x2_1234, 0x1_0007);
        original.step(Step::Storage(written, 0x5A));
        original.step(Step::Bus(0x1000, 0xA5));
        move_byte(&mut original, STORE, stored);
        assert_eq!(original.storage()[stored as usize % size as usize], 0xA5);
        for repeat in 0..128 {
            for (offset, byte) in [(stored, 0xA5), (written, 0x5A)] {
                original.step(Step::Bus(0x1000, 0));
                move_byte(&mut original, RECALL, offset % size as u32 + repeat * size as u32);
                assert_eq!(original.bus()[0x1000], byte, "repeat {repeat}, offset {offset}");
            }
        }
        assert!(original.repeats_hold());
    }

    /// Moves one byte between $1000 and an expansion address, which comes by the image: a bank that is written has five bits
    /// that are 1.
    fn move_byte(machine: &mut dyn Machine, kind: u8, expansion: u32) {
        let mut image = machine.image();
        let bytes = [[0x00, 0x10], [expansion as u8, (expansion >> 8) as u8], [(expansion >> 16) as u8, 1]].concat();
        image[2..8].copy_from_slice(&bytes);
        image[8] = 0;
        machine.load(&image);
        machine.call(Call::Write { addr: 0xDF01, value: 0x90 | kind });
        machine.call(Call::RunReuCycle { ba_high: 1, cycle: 0, ba_low: 0, ba_high_phi1: 1 });
    }

    /// What shows at a small size alone keeps the setting of one in its short list.
    #[test]
    fn a_disagreement_at_a_small_size_is_made_short() {
        let name = "the capacity is 524,288 at every size";
        let (_, _, standin) = bugs().into_iter().find(|(bug, ..)| *bug == name).unwrap();
        let (mut tried, mut right) = (Held::new(Standin(standin)), Original::default());
        let mut pair = Pair { tried: &mut tried, right: &mut right };
        let found = Run::new(SEED).compare(&mut pair, 200_000).unwrap_err();
        let (steps, what) = shorten(&mut pair, found.steps).unwrap();
        let text = list_text(&steps);
        let lists = [131_072, 262_144].map(|size| format!("set_size {size}\nset_enabled 1\ncapacity_bytes\n"));
        assert!(lists.contains(&text) && what.contains("on a storage of repeats"), "{what}:\n{text}");
    }

    /// The steps that it prints are a list, and show it again.
    #[test]
    fn a_pair_that_disagrees_can_be_replayed() {
        let (_, _, standin) = bugs().into_iter().find(|(bug, ..)| *bug == "65,536 is written as $FFFF").unwrap();
        let (mut tried, mut right) = (Held::new(Standin(standin)), Original::default());
        let mut pair = Pair { tried: &mut tried, right: &mut right };
        let found = remaining::pairs(&mut pair, SEED).unwrap_err();
        let (said, list) = found.split_once("; the last of these steps shows it:\n").unwrap();
        let steps = list_from(list).unwrap();
        begin(&mut pair);
        let (at, what) = pair.list(&steps).unwrap_err();
        assert_eq!((at, said), (steps.len(), format!("remaining: from seed {SEED}, pair [0, 0]: {what}").as_str()));
    }

    /// The original; but a reset also writes behind the image.
    fn spills(call: Call, lent: Lent) -> u32 {
        let behind = lent.image.as_mut_ptr_range().end;
        let answer = compare::copies::COPIES[0](call, lent);
        if matches!(call, Call::Reset { .. }) {
            // SAFETY: the image is `Held`'s, which has bytes behind it to show this.
            unsafe { *behind = 0 };
        }
        answer
    }

    #[test]
    fn a_byte_beside_a_buffer_is_shown_by_the_call_that_writes_it() {
        let (mut tried, mut right) = (Held::new(Standin(spills)), Original::default());
        let mut pair = Pair { tried: &mut tried, right: &mut right };
        let found = Run::new(SEED).compare(&mut pair, 200_000).err().unwrap();
        let (steps, what) = shorten(&mut pair, found.steps).unwrap();
        assert_eq!((steps, what), (vec![Step::Call(Call::Reset { hard_reset: 0 })], found.what));
    }

    #[test]
    fn the_record_is_what_the_original_answers_now() {
        assert!(record(&mut Original::default(), SEED) == RECORDED);
    }

    /// Document 01's port mistakes: the list that shows each is made short, and shows it again when it is replayed.
    #[test]
    fn a_disagreement_is_made_short_and_can_be_replayed() {
        for (name, _, standin) in &bugs()[..6] {
            let (mut tried, mut right) = (Held::new(Standin(*standin)), Original::default());
            let mut pair = Pair { tried: &mut tried, right: &mut right };
            let found = Run::new(SEED).compare(&mut pair, 200_000).expect_err(name);
            let (steps, what) = shorten(&mut pair, found.steps).expect(name);
            assert!(steps.len() <= 15, "{name}: {} steps:\n{}", steps.len(), list_text(&steps));
            begin(&mut pair);
            let again = pair.list(&list_from(&list_text(&steps)).unwrap()).expect_err(name);
            assert!(again == (steps.len(), what), "{name}: {again:?}");
        }
    }

    /// What needs no original, the recorded list, the part about sizes and the refusals, catches every planted bug.
    #[test]
    fn the_record_the_sizes_and_the_refusals_catch_every_planted_bug() {
        for (name, _, standin) in bugs() {
            let machine = || Held::new(Standin(standin));
            let by_record = caught_by(|| replay(&mut machine(), RECORDED).map(drop));
            let by_sizes = || caught_by(|| sizes::run(&mut machine(), SEED).map(drop));
            let by_refusals = || caught_by(|| Refusals::new(Standin(standin), SEED).run());
            let caught = by_record.or_else(by_sizes).or_else(by_refusals);
            assert!(caught.is_some(), "not caught: {name}");
        }
    }
}
