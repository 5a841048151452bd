//! Measures the library against the original.
//!
//!     bench [TURNS]                  times both in this process, in turns, and prints the ratio with its spread
//!     bench count SIDE WORK COUNT    only makes so many calls (frames of the mix), for callgrind to count

mod clock;
mod screen;
mod sides;
mod work;

use original::machine::Machine;
use sides::{Library, Side};
use work::{Answers, Work};

/// What a turn measures, and how many calls (frames of the mix) it makes: more of a short one, or its time on the original
/// would be too short to tell.
const MEASURED: [(Work, u64); 15] = [
    (Work::Mix, 50),
    (Work::Idle, 1_000_000),
    (Work::Store, 1_000_000),
    (Work::Recall, 1_000_000),
    (Work::Swap, 1_000_000),
    (Work::SwapUnderBa, 1_000_000),
    (Work::Verify, 1_000_000),
    (Work::Hold, 1_000_000),
    (Work::Read, 2_000_000),
    (Work::Write, 2_000_000),
    (Work::DebugRegister, 4_000_000),
    (Work::DmaActive, 4_000_000),
    (Work::C64Access, 4_000_000),
    (Work::StoragePresent, 4_000_000),
    (Work::CapacityBytes, 4_000_000),
];

fn name(work: Work) -> &'static str {
    Work::ALL.iter().find(|(one, _)| *one == work).map_or("", |(_, name)| name)
}

/// Runs some work on a fresh side; answers the nanoseconds per call as well.
fn timed<S: Side>(work: Work, count: u64) -> (f64, Answers, [Vec<u8>; 3]) {
    let mut side = S::enabled();
    work::prepare(&mut side, work);
    let start = clock::nanoseconds();
    let answers = work::run(&mut side, work, count);
    let spent = clock::nanoseconds() - start;
    (spent / answers.calls as f64, answers, side.machine())
}

/// One turn: both sides, the one or the other first. A ratio means nothing unless both did the same.
fn turn(work: Work, count: u64, library_first: bool) -> (f64, f64) {
    let before = library_first.then(|| timed::<Library>(work, count));
    let original = timed::<Machine>(work, count);
    let library = before.unwrap_or_else(|| timed::<Library>(work, count));
    assert!((library.1, library.2) == (original.1, original.2), "{}: the two sides differ", name(work));
    (library.0, original.0)
}

/// Sorts, then gives the median, the least and the greatest.
fn spread(mut numbers: Vec<f64>) -> (f64, f64, f64) {
    numbers.sort_by(f64::total_cmp);
    (numbers[numbers.len() / 2], numbers[0], numbers[numbers.len() - 1])
}

fn measure(turns: usize) {
    println!(
        "processor time per call in {turns} turns: medians; for the ratio also the least and greatest of a turn\n"
    );
    println!("{:24}{:>12}{:>12}   ratio", "", "library", "original");
    for (work, count) in MEASURED {
        turn(work, count, true); // caches and clock settle
        let times: Vec<(f64, f64)> = (0..turns).map(|number| turn(work, count, number % 2 == 0)).collect();
        let (library, ..) = spread(times.iter().map(|(library, _)| *library).collect());
        let (original, ..) = spread(times.iter().map(|(_, original)| *original).collect());
        let (ratio, least, greatest) = spread(times.iter().map(|(library, original)| library / original).collect());
        println!("{:24}{library:>9.1} ns{original:>9.1} ns   {ratio:.2} ({least:.2} to {greatest:.2})", name(work));
    }
}

fn count<S: Side>(work: &str, count: u64) -> Option<u64> {
    let (work, _) = Work::ALL.into_iter().find(|(_, name)| *name == work)?;
    let mut side = S::enabled();
    work::prepare(&mut side, work);
    Some(work::run(&mut side, work, count).calls)
}

fn main() {
    let words: Vec<String> = std::env::args().skip(1).collect();
    match &words.iter().map(String::as_str).collect::<Vec<&str>>()[..] {
        [] => measure(21),
        ["works"] => Work::ALL.iter().for_each(|(_, name)| println!("{name}")),
        ["count", side, work, number] => {
            let calls = number.parse().ok().and_then(|number| match *side {
                "library" => count::<Library>(work, number),
                "original" => count::<Machine>(work, number),
                _ => None,
            });
            println!("{}", calls.expect("bench count library|original WORK COUNT"));
        }
        [turns] => measure(turns.parse().expect("bench [TURNS]")),
        _ => panic!("bench [TURNS] | bench works | bench count SIDE WORK COUNT"),
    }
}

#[cfg(test)]
mod tests {
    use super::*;

    /// What is measured is the same on both sides: every answer without the marks, and at the end bus, storage and all of
    /// the image that both have.
    #[test]
    fn both_sides_do_the_same() {
        for (work, _) in Work::ALL {
            turn(work, if work == Work::Mix { 2 } else { 150_000 }, true);
        }
    }

    /// While a transfer is held it is running, and neither it nor a byte of the memories moves.
    #[test]
    fn hold_moves_nothing() {
        let held = |calls| {
            let mut side = Machine::enabled();
            work::prepare(&mut side, Work::Hold);
            work::run(&mut side, Work::Hold, calls);
            (Side::dma_active(&mut side), side.machine())
        };
        assert!(held(1) == held(1000) && held(1).0 == 1);
    }
}
