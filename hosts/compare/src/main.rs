//! Runs the library and the original side by side and compares every call. See the README beside this folder.

use compare::compare::{FULL_RUN, caught_by, list_seed};
use compare::port::Library;
use compare::refusals::{Refusals, Refuser};
use compare::rng::drawn_seed;
use compare::screen::{self, Sides};
use compare::sides::{Held, Machine, Port};
use compare::sizes::SIZES;
use compare::{demand3, record, sessions, sizes};
use std::process::ExitCode;
use std::str::FromStr;

/// The list that was recorded, as it stands in the repository.
const RECORDED: &str = include_str!("../recorded/original.txt");
const CALLS: u64 = 10_000_000;
/// Of so many runs of demand 3 half are at the original's size, the others at the two smaller ones.
const DEMAND3_RUNS: u64 = 200;
const DEMAND3_SIZES: [usize; 4] = [SIZES[0], SIZES[1], SIZES[0], SIZES[2]];

const HELP: &str = "\
compare [--calls N] [--seed N]     run the library and the original side by side, from a new seed if none is given
compare --replay FILE              run a list of calls on both sides
compare --planted                  plant bugs in a stand-in and catch each, always from the same seed
compare --record FILE [--seed N]   record what the original answers
With the first two, --bug N puts the stand-in with planted bug N into the library's place.";

/// What the command line asks for.
#[derive(Default)]
struct Options {
    help: bool,
    calls: Option<u64>,
    seed: Option<u64>,
    replay: Option<String>,
    record: Option<String>,
    planted: bool,
    bug: Option<usize>,
}

fn number<T: FromStr>(text: String) -> Result<T, String> {
    text.parse().map_err(|_| format!("no number: {text}\n{HELP}"))
}

fn options() -> Result<Options, String> {
    let mut options = Options::default();
    let mut words = std::env::args().skip(1);
    while let Some(word) = words.next() {
        let mut value = || words.next().ok_or_else(|| format!("{word} needs a value\n{HELP}"));
        match word.as_str() {
            "--help" => options.help = true,
            "--calls" => options.calls = Some(number(value()?)?),
            "--seed" => options.seed = Some(number(value()?)?),
            "--replay" => options.replay = Some(value()?),
            "--record" => options.record = Some(value()?),
            "--planted" => options.planted = true,
            "--bug" => options.bug = Some(number(value()?)?),
            _ => return Err(format!("no such option: {word}\n{HELP}")),
        }
    }
    Ok(options)
}

/// The command that runs this program with these words, in the repository's folder.
fn command(words: &str) -> String {
    format!("cargo run --release --manifest-path hosts/Cargo.toml -p compare -- {words}")
}

/// Runs what draws from a seed. The seed is said before anything is called; how to run all of it again is said last
/// if something is found.
fn by_seed(options: &Options, parts: impl FnOnce(u64, u64) -> Result<(), String>) -> Result<(), String> {
    let (seed, calls) = (options.seed.unwrap_or_else(drawn_seed), options.calls.unwrap_or(CALLS));
    let bug = options.bug.map_or(String::new(), |bug| format!(" --bug {bug}"));
    let words = format!("--seed {seed} --calls {calls}{bug}");
    println!("compare: {words}");
    match caught_by(|| parts(seed, calls)) {
        None => Ok(()),
        Some(what) => Err(format!("{what}\nthe run again, in the repository's folder:\n{}", command(&words))),
    }
}

/// Swaps through screen time, and swaps in which BA is low for one call alone.
fn swaps(mut sides: Sides, seed: u64, calls: u64) -> Result<(), String> {
    let full = calls >= FULL_RUN;
    let met = screen::run(&mut sides, seed, full)?;
    println!("swaps: every byte of each has changed places and no other: {}", met.told());
    let lone = screen::lone(&mut sides, seed)?;
    println!("swaps: in {lone} more, R16 among them, BA was low for one call alone, and one byte is lost");
    met.has_met_all(full)
}

/// Sessions, sizes and demand 3 on one machine, with refused calls among the lists if there is something to refuse them.
fn alone(
    side: &str,
    machine: &mut dyn Machine,
    mut refuser: Option<&mut dyn Refuser>,
    seed: u64,
) -> Result<(), String> {
    for number in 1..=sessions::COUNT {
        if !sessions::plays(machine, number) {
            return Err(format!("{side}: recorded session R{number} comes out otherwise"));
        }
    }
    let (settings, blocks) = sizes::run(machine, seed).map_err(|what| format!("{side}: {what}"))?;
    println!("{side}: {settings} settings of a size by the rule, {blocks} blocks over the ends of {SIZES:?} bytes");
    for (run, size) in (0..DEMAND3_RUNS).zip(DEMAND3_SIZES.into_iter().cycle()) {
        let refuser = refuser.as_mut().map(|refuser| &mut **refuser as &mut dyn Refuser);
        let done = demand3::run(machine, refuser, size, list_seed(seed, run));
        done.map_err(|what| format!("{side}: in run {run} of demand 3 from seed {seed}, {size} bytes: {what}"))?;
    }
    println!(
        "{side}: {} recorded sessions come out as recorded, {DEMAND3_RUNS} runs of demand 3 hold",
        sessions::COUNT
    );
    Ok(())
}

/// All that needs no original: refusals, sessions, demand 3 and the recorded list.
fn without_original<P: Port + Copy>(port: P, seed: u64) -> Result<(), String> {
    let mut refusals = Refusals::new(port, seed);
    refusals.run().map_err(|what| format!("refusals: from seed {seed}: {what}"))?;
    println!("refusals: {} calls answered by number and order, nothing changed by a refused one", refusals.calls);
    alone("library", &mut Held::new(port), Some(&mut refusals), seed)?;
    let calls = record::replay(&mut Held::new(port), RECORDED)?;
    println!("recorded list: {calls} calls agree with what the original answered");
    Ok(())
}

#[cfg(original)]
mod with_original {
    use super::*;
    use compare::calls::{list_from, list_text};
    use compare::compare::{Disagreement, Pair, Run};
    use compare::granted::AtTop;
    use compare::reference::Original;
    use compare::{SEED, planted, remaining, shrink};
    use std::fs;

    /// A disagreement's list made short, as a command that shows it again.
    fn short(pair: &mut Pair, found: Disagreement, bug: Option<usize>) -> String {
        let Some((steps, what)) = shrink::shorten(pair, found.steps) else {
            return "the list in which it came does not show it alone".into();
        };
        let bug = bug.map_or(String::new(), |bug| format!(" --bug {bug}"));
        let replay = command(&format!("--replay /dev/stdin{bug} <<'END'"));
        let (count, list) = (steps.len(), list_text(&steps));
        format!("made short, step {count} of {count} shows it: {what}\n{replay}\n{list}END")
    }

    /// The random run.
    fn random<P: Port>(port: P, seed: u64, calls: u64, bug: Option<usize>) -> Result<(), String> {
        let (mut library, mut original) = (Held::new(port), Original::default());
        let mut pair = Pair { tried: &mut library, right: &mut original };
        let mut run = Run::new(seed);
        let done = run.compare(&mut pair, calls);
        let (calls, lists, AtTop { reached, held }) = (run.calls, run.lists, run.at_top);
        let Err(found) = done else {
            println!("compare: {calls} calls agree, in {lists} lists");
            println!("compare: {reached} granted cycles brought the count to its top, {held} came when it was there");
            println!("compare: calls at the tops of the addresses: {}", run.at_tops.told());
            run.at_sizes.told().iter().for_each(|line| println!("compare: {line}"));
            let (cycles, short) = run.taken.cycles();
            println!(
                "compare: {short} of {cycles} cycles are on a short way by its conditions, the others on the plain one"
            );
            run.taken.told().iter().for_each(|line| println!("compare: {line}"));
            println!("compare: below {} bytes there is no original: it ran on a storage of repeats", SIZES[0]);
            let met = run.has_met_the_top().and(run.has_met_the_tops()).and(run.has_met_the_sizes());
            return met.and(run.has_taken_all_ways());
        };
        let disagree = format!("compare: the library and the original disagree after {calls} calls: {}", found.what);
        Err(format!("{disagree}\n{}", short(&mut pair, *found, bug)))
    }

    /// Remaining in two bytes.
    fn pairs_and_blocks<P: Port>(port: P, seed: u64) -> Result<(), String> {
        let (mut library, mut original) = (Held::new(port), Original::default());
        let mut pair = Pair { tried: &mut library, right: &mut original };
        let pairs = remaining::pairs(&mut pair, seed)?;
        println!("remaining: {pairs} pairs of bytes, each once: opened and stepped down alike");
        let blocks = remaining::blocks(&mut pair)?;
        println!("remaining: {blocks} blocks of 1, 255, 256, 65,535 and 65,536 bytes agree up to their ends");
        Ok(())
    }

    fn replay<P: Port>(port: P, file: &str) -> Result<(), String> {
        let text = fs::read_to_string(file).map_err(|error| format!("{file}: {error}"))?;
        let steps = list_from(&text)?;
        let (mut library, mut original) = (Held::new(port), Original::default());
        let mut pair = Pair { tried: &mut library, right: &mut original };
        shrink::begin(&mut pair);
        pair.list(&steps).map_err(|(at, what)| format!("step {at}: {}: {what}", steps[at - 1]))?;
        println!("compare: {} steps agree", steps.len());
        Ok(())
    }

    /// A list or a whole run, with this in the library's place. The random run comes first: it says most.
    fn on<P: Port + Copy>(port: P, options: &Options) -> Result<(), String> {
        if let Some(file) = &options.replay {
            return replay(port, file);
        }
        by_seed(options, |seed, calls| {
            random(port, seed, calls, options.bug)?;
            pairs_and_blocks(port, seed)?;
            let (mut library, mut original) = (Held::new(port), Original::default());
            let mut pair = Pair { tried: &mut library, right: &mut original };
            swaps(Sides::Two(&mut pair), seed, calls)?;
            without_original(port, seed)?;
            alone("original", &mut Original::default(), None, seed)?;
            record::replay(&mut Original::default(), RECORDED).map(drop)
        })
    }

    pub fn run(options: &Options) -> Result<(), String> {
        if let Some(file) = &options.record {
            let text = record::record(&mut Original::default(), options.seed.unwrap_or(SEED));
            return fs::write(file, text).map_err(|error| format!("{file}: {error}"));
        }
        if options.planted {
            let failed =
                || format!("the planted bugs are not all caught; to try them again:\n{}", command("--planted"));
            return planted::run().then_some(()).ok_or_else(failed);
        }
        match options.bug {
            None => on(Library, options),
            Some(number) => on(planted::standin(number).ok_or("there is no such bug")?, options),
        }
    }
}

#[cfg(original)]
use with_original::run;

#[cfg(not(original))]
fn run(options: &Options) -> Result<(), String> {
    const MISSING: &str = "the original's Rust was not there when this program was built (see REU_ORIGINAL)";
    let asked = options.planted || options.bug.is_some() || options.replay.is_some() || options.record.is_some();
    if asked || std::env::var("CI").is_ok_and(|ci| ci == "true") {
        return Err(format!("compare: {MISSING}"));
    }
    by_seed(options, |seed, calls| {
        swaps(Sides::One(&mut Held::new(Library)), seed, calls)?;
        without_original(Library, seed)
    })?;
    println!("compare: {MISSING}: the recorded list was replayed instead");
    Ok(())
}

fn main() -> ExitCode {
    let done = options().and_then(|options| match options.help {
        true => {
            println!("{HELP}");
            Ok(())
        }
        false => run(&options),
    });
    match done {
        Ok(()) => ExitCode::SUCCESS,
        Err(what) => {
            println!("{what}");
            ExitCode::FAILURE
        }
    }
}
