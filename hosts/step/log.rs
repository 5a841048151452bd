//! Runs commands to their ends through the step over a lent controller and through the tick, and holds the log of each run
//! to request L5: which register stores a step hands out. Then it makes wrong logs of right ones, each of which must be
//! noticed. At last it runs random operations beside the original (`beside.rs`). tools/count-step --check compiles and runs this.

mod beside;
mod common;
mod counts;
mod planted;
mod rule;
mod runs;

use common::bits;
use common::constants::{IMAGE_SIZE, REGISTER_COUNT, STORAGE_SIZE};
use counts::Judged;
use rule::{Known, Line, Operation, Sort, State};
use runs::Run;

#[link(name = "step", kind = "static")]
unsafe extern "C" {
    fn run_log(
        bus: *mut u8,
        bus_len: usize,
        storage: *mut u8,
        storage_len: usize,
        operations: *const u32,
        operations_len: usize,
        log: *mut u8,
        log_len: usize,
    ) -> u64;
}

/// An operation in four bytes, as run_log takes it.
fn packed(operation: &Operation) -> u32 {
    u32::from_le_bytes(match operation {
        Operation::Write(register, value) => [0, *register as u8, *value, 0],
        Operation::Ff00 => [1, 0, 0, 0],
        Operation::Enable(on) => [2, 0, u8::from(*on), 0],
        Operation::Cycle(ba) => [3, 0, bits(ba), 0],
        Operation::Tick(ba) => [4, 0, bits(ba), 0],
    })
}

/// Takes bytes off the front.
fn taken<'a>(log: &mut &'a [u8], count: usize) -> &'a [u8] {
    let (front, rest) = log.split_at(count);
    *log = rest;
    front
}

fn state(log: &mut &[u8]) -> State {
    let registers = taken(log, REGISTER_COUNT).try_into().unwrap();
    State { registers, running: taken(log, 1)[0] != 0, granted: taken(log, 1)[0] }
}

fn line(log: &mut &[u8]) -> Line {
    let (before, count) = (state(log), usize::from(taken(log, 1)[0]));
    let stores = taken(log, 2 * count).chunks_exact(2).map(|pair| (pair[0], pair[1])).collect();
    let (after, flag) = (state(log), taken(log, 1)[0] != 0);
    Line { before, stores, after, flag, image: taken(log, IMAGE_SIZE).try_into().unwrap() }
}

/// The longest line: a controller before and after, a count and seven pairs, a flag and an image.
const LINE: usize = 2 * (REGISTER_COUNT + 2) + 1 + 14 + 1 + IMAGE_SIZE;

/// The log of operations on a new controller, a line for each. The storage is lent as it is: enabling, which must come first, clears it.
fn lines(operations: &[Operation], bus: &mut [u8], storage: &mut [u8]) -> Vec<Line> {
    let packed: Vec<u32> = operations.iter().map(packed).collect();
    let mut log = vec![0xEE; packed.len() * LINE];
    // SAFETY: each pointer is valid for the length beside it, and no two buffers overlap.
    let length = unsafe {
        let (bus, storage) = ((bus.as_mut_ptr(), bus.len()), (storage.as_mut_ptr(), storage.len()));
        let (calls, log) = ((packed.as_ptr(), packed.len()), (log.as_mut_ptr(), log.len()));
        run_log(bus.0, bus.1, storage.0, storage.1, calls.0, calls.1, log.0, log.1)
    };
    let mut rest = &log[..length as usize];
    let lines = operations.iter().map(|_| line(&mut rest)).collect();
    assert!(rest.is_empty(), "more lines than operations");
    lines
}

/// The steps' lines in the log of a run.
fn logged(run: &Run, storage: &mut [u8]) -> Vec<Line> {
    let lines = lines(&run.operations, &mut run.bus(), storage);
    let with = run.operations.iter().zip(lines);
    with.filter(|(operation, _)| operation.is_step()).map(|(_, line)| line).collect()
}

/// Holds a log to the rule, step by step, with what the host knows by its calls up to there. Answers what each step does.
fn judged(run: &Run, log: &[Line]) -> Result<Vec<Sort>, String> {
    let (mut known, mut sorts) = (Known::NEW, vec![]);
    for &operation in &run.operations {
        known.calls(operation);
        if operation.is_step() {
            let (at, line) = (sorts.len(), &log[sorts.len()]);
            let sort = known.judges(operation, line);
            sorts.push(sort.map_err(|wrong| format!("step {at}: {wrong}: {:?}", line.stores))?);
        }
    }
    let ended: Vec<usize> = (0..sorts.len()).filter(|&at| matches!(sorts[at], Sort::Ends(_))).collect();
    match &run.ends {
        Some(due) if *due != ended => Err(format!("ended at {ended:?}, not at {due:?}")),
        None if ended.len() != 1 => Err(format!("ended at {ended:?}, not once")),
        _ => Ok(sorts),
    }
}

fn main() {
    let mut storage = vec![0; STORAGE_SIZE];
    let sorts = |run: Run| {
        let sorts = judged(&run, &logged(&run, &mut storage));
        let sorts = sorts.unwrap_or_else(|wrong| panic!("{wrong}\nof {:?}", run.block));
        (run, sorts)
    };
    let all: Vec<Judged> = runs::all().into_iter().map(sorts).collect();
    counts::shown(&all);
    let planted = planted::all(&mut storage);
    println!("{} planted, {} noticed", planted.made, planted.noticed);
    assert!(planted.made == planted.noticed, "a wrong log was not noticed");
    beside::compared(&mut storage);
}
