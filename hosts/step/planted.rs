//! Wrong logs, each a right one with one change. The judging that passes the right one must notice each.

use crate::common::constants::*;
use crate::rule::{Line, Operation, STORED};
use crate::runs::{self, Block, Run, Step};
use crate::{judged, logged};

/// A run and its log, which is right.
struct Right {
    run: Run,
    log: Vec<Line>,
}

impl Right {
    fn of(run: Run, storage: &mut [u8]) -> Right {
        let log = logged(&run, storage);
        judged(&run, &log).expect("a right log");
        Right { run, log }
    }

    /// The step that ends the command, and the stores that it hands out.
    fn end(&self) -> (usize, Vec<(u8, u8)>) {
        let at = self.log.iter().position(|line| line.before.running && !line.after.running).expect("an end");
        (at, self.log[at].stores.clone())
    }
}

/// How many wrong logs were made, and how many of them noticed.
pub struct Planted {
    pub made: usize,
    pub noticed: usize,
}

impl Planted {
    /// A changed log must not pass.
    fn plants(&mut self, name: &str, right: &Right, change: impl FnOnce(&mut Vec<Line>)) {
        let mut log = right.log.clone();
        change(&mut log);
        self.made += 1;
        match judged(&right.run, &log) {
            Ok(_) => println!("not noticed in a log of {:?}: {name}", right.run.block),
            Err(_) => self.noticed += 1,
        }
    }

    /// Other stores, and the registers after the step as these make them.
    fn plants_made(&mut self, name: &str, right: &Right, at: usize, stores: Vec<(u8, u8)>) {
        self.plants(name, right, |log| {
            log[at].stores = stores;
            let made = log[at].made();
            log[at].after.registers[STORED].copy_from_slice(&made);
        });
    }

    /// At the end of a command with Autoload; `plain` is the same without, which leaves the live counters.
    fn at_the_end(&mut self, right: &Right, plain: &Right) {
        let (at, stores) = right.end();
        let live: Vec<(u8, u8)> = (2..=8).zip(plain.log[at].after.registers[STORED].iter().copied()).collect();
        self.plants("an end that is none", right, |log| log[at].after.running = true);
        self.plants("an end a step too early", right, |log| {
            log.remove(at - 1);
            log.extend(log.last().cloned());
        });
        self.plants_made("none", right, at, vec![]);
        self.plants_made("the live counters first", right, at, [live.clone(), stores.clone()].concat());
        self.plants_made("all twice", right, at, [stores.clone(), stores.clone()].concat());
        self.plants_made("only the live counters", right, at, live.clone());
        for which in 0..7 {
            assert!(live[which] != stores[which], "the live counter must differ to be noticed");
            self.one_of_seven(right, which, live[which]);
        }
        for which in 0..6 {
            let mut swapped = stores.clone();
            swapped.swap(which, which + 1);
            self.plants_made("two out of order", right, at, swapped);
        }
    }

    /// One of the seven stores is wrong.
    fn one_of_seven(&mut self, right: &Right, which: usize, live: (u8, u8)) {
        let (at, stores) = right.end();
        let with = |store| [&stores[..which], &[store], &stores[which + 1..]].concat();
        let fewer = [&stores[..which], &stores[which + 1..]].concat();
        self.plants_made("a live counter first", right, at, [vec![live], stores.clone()].concat());
        self.plants_made("a live counter in a place", right, at, with(live));
        self.plants_made("another register", right, at, with((9, stores[which].1)));
        self.plants("one left out of the log", right, |log| log[at].stores = fewer.clone());
        self.plants_made("one left out", right, at, fewer);
        self.plants_made("one twice", right, at, [&stores[..=which], &stores[which..]].concat());
        self.plants("a register that no store gives", right, |log| log[at].after.registers[2 + which] ^= 1);
    }

    /// The command goes on to the end of the log.
    fn no_end(&mut self, right: &Right) {
        let (at, _) = right.end();
        self.plants("no end", right, |log| {
            let goes_on = log[at - 1].clone();
            log[at..].fill(goes_on);
        });
    }

    /// At each step that has none: seven stores in the log alone, one that is made, and a command that runs or does not.
    fn elsewhere(&mut self, right: &Right, stores: &[(u8, u8)]) {
        for at in (0..right.log.len()).filter(|&at| right.log[at].stores.is_empty()) {
            self.plants("stores that are not due", right, |log| log[at].stores = stores.to_vec());
            self.plants_made("a store that is not due", right, at, stores[..1].to_vec());
            self.plants("another before", right, |log| log[at].before.running ^= true);
            self.plants("another after", right, |log| log[at].after.running ^= true);
        }
    }
}

/// Blocks at whose end the live counters of all seven registers differ from the shadows, one for each end.
fn long() -> Vec<Block> {
    let error = |at| Block { differing: vec![at], ..Block::of(VERIFY, 0x0102) };
    let whole = [STORE, RECALL, SWAP, VERIFY].map(|kind| Block::of(kind, 0x0102));
    [&whole[..], &[0x0080, 0x0100, 0x0101].map(error)].concat()
}

/// The shadows of another time, or a bank with other upper bits: these are 1 in the shadow where a bank was written, and 0
/// where none was.
fn other_shadows(planted: &mut Planted, step: Step, storage: &mut [u8]) {
    let block = Block::of(STORE, 0x0102);
    let right = Right::of(Run::whole(&block, step), storage);
    let changed = Right::of(Run::with(&block, step, &runs::rewritten(), 9), storage);
    let unbanked = Right::of(Run::whole(&Block { bank: None, ..block }, step), storage);
    planted.plants_made("the shadows of the start", &changed, changed.end().0, right.end().1);
    for (name, right, bank) in [("no upper bits", &right, 0x02), ("upper bits", &unbanked, 0xF8)] {
        let (at, mut stores) = right.end();
        stores[4].1 = bank;
        planted.plants_made(name, right, at, stores);
    }
}

fn at_ends(planted: &mut Planted, step: Step, storage: &mut [u8]) {
    for block in long() {
        let mut of = |block: &Block| Right::of(Run::whole(block, step), storage);
        planted.at_the_end(&of(&block), &of(&Block { autoload: false, ..block.clone() }));
    }
}

fn short() -> [Block; 4] {
    [STORE, RECALL, SWAP, VERIFY].map(|kind| Block::of(kind, 3))
}

fn elsewhere(planted: &mut Planted, step: Step, storage: &mut [u8]) {
    for block in short() {
        let mut of = |run| Right::of(run, storage);
        let right = of(Run::whole(&block, step));
        let plain = of(Run::whole(&Block { autoload: false, ..block.clone() }, step));
        let armed = of(Run::whole(&Block { by_ff00: true, ..block.clone() }, step));
        let dropped = of(Run::dropped(&block, step, 2));
        for other in [&right, &plain, &armed, &dropped] {
            planted.elsewhere(other, &right.end().1);
        }
    }
}

/// A Hold comes in a cycle alone.
fn where_held(planted: &mut Planted, storage: &mut [u8]) {
    for block in short() {
        let held = Right::of(Run::held(&block), storage);
        planted.no_end(&held);
        planted.elsewhere(&held, &held.end().1);
    }
}

pub fn all(storage: &mut [u8]) -> Planted {
    let mut planted = Planted { made: 0, noticed: 0 };
    for step in [Operation::Cycle as Step, Operation::Tick as Step] {
        at_ends(&mut planted, step, storage);
        other_shadows(&mut planted, step, storage);
        elsewhere(&mut planted, step, storage);
    }
    where_held(&mut planted, storage);
    planted
}
