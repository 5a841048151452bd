//! How many steps of each sort the judged runs have. A sort that none has would be a gap, and is an error.

use crate::common::constants::{RECALL, STORE, SWAP, VERIFY};
use crate::rule::{Command, Sort};
use crate::runs::{End, Run};

/// A run, and what each of its steps does.
pub type Judged = (Run, Vec<Sort>);

type IsThis = fn(&Sort) -> bool;

const SORTS: [(&str, IsThis); 7] = [
    ("are idle", |sort| matches!(sort, Sort::Idle)),
    ("wait for FF00", |sort| matches!(sort, Sort::Armed)),
    ("follow a drop", |sort| matches!(sort, Sort::Dropped)),
    ("hold a command", |sort| matches!(sort, Sort::Held)),
    ("go on", |sort| matches!(sort, Sort::GoesOn)),
    ("end a command that was held", |sort| matches!(sort, Sort::Ends(command) if command.held)),
    ("end one whose registers were rewritten", |sort| matches!(sort, Sort::Ends(command) if command.rewritten)),
];

const ENDS: [(&str, u8, End); 7] = [
    ("store, last byte", STORE, End::LastByte),
    ("recall, last byte", RECALL, End::LastByte),
    ("swap, last byte", SWAP, End::LastByte),
    ("verify, last byte", VERIFY, End::LastByte),
    ("verify, error before it", VERIFY, End::ErrorBefore),
    ("verify, error on it", VERIFY, End::ErrorOnLast),
    ("verify, tail", VERIFY, End::Tail),
];

fn some(count: usize, what: &str) -> usize {
    assert!(count > 0, "no run has a step of this sort: {what}");
    count
}

/// The ends of one type: with and without Autoload, by COMMAND and by FF00, in a cycle and in a tick.
fn shown_end(ends: &[(End, Command)], (name, kind, end): &(&str, u8, End)) {
    let of_this = || ends.iter().filter(|(how, command)| how == end && command.kind == *kind);
    for code in 0..8 {
        let way = [code & 1 != 0, code & 2 != 0, code & 4 != 0];
        let is_this = |command: &Command| [command.autoload, command.by_ff00, command.by_tick] == way;
        some(of_this().filter(|(_, command)| is_this(command)).count(), &format!("{name}, {way:?}"));
    }
    println!("{:8} end a command: {name}", of_this().count());
}

pub fn shown(all: &[Judged]) {
    let steps = || all.iter().flat_map(|(run, sorts)| sorts.iter().map(|sort| (run.block.end().0, sort)));
    println!("{} runs and {} steps logged, of which", all.len(), steps().count());
    for (name, is_this) in SORTS {
        println!("{:8} {name}", some(steps().filter(|(_, sort)| is_this(sort)).count(), name));
    }
    let ended = |(end, sort): (End, &Sort)| if let Sort::Ends(command) = sort { Some((end, *command)) } else { None };
    let ends: Vec<_> = steps().filter_map(ended).collect();
    ENDS.iter().for_each(|end| shown_end(&ends, end));
}
