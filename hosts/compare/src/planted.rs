//! The proof that the run can fail: bugs planted in a stand-in for the library, each of which must be caught.
//!
//! All that tries them is drawn from fixed seeds, [`crate::SEED`] and for demand 3 a few small ones: a bug that 200,000
//! calls of a new seed missed by chance would fail the gate though nothing is wrong.

#[path = "../planted/table.rs"]
mod table;

use crate::accepted::accepted;
use crate::calls::Call;
use crate::compare::{Pair, Run, caught_by};
use crate::copies::{COPIES, CallOn, SHORT};
use crate::reference::Original;
use crate::refusals::Refusals;
use crate::remaining::EARLIER;
use crate::screen::Sides;
use crate::sides::{Held, IMAGE, Image, Lent, Port, REFUSAL, register};
use crate::sizes::SIZES;
use crate::{demand3, screen, sessions, sizes};
use reu::*;
use std::panic::{AssertUnwindSafe, catch_unwind};
use table::PLANTED;

/// Calls that the random run has to catch a bug, and the seeds of demand 3's runs at each size.
const CALLS: u64 = 200_000;
const DEMAND3_SEEDS: [u64; 4] = [0, 1, 2, 3];

/// A stand-in for the library: the sixteen calls over a copy of the original.
#[derive(Clone, Copy)]
pub struct Standin(pub CallOn);

impl Port for Standin {
    fn call(&mut self, call: Call, lent: Lent) -> u32 {
        (self.0)(call, lent)
    }
}

/// What a bug must break, where document 01 says so.
#[derive(Clone, Copy)]
pub enum Breaks {
    Anything,
    Session(usize),
    Midway,
}

/// A bug by name, what it must break, and its stand-in.
pub type Bug = (&'static str, Breaks, CallOn);

fn right(call: Call, lent: Lent) -> u32 {
    COPIES[0](call, lent)
}

/// The image that these bytes were before remaining had two bytes, if they were one: the third of three is left out, and a
/// count that is not there is 0.
fn from_before(bytes: &[u8]) -> Option<Image> {
    if !EARLIER.contains(&bytes.len()) {
        return None;
    }
    let (before, behind) = bytes.split_at(IMAGE_LATCH);
    let mut now = [before, &behind[1..]].concat();
    now.resize(IMAGE, 0);
    now.try_into().ok().filter(|now: &Image| accepted(now))
}

/// The stand-ins that are no edit of the text but something around it.
const WRAPPED: &[Bug] = &[
    ("refuses all calls", Breaks::Session(4), |_, _| REFUSAL),
    ("reads are always $FF", Breaks::Session(4), |call, lent| {
        let answer = right(call, lent);
        if matches!(call, Call::Read { .. }) { 0xFF } else { answer }
    }),
    ("the cycle leaves everything alone", Breaks::Session(4), |call, lent| match call {
        Call::RunReuCycle { .. } if lent.image.len() == IMAGE => u32::from(lent.image[IMAGE_TRANSFER]),
        _ => right(call, lent),
    }),
    ("the first cycle of a live command answers 0", Breaks::Anything, |call, lent| {
        let flags = lent.image.get(IMAGE_TRANSFER_FLAGS).copied().unwrap_or_default();
        let first = matches!(call, Call::RunReuCycle { .. }) && flags & TRANSFER_FIRST_BYTE != 0;
        let answer = right(call, lent);
        if first { answer & !1 } else { answer }
    }),
    ("the remaining length that is shown is invented", Breaks::Session(6), |call, lent| {
        let Lent { image, bus, storage } = lent;
        let before = image.to_vec();
        let answer = right(call, Lent { image: &mut *image, bus, storage });
        if matches!(call, Call::RunReuCycle { .. }) && image.len() == IMAGE {
            let shown = register(TRANSFER_LENGTH_LOW)..=register(TRANSFER_LENGTH_HIGH);
            image[shown.clone()].copy_from_slice(&before[shown]);
        }
        answer
    }),
    ("a swap exchanges the block in cycle 1 and idles for the others", Breaks::Session(9), |call, lent| {
        let Lent { image, bus, storage } = lent;
        let cycle = matches!(call, Call::RunReuCycle { .. });
        for _ in 0..131_072 {
            let answer = right(call, Lent { image: &mut *image, bus: &mut *bus, storage: &mut *storage });
            let swaps = cycle && answer & 1 == 1 && image[IMAGE_TYPE] == SWAP;
            if !swaps {
                return answer;
            }
        }
        1
    }),
    ("a swap counts and exchanges nothing", Breaks::Midway, |call, lent| {
        let Lent { image, bus, storage } = lent;
        let swaps = matches!(call, Call::RunReuCycle { .. }) && image.len() == IMAGE && image[IMAGE_TYPE] == SWAP;
        let places = image.first_chunk().map_or((0, 0), crate::sides::places);
        let kept = swaps.then(|| (bus.get(places.0).copied(), storage.get(places.1).copied()));
        let answer = right(call, Lent { image, bus: &mut *bus, storage: &mut *storage });
        if let Some((Some(byte), Some(other))) = kept {
            (bus[places.0], storage[places.1]) = (byte, other);
        }
        answer
    }),
    ("an image from before is opened by its own layout", Breaks::Anything, |call, lent| {
        let Lent { image, bus, storage } = lent;
        match from_before(image) {
            None => right(call, Lent { image, bus, storage }),
            Some(mut now) => right(call, Lent { image: &mut now, bus, storage }),
        }
    }),
    ("a refusal changes the image", Breaks::Anything, |call, lent| {
        let Lent { image, bus, storage } = lent;
        let answer = right(call, Lent { image: &mut *image, bus, storage });
        if answer >= REFUSAL && image.len() == IMAGE {
            image[register(STATUS)] ^= 0x80;
        }
        answer
    }),
    ("a refusal changes the storage's last byte", Breaks::Anything, |call, lent| {
        let Lent { image, bus, storage } = lent;
        let answer = right(call, Lent { image, bus, storage: &mut *storage });
        if let Some(byte) = storage.last_mut().filter(|_| answer >= REFUSAL) {
            *byte ^= 1;
        }
        answer
    }),
    ("a refusal has a value", Breaks::Anything, |call, lent| {
        let answer = right(call, lent);
        if answer >= REFUSAL { answer + 1 } else { answer }
    }),
    ("a byte behind the image is written", Breaks::Anything, |call, lent| {
        let behind = lent.image.as_mut_ptr_range().end;
        let answer = right(call, lent);
        // SAFETY: none in general; every buffer of this program has bytes behind it, which is what is tried here.
        unsafe { *behind = 0 };
        answer
    }),
    ("a byte before the bus is written", Breaks::Anything, |call, lent| {
        let start = lent.bus.as_mut_ptr();
        let answer = right(call, lent);
        // SAFETY: as above, with bytes before it.
        unsafe { *start.sub(1) = 0 };
        answer
    }),
];

fn random_run(standin: CallOn, calls: &mut u64) -> Result<(), String> {
    let (mut tried, mut right) = (Held::new(Standin(standin)), Original::default());
    let mut run = Run::new(crate::SEED);
    let mut pair = Pair { tried: &mut tried, right: &mut right };
    let done = run.compare(&mut pair, CALLS);
    *calls = run.calls;
    done.map_err(|disagreement| disagreement.what)
}

fn demand3_runs(standin: CallOn) -> Result<(), String> {
    let mut refuser = Refusals::new(Standin(standin), crate::SEED);
    let mut machine = Held::new(Standin(standin));
    let mut runs = SIZES.into_iter().flat_map(|size| DEMAND3_SEEDS.map(|seed| (size, seed)));
    runs.try_for_each(|(size, seed)| demand3::run(&mut machine, Some(&mut refuser), size, seed))
}

fn sizes_alone(standin: CallOn) -> Result<(), String> {
    sizes::run(&mut Held::new(Standin(standin)), crate::SEED).map(drop)
}

/// A brief part of the swaps through screen time.
fn swaps_alone(standin: CallOn) -> Result<(), String> {
    screen::run(&mut Sides::One(&mut Held::new(Standin(standin))), crate::SEED, false).map(drop)
}

fn broken_sessions(standin: CallOn) -> Vec<usize> {
    let mut machine = Held::new(Standin(standin));
    let mut plays = |number| catch_unwind(AssertUnwindSafe(|| sessions::plays(&mut machine, number)));
    (1..=sessions::COUNT).filter(|number| !plays(*number).unwrap_or(false)).collect()
}

/// How the random run or, if that does not, the refusals catch a stand-in.
fn caught_in_runs(standin: CallOn) -> Option<String> {
    let mut calls = 0;
    if let Some(what) = caught_by(|| random_run(standin, &mut calls)) {
        return Some(format!("after {calls} calls: {what}"));
    }
    let mut refusals = Refusals::new(Standin(standin), crate::SEED);
    let what = caught_by(|| refusals.run())?;
    Some(format!("after {} refused calls: {}", refusals.calls, brief(&what)))
}

/// What was found, without the lengths and the image that follow: they are too long for a line.
fn brief(what: &str) -> &str {
    what.split(';').next().unwrap_or_default()
}

/// How a stand-in is caught by all the parts; none if it is not, or not by what must break.
fn how_caught(standin: CallOn, breaks: Breaks) -> Option<String> {
    let sessions = broken_sessions(standin);
    let demand3 = caught_by(|| demand3_runs(standin));
    let holds = match breaks {
        Breaks::Anything => true,
        Breaks::Session(number) => sessions.contains(&number),
        Breaks::Midway => demand3.as_ref().is_some_and(|what| what.contains("midway")),
    };
    let names: Vec<String> = sessions.iter().map(|number| format!("R{number}")).collect();
    let broken = (!names.is_empty()).then(|| format!("breaks {}", names.join(" ")));
    let sizes = caught_by(|| sizes_alone(standin)).map(|what| brief(&what).into());
    let swaps = caught_by(|| swaps_alone(standin));
    let ways: Vec<String> = [caught_in_runs(standin), broken, sizes, demand3, swaps].into_iter().flatten().collect();
    (holds && !ways.is_empty()).then(|| ways.join("; "))
}

/// Every bug; document 01's port mistakes come first.
pub fn bugs() -> Vec<Bug> {
    let edited = PLANTED.iter().zip(&COPIES[1..]).map(|(planted, copy)| {
        let breaks = planted.session.map_or(Breaks::Anything, Breaks::Session);
        (planted.name, breaks, *copy)
    });
    edited.chain(WRAPPED.iter().copied()).collect()
}

/// The stand-in with the bug of this number, as [`run`] counts them; 0 is the one without.
pub fn standin(number: usize) -> Option<Standin> {
    match number.checked_sub(1) {
        None => Some(Standin(COPIES[0])),
        Some(at) => bugs().get(at).map(|(_, _, standin)| Standin(*standin)),
    }
}

/// Tries every planted bug, and the two stand-ins without one, plain and with short ways, which must not be caught.
pub fn run() -> bool {
    let (seed, demand3) = (crate::SEED, DEMAND3_SEEDS);
    println!("compare: --planted, from seed {seed} (demand 3 from {demand3:?}), the same each time");
    std::panic::set_hook(Box::new(|_| {}));
    let mut good = true;
    for (what, right) in [("plain stand-in", COPIES[0]), ("stand-in with short ways", SHORT)] {
        if let Some(how) = how_caught(right, Breaks::Anything) {
            println!("the {what} is caught though it has no bug: {how}");
            good = false;
        }
    }
    let bugs = bugs();
    let mut caught = 0;
    for (at, (name, breaks, standin)) in bugs.iter().enumerate() {
        let how = how_caught(*standin, *breaks);
        caught += usize::from(how.is_some());
        let told = how.map_or("NOT CAUGHT".into(), |how| format!("caught {how}"));
        println!("bug {}, {name}: {told}", at + 1);
    }
    println!("caught {caught} of {} planted", bugs.len());
    good && caught == bugs.len()
}
