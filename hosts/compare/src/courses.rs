//! Courses of BA as PHI1 sees it, call by call, for swaps through screen time (`screen.rs`). Each begins high, and each low
//! stretch lasts at least two calls.

use crate::rng::Rng;
use std::iter::{from_fn, repeat, repeat_n};

/// Without end.
pub type Course = Box<dyn Iterator<Item = bool>>;

/// A screen's BA by request L6's bound: 40 low calls of so many.
pub const SCREEN: usize = 504;
/// Of these the high ones.
pub const SCREEN_HIGH: usize = SCREEN - 40;

/// A PAL frame, its text rows from the first badline to the last, and the cycles in which a badline's BA is low.
const LINE: usize = 63;
const LINES: usize = 312;
const BADLINES: std::ops::RangeInclusive<usize> = 51..=243;
const BADLINE_LOW: std::ops::Range<usize> = 11..54;
/// Where a line's first sprite has BA low: three cycles before its fetch and two for it. The next one comes two later.
const SPRITE: usize = 54;
const SPRITE_LOW: usize = 3 + 2;
const SPRITE_LINES: usize = 21;

#[derive(Clone, Copy, Debug)]
pub enum Kind {
    High,
    /// The screen of the bound, begun so many calls after its rise.
    Screen(usize),
    /// A PAL VIC's with text, and sprites that are drawn.
    Vic,
    /// Stretches of so many high and so many low calls in turn, begun with the first or second call of a high one.
    Turns(&'static [(usize, usize)]),
    /// Stretches of drawn lengths.
    Drawn,
}

/// Every kind: the screen begun right after its rise, long before its fall and just before it, and as the hardest ones low
/// stretches of exactly two calls.
pub const KINDS: [Kind; 19] = [
    Kind::High,
    Kind::Screen(0),
    Kind::Screen(SCREEN_HIGH / 2),
    Kind::Screen(SCREEN_HIGH - 3),
    Kind::Screen(SCREEN_HIGH - 2),
    Kind::Screen(SCREEN_HIGH - 1),
    Kind::Vic,
    Kind::Turns(&[(1, 2)]),
    Kind::Turns(&[(2, 2)]),
    Kind::Turns(&[(3, 2)]),
    Kind::Turns(&[(4, 2)]),
    Kind::Turns(&[(1, 2), (2, 2)]),
    Kind::Turns(&[(2, 2), (1, 2), (3, 2)]),
    Kind::Turns(&[(4, 2), (1, 2), (1, 2), (2, 2)]),
    Kind::Turns(&[(3, 5), (1, 2)]),
    Kind::Turns(&[(2, 3)]),
    // Under this one a swap may never end.
    Kind::Turns(&[(1, 3)]),
    Kind::Drawn,
    Kind::Drawn,
];

impl Kind {
    /// Any of them, the screen begun anywhere.
    pub fn any(rng: &mut Rng) -> Self {
        match rng.pick(&KINDS) {
            Kind::Screen(_) => Kind::Screen(rng.below(SCREEN_HIGH)),
            kind => kind,
        }
    }

    pub fn course(self, rng: &mut Rng) -> Course {
        match self {
            Kind::High => Box::new(repeat(true)),
            Kind::Screen(from) => Box::new((from..).map(|call| call % SCREEN < SCREEN_HIGH)),
            Kind::Vic => vic(rng),
            Kind::Turns(turns) => {
                let (first, turns) = (rng.below(turns.len()), turns.iter().copied().cycle());
                Box::new(turns.skip(first).flat_map(stretches).skip(rng.below(2)).skip_while(|high| !high))
            }
            Kind::Drawn => {
                let mut rng = Rng::new(rng.word());
                let lengths = move || Some((drawn_length(&mut rng, 1), drawn_length(&mut rng, 2)));
                Box::new(from_fn(lengths).flat_map(stretches))
            }
        }
    }
}

fn stretches((high, low): (usize, usize)) -> impl Iterator<Item = bool> {
    repeat_n(true, high).chain(repeat_n(false, low))
}

/// The length of a stretch: mostly so short or a little longer, at times a line's.
fn drawn_length(rng: &mut Rng, least: usize) -> usize {
    let more = [0, 0, 1, 2, 3, rng.below(8), rng.below(60)];
    least + rng.pick(&more)
}

/// A frame over and over, from a high call in or near its text.
fn vic(rng: &mut Rng) -> Course {
    let enabled = rng.byte();
    let tops = [(); 8].map(|()| 40 + rng.below(180));
    let from = (45 + rng.below(200)) * LINE + rng.below(LINE);
    let frame: Vec<bool> = (0..LINES * LINE).map(|at| !low(enabled, &tops, at)).collect();
    Box::new(frame.into_iter().cycle().skip(from).skip_while(|high| !high))
}

/// Whether a VIC with these sprites enabled, which begin at these lines, has BA low in a cycle of its frame.
fn low(enabled: u8, tops: &[usize; 8], at: usize) -> bool {
    let (line, cycle) = (at / LINE, at % LINE);
    let text = BADLINES.contains(&line) && (line - BADLINES.start()).is_multiple_of(8) && BADLINE_LOW.contains(&cycle);
    let shown =
        |sprite: usize, line| enabled >> sprite & 1 == 1 && (tops[sprite]..tops[sprite] + SPRITE_LINES).contains(&line);
    // The last ones of a line have theirs in the next.
    let fetches = |sprite: usize, cycle| (SPRITE + 2 * sprite..SPRITE + 2 * sprite + SPRITE_LOW).contains(&cycle);
    let of = |line, cycle| (0..8).any(|sprite| shown(sprite, line) && fetches(sprite, cycle));
    text || of(line, cycle) || line > 0 && of(line - 1, cycle + LINE)
}

/// A course for so many calls and to the end of a low stretch there; from then on BA is high.
pub fn then_high(course: Course, calls: usize) -> Course {
    let mut past = false;
    Box::new(course.enumerate().map(move |(call, high)| {
        past |= high && call >= calls;
        past || high
    }))
}
