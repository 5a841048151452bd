//! BA as a PAL screen with text and one sprite gives it.

pub const CYCLES_PER_LINE: usize = 63;
const LINES: usize = 312;

/// The inputs of one cycle.
#[derive(Clone, Copy)]
pub struct Ba {
    pub high: u32,
    pub low: u32,
    pub high_phi1: u32,
}

impl Ba {
    pub const HIGH: Ba = Ba { high: 1, low: 0, high_phi1: 1 };
}

/// BA low: on every eighth line of the text from cycle 12 to 54, and for a sprite of 21 lines from cycle 55 to 59.
fn low(line: usize, x: usize) -> bool {
    let text = (48..248).contains(&line) && line % 8 == 3;
    let sprite = (100..121).contains(&line);
    text && (12..55).contains(&x) || sprite && (55..60).contains(&x)
}

/// The sprite's BA falls after PHI1 of its first cycle, the text's before.
fn low_at_phi1(line: usize, x: usize) -> bool {
    low(line, x) && x != 55
}

/// The inputs of every cycle of a frame, line by line.
pub fn frame() -> Vec<Ba> {
    let inputs = |line, x| Ba {
        high: u32::from(!low(line, x)),
        low: u32::from(low(line, x)),
        high_phi1: u32::from(!low_at_phi1(line, x)),
    };
    (0..LINES * CYCLES_PER_LINE).map(|at| inputs(at / CYCLES_PER_LINE, at % CYCLES_PER_LINE)).collect()
}
