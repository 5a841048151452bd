//! What both programs take from elsewhere, and the form of an input.

#[allow(dead_code)] // each program uses some of the numbers
#[path = "../../rust/src/constants.rs"]
pub mod constants;
#[path = "../bench/src/screen.rs"]
pub mod screen;

/// The bits that the Rattle side takes an input apart by.
pub fn bits(ba: &screen::Ba) -> u8 {
    (ba.high | ba.high_phi1 << 1 | ba.low << 2) as u8
}
