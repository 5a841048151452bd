//! The differential run's parts. `main.rs` is the program, the README beside this folder says what it does.

pub mod accepted;
pub mod calls;
pub mod compare;
#[cfg(original)]
pub mod copies;
pub mod courses;
pub mod demand3;
pub mod generate;
pub mod granted;
pub mod passed;
#[cfg(original)]
pub mod planted;
pub mod port;
pub mod record;
#[cfg(original)]
pub mod reference;
pub mod refusals;
pub mod remaining;
pub mod rng;
pub mod screen;
pub mod sessions;
pub mod short;
pub mod shrink;
pub mod sides;
pub mod sizes;
pub mod taken;

/// The seed of what must be the same each time: the recorded list and the planted bugs. A run draws its own.
pub const SEED: u64 = 8726;
