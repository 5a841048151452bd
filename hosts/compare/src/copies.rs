//! The copies of the original with a bug planted in each; the build script writes them.

use crate::calls::Call;
use crate::sides::Lent;

/// The sixteen calls over a copy.
pub type CallOn = fn(Call, Lent) -> u32;

include!(concat!(env!("OUT_DIR"), "/copies.rs"));
