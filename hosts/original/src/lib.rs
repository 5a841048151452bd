//! The original controller: its six `src/reu` files and `run_reu_cycle`, compiled unchanged.
//!
//! The build script writes the modules around the original's files (see `text.rs`); what a host must bring, and what
//! reads the private fields, stands in `host/`. Nothing of the original is copied into this tree. Where it is
//! missing, this library is empty, or with the feature `required` (the default) fails to build.

#[cfg(original)]
include!(concat!(env!("OUT_DIR"), "/original.rs"));
#[cfg(original)]
pub use machine::Machine;
