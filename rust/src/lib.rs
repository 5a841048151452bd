//! The MOS 8726 RAM expansion controller (REU) with 128, 256 or 512 KiB, bus cycle by bus cycle.
//!
//! The controller is in `libreu.a`. What each of its calls answers and leaves is proved, of the library's source on the
//! language's abstract machine (the compiler's back end is not covered). This crate has the calls for a Rust host:
//!
//! - [`Machine`] owns the controller, the C64's memory and the expansion memory;
//! - [`calls`] has the same calls on slices, for a host that keeps these itself;
//! - [`raw`] has them as the library exports them.
//!
//! The build script looks for `libreu.a` in the folder that `REU_LIB_DIR` names, else in `../target/staticlib`.
//!
//! ```
//! use reu::{COMMAND_EXECUTE, COMMAND_FF00_DISABLE, Machine, STORE};
//!
//! let mut machine = Machine::new();
//! machine.set_enabled(true);
//! machine.bus_mut()[0x1000] = 0xA5;
//! machine.write(0xDF03, 0x10); // C64 address $1000
//! machine.write(0xDF07, 1); // length 1
//! machine.write(0xDF08, 0);
//! machine.write(0xDF01, STORE | COMMAND_FF00_DISABLE | COMMAND_EXECUTE);
//!
//! assert!(machine.run_reu_cycle(true, 0, false, true).busy); // the controller has this cycle
//! assert_eq!(machine.storage()[0], 0xA5);
//! assert_eq!(machine.read(0xDF00), 0x50); // end of block
//! assert!(!machine.run_reu_cycle(true, 1, false, true).busy); // the CPU has the next
//! ```

mod answer;
pub mod calls;
mod constants;
mod machine;
pub mod raw;
mod size;

pub use answer::{Access, Grant, Refusal, Step};
pub use constants::*;
pub use machine::Machine;
pub use size::Size;
