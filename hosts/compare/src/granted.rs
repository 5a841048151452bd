//! The count of granted cycles, by request L1's words: the original has none, so the comparison keeps its own.
//!
//! It comes from the call, from what the original's controller was before it, and from what the original's `bus_action`
//! grants; nothing here looks at the library's count. Calls are accepted ones: a refused one changes nothing.

use crate::calls::Call;
use crate::sides::{Image, Machine, number, register};
use reu::{IMAGE_FLAGS, IMAGE_GRANTED_CYCLES};

/// Where the count is held.
pub const TOP: u32 = 4_294_967_295;

/// What `bus_action` answers for Transfer.
const TRANSFER: u32 = 2;

/// The count that an image has.
pub fn count_of(image: &Image) -> u32 {
    number(&image[IMAGE_GRANTED_CYCLES..]) as u32
}

/// Whether a call starts a command: a write of COMMAND with bits 7 and 4, or FF00 on an armed one that has bit 7.
fn starts(call: Call, before: &Image) -> bool {
    let armed = before[IMAGE_FLAGS] & 0x08 != 0;
    match call {
        Call::Write { addr, value } => addr & 0x1F == 1 && value & 0x80 != 0 && value & 0x10 != 0,
        Call::TriggerFf00 => armed && before[register(1)] & 0x80 != 0,
        _ => false,
    }
}

/// The count after a call: 0 at new, at reset and at every start that has storage; one more, up to the top, for a cycle
/// that is granted; as it was for everything else.
pub fn count_after(call: Call, before: &Image, granted: bool) -> u32 {
    let (count, attached) = (count_of(before), before[IMAGE_FLAGS] & 0x04 != 0);
    match call {
        Call::New | Call::Reset { .. } => 0,
        _ if attached && starts(call, before) => 0,
        Call::RunReuCycle { .. } if granted && count < TOP => count + 1,
        _ => count,
    }
}

/// What the grant of a cycle leaves of the controller, if it is Transfer, by this machine's `bus_action`; none for another
/// grant or call. The machine is left as it was.
pub fn granted(machine: &mut dyn Machine, call: Call) -> Option<Image> {
    match call {
        Call::RunReuCycle { ba_high, cycle, ba_high_phi1, .. } => {
            let (grant, image) = machine.grant(ba_high, ba_high_phi1, cycle);
            (grant == TRANSFER).then_some(image)
        }
        _ => None,
    }
}

/// How often a run was at the top: cycles that brought the count there, and cycles that were granted when it was there.
#[derive(Clone, Copy, Default)]
pub struct AtTop {
    pub reached: u64,
    pub held: u64,
}

impl AtTop {
    /// Looks at a call before it is made.
    pub fn look(&mut self, machine: &mut dyn Machine, call: Call) {
        let below = TOP - count_of(&machine.image());
        if below <= 1 && granted(machine, call).is_some() {
            self.reached += u64::from(below == 1);
            self.held += u64::from(below == 0);
        }
    }
}
