//! The short ways, by their conditions: calls whose effect can be told from single bytes of the image. The library takes them;
//! this says where, from the image before the call, what is lent and the call's inputs alone. Everything else goes the plain
//! way.
//!
//! Nothing is compared by it. `taken.rs` counts how often a run's calls take each, and `planted/ways.rs` is a stand-in's
//! short ways, in which bugs are planted that no other call shows. Images are accepted ones, and what is lent has its length.

use crate::calls::Call;
use crate::remaining::remaining;
use crate::sides::{Image, places};
use ::reu::*;

/// What a call on a short way does: nothing but BA's history in the first two, a byte in the next five, of which a swap has
/// two halves, and then a register read, a look, and a register write that starts nothing.
#[derive(Clone, Copy, PartialEq, Eq)]
pub enum Way {
    Idle,
    Hold,
    Store,
    Recall,
    Verify,
    SwapRead,
    SwapWrite,
    Read,
    Look,
    Write,
}

/// Whether a cycle has a delay or a terminal pair to wait for: no short way has.
fn waits(image: &Image) -> bool {
    let [delay, flags] = [image[IMAGE_DELAY], image[IMAGE_FLAGS]];
    delay != 0 || flags & FLAG_TERMINAL_WRITE != 0
}

/// Whether BA at PHI1 is, and was in the cycle before, at this level.
fn steady(image: &Image, level: bool, ba_high_phi1: bool) -> bool {
    let was_high = image[IMAGE_FLAGS] & FLAG_BA_WAS_HIGH != 0;
    ba_high_phi1 == level && was_high == level
}

/// Whether nothing but the next byte is to be done: no byte to be repeated or read again, and no tail.
fn moves(image: &Image) -> bool {
    image[IMAGE_FLAGS] & FLAG_RECALL_REPEAT == 0
        && image[IMAGE_MORE_FLAGS] & FLAG_REFRESH == 0
        && image[IMAGE_TRANSFER_FLAGS] & TRANSFER_TAIL == 0
}

/// Whether the command goes on after the next byte: it is not the last one, and in a verify it does not differ.
fn goes_on(image: &Image, bus: &[u8], storage: &[u8]) -> bool {
    let (addr, offset) = places(image);
    let equal = bus[addr] == storage[offset];
    remaining(image) != 1 && (image[IMAGE_TYPE] != VERIFY || equal)
}

/// What a cycle does that moves the next byte of a transfer.
fn byte(image: &Image) -> Way {
    match (image[IMAGE_TYPE], image[IMAGE_PHASE]) {
        (STORE, _) => Way::Store,
        (RECALL, _) => Way::Recall,
        (SWAP, 0) => Way::SwapRead,
        (SWAP, _) => Way::SwapWrite,
        _ => Way::Verify,
    }
}

/// The short way of a cycle.
fn cycle(image: &Image, bus: &[u8], storage: &[u8], ba_high_phi1: bool) -> Option<Way> {
    let runs = image[IMAGE_TRANSFER] == 1;
    if waits(image) {
        None
    } else if !runs {
        Some(Way::Idle)
    } else if !moves(image) {
        None
    } else if steady(image, false, ba_high_phi1) {
        Some(Way::Hold)
    } else {
        let done = steady(image, true, ba_high_phi1) && goes_on(image, bus, storage);
        done.then(|| byte(image))
    }
}

/// Whether a register write is one that starts a command, or would if storage were attached: of COMMAND with bits 7 and 4.
/// One that arms is none.
pub fn starts(addr: u16, value: u8) -> bool {
    addr & 0x1F == COMMAND && value & COMMAND_EXECUTE != 0 && value & COMMAND_FF00_DISABLE != 0
}

/// The short way that a call takes; none if it goes the plain one.
pub fn way(call: Call, image: &Image, bus: &[u8], storage: &[u8]) -> Option<Way> {
    match call {
        Call::RunReuCycle { ba_high_phi1, .. } => cycle(image, bus, storage, ba_high_phi1 != 0),
        Call::Read { .. } => Some(Way::Read),
        Call::Write { addr, value } => (!starts(addr, value)).then_some(Way::Write),
        Call::DebugRegister { .. } | Call::DmaActive | Call::C64Access | Call::StoragePresent | Call::CapacityBytes => {
            Some(Way::Look)
        }
        _ => None,
    }
}
