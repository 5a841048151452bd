//! What the calls answer, as types.

use crate::constants::*;
use std::{error, fmt};

/// Why a call was refused. A refused call has changed nothing.
///
/// The library tests in this order, each only where the call takes that buffer or that size.
#[derive(Clone, Copy, Debug, PartialEq, Eq)]
pub enum Refusal {
    /// 1: the image's length is not [`IMAGE_SIZE`].
    ImageLength,
    /// 2: the image has a field that no controller can have.
    ImageField,
    /// 3: the bus's length is not [`BUS_SIZE`].
    BusLength,
    /// 4: the storage's length is not the size that is set, [`STORAGE_SIZE`] if none was.
    StorageLength,
    /// 5: the size to be set is none of [`SIZE_128K`], [`SIZE_256K`] and [`SIZE_512K`].
    Size,
    /// 6: a size is to be set, and the storage is attached.
    Attached,
}

impl Refusal {
    /// The library's number of this refusal.
    pub fn number(self) -> u32 {
        match self {
            Refusal::ImageLength => REFUSED_IMAGE_LENGTH,
            Refusal::ImageField => REFUSED_IMAGE_FIELD,
            Refusal::BusLength => REFUSED_BUS_LENGTH,
            Refusal::StorageLength => REFUSED_STORAGE_LENGTH,
            Refusal::Size => REFUSED_SIZE,
            Refusal::Attached => REFUSED_ATTACHED,
        }
    }
}

impl fmt::Display for Refusal {
    fn fmt(&self, f: &mut fmt::Formatter<'_>) -> fmt::Result {
        match self {
            Refusal::ImageLength => write!(f, "an image has {IMAGE_SIZE} bytes"),
            Refusal::ImageField => write!(f, "the image has a field that no controller can have"),
            Refusal::BusLength => write!(f, "a bus has {BUS_SIZE} bytes"),
            Refusal::StorageLength => write!(f, "the storage has another length than the size that is set"),
            Refusal::Size => write!(f, "a storage has {SIZE_128K}, {SIZE_256K} or {SIZE_512K} bytes"),
            Refusal::Attached => write!(f, "no size can be set once the storage is attached"),
        }
    }
}

impl error::Error for Refusal {}

/// Who has a bus cycle.
#[derive(Clone, Copy, Debug, PartialEq, Eq)]
pub enum Grant {
    /// The CPU.
    Cpu,
    /// Nobody: the CPU is held, and so is the transfer, if one is running.
    Hold,
    /// The transfer, if one is running; the CPU is held in any case.
    Transfer,
}

/// What the next tick does on the C64's side.
#[derive(Clone, Copy, Debug, PartialEq, Eq)]
pub enum Access {
    /// Nothing: no transfer is running.
    None,
    /// It reads this address.
    Read(u16),
    /// It writes this address.
    Write(u16),
}

/// What a tick or a cycle answers.
///
/// The marks are of the byte that the call completed, the last of a block, one that differs in a verify and one that a
/// recall repeats too. A fixed address never has its own. A call that completes no byte has neither: the first tick of a
/// swap's byte, a refresh, a verify tail, [`Grant::Hold`], [`Grant::Cpu`], a tick without a transfer.
#[derive(Clone, Copy, Debug, PartialEq, Eq)]
pub struct Step {
    /// Of a tick: a transfer is running afterwards. Of a cycle: the controller keeps the CPU from it.
    pub busy: bool,
    /// The C64 address stepped from $FFFF to 0.
    pub passed_c64: bool,
    /// The expansion address stepped from $FFFFFF to 0.
    pub passed_expansion: bool,
}

/// Takes an answer apart: 16,777,216 times the refusal, plus the value.
pub(crate) fn split(answer: u32) -> Result<u32, Refusal> {
    match answer >> 24 {
        ACCEPTED => Ok(answer & 0xFF_FFFF),
        REFUSED_IMAGE_LENGTH => Err(Refusal::ImageLength),
        REFUSED_IMAGE_FIELD => Err(Refusal::ImageField),
        REFUSED_BUS_LENGTH => Err(Refusal::BusLength),
        REFUSED_STORAGE_LENGTH => Err(Refusal::StorageLength),
        REFUSED_SIZE => Err(Refusal::Size),
        REFUSED_ATTACHED => Err(Refusal::Attached),
        other => unreachable!("the library has no refusal {other}"),
    }
}

pub(crate) fn grant(value: u32) -> Grant {
    match value {
        GRANT_CPU => Grant::Cpu,
        GRANT_HOLD => Grant::Hold,
        GRANT_TRANSFER => Grant::Transfer,
        other => unreachable!("the library has no grant {other}"),
    }
}

pub(crate) fn step(value: u32) -> Step {
    Step { busy: value & 1 != 0, passed_c64: value & PASSED_C64 != 0, passed_expansion: value & PASSED_EXPANSION != 0 }
}

pub(crate) fn access(value: u32) -> Access {
    let address = (value & 0xFFFF) as u16;
    match value >> 16 {
        ACCESS_NONE => Access::None,
        ACCESS_READ => Access::Read(address),
        ACCESS_WRITE => Access::Write(address),
        other => unreachable!("the library has no access {other}"),
    }
}
