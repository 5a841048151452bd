//! The sixteen calls on slices, for a host that keeps the buffers itself.
//!
//! Each does what `include/reu.h` says of the call of that name. Slices of any length are accepted or refused; a refused
//! call has changed nothing.
//!
//! ```
//! use reu::{Refusal, calls};
//!
//! let mut image = [0; reu::IMAGE_SIZE];
//! calls::new(&mut image)?;
//! assert_eq!(calls::read(&mut image, 0xDF06)?, 0xF8);
//! assert_eq!(calls::read(&mut image[1..], 0xDF06), Err(Refusal::ImageLength));
//!
//! let mut storage = vec![0; reu::STORAGE_SIZE - 1];
//! assert_eq!(calls::set_enabled(&mut image, &mut storage, true), Err(Refusal::StorageLength));
//! # Ok::<(), Refusal>(())
//! ```

use crate::answer::{Access, Grant, Refusal, Step, access, grant, split, step};
use crate::raw;

/// What a call answers: its value, or why it was refused.
pub type Answer<T> = Result<T, Refusal>;

// SAFETY of every block below: a slice is valid for its length, for writing too where it is `&mut`, and slices that are
// borrowed mutably at the same time do not overlap. The calls ask nothing else.

/// Makes a new controller, whatever the image held.
pub fn new(image: &mut [u8]) -> Answer<()> {
    split(unsafe { raw::reu_new(image.as_mut_ptr(), image.len()) }).map(|_| ())
}

/// Resets the controller; enabled, attached and the size are kept. `hard_reset` makes no difference.
pub fn reset(image: &mut [u8], hard_reset: bool) -> Answer<()> {
    split(unsafe { raw::reu_reset(image.as_mut_ptr(), image.len(), hard_reset.into()) }).map(|_| ())
}

/// Sets the size of the storage in bytes, and with it STATUS's bit 4, before the storage is attached.
///
/// It takes any number, to refuse those that no storage has; [`Size`](crate::Size) has the three others.
///
/// ```
/// use reu::{Refusal, calls};
///
/// let mut image = [0; reu::IMAGE_SIZE];
/// calls::new(&mut image)?;
/// calls::set_size(&mut image, 131_072)?;
/// assert_eq!(calls::debug_register(&image, 0)?, 0); // the 1700 has no mark
/// assert_eq!(calls::set_size(&mut image, 100_000), Err(Refusal::Size));
///
/// let mut storage = vec![0; reu::SIZE_128K];
/// calls::set_enabled(&mut image, &mut storage, true)?;
/// assert_eq!(calls::set_size(&mut image, 131_072), Err(Refusal::Attached));
/// # Ok::<(), Refusal>(())
/// ```
pub fn set_size(image: &mut [u8], size: u64) -> Answer<()> {
    split(unsafe { raw::reu_set_size(image.as_mut_ptr(), image.len(), size) }).map(|_| ())
}

/// Enables or disables the controller. Enabling attaches a storage that is not attached and sets every byte of it to 0.
pub fn set_enabled(image: &mut [u8], storage: &mut [u8], enabled: bool) -> Answer<()> {
    split(unsafe {
        raw::reu_set_enabled(image.as_mut_ptr(), image.len(), storage.as_mut_ptr(), storage.len(), enabled.into())
    })
    .map(|_| ())
}

/// Whether the storage is attached.
pub fn storage_present(image: &[u8]) -> Answer<bool> {
    split(unsafe { raw::reu_storage_present(image.as_ptr(), image.len()) }).map(|value| value != 0)
}

/// The size of the storage in bytes if it is attached, else 0.
pub fn capacity_bytes(image: &[u8]) -> Answer<usize> {
    split(unsafe { raw::reu_capacity_bytes(image.as_ptr(), image.len()) }).map(|value| value as usize)
}

/// The CPU has made the access to $FF00: an armed transfer starts, if COMMAND still has bit 7.
pub fn trigger_ff00(image: &mut [u8]) -> Answer<()> {
    split(unsafe { raw::reu_trigger_ff00(image.as_mut_ptr(), image.len()) }).map(|_| ())
}

/// Reads a register as the CPU does; reading STATUS clears its events.
pub fn read(image: &mut [u8], addr: u16) -> Answer<u8> {
    split(unsafe { raw::reu_read(image.as_mut_ptr(), image.len(), addr) }).map(|value| value as u8)
}

/// Writes a register as the CPU does; COMMAND starts or arms a transfer.
pub fn write(image: &mut [u8], addr: u16, value: u8) -> Answer<()> {
    split(unsafe { raw::reu_write(image.as_mut_ptr(), image.len(), addr, value) }).map(|_| ())
}

/// Whether a transfer is running.
pub fn dma_active(image: &[u8]) -> Answer<bool> {
    split(unsafe { raw::reu_dma_active(image.as_ptr(), image.len()) }).map(|value| value != 0)
}

/// Decides who has this cycle; to be asked once in a cycle.
pub fn bus_action(
    image: &mut [u8],
    storage: &mut [u8],
    ba_high: bool,
    ba_high_phi1: bool,
    cycle: u64,
) -> Answer<Grant> {
    split(unsafe {
        raw::reu_bus_action(
            image.as_mut_ptr(),
            image.len(),
            storage.as_mut_ptr(),
            storage.len(),
            ba_high.into(),
            ba_high_phi1.into(),
            cycle,
        )
    })
    .map(grant)
}

/// Whether the CPU may go on after a transfer: BA is high or the release flag is set. Clears the flag.
pub fn cpu_ready_after_dma(image: &mut [u8], ba_high: bool) -> Answer<bool> {
    split(unsafe { raw::reu_cpu_ready_after_dma(image.as_mut_ptr(), image.len(), ba_high.into()) })
        .map(|value| value != 0)
}

/// The byte held in a register, without the effects of a read; $FF from index 11 on.
pub fn debug_register(image: &[u8], index: u64) -> Answer<u8> {
    split(unsafe { raw::reu_debug_register(image.as_ptr(), image.len(), index) }).map(|value| value as u8)
}

/// What the next tick does on the C64's side.
pub fn c64_access(image: &[u8]) -> Answer<Access> {
    split(unsafe { raw::reu_c64_access(image.as_ptr(), image.len()) }).map(access)
}

/// Advances the transfer by one granted cycle. Answers whether one is running afterwards, and which address
/// passed its top.
pub fn tick_dma(image: &mut [u8], bus: &mut [u8], storage: &mut [u8], cycle: u64, ba_low: bool) -> Answer<Step> {
    split(unsafe {
        raw::reu_tick_dma(
            image.as_mut_ptr(),
            image.len(),
            bus.as_mut_ptr(),
            bus.len(),
            storage.as_mut_ptr(),
            storage.len(),
            cycle,
            ba_low.into(),
        )
    })
    .map(step)
}

/// Runs one bus cycle. Answers whether the controller keeps the CPU from it, and which address passed its top.
pub fn run_reu_cycle(
    image: &mut [u8],
    bus: &mut [u8],
    storage: &mut [u8],
    ba_high: bool,
    cycle: u64,
    ba_low: bool,
    ba_high_phi1: bool,
) -> Answer<Step> {
    split(unsafe {
        raw::reu_run_reu_cycle(
            image.as_mut_ptr(),
            image.len(),
            bus.as_mut_ptr(),
            bus.len(),
            storage.as_mut_ptr(),
            storage.len(),
            ba_high.into(),
            cycle,
            ba_low.into(),
            ba_high_phi1.into(),
        )
    })
    .map(step)
}
