//! The calls as `libreu.a` exports them. `include/reu.h` documents each; `tools/check-header` holds the declarations to
//! the library's source.
//!
//! Each pointer must be valid for the length beside it, for writing too where it is `*mut`, and the buffers of one call
//! must not overlap; a null pointer with length 0 is refused. [`crate::calls`] has the same calls without these worries.

#![allow(missing_docs)] // they stand in include/reu.h, once

unsafe extern "C" {
    pub fn reu_new(image: *mut u8, image_len: usize) -> u32;
    pub fn reu_reset(image: *mut u8, image_len: usize, hard_reset: u32) -> u32;
    pub fn reu_set_size(image: *mut u8, image_len: usize, size: u64) -> u32;
    pub fn reu_set_enabled(image: *mut u8, image_len: usize, storage: *mut u8, storage_len: usize, enabled: u32)
    -> u32;
    pub fn reu_storage_present(image: *const u8, image_len: usize) -> u32;
    pub fn reu_capacity_bytes(image: *const u8, image_len: usize) -> u32;
    pub fn reu_trigger_ff00(image: *mut u8, image_len: usize) -> u32;
    pub fn reu_read(image: *mut u8, image_len: usize, addr: u16) -> u32;
    pub fn reu_write(image: *mut u8, image_len: usize, addr: u16, value: u8) -> u32;
    pub fn reu_dma_active(image: *const u8, image_len: usize) -> u32;
    pub fn reu_bus_action(
        image: *mut u8,
        image_len: usize,
        storage: *mut u8,
        storage_len: usize,
        ba_high: u32,
        ba_high_phi1: u32,
        cycle: u64,
    ) -> u32;
    pub fn reu_cpu_ready_after_dma(image: *mut u8, image_len: usize, ba_high: u32) -> u32;
    pub fn reu_debug_register(image: *const u8, image_len: usize, index: u64) -> u32;
    pub fn reu_c64_access(image: *const u8, image_len: usize) -> u32;
    pub fn reu_tick_dma(
        image: *mut u8,
        image_len: usize,
        bus: *mut u8,
        bus_len: usize,
        storage: *mut u8,
        storage_len: usize,
        cycle: u64,
        ba_low: u32,
    ) -> u32;
    pub fn reu_run_reu_cycle(
        image: *mut u8,
        image_len: usize,
        bus: *mut u8,
        bus_len: usize,
        storage: *mut u8,
        storage_len: usize,
        ba_high: u32,
        cycle: u64,
        ba_low: u32,
        ba_high_phi1: u32,
    ) -> u32;
}
