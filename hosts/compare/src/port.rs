//! The library's side: libreu.a, called as a host calls it.

use crate::calls::Call;
use crate::sides::{Lent, Port};
use reu::raw::*;

#[derive(Clone, Copy)]
pub struct Library;

/// A buffer as C passes it; one without bytes is a null pointer, as a careless host would have it.
fn parts(bytes: &mut [u8]) -> (*mut u8, usize) {
    if bytes.is_empty() { (std::ptr::null_mut(), 0) } else { (bytes.as_mut_ptr(), bytes.len()) }
}

impl Port for Library {
    fn call(&mut self, call: Call, lent: Lent) -> u32 {
        let (image, size) = parts(lent.image);
        let (bus, bus_size) = parts(lent.bus);
        let (storage, room) = parts(lent.storage);
        // SAFETY: the declarations are the library's, as tools/check-header tests; each pointer is lent with its own length,
        // for this call alone, and the three buffers are apart, since they are three exclusive borrows.
        unsafe {
            match call {
                Call::New => reu_new(image, size),
                Call::Reset { hard_reset } => reu_reset(image, size, hard_reset),
                Call::SetEnabled { enabled } => reu_set_enabled(image, size, storage, room, enabled),
                Call::StoragePresent => reu_storage_present(image, size),
                Call::CapacityBytes => reu_capacity_bytes(image, size),
                Call::TriggerFf00 => reu_trigger_ff00(image, size),
                Call::Read { addr } => reu_read(image, size, addr),
                Call::Write { addr, value } => reu_write(image, size, addr, value),
                Call::DmaActive => reu_dma_active(image, size),
                Call::CpuReadyAfterDma { ba_high } => reu_cpu_ready_after_dma(image, size, ba_high),
                Call::BusAction { ba_high, ba_high_phi1, cycle } => {
                    reu_bus_action(image, size, storage, room, ba_high, ba_high_phi1, cycle)
                }
                Call::DebugRegister { index } => reu_debug_register(image, size, index),
                Call::C64Access => reu_c64_access(image, size),
                Call::TickDma { cycle, ba_low } => {
                    reu_tick_dma(image, size, bus, bus_size, storage, room, cycle, ba_low)
                }
                Call::RunReuCycle { ba_high, cycle, ba_low, ba_high_phi1 } => {
                    reu_run_reu_cycle(image, size, bus, bus_size, storage, room, ba_high, cycle, ba_low, ba_high_phi1)
                }
                Call::SetSize { size: set } => reu_set_size(image, size, set),
            }
        }
    }
}
