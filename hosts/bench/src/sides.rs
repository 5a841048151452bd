//! The two sides that are measured, behind one face.

use original::machine::Machine;
use reu::{BUS_SIZE, IMAGE_GRANTED_CYCLES, IMAGE_SIZE, STORAGE_SIZE, raw};

/// The calls that are measured, as the library exports them: flags are 0 or 1, answers document 01's values, the library's
/// with the marks that request L2 adds.
pub trait Side {
    /// A new controller, enabled, with some bytes on the bus.
    fn enabled() -> Self;
    fn read(&mut self, addr: u16) -> u32;
    fn write(&mut self, addr: u16, value: u8) -> u32;
    fn debug_register(&mut self, index: u64) -> u32;
    fn storage_present(&mut self) -> u32;
    fn capacity_bytes(&mut self) -> u32;
    fn trigger_ff00(&mut self) -> u32;
    fn dma_active(&mut self) -> u32;
    fn c64_access(&mut self) -> u32;
    fn cpu_ready_after_dma(&mut self, ba_high: u32) -> u32;
    fn bus_action(&mut self, ba_high: u32, ba_high_phi1: u32, cycle: u64) -> u32;
    fn run_reu_cycle(&mut self, ba_high: u32, cycle: u64, ba_low: u32, ba_high_phi1: u32) -> u32;
    /// Image, bus and storage, to see that both sides have done the same. The image is without the count of granted
    /// cycles, which the original has not.
    fn machine(&self) -> [Vec<u8>; 3];
}

/// Bytes that differ from their neighbours, so that a byte in the wrong place is seen.
fn fill(bus: &mut [u8]) {
    for (at, byte) in bus.iter_mut().enumerate() {
        *byte = (at + at / 251) as u8;
    }
}

/// The library, as a host in C or Rust calls it.
pub struct Library {
    image: [u8; IMAGE_SIZE],
    bus: Box<[u8]>,
    storage: Box<[u8]>,
}

impl Library {
    fn image(&mut self) -> *mut u8 {
        self.image.as_mut_ptr()
    }
}

// SAFETY of every block: the pointers are those of three buffers that this side owns, with their lengths.
impl Side for Library {
    fn enabled() -> Self {
        let (bus, storage) = (vec![0; BUS_SIZE].into(), vec![0; STORAGE_SIZE].into());
        let mut side = Library { image: [0; IMAGE_SIZE], bus, storage };
        fill(&mut side.bus);
        unsafe { raw::reu_new(side.image(), IMAGE_SIZE) };
        unsafe { raw::reu_set_enabled(side.image(), IMAGE_SIZE, side.storage.as_mut_ptr(), STORAGE_SIZE, 1) };
        side
    }

    fn read(&mut self, addr: u16) -> u32 {
        unsafe { raw::reu_read(self.image(), IMAGE_SIZE, addr) }
    }

    fn write(&mut self, addr: u16, value: u8) -> u32 {
        unsafe { raw::reu_write(self.image(), IMAGE_SIZE, addr, value) }
    }

    fn debug_register(&mut self, index: u64) -> u32 {
        unsafe { raw::reu_debug_register(self.image(), IMAGE_SIZE, index) }
    }

    fn storage_present(&mut self) -> u32 {
        unsafe { raw::reu_storage_present(self.image(), IMAGE_SIZE) }
    }

    fn capacity_bytes(&mut self) -> u32 {
        unsafe { raw::reu_capacity_bytes(self.image(), IMAGE_SIZE) }
    }

    fn trigger_ff00(&mut self) -> u32 {
        unsafe { raw::reu_trigger_ff00(self.image(), IMAGE_SIZE) }
    }

    fn dma_active(&mut self) -> u32 {
        unsafe { raw::reu_dma_active(self.image(), IMAGE_SIZE) }
    }

    fn c64_access(&mut self) -> u32 {
        unsafe { raw::reu_c64_access(self.image(), IMAGE_SIZE) }
    }

    fn cpu_ready_after_dma(&mut self, ba_high: u32) -> u32 {
        unsafe { raw::reu_cpu_ready_after_dma(self.image(), IMAGE_SIZE, ba_high) }
    }

    fn bus_action(&mut self, ba_high: u32, ba_high_phi1: u32, cycle: u64) -> u32 {
        let storage = self.storage.as_mut_ptr();
        unsafe { raw::reu_bus_action(self.image(), IMAGE_SIZE, storage, STORAGE_SIZE, ba_high, ba_high_phi1, cycle) }
    }

    fn run_reu_cycle(&mut self, ba_high: u32, cycle: u64, ba_low: u32, ba_high_phi1: u32) -> u32 {
        let (bus, storage) = (self.bus.as_mut_ptr(), self.storage.as_mut_ptr());
        unsafe {
            raw::reu_run_reu_cycle(
                self.image(),
                IMAGE_SIZE,
                bus,
                BUS_SIZE,
                storage,
                STORAGE_SIZE,
                ba_high,
                cycle,
                ba_low,
                ba_high_phi1,
            )
        }
    }

    fn machine(&self) -> [Vec<u8>; 3] {
        [self.image[..IMAGE_GRANTED_CYCLES].to_vec(), self.bus.to_vec(), self.storage.to_vec()]
    }
}

/// The original, compiled unchanged.
impl Side for Machine {
    fn enabled() -> Self {
        let mut side = Machine::default();
        fill(side.bus_mut());
        side.set_enabled(1);
        side
    }

    fn read(&mut self, addr: u16) -> u32 {
        Machine::read(self, addr)
    }

    fn write(&mut self, addr: u16, value: u8) -> u32 {
        Machine::write(self, addr, value)
    }

    fn debug_register(&mut self, index: u64) -> u32 {
        Machine::debug_register(self, index)
    }

    fn storage_present(&mut self) -> u32 {
        Machine::storage_present(self)
    }

    fn capacity_bytes(&mut self) -> u32 {
        Machine::capacity_bytes(self)
    }

    fn trigger_ff00(&mut self) -> u32 {
        Machine::trigger_ff00(self)
    }

    fn dma_active(&mut self) -> u32 {
        Machine::dma_active(self)
    }

    fn c64_access(&mut self) -> u32 {
        Machine::c64_access(self)
    }

    fn cpu_ready_after_dma(&mut self, ba_high: u32) -> u32 {
        Machine::cpu_ready_after_dma(self, ba_high)
    }

    fn bus_action(&mut self, ba_high: u32, ba_high_phi1: u32, cycle: u64) -> u32 {
        Machine::bus_action(self, ba_high, ba_high_phi1, cycle)
    }

    fn run_reu_cycle(&mut self, ba_high: u32, cycle: u64, ba_low: u32, ba_high_phi1: u32) -> u32 {
        Machine::run_reu_cycle(self, ba_high, cycle, ba_low, ba_high_phi1)
    }

    fn machine(&self) -> [Vec<u8>; 3] {
        [self.image()[..IMAGE_GRANTED_CYCLES].to_vec(), self.bus().to_vec(), self.storage().to_vec()]
    }
}
