use crate::memory::memory::Memory;
use crate::reu::memory::{REU_1764_CAPACITY_BYTES, ReuMemory};
use crate::reu::reu::attached;
use crate::reu::{Reu, ReuBusAction, ReuC64Access};
use crate::vic::VicII;
use ::reu::{BUS_SIZE, IMAGE_SIZE};

/// The original with a bus and a storage of its own. Each call answers document 01's value for it, without the marks that
/// request L2 adds; flags are as in the exported calls: 0 is false.
pub struct Machine {
    memory: Memory,
    /// The storage's bytes while the controller has none attached: a host lends them all the same.
    detached: Option<ReuMemory>,
}

impl Default for Machine {
    fn default() -> Self {
        let storage = vec![0; REU_1764_CAPACITY_BYTES].into_boxed_slice();
        Self::over(Box::new([0; BUS_SIZE]), storage)
    }
}

impl Machine {
    /// A new controller over these memories.
    pub fn over(bus: Box<[u8; BUS_SIZE]>, storage: Box<[u8]>) -> Self {
        let memory = Memory { bus, reu: Reu::new() };
        Self { memory, detached: Some(ReuMemory::over(storage)) }
    }

    pub fn bus(&self) -> &[u8] {
        &self.memory.bus[..]
    }

    pub fn bus_mut(&mut self) -> &mut [u8] {
        &mut self.memory.bus[..]
    }

    pub fn storage(&self) -> &[u8] {
        let storage = self.memory.reu.storage().or(self.detached.as_ref());
        storage.expect("the storage is attached or detached").bytes()
    }

    pub fn storage_mut(&mut self) -> &mut [u8] {
        let storage = self.memory.reu.storage_slot().as_mut().or(self.detached.as_mut());
        storage.expect("the storage is attached or detached").bytes_mut()
    }

    pub fn interrupt(&self) -> bool {
        self.memory.reu.irq_pending
    }

    pub fn image(&self) -> [u8; IMAGE_SIZE] {
        self.memory.reu.image()
    }

    /// Sets the controller from an accepted image; bus and storage keep their bytes.
    pub fn load(&mut self, image: &[u8; IMAGE_SIZE]) {
        self.detach();
        let storage = if attached(image) { self.detached.take() } else { None };
        self.memory.reu = Reu::open(image, storage);
    }

    fn detach(&mut self) {
        if let Some(storage) = self.memory.reu.storage_slot().take() {
            self.detached = Some(storage);
        }
    }

    pub fn renew(&mut self) -> u32 {
        self.detach();
        self.memory.reu = Reu::new();
        0
    }

    pub fn reset(&mut self, hard_reset: u32) -> u32 {
        self.memory.reu.reset(hard_reset != 0);
        0
    }

    /// The original attaches storage of its own making; its bytes go to the storage that the host lends.
    pub fn set_enabled(&mut self, enabled: u32) -> u32 {
        self.memory.reu.set_enabled(enabled != 0);
        let slot = self.memory.reu.storage_slot();
        if let (Some(made), Some(lent)) = (slot.as_mut(), self.detached.as_mut()) {
            lent.bytes_mut().copy_from_slice(made.bytes());
            *slot = self.detached.take();
        }
        0
    }

    pub fn storage_present(&self) -> u32 {
        u32::from(self.memory.reu.storage_present())
    }

    pub fn capacity_bytes(&self) -> u32 {
        self.memory.reu.capacity_bytes() as u32
    }

    pub fn trigger_ff00(&mut self) -> u32 {
        self.memory.reu.trigger_ff00();
        0
    }

    pub fn read(&mut self, addr: u16) -> u32 {
        u32::from(self.memory.reu.read(addr))
    }

    pub fn write(&mut self, addr: u16, value: u8) -> u32 {
        self.memory.reu.write(addr, value);
        0
    }

    pub fn dma_active(&self) -> u32 {
        u32::from(self.memory.reu.dma_active())
    }

    pub fn cpu_ready_after_dma(&mut self, ba_high: u32) -> u32 {
        u32::from(self.memory.reu.cpu_ready_after_dma(ba_high != 0))
    }

    pub fn bus_action(&mut self, ba_high: u32, ba_high_phi1: u32, cycle: u64) -> u32 {
        match self.memory.reu.bus_action(ba_high != 0, ba_high_phi1 != 0, cycle) {
            ReuBusAction::Cpu => 0,
            ReuBusAction::Hold => 1,
            ReuBusAction::Transfer => 2,
        }
    }

    pub fn debug_register(&self, index: u64) -> u32 {
        u32::from(self.memory.reu.debug_register(usize::try_from(index).unwrap_or(usize::MAX)))
    }

    pub fn c64_access(&self) -> u32 {
        match self.memory.reu.c64_access() {
            ReuC64Access::None => 0,
            ReuC64Access::Read(addr) => 65_536 + u32::from(addr),
            ReuC64Access::Write(addr) => 2 * 65_536 + u32::from(addr),
        }
    }

    /// The controller is moved out for the tick, as `run_reu_cycle` does it.
    pub fn tick_dma(&mut self, cycle: u64, ba_low: u32) -> u32 {
        let mut vic = VicII { ba_low: ba_low != 0, ba_high_phi1: true };
        let mut reu = std::mem::take(&mut self.memory.reu);
        let going_on = reu.tick_dma(&mut self.memory, cycle, &mut vic);
        self.memory.reu = reu;
        u32::from(going_on)
    }

    pub fn run_reu_cycle(&mut self, ba_high: u32, cycle: u64, ba_low: u32, ba_high_phi1: u32) -> u32 {
        let mut vic = VicII { ba_low: ba_low != 0, ba_high_phi1: ba_high_phi1 != 0 };
        u32::from(self.memory.run_reu_cycle(ba_high != 0, cycle, &mut vic))
    }
}
