use crate::reu::{Reu, ReuBusAction};
use crate::vic::VicII;
use ::reu::BUS_SIZE;

/// The C64's side: plain bytes, and the controller beside them.
pub struct Memory {
    pub bus: Box<[u8; BUS_SIZE]>,
    pub reu: Reu,
}

impl Memory {
    #[inline(always)]
    pub fn reu_read(&mut self, addr: u16, _cycle: u64, _vic: &mut VicII) -> u8 {
        self.bus[usize::from(addr)]
    }

    #[inline(always)]
    pub fn cpu_write(&mut self, addr: u16, value: u8, _cycle: u64, _vic: &mut VicII) {
        self.bus[usize::from(addr)] = value;
    }
}
