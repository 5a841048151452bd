//! The same cycles on both sides: the loop of lib.rt.txt, and that loop in Rust over the original's controller.

use crate::common::constants::{BUS_SIZE, STORAGE_SIZE};
use original::machine::Machine;

#[link(name = "step", kind = "static")]
unsafe extern "C" {
    fn run_steps(
        bus: *mut u8,
        bus_len: usize,
        storage: *mut u8,
        storage_len: usize,
        registers: *const u8,
        registers_len: usize,
        inputs: *const u8,
        inputs_len: usize,
        command: u8,
        expected: u32,
        limit: u64,
    ) -> u64;
}

/// What a loop is handed. The registers are 2 to 8.
pub struct Lent {
    pub bus: Box<[u8; BUS_SIZE]>,
    pub storage: Box<[u8]>,
    pub registers: [u8; 7],
    pub inputs: Vec<u8>,
    pub command: u8,
    pub expected: u32,
    pub limit: u64,
}

/// The cycles run, how many reported each mark where the side has marks, and the memories after them.
pub type Ran = (u64, Option<(u64, u64)>, (Vec<u8>, Vec<u8>));

/// Through the step.
pub fn library(mut lent: Lent) -> Ran {
    // SAFETY: each pointer is valid for the length beside it, and no two buffers overlap. What the Rattle side requires
    // holds: there are seven registers and at least one input.
    let ran = unsafe {
        let (bus, storage) = ((lent.bus.as_mut_ptr(), BUS_SIZE), (lent.storage.as_mut_ptr(), STORAGE_SIZE));
        let (registers, inputs) = ((lent.registers.as_ptr(), 7), (lent.inputs.as_ptr(), lent.inputs.len()));
        let Lent { command, expected, limit, .. } = lent;
        run_steps(
            bus.0,
            bus.1,
            storage.0,
            storage.1,
            registers.0,
            registers.1,
            inputs.0,
            inputs.1,
            command,
            expected,
            limit,
        )
    };
    (ran & 0xFFFF_FFFF, Some((ran >> 32 & 0xFFFF, ran >> 48)), (lent.bus.to_vec(), lent.storage.to_vec()))
}

/// Through the original's `run_reu_cycle`, as run_steps does it: a controller of its own, the start and the loop. It has no
/// marks to count. A function of its own, for callgrind to count.
#[inline(never)]
pub fn original(lent: Lent) -> Ran {
    let mut machine = Machine::over(lent.bus, lent.storage);
    machine.set_enabled(1);
    for (address, value) in (0xDF02..).zip(lent.registers) {
        machine.write(address, value);
    }
    machine.write(0xDF01, lent.command);
    let mut ran = 0;
    for (cycle, ba) in (0..lent.limit).zip(lent.inputs.iter().cycle()) {
        let [high, high_phi1, low] = [1, 2, 4].map(|bit| u32::from(ba & bit != 0));
        if machine.run_reu_cycle(high, cycle, low, high_phi1) != lent.expected {
            break;
        }
        ran += 1;
    }
    (ran, None, (machine.bus().to_vec(), machine.storage().to_vec()))
}
