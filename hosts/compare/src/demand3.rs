//! Demand 3, run for real: A swaps a block twice with its registers written back in between, B stays idle, and both
//! end with the bytes that they began with.

use crate::calls::Call;
use crate::generate::Generator;
use crate::granted::granted;
use crate::passed::parted;
use crate::refusals::Refuser;
use crate::rng::{Rng, noise};
use crate::sides::{BUS, Image, Machine, register, set_number};
use reu::*;

/// Numbers that a flag has when it is set.
pub const SET: [u32; 5] = [1, 1, 2, 0x100, u32::MAX];

/// One machine on its way through a list, with the bytes that both runs begin with.
struct Walk<'a> {
    machine: &'a mut dyn Machine,
    refuser: Option<&'a mut dyn Refuser>,
    rng: &'a mut Rng,
    bus: Vec<u8>,
    storage: Vec<u8>,
}

/// Where a swap's block lies, as the registers show it at the start.
#[derive(Clone, Copy)]
pub struct Block {
    c64: usize,
    expansion: usize,
    pub length: usize,
}

fn check(holds: bool, what: &str) -> Result<(), String> {
    if holds { Ok(()) } else { Err(format!("demand 3: {what}")) }
}

/// Any accepted image that is unfixed, attached, unarmed and idle, with this length. In one of two the block begins so that
/// it passes an end of the storage, the last one, which is $FFFFFF, among them, if it has more than one byte.
fn start_image(generator: &mut Generator, rng: &mut Rng, length: [u8; 2]) -> Image {
    let mut image = generator.image();
    if rng.one_in(2) {
        let (size, reach) = (generator.size(), usize::from(length[0]).clamp(2, 40) - 1);
        let end = size * rng.pick(&[1, 2, 3, (1 << 24) / size]);
        let bytes = register(EXPANSION_ADDRESS_LOW)..=register(EXPANSION_ADDRESS_BANK);
        set_number(&mut image[bytes], (end - 1 - rng.below(reach)) as u32);
    }
    image[register(ADDRESS_CONTROL)] &= 0x3F;
    image[IMAGE_FLAGS] = (image[IMAGE_FLAGS] | FLAG_ATTACHED) & !FLAG_ARMED;
    image[IMAGE_TRANSFER..IMAGE_GRANTED_CYCLES].fill(0);
    image[register(TRANSFER_LENGTH_LOW)..=register(TRANSFER_LENGTH_HIGH)].copy_from_slice(&length);
    image
}

impl Walk<'_> {
    /// A cycle with every BA input high, by any number that says so.
    fn cycle(&mut self) -> Call {
        let mut high = || self.rng.pick(&SET);
        let (ba_high, ba_high_phi1) = (high(), high());
        Call::RunReuCycle { ba_high, cycle: self.rng.word(), ba_low: 0, ba_high_phi1 }
    }

    fn refused(&mut self) -> Result<(), String> {
        match &mut self.refuser {
            Some(refuser) => refuser.refuse(&self.machine.image()),
            None => Ok(()),
        }
    }

    /// Some reads, cycles and refused calls.
    fn dawdle(&mut self) -> Result<(), String> {
        for _ in 0..self.rng.below(4) {
            match self.rng.below(3) {
                0 => self.refused()?,
                1 => {
                    let addr = self.rng.word() as u16;
                    self.machine.call(Call::Read { addr });
                }
                _ => {
                    let cycle = self.cycle();
                    self.machine.call(cycle);
                }
            }
        }
        check(self.machine.call(Call::DmaActive) == 0, "a swap runs that nobody started")
    }

    fn write(&mut self, register: u8, value: u8) {
        let addr = 0xDF00 + u16::from(register) + 32 * self.rng.below(8) as u16;
        self.machine.call(Call::Write { addr, value });
    }

    /// What `read` or `debug_register` gives for a register.
    fn shown(&mut self, register: u8) -> u8 {
        let call = match self.rng.one_in(2) {
            true => Call::Read { addr: 0xDF00 + u16::from(register) },
            false => Call::DebugRegister { index: register.into() },
        };
        self.machine.call(call) as u8
    }

    /// Whether COMMAND still says that its transfer runs.
    fn executes(&self) -> bool {
        self.machine.image()[register(COMMAND)] & COMMAND_EXECUTE != 0
    }

    /// Starts a swap and cycles to its end, which must come exactly when 2n cycles are granted.
    fn swap(&mut self, length: usize) -> Result<(), String> {
        let command = 0x92 | (self.rng.byte() & 0x6C);
        self.write(1, command);
        let (mut ticks, mut cycles) = (0, 0);
        while ticks < 2 * length {
            check(self.executes(), "the swap ended too early")?;
            cycles += 1;
            check(cycles <= 4 * length + 16, "the swap is not granted its cycles")?;
            if self.rng.one_in(64) {
                self.refused()?;
            }
            let cycle = self.cycle();
            ticks += usize::from(granted(self.machine, cycle).is_some());
            let (answer, _) = parted(cycle, self.machine.call(cycle));
            check(answer == 1, "a cycle of the swap was the processor's")?;
        }
        check(!self.executes(), "the swap did not end at 2n granted cycles")
    }

    fn memories_are(&self, bus: &[u8], storage: &[u8]) -> bool {
        self.machine.bus() == bus && self.machine.storage() == storage
    }

    /// Run A.
    fn swaps_twice(&mut self) -> Result<(), String> {
        self.dawdle()?;
        let shown: Vec<u8> = (2..=8).map(|register| self.shown(register)).collect();
        let block = Block::shown(&shown);
        self.swap(block.length)?;
        let (bus, storage) = block.exchanged(&self.bus, &self.storage);
        check(self.memories_are(&bus, &storage), "midway the block and its partner have not just changed places")?;
        let mut registers = [2, 3, 4, 5, 6, 7, 8];
        self.rng.shuffle(&mut registers);
        for register in registers {
            self.dawdle()?;
            self.write(register, shown[usize::from(register) - 2]);
        }
        self.dawdle()?;
        self.swap(block.length)?;
        self.dawdle()
    }

    /// Run B: reads, cycles, and writes that start nothing.
    fn stays_idle(&mut self) -> Result<(), String> {
        for _ in 0..20 {
            self.dawdle()?;
            let (register, value) = (self.rng.below(32) as u8, self.rng.byte());
            // COMMAND may arm, and never start.
            let value = if register == 1 && value & 0x80 != 0 { value & !0x10 } else { value };
            self.write(register, value);
        }
        self.dawdle()
    }
}

impl Block {
    /// By registers 2 to 8.
    pub fn shown(shown: &[u8]) -> Self {
        let byte = |register: usize| usize::from(shown[register - 2]);
        let length = byte(7) + 256 * byte(8);
        Self {
            c64: byte(2) + 256 * byte(3),
            expansion: byte(4) + 256 * byte(5) + 65_536 * byte(6),
            length: if length == 0 { 65_536 } else { length },
        }
    }

    /// Where a byte of the block is on the bus, and its partner in a storage of this size.
    pub fn places(&self, at: usize, size: usize) -> (usize, usize) {
        ((self.c64 + at) % BUS, (self.expansion + at) % size)
    }

    /// Both memories after the swap.
    pub fn exchanged(&self, bus: &[u8], storage: &[u8]) -> (Vec<u8>, Vec<u8>) {
        let (mut bus, mut storage) = (bus.to_vec(), storage.to_vec());
        for at in 0..self.length {
            let (addr, offset) = self.places(at, storage.len());
            std::mem::swap(&mut bus[addr], &mut storage[offset]);
        }
        (bus, storage)
    }
}

/// Both runs at this size from one seed: A and B start from images of their own with equal memories.
pub fn run(
    machine: &mut dyn Machine,
    mut refuser: Option<&mut dyn Refuser>,
    size: usize,
    seed: u64,
) -> Result<(), String> {
    let mut rng = Rng::new(seed);
    let mut generator = Generator::at_size(rng.word(), size);
    // One run in eight is of full length or near it.
    let short = [rng.pick(&[1, 1, 2, 3, 7, 40]), 0];
    let length = if rng.one_in(8) { rng.pick(&[[0, 0], [0xFF, 0xFF], [0, 1], [1, 1]]) } else { short };
    let (mut bus, mut storage) = (vec![0; BUS], vec![0; size]);
    noise(&mut bus, rng.word());
    noise(&mut storage, rng.word());
    for a in [true, false] {
        machine.load(&start_image(&mut generator, &mut rng, length));
        machine.bus_mut().copy_from_slice(&bus);
        machine.storage_mut().copy_from_slice(&storage);
        let (bus, storage) = (bus.clone(), storage.clone());
        let refuser = refuser.as_mut().map(|refuser| &mut **refuser as &mut dyn Refuser);
        let mut walk = Walk { machine, refuser, rng: &mut rng, bus, storage };
        if a {
            walk.swaps_twice()?
        } else {
            walk.stays_idle()?
        }
        let ended = walk.memories_are(&walk.bus, &walk.storage);
        check(ended, if a { "A ends with other bytes than it began with" } else { "B ends with other bytes" })?;
    }
    Ok(())
}
