//! The two sides of a comparison. A port has the sixteen calls on lent bytes, as the library exports them; a machine
//! holds its own bytes, whether it is a port with its buffers or the original.

use crate::calls::{Call, Step};
use crate::rng::fill;
use crate::sizes::size_of;
pub use reu::{BUS_SIZE as BUS, IMAGE_SIZE as IMAGE, STORAGE_SIZE as STORAGE};
use reu::{FLAG_INTERRUPT, IMAGE_C64_ADDRESS, IMAGE_EXPANSION_ADDRESS, IMAGE_FLAGS, IMAGE_REGISTERS, IMAGE_REMAINING};

/// The unit of a refusal in an answer.
pub const REFUSAL: u32 = 16_777_216;

pub type Image = [u8; IMAGE];

/// What a host has to lend; a call takes of it what it needs.
pub struct Lent<'a> {
    pub image: &'a mut [u8],
    pub bus: &'a mut [u8],
    pub storage: &'a mut [u8],
}

pub trait Port {
    fn call(&mut self, call: Call, lent: Lent) -> u32;
}

pub trait Machine {
    fn call(&mut self, call: Call) -> u32;
    fn image(&self) -> Image;
    /// Sets the controller from an accepted image.
    fn load(&mut self, image: &Image);
    fn interrupt(&self) -> bool;
    fn bus(&self) -> &[u8];
    fn bus_mut(&mut self) -> &mut [u8];
    fn storage(&self) -> &[u8];
    fn storage_mut(&mut self) -> &mut [u8];
    /// Whether the bytes beside the machine's own are as they were.
    fn guards_hold(&self) -> bool {
        true
    }
    /// Makes them so again.
    fn mend_guards(&mut self) {}
    /// Whether the repeats of a small storage are equal, in a machine that has such.
    fn repeats_hold(&self) -> bool {
        true
    }

    /// What `bus_action` would answer now, and the controller that it would leave; the machine is left as it was.
    fn grant(&mut self, ba_high: u32, ba_high_phi1: u32, cycle: u64) -> (u32, Image) {
        let image = self.image();
        let offset = places(&image).1;
        let byte = self.storage()[offset];
        let answer = self.call(Call::BusAction { ba_high, ba_high_phi1, cycle });
        let left = self.image();
        self.load(&image);
        self.storage_mut()[offset] = byte;
        (answer, left)
    }

    /// Does one step; a call gives its answer.
    fn step(&mut self, step: Step) -> Option<u32> {
        match step {
            Step::Call(call) => return Some(self.call(call)),
            Step::Memory(seed) => {
                fill(self.bus_mut(), seed);
                fill(self.storage_mut(), !seed);
            }
            Step::Image(image) => self.load(&image),
            Step::Bus(addr, value) => self.bus_mut()[usize::from(addr)] = value,
            Step::Storage(offset, value) => {
                let storage = self.storage_mut();
                storage[offset as usize % storage.len()] = value;
            }
        }
        None
    }
}

/// The number that a field holds, low byte first.
pub fn number(field: &[u8]) -> usize {
    field.iter().rev().fold(0, |number, byte| 256 * number + usize::from(*byte))
}

/// Lays a number down in a field; what has no room there is left out.
pub fn set_number(field: &mut [u8], number: u32) {
    field.copy_from_slice(&number.to_le_bytes()[..field.len()]);
}

/// The place of a register, by its index.
pub fn register(index: u16) -> usize {
    IMAGE_REGISTERS + usize::from(index)
}

/// Where an image's transfer points: a bus address and an offset in the storage of its size. Without a transfer both are 0.
pub fn places(image: &Image) -> (usize, usize) {
    let logical = number(&image[IMAGE_EXPANSION_ADDRESS..IMAGE_REMAINING]);
    (number(&image[IMAGE_C64_ADDRESS..IMAGE_EXPANSION_ADDRESS]), logical % size_of(image).unwrap_or(STORAGE))
}

const GUARD: usize = 64;
const GUARD_BYTE: u8 = 0xC3;

/// Bytes with guards on both sides.
pub struct Guarded(Vec<u8>);

impl Guarded {
    pub fn new(length: usize) -> Self {
        let mut made = Self(vec![0; length + 2 * GUARD]);
        made.mend_guards();
        made
    }

    fn mend_guards(&mut self) {
        let end = self.end();
        self.0[..GUARD].fill(GUARD_BYTE);
        self.0[end..].fill(GUARD_BYTE);
    }

    /// So many bytes, the ones that it has over and over, between the guards as they are.
    fn resize(&mut self, length: usize) {
        let mut bytes = self.0[..GUARD].to_vec();
        bytes.extend(self.get().iter().cycle().take(length));
        bytes.extend(&self.0[self.end()..]);
        self.0 = bytes;
    }

    fn end(&self) -> usize {
        self.0.len() - GUARD
    }

    pub fn get(&self) -> &[u8] {
        &self.0[GUARD..self.end()]
    }

    pub fn get_mut(&mut self) -> &mut [u8] {
        let end = self.end();
        &mut self.0[GUARD..end]
    }

    pub fn guards_hold(&self) -> bool {
        self.0[..GUARD] == [GUARD_BYTE; GUARD] && self.0[self.end()..] == [GUARD_BYTE; GUARD]
    }
}

/// A port with guarded buffers of the right lengths: the storage's is the size that its image sets.
pub struct Held<P> {
    pub port: P,
    image: Guarded,
    bus: Guarded,
    storage: Guarded,
}

impl<P: Port> Held<P> {
    pub fn new(port: P) -> Self {
        Self { port, image: Guarded::new(IMAGE), bus: Guarded::new(BUS), storage: Guarded::new(STORAGE) }
    }

    /// Another size is another storage; the host puts into it what it had, over and over.
    fn fit(&mut self) {
        match size_of(self.image.get()) {
            Some(size) if size != self.storage.get().len() => self.storage.resize(size),
            _ => {}
        }
    }
}

impl<P: Port> Machine for Held<P> {
    fn call(&mut self, call: Call) -> u32 {
        let (image, bus, storage) = (self.image.get_mut(), self.bus.get_mut(), self.storage.get_mut());
        let answer = self.port.call(call, Lent { image, bus, storage });
        self.fit();
        answer
    }

    fn image(&self) -> Image {
        self.image.get().try_into().expect("the image has its length")
    }

    fn load(&mut self, image: &Image) {
        self.image.get_mut().copy_from_slice(image);
        self.fit();
    }

    fn interrupt(&self) -> bool {
        self.image.get()[IMAGE_FLAGS] & FLAG_INTERRUPT != 0
    }

    fn bus(&self) -> &[u8] {
        self.bus.get()
    }

    fn bus_mut(&mut self) -> &mut [u8] {
        self.bus.get_mut()
    }

    fn storage(&self) -> &[u8] {
        self.storage.get()
    }

    fn storage_mut(&mut self) -> &mut [u8] {
        self.storage.get_mut()
    }

    fn guards_hold(&self) -> bool {
        self.image.guards_hold() && self.bus.guards_hold() && self.storage.guards_hold()
    }

    fn mend_guards(&mut self) {
        self.image.mend_guards();
        self.bus.mend_guards();
        self.storage.mend_guards();
    }
}
