//! The original's side, with what it has not beside it: the count of granted cycles, the marks of an address that passes its
//! top, and a storage's size. All are by the comparison's own rules, so everything else compares whole images and whole
//! answers.
//!
//! The original's storage has 524,288 bytes, and a controller of that size is compared with the original as it is. For the
//! two smaller sizes there is no original: it runs on a storage in which the small one is repeated, two or four times, and a
//! byte that changes in one repeat is then copied to all. Address lines that a small storage does not connect choose between
//! repeats that are equal, so they choose nothing.

use crate::calls::{Call, answer_of};
use crate::granted::{count_after, count_of, granted};
use crate::passed::marks;
use crate::sides::{Image, Machine, REFUSAL, STORAGE, number, set_number};
use crate::sizes::{SIZES, answer_at, lay_size, refused_size, size_after, size_of};
use reu::{IMAGE_EXPANSION_ADDRESS, IMAGE_GRANTED_CYCLES, IMAGE_REMAINING};

pub struct Original {
    machine: original::Machine,
    /// Asked for grants, so that the one that is compared is never set back.
    asked: original::Machine,
    count: u32,
    size: usize,
    /// The host has written to the first repeat, or the size is another: the others are behind.
    behind: bool,
}

impl Default for Original {
    fn default() -> Self {
        let (machine, asked) = Default::default();
        Self { machine, asked, count: 0, size: SIZES[0], behind: false }
    }
}

impl Original {
    /// What an image of the original is with the size that it does not know.
    fn sized(&self, mut image: Image) -> Image {
        if self.size != SIZES[0] {
            lay_size(&mut image, self.size);
        }
        image
    }

    /// The original has no size to set: this is the answer alone, and [`size_after`] says the rest.
    fn set_size(&self, size: u64) -> u32 {
        refused_size(size, self.machine.storage_present() != 0) * REFUSAL
    }

    /// Another size: what the storage now has more of are repeats.
    fn resize(&mut self, size: usize) {
        self.catch_up();
        self.behind = size < self.size;
        self.size = size;
    }

    /// Copies the first repeat to all others, if they are behind.
    fn catch_up(&mut self) {
        if self.behind {
            let (first, others) = self.machine.storage_mut().split_at_mut(self.size);
            others.chunks_mut(self.size).for_each(|repeat| repeat.copy_from_slice(first));
            self.behind = false;
        }
    }

    /// Copies the byte that a call may have changed to all repeats: the one at which the transfer was. (When a storage is
    /// attached, all are cleared.)
    fn repeat(&mut self, before: &Image) {
        let at = number(&before[IMAGE_EXPANSION_ADDRESS..IMAGE_REMAINING]) % STORAGE;
        let storage = self.machine.storage_mut();
        let byte = storage[at];
        storage.iter_mut().skip(at % self.size).step_by(self.size).for_each(|repeated| *repeated = byte);
    }
}

impl Machine for Original {
    fn call(&mut self, call: Call) -> u32 {
        self.catch_up();
        let (before, granted) = (self.image(), granted(self, call));
        self.count = count_after(call, &before, granted.is_some());
        let answer = answer_of!(self.machine, self, call);
        self.repeat(&before);
        let answer = answer_at(self.size, call, answer);
        self.resize(size_after(call, &before));
        answer + marks(call, &before, granted.as_ref())
    }

    fn image(&self) -> Image {
        let mut image = self.sized(self.machine.image());
        set_number(&mut image[IMAGE_GRANTED_CYCLES..], self.count);
        image
    }

    fn load(&mut self, image: &Image) {
        let mut own = *image;
        lay_size(&mut own, SIZES[0]);
        self.machine.load(&own);
        self.count = count_of(image);
        self.resize(size_of(image).expect("an accepted image has a size"));
    }

    fn grant(&mut self, ba_high: u32, ba_high_phi1: u32, cycle: u64) -> (u32, Image) {
        self.asked.load(&self.machine.image());
        (self.asked.bus_action(ba_high, ba_high_phi1, cycle), self.sized(self.asked.image()))
    }

    fn interrupt(&self) -> bool {
        self.machine.interrupt()
    }

    fn bus(&self) -> &[u8] {
        self.machine.bus()
    }

    fn bus_mut(&mut self) -> &mut [u8] {
        self.machine.bus_mut()
    }

    fn storage(&self) -> &[u8] {
        &self.machine.storage()[..self.size]
    }

    fn storage_mut(&mut self) -> &mut [u8] {
        self.behind = self.size < STORAGE;
        &mut self.machine.storage_mut()[..self.size]
    }

    fn repeats_hold(&self) -> bool {
        let (first, others) = self.machine.storage().split_at(self.size);
        self.behind || others.chunks(self.size).all(|repeat| repeat == first)
    }
}
