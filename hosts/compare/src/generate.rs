//! Steps drawn at random, biased to where things go wrong.

use crate::accepted::accepted;
use crate::calls::{Call, NAMES, Step};
use crate::granted::TOP;
use crate::remaining::{remaining, set_remaining};
use crate::rng::Rng;
use crate::sides::{IMAGE, Image, places, set_number};
use crate::sizes::{NEAR, SIZES, lay_size, size_of};
use reu::*;

/// How the BA inputs of a list move.
#[derive(Clone, Copy)]
enum Ba {
    High,
    /// The three inputs agree.
    Together,
    /// `ba_high_phi1` follows `ba_high` one cycle later, as a late fall has it.
    Late,
    /// Each input goes its own way.
    Apart,
}

/// How lively a list is: one step in so many is something else than what its plan says.
const QUIET: [usize; 4] = [4, 12, 40, 400];
const FLAGS: [u32; 8] = [1, 2, 3, 0x80, 0x100, 0x1_0000, 0x8000_0000, u32::MAX];
const LENGTHS: [u16; 18] = [1, 1, 1, 1, 2, 2, 2, 3, 3, 4, 5, 8, 17, 255, 256, 257, 0, 0xFFFF];
/// Of six lists four have the original's size.
const LIST_SIZES: [usize; 6] = [SIZES[0], SIZES[0], SIZES[0], SIZES[0], SIZES[1], SIZES[2]];
/// The tops of both addresses, and where something happens.
const C64_TOP: u32 = 0xFFFF;
const C64: [u32; 10] = [0x0000, 0x1000, 0x1000, 0x10FF, 0x2000, 0xFEFF, 0xFF00, 0xFFFD, 0xFFFE, 0xFFFF];
const EXPANSION_TOP: u32 = 0xFF_FFFF;

/// The ends of a storage of this size, the first and later ones, among other places where something happens.
fn expansions(size: usize) -> [u32; 11] {
    let size = size as u32;
    [0, 0, 1, 0xFFFF, size - 2, size - 1, size, 3 * size - 1, 0xF7_FFFF, 0xFF_FFFE, 0xFF_FFFF]
}

pub struct Generator {
    rng: Rng,
    plan: Vec<Step>,
    ba: Ba,
    levels: [bool; 3],
    run: usize,
    cycle: u64,
    quiet: usize,
    wild_flags: bool,
    lengths: &'static [u16],
    /// The type of every planned command, and that it starts at once; else each is drawn.
    kind: Option<u8>,
    /// The size of the list's storage, and whether others come in between.
    size: usize,
    other_sizes: bool,
}

impl Generator {
    /// Lists of short commands.
    pub fn new(seed: u64) -> Self {
        let mut rng = Rng::new(seed);
        let start = rng.word();
        Self {
            ba: rng.pick(&[Ba::High, Ba::Together, Ba::Late, Ba::Late, Ba::Apart]),
            levels: [true; 3],
            run: 0,
            cycle: rng.pick(&[0, 1, start, u64::MAX - 300, u64::MAX, 1 << 32, 1 << 63]),
            quiet: rng.pick(&QUIET),
            wild_flags: rng.one_in(2),
            lengths: &LENGTHS,
            kind: None,
            size: rng.pick(&LIST_SIZES),
            other_sizes: true,
            plan: Vec::new(),
            rng,
        }
    }

    /// The same at this size alone: no image has another, and none is set but in settings that are refused.
    pub fn at_size(seed: u64, size: usize) -> Self {
        Self { size, other_sizes: false, ..Self::new(seed) }
    }

    /// The size that a list begins with.
    pub fn size(&self) -> usize {
        self.size
    }

    /// Lists of commands of full length and one type, little disturbed.
    pub fn long(seed: u64, kind: u8) -> Self {
        let mut made = Self::new(seed);
        made.quiet = 20_000;
        made.lengths = &[0, 0, 0xFFFF];
        made.kind = Some(kind);
        made.ba = made.rng.pick(&[Ba::High, Ba::High, Ba::Together, Ba::Late]);
        made
    }

    pub fn seed(&mut self) -> u64 {
        self.rng.word()
    }

    /// A flag's number: 0 is false, and true has many.
    fn flag(&mut self, set: bool) -> u32 {
        match (set, self.wild_flags) {
            (false, _) => 0,
            (true, false) => 1,
            (true, true) => self.rng.pick(&FLAGS),
        }
    }

    fn any_flag(&mut self) -> u32 {
        let set = self.rng.one_in(2);
        self.flag(set)
    }

    /// Moves BA: runs of 1, 2, 3 and many.
    fn move_ba(&mut self) {
        let before = self.levels;
        if self.run == 0 {
            let many = 4 + self.rng.below(40);
            self.run = self.rng.pick(&[1, 1, 2, 2, 3, many]);
            self.levels[0] = !self.levels[0];
        }
        self.run -= 1;
        let ba_high = self.levels[0];
        self.levels = match self.ba {
            Ba::High => [true; 3],
            Ba::Together => [ba_high; 3],
            Ba::Late => [ba_high, ba_high, before[0]],
            Ba::Apart => [ba_high, self.rng.one_in(2), self.rng.one_in(2)],
        };
    }

    fn next_cycle(&mut self) -> u64 {
        let step = if self.rng.one_in(16) { self.rng.pick(&[0, 2, 5]) } else { 1 };
        self.cycle = self.cycle.wrapping_add(step);
        self.cycle
    }

    fn cycle_call(&mut self) -> Call {
        self.move_ba();
        let [high, not_low, phi1] = self.levels;
        let (ba_high, ba_low, ba_high_phi1) = (self.flag(high), self.flag(!not_low), self.flag(phi1));
        Call::RunReuCycle { ba_high, cycle: self.next_cycle(), ba_low, ba_high_phi1 }
    }

    fn addr(&mut self, index: u8) -> u16 {
        let mirror = self.rng.pick(&[0xDF00, 0xDF00, 0xDF00, 0xDF20, 0xDFE0, 0, 0xFFE0]);
        mirror + u16::from(index)
    }

    fn write(&mut self, index: u8, value: u8) -> Step {
        Step::Call(Call::Write { addr: self.addr(index), value })
    }

    fn command(&mut self) -> u8 {
        let value = self.rng.byte();
        if let Some(kind) = self.kind {
            return (value & 0x6C) | 0x90 | kind;
        }
        // Most commands execute, and most of those at once.
        match self.rng.below(8) {
            0 => value,
            1 | 2 => (value & 0x6F) | 0x80,
            _ => value | 0x90,
        }
    }

    /// An address at which a block of so many bytes begins, 0 for 65,536: one in three so that one of its first four bytes
    /// is at the top, of the others one in `wild` anywhere, and the rest where something happens.
    fn address(&mut self, top: u32, happens: &[u32], length: u32, wild: usize) -> u32 {
        let any = self.rng.word() as u32 & top;
        let reach = if length == 0 { 4 } else { length.min(4) as usize };
        match self.rng.one_in(3) {
            true => top - self.rng.below(reach) as u32,
            false if self.rng.one_in(wild) => any,
            false => self.rng.pick(happens),
        }
    }

    /// Both addresses of a block in a machine of this size.
    fn addresses(&mut self, size: usize, length: u32, wild: usize) -> [u32; 2] {
        let c64 = self.address(C64_TOP, &C64, length, wild);
        [c64, self.address(EXPANSION_TOP, &expansions(size), length, wild)]
    }

    /// Plans a command: some or all registers in any order, COMMAND, and perhaps its trigger.
    fn plan_command(&mut self) {
        let any = self.rng.word();
        let length = self.rng.pick(self.lengths);
        let [c64, expansion] = self.addresses(self.size, length.into(), 8);
        let control = self.rng.pick(&[0, 0, 0, 0x40, 0x80, 0xC0, any as u8]);
        let mask = self.rng.pick(&[0, 0x20, 0x40, 0xA0, 0xC0, 0xE0, any as u8]);
        let ([c64_low, c64_high, ..], [low, high, bank, _]) = (c64.to_le_bytes(), expansion.to_le_bytes());
        let [length_low, length_high] = length.to_le_bytes();
        let values = [c64_low, c64_high, low, high, bank, length_low, length_high, mask, control];
        let mut indexes = [2, 3, 4, 5, 6, 7, 8, 9, 10];
        self.rng.shuffle(&mut indexes);
        let skipped = if self.rng.one_in(3) { self.rng.below(9) } else { 0 };
        let command = self.command();
        if command & 0x10 == 0 {
            self.plan.push(Step::Call(Call::TriggerFf00));
        }
        let start = self.write(1, command);
        self.plan.push(start);
        for index in &indexes[skipped..] {
            let write = self.write(*index, values[usize::from(*index) - 2]);
            self.plan.push(write);
        }
    }

    /// Plans the host's own ticks to the end of a swap that has a delay or a terminal write waiting, and cycles behind
    /// them: what was waiting is then granted while no transfer runs.
    fn plan_ticks(&mut self, remaining: u32) {
        let cycles = [(); 3].map(|()| Step::Call(self.cycle_call()));
        self.plan.extend(cycles);
        for _ in 0..=2 * remaining {
            let tick = Call::TickDma { cycle: self.next_cycle(), ba_low: self.any_flag() };
            self.plan.push(Step::Call(tick));
        }
    }

    /// A write to the byte under the running transfer, so that verify meets equal and different bytes.
    fn touch_bus(&mut self, image: &Image) -> Step {
        let ahead = self.rng.below(3) as u16;
        let value = if self.rng.one_in(2) { 0 } else { self.rng.byte() };
        Step::Bus((places(image).0 as u16).wrapping_add(ahead), value)
    }

    /// Any of the sixteen calls, or a byte of the bus.
    pub fn anything(&mut self, image: &Image) -> Step {
        let place = self.rng.below(NAMES.len() + 12);
        match place {
            0..=2 if self.rng.below(4) != 0 => Step::Call(self.cycle_call()),
            0..16 => Step::Call(self.call(place)),
            16..=17 => self.write_any(1),
            18..=19 => self.write_any(9),
            20..=21 => self.touch_bus(image),
            22..=23 => Step::Call(Call::Read { addr: self.addr(0) }),
            _ => Step::Call(self.cycle_call()),
        }
    }

    fn write_any(&mut self, index: u8) -> Step {
        let value = if index == 1 { self.command() } else { self.rng.byte() };
        self.write(index, value)
    }

    /// A size that may be set, one that nearly may, or any number.
    fn any_size(&mut self) -> u64 {
        let (good, any) = (self.rng.pick(&SIZES) as u64, self.rng.word());
        let size = match self.rng.below(8) {
            0..=3 => good,
            4..=5 => self.rng.pick(&NEAR),
            _ => self.rng.pick(&[any, 1 << (any % 64), good ^ (1 << (any % 64))]),
        };
        let other = SIZES.iter().any(|known| *known as u64 == size) && !self.other_sizes;
        if other { self.size as u64 } else { size }
    }

    /// The call at a place among the sixteen, with any arguments.
    pub fn call(&mut self, place: usize) -> Call {
        let index = self.rng.below(32) as u8;
        let any = self.rng.word();
        match NAMES[place] {
            "new" => Call::New,
            "reset" => Call::Reset { hard_reset: self.any_flag() },
            "set_enabled" => Call::SetEnabled { enabled: self.any_flag() },
            "storage_present" => Call::StoragePresent,
            "capacity_bytes" => Call::CapacityBytes,
            "trigger_ff00" => Call::TriggerFf00,
            "read" => Call::Read { addr: if self.rng.one_in(8) { any as u16 } else { self.addr(index % 12) } },
            "write" => {
                let addr = if self.rng.one_in(8) { any as u16 } else { self.addr(index % 12) };
                Call::Write { addr, value: self.rng.byte() }
            }
            "dma_active" => Call::DmaActive,
            "cpu_ready_after_dma" => Call::CpuReadyAfterDma { ba_high: self.any_flag() },
            "bus_action" => {
                let (ba_high, ba_high_phi1) = (self.any_flag(), self.any_flag());
                Call::BusAction { ba_high, ba_high_phi1, cycle: self.next_cycle() }
            }
            "debug_register" => {
                let far = self.rng.pick(&[0, 0, 0, 0, 32, 256, 1 << 16, 1 << 32, 1 << 63]);
                Call::DebugRegister { index: if self.rng.one_in(64) { any } else { far + u64::from(index) } }
            }
            "c64_access" => Call::C64Access,
            "tick_dma" => Call::TickDma { cycle: self.next_cycle(), ba_low: self.any_flag() },
            "set_size" => Call::SetSize { size: self.any_size() },
            _ => {
                let (ba_high, ba_low, ba_high_phi1) = (self.any_flag(), self.any_flag(), self.any_flag());
                Call::RunReuCycle { ba_high, cycle: self.next_cycle(), ba_low, ba_high_phi1 }
            }
        }
    }

    /// The next step of a list whose controller is as this image has it.
    pub fn next(&mut self, image: &Image) -> Step {
        let running = image[IMAGE_TRANSFER] == 1;
        let [attached, armed] = [FLAG_ATTACHED, FLAG_ARMED].map(|flag| image[IMAGE_FLAGS] & flag != 0);
        if self.rng.one_in(self.quiet) {
            return self.anything(image);
        }
        if let Some(step) = self.plan.pop() {
            return step;
        }
        if armed && self.rng.one_in(4) {
            return Step::Call(Call::TriggerFf00);
        }
        let waiting = image[IMAGE_DELAY] != 0 || image[IMAGE_FLAGS] & FLAG_TERMINAL_WRITE != 0;
        let remaining = remaining(image);
        if running && waiting && remaining <= 8 && self.rng.one_in(8) {
            self.plan_ticks(remaining);
            return self.plan.pop().expect("ticks were planned");
        }
        // Another command cuts in, and a short list does not wait for the end of a long transfer.
        let cuts_in = running && self.rng.one_in(10 * self.quiet.max(20));
        if !cuts_in && (running || self.rng.one_in(3)) {
            return Step::Call(self.cycle_call());
        }
        if !attached && size_of(image) != Some(self.size) && self.rng.below(8) != 0 {
            return Step::Call(Call::SetSize { size: self.size as u64 });
        }
        if !attached && self.rng.below(8) != 0 {
            return Step::Call(Call::SetEnabled { enabled: self.flag(true) });
        }
        self.plan_command();
        self.plan.pop().expect("a command was planned")
    }

    /// Any image that is accepted, reached from new or not.
    pub fn image(&mut self) -> Image {
        let mut image = [0; IMAGE];
        image[..IMAGE_TYPE].fill_with(|| self.rng.byte());
        image[IMAGE_MORE_FLAGS] = self.rng.pick(&[0, 0, 0, 1, 2, 3]);
        image[IMAGE_DELAY] = self.rng.pick(&[0, 0, 0, 1, 2]);
        image[IMAGE_TRANSFER] = u8::from(self.rng.below(4) != 0);
        if self.rng.one_in(2) {
            image[IMAGE_FLAGS] &= FLAG_ENABLED | FLAG_INTERRUPT | FLAG_ATTACHED | FLAG_BA_WAS_HIGH;
        }
        let size = if self.other_sizes && self.rng.one_in(8) { self.rng.pick(&SIZES) } else { self.size };
        lay_size(&mut image, size);
        if image[IMAGE_TRANSFER] == 1 {
            self.image_transfer(&mut image, size);
        }
        // Counts where one more carries into each byte, and at or near the top, where some cycles bring it there.
        let (any, near) = (self.rng.word() as u32, self.rng.below(4) as u32);
        let count = self.rng.pick(&[any, any, near, 0xFF, 0xFFFF, 0xFF_FFFF, TOP - near, TOP - near]);
        set_number(&mut image[IMAGE_GRANTED_CYCLES..], count);
        assert!(accepted(&image), "the generator makes accepted images: {image:?}");
        image
    }

    /// The same with a transfer of this type, and no tail: every number may be left of it.
    pub fn transfer(&mut self, kind: u8) -> Image {
        let mut image = self.image();
        while image[IMAGE_TRANSFER] == 0 {
            image = self.image();
        }
        image[IMAGE_TYPE] = kind;
        image[IMAGE_PHASE] = u8::from(kind == SWAP && self.rng.one_in(2));
        image[IMAGE_TRANSFER_FLAGS] &= !TRANSFER_TAIL;
        image
    }

    /// The transfer, and the attached flag that it needs.
    fn image_transfer(&mut self, image: &mut Image, size: usize) {
        image[IMAGE_FLAGS] |= FLAG_ATTACHED;
        image[IMAGE_TYPE] = self.rng.below(4) as u8;
        image[IMAGE_PHASE] = u8::from(image[IMAGE_TYPE] == SWAP && self.rng.one_in(2));
        let any = self.rng.word();
        let length = u32::from(self.rng.pick(&LENGTHS)).max(1);
        let remaining = self.rng.pick(&[1, 1, 2, 2, 3, length, 255, 256, 65_535, 65_536, 1 + (any >> 48) as u32]);
        let [c64, expansion] = self.addresses(size, remaining, 2);
        set_number(&mut image[IMAGE_C64_ADDRESS..IMAGE_EXPANSION_ADDRESS], c64);
        set_number(&mut image[IMAGE_EXPANSION_ADDRESS..IMAGE_REMAINING], expansion);
        set_remaining(image, remaining);
        image[IMAGE_LATCH] = self.rng.byte();
        image[IMAGE_TRANSFER_FLAGS] = self.rng.byte() & (TRANSFER_TAIL - 1);
        if image[IMAGE_TYPE] == VERIFY && remaining == 1 && self.rng.below(4) != 0 {
            image[IMAGE_TRANSFER_FLAGS] |= TRANSFER_TAIL;
        }
    }
}
