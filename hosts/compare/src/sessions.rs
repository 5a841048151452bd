//! Document 01's sixteen recorded sessions, on any machine.

use crate::calls::{Call, Step};
use crate::sides::{Machine, STORAGE};

/// A machine as the sessions use it: new, enabled, BA high.
pub struct Desk<'a> {
    pub machine: &'a mut dyn Machine,
    cycle: u64,
}

/// Registers by number, and the value that is looked for.
type Looks<'a> = &'a [(u64, u32)];

const STATUS: u64 = 0;
const COMMAND: u64 = 1;
const MASK: u16 = 9;

impl<'a> Desk<'a> {
    /// A new controller over memories of zeros, not enabled.
    pub fn new(machine: &'a mut dyn Machine) -> Self {
        machine.step(Step::Call(Call::New));
        machine.bus_mut().fill(0);
        machine.storage_mut().fill(0);
        Self { machine, cycle: 0 }
    }

    fn enabled(machine: &'a mut dyn Machine) -> Self {
        let desk = Self::new(machine);
        desk.machine.call(Call::SetEnabled { enabled: 1 });
        desk
    }

    pub fn read(&mut self, addr: u16) -> u32 {
        self.machine.call(Call::Read { addr })
    }

    pub fn write(&mut self, register: u16, value: u8) {
        self.machine.call(Call::Write { addr: 0xDF00 + register, value });
    }

    pub fn shown(&mut self, index: u64) -> u32 {
        self.machine.call(Call::DebugRegister { index })
    }

    fn shows(&mut self, looks: Looks) -> bool {
        looks.iter().all(|(index, value)| self.shown(*index) == *value)
    }

    pub fn word(&mut self, low: u64) -> u32 {
        self.shown(low) + 256 * self.shown(low + 1)
    }

    /// Writes both addresses and the length, the bank only if it is not 0.
    pub fn program(&mut self, c64: u16, expansion: u32, length: u16) {
        let ([c64_low, c64_high], [low, high, bank, _]) = (c64.to_le_bytes(), expansion.to_le_bytes());
        let [length_low, length_high] = length.to_le_bytes();
        let pairs = [(2, c64_low), (3, c64_high), (4, low), (5, high), (7, length_low), (8, length_high)];
        pairs.into_iter().for_each(|(register, value)| self.write(register, value));
        if bank != 0 {
            self.write(6, bank);
        }
    }

    fn bus(&mut self, addr: usize, bytes: &[u8]) {
        self.machine.bus_mut()[addr..addr + bytes.len()].copy_from_slice(bytes);
    }

    fn storage(&mut self, offset: usize, bytes: &[u8]) {
        self.machine.storage_mut()[offset..offset + bytes.len()].copy_from_slice(bytes);
    }

    pub fn cycle(&mut self, ba_high: u32, ba_high_phi1: u32) -> u32 {
        let (cycle, ba_low) = (self.cycle, u32::from(ba_high == 0));
        self.cycle += 1;
        self.machine.call(Call::RunReuCycle { ba_high, cycle, ba_low, ba_high_phi1 })
    }

    /// Cycles with BA high; their answers say nothing here but in R14 and R15, where an address passes its top.
    fn ticks(&mut self, times: usize) {
        for _ in 0..times {
            self.cycle(1, 1);
        }
    }

    /// The session that R4, R12 and R13 share: one byte stored.
    fn store_one(&mut self, c64: u16) {
        self.bus(usize::from(c64), &[0xA5]);
        self.program(c64, 0, 1);
        self.write(1, 0x90);
        self.ticks(1);
    }

    /// Verify over these bytes of bus and storage.
    fn verify(&mut self, bus: &[u8], storage: &[u8], ticks: usize) {
        self.bus(0x1000, bus);
        self.storage(0, storage);
        self.program(0x1000, 0, bus.len() as u16);
        self.write(1, 0x93);
        self.ticks(ticks);
    }

    /// Recall of three bytes that meets BA low in its first cycle only; the bytes that the bus then holds.
    fn recall_over_ba(&mut self, command: u8) -> Vec<u8> {
        self.storage(0, &[0x11, 0x22, 0x33]);
        self.program(0x1000, 0, 3);
        self.write(1, command);
        self.machine.call(Call::TriggerFf00);
        self.cycle(1, 0);
        self.ticks(4);
        self.machine.bus()[0x1000..0x1003].to_vec()
    }
}

fn r1(machine: &mut dyn Machine) -> bool {
    let mut desk = Desk::new(machine);
    let read: Vec<u32> = (0..11).map(|register| desk.read(0xDF00 + register)).collect();
    read == [0x10, 0x10, 0, 0, 0, 0, 0xF8, 0xFF, 0xFF, 0x1F, 0x3F]
}

fn r2(machine: &mut dyn Machine) -> bool {
    let mut desk = Desk::enabled(machine);
    desk.read(0xDF0B) == 0xFF && desk.read(0xDF20) == 0x10
}

fn r3(machine: &mut dyn Machine) -> bool {
    let mut desk = Desk::new(machine);
    desk.write(1, 0x90);
    let at_once = desk.shows(&[(COMMAND, 0x10), (STATUS, 0x10)]);
    desk.write(1, 0x80);
    desk.machine.call(Call::TriggerFf00);
    at_once && desk.shown(COMMAND) == 0
}

fn r4(machine: &mut dyn Machine) -> bool {
    let mut desk = Desk::enabled(machine);
    desk.store_one(0x1000);
    let registers = [(STATUS, 0x50), (2, 1), (3, 0x10), (4, 1), (7, 1), (8, 0), (COMMAND, 0x10)];
    let read = desk.read(0xDF02) == 1 && desk.read(0xDF01) == 0x10;
    desk.machine.storage()[0] == 0xA5 && desk.shows(&registers) && read
}

fn r5(machine: &mut dyn Machine) -> bool {
    let mut desk = Desk::enabled(machine);
    desk.program(0x2000, 0, 2);
    desk.write(1, 0xB0);
    desk.ticks(2);
    let registers = [(2, 0), (3, 0x20), (7, 2), (8, 0), (COMMAND, 0x30), (6, 0)];
    desk.shows(&registers) && desk.read(0xDF06) == 0xF8
}

fn r6(machine: &mut dyn Machine) -> bool {
    let mut desk = Desk::enabled(machine);
    desk.verify(&[1, 2, 3], &[9, 2, 3], 1);
    desk.shown(STATUS) == 0x30 && desk.word(7) == 2
}

fn r7(machine: &mut dyn Machine) -> bool {
    let mut desk = Desk::enabled(machine);
    desk.verify(&[1, 2], &[9, 2], 2);
    desk.shown(STATUS) == 0x70 && desk.word(7) == 1 && desk.word(2) == 0x1001
}

fn r8(machine: &mut dyn Machine) -> bool {
    let mut desk = Desk::enabled(machine);
    desk.verify(&[1, 2], &[9, 9], 2);
    desk.shown(STATUS) == 0x30
}

fn r9(machine: &mut dyn Machine) -> bool {
    let mut desk = Desk::enabled(machine);
    desk.bus(0x1000, &[0x11]);
    desk.storage(0, &[0x22]);
    desk.program(0x1000, 0, 1);
    desk.write(1, 0x92);
    desk.ticks(1);
    let first = [desk.machine.bus()[0x1000], desk.machine.storage()[0]];
    desk.ticks(1);
    let second = [desk.machine.bus()[0x1000], desk.machine.storage()[0]];
    first == [0x11, 0x11] && second == [0x22, 0x11] && desk.shown(STATUS) == 0x50
}

fn r10(machine: &mut dyn Machine) -> bool {
    Desk::enabled(machine).recall_over_ba(0x91) == [0x11, 0x11, 0x33]
}

fn r11(machine: &mut dyn Machine) -> bool {
    Desk::enabled(machine).recall_over_ba(0x81) == [0x11, 0x22, 0x33]
}

fn r12(machine: &mut dyn Machine) -> bool {
    let mut desk = Desk::enabled(machine);
    desk.store_one(0x1000);
    desk.write(MASK, 0xC0);
    let raised = desk.machine.interrupt();
    raised && desk.read(0xDF00) == 0xD0 && desk.read(0xDF00) == 0x10 && !desk.machine.interrupt()
}

fn r13(machine: &mut dyn Machine) -> bool {
    let mut desk = Desk::enabled(machine);
    desk.store_one(0x10FF);
    let stepped = desk.word(2) == 0x1100;
    desk.write(2, 0);
    stepped && desk.word(2) == 0x1000
}

fn r14(machine: &mut dyn Machine) -> bool {
    let mut desk = Desk::enabled(machine);
    desk.bus(0xFFFF, &[0x5A]);
    desk.bus(0, &[0xA5]);
    desk.program(0xFFFF, 0xFF_FFFF, 2);
    desk.write(1, 0x90);
    let answers = [desk.cycle(1, 1), desk.cycle(1, 1)];
    let stored = [desk.machine.storage()[STORAGE - 1], desk.machine.storage()[0]];
    answers == [7, 1] && stored == [0x5A, 0xA5] && desk.word(2) == 1 && desk.shown(6) == 0
}

fn r15(machine: &mut dyn Machine) -> bool {
    let mut desk = Desk::enabled(machine);
    desk.program(0, 0, 0);
    desk.write(1, 0x90);
    desk.ticks(1);
    let first = desk.word(7) == 0xFFFF;
    desk.ticks(65_534);
    let before_last = desk.machine.call(Call::DmaActive);
    let last = desk.cycle(1, 1);
    first && before_last == 1 && last == 3 && desk.machine.call(Call::DmaActive) == 0 && desk.shown(STATUS) == 0x50
}

/// The grants of R16's five cycles are those of `bus_action` for the same inputs on a machine that is left as it was.
fn r16(machine: &mut dyn Machine) -> bool {
    let mut desk = Desk::enabled(machine);
    desk.bus(0x1000, &[0x11]);
    desk.storage(0, &[0x22]);
    desk.program(0x1000, 0, 1);
    desk.write(1, 0x92);
    let mut grants = Vec::new();
    for cycle in 10..15 {
        let (ba_high, ba_high_phi1) = (u32::from(cycle != 10), u32::from(cycle != 11));
        grants.push(desk.machine.grant(ba_high, ba_high_phi1, cycle).0);
        desk.cycle = cycle;
        desk.cycle(ba_high, ba_high_phi1);
    }
    grants == [2, 1, 2, 2, 2] && desk.machine.bus()[0x1000] == 0x11 && desk.machine.storage()[0] == 0x11
}

type Session = fn(&mut dyn Machine) -> bool;
const SESSIONS: [Session; 16] = [r1, r2, r3, r4, r5, r6, r7, r8, r9, r10, r11, r12, r13, r14, r15, r16];

pub const COUNT: usize = SESSIONS.len();

/// Whether this machine plays the session of this number, from 1, as it is recorded.
pub fn plays(machine: &mut dyn Machine, number: usize) -> bool {
    SESSIONS[number - 1](machine)
}
