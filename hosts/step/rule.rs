//! What request L5 says of the stores that a step hands out, to be held beside the request; and what a host knows by its own
//! calls of the shadows and of the running command, from document 01. Nothing here looks at how the library does it.

use crate::common::constants::*;
use crate::common::screen::Ba;

/// Registers 2 to 8.
pub const STORED: std::ops::RangeInclusive<usize> = 2..=8;

/// What a host does, as run_log takes it. The last two are steps.
#[derive(Clone, Copy)]
pub enum Operation {
    Write(u16, u8),
    Ff00,
    Enable(bool),
    Cycle(Ba),
    Tick(Ba),
}

impl Operation {
    pub fn is_step(&self) -> bool {
        matches!(self, Operation::Cycle(_) | Operation::Tick(_))
    }
}

/// What the log says of a controller: its registers, whether a command is running, and how many cycles were granted, modulo 256.
#[derive(Clone)]
pub struct State {
    pub registers: [u8; REGISTER_COUNT],
    pub running: bool,
    pub granted: u8,
}

/// What it says of an operation.
#[derive(Clone)]
pub struct Line {
    pub before: State,
    /// Indexes and values.
    pub stores: Vec<(u8, u8)>,
    pub after: State,
    /// What a step answers; false of a call.
    pub flag: bool,
    /// The controller's after it.
    pub image: [u8; IMAGE_SIZE],
}

impl Line {
    /// Registers 2 to 8 after the stores, made one after another on the registers before.
    pub fn made(&self) -> [u8; 7] {
        let mut registers = self.before.registers;
        for &(index, value) in &self.stores {
            registers[usize::from(index)] = value;
        }
        registers[STORED].try_into().unwrap()
    }
}

/// A command as the host has started it, and what has come while it runs.
#[derive(Clone, Copy)]
pub struct Command {
    pub kind: u8,
    pub autoload: bool,
    pub by_ff00: bool,
    pub rewritten: bool,
    pub held: bool,
    /// What ends it: a tick, or else a cycle.
    pub by_tick: bool,
}

/// What a step does.
#[derive(Clone, Copy)]
pub enum Sort {
    Idle,
    Armed,
    Dropped,
    Held,
    GoesOn,
    Ends(Command),
}

/// What a host knows by its own calls, if the storage is attached at every start.
pub struct Known {
    /// Of registers 2 to 8.
    shadows: [u8; 7],
    command: u8,
    armed: bool,
    running: Option<Command>,
    dropped: bool,
}

impl Known {
    /// The shadow of the bank is 0 until a bank is written, though the register shows $F8 (R1, R5).
    pub const NEW: Known =
        Known { shadows: [0, 0, 0, 0, 0, 0xFF, 0xFF], command: 0x10, armed: false, running: None, dropped: false };

    fn starts(&mut self, by_ff00: bool) {
        let (kind, autoload) = (self.command & 3, self.command & COMMAND_AUTOLOAD != 0);
        self.running = Some(Command { kind, autoload, by_ff00, rewritten: false, held: false, by_tick: false });
        self.armed = false;
        self.dropped = false;
    }

    fn writes(&mut self, register: u16, value: u8) {
        match register {
            COMMAND => {
                self.command = value;
                self.armed = value & COMMAND_EXECUTE != 0;
                if self.armed && value & COMMAND_FF00_DISABLE != 0 {
                    self.starts(false);
                }
            }
            C64_ADDRESS_LOW..=TRANSFER_LENGTH_HIGH => {
                // "A write stores the bank OR $F8", and its shadow with it.
                let upper = if register == EXPANSION_ADDRESS_BANK { 0xF8 } else { 0 };
                self.shadows[usize::from(register) - 2] = value | upper;
                self.running = self.running.map(|command| Command { rewritten: true, ..command });
            }
            _ => (),
        }
    }

    pub fn calls(&mut self, operation: Operation) {
        match operation {
            Operation::Write(register, value) => self.writes(register, value),
            Operation::Ff00 if self.armed && self.command & COMMAND_EXECUTE != 0 => self.starts(true),
            Operation::Enable(false) => {
                self.armed = false;
                self.dropped = self.running.take().is_some();
            }
            _ => (),
        }
    }

    /// What a step does, if its stores are those of the request.
    pub fn judges(&mut self, step: Operation, line: &Line) -> Result<Sort, &'static str> {
        if line.before.running != self.running.is_some() || line.after.running && !line.before.running {
            return Err("a command runs, or does not run, otherwise than by the host's calls");
        }
        let sort = self.does(step, line);
        if !matches!(sort, Sort::Ends(command) if command.autoload) {
            return if line.stores.is_empty() { Ok(sort) } else { Err("stores, and no command with Autoload ends") };
        }
        if !line.stores.iter().copied().eq((2..=8).zip(self.shadows)) {
            return Err("not registers 2 to 8 once each, in order, with the shadows' bytes");
        }
        if line.made() != line.after.registers[STORED] {
            return Err("the stores on the registers before do not give those after");
        }
        Ok(sort)
    }

    fn does(&mut self, step: Operation, line: &Line) -> Sort {
        match &mut self.running {
            None if self.armed => Sort::Armed,
            None if self.dropped => Sort::Dropped,
            None => Sort::Idle,
            Some(command) if !line.after.running => {
                let ended = Command { by_tick: matches!(step, Operation::Tick(_)), ..*command };
                self.running = None;
                // What an end leaves in COMMAND.
                self.command = self.command & 0x7F | 0x10;
                Sort::Ends(ended)
            }
            Some(command) if matches!(step, Operation::Cycle(_)) && line.after.granted == line.before.granted => {
                command.held = true;
                Sort::Held
            }
            Some(_) => Sort::GoesOn,
        }
    }
}
