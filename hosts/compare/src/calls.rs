//! The sixteen calls, and the steps of a list: one line of text each, so that a list can be replayed.

use crate::accepted::accepted;
use crate::sides::Image;
use std::fmt;

/// A call with its arguments beside what it is lent.
#[derive(Clone, Copy, PartialEq, Eq, Debug)]
pub enum Call {
    New,
    Reset { hard_reset: u32 },
    SetEnabled { enabled: u32 },
    StoragePresent,
    CapacityBytes,
    TriggerFf00,
    Read { addr: u16 },
    Write { addr: u16, value: u8 },
    DmaActive,
    CpuReadyAfterDma { ba_high: u32 },
    BusAction { ba_high: u32, ba_high_phi1: u32, cycle: u64 },
    DebugRegister { index: u64 },
    C64Access,
    TickDma { cycle: u64, ba_low: u32 },
    RunReuCycle { ba_high: u32, cycle: u64, ba_low: u32, ba_high_phi1: u32 },
    SetSize { size: u64 },
}

/// The sixteen names, in the order of [`Call`].
pub const NAMES: [&str; 16] = [
    "new",
    "reset",
    "set_enabled",
    "storage_present",
    "capacity_bytes",
    "trigger_ff00",
    "read",
    "write",
    "dma_active",
    "cpu_ready_after_dma",
    "bus_action",
    "debug_register",
    "c64_access",
    "tick_dma",
    "run_reu_cycle",
    "set_size",
];

/// Makes a call on any machine that has the sixteen as methods. The original has fifteen: the last is a method of something
/// around it.
#[cfg(original)]
macro_rules! answer_of {
    ($machine:expr, $sized:expr, $call:expr) => {
        match $call {
            Call::New => $machine.renew(),
            Call::Reset { hard_reset } => $machine.reset(hard_reset),
            Call::SetEnabled { enabled } => $machine.set_enabled(enabled),
            Call::StoragePresent => $machine.storage_present(),
            Call::CapacityBytes => $machine.capacity_bytes(),
            Call::TriggerFf00 => $machine.trigger_ff00(),
            Call::Read { addr } => $machine.read(addr),
            Call::Write { addr, value } => $machine.write(addr, value),
            Call::DmaActive => $machine.dma_active(),
            Call::CpuReadyAfterDma { ba_high } => $machine.cpu_ready_after_dma(ba_high),
            Call::BusAction { ba_high, ba_high_phi1, cycle } => $machine.bus_action(ba_high, ba_high_phi1, cycle),
            Call::DebugRegister { index } => $machine.debug_register(index),
            Call::C64Access => $machine.c64_access(),
            Call::TickDma { cycle, ba_low } => $machine.tick_dma(cycle, ba_low),
            Call::RunReuCycle { ba_high, cycle, ba_low, ba_high_phi1 } => {
                $machine.run_reu_cycle(ba_high, cycle, ba_low, ba_high_phi1)
            }
            Call::SetSize { size } => $sized.set_size(size),
        }
    };
}
#[cfg(original)]
pub(crate) use answer_of;

impl Call {
    pub fn lends_bus(self) -> bool {
        matches!(self, Call::TickDma { .. } | Call::RunReuCycle { .. })
    }

    pub fn lends_storage(self) -> bool {
        self.lends_bus() || matches!(self, Call::SetEnabled { .. } | Call::BusAction { .. })
    }

    /// The place among the sixteen, and the arguments in the exported order.
    fn parts(self) -> (usize, Vec<u64>) {
        match self {
            Call::New => (0, vec![]),
            Call::Reset { hard_reset } => (1, vec![hard_reset.into()]),
            Call::SetEnabled { enabled } => (2, vec![enabled.into()]),
            Call::StoragePresent => (3, vec![]),
            Call::CapacityBytes => (4, vec![]),
            Call::TriggerFf00 => (5, vec![]),
            Call::Read { addr } => (6, vec![addr.into()]),
            Call::Write { addr, value } => (7, vec![addr.into(), value.into()]),
            Call::DmaActive => (8, vec![]),
            Call::CpuReadyAfterDma { ba_high } => (9, vec![ba_high.into()]),
            Call::BusAction { ba_high, ba_high_phi1, cycle } => (10, vec![ba_high.into(), ba_high_phi1.into(), cycle]),
            Call::DebugRegister { index } => (11, vec![index]),
            Call::C64Access => (12, vec![]),
            Call::TickDma { cycle, ba_low } => (13, vec![cycle, ba_low.into()]),
            Call::RunReuCycle { ba_high, cycle, ba_low, ba_high_phi1 } => {
                (14, vec![ba_high.into(), cycle, ba_low.into(), ba_high_phi1.into()])
            }
            Call::SetSize { size } => (15, vec![size]),
        }
    }

    /// The call at a place among the sixteen; none if an argument is missing, left over or too large.
    pub fn from_parts(place: usize, arguments: &[u64]) -> Option<Self> {
        let flag = |at: usize| u32::try_from(arguments[at]).ok();
        let addr = |at: usize| u16::try_from(arguments[at]).ok();
        Some(match (place, arguments.len()) {
            (0, 0) => Call::New,
            (1, 1) => Call::Reset { hard_reset: flag(0)? },
            (2, 1) => Call::SetEnabled { enabled: flag(0)? },
            (3, 0) => Call::StoragePresent,
            (4, 0) => Call::CapacityBytes,
            (5, 0) => Call::TriggerFf00,
            (6, 1) => Call::Read { addr: addr(0)? },
            (7, 2) => Call::Write { addr: addr(0)?, value: u8::try_from(arguments[1]).ok()? },
            (8, 0) => Call::DmaActive,
            (9, 1) => Call::CpuReadyAfterDma { ba_high: flag(0)? },
            (10, 3) => Call::BusAction { ba_high: flag(0)?, ba_high_phi1: flag(1)?, cycle: arguments[2] },
            (11, 1) => Call::DebugRegister { index: arguments[0] },
            (12, 0) => Call::C64Access,
            (13, 2) => Call::TickDma { cycle: arguments[0], ba_low: flag(1)? },
            (14, 4) => {
                let (ba_high, cycle, ba_low, ba_high_phi1) = (flag(0)?, arguments[1], flag(2)?, flag(3)?);
                Call::RunReuCycle { ba_high, cycle, ba_low, ba_high_phi1 }
            }
            (15, 1) => Call::SetSize { size: arguments[0] },
            _ => return None,
        })
    }

    /// The calls that are this one with one argument made simpler: 0, 1, or its half.
    pub fn simpler(self) -> Vec<Self> {
        let (place, arguments) = self.parts();
        let mut calls = Vec::new();
        for (at, argument) in arguments.iter().enumerate() {
            for less in [0, 1, argument % 2, argument % 32, argument / 2] {
                let mut changed = arguments.clone();
                changed[at] = less;
                calls.extend((less < *argument).then(|| Call::from_parts(place, &changed)).flatten());
            }
        }
        calls
    }
}

impl fmt::Display for Call {
    fn fmt(&self, out: &mut fmt::Formatter) -> fmt::Result {
        let (place, arguments) = self.parts();
        write!(out, "{}", NAMES[place])?;
        let hexadecimal = matches!(self, Call::Read { .. } | Call::Write { .. });
        for argument in arguments {
            if hexadecimal { write!(out, " 0x{argument:02x}")? } else { write!(out, " {argument}")? }
        }
        Ok(())
    }
}

/// One line of a list: a call, or what the host does between calls, alike on both sides.
#[derive(Clone, Copy, PartialEq, Eq, Debug)]
pub enum Step {
    Call(Call),
    /// Bus and storage are filled from this seed.
    Memory(u64),
    /// The controller is set from this accepted image.
    Image(Image),
    /// The host writes one byte of the bus.
    Bus(u16, u8),
    /// The host writes one byte of the storage, at this offset modulo its size.
    Storage(u32, u8),
}

impl fmt::Display for Step {
    fn fmt(&self, out: &mut fmt::Formatter) -> fmt::Result {
        match self {
            Step::Call(call) => call.fmt(out),
            Step::Memory(seed) => write!(out, "memory {seed}"),
            Step::Image(image) => {
                write!(out, "image")?;
                image.iter().try_for_each(|byte| write!(out, " 0x{byte:02x}"))
            }
            Step::Bus(addr, value) => write!(out, "bus 0x{addr:04x} 0x{value:02x}"),
            Step::Storage(offset, value) => write!(out, "storage 0x{offset:05x} 0x{value:02x}"),
        }
    }
}

fn number(word: &str) -> Option<u64> {
    match word.strip_prefix("0x") {
        Some(digits) => u64::from_str_radix(digits, 16).ok(),
        None => word.parse().ok(),
    }
}

impl Step {
    /// The step that a line says; none if it says none.
    pub fn parse(line: &str) -> Option<Self> {
        let mut words = line.split_whitespace();
        let name = words.next()?;
        let numbers = words.map(number).collect::<Option<Vec<u64>>>()?;
        let byte = |at: usize| u8::try_from(numbers[at]).ok();
        match (name, numbers.len()) {
            ("memory", 1) => Some(Step::Memory(numbers[0])),
            ("image", _) => {
                let bytes = numbers.iter().map(|number| u8::try_from(*number).ok()).collect::<Option<Vec<u8>>>()?;
                let image: Image = bytes.try_into().ok()?;
                accepted(&image).then_some(Step::Image(image))
            }
            ("bus", 2) => Some(Step::Bus(u16::try_from(numbers[0]).ok()?, byte(1)?)),
            ("storage", 2) if numbers[0] < crate::sides::STORAGE as u64 => {
                Some(Step::Storage(numbers[0] as u32, byte(1)?))
            }
            _ => {
                let place = NAMES.iter().position(|known| *known == name)?;
                Some(Step::Call(Call::from_parts(place, &numbers)?))
            }
        }
    }
}

/// The cycle after this one, if the step is a cycle: only its number is one higher.
fn following(step: Step) -> Option<Step> {
    match step {
        Step::Call(Call::RunReuCycle { ba_high, cycle, ba_low, ba_high_phi1 }) => {
            let cycle = cycle.wrapping_add(1);
            Some(Step::Call(Call::RunReuCycle { ba_high, cycle, ba_low, ba_high_phi1 }))
        }
        _ => None,
    }
}

/// A list as text, one step a line; cycles in a row that only count up are folded as `N x CYCLE`.
pub fn list_text(steps: &[Step]) -> String {
    let mut text = String::new();
    let mut at = 0;
    while at < steps.len() {
        let mut last = at;
        while last + 1 < steps.len() && following(steps[last]) == Some(steps[last + 1]) {
            last += 1;
        }
        if last > at {
            text.push_str(&format!("{} x ", last - at + 1));
        }
        text.push_str(&format!("{}\n", steps[at]));
        at = last + 1;
    }
    text
}

/// The steps of a list's text; a line that starts with # is a remark.
pub fn list_from(text: &str) -> Result<Vec<Step>, String> {
    let mut steps = Vec::new();
    for (at, line) in text.lines().enumerate() {
        if line.trim().is_empty() || line.starts_with('#') {
            continue;
        }
        let (times, rest) = match line.split_once(" x ") {
            Some((times, rest)) => (times.trim().parse().unwrap_or(0), rest),
            None => (1, line),
        };
        let wrong = || format!("line {}: no step: {line}", at + 1);
        let mut step = Step::parse(rest).ok_or_else(wrong)?;
        for left in (0..times).rev() {
            steps.push(step);
            if left > 0 {
                step = following(step).ok_or_else(wrong)?;
            }
        }
    }
    Ok(steps)
}
