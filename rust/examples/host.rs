//! A test host in Rust: a store, a swap, a start by FF00, a block over the top of the memory, one of full length, a
//! saved machine that is written to a file and opened again, and a unit of 128 KiB.
//! It checks every result and says what it did.
//!
//!     cargo run --example host
//!
//! The saved machine goes to the file named by the first argument, or to machine.reu, and is removed at the end.

use reu::*;
use std::{env, error::Error, fs};

/// A machine and its clock.
struct Host {
    machine: Machine,
    cycle: u64,
}

impl Host {
    /// Addresses, length and COMMAND, as a program on the C64 would write them.
    fn command(&mut self, c64: u16, expansion: u32, length: u16, command: u8) {
        let [c64_low, c64_high] = c64.to_le_bytes();
        let [low, high, bank, _] = expansion.to_le_bytes();
        let [length_low, length_high] = length.to_le_bytes();
        let values = [c64_low, c64_high, low, high, bank, length_low, length_high];
        for (register, value) in (0xDF00 + C64_ADDRESS_LOW..).zip(values) {
            self.machine.write(register, value);
        }
        self.machine.write(0xDF00 + COMMAND, command);
    }

    /// One bus cycle with BA high. Answers whether the controller had it, and which address passed its top.
    fn run_cycle(&mut self) -> Step {
        self.cycle += 1;
        self.machine.run_reu_cycle(true, self.cycle, false, true)
    }

    /// Cycles until the CPU has the bus again, but at most 100. Answers how many the controller had.
    fn run_to_end(&mut self) -> usize {
        (0..100).take_while(|_| self.run_cycle().busy).count()
    }
}

const AT_ONCE: u8 = COMMAND_FF00_DISABLE | COMMAND_EXECUTE;

fn store(host: &mut Host) {
    host.machine.bus_mut()[0x1000..0x1005].copy_from_slice(b"HELLO");
    host.command(0x1000, 0x01_0000, 5, STORE | AT_ONCE);
    assert_eq!(host.machine.c64_access(), Access::Read(0x1000));
    assert_eq!(host.run_to_end(), 5);
    assert_eq!(&host.machine.storage()[0x01_0000..0x01_0005], b"HELLO");
    assert_eq!(host.machine.read(0xDF00 + STATUS), STATUS_VERSION | STATUS_END_OF_BLOCK);
    println!("store: 5 cycles, the storage holds HELLO");
}

fn swap(host: &mut Host) {
    host.machine.bus_mut()[0x2000..0x2005].copy_from_slice(b"WORLD");
    host.machine.write(0xDF00 + INTERRUPT_MASK, INTERRUPT_GLOBAL_ENABLE | INTERRUPT_END_OF_BLOCK_ENABLE);
    host.command(0x2000, 0x01_0000, 5, SWAP | COMMAND_AUTOLOAD | AT_ONCE);
    let counters = usize::from(C64_ADDRESS_LOW)..=usize::from(TRANSFER_LENGTH_HIGH);
    let written = host.machine.registers()[counters.clone()].to_vec();
    assert_eq!(host.run_to_end(), 10);
    assert_eq!(&host.machine.bus()[0x2000..0x2005], b"HELLO");
    assert_eq!(&host.machine.storage()[0x01_0000..0x01_0005], b"WORLD");
    assert_eq!(host.machine.registers()[counters], written);
    assert!(host.machine.interrupt_level());
    println!("swap: 10 cycles, HELLO and WORLD have changed places, Autoload has restored the registers");
}

fn start_by_ff00(host: &mut Host) {
    host.command(0x3000, 0x01_0000, 5, RECALL | COMMAND_EXECUTE);
    assert_eq!(host.run_to_end(), 0);
    host.machine.trigger_ff00();
    assert_eq!(host.run_to_end(), 5);
    assert_eq!(&host.machine.bus()[0x3000..0x3005], b"WORLD");
    println!("FF00: no cycle before the access to $FF00, 5 after it, the bus holds WORLD");
}

/// The third of five bytes is at $FFFF, the fourth at 0: the cycle of the third says so.
fn over_the_top(host: &mut Host) {
    host.command(0xFFFD, 0x01_0000, 5, RECALL | AT_ONCE);
    let marks = [(); 5].map(|()| host.run_cycle().passed_c64);
    assert_eq!(marks, [false, false, true, false, false]);
    assert_eq!((&host.machine.bus()[0xFFFD..], &host.machine.bus()[..2]), (&b"WOR"[..], &b"LD"[..]));
    println!("over the top: the third of 5 cycles says that the C64 address passed $FFFF");
}

/// Length 0 means 65,536, which is a 0 in the image too: `remaining` tells it from that of no transfer.
fn full_length(host: &mut Host) {
    host.command(0x2000, 0x02_0000, 0, STORE | AT_ONCE);
    assert_eq!(host.machine.remaining(), 65_536);
    host.run_cycle();
    assert_eq!(host.machine.remaining(), 65_535);
    host.machine.reset(false);
    assert_eq!(host.machine.remaining(), 0);
    println!("full length: 65,536 bytes are left, 65,535 after a cycle, none after a reset");
}

fn save_and_open(host: &mut Host, path: &str) -> Result<(), Box<dyn Error>> {
    host.command(0x2000, 0x01_0000, 5, SWAP | AT_ONCE);
    assert!((0..3).all(|_| host.run_cycle().busy));
    let machine = &host.machine;
    fs::write(path, [&machine.image()[..], machine.bus(), machine.storage()].concat())?;
    let saved = fs::read(path)?;
    fs::remove_file(path)?;
    let (image, memories) = saved.split_at(IMAGE_SIZE);
    let (bus, storage) = memories.split_at(BUS_SIZE);
    let mut opened = Host { machine: Machine::open(image, bus, storage)?, cycle: host.cycle };
    assert!(opened.machine == host.machine);
    assert_eq!((host.run_to_end(), opened.run_to_end()), (7, 7));
    assert!(opened.machine == host.machine);
    // The count of granted cycles is part of the image: it goes on where the swap was saved, and the end leaves it.
    let granted = opened.machine.granted_cycles();
    assert_eq!(granted, 3 + 7);
    println!("saved machine: opened in the middle of a swap, it ended as the one that was saved, in {granted} cycles");
    Ok(())
}

/// A 1700: STATUS has no chip-size mark, and behind the last of its $20000 bytes comes its first one again.
fn smaller_unit() {
    let mut host = Host { machine: Machine::with_size(Size::K128), cycle: 0 };
    host.machine.set_enabled(true);
    assert_eq!((host.machine.capacity_bytes(), host.machine.read(0xDF00 + STATUS)), (SIZE_128K, 0));
    host.machine.bus_mut()[0x1000..0x1005].copy_from_slice(b"HELLO");
    host.command(0x1000, 0xF9_FFFE, 5, STORE | AT_ONCE);
    assert_eq!(host.run_to_end(), 5);
    assert_eq!((&host.machine.storage()[0x1_FFFE..], &host.machine.storage()[..3]), (&b"HE"[..], &b"LLO"[..]));
    assert_eq!(host.machine.set_size(Size::K256), Err(Refusal::Attached));
    assert_eq!(host.machine.size(), Size::K128);
    println!("128 KiB: a store over its end goes on at its start, and no other size can be set now");
}

fn main() -> Result<(), Box<dyn Error>> {
    let path = env::args().nth(1).unwrap_or("machine.reu".into());
    let mut host = Host { machine: Machine::new(), cycle: 0 };
    host.machine.set_enabled(true);
    store(&mut host);
    swap(&mut host);
    start_by_ff00(&mut host);
    over_the_top(&mut host);
    full_length(&mut host);
    save_and_open(&mut host, &path)?;
    smaller_unit();
    println!("all as expected");
    Ok(())
}
