//! A machine: image, bus and storage together.

use crate::answer::{Access, Grant, Refusal, Step};
use crate::calls::{self, Answer};
use crate::constants::*;
use crate::size::Size;

/// A controller with its bus and its storage.
///
/// Its buffers have the right lengths and its image is one that the library accepts, so none of its calls is refused.
/// Only [`Machine::open`], which takes bytes from outside, and [`Machine::set_size`], which may come too late, can be.
///
/// Two machines are equal exactly if every byte of image, bus and storage is.
#[derive(Clone, PartialEq, Eq)]
pub struct Machine {
    image: [u8; IMAGE_SIZE],
    bus: Box<[u8]>,
    storage: Box<[u8]>,
}

/// The value of a call on a machine. See [`Machine`] for why it is there.
fn accepted<T>(answer: Answer<T>) -> T {
    answer.expect("a machine's image is accepted and its buffers have the right lengths")
}

impl Default for Machine {
    fn default() -> Self {
        Machine::new()
    }
}

impl std::fmt::Debug for Machine {
    /// The image; bus and storage would fill pages.
    fn fmt(&self, f: &mut std::fmt::Formatter<'_>) -> std::fmt::Result {
        f.debug_struct("Machine").field("image", &self.image).finish_non_exhaustive()
    }
}

impl Machine {
    /// A new controller of 512 KiB, disabled and with no storage attached; bus and storage are all 0.
    pub fn new() -> Self {
        Machine::with_size(Size::default())
    }

    /// The same, of this size.
    ///
    /// ```
    /// use reu::{Machine, Size};
    ///
    /// let mut machine = Machine::with_size(Size::K128); // a 1700
    /// machine.set_enabled(true);
    /// assert_eq!((machine.storage().len(), machine.capacity_bytes()), (131_072, 131_072));
    /// assert_eq!(machine.read(0xDF00), 0x00); // no mark in STATUS
    /// assert_eq!(Machine::new().read(0xDF00), 0x10);
    /// ```
    pub fn with_size(size: Size) -> Self {
        let mut image = [0; IMAGE_SIZE];
        accepted(calls::new(&mut image));
        accepted(calls::set_size(&mut image, size.bytes() as u64));
        Machine { image, bus: vec![0; BUS_SIZE].into(), storage: vec![0; size.bytes()].into() }
    }

    /// Opens a saved machine, whose storage has the size that its image sets. Bytes that are no machine are refused.
    ///
    /// ```
    /// use reu::{Machine, Refusal};
    ///
    /// let machine = Machine::new();
    /// let mut image = machine.image().to_vec();
    /// let opened = Machine::open(&image, machine.bus(), machine.storage())?;
    /// assert!(opened == machine);
    ///
    /// image[reu::IMAGE_DELAY] = 3; // a delay is 0, 1 or 2
    /// let refused = Machine::open(&image, machine.bus(), machine.storage());
    /// assert_eq!(refused.unwrap_err(), Refusal::ImageField);
    /// # Ok::<(), Refusal>(())
    /// ```
    pub fn open(image: &[u8], bus: &[u8], storage: &[u8]) -> Answer<Self> {
        calls::dma_active(image)?; // tests the image and changes nothing
        let image = image.try_into().map_err(|_| Refusal::ImageLength)?;
        if bus.len() != BUS_SIZE {
            return Err(Refusal::BusLength);
        }
        if storage.len() != Size::of_image(&image).bytes() {
            return Err(Refusal::StorageLength);
        }
        Ok(Machine { image, bus: bus.into(), storage: storage.into() })
    }

    /// The controller, as it is saved.
    pub fn image(&self) -> &[u8; IMAGE_SIZE] {
        &self.image
    }

    /// The memory that the controller sees as the C64's.
    pub fn bus(&self) -> &[u8] {
        &self.bus
    }

    /// The same, for the host to write.
    pub fn bus_mut(&mut self) -> &mut [u8] {
        &mut self.bus
    }

    /// The expansion memory.
    pub fn storage(&self) -> &[u8] {
        &self.storage
    }

    /// The same, for the host to write.
    pub fn storage_mut(&mut self) -> &mut [u8] {
        &mut self.storage
    }

    /// The registers as the controller holds them, by index: what `debug_register` gives.
    pub fn registers(&self) -> &[u8] {
        &self.image[IMAGE_REGISTERS..IMAGE_REGISTERS + REGISTER_COUNT]
    }

    /// Whether the controller asks for an interrupt.
    pub fn interrupt_level(&self) -> bool {
        self.image[IMAGE_FLAGS] & FLAG_INTERRUPT != 0
    }

    /// How many bus cycles were granted since new, reset or the last start that had storage.
    ///
    /// - [`Machine::run_reu_cycle`] adds one where its grant is [`Grant::Transfer`], and nothing where it is another;
    ///   at 4,294,967,295 the count stays.
    /// - [`Machine::new`] and [`Machine::reset`] set it to 0; [`Machine::write`] and [`Machine::trigger_ff00`] do where
    ///   they start a transfer while the storage is attached.
    /// - Nothing else changes it: not [`Machine::bus_action`] or [`Machine::tick_dma`] called directly, not arming, not
    ///   a start without storage, not the end of a command, not [`Machine::set_enabled`].
    ///
    /// ```
    /// let mut machine = reu::Machine::new();
    /// machine.set_enabled(true);
    /// machine.write(0xDF07, 2); // a swap of two bytes
    /// machine.write(0xDF08, 0);
    /// machine.write(0xDF01, reu::SWAP | reu::COMMAND_FF00_DISABLE | reu::COMMAND_EXECUTE);
    /// machine.run_reu_cycle(true, 0, false, false); // BA is low: held
    /// assert_eq!(machine.granted_cycles(), 0);
    /// let cycles = (1..100).take_while(|cycle| machine.run_reu_cycle(true, *cycle, false, true).busy);
    /// assert_eq!(cycles.count(), 4);
    /// assert_eq!(machine.granted_cycles(), 4); // the end leaves it to be looked at
    /// ```
    pub fn granted_cycles(&self) -> u32 {
        self.image[IMAGE_GRANTED_CYCLES..].iter().rev().fold(0, |count, byte| count << 8 | u32::from(*byte))
    }

    /// How many bytes are left of the transfer: 1 to 65,536, and 0 without one.
    ///
    /// The image has two bytes for it, and both are 0 for 65,536 and without a transfer.
    ///
    /// ```
    /// let mut machine = reu::Machine::new();
    /// machine.set_enabled(true);
    /// machine.write(0xDF07, 0); // length 0 means 65,536
    /// machine.write(0xDF08, 0);
    /// assert_eq!(machine.remaining(), 0); // nothing runs
    /// machine.write(0xDF01, reu::STORE | reu::COMMAND_FF00_DISABLE | reu::COMMAND_EXECUTE);
    /// assert_eq!(machine.remaining(), 65_536);
    /// machine.run_reu_cycle(true, 0, false, true);
    /// assert_eq!(machine.remaining(), 65_535);
    /// while machine.run_reu_cycle(true, 0, false, true).busy {}
    /// assert_eq!(machine.remaining(), 0); // it has ended
    /// ```
    pub fn remaining(&self) -> u32 {
        match u16::from_le_bytes([self.image[IMAGE_REMAINING], self.image[IMAGE_REMAINING + 1]]) {
            _ if self.image[IMAGE_TRANSFER] == 0 => 0,
            0 => 65_536,
            left => left.into(),
        }
    }

    /// The size of the storage, whether it is attached or not.
    pub fn size(&self) -> Size {
        Size::of_image(&self.image)
    }

    /// Resets the controller; enabled, attached, the size and the storage are kept. `hard_reset` makes no difference.
    pub fn reset(&mut self, hard_reset: bool) {
        accepted(calls::reset(&mut self.image, hard_reset));
    }

    /// Sets the size, and with it STATUS's bit 4. The machine then has another storage, all 0.
    ///
    /// Once the storage is attached this is refused, the size that it has too, and the machine stays as it is.
    ///
    /// ```
    /// use reu::{Machine, Refusal, Size};
    ///
    /// let mut machine = Machine::new();
    /// machine.set_size(Size::try_from(262_144)?)?;
    /// assert_eq!(machine.size(), Size::K256);
    /// machine.set_enabled(true);
    /// assert_eq!(machine.set_size(Size::K512), Err(Refusal::Attached));
    /// assert_eq!(machine.size(), Size::K256);
    /// # Ok::<(), Refusal>(())
    /// ```
    pub fn set_size(&mut self, size: Size) -> Answer<()> {
        calls::set_size(&mut self.image, size.bytes() as u64)?;
        self.storage = vec![0; size.bytes()].into();
        Ok(())
    }

    /// Enables or disables the controller. Enabling attaches a storage that is not attached and sets every byte of it
    /// to 0.
    pub fn set_enabled(&mut self, enabled: bool) {
        accepted(calls::set_enabled(&mut self.image, &mut self.storage, enabled));
    }

    /// Whether the storage is attached.
    pub fn storage_present(&self) -> bool {
        accepted(calls::storage_present(&self.image))
    }

    /// The size of the storage in bytes if it is attached, else 0; [`Machine::size`] has it before too.
    pub fn capacity_bytes(&self) -> usize {
        accepted(calls::capacity_bytes(&self.image))
    }

    /// The CPU has made the access to $FF00: an armed transfer starts, if COMMAND still has bit 7.
    ///
    /// ```
    /// let mut machine = reu::Machine::new();
    /// machine.set_enabled(true);
    /// machine.write(0xDF01, reu::RECALL | reu::COMMAND_EXECUTE);
    /// assert!(!machine.dma_active());
    /// machine.trigger_ff00();
    /// assert!(machine.dma_active());
    /// ```
    pub fn trigger_ff00(&mut self) {
        accepted(calls::trigger_ff00(&mut self.image));
    }

    /// Reads a register as the CPU does; the index is the address AND $1F, and 11 to 31 gives $FF.
    /// Reading STATUS clears its bits 5 to 7 and lowers the interrupt level.
    pub fn read(&mut self, addr: u16) -> u8 {
        accepted(calls::read(&mut self.image, addr))
    }

    /// Writes a register as the CPU does; COMMAND starts or arms a transfer.
    pub fn write(&mut self, addr: u16, value: u8) {
        accepted(calls::write(&mut self.image, addr, value));
    }

    /// Whether a transfer is running.
    pub fn dma_active(&self) -> bool {
        accepted(calls::dma_active(&self.image))
    }

    /// Decides who has this cycle, the first half of [`Machine::run_reu_cycle`]; to be asked once in a cycle.
    ///
    /// ```
    /// use reu::Grant;
    ///
    /// let mut machine = reu::Machine::new();
    /// machine.set_enabled(true);
    /// assert_eq!(machine.bus_action(true, true, 0), Grant::Cpu);
    /// machine.write(0xDF01, reu::STORE | reu::COMMAND_FF00_DISABLE | reu::COMMAND_EXECUTE);
    /// assert_eq!(machine.bus_action(true, true, 1), Grant::Transfer);
    /// assert_eq!(machine.bus_action(false, false, 2), Grant::Hold);
    /// ```
    pub fn bus_action(&mut self, ba_high: bool, ba_high_phi1: bool, cycle: u64) -> Grant {
        accepted(calls::bus_action(&mut self.image, &mut self.storage, ba_high, ba_high_phi1, cycle))
    }

    /// Whether the CPU may go on after a transfer: BA is high or the release flag is set. Clears the flag.
    pub fn cpu_ready_after_dma(&mut self, ba_high: bool) -> bool {
        accepted(calls::cpu_ready_after_dma(&mut self.image, ba_high))
    }

    /// The byte held in a register, without the effects of a read; $FF from index 11 on.
    pub fn debug_register(&self, index: u64) -> u8 {
        accepted(calls::debug_register(&self.image, index))
    }

    /// What the next tick does on the C64's side.
    ///
    /// ```
    /// use reu::Access;
    ///
    /// let mut machine = reu::Machine::new();
    /// machine.set_enabled(true);
    /// assert_eq!(machine.c64_access(), Access::None);
    /// machine.write(0xDF03, 0xC0);
    /// machine.write(0xDF01, reu::RECALL | reu::COMMAND_FF00_DISABLE | reu::COMMAND_EXECUTE);
    /// assert_eq!(machine.c64_access(), Access::Write(0xC000));
    /// ```
    pub fn c64_access(&self) -> Access {
        accepted(calls::c64_access(&self.image))
    }

    /// Advances the transfer by one granted cycle, the second half of [`Machine::run_reu_cycle`].
    /// Answers whether one is running afterwards, and which address passed its top.
    pub fn tick_dma(&mut self, cycle: u64, ba_low: bool) -> Step {
        accepted(calls::tick_dma(&mut self.image, &mut self.bus, &mut self.storage, cycle, ba_low))
    }

    /// Runs one bus cycle. Answers whether the controller keeps the CPU from it, and which address passed its top.
    ///
    /// Of `cycle` only whether it is odd matters, and `ba_low` only in the cycle that ends a swap.
    ///
    /// ```
    /// use reu::Step;
    ///
    /// let mut machine = reu::Machine::new();
    /// machine.set_enabled(true);
    /// for (register, value) in [(2, 0xFF), (3, 0xFF), (7, 2), (8, 0)] {
    ///     machine.write(0xDF00 + register, value); // two bytes, from $FFFF
    /// }
    /// machine.write(0xDF01, reu::STORE | reu::COMMAND_FF00_DISABLE | reu::COMMAND_EXECUTE);
    /// let over = Step { busy: true, passed_c64: true, passed_expansion: false };
    /// assert_eq!(machine.run_reu_cycle(true, 0, false, true), over); // the next byte is at 0
    /// assert_eq!(machine.run_reu_cycle(true, 1, false, true), Step { passed_c64: false, ..over });
    /// ```
    pub fn run_reu_cycle(&mut self, ba_high: bool, cycle: u64, ba_low: bool, ba_high_phi1: bool) -> Step {
        accepted(calls::run_reu_cycle(
            &mut self.image,
            &mut self.bus,
            &mut self.storage,
            ba_high,
            cycle,
            ba_low,
            ba_high_phi1,
        ))
    }
}
