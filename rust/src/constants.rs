//! The numbers of `include/reu.h` under the same names, without the prefix `REU_`.

// Lengths of the buffers; an image's is [`IMAGE_SIZE`], behind its places.

/// Bytes of a bus.
pub const BUS_SIZE: usize = 65536;
/// Bytes of a storage for which no other size is set: [`SIZE_512K`].
pub const STORAGE_SIZE: usize = SIZE_512K;

// Sizes of a storage, for `set_size`.

/// The 1700's.
pub const SIZE_128K: usize = 131072;
/// The 1764's.
pub const SIZE_256K: usize = 262144;
/// The 1750's.
pub const SIZE_512K: usize = 524288;

// Refusals: an answer's bits from 24 on.

/// Not refused.
pub const ACCEPTED: u32 = 0;
/// The image's length is not [`IMAGE_SIZE`].
pub const REFUSED_IMAGE_LENGTH: u32 = 1;
/// The image has a field that no controller can have.
pub const REFUSED_IMAGE_FIELD: u32 = 2;
/// The bus's length is not [`BUS_SIZE`].
pub const REFUSED_BUS_LENGTH: u32 = 3;
/// The storage's length is not the size that is set.
pub const REFUSED_STORAGE_LENGTH: u32 = 4;
/// The size is none of [`SIZE_128K`], [`SIZE_256K`] and [`SIZE_512K`].
pub const REFUSED_SIZE: u32 = 5;
/// A size cannot be set once storage is attached.
pub const REFUSED_ATTACHED: u32 = 6;

// Grants: the value of `bus_action`.

/// The CPU has the cycle.
pub const GRANT_CPU: u32 = 0;
/// Nobody has it: the CPU is held, and so is the transfer, if one is running.
pub const GRANT_HOLD: u32 = 1;
/// The transfer has the cycle, if one is running; the CPU is held in any case.
pub const GRANT_TRANSFER: u32 = 2;

// Marks: what is added to the value of `tick_dma` and `run_reu_cycle`.

/// A byte was completed with which the C64 address stepped from $FFFF to 0.
pub const PASSED_C64: u32 = 2;
/// A byte was completed with which the expansion address stepped from $FFFFFF to 0.
pub const PASSED_EXPANSION: u32 = 4;

// Kinds of access: the value of `c64_access`, divided by 65,536.

/// No transfer is running.
pub const ACCESS_NONE: u32 = 0;
/// The next tick reads the bus.
pub const ACCESS_READ: u32 = 1;
/// The next tick writes the bus.
pub const ACCESS_WRITE: u32 = 2;

// Registers, by index.

/// How many there are.
pub const REGISTER_COUNT: usize = 11;

/// What happened.
pub const STATUS: u16 = 0;
/// Type and start of a transfer.
pub const COMMAND: u16 = 1;
/// Bits 0 to 7 of the C64 address.
pub const C64_ADDRESS_LOW: u16 = 2;
/// Bits 8 to 15 of the C64 address.
pub const C64_ADDRESS_HIGH: u16 = 3;
/// Bits 0 to 7 of the expansion address.
pub const EXPANSION_ADDRESS_LOW: u16 = 4;
/// Bits 8 to 15 of the expansion address.
pub const EXPANSION_ADDRESS_HIGH: u16 = 5;
/// Bits 16 to 23 of the expansion address.
pub const EXPANSION_ADDRESS_BANK: u16 = 6;
/// Bits 0 to 7 of the length.
pub const TRANSFER_LENGTH_LOW: u16 = 7;
/// Bits 8 to 15 of the length.
pub const TRANSFER_LENGTH_HIGH: u16 = 8;
/// Which events raise the interrupt.
pub const INTERRUPT_MASK: u16 = 9;
/// Which addresses are fixed.
pub const ADDRESS_CONTROL: u16 = 10;

// Bits of STATUS.

/// The chip-size mark: 0 for [`SIZE_128K`], 1 for the other sizes.
pub const STATUS_VERSION: u8 = 0x10;
/// A byte differed.
pub const STATUS_VERIFY_ERROR: u8 = 0x20;
/// The block ended.
pub const STATUS_END_OF_BLOCK: u8 = 0x40;
/// Interrupt.
pub const STATUS_IRQ_PENDING: u8 = 0x80;

// COMMAND: a transfer type in bits 0 and 1, and these bits.

/// From the C64 to the storage.
pub const STORE: u8 = 0;
/// From the storage to the C64.
pub const RECALL: u8 = 1;
/// Exchange.
pub const SWAP: u8 = 2;
/// Comparison.
pub const VERIFY: u8 = 3;
/// Start at once, without FF00.
pub const COMMAND_FF00_DISABLE: u8 = 0x10;
/// Restore addresses and length at the end.
pub const COMMAND_AUTOLOAD: u8 = 0x20;
/// Start, or wait for FF00.
pub const COMMAND_EXECUTE: u8 = 0x80;

// Bits of the interrupt mask.

/// Let a verify error interrupt.
pub const INTERRUPT_VERIFY_ENABLE: u8 = 0x20;
/// Let the end of a block interrupt.
pub const INTERRUPT_END_OF_BLOCK_ENABLE: u8 = 0x40;
/// Let anything interrupt.
pub const INTERRUPT_GLOBAL_ENABLE: u8 = 0x80;

// Bits of address control.

/// The expansion address does not step.
pub const ADDRESS_CONTROL_FIX_EXPANSION: u8 = 0x40;
/// The C64 address does not step.
pub const ADDRESS_CONTROL_FIX_C64: u8 = 0x80;

// Places in an image, each the one before plus its width. Numbers of more than one byte have their low byte first.

/// The registers, by index, as held.
pub const IMAGE_REGISTERS: usize = 0;
/// What Autoload restores: the C64 address.
pub const IMAGE_SHADOW_C64: usize = IMAGE_REGISTERS + REGISTER_COUNT;
/// The expansion address that it restores.
pub const IMAGE_SHADOW_EXPANSION: usize = IMAGE_SHADOW_C64 + 2;
/// The length that it restores.
pub const IMAGE_SHADOW_LENGTH: usize = IMAGE_SHADOW_EXPANSION + 3;
/// `FLAG_ENABLED` to `FLAG_LATE_FALL`.
pub const IMAGE_FLAGS: usize = IMAGE_SHADOW_LENGTH + 2;
/// `FLAG_REFRESH` to `FLAG_SIZE`; no other bit.
pub const IMAGE_MORE_FLAGS: usize = IMAGE_FLAGS + 1;
/// 0 to 2.
pub const IMAGE_DELAY: usize = IMAGE_MORE_FLAGS + 1;
/// 1: a transfer is running; else 0.
pub const IMAGE_TRANSFER: usize = IMAGE_DELAY + 1;
/// `STORE` to `VERIFY`.
pub const IMAGE_TYPE: usize = IMAGE_TRANSFER + 1;
/// 0 read, 1 write.
pub const IMAGE_PHASE: usize = IMAGE_TYPE + 1;
/// Where the transfer is on the C64's side.
pub const IMAGE_C64_ADDRESS: usize = IMAGE_PHASE + 1;
/// Where it is in the expansion memory.
pub const IMAGE_EXPANSION_ADDRESS: usize = IMAGE_C64_ADDRESS + 2;
/// The bytes that are left, in two bytes: 0 means 65,536.
pub const IMAGE_REMAINING: usize = IMAGE_EXPANSION_ADDRESS + 3;
/// Any byte.
pub const IMAGE_LATCH: usize = IMAGE_REMAINING + 2;
/// `TRANSFER_FIX_C64` to `TRANSFER_TAIL`; no other bit.
pub const IMAGE_TRANSFER_FLAGS: usize = IMAGE_LATCH + 1;
/// The count of granted cycles: any number of four bytes.
pub const IMAGE_GRANTED_CYCLES: usize = IMAGE_TRANSFER_FLAGS + 1;
/// Bytes of an image, 37: each field reaches up to the next place, and the last one up to this.
pub const IMAGE_SIZE: usize = IMAGE_GRANTED_CYCLES + 4;

// Bits of the byte at `IMAGE_FLAGS`.

/// The host has enabled the controller.
pub const FLAG_ENABLED: u8 = 0x01;
/// The interrupt level.
pub const FLAG_INTERRUPT: u8 = 0x02;
/// The storage is attached.
pub const FLAG_ATTACHED: u8 = 0x04;
/// A command waits for FF00.
pub const FLAG_ARMED: u8 = 0x08;
/// BA at PHI1 of the cycle before.
pub const FLAG_BA_WAS_HIGH: u8 = 0x10;
/// Past its first byte a recall writes the latch, once.
pub const FLAG_RECALL_REPEAT: u8 = 0x20;
/// The next cycle is granted, whatever BA is: a swap's terminal pair.
pub const FLAG_TERMINAL_WRITE: u8 = 0x40;
/// BA fell late in the cycle before.
pub const FLAG_LATE_FALL: u8 = 0x80;

// Bits of the byte at `IMAGE_MORE_FLAGS`.

/// The next tick only reads the C64's byte into the storage again.
pub const FLAG_REFRESH: u8 = 0x01;
/// The CPU may go on even with BA low, once.
pub const FLAG_RELEASE: u8 = 0x02;
/// The bits of the size: they hold one of the three below.
pub const FLAG_SIZE: u8 = 0x0C;
/// [`SIZE_512K`].
pub const FLAG_SIZE_512K: u8 = 0x00;
/// [`SIZE_256K`].
pub const FLAG_SIZE_256K: u8 = 0x04;
/// [`SIZE_128K`].
pub const FLAG_SIZE_128K: u8 = 0x08;

// Bits of the byte at `IMAGE_TRANSFER_FLAGS`.

/// The C64 address does not step.
pub const TRANSFER_FIX_C64: u8 = 0x01;
/// The expansion address does not step.
pub const TRANSFER_FIX_EXPANSION: u8 = 0x02;
/// Autoload at the end.
pub const TRANSFER_AUTOLOAD: u8 = 0x04;
/// No byte is complete yet.
pub const TRANSFER_FIRST_BYTE: u8 = 0x08;
/// A swap's byte was read in an odd cycle.
pub const TRANSFER_ODD_PARITY: u8 = 0x10;
/// One comparison is left of a verify.
pub const TRANSFER_TAIL: u8 = 0x20;
