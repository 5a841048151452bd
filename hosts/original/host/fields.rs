// Places and the length of an image are the Rust crate's, by name, and a field reaches up to the next place; which field
// stands where is said here. The original has no count of granted cycles and no size: their bytes and bits are 0, and not
// opened. (Without the colons before it, `reu` is a module of the original.)
use ::reu::*;

fn bits(flags: &[bool]) -> u8 {
    flags.iter().rev().fold(0, |byte, flag| byte * 2 + u8::from(*flag))
}

fn bit(byte: u8, index: u8) -> bool {
    byte >> index & 1 == 1
}

/// Lays a number down, low byte first; its upper bytes must be 0.
fn put(field: &mut [u8], number: usize) {
    let bytes = number.to_le_bytes();
    field.copy_from_slice(&bytes[..field.len()]);
    assert!(bytes[field.len()..].iter().all(|byte| *byte == 0), "{number} does not fit its field");
}

fn get(field: &[u8]) -> usize {
    field.iter().rev().fold(0, |number, byte| number * 256 + usize::from(*byte))
}

/// Remaining as two bytes have it: 65,536 is 0 there. The original's is never 0.
fn pair_of(remaining: usize) -> usize {
    if remaining == 65_536 { 0 } else { remaining }
}

/// What such a pair says.
fn remaining_of(pair: usize) -> usize {
    if pair == 0 { 65_536 } else { pair }
}

/// Whether an image has its storage attached.
pub fn attached(image: &[u8; IMAGE_SIZE]) -> bool {
    image[IMAGE_FLAGS] & FLAG_ATTACHED != 0
}

impl DmaState {
    /// The bytes of a running transfer.
    fn pack(&self, image: &mut [u8; IMAGE_SIZE]) {
        image[IMAGE_TYPE] = match self.transfer_type {
            TransferType::Store => 0,
            TransferType::Recall => 1,
            TransferType::Swap => 2,
            TransferType::Verify => 3,
        };
        image[IMAGE_PHASE] = u8::from(self.swap_phase == SwapPhase::WriteC64);
        put(&mut image[IMAGE_C64_ADDRESS..IMAGE_EXPANSION_ADDRESS], usize::from(self.c64_addr));
        put(&mut image[IMAGE_EXPANSION_ADDRESS..IMAGE_REMAINING], self.reu_addr);
        put(&mut image[IMAGE_REMAINING..IMAGE_LATCH], pair_of(self.remaining));
        image[IMAGE_LATCH] = self.latch;
        image[IMAGE_TRANSFER_FLAGS] =
            bits(&[self.fix_c64, self.fix_reu, self.autoload, self.first_byte, self.read_clock_odd, self.verify_tail]);
    }

    fn open(image: &[u8; IMAGE_SIZE]) -> Self {
        Self {
            transfer_type: TransferType::from_command(image[IMAGE_TYPE]),
            swap_phase: if image[IMAGE_PHASE] == 0 { SwapPhase::ReadC64 } else { SwapPhase::WriteC64 },
            c64_addr: get(&image[IMAGE_C64_ADDRESS..IMAGE_EXPANSION_ADDRESS]) as u16,
            reu_addr: get(&image[IMAGE_EXPANSION_ADDRESS..IMAGE_REMAINING]),
            remaining: remaining_of(get(&image[IMAGE_REMAINING..IMAGE_LATCH])),
            latch: image[IMAGE_LATCH],
            fix_c64: bit(image[IMAGE_TRANSFER_FLAGS], 0),
            fix_reu: bit(image[IMAGE_TRANSFER_FLAGS], 1),
            autoload: bit(image[IMAGE_TRANSFER_FLAGS], 2),
            first_byte: bit(image[IMAGE_TRANSFER_FLAGS], 3),
            read_clock_odd: bit(image[IMAGE_TRANSFER_FLAGS], 4),
            verify_tail: bit(image[IMAGE_TRANSFER_FLAGS], 5),
        }
    }
}

impl Reu {
    /// The controller as document 01's image record lays it down.
    pub fn image(&self) -> [u8; IMAGE_SIZE] {
        let mut image = [0; IMAGE_SIZE];
        image[IMAGE_REGISTERS..IMAGE_SHADOW_C64].copy_from_slice(&self.regs);
        put(&mut image[IMAGE_SHADOW_C64..IMAGE_SHADOW_EXPANSION], usize::from(self.shadow_c64_addr));
        put(&mut image[IMAGE_SHADOW_EXPANSION..IMAGE_SHADOW_LENGTH], self.shadow_reu_addr);
        put(&mut image[IMAGE_SHADOW_LENGTH..IMAGE_FLAGS], self.shadow_len);
        image[IMAGE_FLAGS] = bits(&[
            self.enabled,
            self.irq_pending,
            self.storage.is_some(),
            self.waiting_ff00,
            self.ba_was_high,
            self.recall_repeat,
            self.terminal_swap_write,
            self.late_ba_fall,
        ]);
        image[IMAGE_MORE_FLAGS] = bits(&[self.swap_refresh, self.swap_release_pending]);
        image[IMAGE_DELAY] = self.swap_read_delay;
        image[IMAGE_TRANSFER] = u8::from(self.dma.is_some());
        if let Some(dma) = &self.dma {
            dma.pack(&mut image);
        }
        image
    }

    /// Sets every field from an accepted image; `storage` goes into the slot that [`attached`] says it is in.
    pub(crate) fn open(image: &[u8; IMAGE_SIZE], storage: Option<ReuMemory>) -> Self {
        let mut regs = [0; REGISTER_COUNT];
        regs.copy_from_slice(&image[IMAGE_REGISTERS..IMAGE_SHADOW_C64]);
        Self {
            regs,
            shadow_c64_addr: get(&image[IMAGE_SHADOW_C64..IMAGE_SHADOW_EXPANSION]) as u16,
            shadow_reu_addr: get(&image[IMAGE_SHADOW_EXPANSION..IMAGE_SHADOW_LENGTH]),
            shadow_len: get(&image[IMAGE_SHADOW_LENGTH..IMAGE_FLAGS]),
            enabled: bit(image[IMAGE_FLAGS], 0),
            irq_pending: bit(image[IMAGE_FLAGS], 1),
            storage,
            waiting_ff00: bit(image[IMAGE_FLAGS], 3),
            ba_was_high: bit(image[IMAGE_FLAGS], 4),
            recall_repeat: bit(image[IMAGE_FLAGS], 5),
            terminal_swap_write: bit(image[IMAGE_FLAGS], 6),
            late_ba_fall: bit(image[IMAGE_FLAGS], 7),
            swap_refresh: bit(image[IMAGE_MORE_FLAGS], 0),
            swap_release_pending: bit(image[IMAGE_MORE_FLAGS], 1),
            swap_read_delay: image[IMAGE_DELAY],
            dma: (image[IMAGE_TRANSFER] != 0).then(|| DmaState::open(image)),
        }
    }

    pub(crate) fn storage(&self) -> Option<&ReuMemory> {
        self.storage.as_ref()
    }

    pub(crate) fn storage_slot(&mut self) -> &mut Option<ReuMemory> {
        &mut self.storage
    }
}
