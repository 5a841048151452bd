//! The sizes of a storage.

use crate::answer::Refusal;
use crate::constants::*;

/// How large the expansion memory is.
///
/// ```
/// use reu::{Refusal, Size};
///
/// assert_eq!(Size::K256.bytes(), 262_144);
/// assert_eq!(Size::try_from(131_072), Ok(Size::K128));
/// assert_eq!(Size::try_from(65_536), Err(Refusal::Size));
/// ```
#[derive(Clone, Copy, Debug, Default, PartialEq, Eq)]
pub enum Size {
    /// 131,072 bytes, as the 1700 has. Only with this size STATUS's bit 4 is 0.
    K128,
    /// 262,144 bytes, as the 1764 has.
    K256,
    /// 524,288 bytes, as the 1750 has, and every controller for which no other size is set.
    #[default]
    K512,
}

impl Size {
    /// This size in bytes.
    pub fn bytes(self) -> usize {
        match self {
            Size::K128 => SIZE_128K,
            Size::K256 => SIZE_256K,
            Size::K512 => SIZE_512K,
        }
    }

    /// The size that an accepted image sets.
    pub(crate) fn of_image(image: &[u8; IMAGE_SIZE]) -> Self {
        match image[IMAGE_MORE_FLAGS] & FLAG_SIZE {
            FLAG_SIZE_128K => Size::K128,
            FLAG_SIZE_256K => Size::K256,
            FLAG_SIZE_512K => Size::K512,
            other => unreachable!("an accepted image has no size {other:#04x}"),
        }
    }
}

impl TryFrom<usize> for Size {
    type Error = Refusal;

    /// The size of so many bytes; any other number is refused, as the library does.
    fn try_from(bytes: usize) -> Result<Self, Refusal> {
        match bytes {
            SIZE_128K => Ok(Size::K128),
            SIZE_256K => Ok(Size::K256),
            SIZE_512K => Ok(Size::K512),
            _ => Err(Refusal::Size),
        }
    }
}
