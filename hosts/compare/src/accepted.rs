//! Refusals 1 to 6 as document 01 and request L4 give them. Only the places and the lengths are the Rust crate's: what a
//! field may be is told here once more, apart from the library.

use crate::calls::Call;
use crate::remaining::remaining;
use crate::sides::{BUS, IMAGE};
use crate::sizes::{has_mark, refused_size, size_of};
use ::reu::*;

/// The transfer of an image that is attached or not.
fn transfer_accepted(image: &[u8], attached: bool) -> bool {
    if image[IMAGE_TRANSFER] == 0 {
        return image[IMAGE_TYPE..IMAGE_GRANTED_CYCLES].iter().all(|byte| *byte == 0);
    }
    let (kind, phase, flags) = (image[IMAGE_TYPE], image[IMAGE_PHASE], image[IMAGE_TRANSFER_FLAGS]);
    let (remaining, tail) = (remaining(image), flags & 0x20 != 0);
    attached
        && image[IMAGE_TRANSFER] == 1
        && kind <= 3
        && phase <= 1
        && flags <= 0x3F
        && (phase == 0 || kind == 2)
        && (!tail || (kind == 3 && remaining == 1))
}

/// A size, and STATUS with its mark.
fn size_accepted(image: &[u8]) -> bool {
    size_of(image).is_some_and(|size| has_mark(image, size))
}

/// Whether an image of the right length is a controller.
pub fn accepted(image: &[u8]) -> bool {
    let attached = image[IMAGE_FLAGS] & 4 != 0;
    let fields = image[IMAGE_MORE_FLAGS] <= 0x0F && image[IMAGE_DELAY] <= 2;
    fields && size_accepted(image) && transfer_accepted(image, attached)
}

/// The refusal number of a call that is lent this image and buffers of these lengths; 0 if it is accepted.
pub fn refusal(call: Call, image: &[u8], bus: usize, storage: usize) -> u32 {
    if image.len() != IMAGE {
        1
    } else if call != Call::New && !accepted(image) {
        2
    } else if call.lends_bus() && bus != BUS {
        3
    } else if call.lends_storage() && Some(storage) != size_of(image) {
        4
    } else if let Call::SetSize { size } = call {
        refused_size(size, image[IMAGE_FLAGS] & 4 != 0)
    } else {
        0
    }
}
