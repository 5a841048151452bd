use super::accepted::refusal;
use crate::calls::{Call, answer_of};
use crate::machine::Machine;
use crate::sides::{BUS, Lent};
use std::mem::ManuallyDrop;

/// A machine over lent memories; it must not be dropped, for it does not own them. (A copy that panicked within a tick,
/// where the controller is moved out, would free what it was lent: no planted bug does.)
fn lend(bus: &mut [u8], storage: &mut [u8]) -> ManuallyDrop<Machine> {
    assert!(bus.len() >= BUS);
    // SAFETY: both boxes are over bytes that are lent for longer than the machine lives, nobody else uses them
    // meanwhile, and they are never freed: the machine keeps both and is not dropped.
    let (bus, storage) = unsafe { (Box::from_raw(bus.as_mut_ptr().cast()), Box::from_raw(storage)) };
    ManuallyDrop::new(Machine::over(bus, storage))
}

/// The sixteen calls as the library has them, over this copy of the original.
pub fn call(call: Call, lent: Lent) -> u32 {
    let Lent { image, bus, storage } = lent;
    let number = refusal(call, image, bus.len(), storage.len());
    if number != 0 {
        return number << 24;
    }
    let image = image.first_chunk_mut().expect("the image has its length");
    let mut machine = lend(bus, storage);
    if call != Call::New {
        machine.load(image);
    }
    let answer = answer_of!(machine, machine, call);
    *image = machine.image();
    answer
}
