//! Refusals: each wrong length, each bad field, each set of faults, with nothing changed by any of them.

use crate::accepted::{accepted, refusal};
use crate::calls::{Call, NAMES};
use crate::generate::Generator;
use crate::remaining::{EARLIER, earlier, set_remaining};
use crate::rng::{Rng, noise};
use crate::sides::{BUS, IMAGE, Image, Lent, Port, REFUSAL, STORAGE, register};
use crate::sizes::{NEAR, SIZES, lay_size, size_of};
use reu::*;
use std::alloc::{Layout, alloc_zeroed, dealloc};

/// Bytes before what is lent; what lies behind is the rest of the arena.
const MARGIN: usize = 64;
/// Whole arenas are looked at after so many calls, and their ends after each.
const WHOLE_EVERY: u64 = 65_536;
/// Images that are tried with every value of every byte behind the shadows, and rounds of drawn faults.
const BASES: usize = 8;
const ROUNDS: usize = 1_000;

/// What a length of 32 bits would not show.
const HUGE: usize = 1 << 32;

/// What both ends of a buffer beyond that must be afterwards.
static ZEROS: [u8; STORAGE] = [0; STORAGE];

/// Lent from, and compared with what it held.
struct Arena {
    bytes: Vec<u8>,
    kept: Vec<u8>,
}

impl Arena {
    fn new(largest: usize, seed: u64) -> Self {
        let mut bytes = vec![0; largest + 2 * MARGIN];
        noise(&mut bytes, seed);
        Self { kept: bytes.clone(), bytes }
    }

    fn lend(&mut self, length: usize) -> &mut [u8] {
        &mut self.bytes[MARGIN..MARGIN + length]
    }

    fn set(&mut self, bytes: &[u8]) {
        self.bytes[MARGIN..MARGIN + bytes.len()].copy_from_slice(bytes);
        self.kept[MARGIN..MARGIN + bytes.len()].copy_from_slice(bytes);
    }

    /// Both ends of the first `length` lent bytes, and what lies beside them.
    fn ends_hold(&self, length: usize) -> bool {
        let end = MARGIN + length;
        let near = |at: usize| at.saturating_sub(MARGIN)..(at + MARGIN).min(self.bytes.len());
        self.bytes[near(MARGIN)] == self.kept[near(MARGIN)] && self.bytes[near(end)] == self.kept[near(end)]
    }

    fn holds(&self) -> bool {
        self.bytes == self.kept
    }
}

/// Something that can be asked for a refused call between two others.
pub trait Refuser {
    /// Makes one call that must be refused, with this image among what may be lent.
    fn refuse(&mut self, image: &Image) -> Result<(), String>;
}

pub struct Refusals<P> {
    port: P,
    rng: Rng,
    generator: Generator,
    image: Arena,
    bus: Arena,
    storage: Arena,
    /// The calls made so far, nearly all of them refused.
    pub calls: u64,
}

/// The lengths that a call is lent.
#[derive(Clone, Copy)]
struct Lengths {
    image: usize,
    bus: usize,
    storage: usize,
}

impl Lengths {
    /// The right ones for this image; the storage's is the size that it sets. (With none it is refused for that.)
    fn of(image: &Image) -> Self {
        Self { image: IMAGE, bus: BUS, storage: size_of(image).unwrap_or(STORAGE) }
    }
}

impl<P: Port> Refusals<P> {
    pub fn new(port: P, seed: u64) -> Self {
        let (image, bus, storage) = (Arena::new(4096, seed), Arena::new(2 * BUS, seed), Arena::new(2 * STORAGE, seed));
        Self { port, rng: Rng::new(seed), generator: Generator::new(seed), image, bus, storage, calls: 0 }
    }

    /// One call on what the arenas hold: its answer must be the refusal that document 01 gives, and nothing changes.
    fn refused(&mut self, call: Call, lengths: Lengths) -> Result<(), String> {
        let image = self.image.lend(lengths.image);
        let expected = refusal(call, image, lengths.bus, lengths.storage);
        assert!(expected != 0, "a call that must be refused");
        let (bus, storage) = (self.bus.lend(lengths.bus), self.storage.lend(lengths.storage));
        let answer = self.port.call(call, Lent { image, bus, storage });
        self.calls += 1;
        let told = |what: &str| {
            let bytes = &self.image.kept[MARGIN..MARGIN + lengths.image.min(IMAGE)];
            let Lengths { image, bus, storage } = lengths;
            format!("{call} {what}; lengths {image}, {bus}, {storage}; image {bytes:02x?}")
        };
        if answer != expected * REFUSAL {
            return Err(told(&format!("answers {answer}, not refusal {expected}")));
        }
        let near = self.image.ends_hold(lengths.image)
            && self.bus.ends_hold(lengths.bus)
            && self.storage.ends_hold(lengths.storage);
        if !near || (self.calls.is_multiple_of(WHOLE_EVERY) && !self.unchanged()) {
            return Err(told("is refused and changes a byte"));
        }
        Ok(())
    }

    fn unchanged(&self) -> bool {
        self.image.holds() && self.bus.holds() && self.storage.holds()
    }

    fn any_call(&mut self) -> Call {
        let place = self.rng.below(NAMES.len());
        self.generator.call(place)
    }

    /// An accepted image of this size.
    fn sized(&mut self, size: usize) -> Image {
        let mut image = self.generator.image();
        lay_size(&mut image, size);
        image
    }

    /// Every wrong length of image and bus, up to twice the right one and beyond.
    fn lengths(&mut self) -> Result<(), String> {
        for place in 0..NAMES.len() {
            let image = self.generator.image();
            self.image.set(&image);
            let (call, right) = (self.generator.call(place), Lengths::of(&image));
            for image in (0..4096).filter(|length| *length != IMAGE) {
                self.refused(call, Lengths { image, ..right })?;
            }
            for bus in (0..=2 * BUS).filter(|length| call.lends_bus() && *length != BUS) {
                self.refused(call, Lengths { bus, ..right })?;
            }
        }
        Ok(())
    }

    /// Every wrong length of the storage at each size, up to twice the right one, and the other sizes beyond.
    fn storage_lengths(&mut self) -> Result<(), String> {
        for (place, size) in (0..NAMES.len()).flat_map(|place| SIZES.map(|size| (place, size))) {
            let image = self.sized(size);
            self.image.set(&image);
            let (call, right) = (self.generator.call(place), Lengths::of(&image));
            let lengths = (0..=2 * size).chain(SIZES).filter(|length| call.lends_storage() && *length != size);
            for storage in lengths {
                self.refused(call, Lengths { storage, ..right })?;
            }
        }
        Ok(())
    }

    /// Settings of a size, with every set of faults: a wrong length, a bad field, no size, an attached storage.
    fn settings(&mut self) -> Result<(), String> {
        let sizes = SIZES
            .into_iter()
            .flat_map(|set| SIZES.map(|size| size as u64).into_iter().chain(NEAR).map(move |size| (set, size)));
        for ((set, size), faults) in sizes.flat_map(|sizes| (0..8).map(move |faults| (sizes, faults))) {
            let mut image = self.generator.image();
            image[IMAGE_TRANSFER..IMAGE_GRANTED_CYCLES].fill(0); // without a transfer it may be attached or not
            lay_size(&mut image, set);
            image[IMAGE_FLAGS] =
                (image[IMAGE_FLAGS] & !FLAG_ATTACHED) | if faults & 1 != 0 { FLAG_ATTACHED } else { 0 };
            image[IMAGE_DELAY] = if faults & 2 != 0 { 3 } else { 0 };
            self.image.set(&image);
            let lengths = Lengths { image: if faults & 4 != 0 { IMAGE - 1 } else { IMAGE }, ..Lengths::of(&image) };
            self.if_refused(Call::SetSize { size }, lengths)?;
        }
        Ok(())
    }

    /// The same as [`Self::refused`], of a call that may be accepted: then it is not made.
    fn if_refused(&mut self, call: Call, lengths: Lengths) -> Result<(), String> {
        let image = self.image.lend(lengths.image);
        match refusal(call, image, lengths.bus, lengths.storage) {
            0 => Ok(()),
            _ => self.refused(call, lengths),
        }
    }

    /// The lengths that an image had before, whatever is in it: what was laid down then, and anything else.
    fn earlier(&mut self) -> Result<(), String> {
        for _ in 0..BASES {
            let mut any = [0; EARLIER[1]];
            noise(&mut any, self.rng.word());
            for bytes in [earlier(&self.generator.image()), [0; EARLIER[1]], [0xFF; EARLIER[1]], any] {
                self.image.set(&bytes);
                for (place, image) in (0..NAMES.len()).flat_map(|place| EARLIER.map(|length| (place, length))) {
                    let call = self.generator.call(place);
                    self.refused(call, Lengths { image, bus: BUS, storage: STORAGE })?;
                }
            }
        }
        Ok(())
    }

    /// Lengths that only 64 bits tell from the right ones, with buffers that are really that long.
    fn huge_lengths(&mut self) -> Result<(), String> {
        let layout = Layout::array::<u8>(HUGE + STORAGE).expect("a layout of four gigabytes");
        // SAFETY: the layout is not empty; pages that nobody touches take no room.
        let start = unsafe { alloc_zeroed(layout) };
        if start.is_null() {
            println!("refusals: no room for lengths beyond 2^32: left out");
            return Ok(());
        }
        let mut done = Ok(());
        for (place, number) in (0..NAMES.len()).flat_map(|place| [1, 3, 4].map(|number| (place, number))) {
            let image = self.generator.image();
            self.image.set(&image);
            // SAFETY: so many bytes were allocated and set to 0, and nothing else points at them.
            let huge = unsafe { std::slice::from_raw_parts_mut(start, HUGE + STORAGE) };
            done = done.and_then(|()| self.huge_length(place, number, huge));
        }
        // SAFETY: allocated above with this layout.
        unsafe { dealloc(start, layout) };
        done
    }

    /// One call with a length 2^32 too large in the buffer that this refusal is about.
    fn huge_length(&mut self, place: usize, number: u32, huge: &mut [u8]) -> Result<(), String> {
        let call = self.generator.call(place);
        if (number == 3 && !call.lends_bus()) || (number == 4 && !call.lends_storage()) {
            return Ok(());
        }
        let image = self.image.lend(IMAGE);
        let size = size_of(image).expect("an accepted image has a size");
        let (bus, storage) = (self.bus.lend(BUS), self.storage.lend(size));
        let mut lent = Lent { image, bus, storage };
        match number {
            1 => lent.image = &mut huge[..HUGE + IMAGE],
            3 => lent.bus = &mut huge[..HUGE + BUS],
            _ => lent.storage = &mut huge[..HUGE + size],
        }
        self.calls += 1;
        let answer = self.port.call(call, lent);
        // Of so long a buffer both ends are looked at, half a megabyte each.
        let unchanged = self.unchanged() && huge[..STORAGE] == ZEROS && huge[HUGE..] == ZEROS;
        let what = match answer == number * REFUSAL {
            true if unchanged => return Ok(()),
            true => "is refused and changes a byte".into(),
            false => format!("answers {answer}, not refusal {number}"),
        };
        let image = &self.image.kept[MARGIN..MARGIN + IMAGE];
        Err(format!("{call} with a length 2^32 too large {what}; image {image:02x?}"))
    }

    /// One image, accepted or not, as all sixteen calls must see it.
    fn image(&mut self, image: &Image) -> Result<(), String> {
        self.image.set(image);
        if accepted(image) {
            return self.taken(image);
        }
        for place in 1..NAMES.len() {
            let call = self.generator.call(place);
            self.refused(call, Lengths::of(image))?;
        }
        self.new_on(image)
    }

    /// An accepted image is not refused. (What each call makes of it is compared with the original.)
    fn taken(&mut self, image: &Image) -> Result<(), String> {
        let Lengths { bus, storage, .. } = Lengths::of(image);
        let (lent, bus, storage) = (self.image.lend(IMAGE), self.bus.lend(bus), self.storage.lend(storage));
        let answer = self.port.call(Call::DmaActive, Lent { image: lent, bus, storage });
        self.calls += 1;
        if answer == u32::from(image[IMAGE_TRANSFER]) {
            return Ok(());
        }
        Err(format!("dma_active answers {answer}; accepted image {image:02x?}"))
    }

    /// `new` takes any bytes of an image's length and leaves the same image as ever.
    fn new_on(&mut self, image: &Image) -> Result<(), String> {
        let mut made = [[0; IMAGE], *image];
        for image in &mut made {
            let (bus, storage) = (self.bus.lend(BUS), self.storage.lend(STORAGE));
            if self.port.call(Call::New, Lent { image, bus, storage }) != 0 {
                return Err(format!("new refuses the image {image:02x?}"));
            }
        }
        self.calls += 2;
        if made[0] == made[1] { Ok(()) } else { Err(format!("new on {image:02x?} leaves {:02x?}", made[1])) }
    }

    /// Every value of STATUS, which has the size's mark, and of every byte behind the shadows, whether it has a range or is
    /// the count's, from several accepted images of each size; then several bytes at once.
    fn fields(&mut self) -> Result<(), String> {
        for size in (0..BASES).map(|base| SIZES[base % SIZES.len()]) {
            let base = self.sized(size);
            let places = [register(STATUS)].into_iter().chain(IMAGE_FLAGS..IMAGE);
            for (at, value) in places.flat_map(|at| (0..=255).map(move |value| (at, value))) {
                let mut image = base;
                image[at] = value;
                self.image(&image)?;
            }
        }
        for _ in 0..ROUNDS {
            let mut image = self.generator.image();
            for _ in 0..=self.rng.below(3) {
                let at = IMAGE_FLAGS + self.rng.below(IMAGE - IMAGE_FLAGS);
                image[at] = self.rng.pick(&[0, 1, 2, 3, 4, 0x20, 0x40, 0x80, 0xFF]);
            }
            self.image(&image)?;
        }
        self.crossed_fields()
    }

    /// The rules that join two fields, each broken alone.
    fn crossed_fields(&mut self) -> Result<(), String> {
        for _ in 0..ROUNDS {
            let mut image = self.generator.image();
            match self.rng.below(4) {
                0 => image[register(STATUS)] ^= STATUS_VERSION,
                _ if image[IMAGE_TRANSFER] == 0 => continue,
                1 => image[IMAGE_FLAGS] &= !FLAG_ATTACHED,
                2 => image[IMAGE_PHASE] ^= 1,
                _ => image[IMAGE_TRANSFER_FLAGS] ^= TRANSFER_TAIL,
            }
            self.image(&image)?;
        }
        self.tails()
    }

    /// A tail asks for one byte that is left; without a tail any number may be.
    fn tails(&mut self) -> Result<(), String> {
        for kind in (0..BASES).flat_map(|_| [VERIFY, STORE]) {
            let mut image = self.generator.transfer(kind);
            for remaining in [1, 2, 255, 256, 257, 65_535, 65_536] {
                set_remaining(&mut image, remaining);
                self.image(&image)?;
                image[IMAGE_TRANSFER_FLAGS] ^= TRANSFER_TAIL;
                self.image(&image)?;
                image[IMAGE_TRANSFER_FLAGS] ^= TRANSFER_TAIL;
            }
        }
        Ok(())
    }

    /// Any set of faults at once: the lowest number that the call tests is the answer.
    fn faults(&mut self, call: Call, faults: usize) -> Result<(), String> {
        let mut image = self.generator.image();
        if faults & 2 != 0 {
            let sized = [
                (IMAGE_MORE_FLAGS, 0x0C),
                (IMAGE_MORE_FLAGS, 0x10),
                (register(STATUS), image[register(STATUS)] ^ STATUS_VERSION),
            ];
            let before = [(IMAGE_MORE_FLAGS, 0x80), (IMAGE_DELAY, 3), (IMAGE_TRANSFER, 2)];
            let within = [(IMAGE_TRANSFER_FLAGS, 0x40), (IMAGE_PHASE, 2), (IMAGE_TYPE, 4)];
            let (at, value) = self.rng.pick(&[sized, before, within].concat());
            image[at] = value;
        }
        self.image.set(&image);
        let near = |rng: &mut Rng, right: usize| rng.pick(&[0, 1, right - 1, right + 1, right / 2, right * 2]);
        let right = Lengths::of(&image);
        let mut lengths = right;
        if faults & 1 != 0 {
            lengths.image = near(&mut self.rng, IMAGE);
        }
        if faults & 4 != 0 {
            lengths.bus = near(&mut self.rng, BUS);
        }
        if faults & 8 != 0 {
            lengths.storage = near(&mut self.rng, right.storage);
        }
        // What a call is not lent has its right length: nothing could be said about it.
        lengths.bus = if call.lends_bus() { lengths.bus } else { right.bus };
        lengths.storage = if call.lends_storage() { lengths.storage } else { right.storage };
        self.if_refused(call, lengths)
    }

    /// All of it.
    pub fn run(&mut self) -> Result<(), String> {
        for _ in 0..ROUNDS {
            for faults in 1..16 {
                let call = self.any_call();
                self.faults(call, faults)?;
            }
        }
        self.settings()?;
        self.fields()?;
        self.earlier()?;
        self.huge_lengths()?;
        self.lengths()?;
        self.storage_lengths()?;
        if self.unchanged() { Ok(()) } else { Err("a refused call has changed a byte".into()) }
    }
}

impl<P: Port> Refuser for Refusals<P> {
    fn refuse(&mut self, image: &Image) -> Result<(), String> {
        let call = self.any_call();
        self.image.set(image);
        let right = Lengths::of(image);
        let lengths = match self.rng.below(3) {
            0 if call.lends_bus() => Lengths { bus: self.rng.below(BUS), ..right },
            1 if call.lends_storage() => Lengths { storage: self.rng.below(right.storage), ..right },
            _ => Lengths { image: self.rng.below(IMAGE), ..right },
        };
        self.refused(call, lengths)
    }
}
