//! A call made by both programs on buffers of their own, and everything compared.

use super::call::{Call, Lending, PROVED, SECOND};
use second::image::IMAGE_LENGTH;
use second::plan::SLOT;

/// Bytes before and after each buffer, which no call may touch.
const GUARD: usize = 64;
/// How far a buffer may stand from where it is aligned best.
pub const SHIFTS: usize = 16;

/// A buffer that is lent, in the midst of other bytes.
struct Lent {
    bytes: Vec<u8>,
    start: usize,
    length: usize,
}

impl Lent {
    fn new(most: usize) -> Self {
        Lent { bytes: vec![0; GUARD + SHIFTS + most + GUARD], start: GUARD, length: 0 }
    }

    fn place(&mut self, shift: usize, length: usize) {
        (self.start, self.length) = (GUARD + shift, length);
    }

    fn lent(&self) -> &[u8] {
        &self.bytes[self.start..self.start + self.length]
    }

    fn lend(&mut self) -> &mut [u8] {
        &mut self.bytes[self.start..self.start + self.length]
    }

    /// The buffer and the bytes around it.
    fn around(&self) -> &[u8] {
        &self.bytes[self.start - GUARD..self.start + self.length + GUARD]
    }

    /// The first byte that differs, counted from the buffer's first; below 0 and from its length on it is one around it.
    fn differs(&self, other: &Lent) -> Option<(isize, u8, u8)> {
        let (ours, theirs) = (self.around(), other.around());
        if ours == theirs {
            return None;
        }
        let at = ours.iter().zip(theirs).position(|(one, two)| one != two)?;
        Some((at as isize - GUARD as isize, ours[at], theirs[at]))
    }
}

/// The buffers that one program is lent.
struct Side {
    image: Lent,
    input: Lent,
    reply: Lent,
    second_input: Lent,
    data: Lent,
}

/// The longest row of slots.
pub const LONGEST_PACKETS: usize = 8 * SLOT;
/// The longest image of the SEEPROM, and the longest second buffer.
pub const LONGEST_SEEPROM: usize = 70_000;

impl Side {
    fn new(longest: usize) -> Self {
        Side {
            image: Lent::new(2 * IMAGE_LENGTH),
            input: Lent::new(longest.max(LONGEST_PACKETS)),
            reply: Lent::new(longest),
            second_input: Lent::new(LONGEST_SEEPROM),
            data: Lent::new(LONGEST_SEEPROM),
        }
    }
}

/// What differs after a call.
#[derive(Clone, Copy)]
pub enum Difference {
    Result { proved: u32, second: u32 },
    Image { at: isize, proved: u8, second: u8 },
    Input { at: isize, proved: u8, second: u8 },
    Reply { at: isize, proved: u8, second: u8 },
    SecondInput { at: isize, proved: u8, second: u8 },
    Data { at: isize, proved: u8, second: u8 },
}

impl Difference {
    pub fn text(&self) -> String {
        let byte = |name: &str, at: isize, proved: u8, second: u8| {
            format!("byte {at} of the {name}: proved {proved:02X}, second {second:02X}")
        };
        match *self {
            Difference::Result { proved, second } => {
                format!("result: proved {proved:08X}, second {second:08X}")
            }
            Difference::Image { at, proved, second } => byte("image", at, proved, second),
            Difference::Input { at, proved, second } => byte("command or packets", at, proved, second),
            Difference::Reply { at, proved, second } => byte("reply buffer or order", at, proved, second),
            Difference::SecondInput { at, proved, second } => {
                byte("SEEPROM's image or the proposal", at, proved, second)
            }
            Difference::Data { at, proved, second } => byte("second buffer", at, proved, second),
        }
    }
}

/// Both programs' buffers. They hold the same bytes as long as no difference is found.
pub struct Pair {
    proved: Side,
    second: Side,
}

impl Pair {
    /// For commands and reply buffers of at most that length.
    pub fn new(longest: usize) -> Self {
        Pair { proved: Side::new(longest), second: Side::new(longest) }
    }

    pub fn load(&mut self, image: &[u8], shift: usize) {
        for side in [&mut self.proved, &mut self.second] {
            side.image.place(shift, image.len());
            side.image.lend().copy_from_slice(image);
        }
    }

    /// Fills the reply buffers and what stands around them and the images, so that a byte that is written shows.
    pub fn paint(&mut self, around_image: bool, paint: u8) {
        for side in [&mut self.proved, &mut self.second] {
            side.reply.bytes.fill(paint);
            side.data.bytes.fill(paint);
            if around_image {
                let end = side.image.start + side.image.length;
                side.image.bytes[..side.image.start].fill(paint);
                side.image.bytes[end..].fill(paint);
            }
        }
    }

    pub fn image(&self) -> &[u8] {
        self.second.image.lent()
    }

    /// The second program's, as long as both are the same.
    pub fn reply(&self) -> &[u8] {
        self.second.reply.lent()
    }

    /// Makes the call by both, with command and reply buffer that far from where they are aligned best.
    pub fn make(&mut self, call: &Call, shift: usize) -> Result<u32, Difference> {
        let [proved, second] =
            [(&mut self.proved, PROVED), (&mut self.second, SECOND)].map(|(side, library)| {
                side.input.place(shift, call.input().len());
                side.input.lend().copy_from_slice(call.input());
                side.reply.place(shift, call.room());
                side.second_input.place(shift, call.second_input().len());
                side.second_input.lend().copy_from_slice(call.second_input());
                side.data.place(shift, call.data_room());
                let lent = Lending {
                    image: side.image.lend(),
                    input: side.input.lent(),
                    reply: side.reply.lend(),
                    second_input: side.second_input.lent(),
                    data: side.data.lend(),
                };
                call.make(&library, lent)
            });
        let (one, two) = (&self.proved, &self.second);
        if proved != second {
            return Err(Difference::Result { proved, second });
        }
        if let Some((at, proved, second)) = one.reply.differs(&two.reply) {
            return Err(Difference::Reply { at, proved, second });
        }
        if let Some((at, proved, second)) = one.data.differs(&two.data) {
            return Err(Difference::Data { at, proved, second });
        }
        if let Some((at, proved, second)) = one.second_input.differs(&two.second_input) {
            return Err(Difference::SecondInput { at, proved, second });
        }
        if let Some((at, proved, second)) = one.image.differs(&two.image) {
            return Err(Difference::Image { at, proved, second });
        }
        match one.input.differs(&two.input) {
            Some((at, proved, second)) => Err(Difference::Input { at, proved, second }),
            None => Ok(proved),
        }
    }
}
