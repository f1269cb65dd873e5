//! The bits of a frame.

use crate::numbers::*;

// trace: "Kinds: 0 none, 1 silence, 2 stop, 3 repeat, 4 unvoiced, 5 voiced."
pub const NONE: i64 = 0;
pub const SILENCE: i64 = 1;
pub const STOP: i64 = 2;
pub const REPEAT: i64 = 3;
pub const UNVOICED: i64 = 4;
pub const VOICED: i64 = 5;

// 01: "Energy 4 bits, repeat 1, pitch 6,"
pub const ENERGY_BITS: i64 = 4;
pub const REPEAT_BITS: i64 = 1;
pub const PITCH_BITS: i64 = 6;
// 01: "K1 to K10: 5,5,4,4,4,4,4,3,3,3". Place 0 is unused, so that Ki is at i.
pub const K_BITS: [i64; 11] = [0, 5, 5, 4, 4, 4, 4, 4, 3, 3, 3];
// 5: "two rate bits".
pub const RATE_BITS: i64 = 2;

/// A kind and its indexes. K1..K10 stand at 1..10, place 0 is unused.
/// trace: "an index that the kind doesn't carry is 0 (a stop's energy is 15).
/// No frame: thirteen zeros." (D 50)
/// The rate is 0 where the bits have none (D 71).
#[derive(Clone, Copy, PartialEq, Debug)]
pub struct Frame {
    pub kind: i64,
    pub energy: i64,
    pub pitch: i64,
    pub k: [i64; 11],
    pub rate: i64,
}

pub const NO_FRAME: Frame = Frame { kind: NONE, energy: 0, pitch: 0, k: [0; 11], rate: 0 };

/// A frame whose bits run out.
/// 4: "at which bit the frame began and how many bits are missing".
#[derive(Clone, Copy, PartialEq, Debug)]
pub struct Cut {
    pub begun: i64,
    pub missing: i64,
}

/// trace: "else `0 0`".
pub const NO_CUT: Cut = Cut { begun: 0, missing: 0 };

/// Where a frame's bits come from: the bit at a place, and the place after
/// the last bit.
struct Taker<'a> {
    bit: &'a dyn Fn(i64) -> i64,
    at: i64,
    end: i64,
}

impl Taker<'_> {
    /// The next field, or none if the bits end before its last bit.
    fn next(&mut self, width: i64) -> Option<i64> {
        if self.at + width > self.end {
            return None;
        }
        let value = field(self.bit, self.at, width);
        self.at += width;
        Some(value)
    }
}

/// 01: "the first bit of a field is its most significant."
pub fn field(bit: &dyn Fn(i64) -> i64, at: i64, width: i64) -> i64 {
    let mut value = 0;
    for i in 0..width {
        value = 2 * value + bit(at + i);
    }
    value
}

/// A bit of a byte.
/// `from_top` 0 is the most significant.
pub fn bit_of_byte(byte: i64, from_top: i64) -> i64 {
    floor(byte, 1 << (BYTE - 1 - from_top)).rem_euclid(2)
}

/// 01: "A frame is taken whole or refused."
/// The frame that begins at `start` and its width in bits, or its cut if the
/// bits end inside it or before its first bit (D 38). The rate bits, if there
/// are any, count (D 107).
pub fn take_frame(bit: &dyn Fn(i64) -> i64, start: i64, end: i64, v: i64) -> Result<(Frame, i64), Cut> {
    let mut taker = Taker { bit, at: start, end };
    let Some(frame) = fields(&mut taker, v) else {
        return Err(cut(bit, start, end, v));
    };
    Ok((frame, taker.at - start))
}

/// 4: "When a frame's bits run out, the frame reader also tells at which bit
/// the frame began and how many bits are missing". The rate bits are the
/// frame's first.
fn cut(bit: &dyn Fn(i64) -> i64, start: i64, end: i64, v: i64) -> Cut {
    let present = present_bits(start, end);
    Cut { begun: start, missing: expected_bits(bit, start, present, v) - present }
}

/// How many bits of a cut frame are there.
/// 4: "A ROM frame with no bit present [..], even past the image's end."
fn present_bits(start: i64, end: i64) -> i64 {
    (end - start).max(0)
}

/// How many bits a cut frame should have had, as far as its present ones tell.
fn expected_bits(bit: &dyn Fn(i64) -> i64, start: i64, present: i64, v: i64) -> i64 {
    let more = more_expected(v);
    // 4: "a cut energy lacks bits up to 4". So does one of which no bit is
    // there: "[it] is a cut energy, 4 missing".
    if present < 4 + more {
        return 4 + more;
    }
    // 4: "a cut repeat or pitch lacks bits up to 11". Whatever the repeat bit
    // says (D 69).
    if present < 11 + more {
        return 11 + more;
    }
    // 4: "later the kind is known."
    known_bits(bit, start + more) + more
}

/// 5: "With v = 1 the bits that §4 expects grow by two."
fn more_expected(v: i64) -> i64 {
    if v == 1 {
        return 2;
    }
    0
}

/// The bits of a frame that is cut behind its pitch. `energy_at` is the place
/// of its energy; the pitch stands behind that and the repeat bit. A silence, a
/// stop and a repeat frame are whole there.
fn known_bits(bit: &dyn Fn(i64) -> i64, energy_at: i64) -> i64 {
    let pitch = field(bit, energy_at + ENERGY_BITS + REPEAT_BITS, PITCH_BITS);
    // 01: "unvoiced | other energy, repeat 0, pitch 0; K1 to K4 | 29"
    if pitch == 0 {
        return 29;
    }
    // 01: "voiced | other energy, repeat 0, pitch not 0 | 50"
    50
}

/// 5: "with v = 1 every frame, silence and stop included, starts with two rate
/// bits".
fn take_rate(taker: &mut Taker, v: i64) -> Option<i64> {
    if v == 1 {
        return taker.next(RATE_BITS);
    }
    Some(0)
}

fn fields(taker: &mut Taker, v: i64) -> Option<Frame> {
    let mut frame = NO_FRAME;
    frame.rate = take_rate(taker, v)?;
    frame.energy = taker.next(ENERGY_BITS)?;
    // 01: "silence | energy 0 | 4"
    if frame.energy == 0 {
        frame.kind = SILENCE;
        return Some(frame);
    }
    // 01: "stop | energy 15 | 4"
    if frame.energy == 15 {
        frame.kind = STOP;
        return Some(frame);
    }
    let repeat = taker.next(REPEAT_BITS)?;
    frame.pitch = taker.next(PITCH_BITS)?;
    // 01: "repeat | other energy, repeat 1, any pitch | 11"
    if repeat == 1 {
        frame.kind = REPEAT;
        return Some(frame);
    }
    // 01: "unvoiced | other energy, repeat 0, pitch 0; K1 to K4 | 29" (D 5)
    if frame.pitch == 0 {
        frame.kind = UNVOICED;
        take_k(taker, &mut frame, 4)?;
        return Some(frame);
    }
    // 01: "voiced | other energy, repeat 0, pitch not 0 | 50"
    frame.kind = VOICED;
    take_k(taker, &mut frame, 10)?;
    Some(frame)
}

/// K1 to the K named last, in this order.
fn take_k(taker: &mut Taker, frame: &mut Frame, last: usize) -> Option<()> {
    for i in 1..=last {
        frame.k[i] = taker.next(K_BITS[i])?;
    }
    Some(())
}
