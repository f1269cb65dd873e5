//! The image: its check, its bits, a frame taken at a bit, the phrase walk.

use crate::frame::*;
use crate::numbers::*;
use crate::rate::*;

// 01: "image length 0 or above 262,144".
const MOST_IMAGE_BYTES: i64 = 262_144;

/// 01: "IMAGE | image length 0 or above 262,144".
pub fn image_refusal(image: &[u8]) -> i64 {
    if length(image) == 0 {
        return IMAGE;
    }
    if length(image) > MOST_IMAGE_BYTES {
        return IMAGE;
    }
    TAKEN
}

pub fn length(bytes: &[u8]) -> i64 {
    bytes.len() as i64
}

/// The image's end as a position in bits.
/// 01: "The position counts bits".
pub fn end(image: &[u8]) -> i64 {
    BYTE * length(image)
}

/// A byte of the image.
/// 01: "Bytes follow on across 16,384-byte chips."
/// No rule asks for a byte outside the image; 0 stands there so that no
/// altered rule can make the program fall.
pub fn byte_at(image: &[u8], address: i64) -> i64 {
    match usize::try_from(address) {
        Ok(place) => image.get(place).map_or(0, |byte| i64::from(*byte)),
        Err(_) => 0,
    }
}

/// 01: "Bits leave a byte most significant first".
pub fn rom_bit(image: &[u8], position: i64) -> i64 {
    bit_of_byte(byte_at(image, floor(position, BYTE)), position.rem_euclid(BYTE))
}

/// The whole frame at a position of the image with its width, or its cut.
/// A cut one begins at that position, a bit of the image (D 106).
/// 4: "begun at the position the walk or step had reached, even past the
/// image's end."
pub fn rom_frame(image: &[u8], position: i64, v: i64) -> Result<(Frame, i64), Cut> {
    take_frame(&|at| rom_bit(image, at), position, end(image), v)
}

/// 01: "A refused call returns [..] zero for each number, no frame".
pub struct FrameTaken {
    pub refusal: i64,
    pub bits: i64,
    pub frame: Frame,
    pub cut: Cut,
}

fn frame_refused(refusal: i64) -> FrameTaken {
    FrameTaken { refusal, bits: 0, frame: NO_FRAME, cut: NO_CUT }
}

/// "a frame taken at a bit": 01, "The module". On the TMS5220 no frame has
/// rate bits.
/// The order of checks is 3, then 2, then 10 (D 49).
pub fn frame_at(image: &[u8], bit: i64) -> FrameTaken {
    rated_frame_at(image, 0, bit)
}

/// 5: "[is told], a frame taken at a bit v (4 if out of range)".
/// The order of checks is 3, 4, then 2, then 10 (D 72).
pub fn rated_frame_at(image: &[u8], v: i64, bit: i64) -> FrameTaken {
    let refusal = first_refusal(&[
        &|| image_refusal(image),
        &|| told_v_refusal(v),
        &|| frame_beyond(image, bit),
    ]);
    if refusal != TAKEN {
        return frame_refused(refusal);
    }
    match rom_frame(image, bit, v) {
        Ok((frame, bits)) => FrameTaken { refusal: TAKEN, bits, frame, cut: NO_CUT },
        Err(cut) => frame_cut(cut),
    }
}

/// 01: "NO PHRASE | [..] frame taken: the bits end inside it".
/// 4: "This amends document 01's zeros for number 10". No other number's
/// (D 67).
fn frame_cut(cut: Cut) -> FrameTaken {
    FrameTaken { cut, ..frame_refused(NO_PHRASE) }
}

/// 01: "BEYOND | [..] frame taken at a bit at or past its end".
fn frame_beyond(image: &[u8], bit: i64) -> i64 {
    if bit >= end(image) {
        return BEYOND;
    }
    TAKEN
}

/// 01: "the number of bits and of frames, and the duration in frames,
/// intervals (8 each) and samples (200 each)", and the part as two places of
/// the image, first byte and byte after the last.
pub struct Walked {
    pub refusal: i64,
    pub bits: i64,
    pub frames: i64,
    pub intervals: i64,
    pub samples: i64,
    pub part_from: i64,
    pub part_to: i64,
    pub cut: Cut,
}

/// 01: "A refused call returns [..] zero for each number, [..] and an empty
/// part."
fn walk_refused(refusal: i64) -> Walked {
    Walked { refusal, bits: 0, frames: 0, intervals: 0, samples: 0, part_from: 0, part_to: 0, cut: NO_CUT }
}

/// 01: "NO PHRASE | walk: the bits end before a stop".
/// 4: "The walk passes both on". "This amends document 01's zeros for number
/// 10".
fn walk_cut(cut: Cut) -> Walked {
    Walked { cut, ..walk_refused(NO_PHRASE) }
}

/// "a phrase walk over an image": 01, "The module". On the TMS5220 each frame
/// is a long one.
pub fn walk(image: &[u8], address: i64) -> Walked {
    rated_walk(image, 0, 0, address)
}

/// 5: "The walk is told v and rr [..] (4 if out of range), and durations follow
/// the rates." 4 comes after 3 and ahead of 2 (D 72).
pub fn rated_walk(image: &[u8], v: i64, rr: i64, address: i64) -> Walked {
    let refusal = first_refusal(&[
        &|| image_refusal(image),
        &|| told_rates_refusal(v, rr),
        &|| walk_beyond(image, address),
    ]);
    if refusal != TAKEN {
        return walk_refused(refusal);
    }
    // 01: "The walk starts at a byte address".
    let start = BYTE * address;
    let mut at = start;
    let mut frames = 0;
    let mut intervals = 0;
    loop {
        let (frame, bits) = match rom_frame(image, at, v) {
            Ok(whole) => whole,
            Err(cut) => return walk_cut(cut),
        };
        at += bits;
        frames += 1;
        // 01: "intervals (8 each)"; 5: "durations follow the rates".
        intervals += intervals_of(frame_rate(v, rr, &frame));
        if frame.kind == STOP {
            break;
        }
    }
    // 01: "samples (200 each)": 25 samples to each interval.
    let samples = intervals * SAMPLES_PER_INTERVAL;
    Walked {
        refusal: TAKEN,
        bits: at - start,
        frames,
        intervals,
        samples,
        part_from: address,
        part_to: byte_of_last_bit(at) + 1,
        cut: NO_CUT,
    }
}

/// 01: "BEYOND | [..] walk from an address at or past the image's length".
fn walk_beyond(image: &[u8], address: i64) -> i64 {
    if address >= length(image) {
        return BEYOND;
    }
    TAKEN
}

/// 01: "through the byte with the stop's last bit".
/// `after` is the position after that bit.
fn byte_of_last_bit(after: i64) -> i64 {
    floor(after - 1, BYTE)
}
