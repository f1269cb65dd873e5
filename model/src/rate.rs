//! The frame rates of the TMS5220C: v and rr, their ranges, what a rate means.

use crate::frame::Frame;
use crate::numbers::*;

/// 5: "v 0..1".
pub fn v_holds(v: i64) -> bool {
    (0..=1).contains(&v)
}

/// 5: "rr 0..3". Also with v = 1, where no frame goes by it (D 70, D 107).
pub fn rr_holds(rr: i64) -> bool {
    (0..=3).contains(&rr)
}

/// 5: "[is told], a frame taken at a bit v (4 if out of range)".
pub fn told_v_refusal(v: i64) -> i64 {
    if v_holds(v) {
        return TAKEN;
    }
    STATE
}

/// 5: "The walk is told v and rr [..] (4 if out of range)".
pub fn told_rates_refusal(v: i64, rr: i64) -> i64 {
    if v_holds(v) && rr_holds(rr) {
        return TAKEN;
    }
    STATE
}

/// 5: "Load Frame Rate, byte x0x0xvrr".
pub fn v_of_byte(byte: i64) -> i64 {
    floor(byte, 4).rem_euclid(2)
}

pub fn rr_of_byte(byte: i64) -> i64 {
    byte.rem_euclid(4)
}

/// The rate that a frame goes by.
/// 5: "With v = 0 the rate rr holds until changed; with v = 1 every frame [..]
/// starts with two rate bits".
pub fn frame_rate(v: i64, rr: i64, frame: &Frame) -> i64 {
    if v == 1 {
        return frame.rate;
    }
    rr
}

/// 5: "A shorter frame skips the first 0, 2, 4 or 6 intervals".
pub fn skipped_intervals(rate: i64) -> i64 {
    2 * rate
}

/// 5: "Rates 00, 01, 10, 11 mean 200, 150, 100 and 50 samples a frame." These
/// are 8, 6, 4 and 2 intervals.
pub fn intervals_of(rate: i64) -> i64 {
    INTERVALS_PER_FRAME - skipped_intervals(rate)
}
