//! Refusal numbers and device numbers. Every number is an i64.
//!
//! In all files: `01:` stands before words of document 01, `3:`, `4:`, `5:`,
//! `6:`, `9:`, `10:` and `12:` before words of document 02's §3, §4, §5, §6, §9,
//! §10 and §12, `D n` is a number of the list of decisions, `trace:` stands
//! before words of the trace format.

// 01: "Refusal numbers", column "No." and column "Name".
pub const TAKEN: i64 = 0;
pub const WAIT: i64 = 1;
pub const BEYOND: i64 = 2;
pub const IMAGE: i64 = 3;
pub const STATE: i64 = 4;
pub const VOICE_SIZE: i64 = 5;
pub const VOICE_LENGTH: i64 = 6;
pub const VOICE_VERSION: i64 = 7;
pub const VOICE_VALUE: i64 = 8;
pub const VOICE_PULSE: i64 = 9;
pub const NO_PHRASE: i64 = 10;

// 01: "Modes: idle, speaking from ROM, external waiting, external speaking."
// trace: "mode: 0 idle, 1 speaking from ROM, 2 external waiting,
// 3 external speaking".
pub const IDLE: i64 = 0;
pub const ROM: i64 = 1;
pub const WAITING: i64 = 2;
pub const EXTERNAL: i64 = 3;

// 01: "Each step reports its frame, if any, and one of: nothing, frame,
// stop, ran out."
// trace: "0 nothing, 1 frame, 2 stop, 3 ran out".
pub const NOTHING: i64 = 0;
pub const FRAME: i64 = 1;
pub const STOPPED: i64 = 2;
pub const RAN_OUT: i64 = 3;

// 5: "The 5220C."
// trace: "device: 0 TMS5220, 1 TMS5220C".
pub const TMS5220: i64 = 0;
pub const TMS5220C: i64 = 1;

// 9: "a bit order for the FIFO". There are two (D 84).
// trace: "Order 0 is least significant bit first, 1 most significant first."
pub const LEAST_FIRST: i64 = 0;
pub const MOST_FIRST: i64 = 1;

// 01: "25 samples make an interval, 8 intervals a frame".
pub const SAMPLES_PER_INTERVAL: i64 = 25;
pub const INTERVALS_PER_FRAME: i64 = 8;

// 01: "each byte goes to the FIFO (16 bytes)".
pub const FIFO_BYTES: i64 = 16;

/// Bits in a byte.
pub const BYTE: i64 = 8;

/// 01: "Order of checks: 3, 5, 6, 7, 8, 9, 4, then 1, then 2 or 10, as far as
/// the call has these inputs."
/// The caller lists its checks in this order; the first that refuses gives
/// the number, and the later ones are not asked (D 4).
pub fn first_refusal(checks: &[&dyn Fn() -> i64]) -> i64 {
    for check in checks {
        let refusal = check();
        if refusal != TAKEN {
            return refusal;
        }
    }
    TAKEN
}

/// The floor of a quotient by a positive divisor, for all numerators.
pub fn floor(numerator: i64, divisor: i64) -> i64 {
    numerator.div_euclid(divisor)
}
