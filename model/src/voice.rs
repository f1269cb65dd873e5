//! The voice file: its check and its tables.

use crate::frame::K_BITS;
use crate::numbers::*;
use crate::rom::{byte_at, length};

// 01: "Two bytes length of what follows, big-endian; version 1; 15 energies,
// 64 pitches, 168 K values (K1 first), two bytes each, big-endian; a pulse
// count; that many signed bytes."
const LENGTH_AT: i64 = 0;
const VERSION_AT: i64 = 2;
const ENERGIES_AT: i64 = 3;
const ENERGIES: i64 = 15;
const PITCHES_AT: i64 = ENERGIES_AT + 2 * ENERGIES;
const PITCHES: i64 = 64;
const K_AT: i64 = PITCHES_AT + 2 * PITCHES;
const K_VALUES: i64 = 168;
const COUNT_AT: i64 = K_AT + 2 * K_VALUES;
const PULSES_AT: i64 = COUNT_AT + 1;

// 01: "file under 499 or over 562 bytes".
const LEAST_SIZE: i64 = 499;
const MOST_SIZE: i64 = 562;

/// "a check of a voice file": 01, "The module".
/// 01: "Order of checks: 3, 5, 6, 7, 8, 9". It answers the number alone (D 54).
pub fn voice_refusal(file: &[u8]) -> i64 {
    first_refusal(&[
        &|| size_refusal(file),
        &|| length_refusal(file),
        &|| version_refusal(file),
        &|| value_refusal(file),
        &|| pulse_refusal(file),
    ])
}

/// 01: "VOICE SIZE | file under 499 or over 562 bytes".
fn size_refusal(file: &[u8]) -> i64 {
    if length(file) < LEAST_SIZE {
        return VOICE_SIZE;
    }
    if length(file) > MOST_SIZE {
        return VOICE_SIZE;
    }
    TAKEN
}

/// 01: "VOICE LENGTH | length field is not size minus 2".
fn length_refusal(file: &[u8]) -> i64 {
    if length_field(file) != length(file) - 2 {
        return VOICE_LENGTH;
    }
    TAKEN
}

/// 01: "VOICE VERSION | version byte is not 1".
fn version_refusal(file: &[u8]) -> i64 {
    if byte_at(file, VERSION_AT) != 1 {
        return VOICE_VERSION;
    }
    TAKEN
}

/// 01: "VOICE VALUE | a table value out of range".
fn value_refusal(file: &[u8]) -> i64 {
    let energies = (0..ENERGIES).all(|i| energy_holds(i, energy(file, i)));
    let pitches = (0..PITCHES).all(|i| pitch_holds(i, pitch(file, i)));
    let ks = (0..K_VALUES).all(|i| k_holds(k_value(file, i)));
    if energies && pitches && ks {
        return TAKEN;
    }
    VOICE_VALUE
}

/// 01: "VOICE PULSE | pulse count 0, over 64, or length field not
/// 496 + count". (D 53)
fn pulse_refusal(file: &[u8]) -> i64 {
    let count = pulse_count(file);
    if count == 0 {
        return VOICE_PULSE;
    }
    if count > 64 {
        return VOICE_PULSE;
    }
    if length_field(file) != 496 + count {
        return VOICE_PULSE;
    }
    TAKEN
}

/// 01: "Energy 0..1023, the first 0."
fn energy_holds(index: i64, value: i64) -> bool {
    if index == 0 {
        return value == 0;
    }
    (0..=1023).contains(&value)
}

/// 01: "Pitch 1..1023, but the first 0."
fn pitch_holds(index: i64, value: i64) -> bool {
    if index == 0 {
        return value == 0;
    }
    (1..=1023).contains(&value)
}

/// 01: "K in two's complement, -512..511."
fn k_holds(value: i64) -> bool {
    (-512..=511).contains(&value)
}

/// 01: "two bytes each, big-endian".
fn two_bytes(file: &[u8], at: i64) -> i64 {
    256 * byte_at(file, at) + byte_at(file, at + 1)
}

/// 01: "Two bytes length of what follows, big-endian".
fn length_field(file: &[u8]) -> i64 {
    two_bytes(file, LENGTH_AT)
}

fn energy(file: &[u8], index: i64) -> i64 {
    two_bytes(file, ENERGIES_AT + 2 * index)
}

fn pitch(file: &[u8], index: i64) -> i64 {
    two_bytes(file, PITCHES_AT + 2 * index)
}

/// 01: "K in two's complement".
fn k_value(file: &[u8], index: i64) -> i64 {
    twos_complement(two_bytes(file, K_AT + 2 * index), 65_536)
}

fn pulse_count(file: &[u8]) -> i64 {
    byte_at(file, COUNT_AT)
}

/// 01: "that many signed bytes."
fn pulse(file: &[u8], index: i64) -> i64 {
    twos_complement(byte_at(file, PULSES_AT + index), 256)
}

fn twos_complement(value: i64, modulus: i64) -> i64 {
    if value >= modulus / 2 {
        value - modulus
    } else {
        value
    }
}

/// What a frame's indexes mean. Made only from a file that the check takes.
pub struct Tables {
    energies: Vec<i64>,
    pitches: Vec<i64>,
    ks: Vec<i64>,
    pulses: Vec<i64>,
}

pub fn tables(file: &[u8]) -> Tables {
    Tables {
        energies: (0..ENERGIES).map(|i| energy(file, i)).collect(),
        pitches: (0..PITCHES).map(|i| pitch(file, i)).collect(),
        ks: (0..K_VALUES).map(|i| k_value(file, i)).collect(),
        pulses: (0..pulse_count(file)).map(|i| pulse(file, i)).collect(),
    }
}

impl Tables {
    pub fn energy(&self, index: i64) -> i64 {
        entry(&self.energies, index)
    }

    pub fn pitch(&self, index: i64) -> i64 {
        entry(&self.pitches, index)
    }

    /// 01: "168 K values (K1 first)". Each K has as many values as its index
    /// can tell apart (004, table 3: 32, 32, 16, 16, 16, 16, 16, 8, 8, 8).
    pub fn k(&self, number: usize, index: i64) -> i64 {
        let before: i64 = (1..number).map(|i| 1 << K_BITS[i]).sum();
        entry(&self.ks, before + index)
    }

    /// 01: "the pulse table at the pulse place, 0 past its end".
    pub fn pulse(&self, place: i64) -> i64 {
        entry(&self.pulses, place)
    }
}

/// An entry of a table, 0 past its end.
fn entry(table: &[i64], index: i64) -> i64 {
    match usize::try_from(index) {
        Ok(place) => table.get(place).copied().unwrap_or(0),
        Err(_) => 0,
    }
}
