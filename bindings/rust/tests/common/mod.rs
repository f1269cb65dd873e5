//! What the tests speak.
use std::{fs, path::Path};

/// A phrase with frames of all kinds, in 15 bytes.
pub const ALL_KINDS: &str = "../../crates/lister/stdin";

pub fn file(path: &str) -> Vec<u8> {
    fs::read(Path::new(env!("CARGO_MANIFEST_DIR")).join(path)).unwrap()
}

pub fn voice() -> Vec<u8> {
    file("../../voices/tms5220.voice")
}

/// Bytes of these fields, each a number and its width in bits, with zero bits behind them.
pub fn packed(fields: &[(u32, usize)]) -> Vec<u8> {
    let bits: String = fields.iter().map(|&(number, width)| format!("{number:0width$b}")).collect();
    bits.as_bytes().chunks(8).map(|byte| byte.iter().enumerate().map(|(i, &bit)| (bit - b'0') << (7 - i)).sum()).collect()
}
