//! Bytes that a chip obeys in [`Chip::write`](crate::Chip::write).
use crate::FrameRate;

/// Takes eight bits from the image; the next read gives them.
pub const READ_BYTE: u8 = 0x10;
/// Jumps to the address in the two bytes at the position, the low one first, within the same 16,384 bytes. For two samples every byte then
/// has to wait.
pub const READ_AND_BRANCH: u8 = 0x30;
/// With a nibble of the byte address; five loads, the lowest first, set all of it.
pub const LOAD_ADDRESS: u8 = 0x40;
/// Speaks from the address.
pub const SPEAK: u8 = 0x50;
/// From now on bytes go to the FIFO, until a stop is taken or they run out.
pub const SPEAK_EXTERNAL: u8 = 0x60;
/// Power-up in the same bit order, also while the chip speaks from ROM.
pub const RESET: u8 = 0x70;

/// Load Frame Rate, which a TMS5220C obeys.
pub fn load_frame_rate(rate: FrameRate) -> u8 {
    let (v, rr) = rate.numbers();
    v << 2 | rr
}
