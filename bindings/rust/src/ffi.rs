//! What `tms5220.h` declares. The numbers are explained there.
use crate::chip::NUMBERS;

pub const ABI: u32 = 1;

#[repr(C)]
#[derive(Default)]
pub struct Frame {
    pub kind: u8,
    pub energy: u8,
    pub pitch: u8,
    pub k: [u8; 10],
    pub rate: u8,
}

#[repr(C)]
#[derive(Default)]
pub struct Bits {
    pub begun: usize,
    pub used_up: usize,
    pub missing: usize,
    pub thrown: usize,
}

#[repr(C)]
#[derive(Default)]
pub struct Extent {
    pub bits: usize,
    pub begun: usize,
    pub missing: usize,
}

#[repr(C)]
#[derive(Clone, Copy, Debug, Default, PartialEq, Eq, Hash)]
pub struct Phrase {
    pub bits: usize,
    pub frames: usize,
    pub intervals: usize,
    pub samples: usize,
    pub begun: usize,
    pub missing: usize,
    pub offset: usize,
    pub length: usize,
}

extern "C" {
    pub fn tms_abi() -> u32;
    pub fn tms_power_up(chip: *mut [i32; NUMBERS], device: u8, bit_order: u8) -> u8;
    pub fn tms_check(chip: *const [i32; NUMBERS]) -> u8;
    pub fn tms_write(chip: *mut [i32; NUMBERS], image: *const u8, image_length: usize, byte: u8) -> u8;
    pub fn tms_read(chip: *mut [i32; NUMBERS], byte: *mut u8) -> u8;
    pub fn tms_look(chip: *const [i32; NUMBERS], byte: *mut u8) -> u8;
    pub fn tms_acknowledge(chip: *mut [i32; NUMBERS]) -> u8;
    pub fn tms_step(
        chip: *mut [i32; NUMBERS],
        image: *const u8,
        image_length: usize,
        voice: *const u8,
        voice_length: usize,
        sample: *mut i16,
        report: *mut u8,
        frame: *mut Frame,
        bits: *mut Bits,
    ) -> u8;
    pub fn tms_run(
        chip: *mut [i32; NUMBERS],
        image: *const u8,
        image_length: usize,
        voice: *const u8,
        voice_length: usize,
        out: *mut i16,
        out_length: usize,
    ) -> u8;
    pub fn tms_walk(image: *const u8, image_length: usize, address: usize, phrase: *mut Phrase) -> u8;
    pub fn tms_walk_5220c(image: *const u8, image_length: usize, address: usize, v: u8, rr: u8, phrase: *mut Phrase) -> u8;
    pub fn tms_frame_at(image: *const u8, image_length: usize, bit: usize, frame: *mut Frame, extent: *mut Extent) -> u8;
    pub fn tms_frame_at_5220c(image: *const u8, image_length: usize, bit: usize, v: u8, frame: *mut Frame, extent: *mut Extent) -> u8;
    pub fn tms_voice_check(voice: *const u8, voice_length: usize) -> u8;
}
