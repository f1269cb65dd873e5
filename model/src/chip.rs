//! The chip: its state and ranges, power-up, a byte written, a look, an
//! acknowledge, a byte read.

use crate::frame::{bit_of_byte, field, take_frame, Cut, Frame};
use crate::numbers::*;
use crate::rate::*;
use crate::rom::*;

// 01: "The position counts bits, 0 to 2,097,152."
const LAST_POSITION: i64 = 2_097_152;
// 01: "the byte address (position / 8, modulo 262,144)".
const ADDRESSES: i64 = 262_144;
// 01: "the low 14 bits".
const LOW_14_BITS: i64 = 16_384;

/// Energy, pitch, K1..K10 at 1..10 (place 0 of `k` is unused and 0).
#[derive(Clone, Copy, PartialEq, Debug)]
pub struct Values {
    pub energy: i64,
    pub pitch: i64,
    pub k: [i64; 11],
}

pub const ZERO_VALUES: Values = Values { energy: 0, pitch: 0, k: [0; 11] };

/// 01: "The chip is one value that each operation takes and hands back."
/// The fields in the order of the trace format; flags are 0 or 1. Filter
/// memory 1..10 stands at 1..10 (place 0 is unused and 0). The TMS5220 has no
/// frame rate; its v and rr are 0 (D 73).
/// 3: "The chip must remember for the frame whether it holds": `hold`, which
/// is part of the sound (D 105).
/// 9: "The order is part of the chip": `order`, which belongs to the FIFO
/// (D 109). No call but the power-ups sets it.
/// 12: "the chip carries a count of busy samples": `busy`, which belongs to the
/// port, as the mode does that its range goes by (D 112).
#[derive(Clone, Copy, PartialEq, Debug)]
pub struct Chip {
    pub mode: i64,
    pub position: i64,
    pub nibble: i64,
    pub pending: i64,
    pub data: i64,
    pub interrupt: i64,
    pub level: i64,
    pub used: i64,
    pub fifo: [i64; 16],
    pub sounding: i64,
    pub sample: i64,
    pub interval: i64,
    pub noise: i64,
    pub place: i64,
    pub currents: Values,
    pub targets: Values,
    pub memory: [i64; 11],
    pub device: i64,
    pub v: i64,
    pub rr: i64,
    pub hold: i64,
    pub order: i64,
    pub busy: i64,
}

/// 01: "Reset gives the power-up state: idle, silent, empty FIFO, position 0,
/// no data byte, no interrupt." The nibble is the lowest: "Reset also
/// restart[s] it". Silent is the sound at rest (D 51).
/// 5: "Power-up and Reset mean v = 0, rr = 00."
/// 9: "A second power-up takes a bit order for the FIFO". Each device has one
/// (D 109).
/// 12: "0 after power-up".
pub fn power_up_with(device: i64, order: i64) -> Chip {
    let chip = Chip {
        mode: IDLE,
        position: 0,
        nibble: 0,
        pending: 0,
        data: 0,
        interrupt: 0,
        level: 0,
        used: 0,
        fifo: [0; 16],
        sounding: 0,
        sample: 0,
        interval: 0,
        noise: 0,
        place: 0,
        currents: ZERO_VALUES,
        targets: ZERO_VALUES,
        memory: [0; 11],
        device,
        v: 0,
        rr: 0,
        hold: 0,
        order,
        busy: 0,
    };
    put_to_rest(chip)
}

/// The plain power-up of each device.
/// 9: "the plain one now means least significant first". The TMS5220C's too
/// (D 109).
pub fn power_up_of(device: i64) -> Chip {
    power_up_with(device, LEAST_FIRST)
}

/// The device of document 01.
pub fn power_up() -> Chip {
    power_up_of(TMS5220)
}

// ---------------------------------------------------------------- sound at rest

/// 01: "puts the sound at rest [..]: counters, currents, targets, filter
/// memory and pulse place zero; noise register 8191." (D 51)
/// 3: "at rest it doesn't hold."
fn with_rest(chip: Chip) -> Chip {
    Chip {
        sample: 0,
        interval: 0,
        currents: ZERO_VALUES,
        targets: ZERO_VALUES,
        memory: [0; 11],
        place: 0,
        noise: 8191,
        hold: 0,
        ..chip
    }
}

/// The same as a question.
fn at_rest(chip: &Chip) -> bool {
    *chip == with_rest(*chip)
}

/// 01: "puts the sound to rest", "sound at rest at once". No longer sounding.
pub fn put_to_rest(chip: Chip) -> Chip {
    Chip { sounding: 0, ..with_rest(chip) }
}

/// 01: "TS rising puts the sound at rest and starts it".
/// The first frame is left to the first step (D 98).
fn raise_ts(chip: Chip, mode: i64) -> Chip {
    Chip { mode, sounding: 1, ..with_rest(chip) }
}

// ---------------------------------------------------------------- modes

/// 01: "TS 80, in a speaking mode".
pub fn speaking(mode: i64) -> bool {
    mode == ROM || mode == EXTERNAL
}

/// 01: "In both external modes each byte goes to the FIFO".
fn external(mode: i64) -> bool {
    mode == WAITING || mode == EXTERNAL
}

// ---------------------------------------------------------------- state ranges

/// 01: "STATE | a field of the chip breaks the ranges below".
pub fn state_refusal(chip: &Chip) -> i64 {
    if state_holds(chip) {
        return TAKEN;
    }
    STATE
}

fn state_holds(chip: &Chip) -> bool {
    fields_fit(chip)
        && values_hold(&chip.currents)
        && values_hold(&chip.targets)
        && memory_holds(chip)
        && noise_holds(chip)
        && place_holds(chip)
        && sample_holds(chip)
        && interval_holds(chip)
        && nibble_holds(chip)
        && position_holds(chip)
        && level_holds(chip)
        && used_holds(chip)
        && used_outside_holds(chip)
        && unheld_holds(chip)
        && silent_rest_holds(chip)
        && silent_mode_holds(chip)
        && no_data_holds(chip)
        && data_mode_holds(chip)
        && v_holds(chip.v)
        && rr_holds(chip.rr)
        && busy_holds(chip)
        && busy_mode_holds(chip)
}

/// No range of 01, only what the trace format promises of each state:
/// "mode 0..3; pending, interrupt, sounding, device, hold, order 0 or 1; 8 bits
/// for [..] data byte, FIFO bytes". Within the promise this is always true: the
/// interrupt has no range (D 52), nor has the mode one (D 15), nor, while
/// sounding, `hold` (D 105), nor the order (D 84).
fn fields_fit(chip: &Chip) -> bool {
    (0..=3).contains(&chip.mode)
        && (0..=1).contains(&chip.pending)
        && (0..=1).contains(&chip.interrupt)
        && (0..=1).contains(&chip.sounding)
        && (TMS5220..=TMS5220C).contains(&chip.device)
        && (0..=1).contains(&chip.hold)
        && (LEAST_FIRST..=MOST_FIRST).contains(&chip.order)
        && (0..=255).contains(&chip.data)
        && chip.fifo.iter().all(|byte| (0..=255).contains(byte))
}

/// 01: "Currents and targets: energy, pitch 0..1023, K -512..511."
fn values_hold(values: &Values) -> bool {
    energy_holds(values.energy) && pitch_holds(values.pitch) && values.k.iter().all(k_holds)
}

fn energy_holds(energy: i64) -> bool {
    (0..=1023).contains(&energy)
}

fn pitch_holds(pitch: i64) -> bool {
    (0..=1023).contains(&pitch)
}

fn k_holds(k: &i64) -> bool {
    (-512..=511).contains(k)
}

/// 01: "Filter memory -8192..8191".
fn memory_holds(chip: &Chip) -> bool {
    chip.memory.iter().all(|memory| (-8192..=8191).contains(memory))
}

/// 01: "noise 1..8191".
fn noise_holds(chip: &Chip) -> bool {
    (1..=8191).contains(&chip.noise)
}

/// 01: "pulse place 0..1022".
fn place_holds(chip: &Chip) -> bool {
    (0..=1022).contains(&chip.place)
}

/// 01: "sample 0..24".
fn sample_holds(chip: &Chip) -> bool {
    (0..=24).contains(&chip.sample)
}

/// 01: "interval 0..7".
fn interval_holds(chip: &Chip) -> bool {
    (0..=7).contains(&chip.interval)
}

/// 01: "next nibble 0..4".
fn nibble_holds(chip: &Chip) -> bool {
    (0..=4).contains(&chip.nibble)
}

/// 01: "position as above": "0 to 2,097,152".
fn position_holds(chip: &Chip) -> bool {
    (0..=LAST_POSITION).contains(&chip.position)
}

/// 01: "FIFO level 0 in idle and ROM speech, 0..8 in waiting, 1..16 in
/// external speech".
fn level_holds(chip: &Chip) -> bool {
    match chip.mode {
        WAITING => (0..=8).contains(&chip.level),
        EXTERNAL => (1..=16).contains(&chip.level),
        _ => chip.level == 0,
    }
}

/// 01: "used bits 0..7".
fn used_holds(chip: &Chip) -> bool {
    (0..=7).contains(&chip.used)
}

/// 01: "[used bits] 0 outside external speech".
fn used_outside_holds(chip: &Chip) -> bool {
    chip.mode == EXTERNAL || chip.used == 0
}

/// 01: "unheld bytes 0."
fn unheld_holds(chip: &Chip) -> bool {
    (0..FIFO_BYTES).all(|i| i < chip.level || chip.fifo[i as usize] == 0)
}

/// 01: "Not sounding: sound at rest". So it doesn't hold (D 105).
fn silent_rest_holds(chip: &Chip) -> bool {
    chip.sounding == 1 || at_rest(chip)
}

/// 01: "Not sounding: [..] no speaking mode."
fn silent_mode_holds(chip: &Chip) -> bool {
    chip.sounding == 1 || !speaking(chip.mode)
}

/// 01: "No pending data: data byte 0."
fn no_data_holds(chip: &Chip) -> bool {
    chip.pending == 1 || chip.data == 0
}

/// 01: "Pending data: mode idle."
fn data_mode_holds(chip: &Chip) -> bool {
    chip.pending == 0 || chip.mode == IDLE
}

/// 12: "The state's ranges gain 0..2".
fn busy_holds(chip: &Chip) -> bool {
    (0..=2).contains(&chip.busy)
}

/// 12: "above 0 only in idle." Sounding or not.
fn busy_mode_holds(chip: &Chip) -> bool {
    chip.busy == 0 || chip.mode == IDLE
}

// ---------------------------------------------------------------- busy

// 12: "2 after a taken Read and Branch". Source document 000 gives 240
// microseconds; a sample has 125.
const BRANCH_SAMPLES: i64 = 2;

/// 12: "2 after a taken Read and Branch". No other call raises the count.
fn made_busy(chip: Chip) -> Chip {
    Chip { busy: BRANCH_SAMPLES, ..chip }
}

/// 12: "While it's above 0".
fn is_busy(chip: &Chip) -> bool {
    chip.busy > 0
}

/// 12: "one less each sample step", down to 0 (D 112).
pub fn less_busy(chip: Chip) -> Chip {
    if is_busy(&chip) {
        return Chip { busy: chip.busy - 1, ..chip };
    }
    chip
}

// ---------------------------------------------------------------- FIFO

/// 01: "FIFO bits leave in order". The bytes as they were written, the oldest
/// first; the order of bits is that inside each of them (D 83).
fn fifo_bit(chip: &Chip, at: i64) -> i64 {
    let byte = usize::try_from(floor(at, BYTE)).ok().and_then(|place| chip.fifo.get(place));
    spoken_bit(chip.order, byte.copied().unwrap_or(0), at.rem_euclid(BYTE))
}

/// The bit of a byte that leaves after so many others of it.
/// 01: "most significant first" (D 1). 9: "bytes whose least significant bit
/// is spoken first", "amending document 01's order".
fn spoken_bit(order: i64, byte: i64, out: i64) -> i64 {
    if order == MOST_FIRST {
        return bit_of_byte(byte, out);
    }
    bit_of_byte(byte, BYTE - 1 - out)
}

/// The place after the last bit of the held bytes, counted from the first bit
/// of the oldest.
fn fifo_end(chip: &Chip) -> i64 {
    BYTE * chip.level
}

/// The bits that are still held: of the oldest byte those that are not out.
pub fn held_bits(chip: &Chip) -> i64 {
    fifo_end(chip) - chip.used
}

/// The whole frame that the FIFO's bits begin with and its width, or its cut.
pub fn fifo_frame(chip: &Chip) -> Result<(Frame, i64), Cut> {
    take_frame(&|at| fifo_bit(chip, at), chip.used, fifo_end(chip), chip.v)
}

/// Whether a frame of this width leaves no bit in the FIFO.
/// 01: "or end exactly with a frame".
pub fn ends_fifo(chip: &Chip, width: i64) -> bool {
    chip.used + width == fifo_end(chip)
}

/// So many bits leave the FIFO.
/// 01: "a byte counts as held until its last bit is out." "unheld bytes 0".
pub fn take_fifo_bits(chip: Chip, width: i64) -> Chip {
    let used = chip.used + width;
    let gone = floor(used, BYTE);
    let mut fifo = [0; 16];
    for i in 0..FIFO_BYTES - gone {
        fifo[i as usize] = chip.fifo[(i + gone) as usize];
    }
    Chip { fifo, level: chip.level - gone, used: used.rem_euclid(BYTE), ..chip }
}

/// 01: "discards held FIFO bytes", "they are used up". The order stays (D 109).
pub fn empty_fifo(chip: Chip) -> Chip {
    Chip { level: 0, used: 0, fifo: [0; 16], ..chip }
}

/// 01: "In both external modes each byte goes to the FIFO (16 bytes)".
fn to_fifo(chip: Chip, byte: i64) -> Chip {
    let mut next = chip;
    if let Some(place) = usize::try_from(chip.level).ok().and_then(|place| next.fifo.get_mut(place)) {
        *place = byte;
    }
    next.level = chip.level + 1;
    // 01: "The ninth byte in waiting starts external speaking."
    if chip.mode == WAITING && next.level == 9 {
        return raise_ts(next, EXTERNAL);
    }
    next
}

// ---------------------------------------------------------------- a byte written

/// 01: "The middle code, weights 40, 20, 10, chooses". "The top bit is
/// ignored."
fn middle_code(byte: i64) -> i64 {
    floor(byte, 0x10).rem_euclid(8)
}

// 01: "000 and 010 nothing, 001 Read Byte, 011 Read and Branch, 100 Load
// Address (low four bits), 101 Speak, 110 Speak External, 111 Reset."
const READ_BYTE: i64 = 0b001;
const READ_AND_BRANCH: i64 = 0b011;
const LOAD_ADDRESS: i64 = 0b100;
const SPEAK: i64 = 0b101;
const SPEAK_EXTERNAL: i64 = 0b110;
const RESET: i64 = 0b111;
// 5: "Load Frame Rate, byte x0x0xvrr": 000 and 010 on the TMS5220C.
const LOAD_FRAME_RATE: i64 = 0b000;
const ALSO_LOAD_FRAME_RATE: i64 = 0b010;

pub struct Written {
    pub chip: Chip,
    pub refusal: i64,
}

/// "a byte written": 01, "The module".
pub fn write(image: &[u8], chip: Chip, byte: i64) -> Written {
    let refusal = write_refusal(image, &chip, byte);
    // 01: "A refused call returns the given state". (D 22)
    if refusal != TAKEN {
        return Written { chip, refusal };
    }
    Written { chip: written(image, chip, byte), refusal: TAKEN }
}

/// 01: "A write takes image and state": 3, 4, then 1, then 2. (D 27, D 31)
/// 12: "Refusals: 1 in this case too, at its old place." (D 91)
fn write_refusal(image: &[u8], chip: &Chip, byte: i64) -> i64 {
    first_refusal(&[
        &|| image_refusal(image),
        &|| state_refusal(chip),
        &|| busy_refusal(chip),
        &|| full_refusal(chip),
        &|| speaking_refusal(chip, byte),
        &|| beyond_refusal(image, chip, byte),
    ])
}

/// 12: "While it's above 0 every written byte, Reset included, is answered
/// WAIT". Whatever the byte is, Load Frame Rate and another branch too.
fn busy_refusal(chip: &Chip) -> i64 {
    if is_busy(chip) {
        return WAIT;
    }
    TAKEN
}

/// 01: "WAIT | a byte is written in Speak External with 16 bytes held".
fn full_refusal(chip: &Chip) -> i64 {
    if external(chip.mode) && chip.level == FIFO_BYTES {
        return WAIT;
    }
    TAKEN
}

/// 01: "WAIT | [..] a byte other than Reset in the mode speaking from ROM".
fn speaking_refusal(chip: &Chip, byte: i64) -> i64 {
    if chip.mode == ROM && middle_code(byte) != RESET {
        return WAIT;
    }
    TAKEN
}

/// The commands among the reasons for BEYOND. In the external modes a byte is
/// no command.
fn beyond_refusal(image: &[u8], chip: &Chip, byte: i64) -> i64 {
    if external(chip.mode) {
        return TAKEN;
    }
    let beyond = match middle_code(byte) {
        READ_BYTE => read_beyond(image, chip),
        READ_AND_BRANCH => branch_beyond(image, chip),
        SPEAK => speak_beyond(image, chip),
        _ => false,
    };
    if beyond {
        return BEYOND;
    }
    TAKEN
}

/// 01: "BEYOND | Read Byte with under 8 bits left".
fn read_beyond(image: &[u8], chip: &Chip) -> bool {
    end(image) - chip.position < 8
}

/// 01: "BEYOND | [..] Read and Branch with either byte outside the image".
/// The first is the byte holding the position (D 32); if the second is
/// inside, so is the first.
fn branch_beyond(image: &[u8], chip: &Chip) -> bool {
    byte_address(chip) + 1 >= length(image)
}

/// 01: "BEYOND | [..] Speak with no bit left". (D 30, D 97)
fn speak_beyond(image: &[u8], chip: &Chip) -> bool {
    chip.position >= end(image)
}

/// A write that is taken.
fn written(image: &[u8], given: Chip, byte: i64) -> Chip {
    let chip = drop_data(given);
    if external(chip.mode) {
        return to_fifo(chip, byte);
    }
    match middle_code(byte) {
        READ_BYTE => read_byte(image, chip),
        READ_AND_BRANCH => read_and_branch(image, chip),
        LOAD_ADDRESS => load_address(chip, byte),
        SPEAK => speak(chip),
        SPEAK_EXTERNAL => speak_external(chip),
        // 01: "Reset gives the power-up state". (D 28, D 29) The device stays.
        // 9: "The order is part of the chip and survives Reset."
        RESET => power_up_with(chip.device, chip.order),
        // 5: "This device obeys it in idle." In the other modes the byte is
        // refused, or goes to the FIFO, as each command is.
        LOAD_FRAME_RATE | ALSO_LOAD_FRAME_RATE if chip.device == TMS5220C => load_frame_rate(chip, byte),
        // 01: "000 and 010 nothing". (D 74)
        _ => chip,
    }
}

/// 01: "the data byte if the last taken write was Read Byte", so each taken
/// write ends it (D 23, D 24). "No pending data: data byte 0."
fn drop_data(chip: Chip) -> Chip {
    Chip { pending: 0, data: 0, ..chip }
}

/// 01: "the byte holding the position".
fn byte_address(chip: &Chip) -> i64 {
    floor(chip.position, BYTE)
}

/// 01: "Read Byte, Read and Branch, Speak and Reset also restart it." (D 25)
fn restart_nibble(chip: Chip) -> Chip {
    Chip { nibble: 0, ..chip }
}

/// 01: "Read Byte takes the next eight bits."
fn read_byte(image: &[u8], chip: Chip) -> Chip {
    let data = field(&|at| rom_bit(image, at), chip.position, 8);
    let next = Chip { position: chip.position + 8, pending: 1, data, ..chip };
    restart_nibble(next)
}

/// 01: "Read and Branch takes the byte holding the position and the one after
/// it, first byte low; the low 14 bits of the first byte's address become the
/// word's, and the position that byte's first bit." (D 32, D 33)
/// 12: "Branching takes time."
fn read_and_branch(image: &[u8], chip: Chip) -> Chip {
    let address = byte_address(&chip);
    let word = byte_at(image, address) + 256 * byte_at(image, address + 1);
    let above = address - address.rem_euclid(LOW_14_BITS);
    let target = above + word.rem_euclid(LOW_14_BITS);
    let next = Chip { position: BYTE * target, ..chip };
    made_busy(restart_nibble(next))
}

/// 01: "Load Address puts a nibble into the byte address (position / 8, modulo
/// 262,144), lowest nibble first [..]. The position becomes that byte's first
/// bit." Each load moves the position at once (D 7).
fn load_address(chip: Chip, byte: i64) -> Chip {
    // D 34: at the last position the base is address 0.
    let base = byte_address(&chip).rem_euclid(ADDRESSES);
    let weight = 1 << (4 * chip.nibble);
    let size = nibble_size(chip.nibble);
    let old = floor(base, weight).rem_euclid(size);
    // 01: "Load Address (low four bits)".
    let new = byte.rem_euclid(size);
    let address = base + weight * (new - old);
    Chip { position: BYTE * address, nibble: next_nibble(chip.nibble), ..chip }
}

/// 01: "of the fifth only the two low bits count."
fn nibble_size(nibble: i64) -> i64 {
    if nibble == 4 {
        return 4;
    }
    16
}

/// 01: "After the fifth load the next is again the lowest".
fn next_nibble(nibble: i64) -> i64 {
    if nibble == 4 {
        return 0;
    }
    nibble + 1
}

/// Speak: TS rises, in the mode speaking from ROM. The interrupt stays (D 35).
fn speak(chip: Chip) -> Chip {
    restart_nibble(raise_ts(chip, ROM))
}

/// Speak External: waiting. A sound that is still there goes on (D 26), the
/// next nibble stays (D 25).
fn speak_external(chip: Chip) -> Chip {
    Chip { mode: WAITING, ..chip }
}

/// Load Frame Rate: rr is held as written, also with v = 1 (D 70). The next
/// nibble stays (D 74), and so does a frame that is sounding: its length was
/// settled when it was taken.
fn load_frame_rate(chip: Chip, byte: i64) -> Chip {
    Chip { v: v_of_byte(byte), rr: rr_of_byte(byte), ..chip }
}

// ---------------------------------------------------------------- status, look, acknowledge, a byte read

// 01: "Status: TS 80, [..]; BL 40, [..]; BE 20".
pub const TS: i64 = 0x80;
pub const BL: i64 = 0x40;
pub const BE: i64 = 0x20;

/// 01: "Status: [..] other bits zero."
pub fn status(chip: &Chip) -> i64 {
    let ts = if talks(chip) { TS } else { 0 };
    let bl = if buffer_low(chip) { BL } else { 0 };
    let be = if buffer_empty(chip) { BE } else { 0 };
    ts + bl + be
}

/// 01: "TS 80, in a speaking mode".
fn talks(chip: &Chip) -> bool {
    speaking(chip.mode)
}

/// 01: "BL 40, 8 bytes or fewer held".
fn buffer_low(chip: &Chip) -> bool {
    chip.level <= 8
}

/// 01: "BE 20, none held".
fn buffer_empty(chip: &Chip) -> bool {
    chip.level == 0
}

pub struct Looked {
    pub chip: Chip,
    pub refusal: i64,
    pub byte: i64,
}

/// 6: "a look that gives the byte the bus would get and hands back the same
/// state". The answer is number, byte and chip (D 76).
pub fn look(chip: Chip) -> Looked {
    // 6: "Refusals: 4 for each, as before." 01: "zero for each number". (D 36)
    let refusal = state_refusal(&chip);
    if refusal != TAKEN {
        return Looked { chip, refusal, byte: 0 };
    }
    Looked { chip, refusal: TAKEN, byte: bus_byte(&chip) }
}

/// 01: "A read gives the data byte if the last taken write was Read Byte and it
/// hasn't been read yet, else the status."
fn bus_byte(chip: &Chip) -> i64 {
    if chip.pending == 1 {
        return chip.data;
    }
    status(chip)
}

pub struct Acknowledged {
    pub chip: Chip,
    pub refusal: i64,
}

/// 6: "an acknowledge that does what a bus read does to the state".
pub fn acknowledge(chip: Chip) -> Acknowledged {
    // 6: "Refusals: 4 for each, as before." 01: "A refused call returns the
    // given state".
    let refusal = state_refusal(&chip);
    if refusal != TAKEN {
        return Acknowledged { chip, refusal };
    }
    Acknowledged { chip: acknowledged(chip), refusal: TAKEN }
}

/// What a bus read does to the state.
fn acknowledged(chip: Chip) -> Chip {
    // 01: "a data read doesn't [clear the interrupt]." (D 37)
    if chip.pending == 1 {
        return drop_data(chip);
    }
    // 01: "A status read clears the interrupt".
    Chip { interrupt: 0, ..chip }
}

pub struct Read {
    pub chip: Chip,
    pub refusal: i64,
    pub byte: i64,
}

/// "a byte read": 01, "The module". "a read takes state only". (D 36)
/// 6: "A bus read is then the look followed by the acknowledge." Both refuse
/// the same states, with the same number.
pub fn read(chip: Chip) -> Read {
    let looked = look(chip);
    let acknowledged = acknowledge(looked.chip);
    Read { chip: acknowledged.chip, refusal: looked.refusal, byte: looked.byte }
}
