//! One sample step and the run.

use crate::chip::*;
use crate::frame::*;
use crate::numbers::*;
use crate::rate::{frame_rate, skipped_intervals};
use crate::rom::{end, image_refusal, rom_frame};
use crate::voice::{tables, voice_refusal, Tables};

/// `thrown` is told of a stop and is 0 for each other step, as what is told of
/// running out (D 68).
pub struct Stepped {
    pub chip: Chip,
    pub refusal: i64,
    pub sample: i64,
    pub report: i64,
    pub frame: Frame,
    pub short: Short,
    pub thrown: i64,
}

/// What a step that runs out tells besides; zeros for each other one (D 68).
/// 4: the bit at which the frame began, "the bits used up and the bits
/// missing".
#[derive(Clone, Copy, PartialEq, Debug)]
pub struct Short {
    pub begun: i64,
    pub used_up: i64,
    pub missing: i64,
}

pub const NOT_SHORT: Short = Short { begun: 0, used_up: 0, missing: 0 };

/// 01: "a sample step and a run take all three": 3, 5 to 9, 4. (D 45)
/// A step never gives 1, 2 or 10.
fn step_refusal(image: &[u8], voice: &[u8], chip: &Chip) -> i64 {
    first_refusal(&[
        &|| image_refusal(image),
        &|| voice_refusal(voice),
        &|| state_refusal(chip),
    ])
}

/// "one sample step": 01, "The module".
pub fn step(image: &[u8], voice: &[u8], chip: Chip) -> Stepped {
    let refusal = step_refusal(image, voice, &chip);
    // 01: "A refused call returns the given state, zero for each number, no
    // frame".
    if refusal != TAKEN {
        return Stepped { chip, refusal, sample: 0, report: NOTHING, frame: NO_FRAME, short: NOT_SHORT, thrown: 0 };
    }
    taken_step(image, &tables(voice), chip)
}

pub struct Ran {
    pub chip: Chip,
    pub refusal: i64,
}

/// "a run that fills a lent buffer with samples": 01, "The module". (D 48)
pub fn run(image: &[u8], voice: &[u8], chip: Chip, buffer: &mut [i64]) -> Ran {
    // 01: "into an empty buffer, once the checks pass, it is taken and changes
    // nothing." The checks are made once for the run (D 101).
    let refusal = step_refusal(image, voice, &chip);
    if refusal != TAKEN {
        return Ran { chip, refusal };
    }
    let tables = tables(voice);
    let mut chip = chip;
    // 01: "A run is one sample step for each element, in order".
    for element in buffer.iter_mut() {
        let stepped = taken_step(image, &tables, chip);
        *element = stepped.sample;
        chip = stepped.chip;
    }
    Ran { chip, refusal: TAKEN }
}

/// A step that is taken.
fn taken_step(image: &[u8], tables: &Tables, chip: Chip) -> Stepped {
    // D 44: the status before against the status after the whole step.
    let before = status(&chip);
    let mut stepped = sounded(image, tables, chip);
    let after = status(&stepped.chip);
    if interrupts(before, after) {
        stepped.chip.interrupt = 1;
    }
    // 12: "one less each sample step, sounding or not". So each step of a run
    // counts (D 112), and a refused one doesn't (D 90).
    stepped.chip = less_busy(stepped.chip);
    stepped
}

/// 01: "The interrupt is set when TS falls or BL or BE rises in a sample
/// step."
fn interrupts(before: i64, after: i64) -> bool {
    rises(after, before, TS) || rises(before, after, BL) || rises(before, after, BE)
}

/// The bit is 0 in the first and 1 in the second.
fn rises(first: i64, second: i64, bit: i64) -> bool {
    first & bit == 0 && second & bit != 0
}

fn without_frame(chip: Chip, report: i64) -> Stepped {
    Stepped { chip, refusal: TAKEN, sample: 0, report, frame: NO_FRAME, short: NOT_SHORT, thrown: 0 }
}

/// A step but for the interrupt and the count of busy samples.
fn sounded(image: &[u8], tables: &Tables, given: Chip) -> Stepped {
    let mut chip = given;
    // 01: "Not sounding, it gives 0 and changes nothing." 12: "this amends
    // document 01's step that changes nothing": it changes the count alone.
    if chip.sounding == 0 {
        return without_frame(chip, NOTHING);
    }
    let mut frame = NO_FRAME;
    let mut thrown = 0;
    // 01: "at an interval's first sample, take a frame if the interval is 0,
    // then interpolate; compute; count on." (D 42)
    if at_boundary(&chip) {
        // 01: "A step at a frame boundary in idle or waiting puts the sound to
        // rest and gives sample 0 and no frame." (D 43)
        if !speaking(chip.mode) {
            return without_frame(put_to_rest(chip), NOTHING);
        }
        let (taken, next) = match next_frame(image, chip) {
            Ok(whole) => whole,
            Err(short) => return Stepped { short, ..without_frame(run_out(image, chip), RAN_OUT) },
        };
        frame = taken;
        chip = next;
        chip.interval = first_interval(&chip, &frame);
        chip.targets = new_targets(&frame, tables, chip.targets);
        // The old targets against the new ones, at every taken frame (D 66,
        // D 105).
        chip.hold = i64::from(frame_holds(&given.targets, &chip.targets));
        if frame.kind == STOP {
            thrown = thrown_bits(&chip);
            chip = stop(chip);
        }
    }
    if chip.sample == 0 {
        chip.currents = next_currents(&chip);
    }
    let excitation = excitation(&chip, tables);
    chip.place = next_place(&chip);
    chip.noise = next_noise(chip.noise);
    let forward = forward_values(&chip, excitation);
    chip.memory = next_memory(&chip, &forward);
    let chip = count_on(chip);
    Stepped {
        chip,
        refusal: TAKEN,
        sample: held_sample(forward[1]),
        report: report_of(&frame),
        frame,
        short: NOT_SHORT,
        thrown,
    }
}

/// 01: "Each step reports its frame, if any, and one of: nothing, frame, stop,
/// ran out."
fn report_of(frame: &Frame) -> i64 {
    match frame.kind {
        NONE => NOTHING,
        STOP => STOPPED,
        _ => FRAME,
    }
}

/// A frame boundary: the first sample of interval 0.
/// 5: "a frame is taken after interval 7 and at the start." Both count 0.
fn at_boundary(chip: &Chip) -> bool {
    chip.sample == 0 && chip.interval == 0
}

/// The interval that a frame begins with: it is interpolated with this
/// interval's divisor, and the intervals before it are left out (D 70).
/// 5: "A shorter frame skips the first 0, 2, 4 or 6 intervals".
fn first_interval(chip: &Chip, frame: &Frame) -> i64 {
    skipped_intervals(frame_rate(chip.v, chip.rr, frame))
}

// ---------------------------------------------------------------- the frame of a step

/// The frame, and the chip after its bits have left; or how short they are
/// where it runs out.
fn next_frame(image: &[u8], chip: Chip) -> Result<(Frame, Chip), Short> {
    if chip.mode == ROM {
        return next_rom_frame(image, chip);
    }
    next_fifo_frame(chip)
}

/// 01: "if the ROM ends inside a frame or before its first bit" it runs out. A
/// frame that ends exactly with the image is whole (D 40).
fn next_rom_frame(image: &[u8], chip: Chip) -> Result<(Frame, Chip), Short> {
    let (frame, width) = rom_frame(image, chip.position, chip.v).map_err(short_in_rom)?;
    Ok((frame, Chip { position: chip.position + width, ..chip }))
}

/// 4: "a sample step that runs out in ROM reports them." The position is where
/// the frame began, not where it goes to.
fn short_in_rom(cut: Cut) -> Short {
    Short { begun: cut.begun, used_up: 0, missing: cut.missing }
}

/// 01: "If the FIFO's bits end inside a frame, or end exactly with a frame
/// other than a stop, they are used up." (D 39)
fn next_fifo_frame(chip: Chip) -> Result<(Frame, Chip), Short> {
    let (frame, width) = fifo_frame(&chip).map_err(|cut| short_in_fifo(&chip, cut.missing))?;
    // 4: "0 missing where the last frame was whole".
    if ends_fifo(&chip, width) && frame.kind != STOP {
        return Err(short_in_fifo(&chip, 0));
    }
    Ok((frame, take_fifo_bits(chip, width)))
}

/// 4: "For the FIFO the step reports the bits used up and the bits missing, [..]
/// and no place." Used up are the bits that were still held.
fn short_in_fifo(chip: &Chip, missing: i64) -> Short {
    Short { begun: 0, used_up: held_bits(chip), missing }
}

/// 01: "Stop also makes the mode idle and discards held FIFO bytes; its frame
/// still sounds." (D 99)
fn stop(chip: Chip) -> Chip {
    Chip { mode: IDLE, ..empty_fifo(chip) }
}

/// 10: "a step that takes a stop from the FIFO also reports how many bits it
/// throws away." They are those that the stop discards, so `chip` is the one
/// whose FIFO the stop's own bits have left: these were given to the frame
/// reader. In ROM speech no byte is held, and a stop there throws nothing away.
fn thrown_bits(chip: &Chip) -> i64 {
    held_bits(chip)
}

/// 01: "Either way: idle, sound at rest at once, sample 0, no frame reported."
fn run_out(image: &[u8], chip: Chip) -> Chip {
    let spent = if chip.mode == ROM {
        Chip { position: spent_position(image, chip.position), ..chip }
    } else {
        // 01: "they are used up."
        empty_fifo(chip)
    };
    put_to_rest(Chip { mode: IDLE, ..spent })
}

/// 01: "the position goes to the image's end (or stays, if past it)." (D 46)
fn spent_position(image: &[u8], position: i64) -> i64 {
    if position > end(image) {
        return position;
    }
    end(image)
}

// ---------------------------------------------------------------- targets, holding, interpolation

/// 01: "Targets: [..]"
fn new_targets(frame: &Frame, tables: &Tables, old: Values) -> Values {
    match frame.kind {
        VOICED => voiced_targets(frame, tables),
        UNVOICED => unvoiced_targets(frame, tables),
        REPEAT => repeat_targets(frame, tables, old),
        _ => silent_targets(old),
    }
}

/// 01: "voiced sets all".
fn voiced_targets(frame: &Frame, tables: &Tables) -> Values {
    let mut k = [0; 11];
    for i in 1..=10 {
        k[i] = tables.k(i, frame.k[i]);
    }
    Values { energy: tables.energy(frame.energy), pitch: tables.pitch(frame.pitch), k }
}

/// 01: "unvoiced sets pitch 0, K1 to K4, and zeroes K5 to K10". The energy is
/// set too (D 2).
fn unvoiced_targets(frame: &Frame, tables: &Tables) -> Values {
    let mut k = [0; 11];
    for i in 1..=4 {
        k[i] = tables.k(i, frame.k[i]);
    }
    Values { energy: tables.energy(frame.energy), pitch: 0, k }
}

/// 01: "repeat sets energy and pitch".
fn repeat_targets(frame: &Frame, tables: &Tables, old: Values) -> Values {
    Values { energy: tables.energy(frame.energy), pitch: tables.pitch(frame.pitch), ..old }
}

/// 01: "silence and stop set energy 0 and keep the rest." (D 41)
fn silent_targets(old: Values) -> Values {
    Values { energy: 0, ..old }
}

/// 3: "when a newly taken frame changes voiced to unvoiced or back, or the old
/// energy target was 0 and the new one isn't". By the targets' values alone: a
/// silence and a stop keep the pitch and set energy 0, so they never hold
/// (D 65), and the first frame is compared with the sound at rest (D 64).
fn frame_holds(old: &Values, new: &Values) -> bool {
    changes_voicing(old, new) || begins_from_0(old, new)
}

/// 3: "changes voiced to unvoiced or back".
fn changes_voicing(old: &Values, new: &Values) -> bool {
    is_voiced(old) != is_voiced(new)
}

/// 3: "the old energy target was 0 and the new one isn't". The value, not the
/// index (D 64).
fn begins_from_0(old: &Values, new: &Values) -> bool {
    old.energy == 0 && new.energy != 0
}

// 3: "intervals 0 to 6", whichever of them the frame begins with.
const LAST_HELD: i64 = 6;

/// 3: "the currents stay at their old values in intervals 0 to 6 and reach the
/// targets in interval 7."
fn stays(chip: &Chip) -> bool {
    chip.hold == 1 && chip.interval <= LAST_HELD
}

/// The currents after an interval's first sample. In interval 7 d is 1, so
/// that they reach the targets whether the frame holds or not.
fn next_currents(chip: &Chip) -> Values {
    if stays(chip) {
        return chip.currents;
    }
    interpolated(&chip.currents, &chip.targets, chip.interval)
}

// 01: "d = 8,8,8,4,4,2,2,1", for intervals 0 to 7.
const DIVISORS: [i64; 8] = [8, 8, 8, 4, 4, 2, 2, 1];

fn divisor(interval: i64) -> i64 {
    usize::try_from(interval).ok().and_then(|i| DIVISORS.get(i)).copied().unwrap_or(1)
}

/// 01: "Interpolation at intervals 0 to 7 adds floor((target - current) / d)".
pub fn nearer(current: i64, target: i64, interval: i64) -> i64 {
    current + floor(target - current, divisor(interval))
}

/// All twelve currents go nearer.
fn interpolated(currents: &Values, targets: &Values, interval: i64) -> Values {
    let mut k = [0; 11];
    for i in 1..=10 {
        k[i] = nearer(currents.k[i], targets.k[i], interval);
    }
    Values {
        energy: nearer(currents.energy, targets.energy, interval),
        pitch: nearer(currents.pitch, targets.pitch, interval),
        k,
    }
}

// ---------------------------------------------------------------- excitation

/// 01: "Voiced means target pitch not 0."
fn is_voiced(targets: &Values) -> bool {
    targets.pitch != 0
}

/// 01: "Excitation: voiced, the pulse table at the pulse place, 0 past its
/// end; unvoiced, -64 if the noise register is odd, else 64." Both as they
/// were before this sample moves them (D 42). By the target also while the
/// frame holds (D 104).
fn excitation(chip: &Chip, tables: &Tables) -> i64 {
    if is_voiced(&chip.targets) {
        return tables.pulse(chip.place);
    }
    if chip.noise.rem_euclid(2) == 1 {
        return -64;
    }
    64
}

/// 01: "Then the pulse place goes up by one, or to 0 if that is the current
/// pitch or more."
fn next_place(chip: &Chip) -> i64 {
    let up = chip.place + 1;
    if up >= chip.currents.pitch {
        return 0;
    }
    up
}

/// 01: "The noise register becomes twice itself plus a new bit, modulo 8192".
pub fn next_noise(noise: i64) -> i64 {
    (2 * noise + noise_bit(noise)).rem_euclid(8192)
}

/// 01: "the bit is 1 when an odd number of its bits 12, 3, 2, 0 are set."
fn noise_bit(noise: i64) -> i64 {
    let taps = (noise >> 12 & 1) + (noise >> 3 & 1) + (noise >> 2 & 1) + (noise & 1);
    taps.rem_euclid(2)
}

// ---------------------------------------------------------------- filter

/// 01: "Energy and K below are the currents. Input = floor(energy × excitation
/// / 64)."
fn input(chip: &Chip, excitation: i64) -> i64 {
    floor(chip.currents.energy * excitation, 64)
}

/// 01: "Forward value 11 is the input; forward i, for i = 10 to 1, is defined
/// from forward i+1". The forward values stand at 1..11, place 0 is unused.
fn forward_values(chip: &Chip, excitation: i64) -> [i64; 12] {
    let mut forward = [0; 12];
    forward[11] = input(chip, excitation);
    for i in (1..=10).rev() {
        forward[i] = forward_value(forward[i + 1], chip.currents.k[i], chip.memory[i]);
    }
    forward
}

/// 01: "forward i+1 minus floor(Ki × old memory i / 512), held to
/// -8192..8191."
fn forward_value(above: i64, k: i64, old_memory: i64) -> i64 {
    held(above - floor(k * old_memory, 512))
}

/// 01: "New memory i+1, for i = 1 to 9, is old memory i plus floor(Ki ×
/// forward i / 512), held likewise; new memory 1 is forward 1."
fn next_memory(chip: &Chip, forward: &[i64; 12]) -> [i64; 11] {
    let mut memory = [0; 11];
    memory[1] = forward[1];
    for i in 1..=9 {
        memory[i + 1] = memory_value(chip.memory[i], chip.currents.k[i], forward[i]);
    }
    memory
}

fn memory_value(old_memory: i64, k: i64, forward: i64) -> i64 {
    held(old_memory + floor(k * forward, 512))
}

/// 01: "held to -8192..8191".
fn held(value: i64) -> i64 {
    value.clamp(-8192, 8191)
}

/// 01: "The sample is forward 1 held to -512..511".
fn held_sample(forward: i64) -> i64 {
    forward.clamp(-512, 511)
}

/// 01: "count on"; "25 samples make an interval, 8 intervals a frame".
fn count_on(chip: Chip) -> Chip {
    let sample = chip.sample + 1;
    if sample < SAMPLES_PER_INTERVAL {
        return Chip { sample, ..chip };
    }
    let interval = chip.interval + 1;
    if interval < INTERVALS_PER_FRAME {
        return Chip { sample: 0, interval, ..chip };
    }
    Chip { sample: 0, interval: 0, ..chip }
}
