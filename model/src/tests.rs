//! Tests: document 01's "Numbers to try", sizes at their bounds, each refusal
//! number, the order of checks, the traps, the TMS5220C, how short a frame is,
//! frames that hold, look and acknowledge, the FIFO's bit order, the time that a
//! branch takes, the account of the FIFO's bits, the trace format, garbage.

use crate::chip::*;
use crate::frame::*;
use crate::numbers::*;
use crate::rate::*;
use crate::rom::*;
use crate::sound::*;
use crate::trace::*;
use crate::voice::*;

// ---------------------------------------------------------------- helpers

/// A valid voice file with this pulse count (1..64). Energy i is 70 i, pitch i
/// is 16 i, K value j of the 168 is 6 j - 500, pulse p is 100 - 3 p.
fn voice(count: i64) -> Vec<u8> {
    let mut file = Vec::new();
    file.extend(((496 + count) as u16).to_be_bytes());
    file.push(1);
    for i in 0..15 {
        file.extend((70 * i as u16).to_be_bytes());
    }
    for i in 0..64 {
        file.extend((16 * i as u16).to_be_bytes());
    }
    for j in 0..168 {
        file.extend((6 * j as i16 - 500).to_be_bytes());
    }
    file.push(count as u8);
    for p in 0..count {
        file.push((100 - 3 * p) as u8);
    }
    file
}

fn with(file: &[u8], at: usize, bytes: &[u8]) -> Vec<u8> {
    let mut changed = file.to_vec();
    changed[at..at + bytes.len()].copy_from_slice(bytes);
    changed
}

/// Bits written as text, blanks ignored, filled up with zeros to bytes.
fn bits(text: &str) -> Vec<u8> {
    let digits: Vec<u8> = text.bytes().filter(|c| *c == b'0' || *c == b'1').map(|c| c - b'0').collect();
    digits
        .chunks(8)
        .map(|chunk| (0..8).fold(0, |byte, i| 2 * byte + chunk.get(i).copied().unwrap_or(0)))
        .collect()
}

fn writes(image: &[u8], chip: Chip, bytes: &[i64]) -> Chip {
    let mut chip = chip;
    for byte in bytes {
        let answer = write(image, chip, *byte);
        assert_eq!(answer.refusal, TAKEN, "byte {byte:02x}");
        chip = answer.chip;
    }
    chip
}

/// The TMS5220 with document 01's order of the FIFO's bits.
fn most_first() -> Chip {
    power_up_with(TMS5220, MOST_FIRST)
}

/// Powered up, Speak External, then these bytes.
fn external(bytes: &[i64]) -> Chip {
    writes(&[0], writes(&[0], power_up(), &[0x60]), bytes)
}

/// The status as a read gives it, without reading.
fn status_of(chip: Chip) -> i64 {
    let answer = look(chip);
    assert_eq!(answer.refusal, TAKEN);
    answer.byte
}

fn taken(image: &[u8], chip: Chip) -> Stepped {
    let stepped = step(image, &voice(41), chip);
    assert_eq!(stepped.refusal, TAKEN);
    stepped
}

fn steps(image: &[u8], chip: Chip, count: i64) -> Chip {
    let mut buffer = vec![9_999; count as usize];
    let ran = run(image, &voice(41), chip, &mut buffer);
    assert_eq!(ran.refusal, TAKEN);
    ran.chip
}

fn played(script: &[u8]) -> String {
    let mut out = Vec::new();
    play(script, &mut out).unwrap();
    String::from_utf8(out).unwrap()
}

/// A record with a count and bytes.
fn counted(letter: u8, bytes: &[u8]) -> Vec<u8> {
    let mut record = vec![letter];
    record.extend((bytes.len() as u32).to_le_bytes());
    record.extend(bytes);
    record
}

fn numbered(letter: u8, number: u32) -> Vec<u8> {
    let mut record = vec![letter];
    record.extend(number.to_le_bytes());
    record
}

fn state_record(numbers: &[i64]) -> Vec<u8> {
    let mut record = vec![b'S'];
    for number in numbers {
        record.extend(number.to_le_bytes());
    }
    record
}

/// A small generator of numbers that look random (xorshift).
struct Dice(u64);

impl Dice {
    fn next(&mut self) -> u64 {
        self.0 ^= self.0 << 13;
        self.0 ^= self.0 >> 7;
        self.0 ^= self.0 << 17;
        self.0
    }
    fn below(&mut self, count: u64) -> u64 {
        (self.next() >> 11) % count
    }
    /// From `low` to `high`, the bounds more often than the rest.
    fn within(&mut self, low: i64, high: i64) -> i64 {
        match self.below(8) {
            0 => low,
            1 => high,
            _ => low + self.below((high - low + 1) as u64) as i64,
        }
    }
    fn bytes(&mut self, count: usize) -> Vec<u8> {
        (0..count).map(|_| self.below(256) as u8).collect()
    }
    fn values(&mut self) -> Values {
        let mut values = ZERO_VALUES;
        values.energy = self.within(0, 1023);
        values.pitch = self.within(0, 1023);
        for i in 1..=10 {
            values.k[i] = self.within(-512, 511);
        }
        values
    }
    /// Any valid chip, its position mostly within an image of so many bytes.
    fn chip(&mut self, image_bytes: i64) -> Chip {
        let mut chip = power_up_with(TMS5220, self.within(LEAST_FIRST, MOST_FIRST));
        chip.mode = self.within(0, 3);
        if self.below(2) == 0 {
            chip.device = TMS5220C;
            chip.v = self.within(0, 1);
            chip.rr = self.within(0, 3);
        }
        chip.position = match self.below(8) {
            0 => 2_097_152,
            1 => self.within(0, 2_097_152),
            _ => self.within(0, 8 * image_bytes),
        };
        chip.nibble = self.within(0, 4);
        chip.interrupt = self.within(0, 1);
        if chip.mode == IDLE && self.below(2) == 0 {
            chip.pending = 1;
            chip.data = self.within(0, 255);
        }
        if chip.mode == IDLE && self.below(3) == 0 {
            chip.busy = self.within(1, 2);
        }
        match chip.mode {
            WAITING => chip.level = self.within(0, 8),
            EXTERNAL => {
                chip.level = self.within(1, 16);
                chip.used = self.within(0, 7);
            }
            _ => {}
        }
        for i in 0..chip.level as usize {
            chip.fifo[i] = match self.below(4) {
                0 => 0,
                1 => 0xF0,
                _ => self.within(0, 255),
            };
        }
        if chip.mode == ROM || chip.mode == EXTERNAL || self.below(2) == 0 {
            chip.sounding = 1;
            if self.below(2) == 0 {
                chip.sample = self.within(0, 24);
                chip.interval = self.within(0, 7);
            }
            chip.noise = self.within(1, 8191);
            chip.place = self.within(0, 1022);
            chip.hold = self.within(0, 1);
            chip.currents = self.values();
            chip.targets = self.values();
            for i in 1..=10 {
                chip.memory[i] = self.within(-8192, 8191);
            }
        }
        chip
    }
}

// ---------------------------------------------------------------- numbers to try

fn walk_numbers(image: &[u8], address: i64) -> (i64, i64, i64) {
    let walked = walk(image, address);
    (walked.refusal, walked.bits, walked.frames)
}

#[test]
fn phrases_to_try() {
    assert_eq!(walk_numbers(&[0xFF], 0), (TAKEN, 4, 1));
    assert_eq!(walk_numbers(&[0x0F], 0), (TAKEN, 8, 2));
    assert_eq!(walk_numbers(&[0x00], 0), (NO_PHRASE, 0, 0));
    assert_eq!(walk_numbers(&[0x1F, 0xFF], 0), (TAKEN, 15, 2));
    assert_eq!(walk_numbers(&[0x03, 0x83], 0), (NO_PHRASE, 0, 0));
    assert_eq!(walk_numbers(&[0xFF], 1), (BEYOND, 0, 0));
}

#[test]
fn loads_and_branch_to_try() {
    let chip = writes(&[0], power_up(), &[0x41, 0x42, 0x43, 0x40, 0x40]);
    // 801 in the paper is 321 hex.
    assert_eq!(chip.position, 8 * 801);
    assert_eq!(chip.nibble, 0);
    let chip = writes(&[0x05, 0xC0], power_up(), &[0x30]);
    assert_eq!(chip.position, 8 * 5);
}

fn way(from: i64, to: i64) -> Vec<i64> {
    let mut current = from;
    (0..8)
        .map(|interval| {
            current = nearer(current, to, interval);
            current
        })
        .collect()
}

#[test]
fn ways_to_try() {
    assert_eq!(way(0, 80), [10, 18, 25, 38, 48, 64, 72, 80]);
    assert_eq!(way(5, 0), [4, 3, 2, 1, 0, 0, 0, 0]);
    assert_eq!(way(0, 5), [0, 0, 0, 1, 2, 3, 4, 5]);
}

#[test]
fn noise_to_try() {
    assert_eq!(next_noise(8191), 8190);
    assert_eq!(next_noise(8190), 8189);
    assert_eq!(next_noise(8189), 8186);
}

#[test]
fn noise_bits() {
    // Each bit of the register by itself: 12, 3, 2, 0 give a new bit 1.
    for bit in 0..13 {
        let new = i64::from([12, 3, 2, 0].contains(&bit));
        assert_eq!(next_noise(1 << bit), (2 << bit) % 8192 + new, "bit {bit}");
    }
    // It never becomes 0, and comes back to 8191.
    let mut noise = 8191;
    for _ in 0..8191 {
        noise = next_noise(noise);
        assert!((1..=8191).contains(&noise));
    }
    assert_eq!(noise, 8191);
}

#[test]
fn statuses_to_try() {
    assert_eq!(status_of(power_up()), 0x60);
    assert_eq!(status_of(external(&[])), 0x60);
    assert_eq!(status_of(external(&[0; 1])), 0x40);
    assert_eq!(status_of(external(&[0; 8])), 0x40);
    assert_eq!(status_of(external(&[0; 9])), 0x80);
}

#[test]
fn nine_ff_to_try() {
    let chip = external(&[0xFF; 9]);
    assert_eq!(chip.interrupt, 0);
    let stepped = taken(&[0], chip);
    assert_eq!(stepped.report, STOPPED);
    assert_eq!(stepped.frame, Frame { kind: STOP, energy: 15, ..NO_FRAME });
    assert_eq!(status_of(stepped.chip), 0x60);
    assert_eq!(stepped.chip.interrupt, 1);
    assert_eq!(stepped.chip.sounding, 1);
}

#[test]
fn nine_00_to_try() {
    let image = [0];
    let chip = steps(&image, external(&[0; 9]), 200);
    assert_eq!(status_of(chip), 0x80);
    assert_eq!((chip.level, chip.used, chip.interrupt), (9, 4, 0));
    let at_201 = taken(&image, chip);
    assert_eq!(at_201.report, FRAME);
    assert_eq!(status_of(at_201.chip), 0xC0);
    assert_eq!((at_201.chip.level, at_201.chip.used, at_201.chip.interrupt), (8, 0, 1));
    let at_3400 = steps(&image, at_201.chip, 3_400 - 201);
    assert_eq!(status_of(at_3400), 0xC0);
    assert_eq!((at_3400.level, at_3400.used), (1, 4));
    let at_3401 = taken(&image, at_3400);
    assert_eq!((at_3401.report, at_3401.sample), (RAN_OUT, 0));
    assert_eq!(at_3401.frame, NO_FRAME);
    assert_eq!(status_of(at_3401.chip), 0x60);
    assert_eq!(at_3401.chip, Chip { interrupt: 1, ..power_up() });
}

#[test]
fn seventeenth_byte_to_try() {
    let chip = external(&[1; 16]);
    let answer = write(&[0], chip, 0xF0);
    assert_eq!(answer.refusal, WAIT);
    assert_eq!(answer.chip, chip);
}

#[test]
fn sizes_to_try() {
    for (size, refusal) in [(0, IMAGE), (1, TAKEN), (262_144, TAKEN), (262_145, IMAGE)] {
        let image = vec![0xFF; size];
        assert_eq!(walk(&image, 0).refusal, refusal);
        assert_eq!(frame_at(&image, 0).refusal, refusal);
        assert_eq!(write(&image, power_up(), 0).refusal, refusal);
        assert_eq!(step(&image, &voice(1), power_up()).refusal, refusal);
        assert_eq!(run(&image, &voice(1), power_up(), &mut []).refusal, refusal);
    }
    assert_eq!((voice(1).len(), voice_refusal(&voice(1))), (499, TAKEN));
    assert_eq!((voice(64).len(), voice_refusal(&voice(64))), (562, TAKEN));
    assert_eq!((voice(0).len(), voice_refusal(&voice(0))), (498, VOICE_SIZE));
    assert_eq!((voice(65).len(), voice_refusal(&voice(65))), (563, VOICE_SIZE));
    for count in 1..=64 {
        assert_eq!(voice_refusal(&voice(count)), TAKEN);
    }
}

/// What the paper's lister would print, from the walk and the frames alone.
fn listed(image: &[u8]) -> String {
    let walked = walk(image, 0);
    // 4: "the lister prints them after the number". Only after 10 (D 67).
    if walked.refusal == NO_PHRASE {
        return format!("refused 10 {} {}\n", walked.cut.begun, walked.cut.missing);
    }
    if walked.refusal != TAKEN {
        return format!("refused {}\n", walked.refusal);
    }
    let bytes = walked.part_to - walked.part_from;
    let mut text = format!("phrase {} frames {} bits {bytes} bytes\n", walked.frames, walked.bits);
    let mut at = 0;
    for _ in 0..walked.frames {
        let answer = frame_at(image, at);
        let frame = answer.frame;
        let (word, pitch, ks) = match frame.kind {
            SILENCE => ("silence", "-".to_string(), 0),
            STOP => ("stop", "-".to_string(), 0),
            REPEAT => ("repeat", frame.pitch.to_string(), 0),
            UNVOICED => ("unvoiced", frame.pitch.to_string(), 4),
            _ => ("voiced", frame.pitch.to_string(), 10),
        };
        text += &format!("{at} {word} {} {pitch}", frame.energy);
        for k in &frame.k[1..=ks] {
            text += &format!(" {k}");
        }
        text += "\n";
        at += answer.bits;
    }
    text
}

#[test]
fn list_to_try() {
    let text = "phrase 3 frames 19 bits 3 bytes\n0 silence 0 -\n4 repeat 3 1\n15 stop 15 -\n";
    assert_eq!(listed(&[0x03, 0x83, 0xE0]), text);
    assert_eq!(listed(&[]), "refused 3\n");
    assert_eq!(listed(&[0]), "refused 10 8 4\n");
    assert_eq!(listed(&[0x03, 0x83]), "refused 10 15 3\n");
    let image = bits("0101 0 000000 10001 00001 1001 0110   1110 0 111110 00001 00010 0011 0100 0101 0110 0111 001 010 011  1111");
    let text = "phrase 3 frames 83 bits 11 bytes\n0 unvoiced 5 0 17 1 9 6\n29 voiced 14 62 1 2 3 4 5 6 7 1 2 3\n79 stop 15 -\n";
    assert_eq!(listed(&image), text);
}

// ---------------------------------------------------------------- frames and walk

#[test]
fn widths_and_cuts() {
    for (text, kind, width) in [
        ("0000", SILENCE, 4),
        ("1111", STOP, 4),
        ("0001 1 000000", REPEAT, 11),
        ("1110 1 111111", REPEAT, 11),
        ("0001 0 000000 11111 11111 1111 1111", UNVOICED, 29),
        ("1110 0 000001 11111 11111 1111 1111 1111 1111 1111 111 111 111", VOICED, 50),
    ] {
        for lead in 0..8 {
            // The frame's last bit is the image's last.
            let fill = (800 - width - lead) as usize % 8;
            let lead_text = "0".repeat(lead as usize + fill);
            let image = bits(&format!("{lead_text}{text}"));
            let start = lead + fill as i64;
            assert_eq!(start + width, end(&image));
            let answer = frame_at(&image, start);
            assert_eq!((answer.refusal, answer.frame.kind, answer.bits), (TAKEN, kind, width));
            // One byte less: the bits end inside it, or before it.
            let cut = &image[..image.len() - 1];
            let answer = frame_at(cut, start);
            let refusal = match cut.len() {
                0 => IMAGE,
                _ if start >= end(cut) => BEYOND,
                _ => NO_PHRASE,
            };
            assert_eq!((answer.refusal, answer.frame, answer.bits), (refusal, NO_FRAME, 0));
        }
    }
}

#[test]
fn frames_at_the_end() {
    let image = [0x00, 0x0F];
    assert_eq!(frame_at(&image, 12).refusal, TAKEN);
    for bit in 13..16 {
        assert_eq!(frame_at(&image, bit).refusal, NO_PHRASE);
    }
    assert_eq!(frame_at(&image, 16).refusal, BEYOND);
    assert_eq!(frame_at(&image, 17).refusal, BEYOND);
    assert_eq!(frame_at(&image, 0xFFFF_FFFF).refusal, BEYOND);
    assert_eq!(walk(&image, 0xFFFF_FFFF).refusal, BEYOND);
}

#[test]
fn walk_hands_back_the_part() {
    let image = [0xAA, 0x0F, 0xFF, 0x55];
    let walked = walk(&image, 1);
    assert_eq!((walked.refusal, walked.bits, walked.frames), (TAKEN, 8, 2));
    assert_eq!((walked.intervals, walked.samples), (16, 400));
    assert_eq!((walked.part_from, walked.part_to), (1, 2));
    let walked = walk(&[0x1F, 0xFF, 0], 0);
    assert_eq!((walked.part_from, walked.part_to), (0, 2));
    let refused = walk(&[0xAA, 0x00], 1);
    assert_eq!((refused.refusal, refused.part_from, refused.part_to), (NO_PHRASE, 0, 0));
    assert_eq!((refused.intervals, refused.samples), (0, 0));
    // The last byte of the largest image.
    let mut image = vec![0; 262_144];
    assert_eq!(walk(&image, 0).refusal, NO_PHRASE);
    image[262_143] = 0x0F;
    let walked = walk(&image, 0);
    assert_eq!((walked.bits, walked.frames), (2_097_152, 524_288));
    assert_eq!((walked.part_from, walked.part_to), (0, 262_144));
    assert_eq!(walk(&image, 262_143).frames, 2);
    assert_eq!(walk(&image, 262_144).refusal, BEYOND);
}

// ---------------------------------------------------------------- voice file

#[test]
fn voice_refusals_and_their_order() {
    let good = voice(30);
    assert_eq!(voice_refusal(&[]), VOICE_SIZE);
    assert_eq!(voice_refusal(&good[..498]), VOICE_SIZE);
    assert_eq!(voice_refusal(&good[..499]), VOICE_LENGTH);
    assert_eq!(voice_refusal(&with(&good, 0, &[0, 0])), VOICE_LENGTH);
    assert_eq!(voice_refusal(&with(&good, 0, &[14, 2])), VOICE_LENGTH);
    assert_eq!(voice_refusal(&with(&good, 2, &[0])), VOICE_VERSION);
    assert_eq!(voice_refusal(&with(&good, 2, &[2])), VOICE_VERSION);
    // Energies at 3, pitches at 33, K at 161, the count at 497.
    for (at, bytes, refusal) in [
        (3, [0, 0], TAKEN),
        (3, [0, 1], VOICE_VALUE),
        (5, [0, 0], TAKEN),
        (5, [3, 255], TAKEN),
        (5, [4, 0], VOICE_VALUE),
        (31, [4, 0], VOICE_VALUE),
        (31, [3, 255], TAKEN),
        (33, [0, 1], VOICE_VALUE),
        (35, [0, 0], VOICE_VALUE),
        (35, [0, 1], TAKEN),
        (35, [3, 255], TAKEN),
        (35, [4, 0], VOICE_VALUE),
        (159, [0, 0], VOICE_VALUE),
        (161, [2, 0], VOICE_VALUE),
        (161, [1, 255], TAKEN),
        (161, [254, 0], TAKEN),
        (161, [253, 255], VOICE_VALUE),
        (495, [2, 0], VOICE_VALUE),
        (495, [254, 0], TAKEN),
    ] {
        assert_eq!(voice_refusal(&with(&good, at, &bytes)), refusal, "{at} {bytes:?}");
    }
    for count in [0, 29, 31, 64, 65, 255] {
        assert_eq!(voice_refusal(&with(&good, 497, &[count])), VOICE_PULSE);
    }
    for byte in 0..=255 {
        assert_eq!(voice_refusal(&with(&good, 498, &[byte])), TAKEN);
    }
    // The first in the order wins.
    let all_bad = with(&with(&with(&with(&good, 0, &[9, 9]), 2, &[9]), 5, &[9, 9]), 497, &[0]);
    assert_eq!(voice_refusal(&all_bad), VOICE_LENGTH);
    assert_eq!(voice_refusal(&with(&all_bad, 0, &good[0..2])), VOICE_VERSION);
    assert_eq!(voice_refusal(&with(&all_bad, 0, &good[0..3])), VOICE_VALUE);
    assert_eq!(voice_refusal(&with(&all_bad, 0, &good[0..7])), VOICE_PULSE);
}

#[test]
fn voice_tables() {
    let tables = tables(&voice(40));
    assert_eq!((tables.energy(0), tables.energy(14)), (0, 980));
    assert_eq!((tables.pitch(0), tables.pitch(63)), (0, 1008));
    // The first value of each K: 32, 32, 5 times 16, 3 times 8.
    for (number, before) in [0, 32, 64, 80, 96, 112, 128, 144, 152, 160].into_iter().enumerate() {
        assert_eq!(tables.k(number + 1, 0), 6 * before - 500);
    }
    assert_eq!(tables.k(10, 7), 6 * 167 - 500);
    assert_eq!((tables.pulse(0), tables.pulse(34), tables.pulse(39), tables.pulse(40)), (100, -2, -17, 0));
}

// ---------------------------------------------------------------- state ranges

/// Each of the ranges at its bounds and just outside them.
#[test]
fn state_ranges() {
    let mut external_speech = power_up();
    external_speech.mode = EXTERNAL;
    external_speech.level = 1;
    external_speech.sounding = 1;
    let mut sounding = power_up();
    sounding.sounding = 1;
    let check = |what: &str, chip: Chip, refusal: i64| {
        assert_eq!(state_refusal(&chip), refusal, "{what}");
        let answer = read(chip);
        assert_eq!(answer.refusal, refusal, "{what}");
        if refusal != TAKEN {
            assert_eq!((answer.byte, answer.chip), (0, chip));
            let looked = look(chip);
            assert_eq!((looked.refusal, looked.byte, looked.chip), (refusal, 0, chip));
            let acknowledged = acknowledge(chip);
            assert_eq!((acknowledged.refusal, acknowledged.chip), (refusal, chip));
            let written = write(&[0], chip, 0x70);
            assert_eq!((written.refusal, written.chip), (refusal, chip));
            let stepped = step(&[0], &voice(9), chip);
            assert_eq!((stepped.refusal, stepped.chip, stepped.sample), (refusal, chip, 0));
            assert_eq!((stepped.report, stepped.frame), (NOTHING, NO_FRAME));
            let mut buffer = [9_999; 3];
            let ran = run(&[0], &voice(9), chip, &mut buffer);
            assert_eq!((ran.refusal, ran.chip, buffer), (refusal, chip, [9_999; 3]));
        }
    };
    let range = |what: &str, base: Chip, set: &dyn Fn(&mut Chip, i64), low: i64, high: i64| {
        for (value, refusal) in [(low - 1, STATE), (low, TAKEN), (high, TAKEN), (high + 1, STATE)] {
            let mut chip = base;
            set(&mut chip, value);
            check(&format!("{what} {value}"), chip, refusal);
        }
    };
    check("power-up", power_up(), TAKEN);
    range("current energy", sounding, &|c, v| c.currents.energy = v, 0, 1023);
    range("current pitch", sounding, &|c, v| c.currents.pitch = v, 0, 1023);
    range("target energy", sounding, &|c, v| c.targets.energy = v, 0, 1023);
    range("target pitch", sounding, &|c, v| c.targets.pitch = v, 0, 1023);
    for i in 1..=10 {
        range("current K", sounding, &|c, v| c.currents.k[i] = v, -512, 511);
        range("target K", sounding, &|c, v| c.targets.k[i] = v, -512, 511);
        range("memory", sounding, &|c, v| c.memory[i] = v, -8192, 8191);
    }
    range("noise", sounding, &|c, v| c.noise = v, 1, 8191);
    range("place", sounding, &|c, v| c.place = v, 0, 1022);
    range("sample", sounding, &|c, v| c.sample = v, 0, 24);
    range("interval", sounding, &|c, v| c.interval = v, 0, 7);
    range("nibble", power_up(), &|c, v| c.nibble = v, 0, 4);
    range("position", power_up(), &|c, v| c.position = v, 0, 2_097_152);
    range("level in idle", power_up(), &|c, v| c.level = v, 0, 0);
    range("level in ROM speech", Chip { mode: ROM, ..sounding }, &|c, v| c.level = v, 0, 0);
    range("level in waiting", Chip { mode: WAITING, ..power_up() }, &|c, v| c.level = v, 0, 8);
    range("level in external speech", external_speech, &|c, v| c.level = v, 1, 16);
    check("level 255", Chip { level: 255, ..external_speech }, STATE);
    range("used in external speech", external_speech, &|c, v| c.used = v, 0, 7);
    range("used in idle", power_up(), &|c, v| c.used = v, 0, 0);
    range("used in ROM speech", Chip { mode: ROM, ..sounding }, &|c, v| c.used = v, 0, 0);
    range("used in waiting", Chip { mode: WAITING, level: 1, ..power_up() }, &|c, v| c.used = v, 0, 0);
    for level in 0..=16 {
        let mode = if level == 0 { WAITING } else { EXTERNAL };
        for i in 0..16 {
            let mut chip = Chip { level, mode, ..external_speech };
            chip.fifo[i] = 1;
            check("unheld byte", chip, if (i as i64) < level { TAKEN } else { STATE });
        }
    }
    // The order has no range; what is none of the two is none.
    for base in [power_up(), external(&[1; 3]), external_speech, Chip { mode: ROM, ..sounding }] {
        for device in [TMS5220, TMS5220C] {
            range("order", Chip { device, ..base }, &|c, v| c.order = v, LEAST_FIRST, MOST_FIRST);
        }
    }
    // While sounding `hold` has no range; what is no flag is none.
    for base in [sounding, external_speech, Chip { mode: ROM, ..sounding }, Chip { mode: WAITING, ..sounding }] {
        for device in [TMS5220, TMS5220C] {
            range("hold", Chip { device, ..base }, &|c, v| c.hold = v, 0, 1);
        }
    }
    // Not sounding: sound at rest, no speaking mode.
    range("silent hold", power_up(), &|c, v| c.hold = v, 0, 0);
    range("silent hold in waiting", Chip { mode: WAITING, level: 2, ..power_up() }, &|c, v| c.hold = v, 0, 0);
    range("silent noise", power_up(), &|c, v| c.noise = v, 8191, 8191);
    range("silent place", power_up(), &|c, v| c.place = v, 0, 0);
    range("silent sample", power_up(), &|c, v| c.sample = v, 0, 0);
    range("silent interval", power_up(), &|c, v| c.interval = v, 0, 0);
    range("silent energy", power_up(), &|c, v| c.currents.energy = v, 0, 0);
    range("silent target", power_up(), &|c, v| c.targets.k[10] = v, 0, 0);
    range("silent memory", power_up(), &|c, v| c.memory[10] = v, 0, 0);
    check("silent ROM speech", Chip { mode: ROM, ..power_up() }, STATE);
    check("silent external speech", Chip { sounding: 0, ..external_speech }, STATE);
    check("silent waiting", Chip { mode: WAITING, ..power_up() }, TAKEN);
    check("sounding idle", sounding, TAKEN);
    check("sounding waiting", Chip { mode: WAITING, ..sounding }, TAKEN);
    // Data.
    check("no pending data, byte", Chip { data: 1, ..power_up() }, STATE);
    check("pending 0", Chip { pending: 1, ..power_up() }, TAKEN);
    check("pending 255", Chip { pending: 1, data: 255, ..sounding }, TAKEN);
    check("pending in ROM speech", Chip { pending: 1, mode: ROM, ..sounding }, STATE);
    check("pending in waiting", Chip { pending: 1, mode: WAITING, ..power_up() }, STATE);
    check("pending in external speech", Chip { pending: 1, ..external_speech }, STATE);
    check("interrupt", Chip { interrupt: 1, ..power_up() }, TAKEN);
    // Busy samples: in idle alone, sounding or not.
    for device in [TMS5220, TMS5220C] {
        range("busy in idle", Chip { device, ..power_up() }, &|c, v| c.busy = v, 0, 2);
        range("busy in a stop's frame", Chip { device, ..sounding }, &|c, v| c.busy = v, 0, 2);
        range("busy in ROM speech", Chip { device, mode: ROM, ..sounding }, &|c, v| c.busy = v, 0, 0);
        range("busy in waiting", Chip { device, mode: WAITING, ..power_up() }, &|c, v| c.busy = v, 0, 0);
        range("busy in waiting, sounding", Chip { device, mode: WAITING, ..sounding }, &|c, v| c.busy = v, 0, 0);
        range("busy in external speech", Chip { device, ..external_speech }, &|c, v| c.busy = v, 0, 0);
    }
    for mode in [IDLE, ROM, WAITING] {
        check("busy 2", Chip { mode, busy: 2, ..sounding }, if mode == IDLE { TAKEN } else { STATE });
        check("busy 255", Chip { mode, busy: 255, ..sounding }, STATE);
    }
}

// ---------------------------------------------------------------- order of checks

#[test]
fn order_of_checks() {
    let bad_chip = Chip { nibble: 5, ..power_up() };
    let good = voice(7);
    let bad_voices = [
        (good[..10].to_vec(), VOICE_SIZE),
        (with(&good, 0, &[0, 0]), VOICE_LENGTH),
        (with(&good, 2, &[0]), VOICE_VERSION),
        (with(&good, 3, &[0, 1]), VOICE_VALUE),
        (with(&good, 497, &[0]), VOICE_PULSE),
    ];
    for (file, refusal) in &bad_voices {
        assert_eq!(step(&[], file, bad_chip).refusal, IMAGE);
        assert_eq!(step(&[0], file, bad_chip).refusal, *refusal);
        // Also while silent (D 45), and into an empty buffer.
        assert_eq!(step(&[0], file, power_up()).refusal, *refusal);
        assert_eq!(run(&[0], file, power_up(), &mut []).refusal, *refusal);
    }
    assert_eq!(step(&[0], &good, bad_chip).refusal, STATE);
    assert_eq!(run(&[0], &good, bad_chip, &mut []).refusal, STATE);
    assert_eq!(run(&[0], &good, power_up(), &mut []).refusal, TAKEN);
    // Image before state, state before WAIT, WAIT before BEYOND.
    let speaking = writes(&[0], power_up(), &[0x50]);
    assert_eq!(write(&[], Chip { nibble: 5, ..speaking }, 0x10).refusal, IMAGE);
    assert_eq!(write(&[0], Chip { nibble: 5, ..speaking }, 0x10).refusal, STATE);
    let past = Chip { position: 80, ..speaking };
    assert_eq!(write(&[0], past, 0x10).refusal, WAIT);
    let full = Chip { level: 16, ..external(&[1; 9]) };
    assert_eq!(write(&[], full, 0).refusal, IMAGE);
    assert_eq!(write(&[0], Chip { nibble: 5, ..full }, 0).refusal, STATE);
    assert_eq!(write(&[0], full, 0).refusal, WAIT);
    // A busy chip waits at the same place.
    let busy = Chip { busy: 2, position: 80, ..power_up() };
    for byte in [0x10, 0x30, 0x50, 0x70] {
        assert_eq!(write(&[], Chip { nibble: 5, ..busy }, byte).refusal, IMAGE);
        assert_eq!(write(&[], busy, byte).refusal, IMAGE);
        assert_eq!(write(&[0], Chip { nibble: 5, ..busy }, byte).refusal, STATE);
        assert_eq!(write(&[0], Chip { busy: 3, ..busy }, byte).refusal, STATE);
        assert_eq!(write(&[0], busy, byte).refusal, WAIT);
        let beyond = if byte == 0x70 { TAKEN } else { BEYOND };
        assert_eq!(write(&[0], Chip { busy: 0, ..busy }, byte).refusal, beyond);
    }
    // Reset too, and FIFO bytes.
    assert_eq!(write(&[], power_up(), 0x70).refusal, IMAGE);
    assert_eq!(write(&[0], bad_chip, 0x70).refusal, STATE);
    assert_eq!(write(&[], external(&[]), 1).refusal, IMAGE);
    // A read takes state only.
    assert_eq!(read(power_up()).refusal, TAKEN);
    assert_eq!(read(bad_chip).refusal, STATE);
}

// ---------------------------------------------------------------- writes

#[test]
fn wait_while_speaking_from_rom() {
    let image = [0; 8];
    let speaking = writes(&image, power_up(), &[0x50]);
    for byte in 0..256 {
        let answer = write(&image, speaking, byte);
        if byte & 0x70 == 0x70 {
            assert_eq!((answer.refusal, answer.chip), (TAKEN, power_up()));
        } else {
            assert_eq!((answer.refusal, answer.chip), (WAIT, speaking));
        }
    }
}

#[test]
fn beyond_in_writes() {
    let image = [0xFF, 0x01, 0x80];
    for position in 0..40 {
        let chip = Chip { position, pending: 1, data: 7, nibble: 3, ..power_up() };
        let refused = |byte: i64| {
            let answer = write(&image, chip, byte);
            if answer.refusal != TAKEN {
                assert_eq!(answer.chip, chip);
            }
            answer.refusal
        };
        assert_eq!(refused(0x10), if position <= 16 { TAKEN } else { BEYOND });
        assert_eq!(refused(0x30), if position <= 15 { TAKEN } else { BEYOND });
        assert_eq!(refused(0x50), if position <= 23 { TAKEN } else { BEYOND });
        for byte in [0x00, 0x20, 0x40, 0x60, 0x70] {
            assert_eq!(refused(byte), TAKEN);
        }
    }
    let top = Chip { position: 2_097_152, ..power_up() };
    let image = vec![0; 262_144];
    for byte in [0x10, 0x30, 0x50] {
        assert_eq!(write(&image, top, byte).refusal, BEYOND);
    }
    // No command in the external modes.
    let waiting = Chip { position: 2_097_152, ..external(&[]) };
    assert_eq!(write(&image, waiting, 0x10).refusal, TAKEN);
}

#[test]
fn top_bit_ignored() {
    let image = [0x12, 0x34, 0x56, 0x78];
    for byte in 0..128 {
        let chip = Chip { nibble: 2, ..power_up() };
        assert_eq!(write(&image, chip, byte).chip, write(&image, chip, byte + 128).chip);
    }
}

#[test]
fn load_address() {
    let image = [0];
    // The fifth load: only the two low bits count; the sixth is the lowest.
    let chip = writes(&image, power_up(), &[0x4F, 0x4F, 0x4F, 0x4F, 0x4F]);
    assert_eq!((chip.position, chip.nibble), (8 * 262_143, 0));
    let chip = writes(&image, chip, &[0x40]);
    assert_eq!((chip.position, chip.nibble), (8 * 262_128, 1));
    let chip = writes(&image, power_up(), &[0x40, 0x40, 0x40, 0x40, 0x4C]);
    assert_eq!((chip.position, chip.nibble), (0, 0));
    // At the last position the base is 0; within a byte the bits are dropped.
    let chip = writes(&image, Chip { position: 2_097_152, ..power_up() }, &[0x43]);
    assert_eq!(chip.position, 8 * 3);
    let chip = writes(&image, Chip { position: 8 * 0x12345 + 5, nibble: 2, ..power_up() }, &[0x4A]);
    assert_eq!((chip.position, chip.nibble), (8 * 0x12A45, 3));
}

#[test]
fn nibble_restarts() {
    let image = [0; 4];
    for nibble in 0..5 {
        let chip = Chip { nibble, ..power_up() };
        for byte in [0x10, 0x30, 0x50, 0x70] {
            assert_eq!(write(&image, chip, byte).chip.nibble, 0);
        }
        for byte in [0x00, 0x20, 0x60] {
            assert_eq!(write(&image, chip, byte).chip.nibble, nibble);
        }
        assert_eq!(read(chip).chip.nibble, nibble);
        // A refused one restarts nothing.
        let past = Chip { position: 32, ..chip };
        assert_eq!(write(&image, past, 0x10).chip.nibble, nibble);
    }
}

#[test]
fn read_byte_and_reads() {
    let image = [0b1010_0101, 0b1100_0011];
    let mut chip = writes(&image, Chip { position: 3, interrupt: 1, ..power_up() }, &[0x10]);
    assert_eq!((chip.position, chip.pending, chip.data), (11, 1, 0b0010_1110));
    // The data read keeps the interrupt, the status read clears it.
    let answer = read(chip);
    assert_eq!((answer.refusal, answer.byte), (TAKEN, 0b0010_1110));
    chip = answer.chip;
    assert_eq!((chip.pending, chip.data, chip.interrupt), (0, 0, 1));
    let answer = read(chip);
    assert_eq!((answer.byte, answer.chip.interrupt), (0x60, 0));
    // Each taken write ends pending data; a refused one does not.
    let pending = writes(&image, power_up(), &[0x10]);
    for byte in [0x00, 0x20, 0x40, 0x30, 0x50, 0x60] {
        let answer = write(&image, Chip { position: 0, ..pending }, byte);
        assert_eq!((answer.refusal, answer.chip.pending, answer.chip.data), (TAKEN, 0, 0));
    }
    let late = Chip { position: 9, ..pending };
    let answer = write(&image, late, 0x10);
    assert_eq!((answer.refusal, answer.chip), (BEYOND, late));
    // Another Read Byte replaces the byte.
    let again = writes(&image, pending, &[0x10]);
    assert_eq!((again.pending, again.data, again.position), (1, 0b1100_0011, 16));
    // A step keeps it.
    assert_eq!(taken(&image, again).chip, again);
}

#[test]
fn read_and_branch() {
    // Unaligned: the byte that holds the position.
    let image = [0, 0x03, 0x01, 0];
    let chip = writes(&image, Chip { position: 8 + 7, ..power_up() }, &[0x30]);
    assert_eq!(chip.position, 8 * 0x103);
    // Across the chips: the second byte is in the next one, the chip part of
    // the address is the first byte's.
    let mut image = vec![0; 40_000];
    image[16_383] = 0x34;
    image[16_384] = 0xF2;
    let chip = writes(&image, Chip { position: 8 * 16_383, ..power_up() }, &[0x30]);
    assert_eq!(chip.position, 8 * 0x3234);
    image[16_385] = 0x01;
    let chip = writes(&image, Chip { position: 8 * 16_384, ..power_up() }, &[0x30]);
    assert_eq!(chip.position, 8 * (0x4000 + 0x01F2));
}

#[test]
fn reset_cannot_end_the_external_modes() {
    let chip = external(&[0x70]);
    assert_eq!((chip.mode, chip.level, chip.fifo[0]), (WAITING, 1, 0x70));
    let chip = writes(&[0], chip, &[0; 8]);
    assert_eq!((chip.mode, chip.level), (EXTERNAL, 9));
    let chip = writes(&[0], chip, &[0xF0]);
    assert_eq!((chip.mode, chip.level, chip.fifo[9]), (EXTERNAL, 10, 0xF0));
}

#[test]
fn ts_rising_starts_from_rest() {
    let image = [0xFF];
    let rest = Chip { sounding: 1, ..power_up() };
    assert_eq!(writes(&image, power_up(), &[0x50]), Chip { mode: ROM, ..rest });
    // While a stop's frame sounds: Speak External leaves the sound, the ninth
    // byte restarts it.
    let mut dice = Dice(77);
    let mut old = rest;
    old.currents = dice.values();
    old.targets = dice.values();
    old.memory[4] = -5;
    old.sample = 7;
    old.interval = 3;
    old.noise = 55;
    old.place = 66;
    old.hold = 1;
    let waiting = writes(&image, old, &[0x60]);
    assert_eq!(waiting, Chip { mode: WAITING, ..old });
    let eight = writes(&image, waiting, &[1, 2, 3, 4, 5, 6, 7, 8]);
    assert_eq!((eight.sample, eight.noise, eight.mode, eight.level), (7, 55, WAITING, 8));
    assert_eq!(eight.hold, 1);
    let nine = writes(&image, eight, &[9]);
    let mut expected = Chip { mode: EXTERNAL, level: 9, ..rest };
    for i in 0..9 {
        expected.fifo[i] = i as i64 + 1;
    }
    assert_eq!(nine, expected);
    assert_eq!(writes(&image, old, &[0x50]), Chip { mode: ROM, ..rest });
    assert_eq!(writes(&image, old, &[0x70]), power_up());
}

// ---------------------------------------------------------------- steps

#[test]
fn not_sounding_changes_nothing() {
    for chip in [power_up(), external(&[0xFF; 8]), Chip { interrupt: 1, position: 99, ..power_up() }] {
        let stepped = taken(&[0], chip);
        assert_eq!((stepped.chip, stepped.sample, stepped.report), (chip, 0, NOTHING));
        assert_eq!(stepped.frame, NO_FRAME);
    }
    // But for the busy samples.
    let quiet = Chip { interrupt: 1, position: 99, nibble: 3, pending: 1, data: 7, ..power_up_with(TMS5220C, MOST_FIRST) };
    for busy in 1..=2 {
        let stepped = taken(&[0], Chip { busy, ..quiet });
        assert_eq!((stepped.chip, stepped.sample, stepped.report), (Chip { busy: busy - 1, ..quiet }, 0, NOTHING));
        assert_eq!((stepped.frame, stepped.short, stepped.thrown), (NO_FRAME, NOT_SHORT, 0));
    }
}

#[test]
fn stop_still_sounds_200_samples() {
    let image = [0xFF];
    let first = taken(&image, writes(&image, power_up(), &[0x50]));
    assert_eq!((first.report, first.frame.kind), (STOPPED, STOP));
    assert_eq!((first.chip.mode, first.chip.position, first.chip.sounding), (IDLE, 4, 1));
    assert_eq!((first.chip.sample, first.chip.interval, first.chip.interrupt), (1, 0, 1));
    let last = steps(&image, first.chip, 199);
    assert_eq!((last.sample, last.interval, last.sounding), (0, 0, 1));
    // A status read in between clears the interrupt; the boundary sets none.
    let stepped = taken(&image, read(last).chip);
    assert_eq!((stepped.report, stepped.sample, stepped.frame), (NOTHING, 0, NO_FRAME));
    assert_eq!(stepped.chip, Chip { position: 4, ..power_up() });
}

#[test]
fn boundary_in_waiting_keeps_the_fifo() {
    let mut chip = external(&[0xFF, 0xFE]);
    chip.sounding = 1;
    chip.noise = 5;
    chip.targets.energy = 9;
    chip.hold = 1;
    let stepped = taken(&[0], chip);
    assert_eq!(stepped.chip, external(&[0xFF, 0xFE]));
    assert_eq!((stepped.report, stepped.sample), (NOTHING, 0));
}

#[test]
fn rom_runs_out() {
    // Inside a frame, after three bits, and before the first bit.
    for (position, image) in [(4, vec![0x01]), (5, vec![0x00]), (8, vec![0x00]), (0, vec![0x10])] {
        let chip = Chip { mode: ROM, sounding: 1, position, noise: 3, hold: 1, ..power_up() };
        let stepped = taken(&image, chip);
        assert_eq!((stepped.report, stepped.sample, stepped.frame), (RAN_OUT, 0, NO_FRAME));
        assert_eq!(stepped.chip, Chip { position: 8, interrupt: 1, ..power_up() });
    }
    // Past the end it stays.
    let chip = Chip { mode: ROM, sounding: 1, position: 9, ..power_up() };
    assert_eq!(taken(&[0], chip).chip, Chip { position: 9, interrupt: 1, ..power_up() });
    // A frame that ends exactly with the image is whole; then it runs out.
    let chip = Chip { mode: ROM, sounding: 1, position: 4, ..power_up() };
    let stepped = taken(&[0], chip);
    assert_eq!((stepped.report, stepped.chip.position, stepped.chip.mode), (FRAME, 8, ROM));
    assert_eq!(stepped.chip.interrupt, 0);
    let stepped = taken(&[0], steps(&[0], stepped.chip, 199));
    assert_eq!((stepped.report, stepped.chip.position), (RAN_OUT, 8));
    // Speak with three bits left is taken, and step 1 runs out.
    let chip = writes(&[0xFF], Chip { position: 5, ..power_up() }, &[0x50]);
    assert_eq!(taken(&[0xFF], chip).report, RAN_OUT);
}

/// An external-speech chip with these bytes, used bits, at a boundary; most
/// significant bit first.
fn speech(bytes: &[i64], used: i64) -> Chip {
    let mut chip = most_first();
    chip.mode = EXTERNAL;
    chip.sounding = 1;
    chip.level = bytes.len() as i64;
    chip.used = used;
    chip.fifo[..bytes.len()].copy_from_slice(bytes);
    chip
}

#[test]
fn fifo_ends() {
    let out = Chip { interrupt: 1, ..most_first() };
    let runs_out = |chip: Chip| {
        let stepped = taken(&[0], chip);
        assert_eq!((stepped.report, stepped.sample, stepped.frame), (RAN_OUT, 0, NO_FRAME), "{chip:?}");
        assert_eq!(stepped.chip, out);
    };
    // The bits end inside a frame: in the energy, the pitch, K1.
    runs_out(speech(&[0xFF], 5));
    runs_out(speech(&[0x10], 0));
    runs_out(speech(&[0xF1, 0x00], 4));
    // They end exactly with a frame other than a stop: silence, repeat.
    runs_out(speech(&[0xF0], 4));
    runs_out(speech(&[0xFE, 0x2A], 5));
    runs_out(Chip { hold: 1, ..speech(&[0xFE, 0x2A], 5) });
    // One bit more, and the silence is a frame.
    let stepped = taken(&[0], speech(&[0xE0], 3));
    assert_eq!((stepped.report, stepped.chip.level, stepped.chip.used), (FRAME, 1, 7));
    let stepped = taken(&[0], speech(&[0, 0], 4));
    assert_eq!((stepped.report, stepped.chip.level, stepped.chip.used), (FRAME, 1, 0));
    // They end exactly with a stop.
    let stepped = taken(&[0], speech(&[0x0F], 4));
    assert_eq!((stepped.report, stepped.frame.kind), (STOPPED, STOP));
    assert_eq!((stepped.chip.mode, stepped.chip.level, stepped.chip.used), (IDLE, 0, 0));
    assert_eq!((stepped.chip.fifo, stepped.chip.sounding, stepped.chip.interrupt), ([0; 16], 1, 1));
    // A stop with bytes held behind it: they are discarded.
    let stepped = taken(&[0], speech(&[0x1F, 1, 2, 3, 4, 5, 6, 7, 8, 9, 10, 11, 12, 13, 14, 15], 4));
    assert_eq!((stepped.report, stepped.chip.mode), (STOPPED, IDLE));
    assert_eq!((stepped.chip.level, stepped.chip.used, stepped.chip.fifo), (0, 0, [0; 16]));
    assert_eq!(state_refusal(&stepped.chip), TAKEN);
    // After it a byte is a command again.
    assert_eq!(write(&[0], stepped.chip, 0x70).chip, most_first());
}

#[test]
fn fifo_bits_leave_in_order() {
    // Voiced, 50 bits: six bytes go, two bits are used.
    let bytes: Vec<i64> = bits("1110 0 111110 00001 00010 0011 0100 0101 0110 0111 001 010 011 000000 11110000 00001111")
        .iter()
        .map(|byte| i64::from(*byte))
        .collect();
    assert_eq!(bytes.len(), 9);
    let stepped = taken(&[0], speech(&bytes, 0));
    assert_eq!(stepped.frame, Frame { kind: VOICED, energy: 14, pitch: 62, k: [0, 1, 2, 3, 4, 5, 6, 7, 1, 2, 3], rate: 0 });
    assert_eq!((stepped.chip.level, stepped.chip.used), (3, 2));
    assert_eq!(stepped.chip.fifo[..4], [bytes[6], 0xF0, 0x0F, 0]);
    // BL rises: interrupt.
    assert_eq!((status(&stepped.chip), stepped.chip.interrupt), (0xC0, 1));
    // Again with BL there before: none.
    let stepped = taken(&[0], speech(&bytes[..8], 0));
    assert_eq!((stepped.chip.level, stepped.chip.interrupt), (2, 0));
    // Ten bytes to nine: none.
    let stepped = taken(&[0], speech(&[0; 10], 4));
    assert_eq!((stepped.chip.level, stepped.chip.used, stepped.chip.interrupt), (9, 0, 0));
    // Nine to eight: set. Four bits of nine leave nine held.
    let stepped = taken(&[0], speech(&[0; 9], 4));
    assert_eq!((stepped.chip.level, stepped.chip.used, stepped.chip.interrupt), (8, 0, 1));
    let stepped = taken(&[0], speech(&[0; 9], 3));
    assert_eq!((stepped.chip.level, stepped.chip.used, stepped.chip.interrupt), (9, 7, 0));
}

#[test]
fn interrupt_stays() {
    let chip = Chip { interrupt: 1, ..speech(&[0; 9], 0) };
    assert_eq!(taken(&[0], chip).chip.interrupt, 1);
}

#[test]
fn targets_of_each_kind() {
    let mut old = ZERO_VALUES;
    old.energy = 11;
    old.pitch = 22;
    for i in 1..=10 {
        old.k[i] = i as i64 - 100;
    }
    let targets = |text: &str| {
        let image = bits(text);
        let chip = Chip { mode: ROM, sounding: 1, targets: old, ..power_up() };
        taken(&image, chip).chip.targets
    };
    assert_eq!(targets("0000"), Values { energy: 0, ..old });
    assert_eq!(targets("1111"), Values { energy: 0, ..old });
    assert_eq!(targets("0011 1 000101"), Values { energy: 210, pitch: 80, ..old });
    assert_eq!(targets("0011 1 000000"), Values { energy: 210, pitch: 0, ..old });
    let at = |j: i64| 6 * j - 500;
    assert_eq!(
        targets("0101 0 000000 10001 00001 1001 0110"),
        Values { energy: 350, pitch: 0, k: [0, at(17), at(33), at(64 + 9), at(80 + 6), 0, 0, 0, 0, 0, 0] }
    );
    assert_eq!(
        targets("1110 0 111110 00001 00010 0011 0100 0101 0110 0111 001 010 011"),
        Values {
            energy: 980,
            pitch: 992,
            k: [
                0,
                at(1),
                at(32 + 2),
                at(64 + 3),
                at(80 + 4),
                at(96 + 5),
                at(112 + 6),
                at(128 + 7),
                at(144 + 1),
                at(152 + 2),
                at(160 + 3)
            ]
        }
    );
}

/// Idle, sounding, in the middle of an interval: only the sound is computed.
fn middle() -> Chip {
    Chip { sounding: 1, sample: 3, interval: 2, ..power_up() }
}

#[test]
fn samples_by_hand() {
    let image = [0];
    // Unvoiced, register odd: -64; the place goes to 0 at current pitch 0.
    let mut chip = middle();
    chip.currents.energy = 100;
    let stepped = taken(&image, chip);
    assert_eq!(stepped.sample, -100);
    assert_eq!((stepped.chip.noise, stepped.chip.place, stepped.chip.sample), (8190, 0, 4));
    assert_eq!(stepped.chip.memory[1], -100);
    // Register even: 64. Through the lattice.
    chip.noise = 8190;
    chip.currents.k[10] = 511;
    chip.memory[10] = 7;
    chip.currents.k[1] = 256;
    chip.memory[1] = -3;
    chip.memory[9] = 77;
    let stepped = taken(&image, chip);
    // Forward 10 = 100 - floor(3577 / 512) = 94; forward 1 = 94 - floor(-768 /
    // 512) = 96.
    assert_eq!(stepped.sample, 96);
    assert_eq!(stepped.chip.memory, [0, 96, -3 + 48, 0, 0, 0, 0, 0, 0, 0, 77]);
    // Voiced by the target, pulse -2 at place 34; floor(3 × -2 / 64) = -1.
    let mut chip = middle();
    chip.currents.energy = 3;
    chip.targets.pitch = 1;
    chip.currents.pitch = 36;
    chip.place = 34;
    let stepped = taken(&image, chip);
    assert_eq!((stepped.sample, stepped.chip.place, stepped.chip.noise), (-1, 35, 8190));
    let stepped = taken(&image, stepped.chip);
    assert_eq!((stepped.chip.place, stepped.chip.noise), (0, 8189));
    // Target pitch 0, current pitch not: noise. The other way round: pulses.
    let mut fading = middle();
    fading.currents.energy = 64;
    fading.currents.pitch = 36;
    fading.place = 1;
    let stepped = taken(&image, fading);
    assert_eq!((stepped.sample, stepped.chip.place), (-64, 2));
    fading.currents.pitch = 0;
    fading.targets.pitch = 36;
    let stepped = taken(&image, fading);
    assert_eq!((stepped.sample, stepped.chip.place), (97, 0));
    // 0 past the table's end.
    chip.place = 41;
    chip.currents.pitch = 1023;
    let stepped = taken(&image, chip);
    assert_eq!((stepped.sample, stepped.chip.place), (0, 42));
    chip.place = 1022;
    assert_eq!(taken(&image, chip).chip.place, 0);
    chip.place = 1021;
    assert_eq!(taken(&image, chip).chip.place, 1022);
}

#[test]
fn filter_is_held() {
    let image = [0];
    let mut chip = middle();
    chip.noise = 8190;
    chip.currents.energy = 100;
    chip.currents.k[1] = -512;
    chip.memory[1] = 8191;
    // Forward 1 = 100 + 8191, held.
    let stepped = taken(&image, chip);
    assert_eq!((stepped.sample, stepped.chip.memory[1], stepped.chip.memory[2]), (511, 8191, 0));
    // Forward 1 = 100 - 8192 = -8092, memory 2 = -8192 + 8092.
    chip.memory[1] = -8192;
    let stepped = taken(&image, chip);
    assert_eq!((stepped.sample, stepped.chip.memory[1], stepped.chip.memory[2]), (-512, -8092, -100));
    // Floor in the memory: K1 times forward 1 is 3 × -100 = -300.
    let mut down = middle();
    down.currents.energy = 100;
    down.currents.k[1] = 3;
    assert_eq!(taken(&image, down).chip.memory[1..=2], [-100, -1]);
    // The same below: the input is -100.
    chip.noise = 8191;
    let stepped = taken(&image, chip);
    assert_eq!((stepped.chip.memory[1], stepped.chip.memory[2]), (-8192, 0));
    // Memory held: forward 2 is 8191, K1 a half.
    let mut chip = middle();
    chip.noise = 8190;
    chip.currents.energy = 100;
    chip.currents.k[2] = -512;
    chip.memory[2] = 8191;
    chip.currents.k[1] = 256;
    chip.memory[1] = 8191;
    let stepped = taken(&image, chip);
    assert_eq!(stepped.chip.memory[1..=3], [4096, 8191, 0]);
}

/// A current after an interval's first sample, by 3 and 01.
fn next_current(hold: bool, current: i64, target: i64, interval: i64) -> i64 {
    match (hold, interval) {
        (true, 0..=6) => current,
        (true, _) => target,
        _ => nearer(current, target, interval),
    }
}

#[test]
fn interpolation_in_steps() {
    // A silence after a voiced frame: pitch and K stay at their targets. The
    // voiced frame is the first and holds, the silence doesn't.
    let image = bits("1110 0 000101 00001 00010 0011 0100 0101 0110 0111 001 010 011 0000 1111");
    let mut chip = writes(&image, power_up(), &[0x50]);
    let mut expected = 0;
    for number in 0..400 {
        let stepped = taken(&image, chip);
        chip = stepped.chip;
        let (frame, interval) = (number / 200, number / 25 % 8);
        if number % 25 == 0 {
            expected = next_current(frame == 0, expected, [980, 0][frame as usize], interval);
        }
        assert_eq!(chip.currents.energy, expected, "sample {number}");
        assert_eq!(stepped.report, if number % 200 == 0 { FRAME } else { NOTHING });
        let next = (number + 1) % 200;
        assert_eq!((chip.interval, chip.sample), (next / 25, next % 25));
    }
    assert_eq!((chip.currents.energy, chip.currents.pitch, chip.currents.k[1]), (0, 80, -494));
    assert_eq!(chip.targets.pitch, 80);
}

// ---------------------------------------------------------------- TMS5220C

/// The TMS5220C with this v and rr.
fn rated(v: i64, rr: i64) -> Chip {
    Chip { v, rr, ..power_up_of(TMS5220C) }
}

#[test]
fn load_frame_rate() {
    let image = [0; 4];
    // Each byte, on both devices, with data pending and a nibble.
    for byte in 0..256 {
        for device in [TMS5220, TMS5220C] {
            let before = Chip { pending: 1, data: 9, nibble: 3, interrupt: 1, ..power_up_of(device) };
            let after = writes(&image, before, &[byte]);
            if [0x00, 0x20].contains(&(byte & 0x70)) {
                let kept = Chip { pending: 0, data: 0, ..before };
                let rate = if device == TMS5220C { (byte >> 2 & 1, byte & 3) } else { (0, 0) };
                assert_eq!(after, Chip { v: rate.0, rr: rate.1, ..kept }, "byte {byte:02x}");
            } else {
                assert_eq!((after.device, after.v, after.rr), (device, 0, 0));
            }
        }
    }
    assert_eq!(writes(&image, power_up_of(TMS5220C), &[0x07]), rated(1, 3));
    assert_eq!(writes(&image, rated(1, 3), &[0x20]), rated(0, 0));
    // Other commands keep it; Reset does not, and the device stays.
    for byte in [0x10, 0x30, 0x4F, 0x50, 0x60] {
        let chip = writes(&image, rated(1, 2), &[byte]);
        assert_eq!((chip.device, chip.v, chip.rr), (TMS5220C, 1, 2));
    }
    assert_eq!(writes(&image, rated(1, 2), &[0x70]), power_up_of(TMS5220C));
    // Speaking from ROM it has to wait, but for Reset.
    let speaking = writes(&image, rated(1, 2), &[0x50]);
    for byte in [0x00, 0x07, 0x20, 0xAF] {
        let answer = write(&image, speaking, byte);
        assert_eq!((answer.refusal, answer.chip), (WAIT, speaking));
    }
    assert_eq!(writes(&image, speaking, &[0x70]), power_up_of(TMS5220C));
    // In the external modes it is a byte for the FIFO.
    let waiting = writes(&image, rated(1, 2), &[0x60, 0x01]);
    assert_eq!((waiting.mode, waiting.level, waiting.fifo[0]), (WAITING, 1, 1));
    assert_eq!((waiting.v, waiting.rr), (1, 2));
    let speech = writes(&image, waiting, &[0; 9]);
    assert_eq!((speech.mode, speech.level, speech.v, speech.rr), (EXTERNAL, 10, 1, 2));
}

#[test]
fn rate_ranges() {
    for (v, rr, refusal) in [
        (0, 0, TAKEN),
        (1, 3, TAKEN),
        (2, 0, STATE),
        (255, 0, STATE),
        (-1, 0, STATE),
        (0, 4, STATE),
        (1, 4, STATE),
        (1, 255, STATE),
        (0, -1, STATE),
    ] {
        assert_eq!(state_refusal(&rated(v, rr)), refusal);
        assert_eq!(read(rated(v, rr)).refusal, refusal);
        assert_eq!(write(&[0], rated(v, rr), 0x70).refusal, refusal);
        assert_eq!(step(&[0], &voice(1), rated(v, rr)).refusal, refusal);
        assert_eq!(rated_walk(&[0xFF], v, rr, 0).refusal, refusal);
        // 3, then 4, then 2.
        assert_eq!(rated_walk(&[], v, rr, 1).refusal, IMAGE);
        assert_eq!(rated_walk(&[0xFF], v, rr, 1).refusal, if refusal == TAKEN { BEYOND } else { STATE });
        let told = told_v_refusal(v);
        assert_eq!(rated_frame_at(&[0xFF], v, 0).refusal, told);
        assert_eq!(rated_frame_at(&[], v, 8).refusal, IMAGE);
        assert_eq!(rated_frame_at(&[0xFF], v, 8).refusal, if told == TAKEN { BEYOND } else { STATE });
    }
}

/// A frame of each kind, with its width.
const KINDS_TO_TRY: [(&str, i64, i64); 5] = [
    ("0000", SILENCE, 4),
    ("1111", STOP, 4),
    ("0011 1 000101", REPEAT, 11),
    ("0101 0 000000 10001 00001 1001 0110", UNVOICED, 29),
    ("1110 0 111110 00001 00010 0011 0100 0101 0110 0111 001 010 011", VOICED, 50),
];

#[test]
fn frames_with_rate_bits() {
    for (text, kind, width) in KINDS_TO_TRY {
        for rate in 0..4 {
            let whole = format!("{rate:02b} {text}");
            let image = bits(&whole);
            let answer = rated_frame_at(&image, 1, 0);
            assert_eq!((answer.refusal, answer.frame.kind, answer.bits), (TAKEN, kind, width + 2));
            assert_eq!(answer.frame.rate, rate);
            // The frame without its rate bits, but for the rate.
            let plain = rated_frame_at(&bits(text), 0, 0);
            assert_eq!((plain.bits, plain.frame), (width, Frame { rate: 0, ..answer.frame }));
            // Cut after each of its bits.
            let digits: String = whole.chars().filter(|c| *c != ' ').collect();
            for present in 1..digits.len() {
                let lead = (80 - present) % 8;
                let image = bits(&format!("{}{}", "1".repeat(lead), &digits[..present]));
                let answer = rated_frame_at(&image, 1, lead as i64);
                assert_eq!((answer.refusal, answer.bits, answer.frame), (NO_PHRASE, 0, NO_FRAME));
            }
        }
    }
}

#[test]
fn walks_with_rates() {
    let rates = [3, 1, 0, 2, 3];
    let order = [4, 2, 3, 0, 1];
    let text: String = (0..5).map(|i| format!("{:02b} {} ", rates[i], KINDS_TO_TRY[order[i]].0)).collect();
    let image = bits(&text);
    for rr in 0..4 {
        let walked = rated_walk(&image, 1, rr, 0);
        assert_eq!((walked.refusal, walked.bits, walked.frames), (TAKEN, 98 + 10, 5));
        assert_eq!((walked.intervals, walked.samples), (2 + 6 + 8 + 4 + 2, 550));
        assert_eq!((walked.part_from, walked.part_to), (0, 14));
    }
    let text: String = order.map(|i| KINDS_TO_TRY[i].0).concat();
    let image = bits(&text);
    for (rr, samples) in [200, 150, 100, 50].into_iter().enumerate() {
        let walked = rated_walk(&image, 0, rr as i64, 0);
        assert_eq!((walked.bits, walked.frames, walked.samples), (98, 5, 5 * samples));
        assert_eq!(walked.intervals, walked.samples / 25);
        assert_eq!((walked.part_from, walked.part_to), (0, 13));
    }
}

#[test]
fn short_frames_skip_the_first_intervals() {
    for rate in 0..4 {
        let plain = "1110 0 000101 00001 00010 0011 0100 0101 0110 0111 001 010 011 0000 1111";
        let with_bits = format!(
            "{rate:02b} 1110 0 000101 00001 00010 0011 0100 0101 0110 0111 001 010 011 {rate:02b} 0000 {rate:02b} 1111"
        );
        for (v, rr, image) in [(0, rate, bits(plain)), (1, 3 - rate, bits(&with_bits))] {
            let length = 200 - 50 * rate;
            let mut chip = writes(&image, rated(v, rr), &[0x50]);
            let mut expected = 0;
            for number in 0..3 * length {
                let stepped = taken(&image, chip);
                chip = stepped.chip;
                let (frame, interval) = (number / length, number % length / 25 + 2 * rate);
                if number % 25 == 0 {
                    // The first frame holds, silence and stop don't.
                    expected = next_current(frame == 0, expected, [980, 0, 0][frame as usize], interval);
                }
                assert_eq!(chip.currents.energy, expected, "rate {rate}, sample {number}");
                let report = [FRAME, FRAME, STOPPED][frame as usize];
                let first = number % length == 0;
                assert_eq!(stepped.report, if first { report } else { NOTHING });
                assert_eq!(stepped.frame.rate, if first && v == 1 { rate } else { 0 });
            }
            // The stop's frame has its own samples too; then it is at rest.
            assert_eq!((chip.sounding, chip.sample, chip.interval), (1, 0, 0));
            assert_eq!(taken(&image, chip).chip, Chip { position: chip.position, interrupt: 1, ..rated(v, rr) });
        }
    }
}

#[test]
fn fifo_with_rate_bits() {
    let speech_c = |bytes: &[i64], used: i64| Chip { device: TMS5220C, v: 1, ..speech(bytes, used) };
    // 10 0000, then 01 1111.
    let stepped = taken(&[0], speech_c(&[0b1000_0001, 0b1111_0000], 0));
    assert_eq!((stepped.report, stepped.frame.kind, stepped.frame.rate), (FRAME, SILENCE, 2));
    assert_eq!((stepped.chip.level, stepped.chip.used), (2, 6));
    assert_eq!((stepped.chip.interval, stepped.chip.sample), (4, 1));
    let stepped = taken(&[0], steps(&[0], stepped.chip, 99));
    assert_eq!((stepped.report, stepped.frame.kind, stepped.frame.rate), (STOPPED, STOP, 1));
    assert_eq!((stepped.chip.level, stepped.chip.used, stepped.chip.interval), (0, 0, 2));
    // The bits end inside the rate bits, inside the energy, with the frame.
    for (bytes, used) in [(vec![0xFF], 7), (vec![0xFF], 6), (vec![0xFF], 3), (vec![0xC0], 2)] {
        let stepped = taken(&[0], speech_c(&bytes, used));
        assert_eq!((stepped.report, stepped.frame), (RAN_OUT, NO_FRAME));
        assert_eq!(stepped.chip, Chip { interrupt: 1, order: MOST_FIRST, ..rated(1, 0) });
    }
    // A stop that ends the FIFO is a stop.
    let stepped = taken(&[0], speech_c(&[0xFF], 2));
    assert_eq!((stepped.report, stepped.frame.rate), (STOPPED, 3));
}

// ---------------------------------------------------------------- how short a frame is

/// The cut of a frame at a bit, which is refused with 10.
fn cut_at(image: &[u8], v: i64, bit: i64) -> (i64, i64) {
    let answer = rated_frame_at(image, v, bit);
    assert_eq!((answer.refusal, answer.bits, answer.frame), (NO_PHRASE, 0, NO_FRAME));
    (answer.cut.begun, answer.cut.missing)
}

fn walk_cut_at(image: &[u8], v: i64, rr: i64, address: i64) -> (i64, i64) {
    let walked = rated_walk(image, v, rr, address);
    assert_eq!((walked.refusal, walked.bits, walked.frames), (NO_PHRASE, 0, 0));
    assert_eq!((walked.intervals, walked.samples, walked.part_from, walked.part_to), (0, 0, 0, 0));
    (walked.cut.begun, walked.cut.missing)
}

/// Begun, used up and missing of a step, in the format's order.
fn short_of(stepped: &Stepped) -> (i64, i64, i64) {
    (stepped.short.begun, stepped.short.used_up, stepped.short.missing)
}

/// The bits that lack behind so many of this kind, rate bits aside, by the
/// words of §4.
fn lacking(kind: i64, present: i64) -> i64 {
    let bounds = [4, 11, if kind == UNVOICED { 29 } else { 50 }];
    bounds.into_iter().find(|bound| present < *bound).unwrap() - present
}

/// A frame's text without its blanks.
fn digits(text: &str) -> String {
    text.chars().filter(|c| *c != ' ').collect()
}

#[test]
fn lacking_bits_to_try() {
    // So many bits of the frame are there, so many lack: at each bound.
    for (text, present, missing) in [
        ("0", 1, 3),
        ("1", 1, 3),
        ("000", 3, 1),
        ("111", 3, 1),
        ("0011", 4, 7),
        ("00111", 5, 6),
        ("00110", 5, 6),
        ("0011 1 00010", 10, 1),
        ("0011 0 00010", 10, 1),
        ("0011 0 00000", 10, 1),
        ("0101 0 000000", 11, 18),
        ("0101 0 000000 10001 00001 1001 011", 28, 1),
        ("0101 0 000001", 11, 39),
        ("0101 0 000001 10001 00001 1001 011", 28, 22),
        ("0101 0 000001 10001 00001 1001 0110", 29, 21),
        ("0101 0 100000 10001 00001 1001 0110 0101 0110 0111 001 010 01", 49, 1),
    ] {
        let text = digits(text);
        assert_eq!(text.len(), present);
        for (v, rate) in [(0, ""), (1, "00"), (1, "01"), (1, "11")] {
            let lead = (800 - present - rate.len()) % 8;
            let image = bits(&format!("{}{rate}{text}", "1".repeat(lead)));
            assert_eq!(cut_at(&image, v, lead as i64), (lead as i64, missing), "{text}, v = {v}");
        }
    }
    // Inside the rate bits, and right behind them.
    assert_eq!(cut_at(&[0xFF], 1, 7), (7, 5));
    assert_eq!(cut_at(&[0xFF], 1, 6), (6, 4));
    assert_eq!(cut_at(&[0xFF], 1, 5), (5, 3));
}

#[test]
fn cuts_after_each_bit() {
    for (text, kind, width) in KINDS_TO_TRY {
        for v in 0..=1 {
            let whole = if v == 1 { format!("10{}", digits(text)) } else { digits(text) };
            for present in 1..width + 2 * v {
                // The end of the image cuts the frame, and 24 bits stand
                // before it in whole frames.
                let fill = (80 - present) % 8;
                let before = "0".repeat(24 + fill as usize);
                let image = bits(&format!("{before}{}", &whole[..present as usize]));
                let (begun, missing) = (24 + fill, lacking(kind, present - 2 * v));
                assert_eq!(cut_at(&image, v, begun), (begun, missing), "{text} cut to {present}");
                // Steps from that position, in ROM and in the FIFO.
                let chip = Chip { v, rr: 1, position: begun, mode: ROM, sounding: 1, ..power_up_of(TMS5220C) };
                let stepped = taken(&image, chip);
                assert_eq!((stepped.report, short_of(&stepped)), (RAN_OUT, (begun, 0, missing)));
                assert_eq!(stepped.chip.position, end(&image));
                let bytes: Vec<i64> = image[3..].iter().map(|byte| i64::from(*byte)).collect();
                let stepped = taken(&[0], Chip { device: TMS5220C, v, ..speech(&bytes, fill) });
                assert_eq!((stepped.report, short_of(&stepped)), (RAN_OUT, (0, present, missing)));
            }
            // The whole frame has nothing to tell, but in the FIFO, which ends
            // with it.
            let fill = (80 - width - 2 * v) % 8;
            let image = bits(&format!("{}{whole}", "1".repeat(fill as usize)));
            assert_eq!(rated_frame_at(&image, v, fill).cut, NO_CUT);
            let bytes: Vec<i64> = image.iter().map(|byte| i64::from(*byte)).collect();
            let stepped = taken(&[0], Chip { device: TMS5220C, v, ..speech(&bytes, fill) });
            if kind == STOP {
                assert_eq!((stepped.report, stepped.short), (STOPPED, NOT_SHORT));
            } else {
                assert_eq!((stepped.report, short_of(&stepped)), (RAN_OUT, (0, width + 2 * v, 0)));
            }
        }
    }
}

#[test]
fn walks_tell_the_cut() {
    assert_eq!(walk_cut_at(&[0x03, 0x83], 0, 0, 0), (15, 3));
    // From byte 1 the first frame is cut, in its pitch.
    assert_eq!(walk_cut_at(&[0x03, 0x83], 0, 0, 1), (8, 3));
    // Whole frames up to the end, from an address too, with v = 1 as well.
    assert_eq!(walk_cut_at(&[0x00], 0, 0, 0), (8, 4));
    assert_eq!(walk_cut_at(&[0x00; 3], 0, 3, 2), (24, 4));
    assert_eq!(walk_cut_at(&[0x00; 3], 1, 2, 0), (24, 6));
    // 00 0000, then 00.
    assert_eq!(walk_cut_at(&[0x00; 3], 1, 2, 2), (22, 4));
    // The same bits a byte later: the place is one of the image, not of the
    // phrase.
    let image = bits("0101 0 000001 10001 00001 1001 0110 0101 0110 0111 001 010 011 1110 0 1");
    assert_eq!(walk_cut_at(&image, 0, 0, 0), (50, 5));
    assert_eq!(walk_cut_at(&[vec![0xFF], image].concat(), 0, 0, 1), (58, 5));
    // The end of the largest image.
    assert_eq!(walk_cut_at(&vec![0; 262_144], 0, 0, 262_143), (2_097_152, 4));
    assert_eq!(walk_cut_at(&vec![0; 262_144], 1, 0, 0), (2_097_150, 4));
}

#[test]
fn only_number_10_tells_a_cut() {
    let image = [0x00, 0x10];
    for (v, rr, address) in [(0, 0, 2), (0, 0, 0xFFFF_FFFF), (2, 0, 0), (0, 4, 0), (1, 4, 2)] {
        let walked = rated_walk(&image, v, rr, address);
        assert!([BEYOND, STATE].contains(&walked.refusal));
        assert_eq!(walked.cut, NO_CUT);
    }
    for (v, bit) in [(0, 16), (1, 16), (0, 17), (0, 0xFFFF_FFFF), (2, 0), (2, 15)] {
        let answer = rated_frame_at(&image, v, bit);
        assert!([BEYOND, STATE].contains(&answer.refusal));
        assert_eq!(answer.cut, NO_CUT);
    }
    for image in [vec![], vec![0; 262_145]] {
        assert_eq!((walk(&image, 0).refusal, walk(&image, 0).cut), (IMAGE, NO_CUT));
        assert_eq!((frame_at(&image, 0).refusal, frame_at(&image, 0).cut), (IMAGE, NO_CUT));
    }
    assert_eq!((frame_at(&image, 0).refusal, frame_at(&image, 0).cut), (TAKEN, NO_CUT));
    assert_eq!((walk(&[0x0F], 0).refusal, walk(&[0x0F], 0).cut), (TAKEN, NO_CUT));
    // Steps: refused ones, and those that do not run out.
    let due = Chip { mode: ROM, sounding: 1, position: 8, ..power_up() };
    for (image, file, chip) in [
        (&[][..], voice(1), due),
        (&[0], voice(1)[..498].to_vec(), due),
        (&[0], with(&voice(1), 2, &[2]), due),
        (&[0], voice(1), Chip { nibble: 5, ..due }),
        (&[0, 0], voice(1), due),
        (&[0, 0xF0], voice(1), due),
        (&[0], voice(1), Chip { interval: 1, ..due }),
        (&[0], voice(1), Chip { mode: IDLE, ..due }),
        (&[0], voice(1), power_up()),
    ] {
        let stepped = step(image, &file, chip);
        assert!(stepped.report != RAN_OUT);
        assert_eq!(stepped.short, NOT_SHORT);
    }
}

#[test]
fn steps_in_rom_tell_the_cut() {
    // With no bit present, at the image's end and past it, on both devices.
    for (chip, missing) in [(power_up(), 4), (rated(0, 3), 4), (rated(1, 0), 6)] {
        for position in [8, 9, 40, 2_097_151, 2_097_152] {
            let stepped = taken(&[0xFF], Chip { mode: ROM, sounding: 1, position, ..chip });
            assert_eq!((stepped.report, short_of(&stepped)), (RAN_OUT, (position, 0, missing)));
            assert_eq!(stepped.chip.position, position);
        }
    }
    // The image is exchanged for a shorter one after a frame.
    let long = bits("0011 1 000101 0000 1111 00000");
    let chip = steps(&long, writes(&long, power_up(), &[0x50]), 200);
    assert_eq!(chip.position, 11);
    for (image, missing) in [(&[0x00][..], 4), (&[0x00, 0x03], 6)] {
        let stepped = taken(image, chip);
        assert_eq!((stepped.report, short_of(&stepped)), (RAN_OUT, (11, 0, missing)));
    }
    // A run over it has no more to tell than the samples and the chip.
    assert_eq!(steps(&[0x00], chip, 3), Chip { position: 11, interrupt: 1, ..power_up() });
}

#[test]
fn steps_in_the_fifo_tell_what_is_used_up() {
    // Each number of used bits of a byte in the energy: no place, and the used
    // bits are not used up once more.
    for used in 5..8 {
        let stepped = taken(&[0], speech(&[0xFF], used));
        assert_eq!((stepped.report, short_of(&stepped)), (RAN_OUT, (0, 8 - used, 4 - (8 - used))));
    }
    for used in 0..8 {
        // 0001 1.. behind the used bits, and another byte: 16 less used.
        let byte = 0b0001_1111_1111_1111 >> used;
        let stepped = taken(&[0], speech(&[byte >> 8, byte & 255], used));
        let present = 16 - used;
        if present > 11 {
            assert_eq!((stepped.report, stepped.short), (FRAME, NOT_SHORT));
        } else if present == 11 {
            assert_eq!((stepped.report, short_of(&stepped)), (RAN_OUT, (0, 11, 0)));
        } else {
            assert_eq!((stepped.report, short_of(&stepped)), (RAN_OUT, (0, present, 11 - present)));
        }
    }
    // The position plays no part.
    let stepped = taken(&[0], Chip { position: 99, ..speech(&[0x10], 0) });
    assert_eq!((short_of(&stepped), stepped.chip.position), ((0, 8, 3), 99));
    // Nine bytes of silence end with a whole frame, of four bits.
    let chip = steps(&[0], external(&[0; 9]), 3_400);
    assert_eq!(short_of(&taken(&[0], chip)), (0, 4, 0));
    // From eight bytes on no frame can end the FIFO.
    for level in 8..=16 {
        for v in 0..=1 {
            for used in 0..8 {
                let chip = Chip { device: TMS5220C, v, ..speech(&vec![0x22; level], used) };
                let stepped = taken(&[0], chip);
                assert_eq!((stepped.report, stepped.short), (FRAME, NOT_SHORT));
            }
        }
    }
}

/// What a step has told, from the chip before it and the frame reader.
fn short_by_rule(image: &[u8], before: &Chip, stepped: &Stepped) {
    if stepped.report != RAN_OUT {
        assert_eq!(stepped.short, NOT_SHORT);
        return;
    }
    let (begun, used_up, missing) = short_of(stepped);
    if before.mode == ROM {
        assert_eq!((begun, used_up), (before.position, 0));
        let there = (end(image) - begun).max(0);
        if there > 0 {
            assert_eq!(cut_at(image, before.v, begun), (begun, missing));
        } else {
            assert_eq!(missing, 4 + 2 * before.v);
        }
        return;
    }
    assert_eq!((begun, used_up), (0, 8 * before.level - before.used));
    // The same bits as an image: a cut frame there, or a whole one that ends
    // with them.
    let bytes: Vec<u8> = before.fifo[..before.level as usize].iter().map(|byte| in_rom(before.order, *byte)).collect();
    let answer = rated_frame_at(&bytes, before.v, before.used);
    assert_eq!(answer.cut.missing, missing);
    assert!(answer.refusal == NO_PHRASE || answer.bits == used_up && answer.frame.kind != STOP);
}

// ---------------------------------------------------------------- frames that hold

// Indexes 5 of energy and pitch, and index 3 of energy, whose value is 0 in
// `voice_with_0`.
const VOICED_FRAME: &str = "0101 0 000101 00001 00010 0011 0100 0101 0110 0111 001 010 011";
const UNVOICED_FRAME: &str = "0101 0 000000 10001 00001 1001 0110";
const QUIET_VOICED: &str = "0011 0 000101 00001 00010 0011 0100 0101 0110 0111 001 010 011";
const QUIET_UNVOICED: &str = "0011 0 000000 10001 00001 1001 0110";
const VOICED_REPEAT: &str = "0101 1 000101";
const UNVOICED_REPEAT: &str = "0101 1 000000";
const QUIET_REPEAT: &str = "0011 1 000101";

/// The file `voice` with 0 as the energy of index 3.
fn voice_with_0() -> Vec<u8> {
    with(&voice(41), 3 + 2 * 3, &[0, 0])
}

fn step_with_0(image: &[u8], chip: Chip) -> Stepped {
    let stepped = step(image, &voice_with_0(), chip);
    assert_eq!(stepped.refusal, TAKEN);
    stepped
}

/// The flags of these frames, one after another, from the first on.
fn flags(frames: &[&str]) -> Vec<i64> {
    let image = bits(&frames.concat());
    let mut chip = writes(&image, power_up(), &[0x50]);
    let mut flags = Vec::new();
    for _ in frames {
        chip = step_with_0(&image, chip).chip;
        flags.push(chip.hold);
        for _ in 1..200 {
            chip = step_with_0(&image, chip).chip;
            // Each of the frame's samples has the frame's flag.
            assert_eq!(chip.hold, flags[flags.len() - 1]);
        }
    }
    flags
}

#[test]
fn frames_that_hold() {
    // The first frame after the sound starts is compared with rest.
    for (frame, flag) in [
        (VOICED_FRAME, 1),
        (UNVOICED_FRAME, 1),
        (VOICED_REPEAT, 1),
        (UNVOICED_REPEAT, 1),
        // Energy stays 0: the pitch decides.
        (QUIET_VOICED, 1),
        (QUIET_REPEAT, 1),
        (QUIET_UNVOICED, 0),
        ("0000", 0),
        ("1111", 0),
    ] {
        assert_eq!(flags(&[frame]), [flag], "{frame}");
    }
    // Voiced to unvoiced and back, and neither of them.
    assert_eq!(flags(&[VOICED_FRAME, UNVOICED_FRAME, VOICED_FRAME]), [1, 1, 1]);
    assert_eq!(flags(&[VOICED_FRAME, VOICED_FRAME, VOICED_FRAME]), [1, 0, 0]);
    assert_eq!(flags(&[UNVOICED_FRAME, UNVOICED_FRAME, UNVOICED_FRAME]), [1, 0, 0]);
    // By a repeat with and without pitch too.
    assert_eq!(flags(&[VOICED_FRAME, UNVOICED_REPEAT, VOICED_REPEAT, VOICED_REPEAT]), [1, 1, 1, 0]);
    assert_eq!(flags(&[UNVOICED_FRAME, UNVOICED_REPEAT, VOICED_FRAME, VOICED_REPEAT]), [1, 0, 1, 0]);
    // Energy from 0, by a silence before it and by a value of 0.
    assert_eq!(flags(&[VOICED_FRAME, "0000", VOICED_FRAME]), [1, 0, 1]);
    assert_eq!(flags(&[VOICED_FRAME, "0000", "0000", VOICED_REPEAT]), [1, 0, 0, 1]);
    assert_eq!(flags(&[UNVOICED_FRAME, "0000", UNVOICED_FRAME]), [1, 0, 1]);
    assert_eq!(flags(&[VOICED_FRAME, QUIET_VOICED, VOICED_FRAME]), [1, 0, 1]);
    assert_eq!(flags(&[VOICED_FRAME, QUIET_REPEAT, QUIET_VOICED, "0000", QUIET_REPEAT]), [1, 0, 0, 0, 0]);
    // A silence keeps the pitch, so the frame behind it is compared with it:
    // 0 to 0, and another voicing.
    assert_eq!(flags(&[VOICED_FRAME, "0000", QUIET_UNVOICED, QUIET_VOICED]), [1, 0, 1, 1]);
    // Silence and stop never hold, whatever was before them.
    assert_eq!(flags(&[VOICED_FRAME, UNVOICED_FRAME, "0000", "1111"]), [1, 1, 0, 0]);
    assert_eq!(flags(&[VOICED_FRAME, UNVOICED_FRAME, "1111"]), [1, 1, 0]);
}

/// A chip before a frame with these targets' energy and pitch, all else any.
fn before_frame(dice: &mut Dice, energy: i64, pitch: i64) -> Chip {
    let mut chip = Chip { mode: ROM, sounding: 1, hold: dice.within(0, 1), ..power_up() };
    chip.currents = dice.values();
    chip.targets = Values { energy, pitch, ..dice.values() };
    chip
}

#[test]
fn targets_decide() {
    // Neither the currents nor the flag before matter, nor by how much the
    // targets change.
    let mut dice = Dice(3);
    for _ in 0..200 {
        for (energy, pitch, frame, flag) in [
            (1, 1, VOICED_FRAME, 0),
            (1023, 1023, VOICED_FRAME, 0),
            (350, 80, VOICED_FRAME, 0),
            (1, 0, VOICED_FRAME, 1),
            (0, 1, VOICED_FRAME, 1),
            (0, 0, VOICED_FRAME, 1),
            (1, 0, UNVOICED_FRAME, 0),
            (1, 1, UNVOICED_FRAME, 1),
            (0, 0, UNVOICED_FRAME, 1),
            (0, 1, QUIET_VOICED, 0),
            (1023, 1, QUIET_VOICED, 0),
            (1023, 0, QUIET_VOICED, 1),
            (0, 0, QUIET_UNVOICED, 0),
            (0, 1, QUIET_UNVOICED, 1),
            (1, 1, VOICED_REPEAT, 0),
            (0, 1, VOICED_REPEAT, 1),
            (1, 0, VOICED_REPEAT, 1),
            (1, 1, UNVOICED_REPEAT, 1),
            (1, 0, UNVOICED_REPEAT, 0),
            (0, 0, "0000", 0),
            (9, 9, "0000", 0),
            (0, 9, "1111", 0),
            (9, 0, "1111", 0),
        ] {
            let image = bits(frame);
            let chip = before_frame(&mut dice, energy, pitch);
            assert_eq!(step_with_0(&image, chip).chip.hold, flag, "{energy} {pitch} {frame}");
        }
    }
}

#[test]
fn currents_stay_and_reach_the_targets() {
    let mut dice = Dice(33);
    for frame in [VOICED_FRAME, UNVOICED_FRAME, VOICED_REPEAT, UNVOICED_REPEAT] {
        for (rate, v) in [(0, 0), (1, 0), (2, 0), (3, 0), (0, 1), (1, 1), (2, 1), (3, 1)] {
            let prefix = if v == 1 { format!("{rate:02b}") } else { String::new() };
            let image = bits(&format!("{prefix} {frame} {prefix} 0000"));
            let rr = if v == 1 { 3 - rate } else { rate };
            let chip = before_frame(&mut dice, 0, 7);
            let old = chip.currents;
            let mut chip = Chip { device: TMS5220C, v, rr, ..chip };
            for number in 0..200 - 50 * rate {
                let stepped = taken(&image, chip);
                assert_eq!(stepped.report, if number == 0 { FRAME } else { NOTHING });
                let interval = 2 * rate + number / 25;
                chip = stepped.chip;
                assert_eq!(chip.hold, 1);
                assert_eq!(chip.currents, if interval < 7 { old } else { chip.targets }, "{frame}, {rate}, {number}");
            }
            // The silence behind it is interpolated from there.
            let reached = chip.currents;
            let silent = taken(&image, chip).chip;
            assert_eq!(silent.hold, 0);
            assert_eq!(silent.currents, Values { energy: nearer(reached.energy, 0, 2 * rate), ..reached });
        }
    }
}

#[test]
fn held_samples_by_hand() {
    // Voiced to unvoiced: the noise with the old energy, at the old pitch's
    // pace, through the old K.
    let mut chip = Chip { mode: ROM, sounding: 1, ..power_up() };
    chip.currents = Values { energy: 64, pitch: 2, k: [0, 256, 0, 0, 0, 0, 0, 0, 0, 0, 0] };
    chip.targets = Values { energy: 640, pitch: 2, k: [0; 11] };
    let image = bits(UNVOICED_FRAME);
    let first = taken(&image, chip);
    assert_eq!((first.sample, first.chip.hold), (-64, 1));
    assert_eq!((first.chip.place, first.chip.noise), (1, 8190));
    // Forward 1 = 64 - floor(256 × -64 / 512).
    let second = taken(&image, first.chip);
    assert_eq!((second.sample, second.chip.place, second.chip.noise), (96, 0, 8189));
    assert_eq!(second.chip.memory[1..=3], [96, -64 + 48, -32]);
    // Unvoiced to voiced: the pulses, at a current pitch of 0.
    chip.currents.pitch = 0;
    chip.targets.pitch = 0;
    let image = bits(VOICED_FRAME);
    let first = taken(&image, chip);
    assert_eq!((first.sample, first.chip.hold, first.chip.place), (100, 1, 0));
    // In interval 7 all of the frame: energy 350, pitch 80, K1 -494.
    let last = taken(&image, steps(&image, first.chip, 174)).chip;
    assert_eq!((last.interval, last.sample), (7, 1));
    assert_eq!((last.currents.energy, last.currents.pitch, last.currents.k[1]), (350, 80, -494));
    assert_eq!(last.place, 1);
}

#[test]
fn states_that_hold() {
    // A sound that is there goes on by its flag, in each mode and from each
    // interval.
    let mut dice = Dice(333);
    for mode in [IDLE, ROM, WAITING, EXTERNAL] {
        for interval in 1..8 {
            for hold in [0, 1] {
                let mut chip = Chip { mode, interval, sounding: 1, hold, ..power_up() };
                chip.level = i64::from(mode == EXTERNAL);
                chip.currents = dice.values();
                chip.targets = dice.values();
                let next = taken(&[0], chip).chip;
                let energy = next_current(hold == 1, chip.currents.energy, chip.targets.energy, interval);
                let k = next_current(hold == 1, chip.currents.k[10], chip.targets.k[10], interval);
                assert_eq!((next.currents.energy, next.currents.k[10]), (energy, k));
                assert_eq!(next.hold, hold);
                // At any other sample nothing is interpolated.
                let later = taken(&[0], Chip { sample: 1, ..chip }).chip;
                assert_eq!((later.currents, later.hold), (chip.currents, hold));
            }
        }
    }
}

#[test]
fn rest_does_not_hold() {
    let image = bits(&[VOICED_FRAME, "1111"].concat());
    let holding = taken(&image, writes(&image, power_up(), &[0x50])).chip;
    assert_eq!((holding.hold, holding.mode), (1, ROM));
    // Reset, in the middle of a frame that holds, and a read that changes
    // nothing.
    assert_eq!(writes(&image, holding, &[0x70]), power_up());
    assert_eq!(read(holding).chip, holding);
    // Running out, of ROM and of the FIFO.
    let boundary = steps(&image, holding, 199);
    assert_eq!((boundary.hold, boundary.sample, boundary.interval), (1, 0, 0));
    let out = taken(&image[..6], boundary);
    assert_eq!((out.report, out.chip.hold, out.chip.sounding), (RAN_OUT, 0, 0));
    assert_eq!(taken(&[0], Chip { hold: 1, ..speech(&[0], 4) }).chip, Chip { interrupt: 1, ..most_first() });
    // The stop's frame doesn't hold, and a state in it that does is at rest
    // after it.
    let stopped = taken(&image, boundary).chip;
    assert_eq!((stopped.hold, stopped.mode, stopped.sounding), (0, IDLE, 1));
    let end = steps(&image, Chip { hold: 1, ..stopped }, 199);
    assert_eq!((end.hold, end.sounding), (1, 1));
    assert_eq!(taken(&image, end).chip, Chip { position: 54, interrupt: 1, ..power_up() });
    // A silent chip that would hold breaks a range.
    assert_eq!(state_refusal(&Chip { hold: 1, ..power_up() }), STATE);
    assert_eq!(state_refusal(&Chip { hold: 1, ..power_up_of(TMS5220C) }), STATE);
}

/// What a step did to the flag and the currents, told from the chips before
/// and after it.
fn held_by_rule(before: &Chip, stepped: &Stepped) {
    let after = &stepped.chip;
    if after.sounding == 0 {
        assert_eq!(after.hold, 0);
        return;
    }
    let (old, new) = (before.targets, after.targets);
    if stepped.frame == NO_FRAME {
        assert_eq!((after.hold, new), (before.hold, old));
    } else {
        let voicing = (old.pitch == 0) != (new.pitch == 0);
        let energy = old.energy == 0 && new.energy > 0;
        assert_eq!(after.hold, i64::from(voicing || energy));
        assert!(after.hold == 0 || stepped.frame.kind != SILENCE && stepped.frame.kind != STOP);
    }
    // A step that ends an interval has counted on; its interval is not told
    // by the chip after it.
    if after.sample > 0 && after.hold == 1 {
        let reached = before.sample == 0 && after.interval == 7;
        assert_eq!(after.currents, if reached { new } else { before.currents });
    }
}

// ---------------------------------------------------------------- look and acknowledge

/// Looks, each of which hands back the same state, give this byte.
fn looks(chip: Chip, byte: i64) {
    for _ in 0..2 {
        let looked = look(chip);
        assert_eq!((looked.refusal, looked.byte, looked.chip), (TAKEN, byte, chip));
    }
}

fn acknowledges(chip: Chip) -> Chip {
    let answer = acknowledge(chip);
    assert_eq!(answer.refusal, TAKEN);
    answer.chip
}

#[test]
fn look_at_data_and_interrupt() {
    let image = [0b1010_0101, 0b0000_0000];
    for device in [TMS5220, TMS5220C] {
        let up = Chip { interrupt: 1, nibble: 3, ..power_up_of(device) };
        looks(up, 0x60);
        assert_eq!(acknowledges(up), Chip { interrupt: 0, ..up });
        // Data first, and the interrupt stays; then the status.
        let chip = writes(&image, up, &[0x10]);
        looks(chip, 0b1010_0101);
        let after = acknowledges(chip);
        assert_eq!(after, Chip { pending: 0, data: 0, ..chip });
        assert_eq!(after.interrupt, 1);
        looks(after, 0x60);
        assert_eq!(acknowledges(after), Chip { interrupt: 0, ..after });
        // A byte of 0 is pending too.
        let chip = writes(&image, after, &[0x10]);
        assert_eq!((chip.pending, chip.data), (1, 0));
        looks(chip, 0);
        assert_eq!(acknowledges(chip), Chip { pending: 0, ..chip });
        // What is looked at can still be read, once.
        let answer = read(look(chip).chip);
        assert_eq!((answer.byte, look(answer.chip).byte), (0, 0x60));
        // With nothing to clear, nothing changes.
        assert_eq!(acknowledges(power_up_of(device)), power_up_of(device));
    }
}

#[test]
fn look_while_speaking() {
    // Nine FF and one step: TS falls, BL and BE rise.
    let chip = external(&[0xFF; 9]);
    looks(chip, 0x80);
    assert_eq!(acknowledges(chip), chip);
    let chip = taken(&[0], chip).chip;
    looks(chip, 0x60);
    assert_eq!(chip.interrupt, 1);
    // A look between steps does not end it, an acknowledge does.
    let chip = taken(&[0], look(chip).chip).chip;
    assert_eq!(chip.interrupt, 1);
    assert_eq!(taken(&[0], acknowledges(chip)).chip.interrupt, 0);
    // Each level of the FIFO.
    for level in 1..=16 {
        let bl = if level <= 8 { 0x40 } else { 0 };
        looks(speech(&vec![7; level], 0), 0x80 + bl);
    }
    // From ROM.
    let chip = Chip { interrupt: 1, ..writes(&[0], power_up(), &[0x50]) };
    looks(chip, 0xE0);
    assert_eq!(acknowledges(chip), Chip { interrupt: 0, ..chip });
}

/// Refused, with data and the interrupt there: the state as it was, and 0.
#[test]
fn look_refused() {
    let full = Chip { pending: 1, data: 0xA5, interrupt: 1, ..power_up_of(TMS5220C) };
    for chip in [
        Chip { nibble: 5, ..full },
        Chip { mode: WAITING, ..full },
        Chip { mode: ROM, sounding: 1, ..full },
        Chip { pending: 0, ..full },
        Chip { noise: 1, ..full },
        Chip { position: 2_097_153, ..full },
        Chip { v: 2, ..full },
        Chip { v: 1, rr: 4, ..full },
        Chip { device: TMS5220, level: 1, ..full },
    ] {
        let looked = look(chip);
        assert_eq!((looked.refusal, looked.byte, looked.chip), (STATE, 0, chip));
        let answer = acknowledge(chip);
        assert_eq!((answer.refusal, answer.chip), (STATE, chip));
        let answer = read(chip);
        assert_eq!((answer.refusal, answer.byte, answer.chip), (STATE, 0, chip));
    }
}

// ---------------------------------------------------------------- the FIFO's bit order

/// The byte of an image that has the bits of a FIFO byte in the order in which
/// they are spoken.
fn in_rom(order: i64, byte: i64) -> u8 {
    let byte = byte as u8;
    if order == LEAST_FIRST {
        return byte.reverse_bits();
    }
    byte
}

/// The bytes that a host writes for these bits.
fn fed(order: i64, text: &str) -> Vec<i64> {
    bits(text).iter().map(|byte| i64::from(in_rom(order, i64::from(*byte)))).collect()
}

/// The same chip with the other order and each byte of the FIFO turned round.
fn mirrored(chip: Chip) -> Chip {
    let mut other = chip;
    for byte in other.fifo.iter_mut() {
        *byte = i64::from(in_rom(LEAST_FIRST, *byte));
    }
    other.order = MOST_FIRST - chip.order;
    other
}

#[test]
fn power_ups_and_their_orders() {
    for device in [TMS5220, TMS5220C] {
        for order in [LEAST_FIRST, MOST_FIRST] {
            let chip = power_up_with(device, order);
            assert_eq!((chip.device, chip.order), (device, order));
            assert_eq!(chip, Chip { device, order, ..power_up() });
            assert_eq!(state_refusal(&chip), TAKEN);
            assert_eq!(status_of(chip), 0x60);
        }
        assert_eq!(power_up_of(device), power_up_with(device, LEAST_FIRST));
    }
    assert_eq!(power_up(), power_up_with(TMS5220, LEAST_FIRST));
}

#[test]
fn orders_by_hand() {
    // 0F: the ones leave first or last. The bytes of a FIFO stay as written.
    for (order, byte, used, report, kind) in [
        (LEAST_FIRST, 0x0F, 0, STOPPED, STOP),
        (LEAST_FIRST, 0xF0, 0, FRAME, SILENCE),
        (LEAST_FIRST, 0xF0, 4, STOPPED, STOP),
        (LEAST_FIRST, 0x0F, 4, RAN_OUT, NONE),
        (MOST_FIRST, 0x0F, 0, FRAME, SILENCE),
        (MOST_FIRST, 0xF0, 0, STOPPED, STOP),
        (MOST_FIRST, 0x0F, 4, STOPPED, STOP),
        (MOST_FIRST, 0xF0, 4, RAN_OUT, NONE),
    ] {
        let stepped = taken(&[0], Chip { order, ..speech(&[byte], used) });
        assert_eq!((stepped.report, stepped.frame.kind), (report, kind), "order {order}, {byte:02x} after {used}");
        if report == FRAME {
            assert_eq!((stepped.chip.level, stepped.chip.used, stepped.chip.fifo[0]), (1, 4, byte));
        }
    }
    // 1100 1 010011 least first: 53 in the first byte is 1100 1010, E6 in the
    // second 0110 0111. The first bit of a field is still its highest.
    let stepped = taken(&[0], Chip { order: LEAST_FIRST, ..speech(&[0x53, 0xE6], 0) });
    assert_eq!(stepped.frame, Frame { kind: REPEAT, energy: 12, pitch: 0b010_011, ..NO_FRAME });
    assert_eq!((stepped.chip.level, stepped.chip.used, stepped.chip.fifo[0]), (1, 3, 0xE6));
    // Most first the same bytes are 0101 0 011111 and a cut K1.
    let stepped = taken(&[0], speech(&[0x53, 0xE6], 0));
    assert_eq!((stepped.report, short_of(&stepped)), (RAN_OUT, (0, 16, 34)));
    // The rate bits come in the same order: 02 begins with 01 least first, with
    // 00 most first.
    for (order, rate) in [(LEAST_FIRST, 1), (MOST_FIRST, 0)] {
        let stepped = taken(&[0], Chip { device: TMS5220C, v: 1, order, ..speech(&[0b0000_0010, 0], 0) });
        assert_eq!((stepped.frame.kind, stepped.frame.rate, stepped.chip.used), (SILENCE, rate, 6));
    }
}

#[test]
fn frames_in_both_orders() {
    // Each kind behind each number of used bits, with and without rate bits.
    for (text, kind, width) in KINDS_TO_TRY {
        for v in 0..=1 {
            for lead in 0..8 {
                let rate = if v == 1 { "10" } else { "" };
                let whole = format!("{}{rate}{text}{}", "1".repeat(lead), "0".repeat(64));
                for order in [LEAST_FIRST, MOST_FIRST] {
                    let bytes = fed(order, &whole);
                    let chip = Chip { device: TMS5220C, v, order, ..speech(&bytes, lead as i64) };
                    let stepped = taken(&[0], chip);
                    let expected = rated_frame_at(&bits(&whole), v, lead as i64);
                    assert_eq!((expected.frame.kind, expected.bits), (kind, width + 2 * v));
                    assert_eq!((stepped.frame, stepped.chip.order), (expected.frame, order));
                    if kind != STOP {
                        let out = lead as i64 + width + 2 * v;
                        assert_eq!((stepped.chip.level, stepped.chip.used), (chip.level - out / 8, out % 8));
                        assert_eq!(stepped.chip.fifo[0], bytes[(out / 8) as usize]);
                    }
                }
            }
        }
    }
}

#[test]
fn the_order_stays() {
    let image = [0x0F, 0x21, 0x84];
    for device in [TMS5220, TMS5220C] {
        for order in [LEAST_FIRST, MOST_FIRST] {
            let up = power_up_with(device, order);
            // Each command, Reset among them, from idle.
            for byte in 0..256 {
                assert_eq!(write(&image, up, byte).chip.order, order);
            }
            assert_eq!(writes(&image, up, &[0x41, 0x10, 0x70]), up);
            assert_eq!(writes(&image, up, &[0x50, 0x70]), up);
            // A stop, its frame's end, and Reset in it.
            let waiting = writes(&image, up, &[0x60]);
            let stopped = taken(&image, writes(&image, waiting, &[0xFF; 9])).chip;
            assert_eq!((stopped.mode, stopped.level, stopped.order), (IDLE, 0, order));
            assert_eq!(writes(&image, stopped, &[0x70]), up);
            let rest = taken(&image, steps(&image, stopped, 199)).chip;
            assert_eq!(rest, Chip { interrupt: 1, ..up });
            // Running out, and a second speech in the same order.
            let speech = writes(&image, waiting, &[0; 9]);
            let out = taken(&image, steps(&image, speech, 3_400)).chip;
            assert_eq!(out, Chip { interrupt: 1, ..up });
            let again = writes(&image, writes(&image, out, &[0x60]), &fed(order, &"0101 1 000011".repeat(7)));
            assert_eq!(taken(&image, again).frame, Frame { kind: REPEAT, energy: 5, pitch: 3, ..NO_FRAME });
        }
    }
}

/// ROM bits, Read Byte, branches, frames taken and walks have no order.
#[test]
fn rom_has_its_own_order() {
    let image = [0x2C, 0x11, 0xF7, 0x0F];
    for device in [TMS5220, TMS5220C] {
        let chips = [LEAST_FIRST, MOST_FIRST].map(|order| power_up_with(device, order));
        for byte in [0x10, 0x30, 0x41, 0x50] {
            let [least, most] = chips.map(|chip| write(&image, chip, byte).chip);
            assert_eq!(least, mirrored(most));
        }
        assert_eq!(writes(&image, chips[0], &[0x10]).data, 0x2C);
        let [least, most] = chips.map(|chip| taken(&image, writes(&image, chip, &[0x50])));
        assert_eq!((least.frame, least.sample, least.chip), (most.frame, most.sample, mirrored(most.chip)));
        assert_eq!(least.frame, frame_at(&image, 0).frame);
    }
}

// ---------------------------------------------------------------- branching takes time

/// The same chip without the count.
fn ready(chip: Chip) -> Chip {
    Chip { busy: 0, ..chip }
}

/// A chip that has branched, on each device with each order: silent, and in
/// the frame of a stop at its first samples, across an interval's end, and
/// before the frame's end.
fn branched(image: &[u8]) -> Vec<Chip> {
    let mut chips = Vec::new();
    for device in [TMS5220, TMS5220C] {
        for order in [LEAST_FIRST, MOST_FIRST] {
            let up = power_up_with(device, order);
            chips.push(writes(image, up, &[0x30]));
            let stopped = taken(&[0xFF], writes(&[0xFF], up, &[0x50])).chip;
            for samples in [0, 23, 24, 197, 198, 199] {
                let sounding = steps(image, stopped, samples);
                assert_eq!((sounding.mode, sounding.sounding), (IDLE, 1));
                chips.push(writes(image, sounding, &[0xB7]));
            }
        }
    }
    chips
}

#[test]
fn a_branch_takes_two_samples() {
    let image = [0x05, 0xC0, 0, 0, 0, 0x12, 0x34];
    for after in branched(&image) {
        assert_eq!(after.busy, 2);
        let mut chip = after;
        for busy in [2, 1] {
            assert_eq!(chip.busy, busy);
            for byte in 0..256 {
                let answer = write(&image, chip, byte);
                assert_eq!((answer.refusal, answer.chip), (WAIT, chip), "byte {byte:02x}, busy {busy}");
            }
            chip = taken(&image, chip).chip;
        }
        assert_eq!(chip.busy, 0);
        for byte in 0..256 {
            assert_eq!(write(&image, chip, byte).refusal, TAKEN, "byte {byte:02x}");
        }
        // Below 0 it doesn't go, and the next branch takes its time too.
        let later = taken(&image, taken(&image, chip).chip).chip;
        assert_eq!(later.busy, 0);
        assert_eq!(writes(&image, later, &[0x30]).busy, 2);
        // Reset, now that it is taken, gives the power-up state.
        assert_eq!(writes(&image, chip, &[0x70]), power_up_with(chip.device, chip.order));
    }
    // To the field: nothing but what document 01 says of a branch, and the count.
    let before = Chip { nibble: 3, pending: 1, data: 9, interrupt: 1, ..power_up_of(TMS5220C) };
    let after = Chip { position: 8 * 5, nibble: 0, pending: 0, data: 0, busy: 2, ..before };
    assert_eq!(writes(&image, before, &[0x30]), after);
}

#[test]
fn only_a_branch_makes_busy() {
    let image = [0x05, 0xC0, 0, 0, 0, 0x12, 0x34];
    for device in [TMS5220, TMS5220C] {
        let idle = power_up_of(device);
        let chips = [idle, Chip { position: 20, ..idle }, writes(&image, idle, &[0x50]), writes(&image, idle, &[0x60])];
        for chip in chips.into_iter().chain([writes(&image, chips[3], &[0; 9])]) {
            for byte in 0..256 {
                let answer = write(&image, chip, byte);
                let branches = chip.mode == IDLE && byte & 0x70 == 0x30;
                assert_eq!(answer.chip.busy, if branches { 2 } else { 0 }, "byte {byte:02x}");
            }
            assert_eq!((read(chip).chip.busy, acknowledge(chip).chip.busy), (0, 0));
            assert_eq!((look(chip).chip.busy, taken(&image, chip).chip.busy), (0, 0));
        }
        // A branch that is refused leaves the count.
        let beyond = Chip { position: 8 * 6, ..idle };
        let answer = write(&image, beyond, 0x30);
        assert_eq!((answer.refusal, answer.chip), (BEYOND, beyond));
        for busy in 1..=2 {
            let busy = Chip { busy, ..idle };
            let answer = write(&image, busy, 0x30);
            assert_eq!((answer.refusal, answer.chip), (WAIT, busy));
        }
    }
}

#[test]
fn a_run_counts_by_its_steps() {
    let image = [0x05, 0xC0, 0, 0, 0, 0x12, 0x34];
    for after in branched(&image) {
        for busy in 0..=2 {
            let chip = Chip { busy, ..after };
            for count in [0, 1, 2, 3, 4, 25, 200, 8_192] {
                let ran = steps(&image, chip, count);
                assert_eq!(ran.busy, (busy - count).max(0), "a run of {count}");
                assert_eq!(ready(ran), steps(&image, ready(chip), count));
            }
        }
    }
}

#[test]
fn refused_steps_and_runs_leave_the_count() {
    let (image, file) = ([0x05, 0xC0], voice(3));
    let broken = |busy: i64| Chip { busy, nibble: 5, ..power_up() };
    for busy in 1..=2 {
        let chip = Chip { busy, ..power_up() };
        for (image, file, chip, refusal) in [
            (&image[..0], &file[..], chip, IMAGE),
            (&image[..], &file[..5], chip, VOICE_SIZE),
            (&image[..], &with(&file, 2, &[0])[..], chip, VOICE_VERSION),
            (&image[..], &file[..], broken(busy), STATE),
        ] {
            let stepped = step(image, file, chip);
            assert_eq!((stepped.refusal, stepped.chip), (refusal, chip));
            for count in 0..4 {
                let ran = run(image, file, chip, &mut vec![9_999; count]);
                assert_eq!((ran.refusal, ran.chip), (refusal, chip));
            }
        }
        let ran = run(&image, &file, chip, &mut []);
        assert_eq!((ran.refusal, ran.chip), (TAKEN, chip));
    }
}

#[test]
fn reads_work_while_busy() {
    for busy in 0..=2 {
        let chip = Chip { busy, interrupt: 1, pending: 1, data: 0x5A, ..power_up() };
        looks(chip, 0x5A);
        let read_data = acknowledges(chip);
        assert_eq!(read_data, Chip { pending: 0, data: 0, ..chip });
        looks(read_data, 0x60);
        let read_status = acknowledges(read_data);
        assert_eq!(read_status, Chip { interrupt: 0, ..read_data });
        assert_eq!(read_status.busy, busy);
        looks(read_status, 0x60);
    }
}

// ---------------------------------------------------------------- where the bits go

/// Each device, v and order; the account is one for all of them (D 86).
fn all_told() -> Vec<Chip> {
    let mut chips = Vec::new();
    for order in [LEAST_FIRST, MOST_FIRST] {
        for (device, v, rr) in [(TMS5220, 0, 0), (TMS5220C, 0, 3), (TMS5220C, 1, 0)] {
            chips.push(Chip { v, rr, ..power_up_with(device, order) });
        }
    }
    chips
}

/// External speech of this chip before a frame, with these bits fed in its
/// order, of which so many are used.
fn fed_to(told: Chip, text: &str, used: usize) -> Chip {
    let (device, v, rr, order) = (told.device, told.v, told.rr, told.order);
    Chip { device, v, rr, order, ..speech(&fed(order, text), used as i64) }
}

#[test]
fn thrown_bits_to_try() {
    // Nine FF and sixteen FF: of the first byte four bits are the stop's.
    assert_eq!(taken(&[0], external(&[0xFF; 9])).thrown, 68);
    assert_eq!(taken(&[0], external(&[0xFF; 16])).thrown, 124);
    // With v = 1 six bits are.
    let chip = writes(&[0], writes(&[0], power_up_of(TMS5220C), &[0x04, 0x60]), &[0xFF; 16]);
    assert_eq!(taken(&[0], chip).thrown, 122);
    // Behind frames: a repeat and a silence before the stop are not thrown away.
    for order in [LEAST_FIRST, MOST_FIRST] {
        let waiting = writes(&[0], power_up_with(TMS5220, order), &[0x60]);
        let bytes = fed(order, &format!("0101 1 000011 0000 1111 {}", "0".repeat(61)));
        let mut chip = writes(&[0], waiting, &bytes);
        for (report, thrown) in [(FRAME, 0), (FRAME, 0), (STOPPED, 61)] {
            let stepped = taken(&[0], chip);
            assert_eq!((stepped.report, stepped.thrown), (report, thrown));
            chip = steps(&[0], stepped.chip, 199);
        }
        assert_eq!((chip.mode, chip.level, chip.used), (IDLE, 0, 0));
    }
}

#[test]
fn stops_throw_away_what_is_behind_them() {
    for told in all_told() {
        let stop = if told.v == 1 { "101111" } else { "1111" };
        // So many bits are left of the byte in which the stop ends, and so many
        // bytes stand behind it.
        for left in 0..8 {
            let used = (16 - left - stop.len()) % 8;
            for whole in 0..=15 {
                let text = format!("{}{stop}{}", "0".repeat(used), "01101001".repeat(17)[..left + 8 * whole].to_string());
                if text.len() > 128 {
                    continue;
                }
                let chip = fed_to(told, &text, used);
                assert_eq!(chip.level as usize, text.len() / 8);
                let stepped = taken(&[0], chip);
                assert_eq!((stepped.report, stepped.frame.kind), (STOPPED, STOP));
                assert_eq!((stepped.thrown, stepped.short), ((left + 8 * whole) as i64, NOT_SHORT));
                assert_eq!(held_bits(&stepped.chip), 0);
                // A run throws the same away and tells nothing of it.
                assert_eq!(steps(&[0], chip, 1), stepped.chip);
            }
        }
    }
}

/// Steps that take no stop, that take it from ROM, and that are refused.
#[test]
fn other_steps_throw_nothing_away() {
    for told in all_told() {
        let rate = if told.v == 1 { "01" } else { "" };
        let behind = "1011".repeat(9);
        // From ROM, whatever stands behind the stop.
        for image in [bits(&format!("{rate}1111")), bits(&format!("{rate}1111{behind}"))] {
            let stepped = taken(&image, writes(&image, told, &[0x50]));
            assert_eq!((stepped.report, stepped.thrown), (STOPPED, 0));
        }
        // A frame; one that runs out, cut and whole; a stop that is due later.
        for (text, report) in [
            (format!("{rate}0000{rate}1111{behind}"), FRAME),
            (format!("{rate}0101 1"), RAN_OUT),
            (format!("{rate}0101 1 000011"), RAN_OUT),
        ] {
            let used = (8 - digits(&text).len() % 8) % 8;
            let stepped = taken(&[0], fed_to(told, &format!("{}{text}", "1".repeat(used)), used));
            assert_eq!((stepped.report, stepped.thrown), (report, 0));
        }
        let stop = fed_to(told, &format!("{rate}1111{behind}"), 0);
        for chip in [Chip { sample: 1, ..stop }, Chip { interval: 7, ..stop }] {
            let stepped = taken(&[0], chip);
            assert_eq!((stepped.report, stepped.thrown, held_bits(&stepped.chip)), (NOTHING, 0, held_bits(&chip)));
        }
        // Waiting at a boundary with bytes held, and idle behind the stop.
        let waiting = Chip { mode: WAITING, ..stop };
        let stepped = taken(&[0], waiting);
        assert_eq!((stepped.report, stepped.thrown, stepped.chip.level), (NOTHING, 0, waiting.level));
        let after = taken(&[0], stop).chip;
        for count in [0, 48, 49, 198, 199, 200] {
            assert_eq!(taken(&[0], steps(&[0], after, count)).thrown, 0);
        }
        // Refused.
        for (image, file, chip) in [
            (&[][..], voice(1), stop),
            (&[0], voice(1)[..498].to_vec(), stop),
            (&[0], voice(1), Chip { nibble: 5, ..stop }),
        ] {
            let stepped = step(image, &file, chip);
            assert!(stepped.refusal != TAKEN);
            assert_eq!((stepped.thrown, stepped.chip), (0, chip));
        }
    }
}

/// What a step has thrown away, from the chip before it.
fn thrown_by_rule(before: &Chip, stepped: &Stepped) {
    let stops = before.mode == EXTERNAL && stepped.report == STOPPED;
    let stop_bits = 4 + 2 * before.v;
    assert_eq!(stepped.thrown, if stops { 8 * before.level - before.used - stop_bits } else { 0 });
}

/// The bits of a frame, from its numbers.
fn frame_bits(frame: &Frame, v: i64) -> Vec<i64> {
    let mut fields = if v == 1 { vec![(frame.rate, 2)] } else { Vec::new() };
    fields.push((frame.energy, 4));
    if ![SILENCE, STOP].contains(&frame.kind) {
        fields.extend([(i64::from(frame.kind == REPEAT), 1), (frame.pitch, 6)]);
    }
    let last = match frame.kind {
        UNVOICED => 4,
        VOICED => 10,
        _ => 0,
    };
    fields.extend((1..=last).map(|i| (frame.k[i], K_BITS[i])));
    fields.iter().flat_map(|(value, width)| (0..*width).rev().map(move |place| value >> place & 1)).collect()
}

/// §10's account: what goes into the FIFO and out of it, from the calls and
/// their answers alone (D 85). `left` are the bits taken that are neither given
/// nor thrown away yet, in order.
struct Account {
    on: bool,
    device: i64,
    order: i64,
    v: i64,
    bytes: i64,
    given: i64,
    thrown: i64,
    left: Vec<i64>,
}

impl Account {
    fn new(device: i64, order: i64) -> Account {
        Account { on: false, device, order, v: 0, bytes: 0, given: 0, thrown: 0, left: Vec::new() }
    }
    fn wrote(&mut self, byte: i64, refusal: i64) {
        if refusal != TAKEN {
            return;
        }
        if self.on {
            self.bytes += 1;
            let byte = in_rom(self.order, byte);
            self.left.extend((0..8).rev().map(|place| i64::from(byte >> place & 1)));
            return;
        }
        match byte >> 4 & 7 {
            6 => self.on = true,
            7 => self.v = 0,
            0 | 2 if self.device == TMS5220C => self.v = byte >> 2 & 1,
            _ => {}
        }
    }
    fn stepped(&mut self, answer: &Stepped) {
        if !self.on {
            assert_eq!((answer.thrown, answer.short.used_up), (0, 0));
            return;
        }
        let bits = frame_bits(&answer.frame, self.v);
        match answer.report {
            FRAME => self.give(&bits),
            STOPPED => {
                self.give(&bits);
                self.thrown += answer.thrown;
                self.left.drain(..answer.thrown as usize);
            }
            RAN_OUT => {
                let used_up: Vec<i64> = self.left[..answer.short.used_up as usize].to_vec();
                self.give(&used_up);
            }
            _ => assert_eq!((answer.thrown, answer.short), (0, NOT_SHORT)),
        }
        self.on = answer.report != STOPPED && answer.report != RAN_OUT;
    }
    fn give(&mut self, bits: &[i64]) {
        assert_eq!(bits, &self.left[..bits.len()]);
        self.left.drain(..bits.len());
        self.given += bits.len() as i64;
    }
    fn holds(&self, chip: &Chip) {
        assert_eq!(8 * self.bytes, self.given + self.thrown + held_bits(chip));
        assert_eq!(self.left.len() as i64, held_bits(chip));
    }
}

/// 10: "over any sequence of calls from power-up, each on the chip last handed
/// back, eight times the bytes taken into the FIFO equals [..]". Each call has
/// its own image and voice file (D 110).
#[test]
fn the_account_holds() {
    let mut dice = Dice(0x1010_1010);
    let (good, bad) = (voice(3), voice(3)[..498].to_vec());
    let (mut bytes, mut given, mut thrown, mut held) = (0, 0, 0, 0);
    for round in 0..400 {
        let (device, order) = (round / 2 % 2, round % 2);
        let mut chip = power_up_with(device, order);
        let mut account = Account::new(device, order);
        for _ in 0..400 {
            let length = 1 + dice.below(6) as usize;
            let image = if dice.below(20) == 0 { Vec::new() } else { dice.bytes(length) };
            let file = if dice.below(20) == 0 { &bad } else { &good };
            match dice.below(8) {
                0 => chip = read(chip).chip,
                1 => chip = acknowledge(chip).chip,
                // A run, as its steps.
                2 => {
                    let mut stepwise = chip;
                    let mut buffer = vec![9_999; [1, 50, 199, 200, 600][dice.below(5) as usize]];
                    for _ in &buffer {
                        let answer = step(&image, file, stepwise);
                        account.stepped(&answer);
                        stepwise = answer.chip;
                    }
                    chip = run(&image, file, chip, &mut buffer).chip;
                    assert_eq!(chip, stepwise);
                }
                3 => {
                    let answer = step(&image, file, chip);
                    account.stepped(&answer);
                    chip = answer.chip;
                }
                // A command that leads on, more bytes than the FIFO holds.
                kind => {
                    let byte = match dice.below(6) {
                        0 => 0x60,
                        1 => dice.below(8) as i64,
                        2 => 0x10 * dice.below(8) as i64,
                        _ => dice.within(0, 255),
                    };
                    for _ in 0..[1, 5, 9, 18][kind as usize - 4] {
                        let byte = if account.on { [0, 0xFF, dice.within(0, 255)][dice.below(3) as usize] } else { byte };
                        let answer = write(&image, chip, byte);
                        account.wrote(byte, answer.refusal);
                        chip = answer.chip;
                        account.holds(&chip);
                    }
                }
            }
            account.holds(&chip);
        }
        bytes += account.bytes;
        given += account.given;
        thrown += account.thrown;
        held += held_bits(&chip);
    }
    assert_eq!(8 * bytes, given + thrown + held);
    assert!(given > 100_000 && thrown > 30_000 && held > 1_000, "{given} {thrown} {held}");
}

// ---------------------------------------------------------------- laws

/// The count stands in the way of written bytes and of nothing else; what a
/// step does but for it does not go by it.
#[test]
fn busy_stands_beside_the_rest() {
    let mut dice = Dice(0x1212_1212);
    let (mut waited, mut sounded) = (0, 0);
    for _ in 0..20_000 {
        let bytes = 1 + dice.below(12) as usize;
        let image = dice.bytes(bytes);
        let file = voice(1 + dice.below(64) as i64);
        let chip = dice.chip(bytes as i64);
        let other = ready(chip);
        assert_eq!((state_refusal(&other), status(&other)), (TAKEN, status(&chip)));
        let byte = dice.below(256) as i64;
        let (one, two) = (write(&image, chip, byte), write(&image, other, byte));
        if chip.busy > 0 {
            assert_eq!((one.refusal, one.chip), (WAIT, chip));
            waited += 1;
            sounded += chip.sounding;
        } else {
            assert_eq!((one.refusal, one.chip), (two.refusal, two.chip));
        }
        let branched = two.refusal == TAKEN && chip.mode == IDLE && byte & 0x70 == 0x30;
        assert_eq!(two.chip.busy, if branched { 2 } else { 0 });
        let (one, two) = (read(chip), read(other));
        assert_eq!((one.refusal, one.byte, one.chip), (two.refusal, two.byte, Chip { busy: chip.busy, ..two.chip }));
        assert_eq!(acknowledge(chip).chip, one.chip);
        let (mut one, mut two) = (chip, other);
        for count in 1..4 {
            let (left, right) = (step(&image, &file, one), step(&image, &file, two));
            assert_eq!((left.sample, left.report, left.frame), (right.sample, right.report, right.frame));
            assert_eq!((left.short, left.thrown), (right.short, right.thrown));
            assert_eq!(left.chip, Chip { busy: (chip.busy - count).max(0), ..right.chip });
            assert_eq!(right.chip.busy, 0);
            (one, two) = (left.chip, right.chip);
        }
    }
    assert!(waited > 1_000 && sounded > 300 && waited - sounded > 300);
}

/// Whatever is done with a chip can be done with the other order and each
/// byte for the FIFO turned round, and nothing else differs.
#[test]
fn orders_are_mirrors() {
    let mut dice = Dice(0x9999_1111);
    for _ in 0..20_000 {
        let bytes = 1 + dice.below(12) as usize;
        let image = dice.bytes(bytes);
        let file = voice(1 + dice.below(64) as i64);
        let chip = dice.chip(bytes as i64);
        let other = mirrored(chip);
        assert_eq!((state_refusal(&other), status(&other)), (TAKEN, status(&chip)));
        // In the external modes the byte is turned round, elsewhere it is a
        // command.
        let byte = dice.below(256) as i64;
        let turned = if chip.mode == WAITING || chip.mode == EXTERNAL { i64::from(in_rom(LEAST_FIRST, byte)) } else { byte };
        let (one, two) = (write(&image, chip, byte), write(&image, other, turned));
        assert_eq!((two.refusal, two.chip), (one.refusal, mirrored(one.chip)));
        let (one, two) = (read(chip), read(other));
        assert_eq!((two.byte, two.chip), (one.byte, mirrored(one.chip)));
        let (mut one, mut two) = (chip, other);
        for _ in 0..dice.below(3) {
            let (left, right) = (step(&image, &file, one), step(&image, &file, two));
            assert_eq!((right.sample, right.report, right.frame), (left.sample, left.report, left.frame));
            assert_eq!((right.short, right.thrown), (left.short, left.thrown));
            assert_eq!(right.chip, mirrored(left.chip));
            (one, two) = (left.chip, right.chip);
        }
        // No call changes the order.
        for after in [one.order, write(&image, chip, byte).chip.order, read(chip).chip.order, acknowledge(chip).chip.order] {
            assert_eq!(after, chip.order);
        }
    }
}

/// Refused calls return the given state, taken ones a valid one, and a run is
/// one step for each element.
#[test]
fn laws_over_valid_states() {
    let mut dice = Dice(0x1234_5678_9ABC_DEF1);
    for round in 0..20_000 {
        let bytes = 1 + dice.below(12) as usize;
        let image = dice.bytes(bytes);
        let file = voice(1 + dice.below(64) as i64);
        let chip = dice.chip(bytes as i64);
        assert_eq!(state_refusal(&chip), TAKEN, "round {round}");
        let answer = write(&image, chip, dice.below(256) as i64);
        assert!([TAKEN, WAIT, BEYOND].contains(&answer.refusal));
        assert!(answer.refusal == TAKEN || answer.chip == chip);
        assert_eq!(state_refusal(&answer.chip), TAKEN);
        let answer = read(chip);
        assert_eq!((answer.refusal, state_refusal(&answer.chip)), (TAKEN, TAKEN));
        let looked = look(chip);
        assert_eq!((looked.refusal, looked.byte, looked.chip), (TAKEN, answer.byte, chip));
        let acknowledged = acknowledge(chip);
        assert_eq!((acknowledged.refusal, acknowledged.chip), (TAKEN, answer.chip));
        let count = dice.below(30) as usize;
        let mut buffer = vec![9_999; count];
        let ran = run(&image, &file, chip, &mut buffer);
        let mut stepwise = chip;
        for element in buffer {
            let before = stepwise;
            let stepped = step(&image, &file, stepwise);
            assert_eq!((stepped.refusal, state_refusal(&stepped.chip)), (TAKEN, TAKEN));
            assert_eq!(stepped.sample, element);
            assert!((-512..=511).contains(&element));
            stepwise = stepped.chip;
            held_by_rule(&before, &stepped);
            short_by_rule(&image, &before, &stepped);
            thrown_by_rule(&before, &stepped);
            let fell = speaking(before.mode) && !speaking(stepwise.mode);
            assert_eq!(fell, stepped.report == STOPPED || stepped.report == RAN_OUT);
            assert!(!fell || stepwise.interrupt == 1);
        }
        assert_eq!((ran.refusal, ran.chip), (TAKEN, stepwise));
    }
}

/// The list of document 01's demand 3, on random images, for both devices:
/// frames, position and TS after each step are those of the walk.
#[test]
fn steps_follow_the_walk() {
    let mut dice = Dice(99);
    for round in 0..600 {
        let bytes = 1 + dice.below(10) as usize;
        let image = dice.bytes(bytes);
        let address = dice.below(bytes as u64) as i64;
        let (device, v, rr) = match round % 2 {
            0 => (TMS5220, 0, 0),
            _ => (TMS5220C, dice.within(0, 1), dice.within(0, 3)),
        };
        let mut chip = power_up_of(device);
        chip = writes(&image, chip, &[4 * v + rr]);
        let mut rest = address;
        for _ in 0..5 {
            chip = writes(&image, chip, &[0x40 + rest % 16]);
            rest /= 16;
        }
        chip = writes(&image, chip, &[0x50]);
        let mut at = 8 * address;
        let mut samples = 0;
        let walked = rated_walk(&image, v, rr, address);
        loop {
            let due = rated_frame_at(&image, v, at);
            let stepped = taken(&image, chip);
            chip = stepped.chip;
            if due.refusal != TAKEN {
                assert_eq!((stepped.report, chip.position), (RAN_OUT, end(&image)));
                assert_eq!(walked.refusal, NO_PHRASE);
                // Step and walk find one and the same cut.
                assert_eq!(short_of(&stepped), (at, 0, walked.cut.missing));
                assert_eq!(walked.cut.begun, at);
                assert!(due.refusal == BEYOND || due.cut == walked.cut);
                break;
            }
            at += due.bits;
            let length = 25 * intervals_of(frame_rate(v, rr, &due.frame));
            samples += length;
            assert_eq!((stepped.frame, chip.position), (due.frame, at));
            if due.frame.kind == STOP {
                assert_eq!((stepped.report, status(&chip)), (STOPPED, 0x60));
                assert_eq!((walked.bits, walked.samples), (at - 8 * address, samples));
                // The stop's frame sounds to its end.
                chip = steps(&image, chip, length - 1);
                assert_eq!((chip.sounding, chip.sample, chip.interval), (1, 0, 0));
                break;
            }
            assert_eq!((stepped.report, status(&chip)), (FRAME, 0xE0));
            chip = steps(&image, chip, length - 1);
            assert_eq!((chip.position, status(&chip)), (at, 0xE0));
        }
    }
}

// ---------------------------------------------------------------- trace format

/// The chip line of a powered-up chip.
fn power_line() -> String {
    power_line_of(TMS5220)
}

fn power_line_of(device: i64) -> String {
    power_line_with(device, LEAST_FIRST)
}

fn power_line_with(device: i64, order: i64) -> String {
    let mut numbers = [0; CHIP_NUMBERS];
    numbers[27] = 8191;
    numbers[63] = device;
    numbers[67] = order;
    format!("C{}\n", numbers.iter().map(|number| format!(" {number}")).collect::<String>())
}

#[test]
fn trace_answers() {
    assert_eq!(played(b""), "");
    assert_eq!(played(b"P"), format!("P 0\n{}", power_line()));
    assert_eq!(played(b"R"), format!("R 0 96\n{}", power_line()));
    assert_eq!(played(b"L"), format!("L 0 96\n{}", power_line()));
    assert_eq!(played(b"K"), format!("K 0\n{}", power_line()));
    assert_eq!(played(b"QLK"), format!("Q 0\n{0}L 0 96\n{0}K 0\n{0}", power_line_of(TMS5220C)));
    // The empty image and voice at first.
    assert_eq!(played(b"W\x70"), format!("W 3\n{}", power_line()));
    assert_eq!(played(b"T"), format!("T 3 0 0{}\n{}", " 0".repeat(18), power_line()));
    assert_eq!(played(b"U\x02\0\0\0"), format!("U 3 0\n{}", power_line()));
    assert_eq!(played(b"I\x01\0\0\0\xFFT"), format!("I 1\nT 5 0 0{}\n{}", " 0".repeat(18), power_line()));
    assert_eq!(played(b"V\0\0\0\0"), "V 5\n");
    assert_eq!(played(&counted(b'V', &voice(1))), "V 0\n");
    assert_eq!(played(&numbered(b'F', 0)), format!("F 3 0{}\n", " 0".repeat(15)));
    assert_eq!(played(&numbered(b'A', 0)), "A 3 0 0 0 0 0 0 0 0\n");
    let image = counted(b'I', &[0x03, 0x83, 0xE0]);
    let script = [image.clone(), numbered(b'F', 0), numbered(b'F', 4), numbered(b'F', 15), numbered(b'F', 24)].concat();
    assert_eq!(
        played(&script),
        "I 3\nF 0 4 1 0 0 0 0 0 0 0 0 0 0 0 0 0 0\nF 0 11 3 3 1 0 0 0 0 0 0 0 0 0 0 0 0\n\
         F 0 4 2 15 0 0 0 0 0 0 0 0 0 0 0 0 0\nF 2 0 0 0 0 0 0 0 0 0 0 0 0 0 0 0 0\n"
    );
    let script = [image, numbered(b'A', 0), numbered(b'A', 2), numbered(b'A', 3)].concat();
    let sum = 0x03 + 0x83 + 0xE0;
    let lines = format!("I 3\nA 0 19 3 24 600 3 {sum} 0 0\nA 10 0 0 0 0 0 0 16 3\nA 2 0 0 0 0 0 0 0 0\n");
    assert_eq!(played(&script), lines);
    // A sum above 65,535.
    let mut long = vec![0x1F; 300 * 11];
    for (i, byte) in bits(&"1110 1 111111".repeat(8)).iter().cycle().take(300 * 11).enumerate() {
        long[i] = *byte;
    }
    long.push(0xF0);
    let sum: i64 = long.iter().map(|byte| i64::from(*byte)).sum();
    assert!(sum > 65_535);
    let script = [counted(b'I', &long), numbered(b'A', 0)].concat();
    let expected = format!("I 3301\nA 0 26404 2401 19208 480200 3301 {} 0 0\n", sum % 65_536);
    assert_eq!(played(&script), expected);
}

#[test]
fn trace_rates() {
    assert_eq!(played(b"Q"), format!("Q 0\n{}", power_line_of(TMS5220C)));
    let none = " 0".repeat(13);
    let image = counted(b'I', &bits("01 0000 10 0011 1 000001 11 1111"));
    let script = [
        image,
        b"G\x01\0\0\0\0G\x01\x06\0\0\0G\x01\x13\0\0\0G\0\x02\0\0\0".to_vec(),
        b"G\x02\0\0\0\0G\x01\x20\0\0\0".to_vec(),
        b"B\x01\0\0\0\0\0B\0\x04\0\0\0\0B\0\x03\x04\0\0\0".to_vec(),
    ]
    .concat();
    let sum = 0b0100_0010 + 0b0011_1000 + 0b0011_1111 + 0b1000_0000;
    assert_eq!(
        played(&script),
        format!(
            "I 4\nG 0 6 1 0 0 0 0 0 0 0 0 0 0 0 0 1 0 0\nG 0 13 3 3 1 0 0 0 0 0 0 0 0 0 0 2 0 0\n\
             G 0 6 2 15 0 0 0 0 0 0 0 0 0 0 0 3 0 0\nG 0 4 1 0 0 0 0 0 0 0 0 0 0 0 0 0 0 0\n\
             G 4 0{none} 0 0 0\nG 2 0{none} 0 0 0\n\
             B 0 25 3 12 300 4 {sum} 0 0\nB 4 0 0 0 0 0 0 0 0\nB 2 0 0 0 0 0 0 0 0\n"
        )
    );
}

#[test]
fn trace_orders() {
    for (device, order) in [(TMS5220, LEAST_FIRST), (TMS5220, MOST_FIRST), (TMS5220C, LEAST_FIRST), (TMS5220C, MOST_FIRST)] {
        let record = [b'O', device as u8, order as u8];
        let line = power_line_with(device, order);
        assert_eq!(played(&record), format!("O 0\n{line}"));
        // It is the chip of the calls behind it.
        let script = [counted(b'I', &[0]), record.to_vec(), b"W\x70R".to_vec()].concat();
        assert_eq!(played(&script), format!("I 1\nO 0\n{line}W 0\n{line}R 0 96\n{line}"));
        // The plain power-ups, whatever chip there was.
        for (plain, device) in [("P", TMS5220), ("Q", TMS5220C)] {
            let script = [&record[..], plain.as_bytes()].concat();
            assert_eq!(played(&script), format!("O 0\n{line}{plain} 0\n{}", power_line_of(device)));
        }
    }
    // The player's first chip: 0F is a stop to it, F0 begins with a silence.
    for (byte, report) in [(0x0F, "T 0 0 2"), (0xF0, "T 0 0 1")] {
        let bytes: Vec<u8> = [byte; 9].into_iter().flat_map(|byte| [b'W', byte]).collect();
        let script = [counted(b'I', &[0]), counted(b'V', &voice(1)), b"W\x60".to_vec(), bytes, b"T".to_vec()].concat();
        assert!(played(&script).lines().rev().nth(1).unwrap().starts_with(report));
    }
    // A device or an order above 1, and one that is cut off.
    for record in [&b"O\x02\0"[..], b"O\0\x02", b"O\xFF\x01", b"O\x01\xFF", b"O\x02\x02", b"O", b"O\0", b"O\x02", b"O\x01"] {
        assert_eq!(played(&[b"P", record].concat()), format!("P 0\n{}bad script\n", power_line()));
        // Nothing behind it is played.
        if record.len() == 3 {
            assert_eq!(played(&[record, b"PPP"].concat()), "bad script\n");
        }
    }
}

#[test]
fn trace_busy() {
    let start = [counted(b'I', &[0x05, 0xC0]), counted(b'V', &voice(2))].concat();
    let line = |device: i64, position: i64, busy: i64| {
        let mut numbers = numbers_of(&power_up_of(device));
        numbers[1] = position;
        numbers[68] = busy;
        format!("C{}\n", numbers.iter().map(|number| format!(" {number}")).collect::<String>())
    };
    let none = " 0".repeat(18);
    for (up, device) in [("P", TMS5220), ("Q", TMS5220C)] {
        let script = [&start[..], up.as_bytes(), b"W\x30W\x70LTW\x05W\x30RTW\x70"].concat();
        let [two, one, gone] = [2, 1, 0].map(|busy| line(device, 40, busy));
        let expected = format!(
            "I 2\nV 0\n{up} 0\n{}W 0\n{two}W 1\n{two}L 0 96\n{two}T 0 0 0{none}\n{one}W 1\n{one}W 1\n{one}R 0 96\n{one}\
             T 0 0 0{none}\n{gone}W 0\n{}",
            line(device, 0, 0),
            line(device, 0, 0)
        );
        assert_eq!(played(&script), expected);
        // A run of two is enough, one of nothing changes nothing.
        let script = [&start[..], up.as_bytes(), b"W\x30", &numbered(b'U', 0), b"W\x00", &numbered(b'U', 2), b"W\x70"].concat();
        let expected = format!(
            "I 2\nV 0\n{up} 0\n{}W 0\n{two}U 0 0\n{two}W 1\n{two}U 0 2 0 0\n{gone}W 0\n{}",
            line(device, 0, 0),
            line(device, 0, 0)
        );
        assert_eq!(played(&script), expected);
    }
}

#[test]
fn trace_cuts() {
    let none = " 0".repeat(13);
    let image = counted(b'I', &[0x03, 0x83]);
    let calls = b"A\0\0\0\0F\x0F\0\0\0G\0\x0F\0\0\0G\x01\x0F\0\0\0B\0\x03\0\0\0\0B\x01\0\x01\0\0\0".to_vec();
    // With v = 1 byte 1 is 10 0000 and 11.
    let lines = format!(
        "I 2\nA 10 0 0 0 0 0 0 15 3\nF 10 0{none} 15 3\nG 10 0{none} 0 15 3\nG 10 0{none} 0 15 5\n\
         B 10 0 0 0 0 0 0 15 3\nB 10 0 0 0 0 0 0 14 4\n"
    );
    assert_eq!(played(&[image.clone(), calls].concat()), lines);
    // From ROM: a silence and a repeat frame, then one bit.
    let start = [image, counted(b'V', &voice(3)), b"PW\x50".to_vec(), numbered(b'U', 400)].concat();
    let text = played(&[start, b"TT".to_vec()].concat());
    let told: Vec<&str> = text.lines().filter(|line| line.starts_with('T')).collect();
    assert_eq!(told, [format!("T 0 0 3{none} 0 15 0 3 0"), format!("T 0 0 0{none} 0 0 0 0 0")]);
    // From the FIFO: seventeen silences, and the eighteenth with the last bit;
    // then another speech whose last bits are 0001, the last of them the byte's
    // highest.
    for (last, line) in [(0x00, "0 4 0"), (0x80, "0 4 7")] {
        let bytes: Vec<u8> = [0; 8].into_iter().chain([last]).flat_map(|byte| [b'W', byte]).collect();
        let speak = [counted(b'I', &[0]), counted(b'V', &voice(3)), b"W\x60".to_vec(), bytes, numbered(b'U', 3_400)].concat();
        let text = played(&[speak, b"T".to_vec()].concat());
        assert_eq!(text.lines().rev().nth(1), Some(&format!("T 0 0 3{none} 0 {line} 0")[..]));
    }
}

/// trace: "`T refusal sample report FRAME rate begun used missing thrown`".
#[test]
fn trace_thrown() {
    let start = [counted(b'I', &[0xF1]), counted(b'V', &voice(3))].concat();
    let stop = format!(" 2 15{}", " 0".repeat(11));
    let told = |calls: &[&[u8]]| {
        let text = played(&[&start[..], &calls.concat()].concat());
        text.lines().filter(|line| line.starts_with('T')).map(str::to_string).collect::<Vec<String>>()
    };
    let bytes = |count: usize| [b'W', 0xFF].repeat(count);
    // From the FIFO: 68 bits behind the stop, then none; with rate bits 122.
    assert_eq!(told(&[b"W\x60", &bytes(9), b"TT"]), [format!("T 0 0 2{stop} 0 0 0 0 68"), format!("T 0 0 0{}", " 0".repeat(18))]);
    assert_eq!(told(&[b"QW\x04W\x60", &bytes(16), b"T"]), [format!("T 0 0 2{stop} 3 0 0 0 122")]);
    // From ROM, where four bits are behind it.
    assert_eq!(told(&[b"W\x50T"]), [format!("T 0 0 2{stop} 0 0 0 0 0")]);
    // Refused.
    let refused = told(&[b"W\x60", &bytes(9), &counted(b'V', b""), b"T"]);
    assert_eq!(refused, [format!("T 5 0 0{}", " 0".repeat(18))]);
}

#[test]
fn trace_runs() {
    let start = [counted(b'I', &[0xFF]), counted(b'V', &voice(3))].concat();
    let script = [start.clone(), numbered(b'U', 0), numbered(b'U', 3), numbered(b'U', 8_192), numbered(b'U', 8_193)].concat();
    let text = played(&script);
    let lines: Vec<&str> = text.lines().collect();
    assert_eq!(lines[..3], ["I 1", "V 0", "U 0 0"]);
    assert_eq!(lines[4], "U 0 3 0 0 0");
    assert_eq!(lines[6], format!("U 0 8192{}", " 0".repeat(8_192)));
    assert_eq!(lines[8], "bad script");
    assert_eq!(lines.len(), 9);
    // The steps of a phrase in one run are those of single steps.
    let speak = [start, b"W\x50".to_vec()].concat();
    let run = played(&[speak.clone(), numbered(b'U', 202)].concat());
    let single = played(&[speak, vec![b'T'; 202]].concat());
    assert_eq!(run.lines().last(), single.lines().last());
}

#[test]
fn trace_states() {
    // All 69 numbers come back as they are, and in their places.
    let numbers: Vec<i64> = (1..=69).collect();
    let line = format!("C{}\n", numbers.iter().map(|number| format!(" {number}")).collect::<String>());
    assert_eq!(played(&state_record(&numbers)), line);
    let mut array = [0; CHIP_NUMBERS];
    array.copy_from_slice(&numbers);
    let chip = chip_of(&array);
    assert_eq!((chip.mode, chip.used, chip.fifo[0], chip.fifo[15]), (1, 8, 9, 24));
    assert_eq!((chip.sounding, chip.sample, chip.interval, chip.noise, chip.place), (25, 26, 27, 28, 29));
    assert_eq!((chip.currents.energy, chip.currents.k[1], chip.currents.k[10]), (30, 32, 41));
    assert_eq!((chip.targets.energy, chip.targets.k[1], chip.targets.k[10]), (42, 44, 53));
    assert_eq!((chip.memory[1], chip.memory[10]), (54, 63));
    assert_eq!((chip.device, chip.v, chip.rr, chip.hold, chip.order, chip.busy), (64, 65, 66, 67, 68, 69));
    // A TMS5220 has no rate, but it holds, has an order, and can be busy.
    array[63..].copy_from_slice(&[TMS5220, 1, 3, 1, 1, 2]);
    assert_eq!(numbers_of(&chip_of(&array))[63..], [TMS5220, 0, 0, 1, 1, 2]);
    array[63] = TMS5220C;
    assert_eq!(numbers_of(&chip_of(&array))[63..], [TMS5220C, 1, 3, 1, 1, 2]);
    // Levels of 17 and 255 beside 16 bytes: refused, printed as given.
    for level in [17, 255] {
        let mut numbers = numbers_of(&speech(&[1; 16], 0));
        numbers[6] = level;
        let line = format!("C{}\n", numbers.iter().map(|number| format!(" {number}")).collect::<String>());
        let script = [
            counted(b'I', &[0]),
            counted(b'V', &voice(1)),
            state_record(&numbers),
            b"W\x70RTLK".to_vec(),
            numbered(b'U', 1),
        ]
        .concat();
        let none = " 0".repeat(18);
        let refused = format!("W 4\n{line}R 4 0\n{line}T 4 0 0{none}\n{line}L 4 0\n{line}K 4\n{line}U 4 0\n{line}");
        let expected = format!("I 1\nV 0\n{line}{refused}");
        assert_eq!(played(&script), expected);
    }
    // The widest numbers.
    for extreme in [i64::MIN, i64::MAX] {
        let script = [counted(b'I', &[0]), counted(b'V', &voice(1)), state_record(&[extreme; CHIP_NUMBERS]), b"W\x10RT".to_vec()].concat();
        let text = played(&script);
        assert!(text.contains("W 4\n") && text.contains("R 4 0\n") && text.contains("T 4 0 0 0"));
    }
}

#[test]
fn bad_scripts() {
    for script in [&b"x"[..], b"l", b"k", b"W", b"I", b"I\x01\0\0", b"I\x01\0\0\0", b"V\xFF\xFF\xFF\xFF", b"F\0\0\0", b"A", b"U\0\0\0", b"G\x01\0\0\0", b"B\x01\x01\0\0\0"] {
        assert_eq!(played(script), "bad script\n");
    }
    assert_eq!(played(b"U\x01\x20\0\0"), "bad script\n");
    assert_eq!(played(b"U\xFF\xFF\xFF\xFF"), "bad script\n");
    assert_eq!(played(b"V\0\0\0\0\nP"), "V 5\nbad script\n");
    let state = state_record(&[0; CHIP_NUMBERS]);
    assert_eq!(state.len(), 553);
    for cut in 1..state.len() {
        assert_eq!(played(&state[..cut]), "bad script\n");
    }
    // At the limit and over it.
    let full = counted(b'I', &vec![0; MOST_SCRIPT_BYTES - 5]);
    assert_eq!(full.len(), MOST_SCRIPT_BYTES);
    assert_eq!(played(&full), "I 1048571\n");
    assert_eq!(played(&[full, b"P".to_vec()].concat()), "bad script\n");
}

// ---------------------------------------------------------------- garbage

#[test]
fn garbage() {
    let mut dice = Dice(0xDEAD_BEEF);
    for _ in 0..3_000 {
        let length = dice.below(400) as usize;
        played(&dice.bytes(length));
    }
    // Letters more often than by chance.
    let letters = b"IVFAPSWRTUQGBLKO";
    for _ in 0..3_000 {
        let mut script = Vec::new();
        for _ in 0..dice.below(60) {
            let letter = letters[dice.below(16) as usize];
            match letter {
                b'I' => {
                    let length = dice.below(20) as usize;
                    script.extend(counted(b'I', &dice.bytes(length)));
                }
                b'V' => {
                    let mut file = voice(1 + dice.below(64) as i64);
                    if dice.below(3) == 0 {
                        let at = dice.below(file.len() as u64) as usize;
                        file[at] = dice.below(256) as u8;
                    }
                    script.extend(counted(b'V', &file));
                }
                b'F' | b'A' => {
                    let number = if dice.below(4) == 0 { dice.next() as u32 } else { dice.below(200) as u32 };
                    script.extend(numbered(letter, number));
                }
                b'G' => {
                    script.extend([letter, dice.below(3) as u8]);
                    script.extend((dice.below(200) as u32).to_le_bytes());
                }
                b'B' => {
                    script.extend([letter, dice.below(3) as u8, dice.below(5) as u8]);
                    script.extend((dice.below(25) as u32).to_le_bytes());
                }
                b'U' => script.extend(numbered(b'U', dice.below(300) as u32)),
                b'S' => {
                    let mut numbers = numbers_of(&dice.chip(10));
                    if dice.below(2) == 0 {
                        let at = dice.below(CHIP_NUMBERS as u64) as usize;
                        numbers[at] = match dice.below(3) {
                            0 => dice.next() as i64,
                            1 => dice.within(-32_768, 32_767),
                            _ => dice.within(0, 255),
                        };
                    }
                    script.extend(state_record(&numbers));
                }
                b'W' => script.extend([b'W', dice.below(256) as u8]),
                b'O' => script.extend([b'O', dice.within(0, 1) as u8, dice.within(0, 1) as u8]),
                _ => script.push(letter),
            }
        }
        if dice.below(4) == 0 {
            script.truncate(dice.below(script.len() as u64 + 1) as usize);
        }
        played(&script);
    }
}
