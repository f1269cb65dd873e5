//! The player of trace scripts.

use std::io::{self, Write};

use crate::chip::{acknowledge, look, power_up, power_up_of, power_up_with, read, write, Chip, Values};
use crate::frame::{Cut, Frame};
use crate::numbers::{MOST_FIRST, TMS5220, TMS5220C};
use crate::rom::{frame_at, rated_frame_at, rated_walk, walk, Walked};
use crate::sound::{run, step, Short};
use crate::voice::voice_refusal;

// trace: "A script is at most 1,048,576 bytes".
pub const MOST_SCRIPT_BYTES: usize = 1_048_576;
// trace: "`U` | u32 n, at most 8,192".
const LONGEST_RUN: i64 = 8_192;
// trace: "each 9,999 before the call".
const UNTOUCHED: i64 = 9_999;
// trace: "`S` | as many i64 as `C` has numbers"; "553 [bytes] from §12 on".
pub const CHIP_NUMBERS: usize = 69;

/// What is left of the script.
struct Script<'a> {
    rest: &'a [u8],
}

impl<'a> Script<'a> {
    /// The next bytes, or none if the script ends before the last of them.
    fn bytes(&mut self, count: usize) -> Option<&'a [u8]> {
        if count > self.rest.len() {
            return None;
        }
        let (taken, rest) = self.rest.split_at(count);
        self.rest = rest;
        Some(taken)
    }

    fn byte(&mut self) -> Option<u8> {
        self.bytes(1)?.first().copied()
    }

    /// trace: "Numbers are little-endian; u32 is 4 bytes".
    fn u32(&mut self) -> Option<i64> {
        let bytes = self.bytes(4)?;
        Some(bytes.iter().rev().fold(0, |value, byte| 256 * value + i64::from(*byte)))
    }

    /// trace: "i64 is 8 bytes in two's complement".
    fn i64(&mut self) -> Option<i64> {
        let bytes = self.bytes(8)?.try_into().ok()?;
        Some(i64::from_le_bytes(bytes))
    }

    /// u32 n, n bytes.
    fn counted(&mut self) -> Option<&'a [u8]> {
        let count = self.u32()?;
        self.bytes(usize::try_from(count).ok()?)
    }
}

/// trace: "The player keeps an image (at first empty), a voice file (at first
/// empty) and a chip (at first as after `P`)."
struct Player<'a, 'b> {
    script: Script<'a>,
    image: &'a [u8],
    voice: &'a [u8],
    chip: Chip,
    out: &'b mut dyn Write,
}

/// Plays a script and prints the answers.
pub fn play(script: &[u8], out: &mut dyn Write) -> io::Result<()> {
    // trace: "a script over the limit: the line `bad script`". Nothing has
    // been answered before it.
    if script.len() > MOST_SCRIPT_BYTES {
        return writeln!(out, "bad script");
    }
    let mut player = Player {
        script: Script { rest: script },
        image: &[],
        voice: &[],
        chip: power_up(),
        out,
    };
    // trace: "records one after another up to its end".
    while !player.script.rest.is_empty() {
        // trace: "A record that is cut off; a letter that is unknown [..]; a run
        // [..] longer than 8,192; a device, an order [..] above 1 [..]: the
        // line `bad script` after the answers so far, and nothing more."
        let Some(answered) = player.record() else {
            return writeln!(player.out, "bad script");
        };
        answered?;
    }
    Ok(())
}

impl Player<'_, '_> {
    /// One record; none if it is bad.
    fn record(&mut self) -> Option<io::Result<()>> {
        match self.script.byte()? {
            b'I' => self.image_record(),
            b'V' => self.voice_record(),
            b'F' => self.frame_record(),
            b'A' => self.walk_record(),
            b'P' => self.power_record(),
            b'S' => self.state_record(),
            b'W' => self.write_record(),
            b'R' => self.read_record(),
            b'T' => self.step_record(),
            b'U' => self.run_record(),
            b'Q' => self.power_c_record(),
            b'G' => self.rated_frame_record(),
            b'B' => self.rated_walk_record(),
            b'L' => self.look_record(),
            b'K' => self.acknowledge_record(),
            b'O' => self.power_with_record(),
            _ => None,
        }
    }

    /// trace: "`I n`".
    fn image_record(&mut self) -> Option<io::Result<()>> {
        self.image = self.script.counted()?;
        Some(writeln!(self.out, "I {}", self.image.len()))
    }

    /// trace: "`V refusal` (the voice-file check)".
    fn voice_record(&mut self) -> Option<io::Result<()>> {
        self.voice = self.script.counted()?;
        Some(writeln!(self.out, "V {}", voice_refusal(self.voice)))
    }

    /// trace: "`F refusal bits FRAME`, CUT".
    fn frame_record(&mut self) -> Option<io::Result<()>> {
        let bit = self.script.u32()?;
        let taken = frame_at(self.image, bit);
        let (frame, cut) = (frame_text(&taken.frame), cut_text(&taken.cut));
        Some(writeln!(self.out, "F {} {}{frame}{cut}", taken.refusal, taken.bits))
    }

    /// trace: "`A refusal bits frames intervals samples part_length part_sum`
    /// (sum of the part's bytes modulo 65,536), CUT".
    fn walk_record(&mut self) -> Option<io::Result<()>> {
        let address = self.script.u32()?;
        let walked = walk(self.image, address);
        Some(writeln!(self.out, "A{}", walk_text(self.image, &walked)))
    }

    /// trace: "`G refusal bits FRAME rate`, CUT".
    fn rated_frame_record(&mut self) -> Option<io::Result<()>> {
        let v = i64::from(self.script.byte()?);
        let bit = self.script.u32()?;
        let taken = rated_frame_at(self.image, v, bit);
        let (frame, cut) = (frame_text(&taken.frame), cut_text(&taken.cut));
        Some(writeln!(self.out, "G {} {}{frame} {}{cut}", taken.refusal, taken.bits, taken.frame.rate))
    }

    /// trace: "`B`, then the numbers of `A`, CUT".
    fn rated_walk_record(&mut self) -> Option<io::Result<()>> {
        let v = i64::from(self.script.byte()?);
        let rr = i64::from(self.script.byte()?);
        let address = self.script.u32()?;
        let walked = rated_walk(self.image, v, rr, address);
        Some(writeln!(self.out, "B{}", walk_text(self.image, &walked)))
    }

    /// trace: "`P 0`, then `C`".
    fn power_record(&mut self) -> Option<io::Result<()>> {
        self.chip = power_up();
        Some(writeln!(self.out, "P 0").and_then(|()| self.chip_line()))
    }

    /// trace: "`Q 0`, then `C`".
    fn power_c_record(&mut self) -> Option<io::Result<()>> {
        self.chip = power_up_of(TMS5220C);
        Some(writeln!(self.out, "Q 0").and_then(|()| self.chip_line()))
    }

    /// trace: "`O` | u8 device (0 or 1), u8 order (0 or 1)", "`O 0`, then `C`".
    fn power_with_record(&mut self) -> Option<io::Result<()>> {
        let device = i64::from(self.script.byte()?);
        let order = i64::from(self.script.byte()?);
        if device > TMS5220C || order > MOST_FIRST {
            return None;
        }
        self.chip = power_up_with(device, order);
        Some(writeln!(self.out, "O 0").and_then(|()| self.chip_line()))
    }

    /// trace: "chip = this state, valid or not (no call is made)"; `C`.
    fn state_record(&mut self) -> Option<io::Result<()>> {
        let mut numbers = [0; CHIP_NUMBERS];
        for number in numbers.iter_mut() {
            *number = self.script.i64()?;
        }
        self.chip = chip_of(&numbers);
        Some(self.chip_line())
    }

    /// trace: "`W refusal`, then `C`".
    fn write_record(&mut self) -> Option<io::Result<()>> {
        let byte = i64::from(self.script.byte()?);
        let answer = write(self.image, self.chip, byte);
        self.chip = answer.chip;
        Some(writeln!(self.out, "W {}", answer.refusal).and_then(|()| self.chip_line()))
    }

    /// trace: "`R refusal byte`, then `C`".
    fn read_record(&mut self) -> Option<io::Result<()>> {
        let answer = read(self.chip);
        self.chip = answer.chip;
        Some(writeln!(self.out, "R {} {}", answer.refusal, answer.byte).and_then(|()| self.chip_line()))
    }

    /// trace: "`L refusal byte`, then `C`".
    fn look_record(&mut self) -> Option<io::Result<()>> {
        let answer = look(self.chip);
        self.chip = answer.chip;
        Some(writeln!(self.out, "L {} {}", answer.refusal, answer.byte).and_then(|()| self.chip_line()))
    }

    /// trace: "`K refusal`, then `C`".
    fn acknowledge_record(&mut self) -> Option<io::Result<()>> {
        let answer = acknowledge(self.chip);
        self.chip = answer.chip;
        Some(writeln!(self.out, "K {}", answer.refusal).and_then(|()| self.chip_line()))
    }

    /// trace: "`T refusal sample report FRAME`, and what is said below, then
    /// `C`": "§5 | rate", "§4 | begun", "§4 | used", "§4 | missing", "§10 |
    /// thrown".
    fn step_record(&mut self) -> Option<io::Result<()>> {
        let answer = step(self.image, self.voice, self.chip);
        self.chip = answer.chip;
        let line = writeln!(
            self.out,
            "T {} {} {}{} {}{} {}",
            answer.refusal,
            answer.sample,
            answer.report,
            frame_text(&answer.frame),
            answer.frame.rate,
            short_text(&answer.short),
            answer.thrown
        );
        Some(line.and_then(|()| self.chip_line()))
    }

    /// trace: "taken: `U 0 n s1 .. sn`; refused: `U refusal 0` followed by
    /// ` touched` if any element is no longer 9,999; then `C`".
    fn run_record(&mut self) -> Option<io::Result<()>> {
        let count = self.script.u32()?;
        if count > LONGEST_RUN {
            return None;
        }
        let mut buffer = vec![UNTOUCHED; count as usize];
        let answer = run(self.image, self.voice, self.chip, &mut buffer);
        self.chip = answer.chip;
        let line = if answer.refusal == 0 {
            format!("U 0 {count}{}", numbers_text(&buffer))
        } else if buffer.iter().any(|element| *element != UNTOUCHED) {
            format!("U {} 0 touched", answer.refusal)
        } else {
            format!("U {} 0", answer.refusal)
        };
        Some(writeln!(self.out, "{line}").and_then(|()| self.chip_line()))
    }

    /// trace: "`C`: the whole chip, the letter and 63 numbers, and those of the
    /// landed §s".
    fn chip_line(&mut self) -> io::Result<()> {
        writeln!(self.out, "C{}", numbers_text(&numbers_of(&self.chip)))
    }
}

/// trace: "refusal bits frames intervals samples part_length part_sum", CUT.
fn walk_text(image: &[u8], walked: &Walked) -> String {
    let part = part(image, walked);
    let sum: i64 = part.iter().map(|byte| i64::from(*byte)).sum();
    let numbers = numbers_text(&[
        walked.refusal,
        walked.bits,
        walked.frames,
        walked.intervals,
        walked.samples,
        part.len() as i64,
        sum.rem_euclid(65_536),
    ]);
    numbers + &cut_text(&walked.cut)
}

/// The walk's part of the image, empty when refused.
fn part<'a>(image: &'a [u8], walked: &Walked) -> &'a [u8] {
    image.get(walked.part_from as usize..walked.part_to as usize).unwrap_or(&[])
}

/// trace: "Numbers are decimal with a leading `-` where negative, separated by
/// single spaces". Each number with the space before it.
fn numbers_text(numbers: &[i64]) -> String {
    let mut text = String::new();
    for number in numbers {
        text.push(' ');
        text.push_str(&number.to_string());
    }
    text
}

/// trace: "`FRAME`: 13 numbers: kind, energy index, pitch index, K1..K10
/// indexes".
fn frame_text(frame: &Frame) -> String {
    let mut numbers = vec![frame.kind, frame.energy, frame.pitch];
    numbers.extend(&frame.k[1..=10]);
    numbers_text(&numbers)
}

/// trace: "CUT, from §4 on: `begun missing`".
fn cut_text(cut: &Cut) -> String {
    numbers_text(&[cut.begun, cut.missing])
}

/// trace: "begun used missing".
fn short_text(short: &Short) -> String {
    numbers_text(&[short.begun, short.used_up, short.missing])
}

/// The chip's 69 numbers, in the order of the trace format's table.
pub fn numbers_of(chip: &Chip) -> Vec<i64> {
    let mut numbers = vec![
        chip.mode,
        chip.position,
        chip.nibble,
        chip.pending,
        chip.data,
        chip.interrupt,
        chip.level,
        chip.used,
    ];
    numbers.extend(&chip.fifo);
    numbers.extend([chip.sounding, chip.sample, chip.interval, chip.noise, chip.place]);
    numbers.extend([chip.currents.energy, chip.currents.pitch]);
    numbers.extend(&chip.currents.k[1..=10]);
    numbers.extend([chip.targets.energy, chip.targets.pitch]);
    numbers.extend(&chip.targets.k[1..=10]);
    numbers.extend(&chip.memory[1..=10]);
    numbers.extend([chip.device, chip.v, chip.rr, chip.hold, chip.order, chip.busy]);
    numbers
}

/// The chip with these 69 numbers; `No. n` of the table stands at n - 1.
pub fn chip_of(numbers: &[i64; CHIP_NUMBERS]) -> Chip {
    let no = |n: usize| numbers[n - 1];
    let mut fifo = [0; 16];
    for i in 0..16 {
        fifo[i] = no(9 + i);
    }
    Chip {
        mode: no(1),
        position: no(2),
        nibble: no(3),
        pending: no(4),
        data: no(5),
        interrupt: no(6),
        level: no(7),
        used: no(8),
        fifo,
        sounding: no(25),
        sample: no(26),
        interval: no(27),
        noise: no(28),
        place: no(29),
        currents: Values { energy: no(30), pitch: no(31), k: ten(numbers, 32) },
        targets: Values { energy: no(42), pitch: no(43), k: ten(numbers, 44) },
        memory: ten(numbers, 54),
        device: no(64),
        v: rate_number(no(64), no(65)),
        rr: rate_number(no(64), no(66)),
        hold: no(67),
        order: no(68),
        busy: no(69),
    }
}

/// trace: "v, rr; 0 0 on the TMS5220". There is no such state with another
/// number, so none is held.
fn rate_number(device: i64, number: i64) -> i64 {
    if device == TMS5220 {
        return 0;
    }
    number
}

/// Ten numbers from No. `first` on, at places 1..10.
fn ten(numbers: &[i64; CHIP_NUMBERS], first: usize) -> [i64; 11] {
    let mut out = [0; 11];
    for i in 1..=10 {
        out[i] = numbers[first - 1 + i - 1];
    }
    out
}
