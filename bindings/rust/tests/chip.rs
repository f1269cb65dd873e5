//! The chip: speech from ROM and through the FIFO, suspended and resumed, its reports and its refusals.
mod common;

use common::{file, packed, voice, ALL_KINDS};
use std::{collections::HashSet, thread};
use tms5220::{command, BitOrder, Chip, Device, Frame, FrameRate, Image, Rate, Read, Refusal, Report, Voice, NUMBERS};

/// What a phrase of silence frames says of itself, nine bytes of it.
const SILENCE: [u8; 9] = [0; 9];

fn plain() -> Chip {
    Chip::power_up(Device::Tms5220, BitOrder::MostFirst)
}

fn speaking(image: Image, address: usize) -> Chip {
    let mut chip = plain();
    chip.speak(image, address).unwrap();
    chip
}

fn samples(chip: &mut Chip, image: Image, voice: Voice, count: usize) -> Vec<i16> {
    let mut out = vec![0; count];
    chip.run(image, voice, &mut out);
    out
}

/// The reports of the chip until it is silent, but those of nothing, with the step of each, from 1.
fn reports(chip: &mut Chip, image: Image, voice: Voice) -> Vec<(usize, Report)> {
    let mut found = Vec::new();
    let mut step = 0;
    while chip.is_sounding() {
        step += 1;
        match chip.step(image, voice).report {
            Report::Nothing => {}
            report => found.push((step, report)),
        }
    }
    found
}

/// The samples of the whole of some bytes that are fed whenever the FIFO is low.
fn fed(chip: &mut Chip, voice: Voice, bytes: &[u8], count: usize) -> Vec<i16> {
    let none = Image::new(&[0]).unwrap();
    chip.write(none, command::SPEAK_EXTERNAL).unwrap();
    let mut next = chip.feed(none, bytes);
    let mut out = Vec::new();
    while out.len() < count {
        out.extend(samples(chip, none, voice, 25));
        if chip.interrupt() {
            assert!(matches!(chip.read(), Read::Status(_)));
            assert!(!chip.interrupt());
            next += chip.feed(none, &bytes[next..]);
        }
    }
    assert_eq!(next, bytes.len());
    out
}

#[test]
fn a_run_is_its_steps() {
    let (rom, file) = (file(ALL_KINDS), voice());
    let (image, voice) = (Image::new(&rom).unwrap(), Voice::new(&file).unwrap());
    let (mut stepped, mut ran) = (speaking(image, 0), speaking(image, 0));
    let by_steps: Vec<i16> = (0..1300).map(|_| stepped.step(image, voice).sample).collect();
    assert_eq!(samples(&mut ran, image, voice, 1300), by_steps);
    assert_eq!(ran, stepped);
    assert!(by_steps.iter().any(|&sample| sample != 0) && by_steps.iter().all(|sample| (-512..512).contains(sample)));
    ran.run(image, voice, &mut []);
    assert_eq!(ran, stepped);
}

#[test]
fn a_chip_is_resumed_anywhere() {
    let (rom, file) = (file(ALL_KINDS), voice());
    let (image, voice) = (Image::new(&rom).unwrap(), Voice::new(&file).unwrap());
    for at in (0..1300).step_by(13) {
        let mut chip = speaking(image, 0);
        samples(&mut chip, image, voice, at);
        let mut resumed = Chip::from_numbers(*chip.numbers()).unwrap();
        assert_eq!(resumed, chip);
        assert_eq!(samples(&mut resumed, image, voice, 1300 - at), samples(&mut chip, image, voice, 1300 - at));
        assert_eq!(resumed, chip);
    }
}

#[test]
fn chips_speak_on_threads() {
    let (rom, file) = (file(ALL_KINDS), voice());
    let (image, voice) = (Image::new(&rom).unwrap(), Voice::new(&file).unwrap());
    let heard: HashSet<Vec<i16>> = thread::scope(|scope| {
        let speak = || samples(&mut speaking(image, 0), image, voice, 1200);
        let threads: Vec<_> = (0..4).map(|_| scope.spawn(speak)).collect();
        threads.into_iter().map(|thread| thread.join().unwrap()).collect()
    });
    assert_eq!(heard.len(), 1);
}

#[test]
fn the_fifo_speaks_as_the_rom_does_in_either_bit_order() {
    let (rom, file) = (file(ALL_KINDS), voice());
    let (image, voice) = (Image::new(&rom).unwrap(), Voice::new(&file).unwrap());
    let phrase = image.walk(0).unwrap();
    let from_rom = samples(&mut speaking(image, 0), image, voice, phrase.samples());
    assert_eq!(fed(&mut plain(), voice, phrase.bytes(), from_rom.len()), from_rom);
    let turned: Vec<u8> = phrase.bytes().iter().map(|byte| byte.reverse_bits()).collect();
    let mut least_first = Chip::power_up(Device::Tms5220, BitOrder::LeastFirst);
    assert_eq!(fed(&mut least_first, voice, &turned, from_rom.len()), from_rom);
}

#[test]
fn steps_report_the_frames_of_the_phrase() {
    let (rom, file) = (file(ALL_KINDS), voice());
    let (image, voice) = (Image::new(&rom).unwrap(), Voice::new(&file).unwrap());
    let wanted = image.walk(0).unwrap().frames().enumerate().map(|(i, found)| match found.frame {
        Frame::Stop => (200 * i + 1, Report::Stop { rate: None, thrown: 0 }),
        frame => (200 * i + 1, Report::Frame { frame, rate: None }),
    });
    assert_eq!(reports(&mut speaking(image, 0), image, voice), wanted.collect::<Vec<_>>());
}

#[test]
fn frames_of_the_5220c_have_their_rates() {
    let rom = packed(&[(1, 2), (0, 4), (3, 2), (3, 4), (1, 1), (9, 6), (2, 2), (15, 4)]);
    let file = voice();
    let (image, voice) = (Image::new(&rom).unwrap(), Voice::new(&file).unwrap());
    let mut chip = Chip::power_up(Device::Tms5220C, BitOrder::LeastFirst);
    chip.write(image, command::load_frame_rate(FrameRate::PerFrame)).unwrap();
    chip.speak(image, 0).unwrap();
    let repeat = Frame::Repeat { energy: 3, pitch: 9 };
    let wanted = [
        (1, Report::Frame { frame: Frame::Silence, rate: Some(Rate::Samples150) }),
        (151, Report::Frame { frame: repeat, rate: Some(Rate::Samples50) }),
        (201, Report::Stop { rate: Some(Rate::Samples100), thrown: 0 }),
    ];
    assert_eq!(reports(&mut chip, image, voice), wanted);
    assert_eq!(image.walk_5220c(0, FrameRate::PerFrame).unwrap().samples(), 300);
}

#[test]
fn a_fixed_rate_holds_for_all_frames() {
    let (image_bytes, file) = ([0x03, 0x83, 0xE0], voice());
    let (image, voice) = (Image::new(&image_bytes).unwrap(), Voice::new(&file).unwrap());
    for (rate, length) in [(Rate::Samples200, 200), (Rate::Samples150, 150), (Rate::Samples100, 100), (Rate::Samples50, 50)] {
        let mut chip = Chip::power_up(Device::Tms5220C, BitOrder::LeastFirst);
        chip.write(image, command::load_frame_rate(FrameRate::Fixed(rate))).unwrap();
        chip.speak(image, 0).unwrap();
        let steps: Vec<usize> = reports(&mut chip, image, voice).iter().map(|&(step, _)| step).collect();
        assert_eq!((steps, rate.samples()), (vec![1, length + 1, 2 * length + 1], length));
    }
}

#[test]
fn a_stop_throws_away_what_stands_behind_it() {
    let (none, file) = (Image::new(&[0]).unwrap(), voice());
    let voice = Voice::new(&file).unwrap();
    let mut chip = plain();
    chip.write(none, command::SPEAK_EXTERNAL).unwrap();
    assert_eq!((chip.feed(none, &[0xFF; 9]), chip.fifo_level()), (9, 9));
    assert_eq!(chip.step(none, voice).report, Report::Stop { rate: None, thrown: 68 });
    assert!(chip.interrupt());
    assert_eq!((chip.read().byte(), chip.fifo_level()), (0x60, 0));
    assert_eq!(chip.feed(none, &[command::SPEAK]), 0);
}

#[test]
fn running_out_says_how_short_the_bits_are() {
    let file = voice();
    let voice = Voice::new(&file).unwrap();
    let cut = Image::new(&[0x03, 0x83]).unwrap();
    let from_rom = reports(&mut speaking(cut, 0), cut, voice);
    assert_eq!(from_rom.last(), Some(&(401, Report::RanOutOfRom { begun: 15, missing: 3 })));

    let mut chip = plain();
    chip.write(cut, command::SPEAK_EXTERNAL).unwrap();
    chip.feed(cut, &SILENCE);
    let whole = reports(&mut chip, cut, voice);
    assert_eq!(whole.last(), Some(&(3401, Report::RanOutOfFifo { used_up: 4, missing: 0 })));

    let mut chip = plain();
    chip.write(cut, command::SPEAK_EXTERNAL).unwrap();
    chip.feed(cut, &SILENCE[..8]);
    chip.feed(cut, &[0x01]); // a silence, and the energy of a sound, without the rest
    let inside = reports(&mut chip, cut, voice);
    assert_eq!(inside.last(), Some(&(3401, Report::RanOutOfFifo { used_up: 4, missing: 7 })));
}

#[test]
fn bytes_wait_and_lie_beyond() {
    let file = voice();
    let (image, voice) = (Image::new(&[0x00, 0x00, 0xF0]).unwrap(), Voice::new(&file).unwrap());
    let mut chip = speaking(image, 2);
    assert_eq!(chip.write(image, command::SPEAK), Err(Refusal::Wait));
    assert_eq!(chip.write(image, command::RESET), Ok(()));
    assert_eq!(chip, plain());

    chip.write(image, command::READ_AND_BRANCH).unwrap();
    assert_eq!(chip.write(image, command::RESET), Err(Refusal::Wait));
    chip.run(image, voice, &mut [0; 2]);
    assert_eq!(chip.write(image, command::RESET), Ok(()));

    for _ in 0..3 {
        chip.write(image, command::READ_BYTE).unwrap();
    }
    assert_eq!(chip.write(image, command::READ_BYTE), Err(Refusal::Beyond));
    assert_eq!(chip.write(image, command::SPEAK), Err(Refusal::Beyond));

    chip.write(image, command::SPEAK_EXTERNAL).unwrap();
    assert_eq!(chip.feed(image, &[0; 20]), 16);
    assert_eq!(chip.write(image, 0), Err(Refusal::Wait));
}

#[test]
fn speak_writes_nothing_where_it_is_refused() {
    let long = vec![0xFF; 262_144];
    let (image, short) = (Image::new(&long).unwrap(), Image::new(&[0xFF]).unwrap());
    let mut waiting = plain();
    waiting.write(short, command::SPEAK_EXTERNAL).unwrap();
    let mut busy = plain();
    busy.write(image, command::READ_AND_BRANCH).unwrap();
    for (mut chip, address, refusal) in [
        (plain(), 1, Refusal::Beyond),
        (plain(), 1 << 18, Refusal::Beyond), // its low 18 bits are an address in the image
        (speaking(short, 0), 0, Refusal::Wait),
        (waiting, 0, Refusal::Wait),
        (busy, 0, Refusal::Wait),
    ] {
        let before = chip.clone();
        assert_eq!((chip.speak(short, address), chip), (Err(refusal), before));
    }
    assert_eq!(plain().speak(image, 262_143), Ok(()));
    assert_eq!(plain().speak(image, 262_144), Err(Refusal::Beyond));
}

#[test]
fn speak_finds_its_address_after_any_number_of_loads() {
    let bytes = vec![0xFF; 0x23456];
    let image = Image::new(&bytes).unwrap();
    for loads in 0..7 {
        let mut chip = plain();
        for _ in 0..loads {
            chip.write(image, command::LOAD_ADDRESS | 9).unwrap();
        }
        chip.speak(image, 0x12345).unwrap();
        assert_eq!(chip, speaking(image, 0x12345));
    }
}

#[test]
fn a_read_is_a_look_and_an_acknowledge() {
    let file = voice();
    let (image, voice) = (Image::new(&[0x81, 0xFF]).unwrap(), Voice::new(&file).unwrap());
    let mut with_data = plain();
    with_data.write(image, command::READ_BYTE).unwrap();
    assert_eq!(with_data.look(), Read::Data(0x81));
    let mut with_interrupt = speaking(image, 1);
    with_interrupt.step(image, voice);
    assert!(with_interrupt.interrupt());
    for mut chip in [with_data, with_interrupt, plain()] {
        let (mut acknowledged, looked) = (chip.clone(), chip.look());
        acknowledged.acknowledge();
        assert_eq!((chip.read(), chip), (looked, acknowledged));
    }
}

#[test]
fn the_status_has_its_bits() {
    let image = Image::new(&[0xFF]).unwrap();
    let status = |chip: &Chip| match chip.look() {
        Read::Status(status) => (status.talk(), status.buffer_low(), status.buffer_empty()),
        Read::Data(byte) => panic!("data {byte}"),
    };
    let mut chip = plain();
    assert_eq!(status(&chip), (false, true, true));
    chip.write(image, command::SPEAK_EXTERNAL).unwrap();
    chip.feed(image, &SILENCE[..8]);
    assert_eq!(status(&chip), (false, true, false));
    chip.feed(image, &SILENCE[..1]);
    assert_eq!((status(&chip), chip.is_sounding()), ((true, false, false), true));
}

#[test]
fn numbers_of_no_chip_are_refused() {
    let numbers = *plain().numbers();
    assert_eq!(Chip::from_numbers(numbers), Ok(plain()));
    for i in 0..NUMBERS {
        for wrong in [-8193, i32::MIN, i32::MAX] {
            let mut changed = numbers;
            changed[i] = wrong;
            assert_eq!(Chip::from_numbers(changed), Err(Refusal::State), "number {i} is {wrong}");
        }
    }
}
