//! Images and voices: what is taken of them, what is refused, and the frames of a phrase.
mod common;

use common::{file, packed, voice, ALL_KINDS};
use std::{collections::HashSet, error::Error};
use tms5220::{Frame, FrameRate, Image, Rate, Refusal, Voice};

#[test]
fn images_have_1_to_262144_bytes() {
    for (size, taken) in [(0, false), (1, true), (262_144, true), (262_145, false)] {
        let bytes = vec![0xFF; size];
        assert_eq!(Image::new(&bytes).map(Image::bytes), if taken { Ok(&bytes[..]) } else { Err(Refusal::Image) });
    }
}

#[test]
fn a_phrase_is_its_frames() {
    let rom = file(ALL_KINDS);
    let phrase = Image::new(&rom).unwrap().walk(0).unwrap();
    let frames: Vec<_> = phrase.frames().collect();
    assert_eq!(frames.len(), phrase.frame_count());
    assert_eq!(frames.iter().map(|found| found.bits).sum::<usize>(), phrase.bits());
    assert!(frames.windows(2).all(|pair| pair[0].bit + pair[0].bits == pair[1].bit));
    assert_eq!(frames.iter().map(|found| found.bits).collect::<HashSet<_>>(), HashSet::from([4, 11, 29, 50]));
    assert_eq!(frames.iter().position(|found| found.frame == Frame::Stop), Some(frames.len() - 1));
    assert_eq!((phrase.samples(), phrase.intervals()), (200 * phrase.frame_count(), 8 * phrase.frame_count()));
    assert_eq!(phrase.bytes(), &rom[phrase.range()]);
    assert_eq!(phrase.bytes().len(), (phrase.bits() + 7) / 8);
    let mut behind = phrase.frames();
    assert_eq!((behind.by_ref().count(), behind.next(), behind.next()), (frames.len(), None, None));
}

#[test]
fn frames_of_each_kind_are_read() {
    let k: [(u32, usize); 10] = [(17, 5), (18, 5), (3, 4), (4, 4), (5, 4), (6, 4), (7, 4), (1, 3), (2, 3), (3, 3)];
    let unvoiced = [&[(7, 4), (0, 1), (0, 6)], &k[..4]].concat();
    let voiced = [&[(9, 4), (0, 1), (33, 6)], &k[..]].concat();
    for (fields, bits, frame) in [
        (vec![(0, 4)], 4, Frame::Silence),
        (vec![(15, 4)], 4, Frame::Stop),
        (vec![(3, 4), (1, 1), (0, 6)], 11, Frame::Repeat { energy: 3, pitch: 0 }),
        (unvoiced, 29, Frame::Unvoiced { energy: 7, k: [17, 18, 3, 4] }),
        (voiced, 50, Frame::Voiced { energy: 9, pitch: 33, k: [17, 18, 3, 4, 5, 6, 7, 1, 2, 3] }),
    ] {
        let plain = packed(&fields);
        let found = Image::new(&plain).unwrap().frame_at(0).unwrap();
        assert_eq!((found.bit, found.bits, found.rate, found.frame), (0, bits, None, frame));
        let rated = packed(&[&[(2, 2)], &fields[..]].concat());
        let image = Image::new(&rated).unwrap();
        let found = image.frame_at_5220c(0, FrameRate::PerFrame).unwrap();
        assert_eq!((found.bits, found.rate, found.frame), (bits + 2, Some(Rate::Samples100), frame));
        let fixed = FrameRate::Fixed(Rate::Samples50);
        assert_eq!(image.frame_at_5220c(2, fixed), image.frame_at(2));
    }
}

#[test]
fn a_walk_of_the_5220c_goes_by_its_rates() {
    let rom = packed(&[(1, 2), (0, 4), (3, 2), (0, 4), (0, 2), (15, 4)]);
    let phrase = Image::new(&rom).unwrap().walk_5220c(0, FrameRate::PerFrame).unwrap();
    let rates: Vec<_> = phrase.frames().map(|found| found.rate.unwrap().samples()).collect();
    assert_eq!((rates, phrase.samples(), phrase.bits()), (vec![150, 50, 200], 400, 18));
}

#[test]
fn what_is_not_there_is_refused() {
    let image = Image::new(&[0x03, 0x83]).unwrap();
    assert_eq!(image.walk(2), Err(Refusal::Beyond));
    assert_eq!(image.walk(usize::MAX), Err(Refusal::Beyond));
    assert_eq!(image.frame_at(16), Err(Refusal::Beyond));
    assert_eq!(image.frame_at(usize::MAX), Err(Refusal::Beyond));
    assert_eq!(image.frame_at(15), Err(Refusal::NoPhrase { begun: 15, missing: 3 }));
    assert_eq!(image.walk(0), Err(Refusal::NoPhrase { begun: 15, missing: 3 }));
    assert_eq!(image.walk_5220c(1, FrameRate::PerFrame), Err(Refusal::NoPhrase { begun: 14, missing: 4 }));
}

#[test]
fn faults_of_a_voice_are_named() {
    let good = voice();
    let pulses = good.len() - 498;
    assert_eq!(Voice::new(&good).map(Voice::bytes), Ok(&good[..]));
    for (place, byte, refusal) in [
        (1, 0, Refusal::VoiceLength),
        (2, 2, Refusal::VoiceVersion),
        (4, 1, Refusal::VoiceValue),
        (35, 0x40, Refusal::VoiceValue),
        (161, 0x40, Refusal::VoiceValue),
        (497, 0, Refusal::VoicePulse),
        (497, pulses as u8 + 1, Refusal::VoicePulse),
    ] {
        let mut bad = good.clone();
        bad[place] = byte;
        assert_eq!(Voice::new(&bad), Err(refusal));
    }
    assert_eq!(Voice::new(&good[..498]), Err(Refusal::VoiceSize));
    assert_eq!(Voice::new(&[]), Err(Refusal::VoiceSize));
    assert_eq!(Voice::new(&[0; 563]), Err(Refusal::VoiceSize));
}

#[test]
fn each_refusal_is_an_error_with_a_number_and_words() {
    let all = [
        Refusal::Wait,
        Refusal::Beyond,
        Refusal::Image,
        Refusal::State,
        Refusal::VoiceSize,
        Refusal::VoiceLength,
        Refusal::VoiceVersion,
        Refusal::VoiceValue,
        Refusal::VoicePulse,
        Refusal::NoPhrase { begun: 12, missing: 34 },
    ];
    assert_eq!(all.map(Refusal::number), [1, 2, 3, 4, 5, 6, 7, 8, 9, 10]);
    let words: HashSet<String> = all.iter().map(|refusal| refusal as &dyn Error).map(|error| error.to_string()).collect();
    assert_eq!(words.len(), all.len());
    assert!(all[9].to_string().contains("12") && all[9].to_string().contains("34"));
}
