//! The TMS5220, TMS5200 and TMS5220C speech chips, over a library that is proved to do what the chip's documents say.
//!
//! A [`Chip`] speaks a phrase of an [`Image`], or bytes that are written to it while it speaks, in a [`Voice`]. The caller makes time
//! pass: [`Chip::step`] is one sample of 1/8000 s, [`Chip::run`] as many as fit a buffer. [`Image::walk`] finds a phrase without a chip,
//! and finds the end that the chip finds.
//!
//! Images and voices are checked once, when they are made, and a chip is always a valid one. So steps and runs cannot fail, and a
//! written byte is refused only where the chip does not take it.
//!
//! ```
//! use tms5220::{BitOrder, Chip, Device, Image, Voice};
//! # let (rom, file) = (std::fs::read("../../crates/lister/stdin").unwrap(), std::fs::read("../../voices/tms5220.voice").unwrap());
//! let (image, voice) = (Image::new(&rom)?, Voice::new(&file)?);
//! let mut chip = Chip::power_up(Device::Tms5220, BitOrder::LeastFirst);
//! chip.speak(image, 0)?;
//! let mut samples = [0; 200];
//! while chip.is_sounding() {
//!     chip.run(image, voice, &mut samples);
//!     // play the samples
//! }
//! # Ok::<(), tms5220::Refusal>(())
//! ```
//!
//! # Building
//!
//! The crate links `libtms5220.a`, which `./build` makes in the repository. For a library that is installed, the environment variable
//! `TMS5220_LIB` names the folder of the archive. With `default-features = false` the crate does without the standard library.
#![cfg_attr(not(feature = "std"), no_std)]
#![deny(missing_docs)]

mod chip;
pub mod command;
mod ffi;
mod frame;
mod image;
mod refusal;
mod report;
mod voice;

pub use chip::{BitOrder, Chip, Device, Read, Status, NUMBERS};
pub use frame::{Frame, FrameAt, FrameRate, Rate};
pub use image::{Frames, Image, Phrase};
pub use refusal::Refusal;
pub use report::{Report, Step};
pub use voice::Voice;

/// Samples a second.
pub const SAMPLE_RATE: u32 = 8000;
