use crate::{Frame, Rate};

/// One sample, and what its step reports: by [`Chip::step`](crate::Chip::step).
#[derive(Clone, Copy, Debug, PartialEq, Eq, Hash)]
pub struct Step {
    /// -512 to 511; times 64 it is a sample of 16 bits.
    pub sample: i16,
    /// What has begun or ended.
    pub report: Report,
}

/// What a step reports.
#[derive(Clone, Copy, Debug, PartialEq, Eq, Hash)]
pub enum Report {
    /// The frame goes on, or there is no sound.
    Nothing,
    /// A frame other than a stop begins.
    Frame {
        /// The frame.
        frame: Frame,
        /// What its rate bits say, where it has any.
        rate: Option<Rate>,
    },
    /// The frame of the stop begins, with which the sound ends.
    Stop {
        /// What its rate bits say, where it has any.
        rate: Option<Rate>,
        /// The bits behind it in the FIFO, which it throws away; 0 in speech from ROM.
        thrown: usize,
    },
    /// The image ended before a stop: silence at once.
    RanOutOfRom {
        /// The bit of the image at which the cut frame begins.
        begun: usize,
        /// The bits that it lacks.
        missing: usize,
    },
    /// The FIFO ended before a stop: silence at once.
    RanOutOfFifo {
        /// The bits that were left in the FIFO, and are gone.
        used_up: usize,
        /// The bits that the cut frame lacks; 0 where the FIFO ended with a whole frame.
        missing: usize,
    },
}
