use crate::ffi;

/// A frame: indexes into the tables of a voice.
#[derive(Clone, Copy, Debug, PartialEq, Eq, Hash)]
pub enum Frame {
    /// Energy 0.
    Silence,
    /// Energy 15: the last frame of a phrase.
    Stop,
    /// New energy and pitch, the K of the frame before.
    Repeat {
        /// 1 to 14.
        energy: u8,
        /// 0 to 63; 0 is noise.
        pitch: u8,
    },
    /// Noise, with K1 to K4.
    Unvoiced {
        /// 1 to 14.
        energy: u8,
        /// K1 to K4.
        k: [u8; 4],
    },
    /// Pulses, with K1 to K10.
    Voiced {
        /// 1 to 14.
        energy: u8,
        /// 1 to 63.
        pitch: u8,
        /// K1 to K10.
        k: [u8; 10],
    },
}

impl Frame {
    pub(crate) fn of(frame: &ffi::Frame) -> Frame {
        let ffi::Frame { kind, energy, pitch, k, .. } = *frame;
        match kind {
            1 => Frame::Silence,
            2 => Frame::Stop,
            3 => Frame::Repeat { energy, pitch },
            4 => Frame::Unvoiced { energy, k: [k[0], k[1], k[2], k[3]] },
            5 => Frame::Voiced { energy, pitch, k },
            other => unreachable!("a call that is taken gives no frame of kind {other}"),
        }
    }
}

/// A frame in an image, by [`Image::frame_at`](crate::Image::frame_at).
#[derive(Clone, Copy, Debug, PartialEq, Eq, Hash)]
pub struct FrameAt {
    /// The bit of the image at which it begins, with its rate bits.
    pub bit: usize,
    /// Its bits, rate bits among them.
    pub bits: usize,
    /// What its rate bits say, where it has any.
    pub rate: Option<Rate>,
    /// The frame.
    pub frame: Frame,
}

/// How long a frame of a TMS5220C lasts.
#[derive(Clone, Copy, Debug, Default, PartialEq, Eq, Hash)]
pub enum Rate {
    /// 200 samples, as on the TMS5220.
    #[default]
    Samples200,
    /// 150 samples.
    Samples150,
    /// 100 samples.
    Samples100,
    /// 50 samples.
    Samples50,
}

impl Rate {
    /// What two rate bits say.
    pub(crate) fn of(bits: u8) -> Rate {
        [Rate::Samples200, Rate::Samples150, Rate::Samples100, Rate::Samples50][usize::from(bits & 3)]
    }

    /// How many samples the frame lasts.
    pub fn samples(self) -> usize {
        200 - 50 * self as usize
    }
}

/// How a TMS5220C finds a frame's rate, as Load Frame Rate has set it.
#[derive(Clone, Copy, Debug, PartialEq, Eq, Hash)]
pub enum FrameRate {
    /// v = 0: every frame has this rate.
    Fixed(Rate),
    /// v = 1: two rate bits before every frame say it.
    PerFrame,
}

impl FrameRate {
    /// v and rr.
    pub(crate) fn numbers(self) -> (u8, u8) {
        match self {
            FrameRate::Fixed(rate) => (0, rate as u8),
            FrameRate::PerFrame => (1, 0),
        }
    }
}
