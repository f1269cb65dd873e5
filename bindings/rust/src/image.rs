use crate::{ffi, Frame, FrameAt, FrameRate, Rate, Refusal};
use core::{iter::FusedIterator, ops::Range};

/// The bytes of all speech ROMs, one after another: 1 to 262,144 of them.
#[derive(Clone, Copy, Debug, PartialEq, Eq, Hash)]
pub struct Image<'a> {
    bytes: &'a [u8],
}

impl<'a> Image<'a> {
    /// Checks the bytes; [`Refusal::Image`] where there are none or too many.
    pub fn new(bytes: &'a [u8]) -> Result<Image<'a>, Refusal> {
        let image = Image { bytes };
        // the library tells a bad image in every call that takes one, before anything else
        match image.frame_at(0) {
            Err(Refusal::Image) => Err(Refusal::Image),
            _ => Ok(image),
        }
    }

    /// The image's bytes.
    pub fn bytes(self) -> &'a [u8] {
        self.bytes
    }

    /// The frame at a bit, as a TMS5220 reads it. [`Refusal::Beyond`] at or past the end, [`Refusal::NoPhrase`] where the bits end
    /// inside it.
    pub fn frame_at(self, bit: usize) -> Result<FrameAt, Refusal> {
        self.frame_with(bit, None)
    }

    /// The frame at a bit, as a TMS5220C reads it at a frame rate.
    pub fn frame_at_5220c(self, bit: usize, rate: FrameRate) -> Result<FrameAt, Refusal> {
        self.frame_with(bit, Some(rate))
    }

    fn frame_with(self, bit: usize, rate: Option<FrameRate>) -> Result<FrameAt, Refusal> {
        let (mut frame, mut extent) = (ffi::Frame::default(), ffi::Extent::default());
        let (bytes, length) = (self.bytes.as_ptr(), self.bytes.len());
        // Safe: the pointers are those of a slice and of two values of their types.
        let number = unsafe {
            match rate {
                None => ffi::tms_frame_at(bytes, length, bit, &mut frame, &mut extent),
                Some(rate) => ffi::tms_frame_at_5220c(bytes, length, bit, rate.numbers().0, &mut frame, &mut extent),
            }
        };
        Refusal::check_cut(number, extent.begun, extent.missing)?;
        let told = (rate == Some(FrameRate::PerFrame)).then(|| Rate::of(frame.rate));
        Ok(FrameAt { bit, bits: extent.bits, rate: told, frame: Frame::of(&frame) })
    }

    /// The phrase at a byte address, as a TMS5220 speaks it. [`Refusal::Beyond`] at or past the end, [`Refusal::NoPhrase`] where the
    /// bits end before a stop.
    ///
    /// ```
    /// use tms5220::{Frame, Image};
    /// let image = Image::new(&[0x03, 0x83, 0xE0])?;
    /// let phrase = image.walk(0)?;
    /// assert_eq!((phrase.frame_count(), phrase.bits(), phrase.samples()), (3, 19, 600));
    /// let frames: Vec<Frame> = phrase.frames().map(|found| found.frame).collect();
    /// assert_eq!(frames, [Frame::Silence, Frame::Repeat { energy: 3, pitch: 1 }, Frame::Stop]);
    /// # Ok::<(), tms5220::Refusal>(())
    /// ```
    ///
    /// Cut short, it says where and by how much:
    ///
    /// ```
    /// use tms5220::{Image, Refusal};
    /// let image = Image::new(&[0x03, 0x83])?;
    /// assert_eq!(image.walk(0), Err(Refusal::NoPhrase { begun: 15, missing: 3 }));
    /// # Ok::<(), tms5220::Refusal>(())
    /// ```
    pub fn walk(self, address: usize) -> Result<Phrase<'a>, Refusal> {
        self.walk_with(address, None)
    }

    /// The phrase at a byte address, as a TMS5220C speaks it at a frame rate, which an image does not say.
    ///
    /// ```
    /// use tms5220::{FrameRate, Image, Rate};
    /// let image = Image::new(&[0x03, 0x83, 0xE0])?;
    /// assert_eq!(image.walk_5220c(0, FrameRate::Fixed(Rate::Samples50))?.samples(), 150);
    /// # Ok::<(), tms5220::Refusal>(())
    /// ```
    pub fn walk_5220c(self, address: usize, rate: FrameRate) -> Result<Phrase<'a>, Refusal> {
        self.walk_with(address, Some(rate))
    }

    fn walk_with(self, address: usize, rate: Option<FrameRate>) -> Result<Phrase<'a>, Refusal> {
        let mut numbers = ffi::Phrase::default();
        let (bytes, length) = (self.bytes.as_ptr(), self.bytes.len());
        // Safe: the pointers are those of a slice and of a value of its type.
        let number = unsafe {
            match rate.map(FrameRate::numbers) {
                None => ffi::tms_walk(bytes, length, address, &mut numbers),
                Some((v, rr)) => ffi::tms_walk_5220c(bytes, length, address, v, rr, &mut numbers),
            }
        };
        Refusal::check_cut(number, numbers.begun, numbers.missing)?;
        Ok(Phrase { image: self, rate, numbers })
    }
}

/// A phrase of an image, by [`Image::walk`].
#[derive(Clone, Copy, Debug, PartialEq, Eq, Hash)]
pub struct Phrase<'a> {
    image: Image<'a>,
    rate: Option<FrameRate>,
    numbers: ffi::Phrase,
}

impl<'a> Phrase<'a> {
    /// Its bits, through the stop.
    pub fn bits(&self) -> usize {
        self.numbers.bits
    }

    /// How many frames it has, the stop among them.
    pub fn frame_count(&self) -> usize {
        self.numbers.frames
    }

    /// How long it lasts, in intervals of 25 samples.
    pub fn intervals(&self) -> usize {
        self.numbers.intervals
    }

    /// How long it lasts, in samples of 1/8000 s.
    pub fn samples(&self) -> usize {
        self.numbers.samples
    }

    /// Which bytes of the image hold it.
    pub fn range(&self) -> Range<usize> {
        let first = self.numbers.offset;
        first..first + self.numbers.length
    }

    /// The bytes of the image that hold it.
    pub fn bytes(&self) -> &'a [u8] {
        &self.image.bytes[self.range()]
    }

    /// Its frames, one after another, the stop last.
    pub fn frames(&self) -> Frames<'a> {
        Frames { image: self.image, rate: self.rate, next: Some(8 * self.range().start) }
    }
}

/// The frames of a phrase, by [`Phrase::frames`].
#[derive(Clone, Debug)]
pub struct Frames<'a> {
    image: Image<'a>,
    rate: Option<FrameRate>,
    next: Option<usize>,
}

impl Iterator for Frames<'_> {
    type Item = FrameAt;

    fn next(&mut self) -> Option<FrameAt> {
        let found = self.image.frame_with(self.next?, self.rate).expect("a phrase holds whole frames");
        self.next = (found.frame != Frame::Stop).then_some(found.bit + found.bits);
        Some(found)
    }
}

impl FusedIterator for Frames<'_> {}
