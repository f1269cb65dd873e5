use crate::{command, ffi, Frame, Image, Rate, Refusal, Report, Step, Voice};

/// How many numbers a chip has.
pub const NUMBERS: usize = 69;

/// Places in the numbers of a chip.
mod place {
    pub const MODE: usize = 0;
    pub const NIBBLE: usize = 2;
    pub const PENDING: usize = 3;
    pub const INTERRUPT: usize = 5;
    pub const LEVEL: usize = 6;
    pub const SOUNDING: usize = 24;
    pub const V: usize = 64;
}

/// Modes of a chip.
mod mode {
    pub const IDLE: i32 = 0;
    pub const EXTERNAL_WAITING: i32 = 2;
    pub const EXTERNAL: i32 = 3;
}

/// Which chip it is.
#[derive(Clone, Copy, Debug, PartialEq, Eq, Hash)]
pub enum Device {
    /// The TMS5220, and the TMS5200, which differs in its voice alone.
    Tms5220,
    /// The TMS5220C, whose frames may be shorter.
    Tms5220C,
}

/// In which order the bits of a byte that is written into the FIFO are spoken. Those of an image are always most significant first.
#[derive(Clone, Copy, Debug, PartialEq, Eq, Hash)]
pub enum BitOrder {
    /// Least significant first, as in the TMS5220's data sheet.
    LeastFirst,
    /// Most significant first, as in an image.
    MostFirst,
}

/// What a read gives.
#[derive(Clone, Copy, Debug, PartialEq, Eq, Hash)]
pub enum Read {
    /// The data byte of Read Byte.
    Data(u8),
    /// The status, where no data byte waits.
    Status(Status),
}

impl Read {
    /// The byte as the bus has it.
    pub fn byte(self) -> u8 {
        match self {
            Read::Data(byte) | Read::Status(Status(byte)) => byte,
        }
    }
}

/// The status byte.
#[derive(Clone, Copy, Debug, PartialEq, Eq, Hash)]
pub struct Status(u8);

impl Status {
    /// The chip speaks.
    pub fn talk(self) -> bool {
        self.0 & 0x80 != 0
    }

    /// The FIFO holds eight bytes or fewer.
    pub fn buffer_low(self) -> bool {
        self.0 & 0x40 != 0
    }

    /// The FIFO holds none.
    pub fn buffer_empty(self) -> bool {
        self.0 & 0x20 != 0
    }
}

/// A chip. It is a value: clone it, compare it, take its [`numbers`](Chip::numbers) to save it and make it of them again later.
///
/// ```
/// use tms5220::{BitOrder, Chip, Device, Image, Voice};
/// # let file = std::fs::read("../../voices/tms5220.voice").unwrap();
/// let (image, voice) = (Image::new(&[0x03, 0x83, 0xE0])?, Voice::new(&file)?);
/// let mut chip = Chip::power_up(Device::Tms5220, BitOrder::MostFirst);
/// chip.speak(image, 0)?;
/// chip.run(image, voice, &mut [0; 300]);
/// let saved = *chip.numbers();
/// let mut resumed = Chip::from_numbers(saved)?;
/// assert_eq!(resumed.step(image, voice), chip.step(image, voice));
/// # Ok::<(), tms5220::Refusal>(())
/// ```
#[derive(Clone, Debug, PartialEq, Eq, Hash)]
pub struct Chip {
    numbers: [i32; NUMBERS],
}

impl Chip {
    /// The chip after power-up.
    pub fn power_up(device: Device, order: BitOrder) -> Chip {
        let mut numbers = [0; NUMBERS];
        // Safe: the pointer is that of the chip's numbers, here and below.
        taken(unsafe {
            assert_eq!(ffi::tms_abi(), ffi::ABI, "the library is of another interface");
            ffi::tms_power_up(&mut numbers, device as u8, order as u8)
        });
        Chip { numbers }
    }

    /// The chip of these numbers, as [`Chip::numbers`] gave them; [`Refusal::State`] where they are those of no chip.
    pub fn from_numbers(numbers: [i32; NUMBERS]) -> Result<Chip, Refusal> {
        Refusal::check(unsafe { ffi::tms_check(&numbers) })?;
        Ok(Chip { numbers })
    }

    /// All that it is, in the order of `tms5220.h`.
    pub fn numbers(&self) -> &[i32; NUMBERS] {
        &self.numbers
    }

    /// Writes a byte: one of [`command`], or in external speech a byte for the FIFO. [`Refusal::Wait`] where the chip takes none now,
    /// [`Refusal::Beyond`] where a command wants bits past the image's end.
    pub fn write(&mut self, image: Image, byte: u8) -> Result<(), Refusal> {
        let bytes = image.bytes();
        Refusal::check(unsafe { ffi::tms_write(&mut self.numbers, bytes.as_ptr(), bytes.len(), byte) })
    }

    /// Speaks from a byte address: five times Load Address, and Speak. [`Refusal::Wait`] where the chip is not idle, [`Refusal::Beyond`]
    /// where the address is past the image's end; then no byte is written.
    pub fn speak(&mut self, image: Image, address: usize) -> Result<(), Refusal> {
        if self.numbers[place::MODE] != mode::IDLE {
            return Err(Refusal::Wait);
        }
        if address >= image.bytes().len() {
            return Err(Refusal::Beyond);
        }
        // loads that were written before have left off at some nibble; five more, from there on and around, set all of them
        let first = self.numbers[place::NIBBLE] as usize;
        for i in (first..5).chain(0..first) {
            self.write(image, command::LOAD_ADDRESS | (address >> (4 * i) & 15) as u8)?;
        }
        self.write(image, command::SPEAK)
    }

    /// Writes bytes into the FIFO, behind [`command::SPEAK_EXTERNAL`], and gives how many it has taken: none where the chip is not in
    /// external speech, for there they would be commands.
    ///
    /// ```
    /// use tms5220::{command, BitOrder, Chip, Device, Image, Voice};
    /// # let file = std::fs::read("../../voices/tms5220.voice").unwrap();
    /// # let voice = Voice::new(&file)?;
    /// let none = Image::new(&[0])?; // a host without a ROM lends one byte
    /// let phrase = [0; 40]; // of frames
    /// let mut chip = Chip::power_up(Device::Tms5220, BitOrder::LeastFirst);
    /// chip.write(none, command::SPEAK_EXTERNAL)?;
    /// let mut fed = chip.feed(none, &phrase);
    /// while chip.is_sounding() {
    ///     chip.run(none, voice, &mut [0; 200]);
    ///     if chip.interrupt() {
    ///         chip.read(); // the status, which clears the interrupt
    ///         fed += chip.feed(none, &phrase[fed..]);
    ///     }
    /// }
    /// assert_eq!(fed, 40);
    /// # Ok::<(), tms5220::Refusal>(())
    /// ```
    pub fn feed(&mut self, image: Image, bytes: &[u8]) -> usize {
        if !self.is_external() {
            return 0;
        }
        bytes.iter().take_while(|&&byte| self.write(image, byte).is_ok()).count()
    }

    /// Reads a byte: the data byte of Read Byte where one waits, else the status, which clears the interrupt.
    pub fn read(&mut self) -> Read {
        let (mut byte, pending) = (0, self.is_pending());
        taken(unsafe { ffi::tms_read(&mut self.numbers, &mut byte) });
        read_of(pending, byte)
    }

    /// What a read would give. Nothing changes, and the interrupt stays.
    pub fn look(&self) -> Read {
        let mut byte = 0;
        taken(unsafe { ffi::tms_look(&self.numbers, &mut byte) });
        read_of(self.is_pending(), byte)
    }

    /// What a read does to the chip.
    pub fn acknowledge(&mut self) {
        taken(unsafe { ffi::tms_acknowledge(&mut self.numbers) });
    }

    /// Whether the interrupt is set: since the status was read last, the talk has ended, or the FIFO has become low or empty, in a step.
    pub fn interrupt(&self) -> bool {
        self.numbers[place::INTERRUPT] == 1
    }

    /// Whether the chip sounds: from the start of speech until the first step behind the stop's frame, whose sample is 0.
    /// [`Status::talk`] ends when that frame begins.
    pub fn is_sounding(&self) -> bool {
        self.numbers[place::SOUNDING] == 1
    }

    /// How many bytes the FIFO holds, 0 to 16.
    pub fn fifo_level(&self) -> usize {
        self.numbers[place::LEVEL] as usize
    }

    /// One sample of 1/8000 s.
    pub fn step(&mut self, image: Image, voice: Voice) -> Step {
        let (image, voice) = (image.bytes(), voice.bytes());
        let (mut sample, mut report) = (0, 0);
        let (mut frame, mut bits) = (ffi::Frame::default(), ffi::Bits::default());
        let external = self.is_external();
        // Safe: the pointers are those of the chip, of slices and of values of their types.
        taken(unsafe {
            ffi::tms_step(
                &mut self.numbers,
                image.as_ptr(),
                image.len(),
                voice.as_ptr(),
                voice.len(),
                &mut sample,
                &mut report,
                &mut frame,
                &mut bits,
            )
        });
        let rate = (self.numbers[place::V] == 1).then(|| Rate::of(frame.rate));
        let report = match report {
            0 => Report::Nothing,
            1 => Report::Frame { frame: Frame::of(&frame), rate },
            2 => Report::Stop { rate, thrown: bits.thrown },
            3 if external => Report::RanOutOfFifo { used_up: bits.used_up, missing: bits.missing },
            3 => Report::RanOutOfRom { begun: bits.begun, missing: bits.missing },
            other => unreachable!("the library has no report {other}"),
        };
        Step { sample, report }
    }

    /// As many steps as `out` has elements, each sample in its place, in less than a tenth of their time.
    pub fn run(&mut self, image: Image, voice: Voice, out: &mut [i16]) {
        let (image, voice) = (image.bytes(), voice.bytes());
        let (samples, length) = (out.as_mut_ptr(), out.len());
        // Safe: the pointers are those of the chip and of slices.
        taken(unsafe { ffi::tms_run(&mut self.numbers, image.as_ptr(), image.len(), voice.as_ptr(), voice.len(), samples, length) });
    }

    fn is_external(&self) -> bool {
        matches!(self.numbers[place::MODE], mode::EXTERNAL_WAITING | mode::EXTERNAL)
    }

    fn is_pending(&self) -> bool {
        self.numbers[place::PENDING] == 1
    }
}

fn read_of(pending: bool, byte: u8) -> Read {
    if pending {
        Read::Data(byte)
    } else {
        Read::Status(Status(byte))
    }
}

/// A call on a chip, an image and a voice that have been checked is taken.
fn taken(number: u8) {
    assert_eq!(number, 0, "a call on a checked chip was refused");
}
