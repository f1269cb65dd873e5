use core::fmt;

/// Why a call was refused. A refused call has changed nothing.
#[derive(Clone, Copy, Debug, PartialEq, Eq, Hash)]
pub enum Refusal {
    /// Not now: the FIFO is full, the chip speaks from ROM, where it takes Reset alone, or a branch keeps it busy for two samples. Write
    /// the byte again later.
    Wait,
    /// What is asked for lies beyond the image's end.
    Beyond,
    /// The image is empty or longer than 262,144 bytes.
    Image,
    /// The numbers are those of no chip.
    State,
    /// The voice file has fewer than 499 or more than 562 bytes.
    VoiceSize,
    /// Its length field is not its size less 2.
    VoiceLength,
    /// Its version is not 1.
    VoiceVersion,
    /// A value in its tables is out of range.
    VoiceValue,
    /// Its pulse count is 0, above 64, or does not fit its length field.
    VoicePulse,
    /// The image ends before the phrase or the frame does.
    NoPhrase {
        /// The bit of the image at which the cut frame begins.
        begun: usize,
        /// The bits that it lacks.
        missing: usize,
    },
}

impl Refusal {
    /// The number by which the documents know it, 1 to 10.
    pub fn number(self) -> u8 {
        match self {
            Refusal::Wait => 1,
            Refusal::Beyond => 2,
            Refusal::Image => 3,
            Refusal::State => 4,
            Refusal::VoiceSize => 5,
            Refusal::VoiceLength => 6,
            Refusal::VoiceVersion => 7,
            Refusal::VoiceValue => 8,
            Refusal::VoicePulse => 9,
            Refusal::NoPhrase { .. } => 10,
        }
    }

    /// What an answer of the library means.
    pub(crate) fn check(number: u8) -> Result<(), Refusal> {
        Refusal::check_cut(number, 0, 0)
    }

    /// The same where the answer may be 10, which says where the cut frame begins and what it lacks.
    pub(crate) fn check_cut(number: u8, begun: usize, missing: usize) -> Result<(), Refusal> {
        Err(match number {
            0 => return Ok(()),
            1 => Refusal::Wait,
            2 => Refusal::Beyond,
            3 => Refusal::Image,
            4 => Refusal::State,
            5 => Refusal::VoiceSize,
            6 => Refusal::VoiceLength,
            7 => Refusal::VoiceVersion,
            8 => Refusal::VoiceValue,
            9 => Refusal::VoicePulse,
            10 => Refusal::NoPhrase { begun, missing },
            other => unreachable!("the library has no refusal {other}"),
        })
    }
}

impl fmt::Display for Refusal {
    fn fmt(&self, to: &mut fmt::Formatter) -> fmt::Result {
        match self {
            Refusal::Wait => write!(to, "the chip does not take this byte now"),
            Refusal::Beyond => write!(to, "what is asked for lies beyond the image's end"),
            Refusal::Image => write!(to, "the image is empty or longer than 262,144 bytes"),
            Refusal::State => write!(to, "these are the numbers of no chip"),
            Refusal::VoiceSize => write!(to, "the voice file does not have 499 to 562 bytes"),
            Refusal::VoiceLength => write!(to, "the voice file's length field is not its size less 2"),
            Refusal::VoiceVersion => write!(to, "the voice file's version is not 1"),
            Refusal::VoiceValue => write!(to, "a value in the voice file's tables is out of range"),
            Refusal::VoicePulse => write!(to, "the voice file's pulse count is 0, above 64, or does not fit its length field"),
            Refusal::NoPhrase { begun, missing } => {
                write!(to, "the image ends in the frame that begins at bit {begun}, and the frame lacks {missing} bits")
            }
        }
    }
}

#[cfg(feature = "std")]
impl std::error::Error for Refusal {}
