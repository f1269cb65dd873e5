use crate::{ffi, Refusal};

/// A voice file: the tables that turn the indexes of frames into sound. `tms5220.h` says how it is made.
#[derive(Clone, Copy, Debug, PartialEq, Eq, Hash)]
pub struct Voice<'a> {
    bytes: &'a [u8],
}

impl<'a> Voice<'a> {
    /// Checks the file, and says what is wrong with it where it is none.
    ///
    /// ```
    /// use tms5220::{Refusal, Voice};
    /// assert_eq!(Voice::new(&[0; 498]), Err(Refusal::VoiceSize));
    /// assert_eq!(Voice::new(&[0; 499]), Err(Refusal::VoiceLength));
    /// ```
    pub fn new(bytes: &'a [u8]) -> Result<Voice<'a>, Refusal> {
        // Safe: the pointer and the length are those of a slice.
        Refusal::check(unsafe { ffi::tms_voice_check(bytes.as_ptr(), bytes.len()) })?;
        Ok(Voice { bytes })
    }

    /// The file's bytes.
    pub fn bytes(self) -> &'a [u8] {
        self.bytes
    }
}
