//! Refusals.
use crate::sys::{self, addr2line_status};
use std::fmt;

/// A refusal, by its status: one of the constants of [`sys`].
#[derive(Clone, Copy, PartialEq, Eq, Hash)]
pub struct Error(pub(crate) addr2line_status);

impl Error {
    /// Which it is, as `sys::ADDR2LINE_NOT_ELF`.
    pub fn status(self) -> addr2line_status {
        self.0
    }
}

impl fmt::Display for Error {
    fn fmt(&self, f: &mut fmt::Formatter<'_>) -> fmt::Result {
        let mut text = [0u8; 80];
        let mut needed = 0;
        // SAFETY: `text` has room for as many bytes as is said.
        let status = unsafe { sys::addr2line_status_text(self.0, text.as_mut_ptr().cast(), text.len(), &mut needed) };
        match text.get(..needed.saturating_sub(1)) {
            Some(text) if status == sys::ADDR2LINE_OK => f.pad(&String::from_utf8_lossy(text)),
            _ => write!(f, "status {}", self.0),
        }
    }
}

impl fmt::Debug for Error {
    fn fmt(&self, f: &mut fmt::Formatter<'_>) -> fmt::Result {
        write!(f, "Error {{ status: {}, text: \"{self}\" }}", self.0)
    }
}

impl std::error::Error for Error {}

/// Whether a call found what was asked for.
pub(crate) fn found(status: addr2line_status) -> Result<bool, Error> {
    match status {
        sys::ADDR2LINE_OK => Ok(true),
        sys::ADDR2LINE_NOTHING => Ok(false),
        refused => Err(Error(refused)),
    }
}
