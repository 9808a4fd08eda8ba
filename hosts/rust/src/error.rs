//! What a call may answer other than that it is done.

use std::ffi::CStr;
use std::fmt;

use kogyulen_sys as raw;

/// Why a call was refused. Then nothing has changed, but that a pause may have been made.
#[derive(Clone, Copy, Debug, PartialEq, Eq, Hash)]
#[non_exhaustive]
pub enum Error {
    /// A number of references, data words, blocks or registers is out of its range.
    Size,
    /// The base register is nil.
    Nil,
    /// The object has no such reference or data word, or no body with such words.
    Index,
    /// What can be reached leaves no room.
    Full,
    /// The machine has no memory for the heap, or starts no further thread.
    Memory,
    /// The heap has no such register, or it can't be written to: register 0 of a mutator, which keeps the world, or one that the same call
    /// reads too.
    Register,
    /// As many mutators are in the heap as may be.
    Number,
    /// The heap was so full for so long that names could not be renewed, and the mutator has no operation left: it is to leave.
    UsedUp,
    /// There was no memory to go on after a pause: the heap is only to be left.
    Lost,
    /// Another code of the library. No call of this crate meets one.
    Other(u32),
}

impl fmt::Display for Error {
    fn fmt(&self, f: &mut fmt::Formatter<'_>) -> fmt::Result {
        match self {
            Error::Size => f.write_str("a size is out of its range"),
            Error::Nil => f.write_str("the register is nil"),
            Error::Index => f.write_str("the object has no such field"),
            Error::Full => f.write_str("the heap is full"),
            Error::Memory => f.write_str("out of memory"),
            Error::Register => f.write_str("there is no such register, or it can't be written to"),
            Error::Number => f.write_str("no place for a further mutator"),
            Error::UsedUp => f.write_str("names are to be renewed first"),
            Error::Lost => f.write_str("the heap is lost for want of memory"),
            // SAFETY: it takes any number, and answers a text that stays valid.
            Error::Other(code) => f.write_str(&unsafe { CStr::from_ptr(raw::lxr_message(*code)) }.to_string_lossy()),
        }
    }
}

impl std::error::Error for Error {}

/// Reads a code of `lxr.h`.
pub(crate) fn done(code: raw::Code) -> Result<(), Error> {
    match code {
        raw::LXR_OK => Ok(()),
        raw::LXR_E_REGISTER => Err(Error::Register),
        raw::LXR_E_SIZE => Err(Error::Size),
        raw::LXR_E_NIL => Err(Error::Nil),
        raw::LXR_E_INDEX => Err(Error::Index),
        raw::LXR_E_FULL => Err(Error::Full),
        raw::LXR_E_MEMORY => Err(Error::Memory),
        raw::LXR_E_NUMBER => Err(Error::Number),
        raw::LXR_E_USED_UP => Err(Error::UsedUp),
        raw::LXR_E_LOST => Err(Error::Lost),
        other => Err(Error::Other(other)),
    }
}

#[cfg(test)]
mod tests {
    use super::*;

    /// Each code has its words: those of the crate, or the library's.
    #[test]
    fn codes_have_words() {
        let [what, other] = [raw::LXR_E_WHAT, 99].map(|code| done(code).unwrap_err());
        assert_eq!((what, what.to_string().as_str()), (Error::Other(raw::LXR_E_WHAT), "no such number"));
        assert_eq!(other.to_string(), "no such code");
        assert_eq!(done(raw::LXR_E_FULL).unwrap_err().to_string(), "the heap is full");
    }
}
