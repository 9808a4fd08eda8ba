//! Operations that are done several at once.

use std::fmt;

use crate::error::{done, Error};
use crate::register::Register;
use kogyulen_sys as raw;

/// An operation of [`Heap::apply`](crate::Heap::apply), with what it told as it was done.
#[derive(Clone, Copy, Debug, PartialEq, Eq, Hash)]
#[repr(transparent)]
pub struct Operation(raw::Operation);

/// What operations of a heap for one thread and of a mutator have alike.
macro_rules! name_operations {
    ($Operation:ident, $heap:literal) => {
        impl $Operation {
            #[doc = concat!("As [`make`](", $heap, "::make).")]
            pub const fn make(dest: Register, refs: u32, words: u32) -> $Operation {
                $Operation::new(raw::LXR_OP_NEW, dest, refs, words)
            }

            #[doc = concat!("As [`load`](", $heap, "::load).")]
            pub const fn load(dest: Register, base: Register, index: u32) -> $Operation {
                $Operation::new(raw::LXR_OP_LOAD, dest, base.number(), index)
            }

            #[doc = concat!("As [`store`](", $heap, "::store).")]
            pub const fn store(base: Register, index: u32, source: Register) -> $Operation {
                $Operation::new(raw::LXR_OP_STORE, base, index, source.number())
            }

            #[doc = concat!("As [`get`](", $heap, "::get): it tells the word.")]
            pub const fn get(base: Register, index: u32) -> $Operation {
                $Operation::new(raw::LXR_OP_GET, base, index, 0)
            }

            #[doc = concat!("As [`put`](", $heap, "::put).")]
            pub const fn put(base: Register, index: u32, word: u64) -> $Operation {
                $Operation::new(raw::LXR_OP_PUT, base, index, 0).with(word)
            }

            #[doc = concat!("As [`same`](", $heap, "::same): it tells 1 or 0.")]
            pub const fn same(left: Register, right: Register) -> $Operation {
                $Operation::new(raw::LXR_OP_SAME, left, right.number(), 0)
            }

            #[doc = concat!("As [`copy`](", $heap, "::copy).")]
            pub const fn copy(dest: Register, source: Register) -> $Operation {
                $Operation::new(raw::LXR_OP_MOVE, dest, source.number(), 0)
            }

            #[doc = concat!("As [`clear`](", $heap, "::clear).")]
            pub const fn clear(dest: Register) -> $Operation {
                $Operation::new(raw::LXR_OP_NIL, dest, 0, 0)
            }

            /// Whether the register is nil: it tells 1 or 0.
            pub const fn is_nil(source: Register) -> $Operation {
                $Operation::new(raw::LXR_OP_IS_NIL, source, 0, 0)
            }

            /// What it told, once it was done; before that 0. One that tells nothing has the word that it was made with.
            pub const fn told(&self) -> u64 {
                self.0.word
            }

            const fn new(op: u32, first: Register, b: u32, c: u32) -> $Operation {
                $Operation(raw::Operation { op, a: first.number(), b, c, word: 0 })
            }

            const fn with(mut self, word: u64) -> $Operation {
                self.0.word = word;
                self
            }
        }
    };
}

name_operations!(Operation, "crate::Heap");

pub(crate) use name_operations;

/// Why operations stopped: one of them was refused, and those before it are done. `?` makes an [`Error`] of it.
#[derive(Clone, Copy, Debug, PartialEq, Eq, Hash)]
#[non_exhaustive]
pub struct Stopped {
    /// How many were done.
    pub done: usize,
    /// Why the next wasn't.
    pub error: Error,
}

impl Stopped {
    /// What a call with such a code has come to, that has done so many.
    pub(crate) fn by(code: raw::Code, count: usize) -> Result<(), Stopped> {
        done(code).map_err(|error| Stopped { done: count, error })
    }
}

impl fmt::Display for Stopped {
    fn fmt(&self, f: &mut fmt::Formatter<'_>) -> fmt::Result {
        write!(f, "{}, after {} operations", self.error, self.done)
    }
}

impl std::error::Error for Stopped {
    fn source(&self) -> Option<&(dyn std::error::Error + 'static)> {
        Some(&self.error)
    }
}

impl From<Stopped> for Error {
    fn from(stopped: Stopped) -> Error {
        stopped.error
    }
}
