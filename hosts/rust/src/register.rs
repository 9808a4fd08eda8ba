//! The registers of a heap.

use std::fmt;

use kogyulen_sys as raw;

/// One of the registers of a heap: of sixteen, or of as many as its settings say, up to 256.
///
/// ```
/// use kogyulen::{Register, R3};
///
/// assert_eq!(Register::new(3), Some(R3));
/// assert_eq!(Register::new(255).map(Register::number), Some(255));
/// assert_eq!(Register::new(256), None);
/// assert_eq!(R3.to_string(), "r3");
/// assert_eq!(Register::all().count(), 16);
/// ```
#[derive(Clone, Copy, PartialEq, Eq, PartialOrd, Ord, Hash)]
#[repr(transparent)]
pub struct Register(u32);

impl Register {
    /// The register of a number from 0 to 255. A heap whose settings don't say otherwise has those up to 15.
    pub const fn new(number: u32) -> Option<Register> {
        if number < raw::LXR_MOST_REGISTERS {
            Some(Register(number))
        } else {
            None
        }
    }

    /// Its number, from 0 to 255.
    pub const fn number(self) -> u32 {
        self.0
    }

    /// The sixteen that each heap has, in order. Those of one heap are [`Heap::registers`](crate::Heap::registers).
    pub fn all() -> impl DoubleEndedIterator<Item = Register> + ExactSizeIterator {
        first(raw::LXR_REGISTERS)
    }
}

/// The first so many, in order.
pub(crate) fn first(count: u32) -> impl DoubleEndedIterator<Item = Register> + ExactSizeIterator {
    debug_assert!(count <= raw::LXR_MOST_REGISTERS);
    (0..count).map(Register)
}

/// The numbers of registers, as the library reads them.
pub(crate) fn numbers(registers: &[Register]) -> *const u32 {
    registers.as_ptr().cast()
}

impl fmt::Display for Register {
    fn fmt(&self, f: &mut fmt::Formatter<'_>) -> fmt::Result {
        write!(f, "r{}", self.0)
    }
}

impl fmt::Debug for Register {
    fn fmt(&self, f: &mut fmt::Formatter<'_>) -> fmt::Result {
        fmt::Display::fmt(self, f)
    }
}

macro_rules! name_registers {
    ($($name:ident $number:literal $note:literal),+ $(,)?) => {$(
        #[doc = $note]
        pub const $name: Register = Register($number);
    )+};
}

name_registers! {
    R0 0 "Register 0, which holds the world at first.",
    R1 1 "Register 1.",
    R2 2 "Register 2.",
    R3 3 "Register 3.",
    R4 4 "Register 4.",
    R5 5 "Register 5.",
    R6 6 "Register 6.",
    R7 7 "Register 7.",
    R8 8 "Register 8.",
    R9 9 "Register 9.",
    R10 10 "Register 10.",
    R11 11 "Register 11.",
    R12 12 "Register 12.",
    R13 13 "Register 13.",
    R14 14 "Register 14.",
    R15 15 "Register 15.",
}
