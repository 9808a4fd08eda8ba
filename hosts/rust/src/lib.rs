//! A garbage-collected heap, whose collector is proved, for one thread; and one that threads share, in [`threads`].
//!
//! Objects have references and data words of 64 bits, and live in a [`Heap`]. A program holds them by 16 to 256 registers: what a
//! [`Register`] holds is kept, and what kept objects refer to. All else is reclaimed by pauses, which the heap makes where it needs room,
//! and the program where it likes. Objects have no addresses here, since pauses move them.
//!
//! ```
//! use kogyulen::{Count, Heap, Settings, R1, R2};
//!
//! # fn main() -> Result<(), kogyulen::Error> {
//! let mut heap = Heap::open(&Settings::new(64))?; // 64 blocks of 32 KB for objects
//! for number in 0..10 {
//!     heap.make(R1, 1, 1)?; // one reference, one data word
//!     heap.put(R1, 0, number)?;
//!     heap.store(R1, 0, R2)?;
//!     heap.copy(R2, R1);
//! }
//! heap.load(R1, R2, 0)?;
//! assert_eq!(heap.get(R1, 0)?, 8);
//! heap.clear(R1);
//! heap.clear(R2);
//! heap.collect();
//! assert_eq!(heap.count(Count::Live), 0);
//! # Ok(())
//! # }
//! ```
//!
//! **What is proved** is the library behind this crate: what each of its functions answers and changes. This crate is some hundred lines of
//! plain Rust over it; it owns the handles, so nothing that a safe caller does breaks what the library asks of a host, but that a thread
//! which blocks outside of [`threads::Mutator::rest`] holds up the others. What waits for pauses, where threads share a heap, is plain C.
//!
//! Linking: the build script of `kogyulen-sys` takes `liblxr.a` from the folder that the environment variable `LXR_LIB_DIR` names, or else from the
//! installation, the release or the repository that this crate is a part of.

#![warn(missing_docs)]

/// The README's program is compiled and run as those of the pages are.
#[cfg(doctest)]
#[doc = include_str!("../README.md")]
struct Readme;

mod error;
mod operation;
mod register;
mod sequences;
mod settings;
pub mod threads;

pub use error::Error;
pub use operation::{Operation, Stopped};
pub use register::{Register, R0, R1, R10, R11, R12, R13, R14, R15, R2, R3, R4, R5, R6, R7, R8, R9};
pub use sequences::{Array, Words, MOST_ELEMENTS, MOST_LENGTH};
pub use settings::{Count, Pace, Settings};

use error::done;
use kogyulen_sys as raw;
use register::numbers;

/// The references of the world.
pub const WORLD_REFS: u32 = raw::LXR_WORLD_REFS;

/// The words of a block of a body.
pub const BLOCK_WORDS: u32 = raw::LXR_BLOCK_WORDS;

/// How many fields an object has.
#[derive(Clone, Copy, Debug, PartialEq, Eq, Hash)]
#[non_exhaustive]
pub struct Shape {
    /// References.
    pub refs: u32,
    /// Data words.
    pub words: u32,
    /// Blocks of the body, of 4,096 words each: 0 where it isn't a large object.
    pub blocks: u32,
}

/// A heap and its registers, sixteen or as many as its settings say. It has one owner, and is freed when that lets go of it. It may go to
/// another thread, and is used by one at a time.
///
/// At first [`R0`] holds the world, an object with [`WORLD_REFS`] references that is kept for good, and the other registers are nil.
///
/// A register that the heap hasn't is [`Error::Register`], and a panic of a method that has no error.
///
/// ```compile_fail
/// let heap = kogyulen::Heap::open(&kogyulen::Settings::new(1)).unwrap();
/// std::thread::scope(|scope| drop(scope.spawn(|| heap.is_nil(kogyulen::R1)))); // it isn't `Sync`
/// ```
///
/// ```compile_fail
/// let heap = kogyulen::Heap::open(&kogyulen::Settings::new(1)).unwrap();
/// let other = heap.clone(); // it has one owner
/// ```
pub struct Heap {
    handle: raw::Handle,
    registers: u32,
}

// SAFETY: what a handle owns names no thread, by the clause `HandlesCross` of `handles_cross` in the library's crate lxr_c_heap. So any thread may
// make its calls, where they are ordered: here by who has the heap. Calls at the same time are promised nothing, so it isn't `Sync`.
unsafe impl Send for Heap {}

impl Heap {
    /// Opens a heap of these settings. All memory that it will ever use is reserved now.
    ///
    /// # Errors
    /// [`Error::Size`] and [`Error::Memory`].
    pub fn open(settings: &Settings) -> Result<Heap, Error> {
        let registers = if settings.registers == 0 { raw::LXR_REGISTERS } else { settings.registers };
        let mut heap = Heap { handle: raw::Handle::EMPTY, registers };
        // SAFETY: the handle is empty, in no other call, and written by the library alone; so it is in each call below. The settings outlive it.
        done(unsafe { raw::lxr_open(&mut heap.handle, &settings.raw()) })?;
        Ok(heap)
    }

    /// Its registers, in order.
    pub fn registers(&self) -> impl DoubleEndedIterator<Item = Register> + ExactSizeIterator {
        register::first(self.registers)
    }

    /// The first so many registers stay in use, and all others become nil: as where a call stack is cut back. What a pause takes grows with
    /// the registers in use, up to the last that holds an object or did at the last pause.
    ///
    /// ```
    /// # use kogyulen::{Heap, Register, Settings, R2};
    /// # fn main() -> Result<(), kogyulen::Error> {
    /// let mut heap = Heap::open(&Settings::new(1).registers(256))?;
    /// for register in heap.registers().skip(1) {
    ///     heap.make(register, 0, 1)?;
    /// }
    /// heap.registers_in_use(2)?;
    /// assert!(heap.is_nil(R2));
    /// # Ok(())
    /// # }
    /// ```
    ///
    /// # Errors
    /// [`Error::Register`] where `count` is 0, since [`R0`] has the world, or more than the heap has.
    pub fn registers_in_use(&mut self, count: u32) -> Result<(), Error> {
        done(unsafe { raw::lxr_registers_in_use(&mut self.handle, count) })
    }

    /// The register holds a new object with nil references and words of 0; at most 1,023 of each. Where there is no room, the heap makes a
    /// collecting pause first.
    ///
    /// # Errors
    /// [`Error::Size`], and [`Error::Full`] where what can be reached leaves no room even so.
    pub fn make(&mut self, dest: Register, refs: u32, words: u32) -> Result<(), Error> {
        done(unsafe { raw::lxr_new(&mut self.handle, dest.number(), refs, words) })
    }

    /// The register holds a new object: its references are what these registers hold, and its data words are these. No pause comes between
    /// the object and its fields.
    ///
    /// ```
    /// # use kogyulen::{Heap, Settings, R1, R2};
    /// # fn main() -> Result<(), kogyulen::Error> {
    /// # let mut heap = Heap::open(&Settings::new(1))?;
    /// heap.make_with(R1, &[], &[7])?;
    /// heap.make_with(R2, &[R1, R1], &[8, 9])?;
    /// # assert_eq!(heap.get(R2, 1), Ok(9));
    /// # Ok(())
    /// # }
    /// ```
    ///
    /// # Errors
    /// [`Error::Register`] where `dest` is among the references, [`Error::Size`] and [`Error::Full`].
    pub fn make_with(&mut self, dest: Register, refs: &[Register], words: &[u64]) -> Result<(), Error> {
        done(unsafe { raw::lxr_new_with(&mut self.handle, dest.number(), numbers(refs), refs.len(), words.as_ptr(), words.len()) })
    }

    /// Reads data words of the base's object from an index on: all that fit the slice, or none.
    ///
    /// # Errors
    /// [`Error::Nil`], and [`Error::Index`] where the object doesn't have them all.
    pub fn get_many(&self, base: Register, first: u32, into: &mut [u64]) -> Result<(), Error> {
        done(unsafe { raw::lxr_get_many(&self.handle, base.number(), first, into.as_mut_ptr(), into.len()) })
    }

    /// Writes data words of the base's object from an index on: all of the slice, or none.
    ///
    /// # Errors
    /// [`Error::Nil`], and [`Error::Index`] where the object doesn't have them all.
    pub fn put_many(&mut self, base: Register, first: u32, from: &[u64]) -> Result<(), Error> {
        done(unsafe { raw::lxr_put_many(&mut self.handle, base.number(), first, from.as_ptr(), from.len()) })
    }

    /// These registers hold what references of the base's object from an index on refer to, in order: all of them, or none.
    ///
    /// # Errors
    /// [`Error::Register`] where the base is among them and isn't the last, [`Error::Nil`], and [`Error::Index`] where the object doesn't have
    /// them all.
    pub fn load_many(&mut self, base: Register, first: u32, into: &[Register]) -> Result<(), Error> {
        done(unsafe { raw::lxr_load_many(&mut self.handle, base.number(), first, numbers(into), into.len()) })
    }

    /// References of the base's object from an index on become what these registers hold: all of them, or none.
    ///
    /// # Errors
    /// [`Error::Nil`], and [`Error::Index`] where the object doesn't have them all.
    pub fn store_many(&mut self, base: Register, first: u32, sources: &[Register]) -> Result<(), Error> {
        done(unsafe { raw::lxr_store_many(&mut self.handle, base.number(), first, numbers(sources), sources.len()) })
    }

    /// Does operations in order, each as the method of its name, up to the first that is refused.
    ///
    /// ```
    /// # use kogyulen::{Heap, Operation, Settings, R1, R2};
    /// # fn main() -> Result<(), kogyulen::Error> {
    /// # let mut heap = Heap::open(&Settings::new(1))?;
    /// let mut operations = [Operation::make(R1, 1, 1), Operation::put(R1, 0, 7), Operation::copy(R2, R1), Operation::get(R2, 0)];
    /// heap.apply(&mut operations)?;
    /// assert_eq!(operations[3].told(), 7);
    /// # Ok(())
    /// # }
    /// ```
    ///
    /// # Errors
    /// That of the operation, with how many are done. Where a size is out of its range, none is.
    pub fn apply(&mut self, operations: &mut [Operation]) -> Result<(), Stopped> {
        let mut count = 0;
        // SAFETY: besides, an operation is the library's, by its representation.
        let code = unsafe { raw::lxr_apply(&mut self.handle, operations.as_mut_ptr().cast(), operations.len(), &mut count) };
        Stopped::by(code, count)
    }

    /// The register holds a new large object, with a body of 1 to 128 blocks whose words are 0.
    ///
    /// # Errors
    /// [`Error::Size`] and [`Error::Full`].
    pub fn make_large(&mut self, dest: Register, blocks: u32) -> Result<(), Error> {
        done(unsafe { raw::lxr_large_new(&mut self.handle, dest.number(), blocks) })
    }

    /// The register holds what a reference of the base's object refers to, or becomes nil.
    ///
    /// # Errors
    /// [`Error::Nil`] and [`Error::Index`].
    pub fn load(&mut self, dest: Register, base: Register, index: u32) -> Result<(), Error> {
        done(unsafe { raw::lxr_load(&mut self.handle, dest.number(), base.number(), index) })
    }

    /// A reference of the base's object becomes what the source holds, or nil.
    ///
    /// # Errors
    /// [`Error::Nil`] and [`Error::Index`].
    pub fn store(&mut self, base: Register, index: u32, source: Register) -> Result<(), Error> {
        done(unsafe { raw::lxr_store(&mut self.handle, base.number(), index, source.number()) })
    }

    /// A data word of the base's object.
    ///
    /// # Errors
    /// [`Error::Nil`] and [`Error::Index`].
    pub fn get(&self, base: Register, index: u32) -> Result<u64, Error> {
        let mut word = 0;
        done(unsafe { raw::lxr_get(&self.handle, base.number(), index, &mut word) })?;
        Ok(word)
    }

    /// Writes a data word of the base's object.
    ///
    /// # Errors
    /// [`Error::Nil`] and [`Error::Index`].
    pub fn put(&mut self, base: Register, index: u32, word: u64) -> Result<(), Error> {
        done(unsafe { raw::lxr_put(&mut self.handle, base.number(), index, word) })
    }

    /// A word of the body of the base's object.
    ///
    /// # Errors
    /// [`Error::Nil`] and [`Error::Index`].
    pub fn body_get(&self, base: Register, index: u32) -> Result<u64, Error> {
        let mut word = 0;
        done(unsafe { raw::lxr_large_get(&self.handle, base.number(), index, &mut word) })?;
        Ok(word)
    }

    /// Writes a word of the body of the base's object.
    ///
    /// # Errors
    /// [`Error::Nil`] and [`Error::Index`].
    pub fn body_put(&mut self, base: Register, index: u32, word: u64) -> Result<(), Error> {
        done(unsafe { raw::lxr_large_put(&mut self.handle, base.number(), index, word) })
    }

    /// Reads words of the body from an index on: all that fit the slice, or none.
    ///
    /// # Errors
    /// [`Error::Nil`], and [`Error::Index`] where the body doesn't have them all.
    pub fn body_read(&self, base: Register, index: u32, into: &mut [u64]) -> Result<(), Error> {
        done(unsafe { raw::lxr_large_read(&self.handle, base.number(), index, into.as_mut_ptr(), into.len()) })
    }

    /// Writes words of the body from an index on: all of the slice, or none.
    ///
    /// # Errors
    /// [`Error::Nil`], and [`Error::Index`] where the body doesn't have them all.
    pub fn body_write(&mut self, base: Register, index: u32, from: &[u64]) -> Result<(), Error> {
        done(unsafe { raw::lxr_large_write(&mut self.handle, base.number(), index, from.as_ptr(), from.len()) })
    }

    /// The register holds a new array of so many nil elements, up to [`MOST_ELEMENTS`].
    ///
    /// # Errors
    /// [`Error::Size`]; [`Error::Full`], and then the register holds what it held; and [`Error::Register`], where the heap has 255 or 256
    /// registers and the array more than 1,023 elements.
    pub fn make_array(&mut self, dest: Register, length: u32) -> Result<(), Error> {
        done(unsafe { raw::lxr_array_new(&mut self.handle, dest.number(), length) })
    }

    /// The array that the register holds.
    pub fn array(&mut self, base: Register) -> Array<&mut Heap> {
        Array::new(self, base)
    }

    /// The register holds so many new words, all 0, up to [`MOST_LENGTH`]. More than 1,023 are a large object.
    ///
    /// # Errors
    /// [`Error::Size`] and [`Error::Full`].
    pub fn make_words(&mut self, dest: Register, length: u32) -> Result<(), Error> {
        done(unsafe { raw::lxr_words_new(&mut self.handle, dest.number(), length) })
    }

    /// The words that the register holds, to be read.
    pub fn words(&self, base: Register) -> Words<&Heap> {
        Words::new(self, base)
    }

    /// The words that the register holds, to be read and written.
    pub fn words_mut(&mut self, base: Register) -> Words<&mut Heap> {
        Words::new(self, base)
    }

    /// How many fields the base's object has; `None` where the register is nil.
    #[track_caller]
    pub fn shape(&self, base: Register) -> Option<Shape> {
        let mut shape = Shape { refs: 0, words: 0, blocks: 0 };
        match unsafe { raw::lxr_shape(&self.handle, base.number(), &mut shape.refs, &mut shape.words, &mut shape.blocks) } {
            raw::LXR_E_NIL => None,
            code => {
                sure(code);
                Some(shape)
            }
        }
    }

    /// Whether both registers are nil or hold one object.
    #[track_caller]
    pub fn same(&self, left: Register, right: Register) -> bool {
        let mut same = 0;
        sure(unsafe { raw::lxr_same(&self.handle, left.number(), right.number(), &mut same) });
        same != 0
    }

    /// Whether the register is nil.
    #[track_caller]
    pub fn is_nil(&self, source: Register) -> bool {
        let mut is_nil = 0;
        sure(unsafe { raw::lxr_is_nil(&self.handle, source.number(), &mut is_nil) });
        is_nil != 0
    }

    /// A register holds what another holds, or becomes nil.
    #[track_caller]
    pub fn copy(&mut self, dest: Register, source: Register) {
        sure(unsafe { raw::lxr_move(&mut self.handle, dest.number(), source.number()) });
    }

    /// The register becomes nil.
    #[track_caller]
    pub fn clear(&mut self, dest: Register) {
        sure(unsafe { raw::lxr_nil(&mut self.handle, dest.number()) });
    }

    /// Makes a plain pause, by reference counts alone: cycles and objects with fifteen or more references wait for [`Heap::collect`].
    pub fn pause(&mut self) {
        sure(unsafe { raw::lxr_pause(&mut self.handle) });
    }

    /// Makes a collecting pause: exactly what can be reached is left.
    pub fn collect(&mut self) {
        sure(unsafe { raw::lxr_collect(&mut self.handle) });
    }

    /// Sets when plain pauses come by themselves, from now on.
    pub fn set_pace(&mut self, pace: Pace) {
        sure(unsafe { raw::lxr_set_pace(&mut self.handle, pace.bytes()) });
    }

    /// Sets how many blocks are in use before a pause that is due collects, from now on; 0 for all.
    ///
    /// # Errors
    /// [`Error::Size`], where fewer are reserved.
    pub fn set_room(&mut self, blocks: u32) -> Result<(), Error> {
        done(unsafe { raw::lxr_set_room(&mut self.handle, blocks) })
    }

    /// Sets the hundredths more than what lives to which each collecting pause sets the room, from the next one on; 0 for never.
    ///
    /// # Errors
    /// [`Error::Size`], above 10,000.
    pub fn set_grow(&mut self, hundredths: u32) -> Result<(), Error> {
        done(unsafe { raw::lxr_set_grow(&mut self.handle, hundredths) })
    }

    /// Gives memory of blocks that are wholly free back to the system: [`collect`](Self::collect) before it gives most. Nothing else that can be told
    /// changes.
    pub fn trim(&mut self) {
        sure(unsafe { raw::lxr_trim(&mut self.handle) });
    }

    /// Sets how many units of what waits for the next plain pause are done by itself for each 64 bytes of new objects, from now on; 0 for none.
    ///
    /// # Errors
    /// [`Error::Size`], above 1,000,000.
    pub fn set_work(&mut self, units: u32) -> Result<(), Error> {
        done(unsafe { raw::lxr_set_work(&mut self.handle, units) })
    }

    /// Does up to so many units of what waits for the next plain pause, so that less is left to it: in idle time, say. A unit lowers one count, and
    /// reclaims the object where that falls to 0. Whether there is more to do before the pause; [`Count::Waiting`] tells how many counts wait.
    pub fn work(&mut self, units: u32) -> bool {
        let mut more = 0;
        sure(unsafe { raw::lxr_work(&mut self.handle, units, &mut more) });
        more != 0
    }

    /// How many there are of what is counted.
    pub fn count(&self, what: Count) -> u64 {
        let mut number = 0;
        sure(unsafe { raw::lxr_count(&self.handle, what as u32, &mut number) });
        number
    }
}

impl Drop for Heap {
    fn drop(&mut self) {
        // An empty handle, of a heap that couldn't be opened, is answered by a code, and nothing happens.
        unsafe { raw::lxr_close(&mut self.handle) };
    }
}

impl std::fmt::Debug for Heap {
    fn fmt(&self, f: &mut std::fmt::Formatter<'_>) -> std::fmt::Result {
        f.debug_struct("Heap").finish_non_exhaustive()
    }
}

/// The version of the library, major, minor and patch.
pub fn version() -> (u32, u32, u32) {
    // SAFETY: it takes nothing, and answers a number.
    let version = unsafe { raw::lxr_version() };
    (version >> 16, version >> 8 & 0xff, version & 0xff)
}

/// A call on an open heap is refused for a register that it hasn't alone.
#[track_caller]
fn sure(code: raw::Code) {
    if let Err(error) = done(code) {
        panic!("{error}");
    }
}
