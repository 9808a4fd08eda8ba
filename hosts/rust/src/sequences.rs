//! Arrays of references, and words of any length.

use std::fmt;
use std::ops::Range;

use crate::error::{done, Error};
use crate::register::Register;
use crate::threads::Mutator;
use crate::Heap;
use kogyulen_sys as raw;

/// The most elements that an array has.
pub const MOST_ELEMENTS: u32 = raw::LXR_MOST_ELEMENTS;

/// The most words that [`Heap::make_words`] makes.
pub const MOST_LENGTH: u32 = raw::LXR_MOST_LENGTH;

/// An array that a register holds: 0 to [`MOST_ELEMENTS`] references, as many as it was made with. [`Heap::array`] and [`Mutator::array`] lend
/// it out, for any object: one that wasn't made as an array is taken by its shape, as `lxr.h` says.
///
/// ```
/// # use kogyulen::{Heap, Settings, R1, R2, R3};
/// # fn main() -> Result<(), kogyulen::Error> {
/// # let mut heap = Heap::open(&Settings::new(64))?;
/// heap.make_array(R1, 5000)?;
/// heap.make_with(R2, &[], &[7])?;
/// let mut table = heap.array(R1);
/// table.fill(10..20, R2)?;
/// table.copy_within(10..20, 15)?;
/// table.load(R3, 24)?;
/// assert_eq!(table.length()?, 5000);
/// assert!(heap.same(R2, R3));
/// # Ok(())
/// # }
/// ```
///
/// Where not all elements are there that a call names it is [`Error::Index`], and none is written. A register that is nil is [`Error::Nil`].
/// [`Error::Register`] is what a heap of 255 or 256 registers answers, which has no place for the two that the library needs: for arrays of more
/// than 1,023 elements and for each copy, and by mutators for each call.
///
/// A mutator's calls are so many operations, in order: pauses may come between two of them, and other threads may see what is done so far.
pub struct Array<H> {
    host: H,
    base: Register,
}

impl<H: sealed::Writes> Array<H> {
    pub(crate) fn new(host: H, base: Register) -> Array<H> {
        Array { host, base }
    }

    /// How many elements it has.
    ///
    /// # Errors
    /// [`Error::Nil`].
    pub fn length(&mut self) -> Result<u32, Error> {
        let mut length = 0;
        done(self.host.array_length(self.base.number(), &mut length))?;
        Ok(length)
    }

    /// The register holds what an element refers to, or becomes nil.
    ///
    /// # Errors
    /// [`Error::Nil`] and [`Error::Index`]; by a mutator [`Error::Register`] for [`R0`](crate::R0).
    pub fn load(&mut self, dest: Register, index: u32) -> Result<(), Error> {
        done(self.host.array_load(dest.number(), self.base.number(), index))
    }

    /// An element becomes what the source holds, or nil.
    ///
    /// # Errors
    /// [`Error::Nil`] and [`Error::Index`].
    pub fn store(&mut self, index: u32, source: Register) -> Result<(), Error> {
        done(self.host.array_store(self.base.number(), index, source.number()))
    }

    /// These elements become what the source holds, or nil.
    ///
    /// # Errors
    /// [`Error::Nil`] and [`Error::Index`].
    pub fn fill(&mut self, elements: Range<u32>, source: Register) -> Result<(), Error> {
        let (first, count) = count_of(&elements)?;
        done(self.host.array_fill(self.base.number(), first, count, source.number()))
    }

    /// The elements from `at` on become what these were. They may overlap.
    ///
    /// # Errors
    /// [`Error::Nil`] and [`Error::Index`].
    pub fn copy_within(&mut self, elements: Range<u32>, at: u32) -> Result<(), Error> {
        self.copy_from(self.base, elements, at)
    }

    /// The elements from `at` on become what these of the array in another register were. Both may hold one array. Two arrays that share a part are
    /// copied one element after another, as `lxr.h` says.
    ///
    /// # Errors
    /// [`Error::Nil`] and [`Error::Index`].
    pub fn copy_from(&mut self, from: Register, elements: Range<u32>, at: u32) -> Result<(), Error> {
        let (first, count) = count_of(&elements)?;
        done(self.host.array_copy(self.base.number(), at, from.number(), first, count))
    }
}

impl Array<&mut Mutator<'_>> {
    /// An element becomes what the source holds, and `dest` holds what it was, in one step of all threads.
    ///
    /// # Errors
    /// [`Error::Register`] for [`R0`](crate::R0), [`Error::Nil`] and [`Error::Index`].
    pub fn swap(&mut self, dest: Register, index: u32, source: Register) -> Result<(), Error> {
        // SAFETY: the mutator is in its heap, and in no other call.
        done(unsafe { raw::lxr_mutator_array_swap(self.host.raw(), dest.number(), self.base.number(), index, source.number()) })
    }
}

/// The first of several elements, and how many they are. A range that ends before it begins is refused, as it is by slices.
fn count_of(elements: &Range<u32>) -> Result<(u32, u32), Error> {
    let count = elements.end.checked_sub(elements.start).ok_or(Error::Index)?;
    Ok((elements.start, count))
}

/// Words that a register holds, as many as they were made with: up to [`MOST_LENGTH`] of them in a [`Heap`], and up to 1,023 in a heap that
/// threads share. [`Heap::words`], [`Heap::words_mut`] and [`Mutator::words`] lend them out, for any object: one that wasn't made as words is
/// taken by its shape, as `lxr.h` says.
///
/// ```
/// # use kogyulen::{Heap, Settings, R1};
/// # fn main() -> Result<(), kogyulen::Error> {
/// # let mut heap = Heap::open(&Settings::new(64).body_blocks(4))?;
/// heap.make_words(R1, 5000)?;
/// heap.words_mut(R1).write(1000, &[1, 2, 3])?;
/// let mut some = [0; 2];
/// heap.words(R1).read(1001, &mut some)?;
/// assert_eq!(some, [2, 3]);
/// assert_eq!(heap.words(R1).to_vec()?.len(), 5000);
/// # Ok(())
/// # }
/// ```
///
/// Where not all words are there that a call names it is [`Error::Index`], and none is read or written. A register that is nil is
/// [`Error::Nil`].
pub struct Words<H> {
    host: H,
    base: Register,
}

impl<H: sealed::Reads> Words<H> {
    pub(crate) fn new(host: H, base: Register) -> Words<H> {
        Words { host, base }
    }

    /// How many there are.
    ///
    /// # Errors
    /// [`Error::Nil`].
    pub fn length(&mut self) -> Result<u32, Error> {
        let mut length = 0;
        done(self.host.words_length(self.base.number(), &mut length))?;
        Ok(length)
    }

    /// One of them.
    ///
    /// # Errors
    /// [`Error::Nil`] and [`Error::Index`].
    pub fn get(&mut self, index: u32) -> Result<u64, Error> {
        let mut word = 0;
        done(self.host.words_get(self.base.number(), index, &mut word))?;
        Ok(word)
    }

    /// Reads words from an index on: all that fit the slice, or none.
    ///
    /// # Errors
    /// [`Error::Nil`] and [`Error::Index`].
    pub fn read(&mut self, first: u32, into: &mut [u64]) -> Result<(), Error> {
        done(self.host.words_read(self.base.number(), first, into))
    }

    /// All of them.
    ///
    /// # Errors
    /// [`Error::Nil`].
    pub fn to_vec(&mut self) -> Result<Vec<u64>, Error> {
        let mut words = vec![0; self.length()? as usize];
        self.read(0, &mut words)?;
        Ok(words)
    }
}

impl<H: sealed::Writes> Words<H> {
    /// Writes one of them.
    ///
    /// # Errors
    /// [`Error::Nil`] and [`Error::Index`].
    pub fn put(&mut self, index: u32, word: u64) -> Result<(), Error> {
        done(self.host.words_put(self.base.number(), index, word))
    }

    /// Writes words from an index on: all of the slice, or none.
    ///
    /// # Errors
    /// [`Error::Nil`] and [`Error::Index`].
    pub fn write(&mut self, first: u32, from: &[u64]) -> Result<(), Error> {
        done(self.host.words_write(self.base.number(), first, from))
    }
}

impl<H> fmt::Debug for Array<H> {
    fn fmt(&self, f: &mut fmt::Formatter<'_>) -> fmt::Result {
        f.debug_struct("Array").field("base", &self.base).finish_non_exhaustive()
    }
}

impl<H> fmt::Debug for Words<H> {
    fn fmt(&self, f: &mut fmt::Formatter<'_>) -> fmt::Result {
        f.debug_struct("Words").field("base", &self.base).finish_non_exhaustive()
    }
}

/// The calls behind arrays and words, of what lends them out: a heap that is borrowed, for reading or writing, or a mutator.
mod sealed {
    use kogyulen_sys::Code;

    pub trait Reads {
        fn words_length(&mut self, base: u32, length: &mut u32) -> Code;
        fn words_get(&mut self, base: u32, index: u32, word: &mut u64) -> Code;
        fn words_read(&mut self, base: u32, first: u32, into: &mut [u64]) -> Code;
    }

    pub trait Writes: Reads {
        fn words_put(&mut self, base: u32, index: u32, word: u64) -> Code;
        fn words_write(&mut self, base: u32, first: u32, from: &[u64]) -> Code;
        fn array_length(&mut self, base: u32, length: &mut u32) -> Code;
        fn array_load(&mut self, dest: u32, base: u32, index: u32) -> Code;
        fn array_store(&mut self, base: u32, index: u32, source: u32) -> Code;
        fn array_fill(&mut self, base: u32, first: u32, count: u32, source: u32) -> Code;
        fn array_copy(&mut self, to: u32, at: u32, from: u32, first: u32, count: u32) -> Code;
    }
}

/// Implements calls by functions of the library, which all take a handle first.
macro_rules! call_by {
    ($Trait:ident for $Host:ty, |$self:ident| $handle:expr, {
        $($name:ident($($number:ident: $kind:ty),+) as $function:ident($($word:expr),+);)+
    }) => {
        impl sealed::$Trait for $Host {
            $(fn $name(&mut self, $($number: $kind),+) -> raw::Code {
                let $self = self;
                // SAFETY: the heap is open, or the mutator is in one, and it is in no other call. The words are there for the call.
                unsafe { raw::$function($handle, $($word),+) }
            })+
        }
    };
}

/// Reading from a heap: it is borrowed either way.
macro_rules! read_by_heap {
    ($Host:ty) => {
        call_by!(Reads for $Host, |heap| &heap.handle, {
            words_length(base: u32, length: &mut u32) as lxr_words_length(base, length);
            words_get(base: u32, index: u32, word: &mut u64) as lxr_words_get(base, index, word);
            words_read(base: u32, first: u32, into: &mut [u64]) as lxr_words_read(base, first, into.as_mut_ptr(), into.len());
        });
    };
}

read_by_heap!(&Heap);
read_by_heap!(&mut Heap);

call_by!(Writes for &mut Heap, |heap| &mut heap.handle, {
    words_put(base: u32, index: u32, word: u64) as lxr_words_put(base, index, word);
    words_write(base: u32, first: u32, from: &[u64]) as lxr_words_write(base, first, from.as_ptr(), from.len());
    array_length(base: u32, length: &mut u32) as lxr_array_length(base, length);
    array_load(dest: u32, base: u32, index: u32) as lxr_array_load(dest, base, index);
    array_store(base: u32, index: u32, source: u32) as lxr_array_store(base, index, source);
    array_fill(base: u32, first: u32, count: u32, source: u32) as lxr_array_fill(base, first, count, source);
    array_copy(to: u32, at: u32, from: u32, first: u32, count: u32) as lxr_array_copy(to, at, from, first, count);
});

call_by!(Reads for &mut Mutator<'_>, |mutator| mutator.raw(), {
    words_length(base: u32, length: &mut u32) as lxr_mutator_words_length(base, length);
    words_get(base: u32, index: u32, word: &mut u64) as lxr_mutator_words_get(base, index, word);
    words_read(base: u32, first: u32, into: &mut [u64]) as lxr_mutator_words_read(base, first, into.as_mut_ptr(), into.len());
});

call_by!(Writes for &mut Mutator<'_>, |mutator| mutator.raw(), {
    words_put(base: u32, index: u32, word: u64) as lxr_mutator_words_put(base, index, word);
    words_write(base: u32, first: u32, from: &[u64]) as lxr_mutator_words_write(base, first, from.as_ptr(), from.len());
    array_length(base: u32, length: &mut u32) as lxr_mutator_array_length(base, length);
    array_load(dest: u32, base: u32, index: u32) as lxr_mutator_array_load(dest, base, index);
    array_store(base: u32, index: u32, source: u32) as lxr_mutator_array_store(base, index, source);
    array_fill(base: u32, first: u32, count: u32, source: u32) as lxr_mutator_array_fill(base, first, count, source);
    array_copy(to: u32, at: u32, from: u32, first: u32, count: u32) as lxr_mutator_array_copy(to, at, from, first, count);
});
