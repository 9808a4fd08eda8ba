//! A heap that threads share.
//!
//! [`SharedHeap`] has the objects, and each thread of the program that calls the heap is in it by a [`Mutator`] of its own, with 16 to 256
//! registers. Register 0 holds the world for good, which is the same object for all: what threads share they find from there. Operations
//! that meet at one field are atomic and in one order for all threads. No operation waits for another thread, but where a pause is wanted.
//!
//! ```
//! use kogyulen::threads::{Settings, SharedHeap};
//! use kogyulen::{R0, R1};
//!
//! # fn main() -> Result<(), kogyulen::Error> {
//! let heap = SharedHeap::open(&Settings::new(64, 4))?; // 64 blocks of 32 KB, and up to four threads at once
//! let mut first = heap.enter()?;
//! first.make(R1, 0, 1)?;
//! first.store(R0, 0, R1)?;
//! first.rest(|| {
//!     std::thread::scope(|scope| {
//!         for _ in 0..3 {
//!             scope.spawn(|| {
//!                 let mut other = heap.enter().unwrap();
//!                 other.load(R1, R0, 0).unwrap();
//!                 other.add(R1, 0, 5).unwrap();
//!             });
//!         }
//!     });
//! })?;
//! assert_eq!(first.get(R1, 0), Ok(15));
//! # Ok(())
//! # }
//! ```

use std::ffi::c_void;
use std::fmt;
use std::marker::PhantomData;
use std::mem::size_of;
use std::panic::{self, AssertUnwindSafe};
use std::process;
use std::ptr::{self, NonNull};
use std::time::Duration;

use crate::error::{done, Error};
use crate::operation::{name_operations, Stopped};
use crate::register::{self, numbers, Register};
use crate::sequences::{Array, Words};
use crate::settings::Pace;
use kogyulen_sys as raw;

/// What a heap is made of. [`Settings::new`] has settings that mostly do, and each method changes one of them.
///
/// ```
/// use kogyulen::threads::{Settings, SharedHeap};
/// use kogyulen::Pace;
///
/// # fn main() -> Result<(), kogyulen::Error> {
/// let heap = SharedHeap::open(&Settings::new(64, 4).helpers(2).pace(Pace::Bytes(1 << 18)))?;
/// # Ok(())
/// # }
/// ```
#[derive(Clone, Debug, PartialEq, Eq, Hash)]
#[non_exhaustive]
pub struct Settings {
    /// Blocks of 32 KB, 1 to 65,536.
    pub blocks: u32,
    /// Mutators that may be in it at once, 1 to 255.
    pub mutators: u32,
    /// Threads of its own that do work of pauses ahead, 0 to 8.
    pub helpers: u32,
    /// Overwritten references that a mutator records between two pauses, 1 to 65,536.
    pub log: u32,
    /// References that a trace remembers, 1 to 1,048,576.
    pub remember: u32,
    /// A mutator wants a pause after so many operations since the last one, 1 to 1,000,000.
    pub every: u32,
    /// Each pause whose number is a multiple of it begins a trace, where none runs, up to 1,000,000. By 0 the room says when: once more than half of
    /// what the last end of a trace or collecting pause left of it is used; until one has told what lives, a room that grows counts as 64 blocks.
    pub trace: u32,
    /// A trace ends at the latest so many pauses after it began, up to 1,000,000; by 0 once all is marked.
    pub within: u32,
    /// When plain pauses come by themselves: a mutator wants one once it has made its share of these bytes since the last, which is all of
    /// them divided by the mutators that are in the heap.
    pub pace: Pace,
    /// Blocks that a trace evacuates at most, 0 to an eighth of all: the pause that ends it is the longer for them.
    pub evacuate: u32,
    /// Registers of each mutator, 16 to 256; 0 for 16. What a pause takes grows with those in use alone.
    pub registers: u32,
    /// Blocks in use before it collects, up to `blocks`; 0 for all.
    pub room: u32,
    /// Hundredths more than what is in use to which each collecting pause and end of a trace sets the room, up to 10,000; 0 for never.
    pub grow: u32,
    /// Pieces of free lines that are listed after a pause at most, in turn, in a heap of more than 1,024 blocks: 64 or more; 0 for 65,536. Fewer
    /// make the pauses of a large heap in pieces shorter, and a mutator that comes to the end of the list waits for a pause.
    pub runs: u32,
}

impl Settings {
    /// Settings that mostly do, for so many blocks and mutators. A trace evacuates an eighth of the blocks at most, and at most 64.
    pub const fn new(blocks: u32, mutators: u32) -> Settings {
        let evacuate = if blocks < 512 { blocks / 8 } else { 64 };
        Settings {
            blocks,
            mutators,
            helpers: 1,
            log: 1024,
            remember: 65_536,
            every: 65_536,
            trace: 0,
            within: 0,
            pace: Pace::Room,
            evacuate,
            registers: raw::LXR_REGISTERS,
            room: 0,
            grow: raw::LXR_GROW,
            runs: 0,
        }
    }

    /// So many helpers.
    pub const fn helpers(mut self, helpers: u32) -> Settings {
        self.helpers = helpers;
        self
    }

    /// So many entries of a mutator's log.
    pub const fn log(mut self, log: u32) -> Settings {
        self.log = log;
        self
    }

    /// So many references that a trace remembers.
    pub const fn remember(mut self, remember: u32) -> Settings {
        self.remember = remember;
        self
    }

    /// So many operations of a mutator between two pauses.
    pub const fn every(mut self, every: u32) -> Settings {
        self.every = every;
        self
    }

    /// So many pauses from one trace to the next; by 0 they come by the room.
    pub const fn trace(mut self, trace: u32) -> Settings {
        self.trace = trace;
        self
    }

    /// So many pauses within which a trace ends; by 0 it has as many as it takes, or one without helpers.
    pub const fn within(mut self, within: u32) -> Settings {
        self.within = within;
        self
    }

    /// Such a pace.
    pub const fn pace(mut self, pace: Pace) -> Settings {
        self.pace = pace;
        self
    }

    /// So many blocks that a trace evacuates at most.
    pub const fn evacuate(mut self, evacuate: u32) -> Settings {
        self.evacuate = evacuate;
        self
    }

    /// So many registers of each mutator.
    pub const fn registers(mut self, registers: u32) -> Settings {
        self.registers = registers;
        self
    }

    /// Such room.
    pub const fn room(mut self, blocks: u32) -> Settings {
        self.room = blocks;
        self
    }

    /// So much growth of the room.
    pub const fn grow(mut self, hundredths: u32) -> Settings {
        self.grow = hundredths;
        self
    }

    /// So many pieces of free lines that are listed at most.
    pub const fn runs(mut self, runs: u32) -> Settings {
        self.runs = runs;
        self
    }

    fn raw(&self, watch: Option<&Watch>) -> raw::SharedSettings {
        let &Settings { blocks, mutators, helpers, log, remember, every, trace, within, pace, evacuate, registers, room, grow, runs } =
            self;
        let pace = pace.bytes();
        let size = size_of::<raw::SharedSettings>() as u64;
        let with = watch.map_or(ptr::null_mut(), |watch| (watch as *const Watch).cast_mut().cast());
        let paused = watch.map(|_| tell_of_pause as extern "C" fn(*mut c_void, *const raw::PauseTimes));
        raw::SharedSettings {
            size,
            blocks,
            mutators,
            helpers,
            log,
            remember,
            every,
            trace,
            within,
            paused,
            with,
            pace,
            evacuate,
            registers,
            room,
            grow,
            runs,
            unused: 0,
        }
    }
}

/// What a heap counts.
#[derive(Clone, Copy, Debug, PartialEq, Eq, Hash)]
#[non_exhaustive]
#[repr(u32)]
pub enum Count {
    /// Pauses so far.
    Pauses = raw::LXR_COUNT_PAUSES,
    /// By the last pause: objects made since the pause before that were kept.
    Promoted = raw::LXR_COUNT_PROMOTED,
    /// By the last pause: objects that counts reclaimed.
    Dead = raw::LXR_COUNT_DEAD,
    /// By the last pause: objects whose count has reached fifteen, where it stands from now on.
    Stuck = raw::LXR_COUNT_STUCK,
    /// By the last pause: objects that a trace or a collecting pause reclaimed.
    Swept = raw::LXR_COUNT_SWEPT,
    /// Collecting pauses so far.
    Collecting = raw::LXR_COUNT_COLLECTING,
    /// Mutators that are in the heap now.
    Entered = raw::LXR_COUNT_ENTERED,
    /// Mutators that are in the heap, and rest now.
    Resting = raw::LXR_COUNT_RESTING,
    /// Wholly free blocks, as the last pause left them.
    FreeBlocks = raw::LXR_COUNT_FREE_BLOCKS,
    /// Blocks of the room, as it was set last.
    Room = raw::LXR_COUNT_ROOM,
}

/// What a pause was.
#[derive(Clone, Copy, Debug, PartialEq, Eq, Hash)]
#[non_exhaustive]
pub enum Kind {
    /// It went by counts alone.
    Plain,
    /// It began a trace besides.
    Begin,
    /// It ended a trace, and reclaimed what that found.
    End,
    /// It reclaimed all that can't be reached.
    Collect,
    /// Another kind of the library. No pause of this version is of one.
    Other(u64),
}

impl Kind {
    /// Reads a kind of `lxr.h`.
    fn of(number: u64) -> Kind {
        match number {
            raw::LXR_KIND_PLAIN => Kind::Plain,
            raw::LXR_KIND_BEGIN => Kind::Begin,
            raw::LXR_KIND_END => Kind::End,
            raw::LXR_KIND_COLLECT => Kind::Collect,
            other => Kind::Other(other),
        }
    }
}

/// How long a pause took; where a collecting one came right after it, both.
#[derive(Clone, Copy, Debug, PartialEq, Eq, Hash)]
#[non_exhaustive]
pub struct PauseTimes {
    /// Its number, from 1 on; of the last, where there are two.
    pub number: u64,
    /// From when the first thread waited for it until all had come.
    pub gathering: Duration,
    /// From there until they could go on.
    pub pausing: Duration,
    /// Its kind; that of the last, where there are two.
    pub kind: Kind,
}

type Watch = Box<dyn Fn(PauseTimes) + Send + Sync>;

/// Tells a watch of a pause. A panic doesn't leave it: it ends the process.
extern "C" fn tell_of_pause(with: *mut c_void, times: *const raw::PauseTimes) {
    // SAFETY: the library passes what the heap was opened with, which lives as long as the heap, and times that outlive the call.
    let (watch, times) = unsafe { (&*with.cast::<Watch>(), &*times) };
    let [gathering, pausing] = [times.gathering, times.pausing].map(Duration::from_nanos);
    let times = PauseTimes { number: times.number, gathering, pausing, kind: Kind::of(times.kind) };
    let told = panic::catch_unwind(AssertUnwindSafe(|| watch(times)));
    if told.is_err() {
        process::abort();
    }
}

/// A heap that threads share: it is lent to them, and closed once no mutator is in it.
///
/// ```compile_fail
/// let heap = kogyulen::threads::SharedHeap::open(&kogyulen::threads::Settings::new(1, 1)).unwrap();
/// let mutator = heap.enter().unwrap();
/// drop(heap); // a mutator is in it
/// drop(mutator);
/// ```
pub struct SharedHeap {
    handle: NonNull<raw::SharedHeap>,
    registers: u32,
    watch: Option<Box<Watch>>,
}

// SAFETY: by lxr_threads.h any thread may make a call on a heap, while others do, but for its closing; that takes the owner.
unsafe impl Send for SharedHeap {}
unsafe impl Sync for SharedHeap {}

impl SharedHeap {
    /// Opens a heap, and starts its helpers. All memory for objects is reserved now.
    ///
    /// # Errors
    /// [`Error::Size`] where a setting is out of its range, and [`Error::Memory`].
    pub fn open(settings: &Settings) -> Result<SharedHeap, Error> {
        SharedHeap::open_with(settings, None)
    }

    /// Opens a heap as [`SharedHeap::open`] does, with a function that is told of each pause right after it, by the thread that made it.
    /// It calls nothing of this heap, and waits for no thread.
    ///
    /// # Errors
    /// Those of [`SharedHeap::open`].
    pub fn open_watched(settings: &Settings, paused: impl Fn(PauseTimes) + Send + Sync + 'static) -> Result<SharedHeap, Error> {
        SharedHeap::open_with(settings, Some(Box::new(Box::new(paused))))
    }

    fn open_with(settings: &Settings, watch: Option<Box<Watch>>) -> Result<SharedHeap, Error> {
        let mut handle = ptr::null_mut();
        // SAFETY: the handle is null, the settings outlive the call, and the watch outlives the heap.
        done(unsafe { raw::lxr_shared_heap_open(&mut handle, &settings.raw(watch.as_deref())) })?;
        let registers = if settings.registers == 0 { raw::LXR_REGISTERS } else { settings.registers };
        NonNull::new(handle).map(|handle| SharedHeap { handle, registers, watch }).ok_or(Error::Memory)
    }

    /// Enters the heap: a mutator whose registers are nil, but for [`R0`](crate::R0), which holds the world. Where a pause is wanted, this
    /// waits for it.
    ///
    /// # Errors
    /// [`Error::Number`] where as many mutators are in it as may be, [`Error::Memory`] and [`Error::Lost`].
    pub fn enter(&self) -> Result<Mutator<'_>, Error> {
        let mut handle = ptr::null_mut();
        // SAFETY: the heap is open, and the mutator's handle is null.
        done(unsafe { raw::lxr_mutator_enter(self.handle.as_ptr(), &mut handle) })?;
        let registers = self.registers;
        NonNull::new(handle).map(|handle| Mutator { handle, registers, heap: PhantomData }).ok_or(Error::Memory)
    }

    /// How many there are of what is counted.
    pub fn count(&self, what: Count) -> u64 {
        self.told(what as u32)
    }

    /// The kind of the last pause; [`Kind::Plain`] before the first.
    pub fn last_kind(&self) -> Kind {
        Kind::of(self.told(raw::LXR_COUNT_LAST_KIND))
    }

    fn told(&self, what: u32) -> u64 {
        let mut number = 0;
        // SAFETY: the heap is open.
        let code = unsafe { raw::lxr_shared_heap_count(self.handle.as_ptr(), what, &mut number) };
        debug_assert_eq!(done(code), Ok(()));
        number
    }

    /// Sets how many blocks are in use before it collects, from the next pause on; 0 for all.
    ///
    /// # Errors
    /// [`Error::Size`], where fewer are reserved.
    pub fn set_room(&self, blocks: u32) -> Result<(), Error> {
        // SAFETY: the heap is open.
        done(unsafe { raw::lxr_shared_heap_set_room(self.handle.as_ptr(), blocks) })
    }

    /// Sets the hundredths more than what is in use to which each collecting pause and end of a trace sets the room; 0 for never.
    ///
    /// # Errors
    /// [`Error::Size`], above 10,000.
    pub fn set_grow(&self, hundredths: u32) -> Result<(), Error> {
        // SAFETY: the heap is open.
        done(unsafe { raw::lxr_shared_heap_set_grow(self.handle.as_ptr(), hundredths) })
    }
}

impl Drop for SharedHeap {
    fn drop(&mut self) {
        let mut handle = self.handle.as_ptr();
        // SAFETY: the heap is open, and its owner is in no other call. A mutator that was forgotten is still in it: then it stays open.
        if done(unsafe { raw::lxr_shared_heap_close(&mut handle) }).is_err() {
            std::mem::forget(self.watch.take());
        }
    }
}

impl fmt::Debug for SharedHeap {
    fn fmt(&self, f: &mut fmt::Formatter<'_>) -> fmt::Result {
        f.debug_struct("SharedHeap").finish_non_exhaustive()
    }
}

/// A thread's right to call a heap, and its registers there. It may go to another thread, and is in one at a time. It leaves the heap as it is
/// dropped, and lets go of what its registers hold.
///
/// While it is in the heap, pauses wait until it makes an operation, polls, rests or leaves. So whatever blocks, or is long, goes into
/// [`Mutator::rest`].
///
/// Besides those that are named, each operation answers [`Error::UsedUp`] and [`Error::Lost`], and [`Error::Register`] for a register beyond
/// those that the heap's settings give each mutator.
///
/// ```compile_fail
/// fn is_sync<T: Sync>() {}
/// is_sync::<kogyulen::threads::Mutator>(); // it is in one thread at a time
/// ```
pub struct Mutator<'h> {
    handle: NonNull<raw::Mutator>,
    registers: u32,
    heap: PhantomData<&'h SharedHeap>,
}

// SAFETY: by lxr_threads.h a mutator is in one call at a time, in whichever thread of the system.
unsafe impl Send for Mutator<'_> {}

impl<'h> Mutator<'h> {
    /// The register holds a new object with nil references and words of 0; at most 1,023 of each. Where there is no room, this waits for a
    /// pause, and for a collecting one.
    ///
    /// # Errors
    /// [`Error::Register`] for [`R0`](crate::R0), [`Error::Size`], and [`Error::Full`] where what can be reached leaves no room even so.
    pub fn make(&mut self, dest: Register, refs: u32, words: u32) -> Result<(), Error> {
        // SAFETY: the mutator is in its heap, and in no other call; so it is in each call below.
        done(unsafe { raw::lxr_mutator_new(self.raw(), dest.number(), refs, words) })
    }

    /// The register holds what a reference of the base's object refers to, or becomes nil.
    ///
    /// # Errors
    /// [`Error::Register`] for [`R0`](crate::R0), [`Error::Nil`] and [`Error::Index`].
    pub fn load(&mut self, dest: Register, base: Register, index: u32) -> Result<(), Error> {
        done(unsafe { raw::lxr_mutator_load(self.raw(), dest.number(), base.number(), index) })
    }

    /// A reference of the base's object becomes what the source holds, or nil.
    ///
    /// # Errors
    /// [`Error::Nil`] and [`Error::Index`].
    pub fn store(&mut self, base: Register, index: u32, source: Register) -> Result<(), Error> {
        done(unsafe { raw::lxr_mutator_store(self.raw(), base.number(), index, source.number()) })
    }

    /// A reference of the base's object becomes what the source holds, and `dest` holds what it was, in one step of all threads.
    ///
    /// # Errors
    /// [`Error::Register`] for [`R0`](crate::R0), [`Error::Nil`] and [`Error::Index`].
    pub fn swap(&mut self, dest: Register, base: Register, index: u32, source: Register) -> Result<(), Error> {
        done(unsafe { raw::lxr_mutator_swap(self.raw(), dest.number(), base.number(), index, source.number()) })
    }

    /// A data word of the base's object.
    ///
    /// # Errors
    /// [`Error::Nil`] and [`Error::Index`].
    pub fn get(&mut self, base: Register, index: u32) -> Result<u64, Error> {
        let mut word = 0;
        done(unsafe { raw::lxr_mutator_get(self.raw(), base.number(), index, &mut word) })?;
        Ok(word)
    }

    /// Writes a data word of the base's object.
    ///
    /// # Errors
    /// [`Error::Nil`] and [`Error::Index`].
    pub fn put(&mut self, base: Register, index: u32, word: u64) -> Result<(), Error> {
        done(unsafe { raw::lxr_mutator_put(self.raw(), base.number(), index, word) })
    }

    /// A data word of the base's object becomes its sum with `word`, modulo 2^64, in one step of all threads. Answers what it was.
    ///
    /// # Errors
    /// [`Error::Nil`] and [`Error::Index`].
    pub fn add(&mut self, base: Register, index: u32, word: u64) -> Result<u64, Error> {
        let mut old = 0;
        done(unsafe { raw::lxr_mutator_add(self.raw(), base.number(), index, word, &mut old) })?;
        Ok(old)
    }

    /// Whether both registers are nil or hold one object.
    ///
    /// # Errors
    /// Those of each operation.
    pub fn same(&mut self, left: Register, right: Register) -> Result<bool, Error> {
        let mut same = 0;
        done(unsafe { raw::lxr_mutator_same(self.raw(), left.number(), right.number(), &mut same) })?;
        Ok(same != 0)
    }

    /// A register holds what another holds, or becomes nil.
    ///
    /// # Errors
    /// [`Error::Register`] for [`R0`](crate::R0).
    pub fn copy(&mut self, dest: Register, source: Register) -> Result<(), Error> {
        done(unsafe { raw::lxr_mutator_move(self.raw(), dest.number(), source.number()) })
    }

    /// The register becomes nil.
    ///
    /// # Errors
    /// [`Error::Register`] for [`R0`](crate::R0).
    pub fn clear(&mut self, dest: Register) -> Result<(), Error> {
        done(unsafe { raw::lxr_mutator_nil(self.raw(), dest.number()) })
    }

    /// Its registers, in order.
    pub fn registers(&self) -> impl DoubleEndedIterator<Item = Register> + ExactSizeIterator {
        register::first(self.registers)
    }

    /// The first so many registers stay in use, and all others become nil, one after another. What a pause takes grows with the registers in
    /// use, up to the last that holds an object or did at the last pause.
    ///
    /// # Errors
    /// [`Error::Register`] where `count` is 0, since [`R0`](crate::R0) keeps the world, or more than there are.
    pub fn registers_in_use(&mut self, count: u32) -> Result<(), Error> {
        done(unsafe { raw::lxr_mutator_registers_in_use(self.raw(), count) })
    }

    /// The register holds a new object: its references are what these registers hold, and its data words are these. No other thread finds it
    /// before it is stored.
    ///
    /// # Errors
    /// [`Error::Register`] for [`R0`](crate::R0), or where `dest` is among the references; [`Error::Size`] and [`Error::Full`].
    pub fn make_with(&mut self, dest: Register, refs: &[Register], words: &[u64]) -> Result<(), Error> {
        done(unsafe { raw::lxr_mutator_new_with(self.raw(), dest.number(), numbers(refs), refs.len(), words.as_ptr(), words.len()) })
    }

    /// Reads data words of the base's object from an index on, one after another.
    ///
    /// # Errors
    /// [`Error::Nil`], and [`Error::Index`] at the first that isn't there.
    pub fn get_many(&mut self, base: Register, first: u32, into: &mut [u64]) -> Result<(), Error> {
        done(unsafe { raw::lxr_mutator_get_many(self.raw(), base.number(), first, into.as_mut_ptr(), into.len()) })
    }

    /// Writes data words of the base's object from an index on, one after another.
    ///
    /// # Errors
    /// [`Error::Nil`], and [`Error::Index`] at the first that isn't there.
    pub fn put_many(&mut self, base: Register, first: u32, from: &[u64]) -> Result<(), Error> {
        done(unsafe { raw::lxr_mutator_put_many(self.raw(), base.number(), first, from.as_ptr(), from.len()) })
    }

    /// These registers hold what references of the base's object from an index on refer to, one after another.
    ///
    /// # Errors
    /// [`Error::Register`] where [`R0`](crate::R0) is among them, or the base and isn't the last; [`Error::Nil`], and [`Error::Index`] at the
    /// first that isn't there.
    pub fn load_many(&mut self, base: Register, first: u32, into: &[Register]) -> Result<(), Error> {
        done(unsafe { raw::lxr_mutator_load_many(self.raw(), base.number(), first, numbers(into), into.len()) })
    }

    /// References of the base's object from an index on become what these registers hold, one after another.
    ///
    /// # Errors
    /// [`Error::Nil`], and [`Error::Index`] at the first that isn't there.
    pub fn store_many(&mut self, base: Register, first: u32, sources: &[Register]) -> Result<(), Error> {
        done(unsafe { raw::lxr_mutator_store_many(self.raw(), base.number(), first, numbers(sources), sources.len()) })
    }

    /// The register holds a new array of so many nil elements, up to [`MOST_ELEMENTS`](crate::MOST_ELEMENTS). No other thread finds it before
    /// it is stored.
    ///
    /// # Errors
    /// [`Error::Register`] for [`R0`](crate::R0), or where each mutator has 255 or 256 registers; [`Error::Size`]; and [`Error::Full`]: then the
    /// register holds what it held.
    pub fn make_array(&mut self, dest: Register, length: u32) -> Result<(), Error> {
        done(unsafe { raw::lxr_mutator_array_new(self.raw(), dest.number(), length) })
    }

    /// The array that the register holds.
    pub fn array(&mut self, base: Register) -> Array<&mut Mutator<'h>> {
        Array::new(self, base)
    }

    /// The register holds so many new words, all 0, up to 1,023.
    ///
    /// # Errors
    /// [`Error::Register`] for [`R0`](crate::R0), [`Error::Size`] and [`Error::Full`].
    pub fn make_words(&mut self, dest: Register, length: u32) -> Result<(), Error> {
        done(unsafe { raw::lxr_mutator_words_new(self.raw(), dest.number(), length) })
    }

    /// The words that the register holds.
    pub fn words(&mut self, base: Register) -> Words<&mut Mutator<'h>> {
        Words::new(self, base)
    }

    /// Does operations in order, each as the method of its name, up to the first that is refused. Pauses may come between, and other threads
    /// see what is done so far.
    ///
    /// # Errors
    /// That of the operation, with how many are done. Where one writes to [`R0`](crate::R0), or has a size out of its range, none is.
    pub fn apply(&mut self, operations: &mut [Operation]) -> Result<(), Stopped> {
        let mut count = 0;
        // SAFETY: besides, an operation is the library's, by its representation.
        let code = unsafe { raw::lxr_mutator_apply(self.raw(), operations.as_mut_ptr().cast(), operations.len(), &mut count) };
        Stopped::by(code, count)
    }

    /// Makes a pause, which waits until all other threads have come to an operation or rest.
    ///
    /// # Errors
    /// Those of each operation.
    pub fn pause(&mut self) -> Result<(), Error> {
        done(unsafe { raw::lxr_mutator_pause(self.raw()) })
    }

    /// Makes a collecting pause: exactly what can be reached is left.
    ///
    /// # Errors
    /// Those of each operation.
    pub fn collect(&mut self) -> Result<(), Error> {
        done(unsafe { raw::lxr_mutator_collect(self.raw()) })
    }

    /// Makes a pause in which memory of blocks that are wholly free then goes back to the system: [`collect`](Self::collect) before it gives most.
    /// Nothing else that can be told changes.
    ///
    /// # Errors
    /// Those of each operation.
    pub fn trim(&mut self) -> Result<(), Error> {
        done(unsafe { raw::lxr_mutator_trim(self.raw()) })
    }

    /// Takes part in a pause, where one is wanted: for what goes on for long without operations.
    ///
    /// # Errors
    /// Those of each operation.
    pub fn poll(&mut self) -> Result<(), Error> {
        done(unsafe { raw::lxr_mutator_poll(self.raw()) })
    }

    /// Does something that may block or is long, while the mutator holds up no pause. Its registers hold what they held.
    ///
    /// # Errors
    /// [`Error::Lost`]; where the heap was lost before, nothing is done.
    pub fn rest<T>(&mut self, what: impl FnOnce() -> T) -> Result<T, Error> {
        done(unsafe { raw::lxr_mutator_rest(self.raw()) })?;
        let resting = Resting(self);
        let answer = what();
        resting.wake()?;
        Ok(answer)
    }

    pub(crate) fn raw(&self) -> *mut raw::Mutator {
        self.handle.as_ptr()
    }
}

impl Drop for Mutator<'_> {
    fn drop(&mut self) {
        let mut handle = self.raw();
        // SAFETY: the mutator is in its heap, and in no other call.
        unsafe { raw::lxr_mutator_leave(&mut handle) };
    }
}

impl fmt::Debug for Mutator<'_> {
    fn fmt(&self, f: &mut fmt::Formatter<'_>) -> fmt::Result {
        f.debug_struct("Mutator").finish_non_exhaustive()
    }
}

/// An operation of [`Mutator::apply`], with what it told as it was done.
#[derive(Clone, Copy, Debug, PartialEq, Eq, Hash)]
#[repr(transparent)]
pub struct Operation(raw::Operation);

name_operations!(Operation, "Mutator");

impl Operation {
    /// As [`Mutator::swap`].
    pub const fn swap(dest: Register, base: Register, index: u32, source: Register) -> Operation {
        Operation::new(raw::LXR_OP_SWAP, dest, base.number(), index).with(source.number() as u64)
    }

    /// As [`Mutator::add`]: it tells what the word was, and to add again it is made anew.
    pub const fn add(base: Register, index: u32, word: u64) -> Operation {
        Operation::new(raw::LXR_OP_ADD, base, index, 0).with(word)
    }
}

/// A mutator that rests, and wakes at the latest where this is dropped, as by a panic.
struct Resting<'a, 'h>(&'a Mutator<'h>);

impl Resting<'_, '_> {
    fn wake(self) -> Result<(), Error> {
        let code = unsafe { raw::lxr_mutator_wake(self.0.raw()) };
        std::mem::forget(self);
        done(code)
    }
}

impl Drop for Resting<'_, '_> {
    fn drop(&mut self) {
        unsafe { raw::lxr_mutator_wake(self.0.raw()) };
    }
}
