//! The functions and constants of `lxr.h`, `lxr_threads.h` and `lxr_passes.h`, as they are; the headers say what each does, and what its
//! caller owes.

use std::ffi::{c_char, c_void};
use std::marker::{PhantomData, PhantomPinned};

/// What `lxr_code` is: what a call answers.
pub type Code = u32;

pub const LXR_OK: Code = 0;
pub const LXR_E_NO_HEAP: Code = 1;
pub const LXR_E_IN_USE: Code = 2;
pub const LXR_E_REGISTER: Code = 3;
pub const LXR_E_SIZE: Code = 4;
pub const LXR_E_NIL: Code = 5;
pub const LXR_E_INDEX: Code = 6;
pub const LXR_E_FULL: Code = 7;
pub const LXR_E_MEMORY: Code = 8;
pub const LXR_E_WHAT: Code = 9;
pub const LXR_E_NUMBER: Code = 10;
pub const LXR_E_RESTS: Code = 11;
pub const LXR_E_AWAKE: Code = 12;
pub const LXR_E_USED_UP: Code = 13;
pub const LXR_E_LOST: Code = 14;
pub const LXR_E_WAITS: Code = 15;
pub const LXR_E_HELD: Code = 16;
pub const LXR_E_BUSY: Code = 17;
pub const LXR_E_AWAY: Code = 18;
pub const LXR_E_HOME: Code = 19;
pub const LXR_E_KIND: Code = 20;
pub const LXR_E_EPOCH: Code = 21;
pub const LXR_E_NOT_WANTED: Code = 22;
pub const LXR_E_NOTHING: Code = 23;
pub const LXR_E_ENDED: Code = 24;

pub const LXR_VERSION_MAJOR: u32 = 0;
pub const LXR_VERSION_MINOR: u32 = 2;
pub const LXR_VERSION_PATCH: u32 = 0;
pub const LXR_VERSION: u32 = LXR_VERSION_MAJOR << 16 | LXR_VERSION_MINOR << 8 | LXR_VERSION_PATCH;

pub const LXR_REGISTERS: u32 = 16;
pub const LXR_MOST_REGISTERS: u32 = 256;
pub const LXR_WORLD_REFS: u32 = 64;
pub const LXR_MOST_REFS: u32 = 1023;
pub const LXR_MOST_WORDS: u32 = 1023;
pub const LXR_MOST_BODY_BLOCKS: u32 = 128;
pub const LXR_MOST_BLOCKS: u32 = 65536;
pub const LXR_BLOCK_WORDS: u32 = 4096;
pub const LXR_MOST_ELEMENTS: u32 = 1046529;
pub const LXR_MOST_LENGTH: u32 = 524287;

pub const LXR_PACE_NEVER: u64 = 0;
pub const LXR_PACE_ROOM: u64 = u64::MAX;

pub const LXR_GROW: u32 = 100;
pub const LXR_MOST_GROW: u32 = 10000;
pub const LXR_WORK: u32 = 8;
pub const LXR_MOST_WORK: u32 = 1000000;

pub const LXR_COUNT_PAUSES: u32 = 0;
pub const LXR_COUNT_PROMOTED: u32 = 1;
pub const LXR_COUNT_DEAD: u32 = 2;
pub const LXR_COUNT_STUCK: u32 = 3;
pub const LXR_COUNT_SWEPT: u32 = 4;
pub const LXR_COUNT_LIVE: u32 = 5;
pub const LXR_COUNT_FREE_BLOCKS: u32 = 6;
pub const LXR_COUNT_FREE_BODY_BYTES: u32 = 7;
pub const LXR_COUNT_LAST_KIND: u32 = 11;
pub const LXR_COUNT_ROOM: u32 = 13;
pub const LXR_COUNT_WAITING: u32 = 14;

pub const LXR_OP_NEW: u32 = 0;
pub const LXR_OP_LOAD: u32 = 1;
pub const LXR_OP_STORE: u32 = 2;
pub const LXR_OP_GET: u32 = 3;
pub const LXR_OP_PUT: u32 = 4;
pub const LXR_OP_SAME: u32 = 5;
pub const LXR_OP_MOVE: u32 = 6;
pub const LXR_OP_NIL: u32 = 7;
pub const LXR_OP_IS_NIL: u32 = 8;

pub const LXR_KIND_PLAIN: u64 = 0;
pub const LXR_KIND_BEGIN: u64 = 1;
pub const LXR_KIND_END: u64 = 2;
pub const LXR_KIND_COLLECT: u64 = 3;

/// What `lxr_heap` is: zeros while it has no heap.
#[repr(C)]
pub struct Handle {
    live: u64,
    block: *mut c_void,
}

impl Handle {
    pub const EMPTY: Handle = Handle { live: 0, block: std::ptr::null_mut() };
}

/// What `lxr_settings` is.
#[repr(C)]
pub struct Settings {
    pub size: u64,
    pub blocks: u32,
    pub body_blocks: u32,
    pub pace: u64,
    pub registers: u32,
    pub unused: u32,
    pub room: u32,
    pub grow: u32,
    pub work: u32,
    pub reserved: u32,
}

/// What `lxr_operation` is.
#[derive(Clone, Copy, Debug, PartialEq, Eq, Hash)]
#[repr(C)]
pub struct Operation {
    pub op: u32,
    pub a: u32,
    pub b: u32,
    pub c: u32,
    pub word: u64,
}

extern "C" {
    pub fn lxr_version() -> u32;
    pub fn lxr_message(code: Code) -> *const c_char;
    pub fn lxr_open(heap: *mut Handle, settings: *const Settings) -> Code;
    pub fn lxr_close(heap: *mut Handle) -> Code;
    pub fn lxr_new(heap: *mut Handle, dest: u32, refs: u32, words: u32) -> Code;
    pub fn lxr_load(heap: *mut Handle, dest: u32, base: u32, index: u32) -> Code;
    pub fn lxr_store(heap: *mut Handle, base: u32, index: u32, source: u32) -> Code;
    pub fn lxr_get(heap: *const Handle, base: u32, index: u32, word: *mut u64) -> Code;
    pub fn lxr_put(heap: *mut Handle, base: u32, index: u32, word: u64) -> Code;
    pub fn lxr_same(heap: *const Handle, left: u32, right: u32, same: *mut u32) -> Code;
    pub fn lxr_move(heap: *mut Handle, dest: u32, source: u32) -> Code;
    pub fn lxr_nil(heap: *mut Handle, dest: u32) -> Code;
    pub fn lxr_is_nil(heap: *const Handle, source: u32, is_nil: *mut u32) -> Code;
    pub fn lxr_registers_in_use(heap: *mut Handle, count: u32) -> Code;
    pub fn lxr_shape(heap: *const Handle, base: u32, refs: *mut u32, words: *mut u32, blocks: *mut u32) -> Code;
    pub fn lxr_new_with(heap: *mut Handle, dest: u32, sources: *const u32, refs: usize, data: *const u64, words: usize) -> Code;
    pub fn lxr_get_many(heap: *const Handle, base: u32, first: u32, words: *mut u64, count: usize) -> Code;
    pub fn lxr_put_many(heap: *mut Handle, base: u32, first: u32, words: *const u64, count: usize) -> Code;
    pub fn lxr_load_many(heap: *mut Handle, base: u32, first: u32, registers: *const u32, count: usize) -> Code;
    pub fn lxr_store_many(heap: *mut Handle, base: u32, first: u32, registers: *const u32, count: usize) -> Code;
    pub fn lxr_apply(heap: *mut Handle, operations: *mut Operation, count: usize, done: *mut usize) -> Code;
    pub fn lxr_large_new(heap: *mut Handle, dest: u32, blocks: u32) -> Code;
    pub fn lxr_large_get(heap: *const Handle, base: u32, index: u32, word: *mut u64) -> Code;
    pub fn lxr_large_put(heap: *mut Handle, base: u32, index: u32, word: u64) -> Code;
    pub fn lxr_large_read(heap: *const Handle, base: u32, index: u32, into: *mut u64, count: usize) -> Code;
    pub fn lxr_large_write(heap: *mut Handle, base: u32, index: u32, from: *const u64, count: usize) -> Code;
    pub fn lxr_array_new(heap: *mut Handle, dest: u32, length: u32) -> Code;
    pub fn lxr_array_length(heap: *const Handle, base: u32, length: *mut u32) -> Code;
    pub fn lxr_array_load(heap: *mut Handle, dest: u32, base: u32, index: u32) -> Code;
    pub fn lxr_array_store(heap: *mut Handle, base: u32, index: u32, source: u32) -> Code;
    pub fn lxr_array_fill(heap: *mut Handle, base: u32, first: u32, count: u32, source: u32) -> Code;
    pub fn lxr_array_copy(heap: *mut Handle, to: u32, at: u32, from: u32, first: u32, count: u32) -> Code;
    pub fn lxr_words_new(heap: *mut Handle, dest: u32, length: u32) -> Code;
    pub fn lxr_words_length(heap: *const Handle, base: u32, length: *mut u32) -> Code;
    pub fn lxr_words_get(heap: *const Handle, base: u32, index: u32, word: *mut u64) -> Code;
    pub fn lxr_words_put(heap: *mut Handle, base: u32, index: u32, word: u64) -> Code;
    pub fn lxr_words_read(heap: *const Handle, base: u32, first: u32, words: *mut u64, count: usize) -> Code;
    pub fn lxr_words_write(heap: *mut Handle, base: u32, first: u32, words: *const u64, count: usize) -> Code;
    pub fn lxr_pause(heap: *mut Handle) -> Code;
    pub fn lxr_collect(heap: *mut Handle) -> Code;
    pub fn lxr_set_pace(heap: *mut Handle, bytes: u64) -> Code;
    pub fn lxr_set_room(heap: *mut Handle, blocks: u32) -> Code;
    pub fn lxr_set_grow(heap: *mut Handle, hundredths: u32) -> Code;
    pub fn lxr_trim(heap: *mut Handle) -> Code;
    pub fn lxr_trim_next(heap: *mut Handle, from: u32, block: *mut u32) -> Code;
    pub fn lxr_first_word(heap: *mut Handle, place: *mut *const u64) -> Code;
    pub fn lxr_set_work(heap: *mut Handle, units: u32) -> Code;
    pub fn lxr_work(heap: *mut Handle, units: u32, more: *mut u32) -> Code;
    pub fn lxr_count(heap: *const Handle, what: u32, number: *mut u64) -> Code;
}

pub const LXR_MOST_MUTATORS: u32 = 255;
pub const LXR_MOST_HELPERS: u32 = 8;
pub const LXR_MOST_SHARED_BLOCKS: u32 = 65536;
pub const LXR_MOST_LOG: u32 = 65536;
pub const LXR_MOST_REMEMBER: u32 = 1048576;
pub const LXR_MOST_EVERY: u32 = 1000000;
pub const LXR_MOST_TRACE: u32 = 1000000;
pub const LXR_LEAST_RUNS: u32 = 64;

pub const LXR_OP_SWAP: u32 = 9;
pub const LXR_OP_ADD: u32 = 10;

pub const LXR_COUNT_COLLECTING: u32 = 8;
pub const LXR_COUNT_ENTERED: u32 = 9;
pub const LXR_COUNT_RESTING: u32 = 10;

/// A heap that threads share: known by its address alone.
#[repr(C)]
pub struct SharedHeap {
    opaque: [u8; 0],
    marker: PhantomData<(*mut u8, PhantomPinned)>,
}

/// A mutator of such a heap: known by its address alone.
#[repr(C)]
pub struct Mutator {
    opaque: [u8; 0],
    marker: PhantomData<(*mut u8, PhantomPinned)>,
}

/// What `lxr_shared_heap_settings` is.
#[repr(C)]
pub struct SharedSettings {
    pub size: u64,
    pub blocks: u32,
    pub mutators: u32,
    pub helpers: u32,
    pub log: u32,
    pub remember: u32,
    pub every: u32,
    pub trace: u32,
    pub within: u32,
    pub paused: Option<extern "C" fn(with: *mut c_void, times: *const PauseTimes)>,
    pub with: *mut c_void,
    pub pace: u64,
    pub evacuate: u32,
    pub registers: u32,
    pub room: u32,
    pub grow: u32,
    pub runs: u32,
    pub unused: u32,
}

/// What `lxr_pause_times` is.
#[repr(C)]
pub struct PauseTimes {
    pub number: u64,
    pub gathering: u64,
    pub pausing: u64,
    pub kind: u64,
}

extern "C" {
    pub fn lxr_shared_heap_open(heap: *mut *mut SharedHeap, settings: *const SharedSettings) -> Code;
    pub fn lxr_shared_heap_close(heap: *mut *mut SharedHeap) -> Code;
    pub fn lxr_shared_heap_count(heap: *const SharedHeap, what: u32, number: *mut u64) -> Code;
    pub fn lxr_shared_heap_set_room(heap: *mut SharedHeap, blocks: u32) -> Code;
    pub fn lxr_shared_heap_set_grow(heap: *mut SharedHeap, hundredths: u32) -> Code;
    pub fn lxr_mutator_enter(heap: *mut SharedHeap, mutator: *mut *mut Mutator) -> Code;
    pub fn lxr_mutator_leave(mutator: *mut *mut Mutator) -> Code;
    pub fn lxr_mutator_rest(mutator: *mut Mutator) -> Code;
    pub fn lxr_mutator_wake(mutator: *mut Mutator) -> Code;
    pub fn lxr_mutator_poll(mutator: *mut Mutator) -> Code;
    pub fn lxr_mutator_new(mutator: *mut Mutator, dest: u32, refs: u32, words: u32) -> Code;
    pub fn lxr_mutator_load(mutator: *mut Mutator, dest: u32, base: u32, index: u32) -> Code;
    pub fn lxr_mutator_store(mutator: *mut Mutator, base: u32, index: u32, source: u32) -> Code;
    pub fn lxr_mutator_swap(mutator: *mut Mutator, dest: u32, base: u32, index: u32, source: u32) -> Code;
    pub fn lxr_mutator_get(mutator: *mut Mutator, base: u32, index: u32, word: *mut u64) -> Code;
    pub fn lxr_mutator_put(mutator: *mut Mutator, base: u32, index: u32, word: u64) -> Code;
    pub fn lxr_mutator_add(mutator: *mut Mutator, base: u32, index: u32, word: u64, old: *mut u64) -> Code;
    pub fn lxr_mutator_same(mutator: *mut Mutator, left: u32, right: u32, same: *mut u32) -> Code;
    pub fn lxr_mutator_move(mutator: *mut Mutator, dest: u32, source: u32) -> Code;
    pub fn lxr_mutator_nil(mutator: *mut Mutator, dest: u32) -> Code;
    pub fn lxr_mutator_registers_in_use(mutator: *mut Mutator, count: u32) -> Code;
    pub fn lxr_mutator_new_with(mutator: *mut Mutator, dest: u32, sources: *const u32, refs: usize, data: *const u64, words: usize)
        -> Code;
    pub fn lxr_mutator_get_many(mutator: *mut Mutator, base: u32, first: u32, words: *mut u64, count: usize) -> Code;
    pub fn lxr_mutator_put_many(mutator: *mut Mutator, base: u32, first: u32, words: *const u64, count: usize) -> Code;
    pub fn lxr_mutator_load_many(mutator: *mut Mutator, base: u32, first: u32, registers: *const u32, count: usize) -> Code;
    pub fn lxr_mutator_store_many(mutator: *mut Mutator, base: u32, first: u32, registers: *const u32, count: usize) -> Code;
    pub fn lxr_mutator_apply(mutator: *mut Mutator, operations: *mut Operation, count: usize, done: *mut usize) -> Code;
    pub fn lxr_mutator_array_new(mutator: *mut Mutator, dest: u32, length: u32) -> Code;
    pub fn lxr_mutator_array_length(mutator: *mut Mutator, base: u32, length: *mut u32) -> Code;
    pub fn lxr_mutator_array_load(mutator: *mut Mutator, dest: u32, base: u32, index: u32) -> Code;
    pub fn lxr_mutator_array_store(mutator: *mut Mutator, base: u32, index: u32, source: u32) -> Code;
    pub fn lxr_mutator_array_swap(mutator: *mut Mutator, dest: u32, base: u32, index: u32, source: u32) -> Code;
    pub fn lxr_mutator_array_fill(mutator: *mut Mutator, base: u32, first: u32, count: u32, source: u32) -> Code;
    pub fn lxr_mutator_array_copy(mutator: *mut Mutator, to: u32, at: u32, from: u32, first: u32, count: u32) -> Code;
    pub fn lxr_mutator_words_new(mutator: *mut Mutator, dest: u32, length: u32) -> Code;
    pub fn lxr_mutator_words_length(mutator: *mut Mutator, base: u32, length: *mut u32) -> Code;
    pub fn lxr_mutator_words_get(mutator: *mut Mutator, base: u32, index: u32, word: *mut u64) -> Code;
    pub fn lxr_mutator_words_put(mutator: *mut Mutator, base: u32, index: u32, word: u64) -> Code;
    pub fn lxr_mutator_words_read(mutator: *mut Mutator, base: u32, first: u32, words: *mut u64, count: usize) -> Code;
    pub fn lxr_mutator_words_write(mutator: *mut Mutator, base: u32, first: u32, words: *const u64, count: usize) -> Code;
    pub fn lxr_mutator_pause(mutator: *mut Mutator) -> Code;
    pub fn lxr_mutator_collect(mutator: *mut Mutator) -> Code;
    pub fn lxr_mutator_trim(mutator: *mut Mutator) -> Code;
}

pub const LXR_COUNT_ASKED: u32 = 12;

/// What `lxr_passes` is: zeros while it has no heap.
#[repr(C)]
pub struct Passes {
    live: u64,
    block: *mut c_void,
}

impl Passes {
    pub const EMPTY: Passes = Passes { live: 0, block: std::ptr::null_mut() };
}

/// What `lxr_station` is: zeros while it has no pass.
#[repr(C)]
pub struct Station {
    live: u64,
    block: *mut c_void,
}

impl Station {
    pub const EMPTY: Station = Station { live: 0, block: std::ptr::null_mut() };
}

/// What `lxr_passes_settings` is.
#[repr(C)]
pub struct PassesSettings {
    pub size: u64,
    pub blocks: u32,
    pub mutators: u32,
    pub helpers: u32,
    pub log: u32,
    pub remember: u32,
    pub every: u32,
    pub trace: u32,
    pub within: u32,
    pub evacuate: u32,
    pub registers: u32,
    pub runs: u32,
    pub unused: u32,
}

extern "C" {
    pub fn lxr_passes_open(heap: *mut Passes, settings: *const PassesSettings) -> Code;
    pub fn lxr_passes_close(heap: *mut Passes) -> Code;
    pub fn lxr_passes_resume(heap: *mut Passes) -> Code;
    pub fn lxr_passes_pause(heap: *mut Passes) -> Code;
    pub fn lxr_passes_pause_and_trace(heap: *mut Passes) -> Code;
    pub fn lxr_passes_count(heap: *const Passes, what: u32, number: *mut u64) -> Code;
    pub fn lxr_passes_trim(heap: *mut Passes) -> Code;
    pub fn lxr_passes_trim_next(heap: *mut Passes, from: u32, block: *mut u32) -> Code;
    pub fn lxr_passes_first_word(heap: *mut Passes, place: *mut *const u64) -> Code;
    pub fn lxr_station_leave(heap: *mut Passes, number: u32, station: *mut Station) -> Code;
    pub fn lxr_station_come_home(station: *mut Station) -> Code;
    pub fn lxr_station_close(station: *mut Station) -> Code;
    pub fn lxr_station_wants_pause(station: *const Station, wants: *mut u32) -> Code;
    pub fn lxr_station_help(station: *mut Station, units: u32, more: *mut u32) -> Code;
    pub fn lxr_station_new(station: *mut Station, dest: u32, refs: u32, words: u32) -> Code;
    pub fn lxr_station_load(station: *mut Station, dest: u32, base: u32, index: u32) -> Code;
    pub fn lxr_station_store(station: *mut Station, base: u32, index: u32, source: u32) -> Code;
    pub fn lxr_station_swap(station: *mut Station, dest: u32, base: u32, index: u32, source: u32) -> Code;
    pub fn lxr_station_get(station: *mut Station, base: u32, index: u32, word: *mut u64) -> Code;
    pub fn lxr_station_put(station: *mut Station, base: u32, index: u32, word: u64) -> Code;
    pub fn lxr_station_add(station: *mut Station, base: u32, index: u32, word: u64, old: *mut u64) -> Code;
    pub fn lxr_station_same(station: *mut Station, left: u32, right: u32, same: *mut u32) -> Code;
    pub fn lxr_station_move(station: *mut Station, dest: u32, source: u32) -> Code;
    pub fn lxr_station_nil(station: *mut Station, dest: u32) -> Code;
    pub fn lxr_station_ask_pause(station: *mut Station) -> Code;
    pub fn lxr_station_ask_collect(station: *mut Station) -> Code;
    pub fn lxr_station_answer(station: *mut Station, word: *mut u64) -> Code;
}
