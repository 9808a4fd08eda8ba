//! A host that times the calls of `lxr.h`, and the same work on plain objects in a `Vec` that are never freed.
use std::ffi::c_void;
use std::hint::black_box;
use std::ptr::null_mut;
use std::time::Instant;

#[repr(C)]
struct Handle {
    live: u64,
    block: *mut c_void,
}

#[repr(C)]
struct Settings {
    size: u64,
    blocks: u32,
    body_blocks: u32,
    pace: u64,
}

unsafe extern "C" {
    fn lxr_open(heap: *mut Handle, settings: *const Settings) -> u32;
    fn lxr_close(heap: *mut Handle) -> u32;
    fn lxr_new(heap: *mut Handle, dest: u32, refs: u32, words: u32) -> u32;
    fn lxr_load(heap: *mut Handle, dest: u32, base: u32, index: u32) -> u32;
    fn lxr_store(heap: *mut Handle, base: u32, index: u32, source: u32) -> u32;
    fn lxr_get(heap: *mut Handle, base: u32, index: u32, word: *mut u64) -> u32;
    fn lxr_put(heap: *mut Handle, base: u32, index: u32, word: u64) -> u32;
    fn lxr_same(heap: *mut Handle, left: u32, right: u32, same: *mut u32) -> u32;
    fn lxr_move(heap: *mut Handle, dest: u32, source: u32) -> u32;
    fn lxr_nil(heap: *mut Handle, dest: u32) -> u32;
    fn lxr_is_nil(heap: *mut Handle, source: u32, is_nil: *mut u32) -> u32;
    fn lxr_shape(heap: *mut Handle, base: u32, refs: *mut u32, words: *mut u32, blocks: *mut u32) -> u32;
    fn lxr_large_new(heap: *mut Handle, dest: u32, blocks: u32) -> u32;
    fn lxr_large_get(heap: *mut Handle, base: u32, index: u32, word: *mut u64) -> u32;
    fn lxr_large_put(heap: *mut Handle, base: u32, index: u32, word: u64) -> u32;
    fn lxr_large_read(heap: *mut Handle, base: u32, index: u32, into: *mut u64, count: usize) -> u32;
    fn lxr_large_write(heap: *mut Handle, base: u32, index: u32, from: *const u64, count: usize) -> u32;
    fn lxr_pause(heap: *mut Handle) -> u32;
    fn lxr_collect(heap: *mut Handle) -> u32;
    fn lxr_set_pace(heap: *mut Handle, bytes: u64) -> u32;
}

/// The heap under the clock. Each call has to answer 0.
struct Heap(Handle);

impl Heap {
    fn open(blocks: u32, bodies: u32) -> Heap {
        let mut heap = Heap(Handle { live: 0, block: null_mut() });
        let settings = Settings { size: size_of::<Settings>() as u64, blocks, body_blocks: bodies, pace: 0 };
        done(unsafe { lxr_open(&mut heap.0, &settings) });
        heap
    }

    /// Goes on for so many calls; their least nanoseconds of nine tries.
    fn time(&mut self, calls: u32, mut call: impl FnMut(*mut Handle, u32) -> u32) -> f64 {
        let handle = &raw mut self.0;
        least(calls, |at| done(call(handle, at)))
    }

    /// The least microseconds of so many pauses.
    fn pause(&mut self, pauses: u32, mut before: impl FnMut(*mut Handle), pause: unsafe extern "C" fn(*mut Handle) -> u32) -> f64 {
        let handle = &raw mut self.0;
        let mut best = f64::MAX;
        for _ in 0..pauses {
            before(handle);
            let start = Instant::now();
            done(unsafe { pause(handle) });
            best = best.min(start.elapsed().as_nanos() as f64 / 1000.0);
        }
        best
    }
}

impl Drop for Heap {
    fn drop(&mut self) {
        done(unsafe { lxr_close(&mut self.0) });
    }
}

fn done(code: u32) {
    assert_eq!(code, 0, "a call answers this code");
}

/// A time of the processor's.
#[repr(C)]
struct Time {
    seconds: i64,
    nanos: i64,
}

unsafe extern "C" {
    fn clock_gettime(clock: i32, time: *mut Time) -> i32;
}

/// The nanoseconds that this thread has had the processor.
fn now() -> f64 {
    let mut time = Time { seconds: 0, nanos: 0 };
    // The clock of the processor's time of a thread.
    done(unsafe { clock_gettime(3, &mut time) } as u32);
    time.seconds as f64 * 1e9 + time.nanos as f64
}

/// The least nanoseconds a step of nine tries of so many.
fn least(steps: u32, mut step: impl FnMut(u32)) -> f64 {
    let mut best = f64::MAX;
    for _ in 0..9 {
        let start = now();
        for at in 0..steps {
            step(at);
        }
        best = best.min((now() - start) / f64::from(steps));
    }
    best
}

/// Plain objects: words in a row, each object a word with its numbers of references and of data words, and then these. None is freed.
struct Plain {
    words: Vec<u64>,
    registers: [usize; 16],
}

impl Plain {
    fn with_room(words: usize) -> Plain {
        let mut plain = Plain { words: Vec::with_capacity(words), registers: [0; 16] };
        plain.words.push(0);
        plain.new(0, 64, 0);
        plain
    }

    #[inline(never)]
    fn new(&mut self, dest: usize, refs: usize, values: usize) -> u32 {
        let place = self.words.len();
        self.words.push(((refs << 32) | values) as u64);
        self.words.resize(place + 1 + refs + values, 0);
        self.registers[dest] = place;
        0
    }

    /// Where a word of the object in a register stands, where there is one.
    fn word(&self, base: usize, index: usize, is_ref: bool) -> Option<usize> {
        let place = *self.registers.get(base)?;
        let header = self.words[place] as usize;
        let (refs, values) = (header >> 32, header & 0xffff_ffff);
        if place == 0 || index >= if is_ref { refs } else { values } {
            return None;
        }
        Some(place + 1 + index + if is_ref { 0 } else { refs })
    }

    #[inline(never)]
    fn load(&mut self, dest: usize, base: usize, index: usize) -> u32 {
        let Some(at) = self.word(base, index, true) else { return 1 };
        self.registers[dest] = self.words[at] as usize;
        0
    }

    #[inline(never)]
    fn store(&mut self, base: usize, index: usize, source: usize) -> u32 {
        let Some(at) = self.word(base, index, true) else { return 1 };
        self.words[at] = self.registers[source] as u64;
        0
    }

    #[inline(never)]
    fn get(&mut self, base: usize, index: usize, word: &mut u64) -> u32 {
        let Some(at) = self.word(base, index, false) else { return 1 };
        *word = self.words[at];
        0
    }

    #[inline(never)]
    fn put(&mut self, base: usize, index: usize, word: u64) -> u32 {
        let Some(at) = self.word(base, index, false) else { return 1 };
        self.words[at] = word;
        0
    }

    #[inline(never)]
    fn copy(&mut self, dest: usize, source: usize) -> u32 {
        self.registers[dest] = self.registers[source];
        0
    }

    #[inline(never)]
    fn same(&self, left: usize, right: usize, same: &mut u32) -> u32 {
        *same = u32::from(self.registers[left] == self.registers[right]);
        0
    }
}

const CALLS: u32 = 500_000;

fn row(what: &str, called: f64, plain: Option<f64>) {
    match plain {
        Some(plain) => println!("{what:<56} {called:>10.1} {plain:>10.1}"),
        None => println!("{what:<56} {called:>10.1}"),
    }
}

/// r1 holds an object of four references and four data words, whose first reference is to another; both were promoted.
fn operations() {
    let mut heap = Heap::open(1024, 1024);
    let handle = &raw mut heap.0;
    unsafe {
        done(lxr_new(handle, 1, 4, 4));
        done(lxr_new(handle, 2, 4, 4));
        done(lxr_store(handle, 1, 0, 2));
        done(lxr_collect(handle));
    }
    let mut plain = Plain::with_room(1 << 20);
    plain.new(1, 4, 4);
    plain.new(2, 4, 4);
    plain.store(1, 0, 2);
    let (mut word, mut flag) = (0, 0);
    let called = heap.time(CALLS, |heap, at| unsafe { lxr_get(heap, 1, black_box(at & 3), &mut word) });
    row("get", called, Some(least(CALLS, |at| done(plain.get(1, black_box(at as usize & 3), &mut word)))));
    let called = heap.time(CALLS, |heap, at| unsafe { lxr_put(heap, 1, black_box(at & 3), u64::from(at)) });
    row("put", called, Some(least(CALLS, |at| done(plain.put(1, black_box(at as usize & 3), u64::from(at))))));
    let called = heap.time(CALLS, |heap, at| unsafe { lxr_load(heap, 3, 1, black_box(at & 3)) });
    row("load", called, Some(least(CALLS, |at| done(plain.load(3, 1, black_box(at as usize & 3))))));
    let called = heap.time(CALLS, |heap, at| unsafe { lxr_store(heap, 1, black_box(at & 3), 2) });
    row("store, to a reference that is recorded", called, Some(least(CALLS, |at| done(plain.store(1, black_box(at as usize & 3), 2)))));
    let called = heap.time(CALLS, |heap, at| unsafe { lxr_move(heap, 4 + black_box(at & 3), 1) });
    row("move", called, Some(least(CALLS, |at| done(plain.copy(4 + black_box(at as usize & 3), 1)))));
    let called = heap.time(CALLS, |heap, at| unsafe { lxr_same(heap, 1, 4 + black_box(at & 3), &mut flag) });
    row("same", called, Some(least(CALLS, |at| done(plain.same(1, 4 + black_box(at as usize & 3), &mut flag)))));
    row("nil", heap.time(CALLS, |heap, at| unsafe { lxr_nil(heap, 4 + black_box(at & 3)) }), None);
    row("is_nil", heap.time(CALLS, |heap, at| unsafe { lxr_is_nil(heap, black_box(at & 3), &mut flag) }), None);
    let (mut refs, mut words, mut blocks) = (0, 0, 0);
    row("shape", heap.time(CALLS, |heap, _| unsafe { lxr_shape(heap, black_box(1), &mut refs, &mut words, &mut blocks) }), None);
    black_box((word, flag, refs, words, blocks));
}

/// Stores of which each has to record what it overwrites: to 1,000 references that were stored to once since the last pause, and that pause.
fn recording() {
    let mut heap = Heap::open(64, 1);
    let handle = &raw mut heap.0;
    unsafe {
        done(lxr_new(handle, 1, 1000, 0));
        done(lxr_new(handle, 2, 1, 0));
        done(lxr_collect(handle));
    }
    let (mut stores, mut pauses) = (f64::MAX, f64::MAX);
    for _ in 0..100 {
        let start = now();
        for at in 0..1000 {
            done(unsafe { lxr_store(handle, 1, at, 2) });
        }
        stores = stores.min((now() - start) / 1000.0);
        let start = now();
        done(unsafe { lxr_pause(handle) });
        pauses = pauses.min((now() - start) / 1000.0);
    }
    row("store, the first since a pause", stores, None);
    row("  and its share of that pause", pauses, None);
}

/// New objects of four words, with a pause after so many; of those since the last pause so many stay.
fn making() {
    for (name, every, kept) in [("none is kept", 65_536, 0), ("none is kept, a pause after 4,096", 4096, 0), ("of 65,536 the last 64 are kept", 65_536, 64)] {
        let mut heap = Heap::open(1024, 1);
        done(unsafe { lxr_set_pace(&mut heap.0, 48 * u64::from(every)) });
        let called = heap.time(CALLS, |heap, at| unsafe {
            done(lxr_new(heap, 1, 1, 3));
            if at % every < kept { lxr_store(heap, 0, at % every, 1) } else { 0 }
        });
        let mut plain = Plain::with_room(1 << 26);
        let beside = least(CALLS, |_| done(plain.new(1, 1, 3)));
        row(&format!("new of four words, with its pauses: {name}"), called, Some(beside));
    }
}

/// Bodies: words of the last of so many.
fn bodies() {
    for count in [1, 100, 10_000] {
        let mut heap = Heap::open(1024, 65_536);
        let handle = &raw mut heap.0;
        for at in 0..count {
            unsafe {
                done(lxr_large_new(handle, 1, 1));
                // The world's first reference leads to lists of a thousand.
                if at % 1000 == 0 {
                    done(lxr_new(handle, 2, 1000, 0));
                    done(lxr_store(handle, 0, at / 1000, 2));
                }
                done(lxr_store(handle, 2, at % 1000, 1));
            }
        }
        let mut plain = vec![vec![0u64; 4096]];
        let mut word = 0;
        let called = heap.time(CALLS, |heap, at| unsafe { lxr_large_get(heap, 1, black_box(at & 4095), &mut word) });
        row(&format!("bget, of {count} bodies"), called, Some(least(CALLS, |at| word = plain[black_box(0)][at as usize & 4095])));
        let called = heap.time(CALLS, |heap, at| unsafe { lxr_large_put(heap, 1, black_box(at & 4095), 1) });
        row(&format!("bput, of {count} bodies"), called, Some(least(CALLS, |at| plain[black_box(0)][at as usize & 4095] = 1)));
        black_box(word);
        let mut into = vec![0; 4096];
        row("bread of 4,096 words", heap.time(10_000, |heap, _| unsafe { lxr_large_read(heap, 1, 0, into.as_mut_ptr(), 4096) }), None);
        row("bwrite of 4,096 words", heap.time(10_000, |heap, _| unsafe { lxr_large_write(heap, 1, 0, into.as_ptr(), 4096) }), None);
    }
}

/// Makes a list of so many objects, which the world holds.
fn chain(handle: *mut Handle, objects: u32) {
    unsafe {
        done(lxr_nil(handle, 1));
        for _ in 0..objects {
            done(lxr_new(handle, 2, 1, 3));
            done(lxr_store(handle, 2, 0, 1));
            done(lxr_move(handle, 1, 2));
        }
        done(lxr_store(handle, 0, 0, 1));
        done(lxr_nil(handle, 1));
        done(lxr_nil(handle, 2));
    }
}

fn pauses() {
    for blocks in [1, 64, 1024, 65_536] {
        let mut heap = Heap::open(blocks, 1);
        let plain = heap.pause(200, |_| (), lxr_pause);
        row(&format!("pause with nothing to do, {blocks} blocks"), plain, None);
        row(&format!("collecting pause of the world alone, {blocks} blocks"), heap.pause(50, |_| (), lxr_collect), None);
    }
    for objects in [1_000, 10_000, 100_000, 1_000_000] {
        let mut heap = Heap::open(4096, 1);
        chain(&raw mut heap.0, objects);
        done(unsafe { lxr_collect(&mut heap.0) });
        row(&format!("collecting pause, {objects} objects live"), heap.pause(7, |_| (), lxr_collect), None);
    }
    for objects in [1_000, 100_000] {
        let mut heap = Heap::open(4096, 1);
        let promoted = heap.pause(7, |handle| chain(handle, objects), lxr_pause);
        row(&format!("pause that promotes {objects} objects and lets go of as many"), promoted, None);
    }
}

/// Opens and closes heaps of the most blocks.
fn opening() {
    let mut best = f64::MAX;
    for _ in 0..7 {
        let start = Instant::now();
        let heap = Heap::open(65_536, 65_536);
        best = best.min(start.elapsed().as_nanos() as f64 / 1000.0);
        drop(heap);
    }
    row("open 65,536 blocks of each kind", best, None);
    let heap = Heap::open(65_536, 65_536);
    let status = std::fs::read_to_string("/proc/self/status").unwrap_or_default();
    for line in status.lines().filter(|line| line.starts_with("VmRSS") || line.starts_with("VmSize")) {
        println!("  then {line}");
    }
    drop(heap);
}

fn main() {
    println!("{:<56} {:>10} {:>10}", "nanoseconds a call", "called", "plain");
    operations();
    recording();
    making();
    bodies();
    println!("{:<56} {:>10}", "microseconds", "called");
    pauses();
    opening();
}
