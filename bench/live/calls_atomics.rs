//! What the calls of lxr_threads.h would cost as plain Rust: the same reads and writes of shared words, each `SeqCst`, and no collector.
//! SPDX: MIT OR Apache-2.0
//!
//! usage: calls_atomics THREADS
//!        calls_atomics count NAME TENTHS      this call alone, in one thread, so many tenths of a round; prints how many calls those are
//!
//! A line for each call: its name, and the nanoseconds that it takes in each thread, of the best of some rounds. An object is
//! a header and its fields, and each thread has objects of its own. As the library does it, an operation begins with a load of
//! the pause word and one of its base's header, a store looks at its reference's unlogged bit and logs what it overwrites
//! first, and a word is stored by a swap.

use std::hint::black_box;
use std::sync::Barrier;
use std::sync::atomic::{AtomicU64, Ordering::SeqCst};
use std::thread;
use std::time::Instant;

/// References of the object whose references are stored to for the first time.
const TABLE: u16 = 1000;

/// Words of one thread.
const LANE: usize = 4 << 20;

struct Words {
    pause: AtomicU64,
    heap: Vec<AtomicU64>,
    /// A bit for each word of the heap.
    unlogged: Vec<AtomicU64>,
}

fn header(refs: u16, data: u16) -> u64 {
    u64::from(refs) << 10 | u64::from(data)
}

struct Mutator {
    registers: [u64; 16],
    /// Where the next object is placed, and the end of its lane.
    first: usize,
    next: usize,
    end: usize,
    serial: u32,
    log: Vec<(u64, u64)>,
}

impl Mutator {
    fn wants_pause(&self, words: &Words) -> bool {
        words.pause.load(SeqCst) == 1
    }

    /// The word of a field: of a reference, or of a data word.
    #[inline(always)]
    fn field(&self, words: &Words, base: u8, index: u16, is_datum: bool) -> Option<usize> {
        let object = self.registers[usize::from(base)] as usize;
        if self.wants_pause(words) || object == 0 {
            return None;
        }
        let found = words.heap[object].load(SeqCst);
        let (refs, data) = ((found >> 10) as u16 & 1023, (found & 1023) as u16);
        let (count, before) = if is_datum { (data, refs) } else { (refs, 0) };
        (index < count).then_some(object + 1 + usize::from(before) + usize::from(index))
    }

    /// Clears the unlogged bit of a reference, and logs what the reference held, where nobody did so before.
    #[inline(always)]
    fn pass_barrier(&mut self, words: &Words, at: usize) {
        let (word, bit) = (&words.unlogged[at / 64], 1 << (at % 64));
        if word.load(SeqCst) & bit != 0 {
            let old = words.heap[at].load(SeqCst);
            if word.fetch_and(!bit, SeqCst) & bit != 0 {
                self.log.push((at as u64, old));
            }
        }
    }

    #[inline(never)]
    fn get(&self, words: &Words, base: u8, index: u16) -> Option<u64> {
        Some(words.heap[self.field(words, base, index, true)?].load(SeqCst))
    }

    #[inline(never)]
    fn put(&self, words: &Words, base: u8, index: u16, word: u64) -> Option<()> {
        words.heap[self.field(words, base, index, true)?].swap(word, SeqCst);
        Some(())
    }

    #[inline(never)]
    fn add(&self, words: &Words, base: u8, index: u16, word: u64) -> Option<u64> {
        Some(words.heap[self.field(words, base, index, true)?].fetch_add(word, SeqCst))
    }

    #[inline(never)]
    fn load(&mut self, words: &Words, dest: u8, base: u8, index: u16) -> Option<u64> {
        let found = words.heap[self.field(words, base, index, false)?].load(SeqCst);
        self.registers[usize::from(dest)] = found;
        self.name(words, found)
    }

    #[inline(never)]
    fn store(&mut self, words: &Words, base: u8, index: u16, source: u8) -> Option<()> {
        let at = self.field(words, base, index, false)?;
        self.pass_barrier(words, at);
        words.heap[at].swap(self.registers[usize::from(source)], SeqCst);
        Some(())
    }

    #[inline(never)]
    fn swap(&mut self, words: &Words, dest: u8, base: u8, index: u16, source: u8) -> Option<u64> {
        let at = self.field(words, base, index, false)?;
        self.pass_barrier(words, at);
        let found = words.heap[at].swap(self.registers[usize::from(source)], SeqCst);
        self.registers[usize::from(dest)] = found;
        self.name(words, found)
    }

    /// What a load or a swap tells of what it found: the object's header.
    #[inline(always)]
    fn name(&self, words: &Words, found: u64) -> Option<u64> {
        if found == 0 { Some(0) } else { Some(words.heap[found as usize].load(SeqCst)) }
    }

    #[inline(never)]
    fn copy(&mut self, words: &Words, dest: u8, source: u8) -> Option<()> {
        if self.wants_pause(words) {
            return None;
        }
        self.registers[usize::from(dest)] = self.registers[usize::from(source)];
        Some(())
    }

    /// A new object: its fields are wiped, then its header is written. At the end of the lane objects are placed at its front again.
    #[inline(never)]
    fn new(&mut self, words: &Words, dest: u8, refs: u16, data: u16) -> Option<u32> {
        if self.wants_pause(words) {
            return None;
        }
        let size = 1 + usize::from(refs) + usize::from(data);
        if self.next + size > self.end {
            self.next = self.first;
        }
        let at = self.next;
        self.next += size.next_multiple_of(2);
        for word in &words.heap[at + 1..at + size] {
            word.swap(0, SeqCst);
        }
        words.heap[at].swap(header(refs, data), SeqCst);
        self.registers[usize::from(dest)] = at as u64;
        self.serial += 1;
        Some(self.serial)
    }
}

/// What is measured: its name, how many calls a round has, and one call.
type Measure = (&'static str, u32, fn(&mut Mutator, &Words, u16));

const MEASURES: [Measure; 9] = [
    ("get", 100_000, |m, words, at| _ = black_box(m.get(words, 1, at & 1))),
    ("put", 100_000, |m, words, at| _ = black_box(m.put(words, 1, at & 1, u64::from(at)))),
    ("add", 100_000, |m, words, at| _ = black_box(m.add(words, 1, at & 1, 1))),
    ("load", 100_000, |m, words, at| _ = black_box(m.load(words, 4, 1, at & 1))),
    ("store, the first since a pause", 1_000, |m, words, at| _ = black_box(m.store(words, 3, at, 2))),
    ("store, a further one", 100_000, |m, words, at| _ = black_box(m.store(words, 1, at & 1, 2))),
    ("swap", 100_000, |m, words, at| _ = black_box(m.swap(words, 4, 1, at & 1, 2))),
    ("move", 100_000, |m, words, _| _ = black_box(m.copy(words, 4, 2))),
    ("new of two words", 100_000, |m, words, _| _ = black_box(m.new(words, 5, 1, 1))),
];

/// Rounds of each measure.
const ROUNDS: u32 = 200;

/// A call whose instructions are counted from without: its name, and how many tenths of a round it is made.
struct Counted {
    name: String,
    tenths: u32,
}

/// The rounds of a call, and how many calls each has: where one is counted, it has one round, and the others none.
fn rounds_of(name: &str, count: u32, counted: Option<&Counted>) -> (u32, u32) {
    match counted {
        None => (ROUNDS, count),
        Some(it) => (u32::from(it.name == name), count / 10 * it.tenths),
    }
}

/// What one thread does: in each round all begin together.
fn measure_all(number: usize, words: &Words, barrier: &Barrier, counted: Option<&Counted>) {
    let first = 2 + number * LANE;
    let mut m = Mutator { registers: [0; 16], first, next: first, end: first + LANE, serial: 0, log: Vec::with_capacity(65536) };
    m.new(words, 1, 2, 2);
    m.new(words, 2, 2, 2);
    m.new(words, 3, TABLE, 0);
    m.first = m.next;
    for at in 0..2 {
        m.store(words, 1, at, 2);
    }
    for (name, count, call) in MEASURES {
        let mut best = f64::INFINITY;
        let (rounds, calls) = rounds_of(name, count, counted);
        for _ in 0..rounds {
            let table = m.registers[3] as usize;
            for word in &words.unlogged[table / 64..=(table + usize::from(TABLE)) / 64] {
                word.store(!0, SeqCst);
            }
            m.log.clear();
            if !name.ends_with("the first since a pause") {
                m.pass_barrier(words, m.registers[1] as usize + 1);
                m.pass_barrier(words, m.registers[1] as usize + 2);
            }
            barrier.wait();
            let begun = Instant::now();
            for at in 0..calls {
                call(&mut m, words, (at & 0xffff) as u16);
            }
            barrier.wait();
            best = best.min(begun.elapsed().as_nanos() as f64 / f64::from(calls));
        }
        match counted {
            None if number == 0 => println!("{name}\t{best:.1}"),
            Some(_) if rounds > 0 => println!("{calls}"),
            _ => {}
        }
    }
}

fn main() {
    let given: Vec<String> = std::env::args().skip(1).collect();
    let counted = match given.as_slice() {
        [count, name, tenths] if count == "count" => tenths.parse().ok().map(|tenths| Counted { name: name.clone(), tenths }),
        _ => None,
    };
    let threads: usize = given.first().and_then(|word| word.parse().ok()).unwrap_or(1);
    let all = 2 + threads * LANE;
    let words = Words {
        pause: AtomicU64::new(0),
        heap: (0..all).map(|_| AtomicU64::new(0)).collect(),
        unlogged: (0..all / 64 + 1).map(|_| AtomicU64::new(!0)).collect(),
    };
    let barrier = Barrier::new(threads);
    thread::scope(|scope| {
        for number in 0..threads {
            let (words, barrier, counted) = (&words, &barrier, counted.as_ref());
            scope.spawn(move || measure_all(number, words, barrier, counted));
        }
    });
}
