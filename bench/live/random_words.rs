//! What random_lxr.c does, in plain Rust on as many words of shared memory, with no collector. SPDX: MIT OR Apache-2.0
//!
//! usage: random_words OBJECTS      a power of two
//!
//! An object is a header, a reference and 14 data words, and references are indexes of words.

use std::sync::atomic::{AtomicU64, Ordering::SeqCst};
use std::time::Instant;

const OBJECT_WORDS: usize = 16;
const REFERENCE: usize = 1;
const NUMBER: usize = 2;
const STEPS: u32 = 2_000_000;
const ROUNDS: usize = 5;

struct Words {
    objects: usize,
    heap: Vec<AtomicU64>,
    array: Vec<AtomicU64>,
}

impl Words {
    /// Each object refers to another one, all in one circle, and the array to all.
    fn new(objects: usize) -> Words {
        let mut words = Words { objects, heap: Vec::new(), array: Vec::new() };
        words.heap.resize_with(objects * OBJECT_WORDS, AtomicU64::default);
        words.array.resize_with(objects, AtomicU64::default);
        for number in 0..objects {
            let at = number * OBJECT_WORDS;
            words.array[number].store(at as u64, SeqCst);
            words.heap[at + NUMBER].store(number as u64, SeqCst);
            words.heap[at + REFERENCE].store((words.next_of(number) * OBJECT_WORDS) as u64, SeqCst);
        }
        words
    }

    fn next_of(&self, number: usize) -> usize {
        (number as u32).wrapping_mul(1_664_525).wrapping_add(1_013_904_223) as usize & (self.objects - 1)
    }

    fn walk(&self) {
        let (mut at, mut number) = (0, 0);
        for _ in 0..STEPS {
            number = self.next_of(number);
            at = self.heap[at + REFERENCE].load(SeqCst) as usize;
            assert_eq!(self.heap[at + NUMBER].load(SeqCst), number as u64);
        }
    }

    fn draw(&self) {
        let mut state: u64 = 1;
        for _ in 0..STEPS {
            state = state.wrapping_mul(6_364_136_223_846_793_005).wrapping_add(1_442_695_040_888_963_407);
            let number = (state >> 33) as usize % self.objects;
            let at = self.array[number].load(SeqCst) as usize;
            assert_eq!(self.heap[at + NUMBER].load(SeqCst), number as u64);
        }
    }
}

/// The nanoseconds of a step, the best of some rounds.
fn best_of(measure: impl Fn()) -> f64 {
    let time = || {
        let begun = Instant::now();
        measure();
        begun.elapsed().as_nanos() as f64 / f64::from(STEPS)
    };
    (0..ROUNDS).map(|_| time()).fold(f64::INFINITY, f64::min)
}

fn main() {
    let objects = std::env::args().nth(1).and_then(|word| word.parse().ok()).filter(|it: &usize| it.is_power_of_two());
    let Some(objects) = objects else { std::process::exit(2) };
    let words = Words::new(objects);
    print!("\t{:.1}\t{:.1}", best_of(|| words.walk()), best_of(|| words.draw()));
}
