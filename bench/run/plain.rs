//! The operations of the script that `lxr load` makes, with no proof and no collector: the same draws, the same registers and replies, and
//! objects in atomic words. Each thread takes its objects from words of its own, one behind the other, and begins anew at their end.

use std::sync::atomic::{AtomicU64, Ordering::SeqCst};
use std::thread;
use std::time::Instant;

#[derive(Clone, Copy)]
enum Op {
    New { dest: u8, refs: u16, values: u16 },
    Load { dest: u8, base: u8, index: u16 },
    Store { base: u8, index: u16, source: u8 },
    Put { base: u8, index: u16, value: u64 },
    Get { base: u8, index: u16 },
}

#[derive(Clone, Copy)]
enum Reply {
    New(u32),
    Loaded(u64),
    Stored,
    Put,
    Got(u64),
    Bad,
    Range,
}

fn draw(x: &mut u64) -> u64 {
    *x = x.wrapping_mul(6364136223846793005).wrapping_add(1442695040888963407);
    *x >> 33
}

/// The operations of a thread.
fn script(seed: u64, thread: u64, rounds: u32) -> Vec<Op> {
    let mut x = seed.wrapping_add(thread);
    let mut script = Vec::with_capacity(10 * rounds as usize);
    for _ in 0..rounds {
        let values = (draw(&mut x) % 30) as u16;
        let slot = (4 * (thread - 1) + draw(&mut x) % 4) as u16;
        let value = draw(&mut x);
        script.extend([
            Op::New { dest: 1, refs: 2, values },
            Op::New { dest: 2, refs: 1, values: 1 },
            Op::Store { base: 1, index: 0, source: 2 },
            Op::Store { base: 2, index: 0, source: 1 },
            Op::Put { base: 2, index: 0, value },
            Op::Load { dest: 3, base: 0, index: slot },
            Op::Store { base: 1, index: 1, source: 3 },
            Op::Store { base: 3, index: 1, source: 15 },
            Op::Store { base: 0, index: slot, source: 1 },
            Op::Get { base: 2, index: 0 },
        ]);
    }
    script
}

struct Mutator {
    /// The word of each register's object, and 0 for none.
    registers: [u64; 16],
    first: usize,
    next: usize,
    end: usize,
    serial: u32,
}

/// The world's header stands in word 1, so that 0 is no object.
const WORLD: u64 = 1;

fn header(refs: u16, values: u16) -> u64 {
    u64::from(refs) << 10 | u64::from(values)
}

impl Mutator {
    fn new_object(&mut self, words: &[AtomicU64], dest: u8, refs: u16, values: u16) -> Reply {
        let size = 1 + usize::from(refs) + usize::from(values);
        if self.next + size > self.end {
            self.next = self.first;
        }
        let at = self.next;
        self.next += size;
        words[at].store(header(refs, values), SeqCst);
        for word in &words[at + 1..at + size] {
            word.store(0, SeqCst);
        }
        self.registers[usize::from(dest)] = at as u64;
        self.serial += 1;
        Reply::New(self.serial)
    }

    /// The word of a reference, or of a data word, of a register's object.
    fn field(&self, words: &[AtomicU64], base: u8, index: u16, datum: bool) -> Result<usize, Reply> {
        let object = self.registers[usize::from(base)] as usize;
        if object == 0 {
            return Err(Reply::Bad);
        }
        let header = words[object].load(SeqCst);
        let (refs, values) = ((header >> 10) as u16, (header & 1023) as u16);
        let (count, before) = if datum { (values, refs) } else { (refs, 0) };
        if index >= count {
            return Err(Reply::Range);
        }
        Ok(object + 1 + usize::from(before) + usize::from(index))
    }

    fn step(&mut self, words: &[AtomicU64], op: Op) -> Result<Reply, Reply> {
        Ok(match op {
            Op::New { dest, refs, values } => self.new_object(words, dest, refs, values),
            Op::Load { dest, base, index } => {
                let found = words[self.field(words, base, index, false)?].load(SeqCst);
                self.registers[usize::from(dest)] = found;
                Reply::Loaded(found)
            }
            Op::Store { base, index, source } => {
                let at = self.field(words, base, index, false)?;
                words[at].swap(self.registers[usize::from(source)], SeqCst);
                Reply::Stored
            }
            Op::Put { base, index, value } => {
                words[self.field(words, base, index, true)?].store(value, SeqCst);
                Reply::Put
            }
            Op::Get { base, index } => Reply::Got(words[self.field(words, base, index, true)?].load(SeqCst)),
        })
    }

    fn run(&mut self, words: &[AtomicU64], script: &[Op]) -> Vec<Reply> {
        script.iter().map(|op| self.step(words, *op).unwrap_or_else(|reply| reply)).collect()
    }
}

fn sum(replies: &[Reply]) -> u64 {
    replies
        .iter()
        .map(|reply| match reply {
            Reply::New(serial) => u64::from(*serial),
            Reply::Loaded(found) => u64::from(*found != 0),
            Reply::Got(value) => *value,
            Reply::Stored | Reply::Put => 1,
            Reply::Bad => 2,
            Reply::Range => 3,
        })
        .fold(0, u64::wrapping_add)
}

fn main() {
    let rounds: u32 = std::env::args().nth(1).map_or(64_000, |word| word.parse().expect("a number of rounds"));
    for threads in [1_u32, 2, 4, 16] {
        for blocks in [16_usize, 64, 1024] {
            let words: Vec<AtomicU64> = (0..4096 * blocks).map(|_| AtomicU64::new(0)).collect();
            words[WORLD as usize].store(header(64, 0), SeqCst);
            let scripts: Vec<Vec<Op>> = (1..=threads).map(|thread| script(7, thread.into(), rounds / threads)).collect();
            let room = (words.len() - 128) / threads as usize;
            let start = Instant::now();
            let total: u64 = thread::scope(|scope| {
                let started: Vec<_> = scripts
                    .iter()
                    .enumerate()
                    .map(|(number, script)| {
                        let words = &words;
                        scope.spawn(move || {
                            let first = 128 + number * room;
                            let mut registers = [0; 16];
                            registers[0] = WORLD;
                            let mut mutator = Mutator { registers, first, next: first, end: first + room, serial: 0 };
                            sum(&mutator.run(words, script))
                        })
                    })
                    .collect();
                started.into_iter().map(|thread| thread.join().expect("a thread")).fold(0, u64::wrapping_add)
            });
            let micros = start.elapsed().as_micros().max(1);
            let operations: usize = scripts.iter().map(Vec::len).sum();
            let rate = operations as f64 / micros as f64;
            println!("{threads:>7} {blocks:>6} {rate:>10.2}   (sum {total})");
        }
    }
}
