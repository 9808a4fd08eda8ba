//! A plain reader of the same grammar, to compare times with: it prints the threads and operations of a script, or
//! `fault`. It is written as a Rust programmer would write it at once, and nothing of it is proved.
use std::io::Read;

#[allow(dead_code)]
enum Op {
    New(u8, u16, u16),
    Load(u8, u8, u16),
    Store(u8, u16, u8),
    Put(u8, u16, u64),
    Get(u8, u16),
    Swap(u8, u8, u16, u8),
    Add(u8, u16, u64),
    Move(u8, u8),
    Nil(u8),
    Same(u8, u8),
    Pause,
    Collect,
}

fn number(word: &str) -> Option<u64> {
    if word.bytes().all(|byte| byte.is_ascii_digit()) {
        word.parse().ok()
    } else {
        None
    }
}

fn size(word: &str) -> Option<u16> {
    number(word).filter(|n| *n <= 1023).map(|n| n as u16)
}

fn register(word: &str) -> Option<u8> {
    number(word.strip_prefix('r')?).filter(|n| *n <= 15).map(|n| n as u8)
}

fn operation(version: u8, words: &[&str]) -> Option<Op> {
    Some(match words {
        ["new", a, b, c] => Op::New(register(a)?, size(b)?, size(c)?),
        ["load", a, b, c] => Op::Load(register(a)?, register(b)?, size(c)?),
        ["store", a, b, c] => Op::Store(register(a)?, size(b)?, register(c)?),
        ["put", a, b, c] => Op::Put(register(a)?, size(b)?, number(c)?),
        ["get", a, b] => Op::Get(register(a)?, size(b)?),
        ["swap", a, b, c, d] if version == 2 => Op::Swap(register(a)?, register(b)?, size(c)?, register(d)?),
        ["add", a, b, c] if version == 2 => Op::Add(register(a)?, size(b)?, number(c)?),
        ["move", a, b] => Op::Move(register(a)?, register(b)?),
        ["nil", a] => Op::Nil(register(a)?),
        ["same", a, b] => Op::Same(register(a)?, register(b)?),
        ["pause"] => Op::Pause,
        ["collect"] => Op::Collect,
        _ => return None,
    })
}

fn read(text: &str) -> Option<Vec<Vec<Op>>> {
    let mut lines = text
        .lines()
        .map(|line| line.split([' ', '\t']).filter(|word| !word.is_empty()).collect::<Vec<_>>())
        .filter(|words| words.first().is_some_and(|word| !word.starts_with('#')));
    let version = match lines.next()?.as_slice() {
        ["lxr", "1"] => 1,
        ["lxr", "2"] => 2,
        _ => return None,
    };
    let count = match lines.next()?.as_slice() {
        ["threads", n] => number(n).filter(|n| (1..=16).contains(n))?,
        _ => return None,
    };
    let mut threads = Vec::new();
    for t in 1..=count {
        match lines.next()?.as_slice() {
            ["thread", n] if number(n) == Some(t) => (),
            _ => return None,
        }
        let mut operations = Vec::new();
        loop {
            let words = lines.next()?;
            if words == ["end"] {
                break;
            }
            operations.push(operation(version, &words)?);
        }
        threads.push(operations);
    }
    if lines.next().is_some() { None } else { Some(threads) }
}

fn main() {
    let mut text = String::new();
    std::io::stdin().read_to_string(&mut text).expect("input");
    match read(&text) {
        Some(threads) => {
            println!("threads {}", threads.len());
            println!("operations {}", threads.iter().map(Vec::len).sum::<usize>());
        }
        None => println!("fault"),
    }
}
