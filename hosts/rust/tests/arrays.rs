//! Arrays and words, of heaps for one thread and of heaps that threads share.

use std::thread;

use kogyulen::threads::{self, Mutator, SharedHeap};
use kogyulen::{Error, Heap, Register, Settings, MOST_ELEMENTS, MOST_LENGTH, R0, R1, R15, R2, R3, R4};

const LENGTHS: [u32; 9] = [0, 1, 2, 1022, 1023, 1024, 2046, 2047, 5000];

/// Makes something in a heap that has room for it; the mock of the archive below threads may say once and again that it is full.
fn made(mut make: impl FnMut() -> Result<(), Error>) -> Result<(), Error> {
    loop {
        match make() {
            Err(Error::Full) => continue,
            other => return other,
        }
    }
}

fn shared(registers: u32) -> SharedHeap {
    SharedHeap::open(&threads::Settings::new(64, 5).registers(registers)).expect("these are good settings")
}

#[test]
fn elements_are_where_they_were_stored() -> Result<(), Error> {
    let mut heap = Heap::open(&Settings::new(64))?;
    for length in LENGTHS {
        heap.make_array(R1, length)?;
        let mut array = heap.array(R1);
        assert_eq!(array.length(), Ok(length));
        array.fill(0..length, R0)?;
        for index in 0..length {
            array.store(index, R1)?;
            array.load(R2, index)?;
        }
        assert_eq!([array.load(R2, length), array.store(u32::MAX, R2)], [Err(Error::Index); 2]);
        assert_eq!([array.fill(1..length + 1, R2), array.copy_within(1..length + 1, 0)], [Err(Error::Index); 2]);
        assert!(length == 0 || heap.same(R1, R2));
    }
    Ok(())
}

#[test]
fn a_range_that_ends_before_it_begins_is_refused() -> Result<(), Error> {
    let mut heap = Heap::open(&Settings::new(1))?;
    heap.make_array(R1, 10)?;
    let backwards = std::ops::Range { start: 3, end: 2 };
    assert_eq!([heap.array(R1).fill(backwards.clone(), R0), heap.array(R1).copy_within(backwards, 0)], [Err(Error::Index); 2]);
    Ok(())
}

/// Elements are objects whose word tells which they are.
fn numbers(heap: &mut Heap, base: Register) -> Result<Vec<u64>, Error> {
    (0..heap.array(base).length()?)
        .map(|index| {
            heap.array(base).load(R4, index)?;
            heap.get(R4, 0)
        })
        .collect()
}

#[test]
fn copies_that_overlap_are_as_those_of_slices() -> Result<(), Error> {
    let mut heap = Heap::open(&Settings::new(64))?;
    let mut wanted: Vec<u64> = (0..3000).collect();
    heap.make_array(R1, 3000)?;
    for number in 0..3000 {
        heap.make_with(R2, &[], &[number])?;
        heap.array(R1).store(number as u32, R2)?;
    }
    for (elements, at) in [(0..2999, 1), (3..2993, 0), (1023..2123, 1020), (20..920, 2045)] {
        heap.array(R1).copy_within(elements.clone(), at)?;
        wanted.copy_within(elements.start as usize..elements.end as usize, at as usize);
        heap.collect();
        assert_eq!(numbers(&mut heap, R1)?, wanted);
    }
    heap.make_array(R3, 8)?;
    heap.array(R3).copy_from(R1, 1020..1028, 0)?;
    assert_eq!(numbers(&mut heap, R3)?, wanted[1020..1028]);
    assert_eq!(heap.array(R3).copy_from(R1, 1020..1028, 1), Err(Error::Index));
    assert_eq!(heap.array(R3).copy_from(R15, 0..0, 0), Err(Error::Nil));
    Ok(())
}

#[test]
fn words_are_read_and_written_or_none() -> Result<(), Error> {
    let mut heap = Heap::open(&Settings::new(4).body_blocks(8))?;
    for length in LENGTHS {
        let wanted: Vec<u64> = (0..u64::from(length)).map(|number| number * number).collect();
        heap.make_words(R1, length)?;
        assert_eq!(heap.words(R1).to_vec()?, vec![0; length as usize]);
        let mut words = heap.words_mut(R1);
        words.write(0, &wanted)?;
        assert_eq!((words.length(), words.to_vec()), (Ok(length), Ok(wanted.clone())));
        assert_eq!([words.write(length, &[1]), words.put(length, 1), words.read(length, &mut [0])], [Err(Error::Index); 3]);
        words.write(length, &[])?;
        if let Some(last) = length.checked_sub(1) {
            words.put(last, 7)?;
            assert_eq!(words.get(last), Ok(7));
        }
    }
    assert_eq!(heap.words(R15).get(0), Err(Error::Nil));
    Ok(())
}

#[test]
fn what_cannot_be_made_is_told() -> Result<(), Error> {
    let mut heap = Heap::open(&Settings::new(8))?;
    assert_eq!([heap.make_array(R1, MOST_ELEMENTS + 1), heap.make_words(R1, MOST_LENGTH + 1)], [Err(Error::Size); 2]);
    let Some(behind) = Register::new(16) else { unreachable!() };
    assert_eq!([heap.make_array(behind, 1), heap.array(R0).store(0, behind)], [Err(Error::Register); 2]);
    assert!(heap.is_nil(R1));
    let mut many = Heap::open(&Settings::new(8).registers(256))?;
    assert_eq!([many.make_array(R1, 1024), many.make_array(R1, 1023)], [Err(Error::Register), Ok(())]);
    let (most, fewer) = (shared(256), shared(254));
    let mut mutator = most.enter()?;
    assert_eq!([mutator.make_array(R1, 1), mutator.make_words(R1, 1024)], [Err(Error::Register), Err(Error::Size)]);
    let mut mutator = fewer.enter()?;
    assert_eq!(mutator.make_array(R1, MOST_ELEMENTS + 1), Err(Error::Size));
    assert_eq!([mutator.array(R0).load(R0, 0), mutator.array(R0).swap(R0, 0, R1)], [Err(Error::Register); 2]);
    Ok(())
}

#[test]
fn a_mutator_has_arrays_and_words() -> Result<(), Error> {
    let heap = shared(16);
    let mut own = heap.enter()?;
    for length in LENGTHS {
        made(|| own.make_array(R1, length))?;
        let mut array = own.array(R1);
        array.fill(0..length, R1)?;
        assert_eq!((array.length(), array.load(R2, length)), (Ok(length), Err(Error::Index)));
        if let Some(last) = length.checked_sub(1) {
            array.swap(R2, last, R15)?;
            array.load(R3, last)?;
            assert!(own.same(R1, R2)? && own.same(R3, R15)?);
        }
        if length > 1023 {
            continue;
        }
        made(|| own.make_words(R1, length))?;
        let wanted: Vec<u64> = (5..5 + u64::from(length)).collect();
        own.words(R1).write(0, &wanted)?;
        assert_eq!(own.words(R1).to_vec()?, wanted);
        assert_eq!(own.words(R1).write(1, &vec![0; length as usize + 1]), Err(Error::Index));
    }
    Ok(())
}

/// Puts an object, and each that it finds in its place, into the next place, until one is nil.
fn put_into_some_place(own: &mut Mutator) -> Result<(), Error> {
    let mut place = 1020;
    while !own.same(R2, R15)? {
        own.array(R1).swap(R2, place, R2)?;
        place = if place == 1039 { 900 } else { place + 1 };
    }
    Ok(())
}

#[test]
fn what_threads_swap_into_an_array_is_there_once() -> Result<(), Error> {
    let heap = shared(16);
    let mut first = heap.enter()?;
    made(|| first.make_array(R1, 1040))?;
    first.store(R0, 0, R1)?;
    first.rest(|| {
        thread::scope(|scope| {
            for number in 0..4 {
                let heap = &heap;
                scope.spawn(move || -> Result<(), Error> {
                    let mut own = heap.enter()?;
                    own.load(R1, R0, 0)?;
                    for word in number * 8..number * 8 + 8 {
                        made(|| own.make_words(R2, 1))?;
                        own.words(R2).put(0, word)?;
                        put_into_some_place(&mut own)?;
                    }
                    Ok(())
                });
            }
        });
    })?;
    let mut found = Vec::new();
    for index in 0..1040 {
        first.array(R1).load(R2, index)?;
        if !first.same(R2, R15)? {
            found.push(first.words(R2).get(0)?);
        }
    }
    found.sort_unstable();
    assert!(found.into_iter().eq(0..32));
    Ok(())
}
