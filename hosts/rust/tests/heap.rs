//! Calls on heaps, and what they answer.

use kogyulen::{Count, Error, Heap, Operation, Pace, Register, Settings, Stopped, BLOCK_WORDS, R0, R1, R15, R2, R3, R4, WORLD_REFS};

/// The numbers of references, of data words and of blocks of a body.
fn shape(heap: &Heap, base: Register) -> Option<(u32, u32, u32)> {
    heap.shape(base).map(|it| (it.refs, it.words, it.blocks))
}

/// Makes a list of the numbers below an end in R2, the last one first.
fn make_list(heap: &mut Heap, end: u64) -> Result<(), Error> {
    for number in 0..end {
        heap.make(R1, 1, 1)?;
        heap.put(R1, 0, number)?;
        heap.store(R1, 0, R2)?;
        heap.copy(R2, R1);
    }
    heap.clear(R1);
    Ok(())
}

#[test]
fn an_opened_heap_has_the_world_alone() -> Result<(), Error> {
    let heap = Heap::open(&Settings::new(3).body_blocks(2))?;
    assert_eq!(shape(&heap, R0), Some((WORLD_REFS, 0, 0)));
    assert!(Register::all().skip(1).all(|register| heap.is_nil(register) && heap.shape(register).is_none()));
    assert_eq!((heap.count(Count::Pauses), heap.count(Count::Live), heap.count(Count::FreeBlocks)), (0, 0, 2));
    assert_eq!(heap.count(Count::FreeBodyBytes), 2 * 8 * u64::from(BLOCK_WORDS));
    Ok(())
}

#[test]
fn what_a_register_leads_to_is_kept_and_all_else_reclaimed() -> Result<(), Error> {
    let mut heap = Heap::open(&Settings::new(2))?;
    make_list(&mut heap, 200)?;
    for _ in 0..20_000 {
        heap.make(R3, 1, 8)?;
        heap.store(R3, 0, R3)?;
    }
    heap.clear(R3);
    assert!(heap.count(Count::Pauses) > 0);
    heap.copy(R1, R2);
    for number in (0..200).rev() {
        assert_eq!(heap.get(R1, 0), Ok(number));
        heap.load(R1, R1, 0)?;
    }
    assert!(heap.is_nil(R1) && heap.same(R1, R3) && !heap.same(R1, R2));
    heap.collect();
    assert_eq!(heap.count(Count::Live), 200);
    heap.clear(R2);
    heap.collect();
    assert_eq!((heap.count(Count::Live), heap.count(Count::Dead) + heap.count(Count::Swept)), (0, 200));
    Ok(())
}

#[test]
fn a_heap_has_as_many_registers_as_its_settings_say() -> Result<(), Error> {
    for (said, many) in [(0, 16), (16, 16), (17, 17), (64, 64), (255, 255), (256, 256)] {
        let mut heap = Heap::open(&Settings::new(4).registers(said))?;
        assert_eq!(heap.registers().map(Register::number).collect::<Vec<_>>(), (0..many).collect::<Vec<_>>());
        for register in heap.registers().skip(1) {
            heap.make_with(register, &[], &[u64::from(register.number())])?;
        }
        heap.collect();
        assert!(heap.registers().skip(1).all(|register| heap.get(register, 0) == Ok(u64::from(register.number()))));
        if let Some(behind) = Register::new(many) {
            assert_eq!((heap.make(behind, 0, 0), heap.get(behind, 0)), (Err(Error::Register), Err(Error::Register)));
            assert_eq!(heap.store_many(R1, 0, &[behind]), Err(Error::Register));
            assert_eq!(heap.apply(&mut [Operation::clear(behind)]).map_err(Error::from), Err(Error::Register));
        }
    }
    for wrong in [1, 15, 257, u32::MAX] {
        assert_eq!(Heap::open(&Settings::new(1).registers(wrong)).err(), Some(Error::Size));
    }
    Ok(())
}

#[test]
fn registers_that_are_no_longer_in_use_are_nil() -> Result<(), Error> {
    for many in [16, 100, 256] {
        let mut heap = Heap::open(&Settings::new(4).registers(many))?;
        for count in [many, many - 1, 20.min(many), 2, 1] {
            for register in heap.registers().skip(1) {
                heap.make(register, 0, 1)?;
            }
            heap.registers_in_use(count)?;
            assert!(heap.registers().skip(1).all(|register| heap.is_nil(register) == (register.number() >= count)));
            heap.collect();
            assert_eq!(heap.count(Count::Live), u64::from(count - 1));
        }
        assert_eq!(heap.registers_in_use(0), Err(Error::Register));
        assert_eq!(heap.registers_in_use(many + 1), Err(Error::Register));
    }
    Ok(())
}

#[test]
#[should_panic(expected = "register")]
fn a_register_that_a_heap_has_not_is_a_panic_where_there_is_no_error() {
    let heap = Heap::open(&Settings::new(1)).unwrap();
    heap.is_nil(Register::new(16).unwrap());
}

#[test]
fn a_heap_goes_to_another_thread_and_back() -> Result<(), Error> {
    let mut heap = Heap::open(&Settings::new(2))?;
    make_list(&mut heap, 100)?;
    let mut heap = std::thread::spawn(move || {
        heap.collect();
        heap.put(R2, 0, 7).map(|()| heap)
    })
    .join()
    .unwrap()?;
    assert_eq!((heap.get(R2, 0), heap.count(Count::Live)), (Ok(7), 100));
    heap.clear(R2);
    heap.collect();
    assert_eq!(heap.count(Count::Live), 0);
    Ok(())
}

#[test]
fn objects_are_made_with_their_fields() -> Result<(), Error> {
    let mut heap = Heap::open(&Settings::new(2))?;
    for number in 0..100 {
        heap.make_with(R1, &[R2, R15], &[number, number * number])?;
        heap.copy(R2, R1);
    }
    heap.collect();
    assert_eq!((heap.count(Count::Live), shape(&heap, R2)), (100, Some((2, 2, 0))));
    for number in (0..100).rev() {
        let mut words = [0; 2];
        heap.get_many(R2, 0, &mut words)?;
        assert_eq!(words, [number, number * number]);
        heap.load_many(R2, 0, &[R2])?;
    }
    assert!(heap.is_nil(R2));
    assert_eq!(heap.make_with(R1, &[R2, R1], &[]), Err(Error::Register));
    assert_eq!(heap.make_with(R3, &[R2; 1024], &[]), Err(Error::Size));
    assert_eq!(heap.make_with(R3, &[], &[0; 1024]), Err(Error::Size));
    assert!(heap.is_nil(R3));
    heap.make_with(R3, &[], &[])?;
    assert_eq!(shape(&heap, R3), Some((0, 0, 0)));
    Ok(())
}

#[test]
fn many_fields_are_read_and_written_or_none() -> Result<(), Error> {
    let mut heap = Heap::open(&Settings::new(1))?;
    heap.make(R1, 3, 4)?;
    heap.put_many(R1, 1, &[5, 6])?;
    assert_eq!(heap.put_many(R1, 2, &[7, 8, 9]), Err(Error::Index));
    let mut words = [1; 4];
    heap.get_many(R1, 0, &mut words)?;
    assert_eq!(words, [0, 5, 6, 0]);
    assert_eq!(heap.get_many(R1, 1, &mut words), Err(Error::Index));
    assert_eq!(words, [0, 5, 6, 0]);
    heap.store_many(R1, 1, &[R1, R0])?;
    assert_eq!(heap.store_many(R1, 0, &[R0; 4]), Err(Error::Index));
    heap.load_many(R1, 0, &[R2, R3, R4])?;
    assert!(heap.is_nil(R2) && heap.same(R3, R1) && heap.same(R4, R0));
    assert_eq!(heap.load_many(R1, 0, &[R1, R2]), Err(Error::Register));
    assert_eq!(heap.load_many(R2, 0, &[]), Err(Error::Nil));
    heap.load_many(R1, 0, &[R4, R3, R1])?;
    assert!(heap.is_nil(R4) && heap.same(R1, R0));
    Ok(())
}

#[test]
fn operations_are_done_up_to_the_first_that_is_refused() -> Result<(), Error> {
    let mut heap = Heap::open(&Settings::new(1))?;
    let mut operations = [
        Operation::make(R1, 1, 1),
        Operation::put(R1, 0, 7),
        Operation::store(R1, 0, R1),
        Operation::load(R2, R1, 0),
        Operation::same(R1, R2),
        Operation::get(R2, 0),
        Operation::copy(R3, R2),
        Operation::clear(R2),
        Operation::is_nil(R2),
        Operation::get(R2, 0),
        Operation::clear(R3),
    ];
    let stopped = heap.apply(&mut operations).unwrap_err();
    assert_eq!((stopped.done, stopped.error), (9, Error::Nil));
    assert_eq!(stopped.to_string(), "the register is nil, after 9 operations");
    assert_eq!([4, 5, 8].map(|at: usize| operations[at].told()), [1, 7, 1]);
    assert_eq!((heap.same(R1, R3), heap.get(R3, 0)), (true, Ok(7)));
    let sized = heap.apply(&mut [Operation::clear(R3), Operation::make(R1, 1024, 0)]);
    assert_eq!(sized.map_err(|Stopped { done, error, .. }| (done, error)), Err((0, Error::Size)));
    assert!(!heap.is_nil(R3));
    heap.apply(&mut [])?;
    Ok(())
}

#[test]
fn large_objects_have_bodies() -> Result<(), Error> {
    let mut heap = Heap::open(&Settings::new(1).body_blocks(4))?;
    heap.make_large(R1, 3)?;
    let words: Vec<u64> = (0..5000).collect();
    let mut found = vec![0; 5000];
    heap.body_write(R1, 4000, &words)?;
    heap.body_put(R1, 4001, 7)?;
    heap.collect();
    heap.body_read(R1, 4000, &mut found)?;
    assert_eq!((found[0], found[1], found[4999]), (0, 7, 4999));
    assert_eq!(heap.body_get(R1, 3999), Ok(0));
    assert_eq!(heap.body_get(R1, 3 * BLOCK_WORDS), Err(Error::Index));
    assert_eq!(heap.body_write(R1, 3 * BLOCK_WORDS - 4999, &words), Err(Error::Index));
    assert_eq!(heap.make_large(R2, 2), Err(Error::Full));
    heap.clear(R1);
    heap.make_large(R2, 2)
}

#[test]
fn what_cannot_be_done_is_told() -> Result<(), Error> {
    let mut heap = Heap::open(&Settings::new(1))?;
    heap.make(R1, 2, 3)?;
    assert_eq!(Heap::open(&Settings::new(0)).err(), Some(Error::Size));
    assert_eq!(Heap::open(&Settings::new(1).body_blocks(u32::MAX)).err(), Some(Error::Size));
    assert_eq!(heap.make(R1, 1024, 0), Err(Error::Size));
    assert_eq!(heap.make_large(R1, 0), Err(Error::Size));
    assert_eq!(heap.load(R1, R15, 0), Err(Error::Nil));
    assert_eq!(heap.load(R1, R1, 2), Err(Error::Index));
    assert_eq!(heap.store(R1, u32::MAX, R0), Err(Error::Index));
    assert_eq!(heap.get(R1, 3), Err(Error::Index));
    assert_eq!(heap.body_get(R1, 0), Err(Error::Index));
    assert_eq!(shape(&heap, R1), Some((2, 3, 0)));
    assert_eq!(Error::Full.to_string(), "the heap is full");
    Ok(())
}

#[test]
fn a_full_heap_has_room_again() -> Result<(), Error> {
    let mut heap = Heap::open(&Settings::new(1))?;
    for _ in 0..125 {
        heap.make(R1, 1, 30)?;
        heap.store(R1, 0, R2)?;
        heap.copy(R2, R1);
    }
    assert_eq!((heap.make(R1, 1, 30), heap.count(Count::Live)), (Err(Error::Full), 125));
    heap.clear(R1);
    heap.clear(R2);
    heap.make(R1, 1023, 1023)?;
    assert_eq!(heap.count(Count::Live), 1);
    Ok(())
}

#[test]
fn pauses_come_after_so_many_objects() -> Result<(), Error> {
    let mut heap = Heap::open(&Settings::new(64))?;
    heap.set_pace(Pace::Bytes(160));
    for _ in 0..101 {
        heap.make(R1, 0, 1)?;
    }
    assert_eq!(heap.count(Count::Pauses), 10);
    heap.pause();
    assert_eq!((heap.count(Count::Pauses), heap.count(Count::Promoted)), (11, 1));
    Ok(())
}

#[test]
fn memory_goes_back_and_comes_again() -> Result<(), Error> {
    let mut heap = Heap::open(&Settings::new(200))?;
    heap.trim();
    heap.make(R1, 0, 2)?;
    heap.put(R1, 1, 7)?;
    for made in 0..20_000 {
        heap.make(R2, 2, 20)?;
        assert_eq!(heap.get(R2, 19)?, 0);
        heap.put(R2, 19, u64::MAX)?;
        if made % 5_000 == 4_999 {
            heap.collect();
            heap.trim();
        }
    }
    assert_eq!(heap.get(R1, 1)?, 7);
    Ok(())
}

#[test]
fn rooms_are_set_and_grow() -> Result<(), Error> {
    let mut heap = Heap::open(&Settings::new(200).room(7))?;
    assert_eq!(heap.count(Count::Room), 7);
    assert_eq!((heap.set_room(201), heap.set_grow(10_001)), (Err(Error::Size), Err(Error::Size)));
    heap.collect();
    assert_eq!(heap.count(Count::Room), 64);
    heap.set_grow(0)?;
    heap.set_room(0)?;
    heap.collect();
    assert_eq!(heap.count(Count::Room), 200);
    assert_eq!(Heap::open(&Settings::new(200).grow(10_001)).err(), Some(Error::Size));
    assert_eq!(Heap::open(&Settings::new(200).work(1_000_001)).err(), Some(Error::Size));
    Ok(())
}

#[test]
fn work_is_done_before_a_pause() -> Result<(), Error> {
    let mut heap = Heap::open(&Settings::new(64).pace(Pace::Never).work(0))?;
    assert_eq!(heap.set_work(1_000_001), Err(Error::Size));
    heap.make(R1, 1, 1)?;
    for number in 1..500 {
        heap.make_with(R2, &[R1], &[number])?;
        heap.copy(R1, R2);
    }
    heap.pause();
    heap.pause();
    heap.clear(R1);
    heap.clear(R2);
    heap.pause();
    assert!(heap.count(Count::Waiting) > 0);
    let mut calls = 1;
    while heap.work(10) {
        calls += 1;
    }
    assert!((50..=51).contains(&calls) && !heap.work(10));
    assert_eq!((heap.count(Count::Waiting), heap.count(Count::Live)), (0, 500));
    heap.pause();
    assert_eq!((heap.count(Count::Dead), heap.count(Count::Live)), (500, 0));
    Ok(())
}

#[test]
fn heaps_are_apart() -> Result<(), Error> {
    let (mut left, right) = (Heap::open(&Settings::new(1))?, Heap::open(&Settings::new(1))?);
    left.make(R1, 0, 1)?;
    left.put(R1, 0, 5)?;
    assert!(right.is_nil(R1));
    drop(right);
    assert_eq!(left.get(R1, 0), Ok(5));
    Ok(())
}
