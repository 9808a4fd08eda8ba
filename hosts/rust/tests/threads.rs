//! Heaps that threads share.

use std::sync::{Arc, Mutex};
use std::thread;

use kogyulen::threads::{Count, Kind, Mutator, Operation, Settings, SharedHeap};
use kogyulen::{Error, Pace, Register, R0, R1, R15, R2, R3, R4};

const HOSTS: u32 = 4;
const ROUNDS: u64 = 20_000;
const LISTED: u64 = 100;

/// References of the world.
const LAST: u32 = 0;
const FIRST: u32 = 1;
const COUNTER: u32 = 2;

fn open(blocks: u32, mutators: u32) -> SharedHeap {
    SharedHeap::open(&Settings::new(blocks, mutators)).expect("these are good settings")
}

/// Runs a function in four threads, each told its number, and answers the first error that there is.
fn on_threads(heap: &SharedHeap, work: impl Fn(Mutator, u64) -> Result<(), Error> + Sync) -> Result<(), Error> {
    thread::scope(|scope| {
        let running: Vec<_> = (0..u64::from(HOSTS))
            .map(|number| {
                scope.spawn({
                    let work = &work;
                    move || work(heap.enter()?, number)
                })
            })
            .collect();
        running.into_iter().try_for_each(|one| one.join().expect("a thread panicked"))
    })
}

/// The numbers of the list in R1, which is followed to its end.
fn numbers_from(it: &mut Mutator, mut next: impl FnMut(u64)) -> Result<(), Error> {
    while !it.same(R1, R15)? {
        next(it.get(R1, 0)?);
        it.load(R1, R1, 0)?;
    }
    Ok(())
}

#[test]
fn each_thread_finds_its_list_as_it_was() -> Result<(), Error> {
    let heap = open(8, HOSTS);
    on_threads(&heap, |mut own, number| {
        for n in 0..ROUNDS {
            own.make(R2, 1, 1)?;
            own.put(R2, 0, n * 4 + number)?;
            if n < LISTED {
                own.store(R2, 0, R1)?;
                own.copy(R1, R2)?;
            }
        }
        let mut found = Vec::new();
        numbers_from(&mut own, |n| found.push(n))?;
        assert!(found.into_iter().eq((0..LISTED).rev().map(|n| n * 4 + number)));
        Ok(())
    })?;
    assert!(heap.count(Count::Pauses) > 0);
    Ok(())
}

#[test]
fn a_queue_has_what_each_thread_appended_in_order() -> Result<(), Error> {
    let heap = open(8, HOSTS + 1);
    let mut first = heap.enter()?;
    first.make(R1, 1, 1)?;
    first.store(R0, LAST, R1)?;
    first.store(R0, FIRST, R1)?;
    first.rest(|| {
        on_threads(&heap, |mut own, number| {
            for n in 0..ROUNDS {
                own.make(R1, 1, 1)?;
                if n % LISTED == 0 {
                    own.put(R1, 0, n * 4 + number)?;
                    own.swap(R2, R0, LAST, R1)?;
                    own.store(R2, 0, R1)?;
                }
            }
            Ok(())
        })
    })??;
    let mut next = [0; HOSTS as usize];
    first.load(R1, R0, FIRST)?;
    first.load(R1, R1, 0)?;
    numbers_from(&mut first, |found| {
        let next = &mut next[(found % 4) as usize];
        assert_eq!(found / 4, *next);
        *next += LISTED;
    })?;
    assert_eq!(next, [ROUNDS; HOSTS as usize]);
    Ok(())
}

#[test]
fn no_addition_is_lost() -> Result<(), Error> {
    let heap = open(4, HOSTS);
    let mut first = heap.enter()?;
    first.make(R1, 0, 2)?;
    first.store(R0, COUNTER, R1)?;
    drop(first);
    on_threads(&heap, |mut own, _| {
        own.load(R1, R0, COUNTER)?;
        let mut seen = None;
        for _ in 0..ROUNDS {
            let found = own.add(R1, 0, 1)?;
            assert!(seen < Some(found));
            seen = Some(found);
            own.add(R1, 1, u64::MAX)?;
        }
        Ok(())
    })?;
    let mut last = heap.enter()?;
    last.load(R1, R0, COUNTER)?;
    let all = u64::from(HOSTS) * ROUNDS;
    assert_eq!((last.get(R1, 0)?, last.get(R1, 1)?), (all, 0_u64.wrapping_sub(all)));
    Ok(())
}

#[test]
fn who_rests_holds_up_no_pause() -> Result<(), Error> {
    let heap = open(4, 2);
    let mut kept = heap.enter()?;
    kept.make(R1, 0, 1)?;
    kept.put(R1, 0, 6)?;
    let before = heap.count(Count::Pauses);
    kept.rest(|| -> Result<(), Error> {
        assert_eq!((heap.count(Count::Entered), heap.count(Count::Resting)), (1, 1));
        let mut other = heap.enter()?;
        for n in 0..100 {
            if n % 10 == 0 {
                other.collect()?;
            } else {
                other.pause()?;
            }
        }
        Ok(())
    })??;
    assert!(heap.count(Count::Pauses) >= before + 100 && heap.count(Count::Collecting) >= 10);
    assert_eq!((heap.count(Count::Resting), kept.get(R1, 0)), (0, Ok(6)));
    kept.poll()
}

#[test]
fn plain_pauses_come_by_the_pace() -> Result<(), Error> {
    for (pace, pauses) in [(Pace::Bytes(4096), 10), (Pace::Never, 0), (Pace::Bytes(0), 0), (Pace::Bytes(u64::MAX), 0), (Pace::Room, 0)] {
        let heap = SharedHeap::open(&Settings::new(64, 1).every(1_000_000).pace(pace))?;
        let mut own = heap.enter()?;
        for _ in 0..1280 {
            own.make(R1, 1, 1)?; // 32 bytes
        }
        assert_eq!((heap.count(Count::Pauses), heap.count(Count::Collecting)), (pauses, 0));
    }
    Ok(())
}

#[test]
fn rooms_are_set_and_grow() -> Result<(), Error> {
    let heap = SharedHeap::open(&Settings::new(200, 1).room(7))?;
    assert_eq!(heap.count(Count::Room), 7);
    assert_eq!((heap.set_room(201), heap.set_grow(10_001)), (Err(Error::Size), Err(Error::Size)));
    heap.enter()?.collect()?;
    assert_eq!(heap.count(Count::Room), 64);
    assert!(heap.count(Count::FreeBlocks) >= 198);
    Ok(())
}

#[test]
fn memory_goes_back_while_a_thread_works() -> Result<(), Error> {
    let heap = open(100, 2);
    thread::scope(|scope| {
        let other = scope.spawn(|| -> Result<(), Error> {
            let mut mutator = heap.enter()?;
            mutator.make(R1, 1, 1)?;
            mutator.put(R1, 0, 7)?;
            for _ in 0..3000 {
                mutator.make(R2, 1, 100)?;
                assert_eq!(mutator.get(R2, 99), Ok(0));
                mutator.put(R2, 99, 5)?;
                mutator.store(R2, 0, R1)?;
            }
            assert_eq!(mutator.get(R1, 0), Ok(7));
            Ok(())
        });
        for _ in 0..20 {
            let before = heap.count(Count::Pauses);
            heap.enter()?.trim()?;
            assert!(heap.count(Count::Pauses) > before);
        }
        other.join().expect("the other thread ends")
    })
}

#[test]
fn a_large_heap_lists_as_many_runs_as_the_settings_say() -> Result<(), Error> {
    assert_eq!(Settings::new(1100, 1).runs, 0);
    for (runs, fits) in [(1, false), (63, false), (64, true), (1000, true), (u32::MAX, true)] {
        let heap = SharedHeap::open(&Settings::new(1100, 1).runs(runs));
        assert_eq!(heap.as_ref().err(), if fits { None } else { Some(&Error::Size) });
        let Ok(heap) = heap else { continue };
        heap.enter()?.collect()?;
        assert!(heap.count(Count::FreeBlocks) >= 1098);
    }
    Ok(())
}

#[test]
fn mutators_have_as_many_registers_as_the_settings_say() -> Result<(), Error> {
    assert_eq!(Settings::new(8, 2).registers, 16);
    for many in [16, 17, 64, 256] {
        let heap = SharedHeap::open(&Settings::new(8, 2).registers(many))?;
        let mut mutator = heap.enter()?;
        assert_eq!(mutator.registers().map(Register::number).collect::<Vec<_>>(), (0..many).collect::<Vec<_>>());
        for register in mutator.registers().skip(1) {
            mutator.make_with(register, &[], &[u64::from(register.number())])?;
        }
        mutator.collect()?;
        for register in mutator.registers().skip(1) {
            assert_eq!(mutator.get(register, 0), Ok(u64::from(register.number())));
        }
        if let Some(behind) = Register::new(many) {
            assert_eq!((mutator.make(behind, 0, 0), mutator.get(behind, 0)), (Err(Error::Register), Err(Error::Register)));
            assert_eq!(mutator.apply(&mut [Operation::clear(behind)]).map_err(Error::from), Err(Error::Register));
        }
        for count in [many, many - 1, 12, 1] {
            mutator.registers_in_use(count)?;
            for register in mutator.registers().skip(1) {
                assert_eq!(mutator.get(register, 0).is_ok(), register.number() < count);
            }
        }
        assert_eq!(mutator.registers_in_use(0), Err(Error::Register));
        assert_eq!(mutator.registers_in_use(many + 1), Err(Error::Register));
    }
    for wrong in [1, 15, 257, u32::MAX] {
        assert_eq!(SharedHeap::open(&Settings::new(8, 2).registers(wrong)).err(), Some(Error::Size));
    }
    Ok(())
}

#[test]
fn up_to_an_eighth_of_the_blocks_is_evacuated() -> Result<(), Error> {
    for blocks in [1, 8, 500, 600, 1500] {
        let settings = Settings::new(blocks, 255);
        assert_eq!(settings.evacuate, (blocks / 8).min(64));
        for evacuate in [0, settings.evacuate, blocks / 8] {
            let heap = SharedHeap::open(&settings.clone().evacuate(evacuate))?;
            heap.enter()?.collect()?;
            assert_eq!(heap.count(Count::Collecting), 1);
        }
        assert_eq!(SharedHeap::open(&settings.evacuate(blocks / 8 + 1)).err(), Some(Error::Size));
    }
    Ok(())
}

#[test]
fn each_pause_is_told() -> Result<(), Error> {
    let told = Arc::new(Mutex::new(Vec::new()));
    let heap = SharedHeap::open_watched(&Settings::new(4, 1), {
        let told = Arc::clone(&told);
        move |times| told.lock().unwrap().push(times)
    })?;
    assert_eq!(heap.last_kind(), Kind::Plain);
    let mut own = heap.enter()?;
    for _ in 0..5 {
        own.collect()?;
        assert_eq!(heap.last_kind(), Kind::Collect);
    }
    let told = told.lock().unwrap();
    assert_eq!(told.iter().filter(|times| times.kind == Kind::Collect).count(), 5);
    assert!(told.len() >= 5 && told.last().map(|times| times.number) == Some(heap.count(Count::Pauses)));
    assert!(told.windows(2).all(|two| two[0].number < two[1].number));
    assert!(told.iter().all(|times| !times.pausing.is_zero()));
    Ok(())
}

#[test]
fn a_forgotten_mutator_keeps_its_heap_open() -> Result<(), Error> {
    let heap = open(1, 2);
    std::mem::forget(heap.enter()?);
    assert_eq!(heap.count(Count::Entered), 1);
    Ok(())
}

#[test]
fn a_panic_ends_a_rest() -> Result<(), Error> {
    let heap = open(1, 1);
    let mut own = heap.enter()?;
    let resting = std::panic::AssertUnwindSafe(|| own.rest(|| panic!("as it rests")));
    std::panic::catch_unwind(resting).map(|_| ()).expect_err("it panics");
    assert_eq!(heap.count(Count::Resting), 0);
    own.make(R1, 0, 0)
}

#[test]
fn threads_come_and_go() -> Result<(), Error> {
    let heap = open(4, 2);
    for n in 0..50 {
        let mut one = heap.enter()?;
        one.make(R1, 0, 1)?;
        one.put(R1, 0, n)?;
        one.store(R0, 8, R1)?;
        one.rest(|| {
            let mut two = heap.enter().expect("there is a place");
            assert_eq!(heap.enter().err(), Some(Error::Number));
            thread::scope(|scope| {
                scope.spawn(move || {
                    assert_eq!(two.load(R2, R0, 8), Ok(()));
                    assert_eq!(two.get(R2, 0), Ok(n));
                });
            });
        })?;
    }
    assert_eq!(heap.count(Count::Entered), 0);
    let mut last = heap.enter()?;
    assert_eq!(last.same(R1, R2), Ok(true));
    Ok(())
}

#[test]
fn what_cannot_be_done_is_told() -> Result<(), Error> {
    assert_eq!(SharedHeap::open(&Settings::new(0, 1)).err(), Some(Error::Size));
    assert_eq!(SharedHeap::open(&Settings::new(65_537, 1)).err(), Some(Error::Size));
    assert_eq!(SharedHeap::open(&Settings::new(1, 256)).err(), Some(Error::Size));
    let heap = open(1, 1);
    let mut own = heap.enter()?;
    own.make(R1, 2, 3)?;
    assert_eq!(own.make(R0, 0, 0), Err(Error::Register));
    assert_eq!(own.make(R2, 1024, 0), Err(Error::Size));
    assert_eq!(own.load(R2, R15, 0), Err(Error::Nil));
    assert_eq!(own.store(R1, 2, R0), Err(Error::Index));
    assert_eq!(own.swap(R2, R1, 2, R0), Err(Error::Index));
    assert_eq!(own.swap(R0, R1, 1, R0), Err(Error::Register));
    assert_eq!(own.add(R1, 3, 1), Err(Error::Index));
    assert_eq!(own.add(R2, 0, 1), Err(Error::Nil));
    assert_eq!((own.add(R1, 2, 7), own.add(R1, 2, u64::MAX), own.get(R1, 2)), (Ok(0), Ok(7), Ok(6)));
    own.swap(R2, R1, 1, R1)?;
    own.swap(R3, R1, 1, R2)?;
    own.load(R4, R1, 1)?;
    assert_eq!((own.same(R1, R3), own.same(R2, R4), own.same(R2, R3)), (Ok(true), Ok(true), Ok(false)));
    own.clear(R3)?;
    assert_eq!(own.same(R2, R3), Ok(true));
    Ok(())
}

#[test]
fn several_operations_are_made_one_after_another() -> Result<(), Error> {
    let heap = open(8, HOSTS);
    on_threads(&heap, |mut own, number| {
        for n in 0..ROUNDS {
            own.make_with(R2, &[R1], &[n, number])?;
            if n < LISTED {
                own.copy(R1, R2)?;
            }
        }
        let mut words = [0; 2];
        for n in (0..LISTED).rev() {
            own.get_many(R1, 0, &mut words)?;
            assert_eq!(words, [n, number]);
            own.load_many(R1, 0, &[R1])?;
        }
        assert_eq!(own.get_many(R1, 0, &mut words), Err(Error::Nil));
        Ok(())
    })?;
    let mut own = heap.enter()?;
    own.make_with(R1, &[R0, R15], &[1, 2])?;
    assert_eq!(own.put_many(R1, 1, &[3, 4]), Err(Error::Index));
    own.store_many(R1, 1, &[R1])?;
    assert_eq!(own.load_many(R1, 0, &[R0]), Err(Error::Register));
    assert_eq!(own.make_with(R1, &[R1], &[]), Err(Error::Register));
    let mut operations = [
        Operation::add(R1, 1, 4),
        Operation::swap(R2, R1, 1, R15),
        Operation::same(R1, R2),
        Operation::get(R1, 1),
        Operation::load(R1, R15, 0),
    ];
    let stopped = own.apply(&mut operations).unwrap_err();
    assert_eq!((stopped.done, stopped.error), (4, Error::Nil));
    assert_eq!([0, 2, 3].map(|at: usize| operations[at].told()), [3, 1, 7]);
    let refused = own.apply(&mut [Operation::clear(R1), Operation::clear(R0)]).unwrap_err();
    assert_eq!((refused.done, refused.error, own.get(R1, 0)), (0, Error::Register, Ok(1)));
    Ok(())
}

#[test]
fn a_full_heap_is_full_for_each_and_has_room_again() -> Result<(), Error> {
    let heap = open(2, HOSTS);
    on_threads(&heap, |mut own, _| {
        for _ in 0..3 {
            let mut made = 0;
            let full = loop {
                if let Err(why) = own.make(R2, 1, 30) {
                    break why;
                }
                own.store(R2, 0, R1)?;
                own.copy(R1, R2)?;
                made += 1;
                assert!(made < 1000, "two blocks hold less");
            };
            assert_eq!(full, Error::Full);
            own.clear(R2)?;
            numbers_from(&mut own, |_| made -= 1)?;
            assert_eq!(made, 0);
        }
        Ok(())
    })?;
    let mut last = heap.enter()?;
    last.collect()?;
    last.make(R1, 1000, 1000)
}
