use std::collections::BTreeMap;
use std::panic::{self, AssertUnwindSafe};
use std::sync::atomic::{AtomicU32, AtomicU64, Ordering::SeqCst};
use std::sync::{Barrier, Mutex};
use std::thread;
use std::time::{Duration, Instant};
use sto::{Error, Failed, Halt, NoRoom, Policy, Store, WhyOpen};

fn threads(many: usize, code: impl Fn(usize) + Sync) {
    thread::scope(|scope| {
        for number in 0..many {
            let code = &code;
            scope.spawn(move || code(number));
        }
    });
}

struct Random(u64);

impl Random {
    fn below(&mut self, n: u64) -> u64 {
        self.0 ^= self.0 << 13;
        self.0 ^= self.0 >> 7;
        self.0 ^= self.0 << 17;
        (self.0 >> 16) % n
    }
}

#[test]
fn the_store_goes_to_any_thread() {
    fn is<T: Clone + Send + Sync>() {}
    is::<Store>();
}

#[test]
fn transfers_keep_the_sum() {
    for many in [1, 2, 4, 8] {
        let mut objects = Store::builder();
        let moves = objects.counter(0);
        let boxes: Vec<_> = (0..16).map(|_| objects.var(100i64)).collect();
        let store = objects.workers(4).open().unwrap();
        threads(many, |number| {
            let mut random = Random(number as u64 + 1);
            for _ in 0..2000 {
                let (a, b) = (boxes[random.below(16) as usize], boxes[random.below(16) as usize]);
                store
                    .atomically(|tx| {
                        let x = a.get(tx)?;
                        a.set(tx, x - 1)?;
                        b.update(tx, |y| y + 1)?;
                        moves.add(tx, 1)
                    })
                    .unwrap();
            }
            let sum: i64 = store.atomically(|tx| boxes.iter().map(|it| it.get(tx)).sum()).unwrap();
            assert_eq!(sum, 1600);
        });
        let stats = store.stats();
        assert_eq!(stats.commits, many as u64 * 2001);
        assert_eq!(stats.tries, stats.commits + stats.aborts_in_calls + stats.aborts_at_commit);
        let rows = store.try_close().unwrap();
        assert_eq!(boxes.iter().map(|it| rows.var(*it).unwrap()).sum::<i64>(), 1600);
        assert_eq!(rows.counter(moves), Some(many as i64 * 2000));
    }
}

#[test]
fn a_panic_gives_the_worker_back() {
    let mut objects = Store::builder();
    let x = objects.var(5i64);
    let store = objects.workers(1).open().unwrap();
    for _ in 0..100 {
        let caught = panic::catch_unwind(AssertUnwindSafe(|| {
            store.atomically(|tx| {
                x.set(tx, 6)?;
                if true {
                    panic::resume_unwind(Box::new(()));
                }
                Ok(())
            })
        }));
        assert!(caught.is_err());
        assert_eq!(store.atomically(|tx| x.get(tx)), Ok(5));
    }
    assert_eq!(store.try_close().unwrap().var(x), Some(5));
}

#[test]
fn panics_on_threads_lose_no_worker() {
    let transactions = std::env::var("STO_TRANSACTIONS").map_or(4000, |it| it.parse::<u64>().unwrap());
    let mut objects = Store::builder();
    let boxes: Vec<_> = (0..8).map(|_| objects.var(100i64)).collect();
    // (one worker less than threads: one that was lost would be missed)
    let store = objects.workers(3).open().unwrap();
    let (caught, done) = (AtomicU64::new(0), AtomicU64::new(0));
    threads(4, |number| {
        let mut random = Random(number as u64 + 11);
        for _ in 0..transactions / 4 {
            let (a, b, panics) = (random.below(8) as usize, random.below(8) as usize, random.below(4) == 0);
            let ran = panic::catch_unwind(AssertUnwindSafe(|| {
                store.atomically(|tx| {
                    boxes[a].update(tx, |x| x - 1)?;
                    if panics {
                        panic::resume_unwind(Box::new(()));
                    }
                    boxes[b].update(tx, |x| x + 1)
                })
            }));
            if ran.is_ok() { &done } else { &caught }.fetch_add(1, SeqCst);
        }
    });
    let (caught, done, stats) = (caught.into_inner(), done.into_inner(), store.stats());
    println!("{done} transactions, {caught} panics caught");
    assert_eq!((caught + done, stats.commits, stats.given_up), (transactions / 4 * 4, done, caught));
    assert_eq!(stats.tries, stats.commits + stats.aborts_in_calls + stats.aborts_at_commit + stats.given_up);
    let rows = store.try_close().unwrap();
    assert_eq!(boxes.iter().map(|it| rows.var(*it).unwrap()).sum::<i64>(), 800);
}

#[test]
fn the_library_tells_what_it_is() {
    assert!(matches!(sto::build(), sto::Build::Plain | sto::Build::Proved));
    assert_eq!(sto::library_version(), 100);
    assert!(!sto::sources().is_empty());
}

#[cfg(unix)]
#[test]
fn a_store_does_not_go_into_a_forked_process() {
    extern "C" {
        fn fork() -> i32;
        fn waitpid(process: i32, status: *mut i32, options: i32) -> i32;
        fn _exit(status: i32) -> !;
    }
    let mut objects = Store::builder();
    let x = objects.var(1i64);
    let store = objects.open().unwrap();
    let child = unsafe { fork() };
    if child == 0 {
        let is_told = store.atomically(|tx| x.get(tx)) == Err(Error::Forked);
        unsafe { _exit(i32::from(!is_told)) };
    }
    let mut status = 1;
    assert_eq!((unsafe { waitpid(child, &mut status, 0) }, status), (child, 0));
    assert_eq!(store.atomically(|tx| x.get(tx)), Ok(1));
}

#[test]
fn a_swallowed_abort_is_tried_again() {
    let mut objects = Store::builder();
    let (x, y) = (objects.var(0i64), objects.var(0i64));
    let store = objects.workers(2).open().unwrap();
    let mut first = true;
    let mut stopped = false;
    let seen = store
        .atomically(|tx| {
            let a = x.get(tx).unwrap_or(-1);
            if std::mem::take(&mut first) {
                thread::scope(|scope| {
                    let both = || store.atomically(|tx| x.set(tx, 1).and_then(|()| y.set(tx, 1)));
                    scope.spawn(both).join().unwrap().unwrap();
                });
            }
            let b = y.get(tx).unwrap_or(-1);
            stopped |= b == -1;
            let _ = x.set(tx, a + 1);
            Ok((a, b))
        })
        .unwrap();
    assert_eq!(seen, (1, 1));
    assert!(stopped, "the first try was to be stopped");
    let stats = store.stats();
    assert_eq!((stats.commits, stats.aborts_in_calls + stats.aborts_at_commit), (2, 1));
}

#[test]
fn wrong_use_is_told() {
    let x = Store::builder().var(1u8);
    let mut objects = Store::builder();
    let y = objects.var(1u8);
    assert!(matches!(Store::builder().workers(0).open(), Err(Error::Shape(_))));
    let few = objects.table_of::<u32, i64>(1, 2);
    let top = objects.counter(i64::MAX);
    let row = objects.array(3, 0i64);
    let store = objects.open().unwrap();
    assert!(matches!(store.atomically(|tx| x.get(tx)), Err(Error::OtherStore(_))));
    assert_eq!(store.atomically(|_| Ok(store.atomically(|tx| y.get(tx)))), Ok(Err(Error::Nested)));
    let full = store.atomically(|tx| (0..3).try_for_each(|key| few.put(tx, key, 0)));
    assert!(matches!(full, Err(Error::Full(_))));
    assert_eq!(store.atomically(|tx| few.len(tx)), Ok(0));
    let kept = store.atomically(|tx| (0..3).map(|key| few.try_put(tx, key, 0)).collect::<Result<Vec<_>, _>>());
    assert_eq!(kept, Ok(vec![Ok(()), Ok(()), Err(NoRoom)]));
    assert!(matches!(store.atomically(|tx| top.add(tx, 1)), Err(Error::Range(_))));
    assert!(matches!(store.atomically(|tx| row.set(tx, 3, 1)), Err(Error::NoPlace(_, 3))));
    assert_eq!(store.atomically(|tx| tx.cancel::<()>()), Err(Error::Cancelled));
    let gave = store.try_atomically(|tx| {
        y.set(tx, 9)?;
        Err::<(), _>(Halt::because("no"))
    });
    assert_eq!(gave, Err(Failed::Gave("no")));
    assert_eq!(store.atomically(|tx| y.get(tx)), Ok(1));
    let error = Store::builder().workers(0).open().unwrap_err();
    assert!(std::error::Error::source(&error).is_some());
}

#[test]
fn a_clone_keeps_the_store_open() {
    let mut objects = Store::builder();
    let x = objects.var('a');
    let store = objects.open().unwrap();
    let clone = store.clone();
    let not = store.try_close().unwrap_err();
    assert_eq!(not.why, WhyOpen::Shared);
    drop(clone);
    let store = not.store.unwrap();
    store.atomically(|tx| x.set(tx, 'b')).unwrap();
    assert_eq!(store.try_close().unwrap().var(x), Some('b'));
}

#[test]
fn waiting_ends_by_a_change_or_in_time() {
    let mut objects = Store::builder();
    let queue = objects.vector::<i64>(4);
    let done = objects.counter(0);
    let store = objects.workers(2).open().unwrap();
    // more that wait than there are workers
    let taken = Mutex::new(Vec::new());
    threads(8, |number| {
        for i in 0..200 {
            if number < 4 {
                let value = number as i64 * 1000 + i;
                store
                    .atomically(|tx| match queue.try_push(tx, value)? {
                        Ok(()) => Ok(()),
                        Err(NoRoom) => tx.retry(),
                    })
                    .unwrap();
            } else {
                let value = store.atomically(|tx| match queue.pop(tx)? {
                    Some(value) => done.add(tx, 1).map(|()| value),
                    None => tx.retry(),
                });
                taken.lock().unwrap().push(value.unwrap());
            }
        }
    });
    let mut taken = taken.into_inner().unwrap();
    taken.sort();
    let all: Vec<i64> = (0..4).flat_map(|number| (0..200).map(move |i| number * 1000 + i)).collect();
    assert_eq!(taken, all);
    let began = Instant::now();
    let soon = Policy::tries(4).then_alone().timeout(Duration::from_millis(30));
    let ended = store.with(soon).atomically(|tx| match queue.pop(tx)? {
        Some(_) => Ok(()),
        None => tx.retry(),
    });
    assert!(matches!(ended, Err(Error::Timeout { .. })));
    assert!(began.elapsed() >= Duration::from_millis(30));
    assert!(store.try_close().is_ok());
}

#[test]
fn a_long_one_gets_through_alone() {
    let mut objects = Store::builder();
    let boxes: Vec<_> = (0..16).map(|_| objects.var(0i64)).collect();
    let store = objects.workers(4).open().unwrap();
    let stop = AtomicU32::new(0);
    let gate = Barrier::new(4);
    threads(4, |number| {
        gate.wait();
        if number == 0 {
            for _ in 0..20 {
                let audit = |tx: &mut sto::Tx<'_>| {
                    let mut sum = 0;
                    for it in &boxes {
                        sum += it.get(tx)?;
                        thread::yield_now();
                    }
                    Ok(sum)
                };
                assert_eq!(store.with(Policy::tries(3).then_alone()).atomically(audit), Ok(0));
            }
            stop.store(1, SeqCst);
        } else {
            let mut random = Random(number as u64 + 7);
            while stop.load(SeqCst) == 0 {
                let (a, b) = (boxes[random.below(16) as usize], boxes[random.below(16) as usize]);
                store.atomically(|tx| a.update(tx, |x| x - 1).and_then(|_| b.update(tx, |y| y + 1))).unwrap();
            }
        }
    });
    println!("{:?}", store.stats());
}

/// Each commit's place, calls and answers: replayed in the order of the places over a plain map they are the same.
#[test]
fn commits_replay_in_the_order_of_their_places() {
    for seed in 1..=20u64 {
        for many in [1, 2, 4] {
            let mut objects = Store::builder();
            let map = objects.table::<u64, i64>(64);
            let tree = objects.tree::<i32, u64>(64);
            let store = objects.open().unwrap();
            let log = Mutex::new(Vec::new());
            threads(many, |number| {
                let mut random = Random(seed * 97 + number as u64);
                for _ in 0..60 {
                    let calls: Vec<(u64, u64, i64)> = (0..1 + random.below(4))
                        .map(|_| (random.below(6), random.below(12) * 64, random.below(100) as i64))
                        .collect();
                    let run = store.placed(|tx| {
                        let mut told = Vec::new();
                        for &(operation, key, value) in &calls {
                            told.push(match operation {
                                0 => map.get(tx, key)?.map_or(-1, |it| it),
                                1 => map.put(tx, key, value).map(|()| 0)?,
                                2 => map.remove(tx, key)?.into(),
                                3 => tree.get(tx, key as i32 - 300)?.map_or(-1, |it| it as i64),
                                4 => tree.put(tx, key as i32 - 300, value as u64).map(|()| 0)?,
                                _ => tree.range(tx, -300..key as i32 - 300)?.iter().map(|it| it.0 as i64 + it.1 as i64).sum(),
                            });
                        }
                        Ok(told)
                    });
                    let (told, place) = run.unwrap();
                    // (a remove that finds nothing writes nothing: alone it has the place of a reader)
                    let wrote = calls.iter().zip(&told).any(|(call, &told)| [1, 4].contains(&call.0) || call.0 == 2 && told == 1);
                    log.lock().unwrap().push((place, !wrote, calls, told));
                }
            });
            let mut log = log.into_inner().unwrap();
            log.sort_by_key(|it| (it.0, it.1));
            let (mut in_map, mut in_tree) = (BTreeMap::new(), BTreeMap::new());
            for (place, _, calls, told) in &log {
                let again: Vec<i64> = calls
                    .iter()
                    .map(|&(operation, key, value)| match operation {
                        0 => in_map.get(&key).copied().unwrap_or(-1),
                        1 => in_map.insert(key, value).map_or(0, |_| 0),
                        2 => in_map.remove(&key).is_some().into(),
                        3 => in_tree.get(&(key as i64 - 300)).copied().unwrap_or(-1),
                        4 => in_tree.insert(key as i64 - 300, value).map_or(0, |_| 0),
                        _ => in_tree.range(-300..(key as i64 - 300).max(-300)).map(|(k, v)| k + v).sum(),
                    })
                    .collect();
                assert_eq!(&again, told, "seed {seed}, {many} threads, place {place}");
            }
            let rows = store.try_close().unwrap();
            assert_eq!(rows.table(map).collect::<BTreeMap<_, _>>(), in_map);
            assert_eq!(rows.tree(tree).map(|(k, v)| (k as i64, v as i64)).collect::<BTreeMap<_, _>>(), in_tree);
        }
    }
}

#[test]
fn keys_in_steps_fit() {
    let mut objects = Store::builder();
    let map = objects.table::<u64, u64>(10_000);
    let store = objects.open().unwrap();
    for key in 0..10_000u64 {
        store.atomically(|tx| map.put(tx, key * 64, u64::MAX - key)).unwrap();
    }
    assert_eq!(store.atomically(|tx| map.get(tx, 64)), Ok(Some(u64::MAX - 1)));
}
