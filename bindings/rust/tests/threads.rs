//! The pool, by threads: what the proved rules promise, seen from outside.

mod common;

use common::{Opens, Refused, builder, ends_fairly};
use std::collections::HashSet;
use std::panic::{AssertUnwindSafe, catch_unwind};
use std::sync::Mutex;
use std::sync::atomic::Ordering::SeqCst;
use std::thread;
use std::time::{Duration, Instant};
use zangipuk::{Error, Mark};

#[test]
fn sixteen_threads_share_three_connections() {
    for test in [true, false] {
        let opens = Opens::default();
        opens.0.rolls_back.store(true, SeqCst);
        let pool = builder()
            .max(3)
            .test_before_acquire(test)
            .keep_log(true)
            .build(opens.clone())
            .unwrap();
        thread::scope(|scope| {
            for at in 0..16 {
                let pool = &pool;
                scope.spawn(move || {
                    for round in 0..1_000 {
                        let mut conn = pool.get().unwrap();
                        conn.have();
                        assert!(!conn.in_transaction);
                        conn.broken = (at * 7 + round) % 97 == 0;
                        conn.in_transaction = (at + round) % 11 == 0;
                    }
                });
            }
        });
        ends_fairly(&pool, &opens);
        let log = pool.log().unwrap();
        let lent = |mark: &&Mark| matches!(mark, Mark::Lent { .. });
        assert_eq!(log.iter().filter(lent).count(), 16_000);
    }
}

#[test]
fn turns_come_in_the_order_of_asking() {
    for test in [true, false] {
        let pool = builder()
            .max(1)
            .test_before_acquire(test)
            .build(Opens::default())
            .unwrap();
        let order = Mutex::new(Vec::new());
        let held = pool.get().unwrap();
        thread::scope(|scope| {
            for at in 0..16 {
                let (pool, order) = (&pool, &order);
                scope.spawn(move || {
                    let conn = pool.get().unwrap();
                    order.lock().unwrap().push(at);
                    drop(conn);
                });
                while pool.stats().tickets <= at {
                    thread::yield_now();
                }
            }
            drop(held);
        });
        assert_eq!(*order.lock().unwrap(), (0..16).collect::<Vec<u64>>());
    }
}

#[test]
fn a_wait_ends_by_its_time() {
    let pool = builder()
        .max(1)
        .acquire_timeout(Duration::from_millis(60))
        .build(Opens::default())
        .unwrap();
    let held = pool.get().unwrap();
    let began = Instant::now();
    assert_eq!(pool.get().err(), Some(Error::TimedOut(None)));
    assert!(began.elapsed() >= Duration::from_millis(60));
    assert!(pool.try_get().is_none());
    drop(held);
    assert!(pool.get().is_ok());
    assert!(pool.try_get().is_some());
    assert_eq!(pool.stats().tickets, 0);
}

#[test]
fn a_refused_connect_is_tried_again_until_the_time_is_up() {
    let opens = Opens::default();
    opens.0.refuses.store(true, SeqCst);
    let pool = builder()
        .max(1)
        .acquire_timeout(Duration::from_millis(80))
        .build(opens.clone())
        .unwrap();
    assert_eq!(pool.get().err(), Some(Error::TimedOut(Some(Refused))));
    opens.0.refuses_for_good.store(true, SeqCst);
    assert_eq!(pool.get().err(), Some(Error::Refused(Refused)));
    assert_eq!(
        builder().max(2).min(1).build(opens.clone()).err(),
        Some(Error::Refused(Refused))
    );
    opens.0.refuses.store(false, SeqCst);
    assert!(pool.get().is_ok());
}

#[test]
fn a_failed_test_leads_to_a_new_connection() {
    let opens = Opens::default();
    let pool = builder().max(1).build(opens.clone()).unwrap();
    let first = pool.get().unwrap().number;
    opens.0.fails_test.store(true, SeqCst);
    assert_ne!(pool.get().unwrap().number, first);
    assert_eq!((opens.open(), opens.most()), (1, 1));
}

#[test]
fn an_open_transaction_never_reaches_the_next_user() {
    let opens = Opens::default();
    let pool = builder().max(1).build(opens.clone()).unwrap();
    let first = pool.get().unwrap().number;
    let begin = || {
        let mut conn = pool.get().unwrap();
        assert!(!conn.in_transaction);
        conn.in_transaction = true;
        conn.number
    };
    opens.0.rolls_back.store(true, SeqCst);
    assert_eq!((begin(), begin()), (first, first));
    opens.0.rolls_back.store(false, SeqCst);
    assert_eq!(begin(), first);
    assert_eq!(opens.open(), 0);
    assert_ne!(begin(), first);
    assert_eq!(opens.most(), 1);
}

#[test]
fn a_panic_costs_no_place() {
    let opens = Opens::default();
    let pool = builder()
        .max(1)
        .keep_log(true)
        .build(opens.clone())
        .unwrap();
    let panics = |so| opens.0.panics.store(so, SeqCst);
    panics(true);
    assert!(catch_unwind(AssertUnwindSafe(|| pool.get().map(drop))).is_err());
    panics(false);
    drop(pool.get().unwrap());
    panics(true);
    assert!(catch_unwind(AssertUnwindSafe(|| pool.get().map(drop))).is_err());
    panics(false);
    let held = pool.get().unwrap();
    panics(true);
    assert!(catch_unwind(AssertUnwindSafe(move || drop(held))).is_err());
    panics(false);
    assert_eq!(opens.open(), 0);
    let held = pool.get().unwrap();
    let of_a_user = catch_unwind(AssertUnwindSafe(move || {
        let _held = held;
        panic!("a user's");
    }));
    assert!(of_a_user.is_err());
    assert_eq!(opens.open(), 0);
    drop(pool.get().unwrap());
    ends_fairly(&pool, &opens);
}

#[test]
fn a_closed_pool_closes_what_it_has() {
    let opens = Opens::default();
    let pool = builder().max(4).min(3).build(opens.clone()).unwrap();
    assert_eq!(pool.stats().idle, 3);
    let held: Vec<_> = (0..4).map(|_| pool.get().unwrap()).collect();
    let theirs = pool.clone();
    let waiter = thread::spawn(move || theirs.get().err());
    while pool.stats().tickets == 0 {
        thread::yield_now();
    }
    pool.close();
    assert_eq!(waiter.join().unwrap(), Some(Error::Closed));
    assert!(!pool.is_closed());
    drop(held);
    assert!(pool.is_closed());
    assert_eq!(opens.open(), 0);
    assert_eq!(pool.get().err(), Some(Error::Closed));
    assert!(pool.try_get().is_none());
}

#[test]
fn old_connections_are_reaped_and_the_minimum_is_kept() {
    let opens = Opens::default();
    let limit = Some(Duration::from_millis(20));
    let pool = builder()
        .max(3)
        .min(2)
        .idle_timeout(limit)
        .build(opens.clone())
        .unwrap();
    let before: HashSet<u64> = (0..2).map(|_| pool.get().unwrap().number).collect();
    thread::sleep(Duration::from_millis(40));
    assert_eq!(pool.reap(), 2);
    assert_eq!(pool.stats().idle, 2);
    assert!(!before.contains(&pool.get().unwrap().number));
    ends_fairly(&pool, &opens);
}

#[test]
fn a_thread_keeps_the_pool_up() {
    let opens = Opens::default();
    let limit = Some(Duration::from_millis(5));
    let pool = builder()
        .max(3)
        .min(2)
        .idle_timeout(limit)
        .upkeep(Duration::from_millis(2))
        .build(opens.clone())
        .unwrap();
    let until = Instant::now() + Duration::from_secs(10);
    while opens.0.made.load(SeqCst) < 10 && Instant::now() < until {
        thread::sleep(Duration::from_millis(1));
    }
    assert!(opens.0.made.load(SeqCst) >= 10);
    assert!(opens.most() <= 3);
    drop(pool);
    let until = Instant::now() + Duration::from_secs(10);
    while opens.open() > 0 && Instant::now() < until {
        thread::sleep(Duration::from_millis(1));
    }
    assert_eq!(opens.open(), 0);
}

// A connection is closed before its place is free, by a reap too: with closes that take their time, and many that open.
#[test]
fn never_more_are_open_than_the_maximum() {
    let opens = Opens::default();
    opens.0.fails.store(2, SeqCst);
    let pool = builder()
        .max(3)
        .min(3)
        .idle_timeout(Some(Duration::ZERO))
        .max_lifetime(Some(Duration::from_micros(300)))
        .keep_log(true)
        .build_lazy(opens.clone())
        .unwrap();
    let until = Instant::now() + Duration::from_millis(700);
    thread::scope(|scope| {
        for at in 0..8 {
            let pool = &pool;
            scope.spawn(move || {
                while Instant::now() < until {
                    match at {
                        0 | 1 => drop(pool.reap()),
                        2 => pool.get().unwrap().close(),
                        _ => pool.get().unwrap().have(),
                    }
                }
            });
        }
    });
    assert!(opens.most() > 1);
    ends_fairly(&pool, &opens);
}

#[test]
fn connections_leave_by_detach_and_leak() {
    let opens = Opens::default();
    let pool = builder()
        .max(2)
        .acquire_timeout(Duration::from_millis(20))
        .build(opens.clone())
        .unwrap();
    let detached = pool.get().unwrap().detach();
    assert_eq!(pool.stats().size, 0);
    let leaked = pool.get().unwrap().leak();
    assert_eq!((pool.stats().size, pool.stats().leaked), (1, 1));
    let held = pool.get().unwrap();
    assert_eq!(pool.get().err(), Some(Error::TimedOut(None)));
    drop((detached, leaked, held));
    assert_eq!(opens.open(), 1);
}

#[test]
fn hooks_look_at_connections_on_their_way() {
    let opens = Opens::default();
    let pool = builder()
        .max(1)
        .test_before_acquire(false)
        .acquire_timeout(Duration::from_millis(50))
        .after_connect(|conn| {
            if conn.number == 0 {
                Err(Refused)
            } else {
                Ok(())
            }
        })
        .before_acquire(|conn, meta| {
            assert!(meta.age >= meta.idle_for);
            Ok(conn.number != 1)
        })
        .after_release(|conn, meta| {
            assert!(meta.idle_for.is_zero());
            if conn.number == 2 {
                Err(Refused)
            } else {
                Ok(true)
            }
        })
        .keep_log(true)
        .build(opens.clone())
        .unwrap();
    let numbers: Vec<u64> = (0..4).map(|_| pool.get().unwrap().number).collect();
    // The first was refused by the first hook, the second by the second when it was lent again, the third by the third.
    assert_eq!(numbers, [1, 2, 3, 3]);
    ends_fairly(&pool, &opens);
}

// Connects, tests and returns that fail at random, in threads; as long as `ZANGIPUK_SECONDS` says.
#[test]
fn a_manager_that_fails_at_random() {
    let seconds = std::env::var("ZANGIPUK_SECONDS")
        .ok()
        .and_then(|text| text.parse().ok());
    let seconds: u64 = seconds.unwrap_or(2);
    let until = Instant::now() + Duration::from_secs(seconds);
    let mut loans = 0;
    while Instant::now() < until {
        loans += a_round_of_failures(until);
    }
    println!("{loans} loans");
    assert!(loans > 100);
}

fn a_round_of_failures(until: Instant) -> u64 {
    let opens = Opens::default();
    opens.0.fails.store(7, SeqCst);
    opens.0.rolls_back.store(true, SeqCst);
    let pool = builder()
        .max(5)
        .min(1)
        .keep_log(true)
        .build_lazy(opens.clone())
        .unwrap();
    let until = until.min(Instant::now() + Duration::from_secs(2));
    let works = |at: u64| {
        let mut loans = 0;
        while Instant::now() < until {
            let Ok(mut conn) = pool.get() else { continue };
            conn.have();
            loans += 1;
            conn.broken = opens.0.chance();
            conn.in_transaction = opens.0.chance();
            if at == 0 {
                pool.reap();
            }
        }
        loans
    };
    let loans = thread::scope(|scope| {
        let works = &works;
        let threads: Vec<_> = (0..16).map(|at| scope.spawn(move || works(at))).collect();
        threads
            .into_iter()
            .map(|thread| thread.join().unwrap())
            .sum()
    });
    ends_fairly(&pool, &opens);
    loans
}
