//! The pool, by futures, without a runtime.

mod common;

use common::{Opens, builder, ends_fairly};
use std::future::Future;
use std::pin::{Pin, pin};
use std::sync::Arc;
use std::sync::Mutex;
use std::sync::atomic::{AtomicU32, Ordering::SeqCst};
use std::task::{Context, Poll, Wake, Waker};
use std::thread::{self, Thread};
use std::time::Duration;
use zangipuk::{Error, GetAsync, PooledConnection};

struct Unparks(Thread);

impl Wake for Unparks {
    fn wake(self: Arc<Self>) {
        self.0.unpark();
    }
}

fn block_on<F: Future>(future: F) -> F::Output {
    let mut future = pin!(future);
    let waker = Waker::from(Arc::new(Unparks(thread::current())));
    let mut context = Context::from_waker(&waker);
    loop {
        match future.as_mut().poll(&mut context) {
            Poll::Ready(done) => return done,
            Poll::Pending => thread::park(),
        }
    }
}

#[derive(Default)]
struct Counts(AtomicU32);

impl Wake for Counts {
    fn wake(self: Arc<Self>) {
        self.0.fetch_add(1, SeqCst);
    }
}

// A future that is polled by hand, and how often it was woken.
struct ByHand {
    future: GetAsync<Opens>,
    counts: Arc<Counts>,
}

impl ByHand {
    fn new(future: GetAsync<Opens>) -> Self {
        ByHand {
            future,
            counts: Arc::default(),
        }
    }

    fn poll(&mut self) -> Poll<Result<PooledConnection<Opens>, Error<common::Refused>>> {
        let waker = Waker::from(self.counts.clone());
        Pin::new(&mut self.future).poll(&mut Context::from_waker(&waker))
    }

    fn woken(&self) -> u32 {
        self.counts.0.load(SeqCst)
    }
}

#[test]
fn tasks_share_connections() {
    let opens = Opens::default();
    let pool = builder()
        .max(3)
        .keep_log(true)
        .build(opens.clone())
        .unwrap();
    let work = async |at: u64| {
        for round in 0..500 {
            let mut conn = pool.get_async().await.unwrap();
            conn.have();
            conn.broken = (at * 7 + round) % 97 == 0;
        }
    };
    thread::scope(|scope| {
        for at in 0..8 {
            let work = &work;
            scope.spawn(move || block_on(work(at)));
        }
    });
    ends_fairly(&pool, &opens);
}

#[test]
fn a_future_is_woken_when_its_turn_comes() {
    let pool = builder().max(1).build(Opens::default()).unwrap();
    let held = pool.get().unwrap();
    let mut first = ByHand::new(pool.get_async());
    let mut second = ByHand::new(pool.get_async());
    assert!(first.future.wake_at().is_none());
    assert!(second.poll().is_pending() && first.poll().is_pending());
    assert!(first.future.wake_at().is_some());
    assert_eq!((first.woken(), second.woken()), (0, 0));
    drop(held);
    assert_eq!((first.woken(), second.woken()), (0, 1));
    let Poll::Ready(Ok(conn)) = second.poll() else {
        panic!("it has a turn")
    };
    assert!(first.poll().is_pending());
    drop(conn);
    assert_eq!(first.woken(), 1);
    assert!(matches!(first.poll(), Poll::Ready(Ok(_))));
}

#[test]
fn a_future_that_is_dropped_gives_its_turn_up() {
    let opens = Opens::default();
    let pool = builder()
        .max(1)
        .keep_log(true)
        .build(opens.clone())
        .unwrap();
    let held = pool.get().unwrap();
    let mut tasks: Vec<ByHand> = (0..3).map(|_| ByHand::new(pool.get_async())).collect();
    for task in &mut tasks {
        assert!(task.poll().is_pending());
    }
    drop(tasks.remove(1));
    assert_eq!(pool.stats().tickets, 2);
    drop(held);
    // The first was served, but not polled since: what it has goes on to the other.
    assert_eq!((tasks[0].woken(), tasks[1].woken()), (1, 0));
    drop(tasks.remove(0));
    assert_eq!(tasks[0].woken(), 1);
    assert!(matches!(tasks[0].poll(), Poll::Ready(Ok(_))));
    drop(tasks);
    assert_eq!(opens.open(), 1);
    ends_fairly(&pool, &opens);
}

#[test]
fn a_future_times_out_where_it_is_polled() {
    let pool = builder()
        .max(1)
        .acquire_timeout(Duration::from_millis(20))
        .build(Opens::default())
        .unwrap();
    let _held = pool.get().unwrap();
    let mut task = ByHand::new(pool.get_async());
    assert!(task.poll().is_pending());
    thread::sleep(Duration::from_millis(25));
    assert!(matches!(
        task.poll(),
        Poll::Ready(Err(Error::TimedOut(None)))
    ));
    assert!(matches!(task.poll(), Poll::Ready(Err(Error::Closed))));
    assert_eq!(pool.stats().tickets, 0);
}

#[test]
fn a_refused_connect_is_tried_again_by_a_future() {
    let opens = Opens::default();
    opens.0.refuses.store(true, SeqCst);
    let pool = builder().max(1).build_lazy(opens.clone()).unwrap();
    thread::scope(|scope| {
        let got = scope.spawn(|| block_on(pool.get_async()).map(drop));
        thread::sleep(Duration::from_millis(30));
        opens.0.refuses.store(false, SeqCst);
        assert!(got.join().unwrap().is_ok());
    });
}

#[test]
fn tasks_and_threads_stand_in_one_line() {
    let pool = builder().max(1).build(Opens::default()).unwrap();
    let order = Mutex::new(Vec::new());
    let held = pool.get().unwrap();
    thread::scope(|scope| {
        for at in 0..8 {
            let (pool, order) = (&pool, &order);
            scope.spawn(move || {
                let conn = if at % 2 == 0 {
                    pool.get()
                } else {
                    block_on(pool.get_async())
                };
                order.lock().unwrap().push(at);
                drop(conn);
            });
            while pool.stats().tickets <= at {
                thread::yield_now();
            }
        }
        drop(held);
    });
    assert_eq!(*order.lock().unwrap(), (0..8).collect::<Vec<u64>>());
}
