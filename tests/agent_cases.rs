//! The cases of the agent for Rust.
//!
//!     agent_cases NAME
//!
//! Most cases run two threads. The first one acquires two locks in one order, later the second one in the other order. Steps, which the
//! agent does not see, make the events of a case the same in every run. The comment at a case has the trace that the agent must write.
//! tests/agents_rust compares it, and knows the number of cycles and of confirmed ones.

use goodlock::sync::atomic::{AtomicU32, Ordering};
use goodlock::sync::{Condvar, Mutex, MutexGuard, RwLock, TryLockError};
use goodlock::thread;
use std::time::Duration;

static A: Mutex<u32> = Mutex::new(0);
static B: Mutex<u32> = Mutex::new(0);
static GUARD: Mutex<bool> = Mutex::new(false);
static CONDITION: Condvar = Condvar::new();
static GATE: RwLock<u32> = RwLock::new(0);
static STEP: AtomicU32 = AtomicU32::new(0);

fn until(number: u32) {
    while STEP.load(Ordering::SeqCst) < number {
        thread::yield_now();
    }
}

fn next() {
    STEP.fetch_add(1, Ordering::SeqCst);
}

fn any<'a>(lock: &'a Mutex<u32>) -> MutexGuard<'a, u32> {
    lock.lock().unwrap_or_else(|poisoned| poisoned.into_inner())
}

fn both(first: &Mutex<u32>, second: &Mutex<u32>) {
    let mut one = any(first);
    let mut two = any(second);
    *one += 1;
    *two += 1;
}

/// The second thread begins when the first one has called `next`.
fn run_two(first: fn(), second: fn()) {
    static CAN_BEGIN: AtomicU32 = AtomicU32::new(0);
    let begins = |run: fn(), number| {
        move || {
            while CAN_BEGIN.load(Ordering::SeqCst) == 0 {
                thread::yield_now();
            }
            until(number);
            run();
        }
    };
    let one = thread::spawn(begins(first, 0));
    let two = thread::spawn(begins(second, 1));
    CAN_BEGIN.store(1, Ordering::SeqCst);
    two.join().unwrap();
    let _ = one.join();
}

fn a_then_b() {
    both(&A, &B);
    next();
}

fn b_then_a() {
    both(&B, &A);
}

// blocking: 0f1 0f2 1a1 1a2 1r2 1r1 2a2 2a1 2r1 2r2 0j2 0j1
fn blocking() {
    run_two(a_then_b, b_then_a);
}

// gate_lock: 0f1 0f2 1a1 1a2 1a3 1r3 1r2 1r1 2a1 2a3 2a2 2r2 2r3 2r1 0j2 0j1
fn gate_lock() {
    run_two(
        || {
            let gate = GUARD.lock().unwrap();
            both(&A, &B);
            drop(gate);
            next();
        },
        || {
            let _gate = GUARD.lock().unwrap();
            both(&B, &A);
        },
    );
}

// tried: 0f1 0f2 1a1 1a2 1r2 1r1 2a2 2a3000000002 2a1 2r3000000002 2r1 2r2 2a1 2r1 0j2 0j1
fn tried() {
    run_two(a_then_b, || {
        let held = B.lock().unwrap();
        drop(A.try_lock().unwrap());
        drop(held);
        let _held = A.try_lock().unwrap();
        assert!(matches!(A.try_lock(), Err(TryLockError::WouldBlock)));
    });
}

// The trace is without the orders of the C library's own initialisations.
// poisoned: 0f1 0f2 1a1 1a2 1r2 1r1 2a2 2a3000000002 2a1 2r3000000002 2r1 2r2 2a2 2a1 2r1 2r2 0j2 0j1
fn poisoned() {
    struct Next;
    impl Drop for Next {
        fn drop(&mut self) {
            next();
        }
    }
    std::panic::set_hook(Box::new(|_| ()));
    run_two(
        || {
            let _next = Next;
            let _one = A.lock().unwrap();
            let _two = B.lock().unwrap();
            panic!("the locks are poisoned");
        },
        || {
            let held = B.lock().unwrap_err().into_inner();
            let Err(TryLockError::Poisoned(tried)) = A.try_lock() else { panic!("not poisoned") };
            drop(tried);
            drop(held);
            assert!(A.is_poisoned());
            A.clear_poison();
            both(&B, &A);
        },
    );
}

// woken: 0f1 0f2 1a1 1a2 1r2 1r1 2a3 2r3 1a3 1d1 1w1 1r3 2d1 2a3 2r3 2a2 2a1 2r1 2r2 0j2 0j1
fn woken() {
    run_two(
        || {
            both(&A, &B);
            next();
            until(2);
            let mut is_ready = GUARD.lock().unwrap();
            *is_ready = true;
            CONDITION.notify_one();
        },
        || {
            let is_ready = GUARD.lock().unwrap();
            next();
            drop(CONDITION.wait_while(is_ready, |is_ready| !*is_ready).unwrap());
            both(&B, &A);
        },
    );
}

// times_out: 0a1 0r1 0a1 0r1 0a1 0r1 0a1 0r1
fn times_out() {
    let short = Duration::from_millis(20);
    let (is_ready, ending) = CONDITION.wait_timeout(GUARD.lock().unwrap(), short).unwrap();
    assert!(ending.timed_out());
    drop(is_ready);
    let (is_ready, ending) = CONDITION.wait_timeout_while(GUARD.lock().unwrap(), short, |is_ready| !*is_ready).unwrap();
    assert!(ending.timed_out());
    let (_is_ready, ending) = CONDITION.wait_timeout_while(is_ready, short, |is_ready| *is_ready).unwrap();
    assert!(!ending.timed_out());
}

fn writes_first() {
    let gate = GATE.write().unwrap();
    both(&A, &B);
    drop(gate);
    next();
}

fn writes_second() {
    let _gate = GATE.write().unwrap();
    both(&B, &A);
}

// writers: 0f1 0f2 1a1 1a2 1a3 1a4 1a5 1r5 1r4 1w1 1r2 1r3 1r1 2a1 2a3 2a2 2a5 2a4 2r4 2r5 2w1 2r2 2r3 2r1 0j2 0j1
fn writers() {
    run_two(writes_first, writes_second);
}

// reader_then_writer: 0f1 0f2 1a2 1a3 1a4 1r4 1r3 1r2 2a1 2a5 2a6 2a2 2a4 2a3 2r3 2r4 2w1 2r5 2r6 2r2 2r1 0j2 0j1
fn reader_then_writer() {
    run_two(
        || {
            let gate = GATE.read().unwrap();
            both(&A, &B);
            drop(gate);
            next();
        },
        writes_second,
    );
}

// writer_then_reader: 0f1 0f2 1a1 1a2 1a3 1a4 1a5 1r5 1r4 1w1 1r2 1r3 1r1 2a3 2a5 2a4 2r4 2r5 2r3 0j2 0j1
fn writer_then_reader() {
    run_two(writes_first, || {
        let _gate = GATE.try_read().unwrap();
        assert!(GATE.try_write().is_err());
        both(&B, &A);
    });
}

// scoped: 0f1 1a1 1a2 1r2 1r1 1d1 1w1 0d1 0a2 0a1 0r1 0r2 0f2 2a1 2r1 2d2 2w2 0j2 0d2
fn scoped() {
    thread::scope(|scope| {
        scope.spawn(|| both(&A, &B));
    });
    both(&B, &A);
    let sum = thread::scope(|scope| scope.spawn(|| *A.lock().unwrap()).join().unwrap());
    assert_eq!(sum, 2);
}

// reused: 0f1 1a1 1a2 1r2 1r1 0j1 0f2 2a3 2a1 2r1 2r3 0j2
fn reused() {
    for round in 0..2 {
        let local = goodlock::sync::Arc::new(Mutex::new(0));
        let run = move || if round == 0 { both(&A, &local) } else { both(&local, &A) };
        thread::spawn(run).join().unwrap();
    }
}

// moved: 0a1 0r1 0a1 0r1
fn moved() {
    let local = Mutex::new(1);
    drop(local.lock());
    let mut boxed: Box<Mutex<u32>> = Box::new(local);
    *boxed.get_mut().unwrap() += 1;
    assert_eq!(*boxed.lock().unwrap(), 2);
    assert_eq!(boxed.into_inner().unwrap(), 2);
}

// deadlocks: a deadlock that happens. SIGALRM ends the program.
fn deadlocks() {
    extern "C" {
        fn alarm(seconds: u32) -> u32;
    }
    // SAFETY: alarm() has no precondition.
    unsafe { alarm(4) };
    run_two(
        || {
            let _held = A.lock().unwrap();
            next();
            until(2);
            drop(B.lock());
        },
        || {
            let _held = B.lock().unwrap();
            next();
            drop(A.lock());
        },
    );
}

const CASES: [(&str, fn()); 14] = [
    ("blocking", blocking),
    ("gate_lock", gate_lock),
    ("tried", tried),
    ("poisoned", poisoned),
    ("woken", woken),
    ("times_out", times_out),
    ("writers", writers),
    ("reader_then_writer", reader_then_writer),
    ("writer_then_reader", writer_then_reader),
    ("scoped", scoped),
    ("reused", reused),
    ("moved", moved),
    ("deadlocks", deadlocks),
    ("nothing", || ()),
];

fn main() {
    let name = std::env::args().nth(1).unwrap_or_default();
    let case = CASES.iter().find(|(known, _)| *known == name).expect("there is no such case");
    case.1();
}
