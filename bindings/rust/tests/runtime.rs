//! The runtime from Rust: results, borrows, panics, nesting, outside threads.
use lithe::{for_each, for_each_range, join, reduce, scope, ParallelSlice, ParallelSliceMut};
use std::panic::{catch_unwind, AssertUnwindSafe};
use std::sync::atomic::{AtomicUsize, Ordering::SeqCst};
use std::thread;

fn fib(n: u64) -> u64 {
    if n < 2 {
        return n;
    }
    let (a, b) = join(|| fib(n - 1), || fib(n - 2));
    a + b
}

fn message(f: impl FnOnce()) -> String {
    let payload = catch_unwind(AssertUnwindSafe(f)).expect_err("a panic");
    payload.downcast_ref::<&str>().expect("a text").to_string()
}

#[test]
fn joins_return_both_results() {
    assert_eq!(fib(16), 987);
    let mut left = vec![1, 2];
    let (_, text) = join(|| left.push(3), || String::from("b"));
    assert_eq!((left, text.as_str()), (vec![1, 2, 3], "b"));
}

#[test]
fn loops_visit_each_index_once() {
    let hits: Vec<AtomicUsize> = (0..5000).map(|_| AtomicUsize::new(0)).collect();
    for_each(0..5000, |i| {
        hits[i].fetch_add(1, SeqCst);
    });
    for_each_range(1000..2000, 7, |part| {
        assert!(part.len() <= 7);
        part.for_each(|i| {
            hits[i].fetch_add(1, SeqCst);
        });
    });
    for_each(7..7, |_| panic!("no index"));
    for (i, hit) in hits.iter().enumerate() {
        let expected = if (1000..2000).contains(&i) { 2 } else { 1 };
        assert_eq!(hit.load(SeqCst), expected);
    }
}

#[test]
fn chunks_cover_the_slice() {
    let mut cells = vec![0usize; 1003];
    cells.par_chunks_mut(10).enumerate_for_each(|k, chunk| {
        assert_eq!(chunk.len(), if k == 100 { 3 } else { 10 });
        chunk.fill(k);
    });
    assert!(cells.iter().enumerate().all(|(i, c)| *c == i / 10));
    cells.par_for_each_mut(|c| *c = 2);
    let sum = AtomicUsize::new(0);
    cells.par_chunks(100).for_each(|chunk| {
        sum.fetch_add(chunk.iter().sum(), SeqCst);
    });
    cells.par_for_each(|c| {
        sum.fetch_add(*c, SeqCst);
    });
    assert_eq!(sum.load(SeqCst), 4 * 1003);
}

#[test]
fn reductions_keep_the_order() {
    let text = reduce(
        0..26,
        2,
        &|part| part.map(|i| (b'a' + i as u8) as char).collect::<String>(),
        &|a, b| a + &b,
    );
    assert_eq!(text, "abcdefghijklmnopqrstuvwxyz");
    assert_eq!(
        reduce(0..10000, 0, &|part| part.sum::<usize>(), &|a, b| a + b),
        49995000
    );
}

#[test]
fn scopes_run_what_is_spawned() {
    let sum = AtomicUsize::new(0);
    let words = [String::from("one"), String::from("three")];
    let result = scope(|s| {
        for word in &words {
            let sum = &sum;
            s.spawn(move |_| {
                sum.fetch_add(word.len(), SeqCst);
            });
        }
        for _ in 0..500 {
            s.spawn(|s| {
                s.spawn(|_| {
                    sum.fetch_add(1, SeqCst);
                });
            });
        }
        join(
            || s.spawn(|_| assert_eq!(fib(5), 5)),
            || s.spawn(|_| assert_eq!(fib(6), 8)),
        );
        "ended"
    });
    assert_eq!((result, sum.load(SeqCst)), ("ended", 508));
}

#[test]
fn panics_reach_the_caller() {
    let other = AtomicUsize::new(0);
    let count = || {
        other.fetch_add(1, SeqCst);
    };
    assert_eq!(
        message(|| {
            join(|| panic!("a"), count);
        }),
        "a"
    );
    assert_eq!(
        message(|| {
            join(count, || panic!("b"));
        }),
        "b"
    );
    assert_eq!(other.load(SeqCst), 2);
    let at_77 = |i| {
        if i == 77 {
            panic!("loop");
        }
    };
    assert_eq!(message(|| for_each(0..1000, at_77)), "loop");
    assert_eq!(
        message(|| scope(|s| s.spawn(|s| s.spawn(|_| panic!("scope"))))),
        "scope"
    );
    assert_eq!(message(|| scope(|_| panic!("body"))), "body");
    let deep = |i| {
        join(|| (), || at_77(i + 70));
    };
    assert_eq!(
        message(|| {
            join(|| fib(5), || for_each(0..8, deep));
        }),
        "loop"
    );
    assert_eq!(fib(10), 55);
    assert_eq!(lithe::current_hart(), None);
}

#[test]
fn outside_threads_share_the_harts() {
    thread::scope(|threads| {
        for _ in 0..12 {
            threads.spawn(|| {
                for _ in 0..20 {
                    assert_eq!(fib(12), 144);
                    let sum = reduce(0..100, 3, &|part| part.sum::<usize>(), &|a, b| a + b);
                    assert_eq!(sum, 4950);
                }
            });
        }
    });
}
