//! Fails if closures run in order. A file of its own, since the other tests' threads may hold all harts.
use lithe::{for_each_range, join, scope};
use std::sync::atomic::{AtomicUsize, Ordering::SeqCst};
use std::thread;
use std::time::{Duration, Instant};

/// Waits until `n` closures have begun.
fn meet(here: &AtomicUsize, n: usize) {
    let start = Instant::now();
    here.fetch_add(1, SeqCst);
    while here.load(SeqCst) < n {
        assert!(
            start.elapsed() < Duration::from_secs(20),
            "they run in order"
        );
        thread::sleep(Duration::from_micros(50));
    }
}

#[test]
fn closures_run_at_the_same_time() {
    if lithe::harts() < 2 {
        println!("skipped: one hart");
        return;
    }
    let here = AtomicUsize::new(0);
    join(|| meet(&here, 2), || meet(&here, 2));
    let here = AtomicUsize::new(0);
    for_each_range(0..2, 1, |_| meet(&here, 2));
    let here = AtomicUsize::new(0);
    scope(|s| {
        s.spawn(|_| meet(&here, 2));
        s.spawn(|_| meet(&here, 2));
    });
}
