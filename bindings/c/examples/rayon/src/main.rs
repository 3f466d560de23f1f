//! The composition by rayon: `join` in place of fork-join, a parallel iterator in place of the loop.
mod compose;
use compose::*;
use std::time::Instant;

fn threads_now() -> String {
    let status = std::fs::read_to_string("/proc/self/status").unwrap_or_default();
    let line = status.lines().find(|l| l.starts_with("Threads:"));
    line.and_then(|l| l.split_whitespace().nth(1))
        .unwrap_or("?")
        .to_string()
}

fn main() {
    let (harts, grain, rounds, tries) = (word(1, 4), word(2, 64), word(3, 200), word(4, 20));
    // The thread of `install` waits, so the pool has all the threads that work.
    let pool = rayon::ThreadPoolBuilder::new()
        .num_threads(harts as usize)
        .build()
        .unwrap();
    let mut best = f64::MAX;
    for _ in 0..tries {
        let all = leaves();
        pool.install(|| {
            let start = Instant::now();
            for _ in 0..rounds {
                rayon::join(|| loops(&all, 0, grain), || loops(&all, 1, grain));
            }
            best = best.min(start.elapsed().as_nanos() as f64 / rounds as f64);
        });
        assert!(are_right(&all, rounds, grain), "wrong leaves");
    }
    println!(
        "{:<28} {:>10.2} us a round   {:>3} threads",
        "rayon",
        best / 1000.0,
        threads_now()
    );
}
