//! Rust's rayon on the shapes of docs/PERFORMANCE.md: a `join` or a `for_each` inside the pool is a site. The argument is the number of
//! threads.
use rayon::prelude::*;
use std::hint::black_box;
use std::sync::atomic::{AtomicI64, Ordering::Relaxed};
use std::time::Instant;

const SITES: usize = 4095;
const REGIONS: usize = 256;
const PIECES: usize = 64;

/// The shortest time of 20 calls, in nanoseconds.
fn best<F: FnMut()>(mut call: F) -> f64 {
    let times = (0..20).map(|_| {
        let began = Instant::now();
        call();
        began.elapsed().as_nanos() as f64
    });
    times.fold(f64::MAX, f64::min)
}

fn each(count: usize, call: impl Fn(usize) + Sync + Send) {
    (0..count).into_par_iter().with_max_len(1).for_each(call);
}

fn main() {
    let threads = std::env::args().nth(1).and_then(|word| word.parse().ok()).unwrap_or(1);
    rayon::ThreadPoolBuilder::new().num_threads(threads).build_global().expect("one pool");
    let cells: Vec<AtomicI64> = (0..4096).map(|_| AtomicI64::new(0)).collect();
    let cells = &cells;
    let step = |cell: &AtomicI64, turn: i64| {
        cell.store(black_box(cell.load(Relaxed)).wrapping_mul(3).wrapping_add(turn), Relaxed)
    };
    let heavy = |piece: usize| (0..1800).for_each(|turn| step(&cells[piece * 64], turn));
    let light = |piece: usize| (0..64).for_each(|turn| step(&cells[(piece * 64 + turn) & 4095], turn as i64));

    let site = best(|| {
        rayon::scope(|_| {
            for _ in 0..SITES {
                rayon::join(|| cells[0].store(1, Relaxed), || cells[1].store(2, Relaxed));
            }
        })
    });
    let piece = best(|| {
        rayon::scope(|_| (0..REGIONS).for_each(|_| each(PIECES, |number| cells[number * 64].store(number as i64, Relaxed))))
    });
    let wide = best(|| each(PIECES, heavy)) / best(|| (0..PIECES).for_each(heavy));
    let nested = best(|| {
        rayon::scope(|_| {
            (0..6).for_each(|_| each(2, |half| each(4, |member| each(4, |branch| light((half * 4 + member) * 4 + branch)))))
        })
    }) - best(|| (0..6).for_each(|_| (0..32).for_each(light)));
    println!("rayon, a site of two pieces: {:.0}", site / SITES as f64);
    println!("rayon, a piece of 64: {:.0}", piece / (REGIONS * PIECES) as f64);
    println!("rayon, a wide site: {wide:.2}");
    println!("rayon, a nested site: {:.0}", nested / 66.0);
}
