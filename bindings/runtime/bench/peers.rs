//! The programs of peers.cpp by rayon. `region` enters the pool, as a program's own thread does; what is inside a region is measured on
//! a thread of the pool.
#[path = "../../c/examples/rayon/src/compose.rs"]
mod compose;
use compose::*;
use rayon::prelude::*;
use std::time::Instant;

const GRAIN: u64 = 64;

fn fib_alone(n: u64) -> u64 {
    if n < 2 {
        n
    } else {
        fib_alone(n - 1) + fib_alone(n - 2)
    }
}

fn fib(n: u64) -> u64 {
    if n < 12 {
        return fib_alone(n);
    }
    let (a, b) = rayon::join(|| fib(n - 1), || fib(n - 2));
    a + b
}

/// Keeps the compiler from making several steps of the generator one.
fn keep(seed: &mut u64) {
    // SAFETY: there is no instruction.
    unsafe {
        std::arch::asm!(
            "/* {0} */",
            inout(reg) * seed,
            options(nomem, nostack, preserves_flags)
        )
    }
}

fn tree(mut seed: u64, depth: u32) -> u64 {
    for _ in 0..200 {
        seed = seed
            .wrapping_mul(6364136223846793005)
            .wrapping_add(1442695040888963407);
        keep(&mut seed);
    }
    let children = if depth == 0 { 0 } else { 1 + (seed >> 60) % 3 };
    let child = |k: u64| tree(seed.wrapping_add(k * 977), depth - 1);
    1 + match children {
        0 => 0,
        1 => child(0),
        2 => sum(rayon::join(|| child(0), || child(1))),
        _ => sum(rayon::join(
            || sum(rayon::join(|| child(0), || child(1))),
            || child(2),
        )),
    }
}

fn sum((a, b): (u64, u64)) -> u64 {
    a + b
}

fn compose(all: &[Leaf]) {
    rayon::join(|| loops(all, 0, GRAIN), || loops(all, 1, GRAIN));
}

fn turns(n: usize, f: impl Fn(usize) + Sync + Send) {
    (0..n).into_par_iter().with_max_len(1).for_each(f);
}

fn measure(name: &str, tries: u64, times: u64, mut f: impl FnMut()) {
    let mut each: Vec<f64> = (0..tries)
        .map(|_| {
            let start = Instant::now();
            (0..times).for_each(|_| f());
            start.elapsed().as_nanos() as f64 / times as f64
        })
        .collect();
    each.sort_by(f64::total_cmp);
    let middle = each[each.len() / 2];
    println!(
        "{:<34} {:<7} {:>12.0} {:>12.0} ns",
        name, "rayon", each[0], middle
    );
}

fn main() {
    let tries = word(1, 11);
    let harts = std::env::var("LITHE_HARTS")
        .ok()
        .and_then(|w| w.parse().ok());
    let pool = rayon::ThreadPoolBuilder::new()
        .num_threads(harts.unwrap_or(4))
        .build()
        .expect("a pool");
    let all = leaves();
    pool.install(|| {
        measure("join of two empty calls", tries, 10000, || {
            rayon::join(|| (), || ());
        })
    });
    measure("composition, leaves of 64 steps", tries, 1000, || {
        pool.install(|| compose(&all))
    });
    pool.install(|| {
        measure("composition, inside a region", tries, 1000, || {
            compose(&all)
        })
    });
    assert!(are_right(&all, 2 * tries * 1000, GRAIN), "wrong leaves");
    measure("1,000 small turns", tries, 200, || {
        pool.install(|| turns(1000, |i| leaf(&all, i % all.len(), GRAIN)))
    });
    let (mut f, mut t) = (0, 0);
    measure("fib(32), cut-off 12", tries, 1, || {
        f = pool.install(|| fib(32))
    });
    measure("irregular tree", tries, 1, || {
        t = pool.install(|| tree(7, 14))
    });
    assert!(f == 2178309 && t == 31385, "fib {f}, tree {t}");
}
