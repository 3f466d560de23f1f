//! The composition's parts by rayon: `join` in place of fork-join, a parallel iterator in place of the loop.
use rayon::prelude::*;
use std::sync::atomic::{AtomicU64, Ordering::Relaxed};

const OUTER: usize = 2;
const MIDDLE: usize = 4;
const INNER: usize = 4;

#[repr(align(64))]
pub struct Leaf(pub AtomicU64);

pub fn leaves() -> Vec<Leaf> {
    (0..OUTER * MIDDLE * INNER)
        .map(|_| Leaf(AtomicU64::new(0)))
        .collect()
}

pub fn leaf(all: &[Leaf], index: usize, grain: u64) {
    let mut x = all[index].0.load(Relaxed);
    for _ in 0..grain {
        x = x
            .wrapping_mul(6364136223846793005)
            .wrapping_add(1442695040888963407);
        x ^= x >> 29;
    }
    all[index].0.store(x, Relaxed);
}

fn tasks(all: &[Leaf], from: usize, grain: u64) {
    rayon::join(
        || rayon::join(|| leaf(all, from, grain), || leaf(all, from + 1, grain)),
        || rayon::join(|| leaf(all, from + 2, grain), || leaf(all, from + 3, grain)),
    );
}

pub fn loops(all: &[Leaf], p: usize, grain: u64) {
    (0..MIDDLE)
        .into_par_iter()
        .with_max_len(1)
        .for_each(|q| tasks(all, (p * MIDDLE + q) * INNER, grain));
}

/// Whether the leaves have what `rounds` rounds without threads come to.
pub fn are_right(all: &[Leaf], rounds: u64, grain: u64) -> bool {
    let alone = leaves();
    for _ in 0..rounds {
        (0..alone.len()).for_each(|i| leaf(&alone, i, grain));
    }
    let same = |(a, b): (&Leaf, &Leaf)| a.0.load(Relaxed) == b.0.load(Relaxed);
    all.iter().zip(&alone).all(same)
}

/// The number that is the command line's word `at`.
pub fn word(at: usize, default: u64) -> u64 {
    std::env::args()
        .nth(at)
        .and_then(|w| w.parse().ok())
        .unwrap_or(default)
}
