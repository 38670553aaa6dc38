//! The check of a tree, timed: how many times the time twice the bytes take.
use bench::{check, record};
use std::time::{Duration, Instant};

/// A module of items, as many as fit in n bytes.
fn module(item: Vec<u8>, n: usize) -> Vec<u8> {
    let count = (n - record("Mo", &[], &[]).len()) / item.len();
    record("Mo", &[], &vec![item; count])
}

fn nested(levels: usize) -> Vec<u8> {
    (0..levels).fold(record("Oe", &[], &[]), |inner, _| record("Pr", &[], &[inner]))
}

fn kinds(n: usize) -> Vec<(&'static str, Vec<u8>)> {
    let number = record("Nu", &[0; 8], &[]);
    let array = record("Ar", &[], &vec![number; 40]);
    vec![
        ("many items", module(record("Xe", &[], &[record("Ar", &[], &[])]), n)),
        ("many arrays of numbers", module(record("Xe", &[], &[array]), n)),
        ("many deep items", module(record("Xe", &[], &[nested(60)]), n)),
        ("long texts", module(record("Im", &[], &[record("Op", &[b'x'; 4000], &[])]), n)),
        ("long integers", module(record("Xe", &[], &[record("Bi", &[&[0][..], &[b'7'; 4000]].concat(), &[])]), n)),
    ]
}

fn time(tree: &[u8]) -> Duration {
    let start = Instant::now();
    let (number, place) = check(tree, &[]);
    let took = start.elapsed();
    assert_eq!((number, place), (0, tree.len() as u64));
    took
}

/// By the shortest of many runs of each, taken in turns.
fn times(small: &[u8], large: &[u8]) -> f64 {
    let mut best = [Duration::MAX; 2];
    for _ in 0..400 {
        for (best, tree) in best.iter_mut().zip([small, large]) {
            *best = time(tree).min(*best);
        }
    }
    best[1].as_secs_f64() / best[0].as_secs_f64()
}

fn main() {
    let mut linear = true;
    for (small, large) in kinds(262_144).into_iter().zip(kinds(524_288)) {
        let bytes = large.1.len() as f64 / small.1.len() as f64;
        let times = times(&small.1, &large.1);
        println!("{}: {bytes:.2} times the bytes, {times:.2} times the time", small.0);
        linear &= times <= 2.3;
    }
    if !linear {
        println!("not linear: twice the bytes took over 2.3 times the time");
        std::process::exit(1);
    }
}
