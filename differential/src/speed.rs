//! The proved call against the Rust's transform alone, and against it with decoding and encoding, on generated modules and on the largest
//! trees of the shapes that put many questions about names; and how its time grows.
use std::hint::black_box;
use std::time::Duration;
use std::time::Instant;

use bench::shapes;
use bench::unlisted;
use oracle::call;
use oracle::decode;
use oracle::encode;
use oracle::generate::Rng;
use oracle::generate::tree;
use oracle::grammar::check;
use oracle::record::Rec;

/// The largest tree.
const LARGEST: usize = 524_288;

/// The unresolved context of the modules.
const UNRESOLVED: u32 = 1;

/// An accepted module of at least so many bytes, of the items of many random ones.
fn module(bytes: usize) -> Rec {
    let mut rng = Rng::new(bytes as u64);
    let mut module = oracle::notation::parse("Mo").expect("a module");
    let mut length = 0;
    while length < bytes {
        let (more, unresolved) = tree(&mut rng, 60);
        let alone = more.encode().expect("a small tree");
        if unresolved == UNRESOLVED && check(&alone, &[]).is_ok() {
            length += alone.len();
            // Ops may stand at the end alone.
            module.kids.extend(more.kids.into_iter().filter(|item| item.mark() != "Op"));
        }
    }
    assert!(check(&module.encode().expect("a tree"), &[]).is_ok(), "the module is accepted");
    module
}

/// The least time of several runs, each of as many calls as take some milliseconds; what a call needs is made outside the time.
fn time<T>(mut make: impl FnMut() -> T, mut run: impl FnMut(T)) -> Duration {
    let mut once = |times: usize| {
        let given: Vec<T> = (0..times).map(|_| make()).collect();
        let start = Instant::now();
        for value in given {
            run(value);
        }
        start.elapsed() / times as u32
    };
    let first = once(1).max(Duration::from_nanos(100));
    let times = (Duration::from_millis(20).as_nanos() / first.as_nanos()).clamp(1, 2000) as usize;
    (0..15).map(|_| once(times)).min().expect("a run")
}

/// The proved call's time on a module, and its ratio to that of the Rust's transform alone and to that with decoding and encoding.
fn beside(bytes: &[u8], list: &[u8]) -> (Duration, f64, f64) {
    let (tree, _) = Rec::read(bytes, 0).expect("a tree");
    let (swc, _) = decode::module(&tree);
    let mut out = vec![0; 8 * bytes.len()];
    let mut diagnostics = vec![0; bytes.len()];
    let ours = time(
        || (),
        |()| {
            black_box(crate::proved(bytes, list, UNRESOLVED, &mut out, &mut diagnostics));
        },
    );
    let alone = time(
        || swc.clone(),
        |swc| {
            black_box(call::run(swc, list, UNRESOLVED));
        },
    );
    let whole = time(
        || (),
        |()| {
            let (tree, _) = Rec::read(bytes, 0).expect("a tree");
            let (swc, notes) = decode::module(&tree);
            let (swc, found) = call::run(swc, list, UNRESOLVED);
            black_box((encode::module(&swc, &notes).encode(), found));
        },
    );
    let ratio = |other: Duration| ours.as_secs_f64() / other.as_secs_f64();
    (ours, ratio(alone), ratio(whole))
}

fn line(bytes: usize, (ours, alone, whole): (Duration, f64, f64), what: &str) {
    println!("{bytes:<9} {:>8.1} us   {alone:>6.2} of its time   {whole:>6.2} of its time            {what}", ours.as_secs_f64() * 1e6);
}

/// Generated modules, with the growth of the time, and the largest tree of each shape.
pub fn print() {
    println!("bytes     proved call   transform alone   with decoding and encoding   what");
    let mut before: Option<(usize, Duration)> = None;
    for size in [2_000, 20_000, 200_000] {
        let bytes = module(size).encode().expect("a tree");
        let found = beside(&bytes, &[]);
        let growth = match before {
            None => "".to_string(),
            Some((length, time)) => {
                format!(": {:.1} times the time for {:.1} times the bytes", found.0.as_secs_f64() / time.as_secs_f64(), bytes.len() as f64 / length as f64)
            }
        };
        line(bytes.len(), found, &format!("a generated module{growth}"));
        before = Some((bytes.len(), found.0));
    }
    for (shape, bytes) in shapes(LARGEST, 1) {
        line(bytes.len(), beside(&bytes, &[]), shape);
    }
    let (bytes, list) = unlisted(LARGEST);
    line(bytes.len(), beside(&bytes, &list), "functions beside a full overload list");
}
