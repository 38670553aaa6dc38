//! The transform with the table of depths, timed beside the transform alone on the same trees: how many times its time it takes.
use bench::{constant, depths, leaf, name, record, shapes, transform};
use std::time::{Duration, Instant};

/// The most times.
const MOST: f64 = 3.0;

/// The largest tree.
const LARGEST: usize = 524_288;

/// The most namespaces that an item with a diagnostic can stand in.
const DEEPEST: usize = 30;

fn namespace(items: &[Vec<u8>]) -> Vec<u8> {
    record("Ns", &[], &[record("Op", b"n", &[]), record("Nb", &[], items)])
}

/// So many namespaces, one in the other, with items in each and in the innermost.
fn chain(depth: usize, inner: Vec<Vec<u8>>, each: &[Vec<u8>]) -> Vec<u8> {
    let half = each.len() / 2;
    let around = |items: Vec<Vec<u8>>, _| [&each[..half], &[namespace(&items)], &each[half..]].concat();
    record("Mo", &[], &(0..depth).fold(inner, around))
}

/// Items without diagnostics and with them, each with the namespaces that it stands in: an item of four levels has one level too many for the last.
fn items() -> Vec<(&'static str, usize, Vec<u8>)> {
    let function = record("Fd", &[], &[name("f"), record("Fu", &[], &[leaf("No"), leaf("No"), leaf("No")])]);
    let number = record("Nu", &[0; 8], &[]);
    let array = |element: Vec<u8>| record("Xe", &[], &[record("Ar", &[], &vec![element; 20])]);
    vec![
        ("imports", DEEPEST, leaf("Im")),
        ("functions", DEEPEST, function),
        ("constants of a number", DEEPEST - 1, constant("a", leaf("No"), number)),
        ("untyped constants", DEEPEST - 1, constant("a", leaf("No"), leaf("Oe"))),
        ("constants with a name", DEEPEST - 1, constant("a", leaf("No"), name("b"))),
        ("exported usings", DEEPEST, record("Ed", &[], &[leaf("Us")])),
        ("variables without a name", DEEPEST, record("Vd", &[], &[record("Vr", &[], &[leaf("Pi"), leaf("No")])])),
        ("arrays of untyped elements", DEEPEST, array(leaf("Oe"))),
        ("arrays of names", DEEPEST, array(name("b"))),
    ]
}

/// Modules of nearly the most bytes.
fn modules() -> Vec<(String, Vec<u8>)> {
    let mut found: Vec<_> = shapes(LARGEST, 1).into_iter().map(|(shape, tree)| (shape.to_string(), tree)).collect();
    let room = LARGEST - 100 * DEEPEST;
    for (kind, depth, item) in items() {
        let count = room / item.len();
        let each = vec![item.clone(); count / (depth + 1)];
        found.push((format!("{kind}, in no namespace"), chain(0, vec![item.clone(); count], &[])));
        found.push((format!("{kind} in {depth} namespaces"), chain(depth, vec![item; count], &[])));
        found.push((format!("{kind} in each of {depth} namespaces"), chain(depth, each.clone(), &each)));
    }
    found
}

/// Many short namespaces side by side, at a depth.
fn side_by_side(depth: usize) -> Vec<u8> {
    let one = namespace(&[record("Ed", &[], &[leaf("Us")])]);
    let count = (LARGEST - 100 * DEEPEST) / one.len();
    chain(depth, vec![one; count], &[])
}

/// The shortest of many runs of each call, taken in turns, and the number of diagnostics.
fn times(tree: &[u8]) -> ([f64; 2], u64) {
    let mut out = vec![0; 8 << 20];
    let mut diagnostics = vec![0; 1 << 20];
    let mut best = [Duration::MAX; 2];
    let mut said = 0;
    for _ in 0..60 {
        for (best, call) in best.iter_mut().zip([transform, depths]) {
            let start = Instant::now();
            let (number, answer) = call(tree, &mut out, &mut diagnostics);
            *best = start.elapsed().min(*best);
            assert_eq!(number, 0);
            said = answer[1];
        }
    }
    (best.map(|best| best.as_secs_f64()), said)
}

fn main() {
    let beside = [0, DEEPEST - 1].map(|depth| (format!("namespaces side by side, in {depth} others"), side_by_side(depth)));
    let mut most: f64 = 0.0;
    for (what, tree) in modules().into_iter().chain(beside) {
        let ([alone, counted], said) = times(&tree);
        let times = counted / alone;
        println!("{what}, {} bytes, {said} diagnostics: {times:.2} times the transform's {:.1} ms", tree.len(), 1e3 * alone);
        most = most.max(times);
    }
    println!("at most {most:.2} times");
    if most > MOST {
        println!("too slow: over {MOST} times the transform's time");
        std::process::exit(1);
    }
}
