//! The exported call on wide expressions and on modules that put many questions about names, timed: how many times the time twice as much takes.
use bench::{constant, dotted, leaf, name, record, shapes, transform};
use std::time::{Duration, Instant};

/// An expression around so many of the same element.
fn wide(mark: &str, first: &[Vec<u8>], element: Vec<u8>, count: usize) -> Vec<u8> {
    record(mark, &[], &[first, &vec![element; count]].concat())
}

fn default_export(expression: Vec<u8>) -> Vec<u8> {
    record("Xe", &[], &[expression])
}

/// Expressions without names, and items in a namespace with the longest name, each in a module of one item.
fn kinds(n: usize) -> Vec<(&'static str, Vec<u8>)> {
    let number = record("Nu", &[0; 8], &[]);
    let property = |value: Vec<u8>| record("Kv", &[], &[record("Ki", b"key", &[]), value]);
    let array = record("Ar", &[], &[number.clone()]);
    let default = record("Ag", &[], &[record("Pb", &[], &[leaf("No")]), number.clone()]);
    let freeze = record("Mb", &[], &[record("Id", b"\x01\0\0\0Object", &[]), record("Ki", b"freeze", &[])]);
    let object = wide("Ob", &[], property(number.clone()), n / 2);
    let expressions = vec![
        ("an array of numbers", wide("Ar", &[], number.clone(), n)),
        ("an array of holes", wide("Ar", &[], leaf("No"), n)),
        ("an array of untyped elements", wide("Ar", &[], leaf("Oe"), n)),
        ("an array of spreads", wide("Ar", &[], record("Sp", &[], &[array.clone()]), n / 2)),
        ("an object of numbers", object.clone()),
        ("an object of arrays", wide("Ob", &[], property(array), n / 2)),
        ("an object of untyped values", wide("Ob", &[], property(leaf("Oe")), n / 2)),
        ("an arrow with defaults", wide("Aw", &[leaf("No"), leaf("No")], default, n / 2)),
        ("a frozen object", wide("Ca", &[freeze], object, 1)),
    ];
    let alone = |item: Vec<u8>| record("Mo", &[], &[item]);
    let mut kinds: Vec<_> = expressions.into_iter().map(|(kind, expression)| (kind, alone(default_export(expression)))).collect();
    // Mo, Ns, Nb and the items are four levels.
    kinds.push(("items in a namespace with 60 dots in its name", alone(dotted(60, vec![leaf("Im"); n]))));
    kinds
}

/// Expressions of resolved names, each of which is a question put to the module: by `list` and `Class`, which it declares, and by a name that it
/// does not. Each as a default export, as the init of a const and of an exported one; and each such item before two others, between and behind them.
fn names(n: usize) -> Vec<(String, [Vec<u8>; 3])> {
    let spread = record("Sp", &[], &[name("list")]);
    let class = record("Ne", &[], &[name("Class"), leaf("No")]);
    let shorthand = |symbol| record("Sh", &[], &[name(symbol)]);
    let property = record("Kv", &[], &[record("Ki", b"key", &[]), name("list")]);
    let expressions = [
        ("an array of names", wide("Ar", &[], name("list"), n)),
        ("an array of untyped names", wide("Ar", &[], name("other"), n)),
        ("an array of spread names", wide("Ar", &[], spread, n / 2)),
        ("an array of new objects", wide("Ar", &[], class, n / 2)),
        ("an object of shorthands", wide("Ob", &[], shorthand("list"), n / 2)),
        ("an object of untyped shorthands", wide("Ob", &[], shorthand("other"), n / 2)),
        ("an object of names", wide("Ob", &[], property, n / 2)),
    ];
    let list = constant("list", leaf("Ay"), leaf("No"));
    let class = record("Cd", &[], &[name("Class"), record("Cl", &[], &[leaf("No")])]);
    let mut found = vec![];
    for (kind, expression) in expressions {
        let init = constant("wide", leaf("No"), expression.clone());
        let export = record("Ed", &[], &[init.clone()]);
        for (place, item) in [("as default", default_export(expression)), ("in a const", init), ("in an exported const", export)] {
            let modules = [0, 1, 2].map(|number| {
                let mut items = vec![list.clone(), class.clone()];
                items.insert(number, item.clone());
                record("Mo", &[], &items)
            });
            found.push((format!("{kind}, {place}"), modules));
        }
    }
    found
}

fn time(tree: &[u8], out: &mut [u8], diagnostics: &mut [u8]) -> Duration {
    let start = Instant::now();
    let (number, answer) = transform(tree, out, diagnostics);
    let took = start.elapsed();
    assert_eq!(number, 0);
    assert!(answer[0] > 30);
    took
}

/// By the shortest of many runs of each, taken in turns.
fn times(small: &[u8], large: &[u8]) -> f64 {
    let mut out = vec![0; 8 << 20];
    let mut diagnostics = vec![0; 1 << 20];
    let mut best = [Duration::MAX; 2];
    for _ in 0..100 {
        for (best, tree) in best.iter_mut().zip([small, large]) {
            *best = time(tree, &mut out, &mut diagnostics).min(*best);
        }
    }
    best[1].as_secs_f64() / best[0].as_secs_f64()
}

/// The shapes with a quarter of the largest tree's bytes, with half of them and with all: the shortest of many runs of each, taken in turns. Names
/// that are asked in no order are asked in another one in each run: a processor that meets the same questions again and again learns the answers
/// where they are few, and then the larger tree seems to take longer than it does.
fn shortest() -> Vec<(&'static str, [f64; 3])> {
    let mut out = vec![0; 8 << 20];
    let mut diagnostics = vec![0; 1 << 20];
    let mut best: Vec<_> = shapes(LARGEST / 4, 0).into_iter().map(|(kind, _)| (kind, [f64::MAX; 3])).collect();
    for run in 0..60 {
        for (place, bytes) in [LARGEST / 4, LARGEST / 2, LARGEST].into_iter().enumerate() {
            for ((_, best), (_, tree)) in best.iter_mut().zip(shapes(bytes, run)) {
                best[place] = time(&tree, &mut out, &mut diagnostics).as_secs_f64().min(best[place]);
            }
        }
    }
    best
}

/// The largest tree.
const LARGEST: usize = 524_288;

fn main() {
    let mut linear = true;
    for (small, large) in kinds(7_000).into_iter().zip(kinds(14_000)) {
        let times = times(&small.1, &large.1);
        println!("{}: twice the elements, {times:.2} times the time", small.0);
        linear &= times <= 2.3;
    }
    for (small, large) in names(7_000).into_iter().zip(names(14_000)) {
        let [first, middle, last] = [0, 1, 2].map(|i| times(&small.1[i], &large.1[i]));
        println!("{}, as the first, middle and last item: twice the elements, {first:.2}, {middle:.2}, {last:.2} times the time", small.0);
        linear &= first.max(middle).max(last) <= 2.3;
    }
    for (kind, [quarter, half, whole]) in shortest() {
        let [first, second] = [half / quarter, whole / half];
        println!("{kind}: twice the bytes, {first:.2}, and twice again, {second:.2} times the time");
        linear &= first.max(second) <= 2.3;
    }
    if !linear {
        println!("not linear: twice the elements took over 2.3 times the time");
        std::process::exit(1);
    }
}
