//! The text of trees, timed: how many times the time twice as much takes, and how many times the time of the transform of the same tree. The second
//! is told and not judged: the transform passes over what it leaves out, and copies whole what it keeps.
use bench::{leaf, name, record, shapes, text, transform};
use std::time::{Duration, Instant};

/// The most times for twice the bytes.
const MOST: f64 = 2.2;

/// The times beside the transform that are wanted.
const WANTED: f64 = 1.5;

/// The largest tree.
const LARGEST: usize = 524_288;

/// The most namespaces around an item, and around a constant, which has three levels more.
const DEEPEST: usize = 31;
const DEEPEST_CONSTANT: usize = 29;

fn op(text: &str) -> Vec<u8> {
    record("Op", text.as_bytes(), &[])
}

fn keyword() -> Vec<u8> {
    record("Kw", b"string", &[])
}

fn default(expression: Vec<u8>) -> Vec<u8> {
    record("Xe", &[], &[expression])
}

fn constant(ty: Vec<u8>) -> Vec<u8> {
    bench::constant("name", ty, leaf("No"))
}

fn function(parameters: usize) -> Vec<u8> {
    let parameter = record("Pa", &[], &[record("Bd", &[], &[name("parameter"), keyword()])]);
    let slots = [leaf("No"), keyword(), op("{ return parameter; }")];
    record("Fu", &[], &[&slots[..], &vec![parameter; parameters]].concat())
}

/// A class of so many bytes.
fn class(bytes: usize) -> Vec<u8> {
    let method = record("Me", &[], &[record("Ki", b"method", &[]), function(1), op("public")]);
    let property = record("Cp", &[], &[record("Ki", b"property", &[]), keyword(), leaf("No")]);
    let pairs = bytes / (method.len() + property.len());
    let members = vec![[method, property]; pairs].concat();
    let class = record("Cl", &[], &[&[leaf("No")][..], &members, &[op("extends Base")]].concat());
    record("Cd", &[], &[name("Class"), class])
}

fn namespace(items: &[Vec<u8>]) -> Vec<u8> {
    record("Ns", &[], &[op("name"), record("Nb", &[], items)])
}

/// So many namespaces, one in the other, with items in the innermost.
fn namespaces(depth: usize, items: Vec<Vec<u8>>) -> Vec<u8> {
    nest(depth - 1, |inner| namespace(&[inner]), namespace(&items))
}

fn nest(levels: usize, around: impl Fn(Vec<u8>) -> Vec<u8>, inner: Vec<u8>) -> Vec<u8> {
    (0..levels).fold(inner, |inner, _| around(inner))
}

/// As many of a record as fit in so many bytes.
fn fill(bytes: usize, one: &[u8]) -> Vec<Vec<u8>> {
    vec![one.to_vec(); bytes / one.len()]
}

/// A module of nearly so many bytes of each kind: many items, one long item, deep ones, long texts, namespaces, opaque parts.
fn kinds(bytes: usize) -> Vec<(&'static str, Vec<u8>)> {
    let room = bytes - 50 * DEEPEST - 60;
    let items = |item: Vec<u8>| record("Mo", &[], &fill(room, &item));
    let wide = |mark: &str, first: &[Vec<u8>], element: Vec<u8>| record(mark, &[], &[first, &fill(room, &element)].concat());
    let alone = |item: Vec<u8>| record("Mo", &[], &[item]);
    let property = record("Kv", &[], &[record("Ki", b"key", &[]), name("value")]);
    let signature = record("Ps", &[], &[name("key"), keyword()]);
    let number = |value: f64| record("Nu", &value.to_le_bytes(), &[]);
    let member = record("Em", &[], &[op("Name"), number(12.0)]);
    let quasi = |text: &[u8]| {
        let mut bytes = record("Qu", text, &[]);
        bytes[2] = 1;
        bytes
    };
    let import = record("Im", &[], &[op("import a from 'b';")]);
    let exported = record("Ed", &[], &[constant(keyword())]);
    let declared = record("Fd", &[], &[name("name"), function(2)]);
    let mixed = [import.clone(), exported.clone(), declared.clone(), class(300), namespace(&[constant(keyword())]), default(name("name"))];
    let mixes = room / mixed.concat().len();
    let escapes = [b'"'; 4000];
    let some_escapes: Vec<u8> = b"some words and a line feed\n".repeat(150);
    vec![
        ("items of many kinds", record("Mo", &[], &vec![mixed; mixes].concat())),
        ("items without tokens", items(leaf("Im"))),
        ("imports", items(import.clone())),
        ("exported constants", items(exported)),
        ("functions", items(declared)),
        ("classes", items(class(1000))),
        ("statements", items(record("St", &[], &[op("statement();")]))),
        ("a long line: an array of names", alone(default(wide("Ar", &[], name("name"))))),
        ("a long line: an array of holes", alone(default(wide("Ar", &[], leaf("No"))))),
        ("a long line: an array of numbers", alone(default(wide("Ar", &[], number(9_007_199_254_740_991.0))))),
        ("a long line: an array of short strings", alone(default(wide("Ar", &[], record("Ss", b"text", &[]))))),
        ("a long line: an object", alone(default(wide("Ob", &[], property)))),
        ("a long line: a type of members", alone(constant(wide("Li", &[], signature)))),
        ("a long line: a class", alone(class(room))),
        ("a long line: an enum", alone(wide("En", &[name("Name")], member))),
        ("a long line: a template of names", alone(default(wide("Te", &[], name("name"))))),
        ("arrays of 60 levels", items(default(nest(60, |inner| record("Ar", &[], &[inner]), leaf("Oe"))))),
        ("templates of 60 levels", items(default(nest(60, |inner| record("Te", &[], &[quasi(b"a"), inner]), leaf("Oe"))))),
        ("types of 60 levels", items(constant(nest(59, |inner| record("Ro", &[], &[inner]), keyword())))),
        ("opaque parts of 60 levels", items(record("Im", &[], &[nest(60, |inner| record("Op", b"op", &[inner]), op("op"))]))),
        ("strings", items(default(record("Ss", &[b'x'; 4000], &[])))),
        ("strings with some escapes", items(default(record("Ss", &some_escapes, &[])))),
        ("strings of escapes", items(default(record("Ss", &escapes, &[])))),
        ("templates of escapes", items(default(record("Te", &[], &[quasi(&escapes)])))),
        ("long names", items(default(name(&"x".repeat(4000))))),
        ("long integers", items(default(record("Bi", &[&[0][..], &[b'7'; 4000]].concat(), &[])))),
        ("namespaces side by side", items(namespace(&[]))),
        ("namespaces with an item", items(namespace(&[import]))),
        ("items without tokens in 31 namespaces", alone(namespaces(DEEPEST, fill(room, &leaf("Im"))))),
        ("constants in 29 namespaces", alone(namespaces(DEEPEST_CONSTANT, fill(room, &constant(keyword()))))),
        ("opaque parts of an item", alone(wide("Im", &[], op("op")))),
        ("opaque parts of many items", items(record("Im", &[], &vec![op("op"); 40]))),
        ("opaque parts without text", alone(wide("Im", &[], op("")))),
    ]
}

/// The time of a call, from so many of them behind one that brings its memory near, and the bytes that it writes.
fn time(calls: u32, mut call: impl FnMut() -> (u32, [u64; 2])) -> (f64, u64) {
    let (number, answer) = call();
    assert_eq!(number, 0);
    let start = Instant::now();
    for _ in 0..calls {
        assert_eq!(call(), (0, answer));
    }
    let took: Duration = start.elapsed() / calls;
    (took.as_secs_f64(), answer[0])
}

/// The bytes of a kind's largest tree and of its text; and the shortest times of the text of a quarter, a half and the whole, and of the transform.
struct Kind {
    what: &'static str,
    bytes: [u64; 2],
    text: [f64; 3],
    transform: f64,
}

/// By the shortest of many runs of each, taken in turns. A run is four calls on a quarter, or two on a half: where the processor's pace changes, the
/// shortest of shorter runs would be less than their share.
fn shortest(trees: impl Fn(usize) -> Vec<(&'static str, Vec<u8>)>) -> Vec<Kind> {
    let (mut out, mut diagnostics) = (vec![0; 8 << 20], vec![0; 1 << 20]);
    let sizes = [LARGEST / 4, LARGEST / 2, LARGEST].map(trees);
    let kind = |(what, tree): &(&'static str, Vec<u8>)| Kind { what, bytes: [tree.len() as u64, 0], text: [f64::MAX; 3], transform: f64::MAX };
    let mut kinds: Vec<_> = sizes[2].iter().map(kind).collect();
    for _ in 0..60 {
        for (place, kind) in kinds.iter_mut().enumerate() {
            for ((best, size), calls) in kind.text.iter_mut().zip(&sizes).zip([4, 2, 1]) {
                let (took, written) = time(calls, || text(&size[place].1, &mut out));
                *best = took.min(*best);
                kind.bytes[1] = written;
            }
            let (took, _) = time(1, || transform(&sizes[2][place].1, &mut out, &mut diagnostics));
            kind.transform = took.min(kind.transform);
        }
    }
    kinds
}

fn main() {
    let mut most: f64 = 0.0;
    let mut beside = vec![];
    for kind in shortest(|bytes| [kinds(bytes), shapes(bytes, 1)].concat()) {
        let Kind { what, bytes: [bytes, written], text: [quarter, half, whole], transform } = kind;
        let [first, second, times] = [half / quarter, whole / half, whole / transform];
        println!("{what}, {bytes} bytes, text of {written}: twice the bytes, {first:.2}, and twice again, {second:.2} times the time;");
        println!("  {:.2} ms, {times:.2} times the transform's {:.2} ms", 1e3 * whole, 1e3 * transform);
        most = most.max(first).max(second);
        beside.push(times);
    }
    beside.sort_by(f64::total_cmp);
    let over = beside.iter().filter(|times| **times > WANTED).count();
    let [least, middle, last] = [0, beside.len() / 2, beside.len() - 1].map(|place| beside[place]);
    println!("{least:.2} to {last:.2} times the transform's time, the middle one {middle:.2}; over {WANTED} times in {over} of {}", beside.len());
    println!("twice the bytes, at most {most:.2} times the time");
    if most > MOST {
        println!("not linear: twice the bytes took over {MOST} times the time");
        std::process::exit(1);
    }
}
