//! How much stack the exported calls take on trees of 64 levels: each is tried in a thread whose stack gets smaller, in a process of its own.
use bench::{depths, dotted, leaf, name, record, text, transform};
use std::process::{Command, ExitCode, Stdio};

/// The levels that a tree may have.
const DEEPEST: usize = 64;

/// A stack in which every call ends, in KiB: what README promises.
const ENOUGH: usize = 512;

/// Modules of 64 levels, each with imports before the deep item, so that the table of names is the largest.
fn deep() -> Vec<(&'static str, Vec<u8>)> {
    let no = || leaf("No");
    let nest = |levels: usize, around: &dyn Fn(Vec<u8>) -> Vec<u8>, inner: Vec<u8>| (0..levels).fold(inner, |inner, _| around(inner));
    let array = |inner| record("Ar", &[], &[inner]);
    let object = |inner| record("Ob", &[], &[record("Kv", &[], &[record("Ki", b"key", &[]), inner])]);
    let function = |inner| {
        let default = record("Ag", &[], &[record("Bd", &[], &[name("a"), no()]), inner]);
        record("Aw", &[], &[no(), no(), default])
    };
    let frozen = |inner| {
        let freeze = record("Mb", &[], &[record("Id", b"\x01\0\0\0Object", &[]), record("Ki", b"freeze", &[])]);
        record("Ca", &[], &[freeze, inner])
    };
    let template = |inner| record("Te", &[], &[inner]);
    let ops = |inner| record("Op", b"op", &[inner]);
    let namespace = |inner| record("Ns", &[], &[record("Op", b"n", &[]), record("Nb", &[], &[inner])]);
    let default = |expression| record("Xe", &[], &[expression]);
    // Mo, Xe and the innermost record are three levels.
    let items = vec![
        ("arrays", default(nest(DEEPEST - 3, &array, leaf("Oe")))),
        ("objects", default(nest((DEEPEST - 3) / 2, &object, leaf("Oe")))),
        ("arrows with defaults", default(nest((DEEPEST - 4) / 2, &function, leaf("Oe")))),
        ("frozen objects", default(nest(DEEPEST - 4, &frozen, leaf("Ob")))),
        ("templates", default(nest(DEEPEST - 3, &template, leaf("Oe")))),
        ("opaque parts", record("Im", &[], &[nest(DEEPEST - 3, &ops, leaf("Op"))])),
        ("namespaces", nest((DEEPEST - 2) / 2, &namespace, leaf("Im"))),
        ("a namespace with a dotted name", dotted(DEEPEST - 4, vec![leaf("Im")])),
        ("namespaces around an array", nest((DEEPEST - 4) / 2, &namespace, default(array(leaf("Oe"))))),
    ];
    let module = |item: Vec<u8>| {
        let imports = (500_000 - item.len()) / leaf("Im").len();
        let mut items = vec![leaf("Im"); imports];
        items.push(item);
        record("Mo", &[], &items)
    };
    items.into_iter().map(|(kind, item)| (kind, module(item))).collect()
}

/// A tree and two buffers.
type Call = fn(&[u8], &mut [u8], &mut [u8]) -> (u32, [u64; 2]);

/// The calls, by their numbers.
const CALLS: [(&str, Call); 3] = [("transform", transform), ("depths", depths), ("text", |tree, out, _| text(tree, out))];

/// A call in a thread with so many KiB of stack; the process ends with a signal where they are too few.
fn try_one(call: usize, kind: usize, kib: usize) {
    let (_, tree) = deep().swap_remove(kind);
    let (mut out, mut diagnostics) = (vec![0; 2 << 20], vec![0; 1 << 20]);
    let call = move || CALLS[call].1(&tree, &mut out, &mut diagnostics).0;
    let number = std::thread::Builder::new().stack_size(kib << 10).spawn(call).expect("a thread").join().expect("an answer");
    assert_eq!(number, 0, "the tree is accepted");
}

fn ends(call: usize, kind: usize, kib: usize) -> bool {
    let program = std::env::current_exe().expect("this program");
    let words = [call, kind, kib].map(|word| word.to_string());
    Command::new(program).args(words).stderr(Stdio::null()).status().expect("a process").success()
}

fn main() -> ExitCode {
    let words: Vec<usize> = std::env::args().skip(1).filter_map(|word| word.parse().ok()).collect();
    if let [call, kind, kib] = words[..] {
        try_one(call, kind, kib);
        return ExitCode::SUCCESS;
    }
    let mut most = 0;
    for (call, (name, _)) in CALLS.iter().enumerate() {
        for (kind, (what, tree)) in deep().iter().enumerate() {
            if !ends(call, kind, ENOUGH) {
                println!("{name}, {what}: more than {ENOUGH} KiB of stack");
                return ExitCode::FAILURE;
            }
            let (mut low, mut high) = (0, ENOUGH);
            while 4 < high - low {
                let middle = (low + high) / 2;
                if ends(call, kind, middle) { high = middle } else { low = middle }
            }
            println!("{name}, {what}, {DEEPEST} levels, {} bytes: {high} KiB of stack are enough, {low} are not", tree.len());
            most = most.max(high);
        }
    }
    println!("{most} KiB for every call");
    ExitCode::SUCCESS
}
