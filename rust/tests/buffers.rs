//! Outputs and diagnostics that don't fit the first buffers.
mod support;

use support::{Node, default, leaf, module, name, node};
use vatnext_dts::{Declarations, LONGEST_TREE, Record, transform, transform_into};

/// As many of these items as a module of the longest length holds.
fn longest(item: Node) -> Vec<u8> {
    let count = (LONGEST_TREE - 15) / item.bytes().len();
    module(vec![item; count])
}

/// How many times as long as the tree its output is; the output is a whole record.
fn growth(tree: &[u8]) -> (f64, Declarations) {
    let made = transform(tree, &[], 1).expect("accepted");
    let bytes = made.as_bytes();
    assert_eq!(Record::parse(bytes).map(Record::as_bytes), Ok(bytes));
    (bytes.len() as f64 / tree.len() as f64, made)
}

#[test]
fn elements_that_become_longer() {
    for (mark, least) in [("Bl", 3.4), ("Ar", 3.9), ("Re", 5.6)] {
        let (times, made) = growth(&module([default(node("Ar", vec![leaf(mark); 2000]))]));
        assert!(least < times && times < least + 0.2, "{mark}: {times}");
        let constant = made.root().children().next().unwrap();
        let pattern = constant.children().next().unwrap().children().next().unwrap();
        let tuple = pattern.children().nth(1).unwrap().children().next().unwrap();
        assert_eq!((tuple.mark(), tuple.children().len()), (*b"Tu", 2000));
    }
}

/// The longest outputs that are known, each of a tree of nearly the longest length.
#[test]
fn the_longest_outputs() {
    let (times, made) = growth(&longest(default(leaf("Re"))));
    assert!(6.2 < times && times < 6.3, "{times}");
    assert_eq!(made.root().children().len(), 2 * 17_475);

    let text = "s".repeat(5000);
    let object = default(node("Ob", vec![node("Sh", [name(2, &text)]); 10]));
    let declared = node("Fd", [name(2, &text), node("Fu", vec![leaf("No"); 3])]);
    let (times, _) = growth(&module([declared, object]));
    assert!(1.8 < times && times < 2.0, "{times}");
}

/// More diagnostics than the first buffer holds, with and without a longer output.
#[test]
fn many_diagnostics() {
    let made = growth(&longest(node("Ed", [leaf("Us").at(1, 2)]))).1;
    assert_eq!(made.as_bytes().len(), 15);
    assert_eq!(made.diagnostics().len(), 2 * 17_475);
    assert!(made.diagnostics().all(|d| matches!((d.code.digit(), d.start, d.end), (b'5', 1, 2) | (b'1', 0, 0))));

    let items = (0..4000).map(|i| leaf("Oe").at(i, i + 1));
    let (times, made) = growth(&module([default(node("Ar", items))]));
    assert!(3.1 < times, "{times}");
    let starts: Vec<_> = made.diagnostics().map(|d| d.start).collect();
    assert_eq!(starts, (0..4000).collect::<Vec<_>>());
}

/// What fits exactly is written, and one byte less is too little.
#[test]
fn exact_buffers() {
    let tree = module([default(node("Ar", vec![leaf("Oe"); 30]))]);
    let made = transform(&tree, &[], 1).unwrap();
    let length = made.as_bytes().len();
    let (mut out, mut diagnostics) = (vec![0; length], vec![0; 300]);
    assert_eq!(transform_into(&tree, &[], 1, &mut out, &mut diagnostics), Ok((length, 30)));
    assert_eq!(out, made.as_bytes());
    assert!(transform_into(&tree, &[], 1, &mut out[1..], &mut diagnostics).is_err());
    assert!(transform_into(&tree, &[], 1, &mut out, &mut diagnostics[1..]).is_err());
}

/// A call from threads with stacks of their own, many at a time.
#[test]
fn calls_at_the_same_time() {
    let tree = longest(default(leaf("Ar")));
    let expected = transform(&tree, &[], 1).unwrap();
    std::thread::scope(|scope| {
        for _ in 0..4 {
            scope.spawn(|| assert_eq!(transform(&tree, &[], 1).as_ref(), Ok(&expected)));
        }
    });
}

/// 64 levels behind many imports, in a thread with a small stack.
#[test]
fn a_small_stack() {
    let deep = (0..61).fold(leaf("Oe"), |inner, _| node("Ar", [inner]));
    let tree = module(std::iter::repeat_n(leaf("Im"), 33_000).chain([default(deep)]));
    let call = move || transform(&tree, &[], 1).map(|made| made.diagnostics().len());
    let thread = std::thread::Builder::new().stack_size(512 << 10).spawn(call).unwrap();
    assert_eq!(thread.join().unwrap(), Ok(1));
}
