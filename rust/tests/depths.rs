//! How many of each diagnostic, and how deep.
mod support;

use support::{Node, default, leaf, module, name, node};
use vatnext_dts::{Code, Declarations, Depths, Refusal, depths, depths_into, transform};

/// The shortest items with a d1, d2, d3, d4, and a d5 and a d1.
fn kinds() -> [Node; 5] {
    [
        node("Vd", [node("Vr", [leaf("Pi"), leaf("No")])]),
        node("Vd", [node("Vr", [node("Bd", [name(2, "a"), leaf("No")]), leaf("No")])]),
        default(node("Ob", [leaf("Pq")])),
        default(node("Ar", [node("Sp", [leaf("Oe")])])),
        node("Ed", [leaf("Us")]),
    ]
}

fn namespace(items: impl IntoIterator<Item = Node>) -> Node {
    node("Ns", [leaf("Op").text("n"), node("Nb", items)])
}

/// The same declarations as without the table, whose sums are the numbers of diagnostics of each code.
fn counted(tree: &[u8]) -> (Declarations, Depths) {
    let (made, table) = depths(tree, &[], 1).expect("accepted");
    assert_eq!(transform(tree, &[], 1).as_ref(), Ok(&made));
    assert_eq!(table.total(), made.diagnostics().len());
    for (digit, row) in (b'1'..).zip(table.rows()) {
        let said = made.diagnostics().filter(|d| d.code.digit() == digit);
        assert_eq!(row.iter().sum::<u32>() as usize, said.count());
    }
    (made, table)
}

fn cells(tree: &[u8]) -> Vec<(u8, usize, u32)> {
    counted(tree).1.iter().map(|(code, depth, count)| (code.digit(), depth, count)).collect()
}

#[test]
fn nothing_to_be_told() {
    assert_eq!(cells(&module([])), []);
    assert_eq!(cells(&module([namespace([leaf("Im")])])), []);
}

#[test]
fn each_kind_in_so_many_namespaces() {
    for depth in [0, 1, 2, 15, 29] {
        for (digit, item) in (b'1'..).zip(kinds()) {
            let item = (0..depth).fold(item, |inner, _| namespace([inner]));
            let expected = [(b'1', depth, 1), (b'5', depth, 1)];
            let expected = if digit == b'5' { &expected[..] } else { &[(digit, depth, 1)] };
            assert_eq!(cells(&module([item])), expected);
        }
    }
}

/// Each of 30 namespaces holds items before and behind the next one.
#[test]
fn items_on_every_level() {
    let [pattern, _, _, _, using] = kinds();
    let inner = vec![using.clone(), using.clone()];
    let items = (0..30).fold(inner, |inner, _| vec![pattern.clone(), namespace(inner), using.clone()]);
    let table = counted(&module(items)).1;
    for depth in 0..32 {
        let (first, fifth) = match depth {
            0..30 => (2, 1),
            30 => (2, 2),
            _ => (0, 0),
        };
        assert_eq!(table.count(Code::UnableToInferType, depth), first);
        assert_eq!(table.count(Code::UnsupportedUsing, depth), fifth);
        assert_eq!(table.count(Code::UnableToInferTypeFromProp, depth), 0);
    }
}

#[test]
fn a_name_behind_a_dot_is_no_namespace() {
    let block = node("Nb", [node("Ed", [leaf("Us")])]);
    let dotted = (0..3).fold(block, |inner, _| node("Nd", [leaf("Op"), inner]));
    let tree = module([namespace([node("Ns", [leaf("Op"), dotted])])]);
    assert_eq!(cells(&tree), [(b'1', 2, 1), (b'5', 2, 1)]);
}

/// One range for all records: it says nothing about the depth.
#[test]
fn ranges_play_no_part() {
    let using = || node("Ed", [leaf("Us").at(5, 9)]).at(5, 9);
    let tree = module([using(), namespace([using(), using()]).at(5, 9)]);
    assert_eq!(cells(&tree), [(b'1', 0, 1), (b'1', 1, 2), (b'5', 0, 1), (b'5', 1, 2)]);
}

/// More output and more diagnostics than the first buffers hold.
#[test]
fn large_counts() {
    let tree = module([namespace([default(node("Ar", vec![leaf("Oe"); 4000]))])]);
    assert_eq!(cells(&tree), [(b'1', 1, 4000)]);
    let tree = module([default(node("Ar", vec![leaf("Re"); 2000])), namespace(vec![node("Ed", [leaf("Us")]); 10_000])]);
    assert_eq!(cells(&tree), [(b'1', 1, 10_000), (b'5', 1, 10_000)]);
}

/// A table that holds counts already: written whole, or left as it was.
#[test]
fn into_a_table_of_the_callers() {
    let before = counted(&module(kinds())).1;
    let tree = module([namespace([node("Ed", [leaf("Us")])])]);
    let (made, expected) = counted(&tree);
    let length = made.as_bytes().len();
    let (mut out, mut diagnostics, mut table) = (vec![7; length + 5], vec![8; 25], before);

    let short = depths_into(&tree, &[], 1, &mut out[..length - 1], &mut diagnostics, &mut table).unwrap_err();
    assert_eq!(short.refusal, Refusal::OutputFull);
    let short = depths_into(&tree, &[], 1, &mut out, &mut diagnostics[..19], &mut table).unwrap_err();
    assert_eq!(short.refusal, Refusal::DiagnosticsFull);
    assert_eq!((&out, &diagnostics, table), (&vec![7; length + 5], &vec![8; 25], before));

    assert_eq!(depths_into(&tree, &[], 1, &mut out, &mut diagnostics, &mut table), Ok((length, 2)));
    assert_eq!((&out[..length], table), (made.as_bytes(), expected));
    assert_eq!((&out[length..], &diagnostics[20..]), (&[7; 5][..], &[8; 5][..]));
}

/// 30 namespaces behind many imports, in a thread with a small stack.
#[test]
fn a_small_stack() {
    let deep = (0..30).fold(node("Ed", [leaf("Us")]), |inner, _| namespace([inner]));
    let tree = module(std::iter::repeat_n(leaf("Im"), 33_000).chain([deep]));
    let call = move || depths(&tree, &[], 1).map(|(_, table)| table.count(Code::UnsupportedUsing, 30));
    let thread = std::thread::Builder::new().stack_size(512 << 10).spawn(call).unwrap();
    assert_eq!(thread.join().unwrap(), Ok(1));
}
