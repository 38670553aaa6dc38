//! Any bytes: nothing panics, and the records say what the check says.
mod support;

use support::{Node, Numbers, default, leaf, module, name, node};
use vatnext_dts::{Record, Refusal, check, depths, text, transform};

const INPUTS: usize = 20_000;

/// Every part of every record is asked for.
fn walk(record: Record<'_>) -> usize {
    let length = 15 + record.text().len() + record.children().map(walk).sum::<usize>();
    assert_eq!(record.children().count(), record.children().len());
    assert_eq!(record.as_bytes().len(), length);
    assert!(!format!("{record:?}").is_empty());
    let _ = (record.mark(), record.flags(), record.start(), record.end());
    length
}

/// Whether the tree is accepted.
fn try_one(tree: &[u8], list: &[u8]) -> bool {
    let parsed = Record::parse(tree);
    if let Ok(record) = parsed {
        walk(record);
    }
    let checked = check(tree, list);
    match checked {
        Ok(()) => assert_eq!(parsed.map(|record| record.as_bytes().len()), Ok(tree.len())),
        Err(refused) if refused.refusal == Refusal::CutShort => assert_eq!(parsed, Err(refused)),
        Err(refused) if refused.refusal == Refusal::TrailingBytes => {
            assert_eq!(parsed.map(|record| record.as_bytes().len()), Ok(refused.place));
        }
        Err(_) => {}
    }
    match transform(tree, list, 1) {
        Ok(made) => {
            let (same, table) = depths(tree, list, 1).expect("accepted");
            assert_eq!((&same, table.total()), (&made, made.diagnostics().len()));
            assert_eq!(checked, Ok(()));
            assert_eq!(walk(made.root()), made.as_bytes().len());
            assert!(made.diagnostics().all(|d| d.start <= d.end && !d.to_string().is_empty()));
        }
        Err(refused) => {
            assert_eq!(checked, Err(refused));
            assert_eq!(depths(tree, list, 1), Err(refused));
        }
    }
    // a text has no list
    let checked_alone = check(tree, &[]);
    match text(tree) {
        Err(refused) if refused.refusal == Refusal::NumberOutside => assert_eq!(checked_alone, Ok(())),
        written => assert_eq!(written.map(drop), checked_alone),
    }
    checked.is_ok()
}

fn whole() -> Vec<u8> {
    let no = || leaf("No");
    let function = node("Fu", [no(), no(), leaf("Op").text("{}"), node("Pa", [node("Bd", [name(2, "p"), no()])])]);
    let method = node("Me", [leaf("Ki").text("m"), function.clone()]);
    let object = node("Ob", [node("Kv", [leaf("Ki").text("k"), leaf("Ss").text("v")]), node("Sp", [name(1, "s")])]);
    module([
        node("Im", [leaf("Op").text("import")]).at(0, 20),
        node("Fd", [name(2, "f"), function]).at(21, 40),
        node("Cd", [name(2, "C"), node("Cl", [no(), method])]),
        node("Ed", [node("Vd", [node("Vr", [node("Bd", [name(2, "a"), no()]), object])]).flags(2)]),
        default(node("Ar", [leaf("Re"), leaf("Oe").at(50, 60), node("Tc", [leaf("Nu").text([0; 8])])])),
    ])
}

#[test]
fn damaged_trees() {
    let (whole, list) = (whole(), b"ov\x15\0\0\0\x28\0\0\0");
    assert!(try_one(&whole, list));
    let mut numbers = Numbers(2026);
    let mut accepted = 0;
    for _ in 0..INPUTS {
        let (mut tree, mut list) = (whole.clone(), list.to_vec());
        for _ in 0..1 + numbers.below(3) {
            let at = numbers.below(tree.len());
            match numbers.below(7) {
                0 => tree[at] = numbers.next() as u8,
                1 => tree[at] ^= 1 << numbers.below(8),
                2 => tree.truncate(at + 1),
                3 => tree.insert(at, numbers.next() as u8),
                4 if tree.len() > 1 => drop(tree.remove(at)),
                5 => tree.extend_from_within(at..),
                _ => {
                    let at = numbers.below(list.len());
                    list[at] = list[at].wrapping_add(1 << numbers.below(8));
                }
            }
        }
        accepted += usize::from(try_one(&tree, &list));
    }
    assert!(INPUTS / 50 < accepted && accepted < INPUTS / 2, "{accepted}");
}

#[test]
fn bytes_without_order() {
    let mut numbers = Numbers(1);
    for _ in 0..INPUTS {
        let most = 1 << numbers.below(8);
        let bytes: Vec<u8> = (0..numbers.below(100))
            // small numbers, so that some lengths and counts fit
            .map(|_| numbers.below(most) as u8)
            .collect();
        try_one(&bytes, &[]);
        let at = numbers.below(bytes.len() + 1);
        try_one(&bytes[at..], &bytes[..at]);
    }
}

/// A tree of any marks, texts and shape.
fn any(numbers: &mut Numbers, levels: usize) -> Node {
    let bytes = |numbers: &mut Numbers, most| (0..numbers.below(most)).map(|_| numbers.next() as u8).collect();
    let count = if levels == 0 { 0 } else { numbers.below(5) };
    Node {
        mark: (numbers.next() as u16).to_le_bytes(),
        flags: numbers.next() as u8,
        start: numbers.next() as u32,
        end: numbers.next() as u32,
        text: bytes(numbers, 12),
        children: (0..count).map(|_| any(numbers, levels - 1)).collect(),
    }
}

#[test]
fn records_read_as_they_were_written() {
    let mut numbers = Numbers(3);
    for _ in 0..2000 {
        let written = any(&mut numbers, 5);
        let mut bytes = written.bytes();
        let length = bytes.len();
        bytes.extend((0..numbers.below(20)).map(|i| i as u8));
        let record = Record::parse(&bytes).unwrap();
        assert_eq!(record.as_bytes(), &bytes[..length]);
        assert_eq!(Node::read(record), written);
        assert_eq!(walk(record), length);
        for (child, expected) in record.children().zip(&written.children) {
            assert_eq!(child.as_bytes(), expected.bytes());
            assert_eq!(Record::parse(child.as_bytes()), Ok(child));
        }
    }
}
