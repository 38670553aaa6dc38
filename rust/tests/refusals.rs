//! Each refusal by a small input, with its number and its place.
mod support;

use support::{Node, default, leaf, module, name, node};
use vatnext_dts::{
    Depths, LONGEST_TREE, Refusal, check, depths, depths_into, text, text_into, transform, transform_into,
};

/// What the check refuses, the transform refuses alike, with depths and without, and so does the text, which has no list;
/// all leave what is lent as it was.
fn refused(tree: &[u8], list: &[u8]) -> (Refusal, usize) {
    let refused = check(tree, list).expect_err("refused");
    assert_eq!(transform(tree, list, 1), Err(refused));
    let (mut out, mut diagnostics) = ([7; 1000], [8; 1000]);
    assert_eq!(transform_into(tree, list, 1, &mut out, &mut diagnostics), Err(refused));
    assert_eq!((out, diagnostics), ([7; 1000], [8; 1000]));
    assert_eq!(depths(tree, list, 1), Err(refused));
    let mut table = Depths::default();
    assert_eq!(depths_into(tree, list, 1, &mut out, &mut diagnostics, &mut table), Err(refused));
    assert_eq!((out, diagnostics, table), ([7; 1000], [8; 1000], Depths::default()));
    if refused.refusal != Refusal::BadOverloads {
        assert_eq!(text(tree), Err(refused));
        assert_eq!(text_into(tree, &mut out), Err(refused));
        assert_eq!(out, [7; 1000]);
    }
    (refused.refusal, refused.place)
}

#[test]
fn refusal_1_a_tree_that_is_too_long() {
    let mut tree = module([]);
    tree.resize(LONGEST_TREE, 0);
    assert_eq!(refused(&tree, &[]), (Refusal::TrailingBytes, 15));
    tree.push(0);
    assert_eq!(refused(&tree, &[]), (Refusal::TreeTooLong, 0));
}

#[test]
fn refusal_2_a_bad_list() {
    let entry = b"ov\x01\0\0\0\x02\0\0\0";
    let tree = module([]);
    assert!(check(&tree, &entry.repeat(4096)).is_ok());
    assert!(transform(&tree, &entry.repeat(4096), 1).is_ok());
    for list in [&entry[..9], b"vo\x01\0\0\0\x02\0\0\0", b"ov\x02\0\0\0\x01\0\0\0", &entry.repeat(4097)] {
        assert_eq!(refused(&tree, list), (Refusal::BadOverloads, 0));
    }
}

#[test]
fn refusal_3_what_runs_past_the_tree() {
    assert_eq!(refused(&[], &[]), (Refusal::CutShort, 0));
    let tree = module([node("Im", [leaf("Op").text("import")])]);
    for length in 0..tree.len() {
        let place = length.min(30) / 15 * 15;
        assert_eq!(refused(&tree[..length], &[]), (Refusal::CutShort, place));
    }
}

#[test]
fn refusal_4_an_unknown_mark() {
    assert_eq!(refused(&leaf("zz").bytes(), &[]), (Refusal::UnknownMark, 0));
    assert_eq!(refused(&module([leaf("Im"), leaf("\0\0")]), &[]), (Refusal::UnknownMark, 30));
}

#[test]
fn refusal_5_a_slot_a_text_or_too_few_children() {
    assert_eq!(refused(&leaf("No").bytes(), &[]), (Refusal::Misplaced, 0));
    assert_eq!(refused(&module([leaf("Ed")]), &[]), (Refusal::Misplaced, 15));
    assert_eq!(refused(&module([default(leaf("Nu").text("1"))]), &[]), (Refusal::Misplaced, 30));
}

#[test]
fn refusal_6_a_start_behind_its_end() {
    assert_eq!(refused(&leaf("Mo").at(2, 1).bytes(), &[]), (Refusal::BackwardRange, 0));
    assert_eq!(refused(&module([leaf("Im").at(2, 2), leaf("Im").at(1, 0)]), &[]), (Refusal::BackwardRange, 30));
}

#[test]
fn refusal_7_too_many_levels() {
    let deep = |levels: usize| {
        let expression = (3..levels).fold(leaf("Oe"), |inner, _| node("Pr", [inner]));
        module([default(expression)])
    };
    assert!(transform(&deep(64), &[], 1).is_ok());
    assert_eq!(refused(&deep(65), &[]), (Refusal::TooDeep, 960));
}

#[test]
fn refusal_8_bytes_after_the_root() {
    let mut tree = module([leaf("Im")]);
    tree.push(b'M');
    assert_eq!(refused(&tree, &[]), (Refusal::TrailingBytes, 30));
}

#[test]
fn refusal_9_a_short_buffer_or_a_text_that_no_head_can_hold() {
    let (mut out, mut diagnostics) = ([7; 14], [8; 0]);
    let short = transform_into(&module([]), &[], 1, &mut out, &mut diagnostics).unwrap_err();
    assert_eq!((short.refusal, short.place), (Refusal::OutputFull, 0));
    assert_eq!(out, [7; 14]);

    let keyed = |bytes: usize| {
        let key = leaf("Ki").text(vec![b'k'; bytes]);
        module([default(node("Ob", [node("Kv", [key, leaf("Nl")])]))])
    };
    let most = transform(&keyed(65_531), &[], 1).unwrap();
    assert!(most.as_bytes().len() > 65_535);
    check(&keyed(65_532), &[]).expect("a tree that is in order");
    let long = transform(&keyed(65_532), &[], 1).unwrap_err();
    assert_eq!((long.refusal, long.place), (Refusal::OutputFull, 0));
    assert!(transform(&keyed(65_535), &[], 1).is_err());
}

#[test]
fn refusal_10_a_short_buffer_for_diagnostics() {
    let untyped = node("Vr", [node("Bd", [name(2, "a"), leaf("No")]).at(6, 7), leaf("No")]);
    let tree = module([node("Vd", [untyped])]);
    let (mut out, mut diagnostics) = ([7; 200], [8; 10]);
    let short = transform_into(&tree, &[], 1, &mut out, &mut diagnostics[..9]).unwrap_err();
    assert_eq!((short.refusal, short.place), (Refusal::DiagnosticsFull, 0));
    assert_eq!((out, diagnostics), ([7; 200], [8; 10]));

    let (bytes, count) = transform_into(&tree, &[], 1, &mut out, &mut diagnostics).unwrap();
    assert_eq!((bytes, count), (113, 1));
    assert_eq!(&diagnostics, b"d2\x06\0\0\0\x07\0\0\0");
    assert_eq!(out[113..], [7; 200 - 113]);
}

/// Whatever is refused, its words are whole: what is wrong, where, what to do.
#[test]
fn words_for_each() {
    let said: Vec<_> = (1..=11).map(|number| Refusal::from_number(number).to_string()).collect();
    for (i, words) in said.iter().enumerate() {
        assert!(!words.is_empty() && !said[..i].contains(words));
    }
    let tree = node("Mo", [Node { start: 9, ..leaf("Im") }]).bytes();
    let error: Box<dyn std::error::Error> = Box::new(check(&tree, &[]).unwrap_err());
    assert_eq!(
        error.to_string(),
        "refusal 6 at byte 15: a start behind its end; write the range with its start first; 0 and 0 where there is none"
    );
}
