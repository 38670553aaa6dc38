//! The text of trees.
mod support;

use support::{Node, default, leaf, module, name, node};
use vatnext_dts::{LONGEST_TREE, Refusal, Refused, check, text, text_into, transform};

/// The lines of a module's text; a buffer of its length is long enough, and one of a byte less is not. What is not
/// written keeps what it held.
fn lines(items: impl IntoIterator<Item = Node>) -> Vec<String> {
    let tree = module(items);
    let written = text(&tree).expect("accepted");
    let length = written.len();
    let mut out = vec![7; length + 20];
    if let Some(short) = length.checked_sub(1) {
        let full = Refused { refusal: Refusal::OutputFull, place: 0 };
        assert_eq!(text_into(&tree, &mut out[..short]), Err(full));
        assert_eq!(out, vec![7; length + 20]);
    }
    assert_eq!(text_into(&tree, &mut out[..length]), Ok(length));
    assert_eq!((&out[..length], &out[length..]), (&written[..], &[7; 20][..]));
    out.fill(8);
    assert_eq!(text_into(&tree, &mut out), Ok(length));
    assert_eq!((&out[..length], &out[length..]), (&written[..], &[8; 20][..]));
    let written = String::from_utf8(written).expect("UTF-8");
    assert!(written.is_empty() || written.ends_with('\n'));
    written.lines().map(str::to_string).collect()
}

/// The one line of a module of one item.
fn line(item: Node) -> String {
    let mut lines = lines([item]);
    assert_eq!(lines.len(), 1);
    lines.remove(0)
}

fn op(text: &str) -> Node {
    leaf("Op").text(text)
}

fn keyword(word: &str) -> Node {
    leaf("Kw").text(word)
}

fn number(value: f64) -> Node {
    leaf("Nu").text(value.to_le_bytes())
}

/// A Vd of one variable.
fn variable(symbol: &str, ty: Node, init: Node) -> Node {
    node("Vd", [node("Vr", [node("Bd", [name(2, symbol), ty]), init])])
}

fn refused(tree: &[u8]) -> (Refusal, usize) {
    let refused = text(tree).expect_err("refused");
    for length in [0, 1000] {
        let mut out = vec![7; length];
        assert_eq!(text_into(tree, &mut out), Err(refused));
        assert_eq!(out, vec![7; length]);
    }
    (refused.refusal, refused.place)
}

#[test]
fn an_empty_array_by_default() {
    let made = transform(&module([default(leaf("Ar"))]), &[], 1).unwrap();
    assert_eq!(
        String::from_utf8(text(made.as_bytes()).unwrap()).unwrap(),
        "declare const _dts_1 : readonly [ ]\nexport default _dts_1\n"
    );
}

#[test]
fn a_namespace() {
    let constant = node("Ed", [variable("a", keyword("any"), leaf("No")).flags(2)]);
    let namespace = node("Ns", [op("A"), node("Nb", [constant])]);
    assert_eq!(lines([namespace.flags(1)]), ["declare namespace A {", "  export const a : any", "}"]);
}

#[test]
fn a_template() {
    let template = node("Te", [leaf("Qu").flags(1).text("a"), leaf("Qu").flags(1).text("b"), name(2, "c")]);
    assert_eq!(line(default(template)), "export default `a${ c }b`");
}

#[test]
fn a_class() {
    let parameter = node("Pa", [node("Bd", [name(2, "x").flags(1), keyword("number")])]);
    let function = node("Fu", [leaf("No"), keyword("void"), leaf("No"), parameter]);
    let method = node("Me", [leaf("Ki").text("m"), function, op("public")]).flags(4);
    let property = node("Cp", [leaf("Ki").text("p"), keyword("string"), leaf("No")]);
    let class = node("Cl", [leaf("No"), method, property, op("extends B")]);
    assert_eq!(
        line(node("Cd", [name(2, "A"), class]).flags(1)),
        "declare class A extends B { public static m ( x ? : number ) : void ; p : string ; }"
    );
}

#[test]
fn a_dotted_namespace() {
    let block = node("Nb", [node("Ns", [op("'m'"), node("Nb", [leaf("Im")])])]);
    let dotted = node("Ns", [op("A"), node("Nd", [op("B"), block])]);
    assert_eq!(lines([dotted]), ["namespace A . B {", "  module 'm' {", "    ", "  }", "}"]);
}

#[test]
fn what_is_left_out() {
    assert_eq!(lines([]), [""; 0]);
    assert_eq!(lines([leaf("St"), node("St", [op("x")])]), [""; 0]);
    assert_eq!(lines([leaf("St"), leaf("Im")]), [""]);
    let function = node("Fu", [leaf("No"), leaf("No"), op("{ }")]);
    assert_eq!(line(node("Fd", [name(2, "f"), function])), "function f ( )");
    assert_eq!(line(variable("a", leaf("No"), number(0.5))), "let a");
    assert_eq!(line(node("Cd", [name(2, "A"), node("Cl", [leaf("No"), leaf("Dm")])])), "class A { }");
}

#[test]
fn opaque_parts() {
    let part = Node { children: vec![op("b"), op("")], ..op("a") };
    assert_eq!(line(node("Im", [part, op("c")])), "a b c");
    let mut class = node("Cl", [leaf("No"), node("Ix", [op("[k: string]: T;")]), leaf("Ix")]);
    class.children.push(op("o"));
    assert_eq!(line(node("Cd", [name(2, "A"), class])), "class A o { [k: string]: T; ; }");
    let sum = node("Bn", [name(1, "a"), name(1, "b"), op("+")]);
    assert_eq!(line(default(node("Pr", [sum]))), "export default ( a + b )");
    // bytes that are not UTF-8 stay as they are
    assert_eq!(text(&module([node("Im", [leaf("Op").text([0xff, 0])])])).unwrap(), b"\xff\0\n");
}

#[test]
fn escapes() {
    let string = leaf("Ss").text("a\n\"\\`$'é");
    assert_eq!(line(default(string)), "export default \"a\\u000a\\u0022\\u005c\\u0060\\u0024'é\"");
    let string = leaf("Ss").text((0..=255).collect::<Vec<u8>>());
    let written = text(&module([default(string)])).unwrap();
    // 36 bytes have an escape of 6 each
    assert_eq!(written.len(), "export default \"\"\n".len() + 256 + 36 * 5);
}

#[test]
fn numbers() {
    let least = -9_007_199_254_740_991.0;
    for (value, written) in [(0.0, "0"), (-0.0, "-0"), (42.0, "42"), (1e6, "1000000"), (least, "-9007199254740991")] {
        assert_eq!(line(default(number(value))), format!("export default {written}"));
    }
    let spelled = Node { children: vec![op("0x10"), op("no spelling")], ..number(0.5) };
    assert_eq!(line(default(spelled)), "export default 0x10");
    let integer = leaf("Bi").text("\x0112");
    assert_eq!(line(default(integer)), "export default -12n");
}

#[test]
fn refusal_11_a_number_outside_the_forms() {
    for value in [0.5, -0.5, 9_007_199_254_740_992.0, f64::NAN, f64::INFINITY, f64::MIN_POSITIVE] {
        assert_eq!(refused(&module([default(number(value))])), (Refusal::NumberOutside, 30));
    }
    // the first one in the tree, not the first one that would be written
    let asserted = node("Ta", [number(0.5), node("Tl", [number(1.5)])]);
    assert_eq!(refused(&module([leaf("Im"), default(asserted)])), (Refusal::NumberOutside, 60));
    // and none that is not written
    let init = variable("a", leaf("No"), number(0.5));
    assert_eq!(refused(&module([init, default(number(0.5))])), (Refusal::NumberOutside, 133));
    let error = text(&module([default(number(0.5))])).unwrap_err().to_string();
    assert!(error.starts_with("refusal 11 at byte 30: "), "{error}");
}

/// `-0.5 as const`: the number gets a sign, and no spelling.
#[test]
fn a_negative_number_of_the_transform() {
    let half = Node { children: vec![op("0.5")], ..number(0.5) };
    let constant = |value| {
        let made = transform(&module([variable("a", leaf("No"), node("Tc", [value]))]), &[], 1).unwrap();
        text(made.as_bytes())
    };
    assert_eq!(constant(half.clone()).unwrap(), b"declare let a : 0.5\n");
    assert_eq!(constant(node("Mi", [number(2.0)])).unwrap(), b"declare let a : -2\n");
    let refused = constant(node("Mi", [half])).unwrap_err();
    assert_eq!((refused.refusal, refused.place), (Refusal::NumberOutside, 95));
}

/// A tree that is refused has the same refusal here, before 11 and 9.
#[test]
fn the_trees_refusals() {
    let outside = || default(number(0.5));
    let mut trees = vec![
        vec![],
        leaf("zz").bytes(),
        module([outside(), leaf("Ed")]),
        module([outside(), leaf("zz")]),
        module([outside(), leaf("Im").at(2, 1)]),
        [&module([outside()])[..], b"x"].concat(),
        vec![0; LONGEST_TREE + 1],
        vec![0; LONGEST_TREE],
    ];
    let whole = module([outside()]);
    trees.extend((0..whole.len()).map(|length| whole[..length].to_vec()));
    let deep = (0..62).fold(leaf("Oe"), |inner, _| node("Pr", [inner]));
    trees.push(module([outside(), default(deep)]));
    for tree in trees {
        let said = check(&tree, &[]).expect_err("refused");
        assert_eq!(refused(&tree), (said.refusal, said.place));
    }
}

/// Texts that the first buffer is too short for, and the longest ones that are known.
#[test]
fn texts_that_are_longer_than_their_trees() {
    // 62 bytes of indent for each of 15
    let declared = leaf("Vd").flags(3);
    let count = (LONGEST_TREE - 31 * 45 - 15) / 15;
    let namespace = |items| vec![node("Ns", [leaf("Op"), node("Nb", items)])];
    let items = (0..31).fold(vec![declared; count], |items, _| namespace(items));
    let tree = module(items);
    let written = text(&tree).unwrap();
    assert_eq!(written.split(|b| *b == b'\n').filter(|line| line.len() == 75).count(), count);
    assert!(4.9 < written.len() as f64 / tree.len() as f64);

    // 6 bytes for each that is escaped
    let string = leaf("Ss").text("$".repeat(65_535));
    let tree = module([default(node("Ar", vec![string; 7]))]);
    let times = text(&tree).unwrap().len() as f64 / tree.len() as f64;
    assert!(5.99 < times && times < 6.0, "{times}");
}

/// 64 levels behind many imports, in a thread with a small stack.
#[test]
fn a_small_stack() {
    let imports = || std::iter::repeat_n(leaf("Im"), 33_000);
    let arrays = (0..61).fold(leaf("Oe"), |inner, _| node("Ar", [inner]));
    let templates = (0..61).fold(leaf("Oe"), |inner, _| node("Te", [inner]));
    let parts = (0..61).fold(leaf("Op"), |inner, _| node("Op", [inner]));
    for item in [default(arrays), default(templates), node("Im", [parts])] {
        let tree = module(imports().chain([item]));
        let call = move || text(&tree).map(|text| text.len() > 33_000);
        let thread = std::thread::Builder::new().stack_size(512 << 10).spawn(call).unwrap();
        assert_eq!(thread.join().unwrap(), Ok(true));
    }
}
