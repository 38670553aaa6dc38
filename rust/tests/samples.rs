//! Small modules and what becomes of them.
mod support;

use support::{Node, default, leaf, module, name, node};
use vatnext_dts::{Code, Declarations, Diagnostic, check, transform};

const NOBODYS: u32 = 1;
const OURS: u32 = 2;

fn declarations(tree: &[u8]) -> Declarations {
    check(tree, &[]).expect("accepted");
    transform(tree, &[], NOBODYS).expect("accepted")
}

fn diagnostics(items: impl IntoIterator<Item = Node>) -> Vec<(u8, u32, u32)> {
    let made = declarations(&module(items));
    made.diagnostics().map(|d| (d.code.digit(), d.start, d.end)).collect()
}

/// A Vd of one variable.
fn variable(symbol: &str, ty: Node, init: Node) -> Node {
    let end = 6 + symbol.len() as u32;
    let pattern = node("Bd", [name(OURS, symbol), ty]).at(6, end);
    node("Vd", [node("Vr", [pattern, init])])
}

fn keyword(word: &str) -> Node {
    leaf("Kw").text(word)
}

#[test]
fn an_empty_array_by_default() {
    let made = declarations(&module([default(leaf("Ar").at(15, 17)).at(0, 18)]));
    assert_eq!(made.as_bytes().len(), 170);
    assert_eq!(made.diagnostics().len(), 0);
    let tuple = node("Ro", [leaf("Tu").at(15, 17)]);
    let pattern = node("Bd", [name(0, "_dts_1"), tuple]);
    let constant = node("Vd", [node("Vr", [pattern, leaf("No")])]).flags(3);
    let expected = node("Mo", [constant, default(name(0, "_dts_1")).at(0, 18)]);
    assert_eq!(Node::read(made.root()), expected);
    assert_eq!(made.as_bytes(), expected.bytes());
}

#[test]
fn a_name_that_no_scope_declares() {
    let made = declarations(&module([variable("a", leaf("No"), name(NOBODYS, "b")).flags(2)]));
    assert_eq!(made.as_bytes().len(), 113);
    let expected = node("Mo", [variable("a", keyword("any"), leaf("No")).flags(3)]);
    assert_eq!(Node::read(made.root()), expected);
    let code = Code::UnableToInferTypeFallbackAny;
    assert_eq!(made.diagnostics().collect::<Vec<_>>(), [Diagnostic { code, start: 6, end: 7 }]);
}

/// `namespace A.B.C { declare const a: any; }`, with flags, a range and an Op for the B.
#[test]
fn a_dotted_namespace() {
    let dotted = |outside, inside| {
        let part = |name: &str| leaf("Op").text(name);
        let block = node("Nb", [variable("a", keyword("any"), leaf("No")).flags(inside)]);
        let inner = node("Nd", [part("C"), block]);
        let middle = node("Nd", [part("B"), inner, part("x")]).flags(255).at(10, 60);
        node("Mo", [node("Ns", [part("A"), middle]).flags(outside)])
    };
    let made = declarations(&dotted(0, 3).bytes());
    assert_eq!(Node::read(made.root()), dotted(1, 2));
    assert_eq!(made.diagnostics().len(), 0);
}

#[test]
fn an_object_with_a_spread() {
    let property = node("Kv", [leaf("Ki").text("confirmed").at(10, 19), leaf("Nu").text([0; 8])]);
    let spread = node("Sp", [name(OURS, "held")]).at(24, 31);
    let object = node("Ob", [property, spread]).at(8, 33);
    let made = declarations(&module([node("Ed", [variable("seats", leaf("No"), object)])]));
    let key = name(0, "confirmed").at(10, 19);
    let ty = node("Li", [node("Ps", [key, keyword("number")]).flags(1)]).at(8, 33);
    let expected = node("Mo", [node("Ed", [variable("seats", ty, leaf("No")).flags(1)])]);
    assert_eq!(Node::read(made.root()), expected);
    let code = Code::UnableToInferTypeFromSpread;
    assert_eq!(made.diagnostics().collect::<Vec<_>>(), [Diagnostic { code, start: 24, end: 31 }]);
}

#[test]
fn the_sign_of_a_number() {
    let number = |last| leaf("Nu").text([0, 0, 0, 0, 0, 0, 0, last]);
    let made = declarations(&module([variable("a", leaf("No"), node("Tc", [node("Mi", [number(64)])]))]));
    let ty = node("Tl", [number(192)]);
    assert_eq!(Node::read(made.root()), node("Mo", [variable("a", ty, leaf("No")).flags(1)]));
}

#[test]
fn every_diagnostic() {
    assert_eq!(diagnostics([default(node("Ar", [leaf("Oe").at(1, 2)]))]), [(b'1', 1, 2)]);
    assert_eq!(diagnostics([variable("ab", leaf("No"), leaf("No"))]), [(b'2', 6, 8)]);
    assert_eq!(diagnostics([default(node("Ob", [leaf("Pq").at(3, 4)]))]), [(b'3', 3, 4)]);
    assert_eq!(diagnostics([default(node("Ob", [node("Sp", [leaf("Oe")]).at(5, 6)]))]), [(b'4', 5, 6)]);
    let using = node("Ed", [leaf("Us").at(7, 8)]).at(7, u32::MAX);
    assert_eq!(diagnostics([using]), [(b'5', 7, 8), (b'1', 7, u32::MAX)]);
}

#[test]
fn a_listed_implementation_goes() {
    let function = || node("Fd", [name(OURS, "f"), node("Fu", [leaf("No"), leaf("No"), leaf("No")])]);
    let tree = module([function().at(1, 9), function().at(300, 400)]);
    let list = b"ov\x2c\x01\0\0\x90\x01\0\0";
    let made = transform(&tree, list, NOBODYS).unwrap();
    assert_eq!(Node::read(made.root()), node("Mo", [function().at(1, 9).flags(1)]));
    assert_eq!(declarations(&tree).root().children().len(), 2);
}

#[test]
fn the_context_of_names_that_no_scope_declares() {
    let tree = module([variable("a", leaf("No"), name(7, "NaN"))]);
    assert_eq!(transform(&tree, &[], 7).unwrap().diagnostics().len(), 0);
    assert_eq!(transform(&tree, &[], 8).unwrap().diagnostics().len(), 1);
}

#[test]
fn declarations_stay_as_they_are() {
    let tree = module([variable("a", leaf("No"), leaf("Bl")), default(leaf("Ar"))]);
    let once = declarations(&tree);
    assert_eq!(declarations(once.as_bytes()), once);
}
