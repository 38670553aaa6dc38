//! The cases of the program `test_types`: modules, and the typing of the
//! expression of each `Xe` of theirs by the original, as the program prints it.

use std::fmt::Write;

use deno_ast::swc::common::SyntaxContext;

use crate::call::diagnostic;
use crate::decode;
use crate::fast_check::transform_dts::probe;
use crate::grammar::MAX_DEPTH;
use crate::grammar::check;
use crate::leaves::UNRESOLVED;
use crate::leaves::random_trees;
use crate::lines::hex;
use crate::notation;
use crate::part;
use crate::record::HEAD;
use crate::record::Rec;
use crate::record::rec;

/// The four ways to type an expression: as_const and as_readonly.
const MODES: [(&str, bool, bool); 4] = [
  ("--", false, false),
  ("-r", false, true),
  ("c-", true, false),
  ("cr", true, true),
];

/// What the program has to print.
pub fn stdout(trees: &[Vec<u8>]) -> String {
  let mut out = String::new();
  for (place, tree) in trees.iter().enumerate() {
    if let Err(no) = check(tree, &[]) {
      let (number, at) = (no.number, no.place);
      writeln!(out, "{} refused {number} at {at}", place + 1).unwrap();
      continue;
    }
    writeln!(out, "{} accepted", place + 1).unwrap();
    let (tree, _) = Rec::read(tree, 0).expect("an accepted tree reads");
    typings(&tree, &mut out);
  }
  out
}

/// The lines of one tree: each `Xe` of the module, in each mode.
fn typings(tree: &Rec, out: &mut String) {
  let (module, notes) = decode::module(tree);
  let mut at = HEAD;
  for (r, item) in tree.kids.iter().zip(&module.body) {
    let expr = part::default_expr(item);
    for (word, as_const, as_readonly) in MODES {
      let Some(expr) = expr else { continue };
      let typing = probe::expr_to_ts_type(
        &module,
        SyntaxContext::from_u32(UNRESOLVED),
        expr.clone(),
        as_const,
        as_readonly,
      );
      let answer = if typing.ty.is_some() {
        "typed"
      } else {
        "untyped"
      };
      let bytes = typing.ty.map_or(vec![], |ty| {
        let record = part::type_record(ty, &notes);
        record.encode().expect("a small record")
      });
      let diagnostics: Vec<u8> = typing
        .diagnostics
        .iter()
        .flat_map(|d| diagnostic(d).encode())
        .collect();
      let lengths = format!("{} {}", bytes.len(), diagnostics.len());
      let label = format!("{} {word}", at + HEAD + r.text.len());
      for run in ["dry", "run"] {
        let counter = typing.counter;
        writeln!(out, "{label} {run} {answer} {lengths} {counter}").unwrap();
      }
      writeln!(out, "type={}", digits(&bytes)).unwrap();
      writeln!(out, "diagnostics={}", digits(&diagnostics)).unwrap();
    }
    at += r.encode().expect("a small record").len();
  }
}

fn digits(bytes: &[u8]) -> String {
  match bytes {
    [] => String::new(),
    bytes => hex(bytes),
  }
}

/// The trees: hand-picked ones for every arm, deep ones, and random ones.
pub fn trees() -> Vec<Vec<u8>> {
  let expressions = EXPRESSIONS.iter().map(|text| text.to_string());
  let frozen = TYPES
    .iter()
    .map(|ty| format!("Ca(Mb(Id#1\"Object\" Ki\"freeze\") As(Oe {ty}))"));
  let others = (0..20).map(|kind| format!("Oe+{kind}@1-2"));
  let mut trees: Vec<Vec<u8>> = expressions
    .chain(frozen)
    .chain(others)
    .map(|text| bytes_of(module(&text), &text))
    .collect();
  trees.extend(deep().into_iter().map(|tree| bytes_of(tree, "deep")));
  let random = random_trees(3000, 6, 400);
  trees.extend(random.into_iter().filter(|tree| types_much(tree)).take(120));
  trees
}

/// As many random trees, for a longer comparison. Those whose types are longer
/// than the program's buffers are left out.
pub fn more_trees(count: usize, seed: u64) -> Vec<Vec<u8>> {
  let mut trees = random_trees(count, seed, 4096);
  trees.retain(|tree| {
    types_much(tree) && longest_type(&stdout(&[tree.clone()])) <= 4096
  });
  trees
}

/// The most bytes of a type in these lines.
fn longest_type(lines: &str) -> usize {
  let types = lines.lines().filter_map(|line| line.strip_prefix("type="));
  types.map(|digits| digits.len() / 2).max().unwrap_or(0)
}

fn bytes_of(tree: Rec, text: &str) -> Vec<u8> {
  let bytes = tree.encode().expect("a small tree");
  assert_eq!(check(&bytes, &[]), Ok(()), "{text}");
  bytes
}

/// Whether some `Xe` of the module holds an expression with parts.
fn types_much(tree: &[u8]) -> bool {
  let (tree, _) = Rec::read(tree, 0).expect("an accepted tree reads");
  tree
    .kids
    .iter()
    .any(|r| r.is("Xe") && r.kids[0].depth() > 2)
}

/// A module that exports the expression as default, behind the declarations of
/// the names that it has.
fn module(expr: &str) -> Rec {
  let mut text = "Mo(".to_string();
  for (name, declaration) in DECLARATIONS {
    if expr.contains(name) {
      text += declaration;
      text += " ";
    }
  }
  text += &format!("Xe({expr}))");
  notation::parse(&text).unwrap_or_else(|e| panic!("{text}: {e}"))
}

/// Names, and what declares them.
const DECLARATIONS: [(&str, &str); 7] = [
  // Typeof-safe and array-typed; the latter only; the former only.
  ("\"arr\"", "Vd+2(Vr(Bd(Id#2\"arr\" Ay) No))"),
  ("\"lit\"", "Vd+2(Vr(Bd(Id#2\"lit\" No) Ar))"),
  ("\"fun\"", "Fd(Id#2\"fun\" Fu(No No No))"),
  // Classes without type parameters and with.
  ("\"Cls\"", "Cd(Id#2\"Cls\" Cl(No))"),
  ("\"Gen\"", "Cd(Id#2\"Gen\" Cl(Op))"),
  // The same in the unresolved context.
  ("\"uarr\"", "Vd+2(Vr(Bd(Id#1\"uarr\" Ay) No))"),
  ("\"UCls\"", "Cd(Id#1\"UCls\" Cl(No))"),
];

/// Types, as `readonly_of` meets them.
const TYPES: &[&str] = &[
  "Li",
  "Li@1-2(Op\"x\")",
  "Li+4@3-9(Ps(Id#0\"a\" Kw\"any\") Ps+1@1-2(Ss\"s\" No) Ps+254(Nu=1 Ay(Op)))",
  "Li(Ix Ix+1@1-2(Op) Ix+6 Op)",
  "Li(Ps(Id#0\"a\" Li(Ps(Id#0\"b\" No))))",
  "Li(Om)",
  "Li(Ps(Id#0\"a\" No) Om Ix)",
  "Ay@1-2(Op)",
  "Tu",
  "Tu+1@3-4(Tm(Op\"l\" Kw\"any\") Tm(No Rt(Ay)))",
  "Ro(Ay)",
  "Ro+2@5-6(Kw\"any\" Op)",
  "Ft(No Kw\"any\")",
  "Ft@1-9(Op\"<T>\" Tu Bd(Id#2\"a\" No) Rs Op)",
  "Ct(Op)",
  "Kw\"object\"",
  "Tl(Ss\"s\")",
  "Rf(Id#1\"Array\" No)",
  "Tf(Id#2\"a\")",
  "Rt(Ay)",
  "Ot",
  "Ot+6",
  "Ot+7",
];

const EXPRESSIONS: &[&str] = &[
  // Arrays: elements, holes, untyped elements.
  "Ar",
  "Ar+3@2-9(Nu=1 Ss\"a\" Bl+1 Op\"x\")",
  "Ar(No No+3@1-2 Nl)",
  "Ar(Oe@3-4)",
  "Ar(Oe@3-4 Id@5-6#1\"x\" Nu=1 Pr@7-8(Nu=1))",
  "Ar(Ar(Ar Nu=1) Ar(Oe@4-5))",
  // Spreads: of array-typed names, of array literals, of anything else.
  "Ar(Sp(Id#2\"arr\"))",
  "Ar(Nu=1 Sp+1@1-2(Id+3@3-4#2\"lit\"(Op) Op) Nu=2)",
  "Ar(Sp@1-2(Id#2\"fun\"))",
  "Ar(Sp@1-2(Id#3\"arr\"))",
  "Ar(Sp@1-2(Id#1\"uarr\"))",
  "Ar(Sp(Ar))",
  "Ar(Sp(Ar@5-6(Nu=1 Sp(Ar(Bl)) Ob(Kv(Ki\"k\" Nu=1)))))",
  "Ar(Sp@1-9(Ar(Oe@3-4 Sp@5-6(Nl))))",
  "Ar(Sp(Pr(Ar)))",
  "Ar(Sp@1-2(Tc(Ar)))",
  "Ar(Sp@1-2(Oe))",
  "Ar(Sp@1-2(Ob))",
  "Ar(Sp@1-2(As(Oe Ay)))",
  "Ar(Oe@1-2 Sp@3-4(Oe) Oe@5-6)",
  "Ar(Nu=1 Ar@1-9(Nu=2 Sp@3-4(Oe)) Nu=3)",
  "Ar(Sp(Id#2\"arr\") Sp@3-4(Oe) Sp(Id#2\"arr\"))",
  "Ar(Aw(No No Ag(Pb(No) Nu=1)) Sp@3-4(Oe))",
  // Objects: the five kinds of key.
  "Ob",
  "Ob+7@4-9(Kv(Ki\"k\" Nu=1) Op\"x\")",
  "Ob(Kv+1@1-2(Ki+3@3-4\"\"(Op) Bl+1 Op))",
  "Ob(Kv(Ss+6@1-2\"s\"(Op\"'s'\") Ss\"v\"))",
  "Ob(Kv(Nu+1@1-2=2(Op\"2.0\") Nl) Kv(Nu=0x7ff0000000000001 Nl))",
  "Ob(Kv(Bi=-5(Op) Nl) Kv(Bi=0 Nl))",
  "Ob(Kv(Kc+2@1-9(Id@2-3#2\"a\"(Op) Op) Nl))",
  "Ob(Kv(Kc(Ss\"s\") Nl) Kv(Kc(Oe@1-2) Nl) Kv(Kc(Ar(Oe@3-4)) Nl))",
  "Ob(Kv(Kc(Mb(Id#1\"Symbol\" Ki\"iterator\")) Nl))",
  // Their values.
  "Ob(Kv(Ki\"k\" Oe@3-4))",
  "Ob(Kv(Ki\"k\" Ar@1-9(Nu=1 Sp@3-4(Oe))) Kv(Ki\"l\" Nu=2))",
  "Ob(Kv(Ki\"k\" Ob(Kv(Ki\"l\" Ob(Kv(Ki\"m\" Oe@1-2))))))",
  "Ob(Kv(Ki\"k\" Ar(Ob(Kv(Ki\"l\" Ar(Nl))))))",
  // Shorthands, other properties, spreads.
  "Ob(Sh(Id#2\"fun\"))",
  "Ob(Sh+1@1-2(Id+3@3-4#2\"arr\"(Op) Op))",
  "Ob(Sh@1-2(Id@3-4#2\"lit\"))",
  "Ob(Sh@1-2(Id@3-4#1\"undefined\") Sh(Id#1\"NaN\") Sh(Id#1\"Infinity\"))",
  "Ob(Sh@1-2(Id@3-4#1\"uarr\"))",
  "Ob(Pq@1-2 Pq+1@3-4 Pq+2@5-6(Op) Pq+3@7-8)",
  "Ob(Sp@1-2(Ob(Kv(Ki\"k\" Nl))))",
  "Ob(Sp@1-2(Id#2\"arr\") Sp@3-4(Ar))",
  "Ob(Kv(Ki\"k\" Nl) Sp@1-2(Ob) Pq@3-4 Sh@5-6(Id#2\"z\") Kv(Ki\"l\" Oe@7-8) Op)",
  // Literals.
  "Ss+6@3-8\"a\\xff\"(Op\"'a'\")",
  "Nu+1@4-5=2(Op\"2.0\" Op)",
  "Nu=0xfff8000000001234",
  "Bi+5@1-9=-7(Op\"-7n\")",
  "Bi=0",
  "Bl",
  "Bl+3@1-2(Op)",
  "Nl@1-5(Op)",
  "Re@1-5(Op\"/a/\")",
  "Jt(Op\"text\")",
  // `as const`, `satisfies`, `as`, and what is not looked through.
  "Tc(Nu=1)",
  "Tc+1@1-9(Ar(Nu=1 Ar(Ss\"a\") Ob(Kv(Ki\"k\" Bl+1))) Op)",
  "Tc(Ob(Kv(Ki\"k\" Ar(Nu=1)) Sh(Id#2\"fun\")))",
  "Tc(Ar(Sp(Ar(Nu=1 Ar))))",
  "Tc(Id#1\"undefined\")",
  "Tc(Tc(Bl))",
  "Tc(Oe)",
  "Tc(Aw(No No Ag(Bd(Id#2\"a\" No) Ar(Nu=1))))",
  "Ts(Nu=1 Kw\"any\")",
  "Ts@1-9(Ar(Ss\"a\") Ay)",
  "Ts(Tc(Ss\"a\") Kw\"string\")",
  "Ts(Oe Ay)",
  "Tc(Ts(Te(Qu+1\"q\") Kw\"string\"))",
  "As(Oe Kw\"any\")",
  "As(Ar(Oe@1-2) Tu@3-4(Tm(No Kw\"any\")))",
  "As(Ar(Sp(Oe)) Li+9@1-2(Ps+3(Ss\"s\" Ay) Om Op))",
  "Tc(As(Nu=1 Rf(Id#2\"T\" Op\"<a>\")))",
  "Pr@1-2(Nu=1)",
  "Pr(Ar)",
  "Nn(Ar)",
  "Ta(Ar Ay)",
  "Cx(No Cl(No))",
  "Mb(Id#2\"arr\" Ki\"a\")",
  "Bn(Nu=1 Nu=2)",
  "Oc(Mb(Id#2\"arr\" Ki\"a\"))",
  "Oc(Op)",
  // Function expressions.
  "Fx(No Fu(No No No))",
  "Fx@1-2(Id#2\"f\" Fu+3@5-9(Op\"<T>\" Kw\"void\" Op\"{ }\" Op))",
  "Fx(No Fu(No+1@2-3 Ay No Pa@1-2(Bd(Id#2\"a\" No) Op)))",
  "Fx(No Fu(No No No Pa(Bd+1@1-2(Id+1@3-4#2\"a\"(Op) Ay Op)) Pa(Pb+1@5-6(Tu))))",
  "Fx(No Fu(No No No Pa(Po(No)) Pa(Rs@1-2(Op\"...a\"))))",
  "Fx(No Fu(No No No Pa(Pe@1-2(Oe@3-4)) Pa(Pi) Pa(Bd(Id#2\"a\" No))))",
  "Fx(No Fu(No No No Pa(Ag@1-9(Bd@2-3(Id#2\"a\" No) Nu=1))))",
  "Fx(No Fu(No No No Pa(Ag(Bd(Id#2\"a\" Kw\"any\") Oe))))",
  // Arrows.
  "Aw(No No)",
  "Aw+3@4-9(Op\"<T>\" Tu(Tm(No Ay)) Bd(Id#2\"a\" No) Op)",
  "Aw(No+9@1-3 No Pb(No) Po+1(Ay) Rs Pi Pe@1-2(Id@3-4#2\"e\"))",
  // Defaults: their names, made or kept, and those that are left out.
  "Aw(No No Ag@1-9(Bd+1@2-3(Id+1@4-5#2\"kept\"(Op) No) Ss\"d\"))",
  "Aw(No No Ag@1-9(Pb(No) Nu=1) Ag@2-9(Po(Ay) Bl) Ag@3-9(Rs Nl))",
  "Aw(No No Ag(Ag(Bd(Id#2\"a\" No) Nl) Nu=1) Ag(Pe(Oe) Bi=1) Ag(Pi Bl))",
  "Aw(No No Ag(Pb(No) Oe) Ag(Pb(No) Nu=1) Ag(Bd(Id#2\"a\" No) Pr(Nu=1)))",
  "Aw(No No Ag(Pb(No) Ar@1-2(Oe@3-4)) Ag(Pb(No) Ar(Sp@5-6(Oe))))",
  "Aw(No No Ag@1-9(Pb(No) Aw(No No Ag@2-8(Po(No) Aw(No No Ag@3-7(Pb(No) Nu=1))))))",
  "Aw(No No Ag(Pb(No) Fx(No Fu(No No No Pa(Ag(Po(No) Oe)) Pa(Ag(Po(No) Bl))))))",
  "Ar(Aw(No No Ag(Pb(No) Nu=1)) Aw(No No Ag(Pb(No) Nu=2)) Oe@1-2)",
  "Ob(Kv(Ki\"k\" Aw(No No Ag(Pb(No) Nu=1))) Kv(Ki\"l\" Fx(No Fu(No No No Pa(Ag(Rs Nl))))))",
  "Aw(No No Ag(Pb(No) Id#2\"fun\") Ag(Pb(No) Id#1\"undefined\") Ag(Pb(No) Ne(Id#2\"Cls\" No)))",
  // Failing arrays inside objects inside arrows.
  "Aw(No No Ag(Bd(Id#2\"a\" No) Ob(Kv(Ki\"k\" Ar@1-9(Nu=1 Sp@3-4(Oe))))))",
  "Aw(No No Ag(Pb(No) Ob(Kv(Ki\"k\" Ar@1-9(Aw(No No Ag(Pb(No) Nl)) Sp@3-4(Oe))) Sh@5-6(Id#2\"z\"))))",
  "Ob(Kv(Ki\"f\" Aw(No No Ag(Pb(No) Ar(Ob(Kv(Ki\"k\" Ar@1-2(Sp@3-4(Oe)))) Sp@5-6(Oe))))))",
  "Ar(Ob(Kv(Ki\"f\" Aw(No No Ag(Po(No) Ob(Kv(Ki\"k\" Ar@1-2(Sp@3-4(Nl)))))))) Sp@5-6(Oe))",
  // Templates.
  "Te",
  "Te(Qu+1@1-2\"q\"(Op))",
  "Te(Qu)",
  "Te(Qu+1\"a\" Qu+1\"b\" Op)",
  "Te(Qu+1\"a\" Nu=1)",
  "Te(Nu=1)",
  // Identifiers.
  "Id#1\"undefined\"",
  "Id#1\"NaN\"",
  "Id#1\"Infinity\"",
  "Id#1\"nan\"",
  "Id#2\"undefined\"",
  "Id#2\"NaN\"",
  "Id+3@1-2#2\"fun\"(Op)",
  "Id#2\"arr\"",
  "Id#2\"Cls\"",
  "Id#2\"Gen\"",
  "Id#2\"lit\"",
  "Id#3\"fun\"",
  "Id#1\"uarr\"",
  // Unary minus.
  "Mi(Nu+1@1-2=2(Op\"2.0\"))",
  "Mi@5-9(Nu=0)",
  "Mi(Nu=0x8000000000000000)",
  "Mi(Nu=0x7ff0000000000001)",
  "Mi(Nu=0xffffffffffffffff)",
  "Mi(Bi+1@1-2=5(Op\"5n\"))",
  "Mi(Bi=-12345678901234567890)",
  "Mi(Bi=0)",
  "Mi(Ss\"1\")",
  "Mi(Pr(Nu=1))",
  "Mi(Mi(Nu=1))",
  "Mi(Id#1\"NaN\")",
  // `Object.freeze` of what is typed by its parts.
  "Ca(Mb(Id#1\"Object\" Ki\"freeze\") Ar(Nu=1))",
  "Ca(Mb(Id#1\"Object\" Ki\"freeze\") Ob(Kv(Ki\"k\" Ar(Nu=1)) Sh(Id#2\"fun\")))",
  "Ca(Mb(Id#1\"Object\" Ki\"freeze\") Ob)",
  "Ca(Mb(Id#1\"Object\" Ki\"freeze\") Aw(No No Ag(Pb(No) Nu=1)))",
  "Ca(Mb(Id#1\"Object\" Ki\"freeze\") Fx(No Fu(No No No)))",
  "Ca(Mb(Id#1\"Object\" Ki\"freeze\") Nu=1)",
  "Ca(Mb(Id#1\"Object\" Ki\"freeze\") Ss\"s\")",
  "Ca(Mb(Id#1\"Object\" Ki\"freeze\") Id#2\"arr\")",
  "Ca(Mb(Id#1\"Object\" Ki\"freeze\") Ne(Id#2\"Cls\" No))",
  "Ca(Mb(Id#1\"Object\" Ki\"freeze\") Re)",
  "Ca(Mb(Id#1\"Object\" Ki\"freeze\") Oe)",
  "Ca(Mb(Id#1\"Object\" Ki\"freeze\") Ar@1-2(Oe@3-4 Sp@5-6(Oe)))",
  "Ca(Mb(Id#1\"Object\" Ki\"freeze\") Ob(Kv(Ki\"k\" Oe@1-2) Pq@3-4))",
  "Ca(Mb(Id#1\"Object\" Ki\"freeze\") Tc(Ar(Nu=1)))",
  "Ca(Mb(Id#1\"Object\" Ki\"freeze\") Tc(Ob(Kv(Ki\"k\" Ar(Nu=1)))))",
  "Ca(Mb(Id#1\"Object\" Ki\"freeze\") Ts(Ob(Kv(Ki\"k\" Nu=1)) Ay))",
  "Ca(Mb(Id#1\"Object\" Ki\"freeze\") Te(Qu+1\"q\"))",
  "Ca(Mb(Id#1\"Object\" Ki\"freeze\") Mi(Nu=1))",
  "Ca(Mb(Id#1\"Object\" Ki\"freeze\") Ca(Mb(Id#1\"Object\" Ki\"freeze\") Ob(Kv(Ki\"k\" Nl))))",
  "Ca(Mb(Id#1\"Object\" Ki\"freeze\") Ca(Mb(Id#1\"Object\" Ki\"freeze\") Ar(Sp(Ar))))",
  "Ca(Mb(Id#1\"Object\" Ki\"freeze\") Ar(Ca(Mb(Id#1\"Object\" Ki\"freeze\") Nu@1-2=1)))",
  "Tc(Ca(Mb(Id#1\"Object\" Ki\"freeze\") Ob(Kv(Ki\"k\" Ss\"v\"))))",
  "Ar(Ca@1-2(Mb(Id#1\"Object\" Ki\"freeze\") Nu=1) Ca(Mb(Id#1\"Object\" Ki\"freeze\") Ob))",
  "Ob(Kv(Ki\"k\" Ca(Mb(Id#1\"Object\" Ki\"freeze\") Ob(Kv(Ki\"l\" Ob(Kv(Ki\"m\" Nl)))))))",
  "Ca(Mb(Id#1\"Object\" Ki\"freeze\") Sp(Ar))",
  "Ca(Mb(Id#1\"Object\" Ki\"freeze\") Ar Ar)",
  "Ca(Mb(Id#1\"Object\" Ki\"freeze\"))",
  "Ca(Mb(Id#1\"Object\" Ki\"freeze\") Op)",
  "Ca(Mb(Id#1\"Object\" Ki\"freeze\") Ar Op)",
  "Ca(Mb(Id#2\"Object\" Ki\"freeze\") Ar)",
  "Ca(Mb(Id#1\"Object\" Ki\"seal\") Ar)",
  "Ca(Id#2\"fun\" Ar)",
  // `new`.
  "Ne(Id+1@1-2#2\"Cls\"(Op) No)",
  "Ne(Id#2\"Cls\" No+1@1-2)",
  "Ne(Id#2\"Cls\" Op\"<a>\")",
  "Ne(Id#2\"Gen\" No)",
  "Ne(Id#2\"fun\" No)",
  "Ne(Id#3\"Cls\" No)",
  "Ne(Id#1\"UCls\" No)",
  "Ne(Pr(Id#2\"Cls\") No)",
  "Ne(Oe No)",
  "Ar(Ne(Id#2\"Cls\" No) Id#1\"UCls\" Ne(Id#1\"UCls\" No))",
];

/// Trees of 64 levels, in several ways.
fn deep() -> Vec<Rec> {
  let leaf = |mark: &str| rec(mark, vec![]);
  let no = || leaf("No");
  let key = || leaf("Ki").with_text(b"k");
  let freeze = || {
    let object = leaf("Id").with_text(b"\x01\0\0\0Object");
    rec("Mb", vec![object, leaf("Ki").with_text(b"freeze")])
  };
  let pattern = || rec("Pb", vec![no()]);
  let spread = || rec("Sp", vec![leaf("Oe")]).at(3, 4);
  type Link<'a> = &'a dyn Fn(Rec) -> Rec;
  let array: Link = &|r| rec("Ar", vec![r]);
  let rest: Link = &|r| rec("Ar", vec![rec("Sp", vec![r])]);
  let object: Link = &|r| rec("Ob", vec![rec("Kv", vec![key(), r])]);
  let constant: Link = &|r| rec("Tc", vec![r]);
  let frozen: Link = &|r| rec("Ca", vec![freeze(), r]);
  let arrow: Link =
    &|r| rec("Aw", vec![no(), no(), rec("Ag", vec![pattern(), r])]);
  let failing: Link = &|r| rec("Ar", vec![r, spread()]);
  let mut trees = vec![];
  for (links, inner) in [
    (&[array][..], leaf("Ar")),
    (&[rest], leaf("Ar")),
    (&[object], leaf("Nl")),
    (&[arrow], leaf("Nl")),
    (&[frozen], leaf("Ob")),
    (&[constant, array], leaf("Bl")),
    (&[failing], leaf("Nl")),
    (&[array, object, arrow, frozen, constant], leaf("Bl")),
    (&[arrow, object, failing], leaf("Nl")),
  ] {
    let mut expr = inner;
    for link in links.iter().cycle() {
      let more = link(expr.clone());
      if more.depth() + 2 > MAX_DEPTH {
        break;
      }
      expr = more;
    }
    // What is left of the levels.
    while expr.depth() + 2 < MAX_DEPTH {
      expr = constant(expr);
    }
    trees.push(rec("Mo", vec![rec("Xe", vec![expr])]));
  }
  trees
}
