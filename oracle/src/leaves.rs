//! The cases of the program `test_leaves`: small trees, and what the originals'
//! own functions give for every record of them, as the program prints it.

use std::fmt::Write;

use deno_ast::swc::ast::*;
use deno_ast::swc::atoms::Atom;
use deno_ast::swc::common::Spanned;
use deno_ast::swc::common::SyntaxContext;

use crate::decode;
use crate::fast_check::swc_helpers;
use crate::fast_check::swc_helpers::DeclMutabilityKind;
use crate::fast_check::transform_dts::probe;
use crate::grammar::check;
use crate::lines::hex;
use crate::measure::numbered;
use crate::notation;
use crate::notes::Notes;
use crate::part;
use crate::record::HEAD;
use crate::record::Rec;
use crate::record::rec;

/// The unresolved context of the programs.
pub const UNRESOLVED: u32 = 1;

/// The longest tree that the program takes.
const LONGEST: usize = 4096;

/// The trees, each behind its length in two bytes.
pub fn stdin(trees: &[Vec<u8>]) -> Vec<u8> {
  let mut bytes = vec![];
  for tree in trees {
    let length = u16::try_from(tree.len()).expect("a small tree");
    bytes.extend(length.to_le_bytes());
    bytes.extend(tree);
  }
  bytes
}

/// What the program has to print.
pub fn stdout(trees: &[Vec<u8>]) -> String {
  let mut out = String::new();
  constants(&mut out);
  for (place, tree) in trees.iter().enumerate() {
    write!(out, "{} ", probe::gen_unique_name(place + 1)).unwrap();
    if let Err(no) = check(tree, &[]) {
      writeln!(out, "refused {} at {}", no.number, no.place).unwrap();
      continue;
    }
    writeln!(out, "accepted").unwrap();
    let (tree, _) = Rec::read(tree, 0).expect("an accepted tree reads");
    let (module, _) = decode::module(&tree);
    let mut show = Show {
      module: &module,
      out: &mut out,
      at: 0,
    };
    show.all(&tree);
  }
  large_names(&mut out);
  out
}

fn context() -> SyntaxContext {
  SyntaxContext::from_u32(UNRESOLVED)
}

fn bytes_of(r: Rec) -> String {
  hex(&r.encode().expect("a small record"))
}

fn type_bytes(ty: TsType, notes: &Notes) -> String {
  bytes_of(part::type_record(ty, notes))
}

/// The types that depend on nothing.
fn constants(out: &mut String) {
  let notes = Notes::default();
  for (word, kind) in [
    ("any", TsKeywordTypeKind::TsAnyKeyword),
    ("number", TsKeywordTypeKind::TsNumberKeyword),
    ("boolean", TsKeywordTypeKind::TsBooleanKeyword),
    ("bigint", TsKeywordTypeKind::TsBigIntKeyword),
    ("string", TsKeywordTypeKind::TsStringKeyword),
    ("undefined", TsKeywordTypeKind::TsUndefinedKeyword),
    ("null", TsKeywordTypeKind::TsNullKeyword),
  ] {
    let ty = type_bytes(swc_helpers::ts_keyword_type(kind), &notes);
    writeln!(out, "{word} {ty}").unwrap();
  }
  let any = *swc_helpers::any_type_ann().type_ann;
  writeln!(out, "any_type_ann {}", type_bytes(any, &notes)).unwrap();
  let regex = type_bytes(swc_helpers::regex_type(), &notes);
  writeln!(out, "regex_type {regex}").unwrap();
}

/// The names around the powers of ten, and the last one.
fn large_names(out: &mut String) {
  for digits in 1..20 {
    let power = 10usize.pow(digits);
    writeln!(out, "{}", probe::gen_unique_name(power - 1)).unwrap();
    writeln!(out, "{}", probe::gen_unique_name(power)).unwrap();
  }
  writeln!(out, "{}", probe::gen_unique_name(usize::MAX)).unwrap();
}

/// Prints the lines of one tree's records, in preorder.
struct Show<'a> {
  module: &'a Module,
  out: &'a mut String,
  /// The offset of the record.
  at: usize,
}

impl Show<'_> {
  fn all(&mut self, r: &Rec) {
    self.record(r);
    self.at += HEAD + r.text.len();
    for kid in &r.kids {
      self.all(kid);
    }
  }

  fn line(&mut self, name: &str, answer: &str) {
    writeln!(self.out, "{} {name} {answer}", self.at).unwrap();
  }

  fn truth(&mut self, name: &str, answer: bool) {
    self.line(name, if answer { "yes" } else { "no" });
  }

  fn record(&mut self, r: &Rec) {
    match r.mark() {
      "Ki" | "Kc" => self.key(r),
      "Ss" | "Nu" | "Bi" => {
        self.expression(r);
        self.literal(r);
        self.minus(r);
        self.key(r);
      }
      "Bl" | "Nl" | "Re" | "Jt" => {
        self.expression(r);
        self.literal(r);
        self.minus(r);
      }
      "Id" => {
        self.expression(r);
        self.identifier(r);
      }
      "Te" => {
        self.expression(r);
        self.template(r);
      }
      "Ca" => {
        self.expression(r);
        self.call(r);
      }
      "Ar" | "Ob" | "Fx" | "Aw" | "Mi" | "Ne" | "Mb" | "Bn" | "Oc" | "Tc"
      | "Nn" | "Pr" | "As" | "Ts" | "Ta" | "Cx" | "Oe" => self.expression(r),
      "Kw" | "Tl" | "Rf" | "Tf" | "Li" | "Ay" | "Tu" | "Rt" | "Ro" | "Ft"
      | "Ct" | "Ot" => self.ts_type(r),
      _ => {}
    }
  }

  fn ts_type(&mut self, r: &Rec) {
    let ty = part::ts_type(r);
    self.truth("is_array_type", probe::is_array_type(&ty.node));
    let readonly = swc_helpers::ts_readonly(ty.node);
    self.line("ts_readonly", &type_bytes(readonly, &ty.notes));
  }

  fn expression(&mut self, r: &Rec) {
    let expr = part::expression(r).node;
    self.truth("is_array_lit_init", probe::is_array_lit_init(&expr));
    let symbol = probe::is_well_known_symbol_expr(&expr, context());
    self.truth("is_well_known_symbol_expr", symbol);
  }

  fn literal(&mut self, r: &Rec) {
    let part::Part { node, notes } = part::expression(r);
    let Expr::Lit(lit) = node else { unreachable!() };
    for (word, kind) in [
      ("const", DeclMutabilityKind::Const),
      ("mutable", DeclMutabilityKind::Mutable),
    ] {
      let ty = swc_helpers::maybe_lit_to_ts_type(&lit, kind);
      let ty = ty.map_or("none".to_string(), |ty| type_bytes(ty, &notes));
      self.line("maybe_lit_to_ts_type", &format!("{word} {ty}"));
    }
  }

  /// The type of the literal under a minus.
  fn minus(&mut self, r: &Rec) {
    let part::Part { node, notes } =
      part::expression(&rec("Mi", vec![r.clone()]));
    for (word, as_const) in [("const", true), ("mutable", false)] {
      let expr = node.clone();
      let typing =
        probe::expr_to_ts_type(self.module, context(), expr, as_const, false);
      let ty = typing.ty.map(|ty| type_bytes(ty, &notes));
      let ty = ty.unwrap_or("none".to_string());
      self.line("minus_lit_to_ts_type", &format!("{word} {ty}"));
    }
  }

  fn template(&mut self, r: &Rec) {
    let part::Part { node, notes } = part::expression(r);
    let Expr::Tpl(tpl) = node else { unreachable!() };
    for (word, kind) in [
      ("const", DeclMutabilityKind::Const),
      ("mutable", DeclMutabilityKind::Mutable),
    ] {
      let ty = type_bytes(swc_helpers::tpl_to_ts_type(&tpl, kind), &notes);
      self.line("tpl_to_ts_type", &format!("{word} {ty}"));
    }
  }

  fn call(&mut self, r: &Rec) {
    let part::Part { node, notes } = part::expression(r);
    let Expr::Call(call) = node else {
      unreachable!()
    };
    let answer = match swc_helpers::object_freeze_call_arg(&call, context()) {
      Some(arg) => {
        bytes_of(part::expression_record((*arg.expr).clone(), &notes))
      }
      None => "none".to_string(),
    };
    self.line("object_freeze_call_arg", &answer);
  }

  fn key(&mut self, r: &Rec) {
    let part::Part { node, notes } = part::key(r);
    let answer = match probe::valid_prop_name(&node, context()) {
      Some(PropName::Computed(key)) => {
        // "a fresh Kc over that expression with its range"
        let (span, inner) = (key.span, key.expr.span());
        assert_eq!((span.lo, span.hi), (inner.lo, inner.hi));
        let expr = part::expression_record(*key.expr, &notes);
        format!("computed {}", bytes_of(expr))
      }
      Some(key) => {
        format!("stands {}", bytes_of(part::key_record(key, &notes)))
      }
      None => "none".to_string(),
    };
    self.line("valid_prop_name", &answer);
  }

  fn identifier(&mut self, r: &Rec) {
    let part::Part { node, notes } = part::expression(r);
    let Expr::Ident(ident) = node else {
      unreachable!()
    };
    let answers = probe::prescan_module_ids(self.module, &ident.to_id());
    for (name, answer) in ["typeof_safe", "non_generic_class", "array_typed"]
      .iter()
      .zip(answers)
    {
      self.truth(name, answer);
    }
    let name = Atom::from_bytes(&r.text[4..]);
    let ty = TsType::TsTypeRef(swc_helpers::type_ref(name));
    self.line("type_ref", &type_bytes(ty, &notes));
    let query = typed_where_declared(r, r.clone());
    self.line("ts_type_query", &bytes_of(query));
    let new = rec("Ne", vec![r.clone(), rec("No", vec![])]);
    self.line("reference_to", &bytes_of(typed_where_declared(r, new)));
    let array = rec("Ar", vec![rec("Sp", vec![r.clone()])]);
    let mut tuple = typed_where_declared(r, array);
    self.line("ts_rest_type", &bytes_of(tuple.kids.remove(0)));
  }
}

/// The type of an expression over an identifier, in a module that declares the
/// identifier as a class without type parameters and as an array-typed const,
/// and with another unresolved context than its own.
fn typed_where_declared(id: &Rec, expr: Rec) -> Rec {
  let no = || rec("No", vec![]);
  let class = rec("Cd", vec![id.clone(), rec("Cl", vec![no()])]);
  let pattern = rec("Bd", vec![id.clone(), rec("Ay", vec![])]);
  let array = rec("Vd", vec![rec("Vr", vec![pattern, no()])]).with_flags(2);
  let (module, _) = decode::module(&rec("Mo", vec![class, array]));
  let context = u32::from_le_bytes(id.text[..4].try_into().unwrap());
  let unresolved = SyntaxContext::from_u32(context.wrapping_add(1));
  let part::Part { node, notes } = part::expression(&expr);
  let typing = probe::expr_to_ts_type(&module, unresolved, node, false, false);
  part::type_record(typing.ty.expect("it is declared"), &notes)
}

/// The trees: hand-picked ones for every arm, and random ones.
pub fn trees() -> Vec<Vec<u8>> {
  let mut trees = hand_picked();
  trees.extend(random_trees(150, 5, 260));
  // Refused: cut short, no module, a byte too many.
  trees.push(b"Mo".to_vec());
  trees.push(rec("Xe", vec![]).encode().expect("a small tree"));
  trees.push([rec("Mo", vec![]).encode().unwrap(), vec![0]].concat());
  assert!(trees.iter().all(|tree| tree.len() <= LONGEST));
  trees
}

/// As many random trees, for a longer comparison.
pub fn more_trees(count: usize, seed: u64) -> Vec<Vec<u8>> {
  random_trees(count, seed, LONGEST)
}

fn hand_picked() -> Vec<Vec<u8>> {
  let mut texts = vec![];
  for ty in types() {
    texts.push(format!("Mo(Xe(As(Oe {ty})))"));
  }
  for expr in expressions() {
    texts.push(format!("Mo(Xe(Ob(Kv(Kc({expr}) Oe))))"));
  }
  texts.extend(MODULES.iter().map(|text| text.to_string()));
  texts
    .iter()
    .map(|text| {
      let tree =
        notation::parse(text).unwrap_or_else(|e| panic!("{text}: {e}"));
      let bytes = tree.encode().expect("a small tree");
      assert_eq!(check(&bytes, &[]), Ok(()), "{text}");
      bytes
    })
    .collect()
}

/// Accepted random trees with the programs' unresolved context, of at most so
/// many bytes.
pub fn random_trees(count: usize, seed: u64, longest: usize) -> Vec<Vec<u8>> {
  (0..)
    .map(|number| numbered(seed, number, true))
    .filter(|case| case.unresolved == UNRESOLVED)
    .map(|case| case.tree)
    .filter(|tree| tree.len() <= longest && check(tree, &[]).is_ok())
    .take(count)
    .collect()
}

/// `is_array_type`: every type, and names of arrays, right and nearly right.
fn types() -> Vec<String> {
  let mut types: Vec<String> = [
    "Ay",
    "Ay@3-9(Op\"x\")",
    "Tu",
    "Tu(Tm(Op\"a\" Kw\"any\"))",
    "Ro(Ay)",
    "Ro(Tu)",
    "Ro@1-2(Ro(Ay) Op)",
    "Ro(Kw\"any\")",
    "Ro(Rf(Id#1\"Array\" No))",
    "Ro(Rf(Id#1\"Map\" No))",
    "Rf(Id#1\"Array\" No)",
    "Rf(Id#0\"Array\" Op\"<a>\")",
    "Rf(Id+1#77\"ReadonlyArray\" No)",
    "Rf(Id#1\"ReadonlyArray\" Op)",
    "Rf(Id#1\"ReadonlyArra\" No)",
    "Rf(Id#1\"ReadonlyArrayy\" No)",
    "Rf(Id#1\"Arra\" No)",
    "Rf(Id#1\"Array1\" No)",
    "Rf(Id#1\"array\" No)",
    "Rf(Id#1\"\" No)",
    "Rf(Op\"Array\" No)",
    "Kw\"any\"",
    "Kw+3@1-4\"unknown\"",
    "Kw\"\"",
    "Tl(Ss\"s\")",
    "Tl(Nu=1)",
    "Tl(Bi=-1)",
    "Tl(Bl+1)",
    "Tl(Op\"`a`\")",
    "Tf(Id#2\"a\")",
    "Tf(Op\"a.b\")",
    "Li",
    "Li(Ps+1(Id#0\"a\" Ay) Ix+1 Om)",
    "Rt(Ay)",
    "Ft(No Ay)",
    "Ft(Op\"<T>\" Kw\"any\" Bd(Id#2\"a\" No))",
    "Ct",
  ]
  .map(str::to_string)
  .to_vec();
  // Each kind of type that is one mark: operators other than readonly, too.
  types.extend((0..12).map(|kind| format!("Ot+{kind}")));
  types
}

/// Expressions, each of which is also a computed key.
fn expressions() -> Vec<String> {
  let mut list: Vec<String> = EXPRESSIONS.map(str::to_string).to_vec();
  // Each kind of expression that is one mark.
  list.extend((0..20).map(|kind| format!("Oe+{kind}")));
  for name in [
    "asyncDispose",
    "asyncIterator",
    "dispose",
    "hasInstance",
    "isConcatSpreadable",
    "iterator",
    "match",
    "matchAll",
    "metadata",
    "replace",
    "search",
    "species",
    "split",
    "toPrimitive",
    "toStringTag",
    "unscopables",
    "",
    "i",
    "iterato",
    "iterators",
    "Iterator",
    "isConcatSpreadabl",
    "isConcatSpreadable2",
    "observable",
  ] {
    list.push(format!("Mb(Id#1\"Symbol\" Ki\"{name}\")"));
  }
  for bits in [
    0u64,
    1 << 63,
    0x3ff0_0000_0000_0000,
    0x4000_0000_0000_0000,
    0xbff8_0000_0000_0000,
    1,
    0x8000_0000_0000_0001,
    0x7fef_ffff_ffff_ffff,
    0x7ff0_0000_0000_0000,
    0xfff0_0000_0000_0000,
    0x7ff0_0000_0000_0001,
    0xfff0_0000_0000_0001,
    0x7ff8_0000_0000_0000,
    0xfff8_0000_0000_1234,
    0x7fff_ffff_ffff_ffff,
    0xffff_ffff_ffff_ffff,
    0x0102_0304_0506_0708,
  ] {
    list.push(format!("Nu=0x{bits:016x}"));
  }
  list.push(format!("Bi=-{}", "1234567890".repeat(12)));
  list
}

const EXPRESSIONS: [&str; 96] = [
  // Literals, with flags and raw spellings.
  "Ss\"\"",
  "Ss\"s\"",
  "Ss+6@3-8\"a\\xff\\x00b\"(Op\"'a'\")",
  "Nu+1@4-5=2(Op\"2.0\" Op)",
  "Bi=0",
  "Bi=1",
  "Bi=-1",
  "Bi=10",
  "Bi=-90",
  "Bi+5@1-9=7(Op\"7n\")",
  "Bl",
  "Bl+1",
  "Bl+3@1-2(Op)",
  "Bl+2",
  "Nl@1-5",
  "Re@1-5(Op\"/a/\")",
  "Jt(Op\"text\")",
  // Array literals, and what the prescan looks through.
  "Ar",
  "Ar(Nu=1 No Sp(Ar))",
  "Pr(Ar)",
  "Pr(Pr(Tc(Ar)))",
  "Pr(Nl)",
  "Tc(Ar)",
  "Tc(Tc(Nl))",
  "Ts(Ar Kw\"any\")",
  "Ts(Nl Ay)",
  "Ts(Pr(Ar) Ay)",
  "As(Nl Ay)",
  "As(Nl Ro(Tu))",
  "As(Nl Rf(Id#9\"ReadonlyArray\" No))",
  "As(Ar Kw\"any\")",
  "As(Ar Ot+6)",
  "Ta(Ar Ay)",
  "Nn(Ar)",
  // Keys: what is looked through leads to literals, names and symbols.
  "Id#1\"a\"",
  "Id+1@2-3#2\"undefined\"(Op)",
  "Pr(Ss\"s\")",
  "Pr(Id#2\"a\")",
  "Pr@0-9(Mb@1-8(Id#1\"Symbol\" Ki\"split\"))",
  "Ta(Nu=1 Kw\"any\")",
  "Ta(Id#2\"a\" Ay)",
  "Tc(Bi=-3)",
  "Tc(Id#2\"a\")",
  "Nn(Ss\"n\")",
  "Nn(Mb(Id#1\"Symbol\" Ki\"match\"))",
  "As(Ss\"a\" Kw\"string\")",
  "As(Mi(Nu=1) Kw\"string\")",
  "Ts(Nu=5 Kw\"number\")",
  "Ts(Te(Ss\"inner\") Kw\"number\")",
  "Pr(Ta(Tc(Nn(As(Ts(Te(Ss\"deep\") Ay) Ay))) Ay))",
  "Mi(Nu=2)",
  "Mi(Bi=0)",
  "Mi(Id#2\"a\")",
  "Aw(No No)",
  "Bn(Ss\"s\" Ss\"t\")",
  "Cx(No Cl(No))",
  "Fx(No Fu(No No No))",
  "Ne(Id#2\"a\" No)",
  "Ob",
  // Templates.
  "Te",
  "Te(Op)",
  "Te(Id#2\"a\")",
  "Te(Ss\"s\" Op\"x\")",
  "Te(Ss\"s\" Ss\"t\")",
  "Te(Qu+1\"q\")",
  "Te+9@2-6(Qu+1@3-5\"q\\xff\" Op)",
  "Te(Qu+1\"\")",
  "Te(Qu)",
  "Te(Qu+2(Op))",
  "Te(Qu+3\"q\")",
  "Te(Qu Qu+1\"second\")",
  "Te(Qu+1\"first\" Qu)",
  "Te(Qu+1\"q\" Ss\"s\")",
  "Te(Qu+1\"q\" Qu+1\"r\" Id#2\"a\")",
  // Members: `Symbol` in the unresolved context only, a name only.
  "Mb(Id#2\"Symbol\" Ki\"iterator\")",
  "Mb(Id#257\"Symbol\" Ki\"iterator\")",
  "Mb(Id#1\"symbol\" Ki\"iterator\")",
  "Mb(Id#1\"Symbols\" Ki\"iterator\")",
  "Mb(Id#1\"Symbol\" Op\"iterator\")",
  "Mb(Id#1\"Symbol\" Op+1\"iterator\")",
  "Mb(Pr(Id#1\"Symbol\") Ki\"iterator\")",
  "Mb+7@3-9(Id+1#1\"Symbol\"(Op) Ki\"dispose\"(Op) Op)",
  "Oc(Mb(Id#1\"Symbol\" Ki\"iterator\"))",
  "Oc(Op)",
  // Calls of `Object.freeze`, right and nearly right.
  "Ca(Mb(Id#1\"Object\" Ki\"freeze\") Ar@4-6(Nu=1))",
  "Ca@1-9(Mb(Id+1#1\"Object\"(Op) Ki\"freeze\"(Op) Op) Id#2\"a\" Op\"x\" Op)",
  "Ca(Mb(Id#1\"Object\" Ki\"freeze\"))",
  "Ca(Mb(Id#1\"Object\" Ki\"freeze\") Op)",
  "Ca(Mb(Id#1\"Object\" Ki\"freeze\") Sp(Ar))",
  "Ca(Mb(Id#1\"Object\" Ki\"freeze\") Ar Ar)",
  "Ca(Mb(Id#1\"Object\" Ki\"freeze\") Ar Sp(Ar))",
  "Ca(Mb(Id#2\"Object\" Ki\"freeze\") Ar)",
  "Ca(Mb(Id#1\"Objec\" Ki\"freeze\") Ar)",
  "Ca(Mb(Id#1\"Object\" Ki\"freez\") Ar)",
  "Ca(Mb(Id#1\"Object\" Ki\"Freeze\") Ar)",
  "Ca(Mb(Id#1\"Object\" Op\"freeze\") Ar)",
];

/// Whole modules: the rest of the calls, the other expressions, every kind of
/// key, and the ways in which a module declares a name, or does not.
const MODULES: &[&str] = &[
  "Mo",
  "Mo(Op)",
  "Mo(Im St(Op\"x\") Us In Ty)",
  "Mo(Xe(Ca(Mb(Pr(Id#1\"Object\") Ki\"freeze\") Ar)))",
  "Mo(Xe(Ca(Id#1\"freeze\" Ar)))",
  "Mo(Xe(Ca(Pr(Mb(Id#1\"Object\" Ki\"freeze\")) Ar)))",
  "Mo(Xe(Ca(Oe Ar)))",
  "Mo(Xe(Ca(Oe+1 Ar)))",
  "Mo(Xe(Ca(Oe+2 Ar)))",
  "Mo(Xe(Ne(Id#2\"a\" No)))",
  "Mo(Xe(Bn(Id#2\"a\" Ar)))",
  "Mo(Xe(Ob(Sh(Id#2\"a\") Pq Sp(Ar))))",
  "Mo(Xe(Fx(No Fu(No No No))))",
  "Mo(Xe(Aw(No Ay Bd(Id#2\"a\" Tu))))",
  "Mo(Xe(Cx(No Cl(No))))",
  // Keys that stand, in classes and in objects.
  "Mo(Xd(Cx(No Cl(No Me(Ki\"m\" Fu(No No No)) Cp(Ss\"s\" No No)))))",
  "Mo(Xd(Cx(No Cl(No Cp+8@1-2(Nu+1@3-4=2(Op\"2.\") No No) Cp(Bi=-5 Ay Ar)))))",
  "Mo(Xd(Cx(No Cl(No Me+4(Kc@2-5(Id#2\"a\") Fu(No No No)) Ix Dm Co(No)))))",
  "Mo(Xe(Ob(Kv(Ki\"k\" Nl) Kv(Ki+3@1-2\"\"(Op) Nl))))",
  "Mo(Xe(Ob(Kv(Kc+1@1-9(Ss\"s\" Op) Nl) Kv(Bi=0 Nl) Kv(Nu=0 Nl))))",
  // Functions.
  "Mo(Fd(Id#2\"f\" Fu(No No No)) Xe(Id#2\"f\"))",
  "Mo(Ed(Fd+1(Id#2\"f\" Fu(Op Ay No))) Xe(Id#2\"f\") Xe(Id#3\"f\"))",
  "Mo(Xd(Fx(Id#2\"f\" Fu(No No No))) Xe(Id#2\"f\"))",
  "Mo(Xd(Fx(No Fu(No No No))) Xe(Id#2\"f\"))",
  "Mo(Xe(Fx(Id#2\"f\" Fu(No No No))) Xe(Id#2\"f\"))",
  // Classes, with type parameters and without.
  "Mo(Cd(Id#2\"C\" Cl(No)) Xe(Id#2\"C\"))",
  "Mo(Cd(Id#2\"C\" Cl(Op\"<T>\")) Xe(Id#2\"C\"))",
  "Mo(Ed(Cd(Id#2\"C\" Cl(No))) Xe(Id#2\"C\") Xe(Id#1\"C\"))",
  "Mo(Ed(Cd(Id#2\"C\" Cl(Op))) Xe(Id#2\"C\"))",
  "Mo(Xd(Cx(Id#2\"C\" Cl(No))) Xe(Id#2\"C\"))",
  "Mo(Xd(Cx(Id#2\"C\" Cl(Op))) Xe(Id#2\"C\"))",
  "Mo(Xd(Cx(No Cl(No))) Xe(Id#2\"C\"))",
  "Mo(Xe(Cx(Id#2\"C\" Cl(No))) Xe(Id#2\"C\"))",
  "Mo(Cd(Id#2\"C\" Cl(Op)) Cd(Id#2\"C\" Cl(No)) Xe(Id#2\"C\"))",
  "Mo(Cd(Id#258\"C\" Cl(No)) Xe(Id#2\"C\"))",
  "Mo(Cd(Id#2\"C\" Cl(No)) Xe(Id#2\"Cc\") Xe(Id#2\"\"))",
  "Mo(Xd(In) Xe(Id#2\"C\"))",
  // Consts, by type and by init; other variables.
  "Mo(Vd+2(Vr(Bd(Id#2\"a\" Kw\"any\") No)) Xe(Id#2\"a\"))",
  "Mo(Vd+2(Vr(Bd(Id#2\"a\" Ay) No)) Xe(Id#2\"a\"))",
  "Mo(Vd+2(Vr(Bd(Id#2\"a\" Kw\"any\") Ar)) Xe(Id#2\"a\"))",
  "Mo(Vd+2(Vr(Bd(Id#2\"a\" Rf(Id#5\"Array\" No)) Nl)) Xe(Id#2\"a\"))",
  "Mo(Vd+2(Vr(Bd(Id#2\"a\" No) Ar)) Xe(Id#2\"a\"))",
  "Mo(Vd+3(Vr(Bd(Id#2\"a\" No) Pr(Tc(Ar)))) Xe(Id#2\"a\"))",
  "Mo(Vd+2(Vr(Bd(Id#2\"a\" No) As(Nl Tu))) Xe(Id#2\"a\"))",
  "Mo(Vd+2(Vr(Bd(Id#2\"a\" No) As(Ar Kw\"any\"))) Xe(Id#2\"a\"))",
  "Mo(Vd+2(Vr(Bd(Id#2\"a\" No) Fx(No Fu(No No No)))) Xe(Id#2\"a\"))",
  "Mo(Vd+2(Vr(Bd(Id#2\"a\" No) Aw(No No))) Xe(Id#2\"a\"))",
  "Mo(Vd+2(Vr(Bd(Id#2\"a\" No) Pr(Aw(No No)))) Xe(Id#2\"a\"))",
  "Mo(Vd+2(Vr(Bd(Id#2\"a\" No) Nl)) Xe(Id#2\"a\"))",
  "Mo(Vd+2(Vr(Bd(Id#2\"a\" No) No)) Xe(Id#2\"a\"))",
  "Mo(Vd(Vr(Bd(Id#2\"a\" Ay) No)) Xe(Id#2\"a\"))",
  "Mo(Vd+1(Vr(Bd(Id#2\"a\" Ay) Ar)) Xe(Id#2\"a\"))",
  "Mo(Vd+4(Vr(Bd(Id#2\"a\" No) Aw(No No))) Xe(Id#2\"a\"))",
  "Mo(Vd+254(Vr(Bd(Id#2\"a\" Ay) No)) Xe(Id#2\"a\"))",
  "Mo(Vd+2(Vr(Pb(Ay) Ar) Vr(Po(Ay) Ar) Vr(Rs Ar)) Xe(Id#2\"a\"))",
  "Mo(Vd+2(Vr(Ag(Bd(Id#2\"a\" Ay) Ar) Ar)) Xe(Id#2\"a\"))",
  "Mo(Vd+2(Vr(Pe(Id#2\"a\") Ar) Vr(Pi Ar)) Xe(Id#2\"a\"))",
  "Mo(Vd+2(Vr(Pi No) Vr(Bd(Id#2\"b\" No) Ar) Vr(Bd(Id#2\"a\" Ay) No)) Xe(Id#2\"a\"))",
  "Mo(Vd+2(Vr(Bd(Id#2\"a\" No) Nl)) Vd+2(Vr(Bd(Id#2\"a\" No) Ar)) Xe(Id#2\"a\"))",
  "Mo(Vd+2(Vr(Bd(Id#2\"a\" Ay) No) Op) Op)",
  "Mo(Ed(Vd+2(Vr(Bd(Id#2\"a\" Ay) No))) Xe(Id#2\"a\"))",
  "Mo(Ed(Vd(Vr(Bd(Id#2\"a\" Ay) No))) Xe(Id#2\"a\"))",
  // What is no module-level declaration of this kind.
  "Mo(En(Id#2\"a\") Xe(Id#2\"a\"))",
  "Mo(Ed(En(Id#2\"a\" Em(Op Id#2\"a\"))) Xe(Id#2\"a\"))",
  "Mo(Ns(Op\"a\" Nb(Vd+2(Vr(Bd(Id#2\"a\" Ay) No)) Cd(Id#2\"C\" Cl(No)))) Xe(Id#2\"a\"))",
  "Mo(Ed(Ns(Op No)) Ed(Us) Ed(In) Ed(Ty) Xe(Id#2\"a\"))",
  "Mo(Xe(Aw(No No Bd(Id#2\"a\" Ay))) Xe(Id#2\"a\"))",
];
