//! Document 01's samples and its refusal table, and the readings of the
//! design, each with a small tree in notation.

use oracle::call::Answer;
use oracle::call::call;
use oracle::grammar::Refused;
use oracle::lines::parse_hex;
use oracle::notation::parse;
use oracle::notation::show;
use oracle::record::Rec;

fn bytes(tree: &str) -> Vec<u8> {
  parse(tree).unwrap().encode().unwrap()
}

fn run(tree: &[u8], list: &[u8], out: usize, room: usize) -> Answer {
  call(tree, list, 1, &mut vec![0; out], &mut vec![0; room])
}

fn refused(number: u8, place: usize) -> Answer {
  Answer::Refused(Refused { number, place })
}

/// The answer on ample buffers.
fn answer(tree: &str) -> Answer {
  run(&bytes(tree), &[], 65_536, 21_840)
}

/// The tree that is written, with the diagnostics after it.
fn gives_with(tree: &str, list: &[u8]) -> String {
  let mut out = vec![0; 65_536];
  let mut room = vec![0; 21_840];
  let Answer::Done(length, count) =
    call(&bytes(tree), list, 1, &mut out, &mut room)
  else {
    panic!("{tree} is refused")
  };
  let mut text = show(&Rec::read(&out[..length], 0).unwrap().0);
  for d in room.chunks(10).take(count) {
    let (start, end) = oracle::grammar::entry_range(d);
    text += &format!(" d{} {start} {end}", d[1] as char);
  }
  text
}

fn gives(tree: &str) -> String {
  gives_with(tree, &[])
}

#[test]
fn samples() {
  let empty = "Mo(Xe(Ar))";
  assert_eq!(bytes(empty).len(), 45);
  assert_eq!(answer(empty), Answer::Done(170, 0));
  assert_eq!(
    gives(empty),
    r#"Mo(Vd+3(Vr(Bd(Id#0"_dts_1" Ro(Tu)) No)) Xe(Id#0"_dts_1"))"#
  );
  let b = r#"Mo(Vd+2(Vr(Bd@6-7(Id#2"a" No) Id#1"b")))"#;
  assert_eq!(answer(b), Answer::Done(113, 1));
  assert_eq!(
    gives(b),
    r#"Mo(Vd+3(Vr(Bd@6-7(Id#2"a" Kw"any") No))) d2 6 7"#
  );
  let two = gives(r#"Mo(Vd+2(Vr(Bd(Id#2"a" No) Tc(Mi(Nu=2)))))"#);
  assert_eq!(two, r#"Mo(Vd+3(Vr(Bd(Id#2"a" Tl(Nu=-2)) No)))"#);
  assert_eq!(parse("Nu=2").unwrap().text, [0, 0, 0, 0, 0, 0, 0, 64]);
  assert_eq!(parse("Nu=-2").unwrap().text, [0, 0, 0, 0, 0, 0, 0, 192]);
}

#[test]
fn the_refusal_table() {
  let ample = |tree: &[u8], list: &[u8]| run(tree, list, 65_536, 21_840);
  let mo = bytes("Mo");
  let more = [mo.clone(), vec![0]].concat();
  assert_eq!(ample(&vec![0; 524_289], &[]), refused(1, 0));
  assert_eq!(ample(&mo, &[0; 9]), refused(2, 0));
  assert_eq!(ample(&[], &[]), refused(3, 0));
  assert_eq!(answer("zz"), refused(4, 0));
  assert_eq!(answer("Mo(Ed)"), refused(5, 15));
  assert_eq!(answer("Mo@2-1"), refused(6, 0));
  let deep = format!("Mo(Xe({}Nl{}))", "Pr(".repeat(62), ")".repeat(62));
  assert_eq!(answer(&deep), refused(7, 64 * 15));
  assert_eq!(ample(&more, &[]), refused(8, 15));
  assert_eq!(run(&mo, &[], 14, 0), refused(9, 0));
  assert_eq!(run(&mo, &[], 15, 0), Answer::Done(15, 0));
  let b = bytes(r#"Mo(Vd+2(Vr(Bd@6-7(Id#2"a" No) Id#1"b")))"#);
  assert_eq!(run(&b, &[], 113, 9), refused(10, 0));
  assert_eq!(run(&b, &[], 113, 10), Answer::Done(113, 1));
  assert_eq!(run(&b, &[], 112, 9), refused(9, 0));
}

#[test]
fn the_order_of_the_refusals() {
  let long = vec![0; 524_289];
  assert_eq!(run(&long, &[0; 9], 0, 0), refused(1, 0));
  assert_eq!(run(&[], &[0; 9], 0, 0), refused(2, 0));
  let list = |hex: &str| run(&bytes("Mo"), &parse_hex(hex).unwrap(), 15, 0);
  assert_eq!(list("6f760100000001000000"), Answer::Done(15, 0));
  assert_eq!(list("6f760200000001000000"), refused(2, 0));
  assert_eq!(list("6f770100000001000000"), refused(2, 0));
  // A mark out of place before its range, its range before its text.
  assert_eq!(answer("Mo(Vr@2-1)"), refused(5, 15));
  assert_eq!(answer("Mo(Xe@2-1\"x\")"), refused(6, 15));
  let mut cut = bytes("Mo(Im\"xy\")");
  assert_eq!(run(&cut, &[], 99, 99), refused(5, 15));
  cut.pop();
  assert_eq!(run(&cut, &[], 99, 99), refused(3, 15));
  // The root.
  assert_eq!(answer("Xe(Nl)"), refused(5, 0));
  assert_eq!(answer("No"), refused(5, 0));
}

#[test]
fn readings_1_to_3_texts_and_slots() {
  for text in ["", "12345678", "\\xff"] {
    assert_eq!(
      answer(&format!("Mo(Im(Op\"{text}\"))")).to_string()[..2],
      *"ok"
    );
  }
  let literal = |text: &str| answer(&format!("Mo(Xe({text}))"));
  let fine = |answer: Answer| matches!(answer, Answer::Done(..));
  assert!(fine(literal(
    "Nu\"\\xff\\xff\\xff\\xff\\xff\\xff\\xff\\xff\""
  )));
  assert_eq!(literal("Nu\"1234567\""), refused(5, 30));
  for good in ["=0", "=1", "=-1", "=900"] {
    assert!(fine(literal(&format!("Bi{good}"))), "{good}");
  }
  for bad in ["=", "=00", "=01", "=-0", "=1a", "", "\"\\x021\""] {
    assert_eq!(literal(&format!("Bi{bad}")), refused(5, 30), "{bad}");
  }
  assert!(fine(literal("Id#9\"\"")));
  assert_eq!(literal("Id\"abc\""), refused(5, 30));
  assert!(fine(literal("Te(Qu+1\"x\" Qu+3\"\" Qu+2)")));
  assert_eq!(literal("Te(Qu+2\"x\")"), refused(5, 45));
  assert_eq!(literal("Re\"x\""), refused(5, 30));
  assert_eq!(literal("Jt\"x\""), refused(5, 30));
  // Too few children, and a child past the last slot.
  assert_eq!(literal("Fx(No Fu(No No))"), refused(5, 60));
  assert_eq!(literal("Ne(Nl)"), refused(5, 30));
  assert_eq!(literal("As(Nl Rf(Op))"), refused(5, 60));
  assert_eq!(answer("Mo(Vd(Vr(Pb No)))"), refused(5, 45));
  assert_eq!(literal("Tc(Nl Nl)"), refused(5, 60));
  assert_eq!(literal("Ar(No(Op))"), refused(5, 60));
  assert_eq!(literal("Ar(No(zz))"), refused(4, 60));
  // After the first `Op` at the end only `Op`s.
  assert!(fine(literal("Ar(Nl Op Op)")));
  assert_eq!(literal("Ar(Nl Op Nl)"), refused(5, 75));
  assert!(fine(literal("As(Nl Rf(Op No Op))")));
  assert!(fine(literal("Mb(Nl Op Op)")));
}

#[test]
fn readings_4_to_8() {
  let fine = |tree: &str| matches!(answer(tree), Answer::Done(..));
  assert!(fine("Mo(Xe(Te(Qu Qu Nl Nl Nl Op)))"));
  assert_eq!(answer("Mo(Xe(Te(Nl Qu)))"), refused(5, 60));
  // Te of one expression and no Qu, with an `Op` after it.
  let class = |member: &str| format!("Mo(Xd(Cx(No Cl(No {member}))))");
  let property = |key: &str| class(&format!("Cp({key} No No)"));
  assert_eq!(gives(&property("Kc(Te(Ss\"k\" Op))")), property("Ss\"k\""));
  assert_eq!(
    gives(&property("Kc(Te(Qu Ss\"k\"))")),
    class("").replace("No )", "No)")
  );
  // A `Ps` takes an expression, so no `Ki`.
  assert_eq!(answer("Mo(Xe(As(Nl Li(Ps(Ki No)))))"), refused(5, 90));
  // Only the direct left side of a `Pp`'s `Ag`.
  let prop = |left: &str| class(&format!("Co(No Pp(Ag({left} Nl)))"));
  assert_eq!(answer(&prop("Pb(No)")), refused(5, 150));
  assert_eq!(answer(&prop("Po(No)")), refused(5, 150));
  assert!(fine(&prop("Ag(Pb(No) Nl)")));
  assert!(fine(&prop("Rs")));
  assert!(fine(&class("Co(No Pa(Ag(Pb(No) Nl)))")));
  // A missing child: 3 where it would start, 7 on level 65.
  let mut cut = bytes("Mo(Xe(Nl))");
  cut.truncate(30);
  assert_eq!(run(&cut, &[], 99, 99), refused(3, 30));
  let mut deep =
    bytes(&format!("Mo(Xe({}Nl{}))", "Pr(".repeat(62), ")".repeat(62)));
  deep.truncate(64 * 15);
  assert_eq!(run(&deep, &[], 99, 99), refused(7, 64 * 15));
  assert_eq!(answer("Mo(Xe(Ar(No@2-1)))"), refused(6, 45));
  assert_eq!(answer("Mo(Op@2-1)"), refused(6, 15));
  // A setter with the getter's flag too.
  assert_eq!(
    gives(&class("Me+3(Ki\"a\" Fu(No Kw\"any\" No))")),
    class("Me+3(Ki\"a\" Fu(No No No))")
  );
  assert_eq!(
    gives(&class("Me+2(Ki\"a\" Fu(No Kw\"any\" No))")),
    class("Me+2(Ki\"a\" Fu(No Kw\"any\" No))")
  );
}

#[test]
fn reading_9_absent_parts() {
  assert_eq!(
    gives(r#"Mo(Vd(Vr(Bd(Id#2"a" Ay) No+5@1-2)))"#),
    r#"Mo(Vd+1(Vr(Bd(Id#2"a" Ay) No+5@1-2)))"#
  );
  assert_eq!(
    gives(r#"Mo(Fd(Id#2"f" Fu(No+1@1-2 No+2@3-4 No+3@5-6)))"#),
    r#"Mo(Fd+1(Id#2"f" Fu(No+1@1-2 No+2@3-4 No+3@5-6)))"#
  );
  // A made function type has the function's own first child.
  assert_eq!(
    gives("Mo(Xe(Aw(No+1@1-2 No+2@3-4)))"),
    r#"Mo(Vd+3(Vr(Bd(Id#0"_dts_1" Ft(No+1@1-2 Kw"any")) No)) Xe(Id#0"_dts_1"))"#
  );
}

#[test]
fn readings_10_to_13_places_and_made_records() {
  let typed = |expr: &str| {
    gives(&format!(r#"Mo(Vd(Vr(Bd@1-2(Id@3-4#2"a" No) {expr})))"#))
      .replace(r#"Mo(Vd+1(Vr(Bd@1-2(Id@3-4#2"a" "#, "")
      .replace(") No)))", "")
  };
  assert_eq!(typed("Oe"), "Kw\"any\" d2 1 2");
  assert_eq!(typed("Ob@5-6(Sh@7-8(Id@9-10#2\"q\"))"), "Li@5-6 d3 7 8");
  assert_eq!(typed("Ob(Pq@7-8)"), "Li d3 7 8");
  assert_eq!(typed("Ob(Sp@7-8(Ar))"), "Li d4 7 8");
  assert_eq!(typed("Ar@5-6(Sp@7-8(Nl@9-10))"), "Kw\"any\" d4 7 8 d2 1 2");
  assert_eq!(
    typed("Ar@5-6(Oe@7-8)"),
    "Ro(Tu@5-6(Tm(No Kw\"any\"))) d1 7 8"
  );
  assert_eq!(
    typed("Aw(No No Pe@7-8(Nl@9-10))"),
    "Ft(No Kw\"any\") d1 9 10"
  );
  assert_eq!(typed("Aw@5-6(No No Pi)"), "Ft@5-6(No Kw\"any\")");
  assert_eq!(typed("Fx@5-6(No Fu@7-8(No No No))"), "Ft@7-8(No Kw\"any\")");
  // Keys are made afresh.
  assert_eq!(
    typed("Ob(Kv(Ki+9@7-8\"k\"(Op) Nl))"),
    "Li(Ps+1(Id@7-8#0\"k\" Kw\"null\"))"
  );
  assert_eq!(
    typed("Ob(Sh@7-8(Id+9@9-10#1\"NaN\"(Op)))"),
    "Li(Ps+1(Id@9-10#0\"NaN\" Kw\"number\"))"
  );
  // A default: a binding and an identifier with the range of the `Ag`, the
  // name made after the default is typed.
  assert_eq!(
    typed("Aw(No No Ag@7-8(Bd@1-2(Id+1@3-4#5\"p\" Ay) Nl))"),
    "Ft(No Kw\"any\" Bd@7-8(Id@7-8#0\"p\" Kw\"null\"))"
  );
  assert_eq!(
    typed("Aw(No No Ag(Pb(No) Aw(No No Ag(Pi Nl))))"),
    "Ft(No Kw\"any\" Bd(Id#0\"_dts_2\" Ft(No Kw\"any\" Bd(Id#0\"_dts_1\" Kw\"null\"))))"
  );
}

#[test]
fn readings_14_to_19() {
  let typed = |expr: &str| {
    gives(&format!(r#"Mo(Vd(Vr(Bd(Id#2"a" No) {expr})))"#))
      .replace(r#"Mo(Vd+1(Vr(Bd(Id#2"a" "#, "")
      .replace(") No)))", "")
  };
  assert_eq!(typed("Tc(Mi(Nu+4@1-2=2(Op\"2\")))"), "Tl(Nu+4@1-2=-2)");
  assert_eq!(typed("Tc(Nu+4@1-2=2(Op\"2\"))"), "Tl(Nu+4@1-2=2(Op\"2\"))");
  assert_eq!(typed("Tc(Mi(Bi+4@1-2=2(Op\"2\")))"), "Tl(Bi+4@1-2=-2)");
  assert_eq!(typed("Tc(Mi(Bi=0))"), "Tl(Bi=0)");
  assert_eq!(typed("Tc(Mi(Nu=0))"), "Tl(Nu=-0)");
  assert_eq!(
    typed("Tc(Mi(Nu=0x7ff0000000000001))"),
    "Tl(Nu=0xfff0000000000001)"
  );
  // Changed records keep flags and `Op`s.
  assert_eq!(
    gives("Mo+9@1-2(Xe+8@3-4(Nl Op\"x\") Op\"y\")"),
    "Mo+9@1-2(Vd+3(Vr(Bd(Id#0\"_dts_1\" Kw\"null\") No)) Xe+8@3-4(Id#0\"_dts_1\" Op\"x\") Op\"y\")"
  );
  assert_eq!(
    gives("Mo(Ns+4(Op\"n\" Nd+5(Op\"m\" Nb+6@1-2(Op\"z\") Op) Op\"w\"))"),
    "Mo(Ns+5(Op\"n\" Nd+5(Op\"m\" Nb+6@1-2(Op\"z\") Op) Op\"w\"))"
  );
  let class = |key: &str| format!("Mo(Xd(Cx(No Cl(No Cp+4({key} No No)))))");
  assert_eq!(
    gives(&class("Kc+9@1-2(Pr(Id+1@3-4#5\"k\"(Op)) Op)")),
    class("Kc@3-4(Id+1@3-4#5\"k\"(Op))")
  );
  assert_eq!(
    gives(&class(
      "Kc(As(Mb@3-4(Id#1\"Symbol\" Ki\"iterator\" Op) Ay))"
    )),
    class("Kc@3-4(Mb@3-4(Id#1\"Symbol\" Ki\"iterator\" Op))")
  );
  assert_eq!(
    gives("Mo(Xd(Cx(No Cl(No Cp+255(Ki Ay Nl Op)))))"),
    "Mo(Xd(Cx(No Cl(No Cp+252(Ki Ay No Op)))))"
  );
  assert_eq!(
    typed(
      "Ca(Mb(Id#1\"Object\" Ki\"freeze\") As(Nl Li+2@1-2(Ps+8(Nl No Op) Ix+16(Op) Op)))"
    ),
    "Li+2@1-2(Ps+9(Nl No Op) Ix+17(Op) Op)"
  );
  // The prescan is not asked about an unresolved name for `typeof`.
  let declared = "Vd+2(Vr(Bd(Id#1\"q\" Ay) No))";
  let with = |expr: &str| {
    gives(&format!("Mo({declared} Vd(Vr(Bd(Id#2\"a\" No) {expr})))"))
      .replace("Mo(Vd+3(Vr(Bd(Id#1\"q\" Ay) No)) Vd+1(Vr(Bd(Id#2\"a\" ", "")
      .replace(") No)))", "")
  };
  assert_eq!(with("Id#1\"q\""), "Kw\"any\" d2 0 0");
  assert_eq!(
    with("Ar(Sp(Id#1\"q\"))"),
    "Ro(Tu(Tm(No Rt(Tf(Id#1\"q\")))))"
  );
}

#[test]
fn reading_20_a_text_that_no_head_can_hold() {
  let run = |length: usize| {
    let tree = oracle::generate::long_key(length).encode().unwrap();
    run(&tree, &[], 1 << 20, 1 << 10)
  };
  assert!(matches!(run(65_531), Answer::Done(..)));
  assert_eq!(run(65_532), refused(9, 0));
}

#[test]
fn the_overload_list() {
  let function = "Fu(No No Op)";
  let list = parse_hex("6f760100000002000000").unwrap();
  let goes = |item: &str| gives_with(&format!("Mo({item})"), &list) == "Mo";
  let fd = |at: &str| format!("Fd{at}(Id#2\"f\" {function})");
  assert!(goes(&fd("@1-2")));
  assert!(!goes(&fd("@1-3")));
  assert!(goes(&format!("Ed@1-2({})", fd("@3-4"))));
  assert!(!goes(&format!("Ed@3-4({})", fd("@1-2"))));
  assert!(goes(&format!("Xd@1-2(Fx(No {function}))")));
  assert!(!goes(&format!("Xd(Fx@1-2(No {function}))")));
  assert!(!goes(&format!("Xd@1-2(Cx(No Cl(No)))")));
  let class = |member: &str| {
    let tree = format!("Mo(Xd(Cx(No Cl(No {member}))))");
    gives_with(&tree, &list) == "Mo(Xd(Cx(No Cl(No))))"
  };
  assert!(class("Co@1-2(No)"));
  assert!(class(&format!("Me@1-2(Ki {function})")));
  assert!(!class("Cp@1-2(Ki No No)"));
}

#[test]
fn slips_to_shut_out() {
  // An object spread is not an array's.
  let spread = "Vd+2(Vr(Bd(Id#2\"q\" Ay) No)) Xe(Ob(Sp@5-6(Id#2\"q\")))";
  assert_eq!(
    gives(&format!("Mo({spread})")),
    "Mo(Vd+3(Vr(Bd(Id#2\"q\" Ay) No)) Vd+3(Vr(Bd(Id#0\"_dts_1\" Li) No)) Xe(Id#0\"_dts_1\")) d4 5 6"
  );
  // Only the symbol of `Array` counts.
  let array = "Vd+2(Vr(Bd(Id#2\"q\" Rf(Id#9\"Array\" No)) No))";
  let tree = format!("Mo({array} Xe(Ar(Sp(Id#2\"q\"))))");
  assert!(gives(&tree).contains("Rt(Tf(Id#2\"q\"))"));
  // The counter goes on in a namespace and after it.
  let tree = "Mo(Xe(Nl) Ns(Op Nb(Xe(Nl))) Xe(Nl))";
  let text = gives(tree);
  for name in ["_dts_1", "_dts_2", "_dts_3"] {
    assert_eq!(text.matches(name).count(), 2, "{text}");
  }
}
