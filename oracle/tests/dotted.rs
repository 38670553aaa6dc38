//! Document 02's §2: an `Nd` keeps head, name and `Op`s, and its body is
//! transformed within it.

use oracle::call::Answer;
use oracle::call::Diagnostic;
use oracle::call::call;
use oracle::call::transform;
use oracle::call::unchanged;
use oracle::depths;
use oracle::dotted::cut;
use oracle::generate::Case;
use oracle::generate::dotted_limits;
use oracle::generate::entry;
use oracle::grammar::Refused;
use oracle::grammar::check;
use oracle::measure::Dotted;
use oracle::measure::links;
use oracle::measure::numbered;
use oracle::measure::numbered_dotted;
use oracle::measure::twice;
use oracle::notation::parse;
use oracle::notation::show;
use oracle::record::Rec;
use oracle::record::rec;

fn run(tree: &Rec, list: &[u8], out: usize, room: usize) -> Answer {
  let bytes = tree.encode().unwrap();
  call(&bytes, list, 1, &mut vec![0; out], &mut vec![0; room])
}

/// The tree that is written, with the diagnostics after it.
fn gives_with(tree: &str, list: &[u8]) -> String {
  let bytes = parse(tree).unwrap().encode().unwrap();
  let (mut out, mut room) = (vec![0; 65_536], vec![0; 21_840]);
  let answer = call(&bytes, list, 1, &mut out, &mut room);
  let Answer::Done(length, count) = answer else {
    panic!("{tree}: {answer}")
  };
  let mut text = show(&Rec::read(&out[..length], 0).unwrap().0);
  for d in room.chunks(10).take(count) {
    let (start, end) = oracle::grammar::entry_range(d);
    text += &format!(" d{} {start} {end}", d[1] as char);
  }
  text
}

fn gives(tree: &str) -> String {
  gives_with(tree, &[])
}

fn refused(number: u8, place: usize) -> Answer {
  Answer::Refused(Refused { number, place })
}

#[test]
fn names_stay_and_declare_goes() {
  assert_eq!(
    gives(
      r#"Mo(Ns(Op"A" Nd(Op"B" Nd(Op"C" Nb(Vd+3(Vr(Bd(Id#2"a" Kw"any") No)))))))"#
    ),
    r#"Mo(Ns+1(Op"A" Nd(Op"B" Nd(Op"C" Nb(Vd+2(Vr(Bd(Id#2"a" Kw"any") No)))))))"#
  );
  // Each mark that has declare, with it and without.
  let name = r#"Id#2"a""#;
  for rest in [
    format!("Fd+F({name} Fu(No No No))"),
    format!("Cd+F({name} Cl(No))"),
    "Vd+F".to_string(),
    format!("En+F({name})"),
    "Ns+F(Op No)".to_string(),
  ] {
    for flags in [4, 5] {
      let inner = rest.replace("+F", &format!("+{flags}"));
      let left = rest.replace("+F", "+4");
      let got = rest.replace("+F", "+5");
      assert_eq!(
        gives(&format!("Mo({inner} Ns(Op Nd(Op Nb({inner}))) {inner})")),
        format!("Mo({got} Ns+1(Op Nd(Op Nb({left}))) {got})")
      );
    }
  }
}

#[test]
fn head_name_and_ops_stay() {
  for flags in 0..=255 {
    let dotted = format!(
      r#"Nd+{flags}@3-9(Op+7@4-5"m"(Op"k") Nb+6@1-2(Op"z") Op"x"(Op) Op+1@2-2)"#
    )
    .replace("+0@", "@");
    assert_eq!(
      gives(&format!(r#"Mo(Ns+4@8-9(Op"n" {dotted} Op"w"))"#)),
      format!(r#"Mo(Ns+5@8-9(Op"n" {dotted} Op"w"))"#)
    );
  }
  let last = r#"Nd@4294967294-4294967295(Op"\xff\x00" Nb)"#;
  assert_eq!(
    gives(&format!("Mo(Ns(Op Nd(Op {last})))")),
    format!("Mo(Ns+1(Op Nd(Op {last})))")
  );
}

/// The items are transformed as in any `Nb`.
#[test]
fn items_within() {
  let items = r#"St@1-2 Im@1-2 Us@1-2 Ed@3-4(Us@5-6) In Ty Xe(Id#2"b") Ed(Vd+1) Xd(Fx(No Fu(No No Op Pa(Bd(Id#2"p" No)))))"#;
  let left = r#"Im@1-2 Us@1-2 In Ty Xe(Id#2"b") Ed(Vd) Xd(Fx(No Fu(No No No Pa(Bd(Id#2"p" No)))))"#;
  assert_eq!(
    gives(&format!(r#"Mo(Ns(Op"A" Nd(Op"B" Nb({items}))))"#)),
    format!(r#"Mo(Ns+1(Op"A" Nd(Op"B" Nb({left})))) d5 5 6 d1 3 4"#)
  );
  // No name within is the module's, and the module's are seen within.
  let declared = r#"Vd+2(Vr(Bd(Id#2"q" Ay) No))"#;
  let made = r#"Vd+3(Vr(Bd(Id#2"q" Ay) No))"#;
  let used = r#"Vd(Vr(Bd@1-2(Id#3"u" No) Ar(Sp@5-6(Id#2"q"))))"#;
  assert_eq!(
    gives(&format!("Mo(Ns(Op Nd(Op Nb({declared} {used}))))")),
    format!(
      r#"Mo(Ns+1(Op Nd(Op Nb({declared} Vd(Vr(Bd@1-2(Id#3"u" Kw"any") No)))))) d4 5 6 d2 1 2"#
    )
  );
  assert_eq!(
    gives(&format!("Mo({declared} Ns(Op Nd(Op Nb({used}))))")),
    format!(
      r#"Mo({made} Ns+1(Op Nd(Op Nb(Vd(Vr(Bd@1-2(Id#3"u" Ro(Tu(Tm(No Rt(Tf(Id#2"q")))))) No))))))"#
    )
  );
}

#[test]
fn a_chain_in_a_chain() {
  assert_eq!(
    gives(
      r#"Mo(Ns(Op"A" Nd+1(Op"B" Nb(Ns+1(Op"C" Nd+1(Op"D" Nd(Op"E" Nb(Ns+1(Op"F" Nb) Vd+1)) Op"x")) Ed(Ns+3(Op"G" Nd@1-2(Op"H" Nb)))))))"#
    ),
    r#"Mo(Ns+1(Op"A" Nd+1(Op"B" Nb(Ns(Op"C" Nd+1(Op"D" Nd(Op"E" Nb(Ns(Op"F" Nb) Vd)) Op"x")) Ed(Ns+2(Op"G" Nd@1-2(Op"H" Nb)))))))"#
  );
}

#[test]
fn exported() {
  assert_eq!(
    gives(
      r#"Mo(Ed+2@1-9(Ns@3-9(Op"A" Nd+9@4-9(Op"B" Nb(Ed(Vd+1) St))) Op"x"))"#
    ),
    r#"Mo(Ed+2@1-9(Ns+1@3-9(Op"A" Nd+9@4-9(Op"B" Nb(Ed(Vd)))) Op"x"))"#
  );
}

#[test]
fn diagnostics_and_names_in_order() {
  let made = |number: usize, ty: &str, range: &str| {
    let name = format!(r#"Id#0"_dts_{number}""#);
    format!("Vd+3(Vr(Bd({name} {ty}) No)) Xe{range}({name})")
  };
  let tree = "Mo(Xe(Nl) Ns(Op Nd@1-9(Op Nd@2-9(Op Nb(Xe@3-4(Ob(Pq@5-6)) \
    Ns(Op Nd(Op Nb(Ed@7-8(Us@9-9) Xe(Nl)))))))) Xe(Ar(Oe@8-9)))";
  let wanted = format!(
    "Mo({} Ns+1(Op Nd@1-9(Op Nd@2-9(Op Nb({} Ns(Op Nd(Op Nb({}))))))) {}) \
    d3 5 6 d5 9 9 d1 7 8 d1 8 9",
    made(1, "Kw\"null\"", ""),
    made(2, "Li", "@3-4"),
    made(3, "Kw\"null\"", ""),
    made(4, "Ro(Tu(Tm(No Kw\"any\")))", ""),
  );
  assert_eq!(gives(tree), wanted);
  // The depth counts `Ns` alone.
  let marked = depths::marked(&parse(tree).unwrap(), &[], 1);
  let at: Vec<_> = marked.iter().map(|m| (m.at.depth, m.at.dots)).collect();
  assert_eq!(at, [(1, 2), (2, 3), (2, 3), (0, 0)]);
}

#[test]
fn a_list_that_names_a_function_within() {
  let function = r#"Fd@3-8(Id#2"f" Fu(No No Op))"#;
  let tree = format!("Mo(Ns(Op Nd@1-9(Op Nb({function} Vd@3-8))))");
  let left = r#"Fd@3-8(Id#2"f" Fu(No No No))"#;
  let whole = format!("Mo(Ns+1(Op Nd@1-9(Op Nb({left} Vd@3-8))))");
  assert_eq!(gives_with(&tree, &entry(3, 9)), whole);
  assert_eq!(
    gives_with(&tree, &entry(3, 8)),
    "Mo(Ns+1(Op Nd@1-9(Op Nb(Vd@3-8))))"
  );
  // The range of an `Nd` says nothing there.
  assert_eq!(gives_with(&tree, &entry(1, 9)), whole);
}

/// A chain of so many `Nd`, each with a head of its own, around a body.
fn chain(count: usize, mut body: Rec) -> Rec {
  for number in (0..count).rev() {
    let name = rec("Op", vec![]).with_text(format!("n{number}").as_bytes());
    let at = number as u32;
    body = rec("Nd", vec![name, body])
      .with_flags(4 * number as u8)
      .at(at, 2 * at);
  }
  rec("Mo", vec![rec("Ns", vec![rec("Op", vec![]), body])])
}

#[test]
fn as_many_levels_as_there_are() {
  let written = |tree: &Rec| {
    let (mut out, mut room) = (vec![0; 65_536], vec![0; 100]);
    let bytes = tree.encode().unwrap();
    let answer = call(&bytes, &[], 1, &mut out, &mut room);
    let Answer::Done(length, 0) = answer else {
      panic!("{answer}")
    };
    Rec::read(&out[..length], 0).unwrap().0
  };
  let with_declare = |mut tree: Rec| {
    tree.kids[0].flags = 1;
    tree
  };
  let empty = || rec("Nb", vec![]);
  let longest = chain(61, empty());
  assert_eq!(longest.depth(), 64);
  assert_eq!(written(&longest), with_declare(longest));
  let with = |mark: &str, flags: u8| {
    chain(60, rec("Nb", vec![rec(mark, vec![]).with_flags(flags)]))
  };
  assert_eq!(with("Vd", 1).depth(), 64);
  assert_eq!(written(&with("Vd", 1)), with_declare(with("Vd", 0)));
  assert_eq!(written(&with("St", 0)), with_declare(chain(60, empty())));
  // One level more: the name of the last `Nd` is the first record there.
  let long = chain(62, empty());
  assert_eq!(long.depth(), 65);
  let others: usize = (0..61).map(|n| 30 + format!("n{n}").len()).sum();
  assert_eq!(run(&long, &[], 65_536, 99), refused(7, 45 + others + 15));
}

#[test]
fn the_buffer_holds_the_names_too() {
  let text = r#"Mo(Ns(Op"A" Nd(Op"Evening" Nb(Ed@1-2(Us)) Op)))"#;
  let tree = parse(text).unwrap();
  let whole = 15 * 7 + 8;
  let without = 15 * 4 + 1;
  assert_eq!(run(&tree, &[], whole, 20), Answer::Done(whole, 2));
  assert_eq!(run(&tree, &[], whole - 1, 20), refused(9, 0));
  assert_eq!(run(&tree, &[], whole, 19), refused(10, 0));
  assert_eq!(run(&tree, &[], whole - 1, 19), refused(9, 0));
  // Room for what the Rust makes of the tree without the chain.
  let (short, diagnostics) = unchanged(&cut(&tree).0, &[], 1);
  assert_eq!(short.encode().unwrap().len(), without);
  assert_eq!(diagnostics.len(), 2);
  assert_eq!(run(&tree, &[], without, 20), refused(9, 0));
}

#[test]
fn refusals_are_about_the_whole_tree() {
  let answer = |tree: &str| run(&parse(tree).unwrap(), &[], 999, 99);
  assert_eq!(answer("Mo(Ns(Op Nd(Op)))"), refused(5, 45));
  assert_eq!(answer("Mo(Ns(Op Nd(Op No)))"), refused(5, 75));
  assert_eq!(answer("Mo(Ns(Op Nd(Op Nb Nb)))"), refused(5, 90));
  assert_eq!(answer("Mo(Ns(Op Nd(Op Nb Op Nb)))"), refused(5, 105));
  assert_eq!(answer("Mo(Ns(Op Nd\"x\"(Op Nb)))"), refused(5, 45));
  assert_eq!(answer("Mo(Ns(Op Nd@2-1(Op Nb)))"), refused(6, 45));
  assert_eq!(answer("Mo(Ns(Op Nd(Op@2-1 Nb)))"), refused(6, 60));
  assert_eq!(answer("Mo(Nd(Op Nb))"), refused(5, 15));
  assert_eq!(answer("Mo(Ns(Op Nb(Nd(Op Nb))))"), refused(5, 60));
  assert_eq!(answer("Mo(Ed(Nd(Op Nb)))"), refused(5, 30));
}

/// What the request changes: the Rust alone has no `Nd` in its answer, and the
/// same answer to the tree without the chains.
#[test]
fn the_rust_alone() {
  let tree = r#"Mo(Ns(Op"A" Nd(Op"B" Nd(Op"C" Nb(Ed@1-2(Us@3-4) Vd+1)))))"#;
  let tree = parse(tree).unwrap();
  let (output, diagnostics) = unchanged(&tree, &[], 1);
  assert_eq!(show(&output), r#"Mo(Ns+1(Op"A" Nb(Vd)))"#);
  let d = |digit: u8, start: u32, end: u32| Diagnostic { digit, start, end };
  assert_eq!(diagnostics, [d(5, 3, 4), d(1, 1, 2)]);
  assert_eq!(unchanged(&cut(&tree).0, &[], 1), (output, diagnostics));
}

/// The tree with the innermost `Nb` in place of each chain.
fn erased(r: &Rec) -> Rec {
  match r.is("Nd") {
    true => erased(&r.kids[1]),
    false => with_parts(r, erased),
  }
}

/// The tree with one namespace within another for each dot, as the handbook
/// reads it. Within a namespace declare goes.
fn nested(r: &Rec) -> Rec {
  let mut nested = with_parts(r, nested);
  if !r.is("Nd") {
    return nested;
  }
  nested.mark = *b"Ns";
  nested.flags &= !1;
  rec("Nb", vec![rec("Ed", vec![nested])])
}

fn with_parts(r: &Rec, each: fn(&Rec) -> Rec) -> Rec {
  Rec {
    text: r.text.clone(),
    kids: r.kids.iter().map(each).collect(),
    ..*r
  }
}

/// What holds of each accepted tree; whether it holds an `Nd`, and whether the
/// list changes its answer.
fn holds(case: &Case) -> Option<(bool, bool)> {
  check(&case.tree, &case.list).ok()?;
  let (tree, _) = Rec::read(&case.tree, 0)?;
  let rust = |tree: &Rec| unchanged(tree, &case.list, case.unresolved);
  let (output, diagnostics) = transform(&tree, &case.list, case.unresolved);
  // Every head, name and `Op` is as it was.
  assert!(links(&output) == links(&tree));
  // Without the chains it is the Rust's answer to the tree without them, which
  // is its answer to the tree itself.
  let without = (erased(&output), diagnostics.clone());
  assert!(cut(&tree).0 == erased(&tree));
  assert!(without == rust(&erased(&tree)));
  assert!(without == rust(&tree));
  // With one namespace within another for each dot it is the Rust's answer to
  // the tree with those.
  assert!((nested(&output), diagnostics) == rust(&nested(&tree)));
  let listed = transform(&tree, &[], case.unresolved).0 != output;
  Some((links(&tree) != [], listed))
}

#[test]
fn random_cases() {
  let (mut dotted, mut listed) = (0, 0);
  for number in 0..20_000 {
    if let Some((true, hit)) = holds(&numbered_dotted(31, number, true)) {
      dotted += 1;
      listed += hit as u32;
    }
  }
  assert!(dotted > 12_000 && listed > 2_000, "{dotted} {listed}");
}

#[test]
fn fixed_cases() {
  let cases = dotted_limits();
  let dotted = cases
    .iter()
    .filter(|case| holds(case) == Some((true, false)));
  assert!(dotted.count() > 150);
}

/// Ordinary cases: a tree without an `Nd` is the Rust's alone.
#[test]
fn ordinary_cases() {
  let mut counts = [0; 2];
  for number in 0..20_000 {
    if let Some((dotted, _)) = holds(&numbered(32, number, true)) {
      counts[dotted as usize] += 1;
    }
  }
  assert!(counts.iter().all(|count| *count > 1_000), "{counts:?}");
}

#[test]
fn a_second_pass_changes_nothing() {
  let random = (0..20_000).map(|number| numbered_dotted(33, number, true));
  let twice = twice(random.chain(dotted_limits()));
  assert!(twice.failed.is_empty());
  assert!(twice.met > 9_000 && twice.dotted > 9_000, "{}", twice.met);
}

/// What the cases hold.
#[test]
fn chains_of_every_length() {
  let mut dotted = Dotted::default();
  for number in 0..20_000 {
    dotted.add(&numbered_dotted(34, number, false));
  }
  assert_eq!(dotted.changed, 0);
  assert!((1..=61).all(|length| dotted.longest.contains_key(&length)));
  assert_eq!(dotted.longest.keys().max(), Some(&61));
  assert!(dotted.in_another > 3_000);
  for number in 2..=10 {
    assert!(dotted.refused.get(&number).is_some_and(|n| *n > 100));
  }
}
