//! Small trees with their texts, written by hand from TEXT.md: its own samples,
//! each of its rows with and without what the row may leave out, and its rules.

/// A tree, and the lines of its text.
pub const SAMPLES: &[(&str, &[&str])] = &[
  // TEXT.md's own; the first is what the transform makes of Mo(Xe(Ar)).
  (
    r#"Mo(Vd+3(Vr(Bd(Id#0"_dts_1" Ro(Tu)) No)) Xe(Id#0"_dts_1"))"#,
    &[
      "declare const _dts_1 : readonly [ ]",
      "export default _dts_1",
    ],
  ),
  (
    r#"Mo(Ns+1(Op"A" Nb(Ed(Vd+2(Vr(Bd(Id#2"a" Kw"any") No))))))"#,
    &["declare namespace A {", "  export const a : any", "}"],
  ),
  (
    r#"Mo(Xe(Te(Qu+1"a" Qu+1"b" Id#2"c")))"#,
    &["export default `a${ c }b`"],
  ),
  (
    r#"Mo(Cd+1(Id#2"A" Cl(No
      Me+4(Ki"m" Fu(No Kw"void" No Pa(Bd(Id+1#2"x" Kw"number"))) Op"public")
      Cp(Ki"p" Kw"string" No) Op"extends B")))"#,
    &[
      "declare class A extends B { public static m ( x ? : number ) : void ; p : string ; }",
    ],
  ),
  // Items are lines; an St is none, and an item without tokens is one. No item
  // ends in `;`, and what it holds isn't looked at for one.
  ("Mo", &[]),
  ("Mo(St St)", &[]),
  (r#"Mo(St(Op"x") Im(Op"a") St Im(Op"b;") St)"#, &["a", "b;"]),
  ("Mo(Im In(Op) Ty(Op(Op Op)))", &["", "", ""]),
  (
    r#"Mo(Ns(Op"A" Nb(Im St Ns(Op"B" Nb(Im(Op) Us(Op"u"))))))"#,
    &[
      "namespace A {",
      "  ",
      "  namespace B {",
      "    ",
      "    u",
      "  }",
      "}",
    ],
  ),
  // A Mo's own Ops are a first line.
  (r#"Mo(Im(Op"i") Op"a" Op(Op"b"))"#, &["a b", "i"]),
  (r#"Mo(Op(Op(Op"b")))"#, &["b"]),
  (r#"Mo(Im(Op"i") Op Op(Op))"#, &["i"]),
  ("Mo(Op Op(Op))", &[]),
  // An opaque part: its text, then its children's; line feeds stay.
  (
    r#"Mo(Im(Op"a"(Op"b"(Op"c") Op"d") Op Op"e"))"#,
    &["a b c d e"],
  ),
  (
    r#"Mo(Ns(Op"A" Nb(Im(Op"a\x0ab" Op" c "))))"#,
    &["namespace A {", "  a", "b  c ", "}"],
  ),
  // One that ends in a line feed is a token as any other: a space follows it.
  (r#"Mo(Im(Op"a\x0a" Op"b"))"#, &["a", " b"]),
  // Exports.
  (
    r#"Mo(Ed(Ty(Op"type A = B") Op"@d"))"#,
    &["@d export type A = B"],
  ),
  (
    r#"Mo(Ed(Vd+1 Op"@d") Ed(Us) Ed(In))"#,
    &["@d export declare let", "export", "export"],
  ),
  (
    r#"Mo(Xd(In(Op"interface I {}") Op"@d") Xd(In))"#,
    &["@d export default interface I {}", "export default"],
  ),
  (
    r#"Mo(Xd(Fx(No Fu(No No Op"{}")) Op"@d") Xd(Cx(No Cl(No))))"#,
    &["@d export default function ( )", "export default class { }"],
  ),
  (r#"Mo(Xe(Id#1"a" Op"@d"))"#, &["@d export default a"]),
  ("Mo(Xe(Jt) Xe(Oe))", &["export default", "export default"]),
  // Functions: neither their flags nor their bodies.
  (
    r#"Mo(Fd+1(Id#2"f" Fu+3(Op"<T>" Kw"void" Op"{ }" Pa(Bd(Id#3"a" No) Op"p") Pa(Rs(Op"...b")) Op"fu") Op"async"))"#,
    &["declare async function f fu <T> ( p a , ...b ) : void"],
  ),
  (r#"Mo(Fd(Id#2"f" Fu(No No No)))"#, &["function f ( )"]),
  (r#"Mo(Fd+254(Id#2"f" Fu(Op No Op)))"#, &["function f ( )"]),
  // Variables: a Vd that isn't const is `let`, and no initial value.
  (
    r#"Mo(Vd+1(Vr(Bd(Id#2"a" No) Nu=1) Vr(Po(No Op"{ b }") Oe(Op"x") Op"v") Op"o"))"#,
    &["declare o let a , v { b }"],
  ),
  (
    "Mo(Vd Vd+1 Vd+2 Vd+3 Vd+4)",
    &["let", "declare let", "const", "declare const", "let"],
  ),
  (
    r#"Mo(Vd(Vr(Rs No) Vr(Pi(Op"a") No) Vr(Pi No)))"#,
    &["let , a ,"],
  ),
  // Enums.
  (
    r#"Mo(En+1(Id#2"E" Em(Op"A" Nu=1 Op"a") Em(Op"B"(Op"b") No) Em(Op No) Op"const"))"#,
    &["declare const enum E { a A = 1 , B b , }"],
  ),
  (
    r#"Mo(En(Id#2"E") En(Id#2"F" Em(Op Jt)))"#,
    &["enum E { }", "enum F { = }"],
  ),
  // Namespaces: dotted names, names in quotes, no body, Ops of each record.
  (
    r#"Mo(Ns(Op"A" No) Ns+1(Op"B" No Op"o"))"#,
    &["namespace A", "declare o namespace B"],
  ),
  (
    r#"Mo(Ns+1(Op"A"(Op"a") Nd+1(Op"B" Nd(Op"C" Nb(Vd Op"nb") Op"x"(Op"y")) Op"nd") Op"ns"))"#,
    &["declare ns namespace A a . nd B . x y C nb {", "  let", "}"],
  ),
  (
    r#"Mo(Ns+1(Op"\"x\"" Nb) Ns(Op"'y'" Nb) Ns(Op"`z`" Nb) Ns(Op(Op"\"w\"") Nb))"#,
    &[
      "declare module \"x\" {",
      "}",
      "module 'y' {",
      "}",
      "namespace `z` {",
      "}",
      "namespace \"w\" {",
      "}",
    ],
  ),
  (
    r#"Mo(Ns(Op"A" Nd(Op"\"B\"" Nb)) Ns(Op"a'" No) Ns(Op"\"" No))"#,
    &["namespace A . \"B\" {", "}", "namespace a'", "module \""],
  ),
  (
    r#"Mo(Ns(Op Nb) Ns(Op Nd(Op Nb)))"#,
    &["namespace {", "}", "namespace . {", "}"],
  ),
  (
    r#"Mo(Ed(Ns(Op"A" Nd(Op"B" Nb(Ed(Ns+1(Op"C" Nb(Im(Op"i"))) Op"@d") Im(Op"j"))))) Im(Op"k"))"#,
    &[
      "export namespace A . B {",
      "  @d export declare namespace C {",
      "    i",
      "  }",
      "  j",
      "}",
      "k",
    ],
  ),
  // Classes: type parameters before the Ops, Ops before the brace.
  (
    r#"Mo(Cd+1(Id#2"A" Cl(Op"<T>" Op"extends B" Op"implements C") Op"abstract"))"#,
    &["declare abstract class A <T> extends B implements C { }"],
  ),
  (
    r#"Mo(Cd(Id#2"A" Cl(No Co(Op"{ }" Pa(Bd(Id#3"a" No)) Pp(Ag(Bd(Id#3"b" Kw"T") Nl) Op"public") Op"private") Co(No))))"#,
    &[
      "class A { private constructor ( a , public b : T = null ) ; constructor ( ) ; }",
    ],
  ),
  (
    r#"Mo(Cd(Id#2"A" Cl(No Me(Ki"a" Fu(No No No)) Me+1(Ki"b" Fu(No No No)) Me+2(Ki"c" Fu(No No No)) Me+3(Ki"d" Fu(No No No)))))"#,
    &["class A { a ( ) ; set b ( ) ; get c ( ) ; set d ( ) ; }"],
  ),
  (
    r#"Mo(Cd(Id#2"A" Cl(No Me+4(Ki"a" Fu(No No No)) Me+5(Ki"b" Fu(No No No)) Me+6(Ki"c" Fu(No No No)) Me+7(Ki"d" Fu(Op"<T>" Kw"U" Op"{ }" Op"fu") Op"o"))))"#,
    &[
      "class A { static a ( ) ; static set b ( ) ; static get c ( ) ; o static set d fu <T> ( ) : U ; }",
    ],
  ),
  (
    r#"Mo(Cd(Id#2"A" Cl(No Cp(Ki"a" No Nu=0.5) Cp+1(Ki"b" Kw"T" Nl Op"static") Cp+2(Ki"c" No No) Cp+3(Ss"d" Kw"T" No))))"#,
    &["class A { a ; declare static b : T ; c ! ; declare \"d\" ! : T ; }"],
  ),
  (
    r#"Mo(Cd(Id#2"A" Cl(No Ix(Op"[k: string]: T") Ix+1(Op"[k: T]: U" Op"V"))))"#,
    &["class A { [k: string]: T ; readonly [k: T]: U V ; }"],
  ),
  // Members end in one `;`; a Dm is left out.
  (
    r#"Mo(Cd(Id#2"A" Cl(No Dm Ix(Op"a;") Dm(Op"d") Ix(Op"b;" Op) Ix(Op"c;" Op"d") Dm)))"#,
    &["class A { a; b; c; d ; }"],
  ),
  (
    r#"Mo(Cd(Id#2"A" Cl(No Ix Ix(Op) Ix(Op";") Ix+1 Ix(Op"e" Op";") Ix(Op";;") Ix(Op"; "))))"#,
    &["class A { ; ; ; readonly ; e ; ;; ;  ; }"],
  ),
  (
    r#"Mo(Cd(Id#2"A" Cl(No Cp(Ki"p;" No No) Cp(Ki";" No No) Cp(Ki"q" Kw"T;" No) Cp+2(Ki"r;" No No) Cp(Ki No Nu=1))))"#,
    &["class A { p; ; q : T; r; ! ; ; }"],
  ),
  (
    r#"Mo(Cd(Id#2"A" Cl(No Cp(Ss";" No No) Cp(Ki"a" Ot(Op"T"(Op";")) No) Cp(Ki"b;" Ot No Op"o;") Me(Ki"m;" Fu(No Ot(Op";") Op)))))"#,
    &["class A { \";\" ; a : T ; o; b; : ; m; ( ) : ; }"],
  ),
  (
    r#"Mo(Vd(Vr(Bd(Id#2"a" Li(Om Om(Op"m();") Ps(Id#0"k;" No) Ps(Id#0"l" Kw";") Op"o;")) No)))"#,
    &["let a : o; { ; m(); k; l : ; }"],
  ),
  // What ends in `;` but is no member, and the items and lists that have none.
  (
    r#"Mo(Cd(Id#2"A;" Cl(Op"B;" Op"C;")) Vd(Vr(Bd(Id#2"a;" No) No) Vr(Rs No)))"#,
    &["class A; B; C; { }", "let a; ,"],
  ),
  // Keys.
  (
    r#"Mo(Cd(Id#2"A" Cl(No Cp(Ki"a"(Op"k") No No) Cp(Kc(Id#1"b") No No) Cp(Kc(Jt Op"c") No No) Cp(Nu=1 No No) Cp(Bi=-2 No No))))"#,
    &["class A { k a ; [ b ] ; c [ ] ; 1 ; -2n ; }"],
  ),
  // Patterns.
  (
    r#"Mo(Fd(Id#2"f" Fu(No No No Pa(Bd(Id+1#3"a"(Op"i") Kw"T" Op"b")) Pa(Pb+1(Kw"T" Op"[c]")) Pa(Po(No Op"{d}")) Pa(Pb+1(No)) Pa(Po(Kw"U")))))"#,
    &["function f ( b i a ? : T , [c] ? : T , {d} , ? , : U )"],
  ),
  (
    r#"Mo(Fd(Id#2"f" Fu(No No No Pa(Ag(Bd(Id#3"a" No) Nu=1 Op"o")) Pa(Ag(Ag(Rs Jt) Jt)) Pa(Pe(Id#3"e" Op"p")) Pa(Pi(Op"q")) Pa(Rs(Op"...r")))))"#,
    &["function f ( o a = 1 , = = , p e , q , ...r )"],
  ),
  // Literals: their Ops are left out, a regex's are not.
  (
    r#"Mo(Xe(Ar(Ss"s"(Op"x") Bi=12(Op"x") Bi=-3 Bi=0 Bl(Op"x") Bl+1 Bl+2 Nl(Op"x") Jt(Op"x") Re(Op"/r/"(Op"g")))))"#,
    &[
      "export default [ \"s\" , 12n , -3n , 0n , false , true , false , null , , /r/ g ]",
    ],
  ),
  // Numbers: the first Op, or the decimal.
  (
    r#"Mo(Xe(Ar(Nu=0 Nu=-0 Nu=7 Nu=-7 Nu=1000000000000000 Nu=9007199254740991 Nu=-9007199254740991)))"#,
    &[
      "export default [ 0 , -0 , 7 , -7 , 1000000000000000 , 9007199254740991 , -9007199254740991 ]",
    ],
  ),
  (
    r#"Mo(Xe(Ar(Nu=16(Op"0x10") Nu=0.5(Op".5" Op"x") Nu=NaN(Op) Nu=3(Op Op"x") Nu=4(Op"1"(Op"2" Op Op"3")) Nu=5(Op(Op"4")))))"#,
    &["export default [ 0x10 , .5 , , , 1 2 3 , 4 ]"],
  ),
  // A minus is a token of its own.
  (
    r#"Mo(Xe(Mi(Nu=1)) Xe(Mi(Nu=-0 Op"o")) Xe(Mi(Mi(Jt))))"#,
    &[
      "export default - 1",
      "export default o - -0",
      "export default - -",
    ],
  ),
  // Numbers that no row writes.
  (
    r#"Mo(Vd(Vr(Bd(Id#2"a" No) Nu=0.5)) Cd(Id#2"A" Cl(No Cp(Nu=1 Tl(Nu=2) Ar(Nu=NaN)))))"#,
    &["let a", "class A { 1 : 2 ; }"],
  ),
  (
    r#"Mo(Vd(Vr(Bd(Id#2"a" No) Cx(No Cl(No Cp(Nu=0.5 Tl(Nu=0.5) Nu=0.5))))))"#,
    &["let a"],
  ),
  // Identifiers.
  (
    r#"Mo(Xe(Id#1"a") Xe(Id+1#2"b"(Op"o")) Xe(Id+254#3"") Xe(Id+1#4""))"#,
    &[
      "export default a",
      "export default o b ?",
      "export default",
      "export default ?",
    ],
  ),
  // Arrays: a hole is empty, and one `,` more behind a last one.
  (
    "Mo(Xe(Ar) Xe(Ar(No)) Xe(Ar(No No)) Xe(Ar(Nl No)) Xe(Ar(No Nl)) Xe(Ar(Nl No Nl)) Xe(Ar(Nl No No)))",
    &[
      "export default [ ]",
      "export default [ , ]",
      "export default [ , , ]",
      "export default [ null , , ]",
      "export default [ , null ]",
      "export default [ null , , null ]",
      "export default [ null , , , ]",
    ],
  ),
  (
    r#"Mo(Xe(Ar(Jt)) Xe(Ar(Nl Oe)) Xe(Ar(No Sp(Id#1"a" Op"s") Op"o")) Xe(Ar(No+1@2-3 Op)))"#,
    &[
      "export default [ ]",
      "export default [ null , ]",
      "export default o [ , s ... a ]",
      "export default [ , ]",
    ],
  ),
  // Objects.
  (
    r#"Mo(Xe(Ob(Kv(Ki"a" Nl Op"k") Sh(Id#1"b" Op"s") Pq(Op"c() {}") Sp(Id#1"d") Kv(Kc(Id#1"e") Ob) Op"o")))"#,
    &["export default o { k a : null , s b , c() {} , ... d , [ e ] : { } }"],
  ),
  ("Mo(Xe(Ob(Pq Pq Sp(Jt))))", &["export default { , , ... }"]),
  // Functions, classes and arrows as expressions.
  (
    r#"Mo(Xe(Fx(Id#3"f" Fu(No No Op"{ }" Pa(Bd(Id#4"a" No))) Op"async")) Xe(Fx(No Fu(Op"<T>" Kw"T" No))))"#,
    &[
      "export default async function f ( a )",
      "export default function <T> ( ) : T",
    ],
  ),
  (
    r#"Mo(Xe(Cx(Id#3"A" Cl(Op"<T>" Ix(Op"i") Op"extends B") Op"@d")) Xe(Cx(No Cl(No))))"#,
    &[
      "export default @d class A <T> extends B { i ; }",
      "export default class { }",
    ],
  ),
  (
    r#"Mo(Xe(Aw(Op"<T>" Kw"U" Bd(Id#3"a" Kw"T") Rs(Op"...b") Op"async")) Xe(Aw(No No)))"#,
    &[
      "export default async <T> ( a : T , ...b ) : U =>",
      "export default ( ) =>",
    ],
  ),
  // Templates: in turns until both have run out.
  (
    "Mo(Xe(Te) Xe(Te(Qu)) Xe(Te(Jt)) Xe(Te(Qu+1\"a\")) Xe(Te(Nl)))",
    &[
      "export default ``",
      "export default ``",
      "export default `${}`",
      "export default `a`",
      "export default `${ null }`",
    ],
  ),
  (
    r#"Mo(Xe(Te(Qu+1"a" Qu+1"b" Qu+1"c" Id#1"x")) Xe(Te(Qu+1"a" Id#1"x" Id#1"y" Id#1"z")))"#,
    &[
      "export default `a${ x }bc`",
      "export default `a${ x }${ y }${ z }`",
    ],
  ),
  // Its Ops aren't its own tokens; a Qu's are left out.
  (
    r#"Mo(Xe(Te(Qu+1"a"(Op"q") Qu+1"b" Oe Op"tag" Op"`")))"#,
    &["export default tag ` `a${}b`"],
  ),
  // A space before and behind an inner one's, none where nothing stands.
  (
    r#"Mo(Xe(Te(Qu+1"a" Te(Qu+1"b"))) Xe(Te(Te)) Xe(Te(Oe(Op))) Xe(Te(Ar(Te(Jt)))))"#,
    &[
      "export default `a${ `b` }`",
      "export default `${ `` }`",
      "export default `${}`",
      "export default `${ [ `${}` ] }`",
    ],
  ),
  (
    r#"Mo(Xe(Bn(Te(Qu+1"a") Te(Qu+1"b"))) Xe(Te(Te(Jt) Te(Jt) Nu=1(Op))))"#,
    &[
      "export default `a` `b`",
      "export default `${ `${}` }${ `${}` }${}`",
    ],
  ),
  (
    r#"Mo(Xe(Te(Qu+1" a " Qu Qu+1" b " Jt Id#1"c")))"#,
    &["export default ` a ${}${ c } b `"],
  ),
  // Calls, new, members, chains.
  (
    r#"Mo(Xe(Ca(Id#1"f" Nl Sp(Id#1"a") Jt Op"o")) Xe(Ca(Id#1"f")))"#,
    &[
      "export default o f ( null , ... a , )",
      "export default f ( )",
    ],
  ),
  (
    r#"Mo(Xe(Ne(Id#1"A" Op"<T>" Op"o")) Xe(Ne(Id#1"A" No)))"#,
    &["export default o new A <T>", "export default new A"],
  ),
  (
    r#"Mo(Xe(Mb(Id#1"a" Ki"b"(Op"k") Op"o")) Xe(Mb(Id#1"a" Op"[b]"(Op"c") Op"o")))"#,
    &["export default o a . k b", "export default o a [b] c"],
  ),
  (
    r#"Mo(Xe(Oc(Mb(Id#1"a" Ki"b"(Op"k") Op"m") Op"o")) Xe(Oc(Mb(Id#1"a" Op"[b]" Op"m") Op"o")) Xe(Oc(Op"f?.()"(Op"g") Op"o")))"#,
    &[
      "export default o m a ?. k b",
      "export default o m a ?. [b]",
      "export default o f?.() g",
    ],
  ),
  (
    r#"Mo(Xe(Oc(Mb(Mb(Oc(Mb(Id#1"a" Ki"b")) Ki"c") Op"d"))))"#,
    &["export default a ?. b . c ?. d"],
  ),
  // Operators and assertions.
  (
    r#"Mo(Xe(Bn(Id#1"a" Bn(Nu=1 Nu=2 Op"*") Op"+" Op"o")) Xe(Bn(Jt Jt)))"#,
    &["export default a + o 1 * 2", "export default"],
  ),
  (
    r#"Mo(Xe(Tc(Id#1"a" Op"o")) Xe(Nn(Id#1"a" Op"o")) Xe(Pr(Id#1"a" Op"o")))"#,
    &[
      "export default o a as const",
      "export default o a !",
      "export default o ( a )",
    ],
  ),
  (
    r#"Mo(Xe(As(Id#1"a" Kw"T" Op"o")) Xe(Ts(Id#1"a" Kw"T" Op"o")) Xe(Ta(Id#1"a" Kw"T" Op"o")) Xe(Ta(Jt Ot)))"#,
    &[
      "export default o a as T",
      "export default o a satisfies T",
      "export default o < T > a",
      "export default < >",
    ],
  ),
  (
    r#"Mo(Xe(Oe(Op"this" Op"o")) Xe(Pr(Oe)))"#,
    &["export default this o", "export default ( )"],
  ),
  // Types.
  (
    r#"Mo(Vd(Vr(Bd(Id#2"a" Kw"any"(Op"o")) No) Vr(Bd(Id#2"b" Tl(Ss"s" Op"o")) No) Vr(Bd(Id#2"c" Tl(Op"`t`"(Op"u"))) No) Vr(Bd(Id#2"d" Kw"") No)))"#,
    &["let a : o any , b : o \"s\" , c : `t` u , d :"],
  ),
  (
    r#"Mo(Vd(Vr(Bd(Id#2"a" Rf(Id+1#1"A" Op"<T>" Op"o")) No) Vr(Bd(Id#2"b" Rf(Op"A.B" No)) No) Vr(Bd(Id#2"c" Tf(Id#1"d" Op"o")) No) Vr(Bd(Id#2"e" Tf(Op"import(f)")) No)))"#,
    &["let a : o A ? <T> , b : A.B , c : o typeof d , e : typeof import(f)"],
  ),
  (
    r#"Mo(Vd(Vr(Bd(Id#2"a" Ay(Op"T[]")) No) Vr(Bd(Id#2"b" Ct(Op"new () => T")) No) Vr(Bd(Id#2"c" Ot(Op"A | B" Op"o")) No) Vr(Bd(Id#2"d" Ot) No)))"#,
    &["let a : T[] , b : new () => T , c : A | B o , d :"],
  ),
  (
    r#"Mo(Vd(Vr(Bd(Id#2"a" Li(Ps(Id#0"a" No) Ps+1(Id#0"b" Kw"T" Op"o") Ps+2(Id#0"c" No) Ps+3(Id#0"d" No Op"o"))) No)))"#,
    &["let a : { a ; readonly o b : T ; [ c ] ; readonly o [ d ] ; }"],
  ),
  (
    r#"Mo(Vd(Vr(Bd(Id#2"a" Li(Ps+4(Ss"e" No) Ps+5(Id#0"f" Kw"T") Ps+6(Id#0"g" Kw"T") Ps+7(Id#0"h" Kw"T"))) No)))"#,
    &[
      "let a : { \"e\" ? ; readonly f ? : T ; [ g ] ? : T ; readonly [ h ] ? : T ; }",
    ],
  ),
  (
    r#"Mo(Vd(Vr(Bd(Id#2"a" Li(Ix+1(Op"[k]: T" Op"o") Om(Op"m()") Op"o")) No) Vr(Bd(Id#2"b" Li) No)))"#,
    &["let a : o { readonly [k]: T o ; m() ; } , b : { }"],
  ),
  (
    r#"Mo(Vd(Vr(Bd(Id#2"a" Tu(Tm(Op"l"(Op"m") Kw"A" Op"t") Tm(No Rt(Kw"B" Op"r")) Tm(Op Ro(Kw"C" Op"o")) Tm(No Ot) Op"u")) No)))"#,
    &["let a : u [ t l m : A , r ... B , : readonly o C , ]"],
  ),
  (
    r#"Mo(Vd(Vr(Bd(Id#2"a" Ft(Op"<T>" Kw"U" Bd(Id#3"a" Kw"T") Rs(Op"...b") Op"o")) No) Vr(Bd(Id#2"b" Ft(No Kw"V")) No)))"#,
    &["let a : o <T> ( a : T , ...b ) => U , b : ( ) => V"],
  ),
  // Strings and cooked texts: escapes.
  (
    r#"Mo(Xe(Ss"\x00\x01\x09\x0a\x0d\x1f \"\\`$'{}~\x7f"))"#,
    &[
      "export default \"\\u0000\\u0001\\u0009\\u000a\\u000d\\u001f \\u0022\\u005c\\u0060\\u0024'{}~\x7f\"",
    ],
  ),
  (
    r#"Mo(Xe(Te(Qu+1"\x00\x01\x09\x0a\x0d\x1f \"\\`${x}'~\x7f")))"#,
    &[
      "export default `\\u0000\\u0001\\u0009\\u000a\\u000d\\u001f \\u0022\\u005c\\u0060\\u0024{x}'~\x7f`",
    ],
  ),
  (
    r#"Mo(Xe(Ss"") Xe(Ss"\xc3\xa9 \\u0022"))"#,
    &["export default \"\"", "export default \"é \\u005cu0022\""],
  ),
  // Names, keys, keywords and opaque texts aren't escaped.
  (
    r#"Mo(Cd(Id#2"a\"$" Cl(No Cp(Ki"\x01`" Kw"\\" No) Ix(Op"\"$`\\\x09"))))"#,
    &["class a\"$ { \x01` : \\ ; \"$`\\\t ; }"],
  ),
];

/// Trees with written numbers outside the forms, and the place of 11: that of
/// the first in preorder.
pub const OUTSIDE: &[(&str, usize)] = &[
  ("Mo(Xe(Nu=0.5))", 30),
  ("Mo(Xe(Nu=-0.5))", 30),
  ("Mo(Xe(Nu=9007199254740992))", 30),
  ("Mo(Xe(Nu=-9007199254740992))", 30),
  ("Mo(Xe(Nu=1e300))", 30),
  ("Mo(Xe(Nu=NaN))", 30),
  ("Mo(Xe(Nu=inf))", 30),
  ("Mo(Xe(Nu=-inf))", 30),
  ("Mo(Xe(Nu=0x0000000000000001))", 30),
  ("Mo(Xe(Nu=0x8000000000000001))", 30),
  ("Mo(Xe(Nu=0xfff8000000000000))", 30),
  ("Mo(Xe(Nu=4503599627370495.5))", 30),
  ("Mo(Xe(Nu=-2.5e-300))", 30),
  // 8 bytes of text each; the first is in the forms, or has a spelling.
  ("Mo(Xe(Ar(Nu=1 Nu=0.5 Nu=0.5)))", 68),
  (r#"Mo(Xe(Ar(Nu=0.5(Op"x") Nu=0.5)))"#, 84),
  ("Mo(Xe(Ar(Nu=0.5(Op) Nu=0.5)))", 83),
  ("Mo(Vd(Vr(Pi Nu=0.5)) Xe(Nu=0.5))", 98),
  // A later one is written before it.
  ("Mo(Xe(Ta(Nu=0.5 Tl(Nu=0.5))))", 45),
  ("Mo(Xe(Ta(Nu=1 Tl(Nu=0.5))))", 83),
  (
    r#"Mo(Fd(Id#2"f" Fu(No Tl(Nu=0.5) No Pa(Ag(Rs Nu=0.5)))))"#,
    95,
  ),
  (
    r#"Mo(Fd(Id#2"f" Fu(No Tl(Nu=1) No Pa(Ag(Rs Nu=0.5)))))"#,
    178,
  ),
  ("Mo(Xe(Aw(No Tl(Nu=0.5) Ag(Rs Nu=0.5))))", 75),
  ("Mo(Vd(Vr(Pb(Ft(No Tl(Nu=0.5) Pe(Nu=0.5))) No)))", 105),
  // Keys, enum members, types and defaults are written.
  (r#"Mo(Cd(Id#2"A" Cl(No Cp(Nu=0.5 No Nu=0.5))))"#, 95),
  (r#"Mo(Cd(Id#2"A" Cl(No Me(Kc(Nu=0.5) Fu(No No Op)))))"#, 110),
  (r#"Mo(En(Id#2"A" Em(Op Nu=0.5)))"#, 80),
  ("Mo(Xe(Te(Qu Nu=0.5)))", 60),
  // In a namespace, behind an St.
  ("Mo(Ns(Op Nb(St Xe(Nu=0.5))))", 90),
];
