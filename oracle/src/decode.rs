//! From records to swc's syntax tree. The tree has passed the check.
//!
//! Where document 01 has one mark for several of swc's nodes (`Oe`, `Ot`, `Im`,
//! `St`, `Dm`, `Pq`, an `Op` for a property), the record's range and flags
//! choose the node, so that the cases reach all of them.
//!
//! An `Nd` is decoded though `call::transform` cuts them out before: the tests
//! ask the Rust about trees with `Nd` too, and so do the programs' cases, whose
//! trees are read whole.

use deno_ast::swc::ast::*;
use deno_ast::swc::atoms::Atom;
use deno_ast::swc::common::DUMMY_SP;
use deno_ast::swc::common::Span;
use deno_ast::swc::common::SyntaxContext;

use crate::notes::Notes;
use crate::record::Rec;

pub fn module(tree: &Rec) -> (Module, Notes) {
  let mut decode = Decode {
    notes: Notes::default(),
  };
  let (span, items) = decode.parts(tree, 0);
  let body = items.iter().map(|kid| decode.item(kid)).collect();
  (Module { span, body }, decode.notes)
}

/// Every number of choices divides this one, so a range whose start and end
/// are the same modulo it chooses the same node.
pub const CHOICES: u32 = 180;

fn pick(r: &Rec, of: usize) -> usize {
  debug_assert!(CHOICES as usize % of == 0);
  let sum = r.start as u64 * 7 + r.end as u64 * 3 + r.flags as u64;
  (sum % of as u64) as usize
}

fn wrong(r: &Rec) -> ! {
  unreachable!("the check lets no {} stand here", r.mark())
}

struct Decode {
  notes: Notes,
}

impl Decode {
  /// The span of a record with its note, and its parts: all children but the
  /// `Op`s at its end. The first `fixed` are parts whatever their mark.
  fn parts<'r>(&mut self, r: &'r Rec, fixed: usize) -> (Span, &'r [Rec]) {
    let many = r.kids[fixed..]
      .iter()
      .take_while(|kid| !kid.is("Op"))
      .count();
    let (parts, ops) = r.kids.split_at(fixed + many);
    (self.notes.record(r, parts, ops), parts)
  }

  fn whole(&mut self, r: &Rec) -> Span {
    self.notes.whole(r)
  }

  fn opaque(&mut self, r: &Rec) -> Opaque {
    Opaque {
      span: self.whole(r),
    }
  }

  fn opaque_option(&mut self, r: &Rec) -> Option<Opaque> {
    (!r.is("No")).then(|| self.opaque(r))
  }

  fn item(&mut self, r: &Rec) -> ModuleItem {
    match r.mark() {
      "Im" => ModuleItem::ModuleDecl(self.import(r)),
      "St" => ModuleItem::Stmt(self.statement(r)),
      "Ed" => {
        let (span, parts) = self.parts(r, 1);
        let decl = self.declaration(&parts[0]);
        ModuleItem::ModuleDecl(ModuleDecl::ExportDecl(ExportDecl {
          span,
          decl,
        }))
      }
      "Xd" => {
        let (span, parts) = self.parts(r, 1);
        let decl = match parts[0].mark() {
          "Cx" => DefaultDecl::Class(self.class_expr(&parts[0])),
          "Fx" => DefaultDecl::Fn(self.fn_expr(&parts[0])),
          "In" => DefaultDecl::TsInterfaceDecl(Box::new(TsInterfaceDecl {
            span: self.whole(&parts[0]),
          })),
          _ => wrong(&parts[0]),
        };
        ModuleItem::ModuleDecl(ModuleDecl::ExportDefaultDecl(
          ExportDefaultDecl { span, decl },
        ))
      }
      "Xe" => {
        let (span, parts) = self.parts(r, 1);
        let expr = self.boxed(&parts[0]);
        ModuleItem::ModuleDecl(ModuleDecl::ExportDefaultExpr(
          ExportDefaultExpr { span, expr },
        ))
      }
      _ => ModuleItem::Stmt(Stmt::Decl(self.declaration(r))),
    }
  }

  fn import(&mut self, r: &Rec) -> ModuleDecl {
    let span = self.whole(r);
    match pick(r, 6) {
      0 => ModuleDecl::Import(ImportDecl { span }),
      1 => ModuleDecl::ExportNamed(NamedExport { span }),
      2 => ModuleDecl::ExportAll(ExportAll { span }),
      3 => ModuleDecl::TsImportEquals(TsImportEqualsDecl { span }),
      4 => ModuleDecl::TsExportAssignment(TsExportAssignment { span }),
      _ => ModuleDecl::TsNamespaceExport(TsNamespaceExportDecl { span }),
    }
  }

  fn statement(&mut self, r: &Rec) -> Stmt {
    let span = self.whole(r);
    let body = Box::new(Stmt::Empty(EmptyStmt { span }));
    let block = BlockStmt {
      span,
      stmts: vec![],
    };
    match pick(r, 18) {
      0 => Stmt::Block(block),
      1 => *body,
      2 => Stmt::Debugger(DebuggerStmt { span }),
      3 => Stmt::With(WithStmt { span, body }),
      4 => Stmt::Return(ReturnStmt { span, arg: None }),
      5 => Stmt::Labeled(LabeledStmt { span, body }),
      6 => Stmt::Break(BreakStmt { span }),
      7 => Stmt::Continue(ContinueStmt { span }),
      8 => Stmt::If(IfStmt { span, cons: body }),
      9 => Stmt::Switch(SwitchStmt {
        span,
        cases: vec![],
      }),
      10 => Stmt::Throw(ThrowStmt { span }),
      11 => Stmt::Try(Box::new(TryStmt {
        span,
        block,
        handler: None,
        finalizer: None,
      })),
      12 => Stmt::While(WhileStmt { span, body }),
      13 => Stmt::DoWhile(DoWhileStmt { span, body }),
      14 => Stmt::For(ForStmt { span, body }),
      15 => Stmt::ForIn(ForInStmt { span, body }),
      16 => Stmt::ForOf(ForOfStmt { span, body }),
      _ => Stmt::Expr(ExprStmt { span }),
    }
  }

  fn declaration(&mut self, r: &Rec) -> Decl {
    let declare = r.flags & 1 != 0;
    match r.mark() {
      "Fd" => {
        let (span, parts) = self.parts(r, 2);
        Decl::Fn(FnDecl {
          span,
          ident: self.ident(&parts[0], None),
          declare,
          function: Box::new(self.function(&parts[1])),
        })
      }
      "Cd" => {
        let (span, parts) = self.parts(r, 2);
        Decl::Class(ClassDecl {
          span,
          ident: self.ident(&parts[0], None),
          declare,
          class: Box::new(self.class(&parts[1])),
        })
      }
      "Vd" => {
        let (span, parts) = self.parts(r, 0);
        let kind = match (r.flags & 2 != 0, pick(r, 2)) {
          (true, _) => VarDeclKind::Const,
          (false, 0) => VarDeclKind::Let,
          (false, _) => VarDeclKind::Var,
        };
        Decl::Var(Box::new(VarDecl {
          span,
          ctxt: SyntaxContext::default(),
          kind,
          declare,
          decls: parts.iter().map(|kid| self.declarator(kid)).collect(),
        }))
      }
      "Us" => Decl::Using(Box::new(UsingDecl {
        span: self.whole(r),
      })),
      "En" => {
        let (span, parts) = self.parts(r, 1);
        Decl::TsEnum(Box::new(TsEnumDecl {
          span,
          declare,
          id: self.ident(&parts[0], None),
          members: parts[1..].iter().map(|m| self.enum_member(m)).collect(),
        }))
      }
      "Ns" => {
        let (span, parts) = self.parts(r, 2);
        let body = &parts[1];
        Decl::TsModule(Box::new(TsModuleDecl {
          span,
          declare,
          id: self.opaque(&parts[0]),
          body: (!body.is("No")).then(|| self.namespace_body(body)),
        }))
      }
      "In" => Decl::TsInterface(Box::new(TsInterfaceDecl {
        span: self.whole(r),
      })),
      "Ty" => Decl::TsTypeAlias(Box::new(TsTypeAliasDecl {
        span: self.whole(r),
      })),
      _ => wrong(r),
    }
  }

  fn declarator(&mut self, r: &Rec) -> VarDeclarator {
    let (span, parts) = self.parts(r, 2);
    VarDeclarator {
      span,
      name: self.pattern(&parts[0]),
      init: self.boxed_option(&parts[1]),
      definite: false,
    }
  }

  fn enum_member(&mut self, r: &Rec) -> TsEnumMember {
    let (span, parts) = self.parts(r, 2);
    TsEnumMember {
      span,
      id: self.opaque(&parts[0]),
      init: self.boxed_option(&parts[1]),
    }
  }

  fn namespace_body(&mut self, r: &Rec) -> TsNamespaceBody {
    match r.mark() {
      "Nb" => {
        let (span, parts) = self.parts(r, 0);
        TsNamespaceBody::TsModuleBlock(TsModuleBlock {
          span,
          body: parts.iter().map(|kid| self.item(kid)).collect(),
        })
      }
      "Nd" => {
        let (span, parts) = self.parts(r, 2);
        TsNamespaceBody::TsNamespaceDecl(TsNamespaceDecl {
          span,
          id: self.opaque(&parts[0]),
          body: Box::new(self.namespace_body(&parts[1])),
        })
      }
      _ => wrong(r),
    }
  }

  // Functions and classes.

  fn type_params(&mut self, r: &Rec) -> TypeParams {
    let span = self.whole(r);
    match r.is("No") {
      true => TypeParams::Absent(span),
      false => TypeParams::Present(span),
    }
  }

  fn body(&mut self, r: &Rec) -> Option<BlockStmt> {
    (!r.is("No")).then(|| BlockStmt {
      span: self.whole(r),
      stmts: vec![],
    })
  }

  fn type_ann(&mut self, r: &Rec) -> Box<TsTypeAnn> {
    Box::new(TsTypeAnn {
      span: DUMMY_SP,
      type_ann: Box::new(self.ts_type(r)),
    })
  }

  fn type_ann_option(&mut self, r: &Rec) -> Option<Box<TsTypeAnn>> {
    (!r.is("No")).then(|| self.type_ann(r))
  }

  fn function(&mut self, r: &Rec) -> Function {
    let (span, parts) = self.parts(r, 3);
    Function {
      span,
      type_params: self.type_params(&parts[0]),
      return_type: self.type_ann_option(&parts[1]),
      body: self.body(&parts[2]),
      params: parts[3..].iter().map(|kid| self.param(kid)).collect(),
    }
  }

  fn param(&mut self, r: &Rec) -> Param {
    let (span, parts) = self.parts(r, 1);
    Param {
      span,
      pat: self.pattern(&parts[0]),
    }
  }

  fn class(&mut self, r: &Rec) -> Class {
    let (span, parts) = self.parts(r, 1);
    Class {
      span,
      type_params: self.type_params(&parts[0]),
      body: parts[1..].iter().map(|kid| self.member(kid)).collect(),
    }
  }

  fn member(&mut self, r: &Rec) -> ClassMember {
    match r.mark() {
      "Co" => {
        let (span, parts) = self.parts(r, 1);
        ClassMember::Constructor(Constructor {
          span,
          body: self.body(&parts[0]),
          params: parts[1..]
            .iter()
            .map(|kid| match kid.is("Pp") {
              true => ParamOrTsParamProp::TsParamProp(self.param_prop(kid)),
              false => ParamOrTsParamProp::Param(self.param(kid)),
            })
            .collect(),
        })
      }
      "Me" => {
        let (span, parts) = self.parts(r, 2);
        ClassMember::Method(ClassMethod {
          span,
          key: self.key(&parts[0]),
          function: Box::new(self.function(&parts[1])),
          kind: match r.flags & 3 {
            0 => MethodKind::Method,
            2 => MethodKind::Getter,
            _ => MethodKind::Setter,
          },
        })
      }
      "Cp" => {
        let (span, parts) = self.parts(r, 3);
        ClassMember::ClassProp(ClassProp {
          span,
          key: self.key(&parts[0]),
          type_ann: self.type_ann_option(&parts[1]),
          value: self.boxed_option(&parts[2]),
          declare: r.flags & 1 != 0,
          definite: r.flags & 2 != 0,
        })
      }
      "Ix" => ClassMember::TsIndexSignature(self.index_signature(r)),
      "Dm" => {
        let span = self.whole(r);
        match pick(r, 5) {
          0 => ClassMember::PrivateMethod(PrivateMethod { span }),
          1 => ClassMember::PrivateProp(PrivateProp { span }),
          2 => ClassMember::Empty(EmptyStmt { span }),
          3 => ClassMember::StaticBlock(StaticBlock { span }),
          _ => ClassMember::AutoAccessor(AutoAccessor { span }),
        }
      }
      _ => wrong(r),
    }
  }

  fn index_signature(&mut self, r: &Rec) -> TsIndexSignature {
    let (span, _) = self.parts(r, 0);
    TsIndexSignature {
      span,
      readonly: r.flags & 1 != 0,
    }
  }

  fn param_prop(&mut self, r: &Rec) -> TsParamProp {
    let (span, parts) = self.parts(r, 1);
    TsParamProp {
      span,
      param: match self.pattern(&parts[0]) {
        Pat::Ident(ident) => TsParamPropParam::Ident(ident),
        Pat::Assign(assign) => TsParamPropParam::Assign(assign),
        _ => wrong(&parts[0]),
      },
    }
  }

  fn key(&mut self, r: &Rec) -> PropName {
    match r.mark() {
      "Ki" => PropName::Ident(self.ident_name(r)),
      "Ss" => PropName::Str(self.string(r)),
      "Nu" => PropName::Num(self.number(r)),
      "Bi" => PropName::BigInt(self.big_int(r)),
      "Kc" => {
        let (span, parts) = self.parts(r, 1);
        PropName::Computed(ComputedPropName {
          span,
          expr: self.boxed(&parts[0]),
        })
      }
      _ => wrong(r),
    }
  }

  fn ident_name(&mut self, r: &Rec) -> IdentName {
    let (span, _) = self.parts(r, 0);
    IdentName {
      span,
      sym: Atom::from_bytes(&r.text),
    }
  }

  // Patterns.

  fn binding(&mut self, r: &Rec) -> BindingIdent {
    let (span, parts) = self.parts(r, 2);
    BindingIdent {
      id: self.ident(&parts[0], Some(span)),
      type_ann: self.type_ann_option(&parts[1]),
    }
  }

  fn pattern(&mut self, r: &Rec) -> Pat {
    match r.mark() {
      "Bd" => Pat::Ident(self.binding(r)),
      "Pb" => {
        let (span, parts) = self.parts(r, 1);
        Pat::Array(ArrayPat {
          span,
          optional: r.flags & 1 != 0,
          type_ann: self.type_ann_option(&parts[0]),
        })
      }
      "Po" => {
        let (span, parts) = self.parts(r, 1);
        Pat::Object(ObjectPat {
          span,
          optional: r.flags & 1 != 0,
          type_ann: self.type_ann_option(&parts[0]),
        })
      }
      "Rs" => Pat::Rest(RestPat {
        span: self.whole(r),
      }),
      "Ag" => {
        let (span, parts) = self.parts(r, 2);
        Pat::Assign(AssignPat {
          span,
          left: Box::new(self.pattern(&parts[0])),
          right: self.boxed(&parts[1]),
        })
      }
      "Pe" => {
        let (around, parts) = self.parts(r, 1);
        Pat::Expr(PatExpr {
          around,
          expr: self.boxed(&parts[0]),
        })
      }
      "Pi" => Pat::Invalid(Invalid {
        span: self.whole(r),
      }),
      _ => wrong(r),
    }
  }

  // Expressions.

  fn ident(&mut self, r: &Rec, around: Option<Span>) -> Ident {
    let (span, _) = self.parts(r, 0);
    Ident {
      span: Span { note: 0, ..span },
      ctxt: SyntaxContext {
        number: u32::from_le_bytes(r.text[..4].try_into().unwrap()),
        note: span.note,
        around,
      },
      sym: Atom::from_bytes(&r.text[4..]),
      optional: r.flags & 1 != 0,
    }
  }

  fn ident_option(&mut self, r: &Rec) -> Option<Ident> {
    (!r.is("No")).then(|| self.ident(r, None))
  }

  /// A literal's span, with a note about its flags, and its raw spelling, with
  /// one about its `Op`s.
  fn literal_span(&mut self, r: &Rec) -> (Span, Option<Raw>) {
    let raw = match r.kids.is_empty() {
      true => None,
      false => Some(Raw(self.notes.record(r, &[], &r.kids).note)),
    };
    (self.notes.record(r, &[], &[]), raw)
  }

  fn string(&mut self, r: &Rec) -> Str {
    let (span, raw) = self.literal_span(r);
    Str {
      span,
      value: Atom::from_bytes(&r.text),
      raw,
    }
  }

  fn number(&mut self, r: &Rec) -> Number {
    let (span, raw) = self.literal_span(r);
    let bits = u64::from_le_bytes(r.text[..].try_into().unwrap());
    Number {
      span,
      value: f64::from_bits(bits),
      raw,
    }
  }

  fn big_int(&mut self, r: &Rec) -> BigInt {
    let (span, raw) = self.literal_span(r);
    BigInt {
      span,
      value: Box::new(BigIntValue {
        negative: r.text[0] == 1,
        digits: r.text[1..].to_vec(),
      }),
      raw,
    }
  }

  fn boolean(&mut self, r: &Rec) -> Bool {
    let (span, _) = self.parts(r, 0);
    Bool {
      span,
      value: r.flags & 1 != 0,
    }
  }

  fn boxed(&mut self, r: &Rec) -> Box<Expr> {
    Box::new(self.expression(r))
  }

  fn boxed_option(&mut self, r: &Rec) -> Option<Box<Expr>> {
    (!r.is("No")).then(|| self.boxed(r))
  }

  fn expression(&mut self, r: &Rec) -> Expr {
    match r.mark() {
      "Ss" => Expr::Lit(Lit::Str(self.string(r))),
      "Nu" => Expr::Lit(Lit::Num(self.number(r))),
      "Bi" => Expr::Lit(Lit::BigInt(self.big_int(r))),
      "Bl" => Expr::Lit(Lit::Bool(self.boolean(r))),
      "Nl" => Expr::Lit(Lit::Null(Null {
        span: self.whole(r),
      })),
      "Re" => Expr::Lit(Lit::Regex(Regex {
        span: self.whole(r),
      })),
      "Jt" => Expr::Lit(Lit::JSXText(JSXText {
        span: self.whole(r),
      })),
      "Id" => Expr::Ident(self.ident(r, None)),
      "Ar" => {
        let (span, parts) = self.parts(r, 0);
        Expr::Array(ArrayLit {
          span,
          elems: parts
            .iter()
            .map(|kid| (!kid.is("No")).then(|| self.expr_or_spread(kid)))
            .collect(),
        })
      }
      "Ob" => {
        let (span, parts) = self.parts(r, 0);
        Expr::Object(ObjectLit {
          span,
          props: parts.iter().map(|kid| self.prop_or_spread(kid)).collect(),
        })
      }
      "Fx" => Expr::Fn(self.fn_expr(r)),
      "Aw" => {
        let (span, parts) = self.parts(r, 2);
        Expr::Arrow(ArrowExpr {
          span,
          type_params: self.type_params(&parts[0]),
          return_type: self.type_ann_option(&parts[1]),
          params: parts[2..].iter().map(|kid| self.pattern(kid)).collect(),
        })
      }
      "Te" => {
        let (span, parts) = self.parts(r, 0);
        let quasis = parts.iter().take_while(|kid| kid.is("Qu")).count();
        let (quasis, exprs) = parts.split_at(quasis);
        Expr::Tpl(Tpl {
          span,
          quasis: quasis.iter().map(|kid| self.quasi(kid)).collect(),
          exprs: exprs.iter().map(|kid| self.boxed(kid)).collect(),
        })
      }
      "Mi" => {
        let (span, parts) = self.parts(r, 1);
        Expr::Unary(UnaryExpr {
          span,
          op: UnaryOp::Minus,
          arg: self.boxed(&parts[0]),
        })
      }
      "Ca" => {
        let (span, parts) = self.parts(r, 1);
        Expr::Call(CallExpr {
          span,
          callee: self.callee(&parts[0]),
          args: parts[1..].iter().map(|k| self.expr_or_spread(k)).collect(),
        })
      }
      "Ne" => {
        let (span, parts) = self.parts(r, 2);
        Expr::New(NewExpr {
          span,
          callee: self.boxed(&parts[0]),
          type_args: self.opaque_option(&parts[1]),
        })
      }
      "Mb" => Expr::Member(self.member_expr(r)),
      "Bn" => {
        let (span, parts) = self.parts(r, 2);
        Expr::Bin(BinExpr {
          span,
          left: self.boxed(&parts[0]),
          right: self.boxed(&parts[1]),
        })
      }
      "Oc" => {
        let (span, parts) = self.parts(r, 1);
        let base = match parts[0].is("Mb") {
          true => OptChainBase::Member(self.member_expr(&parts[0])),
          false => OptChainBase::Call(OptCall {
            span: self.whole(&parts[0]),
          }),
        };
        Expr::OptChain(OptChainExpr {
          span,
          base: Box::new(base),
        })
      }
      "Tc" => {
        let (span, parts) = self.parts(r, 1);
        let expr = self.boxed(&parts[0]);
        Expr::TsConstAssertion(TsConstAssertion { span, expr })
      }
      "Nn" => {
        let (span, parts) = self.parts(r, 1);
        let expr = self.boxed(&parts[0]);
        Expr::TsNonNull(TsNonNullExpr { span, expr })
      }
      "Pr" => {
        let (span, parts) = self.parts(r, 1);
        let expr = self.boxed(&parts[0]);
        Expr::Paren(ParenExpr { span, expr })
      }
      "As" => {
        let (span, expr, type_ann) = self.typed(r);
        Expr::TsAs(TsAsExpr {
          span,
          expr,
          type_ann,
        })
      }
      "Ts" => {
        let (span, expr, type_ann) = self.typed(r);
        Expr::TsSatisfies(TsSatisfiesExpr {
          span,
          expr,
          type_ann,
        })
      }
      "Ta" => {
        let (span, expr, type_ann) = self.typed(r);
        Expr::TsTypeAssertion(TsTypeAssertion {
          span,
          expr,
          type_ann,
        })
      }
      "Cx" => Expr::Class(self.class_expr(r)),
      "Oe" => self.other_expression(r),
      _ => wrong(r),
    }
  }

  fn typed(&mut self, r: &Rec) -> (Span, Box<Expr>, Box<TsType>) {
    let (span, parts) = self.parts(r, 2);
    let expr = self.boxed(&parts[0]);
    (span, expr, Box::new(self.ts_type(&parts[1])))
  }

  fn other_expression(&mut self, r: &Rec) -> Expr {
    let span = self.whole(r);
    let unary = |op: UnaryOp| {
      Expr::Unary(UnaryExpr {
        span,
        op,
        arg: Box::new(Expr::Lit(Lit::Num(Number {
          span,
          value: 1.0,
          raw: None,
        }))),
      })
    };
    match pick(r, 20) {
      0 => Expr::This(ThisExpr { span }),
      1 => Expr::Update(UpdateExpr { span }),
      2 => Expr::Assign(AssignExpr { span }),
      3 => Expr::SuperProp(SuperPropExpr { span }),
      4 => Expr::Cond(CondExpr { span }),
      5 => Expr::Seq(SeqExpr { span }),
      6 => Expr::TaggedTpl(TaggedTpl { span }),
      7 => Expr::Yield(YieldExpr { span }),
      8 => Expr::MetaProp(MetaPropExpr { span }),
      9 => Expr::Await(AwaitExpr { span }),
      10 => Expr::JSXMember(JSXMemberExpr { span }),
      11 => Expr::JSXNamespacedName(JSXNamespacedName { span }),
      12 => Expr::JSXEmpty(JSXEmptyExpr { span }),
      13 => Expr::JSXElement(Box::new(JSXElement { span })),
      14 => Expr::JSXFragment(JSXFragment { span }),
      15 => Expr::TsInstantiation(TsInstantiation { span }),
      16 => Expr::PrivateName(PrivateName { span }),
      17 => Expr::Invalid(Invalid { span }),
      18 => unary(UnaryOp::Plus),
      _ => unary(UnaryOp::Bang),
    }
  }

  fn callee(&mut self, r: &Rec) -> Callee {
    match (r.is("Oe"), pick(r, 3)) {
      (true, 0) => Callee::Super(Super {
        span: self.whole(r),
      }),
      (true, 1) => Callee::Import(Import {
        span: self.whole(r),
      }),
      _ => Callee::Expr(self.boxed(r)),
    }
  }

  fn expr_or_spread(&mut self, r: &Rec) -> ExprOrSpread {
    if !r.is("Sp") {
      return ExprOrSpread {
        spread: None,
        expr: self.boxed(r),
      };
    }
    let (span, parts) = self.parts(r, 1);
    ExprOrSpread {
      spread: Some(span),
      expr: self.boxed(&parts[0]),
    }
  }

  fn prop_or_spread(&mut self, r: &Rec) -> PropOrSpread {
    let prop = match r.mark() {
      "Sp" => {
        let (span, parts) = self.parts(r, 1);
        let expr = self.boxed(&parts[0]);
        return PropOrSpread::Spread(SpreadElement { span, expr });
      }
      "Kv" => {
        let (span, parts) = self.parts(r, 2);
        Prop::KeyValue(KeyValueProp {
          span,
          key: self.key(&parts[0]),
          value: self.boxed(&parts[1]),
        })
      }
      "Sh" => {
        let (span, parts) = self.parts(r, 1);
        Prop::Shorthand(self.ident(&parts[0], Some(span)))
      }
      "Pq" => {
        let span = self.whole(r);
        match pick(r, 4) {
          0 => Prop::Assign(AssignProp { span }),
          1 => Prop::Getter(GetterProp { span }),
          2 => Prop::Setter(SetterProp { span }),
          _ => Prop::Method(MethodProp { span }),
        }
      }
      _ => wrong(r),
    };
    PropOrSpread::Prop(Box::new(prop))
  }

  fn fn_expr(&mut self, r: &Rec) -> FnExpr {
    let (span, parts) = self.parts(r, 2);
    FnExpr {
      span,
      ident: self.ident_option(&parts[0]),
      function: Box::new(self.function(&parts[1])),
    }
  }

  fn class_expr(&mut self, r: &Rec) -> ClassExpr {
    let (span, parts) = self.parts(r, 2);
    ClassExpr {
      span,
      ident: self.ident_option(&parts[0]),
      class: Box::new(self.class(&parts[1])),
    }
  }

  fn member_expr(&mut self, r: &Rec) -> MemberExpr {
    let (span, parts) = self.parts(r, 2);
    let prop = &parts[1];
    MemberExpr {
      span,
      obj: self.boxed(&parts[0]),
      prop: match (prop.is("Ki"), pick(prop, 2)) {
        (true, _) => MemberProp::Ident(self.ident_name(prop)),
        (false, 0) => MemberProp::PrivateName(PrivateName {
          span: self.whole(prop),
        }),
        (false, _) => MemberProp::Computed(ComputedMemberProp {
          span: self.whole(prop),
        }),
      },
    }
  }

  fn quasi(&mut self, r: &Rec) -> TplElement {
    let (span, _) = self.parts(r, 0);
    TplElement {
      span,
      cooked: (r.flags & 1 != 0).then(|| Atom::from_bytes(&r.text)),
    }
  }

  // Types.

  fn ts_type(&mut self, r: &Rec) -> TsType {
    match r.mark() {
      "Kw" => {
        let (span, _) = self.parts(r, 0);
        TsType::TsKeywordType(TsKeywordType {
          span,
          kind: keyword_kind(&r.text),
        })
      }
      "Tl" => {
        let (span, parts) = self.parts(r, 1);
        let lit = match parts[0].mark() {
          "Ss" => TsLit::Str(self.string(&parts[0])),
          "Nu" => TsLit::Number(self.number(&parts[0])),
          "Bi" => TsLit::BigInt(self.big_int(&parts[0])),
          "Bl" => TsLit::Bool(self.boolean(&parts[0])),
          _ => TsLit::Tpl(self.opaque(&parts[0])),
        };
        TsType::TsLitType(TsLitType { span, lit })
      }
      "Rf" => {
        let (span, parts) = self.parts(r, 2);
        TsType::TsTypeRef(TsTypeRef {
          span,
          type_name: self.entity_name(&parts[0]),
          type_params: self.opaque_option(&parts[1]),
        })
      }
      "Tf" => {
        let (span, parts) = self.parts(r, 1);
        let expr_name = match (parts[0].is("Op"), pick(r, 2)) {
          (true, 0) => TsTypeQueryExpr::Import(TsImportType {
            span: self.whole(&parts[0]),
          }),
          _ => TsTypeQueryExpr::TsEntityName(self.entity_name(&parts[0])),
        };
        TsType::TsTypeQuery(TsTypeQuery {
          span,
          expr_name,
          type_args: None,
        })
      }
      "Li" => {
        let (span, parts) = self.parts(r, 0);
        TsType::TsTypeLit(TsTypeLit {
          span,
          members: parts.iter().map(|kid| self.type_member(kid)).collect(),
        })
      }
      "Ay" => TsType::TsArrayType(TsArrayType {
        span: self.whole(r),
      }),
      "Tu" => {
        let (span, parts) = self.parts(r, 0);
        TsType::TsTupleType(TsTupleType {
          span,
          elem_types: parts.iter().map(|k| self.tuple_element(k)).collect(),
        })
      }
      "Rt" => {
        let (span, parts) = self.parts(r, 1);
        let type_ann = Box::new(self.ts_type(&parts[0]));
        TsType::TsRestType(TsRestType { span, type_ann })
      }
      "Ro" => {
        let (span, parts) = self.parts(r, 1);
        TsType::TsTypeOperator(TsTypeOperator {
          span,
          op: TsTypeOperatorOp::ReadOnly,
          type_ann: Box::new(self.ts_type(&parts[0])),
        })
      }
      "Ft" => {
        let (span, parts) = self.parts(r, 2);
        TsType::TsFnOrConstructorType(TsFnOrConstructorType::TsFnType(
          TsFnType {
            span,
            type_params: self.type_params(&parts[0]),
            type_ann: self.type_ann(&parts[1]),
            params: parts[2..].iter().map(|kid| self.fn_param(kid)).collect(),
          },
        ))
      }
      "Ct" => TsType::TsFnOrConstructorType(
        TsFnOrConstructorType::TsConstructorType(TsConstructorType {
          span: self.whole(r),
        }),
      ),
      "Ot" => self.other_type(r),
      _ => wrong(r),
    }
  }

  fn other_type(&mut self, r: &Rec) -> TsType {
    let span = self.whole(r);
    let operator = |op: TsTypeOperatorOp| {
      TsType::TsTypeOperator(TsTypeOperator {
        span,
        op,
        type_ann: Box::new(TsType::TsArrayType(TsArrayType { span })),
      })
    };
    match pick(r, 12) {
      0 => TsType::TsThisType(TsThisType { span }),
      1 => TsType::TsOptionalType(TsOptionalType { span }),
      2 => {
        TsType::TsUnionOrIntersectionType(TsUnionOrIntersectionType { span })
      }
      3 => TsType::TsConditionalType(TsConditionalType { span }),
      4 => TsType::TsInferType(TsInferType { span }),
      5 => TsType::TsParenthesizedType(TsParenthesizedType { span }),
      6 => operator(TsTypeOperatorOp::KeyOf),
      7 => operator(TsTypeOperatorOp::Unique),
      8 => TsType::TsIndexedAccessType(TsIndexedAccessType { span }),
      9 => TsType::TsMappedType(TsMappedType { span }),
      10 => TsType::TsTypePredicate(TsTypePredicate { span }),
      _ => TsType::TsImportType(TsImportType { span }),
    }
  }

  fn entity_name(&mut self, r: &Rec) -> TsEntityName {
    match r.is("Id") {
      true => TsEntityName::Ident(self.ident(r, None)),
      false => TsEntityName::TsQualifiedName(self.opaque(r)),
    }
  }

  fn type_member(&mut self, r: &Rec) -> TsTypeElement {
    match r.mark() {
      "Ps" => {
        let (span, parts) = self.parts(r, 2);
        TsTypeElement::TsPropertySignature(TsPropertySignature {
          span,
          readonly: r.flags & 1 != 0,
          computed: r.flags & 2 != 0,
          optional: r.flags & 4 != 0,
          key: self.boxed(&parts[0]),
          type_ann: self.type_ann_option(&parts[1]),
        })
      }
      "Ix" => TsTypeElement::TsIndexSignature(self.index_signature(r)),
      "Om" => TsTypeElement::TsMethodSignature(TsMethodSignature {
        span: self.whole(r),
      }),
      _ => wrong(r),
    }
  }

  fn tuple_element(&mut self, r: &Rec) -> TsTupleElement {
    let (span, parts) = self.parts(r, 2);
    TsTupleElement {
      span,
      label: self.opaque_option(&parts[0]),
      ty: Box::new(self.ts_type(&parts[1])),
    }
  }

  fn fn_param(&mut self, r: &Rec) -> TsFnParam {
    match self.pattern(r) {
      Pat::Ident(pat) => TsFnParam::Ident(pat),
      Pat::Array(pat) => TsFnParam::Array(pat),
      Pat::Rest(pat) => TsFnParam::Rest(pat),
      Pat::Object(pat) => TsFnParam::Object(pat),
      pat => TsFnParam::Other(pat),
    }
  }
}

/// The keywords, by the names that TypeScript writes.
pub const KEYWORDS: &[(&str, TsKeywordTypeKind)] = &[
  ("any", TsKeywordTypeKind::TsAnyKeyword),
  ("number", TsKeywordTypeKind::TsNumberKeyword),
  ("boolean", TsKeywordTypeKind::TsBooleanKeyword),
  ("bigint", TsKeywordTypeKind::TsBigIntKeyword),
  ("string", TsKeywordTypeKind::TsStringKeyword),
  ("void", TsKeywordTypeKind::TsVoidKeyword),
  ("undefined", TsKeywordTypeKind::TsUndefinedKeyword),
  ("null", TsKeywordTypeKind::TsNullKeyword),
];

fn keyword_kind(text: &[u8]) -> TsKeywordTypeKind {
  KEYWORDS
    .iter()
    .find(|(name, _)| name.as_bytes() == text)
    .map_or(TsKeywordTypeKind::Other, |(_, kind)| *kind)
}
