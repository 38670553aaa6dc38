//! From swc's syntax tree back to records, with what the notes say.

use deno_ast::swc::ast::*;
use deno_ast::swc::common::Span;
use deno_ast::swc::common::Spanned;

use crate::decode::KEYWORDS;
use crate::notes::Notes;
use crate::record::Rec;

pub fn module(module: &Module, notes: &Notes) -> Rec {
  let encode = Encode { notes };
  encode.plain("Mo", module.span, encode.all(&module.body, Encode::item))
}

struct Encode<'a> {
  notes: &'a Notes,
}

const NO_FLAGS: (u8, u8) = (0, 0);

fn flag(bit: u8, set: bool) -> (u8, u8) {
  (bit, if set { bit } else { 0 })
}

impl Encode<'_> {
  fn all<T>(&self, nodes: &[T], each: fn(&Self, &T) -> Rec) -> Vec<Rec> {
    nodes.iter().map(|node| each(self, node)).collect()
  }

  fn plain(&self, mark: &str, span: Span, kids: Vec<Rec>) -> Rec {
    self.flagged(mark, span, NO_FLAGS, kids)
  }

  fn flagged(
    &self,
    mark: &str,
    span: Span,
    flags: (u8, u8),
    kids: Vec<Rec>,
  ) -> Rec {
    self.notes.read_record(mark, span, flags, vec![], kids)
  }

  fn whole(&self, node: &dyn Spanned) -> Rec {
    self.notes.read_whole(node.span())
  }

  fn slot(&self, mark: &str, span: Span, slot: usize, kid: Option<Rec>) -> Rec {
    self.notes.read_slot(mark, span, slot, kid)
  }

  fn item(&self, item: &ModuleItem) -> Rec {
    match item {
      ModuleItem::ModuleDecl(decl) => match decl {
        ModuleDecl::ExportDecl(n) => {
          self.plain("Ed", n.span, vec![self.declaration(&n.decl)])
        }
        ModuleDecl::ExportDefaultDecl(n) => {
          let kid = match &n.decl {
            DefaultDecl::Class(n) => self.class_expr(n),
            DefaultDecl::Fn(n) => self.fn_expr(n),
            DefaultDecl::TsInterfaceDecl(n) => self.whole(n),
          };
          self.plain("Xd", n.span, vec![kid])
        }
        ModuleDecl::ExportDefaultExpr(n) => {
          self.plain("Xe", n.span, vec![self.expression(&n.expr)])
        }
        _ => self.whole(decl),
      },
      ModuleItem::Stmt(Stmt::Decl(decl)) => self.declaration(decl),
      ModuleItem::Stmt(stmt) => self.whole(stmt),
    }
  }

  fn declaration(&self, decl: &Decl) -> Rec {
    match decl {
      Decl::Fn(n) => {
        let kids = vec![self.ident(&n.ident), self.function(&n.function)];
        self.flagged("Fd", n.span, flag(1, n.declare), kids)
      }
      Decl::Class(n) => {
        let kids = vec![self.ident(&n.ident), self.class(&n.class)];
        self.flagged("Cd", n.span, flag(1, n.declare), kids)
      }
      Decl::Var(n) => {
        let (_, declare) = flag(1, n.declare);
        let (_, kind) = flag(2, n.kind == VarDeclKind::Const);
        let kids = self.all(&n.decls, Encode::declarator);
        self.flagged("Vd", n.span, (3, declare | kind), kids)
      }
      Decl::TsEnum(n) => {
        let mut kids = vec![self.ident(&n.id)];
        kids.extend(self.all(&n.members, Encode::enum_member));
        self.flagged("En", n.span, flag(1, n.declare), kids)
      }
      Decl::TsModule(n) => {
        let body = n.body.as_ref().map(|body| self.namespace_body(body));
        let body = self.slot("Ns", n.span, 1, body);
        let kids = vec![self.whole(&n.id), body];
        self.flagged("Ns", n.span, flag(1, n.declare), kids)
      }
      Decl::Using(_) | Decl::TsInterface(_) | Decl::TsTypeAlias(_) => {
        self.whole(decl)
      }
    }
  }

  fn declarator(&self, n: &VarDeclarator) -> Rec {
    let init = n.init.as_ref().map(|init| self.expression(init));
    let init = self.slot("Vr", n.span, 1, init);
    self.plain("Vr", n.span, vec![self.pattern(&n.name), init])
  }

  fn enum_member(&self, n: &TsEnumMember) -> Rec {
    let init = n.init.as_ref().map(|init| self.expression(init));
    let init = self.slot("Em", n.span, 1, init);
    self.plain("Em", n.span, vec![self.whole(&n.id), init])
  }

  fn namespace_body(&self, body: &TsNamespaceBody) -> Rec {
    match body {
      TsNamespaceBody::TsModuleBlock(n) => {
        self.plain("Nb", n.span, self.all(&n.body, Encode::item))
      }
      TsNamespaceBody::TsNamespaceDecl(n) => {
        let kids = vec![self.whole(&n.id), self.namespace_body(&n.body)];
        self.plain("Nd", n.span, kids)
      }
    }
  }

  // Functions and classes.

  fn type_params(&self, params: &TypeParams) -> Rec {
    match params {
      TypeParams::Absent(span) | TypeParams::Present(span) => self.whole(span),
    }
  }

  fn type_ann(&self, ann: &TsTypeAnn) -> Rec {
    self.ts_type(&ann.type_ann)
  }

  fn type_ann_slot(
    &self,
    mark: &str,
    span: Span,
    slot: usize,
    ann: &Option<Box<TsTypeAnn>>,
  ) -> Rec {
    let kid = ann.as_ref().map(|ann| self.type_ann(ann));
    self.slot(mark, span, slot, kid)
  }

  fn function(&self, n: &Function) -> Rec {
    let body = n.body.as_ref().map(|body| self.whole(body));
    let mut kids = vec![
      self.type_params(&n.type_params),
      self.type_ann_slot("Fu", n.span, 1, &n.return_type),
      self.slot("Fu", n.span, 2, body),
    ];
    kids.extend(self.all(&n.params, Encode::param));
    self.plain("Fu", n.span, kids)
  }

  fn param(&self, n: &Param) -> Rec {
    self.plain("Pa", n.span, vec![self.pattern(&n.pat)])
  }

  fn class(&self, n: &Class) -> Rec {
    let mut kids = vec![self.type_params(&n.type_params)];
    kids.extend(self.all(&n.body, Encode::member));
    self.plain("Cl", n.span, kids)
  }

  fn member(&self, member: &ClassMember) -> Rec {
    match member {
      ClassMember::Constructor(n) => {
        let body = n.body.as_ref().map(|body| self.whole(body));
        let mut kids = vec![self.slot("Co", n.span, 0, body)];
        kids.extend(self.all(&n.params, |encode, param| match param {
          ParamOrTsParamProp::Param(n) => encode.param(n),
          ParamOrTsParamProp::TsParamProp(n) => encode.param_prop(n),
        }));
        self.plain("Co", n.span, kids)
      }
      ClassMember::Method(n) => {
        // A setter may have the getter's flag too.
        let flags = match n.kind {
          MethodKind::Setter => (1, 1),
          MethodKind::Getter => (3, 2),
          MethodKind::Method => (3, 0),
        };
        let kids = vec![self.key(&n.key), self.function(&n.function)];
        self.flagged("Me", n.span, flags, kids)
      }
      ClassMember::ClassProp(n) => {
        let (_, declare) = flag(1, n.declare);
        let (_, definite) = flag(2, n.definite);
        let value = n.value.as_ref().map(|value| self.expression(value));
        let kids = vec![
          self.key(&n.key),
          self.type_ann_slot("Cp", n.span, 1, &n.type_ann),
          self.slot("Cp", n.span, 2, value),
        ];
        self.flagged("Cp", n.span, (3, declare | definite), kids)
      }
      ClassMember::TsIndexSignature(n) => self.index_signature(n),
      _ => self.whole(member),
    }
  }

  fn index_signature(&self, n: &TsIndexSignature) -> Rec {
    self.flagged("Ix", n.span, flag(1, n.readonly), vec![])
  }

  fn param_prop(&self, n: &TsParamProp) -> Rec {
    let kid = match &n.param {
      TsParamPropParam::Ident(n) => self.binding(n),
      TsParamPropParam::Assign(n) => self.assign(n),
    };
    self.plain("Pp", n.span, vec![kid])
  }

  fn key(&self, key: &PropName) -> Rec {
    match key {
      PropName::Ident(n) => self.ident_name(n),
      PropName::Str(n) => self.string(n),
      PropName::Num(n) => self.number(n),
      PropName::BigInt(n) => self.big_int(n),
      PropName::Computed(n) => {
        self.plain("Kc", n.span, vec![self.expression(&n.expr)])
      }
    }
  }

  fn ident_name(&self, n: &IdentName) -> Rec {
    let text = n.sym.to_bytes();
    self.notes.read_record("Ki", n.span, NO_FLAGS, text, vec![])
  }

  // Patterns.

  fn binding(&self, n: &BindingIdent) -> Rec {
    let span = n.span();
    let ann = self.type_ann_slot("Bd", span, 1, &n.type_ann);
    self.plain("Bd", span, vec![self.ident(&n.id), ann])
  }

  fn array_pat(&self, n: &ArrayPat) -> Rec {
    let kids = vec![self.type_ann_slot("Pb", n.span, 0, &n.type_ann)];
    self.flagged("Pb", n.span, flag(1, n.optional), kids)
  }

  fn object_pat(&self, n: &ObjectPat) -> Rec {
    let kids = vec![self.type_ann_slot("Po", n.span, 0, &n.type_ann)];
    self.flagged("Po", n.span, flag(1, n.optional), kids)
  }

  fn assign(&self, n: &AssignPat) -> Rec {
    let kids = vec![self.pattern(&n.left), self.expression(&n.right)];
    self.plain("Ag", n.span, kids)
  }

  fn pattern(&self, pat: &Pat) -> Rec {
    match pat {
      Pat::Ident(n) => self.binding(n),
      Pat::Array(n) => self.array_pat(n),
      Pat::Object(n) => self.object_pat(n),
      Pat::Assign(n) => self.assign(n),
      Pat::Expr(n) => {
        self.plain("Pe", n.around, vec![self.expression(&n.expr)])
      }
      Pat::Rest(_) | Pat::Invalid(_) => self.whole(pat),
    }
  }

  // Expressions.

  fn ident(&self, n: &Ident) -> Rec {
    let span = Span {
      note: n.ctxt.note,
      ..n.span
    };
    let mut text = n.ctxt.number.to_le_bytes().to_vec();
    text.extend(n.sym.to_bytes());
    let flags = flag(1, n.optional);
    self.notes.read_record("Id", span, flags, text, vec![])
  }

  fn literal(
    &self,
    mark: &str,
    span: Span,
    text: Vec<u8>,
    raw: &Option<Raw>,
  ) -> Rec {
    let ops = raw
      .as_ref()
      .map_or(vec![], |raw| self.notes.read_ops(raw.0));
    self.notes.read_record(mark, span, NO_FLAGS, text, ops)
  }

  fn string(&self, n: &Str) -> Rec {
    self.literal("Ss", n.span, n.value.to_bytes(), &n.raw)
  }

  fn number(&self, n: &Number) -> Rec {
    let text = n.value.to_bits().to_le_bytes().to_vec();
    self.literal("Nu", n.span, text, &n.raw)
  }

  fn big_int(&self, n: &BigInt) -> Rec {
    let mut text = vec![n.value.negative as u8];
    text.extend(&n.value.digits);
    self.literal("Bi", n.span, text, &n.raw)
  }

  fn boolean(&self, n: &Bool) -> Rec {
    self.flagged("Bl", n.span, flag(1, n.value), vec![])
  }

  fn expression(&self, expr: &Expr) -> Rec {
    match expr {
      Expr::Lit(lit) => match lit {
        Lit::Str(n) => self.string(n),
        Lit::Num(n) => self.number(n),
        Lit::BigInt(n) => self.big_int(n),
        Lit::Bool(n) => self.boolean(n),
        Lit::Null(_) | Lit::Regex(_) | Lit::JSXText(_) => self.whole(lit),
      },
      Expr::Ident(n) => self.ident(n),
      Expr::Array(n) => {
        let kids = n.elems.iter().enumerate().map(|(slot, elem)| {
          let kid = elem.as_ref().map(|elem| self.expr_or_spread(elem));
          self.slot("Ar", n.span, slot, kid)
        });
        self.plain("Ar", n.span, kids.collect())
      }
      Expr::Object(n) => {
        self.plain("Ob", n.span, self.all(&n.props, Encode::prop_or_spread))
      }
      Expr::Fn(n) => self.fn_expr(n),
      Expr::Arrow(n) => {
        let mut kids = vec![
          self.type_params(&n.type_params),
          self.type_ann_slot("Aw", n.span, 1, &n.return_type),
        ];
        kids.extend(self.all(&n.params, Encode::pattern));
        self.plain("Aw", n.span, kids)
      }
      Expr::Tpl(n) => {
        let mut kids = self.all(&n.quasis, Encode::quasi);
        kids.extend(n.exprs.iter().map(|expr| self.expression(expr)));
        self.plain("Te", n.span, kids)
      }
      Expr::Unary(n) if n.op == UnaryOp::Minus => {
        self.plain("Mi", n.span, vec![self.expression(&n.arg)])
      }
      Expr::Call(n) => {
        let mut kids = vec![match &n.callee {
          Callee::Expr(expr) => self.expression(expr),
          callee => self.whole(callee),
        }];
        kids.extend(self.all(&n.args, Encode::expr_or_spread));
        self.plain("Ca", n.span, kids)
      }
      Expr::New(n) => {
        let type_args = n.type_args.as_ref().map(|args| self.whole(args));
        let type_args = self.slot("Ne", n.span, 1, type_args);
        self.plain("Ne", n.span, vec![self.expression(&n.callee), type_args])
      }
      Expr::Member(n) => self.member_expr(n),
      Expr::Bin(n) => {
        let kids = vec![self.expression(&n.left), self.expression(&n.right)];
        self.plain("Bn", n.span, kids)
      }
      Expr::OptChain(n) => {
        let kid = match &*n.base {
          OptChainBase::Member(n) => self.member_expr(n),
          OptChainBase::Call(n) => self.whole(n),
        };
        self.plain("Oc", n.span, vec![kid])
      }
      Expr::TsConstAssertion(n) => {
        self.plain("Tc", n.span, vec![self.expression(&n.expr)])
      }
      Expr::TsNonNull(n) => {
        self.plain("Nn", n.span, vec![self.expression(&n.expr)])
      }
      Expr::Paren(n) => {
        self.plain("Pr", n.span, vec![self.expression(&n.expr)])
      }
      Expr::TsAs(n) => {
        let kids = vec![self.expression(&n.expr), self.ts_type(&n.type_ann)];
        self.plain("As", n.span, kids)
      }
      Expr::TsSatisfies(n) => {
        let kids = vec![self.expression(&n.expr), self.ts_type(&n.type_ann)];
        self.plain("Ts", n.span, kids)
      }
      Expr::TsTypeAssertion(n) => {
        let kids = vec![self.expression(&n.expr), self.ts_type(&n.type_ann)];
        self.plain("Ta", n.span, kids)
      }
      Expr::Class(n) => self.class_expr(n),
      _ => self.whole(expr),
    }
  }

  fn expr_or_spread(&self, n: &ExprOrSpread) -> Rec {
    let expr = self.expression(&n.expr);
    match n.spread {
      Some(span) => self.plain("Sp", span, vec![expr]),
      None => expr,
    }
  }

  fn prop_or_spread(&self, n: &PropOrSpread) -> Rec {
    match n {
      PropOrSpread::Spread(n) => {
        self.plain("Sp", n.span, vec![self.expression(&n.expr)])
      }
      PropOrSpread::Prop(prop) => match &**prop {
        Prop::KeyValue(n) => {
          let kids = vec![self.key(&n.key), self.expression(&n.value)];
          self.plain("Kv", n.span, kids)
        }
        Prop::Shorthand(n) => self.plain("Sh", n.span(), vec![self.ident(n)]),
        prop => self.whole(prop),
      },
    }
  }

  fn fn_expr(&self, n: &FnExpr) -> Rec {
    let ident = n.ident.as_ref().map(|ident| self.ident(ident));
    let ident = self.slot("Fx", n.span, 0, ident);
    self.plain("Fx", n.span, vec![ident, self.function(&n.function)])
  }

  fn class_expr(&self, n: &ClassExpr) -> Rec {
    let ident = n.ident.as_ref().map(|ident| self.ident(ident));
    let ident = self.slot("Cx", n.span, 0, ident);
    self.plain("Cx", n.span, vec![ident, self.class(&n.class)])
  }

  fn member_expr(&self, n: &MemberExpr) -> Rec {
    let prop = match &n.prop {
      MemberProp::Ident(n) => self.ident_name(n),
      prop => self.whole(prop),
    };
    self.plain("Mb", n.span, vec![self.expression(&n.obj), prop])
  }

  fn quasi(&self, n: &TplElement) -> Rec {
    let text = n.cooked.as_ref().map_or(vec![], |text| text.to_bytes());
    let flags = flag(1, n.cooked.is_some());
    self.notes.read_record("Qu", n.span, flags, text, vec![])
  }

  // Types.

  fn ts_type(&self, ty: &TsType) -> Rec {
    match ty {
      TsType::TsKeywordType(n) => {
        let text = match KEYWORDS.iter().find(|(_, kind)| *kind == n.kind) {
          Some((name, _)) => name.as_bytes().to_vec(),
          None => self.notes.read_text("Kw", n.span),
        };
        self.notes.read_record("Kw", n.span, NO_FLAGS, text, vec![])
      }
      TsType::TsLitType(n) => {
        let kid = match &n.lit {
          TsLit::Str(n) => self.string(n),
          TsLit::Number(n) => self.number(n),
          TsLit::BigInt(n) => self.big_int(n),
          TsLit::Bool(n) => self.boolean(n),
          TsLit::Tpl(n) => self.whole(n),
        };
        self.plain("Tl", n.span, vec![kid])
      }
      TsType::TsTypeRef(n) => {
        let type_params = n.type_params.as_ref().map(|n| self.whole(n));
        let type_params = self.slot("Rf", n.span, 1, type_params);
        let kids = vec![self.entity_name(&n.type_name), type_params];
        self.plain("Rf", n.span, kids)
      }
      TsType::TsTypeQuery(n) => {
        let kid = match &n.expr_name {
          TsTypeQueryExpr::TsEntityName(name) => self.entity_name(name),
          TsTypeQueryExpr::Import(n) => self.whole(n),
        };
        self.plain("Tf", n.span, vec![kid])
      }
      TsType::TsTypeLit(n) => {
        self.plain("Li", n.span, self.all(&n.members, Encode::type_member))
      }
      TsType::TsTupleType(n) => {
        let kids = self.all(&n.elem_types, Encode::tuple_element);
        self.plain("Tu", n.span, kids)
      }
      TsType::TsRestType(n) => {
        self.plain("Rt", n.span, vec![self.ts_type(&n.type_ann)])
      }
      TsType::TsTypeOperator(n) if n.op == TsTypeOperatorOp::ReadOnly => {
        self.plain("Ro", n.span, vec![self.ts_type(&n.type_ann)])
      }
      TsType::TsFnOrConstructorType(TsFnOrConstructorType::TsFnType(n)) => {
        let mut kids =
          vec![self.type_params(&n.type_params), self.type_ann(&n.type_ann)];
        kids.extend(self.all(&n.params, Encode::fn_param));
        self.plain("Ft", n.span, kids)
      }
      _ => self.whole(ty),
    }
  }

  fn entity_name(&self, name: &TsEntityName) -> Rec {
    match name {
      TsEntityName::Ident(n) => self.ident(n),
      TsEntityName::TsQualifiedName(n) => self.whole(n),
    }
  }

  fn type_member(&self, member: &TsTypeElement) -> Rec {
    match member {
      TsTypeElement::TsPropertySignature(n) => {
        let (_, readonly) = flag(1, n.readonly);
        let (_, computed) = flag(2, n.computed);
        let (_, optional) = flag(4, n.optional);
        let kids = vec![
          self.expression(&n.key),
          self.type_ann_slot("Ps", n.span, 1, &n.type_ann),
        ];
        self.flagged("Ps", n.span, (7, readonly | computed | optional), kids)
      }
      TsTypeElement::TsIndexSignature(n) => self.index_signature(n),
      TsTypeElement::TsMethodSignature(n) => self.whole(n),
    }
  }

  fn tuple_element(&self, n: &TsTupleElement) -> Rec {
    let label = n.label.as_ref().map(|label| self.whole(label));
    let label = self.slot("Tm", n.span, 0, label);
    self.plain("Tm", n.span, vec![label, self.ts_type(&n.ty)])
  }

  fn fn_param(&self, param: &TsFnParam) -> Rec {
    match param {
      TsFnParam::Ident(n) => self.binding(n),
      TsFnParam::Array(n) => self.array_pat(n),
      TsFnParam::Object(n) => self.object_pat(n),
      TsFnParam::Rest(n) => self.whole(n),
      TsFnParam::Other(pat) => self.pattern(pat),
    }
  }
}
