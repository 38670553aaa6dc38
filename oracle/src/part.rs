//! One expression, type or key as a node of swc's tree, and back. `decode` and
//! `encode` know whole modules, so the part stands in one.

use deno_ast::swc::ast::*;
use deno_ast::swc::common::DUMMY_SP;

use crate::decode;
use crate::encode;
use crate::notes::Notes;
use crate::record::Rec;
use crate::record::rec;

/// A node, and the notes about the records that it was made of.
pub struct Part<T> {
  pub node: T,
  pub notes: Notes,
}

pub fn expression(r: &Rec) -> Part<Expr> {
  let around = rec("Mo", vec![rec("Xe", vec![r.clone()])]);
  let (module, notes) = decode::module(&around);
  let node = default_expr(&module.body[0]).expect("an Xe").clone();
  Part { node, notes }
}

/// The expression of an `Xe`.
pub fn default_expr(item: &ModuleItem) -> Option<&Expr> {
  match item {
    ModuleItem::ModuleDecl(ModuleDecl::ExportDefaultExpr(n)) => Some(&n.expr),
    _ => None,
  }
}

pub fn ts_type(r: &Rec) -> Part<TsType> {
  let around = rec("As", vec![rec("Nl", vec![]), r.clone()]);
  let Part { node, notes } = expression(&around);
  let Expr::TsAs(n) = node else { unreachable!() };
  Part {
    node: *n.type_ann,
    notes,
  }
}

pub fn key(r: &Rec) -> Part<PropName> {
  let property = rec("Kv", vec![r.clone(), rec("Nl", vec![])]);
  let Part { node, notes } = expression(&rec("Ob", vec![property]));
  let Expr::Object(n) = node else {
    unreachable!()
  };
  let PropOrSpread::Prop(prop) = &n.props[0] else {
    unreachable!()
  };
  let Prop::KeyValue(n) = &**prop else {
    unreachable!()
  };
  Part {
    node: n.key.clone(),
    notes,
  }
}

/// The record of an expression.
pub fn expression_record(expr: Expr, notes: &Notes) -> Rec {
  let item = ModuleDecl::ExportDefaultExpr(ExportDefaultExpr {
    span: DUMMY_SP,
    expr: Box::new(expr),
  });
  let module = Module {
    span: DUMMY_SP,
    body: vec![ModuleItem::ModuleDecl(item)],
  };
  encode::module(&module, notes).kids.remove(0).kids.remove(0)
}

/// An expression that says nothing.
fn nothing() -> Box<Expr> {
  Box::new(Expr::Lit(Lit::Str(Str {
    span: DUMMY_SP,
    value: "".into(),
    raw: None,
  })))
}

/// The record of a type.
pub fn type_record(ty: TsType, notes: &Notes) -> Rec {
  let around = Expr::TsAs(TsAsExpr {
    span: DUMMY_SP,
    expr: nothing(),
    type_ann: Box::new(ty),
  });
  expression_record(around, notes).kids.remove(1)
}

/// The record of a key.
pub fn key_record(key: PropName, notes: &Notes) -> Rec {
  let property = Prop::KeyValue(KeyValueProp {
    span: DUMMY_SP,
    key,
    value: nothing(),
  });
  let around = Expr::Object(ObjectLit {
    span: DUMMY_SP,
    props: vec![PropOrSpread::Prop(Box::new(property))],
  });
  expression_record(around, notes)
    .kids
    .remove(0)
    .kids
    .remove(0)
}
