//! The private functions of transform_dts.rs, one by one: a module below the
//! original may call them, and the original stays as it is.

use super::*;

pub fn is_array_type(ty: &TsType) -> bool {
  super::is_array_type(ty)
}

pub fn is_array_lit_init(expr: &Expr) -> bool {
  super::is_array_lit_init(expr)
}

pub fn is_well_known_symbol_expr(
  expr: &Expr,
  unresolved_context: SyntaxContext,
) -> bool {
  super::is_well_known_symbol_expr(expr, unresolved_context)
}

pub fn valid_prop_name(
  prop_name: &PropName,
  unresolved_context: SyntaxContext,
) -> Option<PropName> {
  super::valid_prop_name(prop_name, unresolved_context)
}

/// Whether a name is in each of the three sets: typeof-safe, non-generic
/// classes, array-typed.
pub fn prescan_module_ids(module: &Module, id: &Id) -> [bool; 3] {
  let ids = super::prescan_module_ids(module);
  [
    ids.typeof_safe.contains(id),
    ids.non_generic_classes.contains(id),
    ids.array_typed.contains(id),
  ]
}

/// The name that is made when the counter becomes this number.
pub fn gen_unique_name(counter: usize) -> String {
  with_transformer(SyntaxContext::default(), |transformer| {
    transformer.id_counter = counter - 1;
    transformer.gen_unique_name()
  })
}

/// A typing: the type, if there is one, the diagnostics, and the counter.
pub struct Typing {
  pub ty: Option<TsType>,
  pub diagnostics: Vec<FastCheckDtsDiagnostic>,
  pub counter: usize,
}

/// Types an expression of a module, whose prescan is made as `transform` does.
pub fn expr_to_ts_type(
  module: &Module,
  unresolved_context: SyntaxContext,
  expr: Expr,
  as_const: bool,
  as_readonly: bool,
) -> Typing {
  with_transformer(unresolved_context, |transformer| {
    let prescanned_ids = super::prescan_module_ids(module);
    transformer.typeof_safe_ids = prescanned_ids.typeof_safe;
    transformer.non_generic_class_ids = prescanned_ids.non_generic_classes;
    transformer.array_typed_ids = prescanned_ids.array_typed;
    let ty = transformer.expr_to_ts_type(expr, as_const, as_readonly);
    Typing {
      ty,
      diagnostics: std::mem::take(&mut transformer.diagnostics),
      counter: transformer.id_counter,
    }
  })
}

fn with_transformer<T>(
  unresolved_context: SyntaxContext,
  run: impl FnOnce(&mut FastCheckDtsTransformer) -> T,
) -> T {
  let public_ranges = ModulePublicRanges {
    impl_with_overload_ranges: HashSet::new(),
  };
  run(&mut FastCheckDtsTransformer::new(
    &SourceTextInfo,
    &public_ranges,
    &ModuleSpecifier,
    unresolved_context,
  ))
}
