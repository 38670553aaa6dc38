//! swc's syntax tree, as far as the two originals name it. Nodes that they
//! only pass or drop have a span and nothing else.

use super::atoms::Atom;
use super::common::Span;
use super::common::Spanned;
use super::common::SyntaxContext;

/// Nodes with a span of their own and the fields that the originals name.
macro_rules! nodes {
  ($($name:ident { $($field:ident: $type:ty),* $(,)? })*) => {$(
    #[derive(Clone, Debug)]
    pub struct $name {
      pub span: Span,
      $(pub $field: $type,)*
    }

    impl Spanned for $name {
      fn span(&self) -> Span {
        self.span
      }
    }
  )*};
}

/// Choices between nodes.
macro_rules! choices {
  ($($name:ident { $($case:ident($type:ty)),* $(,)? })*) => {$(
    #[derive(Clone, Debug)]
    pub enum $name {
      $($case($type),)*
    }

    impl Spanned for $name {
      fn span(&self) -> Span {
        match self {
          $($name::$case(node) => node.span(),)*
        }
      }
    }
  )*};
}

// Identifiers.

pub type Id = (Atom, SyntaxContext);

#[derive(Clone, Debug)]
pub struct Ident {
  pub span: Span,
  pub ctxt: SyntaxContext,
  pub sym: Atom,
  pub optional: bool,
}

impl Ident {
  pub fn new(sym: Atom, span: Span, ctxt: SyntaxContext) -> Self {
    Self {
      span,
      ctxt,
      sym,
      optional: false,
    }
  }

  pub fn to_id(&self) -> Id {
    (self.sym.clone(), self.ctxt)
  }
}

/// The range of the record around the identifier, where swc has one node for
/// the two (document 01: a record's range is what `range()` gives).
impl Spanned for Ident {
  fn span(&self) -> Span {
    self.ctxt.around.unwrap_or(self.span)
  }
}

/// swc's has these two fields and the range of its identifier.
#[derive(Clone, Debug)]
pub struct BindingIdent {
  pub id: Ident,
  pub type_ann: Option<Box<TsTypeAnn>>,
}

impl Spanned for BindingIdent {
  fn span(&self) -> Span {
    self.id.span()
  }
}

impl std::ops::Deref for BindingIdent {
  type Target = Ident;
  fn deref(&self) -> &Ident {
    &self.id
  }
}

impl std::ops::DerefMut for BindingIdent {
  fn deref_mut(&mut self) -> &mut Ident {
    &mut self.id
  }
}

// Programs and items.

#[derive(Clone, Debug)]
pub enum Program {
  Module(Module),
  Script(Script),
}

choices! {
  ModuleItem { ModuleDecl(ModuleDecl), Stmt(Stmt) }
  ModuleDecl {
    Import(ImportDecl),
    ExportDecl(ExportDecl),
    ExportNamed(NamedExport),
    ExportDefaultDecl(ExportDefaultDecl),
    ExportDefaultExpr(ExportDefaultExpr),
    ExportAll(ExportAll),
    TsImportEquals(TsImportEqualsDecl),
    TsExportAssignment(TsExportAssignment),
    TsNamespaceExport(TsNamespaceExportDecl),
  }
  DefaultDecl {
    Class(ClassExpr),
    Fn(FnExpr),
    TsInterfaceDecl(Box<TsInterfaceDecl>),
  }
  Decl {
    Class(ClassDecl),
    Fn(FnDecl),
    Var(Box<VarDecl>),
    Using(Box<UsingDecl>),
    TsInterface(Box<TsInterfaceDecl>),
    TsTypeAlias(Box<TsTypeAliasDecl>),
    TsEnum(Box<TsEnumDecl>),
    TsModule(Box<TsModuleDecl>),
  }
  TsNamespaceBody {
    TsModuleBlock(TsModuleBlock),
    TsNamespaceDecl(TsNamespaceDecl),
  }
  Stmt {
    Block(BlockStmt),
    Empty(EmptyStmt),
    Debugger(DebuggerStmt),
    With(WithStmt),
    Return(ReturnStmt),
    Labeled(LabeledStmt),
    Break(BreakStmt),
    Continue(ContinueStmt),
    If(IfStmt),
    Switch(SwitchStmt),
    Throw(ThrowStmt),
    Try(Box<TryStmt>),
    While(WhileStmt),
    DoWhile(DoWhileStmt),
    For(ForStmt),
    ForIn(ForInStmt),
    ForOf(ForOfStmt),
    Decl(Decl),
    Expr(ExprStmt),
  }
}

nodes! {
  Module { body: Vec<ModuleItem> }
  Script { body: Vec<Stmt> }
  ImportDecl {}
  NamedExport {}
  ExportAll {}
  TsImportEqualsDecl {}
  TsExportAssignment {}
  TsNamespaceExportDecl {}
  ExportDecl { decl: Decl }
  ExportDefaultDecl { decl: DefaultDecl }
  ExportDefaultExpr { expr: Box<Expr> }
  // swc's FnDecl and FnExpr have the range of their function, ClassDecl and
  // ClassExpr that of their class; the records have one each.
  FnDecl { ident: Ident, declare: bool, function: Box<Function> }
  ClassDecl { ident: Ident, declare: bool, class: Box<Class> }
  VarDecl {
    ctxt: SyntaxContext,
    kind: VarDeclKind,
    declare: bool,
    decls: Vec<VarDeclarator>,
  }
  VarDeclarator { name: Pat, init: Option<Box<Expr>>, definite: bool }
  UsingDecl {}
  TsInterfaceDecl {}
  TsTypeAliasDecl {}
  TsEnumDecl { declare: bool, id: Ident, members: Vec<TsEnumMember> }
  TsEnumMember { id: Opaque, init: Option<Box<Expr>> }
  TsModuleDecl { declare: bool, id: Opaque, body: Option<TsNamespaceBody> }
  TsModuleBlock { body: Vec<ModuleItem> }
  TsNamespaceDecl { id: Opaque, body: Box<TsNamespaceBody> }
  // What document 01 calls an opaque part.
  Opaque {}
}

#[derive(Clone, Copy, Debug, PartialEq, Eq)]
pub enum VarDeclKind {
  Var,
  Let,
  Const,
}

// Statements: the return analysis of swc_helpers.rs names these. It is not
// ported, but the file is compiled whole.

nodes! {
  BlockStmt { stmts: Vec<Stmt> }
  EmptyStmt {}
  DebuggerStmt {}
  WithStmt { body: Box<Stmt> }
  ReturnStmt { arg: Option<Box<Expr>> }
  LabeledStmt { body: Box<Stmt> }
  BreakStmt {}
  ContinueStmt {}
  IfStmt { cons: Box<Stmt> }
  SwitchStmt { cases: Vec<SwitchCase> }
  SwitchCase { cons: Vec<Stmt> }
  ThrowStmt {}
  TryStmt {
    block: BlockStmt,
    handler: Option<CatchClause>,
    finalizer: Option<BlockStmt>,
  }
  CatchClause { body: BlockStmt }
  WhileStmt { body: Box<Stmt> }
  DoWhileStmt { body: Box<Stmt> }
  ForStmt { body: Box<Stmt> }
  ForInStmt { body: Box<Stmt> }
  ForOfStmt { body: Box<Stmt> }
  ExprStmt {}
}

// Functions and classes.

/// The place of type parameters: swc's `Option<Box<TsTypeParamDecl>>`. It is
/// only moved and asked whether it is empty, so that an absent one can carry
/// the head of its `No`.
#[derive(Clone, Debug)]
pub enum TypeParams {
  Absent(Span),
  Present(Span),
}

impl TypeParams {
  pub fn is_none(&self) -> bool {
    matches!(self, TypeParams::Absent(_))
  }
}

nodes! {
  Function {
    params: Vec<Param>,
    body: Option<BlockStmt>,
    type_params: TypeParams,
    return_type: Option<Box<TsTypeAnn>>,
  }
  Param { pat: Pat }
  Class { body: Vec<ClassMember>, type_params: TypeParams }
  Constructor { params: Vec<ParamOrTsParamProp>, body: Option<BlockStmt> }
  ClassMethod { key: PropName, function: Box<Function>, kind: MethodKind }
  ClassProp {
    key: PropName,
    value: Option<Box<Expr>>,
    type_ann: Option<Box<TsTypeAnn>>,
    declare: bool,
    definite: bool,
  }
  PrivateMethod {}
  PrivateProp {}
  StaticBlock {}
  AutoAccessor {}
  TsParamProp { param: TsParamPropParam }
  TsIndexSignature { readonly: bool }
}

choices! {
  ClassMember {
    Constructor(Constructor),
    Method(ClassMethod),
    PrivateMethod(PrivateMethod),
    ClassProp(ClassProp),
    PrivateProp(PrivateProp),
    TsIndexSignature(TsIndexSignature),
    Empty(EmptyStmt),
    StaticBlock(StaticBlock),
    AutoAccessor(AutoAccessor),
  }
  ParamOrTsParamProp { TsParamProp(TsParamProp), Param(Param) }
  TsParamPropParam { Ident(BindingIdent), Assign(AssignPat) }
}

#[derive(Clone, Copy, Debug, PartialEq, Eq)]
pub enum MethodKind {
  Method,
  Getter,
  Setter,
}

// Patterns.

choices! {
  Pat {
    Ident(BindingIdent),
    Array(ArrayPat),
    Rest(RestPat),
    Object(ObjectPat),
    Assign(AssignPat),
    Invalid(Invalid),
    Expr(PatExpr),
  }
}

nodes! {
  ArrayPat { optional: bool, type_ann: Option<Box<TsTypeAnn>> }
  ObjectPat { optional: bool, type_ann: Option<Box<TsTypeAnn>> }
  RestPat {}
  AssignPat { left: Box<Pat>, right: Box<Expr> }
  Invalid {}
}

/// The expression of `Pat::Expr`, with the span of the record around it. Its
/// range is the expression's, as in swc, where it is the expression.
#[derive(Clone, Debug)]
pub struct PatExpr {
  pub around: Span,
  pub expr: Box<Expr>,
}

impl Spanned for PatExpr {
  fn span(&self) -> Span {
    self.expr.span()
  }
}

// Expressions.

choices! {
  Expr {
    This(ThisExpr),
    Array(ArrayLit),
    Object(ObjectLit),
    Fn(FnExpr),
    Unary(UnaryExpr),
    Update(UpdateExpr),
    Bin(BinExpr),
    Assign(AssignExpr),
    Member(MemberExpr),
    SuperProp(SuperPropExpr),
    Cond(CondExpr),
    Call(CallExpr),
    New(NewExpr),
    Seq(SeqExpr),
    Ident(Ident),
    Lit(Lit),
    Tpl(Tpl),
    TaggedTpl(TaggedTpl),
    Arrow(ArrowExpr),
    Class(ClassExpr),
    Yield(YieldExpr),
    MetaProp(MetaPropExpr),
    Await(AwaitExpr),
    Paren(ParenExpr),
    JSXMember(JSXMemberExpr),
    JSXNamespacedName(JSXNamespacedName),
    JSXEmpty(JSXEmptyExpr),
    JSXElement(Box<JSXElement>),
    JSXFragment(JSXFragment),
    TsTypeAssertion(TsTypeAssertion),
    TsConstAssertion(TsConstAssertion),
    TsNonNull(TsNonNullExpr),
    TsAs(TsAsExpr),
    TsInstantiation(TsInstantiation),
    TsSatisfies(TsSatisfiesExpr),
    PrivateName(PrivateName),
    OptChain(OptChainExpr),
    Invalid(Invalid),
  }
  Lit {
    Str(Str),
    Bool(Bool),
    Null(Null),
    Num(Number),
    BigInt(BigInt),
    Regex(Regex),
    JSXText(JSXText),
  }
  PropOrSpread { Spread(SpreadElement), Prop(Box<Prop>) }
  Prop {
    Shorthand(Ident),
    KeyValue(KeyValueProp),
    Assign(AssignProp),
    Getter(GetterProp),
    Setter(SetterProp),
    Method(MethodProp),
  }
  PropName {
    Ident(IdentName),
    Str(Str),
    Num(Number),
    Computed(ComputedPropName),
    BigInt(BigInt),
  }
  MemberProp {
    Ident(IdentName),
    PrivateName(PrivateName),
    Computed(ComputedMemberProp),
  }
  Callee { Super(Super), Import(Import), Expr(Box<Expr>) }
  OptChainBase { Member(MemberExpr), Call(OptCall) }
}

nodes! {
  ThisExpr {}
  UpdateExpr {}
  AssignExpr {}
  SuperPropExpr {}
  CondExpr {}
  SeqExpr {}
  TaggedTpl {}
  YieldExpr {}
  MetaPropExpr {}
  AwaitExpr {}
  JSXMemberExpr {}
  JSXNamespacedName {}
  JSXEmptyExpr {}
  JSXElement {}
  JSXFragment {}
  TsInstantiation {}
  PrivateName {}
  Super {}
  Import {}
  OptCall {}
  ArrayLit { elems: Vec<Option<ExprOrSpread>> }
  ObjectLit { props: Vec<PropOrSpread> }
  FnExpr { ident: Option<Ident>, function: Box<Function> }
  ClassExpr { ident: Option<Ident>, class: Box<Class> }
  UnaryExpr { op: UnaryOp, arg: Box<Expr> }
  BinExpr { left: Box<Expr>, right: Box<Expr> }
  MemberExpr { obj: Box<Expr>, prop: MemberProp }
  ComputedMemberProp {}
  CallExpr { callee: Callee, args: Vec<ExprOrSpread> }
  NewExpr { callee: Box<Expr>, type_args: Option<Opaque> }
  Tpl { exprs: Vec<Box<Expr>>, quasis: Vec<TplElement> }
  TplElement { cooked: Option<Atom> }
  ArrowExpr {
    params: Vec<Pat>,
    type_params: TypeParams,
    return_type: Option<Box<TsTypeAnn>>,
  }
  ParenExpr { expr: Box<Expr> }
  TsTypeAssertion { expr: Box<Expr>, type_ann: Box<TsType> }
  TsConstAssertion { expr: Box<Expr> }
  TsNonNullExpr { expr: Box<Expr> }
  TsAsExpr { expr: Box<Expr>, type_ann: Box<TsType> }
  TsSatisfiesExpr { expr: Box<Expr>, type_ann: Box<TsType> }
  OptChainExpr { base: Box<OptChainBase> }
  // The span of a spread is the whole record's, not that of its three dots.
  SpreadElement { expr: Box<Expr> }
  KeyValueProp { key: PropName, value: Box<Expr> }
  AssignProp {}
  GetterProp {}
  SetterProp {}
  MethodProp {}
  IdentName { sym: Atom }
  ComputedPropName { expr: Box<Expr> }
  Str { value: Atom, raw: Option<Raw> }
  Number { value: f64, raw: Option<Raw> }
  BigInt { value: Box<BigIntValue>, raw: Option<Raw> }
  Null {}
  Regex {}
  JSXText {}
}

#[derive(Clone, Copy, Debug)]
pub struct Bool {
  pub span: Span,
  pub value: bool,
}

impl Spanned for Bool {
  fn span(&self) -> Span {
    self.span
  }
}

/// A literal's raw spelling: the number of the note with its `Op`s.
#[derive(Clone, Debug)]
pub struct Raw(pub u32);

/// A big integer: its sign and its decimal digits.
#[derive(Clone, Debug, PartialEq, Eq)]
pub struct BigIntValue {
  pub negative: bool,
  pub digits: Vec<u8>,
}

impl std::ops::Neg for BigIntValue {
  type Output = Self;
  fn neg(self) -> Self {
    let zero = self.digits == b"0";
    Self {
      negative: !zero && !self.negative,
      digits: self.digits,
    }
  }
}

#[derive(Clone, Copy, Debug, PartialEq, Eq)]
pub enum UnaryOp {
  Minus,
  Plus,
  Bang,
}

/// The span of a spread is the whole record's, not that of its three dots.
#[derive(Clone, Debug)]
pub struct ExprOrSpread {
  pub spread: Option<Span>,
  pub expr: Box<Expr>,
}

impl Spanned for ExprOrSpread {
  fn span(&self) -> Span {
    self.spread.unwrap_or_else(|| self.expr.span())
  }
}

impl Expr {
  pub fn is_ident(&self) -> bool {
    self.as_ident().is_some()
  }

  pub fn as_ident(&self) -> Option<&Ident> {
    match self {
      Expr::Ident(ident) => Some(ident),
      _ => None,
    }
  }

  pub fn as_member(&self) -> Option<&MemberExpr> {
    match self {
      Expr::Member(member) => Some(member),
      _ => None,
    }
  }
}

impl MemberProp {
  pub fn as_ident(&self) -> Option<&IdentName> {
    match self {
      MemberProp::Ident(ident) => Some(ident),
      _ => None,
    }
  }
}

impl Callee {
  pub fn as_expr(&self) -> Option<&Expr> {
    match self {
      Callee::Expr(expr) => Some(expr),
      _ => None,
    }
  }
}

// Types.

choices! {
  TsType {
    TsKeywordType(TsKeywordType),
    TsThisType(TsThisType),
    TsFnOrConstructorType(TsFnOrConstructorType),
    TsTypeRef(TsTypeRef),
    TsTypeQuery(TsTypeQuery),
    TsTypeLit(TsTypeLit),
    TsArrayType(TsArrayType),
    TsTupleType(TsTupleType),
    TsOptionalType(TsOptionalType),
    TsRestType(TsRestType),
    TsUnionOrIntersectionType(TsUnionOrIntersectionType),
    TsConditionalType(TsConditionalType),
    TsInferType(TsInferType),
    TsParenthesizedType(TsParenthesizedType),
    TsTypeOperator(TsTypeOperator),
    TsIndexedAccessType(TsIndexedAccessType),
    TsMappedType(TsMappedType),
    TsLitType(TsLitType),
    TsTypePredicate(TsTypePredicate),
    TsImportType(TsImportType),
  }
  TsFnOrConstructorType {
    TsFnType(TsFnType),
    TsConstructorType(TsConstructorType),
  }
  // swc's has the first four; a written function type may hold any pattern
  // in the records.
  TsFnParam {
    Ident(BindingIdent),
    Array(ArrayPat),
    Rest(RestPat),
    Object(ObjectPat),
    Other(Pat),
  }
  TsEntityName { TsQualifiedName(Opaque), Ident(Ident) }
  TsTypeQueryExpr { TsEntityName(TsEntityName), Import(TsImportType) }
  TsTypeElement {
    TsMethodSignature(TsMethodSignature),
    TsPropertySignature(TsPropertySignature),
    TsIndexSignature(TsIndexSignature),
  }
  TsLit {
    Number(Number),
    Str(Str),
    Bool(Bool),
    BigInt(BigInt),
    Tpl(Opaque),
  }
}

nodes! {
  TsTypeAnn { type_ann: Box<TsType> }
  TsKeywordType { kind: TsKeywordTypeKind }
  TsThisType {}
  TsOptionalType {}
  TsUnionOrIntersectionType {}
  TsConditionalType {}
  TsInferType {}
  TsParenthesizedType {}
  TsIndexedAccessType {}
  TsMappedType {}
  TsTypePredicate {}
  TsImportType {}
  TsArrayType {}
  TsConstructorType {}
  TsMethodSignature {}
  TsFnType {
    params: Vec<TsFnParam>,
    type_ann: Box<TsTypeAnn>,
    type_params: TypeParams,
  }
  TsTypeRef { type_name: TsEntityName, type_params: Option<Opaque> }
  TsTypeQuery { expr_name: TsTypeQueryExpr, type_args: Option<Opaque> }
  TsTypeLit { members: Vec<TsTypeElement> }
  TsPropertySignature {
    readonly: bool,
    key: Box<Expr>,
    computed: bool,
    optional: bool,
    type_ann: Option<Box<TsTypeAnn>>,
  }
  TsTupleType { elem_types: Vec<TsTupleElement> }
  TsTupleElement { label: Option<Opaque>, ty: Box<TsType> }
  TsRestType { type_ann: Box<TsType> }
  TsTypeOperator { op: TsTypeOperatorOp, type_ann: Box<TsType> }
  TsLitType { lit: TsLit }
}

#[derive(Clone, Copy, Debug, PartialEq, Eq)]
pub enum TsTypeOperatorOp {
  KeyOf,
  Unique,
  ReadOnly,
}

/// The keywords that the originals name; any other is in its record's note.
#[derive(Clone, Copy, Debug, PartialEq, Eq)]
pub enum TsKeywordTypeKind {
  TsAnyKeyword,
  TsNumberKeyword,
  TsBooleanKeyword,
  TsBigIntKeyword,
  TsStringKeyword,
  TsVoidKeyword,
  TsUndefinedKeyword,
  TsNullKeyword,
  Other,
}
