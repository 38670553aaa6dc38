/// A range, with the number of the record's note (0 is none).
#[derive(Clone, Copy, Debug, Default)]
pub struct Span {
  pub lo: u32,
  pub hi: u32,
  pub note: u32,
}

pub const DUMMY_SP: Span = Span {
  lo: 0,
  hi: 0,
  note: 0,
};

pub trait Spanned {
  fn span(&self) -> Span;
}

impl Spanned for Span {
  fn span(&self) -> Span {
    *self
  }
}

impl<T: Spanned> Spanned for &T {
  fn span(&self) -> Span {
    (*self).span()
  }
}

impl<T: Spanned> Spanned for Box<T> {
  fn span(&self) -> Span {
    (**self).span()
  }
}

/// An identifier's context, with the number of the identifier's note and the
/// span of the record around it (`Bd`, `Sh`), if there is one.
#[derive(Clone, Copy, Debug, Default)]
pub struct SyntaxContext {
  pub number: u32,
  pub note: u32,
  pub around: Option<Span>,
}

impl SyntaxContext {
  pub fn from_u32(number: u32) -> Self {
    Self {
      number,
      note: 0,
      around: None,
    }
  }
}

impl PartialEq for SyntaxContext {
  fn eq(&self, other: &Self) -> bool {
    self.number == other.number
  }
}

impl Eq for SyntaxContext {}

impl std::hash::Hash for SyntaxContext {
  fn hash<H: std::hash::Hasher>(&self, state: &mut H) {
    self.number.hash(state);
  }
}
