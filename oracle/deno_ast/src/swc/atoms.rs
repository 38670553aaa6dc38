/// A text. Records hold any bytes, and a byte stands here as the character of
/// its number, so that ASCII texts are themselves and no two texts are mixed up.
#[derive(Clone, Debug, PartialEq, Eq, Hash)]
pub struct Atom(String);

impl Atom {
  pub fn from_bytes(bytes: &[u8]) -> Self {
    Self(bytes.iter().map(|b| *b as char).collect())
  }

  pub fn to_bytes(&self) -> Vec<u8> {
    self.0.chars().map(|c| c as u8).collect()
  }

  pub fn as_str(&self) -> &str {
    &self.0
  }
}

impl From<&str> for Atom {
  fn from(text: &str) -> Self {
    Self(text.to_string())
  }
}

impl From<String> for Atom {
  fn from(text: String) -> Self {
    Self(text)
  }
}

impl PartialEq<str> for Atom {
  fn eq(&self, other: &str) -> bool {
    self.0 == other
  }
}

impl PartialEq<&str> for Atom {
  fn eq(&self, other: &&str) -> bool {
    self.0 == *other
  }
}
