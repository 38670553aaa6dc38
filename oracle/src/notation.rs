//! Trees as text, both ways: mark, `+` flags, `@` start `-` end, text,
//! children in parentheses. Flags and a range of zeros are left out.
//!
//! `Mo(Vd+2@0-9(Vr(Bd(Id#2"a" No) Nu=2)))`
//!
//! The text of an `Id` is `#` context and the quoted symbol, of a `Nu` `=` and
//! a number (or `=0x` and its 64 bits where no decimal number says them), of a
//! `Bi` `=` and an integer, any other text is quoted. In quotes, `\xHH` is a
//! byte, `\"` and `\\` are themselves.

use std::fmt::Write;

use crate::record::Rec;

pub fn show(tree: &Rec) -> String {
  let mut out = String::new();
  show_to(tree, &mut out);
  out
}

fn show_to(tree: &Rec, out: &mut String) {
  for b in tree.mark {
    show_byte(b, out);
  }
  if tree.flags != 0 {
    write!(out, "+{}", tree.flags).unwrap();
  }
  if (tree.start, tree.end) != (0, 0) {
    write!(out, "@{}-{}", tree.start, tree.end).unwrap();
  }
  show_text(tree, out);
  if !tree.kids.is_empty() {
    out.push('(');
    for (number, kid) in tree.kids.iter().enumerate() {
      if number > 0 {
        out.push(' ');
      }
      show_to(kid, out);
    }
    out.push(')');
  }
}

fn show_text(tree: &Rec, out: &mut String) {
  let text = &tree.text;
  match &tree.mark {
    b"Id" if text.len() >= 4 => {
      let context = u32::from_le_bytes(text[..4].try_into().unwrap());
      write!(out, "#{context}").unwrap();
      quote(&text[4..], out);
    }
    b"Nu" if text.len() == 8 => {
      let bits = u64::from_le_bytes(text[..].try_into().unwrap());
      let number = format!("{}", f64::from_bits(bits));
      match number.parse::<f64>() {
        Ok(value) if value.to_bits() == bits && number.len() < 25 => {
          write!(out, "={number}").unwrap()
        }
        _ => write!(out, "=0x{bits:016x}").unwrap(),
      }
    }
    b"Bi"
      if text.len() >= 2
        && text[0] <= 1
        && text[1..].iter().all(u8::is_ascii_digit) =>
    {
      let sign = if text[0] == 1 { "-" } else { "" };
      let digits = std::str::from_utf8(&text[1..]).unwrap();
      write!(out, "={sign}{digits}").unwrap();
    }
    _ if text.is_empty() => {}
    _ => quote(text, out),
  }
}

fn quote(text: &[u8], out: &mut String) {
  out.push('"');
  for b in text {
    show_byte(*b, out);
  }
  out.push('"');
}

fn show_byte(b: u8, out: &mut String) {
  match b {
    b'"' | b'\\' => {
      out.push('\\');
      out.push(b as char);
    }
    b' '..=b'~' => out.push(b as char),
    _ => write!(out, "\\x{b:02x}").unwrap(),
  }
}

pub fn parse(text: &str) -> Result<Rec, String> {
  let mut parser = Parser {
    text: text.as_bytes(),
    at: 0,
  };
  parser.spaces();
  let tree = parser.tree()?;
  parser.spaces();
  match parser.peek() {
    None => Ok(tree),
    Some(_) => parser.fail("the end"),
  }
}

struct Parser<'a> {
  text: &'a [u8],
  at: usize,
}

impl Parser<'_> {
  fn fail<T>(&self, wanted: &str) -> Result<T, String> {
    Err(format!("at {}: {wanted} is wanted", self.at))
  }

  fn peek(&self) -> Option<u8> {
    self.text.get(self.at).copied()
  }

  fn take(&mut self, b: u8) -> bool {
    let here = self.peek() == Some(b);
    if here {
      self.at += 1;
    }
    here
  }

  fn spaces(&mut self) {
    while self.peek().is_some_and(|b| b.is_ascii_whitespace()) {
      self.at += 1;
    }
  }

  fn byte(&mut self) -> Result<u8, String> {
    let Some(b) = self.peek() else {
      return self.fail("a byte");
    };
    self.at += 1;
    if b != b'\\' {
      return Ok(b);
    }
    if self.take(b'x') {
      let digits = self.text.get(self.at..self.at + 2).unwrap_or(b"");
      let digits = std::str::from_utf8(digits).unwrap_or("");
      let Ok(b) = u8::from_str_radix(digits, 16) else {
        return self.fail("two hex digits");
      };
      self.at += 2;
      return Ok(b);
    }
    let Some(b) = self.peek() else {
      return self.fail("a byte");
    };
    self.at += 1;
    Ok(b)
  }

  /// The characters up to a space, a parenthesis or a mark of this notation.
  fn word(&mut self, ends: &[u8]) -> &str {
    let from = self.at;
    while self.peek().is_some_and(|b| {
      !b.is_ascii_whitespace() && b != b'(' && b != b')' && !ends.contains(&b)
    }) {
      self.at += 1;
    }
    std::str::from_utf8(&self.text[from..self.at]).unwrap_or("")
  }

  fn number<T: std::str::FromStr>(&mut self) -> Result<T, String> {
    match self.word(b"+@-#\"=").parse() {
      Ok(number) => Ok(number),
      Err(_) => self.fail("a number that fits"),
    }
  }

  fn quoted(&mut self) -> Result<Vec<u8>, String> {
    let mut text = vec![];
    while self.peek() != Some(b'"') {
      text.push(self.byte()?);
    }
    self.at += 1;
    Ok(text)
  }

  fn tree(&mut self) -> Result<Rec, String> {
    let mark = [self.byte()?, self.byte()?];
    let mut tree = Rec {
      mark,
      flags: 0,
      start: 0,
      end: 0,
      text: vec![],
      kids: vec![],
    };
    if self.take(b'+') {
      tree.flags = self.number()?;
    }
    if self.take(b'@') {
      tree.start = self.number()?;
      if !self.take(b'-') {
        return self.fail("-");
      }
      tree.end = self.number()?;
    }
    if self.take(b'#') {
      let context: u32 = self.number()?;
      tree.text.extend(context.to_le_bytes());
    }
    if self.take(b'"') {
      let text = self.quoted()?;
      tree.text.extend(text);
    } else if self.take(b'=') {
      tree.text = self.value(mark == *b"Bi")?;
    }
    if self.take(b'(') {
      self.spaces();
      while !self.take(b')') {
        let kid = self.tree()?;
        tree.kids.push(kid);
        self.spaces();
      }
    }
    Ok(tree)
  }

  fn value(&mut self, integer: bool) -> Result<Vec<u8>, String> {
    let word = self.word(b"").to_string();
    if integer {
      let (sign, digits) = match word.strip_prefix('-') {
        Some(digits) => (1, digits),
        None => (0, word.as_str()),
      };
      let mut text = vec![sign];
      text.extend(digits.as_bytes());
      return Ok(text);
    }
    if let Some(digits) = word.strip_prefix("0x") {
      return match u64::from_str_radix(digits, 16) {
        Ok(bits) => Ok(bits.to_le_bytes().to_vec()),
        Err(_) => self.fail("64 bits in hex"),
      };
    }
    match word.parse::<f64>() {
      Ok(number) => Ok(number.to_bits().to_le_bytes().to_vec()),
      Err(_) => self.fail("a number"),
    }
  }
}
