//! The record of document 01: a head of 15 bytes, a text, and children.

pub type Mark = [u8; 2];

pub const HEAD: usize = 15;

#[derive(Clone, Debug, PartialEq, Eq)]
pub struct Rec {
  pub mark: Mark,
  pub flags: u8,
  pub start: u32,
  pub end: u32,
  pub text: Vec<u8>,
  pub kids: Vec<Rec>,
}

/// A record with no flags, no range and no text.
pub fn rec(mark: &str, kids: Vec<Rec>) -> Rec {
  Rec {
    mark: mark.as_bytes().try_into().unwrap(),
    flags: 0,
    start: 0,
    end: 0,
    text: vec![],
    kids,
  }
}

impl Rec {
  pub fn is(&self, mark: &str) -> bool {
    self.mark == mark.as_bytes()
  }

  pub fn mark(&self) -> &str {
    std::str::from_utf8(&self.mark).unwrap_or("??")
  }

  pub fn with_text(mut self, text: &[u8]) -> Rec {
    self.text = text.to_vec();
    self
  }

  pub fn with_flags(mut self, flags: u8) -> Rec {
    self.flags = flags;
    self
  }

  pub fn at(mut self, start: u32, end: u32) -> Rec {
    self.start = start;
    self.end = end;
    self
  }

  /// The bytes of the tree, or nothing where a text or a number of children
  /// is more than two bytes can say.
  pub fn encode(&self) -> Option<Vec<u8>> {
    let mut bytes = vec![];
    self.encode_to(&mut bytes)?;
    Some(bytes)
  }

  fn encode_to(&self, bytes: &mut Vec<u8>) -> Option<()> {
    let text_length = u16::try_from(self.text.len()).ok()?;
    let count = u16::try_from(self.kids.len()).ok()?;
    bytes.extend(self.mark);
    bytes.push(self.flags);
    bytes.extend(self.start.to_le_bytes());
    bytes.extend(self.end.to_le_bytes());
    bytes.extend(text_length.to_le_bytes());
    bytes.extend(count.to_le_bytes());
    bytes.extend(&self.text);
    for kid in &self.kids {
      kid.encode_to(bytes)?;
    }
    Some(())
  }

  /// The tree that starts at `at`, whatever its marks, and the offset after it.
  pub fn read(bytes: &[u8], at: usize) -> Option<(Rec, usize)> {
    let head = Head::read(bytes, at)?;
    let mut next = at + HEAD + head.text_length;
    let text = bytes.get(at + HEAD..next)?.to_vec();
    let mut kids = vec![];
    for _ in 0..head.count {
      let (kid, after) = Rec::read(bytes, next)?;
      kids.push(kid);
      next = after;
    }
    let tree = Rec {
      mark: head.mark,
      flags: head.flags,
      start: head.start,
      end: head.end,
      text,
      kids,
    };
    Some((tree, next))
  }

  pub fn depth(&self) -> usize {
    1 + self.kids.iter().map(Rec::depth).max().unwrap_or(0)
  }

  /// Calls `f` on every record, in preorder.
  pub fn each<'a>(&'a self, f: &mut dyn FnMut(&'a Rec)) {
    f(self);
    for kid in &self.kids {
      kid.each(f);
    }
  }

  /// The same, where each may be changed.
  pub fn each_mut(&mut self, f: &mut dyn FnMut(&mut Rec)) {
    f(self);
    for kid in &mut self.kids {
      kid.each_mut(f);
    }
  }
}

pub struct Head {
  pub mark: Mark,
  pub flags: u8,
  pub start: u32,
  pub end: u32,
  pub text_length: usize,
  pub count: usize,
}

impl Head {
  pub fn read(bytes: &[u8], at: usize) -> Option<Head> {
    let b = bytes.get(at..)?.get(..HEAD)?;
    Some(Head {
      mark: [b[0], b[1]],
      flags: b[2],
      start: u32::from_le_bytes([b[3], b[4], b[5], b[6]]),
      end: u32::from_le_bytes([b[7], b[8], b[9], b[10]]),
      text_length: u16::from_le_bytes([b[11], b[12]]) as usize,
      count: u16::from_le_bytes([b[13], b[14]]) as usize,
    })
  }
}
