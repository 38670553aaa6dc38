//! What a record says and swc's node does not. A note is written for each
//! record that is read; its number travels in the node (see deno_ast's lib.rs),
//! and what the originals made of the node decides what is read back:
//!
//! - a node with a note about its own mark was passed or changed: it keeps its
//!   `Op`s and its flags without a name, and an absent child that was absent
//!   before is the same `No`, with its flags and range;
//! - a node with no note, or with one about another mark (a `Tu` made with the
//!   span of an `Ar`), was made: it has the range of its span and no more;
//! - a child that is absent now and was not before is a `No` of zeros;
//! - a record that the originals only pass or drop (`Im`, `St`, `In`, `Ty`,
//!   `Us`, `Oe`, `Ot`, `Om`, `Dm`, `Pq`, `Re`, `Nl`, `Jt`, `Ay`, `Ct`, `Rs`,
//!   `Pi`, an `Op` in its place) stands whole in its note.

use deno_ast::swc::common::Span;

use crate::record::Mark;
use crate::record::Rec;
use crate::record::rec;

pub struct Note {
  mark: Mark,
  flags: u8,
  text: Vec<u8>,
  /// The absent children, by their number.
  absent: Vec<(usize, Rec)>,
  ops: Vec<Rec>,
  whole: Option<Rec>,
}

#[derive(Default)]
pub struct Notes(Vec<Note>);

impl Notes {
  fn add(&mut self, note: Note) -> u32 {
    self.0.push(note);
    self.0.len() as u32
  }

  fn get(&self, number: u32) -> Option<&Note> {
    self.0.get((number as usize).wrapping_sub(1))
  }

  /// A note about a record with these parts and these `Op`s after them.
  pub fn record(&mut self, r: &Rec, parts: &[Rec], ops: &[Rec]) -> Span {
    let absent = parts.iter().enumerate().filter(|(_, kid)| kid.is("No"));
    let note = self.add(Note {
      mark: r.mark,
      flags: r.flags,
      text: r.text.clone(),
      absent: absent.map(|(slot, kid)| (slot, kid.clone())).collect(),
      ops: ops.to_vec(),
      whole: None,
    });
    Span {
      lo: r.start,
      hi: r.end,
      note,
    }
  }

  /// A note that holds a whole record.
  pub fn whole(&mut self, r: &Rec) -> Span {
    let note = self.add(Note {
      mark: r.mark,
      flags: r.flags,
      text: vec![],
      absent: vec![],
      ops: vec![],
      whole: Some(r.clone()),
    });
    Span {
      lo: r.start,
      hi: r.end,
      note,
    }
  }

  /// The record that is whole in its note.
  pub fn read_whole(&self, span: Span) -> Rec {
    let note = self
      .get(span.note)
      .expect("a part that only passes has a note");
    note
      .whole
      .clone()
      .expect("a part that only passes is whole in its note")
  }

  /// The `Op`s of a note about any record.
  pub fn read_ops(&self, number: u32) -> Vec<Rec> {
    self.get(number).map_or(vec![], |note| note.ops.clone())
  }

  fn own(&self, mark: &str, span: Span) -> Option<&Note> {
    self
      .get(span.note)
      .filter(|note| note.mark == mark.as_bytes())
  }

  /// A record as the originals left it: its named flags, text and parts.
  pub fn read_record(
    &self,
    mark: &str,
    span: Span,
    (named, flags): (u8, u8),
    text: Vec<u8>,
    mut kids: Vec<Rec>,
  ) -> Rec {
    let mut all_flags = flags;
    if let Some(note) = self.own(mark, span) {
      all_flags |= note.flags & !named;
      kids.extend(note.ops.iter().cloned());
    }
    Rec {
      flags: all_flags,
      text,
      ..rec(mark, kids).at(span.lo, span.hi)
    }
  }

  /// The flags of a record that was read.
  pub fn read_flags(&self, mark: &str, span: Span) -> u8 {
    self.own(mark, span).map_or(0, |note| note.flags)
  }

  /// The text of a record that was read.
  pub fn read_text(&self, mark: &str, span: Span) -> Vec<u8> {
    self
      .own(mark, span)
      .map_or(vec![], |note| note.text.clone())
  }

  /// The child in a slot, or the `No` there.
  pub fn read_slot(
    &self,
    mark: &str,
    span: Span,
    slot: usize,
    kid: Option<Rec>,
  ) -> Rec {
    kid.unwrap_or_else(|| {
      self
        .own(mark, span)
        .and_then(|note| note.absent.iter().find(|(at, _)| *at == slot))
        .map_or(rec("No", vec![]), |(_, no)| no.clone())
    })
  }
}
