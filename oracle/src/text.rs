//! Declarations as text: document 02's §3. What is written for each mark is
//! fixed by TEXT.md, and the arms of `tokens` are its rows, in its words. A line
//! is a list of tokens first; where a space stands is asked of the whole list.

pub mod counts;
pub mod samples;

use std::borrow::Cow;

use crate::call::Answer;
use crate::call::call;
use crate::grammar::Grammar;
use crate::grammar::Refused;
use crate::grammar::check;
use crate::record::HEAD;
use crate::record::Head;
use crate::record::Mark;

/// The text of a tree, if it is not longer than `room`. Refusals in their
/// order: 1, those of the tree (3 to 8), 11, 9.
pub fn text(tree: &[u8], room: usize) -> Result<Vec<u8>, Refused> {
  let text = whole(tree)?;
  match text.len() > room {
    true => Err(Refused {
      number: 9,
      place: 0,
    }),
    false => Ok(text),
  }
}

/// The text of a tree, however long it is; so without refusal 9.
pub fn whole(tree: &[u8]) -> Result<Vec<u8>, Refused> {
  let lines = lines(tree)?;
  // "11, a written number outside these forms, the first in preorder".
  match outside(&lines).into_iter().min() {
    Some(place) => Err(Refused { number: 11, place }),
    None => Ok(lines.iter().flat_map(Line::bytes).collect()),
  }
}

/// What the program `text` prints: the text of a module's declarations, or the
/// first refusal.
pub fn program(tree: &[u8]) -> Vec<u8> {
  if tree.len() > 32_768 {
    return b"too long\n".to_vec();
  }
  let mut out = vec![0; 65_536];
  let written = match call(tree, &[], 1, &mut out, &mut [0; 21_840]) {
    Answer::Done(length, _) => text(&out[..length], 393_216),
    Answer::Refused(no) => Err(no),
  };
  written.unwrap_or_else(|no| format!("{}\n", Answer::Refused(no)).into_bytes())
}

// Records.

/// A record with its offset, its trailing `Op`s apart from its parts.
struct Node<'t> {
  at: usize,
  mark: Mark,
  flags: u8,
  text: &'t [u8],
  parts: Vec<Node<'t>>,
  ops: Vec<Node<'t>>,
}

impl<'t> Node<'t> {
  /// The record of an accepted tree at an offset, and the offset after it.
  fn read(tree: &'t [u8], at: usize) -> (Node<'t>, usize) {
    let head = Head::read(tree, at).expect("an accepted tree reads");
    let mut next = at + HEAD + head.text_length;
    let text = &tree[at + HEAD..next];
    let mut parts = vec![];
    for _ in 0..head.count {
      let (kid, after) = Node::read(tree, next);
      parts.push(kid);
      next = after;
    }
    // An `Op` in one of the slots for one child is a part, and no slot for
    // many children takes one.
    let mark = std::str::from_utf8(&head.mark).expect("a mark");
    let slots = &Grammar::get().row(mark).slots;
    let one = slots.iter().filter(|slot| !slot.many).count();
    let end = (one..parts.len()).find(|n| parts[*n].is("Op"));
    let ops = parts.split_off(end.unwrap_or(parts.len()));
    let node = Node {
      at,
      mark: head.mark,
      flags: head.flags,
      text,
      parts,
      ops,
    };
    (node, next)
  }

  fn is(&self, mark: &str) -> bool {
    self.mark == mark.as_bytes()
  }

  fn has(&self, flag: u8) -> bool {
    self.flags & flag != 0
  }
}

// Tokens.

enum Token<'t> {
  Word(Cow<'t, [u8]>),
  /// An own token of the template at this offset.
  Own(usize, Cow<'t, [u8]>),
  /// A number outside the forms, at this offset: the whole text is refused.
  Outside(usize),
}

type Tokens<'t> = Vec<Token<'t>>;

impl Token<'_> {
  fn bytes(&self) -> &[u8] {
    match self {
      Token::Word(bytes) | Token::Own(_, bytes) => bytes,
      Token::Outside(_) => b"?",
    }
  }

  /// "Both are own tokens of one and the same template".
  fn joins(&self, next: &Token) -> bool {
    matches!((self, next), (Token::Own(a, _), Token::Own(b, _)) if a == b)
  }
}

fn word(word: &'static str) -> Tokens<'static> {
  vec![Token::Word(word.as_bytes().into())]
}

/// A token that stands in the record as it is.
fn given(bytes: &[u8]) -> Tokens<'_> {
  vec![Token::Word(bytes.into())]
}

/// A token that is made of the record's text.
fn made(bytes: Vec<u8>) -> Tokens<'static> {
  vec![Token::Word(bytes.into())]
}

fn all<'t, const N: usize>(parts: [Tokens<'t>; N]) -> Tokens<'t> {
  parts.into_iter().flatten().collect()
}

/// The word, if the flag is set.
fn flag(r: &Node, flag: u8, says: &'static str) -> Tokens<'static> {
  match r.has(flag) {
    true => word(says),
    false => vec![],
  }
}

/// The word and T(x), if x is there.
fn after<'t>(says: &'static str, x: &Node<'t>) -> Tokens<'t> {
  match x.is("No") {
    true => vec![],
    false => all([word(says), tokens(x)]),
  }
}

/// "The tokens of a record's trailing Ops, in order".
fn ops<'t>(r: &Node<'t>) -> Tokens<'t> {
  r.ops.iter().flat_map(tokens).collect()
}

/// "The tokens with `,` between".
fn list<'t>(xs: &[Node<'t>]) -> Tokens<'t> {
  let mut all = vec![];
  for (number, x) in xs.iter().enumerate() {
    if number > 0 {
      all.extend(word(","));
    }
    all.extend(tokens(x));
  }
  all
}

/// "The tokens of each member, `Dm`s left out, each ending in one `;`: the
/// token `;` follows it unless its last nonempty token ends in `;` already. A
/// member without tokens is `;`."
fn members<'t>(xs: &[Node<'t>]) -> Tokens<'t> {
  let mut all = vec![];
  for member in xs.iter().filter(|x| !x.is("Dm")) {
    let tokens = tokens(member);
    let ended = last_byte(&tokens) == Some(b';');
    all.extend(tokens);
    if !ended {
      all.extend(word(";"));
    }
  }
  all
}

/// The last byte of the last nonempty token.
fn last_byte(tokens: &Tokens) -> Option<u8> {
  let last = tokens.iter().rfind(|token| !token.bytes().is_empty());
  last.and_then(|token| token.bytes().last().copied())
}

/// T(x): the tokens of a record, on the line that it begins on.
fn tokens<'t>(r: &Node<'t>) -> Tokens<'t> {
  let part = |slot: usize| &r.parts[slot];
  let t = |slot: usize| tokens(&r.parts[slot]);
  let mark = std::str::from_utf8(&r.mark).expect("a mark");
  match mark {
    // "An Op's tokens are its text, as it stands, then those of its children."
    "Op" => all([given(r.text), ops(r)]),
    "St" | "Dm" | "No" => vec![],

    // Items and declarations.
    "Ed" => all([ops(r), word("export"), t(0)]),
    "Xd" => all([ops(r), word("export"), word("default"), t(0)]),
    "Xe" => all([ops(r), word("export"), word("default"), t(0)]),
    "Im" | "In" | "Ty" | "Us" => ops(r),
    "Fd" => all([flag(r, 1, "declare"), ops(r), word("function"), t(0), t(1)]),
    "Cd" => all([flag(r, 1, "declare"), ops(r), word("class"), t(0), t(1)]),
    "Vd" => {
      let kind = if r.has(2) { "const" } else { "let" };
      all([
        flag(r, 1, "declare"),
        ops(r),
        word(kind),
        list(&r.parts[..]),
      ])
    }
    "Vr" => all([ops(r), t(0)]),
    "En" => all([
      flag(r, 1, "declare"),
      ops(r),
      word("enum"),
      t(0),
      word("{"),
      list(&r.parts[1..]),
      word("}"),
    ]),
    "Em" => all([ops(r), t(0), after("=", part(1))]),
    "Ns" => {
      // "If the name Op's own text begins with `"` or `'`".
      let quoted = matches!(part(0).text.first(), Some(b'"' | b'\''));
      let kind = if quoted { "module" } else { "namespace" };
      let body = body(part(1));
      all([flag(r, 1, "declare"), ops(r), word(kind), t(0), body])
    }

    // Functions, classes and keys.
    "Fu" => all([
      ops(r),
      t(0),
      word("("),
      list(&r.parts[3..]),
      word(")"),
      after(":", part(1)),
    ]),
    "Pa" => all([ops(r), t(0)]),
    "Pp" => all([ops(r), t(0)]),
    "Cl" => all([t(0), ops(r), word("{"), members(&r.parts[1..]), word("}")]),
    "Co" => all([
      ops(r),
      word("constructor"),
      word("("),
      list(&r.parts[1..]),
      word(")"),
    ]),
    "Me" => {
      let kind = match (r.has(1), r.has(2)) {
        (true, _) => word("set"),
        (false, true) => word("get"),
        (false, false) => vec![],
      };
      all([ops(r), flag(r, 4, "static"), kind, t(0), t(1)])
    }
    "Cp" => all([
      flag(r, 1, "declare"),
      ops(r),
      t(0),
      flag(r, 2, "!"),
      after(":", part(1)),
    ]),
    "Ix" => all([flag(r, 1, "readonly"), ops(r)]),
    "Ki" => all([ops(r), given(r.text)]),
    "Kc" => all([ops(r), word("["), t(0), word("]")]),

    // Patterns.
    "Bd" => all([ops(r), t(0), after(":", part(1))]),
    "Pb" | "Po" => all([ops(r), flag(r, 1, "?"), after(":", part(0))]),
    "Ag" => all([ops(r), t(0), word("="), t(1)]),
    "Pe" => all([ops(r), t(0)]),
    "Rs" | "Pi" => ops(r),

    // Expressions.
    "Id" => all([ops(r), given(&r.text[4..]), flag(r, 1, "?")]),
    "Ss" => made([b"\"", &escaped(r.text)[..], b"\""].concat()),
    "Nu" => match (r.ops.first(), decimal(r.text)) {
      (Some(spelling), _) => tokens(spelling),
      (None, Some(decimal)) => made(decimal.into_bytes()),
      (None, None) => vec![Token::Outside(r.at)],
    },
    "Bi" => {
      let sign: &[u8] = if r.text[0] == 1 { b"-" } else { b"" };
      made([sign, &r.text[1..], b"n"].concat())
    }
    "Bl" => word(if r.has(1) { "true" } else { "false" }),
    "Nl" => word("null"),
    "Jt" => vec![],
    "Re" | "Oe" | "Pq" => ops(r),
    "Ar" => {
      // "And one `,` more if the last element is a hole".
      let more = match r.parts.last() {
        Some(last) if last.is("No") => word(","),
        _ => vec![],
      };
      all([ops(r), word("["), list(&r.parts), more, word("]")])
    }
    "Sp" => all([ops(r), word("..."), t(0)]),
    "Ob" => all([ops(r), word("{"), list(&r.parts), word("}")]),
    "Kv" => all([ops(r), t(0), word(":"), t(1)]),
    "Sh" => all([ops(r), t(0)]),
    "Fx" => all([ops(r), word("function"), t(0), t(1)]),
    "Aw" => all([
      ops(r),
      t(0),
      word("("),
      list(&r.parts[2..]),
      word(")"),
      after(":", part(1)),
      word("=>"),
    ]),
    "Te" => all([ops(r), template(r)]),
    "Mi" => all([ops(r), word("-"), t(0)]),
    "Ca" => all([ops(r), t(0), word("("), list(&r.parts[1..]), word(")")]),
    "Ne" => all([ops(r), word("new"), t(0), t(1)]),
    "Mb" => match part(1).is("Ki") {
      true => all([ops(r), t(0), word("."), t(1)]),
      false => all([ops(r), t(0), t(1)]),
    },
    "Bn" => all([t(0), ops(r), t(1)]),
    "Oc" => match part(0).is("Mb") {
      true => {
        let member = part(0);
        let (object, name) = (&member.parts[0], &member.parts[1]);
        all([
          ops(r),
          ops(member),
          tokens(object),
          word("?."),
          tokens(name),
        ])
      }
      false => all([ops(r), t(0)]),
    },
    "Tc" => all([ops(r), t(0), word("as"), word("const")]),
    "Nn" => all([ops(r), t(0), word("!")]),
    "Pr" => all([ops(r), word("("), t(0), word(")")]),
    "As" => all([ops(r), t(0), word("as"), t(1)]),
    "Ts" => all([ops(r), t(0), word("satisfies"), t(1)]),
    "Ta" => all([ops(r), word("<"), t(1), word(">"), t(0)]),
    "Cx" => all([ops(r), word("class"), t(0), t(1)]),

    // Types.
    "Kw" => all([ops(r), given(r.text)]),
    "Tl" => all([ops(r), t(0)]),
    "Rf" => all([ops(r), t(0), t(1)]),
    "Tf" => all([ops(r), word("typeof"), t(0)]),
    "Li" => all([ops(r), word("{"), members(&r.parts), word("}")]),
    "Ps" => {
      let key = match r.has(2) {
        true => all([word("["), t(0), word("]")]),
        false => t(0),
      };
      all([
        flag(r, 1, "readonly"),
        ops(r),
        key,
        flag(r, 4, "?"),
        after(":", part(1)),
      ])
    }
    "Tu" => all([ops(r), word("["), list(&r.parts), word("]")]),
    "Tm" => {
      let label = match part(0).is("No") {
        true => vec![],
        false => all([t(0), word(":")]),
      };
      all([ops(r), label, t(1)])
    }
    "Rt" => all([ops(r), word("..."), t(0)]),
    "Ro" => all([word("readonly"), ops(r), t(0)]),
    "Ft" => all([
      ops(r),
      t(0),
      word("("),
      list(&r.parts[2..]),
      word(")"),
      word("=>"),
      t(1),
    ]),
    "Ot" | "Om" | "Ay" | "Ct" => ops(r),

    // `Mo` is written by `module`, `Nb` and `Nd` by `body`, `Qu` by `template`.
    mark => unreachable!("{mark} stands elsewhere"),
  }
}

/// A namespace's body on the line of the namespace: up to the brace that opens
/// its block.
fn body<'t>(r: &Node<'t>) -> Tokens<'t> {
  match r.is("Nd") {
    true => {
      let (name, inner) = (&r.parts[0], &r.parts[1]);
      all([word("."), ops(r), tokens(name), body(inner)])
    }
    false if r.is("Nb") => all([ops(r), word("{")]),
    // No body.
    false => vec![],
  }
}

/// "Own tokens: a backtick, and in turns the text of the next `Qu` and `${`
/// T(next expression) `}` until both have run out, a backtick."
fn template<'t>(r: &Node<'t>) -> Tokens<'t> {
  let own = |bytes: &'static str| Token::Own(r.at, bytes.as_bytes().into());
  let count = r.parts.iter().filter(|x| x.is("Qu")).count();
  let (quasis, expressions) = r.parts.split_at(count);
  let mut all = vec![own("`")];
  for turn in 0..quasis.len().max(expressions.len()) {
    if let Some(quasi) = quasis.get(turn) {
      all.push(Token::Own(r.at, escaped(quasi.text).into()));
    }
    if let Some(expression) = expressions.get(turn) {
      all.push(own("${"));
      all.extend(tokens(expression));
      all.push(own("}"));
    }
  }
  all.push(own("`"));
  all
}

/// "A byte below 32, and `"`, `\`, the backtick and `$`, become `\u` and four
/// small hex digits; every other byte stands as it is."
fn escaped(text: &[u8]) -> Vec<u8> {
  let mut all = vec![];
  for b in text {
    match b {
      0..32 | b'"' | b'\\' | b'`' | b'$' => {
        all.extend(format!("\\u{b:04x}").into_bytes())
      }
      _ => all.push(*b),
    }
  }
  all
}

/// The 8 bytes of an f64 "in decimal if it is whole and below 2 to the 53 in
/// size", `-0` for negative zero.
fn decimal(text: &[u8]) -> Option<String> {
  let bits = u64::from_le_bytes(text.try_into().expect("8 bytes"));
  let number = f64::from_bits(bits);
  let whole = number.fract() == 0.0;
  let below = number.abs() < 2f64.powi(53);
  let sign = if number.is_sign_negative() { "-" } else { "" };
  (whole && below).then(|| format!("{sign}{}", number.abs() as u64))
}

// Lines.

struct Line<'t> {
  /// The number of `Ns` records around it.
  around: usize,
  tokens: Tokens<'t>,
}

impl Line<'_> {
  /// "Two spaces for each `Ns` around it, its tokens, a line feed"; "empty ones
  /// are left out, and one space stands between two that follow each other".
  fn bytes(&self) -> Vec<u8> {
    let mut bytes = b"  ".repeat(self.around);
    let mut last: Option<&Token> = None;
    for token in self.tokens.iter().filter(|t| !t.bytes().is_empty()) {
      if last.is_some_and(|last| !last.joins(token)) {
        bytes.push(b' ');
      }
      bytes.extend(token.bytes());
      last = Some(token);
    }
    bytes.push(b'\n');
    bytes
  }
}

/// The lines of a tree, unless it is refused.
fn lines(tree: &[u8]) -> Result<Vec<Line<'_>>, Refused> {
  check(tree, &[])?;
  let (root, _) = Node::read(tree, 0);
  Ok(module(&root))
}

/// "A `Mo`'s own Ops, if any of their tokens is nonempty, are a first line."
fn module<'t>(root: &Node<'t>) -> Vec<Line<'t>> {
  let mut lines = vec![];
  let tokens = ops(root);
  if tokens.iter().any(|token| !token.bytes().is_empty()) {
    lines.push(Line { around: 0, tokens });
  }
  items(root, 0, &mut lines);
  lines
}

/// "Every item but an `St` is one line. A namespace's block opens at the end of
/// its line, its items follow on their lines, and `}` stands on a line of its
/// own with the indent of the `Ns`."
fn items<'t>(holder: &Node<'t>, around: usize, lines: &mut Vec<Line<'t>>) {
  for item in holder.parts.iter().filter(|item| !item.is("St")) {
    let tokens = tokens(item);
    lines.push(Line { around, tokens });
    if let Some(block) = block(item) {
      items(block, around + 1, lines);
      let tokens = word("}");
      lines.push(Line { around, tokens });
    }
  }
}

/// The `Nb` of an item that is a namespace, exported or not.
fn block<'n, 't>(r: &'n Node<'t>) -> Option<&'n Node<'t>> {
  match &r.mark {
    b"Ed" => block(&r.parts[0]),
    b"Ns" | b"Nd" => block(&r.parts[1]),
    b"Nb" => Some(r),
    _ => None,
  }
}

/// The offsets of the written numbers outside the forms, as they are written.
fn outside(lines: &[Line]) -> Vec<usize> {
  let tokens = lines.iter().flat_map(|line| &line.tokens);
  let places = tokens.filter_map(|token| match token {
    Token::Outside(at) => Some(*at),
    _ => None,
  });
  places.collect()
}
