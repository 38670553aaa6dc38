//! `dts_text` beside the oracle's reading of document 02: the number, the answer and the buffer. It holds noise first, and so does what stands before
//! and behind it; all of it is compared. And the texts of declarations: both transforms, then both texts.
use oracle::call::Answer;
use oracle::call::call;
use oracle::generate::Case;
use oracle::generate::Rng;
use oracle::generate::TextCase;
use oracle::grammar::MAX_TREE;
use oracle::lines::hex;
use oracle::text::text;
use oracle::text::whole;
use vatnext_dts::raw;

use crate::noise;

/// Bytes before and behind the memory that is lent.
const AROUND: usize = 24;

/// The part that is lent.
fn inner(whole: &mut [u8]) -> &mut [u8] {
    let end = whole.len() - AROUND;
    &mut whole[AROUND..end]
}

/// The number and the answer of the proved call.
fn proved(case: &TextCase, lent: &mut [u8]) -> (u32, [u64; 2]) {
    let mut answer = [u64::MAX; 2];
    let number = raw::text(&case.tree, inner(lent), &mut answer);
    (number, answer)
}

/// Those that the oracle's text stands for, which is put where it belongs.
fn expected(case: &TextCase, lent: &mut [u8]) -> (u32, [u64; 2]) {
    match text(&case.tree, case.room) {
        Ok(text) => {
            inner(lent)[..text.len()].copy_from_slice(&text);
            (0, [text.len() as u64, 0])
        }
        Err(no) => (no.number.into(), [no.place as u64, 0]),
    }
}

/// A tree, a list, the unresolved context and two buffers.
type Transform = fn(&[u8], &[u8], u32, &mut [u8], &mut [u8]) -> Answer;

/// The declarations of a case by the proved transform and by the Rust, with buffers that every output fits; none where both refuse.
fn declarations(case: &Case) -> [Option<Vec<u8>>; 2] {
    let length = case.tree.len().min(MAX_TREE);
    let run = |transform: Transform| {
        let (mut out, mut diagnostics) = (vec![0; 16 * length], vec![0; length]);
        match transform(&case.tree, &case.list, case.unresolved, &mut out, &mut diagnostics) {
            Answer::Done(bytes, _) => Some(out[..bytes].to_vec()),
            Answer::Refused(_) => None,
        }
    };
    [run(crate::proved), run(call)]
}

/// A buffer for a tree's text: exact, a byte short, shorter or longer.
fn room(tree: &[u8], rng: &mut Rng) -> usize {
    let exact = whole(tree).map_or(40, |text| text.len());
    match rng.below(16) {
        0 => exact.saturating_sub(1),
        1 => rng.below(exact + 1),
        2..6 => exact + rng.below(100),
        _ => exact,
    }
}

#[derive(Default)]
pub struct Tally {
    cases: u64,
    done: u64,
    /// By the refusal's number.
    refused: [u64; 12],
    bytes: u64,
    lines: u64,
    differ: u64,
}

impl Tally {
    pub fn join(mut self, other: Tally) -> Tally {
        self.cases += other.cases;
        self.done += other.done;
        for (sum, count) in self.refused.iter_mut().zip(other.refused) {
            *sum += count;
        }
        self.bytes += other.bytes;
        self.lines += other.lines;
        self.differ += other.differ;
        self
    }

    pub fn print(&self, what: &str) {
        println!("dts_text, {what}");
        println!("  cases                      {}", self.cases);
        println!("  done                       {}", self.done);
        println!("    bytes of text            {}", self.bytes);
        println!("    lines                    {}", self.lines);
        // No text is refused for a list or for diagnostics.
        for number in [1, 3, 4, 5, 6, 7, 8, 9, 11] {
            println!("  refused {number:<2}                 {}", self.refused[number]);
        }
        println!("  different from the oracle  {}", self.differ);
    }

    /// Whether the cases agree, and some were done.
    pub fn agrees(&self) -> bool {
        self.differ == 0 && self.done > 0
    }

    /// Both calls on one case.
    pub fn add(&mut self, case: &TextCase, rng: &mut Rng) {
        self.cases += 1;
        let before = noise(rng, case.room + 2 * AROUND);
        let (mut left, mut right) = (before.clone(), before.clone());
        let said = expected(case, &mut left);
        let answer = proved(case, &mut right);
        let refused = said.0 != 0;
        if answer != said || left != right || refused && right != before {
            self.differ += 1;
            println!("dts_text differs: {} {}", hex(&case.tree), case.room);
            println!("  the oracle: {said:?} {}", inner(&mut left).escape_ascii());
            println!("  the proved call: {answer:?} {}", inner(&mut right).escape_ascii());
            return;
        }
        if refused {
            self.refused[said.0 as usize] += 1;
            return;
        }
        self.done += 1;
        self.bytes += said.1[0];
        let text = &inner(&mut right)[..said.1[0] as usize];
        self.lines += text.iter().filter(|b| **b == b'\n').count() as u64;
    }

    /// Both calls on the declarations of a case, if it has any.
    pub fn add_declarations(&mut self, case: &Case, rng: &mut Rng) {
        match declarations(case) {
            [Some(tree), Some(other)] if tree == other => {
                let room = room(&tree, rng);
                self.add(&TextCase { tree, room }, rng);
            }
            [None, None] => {}
            _ => {
                self.cases += 1;
                self.differ += 1;
                println!("declarations differ: {} {} {}", hex(&case.tree), hex(&case.list), case.unresolved);
            }
        }
    }
}
