//! `dts_depths` beside the Rust: the answer, both buffers and the table of counts. Everything lent holds noise first, and so does what stands behind
//! each length; all of it is compared.
use oracle::call::Answer;
use oracle::depths::CELLS;
use oracle::depths::COLUMNS;
use oracle::depths::Counts;
use oracle::depths::depths;
use oracle::depths::show;
use oracle::generate::Case;
use oracle::generate::Rng;
use oracle::grammar::Refused;
use oracle::lines::hex;
use vatnext_dts::raw;

use crate::noise;

/// Bytes before and behind the memory that is lent.
const AROUND: usize = 24;

/// What is lent to be written, each part with `AROUND` bytes before it and behind it.
#[derive(Clone, PartialEq)]
struct Lent {
    out: Vec<u8>,
    diagnostics: Vec<u8>,
    counts: Vec<u32>,
}

impl Lent {
    fn new(case: &Case, rng: &mut Rng) -> Lent {
        let out = noise(rng, case.out + 2 * AROUND);
        let diagnostics = noise(rng, case.diagnostics + 2 * AROUND);
        let words = noise(rng, 4 * (CELLS + 2 * AROUND));
        let counts = words.chunks(4).map(|word| u32::from_le_bytes(word.try_into().expect("four bytes"))).collect();
        Lent { out, diagnostics, counts }
    }

    fn parts(&mut self) -> (&mut [u8], &mut [u8], &mut Counts) {
        let (out, diagnostics) = (inner(&mut self.out), inner(&mut self.diagnostics));
        (out, diagnostics, inner(&mut self.counts).try_into().expect("a table"))
    }

    fn table(&mut self) -> Counts {
        *self.parts().2
    }
}

fn inner<T>(whole: &mut [T]) -> &mut [T] {
    let end = whole.len() - AROUND;
    &mut whole[AROUND..end]
}

/// The number and the answer of the proved call.
fn proved(case: &Case, lent: &mut Lent) -> (u32, [u64; 2]) {
    let (out, diagnostics, counts) = lent.parts();
    let mut answer = [u64::MAX; 2];
    let (rows, _) = counts.as_chunks_mut();
    let rows = rows.try_into().expect("five rows");
    let number = raw::depths(&case.tree, &case.list, case.unresolved, out, diagnostics, rows, &mut answer);
    (number, answer)
}

/// The number and the answer that the Rust's answer stands for.
fn numbers(answer: Answer) -> (u32, [u64; 2]) {
    match answer {
        Answer::Done(bytes, count) => (0, [bytes as u64, count as u64]),
        Answer::Refused(Refused { number, place }) => (number as u32, [place as u64, 0]),
    }
}

#[derive(Default)]
pub struct Tally {
    cases: u64,
    done: u64,
    /// Cases by their deepest diagnostic.
    deepest: [u64; COLUMNS],
    differ: u64,
}

impl Tally {
    pub fn join(mut self, other: Tally) -> Tally {
        self.cases += other.cases;
        self.done += other.done;
        for (sum, count) in self.deepest.iter_mut().zip(other.deepest) {
            *sum += count;
        }
        self.differ += other.differ;
        self
    }

    pub fn print(&self, what: &str) {
        println!("dts_depths, {what}");
        println!("  cases                                 {}", self.cases);
        println!("  done                                  {}", self.done);
        for depth in [0, 1, 10, 29, 30, 31] {
            let cases: u64 = self.deepest[depth..].iter().sum();
            println!("  with a diagnostic at depth {depth:>2}{} {cases}", if depth < 31 { " or more" } else { "        " });
        }
        println!("  different from the Rust               {}", self.differ);
    }

    /// Whether the cases agree, and some were done.
    pub fn agrees(&self) -> bool {
        self.differ == 0 && self.done > 0
    }

    /// Both calls on one case.
    pub fn add(&mut self, case: &Case, rng: &mut Rng) {
        self.cases += 1;
        let before = Lent::new(case, rng);
        let (mut expected, mut found) = (before.clone(), before.clone());
        let (out, diagnostics, counts) = expected.parts();
        let said = numbers(depths(&case.tree, &case.list, case.unresolved, out, diagnostics, counts));
        let answer = proved(case, &mut found);
        let refused = said.0 != 0;
        if answer != said || found != expected || refused && found != before {
            self.differ += 1;
            let Case { tree, list, unresolved, out, diagnostics } = case;
            println!("dts_depths differs: {} {} {unresolved} {out} {diagnostics}", hex(tree), hex(list));
            println!("  the Rust: {said:?} {}\n  the proved call: {answer:?} {}", show(&expected.table()), show(&found.table()));
            return;
        }
        if refused {
            return;
        }
        self.done += 1;
        let table = found.table();
        if let Some(deepest) = (0..COLUMNS).rev().find(|depth| table.iter().skip(*depth).step_by(COLUMNS).any(|count| *count > 0)) {
            self.deepest[deepest] += 1;
        }
    }
}
