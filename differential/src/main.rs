//! `differential cases N SEED`: the proved call beside the unchanged Rust on the cases at the limits and N random ones, good and damaged, with
//! exact, short and long buffers; each buffer holds noise first and is compared whole, and so is a second pass over what was written. Every fourth
//! of them is a case for `dts_depths` too.
//! `differential depths N SEED`: `dts_depths` beside the Rust, on N cases with namespaces in namespaces and those at the limits.
//! `differential dotted N SEED`: both calls beside the oracle on N cases with dotted names and the fixed ones, as `cases`. A tree that holds `Nd` gets
//! the Rust's answer to the tree without its chains, with these put back.
//! `differential text N SEED`: `dts_text` beside the oracle's text, on N cases of the text and the fixed ones; and on the declarations that both
//! transforms make of every fourth of them, and of as many of the cases of `cases`.
//! `differential speed`: their times, as ratios in one run.
mod depths;
mod speed;
mod text;

use std::process::ExitCode;
use std::sync::atomic::AtomicU64;
use std::sync::atomic::Ordering;

use oracle::call::Answer;
use oracle::call::call;
use oracle::generate::Case;
use oracle::generate::Rng;
use oracle::generate::depth_limits;
use oracle::generate::dotted_limits;
use oracle::generate::limits;
use oracle::generate::text_limits;
use oracle::grammar::Refused;
use oracle::lines;
use oracle::measure::numbered;
use oracle::measure::numbered_depth;
use oracle::measure::numbered_dotted;
use oracle::measure::numbered_text;
use vatnext_dts::raw;

/// The proved call.
pub fn proved(tree: &[u8], list: &[u8], unresolved: u32, out: &mut [u8], diagnostics: &mut [u8]) -> Answer {
    let mut answer = [0; 2];
    let number = raw::transform(tree, list, unresolved, out, diagnostics, &mut answer);
    match number {
        0 => Answer::Done(answer[0] as usize, answer[1] as usize),
        _ => Answer::Refused(Refused { number: number as u8, place: answer[0] as usize }),
    }
}

fn noise(rng: &mut Rng, length: usize) -> Vec<u8> {
    let start = rng.below(256);
    let step = 1 + 2 * rng.below(128);
    (0..length).map(|i| (start + i * step + i / 251) as u8).collect()
}

#[derive(Default)]
struct Tally {
    cases: u64,
    done: u64,
    /// By the refusal's number.
    refused: [u64; 11],
    /// Second passes, and those that gave the same bytes.
    second: u64,
    same: u64,
    differ: u64,
}

impl Tally {
    fn join(mut self, other: Tally) -> Tally {
        self.cases += other.cases;
        self.done += other.done;
        for (sum, count) in self.refused.iter_mut().zip(other.refused) {
            *sum += count;
        }
        self.second += other.second;
        self.same += other.same;
        self.differ += other.differ;
        self
    }

    fn print(&self, what: &str) {
        println!("dts_transform, {what}");
        println!("  cases                    {}", self.cases);
        println!("  done                     {}", self.done);
        for (number, count) in self.refused.iter().enumerate().skip(1) {
            println!("  refused {number:<2}               {count}");
        }
        println!("  second passes            {}", self.second);
        println!("    with the same bytes    {}", self.same);
        println!("  different from the Rust  {}", self.differ);
    }

    /// Both calls on one case; what the first wrote, if it was done and equal.
    fn beside(&mut self, case: &Case, rng: &mut Rng) -> Option<Vec<u8>> {
        let mut out = noise(rng, case.out);
        let mut diagnostics = noise(rng, case.diagnostics);
        let (mut out2, mut diagnostics2) = (out.clone(), diagnostics.clone());
        let expected = call(&case.tree, &case.list, case.unresolved, &mut out, &mut diagnostics);
        let found = proved(&case.tree, &case.list, case.unresolved, &mut out2, &mut diagnostics2);
        if expected != found || out != out2 || diagnostics != diagnostics2 {
            self.differ += 1;
            println!("differs: {}\n  the proved call: {found}", lines::write(case, &lines::outcome(case)));
            return None;
        }
        match found {
            Answer::Done(bytes, _) => {
                out.truncate(bytes);
                Some(out)
            }
            Answer::Refused(no) => {
                self.refused[no.number as usize] += 1;
                None
            }
        }
    }

    fn add(&mut self, case: &Case, rng: &mut Rng) {
        self.cases += 1;
        let Some(written) = self.beside(case, rng) else {
            return;
        };
        self.done += 1;
        self.second += 1;
        let again = Case {
            out: 2 * written.len() + rng.below(64),
            diagnostics: written.len() + rng.below(64),
            tree: written,
            list: case.list.clone(),
            unresolved: case.unresolved,
        };
        let refused = self.refused;
        if self.beside(&again, rng).is_some_and(|bytes| bytes == again.tree) {
            self.same += 1;
        }
        // The refusals that are counted are those of first passes.
        self.refused = refused;
    }
}

const AT_ONCE: u64 = 1000;

/// How many of the random cases are one for `dts_depths` too: the Rust runs three times there.
const ALSO_DEPTHS: u64 = 4;

/// What each thread tallies on its share of the random cases, which `add` gets by their places.
fn share<T: Default + Send>(wanted: u64, seed: u64, add: impl Fn(&mut T, u64, &mut Rng) + Sync) -> Vec<T> {
    let next = AtomicU64::new(0);
    let threads = std::thread::available_parallelism().map_or(1, |n| n.get());
    std::thread::scope(|scope| {
        let run = || {
            let mut tally = T::default();
            loop {
                let from = next.fetch_add(AT_ONCE, Ordering::Relaxed);
                if from >= wanted {
                    return tally;
                }
                let mut rng = Rng::new(seed.wrapping_add(from));
                for place in from..wanted.min(from + AT_ONCE) {
                    add(&mut tally, place, &mut rng);
                }
            }
        };
        let handles: Vec<_> = (0..threads).map(|_| scope.spawn(run)).collect();
        handles.into_iter().map(|handle| handle.join().expect("a thread that ends")).collect()
    })
}

/// Random cases: seed, place, and whether the buffers are ample.
type Numbered = fn(u64, u64, bool) -> Case;

/// Both calls on the fixed cases and so many random ones; every so many of these are one for `dts_depths` too.
fn cases(fixed: Vec<Case>, numbered: Numbered, every: u64, wanted: u64, seed: u64) -> (Tally, depths::Tally) {
    let mut tallies = (Tally::default(), depths::Tally::default());
    let add = |(tally, depths): &mut (Tally, depths::Tally), case: &Case, also: bool, rng: &mut Rng| {
        tally.add(case, rng);
        if also {
            depths.add(case, rng);
        }
    };
    let mut rng = Rng::new(seed);
    for case in fixed {
        add(&mut tallies, &case, true, &mut rng);
    }
    let random = |tallies: &mut _, place: u64, rng: &mut Rng| {
        add(tallies, &numbered(seed, place, false), place % every == 0, rng);
    };
    share(wanted, seed, random).into_iter().fold(tallies, |sum, more| (sum.0.join(more.0), sum.1.join(more.1)))
}

fn depth_cases(wanted: u64, seed: u64) -> depths::Tally {
    let mut tally = depths::Tally::default();
    let mut rng = Rng::new(seed);
    for case in depth_limits() {
        tally.add(&case, &mut rng);
    }
    let random = |tally: &mut depths::Tally, place: u64, rng: &mut Rng| tally.add(&numbered_depth(seed, place, false), rng);
    share(wanted, seed, random).into_iter().fold(tally, depths::Tally::join)
}

/// How many of the cases of the text have a text of their declarations too, and how many of the ordinary ones.
const ALSO_DECLARATIONS: u64 = 4;

/// A tree with an empty list and 1 as the unresolved context; the buffers play no part.
fn alone(tree: Vec<u8>) -> Case {
    Case { tree, list: vec![], unresolved: 1, out: 0, diagnostics: 0 }
}

/// `dts_text` on cases of the text, and on declarations.
fn text_cases(wanted: u64, seed: u64) -> (text::Tally, text::Tally) {
    let mut tallies = (text::Tally::default(), text::Tally::default());
    let mut rng = Rng::new(seed);
    for case in text_limits() {
        tallies.0.add(&case, &mut rng);
        tallies.1.add_declarations(&alone(case.tree), &mut rng);
    }
    let random = |(trees, declarations): &mut (text::Tally, text::Tally), place: u64, rng: &mut Rng| {
        let case = numbered_text(seed, place);
        trees.add(&case, rng);
        if place % ALSO_DECLARATIONS == 0 {
            declarations.add_declarations(&alone(case.tree), rng);
            declarations.add_declarations(&numbered(seed, place, true), rng);
        }
    };
    share(wanted, seed, random).into_iter().fold(tallies, |sum, more| (sum.0.join(more.0), sum.1.join(more.1)))
}

fn main() -> ExitCode {
    let words: Vec<String> = std::env::args().skip(1).collect();
    let number = |at: usize| words.get(at).and_then(|word| word.parse::<u64>().ok());
    match (words.first().map(String::as_str), number(1), number(2)) {
        (Some(word @ ("cases" | "dotted")), Some(wanted), Some(seed)) => {
            let (what, (tally, depths)) = match word {
                "cases" => ("ordinary cases", cases(limits(), numbered, ALSO_DEPTHS, wanted, seed)),
                _ => ("dotted names", cases(dotted_limits(), numbered_dotted, 1, wanted, seed)),
            };
            tally.print(what);
            depths.print(what);
            if tally.differ > 0 || tally.done == 0 || !depths.agrees() {
                return ExitCode::FAILURE;
            }
        }
        (Some("depths"), Some(wanted), Some(seed)) => {
            let depths = depth_cases(wanted, seed);
            depths.print("namespaces in namespaces");
            if !depths.agrees() {
                return ExitCode::FAILURE;
            }
        }
        (Some("text"), Some(wanted), Some(seed)) => {
            let (trees, declarations) = text_cases(wanted, seed);
            trees.print("trees");
            declarations.print("declarations");
            if !trees.agrees() || !declarations.agrees() {
                return ExitCode::FAILURE;
            }
        }
        (Some("speed"), None, None) => speed::print(),
        _ => {
            for words in ["cases N SEED", "depths N SEED", "dotted N SEED", "text N SEED", "speed"] {
                eprintln!("differential {words}");
            }
            return ExitCode::FAILURE;
        }
    }
    ExitCode::SUCCESS
}
