//! The commands; `oracle` alone lists them.

use std::io::Read;
use std::io::Write;
use std::process::ExitCode;

use oracle::call::Answer;
use oracle::call::call;
use oracle::generate::Case;
use oracle::generate::TextCase;
use oracle::leaves;
use oracle::lines;
use oracle::measure::Depths;
use oracle::measure::count;
use oracle::measure::dotted;
use oracle::measure::numbered;
use oracle::measure::numbered_depth;
use oracle::measure::numbered_dotted;
use oracle::measure::numbered_text;
use oracle::measure::texts;
use oracle::measure::twice;
use oracle::notation;
use oracle::record::Rec;
use oracle::text::samples::OUTSIDE;
use oracle::text::samples::SAMPLES;
use oracle::types;

const USAGE: &str = "\
oracle run [--list HEX] [--context N] [--out N] [--diagnostics N] [TREE]
    the call on one tree, printed as the program `declares` does; with --output
    the tree that was written comes last, in notation
oracle depths [--list HEX] [--context N] [--out N] [--diagnostics N] [TREE]
    how many of each diagnostic and how deep, printed as the program `depths`
    does
oracle text-of [--out N] [TREE]
oracle text-of --declarations [TREE]
    the text of a tree, or the refusal as `declares` prints it; or what the
    program `text` prints: the text of the tree's declarations
oracle show          bytes on standard input, printed in notation
oracle text TREE     notation, printed as bytes
oracle gen N SEED    N random cases and those at the limits, and their counts
oracle depth-gen N SEED [--ordinary]
    N random cases with namespaces in namespaces, and how many diagnostics of
    each kind stand at which depth; or the same of the cases of `gen`
oracle dotted-gen N SEED
    N random cases with dotted names and the fixed ones, and how many hold how
    long chains
oracle text-gen N SEED
    N random cases of the text and the fixed ones, and what they show
oracle twice N SEED [--dotted]
    demand 3 over N random cases, each run twice; or over those of `dotted-gen`
oracle cases N SEED [--max BYTES] [--limits]
    N random cases with their answers, a line each (see lines.rs); trees and
    outputs of at most so many bytes; with --limits those at the limits first
oracle replay FILE   runs such lines and compares
oracle tell FILE     the same lines in notation, to be read
oracle leaves FOLDER [N SEED]
oracle types FOLDER [N SEED]
    the cases of `test_leaves` or `test_types` and what it has to print, written
    to the files stdin and stdout in its folder; or those of N random trees
oracle answers FOLDER N SEED M
    the cases of the program `test_replay` with the Rust's answers: those of
    cases/shown.txt, the small and some of the deep ones at the limits, and N
    random ones with trees of at most 400 bytes; then those of `depths`, with
    the table of each: the fixed ones that are small, and M random ones with
    namespaces in namespaces; then those with dotted names, every other one
    with the table: the small and some of the deep fixed ones, and M random
    ones; written to stdin and stdout in its folder
oracle text-answers FOLDER N SEED
    cases of the text with their answers (see answers.rs): the samples, those
    of the fixed ones that are small, and N random ones with trees of at most
    400 bytes; written to stdin and stdout in the folder
TREE is in notation, as 'Mo(Xe(Ar))'; without it bytes come from standard input.";

fn main() -> ExitCode {
  let args: Vec<String> = std::env::args().skip(1).collect();
  match command(&args) {
    Ok(()) => ExitCode::SUCCESS,
    Err(message) => {
      eprintln!("{message}");
      ExitCode::FAILURE
    }
  }
}

fn command(args: &[String]) -> Result<(), String> {
  let rest = args.get(1..).unwrap_or(&[]);
  match args.first().map(String::as_str) {
    Some("run") => run(rest),
    Some("depths") => depths(rest),
    Some("show") => show(),
    Some("text") => text(rest),
    Some("gen") => {
      let counts = count(number(rest.first())?, number(rest.get(1))?);
      counts.print();
      match counts.changed + counts.too_many {
        0 => Ok(()),
        _ => Err("the last two counts have to be 0".to_string()),
      }
    }
    Some("text-of") => text_of(rest),
    Some("depth-gen") => depth_gen(rest),
    Some("dotted-gen") => {
      let dotted = dotted(number(rest.first())?, number(rest.get(1))?);
      dotted.print();
      match dotted.changed {
        0 => Ok(()),
        _ => Err("the last count has to be 0".to_string()),
      }
    }
    Some("text-gen") => {
      let texts = texts(number(rest.first())?, number(rest.get(1))?);
      texts.print();
      Ok(())
    }
    Some("twice") => demand_3(rest),
    Some("cases") => cases(rest),
    Some("replay") => replay(rest),
    Some("tell") => tell(rest),
    Some("leaves") => {
      let trees = match rest.get(1) {
        None => leaves::trees(),
        count => leaves::more_trees(number(count)?, number(rest.get(2))?),
      };
      program(rest, &leaves::stdin(&trees), &leaves::stdout(&trees))
    }
    Some("types") => {
      let trees = match rest.get(1) {
        None => types::trees(),
        count => types::more_trees(number(count)?, number(rest.get(2))?),
      };
      program(rest, &leaves::stdin(&trees), &types::stdout(&trees))
    }
    Some("answers") => answers(rest),
    Some("text-answers") => text_answers(rest),
    _ => Err(USAGE.to_string()),
  }
}

fn depth_gen(args: &[String]) -> Result<(), String> {
  let wanted: u64 = number(args.first())?;
  let seed = number(args.get(1))?;
  let ordinary = match args.get(2).map(String::as_str) {
    None => false,
    Some("--ordinary") => true,
    _ => return Err(USAGE.to_string()),
  };
  let mut depths = Depths::default();
  for place in 0..wanted {
    depths.add(&match ordinary {
      true => numbered(seed, place, false),
      false => numbered_depth(seed, place, false),
    });
  }
  depths.print();
  match depths.in_last_column() {
    0 => Ok(()),
    _ => Err("the last count has to be 0".to_string()),
  }
}

fn demand_3(args: &[String]) -> Result<(), String> {
  let wanted: u64 = number(args.first())?;
  let seed = number(args.get(1))?;
  let numbered = match args.get(2).map(String::as_str) {
    None => numbered,
    Some("--dotted") => numbered_dotted,
    _ => return Err(USAGE.to_string()),
  };
  let twice = twice((0..wanted).map(|place| numbered(seed, place, true)));
  twice.print();
  match twice.failed.first() {
    Some(case) => Err(lines::write(case, &lines::outcome(case))),
    None => Ok(()),
  }
}

/// A case whose tree is small, or is refused for its length alone.
fn is_small(case: &Case) -> bool {
  let tree = case.tree.len();
  (tree <= 400 || tree > 524_288)
    && (case.list.len() <= 400 || case.list.len() > 40_960)
}

/// Some of the deep trees.
fn is_deep(place: usize, case: &Case) -> bool {
  place % 7 == 0 && case.tree.len() <= 4096
}

fn answers(args: &[String]) -> Result<(), String> {
  let wanted: usize = number(args.get(1))?;
  let seed = number(args.get(2))?;
  let more: usize = number(args.get(3))?;
  let shown = include_str!("../cases/shown.txt");
  let shown = shown.lines().filter_map(|line| Some(lines::read(line)?.0));
  let random = (0..).map(|place| numbered(seed, place, false));
  let limits = oracle::generate::limits().into_iter().enumerate();
  let limits =
    limits.filter(|(place, case)| is_small(case) || is_deep(*place, case));
  let transform = shown
    .chain(limits.map(|(_, case)| case))
    .chain(random.filter(is_small).take(wanted));
  let mut cases: Vec<Vec<u8>> = transform
    .map(|case| oracle::answers::write(&case))
    .collect();
  let depths = depth_cases(more, seed);
  cases.extend(depths.map(|case| oracle::answers::write_depths(&case)));
  let dotted = dotted_cases(more, seed).enumerate();
  cases.extend(dotted.map(|(place, case)| match place % 2 {
    0 => oracle::answers::write(&case),
    _ => oracle::answers::write_depths(&case),
  }));
  let count = cases.len();
  program(args, &cases.concat(), &format!("{count} cases, 0 differ\n"))
}

/// The fixed cases of `depths`, and so many random ones.
fn depth_cases(wanted: usize, seed: u64) -> impl Iterator<Item = Case> {
  let fixed = oracle::generate::depth_limits();
  let fixed = fixed
    .into_iter()
    .filter(|case| case.tree.len() <= 4096 || case.tree.len() > 524_288);
  let random = (0..).map(move |place| numbered_depth(seed, place, false));
  let random =
    random.filter(|case| case.tree.len() <= 1800 && case.list.len() <= 400);
  with_room(fixed, random, wanted)
}

/// The fixed cases with dotted names, and so many random ones.
fn dotted_cases(wanted: usize, seed: u64) -> impl Iterator<Item = Case> {
  let fixed = oracle::generate::dotted_limits().into_iter().enumerate();
  let fixed = fixed
    .filter(|(place, case)| case.tree.len() <= 250 || is_deep(*place, case));
  let random = (0..).map(move |place| numbered_dotted(seed, place, false));
  let random =
    random.filter(|case| case.tree.len() <= 250 && case.list.len() <= 200);
  with_room(fixed.map(|(_, case)| case), random, wanted)
}

/// The small ones of the fixed cases of the text, and so many random ones.
fn text_answers(args: &[String]) -> Result<(), String> {
  let wanted: usize = number(args.get(1))?;
  let seed = number(args.get(2))?;
  let small = |case: &TextCase| case.tree.len() <= 400;
  // The samples, and some of the many that differ in a byte or a number.
  let samples = 4 * SAMPLES.len() + 2 * OUTSIDE.len();
  let fixed = oracle::generate::text_limits().into_iter().enumerate();
  let fixed = fixed.filter(|(place, case)| {
    let some = *place < samples || place % 11 == 0;
    some && (small(case) || case.tree.len() > 524_288)
  });
  let random = (0..).map(|place| numbered_text(seed, place));
  let cases: Vec<Vec<u8>> = fixed
    .map(|(_, case)| case)
    .chain(random.filter(small).take(wanted))
    .map(|case| oracle::answers::write_text(&case))
    .collect();
  let count = cases.len();
  program(args, &cases.concat(), &format!("{count} cases, 0 differ\n"))
}

/// The fixed cases and so many of the random ones, of those that the program
/// has room for.
fn with_room(
  fixed: impl Iterator<Item = Case>,
  random: impl Iterator<Item = Case>,
  wanted: usize,
) -> impl Iterator<Item = Case> {
  let fixed = fixed.filter(oracle::answers::has_room);
  fixed.chain(random.filter(oracle::answers::has_room).take(wanted))
}

fn standard_input() -> Result<Vec<u8>, String> {
  let mut bytes = vec![];
  std::io::stdin()
    .read_to_end(&mut bytes)
    .map_err(|error| error.to_string())?;
  Ok(bytes)
}

fn parse_tree(text: &str) -> Result<Vec<u8>, String> {
  notation::parse(text)?
    .encode()
    .ok_or("a text or a number of children is too long".to_string())
}

fn number<T: std::str::FromStr>(word: Option<&String>) -> Result<T, String> {
  word
    .and_then(|word| word.parse().ok())
    .ok_or(USAGE.to_string())
}

/// What `declares` fixes, unless the words say otherwise: list empty,
/// unresolved context 1, its limits.
struct Given {
  tree: Vec<u8>,
  list: Vec<u8>,
  unresolved: u32,
  out: Vec<u8>,
  diagnostics: Vec<u8>,
  /// Whether to print the output too.
  output: bool,
}

fn given(args: &[String]) -> Result<Given, String> {
  let mut tree = None;
  let mut list = vec![];
  let mut unresolved = 1;
  let mut out = 65_536;
  let mut diagnostics = 21_840;
  let mut output = false;
  let mut words = args.iter();
  while let Some(word) = words.next() {
    match word.as_str() {
      "--list" => {
        let word = words.next().ok_or(USAGE.to_string())?;
        list = lines::parse_hex(word).ok_or(USAGE.to_string())?;
      }
      "--context" => unresolved = number(words.next())?,
      "--out" => out = number(words.next())?,
      "--diagnostics" => diagnostics = number(words.next())?,
      "--output" => output = true,
      word => tree = Some(parse_tree(word)?),
    }
  }
  Ok(Given {
    tree: match tree {
      Some(tree) => tree,
      None => standard_input()?,
    },
    list,
    unresolved,
    out: vec![0; out],
    diagnostics: vec![0; diagnostics],
    output,
  })
}

impl Given {
  fn is_too_long(&self) -> bool {
    self.tree.len() > 32_768
  }
}

/// As `declares`.
fn run(args: &[String]) -> Result<(), String> {
  let mut on = given(args)?;
  if on.is_too_long() {
    println!("too long");
    return Ok(());
  }
  let answer = call(
    &on.tree,
    &on.list,
    on.unresolved,
    &mut on.out,
    &mut on.diagnostics,
  );
  println!("{answer}");
  if let Answer::Done(length, count) = answer {
    for d in on.diagnostics.chunks(10).take(count) {
      let (start, end) = oracle::grammar::entry_range(d);
      println!("{} {start} {end}", d[1] as char);
    }
    if on.output {
      let (tree, _) = Rec::read(&on.out[..length], 0).expect("it was written");
      println!("{}", notation::show(&tree));
    }
  }
  Ok(())
}

/// As the program `depths`.
fn depths(args: &[String]) -> Result<(), String> {
  let mut on = given(args)?;
  if on.output {
    return Err(USAGE.to_string());
  }
  if on.is_too_long() {
    println!("too long");
    return Ok(());
  }
  let mut counts = [0; oracle::depths::CELLS];
  let answer = oracle::depths::depths(
    &on.tree,
    &on.list,
    on.unresolved,
    &mut on.out,
    &mut on.diagnostics,
    &mut counts,
  );
  match answer {
    Answer::Done(..) => print!("{}", oracle::depths::print(&counts)),
    Answer::Refused(_) => println!("{answer}"),
  }
  Ok(())
}

/// The text of a tree; or as the program `text`.
fn text_of(args: &[String]) -> Result<(), String> {
  let mut tree = None;
  let mut room = usize::MAX;
  let mut declarations = false;
  let mut words = args.iter();
  while let Some(word) = words.next() {
    match word.as_str() {
      "--declarations" => declarations = true,
      "--out" => room = number(words.next())?,
      word => tree = Some(parse_tree(word)?),
    }
  }
  let tree = match tree {
    Some(tree) => tree,
    None => standard_input()?,
  };
  let printed = match declarations {
    true => oracle::text::program(&tree),
    false => oracle::text::text(&tree, room)
      .unwrap_or_else(|no| format!("{}\n", Answer::Refused(no)).into_bytes()),
  };
  std::io::stdout()
    .write_all(&printed)
    .map_err(|error| error.to_string())
}

fn show() -> Result<(), String> {
  let bytes = standard_input()?;
  match Rec::read(&bytes, 0) {
    Some((tree, end)) if end == bytes.len() => {
      println!("{}", notation::show(&tree));
      Ok(())
    }
    _ => Err("these bytes are no tree".to_string()),
  }
}

fn text(args: &[String]) -> Result<(), String> {
  let bytes = parse_tree(args.first().ok_or(USAGE.to_string())?)?;
  std::io::stdout()
    .write_all(&bytes)
    .map_err(|error| error.to_string())
}

fn cases(args: &[String]) -> Result<(), String> {
  let wanted: usize = number(args.first())?;
  let seed = number(args.get(1))?;
  let mut max = usize::MAX;
  let mut all = vec![];
  let mut words = args[2..].iter();
  while let Some(word) = words.next() {
    match word.as_str() {
      "--max" => max = number(words.next())?,
      "--limits" => all = oracle::generate::limits(),
      _ => return Err(USAGE.to_string()),
    }
  }
  let mut out = std::io::BufWriter::new(std::io::stdout().lock());
  let random = (0..)
    .map(|place| numbered(seed, place, false))
    .filter(|case| {
      case.tree.len() <= max && lines::outcome(case).output.len() <= max
    });
  for case in all.into_iter().chain(random.take(wanted)) {
    let line = lines::write(&case, &lines::outcome(&case));
    writeln!(out, "{line}").map_err(|error| error.to_string())?;
  }
  Ok(())
}

fn read_lines(args: &[String]) -> Result<Vec<String>, String> {
  let file = args.first().ok_or(USAGE.to_string())?;
  let text = std::fs::read_to_string(file).map_err(|e| e.to_string())?;
  Ok(text.lines().map(str::to_string).collect())
}

fn replay(args: &[String]) -> Result<(), String> {
  let lines = read_lines(args)?;
  for (place, line) in lines.iter().enumerate() {
    let (case, wanted) =
      lines::read(line).ok_or(format!("line {}: no case", place + 1))?;
    let got = std::panic::catch_unwind(|| lines::outcome(&case))
      .map_err(|_| format!("panic at case {}", place + 1))?;
    if got != wanted {
      let got = lines::write(&case, &got);
      return Err(format!("line {}: {line}\nnow: {got}", place + 1));
    }
  }
  println!("cases {}, all as before", lines.len());
  Ok(())
}

fn program(args: &[String], stdin: &[u8], stdout: &str) -> Result<(), String> {
  let folder = args.first().ok_or(USAGE.to_string())?;
  let folder = std::path::Path::new(folder);
  std::fs::write(folder.join("stdin"), stdin)
    .and_then(|()| std::fs::write(folder.join("stdout"), stdout))
    .map_err(|error| error.to_string())
}

fn tell(args: &[String]) -> Result<(), String> {
  let tree = |bytes: &[u8]| match Rec::read(bytes, 0) {
    Some((tree, end)) if end == bytes.len() => notation::show(&tree),
    _ => lines::hex(bytes),
  };
  for line in read_lines(args)? {
    let (case, outcome) = lines::read(&line).ok_or("no case".to_string())?;
    println!("tree {}", tree(&case.tree));
    print!("unresolved {}", case.unresolved);
    for entry in case.list.chunks(10).filter(|entry| entry.len() == 10) {
      let (start, end) = oracle::grammar::entry_range(entry);
      print!(", listed {start}-{end}");
    }
    println!();
    println!("{}", outcome.answer);
    for d in outcome.diagnostics.chunks(10) {
      let (start, end) = oracle::grammar::entry_range(d);
      println!("{} {start} {end}", d[1] as char);
    }
    println!("gives {}\n", tree(&outcome.output));
  }
  Ok(())
}
