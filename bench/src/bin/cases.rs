//! The proved check beside the oracle's: reads the lines of `oracle cases` from standard input, runs the check on each tree and list, and
//! compares number and place. A case that the oracle's call took, or refused with 9 or 10, is one that the check accepts.
use std::io::BufRead;

fn bytes(hex: &str) -> Vec<u8> {
    if hex == "-" {
        return vec![];
    }
    (0..hex.len()).step_by(2).map(|i| u8::from_str_radix(&hex[i..i + 2], 16).expect("hex")).collect()
}

fn main() {
    let (mut count, mut refused, mut wrong) = (0, 0, 0);
    for line in std::io::stdin().lock().lines() {
        let line = line.expect("a line");
        let fields: Vec<&str> = line.split(' ').collect();
        let (tree, list) = (bytes(fields[0]), bytes(fields[1]));
        let told: Vec<&str> = fields[5].split(',').collect();
        let number: u32 = if told[0] == "refused" { told[1].parse().expect("a number") } else { 0 };
        let expected = if (1..=8).contains(&number) {
            refused += 1;
            (number, told[2].parse().expect("a place"))
        } else {
            (0, tree.len() as u64)
        };
        count += 1;
        let found = bench::check(&tree, &list);
        if found != expected {
            wrong += 1;
            println!("differs: {} {}: the check {found:?}, the oracle {expected:?}", fields[0], fields[1]);
        }
    }
    println!("{count} cases, {refused} of them refused: {wrong} differ");
    if count == 0 || wrong > 0 {
        std::process::exit(1);
    }
}
