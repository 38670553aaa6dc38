//! `export const seats = { confirmed: 0, ...held };` as a tree, and its declarations: `cargo run --example seats`.
use vatnext_dts::{Record, Refused, transform};

/// A record: its mark, flags, range, text and children.
fn record(mark: &str, flags: u8, start: u32, end: u32, text: &[u8], children: &[Vec<u8>]) -> Vec<u8> {
    let mut bytes = mark.as_bytes().to_vec();
    bytes.push(flags);
    bytes.extend(start.to_le_bytes());
    bytes.extend(end.to_le_bytes());
    bytes.extend((text.len() as u16).to_le_bytes());
    bytes.extend((children.len() as u16).to_le_bytes());
    bytes.extend(text);
    bytes.extend(children.concat());
    bytes
}

/// An Id of the module: its text is a context in 4 bytes, and the symbol.
fn name(start: u32, end: u32, symbol: &str) -> Vec<u8> {
    record("Id", 0, start, end, &[b"\x02\0\0\0", symbol.as_bytes()].concat(), &[])
}

fn seats() -> Vec<u8> {
    let no = record("No", 0, 0, 0, b"", &[]);
    let key = record("Ki", 0, 23, 32, b"confirmed", &[]);
    let zero = record("Nu", 0, 34, 35, &0f64.to_le_bytes(), &[]);
    let property = record("Kv", 0, 23, 35, b"", &[key, zero]);
    let spread = record("Sp", 0, 37, 44, b"", &[name(40, 44, "held")]);
    let object = record("Ob", 0, 21, 46, b"", &[property, spread]);
    let pattern = record("Bd", 0, 13, 18, b"", &[name(13, 18, "seats"), no]);
    let variable = record("Vr", 0, 13, 46, b"", &[pattern, object]);
    let constant = record("Vd", 2, 7, 47, b"", &[variable]);
    let export = record("Ed", 0, 0, 47, b"", &[constant]);
    record("Mo", 0, 0, 47, b"", &[export])
}

/// A line for each record: its mark, indented, and its text.
fn show(record: Record<'_>, depth: usize) {
    let text = match &record.mark() {
        b"Id" => record.text().get(4..).unwrap_or_default(),
        _ => record.text(),
    };
    let line = format!("{:depth$}{} {}", "", record.mark().escape_ascii(), text.escape_ascii());
    println!("{}", line.trim_end());
    for child in record.children() {
        show(child, depth + 2);
    }
}

fn main() -> Result<(), Refused> {
    // the context of names that no scope declares: none of these
    let declarations = transform(&seats(), &[], 1)?;
    show(declarations.root(), 0);
    for diagnostic in declarations.diagnostics() {
        println!("{diagnostic}");
    }
    Ok(())
}
