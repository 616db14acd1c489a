//! The concordance of standard input in plain Rust, to be measured beside `ael concord`.

use std::collections::BTreeMap;
use std::io::{Read, Write};

fn main() -> std::io::Result<()> {
    let mut text = Vec::new();
    std::io::stdin().read_to_end(&mut text)?;
    let mut rows: BTreeMap<Vec<u8>, Vec<usize>> = BTreeMap::new();
    for (before, line) in text.split(|byte| *byte == b'\n').enumerate() {
        for word in line.split(|byte| !byte.is_ascii_alphabetic()) {
            if !word.is_empty() {
                let lines = rows.entry(word.to_ascii_lowercase()).or_default();
                if lines.last() != Some(&(before + 1)) {
                    lines.push(before + 1);
                }
            }
        }
    }
    let mut out = Vec::new();
    for (word, lines) in rows {
        let numbers: Vec<String> = lines.iter().map(usize::to_string).collect();
        out.extend_from_slice(&word);
        writeln!(out, ": {}", numbers.join(", "))?;
    }
    std::io::stdout().write_all(&out)
}
