//! The file of the static library: its size, and what it needs from outside.

use crate::machine::output;
use crate::text::{grouped, Table};
use std::collections::BTreeSet;
use std::{env, fs};

/// From the top folder.
pub const LIBRARY: &str = "crates/ringlog_c/out/libringlog_c.a";

/// A file of the repository, by its path from the top folder.
pub fn from_top(path: &str) -> String {
    format!("{}/../{path}", env!("CARGO_MANIFEST_DIR"))
}

/// The bytes of text, and of data and bss, in all members together, by `size`.
fn sections(library: &str) -> Option<(u64, u64)> {
    let text = output("size", &["-t", library])?;
    let numbers = text.lines().last()?.split_whitespace();
    let numbers: Option<Vec<u64>> = numbers.take(3).map(|word| word.parse().ok()).collect();
    match numbers?[..] {
        [text, data, bss] => Some((text, data + bss)),
        _ => None,
    }
}

/// The symbols that members of the library use and none of them has, by `nm`.
fn needs(library: &str) -> Option<Vec<String>> {
    let text = output("nm", &["-g", library])?;
    let (mut used, mut defined) = (BTreeSet::new(), BTreeSet::new());
    for line in text.lines() {
        match line.split_whitespace().collect::<Vec<_>>()[..] {
            ["U" | "w", name] => used.insert(name),
            [_, _, name] => defined.insert(name),
            _ => continue,
        };
    }
    Some(
        used.difference(&defined)
            .map(|name| format!("`{name}`"))
            .collect(),
    )
}

pub fn table() -> Result<Table, String> {
    let library = from_top(LIBRARY);
    let bytes = |count| format!("{} bytes", grouped(count));
    let file = fs::metadata(&library).map_err(|error| format!("{LIBRARY}: {error}"))?;
    let mut table = Table::new(&["Static library", env::consts::ARCH]);
    let mut row = |what: &str, value| table.push(vec![what.to_string(), value]);
    row("its file", bytes(file.len()));
    if let Some((text, data)) = sections(&library) {
        row("code and constants (text)", bytes(text));
        row("variables (data, bss)", bytes(data));
    }
    if let Some(names) = needs(&library) {
        row("needs from outside", names.join(", "));
    }
    Ok(table)
}
