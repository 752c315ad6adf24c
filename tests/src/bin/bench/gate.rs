//! The times of the gate, as its last run that passed has left them in target/gate.txt.

use crate::library::from_top;
use crate::text::{grouped, Table};
use std::fs;

/// From the top folder. A line has a kind, a name and a number, with tabs between them: how many
/// must-fail edits of a crate were refused, or the seconds of a part of the gate.
const TIMES: &str = "target/gate.txt";

/// One line: kind, name and number.
type Line<'a> = (&'a str, &'a str, u64);

/// The lines of this kind.
fn of_kind<'a>(lines: &'a [Line], kind: &'a str) -> impl Iterator<Item = &'a Line<'a>> + 'a {
    lines.iter().filter(move |line| line.0 == kind)
}

fn in_seconds(count: u64) -> String {
    format!("{} s", grouped(count))
}

fn parse(line: &str) -> Option<Line<'_>> {
    match line.split('\t').collect::<Vec<_>>()[..] {
        [kind, name, number] => Some((kind, name, number.parse().ok()?)),
        _ => None,
    }
}

/// A crate with edits a line, and their sum.
fn by_crate(lines: &[Line]) -> Table {
    let mut table = Table::new(&["Crate", "must-fail edits"]);
    let mut sum = 0;
    for (_, name, edits) in of_kind(lines, "edits") {
        table.push(vec![name.to_string(), grouped(*edits)]);
        sum += edits;
    }
    table.push(vec!["sum".to_string(), grouped(sum)]);
    table
}

fn by_part(lines: &[Line]) -> Table {
    let mut table = Table::new(&["Part of the gate", "time"]);
    for (_, name, seconds) in of_kind(lines, "part") {
        table.push(vec![name.to_string(), in_seconds(*seconds)]);
    }
    table
}

/// The table of the crates and that of the gate's parts.
pub fn tables() -> Result<(Table, Table), String> {
    let text = fs::read_to_string(from_top(TIMES))
        .map_err(|_| format!("There is no {TIMES}: run .ci/run first."))?;
    let lines: Option<Vec<_>> = text.lines().map(parse).collect();
    let lines = lines.ok_or_else(|| format!("{TIMES} has a line that is not understood."))?;
    Ok((by_crate(&lines), by_part(&lines)))
}
