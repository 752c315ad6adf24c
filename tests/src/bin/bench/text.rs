//! Tables that are plain text and Markdown, and the numbers in them.

use std::fmt::{self, Display, Formatter};

/// A table with a heading. The first column stands to the left, the others to the right.
pub struct Table {
    heading: Vec<String>,
    rows: Vec<Vec<String>>,
}

impl Table {
    pub fn new(heading: &[&str]) -> Self {
        Table {
            heading: heading.iter().map(|cell| cell.to_string()).collect(),
            rows: Vec::new(),
        }
    }

    /// A row with a cell for each column.
    pub fn push(&mut self, row: Vec<String>) {
        assert_eq!(row.len(), self.heading.len(), "{row:?}");
        self.rows.push(row);
    }

    fn widths(&self) -> Vec<usize> {
        let all = || self.rows.iter().chain([&self.heading]);
        let width = |column: usize| all().map(|row| row[column].chars().count()).max();
        (0..self.heading.len()).filter_map(width).collect()
    }
}

impl Display for Table {
    fn fmt(&self, f: &mut Formatter) -> fmt::Result {
        let widths = self.widths();
        let mut line = |row: &[String]| {
            for (column, (cell, &width)) in row.iter().zip(&widths).enumerate() {
                match column {
                    0 => write!(f, "| {cell:<width$} |")?,
                    _ => write!(f, " {cell:>width$} |")?,
                }
            }
            writeln!(f)
        };
        line(&self.heading)?;
        let rule = |(column, &width): (usize, &usize)| match column {
            0 => "-".repeat(width),
            _ => "-".repeat(width - 1) + ":",
        };
        let rules: Vec<_> = widths.iter().enumerate().map(rule).collect();
        line(&rules)?;
        self.rows.iter().try_for_each(|row| line(row))
    }
}

/// A number with a comma before every three digits.
pub fn grouped(number: u64) -> String {
    if number < 1_000 {
        return number.to_string();
    }
    format!("{},{:03}", grouped(number / 1_000), number % 1_000)
}

/// A time with three digits, given in nanoseconds.
pub fn time(nanoseconds: f64) -> String {
    let units = [("ns", 1.0), ("µs", 1e3), ("ms", 1e6), ("s", 1e9)];
    let fits = |(_, length): &(&str, f64)| nanoseconds < 999.5 * length;
    let (unit, length) = units.into_iter().find(fits).unwrap_or(units[3]);
    let count = nanoseconds / length;
    let decimals = usize::from(count < 99.95) + usize::from(count < 9.995);
    format!("{count:.decimals$} {unit}")
}
