//! The times of all calls: the rows, measured together, and their tables.

use crate::calls::{append, audit, others, search, sha256, taps, Search, LONG_MESSAGE, MANY};
use crate::measure::{self, Row};
use crate::rfc6962;
use crate::text::{grouped, time, Table};

/// All that is measured.
pub struct Times {
    hashes: Vec<Row>,
    appends: Vec<Row>,
    audits: Vec<Row>,
    searches: Vec<Search>,
    others: Vec<Row>,
    rfc6962: Vec<Row>,
}

impl Times {
    pub fn new() -> Self {
        Times {
            hashes: vec![
                sha256(9, 200),
                sha256(50, 200),
                sha256(65, 100),
                sha256(LONG_MESSAGE.0, 1),
            ],
            appends: vec![append(0, 200), append(MANY, 10)],
            audits: vec![audit(1, (200, 1)), audit(MANY, (1, 15))],
            searches: vec![
                search(1, None),
                search(1, Some(1)),
                search(MANY, None),
                search(MANY, Some(1)),
                search(MANY, Some(2_048)),
                search(MANY, Some(MANY)),
            ],
            others: others(),
            rfc6962: rfc6962::rows(),
        }
    }

    pub fn run(&mut self) {
        let searches = self.searches.iter_mut().map(|search| &mut search.row);
        let rows = self.hashes.iter_mut().chain(&mut self.appends);
        let rows = rows.chain(&mut self.audits).chain(&mut self.others);
        let rows = rows.chain(&mut self.rfc6962);
        measure::run(rows.chain(searches));
    }

    /// SHA-256, append and audit beside plain Rust.
    pub fn table(&self) -> Table {
        let mut table = Table::new(&["Call", "library", "plain Rust", "library / plain Rust"]);
        let rows = self.hashes.iter().chain(&self.appends).chain(&self.audits);
        rows.for_each(|row| table.push(beside_plain(row)));
        table
    }

    pub fn search_table(&self) -> Table {
        let mut table = Table::new(&[
            "Search of two logs",
            "library",
            "plain Rust",
            "library / plain Rust",
            "entries read in each",
        ]);
        for search in &self.searches {
            let mut cells = beside_plain(&search.row);
            cells.push(grouped(search.reads));
            table.push(cells);
        }
        table
    }

    /// The calls that have no plain Rust beside them.
    pub fn other_table(&self) -> Table {
        let mut table = Table::new(&["Call", "library"]);
        for row in &self.others {
            table.push(vec![row.name.clone(), time(row.library())]);
        }
        table
    }

    /// The time of one compression in nanoseconds, by the long message's: the library's, and plain
    /// Rust's.
    fn compression(&self) -> (f64, f64) {
        let message = &self.hashes[3];
        let one = |time: f64| time / f64::from(LONG_MESSAGE.1);
        (one(message.library()), one(plain_median(message)))
    }

    /// How much longer a long audit takes than its compressions alone.
    pub fn compressions(&self) -> String {
        let audit = &self.audits[1];
        // One a leaf, two a node.
        let count: u32 = (0..MANY).map(|x| 1 + 2 * x.count_ones()).sum();
        let (in_library, in_plain) = self.compression();
        let library = audit.library() / (f64::from(count) * in_library);
        let plain = plain_median(audit) / (f64::from(count) * in_plain);
        format!(
            "An audit of {} makes {} compressions. It takes {library:.2} times their time alone, and that of \
             plain Rust\n{plain:.2} times; one compression is taken as 1/{} of the time of a sha256 of {} bytes.",
            taps(MANY),
            grouped(count.into()),
            grouped(LONG_MESSAGE.1.into()),
            grouped(LONG_MESSAGE.0 as u64),
        )
    }

    /// The calls of the RFC 6962 edition beside plain Rust.
    pub fn rfc6962_table(&self) -> Table {
        let mut table = Table::new(&[
            "RFC 6962 edition",
            "library",
            "plain Rust",
            "library / plain Rust",
        ]);
        self.rfc6962
            .iter()
            .for_each(|row| table.push(beside_plain(row)));
        table
    }

    /// How much longer a long root of the RFC 6962 edition takes than its audit and its own
    /// compressions.
    pub fn rfc6962_compressions(&self) -> String {
        let (root, audit) = (&self.rfc6962[0], &self.audits[1]);
        // One for the leaf of a tap, two a node, of which there is one less.
        let count = 3 * MANY - 2;
        let (in_library, in_plain) = self.compression();
        let library = root.library() / (audit.library() + count as f64 * in_library);
        let plain = plain_median(root) / (plain_median(audit) + count as f64 * in_plain);
        format!(
            "A root of {} in the RFC 6962 edition is an audit and {} compressions more. It takes {library:.2} \
             times the\ntime of the two, and that of plain Rust {plain:.2} times.",
            taps(MANY),
            grouped(count as u64),
        )
    }
}

fn plain_median(row: &Row) -> f64 {
    row.plain().expect("a row beside plain Rust")
}

fn beside_plain(row: &Row) -> Vec<String> {
    let (library, plain) = (row.library(), plain_median(row));
    let ratio = format!("{:.2}", library / plain);
    vec![row.name.clone(), time(library), time(plain), ratio]
}
