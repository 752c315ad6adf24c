//! What README shows of time, stack and size, in one run: the time of each call, beside plain
//! Rust's for SHA-256, append, audit, search and the RFC 6962 edition; the stack of each call; the
//! size of the library; and the time of the gate. It prints Markdown.
//!
//! The time of a call is the processor's: an audit of a long log takes longer than the system lets a
//! process run at a stretch where others want the machine.
//!
//! From the top folder, after .ci/run:
//! `cargo run --release --manifest-path tests/Cargo.toml --bin bench`

mod calls;
mod gate;
mod library;
mod machine;
mod measure;
mod rfc6962;
mod stack;
mod text;
mod times;

use std::fmt::Display;
use times::Times;

const WARM: &str = "\
Medians, library and plain Rust in turn in one process, both built for release. Buffers are warm: each
was used before, and none is cleared between calls, but that a cut's log is copied back before each cut.
The time is the processor's.";

const PAINTED: &str = "\
Each call runs on a painted stack of its own (tests/c/stack_use.c). Cut, value and proof go the longest
way, to entry 1. The logs of a search differ there; with 2,049 taps in the second, 24 entries of the
first are read. Path and consistency proof are the longest ones.";

const KEPT: &str = "\
rt proves crates, and tries edits, side by side on the machine's cores, and says no time of each. What an
earlier run on the machine passed is not proved again.";

fn heading(title: &str) {
    println!("\n### {title}\n");
}

/// The table, or why there is none.
fn print<T: Display>(table: Result<T, String>) {
    match table {
        Ok(table) => print!("{table}"),
        Err(reason) => println!("{reason}"),
    }
}

fn print_times() {
    let mut times = Times::new();
    times.run();
    heading("Time of the calls");
    println!("{WARM}\n");
    println!("{}", times.table());
    println!("{}", times.search_table());
    println!("{}", times.other_table());
    println!("{}\n", times.compressions());
    println!("{}", times.rfc6962_table());
    println!("{}", times.rfc6962_compressions());
}

fn main() {
    println!("## Measured\n");
    println!("{}", machine::line());
    print_times();
    heading("Stack of the calls");
    println!("{PAINTED}\n");
    print(stack::table());
    heading("Size of the library");
    print(library::table());
    heading("Time of the gate");
    print(gate::tables().map(|(crates, parts)| format!("{crates}\n{KEPT}\n\n{parts}")));
}
