//! What the tests and the benchmark stand on: the model that the library is held to, the library
//! behind safe wrappers and the answers to expect of it, the plain Rust that it is measured beside,
//! values and logs to try, bent bytes, forged logs and their links, long logs with one fault on a way,
//! logs of over 2^32 bytes, pairs of logs and what a search answers of them, claims for the checks,
//! the calls of the RFC 6962 edition that write, what is refused, random cases of all calls, memory to
//! lend, repeatable random bytes, very long messages, hex digits, and a clock.

/// Documents 01 and 02 in plain Rust, and RFC 6962 where 02 names it, made to be seen right and not
/// to be fast.
pub mod model {
    mod calls;
    pub mod comparison;
    pub mod entry;
    pub mod inclusion;
    pub mod item;
    mod log;
    pub mod reads;
    pub mod rfc6962;
    mod rfc6962_calls;
    pub mod rfc6962_checks;
    pub mod search;
    pub mod sha256;
    pub mod tree;
    pub mod walk;
    pub use calls::{append, cut, end_of_entry, proof, root, value};
    pub use comparison::compare;
    pub use inclusion::check_proof;
    pub use log::{audit, values, Log};
    pub use rfc6962_calls::{rfc6962_consistency, rfc6962_path, rfc6962_root};
    pub use rfc6962_checks::{rfc6962_check_consistency, rfc6962_check_path};
    pub use search::{repair, search};
    pub use sha256::sha256;
}

/// Random calls of the library, what must come of them, and what does.
pub mod cases {
    mod answer;
    mod call;
    mod claim;
    mod consistency;
    mod file;
    mod lent;
    mod log;
    mod long;
    mod make;
    mod met;
    mod outcome;
    mod pair;
    mod run;
    pub use answer::{Answer, Done};
    pub use call::{Call, Case};
    pub use file::write;
    pub use met::Met;
    pub use outcome::{outcomes, Outcome};
    pub use run::{run, Difference};
}

pub mod answers;
pub mod bent;
pub mod claims;
pub mod consistency;
pub mod far;
pub mod forged;
pub mod hex;
pub mod links;
pub mod logs;
pub mod long;
pub mod makers;
pub mod memory;
pub mod pages;
pub mod pairs;
pub mod plain;
pub mod processor;
pub mod random;
pub mod refused;
pub mod ringlog;
pub mod splits;
pub mod ways;
