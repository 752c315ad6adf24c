//! A case: one call of the C interface with all the bytes and numbers that it is lent.

use crate::hex::hex;
use std::fmt::{self, Display, Formatter};

/// The calls, in the order of include/ringlog.h.
#[derive(Clone, Copy, Debug, PartialEq, Eq, Hash)]
pub enum Call {
    Sha256,
    Append,
    Audit,
    Root,
    Value,
    Proof,
    CheckProof,
    Cut,
    Search,
    Repair,
    Rfc6962Root,
    Rfc6962Path,
    Rfc6962CheckPath,
    Rfc6962Consistency,
    Rfc6962CheckConsistency,
}

impl Call {
    pub const ALL: [Call; 15] = [
        Call::Sha256,
        Call::Append,
        Call::Audit,
        Call::Root,
        Call::Value,
        Call::Proof,
        Call::CheckProof,
        Call::Cut,
        Call::Search,
        Call::Repair,
        Call::Rfc6962Root,
        Call::Rfc6962Path,
        Call::Rfc6962CheckPath,
        Call::Rfc6962Consistency,
        Call::Rfc6962CheckConsistency,
    ];

    pub fn name(self) -> &'static str {
        self.signature().0
    }

    /// The name behind `ringlog_`, and the names of the slices and of the numbers, each in the
    /// header's order. A slice's length is not among the numbers.
    fn signature(
        self,
    ) -> (
        &'static str,
        &'static [&'static str],
        &'static [&'static str],
    ) {
        match self {
            Call::Sha256 => ("sha256", &["message"], &[]),
            Call::Append => ("append", &["buffer", "item"], &["used"]),
            Call::Audit => ("audit", &["bytes"], &[]),
            Call::Root => ("root", &["log"], &[]),
            Call::Value => ("value", &["log", "root"], &["index"]),
            Call::Proof => ("proof", &["log", "output"], &["index"]),
            Call::CheckProof => (
                "check_proof",
                &["item", "proof", "root"],
                &["count", "index"],
            ),
            Call::Cut => ("cut", &["buffer"], &["used", "count"]),
            Call::Search => ("search", &["first", "second"], &[]),
            Call::Repair => ("repair", &["first", "second"], &[]),
            Call::Rfc6962Root => ("rfc6962_root", &["log"], &[]),
            Call::Rfc6962Path => ("rfc6962_path", &["log", "output"], &["index"]),
            Call::Rfc6962CheckPath => (
                "rfc6962_check_path",
                &["item", "path", "root"],
                &["count", "index"],
            ),
            Call::Rfc6962Consistency => ("rfc6962_consistency", &["log", "output"], &["old_count"]),
            Call::Rfc6962CheckConsistency => (
                "rfc6962_check_consistency",
                &["proof", "old_root", "new_root"],
                &["old_count", "new_count"],
            ),
        }
    }
}

/// A call with the slices that it is lent and its numbers, each in the header's order.
pub struct Case {
    pub call: Call,
    pub lent: Vec<Vec<u8>>,
    pub numbers: Vec<usize>,
}

/// How many bytes of a slice are shown.
const SHOWN: usize = 4_096;

/// The call, its numbers and the first bytes of each slice in hex.
impl Display for Case {
    fn fmt(&self, f: &mut Formatter) -> fmt::Result {
        let (name, slices, numbers) = self.call.signature();
        writeln!(f, "ringlog_{name}")?;
        for (name, number) in numbers.iter().zip(&self.numbers) {
            writeln!(f, "  {name}: {number}")?;
        }
        for (name, bytes) in slices.iter().zip(&self.lent) {
            let shown = hex(&bytes[..bytes.len().min(SHOWN)]);
            writeln!(f, "  {name}: {} bytes {shown}", bytes.len())?;
        }
        Ok(())
    }
}
