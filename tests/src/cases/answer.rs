//! What comes of a case, by the library and by the model: the answer, and every lent byte
//! afterwards.

use super::{Call, Case};
use crate::memory::Memory;
use crate::ringlog::{Count, Digest, Extent, Part, Piece, Split};
use crate::{model, ringlog};

/// The longest message that is hashed.
const LONGEST_MESSAGE: usize = 65_535;

#[derive(Clone, Copy, Debug, PartialEq, Eq)]
pub enum Answer {
    Digest(Digest),
    Count(Count),
    Extent(Extent),
    Part(Part),
    Whether(bool),
    Split(Split),
    Piece(Piece),
}

impl Answer {
    /// The number of a refusal; 0 where the call answers, and for the calls that refuse nothing.
    pub fn number(&self) -> u32 {
        match self {
            Answer::Digest(digest) => digest.number,
            Answer::Count(count) => count.number,
            Answer::Part(part) => part.number,
            Answer::Split(split) => split.number,
            Answer::Extent(_) | Answer::Whether(_) | Answer::Piece(_) => 0,
        }
    }

    /// The fields of the header's struct in their order, a digest byte by byte.
    pub fn fields(&self) -> Vec<u64> {
        match *self {
            Answer::Digest(Digest { number, digest }) => {
                let mut fields = vec![number.into()];
                fields.extend(digest.map(u64::from));
                fields
            }
            Answer::Count(count) => vec![count.number.into(), count.value],
            Answer::Extent(extent) => vec![extent.entries, extent.bytes],
            Answer::Part(part) => vec![part.number.into(), part.offset, part.length],
            Answer::Whether(yes) => vec![yes.into()],
            Answer::Split(split) => vec![
                split.number.into(),
                split.side.into(),
                split.common,
                split.verdict.into(),
                split.place,
                split.first_reads,
                split.second_reads,
            ],
            Answer::Piece(piece) => vec![piece.donor.into(), piece.offset, piece.length],
        }
    }
}

/// An answer, and the memory of each lent slice afterwards, with the bytes around the slice.
#[derive(Debug, PartialEq, Eq)]
pub struct Done {
    pub answer: Answer,
    memory: Vec<Memory>,
}

impl Done {
    /// What the model makes of the case.
    pub fn by_model(case: &Case) -> Done {
        Done::by(case, by_model)
    }

    /// What the library makes of the case.
    pub fn by_library(case: &Case) -> Done {
        Done::by(case, by_library)
    }

    fn by(case: &Case, act: fn(Call, &mut [&mut [u8]], &[usize]) -> Answer) -> Done {
        let memory_of = |bytes: &Vec<u8>| Memory::among(0x5a, bytes);
        let mut memory: Vec<_> = case.lent.iter().map(memory_of).collect();
        let mut lent: Vec<_> = memory.iter_mut().map(Memory::lent_mut).collect();
        let answer = act(case.call, &mut lent, &case.numbers);
        Done { answer, memory }
    }

    /// What the library answers where the slices are lent from this memory, in the case's order.
    pub fn answer_from(case: &Case, lent: &mut [&mut [u8]]) -> Answer {
        by_library(case.call, lent, &case.numbers)
    }

    /// The lent slices afterwards.
    pub fn lent(&self) -> impl Iterator<Item = &[u8]> {
        self.memory.iter().map(Memory::lent)
    }

    /// The first byte that is another one than expected: the number of its slice, from 0, and its
    /// place there, which is below 0 for a byte before the slice.
    pub fn other_byte(&self, expected: &Done) -> Option<(usize, isize)> {
        let pairs = self.memory.iter().zip(&expected.memory);
        pairs
            .enumerate()
            .find_map(|(slice, (got, expected))| Some((slice, got.other_byte(expected)?)))
    }
}

fn by_library(call: Call, lent: &mut [&mut [u8]], numbers: &[usize]) -> Answer {
    use ringlog::*;
    match (call, lent, numbers) {
        (Call::Sha256, [message], []) => Answer::Digest(sha256(message)),
        (Call::Append, [buffer, item], [used]) => Answer::Count(append(buffer, *used, item)),
        (Call::Audit, [bytes], []) => Answer::Extent(audit(bytes)),
        (Call::Root, [log], []) => Answer::Digest(root(log)),
        (Call::Value, [log, root], [index]) => Answer::Part(value(log, root, *index)),
        (Call::Proof, [log, output], [index]) => Answer::Count(proof(log, *index, output)),
        (Call::CheckProof, [item, proof, root], [count, index]) => {
            Answer::Whether(check_proof(*count, *index, item, proof, root))
        }
        (Call::Cut, [buffer], [used, count]) => Answer::Count(cut(buffer, *used, *count)),
        (Call::Search, [first, second], []) => Answer::Split(search(first, second)),
        (Call::Repair, [first, second], []) => Answer::Piece(repair(first, second)),
        (Call::Rfc6962Root, [log], []) => Answer::Digest(rfc6962_root(log)),
        (Call::Rfc6962Path, [log, output], [index]) => {
            Answer::Count(rfc6962_path(log, *index, output))
        }
        (Call::Rfc6962CheckPath, [item, path, root], [count, index]) => {
            Answer::Whether(rfc6962_check_path(*count, *index, item, path, root))
        }
        (Call::Rfc6962Consistency, [log, output], [m]) => {
            Answer::Count(rfc6962_consistency(log, *m, output))
        }
        (Call::Rfc6962CheckConsistency, [proof, old_root, new_root], [m, n]) => {
            Answer::Whether(rfc6962_check_consistency(*m, *n, proof, old_root, new_root))
        }
        _ => panic!("{call:?} is lent something else"),
    }
}

fn by_model(call: Call, lent: &mut [&mut [u8]], numbers: &[usize]) -> Answer {
    use model::*;
    match (call, lent, numbers) {
        (Call::Sha256, [message], []) => {
            let fits = message.len() <= LONGEST_MESSAGE;
            Answer::Digest(fits.then(|| sha256(message)).ok_or(1).into())
        }
        (Call::Append, [buffer, item], [used]) => Answer::Count(append(buffer, *used, item).into()),
        (Call::Audit, [bytes], []) => Answer::Extent(audit(bytes).into()),
        (Call::Root, [log], []) => Answer::Digest(root(log).into()),
        (Call::Value, [log, root], [index]) => Answer::Part(value(log, root, *index).into()),
        (Call::Proof, [log, output], [index]) => Answer::Count(proof(log, *index, output).into()),
        (Call::CheckProof, [item, proof, root], [count, index]) => {
            Answer::Whether(check_proof(*count, *index, item, proof, root))
        }
        (Call::Cut, [buffer], [used, count]) => Answer::Count(cut(buffer, *used, *count).into()),
        (Call::Search, [first, second], []) => Answer::Split(search(first, second).into()),
        (Call::Repair, [first, second], []) => Answer::Piece(repair(first, second).into()),
        (Call::Rfc6962Root, [log], []) => Answer::Digest(rfc6962_root(log).into()),
        (Call::Rfc6962Path, [log, output], [index]) => {
            Answer::Count(rfc6962_path(log, *index, output).into())
        }
        (Call::Rfc6962CheckPath, [item, path, root], [count, index]) => {
            Answer::Whether(rfc6962_check_path(*count, *index, item, path, root))
        }
        (Call::Rfc6962Consistency, [log, output], [m]) => {
            Answer::Count(rfc6962_consistency(log, *m, output).into())
        }
        (Call::Rfc6962CheckConsistency, [proof, old_root, new_root], [m, n]) => {
            Answer::Whether(rfc6962_check_consistency(*m, *n, proof, old_root, new_root))
        }
        _ => panic!("{call:?} is lent something else"),
    }
}
