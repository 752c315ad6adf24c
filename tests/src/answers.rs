//! Answers to expect: the model's, in the structs of include/ringlog.h.

use crate::model::comparison::Verdict;
use crate::model::search::{Found, Refusal, Side};
use crate::ringlog::{Count, Digest, Extent, Part, Piece, Split};
use std::ops::Range;

/// The answer of a call that counts bytes.
pub fn done(bytes: usize) -> Count {
    Ok(bytes).into()
}

/// The refusal of a call that counts bytes.
pub fn refusal(number: u32) -> Count {
    Err(number).into()
}

/// A digest or a refusal, as the library answers it.
impl From<Result<[u8; 32], u32>> for Digest {
    fn from(answer: Result<[u8; 32], u32>) -> Self {
        Digest {
            number: answer.err().unwrap_or(0),
            digest: answer.unwrap_or([0; 32]),
        }
    }
}

/// A count or a refusal, as the library answers it.
impl From<Result<usize, u32>> for Count {
    fn from(answer: Result<usize, u32>) -> Self {
        Count {
            number: answer.err().unwrap_or(0),
            value: answer.unwrap_or(0) as u64,
        }
    }
}

/// Entries and bytes, as the library answers them.
impl From<(usize, usize)> for Extent {
    fn from((entries, bytes): (usize, usize)) -> Self {
        Extent {
            entries: entries as u64,
            bytes: bytes as u64,
        }
    }
}

/// A part of a log or a refusal, as the library answers it.
impl From<Result<Range<usize>, u32>> for Part {
    fn from(answer: Result<Range<usize>, u32>) -> Self {
        let number = answer.as_ref().err().copied().unwrap_or(0);
        let part = answer.unwrap_or(0..0);
        Part {
            number,
            offset: part.start as u64,
            length: part.len() as u64,
        }
    }
}

impl From<Side> for u32 {
    fn from(side: Side) -> Self {
        match side {
            Side::First => 1,
            Side::Second => 2,
            Side::Both => 3,
        }
    }
}

impl From<Verdict> for u32 {
    fn from(verdict: Verdict) -> Self {
        match verdict {
            Verdict::Same => 0,
            Verdict::FirstShorter => 1,
            Verdict::SecondShorter => 2,
            Verdict::DifferAt(_) => 3,
        }
    }
}

/// A refused search, as the library answers it.
impl From<Refusal> for Split {
    fn from((side, number): Refusal) -> Self {
        Split {
            number,
            side: side.into(),
            ..Split::default()
        }
    }
}

/// What a search has found or a refusal, as the library answers it. The reads are counted.
impl From<Result<Found, Refusal>> for Split {
    fn from(answer: Result<Found, Refusal>) -> Self {
        match answer {
            Ok(found) => Split {
                number: 0,
                side: 0,
                common: found.common as u64,
                verdict: found.verdict.into(),
                place: found.verdict.place().unwrap_or(0) as u64,
                first_reads: found.read[0].len() as u64,
                second_reads: found.read[1].len() as u64,
            },
            Err(refusal) => refusal.into(),
        }
    }
}

/// A repair piece, as the library answers it.
impl From<Option<(Side, Range<usize>)>> for Piece {
    fn from(answer: Option<(Side, Range<usize>)>) -> Self {
        answer.map_or_else(Piece::default, |(donor, part)| Piece {
            donor: donor.into(),
            offset: part.start as u64,
            length: part.len() as u64,
        })
    }
}
