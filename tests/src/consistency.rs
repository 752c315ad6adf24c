//! Claims for the consistency check of the RFC 6962 edition: those that hold of a list of values,
//! those of any digests, and the library's answers held to the model's.

use crate::model::rfc6962::{mth, proof};
use crate::model::rfc6962_checks::{proof_len, roots_by_proof};
use crate::model::tree::Digest;
use crate::random::Random;
use crate::{logs, model, ringlog};

/// What is claimed: that n values with the new root begin with m values that have the old root, by this
/// proof.
#[derive(Clone, Debug)]
pub struct Consistency {
    pub m: usize,
    pub n: usize,
    pub proof: Vec<u8>,
    pub old_root: Vec<u8>,
    pub new_root: Vec<u8>,
}

impl Consistency {
    /// What holds of the first m of these values and of all of them.
    pub fn of(values: &[Vec<u8>], m: usize) -> Self {
        Consistency {
            m,
            n: values.len(),
            proof: proof(m, values).concat(),
            old_root: mth(&values[..m]).to_vec(),
            new_root: mth(values).to_vec(),
        }
    }

    /// What holds of every m up to every n up to so many values, of mixed kinds.
    pub fn up_to(most: usize, random: &mut Random) -> Vec<Self> {
        let log = logs::log(most, random);
        let mut claims = Vec::new();
        for n in 1..=most {
            let values = &log.values()[..n];
            claims.extend((1..=n).map(|m| Consistency::of(values, m)));
        }
        claims
    }

    /// Claims that hold of few values and of many, by up to 13 digests, with and without that of the old
    /// root.
    pub fn some(random: &mut Random) -> Vec<Self> {
        let few = [
            (1, 1),
            (1, 2),
            (2, 3),
            (3, 3),
            (3, 7),
            (4, 7),
            (6, 7),
            (6, 8),
            (8, 9),
        ];
        let many = [(3, 4_095), (2_048, 4_095), (1, 4_096), (4_095, 4_096)];
        let counts = few.into_iter().chain(many);
        counts
            .map(|(m, n)| Consistency::folded(m, n, random))
            .collect()
    }

    /// A claim on random digests, with the roots that they give, and a random old root where the proof
    /// omits it.
    pub fn folded(m: usize, n: usize, random: &mut Random) -> Self {
        let digests: Vec<Digest> = (0..proof_len(m, n)).map(|_| random.digest()).collect();
        let roots = roots_by_proof(m, n, &random.digest(), &digests);
        let (old_root, new_root) = roots.expect("as many digests as the proof has");
        Consistency {
            m,
            n,
            proof: digests.concat(),
            old_root: old_root.to_vec(),
            new_root: new_root.to_vec(),
        }
    }

    /// Whether the library says yes, as the model does.
    pub fn holds(&self) -> bool {
        let Consistency {
            m,
            n,
            proof,
            old_root,
            new_root,
        } = self;
        let answer = ringlog::rfc6962_check_consistency(*m, *n, proof, old_root, new_root);
        let expected = model::rfc6962_check_consistency(*m, *n, proof, old_root, new_root);
        assert_eq!(answer, expected, "{self:02x?}");
        answer
    }

    /// Whether the library says yes when this is changed.
    pub fn holds_with(&self, change: impl Fn(&mut Consistency)) -> bool {
        let mut claim = self.clone();
        change(&mut claim);
        claim.holds()
    }
}
