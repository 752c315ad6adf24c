//! Claims for a proof check and for the path check of the RFC 6962 edition: those that hold of a
//! log, those of any siblings, and the library's answers held to the model's.

use crate::model::inclusion::{fold, hops};
use crate::model::rfc6962::{leaf_hash, mth, node_hash, path};
use crate::model::rfc6962_checks::root_by_path;
use crate::model::tree::{node_digest, top, Digest};
use crate::model::{self, Log};
use crate::random::Random;
use crate::ringlog;

/// The two rules by which a tree is hashed.
#[derive(Clone, Copy, Debug, PartialEq, Eq)]
pub enum Edition {
    First,
    Rfc6962,
}

/// What is claimed: that this item is value i of n under this root, by this proof or path, in an
/// edition.
#[derive(Clone, Debug)]
pub struct Claim {
    pub edition: Edition,
    pub n: usize,
    pub i: usize,
    pub item: Vec<u8>,
    pub proof: Vec<u8>,
    pub root: Vec<u8>,
}

impl Claim {
    /// What holds of value i of a log in the first edition, from the tree of its values.
    pub fn of(log: &mut Log, i: usize) -> Self {
        Claim {
            edition: Edition::First,
            n: log.count(),
            i,
            item: log.value(i).to_vec(),
            proof: log.path(i).concat(),
            root: log.root().to_vec(),
        }
    }

    /// What holds of value i of these in the RFC 6962 edition.
    pub fn rfc6962(values: &[Vec<u8>], i: usize) -> Self {
        Claim {
            edition: Edition::Rfc6962,
            n: values.len(),
            i,
            item: values[i - 1].clone(),
            proof: path(i - 1, values).concat(),
            root: mth(values).to_vec(),
        }
    }

    /// A claim of this item on random siblings in the first edition, with the root that they fold to.
    pub fn folded(n: usize, i: usize, item: Vec<u8>, random: &mut Random) -> Self {
        Claim::folded_in(Edition::First, (n, i), item, random)
    }

    /// A claim of this item on random siblings, with the root that they fold to.
    pub fn folded_in(
        edition: Edition,
        (n, i): (usize, usize),
        item: Vec<u8>,
        random: &mut Random,
    ) -> Self {
        let siblings: Vec<Digest> = (0..hops(n, i)).map(|_| random.digest()).collect();
        let root = match edition {
            Edition::First => fold(n, i, &item, &siblings),
            Edition::Rfc6962 => {
                root_by_path(i - 1, n, leaf_hash(&item), &siblings).expect("a sibling for each hop")
            }
        };
        Claim {
            edition,
            n,
            i,
            root: root.to_vec(),
            proof: siblings.concat(),
            item,
        }
    }

    /// The roots of a tree that goes on above this one, which has the sibling on its right or on its
    /// left.
    pub fn roots_above(&self, sibling: &Digest) -> [Digest; 2] {
        let root: Digest = self.root[..].try_into().expect("32 bytes");
        let node = |left, right| match self.edition {
            Edition::First => node_digest(top(self.n) + 1, left, right),
            Edition::Rfc6962 => node_hash(left, right),
        };
        [node(&root, sibling), node(sibling, &root)]
    }

    /// Whether the library says yes, as the model does.
    pub fn holds(&self) -> bool {
        let Claim {
            edition,
            n,
            i,
            item,
            proof,
            root,
        } = self;
        let (library, model): (Check, Check) = match edition {
            Edition::First => (ringlog::check_proof, model::check_proof),
            Edition::Rfc6962 => (ringlog::rfc6962_check_path, model::rfc6962_check_path),
        };
        let answer = library(*n, *i, item, proof, root);
        let expected = model(*n, *i, item, proof, root);
        assert_eq!(answer, expected, "{self:02x?}");
        answer
    }

    /// Whether the library says yes when this is changed.
    pub fn holds_with(&self, change: impl Fn(&mut Claim)) -> bool {
        let mut claim = self.clone();
        change(&mut claim);
        claim.holds()
    }
}

/// A check of a claim: n, i, item, proof and root.
type Check = fn(usize, usize, &[u8], &[u8], &[u8]) -> bool;
