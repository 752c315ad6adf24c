//! The model of the RFC 6962 edition against the RFC's own example, the test tree of Certificate
//! Transparency, and digests from outside this project.

use ringlog_tests::hex::hex;
use ringlog_tests::logs::{numbered_taps, numbered_values};
use ringlog_tests::model::inclusion::hops;
use ringlog_tests::model::rfc6962::{largest_power_below, leaf_hash, mth, node_hash, path, proof};
use ringlog_tests::model::rfc6962_checks::proof_len;
use ringlog_tests::model::tree::Digest;
use ringlog_tests::model::{self, Log};

/// The inputs of the test tree of Certificate Transparency.
const INPUTS: [&[u8]; 8] = [
    &[],
    &[0x00],
    &[0x10],
    &[0x20, 0x21],
    &[0x30, 0x31],
    &[0x40, 0x41, 0x42, 0x43],
    &[0x50, 0x51, 0x52, 0x53, 0x54, 0x55, 0x56, 0x57],
    &[
        0x60, 0x61, 0x62, 0x63, 0x64, 0x65, 0x66, 0x67, 0x68, 0x69, 0x6a, 0x6b, 0x6c, 0x6d, 0x6e,
        0x6f,
    ],
];

#[test]
fn the_roots_of_the_test_tree_of_certificate_transparency_come_out() {
    let roots = [
        "e3b0c44298fc1c149afbf4c8996fb92427ae41e4649b934ca495991b7852b855",
        "6e340b9cffb37a989ca544e6bb780a2c78901d3fb33738768511a30617afa01d",
        "fac54203e7cc696cf0dfcb42c92a1d9dbaf70ad9e621f4bd8d98662f00e3c125",
        "aeb6bcfe274b70a14fb067a5e5578264db0fa9b51af5e0ba159158f329e06e77",
        "d37ee418976dd95753c1c73862b9398fa2a2cf9b4ff0fdfe8b30cd95209614b7",
        "4e3bbb1f7b478dcfe71fb631631519a3bca12c9aefca1612bfce4c13a86264d4",
        "76e67dadbcdf1e10e1b74ddc608abd2f98dfb16fbce75277b5232a127f2087ef",
        "ddb89be403809e325750d3d263cd78929c2942b7942a34b77e122c9594a74c8c",
        "5dc9da79a70659a9ad559cb701ded9a2ab9d823aad2f4960cfe370eff4604328",
    ];
    for (n, root) in roots.into_iter().enumerate() {
        assert_eq!(hex(&mth(&INPUTS[..n])), root, "{n} inputs");
    }
}

/// The digests are from a program of its own, with the hash of Python's standard library.
#[test]
fn paths_and_consistency_proofs_of_that_tree_come_out() {
    let shown = |digests: Vec<Digest>| {
        let beginnings = digests.iter().map(|digest| hex(&digest[..4]));
        beginnings.collect::<Vec<_>>()
    };
    let paths: [(usize, usize, &[&str]); 4] = [
        (0, 8, &["96a296d2", "5f083f0a", "6b47aaf2"]),
        (5, 8, &["bc1a0643", "ca854ea1", "d37ee418"]),
        (2, 3, &["fac54203"]),
        (1, 5, &["6e340b9c", "5f083f0a", "bc1a0643"]),
    ];
    for (m, n, expected) in paths {
        assert_eq!(shown(path(m, &INPUTS[..n])), expected, "{m} of {n}");
    }
    let proofs: [(usize, usize, &[&str]); 4] = [
        (1, 1, &[]),
        (1, 8, &["96a296d2", "5f083f0a", "6b47aaf2"]),
        (6, 8, &["0ebc5d34", "ca854ea1", "d37ee418"]),
        (2, 5, &["5f083f0a", "bc1a0643"]),
    ];
    for (m, n, expected) in proofs {
        assert_eq!(shown(proof(m, &INPUTS[..n])), expected, "{m} to {n}");
    }
}

/// The tree of the RFC's section 2.1.3 over seven inputs, with its names for the nodes: the leaves
/// are a, b, c, d, e, f and j, the nodes above them are g, h, i, then k and l.
struct Example {
    inputs: Vec<Vec<u8>>,
    leaf: [Digest; 7],
    g: Digest,
    h: Digest,
    i: Digest,
    k: Digest,
    l: Digest,
}

fn example() -> Example {
    let inputs = numbered_values(7);
    let leaf = [0, 1, 2, 3, 4, 5, 6].map(|at: usize| leaf_hash(&inputs[at]));
    let [a, b, c, d, e, f, j] = leaf;
    let g = node_hash(&a, &b);
    let h = node_hash(&c, &d);
    let i = node_hash(&e, &f);
    Example {
        inputs,
        leaf,
        g,
        h,
        i,
        k: node_hash(&g, &h),
        l: node_hash(&i, &j),
    }
}

#[test]
fn the_audit_paths_of_seven_inputs_are_those_of_section_2_1_3() {
    let Example {
        inputs,
        leaf: [_, b, c, _, _, f, j],
        g,
        h,
        i,
        k,
        l,
    } = example();
    assert_eq!(path(0, &inputs), [b, h, l]);
    assert_eq!(path(3, &inputs), [c, g, l]);
    assert_eq!(path(4, &inputs), [f, j, k]);
    assert_eq!(path(6, &inputs), [i, k]);
    assert_eq!(mth(&inputs), node_hash(&k, &l));
}

/// The example's trees of fewer inputs: hash0 over three, hash1 over four, hash2 over six.
#[test]
fn the_consistency_proofs_to_seven_inputs_are_those_of_section_2_1_3() {
    let Example {
        inputs,
        leaf: [_, _, c, d, _, _, j],
        g,
        i,
        k,
        l,
        ..
    } = example();
    assert_eq!(proof(3, &inputs), [c, d, g, l]);
    assert_eq!(mth(&inputs[..3]), node_hash(&g, &c));
    assert_eq!(proof(4, &inputs), [l]);
    assert_eq!(mth(&inputs[..4]), k);
    assert_eq!(proof(6, &inputs), [i, j, k]);
    assert_eq!(mth(&inputs[..6]), node_hash(&k, &i));
    assert!(proof(7, &inputs).is_empty());
}

/// Six inputs are no subtree of eight, and their last two are one: its digest is in the proof.
#[test]
fn the_consistency_proof_from_six_to_eight_inputs_has_three_digests() {
    let d = numbered_values(8);
    let expected = [mth(&d[4..6]), mth(&d[6..8]), mth(&d[0..4])];
    assert_eq!(proof(6, &d), expected);
}

#[test]
fn k_is_the_largest_power_of_two_smaller_than_n() {
    let known = [(2, 1), (3, 2), (4, 2), (5, 4), (7, 4), (8, 4), (9, 8)];
    let long = [(4_095, 2_048), (4_096, 2_048), (4_097, 4_096)];
    for (n, k) in known.into_iter().chain(long) {
        assert_eq!(largest_power_below(n), k, "{n}");
    }
    for n in 2..=5_000 {
        let k = largest_power_below(n);
        assert!(k.is_power_of_two() && k < n && n <= 2 * k, "{k} for {n}");
    }
}

/// The inputs are value items, kind included. The digests are from a program of its own, with the
/// hash of Python's standard library.
#[test]
fn roots_paths_and_proofs_of_22_values_are_those_of_another_program() {
    let digest = |digests: Vec<Digest>| hex(&model::sha256(&digests.concat()));
    let known = [
        (
            numbered_taps(22),
            "8f6ff08fab9e3ae8c02a7820d589aa49e772a81fbb1feaa8d457ebc57e807ce9",
            "4199f888cfb00fdc2111256931bc9078856432004c2d271d1521c1c31e14594c",
            "98e2d4b34ab54d85d61c9a1a3a5a6c1ac2d339fbd1af9cf50339c7a56618cd4f",
        ),
        (
            numbered_values(22),
            "e6dba1b47e04c8b693b34526d2bd09e7997657b1c208a716b558bf5761cd4c35",
            "d8d94f6d6f8f0c8be08cef57ed4844750bc731a84d73556c5307b08b0bbd3ad4",
            "3a50923e47f158acc35a0c22eea7f058a92a413463c57a673c714ecbb06aa496",
        ),
    ];
    for (values, roots, paths, proofs) in known {
        let made = (0..=22).map(|n| mth(&values[..n])).collect();
        assert_eq!(digest(made), roots);
        let made = (0..22).flat_map(|m| path(m, &values)).collect();
        assert_eq!(digest(made), paths);
        let made = (1..=22).flat_map(|m| proof(m, &values)).collect();
        assert_eq!(digest(made), proofs);
    }
}

/// The split of n values is the same in both editions, and so is the number of digests on a path.
/// The RFC bounds that of a consistency proof by ceil(log2(n)) + 1.
#[test]
fn paths_and_proofs_have_as_many_digests_as_is_said_of_them() {
    for n in 1..=70 {
        let inputs = vec![[]; n];
        let bound = (0..).find(|p| n <= 1 << p).expect("a power") + 1;
        for m in 1..=n {
            assert_eq!(path(m - 1, &inputs).len(), hops(n, m), "{m} of {n}");
            let len = proof(m, &inputs).len();
            assert_eq!(len, proof_len(m, n), "{m} to {n}");
            assert!(len <= bound, "{m} to {n}");
        }
    }
    for n in [2_049, 4_094, 4_095, 4_096] {
        let longest = (1..=n).map(|m| proof_len(m, n)).max();
        assert_eq!(longest, Some(13), "{n} inputs");
    }
}

#[test]
fn every_path_and_every_proof_of_up_to_40_values_is_accepted_with_its_roots() {
    let values = numbered_values(40);
    for n in 1..=40 {
        let (values, root) = (&values[..n], mth(&values[..n]));
        for m in 1..=n {
            let made = path(m - 1, values).concat();
            let accepted = model::rfc6962_check_path(n, m, &values[m - 1], &made, &root);
            assert!(accepted, "{m} of {n}");
            let made = proof(m, values).concat();
            let old_root = mth(&values[..m]);
            let accepted = model::rfc6962_check_consistency(m, n, &made, &old_root, &root);
            assert!(accepted, "{m} to {n}");
        }
    }
}

/// Two taps: bytes 15 to 46 are the digest of leaf 1, which the node of entry 2 stores too.
#[test]
fn calls_on_two_taps_answer_and_are_refused_as_written_out() {
    let taps = numbered_taps(2);
    let log = Log::of(&taps).bytes().to_vec();
    let leaves = [leaf_hash(&taps[0]), leaf_hash(&taps[1])];
    let root = node_hash(&leaves[0], &leaves[1]);
    assert_eq!(model::rfc6962_root(&log), Ok(root));
    assert_eq!(model::rfc6962_root(&[]), Ok(model::sha256(&[])));
    let mut output = [0x77; 33];
    assert_eq!(model::rfc6962_path(&log, 1, &mut output), Ok(32));
    assert_eq!(output[..], [&leaves[1][..], &[0x77]].concat());
    assert_eq!(model::rfc6962_path(&log, 2, &mut output), Ok(32));
    assert_eq!(output[..], [&leaves[0][..], &[0x77]].concat());
    assert_eq!(model::rfc6962_consistency(&log, 1, &mut output), Ok(32));
    assert_eq!(output[..], [&leaves[1][..], &[0x77]].concat());
    assert_eq!(model::rfc6962_consistency(&log, 2, &mut []), Ok(0));
    let mut bent = log.clone();
    bent[15] ^= 0x01;
    let bytes_over = [&log[..], &[0x00]].concat();
    for bytes in [&bent[..], &bytes_over, &log[..173]] {
        assert_eq!(model::rfc6962_root(bytes), Err(6));
        assert_eq!(model::rfc6962_path(bytes, 0, &mut []), Err(6));
        assert_eq!(model::rfc6962_consistency(bytes, 3, &mut []), Err(6));
    }
    for outside in [0, 3, (1 << 32) + 1] {
        assert_eq!(model::rfc6962_path(&log, outside, &mut []), Err(2));
        assert_eq!(model::rfc6962_consistency(&log, outside, &mut []), Err(2));
        assert_eq!(model::rfc6962_path(&[], outside, &mut []), Err(2));
    }
    output = [0x77; 33];
    let short = &mut output[..31];
    assert_eq!(model::rfc6962_path(&log, 1, short), Err(8));
    assert_eq!(model::rfc6962_consistency(&log, 1, short), Err(8));
    assert_eq!(output, [0x77; 33]);
}

#[test]
fn the_values_of_a_well_formed_log_are_those_that_it_was_written_for() {
    let values = numbered_values(70);
    for n in 0..=70 {
        let log = Log::of(&values[..n]);
        assert_eq!(model::values(log.bytes()).as_deref(), Some(&values[..n]));
        let torn = &log.bytes()[..log.bytes().len().saturating_sub(1)];
        assert_eq!(model::values(torn).is_some(), n == 0, "{n} values");
    }
}
