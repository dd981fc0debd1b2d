//! The trial questions K1 to K12 and the sample text, with the values that the paper gives; a record has fifteen
//! words. Then some of them with an open table more, and with pairs in place of rows.

mod common;

use boxjoin::plain::{self, resolve};
use boxjoin::random::Random;
use common::{compare, Lengths};

const K1: [u16; 13] = [1, 2, 2, 1, 0, 2, 1, 3, 1, 0, 2, 1, 2];

/// Number, counts and listing, of the library and of the plain model.
fn trial(name: &str, question: &[u16], listing: usize, store: usize) -> (u8, [u32; 3], Vec<u16>) {
    let lengths = Lengths {
        listing,
        store,
        counts: 3,
    };
    let run = compare(name, &mut Random::new(0), question, lengths);
    let counts = [run.tuples, run.boxes, run.resolutions];
    (run.number, counts, run.listing)
}

#[test]
fn k1_to_k6() {
    assert_eq!(trial("K1", &K1, 9, 135), (0, [1, 7, 3], vec![1]));
    assert_eq!(trial("K1", &K1, 1, 105), (0, [1, 7, 3], vec![1]));
    assert_eq!(trial("K2", &K1, 9, 90), (14, [1, 6, 2], vec![1]));
    assert_eq!(trial("K2", &K1, 9, 104), (14, [1, 6, 2], vec![1]));
    assert_eq!(trial("K3", &K1, 9, 15), (14, [1, 1, 0], vec![1]));
    assert_eq!(trial("K4", &K1, 0, 135), (13, [0, 1, 0], vec![]));
    assert_eq!(trial("K4", &K1, 0, 15), (13, [0, 1, 0], vec![]));
    let k5 = [1, 2, 2, 1, 0, 0, 1, 0, 1, 0];
    assert_eq!(trial("K5", &k5, 9, 135), (0, [0, 1, 0], vec![]));
    let k6 = [1, 1, 1, 1, 0, 2, 0, 1];
    assert_eq!(trial("K6", &k6, 9, 135), (0, [2, 3, 1], vec![0, 1]));
    assert_eq!(trial("K6", &k6, 2, 135), (0, [2, 3, 1], vec![0, 1]));
    println!("trials: K1 to K6 as the paper says");
}

#[test]
fn records_of_k1() {
    let first = [4, 5, 2, 6, 7, 3, 1];
    let kinds = [0, 1, 2, 0, 0, 2, 2];
    let origins = [[0, 0], [0, 0], [0, 1], [0, 0], [1, 0], [3, 4], [2, 5]];
    let mut records = Vec::new();
    for i in 0..7 {
        records.extend([first[i], 1, 1, 1, 1, 1, 1, 1, 1, 1, 1, 1]);
        records.push(kinds[i]);
        records.extend(origins[i]);
    }
    assert_eq!(plain::run(&K1, 1, 105).store, records);
    let mut store = [0; 105];
    let counts = boxjoin::run(&K1, &mut [0], &mut store);
    assert_eq!((counts.number, counts.boxes), (0, 7));
    assert_eq!(store[..], records[..]);
    // Its tree has 7 nodes, so that from 32 words of scratch on all records are in it.
    for len in 0..=40 {
        let mut store = [0; 105];
        let mut scratch = vec![9; len];
        let with = boxjoin::run_with(&K1, &mut [0], &mut store, &mut scratch);
        assert_eq!(with, counts);
        assert_eq!(store[..], records[..]);
        // No promise, but else the tree is not used: it counts its nodes and records in the first words.
        if 32 <= len {
            assert_eq!(scratch[..2], [7, 7]);
        }
    }
    println!("trials: the records of K1 as the paper says");
}

#[test]
fn k7_to_k9_k11_and_k12() {
    let refused: [(&str, &[u16], u8); 8] = [
        ("K7", &[1, 1, 1, 1, 0, 2, 1, 1], 10),
        ("K8", &[1, 1, 1, 1, 0, 1, 2], 9),
        ("K9", &[2, 1, 1, 1, 1, 0, 1, 0], 12),
        ("K11", &[], 1),
        ("K11", &[13], 2),
        ("K11", &[12], 3),
        ("K11", &[1, 17], 4),
        ("K12", &[1, 1, 1, 1, 0, 2, 0, 1, 0], 11),
    ];
    for (name, question, number) in refused {
        assert_eq!(boxjoin::check_question(question), number, "{name}");
        assert_eq!(plain::read(question), Err(number), "{name}");
        assert_eq!(trial(name, question, 9, 135), (number, [0, 0, 0], vec![]));
    }
    assert_eq!(boxjoin::check_question(&K1), 0);
    println!("trials: K7 to K9, K11 and K12 as the paper says");
}

/// An open table among the tables of K1, K5 and K6 changes nothing but the numbers of the tables behind it; K9 has
/// still no table with rows for its second attribute.
#[test]
fn with_an_open_table() {
    let k1 = plain::run(&K1, 9, 135);
    let among: [&[u16]; 3] = [
        &[1, 2, 3, 1, 0, 65_535, 1, 0, 2, 1, 3, 1, 0, 2, 1, 2],
        &[1, 2, 3, 1, 0, 2, 1, 3, 1, 0, 65_535, 1, 0, 2, 1, 2],
        &[1, 2, 3, 1, 0, 2, 1, 3, 1, 0, 2, 1, 2, 1, 0, 65_535],
    ];
    for (place, question) in (0..).zip(among) {
        let mut records = k1.store.clone();
        for record in records.chunks_exact_mut(15) {
            if record[12] == plain::GAP && record[13] >= place {
                record[13] += 1;
            }
        }
        for store in [105, 135] {
            assert_eq!(trial("K1", question, 1, store), (0, [1, 7, 3], vec![1]));
        }
        assert_eq!(trial("K2", question, 9, 90), (14, [1, 6, 2], vec![1]));
        assert_eq!(trial("K3", question, 9, 15), (14, [1, 1, 0], vec![1]));
        assert_eq!(trial("K4", question, 0, 135), (13, [0, 1, 0], vec![]));
        let mut store = vec![0; 105];
        let counts = boxjoin::run(question, &mut [0], &mut store);
        assert_eq!((counts.number, counts.boxes), (0, 7));
        assert_eq!(store, records);
    }
    let k5 = [1, 2, 3, 1, 0, 0, 1, 0, 1, 0, 1, 0, 65_535];
    assert_eq!(trial("K5", &k5, 9, 135), (0, [0, 1, 0], vec![]));
    let k5 = [1, 2, 2, 1, 0, 0, 1, 0, 65_535];
    assert_eq!(trial("K5", &k5, 9, 135), (0, [0, 1, 0], vec![]));
    let k6 = [1, 1, 2, 1, 0, 65_535, 1, 0, 2, 0, 1];
    assert_eq!(trial("K6", &k6, 2, 135), (0, [2, 3, 1], vec![0, 1]));
    let refused: [(&str, &[u16], u8); 7] = [
        ("K7", &[1, 1, 2, 1, 0, 65_535, 1, 0, 2, 1, 1], 10),
        ("K8", &[1, 1, 2, 1, 0, 65_535, 1, 0, 1, 2], 9),
        ("K9", &[2, 1, 1, 2, 1, 0, 1, 0, 1, 1, 65_535], 12),
        ("K9", &[2, 1, 1, 2, 1, 0, 1, 0, 2, 0, 1, 65_535], 12),
        ("K6", &[1, 1, 1, 1, 0, 65_535], 12),
        ("K6", &[1, 1, 1, 1, 0, 65_534], 8),
        ("K12", &[1, 1, 2, 1, 0, 2, 0, 1, 1, 0, 65_535, 0], 11),
    ];
    for (name, question, number) in refused {
        assert_eq!(boxjoin::check_question(question), number, "{name}");
        assert_eq!(plain::read(question), Err(number), "{name}");
        assert_eq!(trial(name, question, 9, 135), (number, [0, 0, 0], vec![]));
    }
    println!("trials: the same with an open table more");
}

/// Pairs in place of the rows of K1, K5 and K6: the values and the records are the same. K7 to K9 and K12 have their
/// numbers, and 28 is given before K7's.
#[test]
fn with_pairs() {
    let k1 = plain::run(&K1, 9, 135);
    let with_pairs: [&[u16]; 4] = [
        &[1, 2, 2, 65_535, 0, 2, 1, 1, 3, 3, 1, 0, 2, 1, 2],
        &[1, 2, 2, 1, 0, 2, 1, 3, 65_535, 0, 1, 1, 2],
        &[1, 2, 2, 65_535, 0, 2, 1, 1, 3, 3, 65_535, 0, 1, 1, 2],
        &[1, 2, 2, 65_535, 0, 2, 1, 1, 3, 3, 65_535, 0, 2, 1, 1, 2, 2],
    ];
    for question in with_pairs {
        for store in [105, 135] {
            assert_eq!(trial("K1", question, 1, store), (0, [1, 7, 3], vec![1]));
        }
        assert_eq!(trial("K2", question, 9, 90), (14, [1, 6, 2], vec![1]));
        assert_eq!(trial("K3", question, 9, 15), (14, [1, 1, 0], vec![1]));
        assert_eq!(trial("K4", question, 0, 135), (13, [0, 1, 0], vec![]));
        let mut store = vec![0; 105];
        let counts = boxjoin::run(question, &mut [0], &mut store);
        assert_eq!((counts.number, counts.boxes), (0, 7));
        assert_eq!(store, k1.store);
    }
    let k5 = [1, 2, 2, 65_535, 0, 0, 65_535, 0, 1, 0, 0];
    assert_eq!(trial("K5", &k5, 9, 135), (0, [0, 1, 0], vec![]));
    let k6 = [1, 1, 1, 65_535, 0, 1, 0, 1];
    assert_eq!(trial("K6", &k6, 9, 135), (0, [2, 3, 1], vec![0, 1]));
    assert_eq!(trial("K6", &k6, 2, 135), (0, [2, 3, 1], vec![0, 1]));
    assert_eq!(trial("K6", &k6, 1, 135), (13, [1, 1, 0], vec![0]));
    let refused: [(&str, &[u16], u8); 7] = [
        ("K7", &[1, 1, 1, 65_535, 0, 2, 1, 1, 1, 1], 10),
        ("K7", &[1, 1, 1, 65_535, 0, 2, 1, 1, 1, 0], 28),
        ("K8", &[1, 1, 1, 65_535, 0, 1, 2, 2], 9),
        ("K8", &[1, 1, 1, 65_535, 0, 1, 0, 2], 9),
        ("K9", &[2, 1, 1, 1, 65_535, 0, 1, 0, 0], 12),
        ("K12", &[1, 1, 1, 65_535, 0, 1, 0, 1, 0], 11),
        ("K12", &[1, 1, 1, 65_534, 0, 1, 0, 1, 0], 6),
    ];
    for (name, question, number) in refused {
        assert_eq!(boxjoin::check_question(question), number, "{name}");
        assert_eq!(plain::read(question), Err(number), "{name}");
        assert_eq!(trial(name, question, 9, 135), (number, [0, 0, 0], vec![]));
    }
    println!("trials: the same with pairs in place of rows");
}

/// Of the plain model alone: the library has no function for one resolution.
#[test]
fn k10() {
    assert_eq!(resolve(&[1, 2], &[2, 3]), Some(vec![2, 1]));
}

#[test]
fn sample_and_examples() {
    let sample = b"shaft line\n1 1\n\nshaft line\n0 1\n1 0\n\nline\n1\n";
    let printed = b"shaft line\n0 1\ncomplete 1 7 3\n";
    assert_eq!(boxjoin::text::print(sample), printed);
    let mut out = [0; 200];
    assert_eq!(boxjoin::list_text(sample, &mut out), printed.len());
    assert_eq!(&out[..printed.len()], printed);

    let examples: [(&[u8], &[u8]); 7] = [
        (
            include_bytes!("../../examples/sample.txt"),
            include_bytes!("../../examples/sample.out"),
        ),
        (
            include_bytes!("../../examples/estate.txt"),
            include_bytes!("../../examples/estate.out"),
        ),
        (
            include_bytes!("../../examples/district.txt"),
            include_bytes!("../../examples/district.out"),
        ),
        (
            include_bytes!("../../examples/radios.txt"),
            include_bytes!("../../examples/radios.out"),
        ),
        (
            include_bytes!("../../examples/survey.txt"),
            include_bytes!("../../examples/survey.out"),
        ),
        (
            include_bytes!("../../examples/unconnected.txt"),
            include_bytes!("../../examples/unconnected.out"),
        ),
        (
            include_bytes!("../../examples/unsorted.txt"),
            include_bytes!("../../examples/unsorted.out"),
        ),
    ];
    for (text, printed) in examples {
        assert_eq!(boxjoin::text::print(text), printed);
        let mut out = vec![0; 5_000];
        let count = boxjoin::list_text(text, &mut out);
        assert_eq!(&out[..count], printed);
    }
    println!("trials: the sample text and seven examples print what they should");
}
