//! How long the check of a listing and its records takes, beside the run that left them.

use crate::watch::{shown, Watch, ROUNDS};
use crate::{ample, call_log_case, triangle_case, wide_case, Buffers, Case};
use boxjoin::plain;
use boxjoin::random::cables;

/// Of more boxes than about these the plain check is left out.
const PLAIN: u32 = 8_000;

/// Units with the lengths of their cables, and a range table of so many pairs of so many values each.
fn cables_case(units: usize, pairs: usize, values: usize, boxes: u32) -> Case {
    Case {
        name: format!("cables, {units} units, {pairs} pairs of {values} values"),
        question: cables(1, units, pairs, values),
        boxes,
    }
}

pub fn measure_checks() {
    println!(
        "\
A check of a listing and its records, beside the run that left them: processor time on one core, in batches of at
least half a second of each in turn, the best mean of {ROUNDS} batches. *run* is one call with a scratch in which the
whole tree has room, *check* one call with its listing and its store, cut to the counts, and *plain check* the same in
plain Rust, which walks through all rows and through every value of a pair; of more than about {PLAIN} records it is
left out. Checked on the way: both accept.
"
    );
    println!(
        "| question | records | run ms | check ms | check/run | ns a record | plain check ms |"
    );
    println!("|---|--:|--:|--:|--:|--:|--:|");
    for case in [
        triangle_case(290, 8_000),
        triangle_case(1_275, 60_000),
        call_log_case(14, 9, 4, 2, 1_000),
        call_log_case(140, 32, 8, 2, 8_000),
        call_log_case(1_120, 128, 16, 3, 60_000),
        wide_case(50, 16, 8, 2, 8_000),
        wide_case(312, 128, 16, 3, 60_000),
        cables_case(220, 512, 8, 8_000),
    ] {
        measure(&case);
    }
}

/// Measures one question, and prints its line.
fn measure(case: &Case) {
    let words = case.question.words();
    let n = case.question.widths.len();
    let mut buffers = Buffers::new(ample(&case.question));
    let [mut run, mut check, mut plain_check] = [(); 3].map(|_| Watch::default());
    for round in 1..=ROUNDS {
        let what = |who: &str| format!("{}: round {round}, {who}", case.name);
        run.batch(&what("run"), || buffers.run(&words));
        check.batch(&what("check"), || buffers.check(&words));
        if case.boxes <= PLAIN {
            let (listing, store) = buffers.written(n).expect("a run before");
            plain_check.batch(&what("plain check"), || {
                let number = plain::check_listing(&words, listing, store);
                assert_eq!(number, 0, "the plain check accepts");
            });
        }
    }
    let left = buffers.left(n).unwrap();
    assert_eq!(left.number, 0, "the run is complete");
    assert!(case.is_about(left.boxes), "{} boxes", left.boxes);
    let (run, check) = (run.0, check.0);
    let ratio = run.zip(check).map(|(run, check)| check / run);
    let a_record = check.map(|ms| ms * 1e6 / left.boxes as f64);
    let mut line = format!("| {} | {} |", case.name, left.boxes);
    for number in [run, check, ratio, a_record, plain_check.0] {
        line += &format!(" {} |", shown(number));
    }
    println!("{line}");
}
