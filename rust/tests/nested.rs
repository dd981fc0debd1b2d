//! Complete runs list what plain nested loops list; stopped ones list the join's first tuples.

mod common;

use boxjoin::nested::{join_by_points, join_by_rows, most_turns};
use boxjoin::plain::{self, RECORD};
use boxjoin::random::{question, Random};
use common::{show, Opens, Ranges, Tally};

#[test]
fn runs_list_the_join() {
    let mut tally = Tally::new();
    let mut tuples = 0;
    let mut by_points = 0;
    let (mut opens, mut points_opens) = (Opens::new(), Opens::new());
    let (mut ranges, mut points_ranges) = (Ranges::new(), Ranges::new());
    for seed in 0..16_000 {
        let mut random = Random::new(1_000_000 + seed);
        let question = question(&mut random);
        let n = question.widths.len();
        let words = question.words();
        // Huge joins would only take time.
        if most_turns(&question) > 2e5 {
            continue;
        }
        opens.count(&question);
        ranges.count(&question);
        let join = join_by_rows(&question);
        if question.widths.iter().sum::<u32>() <= 8 {
            by_points += 1;
            points_opens.count(&question);
            points_ranges.count(&question);
            assert_eq!(
                join,
                join_by_points(&question),
                "seed {seed}: nested loops differ"
            );
        }
        let join: Vec<u16> = join.concat();
        let listing_len = if random.one_in(3) {
            random.below(join.len() + n)
        } else {
            join.len() + random.below(2 * n)
        };
        let mut listing = vec![7; listing_len];
        let mut store = vec![0; RECORD * 400];
        let counts = boxjoin::run(&words, &mut listing, &mut store);
        tally.count(counts.number);
        let listed = &listing[..counts.tuples as usize * n];
        tuples += counts.tuples;
        let right = match counts.number {
            0 => listed == join,
            13 => join.starts_with(listed) && listed.len() < join.len(),
            14 => join.starts_with(listed),
            _ => false,
        };
        if !right {
            panic!(
                "seed {seed}: {counts:?} lists {listed:?}, the join is {join:?}\nquestion {}",
                show(&words)
            );
        }
        assert!(listing[listed.len()..].iter().all(|&word| word == 7));
    }
    tally.finish("runs against nested loops", &[0, 13, 14], 500);
    println!(
        "runs against nested loops: {tuples} tuples listed; {by_points} joins also point by point"
    );
    assert!(tuples > 50_000 && by_points > 3_000);
    opens.finish("runs against nested loops", 500, 200);
    points_opens.finish("joins also point by point", 300, 100);
    ranges.finish("runs against nested loops", 400, 300);
    points_ranges.finish("joins also point by point", 200, 100);
}

/// The plain model's course against nested loops, without the library.
#[test]
fn the_plain_course_lists_the_join() {
    let mut complete = 0;
    let (mut opens, mut ranges) = (Opens::new(), Ranges::new());
    for seed in 0..5_000 {
        let mut random = Random::new(2_000_000 + seed);
        let question = question(&mut random);
        let run = plain::run(&question.words(), 10_000, RECORD * 300);
        // Loops over whole ranges, one inside the other, would only take time.
        if run.number == 0 && most_turns(&question) <= 1e6 {
            complete += 1;
            opens.count(&question);
            ranges.count(&question);
            assert_eq!(run.listing, join_by_rows(&question).concat(), "seed {seed}");
        }
    }
    println!("the plain course against nested loops: {complete} complete");
    assert!(complete > 3_000);
    opens.finish("the plain course against nested loops", 200, 100);
    ranges.finish("the plain course against nested loops", 100, 100);
}
