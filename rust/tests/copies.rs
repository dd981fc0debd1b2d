//! The lift firm's copy of a listing: the library against the plain model and against the copy made from the listing's
//! own bytes; and what the firm sees, which nothing that is hidden may change.

mod common;

use boxjoin::plain::{self, Question, Table};
use boxjoin::random::{alike, damaged_text, hidden, hidden_so, names, open_text, other_values};
use boxjoin::random::{stopping_question, text_of, text_question};
use boxjoin::random::{Alike, OpenText, Random};
use boxjoin::text::{BOXES, LISTING_WORDS};
use common::{longest_names, outcome, Buffer, Tally};
use std::io::BufRead;

/// The numbers that the refusal of a text can have.
const REFUSED: [usize; 10] = [4, 5, 7, 8, 9, 10, 12, 15, 16, 17];

/// How many calls hid what, and how it was given.
#[derive(Debug, Default)]
struct Hides {
    calls: usize,
    none: usize,
    some: usize,
    all: usize,
    /// With the last attribute, and not the one before it.
    last: usize,
    twice: usize,
    unordered: usize,
    /// With numbers that no attribute has; with these alone.
    beyond: usize,
    only_beyond: usize,
    /// With more numbers than a text can have attributes.
    many: usize,
}

impl Hides {
    /// Counts a call for a text with n attributes.
    fn count(&mut self, n: usize, hidden: &[u16]) {
        let is = |a: usize| hidden.contains(&(a as u16));
        let set = (0..n).filter(|&a| is(a)).count();
        let twice = (0..n as u16).any(|a| hidden.iter().filter(|&&h| h == a).count() > 1);
        let beyond = hidden.iter().any(|&h| h as usize >= n);
        self.calls += 1;
        self.none += usize::from(set == 0);
        self.some += usize::from(0 < set && set < n);
        self.all += usize::from(set == n);
        self.last += usize::from(n > 1 && is(n - 1) && !is(n - 2));
        self.twice += usize::from(twice);
        self.unordered += usize::from(!hidden.is_sorted());
        self.beyond += usize::from(beyond);
        self.only_beyond += usize::from(beyond && set == 0);
        self.many += usize::from(hidden.len() > plain::MOST_ATTRIBUTES);
    }

    /// Prints one line, and sees that each kind came up at least so often.
    fn finish(&self, what: &str, least: usize) {
        println!(
            "{what}: of {} calls {} hide nothing, {} some, {} all, {} the last attribute and not the one before; {} name one twice, {} are unordered, {} have numbers of no attribute, {} these alone, {} more than twelve numbers",
            self.calls, self.none, self.some, self.all, self.last, self.twice, self.unordered, self.beyond,
            self.only_beyond, self.many
        );
        let sets = [self.none, self.some, self.all, self.last];
        let ways = [self.twice, self.unordered, self.beyond];
        let rare = [self.only_beyond, self.many];
        let mut kinds = sets.iter().chain(&ways).chain(&rare);
        assert!(kinds.all(|&count| count >= least), "{what}: {self:?}");
    }
}

/// The copy made from the bytes that are printed for a text, line by line.
fn from_print(printed: &[u8], hidden: &[u16]) -> Vec<u8> {
    let printed = std::str::from_utf8(printed).unwrap();
    let lines: Vec<&str> = printed.split_inclusive('\n').collect();
    // A refusal is a single line; other prints have at least the names and the last line.
    let [names, tuples @ .., last] = lines.as_slice() else {
        assert!(printed.starts_with("refused "), "{printed:?}");
        return b"refused\n".to_vec();
    };
    let mut copy = names.to_string();
    for line in tuples {
        let values = line.strip_suffix('\n').unwrap().split(' ');
        for (place, value) in values.enumerate() {
            let is_hidden = hidden.iter().any(|&number| usize::from(number) == place);
            copy += if place == 0 { "" } else { " " };
            copy += if is_hidden { "-" } else { value };
        }
        copy += "\n";
    }
    let fields: Vec<&str> = last.trim_end().split(' ').collect();
    copy += &match fields.as_slice() {
        ["complete", tuples, _, _] => format!("complete {tuples}\n"),
        ["stopped", _, tuples, _, _] => format!("stopped {tuples}\n"),
        _ => panic!("the last line is {last:?}"),
    };
    copy.into_bytes()
}

/// The copy for this text by both ways, which have to agree, and the number of the listing.
fn due(what: &str, text: &[u8], hidden: &[u16]) -> (Vec<u8>, u8) {
    let copy = boxjoin::copies::copy(text, hidden);
    let printed = boxjoin::text::print(text);
    let other = from_print(&printed, hidden);
    assert!(copy == other, "the plain copy of {what}: {}", show(&copy));
    (copy, outcome(&printed))
}

/// Bytes, cut short if there are very many.
fn show(bytes: &[u8]) -> String {
    let shown = String::from_utf8_lossy(&bytes[..bytes.len().min(3_000)]);
    format!("{shown:?} of {} bytes", bytes.len())
}

/// Numbers, likewise.
fn given(hidden: &[u16]) -> String {
    let shown = &hidden[..hidden.len().min(40)];
    format!("{shown:?} of {} numbers", hidden.len())
}

/// Asks for the copy with outs around its length and of other lengths, and with counts of several lengths, and compares
/// every byte and word. Counts each answer, and says the number of the listing.
fn compare(
    what: &str,
    random: &mut Random,
    text: &[u8],
    hidden: &[u16],
    answers: &mut Tally,
) -> u8 {
    let (copy, ended) = due(what, text, hidden);
    let exact = copy.len();
    let other = random.pick(&[1, exact / 2, exact + 2, 2 * exact + 50]);
    for room in [0, exact - 1, exact, exact + 1, other] {
        let counts = random.pick(&[0, 1, 1, 2, 3, 7]);
        let number = if exact <= room { 0 } else { 13 };
        let written: &[u8] = if number == 0 { &copy } else { &[] };
        let mut bytes = Buffer::of(random, text, |r| r as u8);
        // Beside the numbers stand some that would hide an attribute.
        let mut numbers = Buffer::of(random, hidden, |r| (r % 14) as u16);
        let mut out = Buffer::new(random, room, |r| r as u8);
        let mut told = Buffer::new(random, counts, |r| r as u32);
        let expected_bytes = bytes.expected(&[]);
        let expected_numbers = numbers.expected(&[]);
        let expected_out = out.expected(written);
        let expected_told = told.expected(&[exact as u32][..counts.min(1)]);

        let (b, n, o, t) = (bytes.lent(), numbers.lent(), out.lent(), told.lent());
        let answer = boxjoin::lift_copy_into(b, n, o, t);

        let mut trouble = Vec::new();
        if answer != number {
            trouble.push(format!("the number is {answer}, not {number}"));
        }
        let buffers = [
            ("text", bytes.differs(&expected_bytes)),
            ("hidden", numbers.differs(&expected_numbers)),
            ("out", out.differs(&expected_out)),
            ("counts", told.differs(&expected_told)),
        ];
        for (name, differs) in buffers {
            trouble.extend(differs.map(|differs| format!("{name}: {differs}")));
        }
        if !trouble.is_empty() {
            panic!(
                "{what}: {}\nout of {room} bytes, {counts} counts, hidden {}\nthe copy should be {}\ntext {}",
                trouble.join("; "),
                given(hidden),
                show(&copy),
                show(text)
            );
        }
        answers.count(answer);
    }
    assert_eq!(copied(text, hidden), copy, "{what} without counts");
    ended
}

/// The library's copy, in an out of just its length, which is asked for first.
fn copied(text: &[u8], hidden: &[u16]) -> Vec<u8> {
    let asked = boxjoin::lift_copy(text, hidden, &mut []);
    assert_eq!(asked.number, 13, "no copy is empty");
    let mut copy = vec![0; asked.bytes as usize];
    let told = boxjoin::lift_copy(text, hidden, &mut copy);
    assert_eq!((told.number, told.bytes), (0, asked.bytes));
    copy
}

#[test]
fn random_texts() {
    let (mut tally, mut answers) = (Tally::new(), Tally::new());
    let mut hides = Hides::default();
    for seed in 0..1_200 {
        let mut random = Random::new(90_000_000 + seed);
        let question = text_question(&mut random);
        let n = question.widths.len();
        let text = text_of(&names(&mut random, n), &question);
        let hidden = hidden(&mut random, n);
        let what = format!("text of seed {seed}");
        let number = compare(&what, &mut random, &text, &hidden, &mut answers);
        tally.count(number);
        hides.count(n, &hidden);
    }
    tally.finish("copies of random texts", &[0, 14], 20);
    answers.finish("answers for random texts", &[0, 13], 2_400);
    hides.finish("copies of random texts", 60);
}

/// Texts with open tables, right and wrong, and damaged ones. Their numbers of attributes are as they come.
#[test]
fn open_and_damaged_texts() {
    let (mut open, mut damaged, mut answers) = (Tally::new(), Tally::new(), Tally::new());
    for (kind, &case) in OpenText::ALL.iter().enumerate() {
        for seed in 0..20 {
            let mut random = Random::new(91_000_000 + 1_000 * kind as u64 + seed);
            let text = open_text(&mut random, case);
            let n = random.from_to(1, 5);
            let hidden = hidden(&mut random, n);
            let what = format!("{case:?} of seed {seed}");
            open.count(compare(&what, &mut random, &text, &hidden, &mut answers));
        }
    }
    for seed in 0..3_000 {
        let mut random = Random::new(92_000_000 + seed);
        let text = damaged_text(&mut random);
        let n = random.from_to(1, 5);
        let hidden = hidden(&mut random, n);
        let what = format!("damaged text of seed {seed}");
        damaged.count(compare(&what, &mut random, &text, &hidden, &mut answers));
    }
    open.finish("copies of texts with open tables", &[0, 12, 15, 16], 30);
    damaged.finish("copies of damaged texts", &REFUSED, 8);
    damaged.had("copies of damaged texts", &[0, 14], 8);
    answers.finish("answers for these texts", &[0, 13], 6_000);
}

/// Texts that stop, after few tuples and after many, short texts and long ones; and those that are too long.
#[test]
fn long_texts() {
    let (mut tally, mut answers) = (Tally::new(), Tally::new());
    let (mut longest_text, mut longest_copy) = (0, 0);
    let mut see = |what: &str, random: &mut Random, text: &[u8], n: usize| {
        let hidden = hidden(random, n);
        tally.count(compare(what, random, text, &hidden, &mut answers));
        longest_text = longest_text.max(text.len());
        longest_copy = longest_copy.max(copied(text, &hidden).len());
    };
    for seed in 0..24 {
        let mut random = Random::new(93_000_000 + seed);
        let question = stopping_question(&mut random);
        let n = question.widths.len();
        let text = text_of(&names(&mut random, n), &question);
        see(&format!("stop of seed {seed}"), &mut random, &text, n);
    }
    for n in [1, 2, 3, 6, plain::MOST_ATTRIBUTES] {
        // The last attribute has all of its values, the others one each, of five digits.
        let mut random = Random::new(94_000_000 + n as u64);
        let values = |a: usize| {
            if a + 1 < n {
                65_535 - a..65_536 - a
            } else {
                0..4_096
            }
        };
        let rows = |a: usize| values(a).map(|v| vec![v as u16]).collect();
        let tables = (0..n).map(|a| Table::with_rows(vec![a], rows(a)));
        let mut question = Question {
            widths: vec![16; n],
            tables: tables.collect(),
        };
        question.widths[n - 1] = random.from_to(12, 16) as u32;
        let text = text_of(&longest_names()[..n], &question);
        see(&format!("{n} columns"), &mut random, &text, n);
    }
    // As long as a text may be, and a byte longer: a table without rows leaves no tuple of the three others.
    for (first, number) in [("5", 0), ("50", 17)] {
        let mut random = Random::new(94_000_100 + number);
        let mut text = format!("a b\n16 16\n\nb\n\na\n{first}\n{}", numbers(3_332));
        text += &format!("\na\n{}", numbers(3_332)).repeat(2);
        assert_eq!(text.len(), 59_999 + first.len());
        assert_eq!(
            u64::from(outcome(&boxjoin::text::print(text.as_bytes()))),
            number
        );
        see("a long text", &mut random, text.as_bytes(), 2);
        text += &"\n".repeat(random.below(40_000));
        see("a longer text", &mut random, text.as_bytes(), 2);
    }
    tally.finish("copies of long texts", &[14], 25);
    tally.had("copies of long texts", &[0, 17], 1);
    answers.finish("answers for long texts", &[0, 13], 50);
    println!("the longest text has {longest_text} bytes, the longest copy {longest_copy}");
    assert!(longest_text > 60_000 && longest_copy > 20_000);
}

/// Lines of five digits.
fn numbers(count: usize) -> String {
    (10_000..).take(count).map(|v| format!("{v}\n")).collect()
}

/// Texts that the sentences on the copy name, each with its copy.
#[test]
fn named_copies() {
    let mut answers = Tally::new();
    let top = "a b c d e f g h i j k l";
    let ones = "1 1 1 1 1 1 1 1 1 1 1 1";
    let dashes = "- - - - - - - - - - - -";
    let twelve = format!("{top}\n{ones}\n\n{top}\n{ones}\n");
    let twelfth = "1 1 1 1 1 1 1 1 1 1 1 -";
    let (calls, shown) = (
        "shaft line\n4 4\n\nshaft line\n3 12\n10 4\n",
        "shaft line\n",
    );
    let all: Vec<u16> = (0..12).collect();
    // The last of very many numbers hides something.
    let many = [[65_535; 70_000].as_slice(), &[1]].concat();
    let cases: Vec<(&str, &[u16], String)> = vec![
        (calls, &[], format!("{shown}3 12\n10 4\ncomplete 2\n")),
        (calls, &[0], format!("{shown}- 12\n- 4\ncomplete 2\n")),
        (calls, &[1], format!("{shown}3 -\n10 -\ncomplete 2\n")),
        (calls, &[0, 1], format!("{shown}- -\n- -\ncomplete 2\n")),
        (calls, &[1, 0], format!("{shown}- -\n- -\ncomplete 2\n")),
        (calls, &[1, 1], format!("{shown}3 -\n10 -\ncomplete 2\n")),
        (calls, &[0, 0, 0], format!("{shown}- 12\n- 4\ncomplete 2\n")),
        // No attribute has these numbers.
        (calls, &[2], format!("{shown}3 12\n10 4\ncomplete 2\n")),
        (calls, &[12, 13], format!("{shown}3 12\n10 4\ncomplete 2\n")),
        (
            calls,
            &[256, 65_535],
            format!("{shown}3 12\n10 4\ncomplete 2\n"),
        ),
        (
            calls,
            &[65_535, 1, 2],
            format!("{shown}3 -\n10 -\ncomplete 2\n"),
        ),
        (calls, &many, format!("{shown}3 -\n10 -\ncomplete 2\n")),
        // Twelve attributes.
        (&twelve, &[], format!("{top}\n{ones}\ncomplete 1\n")),
        (&twelve, &all, format!("{top}\n{dashes}\ncomplete 1\n")),
        (&twelve, &[11], format!("{top}\n{twelfth}\ncomplete 1\n")),
        (&twelve, &[12], format!("{top}\n{ones}\ncomplete 1\n")),
        // No tuple.
        ("a\n1\n\na\n", &[], "a\ncomplete 0\n".into()),
        ("a\n1\n\na\n", &[0], "a\ncomplete 0\n".into()),
        // Names that say how a listing ends.
        (
            "refused\n1\n\nrefused\n0\n",
            &[],
            "refused\n0\ncomplete 1\n".into(),
        ),
        (
            "refused\n1\n\nrefused\n0\n",
            &[0],
            "refused\n-\ncomplete 1\n".into(),
        ),
        (
            "refused\n1\n\nrefused\n",
            &[0],
            "refused\ncomplete 0\n".into(),
        ),
        ("refused\n1\n", &[], "refused\n".into()),
        (
            "complete\n1\n\ncomplete\n0\n1\n",
            &[],
            "complete\n0\n1\ncomplete 2\n".into(),
        ),
        (
            "complete\n1\n\ncomplete\n0\n1\n",
            &[0],
            "complete\n-\n-\ncomplete 2\n".into(),
        ),
        ("complete\n1\n\ncomplete\n2\n", &[0], "refused\n".into()),
        (
            "stopped\n1\n\nstopped\n1\n",
            &[],
            "stopped\n1\ncomplete 1\n".into(),
        ),
        (
            "stopped\n1\n\nstopped\n1\n",
            &[0],
            "stopped\n-\ncomplete 1\n".into(),
        ),
        ("stopped\n1\n\nstopped\n1\n0\n", &[0], "refused\n".into()),
        (
            "open\n1\n\nopen\nopen\n\nopen\n1\n",
            &[],
            "open\n1\ncomplete 1\n".into(),
        ),
        (
            "open\n1\n\nopen\nopen\n\nopen\n1\n",
            &[0],
            "open\n-\ncomplete 1\n".into(),
        ),
        ("open\n1\n\nopen\nopen\n", &[0], "refused\n".into()),
        (
            "refused stopped\n1 1\n\nrefused stopped\n0 1\n1 0\n",
            &[1],
            "refused stopped\n0 -\n1 -\ncomplete 2\n".into(),
        ),
        // Refusals.
        ("", &[], "refused\n".into()),
        ("refused\n", &[], "refused\n".into()),
        ("a\n17\n\na\n0\n", &[0], "refused\n".into()),
        ("a a\n1 1\n\na\n0\n", &[0], "refused\n".into()),
    ];
    for (text, hidden, copy) in &cases {
        let what = format!("{text:?} without {}", given(hidden));
        let plain = boxjoin::copies::copy(text.as_bytes(), hidden);
        assert_eq!(
            show(&plain),
            show(copy.as_bytes()),
            "the plain model on {what}"
        );
        let mut random = Random::new(copy.len() as u64);
        compare(&what, &mut random, text.as_bytes(), hidden, &mut answers);
    }
    answers.finish("answers for named texts", &[0, 13], cases.len());
}

/// The example texts, whose listings are kept beside them.
#[test]
fn examples() {
    let mut answers = Tally::new();
    let examples: [(&[u8], &[u8], &str); 5] = [
        (
            include_bytes!("../../examples/sample.txt"),
            include_bytes!("../../examples/sample.out"),
            "complete 1\n",
        ),
        (
            include_bytes!("../../examples/estate.txt"),
            include_bytes!("../../examples/estate.out"),
            "complete 10\n",
        ),
        (
            include_bytes!("../../examples/district.txt"),
            include_bytes!("../../examples/district.out"),
            "stopped 99\n",
        ),
        (
            include_bytes!("../../examples/radios.txt"),
            include_bytes!("../../examples/radios.out"),
            "complete 7\n",
        ),
        (
            include_bytes!("../../examples/unsorted.txt"),
            include_bytes!("../../examples/unsorted.out"),
            "refused\n",
        ),
    ];
    for (text, printed, last) in examples {
        for seed in 0..8 {
            let mut random = Random::new(97_000_000 + seed);
            let hidden = hidden(&mut random, plain::MOST_ATTRIBUTES);
            let copy = copied(text, &hidden);
            assert_eq!(show(&copy), show(&from_print(printed, &hidden)));
            let line = copy.split_inclusive(|&b| b == b'\n').next_back();
            assert_eq!(line, Some(last.as_bytes()));
            compare(last, &mut random, text, &hidden, &mut answers);
        }
    }
    // Without line and second.
    let (estate, _, _) = examples[1];
    let tuples = "0 3 - 0 -\n1 7 - 2 -\n2 1 - 1 -\n3 4 - 0 -\n4 0 - 2 -\n5 9 - 0 -\n6 2 - 1 -\n7 8 - 1 -\n8 5 - 2 -\n9 6 - 1 -\n";
    let copy = format!("shaft unit line first second\n{tuples}complete 10\n");
    assert_eq!(show(&copied(estate, &[2, 4])), show(copy.as_bytes()));
}

/// Where nothing is hidden, the lines between the first and the last are those of the listing.
#[test]
fn nothing_hidden() {
    let (mut listed, mut lines) = (0, 0);
    for seed in 0..500 {
        let mut random = Random::new(98_000_000 + seed);
        let question = match random.below(12) {
            0 => stopping_question(&mut random),
            _ => text_question(&mut random),
        };
        let n = question.widths.len();
        let text = text_of(&names(&mut random, n), &question);
        // None, or numbers that no attribute has.
        let hidden = hidden_so(&mut random, &[], n);
        let (printed, copy) = (listing(&text), copied(&text, &hidden));
        let of = |bytes: &[u8]| {
            let mut lines: Vec<String> = bytes.lines().map(Result::unwrap).collect();
            lines.pop();
            lines
        };
        assert_eq!(of(&copy), of(&printed), "seed {seed}: {}", show(&text));
        listed += usize::from(of(&copy).len() > 1);
        lines += of(&copy).len() - 1;
    }
    println!("nothing hidden: {listed} listings have tuples, {lines} in all");
    assert!(listed >= 200 && lines >= 2_000, "{listed}, {lines}");
}

/// The run of a text that is not refused.
fn run_of(text: &[u8]) -> Option<plain::Run> {
    let (_, words) = boxjoin::text::read(text).ok()?;
    let run = plain::run_by_tree(&words, LISTING_WORDS, BOXES * plain::RECORD);
    (!plain::is_refusal(run.number)).then_some(run)
}

/// What the firm may see of a run over n attributes, whose names it has: for each tuple the values that are not hidden,
/// and whether it is complete.
fn seen(run: &plain::Run, n: usize, hidden: &[u16]) -> (Vec<Vec<u16>>, bool) {
    let visible = |tuple: &[u16]| {
        let of = (0u16..).zip(tuple).filter(|(a, _)| !hidden.contains(a));
        of.map(|(_, &value)| value).collect()
    };
    let tuples = run.listing.chunks(n).map(visible).collect();
    (tuples, run.number == 0)
}

/// The library's listing, which the centre gets.
fn listing(text: &[u8]) -> Vec<u8> {
    let mut out = vec![0; boxjoin::list_text(text, &mut [])];
    boxjoin::list_text(text, &mut out);
    out
}

/// All that a call gives to the firm: the number, the counts and every byte of an out, which had other bytes before.
fn sent(text: &[u8], hidden: &[u16], room: usize) -> (u8, [u32; 2], Vec<u8>) {
    let (mut out, mut counts) = (vec![b'?'; room], [7; 2]);
    let number = boxjoin::lift_copy_into(text, hidden, &mut out, &mut counts);
    (number, counts, out)
}

/// Some of n attributes, at least one.
fn some_attributes(random: &mut Random, n: usize) -> Vec<u16> {
    let mut set: Vec<u16> = (0..n as u16).collect();
    random.shuffle(&mut set);
    set.truncate(random.from_to(1, n));
    set
}

/// How many pairs of texts were tried that the firm must not tell apart.
#[derive(Default)]
struct Pairs {
    alike: usize,
    /// Whose runs stop.
    stopped: usize,
    /// Whose listings are not the same bytes; whose tuples are not the same.
    other_listing: usize,
    other_tuples: usize,
    /// Left out: of the two one has room for more tuples than the other.
    apart: usize,
}

/// Texts that the centre can tell apart, and that look alike without the hidden values: the firm gets the same bytes for
/// both, however the hidden attributes are given.
#[test]
fn pairs_that_look_alike() {
    for (kind, how) in Alike::ALL.into_iter().enumerate() {
        let mut pairs = Pairs::default();
        for seed in 0..300 {
            let mut random = Random::new(99_000_000 + 1_000 * kind as u64 + seed);
            // A single table of a run's tuples does not stop with it.
            let stops = how != Alike::Tuples && random.one_in(4);
            let question = if stops {
                stopping_question(&mut random)
            } else {
                text_question(&mut random)
            };
            let n = question.widths.len();
            let set = some_attributes(&mut random, n);
            let Some(mut other) = alike(&mut random, &question, &set, how) else {
                continue;
            };
            // Often one more difference.
            if random.one_in(2) {
                let more = random.pick(&Alike::ALL);
                other = alike(&mut random, &other, &set, more).unwrap_or(other);
            }
            let names = names(&mut random, n);
            let (one, two) = (text_of(&names, &question), text_of(&names, &other));
            let (Some(run), Some(other)) = (run_of(&one), run_of(&two)) else {
                panic!("{how:?}, seed {seed}: a text is refused");
            };
            if one == two || seen(&run, n, &set) != seen(&other, n, &set) {
                pairs.apart += 1;
                continue;
            }
            let hidden = hidden_so(&mut random, &set, n);
            let again = hidden_so(&mut random, &set, n);
            let exact = copied(&one, &hidden).len();
            let room = random.pick(&[0, exact - 1, exact + 1, 2 * exact]);
            for room in [exact, room] {
                assert!(
                    sent(&one, &hidden, room) == sent(&two, &again, room),
                    "{how:?}, seed {seed}: the firm can tell them apart, by an out of {room} bytes\nhidden {set:?}\ntext {}\ntext {}",
                    show(&one),
                    show(&two)
                );
            }
            pairs.alike += 1;
            pairs.stopped += usize::from(run.number != 0);
            pairs.other_listing += usize::from(listing(&one) != listing(&two));
            pairs.other_tuples += usize::from(run.listing != other.listing);
        }
        println!(
            "pairs that look alike by {how:?}: {}, of which {} stop, {} have two listings, {} other tuples in these; {} left out",
            pairs.alike, pairs.stopped, pairs.other_listing, pairs.other_tuples, pairs.apart
        );
        let hides = matches!(how, Alike::Values | Alike::Tuples);
        let enough = pairs.alike >= 150
            && pairs.other_listing >= 80
            && (pairs.other_tuples >= 80 || !hides)
            && (pairs.stopped >= 30 || how == Alike::Tuples);
        assert!(enough, "{how:?}: too few pairs");
    }
}

/// What the firm may see changes its copy: otherwise those that look alike would show nothing.
#[test]
fn pairs_that_differ() {
    let (mut hides, mut named, mut values, mut ends, mut fewer) = (0, 0, 0, 0, 0);
    for seed in 0..500 {
        let mut random = Random::new(99_100_000 + seed);
        let question = if random.one_in(3) {
            stopping_question(&mut random)
        } else {
            text_question(&mut random)
        };
        let n = question.widths.len();
        let names = names(&mut random, n);
        let text = text_of(&names, &question);
        let run = run_of(&text).unwrap();
        let more = some_attributes(&mut random, n);
        let (&attribute, set) = more.split_last().unwrap();
        let hidden = hidden_so(&mut random, set, n);
        let copy = copied(&text, &hidden);

        // One attribute more is hidden.
        if run.tuples > 0 {
            hides += 1;
            assert!(copied(&text, &more) != copy, "seed {seed}: {}", show(&copy));
        }

        // An attribute, hidden or not, has another name.
        let mut others = names.clone();
        others[random.below(n)] = "other".to_string();
        let other = copied(&text_of(&others, &question), &hidden);
        named += 1;
        assert!(other != copy, "seed {seed}: {}", show(&copy));

        // An attribute that is not hidden has other values, in equally many tuples.
        let mut other = question.clone();
        other_values(&mut random, &mut other, attribute as usize);
        let other = text_of(&names, &other);
        let (before, now) = (seen(&run, n, set), seen(&run_of(&other).unwrap(), n, set));
        if (before.0.len(), before.1) == (now.0.len(), now.1) && before != now {
            values += 1;
            let other = copied(&other, &hidden);
            assert!(other != copy, "seed {seed}: {}", show(&copy));
        }

        // The tuples of a run that stops, as a table whose run is complete; then one of them less. All values are
        // hidden.
        let all: Vec<u16> = (0..n as u16).collect();
        let Some(mut table) = alike(&mut random, &question, &all, Alike::Tuples) else {
            continue;
        };
        let whole = text_of(&names, &table);
        if run_of(&whole).is_none_or(|run| run.number != 0) {
            continue;
        }
        let whole = copied(&whole, &all);
        if run.number != 0 {
            ends += 1;
            let stopped = copied(&text, &all);
            assert!(stopped != whole, "seed {seed}: {}", show(&stopped));
        }
        if table.tables[0].rows_mut().unwrap().pop().is_some() {
            fewer += 1;
            let less = copied(&text_of(&names, &table), &all);
            assert!(less != whole, "seed {seed}: {}", show(&less));
        }
    }
    println!(
        "pairs that differ: {hides} in what is hidden, {named} in a name, {values} in a visible value, {ends} in the end, {fewer} in a tuple"
    );
    let counts = [hides, named, values, ends, fewer];
    assert!(counts.iter().all(|&count| count >= 100), "too few pairs");
}

/// Refused texts of every number: the firm cannot tell which number it was.
#[test]
fn refused_texts_look_alike() {
    let mut tally = Tally::new();
    for seed in 0..6_000 {
        let mut random = Random::new(99_300_000 + seed);
        let text = damaged_text(&mut random);
        let number = outcome(&boxjoin::text::print(&text));
        // Enough of each.
        if !REFUSED.contains(&(number as usize)) || tally.0[number as usize] >= 60 {
            continue;
        }
        let hidden = hidden(&mut random, 5);
        tally.count(number);
        for room in [0, 7, 8, 9, 30] {
            // Beside a text without tables.
            let (one, two) = (sent(b"a\n1\n", &[], room), sent(&text, &hidden, room));
            assert!(one == two, "{number}, seed {seed}: {two:?} and not {one:?}");
        }
        assert_eq!(copied(&text, &hidden), b"refused\n");
    }
    tally.finish("refused texts that look alike", &REFUSED, 10);
}
