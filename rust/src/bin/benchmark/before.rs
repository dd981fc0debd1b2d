//! The library as it was before a change, beside the one that is linked: the same questions, in turn.

use crate::watch::{shown, Watch, ROUNDS};
use crate::{ample, call_log_case, triangle_case, wide_case, Case, LISTING_WORDS, STORE_WORDS};
use boxjoin::random::{columns, connected_call_log};
use std::ffi::{c_char, c_int, c_void, CString};
use std::fs;
use std::path::Path;
use std::process::Command;

extern "C" {
    fn dlopen(name: *const c_char, flags: c_int) -> *mut c_void;
    fn dlsym(object: *mut c_void, name: *const c_char) -> *mut c_void;
}

/// All that the object refers to is found when it is loaded.
const RTLD_NOW: c_int = 2;

/// `boxjoin_run_with`, as `include/boxjoin.h` declares it.
type RunWith = unsafe extern "C" fn(
    *const u16,
    usize,
    *mut u16,
    usize,
    *mut u32,
    usize,
    *mut u32,
    usize,
    *mut u32,
    usize,
) -> u8;

/// Loads the library in this file: its object, put into a shared one, which keeps its own symbols.
fn load(library: &str) -> RunWith {
    let folder = Path::new(env!("CARGO_MANIFEST_DIR")).join("../target/benchmark");
    fs::create_dir_all(&folder).expect("a folder for the object");
    let object = folder.join("before.so");
    let made = Command::new("cc")
        .args(["-shared", "-Wl,-Bsymbolic", "-Wl,--whole-archive", library])
        .args(["-Wl,--no-whole-archive", "-o"])
        .arg(&object)
        .status();
    assert!(
        made.is_ok_and(|status| status.success()),
        "cc makes an object"
    );
    let name = CString::new(object.to_str().expect("a name")).expect("a name");
    // The object is the library's own code and runs nothing when it is loaded.
    let object = unsafe { dlopen(name.as_ptr(), RTLD_NOW) };
    assert!(!object.is_null(), "the object is loaded");
    let run_with = unsafe { dlsym(object, c"boxjoin_run_with".as_ptr()) };
    assert!(!run_with.is_null(), "the library has boxjoin_run_with");
    // It is declared so in the header since there is a scratch.
    unsafe { std::mem::transmute::<*mut c_void, RunWith>(run_with) }
}

/// The buffers of one of the two libraries, and what its last run answered.
struct Side {
    before: Option<RunWith>,
    listing: Vec<u16>,
    store: Vec<u32>,
    scratch: Vec<u32>,
    answer: (u8, [u32; 3]),
}

impl Side {
    fn new(before: Option<RunWith>, scratch: usize) -> Side {
        Side {
            before,
            listing: vec![0; LISTING_WORDS],
            store: vec![0; STORE_WORDS],
            scratch: vec![0; scratch],
            answer: (0, [0; 3]),
        }
    }

    fn run(&mut self, words: &[u16]) {
        let (listing, store, scratch) = (&mut self.listing, &mut self.store, &mut self.scratch);
        let mut counts = [0; 3];
        let number = match self.before {
            None => boxjoin::run_with_into(words, listing, store, scratch, &mut counts),
            // Each pointer is to as many elements as the length beside it says.
            Some(run_with) => unsafe {
                run_with(
                    words.as_ptr(),
                    words.len(),
                    listing.as_mut_ptr(),
                    listing.len(),
                    store.as_mut_ptr(),
                    store.len(),
                    scratch.as_mut_ptr(),
                    scratch.len(),
                    counts.as_mut_ptr(),
                    counts.len(),
                )
            },
        };
        self.answer = (number, counts);
    }
}

/// One attribute, two tables of so many random values each.
fn column_case(width: u32, rows: usize, boxes: u32) -> Case {
    Case {
        name: format!("one attribute, two tables of {rows} rows"),
        question: columns(1, width, 2, rows),
        boxes,
    }
}

/// A call log with every fourth line connected.
fn connected_case(shafts: usize, lines: usize, centres: usize, tries: usize, boxes: u32) -> Case {
    Case {
        name: format!("call log, {shafts} shafts, {lines} lines, one in four connected"),
        question: connected_call_log(1, shafts, lines, centres, tries),
        boxes,
    }
}

pub fn measure_before(library: &str) {
    let before = load(library);
    println!(
        "\
Times of a run with the library before and after, in milliseconds of processor time on one core, in batches of at
least half a second of each in turn, the best mean of {ROUNDS} batches, and what that is for a box; *by scan* with a
scratch of length 0, else with one in which the whole tree has room. The ratio is that of the times before they are
rounded. *store* says whether both leave the same records, word for word. Checked on the way: both are complete, and
leave the same listing.
"
    );
    println!("| question | tuples | boxes before | boxes after | store | before ms | after ms | after/before | before µs/box | after µs/box |");
    println!("|---|--:|--:|--:|---|--:|--:|--:|--:|--:|");
    let cases = [
        triangle_case(63, 1_000),
        triangle_case(290, 8_000),
        triangle_case(1_275, 60_000),
        call_log_case(14, 9, 4, 2, 1_000),
        call_log_case(140, 32, 8, 2, 8_000),
        call_log_case(1_120, 128, 16, 3, 60_000),
        wide_case(6, 4, 4, 2, 1_000),
        wide_case(50, 16, 8, 2, 8_000),
        wide_case(312, 128, 16, 3, 60_000),
        connected_case(14, 9, 4, 2, 800),
        connected_case(140, 32, 8, 2, 6_000),
        connected_case(1_120, 128, 16, 3, 43_000),
        column_case(12, 200, 900),
        column_case(16, 4_000, 17_000),
    ];
    for case in &cases {
        measure(case, &case.name, before, ample(&case.question));
    }
    for case in cases.iter().filter(|case| case.boxes <= 1_000) {
        measure(case, &format!("by scan: {}", case.name), before, 0);
    }
}

/// Measures one question, and prints its line.
fn measure(case: &Case, name: &str, before: RunWith, scratch: usize) {
    let words = case.question.words();
    let mut sides = [Some(before), None].map(|before| Side::new(before, scratch));
    let mut watches = [(); 2].map(|_| Watch::default());
    for round in 1..=ROUNDS {
        for turn in 0..2 {
            let side = (round + turn) % 2;
            let what = format!("{name}: round {round}, {}", ["before", "after"][side]);
            watches[side].batch(&what, || sides[side].run(&words));
        }
    }
    let [before, after] = sides;
    let [(number, counts), (number_after, counts_after)] = [before.answer, after.answer];
    assert_eq!((number, number_after), (0, 0), "{name}: both are complete");
    assert_eq!(counts[0], counts_after[0], "{name}: as many tuples");
    assert!(before.listing == after.listing, "{name}: the same listing");
    let same = counts == counts_after && before.store == after.store;
    let [tuples, boxes, _] = counts;
    let mut line = format!("| {name} | {tuples} | {boxes} | {} |", counts_after[1]);
    line += if same { " same |" } else { " other |" };
    let [before, after] = watches.map(|watch| watch.0);
    let ratio = before.zip(after).map(|(before, after)| after / before);
    let a_box = |ms: Option<f64>, boxes: u32| ms.map(|ms| ms * 1e3 / boxes as f64);
    let each = [a_box(before, boxes), a_box(after, counts_after[1])];
    for number in [before, after, ratio].into_iter().chain(each) {
        line += &format!(" {} |", shown(number));
    }
    println!("{line}");
}
