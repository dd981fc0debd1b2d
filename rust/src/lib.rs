//! The proved box join for Rust, and beside it a plain model of the same published steps.
//!
//! [`check_question`], [`run`], [`run_into`], [`run_with`], [`run_with_into`], [`check_listing`], [`list_text`],
//! [`lift_copy`], [`lift_copy_into`], [`import_csv`], [`import_csv_into`], [`export_csv`], [`export_csv_into`],
//! [`join_csv`], [`join_csv_into`] and [`join_csv_counts`] call the proved library; the steps of [`plain`],
//! [`nested`] and [`text`] are written from the paper alone, those of [`copies`] from the sentences on the lift
//! firm's copy, those of [`csv`] from RFC 4180 and those of [`files`] from the order in which a call asks, and the
//! modules share no code with it.

pub mod copies;
pub mod csv;
pub mod files;
pub mod nested;
pub mod plain;
pub mod random;
pub mod text;

/// A question has this many attributes at most.
pub const MAX_ATTRIBUTES: usize = 12;

/// In a question, in place of a table's number of rows: the table is open. No rows follow. It restricts nothing, and
/// each of its attributes has to stand in a table that isn't open.
pub const OPEN_MARK: u16 = 65_535;

/// In a question, in place of a table's number of attributes: the table is a range table. One attribute number follows,
/// then how many pairs there are, at most 4,096, and the pairs, a lowest and a highest value each, ascending and without
/// common values. A value in a pair counts as a row. With [`OPEN_MARK`] in place of the pairs and their number it is an
/// open table over that attribute.
pub const RANGE_MARK: u16 = 65_535;

/// How many words a record of the store has: an interval for each attribute, a kind and two origins.
pub const RECORD_WORDS: usize = MAX_ATTRIBUTES + 3;

/// What a run answers: its number (0 for complete) and the three counts. Over one attribute, where there is a box,
/// `resolutions < boxes - resolutions`, complete or not.
#[derive(Clone, Copy, Debug, PartialEq, Eq)]
pub struct Counts {
    pub number: u8,
    pub tuples: u32,
    pub boxes: u32,
    pub resolutions: u32,
}

impl Counts {
    fn new(number: u8, [tuples, boxes, resolutions]: [u32; 3]) -> Counts {
        Counts {
            number,
            tuples,
            boxes,
            resolutions,
        }
    }
}

/// 0 for an accepted question, else the number of its refusal (1 to 12, or 28). A table has rows, is open
/// ([`OPEN_MARK`]), or has pairs of a lowest and a highest value ([`RANGE_MARK`]).
pub fn check_question(question: &[u16]) -> u8 {
    library::check_question(question)
}

/// Runs the question: tuples go to the front of `listing`, records to the front of `store`.
pub fn run(question: &[u16], listing: &mut [u16], store: &mut [u32]) -> Counts {
    let mut counts = [0; 3];
    let number = library::run(question, listing, store, &mut counts);
    Counts::new(number, counts)
}

/// Like [`run`], with the counts written into the first three words of `counts`, as many as there are.
pub fn run_into(
    question: &[u16],
    listing: &mut [u16],
    store: &mut [u32],
    counts: &mut [u32],
) -> u8 {
    library::run(question, listing, store, counts)
}

/// Answers what [`run`] answers, for every scratch: the longer it is, the more of the stored boxes are
/// found by a tree in it and not by a scan of the store. What it has before doesn't matter. A refused
/// question leaves it as it was; what it has after a run means nothing.
pub fn run_with(
    question: &[u16],
    listing: &mut [u16],
    store: &mut [u32],
    scratch: &mut [u32],
) -> Counts {
    let mut counts = [0; 3];
    let number = library::run_with(question, listing, store, scratch, &mut counts);
    Counts::new(number, counts)
}

/// Like [`run_with`], with the counts written as [`run_into`] does.
pub fn run_with_into(
    question: &[u16],
    listing: &mut [u16],
    store: &mut [u32],
    scratch: &mut [u32],
    counts: &mut [u32],
) -> u8 {
    library::run_with(question, listing, store, scratch, counts)
}

/// 0 for an accepted listing: it is the whole join of the question's tables, in order, each tuple once, whoever made it
/// and the records. Else the number of the question's refusal (1 to 12, or 28), or 22 where the listing or a record is
/// not as it should be.
///
/// The listing has to be whole tuples, strictly ascending, each with its values within their widths and its row in
/// every table. The records, of [`RECORD_WORDS`] words each, have to be whole and at least one, and the last one the
/// whole space. In each of them
/// every interval lies within its attribute's width and is 1 beyond the attributes. A record of kind 0 holds no row of
/// the table that its first origin names; of kind 1 it is the box of the listed tuple that its first origin names; of
/// kind 2 it is the resolvent of the two earlier records that its origins name, the lower half's first. An origin that
/// is not used is 0.
///
/// There may be records that no later one needs, the same record twice, and more than a store has room for. After
/// every complete run the listing and the store, cut to its counts, are accepted. Nothing is written.
pub fn check_listing(question: &[u16], listing: &[u16], records: &[u32]) -> u8 {
    library::check_listing(question, listing, records)
}

/// How many bytes the listing program prints for the text; they stand at the front of `out` if they fit,
/// else `out` keeps every byte. In a text an open table is a line of names and below it the line `open`; there are no
/// range tables.
pub fn list_text(text: &[u8], out: &mut [u8]) -> usize {
    library::list_text(text, out)
}

/// What a call for the lift firm's copy answers: its number, 0 where the copy is written and 13 where it has no room,
/// and how many bytes it has.
#[derive(Clone, Copy, Debug, PartialEq, Eq)]
pub struct LiftCopy {
    pub number: u8,
    pub bytes: u32,
}

/// Writes the lift firm's copy of what [`list_text`] prints for the text: the names; a line for each tuple, with `-` in
/// place of each hidden attribute's value; and a last line of `complete` or `stopped` and the number of tuples. Of a
/// refused text it is the line `refused` alone, whatever the number. It stands at the front of `out` if it fits (0),
/// else its bytes are counted (13), and `out` keeps every byte.
///
/// `hidden` has the attributes' numbers, from 0, in any order, perhaps some of them twice. A number that no attribute
/// has hides nothing.
pub fn lift_copy(text: &[u8], hidden: &[u16], out: &mut [u8]) -> LiftCopy {
    let mut counts = [0];
    let number = library::lift_copy(text, hidden, out, &mut counts);
    let [bytes] = counts;
    LiftCopy { number, bytes }
}

/// Like [`lift_copy`], with the bytes' number written into the first word of `counts`, if there is one.
pub fn lift_copy_into(text: &[u8], hidden: &[u16], out: &mut [u8], counts: &mut [u32]) -> u8 {
    library::lift_copy(text, hidden, out, counts)
}

/// What a call with a comma-separated file answers: its number (0 for done), and how many words or bytes it
/// wrote, with 13 how many it takes, else 0.
#[derive(Clone, Copy, Debug, PartialEq, Eq)]
pub struct Csv {
    pub number: u8,
    pub count: u32,
}

/// Reads the comma-separated file of a table into the table's words as a question has them: they stand at
/// the front of `words` if they fit (0), else they are counted (13). `names` are all attributes' names, as
/// the top line of a text has them, without the line's end; the file's header has some of them, in any
/// order. A refusal (8, 15, 16, 17, 18 or 19) leaves `words` as it was, as does 13. The table is never an open one or a
/// range table: a field that says `open` gets 19, as all that is no value.
pub fn import_csv(names: &[u8], file: &[u8], words: &mut [u16]) -> Csv {
    let mut counts = [0];
    let number = library::import_csv(names, file, words, &mut counts);
    let [count] = counts;
    Csv { number, count }
}

/// Like [`import_csv`], with the count written into the first word of `counts`, if there is one.
pub fn import_csv_into(names: &[u8], file: &[u8], words: &mut [u16], counts: &mut [u32]) -> u8 {
    library::import_csv(names, file, words, counts)
}

/// Writes the tuples of a listing as a comma-separated file with the names as its header: it stands at the
/// front of `out` if it fits (0), else its bytes are counted (13). A refusal (3, 15 or 16) leaves `out` as it
/// was, as does 13.
pub fn export_csv(names: &[u8], listing: &[u16], out: &mut [u8]) -> Csv {
    let mut counts = [0];
    let number = library::export_csv(names, listing, out, &mut counts);
    let [count] = counts;
    Csv { number, count }
}

/// Like [`export_csv`], with the count written as [`import_csv_into`] does.
pub fn export_csv_into(names: &[u8], listing: &[u16], out: &mut [u8], counts: &mut [u32]) -> u8 {
    library::export_csv(names, listing, out, counts)
}

/// What a join of comma-separated files answers: its number (0 for complete), the run's three counts, how many
/// bytes `out` got or, where it is too short for them, would have to have, and for a refusal the file and the
/// record in it, both from 1, 0 where there is none.
#[derive(Clone, Copy, Debug, PartialEq, Eq)]
pub struct CsvJoin {
    pub number: u8,
    pub tuples: u32,
    pub boxes: u32,
    pub resolutions: u32,
    pub bytes: u32,
    pub file: u32,
    pub record: u32,
}

/// Joins the tables of comma-separated files, of whose attributes `names` are the names, as for
/// [`import_csv`]. The join stands as such a file at the front of `out` if the run is complete and it fits
/// whole, else `out` keeps every byte. `listing`, `store` and `scratch` are those of [`run_with`]. A refusal
/// leaves all of them as they were.
///
/// # Panics
///
/// If the files together have 4 GiB or more.
pub fn join_csv(
    names: &[u8],
    files: &[&[u8]],
    listing: &mut [u16],
    store: &mut [u32],
    scratch: &mut [u32],
    out: &mut [u8],
) -> CsvJoin {
    let (mut bytes, mut ends) = (Vec::new(), Vec::new());
    for file in files {
        bytes.extend(*file);
        ends.push(u32::try_from(bytes.len()).expect("files of less than 4 GiB"));
    }
    join_csv_into(names, &bytes, &ends, listing, store, scratch, out)
}

/// Like [`join_csv`], with the bytes of all files one after the other, and where each of them ends. What is
/// behind the last end is in no file.
pub fn join_csv_into(
    names: &[u8],
    files: &[u8],
    ends: &[u32],
    listing: &mut [u16],
    store: &mut [u32],
    scratch: &mut [u32],
    out: &mut [u8],
) -> CsvJoin {
    let mut counts = [0; 6];
    let number = library::join_csv(
        names,
        files,
        ends,
        listing,
        store,
        scratch,
        out,
        &mut counts,
    );
    let [tuples, boxes, resolutions, bytes, file, record] = counts;
    CsvJoin {
        number,
        tuples,
        boxes,
        resolutions,
        bytes,
        file,
        record,
    }
}

/// Like [`join_csv_into`], with the counts (tuples, boxes, resolutions, bytes, file, record) written into the
/// first six words of `counts`, as many as there are.
#[allow(clippy::too_many_arguments)]
pub fn join_csv_counts(
    names: &[u8],
    files: &[u8],
    ends: &[u32],
    listing: &mut [u16],
    store: &mut [u32],
    scratch: &mut [u32],
    out: &mut [u8],
    counts: &mut [u32],
) -> u8 {
    library::join_csv(names, files, ends, listing, store, scratch, out, counts)
}

/// The only unsafe code.
///
/// The functions answer for every content and every length. What they ask is that each pointer is to as
/// many words as its length says, aligned for its type, and that a written buffer shares no word with
/// another one. A slice brings just that: its pointer is aligned and good for its length (an empty
/// slice's pointer dangles but is aligned, and nothing is read through it), and a `&mut` slice is apart
/// from every other slice that is lent at the same time. Nothing is kept after a call.
mod library {
    mod raw {
        extern "C" {
            pub fn boxjoin_check_question(question: *const u16, question_len: usize) -> u8;
            pub fn boxjoin_run(
                question: *const u16,
                question_len: usize,
                listing: *mut u16,
                listing_len: usize,
                store: *mut u32,
                store_len: usize,
                counts: *mut u32,
                counts_len: usize,
            ) -> u8;
            pub fn boxjoin_run_with(
                question: *const u16,
                question_len: usize,
                listing: *mut u16,
                listing_len: usize,
                store: *mut u32,
                store_len: usize,
                scratch: *mut u32,
                scratch_len: usize,
                counts: *mut u32,
                counts_len: usize,
            ) -> u8;
            pub fn boxjoin_check_listing(
                question: *const u16,
                question_len: usize,
                listing: *const u16,
                listing_len: usize,
                records: *const u32,
                records_len: usize,
            ) -> u8;
            pub fn boxjoin_list_text(
                text: *const u8,
                text_len: usize,
                out: *mut u8,
                out_len: usize,
            ) -> usize;
            pub fn boxjoin_lift_copy(
                text: *const u8,
                text_len: usize,
                hidden: *const u16,
                hidden_len: usize,
                out: *mut u8,
                out_len: usize,
                counts: *mut u32,
                counts_len: usize,
            ) -> u8;
            pub fn boxjoin_import_csv(
                names: *const u8,
                names_len: usize,
                file: *const u8,
                file_len: usize,
                words: *mut u16,
                words_len: usize,
                counts: *mut u32,
                counts_len: usize,
            ) -> u8;
            pub fn boxjoin_export_csv(
                names: *const u8,
                names_len: usize,
                listing: *const u16,
                listing_len: usize,
                out: *mut u8,
                out_len: usize,
                counts: *mut u32,
                counts_len: usize,
            ) -> u8;
            pub fn boxjoin_join_csv(
                names: *const u8,
                names_len: usize,
                files: *const u8,
                files_len: usize,
                ends: *const u32,
                ends_len: usize,
                listing: *mut u16,
                listing_len: usize,
                store: *mut u32,
                store_len: usize,
                scratch: *mut u32,
                scratch_len: usize,
                out: *mut u8,
                out_len: usize,
                counts: *mut u32,
                counts_len: usize,
            ) -> u8;
        }
    }

    pub fn check_question(question: &[u16]) -> u8 {
        // SAFETY: pointer and length are one slice's.
        unsafe { raw::boxjoin_check_question(question.as_ptr(), question.len()) }
    }

    pub fn run(question: &[u16], listing: &mut [u16], store: &mut [u32], counts: &mut [u32]) -> u8 {
        // SAFETY: each pointer comes with its own slice's length, and no two slices overlap.
        unsafe {
            raw::boxjoin_run(
                question.as_ptr(),
                question.len(),
                listing.as_mut_ptr(),
                listing.len(),
                store.as_mut_ptr(),
                store.len(),
                counts.as_mut_ptr(),
                counts.len(),
            )
        }
    }

    pub fn run_with(
        question: &[u16],
        listing: &mut [u16],
        store: &mut [u32],
        scratch: &mut [u32],
        counts: &mut [u32],
    ) -> u8 {
        // SAFETY: as in `run`. The scratch is one more `&mut` slice, whose words are all initialized.
        unsafe {
            raw::boxjoin_run_with(
                question.as_ptr(),
                question.len(),
                listing.as_mut_ptr(),
                listing.len(),
                store.as_mut_ptr(),
                store.len(),
                scratch.as_mut_ptr(),
                scratch.len(),
                counts.as_mut_ptr(),
                counts.len(),
            )
        }
    }

    pub fn check_listing(question: &[u16], listing: &[u16], records: &[u32]) -> u8 {
        // SAFETY: each pointer comes with its own slice's length, and nothing is written.
        unsafe {
            raw::boxjoin_check_listing(
                question.as_ptr(),
                question.len(),
                listing.as_ptr(),
                listing.len(),
                records.as_ptr(),
                records.len(),
            )
        }
    }

    pub fn list_text(text: &[u8], out: &mut [u8]) -> usize {
        // SAFETY: each pointer comes with its own slice's length, and the slices don't overlap.
        unsafe { raw::boxjoin_list_text(text.as_ptr(), text.len(), out.as_mut_ptr(), out.len()) }
    }

    pub fn lift_copy(text: &[u8], hidden: &[u16], out: &mut [u8], counts: &mut [u32]) -> u8 {
        // SAFETY: each pointer comes with its own slice's length; what is written overlaps no other slice.
        unsafe {
            raw::boxjoin_lift_copy(
                text.as_ptr(),
                text.len(),
                hidden.as_ptr(),
                hidden.len(),
                out.as_mut_ptr(),
                out.len(),
                counts.as_mut_ptr(),
                counts.len(),
            )
        }
    }

    pub fn import_csv(names: &[u8], file: &[u8], words: &mut [u16], counts: &mut [u32]) -> u8 {
        // SAFETY: each pointer comes with its own slice's length; what is written overlaps no other slice.
        unsafe {
            raw::boxjoin_import_csv(
                names.as_ptr(),
                names.len(),
                file.as_ptr(),
                file.len(),
                words.as_mut_ptr(),
                words.len(),
                counts.as_mut_ptr(),
                counts.len(),
            )
        }
    }

    pub fn export_csv(names: &[u8], listing: &[u16], out: &mut [u8], counts: &mut [u32]) -> u8 {
        // SAFETY: as in `import_csv`.
        unsafe {
            raw::boxjoin_export_csv(
                names.as_ptr(),
                names.len(),
                listing.as_ptr(),
                listing.len(),
                out.as_mut_ptr(),
                out.len(),
                counts.as_mut_ptr(),
                counts.len(),
            )
        }
    }

    #[allow(clippy::too_many_arguments)]
    pub fn join_csv(
        names: &[u8],
        files: &[u8],
        ends: &[u32],
        listing: &mut [u16],
        store: &mut [u32],
        scratch: &mut [u32],
        out: &mut [u8],
        counts: &mut [u32],
    ) -> u8 {
        // SAFETY: as in `run_with` and in `import_csv`.
        unsafe {
            raw::boxjoin_join_csv(
                names.as_ptr(),
                names.len(),
                files.as_ptr(),
                files.len(),
                ends.as_ptr(),
                ends.len(),
                listing.as_mut_ptr(),
                listing.len(),
                store.as_mut_ptr(),
                store.len(),
                scratch.as_mut_ptr(),
                scratch.len(),
                out.as_mut_ptr(),
                out.len(),
                counts.as_mut_ptr(),
                counts.len(),
            )
        }
    }

    /// With the length 0 any pointer will do, NULL too.
    #[test]
    fn null_with_length_0() {
        use std::ptr::{null, null_mut};
        let question = [1, 1, 1, 1, 0, 2, 0, 1];
        let of = question.as_ptr();
        let (listing, store, scratch, counts) = (null_mut(), null_mut(), null_mut(), null_mut());
        // SAFETY: no word is read or written through a pointer whose length is 0.
        unsafe {
            assert_eq!(raw::boxjoin_check_question(null(), 0), 1);
            let run = raw::boxjoin_run;
            assert_eq!(run(null(), 0, listing, 0, store, 0, counts, 0), 1);
            assert_eq!(run(of, 8, listing, 0, store, 0, counts, 0), 13);
            let run = raw::boxjoin_run_with;
            let refused = run(null(), 0, listing, 0, store, 0, scratch, 0, counts, 0);
            assert_eq!(refused, 1);
            let stopped = run(of, 8, listing, 0, store, 0, scratch, 0, counts, 0);
            assert_eq!(stopped, 13);
            let (mut tuples, mut records) = ([0; 2], [0; 3 * crate::RECORD_WORDS]);
            let (listing, store) = (tuples.as_mut_ptr(), records.as_mut_ptr());
            let room = records.len();
            let complete = run(of, 8, listing, 2, store, room, scratch, 0, counts, 0);
            assert_eq!((complete, tuples), (0, [0, 1]));
            let check = raw::boxjoin_check_listing;
            assert_eq!(check(null(), 0, null(), 0, null(), 0), 1);
            assert_eq!(check(of, 8, null(), 0, null(), 0), 22);
            assert_eq!(check(of, 8, listing, 2, null(), 0), 22);
            assert_eq!(check(of, 8, null(), 0, store, room), 22);
            assert_eq!(check(of, 8, listing, 2, store, room), 0);
            // A table without rows: the whole space is its gap box, and no tuple is listed.
            let empty = [1, 1, 1, 1, 0, 0];
            let mut gap = [1; crate::RECORD_WORDS];
            gap[crate::MAX_ATTRIBUTES..].fill(0);
            let whole = gap.len();
            assert_eq!(check(empty.as_ptr(), 6, null(), 0, gap.as_ptr(), whole), 0);
            assert_eq!(raw::boxjoin_list_text(null(), 0, null_mut(), 0), 11);
            let copy = raw::boxjoin_lift_copy;
            let mut bytes = [b'x'; 9];
            let (no, front) = (null_mut(), bytes.as_mut_ptr());
            assert_eq!(copy(null(), 0, null(), 0, no, 0, counts, 0), 13);
            assert_eq!(copy(null(), 0, null(), 0, front, 9, counts, 0), 0);
            assert_eq!(&bytes, b"refused\nx");
            let (text, printed) = (b"a\n1\n\na\n1\n", b"a\n1\ncomplete 1\n");
            let mut bytes = [b'x'; 15];
            let front = bytes.as_mut_ptr();
            assert_eq!(copy(text.as_ptr(), 9, null(), 0, front, 15, counts, 0), 0);
            assert_eq!(&bytes, printed);
            let a = b"a".as_ptr();
            let import = raw::boxjoin_import_csv;
            assert_eq!(import(null(), 0, null(), 0, null_mut(), 0, counts, 0), 15);
            assert_eq!(import(a, 1, null(), 0, null_mut(), 0, counts, 0), 16);
            assert_eq!(import(a, 1, a, 1, null_mut(), 0, counts, 0), 13);
            let export = raw::boxjoin_export_csv;
            assert_eq!(export(null(), 0, null(), 0, null_mut(), 0, counts, 0), 15);
            assert_eq!(export(a, 1, null(), 0, null_mut(), 0, counts, 0), 13);
            let join = |names, names_len, file, ends: &[u32]| {
                let (at, files) = (ends.as_ptr(), ends.len());
                let (listing, store, out) = (null_mut(), null_mut(), null_mut());
                raw::boxjoin_join_csv(
                    names, names_len, file, 1, at, files, listing, 0, store, 0, scratch, 0, out, 0,
                    counts, 0,
                )
            };
            assert_eq!(join(null(), 0, a, &[1]), 15);
            assert_eq!(join(a, 1, a, &[]), 5);
            assert_eq!(join(a, 1, a, &[0]), 16);
            assert_eq!(join(a, 1, a, &[1]), 14);
        }
    }
}
