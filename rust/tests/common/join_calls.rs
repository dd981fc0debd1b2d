//! Joins of comma-separated files, compared with the plain model: the number, the counts and every word or
//! byte of every buffer.

use super::{Buffer, Tally};
use boxjoin::files::{answer, question, Join, Refusal, Rooms};
use boxjoin::plain::{self, Question, Run, MOST_ATTRIBUTES, RECORD};
use boxjoin::random::{Files, Random};
use boxjoin::CsvJoin;

/// Room for what a small question writes.
pub const AMPLE: Rooms = Rooms {
    listing: MOST_ATTRIBUTES * 200,
    store: RECORD * 200,
    out: 201 * (6 * MOST_ATTRIBUTES + 1) + 200,
};

/// What a call reads, and what the plain model makes of it.
pub struct Call<'a> {
    what: &'a str,
    files: &'a Files,
    pub made: Result<Question, Refusal>,
    run: fn(&[u16], usize, usize) -> Run,
}

impl<'a> Call<'a> {
    pub fn new(what: &'a str, files: &'a Files) -> Call<'a> {
        Call {
            what,
            files,
            made: question(&files.names, &files.bytes, &files.ends),
            run: plain::run,
        }
    }

    /// The same, sooner where there are very many boxes.
    pub fn by_tree(what: &'a str, files: &'a Files) -> Call<'a> {
        Call {
            run: plain::run_by_tree,
            ..Call::new(what, files)
        }
    }

    /// What the plain model answers.
    pub fn answer(&self, rooms: Rooms) -> Join {
        answer(&self.files.names, &self.made, self.run, rooms)
    }

    /// Calls with buffers of these lengths, and compares every word of each. The scratch may have any words
    /// after a run, but nothing beside it may change, and a refusal leaves every word of it.
    pub fn compare(
        &self,
        random: &mut Random,
        rooms: Rooms,
        scratch_len: usize,
        counts_len: usize,
    ) -> Join {
        let join = self.answer(rooms);
        let mut names = Buffer::of(random, &self.files.names, |r| r as u8);
        let mut files = Buffer::of(random, &self.files.bytes, |r| r as u8);
        let mut ends = Buffer::of(random, &self.files.ends, |r| r as u32);
        let mut listing = Buffer::new(random, rooms.listing, |r| r as u16);
        let mut store = Buffer::new(random, rooms.store, |r| r as u32);
        let mut scratch = Buffer::new(random, scratch_len, |r| r as u32);
        let mut out = Buffer::new(random, rooms.out, |r| r as u8);
        let mut counts = Buffer::new(random, counts_len, |r| r as u32);
        let six = six_of(join.told);
        let expected_names = names.expected(&[]);
        let expected_files = files.expected(&[]);
        let expected_ends = ends.expected(&[]);
        let expected_listing = listing.expected(&join.listing);
        let expected_store = store.expected(&join.store);
        let expected_out = out.expected(&join.out);
        let expected_counts = counts.expected(&six[..counts_len.min(6)]);
        let (beside, before) = (scratch.beside(), scratch.expected(&[]));

        let number = boxjoin::join_csv_counts(
            names.lent(),
            files.lent(),
            ends.lent(),
            listing.lent(),
            store.lent(),
            scratch.lent(),
            out.lent(),
            counts.lent(),
        );

        let mut trouble = Vec::new();
        if number != join.told.number {
            trouble.push(format!("the number is {number}"));
        }
        let mut buffers = vec![
            ("names", names.differs(&expected_names)),
            ("files", files.differs(&expected_files)),
            ("ends", ends.differs(&expected_ends)),
            ("counts", counts.differs(&expected_counts)),
            ("listing", listing.differs(&expected_listing)),
            ("store", store.differs(&expected_store)),
            ("out", out.differs(&expected_out)),
        ];
        if !join.ran {
            buffers.push(("scratch", scratch.differs(&before)));
        }
        for (name, differs) in buffers {
            trouble.extend(differs.map(|differs| format!("{name}: {differs}")));
        }
        if scratch.beside() != beside {
            trouble.push("a word beside the scratch is changed".to_string());
        }
        if !trouble.is_empty() {
            self.panic(&trouble.join("; "), &join, rooms, scratch_len, counts_len);
        }
        join
    }

    fn panic(&self, trouble: &str, join: &Join, rooms: Rooms, scratch: usize, counts: usize) -> ! {
        let Files { names, bytes, ends } = self.files;
        panic!(
            "{}: {trouble}\n{rooms:?}, scratch {scratch}, counts {counts}\nit should be {:?}\nnames {:?}\nends {:?}\nfiles {:?}",
            self.what,
            join.told,
            String::from_utf8_lossy(names),
            &ends[..ends.len().min(40)],
            String::from_utf8_lossy(&bytes[..bytes.len().min(3_000)])
        );
    }

    /// Calls with all rooms just long enough, with each of them too short, with others and without counts of the
    /// caller's. Counts each answer, and hands back that with ample rooms.
    pub fn compare_rooms(&self, random: &mut Random, ample: Rooms, tally: &mut Tally) -> Join {
        let join = self.compare(random, ample, 0, 6);
        tally.count(join.told.number);
        let exact = Rooms {
            listing: join.listing.len(),
            store: join.store.len(),
            out: join.told.bytes as usize,
        };
        let mut rooms = vec![exact];
        if join.told.number == 0 {
            let [listing, store, out] = [exact.listing, exact.store, exact.out];
            let short =
                |of: usize, random: &mut Random| of.saturating_sub(1 + random.below(RECORD + 1));
            rooms.extend([
                Rooms {
                    out: out - 1,
                    ..exact
                },
                Rooms { out: 0, ..exact },
                Rooms {
                    out: random.below(out),
                    ..ample
                },
                Rooms {
                    out: out + 1 + random.below(20),
                    ..exact
                },
                Rooms {
                    store: store - 1,
                    ..exact
                },
                Rooms {
                    store: store - 1,
                    ..ample
                },
                Rooms {
                    store: short(store, random),
                    ..ample
                },
                Rooms {
                    listing: listing.saturating_sub(1),
                    ..exact
                },
                Rooms {
                    listing: short(listing, random),
                    ..ample
                },
            ]);
        }
        rooms.push(Rooms {
            listing: random.below(60),
            store: random.below(RECORD * 54),
            out: random.below(180),
        });
        for rooms in rooms {
            let tree = 12 * join.told.boxes as usize + 4;
            let scratch = random.pick(&[0, 0, 3, 40, tree / 2, tree, 2 * tree]);
            let counts = random.pick(&[0, 1, 2, 3, 4, 5, 6, 6, 7, 9]);
            let join = self.compare(random, rooms, scratch, counts);
            tally.count(join.told.number);
        }
        self.compare_safe(random, ample);
        join
    }

    /// The same by the functions that say what they are told.
    fn compare_safe(&self, random: &mut Random, rooms: Rooms) {
        let join = self.answer(rooms);
        let Files { names, bytes, ends } = self.files;
        let mut listing = vec![0; rooms.listing];
        let mut store = vec![0; rooms.store];
        let mut scratch = vec![0; random.below(100)];
        let mut out = vec![0; rooms.out];
        let told = boxjoin::join_csv_into(
            names,
            bytes,
            ends,
            &mut listing,
            &mut store,
            &mut scratch,
            &mut out,
        );
        assert_eq!(told, join.told, "{}: what is told", self.what);
        // Ends that part the bytes are those of files.
        let starts = [0].iter().chain(ends);
        let files: Option<Vec<&[u8]>> = starts
            .zip(ends)
            .map(|(&start, &end)| bytes.get(start as usize..end as usize))
            .collect();
        if let Some(files) = files {
            out.fill(0);
            let told = boxjoin::join_csv(
                names,
                &files,
                &mut listing,
                &mut store,
                &mut scratch,
                &mut out,
            );
            assert_eq!(told, join.told, "{}: what is told of files", self.what);
        }
        assert!(out[..join.out.len()] == join.out, "{}: out", self.what);
        assert!(
            listing[..join.listing.len()] == join.listing,
            "{}: listing",
            self.what
        );
    }
}

/// The six counts in their order.
pub fn six_of(told: CsvJoin) -> [u32; 6] {
    [
        told.tuples,
        told.boxes,
        told.resolutions,
        told.bytes,
        told.file,
        told.record,
    ]
}
