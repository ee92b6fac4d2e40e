//! The four queries: how many counters a capacity needs, the bytes of a record, a row's length, a row's label. Against the
//! plain model, and against answers worked out by hand.
use std::ptr::null;
use strip_tests::borders::{beside, BAD_CAPACITIES, COUNTERS, FAR, LABELS, LARGEST, SMALL, UNITS, WIDE};
use strip_tests::cases::Cases;
use strip_tests::draw;
use strip_tests::ffi;
use strip_tests::image::{
    clear, freeze, inspect, record_size, row_get, row_label, row_length, row_rank, row_select, rows,
};
use strip_tests::layout;
use strip_tests::model::{self, word_count};
use strip_tests::query::Query::{self, CountersNeeded, RecordSize, RowLabel, RowLength};
use strip_tests::random::Random;
use strip_tests::record::counters_needed;
use strip_tests::refusal::{answer, Refusal};
use strip_tests::tally::Tally;
use strip_tests::Handle;
use Refusal::*;

/// Asks, compares and counts.
fn ask(query: Query, image: &[u8], tally: &mut Tally) {
    tally.note_query(query, query.compare(image));
}

/// A number of any width.
fn any(random: &mut Random) -> u64 {
    random.number() >> random.below(64)
}

// ---- the room that a capacity and a length take

#[test]
fn counters_of_every_capacity() {
    for (capacity, number) in COUNTERS {
        assert_eq!(counters_needed(capacity), Ok(number as u64));
        for other in [capacity - 1, capacity + 1, WIDE + capacity, capacity << 32, !capacity] {
            assert_eq!(counters_needed(other), Err(BadHandle), "capacity {other}");
        }
    }
    for capacity in BAD_CAPACITIES.into_iter().chain(FAR) {
        assert_eq!(counters_needed(capacity), Err(BadHandle), "capacity {capacity}");
    }
    // every multiple of 512 up to two past the largest, with its neighbours
    for capacity in (0..=LARGEST / 512 + 2).flat_map(|blocks| beside(512 * blocks)) {
        let _ = CountersNeeded(capacity).compare(&[]);
    }
}

#[test]
fn sizes_of_records() {
    let known = [
        (0, 16),
        (1, 544),
        (4095, 544),
        (4096, 544),
        (4097, 1072),
        (8192, 1072),
        (8193, 1600),
        (LARGEST - 4096, 17_300_992),
        (LARGEST - 4095, 17_301_520),
        (LARGEST, 17_301_520),
    ];
    for (length, size) in known {
        assert_eq!(record_size(length), Ok(size), "length {length}");
        assert_eq!(record_size(WIDE + length), Err(Position), "length 2^32 + {length}");
    }
    for length in FAR.into_iter().chain([LARGEST + 1, LARGEST + 512, LARGEST + 4096, 2 * LARGEST]) {
        assert_eq!(record_size(length), Err(Position), "length {length}");
    }
    // every multiple of 4,096 up to two past the longest row, with its neighbours
    for length in (0..=LARGEST / 4096 + 2).flat_map(|blocks| beside(4096 * blocks)) {
        let _ = RecordSize(length).compare(&[]);
    }
}

/// A strip is frozen after the header in as many bytes, and not in one fewer.
#[test]
fn a_record_takes_its_size() {
    let mut cases = Cases::new("query", "a_record_takes_its_size", 301);
    for length in SMALL.into_iter().chain(UNITS) {
        cases.run(|random| {
            let h = Handle::new(length.next_multiple_of(512).max(512), length);
            let words: Vec<u64> = (0..word_count(h.capacity)).map(|_| random.number()).collect();
            let size = record_size(length).unwrap() as usize;
            let mut image = vec![0x77; 16 + size];
            assert_eq!(clear(&mut image), Ok(16));
            assert_eq!(freeze(h, &words, &mut image[..15 + size], 5), Err(NoRoom));
            assert_eq!(freeze(h, &words, &mut image, 5), Ok(1));
            assert_eq!((inspect(&image), row_length(&image, 5)), (Ok(1), Ok(length)));
        });
    }
}

#[test]
fn any_number() {
    let mut cases = Cases::new("query", "any_number", 302);
    for _ in 0..200 {
        cases.run(|random| {
            for _ in 0..5000 {
                let number = any(random);
                for query in [number, 512 * (number % 262_200), number / 512 * 512].map(CountersNeeded) {
                    let _ = query.compare(&[]);
                }
                for query in [number, number % (LARGEST + 5000)].map(RecordSize) {
                    let _ = query.compare(&[]);
                }
            }
        });
    }
}

// ---- the rows of an image

/// So many rows of different labels, in any order, with gaps; and the bytes of their image.
fn some_rows(random: &mut Random, number: usize) -> (Vec<(u64, u64)>, Vec<u8>) {
    let mut list = Vec::new();
    for label in draw::labels(random, number) {
        let length = [0, 1 + random.number_below(700), 4096, random.number_below(9000)][random.below(4)];
        list.push((random.below(3) * random.below(4), label, random.bits(length, 500)));
    }
    let image = layout::image(&list, random.below(40));
    (list.into_iter().map(|(_, label, bits)| (label, model::length(&bits))).collect(), image)
}

/// Every row by its number and by its label, and nothing else.
fn compare_rows(image: &[u8], wanted: &[(u64, u64)]) {
    let number = wanted.len() as u64;
    assert_eq!(rows(image), (wanted.to_vec(), LabelAbsent));
    for (k, &(label, _)) in (0..).zip(wanted) {
        assert_eq!(row_label(image, k), Ok(label));
        assert_eq!(row_label(image, WIDE + k), Err(LabelAbsent));
    }
    for k in (number..70).chain(FAR).chain([WIDE + number]) {
        assert_eq!(row_label(image, k), Err(LabelAbsent), "row {k} of {number}");
    }
    for label in 1..=64 {
        let length = wanted.iter().find(|row| row.0 == label).map(|row| row.1);
        assert_eq!(row_length(image, label), length.ok_or(LabelAbsent), "label {label}");
        for far in [64, 128, 256, WIDE, 1 << 63].map(|far| far + label) {
            assert_eq!(row_length(image, far), Err(BadLabel), "label {far}");
        }
    }
    for label in [0].into_iter().chain(FAR) {
        assert_eq!(row_length(image, label), Err(BadLabel), "label {label}");
    }
}

/// No row, one, some, and 64.
#[test]
fn rows_in_chain_order() {
    let mut cases = Cases::new("query", "rows_in_chain_order", 303);
    for number in [0, 1, 2, 3, 9, 63, 64] {
        for _ in 0..8 {
            cases.run(|random| {
                let (wanted, image) = some_rows(random, number);
                compare_rows(&image, &wanted);
                assert_eq!(inspect(&image), Ok(number as u64));
                // the length told is where the positions of a row end
                for (label, length) in wanted {
                    assert!(row_rank(&image, label, 1, length).is_ok());
                    assert_eq!(row_rank(&image, label, 1, length + 1), Err(Position));
                    assert_eq!(row_get(&image, label, length), Err(Position));
                    assert_eq!(row_select(&image, label, 1, length), Err(NotFound));
                }
            });
        }
    }
}

/// Rows whose ones, entries, bits or padding are others are listed as ever, and inspect refuses them.
#[test]
fn wrong_rows_are_listed() {
    let mut cases = Cases::new("query", "wrong_rows_are_listed", 304);
    for round in 0..100 {
        cases.run(|random| {
            let (wanted, mut image) = some_rows(random, 1 + round % 9);
            for at in layout::chain(&image).unwrap() {
                if random.below(2) == 0 {
                    let size = layout::part(&image, at).len();
                    image[at + 12 + random.below(size - 12)] ^= 1 << random.below(8);
                    assert_eq!(inspect(&image), Err(WrongRow));
                }
            }
            assert_eq!(inspect(&image), layout::inspect(&image));
            compare_rows(&image, &wanted);
        });
    }
}

/// Of a chain that breaks at its first record or its last, every query is refused, those for the rows before it too.
#[test]
fn broken_chains() {
    let mut cases = Cases::new("query", "broken_chains", 305);
    for number in [1, 2, 5, 64] {
        cases.run(|random| {
            let (wanted, image) = some_rows(random, number);
            let places = layout::chain(&image).unwrap();
            let (first, last) = (places[0], places[number - 1]);
            let changed = |at: usize, value: u64| {
                let mut bad = image.clone();
                layout::store(&mut bad, at, value);
                bad
            };
            let end = last + layout::part(&image, last).len();
            let mut broken =
                vec![Vec::new(), image[..15].to_vec(), image[..last + 15].to_vec(), image[..end - 1].to_vec()];
            // the header: where the chain starts, kind, zeros
            let units = image.len() as u64 / 16;
            broken.extend(
                [(0, units), (0, u32::MAX.into()), (4, 0), (4, 2), (8, 1), (12, 1 << 31)].map(|(at, x)| changed(at, x)),
            );
            for at in [first, last] {
                // next, before its record's end or past the image; label; length
                broken.extend([1, at as u64 / 16, units, u32::MAX.into()].map(|next| changed(at, next)));
                broken.extend([0, 65, 256 + wanted[0].0, u32::MAX.into()].map(|label| changed(at + 4, label)));
                broken.extend([LARGEST, LARGEST + 1, u32::MAX.into()].map(|length| changed(at + 8, length)));
            }
            if number > 1 {
                broken.push(changed(last + 4, wanted[0].0));
            }
            for bad in broken {
                assert_eq!(inspect(&bad), Err(Unsound));
                for x in LABELS.into_iter().chain([wanted[0].0, wanted[number - 1].0]).chain(FAR) {
                    assert_eq!(RowLength(x).compare(&bad), Err(Unsound), "label {x}");
                    assert_eq!(RowLabel(x).compare(&bad), Err(Unsound), "row {x}");
                }
            }
        });
    }
}

/// Each set of faults at once: 10 before 11 before 14.
#[test]
fn first_refusal_wins() {
    let bits = [false, true, true];
    for faults in 0..8 {
        let [broken, bad, absent] = [1, 2, 4].map(|fault| faults & fault != 0);
        let mut image = layout::image(&[(1, 3, bits.to_vec()), (0, 64, Vec::new())], 2);
        let last = layout::chain(&image).unwrap()[1];
        if broken {
            layout::store(&mut image, last, 1);
        }
        let first = |own: &[(bool, Refusal)], value: u64| {
            let found = [(broken, Unsound)].iter().chain(own).find(|(has, _)| *has).map(|(_, refusal)| *refusal);
            found.map_or(Ok(value), Err)
        };
        let labels: &[u64] = match (bad, absent) {
            (true, true) => &[0, 65, 65 + 64, u64::MAX],
            // a label's low bits are those of a row that is there
            (true, false) => &[WIDE + 3, 256 + 3, (1 << 63) + 64],
            (false, true) => &[1, 2, 4, 63],
            (false, false) => &[3],
        };
        for &label in labels {
            let told = row_length(&image, label);
            assert_eq!(told, first(&[(bad, BadLabel), (absent, LabelAbsent)], 3), "label {label}");
        }
        for k in if absent { &[2, 3, 64, WIDE, WIDE + 1, u64::MAX][..] } else { &[1] } {
            assert_eq!(row_label(&image, *k), first(&[(absent, LabelAbsent)], 64), "row {k}");
        }
    }
}

/// With no bytes lent the pointer may be null.
#[test]
fn no_bytes() {
    // SAFETY: nothing is lent.
    let told = unsafe {
        [
            ffi::image_inspect(null(), 0),
            ffi::image_row_rank(null(), 0, 1, 1, 0),
            ffi::image_row_select(null(), 0, 1, 1, 0),
            ffi::image_row_get(null(), 0, 1, 0),
            ffi::image_row_length(null(), 0, 1),
            ffi::image_row_label(null(), 0, 0),
        ]
    };
    assert_eq!(told.map(answer), [Err(Unsound); 6]);
}

/// Images with bytes changed at random: each query tells all that it can.
#[test]
fn any_image() {
    let (mut cases, mut tally) = (Cases::new("query", "any_image", 306), Tally::default());
    for _ in 0..3000 {
        cases.run(|random| {
            let number = random.below(6);
            let (wanted, mut image) = some_rows(random, number);
            let times = random.below(3);
            draw::change_numbers(random, &mut image, times);
            for (k, (label, _)) in (0..).zip(wanted) {
                ask(RowLength(label), &image, &mut tally);
                ask(RowLabel(k), &image, &mut tally);
            }
            for label in LABELS.into_iter().chain([1 + random.number_below(64), any(random)]) {
                ask(RowLength(label), &image, &mut tally);
            }
            for k in [0, 5, 64, WIDE, u64::MAX, any(random)] {
                ask(RowLabel(k), &image, &mut tally);
            }
            let [capacity, length] = [512 * random.number_below(262_200), random.number_below(LARGEST + 5000)];
            for number in [capacity, any(random)] {
                ask(CountersNeeded(number), &image, &mut tally);
            }
            for number in [length, any(random)] {
                ask(RecordSize(number), &image, &mut tally);
            }
            assert_eq!(inspect(&image), layout::inspect(&image));
        });
    }
    if cases.all() {
        tally.expect_queries("any image");
    }
    tally.print(&format!("any image, seed {}", cases.seed()));
}
