//! The calls of document 02, each beside what its line names. Times as in the first table.

use crate::inputs::{self, Input};
use crate::times;
use plain::modified::{self, Marked};
use plain::points::Run;
use plain::{frames, Kind, Sheet};
use std::hint::black_box;
use std::time::Duration;

pub fn print(budget: Duration) {
    println!(
        "{:<40} {:<36} {:>9} {:>9} {:>6}",
        "operation", "beside (times in microseconds)", "beside", "library", "ratio"
    );
    join(budget);
    import(budget);
    pages(budget);
    points(budget);
    modified(budget);
}

fn line(
    budget: Duration,
    operation: &str,
    beside: &str,
    count: usize,
    other: impl FnMut(usize),
    library: impl FnMut(usize),
) {
    let (other, library) = times(budget, count, other, Some(library));
    let library = library.unwrap_or(f64::NAN);
    println!("{operation:<40} {beside:<36} {other:>9.2} {library:>9.2} {:>6.2}", library / other);
}

/// Pairs of sheets that together are as large as a sheet may be. At most twice the time of reading both is asked for.
fn join(budget: Duration) {
    let pairs = inputs::pairs();
    let mut out = vec![0; segtrace::SHEET_BYTES_FORM_3];
    for [first, second] in &pairs {
        let length = segtrace::join_into(first, second, &mut out).expect("a joint sheet");
        assert_eq!(length, segtrace::SHEET_BYTES_FORM_3, "the largest joint sheet");
    }
    line(
        budget,
        "join, largest pair",
        "reading both (check)",
        pairs.len(),
        |number| pairs[number].iter().for_each(|sheet| segtrace::check(black_box(sheet)).expect("a sheet")),
        |number| {
            let [first, second] = black_box(&pairs[number]);
            segtrace::join_into(first, second, black_box(&mut out)).expect("room");
        },
    );
}

/// Traces of 2,048 lines and 256 pages, with the 64 rows of the largest sheets.
fn import(budget: Duration) {
    const K: u64 = 12;
    let sheets = Input::all()[0].sheets();
    let traces = inputs::traces(sheets.len(), K);
    let texts: Vec<Vec<u8>> = traces
        .iter()
        .zip(&sheets)
        .map(|(trace, sheet)| segtrace::import_din(trace, K, sheet).expect("a trace"))
        .collect();
    let mut out = vec![0; segtrace::SHEET_BYTES_FORM_1];
    let mut import = |number: usize| {
        let (trace, sheet) = black_box((&traces[number], &sheets[number]));
        segtrace::import_din_into(trace, K, sheet, black_box(&mut out)).expect("room");
    };
    let reading = |sheets: &[Vec<u8>], number: usize| segtrace::check(black_box(&sheets[number])).expect("a sheet");
    let title = "import, 2,048 lines";
    line(budget, title, "reading the sheet it gives (check)", 16, |number| reading(&texts, number), &mut import);
    let both = |number| {
        reading(&sheets, number);
        reading(&texts, number);
    };
    line(budget, title, "reading it and the sheet of the rows", 16, both, &mut import);
}

/// The calls on sheets of 256 segments of size 1 and 2,048 references, each beside plain Rust of the same way.
fn pages(budget: Duration) {
    for input in &Input::all()[..3] {
        let sheets = inputs::of_pages(input);
        let beside = format!("plain Rust, {}", format!("{:?}", input.pattern).to_lowercase());
        let lines = Pages { budget, beside, sheets: &sheets };
        lines.measure("lru, from bytes", segtrace::SEGS, frames::lru, segtrace::lru_into);
        let windows: Plain = |segs, refs, out| {
            plain::windows::windows(segs, refs, out);
            0
        };
        lines.measure("windows, from bytes", segtrace::STEPS, windows, |sheet, out| {
            Ok((segtrace::windows_into(sheet, out)?, 0))
        });
        // The plain engine takes milliseconds: one sheet.
        let one = Pages { sheets: &sheets[..1], ..lines };
        one.measure("lru_plain, from bytes", segtrace::SEGS, frames::lru_plain, |sheet, out| {
            Ok((segtrace::lru_plain_into(sheet, out)?, 0))
        });
    }
}

/// Each fills a place with numbers; the pass of LRU gives the entries looked at, the others 0.
type Plain = fn(usize, &[u16], &mut [u64]) -> u64;
type Library = fn(&[u8], &mut [u64]) -> Result<(usize, u64), segtrace::Refusal>;

/// The lines of sheets of size 1.
struct Pages<'a> {
    budget: Duration,
    beside: String,
    sheets: &'a [Vec<u8>],
}

impl Pages<'_> {
    fn measure(&self, operation: &str, numbers: usize, plain: Plain, library: Library) {
        let mut sheet = Sheet::empty();
        let (mut ours, mut theirs) = (vec![0; numbers], vec![0; numbers]);
        let mut from_bytes = |number: usize, out: &mut [u64]| {
            sheet.read(black_box(&self.sheets[number])).expect("a sheet");
            assert!(sheet.sizes().iter().all(|&size| size == 1), "pages");
            plain(sheet.segs, sheet.references(), black_box(out))
        };
        for (number, bytes) in self.sheets.iter().enumerate() {
            let looked = from_bytes(number, &mut ours);
            assert!(library(bytes, &mut theirs) == Ok((numbers, looked)) && ours == theirs, "{operation}: they differ");
        }
        let by_library = |number: usize| {
            black_box(library(black_box(&self.sheets[number]), black_box(&mut theirs)).expect("room"));
        };
        let by_plain = |number| _ = black_box(from_bytes(number, &mut ours));
        line(self.budget, operation, &self.beside, self.sheets.len(), by_plain, by_library);
    }
}

/// 1,984 reuses of 2,048 references, with ratios that are all distinct and with one alone, beside plain Rust that sorts them.
fn points(budget: Duration) {
    for (title, distinct) in [("points, all ratios distinct", true), ("points, all ratios equal", false)] {
        let sheets = inputs::of_ratios(distinct);
        let mut sheet = Sheet::empty();
        let mut ours = vec![0; segtrace::Point::COUNT * segtrace::POINTS];
        let mut theirs = vec![segtrace::Point::default(); segtrace::POINTS];
        let mut from_bytes = |number: usize, out: &mut [u64]| {
            sheet.read(black_box(&sheets[number])).expect("a sheet");
            let (space, steps) = (sheet.kind == Kind::Space, sheet.references());
            Run { space, a: sheet.a, sizes: sheet.sizes(), warm: &[], steps }.points(black_box(out))
        };
        for (number, bytes) in sheets.iter().enumerate() {
            let count = from_bytes(number, &mut ours);
            assert_eq!(segtrace::points_into(bytes, &mut theirs), Ok(count), "the points differ");
            let numbers = theirs.iter().flat_map(|point| [point.r, point.w, point.optmem, point.load]);
            assert!(numbers.take(4 * count).eq(ours[..4 * count].iter().copied()), "the points differ");
            assert_eq!(count, if distinct { 1_985 } else { 2 }, "how many points");
        }
        let by_library = |number: usize| {
            segtrace::points_into(black_box(&sheets[number]), black_box(&mut theirs)).expect("room");
        };
        let by_plain = |number| _ = black_box(from_bytes(number, &mut ours));
        line(budget, title, "plain Rust, sort_unstable_by", sheets.len(), by_plain, by_library);
    }
}

/// Sheets of form 4 with 256 segments, 64 rows and 2,048 steps, of which half or none of the touches modify: reading, the listing, the
/// schedule of row 32 and its price, beside plain Rust of the same way.
fn modified(budget: Duration) {
    const ROW: u64 = 32;
    for (marks, often) in [("half marked", 8), ("no marks", 0)] {
        for input in &Input::all()[..3] {
            let sheets = inputs::marked(input, often);
            let beside = format!("plain Rust, {}", format!("{:?}", input.pattern).to_lowercase());
            let schedules = same_answers(&sheets, ROW);
            let count = sheets.len();
            let mut marked = Marked::empty();
            let (mut text, mut other_text) = (vec![0; segtrace::LISTING_BYTES], vec![0; segtrace::LISTING_BYTES]);
            let (mut place, mut other_place) = (vec![0; segtrace::SCHEDULE_BYTES], vec![0; segtrace::SCHEDULE_BYTES]);
            let of_form_4 = |operation: &str| format!("{operation}, form 4, {marks}");
            let read = |number: usize| segtrace::check(black_box(&sheets[number])).expect("a sheet");
            let by_plain = |number: usize| marked.read(black_box(&sheets[number])).expect("a sheet");
            line(budget, &of_form_4("reading"), &beside, count, by_plain, read);
            let by_plain = |number: usize| {
                modified::listing(black_box(&sheets[number]), black_box(&mut text)).expect("room");
            };
            let listing = |number: usize| {
                segtrace::listing(black_box(&sheets[number]), black_box(&mut other_text)).expect("room");
            };
            line(budget, &of_form_4("listing"), &beside, count, by_plain, listing);
            let by_plain = |number: usize| {
                marked.read(black_box(&sheets[number])).expect("a sheet");
                modified::modified_schedule(&marked, ROW, black_box(&mut place)).expect("room");
            };
            let schedule = |number: usize| {
                let bytes = black_box(&sheets[number]);
                segtrace::modified_schedule(bytes, ROW, black_box(&mut other_place)).expect("room");
            };
            line(budget, &of_form_4("schedule"), &beside, count, by_plain, schedule);
            let by_plain = |number: usize| {
                marked.read(black_box(&sheets[number])).expect("a sheet");
                black_box(modified::marked_price(&marked, ROW, black_box(&schedules[number])).expect("permitted"));
            };
            let price = |number: usize| {
                let bytes = black_box(&sheets[number]);
                black_box(segtrace::price(bytes, ROW, black_box(&schedules[number])).expect("permitted"));
            };
            line(budget, &of_form_4("price of it"), &beside, count, by_plain, price);
        }
    }
}

/// The schedules of a row. Stops where plain Rust and the library give different answers of what is measured.
fn same_answers(sheets: &[Vec<u8>], row: u64) -> Vec<Vec<u8>> {
    let mut marked = Marked::empty();
    let schedule_of = |bytes: &Vec<u8>| {
        let (mut ours, mut theirs) = (vec![0; segtrace::LISTING_BYTES], vec![0; segtrace::LISTING_BYTES]);
        let length = modified::listing(bytes, &mut ours).expect("room");
        assert!(segtrace::listing(bytes, &mut theirs) == Ok(length) && ours == theirs, "the listings differ");
        marked.read(bytes).expect("a sheet");
        let (mut ours, mut theirs) = (vec![0; segtrace::SCHEDULE_BYTES], vec![0; segtrace::SCHEDULE_BYTES]);
        let length = modified::modified_schedule(&marked, row, &mut ours).expect("room");
        assert!(segtrace::modified_schedule(bytes, row, &mut theirs) == Ok(length), "the lengths differ");
        assert!(ours == theirs, "the schedules differ");
        let price = modified::marked_price(&marked, row, &ours[..length]).expect("permitted");
        let other = segtrace::price(bytes, row, &ours[..length]).expect("permitted");
        assert!(
            [price.memory, price.load, price.total] == [other.memory, other.load, other.total],
            "the prices differ"
        );
        ours[..length].to_vec()
    };
    sheets.iter().map(schedule_of).collect()
}
