//! The examples of documents 01 and 02 and every finite line of Tables II and III of document 002.

use crate::calls;
use crate::compare::{done, ensure, Case, Outcome};
use crate::frames;
use crate::generate::Prng;
use crate::import;
use crate::join;
use crate::modified;
use crate::points;
use crate::reference::{self, Figures, Kind, Row, Sheet};
use crate::tally::Tally;
use crate::windows;
use crate::{Run, NOW};

/// Runs them all and gives their number.
pub fn run(tally: &mut Tally) -> Result<usize, String> {
    let all = examples();
    for (number, (bytes, check)) in all.iter().enumerate() {
        NOW.set(Run::Example(number));
        let prng = Prng::of_case(0, number as u64);
        Case { prng, bytes, tally }.run()?;
        check(bytes)?;
        tally.end_of_sheet();
    }
    Ok(all.len())
}

/// The bytes of an example.
pub fn sheet(number: usize) -> Vec<u8> {
    examples().swap_remove(number).0
}

pub type Check = Box<dyn Fn(&[u8]) -> Outcome>;

fn examples() -> Vec<(Vec<u8>, Check)> {
    let mut list: Vec<(Vec<u8>, Check)> = Vec::new();
    list.push((listed_sheet(), Box::new(listing_and_rows)));
    list.push((idling_sheet(), Box::new(idling_listing)));
    for (sheet, rows, schedules) in warm_sheets() {
        list.push((sheet, Box::new(move |bytes| warm_rows(bytes, &rows, &schedules))));
    }
    list.push((warm_sheet("space", &[1], 6, ALL_TOUCHES), Box::new(warm_margins)));
    list.push((warm_sheet("space", &[0, 1], 6, ALL_TOUCHES), Box::new(both_warm_margins)));
    list.push((warm_sheet("space", &[1], 3, &[(0, 1)]), Box::new(warm_prices)));
    for kind in [Kind::Time, Kind::Space] {
        for (h, figures) in table(kind) {
            list.push((paper_sheet(kind, h, false), Box::new(move |bytes| table_line(kind, figures, bytes))));
            // A segment that is never touched has no end interval and changes nothing.
            list.push((paper_sheet(kind, h, true), Box::new(move |bytes| table_line(kind, figures, bytes))));
        }
    }
    for kind in ["time", "space"] {
        let nothing = format!("kind={kind}\na=7\nsegs=2\nsize=3\nsize=4\nrows=2\nrow=1/2\nrow=3/1\nrefs=0\n");
        list.push((nothing.into_bytes(), Box::new(all_zero)));
    }
    list.push((sized_sheet(), Box::new(lowest_rows)));
    for (sheet, rates, cents) in bills() {
        list.push((sheet, Box::new(move |bytes| bill(bytes, rates, cents))));
    }
    list.extend(join::examples());
    list.extend(import::examples());
    list.extend(frames::examples());
    list.extend(windows::examples());
    list.extend(points::examples());
    list.extend(modified::examples());
    for (text, number) in verdicts() {
        list.push((text, Box::new(move |bytes| verdict(bytes, number))));
    }
    list
}

/// A sheet of form 1.
fn sheet_of(kind: Kind, a: u64, sizes: Vec<u64>, rows: Vec<Row>, refs: Vec<usize>) -> Vec<u8> {
    let steps = refs.into_iter().map(Some).collect();
    let (warm, marks) = (Vec::new(), Vec::new());
    reference::write(&Sheet { form: 1, kind, a, sizes, rows, warm, steps, marks })
}

/// The sheet of the listing in document 01, with steps 3 and 8 without a touch.
fn idling_sheet() -> Vec<u8> {
    b"form=2\nkind=space\na=1\nsegs=2\nsize=1\nsize=3\nrows=2\nrow=1/2\nrow=1/1\nsteps=8\nrefs=6\n\
        ref=0@1\nref=1@2\nref=0@4\nref=1@5\nref=1@6\nref=0@7\n"
        .to_vec()
}

/// Its listing, worked by hand.
fn idling_listing(bytes: &[u8]) -> Outcome {
    let listing = "refs=6\nsteps=8\nsegs=2\nrows=2\n\
        h=1\nd=2\nmisses=5\nvolume=9\nload=14\noptmem=12\nopttotal=38\noptocc=12\nwsmem=38\nwsocc=38\nmean=2375\n\
        h=1\nd=1\nmisses=3\nvolume=7\nload=10\noptmem=16\nopttotal=26\noptocc=16\nwsmem=25\nwsocc=25\nmean=3125\n";
    let mut out = vec![0; listing.len()];
    let mut written = 0;
    done("listing", calls::listing(bytes, &mut out, &mut written))?;
    ensure(out == listing.as_bytes(), || "the listing of the sheet with idle steps is another".to_string())?;
    let mut schedule = vec![0; 8 * 32];
    done("optimal_schedule", calls::optimal_schedule(bytes, 1, &mut schedule, &mut written))?;
    let firsts: Vec<u8> = schedule.iter().step_by(32).copied().collect();
    ensure(firsts == [1, 3, 1, 1, 3, 3, 1, 0], || "the schedule of the sheet with idle steps is another".to_string())
}

/// The touches of the listing's sheet: segment and step of each.
const ALL_TOUCHES: &[(usize, usize)] = &[(0, 1), (1, 2), (0, 3), (1, 4), (1, 5), (0, 6)];

/// The listing's sheet in form 3, with its two segments and those of the warm ones beyond, of size 2, and with these steps and touches.
fn warm_sheet(kind: &str, warm: &[usize], steps: usize, touches: &[(usize, usize)]) -> Vec<u8> {
    let segs = warm.last().map_or(2, |last| 2.max(last + 1));
    let mut text = format!("form=3\nkind={kind}\na=1\nsegs={segs}\nsize=1\nsize=3\n");
    (2..segs).for_each(|_| text += "size=2\n");
    text += &format!("rows=2\nrow=1/2\nrow=1/1\nwarm={}\n", warm.len());
    warm.iter().for_each(|segment| text += &format!("hold={segment}\n"));
    text += &format!("steps={steps}\nrefs={}\n", touches.len());
    touches.iter().for_each(|(segment, step)| text += &format!("ref={segment}@{step}\n"));
    text.into_bytes()
}

/// Sheets with warm segments, the figures of both rows and the first bytes of their optimal schedules, all worked by hand. In kind space
/// the first touch of segment 1, at step 2, has R = 3: row 1/2 drops it (6 > 4), row 1/1 keeps it (3 <= 4).
fn warm_sheets() -> Vec<(Vec<u8>, [Figures; 2], [Vec<u8>; 2])> {
    let all = ALL_TOUCHES;
    vec![
        // None: the listing's own figures.
        (
            warm_sheet("space", &[], 6, all),
            [[1, 2, 4, 8, 12, 13, 38, 13, 36, 36, 3_000], [1, 1, 2, 4, 6, 18, 24, 18, 21, 21, 3_500]],
            [vec![1, 3, 1, 2, 2, 1], vec![1, 3, 3, 3, 3, 1]],
        ),
        // Segment 1: examples/warm.sheet.
        (
            warm_sheet("space", &[1], 6, all),
            [[1, 2, 4, 8, 12, 13, 38, 13, 40, 40, 3_333], [1, 1, 1, 1, 2, 21, 23, 21, 24, 24, 4_000]],
            [vec![1, 3, 1, 2, 2, 1], vec![3, 3, 3, 3, 3, 1]],
        ),
        // Both. The first touch of segment 0, at step 1, has R = 0.
        (
            warm_sheet("space", &[0, 1], 6, all),
            [[1, 2, 3, 7, 10, 13, 36, 13, 40, 40, 3_333], [1, 1, 0, 0, 0, 21, 21, 21, 24, 24, 4_000]],
            [vec![1, 3, 1, 2, 2, 1], vec![3, 3, 3, 3, 3, 1]],
        ),
        // A third one of size 2, which is never touched: its end interval has R = 12, and its w is 3.
        (
            warm_sheet("space", &[2], 6, all),
            [[1, 2, 4, 8, 12, 13, 38, 13, 39, 39, 3_250], [1, 1, 2, 4, 6, 18, 24, 18, 24, 24, 4_000]],
            [vec![1, 3, 1, 2, 2, 1], vec![1, 3, 3, 3, 3, 1]],
        ),
        // Segment 1 in one step that touches segment 0: its end interval has R = 3.
        (
            warm_sheet("space", &[1], 1, &[(0, 1)]),
            [[1, 2, 1, 1, 2, 1, 4, 1, 6, 6, 3_000], [1, 1, 1, 1, 2, 1, 3, 1, 4, 4, 4_000]],
            [vec![1], vec![1]],
        ),
        // The same in one step without a touch.
        (
            warm_sheet("space", &[1], 1, &[]),
            [[1, 2, 0, 0, 0, 0, 0, 0, 4, 4, 2_000], [1, 1, 0, 0, 0, 0, 0, 0, 3, 3, 3_000]],
            [vec![0], vec![0]],
        ),
        // Both in no step: their end intervals have R = 0.
        (
            warm_sheet("space", &[0, 1], 0, &[]),
            [[1, 2, 0, 0, 0, 0, 0, 0, 0, 0, 0], [1, 1, 0, 0, 0, 0, 0, 0, 0, 0, 0]],
            [vec![], vec![]],
        ),
        // Kind time: the first touch of segment 1 has R = 1, and both rows keep it.
        (
            warm_sheet("time", &[1], 6, all),
            [[1, 2, 2, 2, 4, 9, 22, 19, 22, 46, 3_833], [1, 1, 1, 1, 2, 11, 13, 21, 12, 24, 4_000]],
            [vec![3, 3, 3, 2, 2, 1], vec![3, 3, 3, 3, 3, 1]],
        ),
        (
            warm_sheet("time", &[1], 1, &[(0, 1)]),
            [[1, 2, 1, 1, 2, 1, 4, 1, 4, 8, 4_000], [1, 1, 1, 1, 2, 1, 3, 1, 2, 4, 4_000]],
            [vec![1], vec![1]],
        ),
    ]
}

fn warm_rows(bytes: &[u8], rows: &[Figures; 2], schedules: &[Vec<u8>; 2]) -> Outcome {
    for (row, (want, firsts)) in (0..).zip(rows.iter().zip(schedules)) {
        let got = figures(bytes, row)?;
        ensure(got == *want, || format!("warm segments, row {row}: {got:?}, wanted {want:?}"))?;
        let mut schedule = vec![0; firsts.len() * 32];
        done("optimal_schedule", calls::optimal_schedule(bytes, row, &mut schedule, &mut 0))?;
        ensure(schedule.iter().step_by(32).eq(firsts), || format!("warm segments: another schedule of row {row}"))?;
    }
    Ok(())
}

/// Margins of references at rows: what the call returns, and the margin.
fn margins(bytes: &[u8], list: &[(u64, u64, u64, i64)]) -> Outcome {
    for &(row, reference, number, want) in list {
        let mut margin = 0;
        let returned = calls::margin(bytes, row, reference, &mut margin);
        ensure((returned, margin) == (number, want), || {
            format!("margin of reference {reference} at row {row}: got {returned}, {margin}, wanted {number}, {want}")
        })?;
    }
    Ok(())
}

/// The first touch of segment 1 has a margin, that of segment 0 has none.
fn warm_margins(bytes: &[u8]) -> Outcome {
    margins(bytes, &[(0, 1, 15, 0), (0, 2, 0, -2), (1, 2, 0, 1), (0, 4, 0, -2), (1, 6, 0, 0), (0, 7, 14, 0)])
}

/// Both have one.
fn both_warm_margins(bytes: &[u8]) -> Outcome {
    margins(bytes, &[(0, 1, 0, 2), (1, 1, 0, 2), (0, 2, 0, -2), (1, 2, 0, 1)])
}

/// Schedules of three steps: segment 0 is touched in the first, and segment 1 is warm. Held from step 1 on it costs 3 a step and no load;
/// once it is not held, it cannot come back.
fn warm_prices(bytes: &[u8]) -> Outcome {
    let list: [([u8; 3], u64, reference::Price); 7] = [
        ([1, 0, 0], 0, [1, 2, 4]),
        ([3, 0, 0], 0, [4, 2, 10]),
        ([3, 2, 2], 0, [10, 2, 22]),
        ([1, 2, 2], 10, [0; 3]),
        ([3, 1, 2], 10, [0; 3]),
        ([2, 2, 2], 9, [0; 3]),
        ([7, 2, 2], 10, [0; 3]),
    ];
    for (firsts, number, want) in list {
        let schedule: Vec<u8> = firsts.into_iter().flat_map(|first| [&[first], &[0; 31][..]].concat()).collect();
        let mut price = [0; 3];
        let returned = calls::price(bytes, 0, &schedule, &mut price);
        ensure((returned, price) == (number, want), || {
            format!("price of {firsts:?}: got {returned}, {price:?}, wanted {number}, {want:?}")
        })?;
    }
    Ok(())
}

/// The sheet of the listing in document 01.
fn listed_sheet() -> Vec<u8> {
    b"kind=space\na=1\nsegs=2\nsize=1\nsize=3\nrows=2\nrow=1/2\nrow=1/1\nrefs=6\nref=0\nref=1\nref=0\nref=1\nref=1\nref=0\n".to_vec()
}

/// P1, P2, P3 and the listing.
fn listing_and_rows(bytes: &[u8]) -> Outcome {
    let listing = "refs=6\nsegs=2\nrows=2\n\
        h=1\nd=2\nmisses=4\nvolume=8\nload=12\noptmem=13\nopttotal=38\noptocc=13\nwsmem=36\nwsocc=36\nmean=3000\n\
        h=1\nd=1\nmisses=2\nvolume=4\nload=6\noptmem=18\nopttotal=24\noptocc=18\nwsmem=21\nwsocc=21\nmean=3500\n";
    let mut out = vec![0; listing.len()];
    let mut written = 0;
    done("listing", calls::listing(bytes, &mut out, &mut written))?;
    ensure(out == listing.as_bytes(), || "the listing is not the one of document 01".to_string())?;
    ensure(figures(bytes, 0)? == [1, 2, 4, 8, 12, 13, 38, 13, 36, 36, 3_000], || "P1".to_string())?;
    ensure(figures(bytes, 1)? == [1, 1, 2, 4, 6, 18, 24, 18, 21, 21, 3_500], || "P2".to_string())?;
    let mut schedule = vec![0; 6 * 32];
    done("optimal_schedule", calls::optimal_schedule(bytes, 0, &mut schedule, &mut written))?;
    let firsts: Vec<u8> = schedule.iter().step_by(32).copied().collect();
    ensure(firsts == [1, 3, 1, 2, 2, 1], || "P3".to_string())
}

fn figures(bytes: &[u8], row: u64) -> Result<Figures, String> {
    let mut out = [0; 11];
    done("figures", calls::figures(bytes, row, &mut out))?;
    Ok(out)
}

/// Table II for kind time: h, then misses, volume, optocc, wsocc. Table III for kind space: h, then misses, volume, optmem, wsmem.
fn table(kind: Kind) -> Vec<(u64, [u64; 4])> {
    match kind {
        Kind::Time => vec![
            (0, [13, 41, 43, 43]),
            (1, [11, 35, 49, 82]),
            (2, [9, 28, 63, 115]),
            (3, [8, 25, 72, 138]),
            (4, [7, 23, 80, 158]),
            (5, [5, 15, 120, 171]),
            (9, [5, 15, 120, 175]),
        ],
        Kind::Space => vec![
            (0, [13, 41, 43, 43]),
            (2, [12, 39, 45, 67]),
            (4, [10, 33, 53, 89]),
            (6, [10, 33, 53, 107]),
            (8, [9, 31, 61, 123]),
            (9, [8, 28, 70, 130]),
            (10, [7, 23, 80, 135]),
            (15, [6, 20, 95, 155]),
            (20, [6, 20, 95, 170]),
            (25, [5, 15, 120, 175]),
        ],
    }
}

/// The reference string of the two tables, at one threshold h/1.
fn paper_sheet(kind: Kind, h: u64, one_untouched: bool) -> Vec<u8> {
    let mut sizes = vec![1, 2, 3, 4, 5];
    if one_untouched {
        sizes.push(4_095);
    }
    let refs = vec![4, 2, 1, 4, 0, 1, 3, 2, 3, 4, 1, 2, 1, 1];
    sheet_of(kind, 0, sizes, vec![Row { h, d: 1 }], refs)
}

fn table_line(kind: Kind, want: [u64; 4], bytes: &[u8]) -> Outcome {
    let [h, _, misses, volume, _, optmem, _, optocc, wsmem, wsocc, _] = figures(bytes, 0)?;
    let got = match kind {
        Kind::Time => [misses, volume, optocc, wsocc],
        Kind::Space => [misses, volume, optmem, wsmem],
    };
    ensure(got == want, || format!("the table's line {h} of kind {kind:?}: got {got:?}, wanted {want:?}"))
}

/// The run of the listing at rows with optmem and load 12 and 14, three times 13 and 12, twice 18 and 6.
fn sized_sheet() -> Vec<u8> {
    let rows = [(0, 1), (1, 2), (3, 5), (2, 3), (1, 1), (2, 1)].map(|(h, d)| Row { h, d }).to_vec();
    sheet_of(Kind::Space, 1, vec![1, 3], rows, vec![0, 1, 0, 1, 1, 0])
}

/// Sizing gives the first of the rows of least load.
fn lowest_rows(bytes: &[u8]) -> Outcome {
    for (ceiling, want) in [(17, 1), (18, 4), (13, 1), (12, 0), (u64::MAX, 4)] {
        let mut row = u64::MAX;
        done("size", calls::size(bytes, ceiling, &mut row))?;
        ensure(row == want, || format!("size: row {row} for the ceiling {ceiling}, wanted {want}"))?;
    }
    for ceiling in [0, 11] {
        let returned = calls::size(bytes, ceiling, &mut 0);
        ensure(returned == 12, || format!("size: got {returned} for the ceiling {ceiling}, wanted 12"))?;
    }
    Ok(())
}

/// Sheets, two rates and a minimum, and the bill of row 0. One touch of size z has optmem z and load 1 + a * z.
fn bills() -> Vec<(Vec<u8>, [u64; 3], u64)> {
    let touch = |a: u64, z: u64| (a, vec![z], vec![0]);
    let nothing = (0, vec![1], vec![]);
    let largest = (255, vec![4_095, 4_095], (0..2_048).map(|step| step % 2).collect());
    let list = [
        (nothing.clone(), [7, 5, 0], 0),
        (nothing, [7, 5, 3], 3),
        (touch(0, 1), [7, 5, 0], 7 + 5),
        (touch(0, 999), [7, 5, 0], 7 + 5),
        (touch(0, 1_000), [7, 5, 0], 7 + 5),
        (touch(0, 1_001), [7, 5, 0], 2 * 7 + 5),
        (touch(1, 998), [7, 5, 0], 7 + 5),
        (touch(1, 999), [7, 5, 0], 7 + 5),
        (touch(1, 1_000), [7, 5, 0], 7 + 2 * 5),
        (touch(1, 1_000), [0, 5, 0], 2 * 5),
        (touch(1, 1_000), [7, 0, 0], 7),
        (touch(1, 1_000), [7, 5, 16], 17),
        (touch(1, 1_000), [7, 5, 17], 17),
        (touch(1, 1_000), [7, 5, 18], 18),
        (largest.clone(), [9_999, 9_999, 0], 21_467_473_038),
        (largest, [9_999, 9_999, 99_999], 21_467_473_038),
    ];
    let rows = vec![Row { h: 0, d: 1 }];
    let sheet = |(a, sizes, refs)| sheet_of(Kind::Space, a, sizes, rows.clone(), refs);
    list.map(|(parts, rates, cents)| (sheet(parts), rates, cents)).to_vec()
}

fn bill(bytes: &[u8], rates: [u64; 3], want: u64) -> Outcome {
    let mut cents = u64::MAX;
    done("bill", calls::bill(bytes, 0, rates, &mut cents))?;
    ensure(cents == want, || format!("bill: {cents} cents, wanted {want}"))?;
    // Each number out of range is 18, and 7 comes first.
    for place in 0..3 {
        let mut odd = rates;
        odd[place] = if place == 2 { 100_000 } else { 10_000 };
        for (row, number) in [(0, 18), (1, 7)] {
            let returned = calls::bill(bytes, row, odd, &mut cents);
            ensure((returned, cents) == (number, want), || {
                format!("bill: got {returned} at {odd:?}, wanted {number}")
            })?;
        }
    }
    Ok(())
}

/// P10.
fn all_zero(bytes: &[u8]) -> Outcome {
    ensure(figures(bytes, 0)? == [1, 2, 0, 0, 0, 0, 0, 0, 0, 0, 0], || "P10, row 0".to_string())?;
    ensure(figures(bytes, 1)? == [3, 1, 0, 0, 0, 0, 0, 0, 0, 0, 0], || "P10, row 1".to_string())
}

fn verdict(bytes: &[u8], number: u64) -> Outcome {
    let got = calls::check(bytes);
    ensure(got == number, || format!("check gives {got}, wanted {number}"))
}

/// Sheets and the number that each gets, 0 where it is accepted.
fn verdicts() -> Vec<(Vec<u8>, u64)> {
    let sheet = |a: &str, size: &str, rows: &str, refs: &str| {
        format!("kind=time\na={a}\nsegs=1\nsize={size}\n{rows}refs={refs}\n").into_bytes()
    };
    let row = "rows=1\nrow=1/2\n";
    let many = |count: usize| [sheet("0", "1", row, &count.to_string()), b"ref=0\n".repeat(count)].concat();
    let second = |steps: &str, refs: &str, touches: &str| {
        format!("form=2\nkind=time\na=0\nsegs=1\nsize=1\n{row}steps={steps}\nrefs={refs}\n{touches}").into_bytes()
    };
    let third = |segs: usize, warm: &str, holds: &str| {
        let sizes = "size=1\n".repeat(segs);
        let head = format!("form=3\nkind=time\na=0\nsegs={segs}\n{sizes}{row}");
        format!("{head}warm={warm}\n{holds}steps=0\nrefs=0\n").into_bytes()
    };
    let longest_second = longest_second_sheet();
    let longest_third = longest_third_sheet();
    let longest_fourth = longest_fourth_sheet();
    let fourth = |touches: &str| {
        let head = format!("form=4\nkind=time\na=0\nsegs=2\nsize=1\nsize=1\n{row}warm=0\n");
        format!("{head}steps=20\nrefs={}\n{touches}", touches.matches('\n').count()).into_bytes()
    };
    let longest = longest_sheet();
    let one_more = [&longest[..], b"\n"].concat();
    vec![
        (sheet("255", "1", row, "0"), 0),
        (sheet("256", "1", row, "0"), 4),
        (sheet("00", "1", row, "0"), 3),
        (sheet("0", "0", row, "0"), 4),
        (sheet("0", "4095", row, "0"), 0),
        (sheet("0", "4096", row, "0"), 4),
        (sheet("0", "1", "rows=2\nrow=1/2\nrow=2/4\n", "0"), 5),
        (sheet("0", "1", "rows=2\nrow=1/2\nrow=0/0\n", "0"), 4),
        (sheet("0", "1", "rows=2\nrow=1/2\nrow=0/x\n", "0"), 3),
        (sheet("0", "1", "rows=2\nrow=65534/65535\nrow=65535/65535\n", "0"), 0),
        (sheet("0", "1", "rows=2\nrow=65533/65534\nrow=65534/65535\n", "0"), 0),
        (sheet("0", "1", "rows=2\nrow=65534/65535\nrow=65533/65534\n", "0"), 5),
        (many(2_048), 0),
        (many(2_049), 4),
        (Vec::new(), 2),
        (b"kind=time".to_vec(), 2),
        (b"kind=tim".to_vec(), 2),
        (b"kind=tim\n".to_vec(), 3),
        (longest, 0),
        (one_more, 1),
        (vec![b'x'; 20_012], 2),
        (vec![b'x'; 20_013], 1),
        (second("1", "1", "ref=0@1\n"), 0),
        (second("0", "0", ""), 0),
        (second("7", "0", ""), 0),
        (second("0", "1", "ref=0@1\n"), 4),
        (second("2049", "0", ""), 4),
        (second("1", "1", "ref=0\n"), 3),
        (second("1", "1", "ref=0@\n"), 3),
        (second("1", "1", "ref=0@01\n"), 3),
        (second("1", "1", "ref=0@1w\n"), 3),
        (second("1", "1", "ref=1@2\n"), 4),
        (second("1", "1", "ref=0@0\n"), 16),
        (second("1", "1", "ref=0@2\n"), 16),
        (second("1", "1", "ref=0@18446744073709551617\n"), 16),
        (second("2", "2", "ref=0@1\nref=0@1\n"), 16),
        (second("2", "2", "ref=0@2\nref=0@1\n"), 16),
        (second("2", "2", "ref=0@3\nref=x\n"), 16),
        (second("2", "2", "ref=0@1\nref=0@2\n\n"), 6),
        (b"form=1\nkind=time\n".to_vec(), 4),
        (b"form=3\nkind=time\n".to_vec(), 2),
        (b"form=4\nkind=time\n".to_vec(), 2),
        (b"form=5\nkind=time\n".to_vec(), 4),
        (b"form=0".to_vec(), 2),
        (b"form=02\n".to_vec(), 3),
        (b"form".to_vec(), 2),
        (b"Form=2\n".to_vec(), 2),
        (longest_second.clone(), 0),
        ([&longest_second[..], b"\n"].concat(), 1),
        ([b"form=5\n", &[b'x'; 20_005][..]].concat(), 4),
        ([b"form=5\n", &[b'x'; 20_006][..]].concat(), 1),
        ([b"form=2", &[b'x'; 20_007][..]].concat(), 1),
        (third(2, "0", ""), 0),
        (third(2, "1", "hold=1\n"), 0),
        (third(2, "2", "hold=0\nhold=1\n"), 0),
        (third(2, "3", "hold=0\nhold=1\nhold=2\n"), 4),
        (third(2, "00", ""), 3),
        (third(2, "18446744073709551616", ""), 4),
        (third(2, "1", ""), 2),
        (third(2, "0", "hold=0\n"), 2),
        (third(2, "1", "hold=x\n"), 3),
        (third(2, "1", "hold=01\n"), 3),
        (third(2, "1", "hold=2\n"), 4),
        (third(2, "1", "hold=18446744073709551617\n"), 4),
        (third(3, "2", "hold=1\nhold=1\n"), 19),
        (third(3, "2", "hold=1\nhold=0\n"), 19),
        (third(3, "2", "hold=0\nhold=0\n"), 19),
        (third(3, "3", "hold=0\nhold=2\nhold=1\n"), 19),
        // Top down: 19 before 3 and 4 of later lines, and after 4 of an earlier one.
        (third(3, "3", "hold=1\nhold=1\nhold=x\n"), 19),
        (third(3, "3", "hold=1\nhold=1\nhold=3\n"), 19),
        (third(3, "2", "hold=3\nhold=3\n"), 4),
        (longest_third.clone(), 0),
        ([&longest_third[..], b"\n"].concat(), 1),
        (longest_third[..longest_third.len() - 1].to_vec(), 2),
        ([b"form=3\n", &[b'x'; 31_359][..]].concat(), 2),
        ([b"form=3\n", &[b'x'; 31_360][..]].concat(), 1),
        ([b"form=3", &[b'x'; 20_007][..]].concat(), 1),
        // The letter right after the step, in form 4 alone.
        (fourth("ref=0@1w\nref=1@20\n"), 0),
        (fourth("ref=0@1\nref=1@20w\n"), 0),
        (fourth("ref=0@10w\n"), 0),
        (fourth("ref=0@1W\n"), 3),
        (fourth("ref=0@1ww\n"), 3),
        (fourth("ref=0@w\n"), 3),
        (fourth("ref=0@1 w\n"), 3),
        (fourth("ref=0@1w \n"), 3),
        (fourth("ref=0@1w\r\n"), 3),
        (fourth("ref=0@1w1\n"), 3),
        (fourth("ref=0@w1\n"), 3),
        (fourth("ref=0w@1\n"), 3),
        (fourth("ref=w0@1\n"), 3),
        (fourth("ref=0@01w\n"), 3),
        (fourth("ref=0@1@1w\n"), 3),
        (fourth("ref=0@1w@1\n"), 3),
        (fourth("ref=0w\n"), 3),
        (fourth("ref=w\n"), 3),
        (fourth("ref=0@1x\n"), 3),
        (third(2, "0", "").iter().chain(b"ref=0@1w\n").copied().collect(), 6),
        (b"form=3\nkind=time\na=0\nsegs=1\nsize=1\nrows=1\nrow=1/2\nwarm=0\nsteps=1\nrefs=1\nref=0@1w\n".to_vec(), 3),
        (b"kind=time\na=0\nsegs=1\nsize=1\nrows=1\nrow=1/2\nrefs=1\nref=0w\n".to_vec(), 3),
        // 3, then 4, then 16, with the letter or without; top down.
        (fourth("ref=2@0w\n"), 4),
        (fourth("ref=2@0ww\n"), 3),
        (fourth("ref=0@0w\n"), 16),
        (fourth("ref=0@21w\n"), 16),
        (fourth("ref=0@21\n"), 16),
        (fourth("ref=0@18446744073709551617w\n"), 16),
        (fourth("ref=0@5w\nref=0@5w\n"), 16),
        (fourth("ref=0@5w\nref=0@4w\nref=x\n"), 16),
        (fourth("ref=0@5W\nref=0@4w\n"), 3),
        (fourth("ref=0@5w\nref=0@6w\n").strip_suffix(b"\n").unwrap_or_default().to_vec(), 2),
        ([&fourth("ref=0@5w\n")[..], b"w"].concat(), 6),
        (longest_fourth.clone(), 0),
        ([&longest_fourth[..], b"\n"].concat(), 1),
        (longest_fourth[..longest_fourth.len() - 1].to_vec(), 2),
        ([b"form=4\n", &[b'x'; 33_407][..]].concat(), 2),
        ([b"form=4\n", &[b'x'; 33_408][..]].concat(), 1),
        ([b"form=4", &[b'x'; 20_007][..]].concat(), 1),
        // The lines of form 3 in form 2.
        (b"form=2\nkind=time\na=0\nsegs=1\nsize=1\nrows=1\nrow=1/2\nwarm=0\nsteps=0\nrefs=0\n".to_vec(), 2),
    ]
}

/// A sheet of exactly 20,012 bytes.
fn longest_sheet() -> Vec<u8> {
    let rows = (0..64).map(|row| Row { h: 60_000 + row, d: 10_000 }).collect();
    let refs = (0..2_048).map(|step| 100 + step % 156).collect();
    sheet_of(Kind::Space, 255, vec![4_095; 256], rows, refs)
}

/// A sheet of form 2 of exactly 29,163 bytes.
fn longest_second_sheet() -> Vec<u8> {
    longest_of_form(2, Vec::new())
}

/// A sheet of form 3 of exactly 31,366 bytes.
fn longest_third_sheet() -> Vec<u8> {
    longest_of_form(3, (0..256).collect())
}

/// A sheet of form 4 of exactly 33,414 bytes: every touch modifies.
fn longest_fourth_sheet() -> Vec<u8> {
    longest_of_form(4, (0..256).collect())
}

fn longest_of_form(form: u64, warm: Vec<usize>) -> Vec<u8> {
    let rows = (0..64).map(|row| Row { h: 60_000 + row, d: 10_000 }).collect();
    let steps = (0..2_048).map(|step| Some(100 + step % 156)).collect();
    let marks = vec![true; 2_048];
    reference::write(&Sheet { form, kind: Kind::Space, a: 255, sizes: vec![4_095; 256], rows, warm, steps, marks })
}
