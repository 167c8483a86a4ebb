//! How the times grow with the rows and the references, on sheets of 256 segments. The sheets of many and of few take turns, so that all
//! meet the same load of the machine.

use crate::inputs::{Input, Pattern};
use crate::{Best, ALL_FIGURES, FIGURES, LISTING, READING};
use plain::{Figures, Sheet};
use std::hint::black_box;
use std::time::{Duration, Instant};

/// How many sheets of each pattern are measured.
const SHEETS: usize = 16;

/// Rows and references of the sheets that are compared.
const SIZES: [(usize, usize); 4] = [(64, 2_048), (1, 2_048), (64, 256), (1, 256)];

/// What is compared: title, the place of the many in `SIZES`, that of the few.
const COMPARED: [(&str, usize, usize); 4] = [
    ("rows 64 / rows 1, refs 2048", 0, 1),
    ("rows 64 / rows 1, refs  256", 2, 3),
    ("refs 2048 / refs 256, rows 64", 0, 2),
    ("refs 2048 / refs 256, rows  1", 1, 3),
];

/// The memory that the calls write to.
struct Places {
    sheet: Sheet,
    list: [Figures; Sheet::ROWS],
    records: [segtrace::Figures; segtrace::ROWS],
    text: Vec<u8>,
}

type Call = fn(&[u8], &mut Places);

/// An operation of the baseline and of the library.
const OPERATIONS: [(&str, Call, Call); 4] = [
    (
        READING,
        |bytes, places| places.sheet.read(bytes).expect("a sheet"),
        |bytes, _| segtrace::check(bytes).expect("a sheet"),
    ),
    (
        FIGURES,
        |bytes, places| {
            places.sheet.read(bytes).expect("a sheet");
            black_box(plain::row_figures(&places.sheet, 0).expect("a row"));
        },
        |bytes, _| {
            black_box(segtrace::figures(bytes, 0).expect("a row"));
        },
    ),
    (
        ALL_FIGURES,
        |bytes, places| {
            places.sheet.read(bytes).expect("a sheet");
            plain::all_figures(&places.sheet, black_box(&mut places.list)).expect("room");
        },
        |bytes, places| {
            segtrace::all_figures(bytes, black_box(&mut places.records)).expect("room");
        },
    ),
    (
        LISTING,
        |bytes, places| {
            plain::listing(bytes, black_box(&mut places.text)).expect("room");
        },
        |bytes, places| {
            segtrace::listing(bytes, black_box(&mut places.text)).expect("room");
        },
    ),
];

/// The sheets of some rows and references, of every pattern.
fn sheets((rows, refs): (usize, usize)) -> Vec<Vec<u8>> {
    let of = |pattern| Input { name: "growth", longest: false, segs: 256, rows, refs, pattern }.sheets();
    [Pattern::Uniform, Pattern::Cyclic, Pattern::Local]
        .into_iter()
        .flat_map(|pattern| of(pattern).into_iter().take(SHEETS))
        .collect()
}

/// The times of a call for each of the sizes, in rounds that take turns.
fn times(budget: Duration, bytes: &[Vec<Vec<u8>>], places: &mut Places, calls: [Call; 2]) -> [[f64; 2]; 4] {
    let count = bytes[0].len();
    let mut best: [[Best; 2]; 4] = std::array::from_fn(|_| std::array::from_fn(|_| Best::new(count)));
    let begin = Instant::now();
    let mut rounds = 0;
    while rounds < 20 || begin.elapsed() < 8 * budget {
        for number in 0..count {
            for (best, bytes) in best.iter_mut().zip(bytes) {
                for (best, call) in best.iter_mut().zip(calls) {
                    best.time(number, || call(black_box(&bytes[number]), places));
                }
            }
        }
        rounds += 1;
    }
    best.map(|both| both.map(|best| best.mean()))
}

/// Prints the times of many rows and references, divided by those of few.
pub fn print(budget: Duration) {
    let bytes: Vec<Vec<Vec<u8>>> = SIZES.into_iter().map(sheets).collect();
    let mut places = Places {
        sheet: Sheet::empty(),
        list: [Figures::default(); Sheet::ROWS],
        records: [segtrace::Figures::default(); segtrace::ROWS],
        text: vec![0; segtrace::LISTING_BYTES],
    };
    println!("{:<40} {:<36} {:>9} {:>9}", "growth", "256 segments, all patterns", "baseline", "library");
    for (operation, baseline, library) in OPERATIONS {
        let times = times(budget, &bytes, &mut places, [baseline, library]);
        for (title, many, few) in COMPARED {
            let [ours, theirs] = [0, 1].map(|who| times[many][who] / times[few][who]);
            println!("{operation:<40} {title:<36} {ours:>9.2} {theirs:>9.2}");
        }
    }
}
