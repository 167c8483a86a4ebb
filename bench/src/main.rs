//! Measures the library beside the baseline.
//!
//! segtrace-bench [--milliseconds M]    M for each number of the table, 150 if not given
//!
//! Every number is the mean over 16 or more different sheets, taken in rotation, of the best time of each. Baseline and library take
//! turns, so that both meet the same load of the machine.

mod growth;
mod inputs;
mod requests;

use inputs::Input;
use plain::{Figures, Recorder, Sheet};
use std::hint::black_box;
use std::time::{Duration, Instant};

const READING: &str = "reading (check)";
const FIGURES: &str = "figures of one row, from bytes";
const ALL_FIGURES: &str = "all figures, from bytes";
const LISTING: &str = "listing, from bytes";
const PAGE: &str = "page, from bytes";

/// No call to be measured.
const NONE: Option<fn(usize)> = None;

fn main() {
    let budget = Duration::from_millis(milliseconds());
    floors(budget);
    println!(
        "baseline: plain Rust; library: libexports.a through the crate segtrace; ratio: library divided by baseline"
    );
    println!(
        "recorders take all references of a sheet, from a recorder started before; -: the library has no such call"
    );
    println!();
    println!(
        "{:<40} {:<36} {:>9} {:>9} {:>6}",
        "operation", "input (times in microseconds)", "baseline", "library", "ratio"
    );
    for input in Input::all() {
        Table { input, budget }.measure();
    }
    println!();
    requests::print(budget);
    println!();
    growth::print(budget);
}

fn milliseconds() -> u64 {
    let words: Vec<String> = std::env::args().skip(1).collect();
    match words.iter().map(String::as_str).collect::<Vec<_>>()[..] {
        [] => 150,
        ["--milliseconds", number] => number.parse().unwrap_or(150),
        _ => {
            println!("usage: segtrace-bench [--milliseconds M]");
            std::process::exit(2);
        }
    }
}

/// The best times of the calls for the numbers below a count.
struct Best(Vec<Duration>);

impl Best {
    fn new(count: usize) -> Best {
        Best(vec![Duration::MAX; count])
    }

    /// Calls once, for a number.
    fn time(&mut self, number: usize, call: impl FnOnce()) {
        let start = Instant::now();
        call();
        self.0[number] = start.elapsed().min(self.0[number]);
    }

    /// Calls once for each number.
    fn round(&mut self, call: &mut impl FnMut(usize)) {
        for number in 0..self.0.len() {
            self.time(number, || call(number));
        }
    }

    /// The mean in microseconds.
    fn mean(&self) -> f64 {
        self.0.iter().sum::<Duration>().as_secs_f64() * 1e6 / self.0.len() as f64
    }
}

/// The times of the baseline and the library, in rounds that take turns until the budget of both is spent.
fn times(
    budget: Duration,
    count: usize,
    mut baseline: impl FnMut(usize),
    library: Option<impl FnMut(usize)>,
) -> (f64, Option<f64>) {
    let begin = Instant::now();
    let mut library = library.map(|call| (call, Best::new(count)));
    let mut best = Best::new(count);
    let budget = if library.is_some() { 2 * budget } else { budget };
    let mut rounds = 0;
    while rounds < 20 || begin.elapsed() < budget {
        best.round(&mut baseline);
        if let Some((call, best)) = &mut library {
            best.round(call);
        }
        rounds += 1;
    }
    (best.mean(), library.map(|(_, best)| best.mean()))
}

/// What the memory alone costs.
fn floors(budget: Duration) {
    let sheets = Input::all()[0].sheets();
    let sum = |number: usize| {
        let bytes: &[u8] = black_box(&sheets[number]);
        black_box(bytes.iter().map(|&byte| u32::from(byte)).sum::<u32>());
    };
    let (time, _) = times(budget, sheets.len(), sum, NONE);
    println!("floor: sum over the {} bytes of the largest sheet  {time:.2} us", sheets[0].len());
    let mut one = vec![0u8; 65_536];
    let mut other = vec![0u8; 65_536];
    let fill_and_copy = |number: usize| {
        black_box(&mut one[..]).fill(number as u8);
        black_box(&mut other[..]).copy_from_slice(black_box(&one));
    };
    let (time, _) = times(budget, sheets.len(), fill_and_copy, NONE);
    println!("floor: fill and copy of 65,536 bytes  {time:.2} us");
}

/// The lines of one input.
struct Table {
    input: Input,
    budget: Duration,
}

impl Table {
    fn line(&self, operation: &str, count: usize, baseline: impl FnMut(usize), library: Option<impl FnMut(usize)>) {
        let title = self.input.title();
        let (baseline, library) = times(self.budget, count, baseline, library);
        let (shown, ratio) = match library {
            Some(library) => (format!("{library:.2}"), format!("{:.2}", library / baseline)),
            None => ("-".to_string(), "-".to_string()),
        };
        println!("{operation:<40} {title:<36} {baseline:>9.2} {shown:>9} {ratio:>6}");
    }

    fn measure(&self) {
        let bytes = self.input.sheets();
        let read: Vec<Sheet> = bytes.iter().map(|bytes| read(bytes)).collect();
        let row = self.input.rows as u64 / 2;
        let schedules: Vec<Vec<u8>> = read
            .iter()
            .map(|sheet| {
                let mut schedule = vec![0; 32 * sheet.refs];
                plain::optimal_schedule(sheet, row, &mut schedule).expect("the place is long enough");
                schedule
            })
            .collect();
        same_answers(&bytes, &read, row, &schedules);
        self.figures(&bytes, row);
        self.schedules(&bytes, row, &schedules);
        self.after_reading(&read, row, &schedules);
        self.recorder(&bytes, &read);
    }

    /// Reading, figures, the listing and the page, each from the bytes of a sheet.
    fn figures(&self, bytes: &[Vec<u8>], row: u64) {
        let count = bytes.len();
        let mut sheet = Sheet::empty();
        let mut list = [Figures::default(); Sheet::ROWS];
        let mut records = [segtrace::Figures::default(); segtrace::ROWS];
        let mut text = vec![0; segtrace::LISTING_BYTES];
        let mut other_text = text.clone();
        self.line(
            READING,
            count,
            |number| sheet.read(black_box(&bytes[number])).expect("a sheet"),
            Some(|number: usize| segtrace::check(black_box(&bytes[number])).expect("a sheet")),
        );
        self.line(
            FIGURES,
            count,
            |number| {
                sheet.read(black_box(&bytes[number])).expect("a sheet");
                black_box(plain::row_figures(&sheet, row).expect("a row"));
            },
            Some(|number: usize| {
                black_box(segtrace::figures(black_box(&bytes[number]), row).expect("a row"));
            }),
        );
        self.line(
            ALL_FIGURES,
            count,
            |number| {
                sheet.read(black_box(&bytes[number])).expect("a sheet");
                plain::all_figures(&sheet, black_box(&mut list)).expect("room");
            },
            Some(|number: usize| {
                segtrace::all_figures(black_box(&bytes[number]), black_box(&mut records)).expect("room");
            }),
        );
        self.line(
            LISTING,
            count,
            |number| {
                plain::listing(black_box(&bytes[number]), black_box(&mut text)).expect("room");
            },
            Some(|number: usize| {
                segtrace::listing(black_box(&bytes[number]), black_box(&mut other_text)).expect("room");
            }),
        );
        self.line(
            PAGE,
            count,
            |number| {
                plain::page(black_box(&bytes[number]), black_box(&mut text)).expect("room");
            },
            Some(|number: usize| {
                segtrace::page(black_box(&bytes[number]), black_box(&mut other_text)).expect("room");
            }),
        );
    }

    /// Writing the optimal schedule and pricing it, each from the bytes of a sheet.
    fn schedules(&self, bytes: &[Vec<u8>], row: u64, schedules: &[Vec<u8>]) {
        let count = bytes.len();
        let mut sheet = Sheet::empty();
        let mut other_sheet = Sheet::empty();
        let mut schedule = vec![0; segtrace::SCHEDULE_BYTES];
        let mut other_schedule = schedule.clone();
        self.line(
            "optimal schedule, from bytes",
            count,
            |number| {
                sheet.read(black_box(&bytes[number])).expect("a sheet");
                plain::optimal_schedule(&sheet, row, black_box(&mut schedule)).expect("room");
            },
            Some(|number: usize| {
                let place = black_box(&mut other_schedule);
                segtrace::optimal_schedule(black_box(&bytes[number]), row, place).expect("room");
            }),
        );
        self.line(
            "price of it, from bytes",
            count,
            |number| {
                other_sheet.read(black_box(&bytes[number])).expect("a sheet");
                black_box(plain::price(&other_sheet, row, black_box(&schedules[number])).expect("permitted"));
            },
            Some(|number: usize| {
                let schedule = black_box(&schedules[number]);
                black_box(segtrace::price(black_box(&bytes[number]), row, schedule).expect("permitted"));
            }),
        );
    }

    /// What comes after reading, of the baseline alone.
    fn after_reading(&self, read: &[Sheet], row: u64, schedules: &[Vec<u8>]) {
        let count = read.len();
        let mut list = [Figures::default(); Sheet::ROWS];
        let mut schedule = vec![0; 65_536];
        let figures = |number: usize| {
            plain::all_figures(black_box(&read[number]), black_box(&mut list)).expect("room");
        };
        self.line("  all figures, sheet read before", count, figures, NONE);
        let optimal = |number: usize| {
            plain::optimal_schedule(black_box(&read[number]), row, black_box(&mut schedule)).expect("room");
        };
        self.line("  optimal schedule, sheet read before", count, optimal, NONE);
        let price = |number: usize| {
            black_box(plain::price(black_box(&read[number]), row, black_box(&schedules[number])).expect("permitted"));
        };
        self.line("  price, sheet read before", count, price, NONE);
    }

    /// The recorder: every reference by a call, and all in one call.
    fn recorder(&self, bytes: &[Vec<u8>], read: &[Sheet]) {
        let count = bytes.len();
        let started: Vec<Recorder> = bytes.iter().map(|bytes| Recorder::start(bytes).expect("a sheet")).collect();
        let others: Vec<segtrace::Recorder> =
            bytes.iter().map(|bytes| segtrace::Recorder::start(bytes).expect("a sheet")).collect();
        self.line(
            "recorder, every reference by a call",
            count,
            |number| {
                let mut recorder = started[number].clone();
                for &segment in read[number].references() {
                    recorder.touch(black_box(segment as u64)).expect("room");
                }
                black_box(&recorder);
            },
            Some(|number: usize| {
                let mut recorder = others[number].clone();
                for &segment in read[number].references() {
                    recorder.touch(black_box(segment as u64)).expect("room");
                }
                black_box(&recorder);
            }),
        );
        self.line(
            "recorder, all references in bulk",
            count,
            |number| {
                let mut recorder = started[number].clone();
                recorder.touch_all(black_box(read[number].references())).expect("room");
                black_box(&recorder);
            },
            Some(|number: usize| {
                let mut recorder = others[number].clone();
                recorder.touch_all(black_box(read[number].references())).expect("room");
                black_box(&recorder);
            }),
        );
    }
}

fn read(bytes: &[u8]) -> Sheet {
    let mut sheet = Sheet::empty();
    sheet.read(bytes).expect("an accepted sheet");
    sheet
}

/// Stops where baseline and library give different answers of what is measured.
fn same_answers(bytes: &[Vec<u8>], read: &[Sheet], row: u64, schedules: &[Vec<u8>]) {
    for ((bytes, read), wanted) in bytes.iter().zip(read).zip(schedules) {
        let (mut ours, mut theirs) = (vec![0; 16_384], vec![0; 16_384]);
        let length = plain::listing(bytes, &mut ours).expect("room");
        assert!(segtrace::listing(bytes, &mut theirs) == Ok(length) && ours == theirs, "the listings differ");
        let length = plain::page(bytes, &mut ours).expect("room");
        assert!(segtrace::page(bytes, &mut theirs) == Ok(length) && ours == theirs, "the pages differ");
        let mut schedule = vec![0; wanted.len()];
        assert!(segtrace::optimal_schedule(bytes, row, &mut schedule) == Ok(wanted.len()), "the lengths differ");
        assert!(&schedule == wanted, "the schedules differ");
        let price = plain::price(read, row, wanted).expect("permitted");
        let other = segtrace::price(bytes, row, wanted).expect("permitted");
        assert!(
            [price.memory, price.load, price.total] == [other.memory, other.load, other.total],
            "the prices differ"
        );
        let mut list = [Figures::default(); Sheet::ROWS];
        let mut records = [segtrace::Figures::default(); segtrace::ROWS];
        let rows = plain::all_figures(read, &mut list).expect("room");
        assert!(segtrace::all_figures(bytes, &mut records) == Ok(rows), "the rows differ");
        let mut by_calls = segtrace::Recorder::start(bytes).expect("a sheet");
        let mut in_bulk = by_calls.clone();
        in_bulk.touch_all(read.references()).expect("room");
        read.references().iter().for_each(|&segment| by_calls.touch(segment as u64).expect("room"));
        for row in 0..rows {
            let figures = segtrace::Recorder::figures(&by_calls, row as u64).expect("a row");
            assert!(records[row].items() == list[row].items(), "the figures differ");
            assert!(figures == records[row] && by_calls == in_bulk, "the recorders differ");
        }
    }
}
