//! Compares every call of the segment trace analyser with a plain reference on random sheets.
//!
//! segtrace-tests [SHEETS [SEED]] [--sheets N] [--seed S] [--seconds T] [--case C] [--trace 1]

mod calls;
mod compare;
mod crash;
mod enumerate;
mod frames;
mod generate;
mod import;
mod join;
mod mistakes;
mod modified;
mod place;
mod points;
mod recorder;
mod reference;
mod tally;
mod vectors;
mod windows;
mod wrapper;
mod wrong;

use compare::{Case, Outcome};
use generate::{Prng, Shape};
use reference::Sheet;
use std::cell::Cell;
use std::panic::{catch_unwind, AssertUnwindSafe};
use std::process::exit;
use std::sync::atomic::{AtomicU64, Ordering};
use std::sync::Mutex;
use std::time::{Duration, Instant};
use tally::Tally;

struct Arguments {
    /// How many sheets, unless a time is given.
    sheets: u64,
    seed: u64,
    /// Goes on for so many seconds.
    seconds: Option<u64>,
    /// Runs this case alone.
    case: Option<u64>,
    /// Prints the number of each case before it runs, for the case that ends the program.
    trace: bool,
}

/// What runs: an example of the documents, or a case of a seed.
#[derive(Clone, Copy)]
enum Run {
    Example(usize),
    Case { seed: u64, case: u64 },
}

thread_local! {
    static NOW: Cell<Run> = const { Cell::new(Run::Example(0)) };
}

impl Run {
    fn name(self) -> String {
        match self {
            Run::Example(number) => format!("example {number} of the documents"),
            Run::Case { seed, case } => {
                format!("seed {seed}, case {case}; again: tests/run --seed {seed} --case {case}")
            }
        }
    }

    /// The sheet.
    fn bytes(self) -> Vec<u8> {
        match self {
            Run::Example(number) => vectors::sheet(number),
            Run::Case { seed, case } => Given::of_case(seed, case).bytes,
        }
    }
}

fn main() {
    let arguments = arguments();
    let seed = arguments.seed;
    name_the_case_on_panic();
    crash::watch();
    let mut tally = Tally::default();
    match vectors::run(&mut tally) {
        Ok(count) => println!("examples of the documents: {count}, all equal"),
        Err(message) => fail(NOW.get(), &message),
    }
    if let Some(case) = arguments.case {
        run_case(seed, case, &mut tally).unwrap_or_else(|message| fail(NOW.get(), &message));
        println!("seed {seed}, case {case}: equal");
        return;
    }
    find_wrong_answers(seed);
    let sheets = run_sheets(&arguments, &mut tally);
    println!("how often each refusal was reached:\n{}", tally.lines());
    let missing = tally.missing();
    if !missing.is_empty() {
        println!("FAILED: never reached: {missing:?}");
        exit(1);
    }
    println!("seed {seed}: {sheets} sheets, {} calls compared, all equal", tally.calls());
}

/// Runs the sheets in as many threads as the machine has processors, and gives how many they were.
fn run_sheets(arguments: &Arguments, tally: &mut Tally) -> u64 {
    let start = Instant::now();
    let next = AtomicU64::new(0);
    let goes_on = |case: u64| match arguments.seconds {
        Some(seconds) => start.elapsed() < Duration::from_secs(seconds),
        None => case < arguments.sheets,
    };
    let work = || {
        let mut tally = Tally::default();
        let mut sheets = 0;
        loop {
            let case = next.fetch_add(1, Ordering::Relaxed);
            if !goes_on(case) {
                return (sheets, tally);
            }
            if arguments.trace {
                println!("case {case}");
            }
            run_case(arguments.seed, case, &mut tally).unwrap_or_else(|message| fail(NOW.get(), &message));
            sheets += 1;
        }
    };
    let processors = if arguments.trace { 1 } else { std::thread::available_parallelism().map_or(1, usize::from) };
    std::thread::scope(|scope| {
        let threads: Vec<_> = (0..processors).map(|_| scope.spawn(work)).collect();
        let ended = threads.into_iter().map(|thread| thread.join().expect("a thread that ended"));
        ended.fold(0, |all, (sheets, counted)| {
            tally.add(&counted);
            all + sheets
        })
    })
}

fn run_case(seed: u64, case: u64, tally: &mut Tally) -> Outcome {
    NOW.set(Run::Case { seed, case });
    let Given { prng, sheet, damaged, bytes } = Given::of_case(seed, case);
    let outcome = catch_unwind(AssertUnwindSafe(|| -> Outcome {
        if !damaged && reference::read(&bytes).as_ref() != Ok(&sheet) {
            return Err("the reference does not read the sheet that was written".to_string());
        }
        Case { prng, bytes: &bytes, tally }.run()
    }));
    tally.end_of_sheet();
    outcome.unwrap_or_else(|_| Err("a panic".to_string()))
}

/// What a case is run on.
struct Given {
    prng: Prng,
    sheet: Sheet,
    damaged: bool,
    bytes: Vec<u8>,
}

impl Given {
    fn of_case(seed: u64, case: u64) -> Given {
        let mut prng = Prng::of_case(seed, case);
        let shape = Shape::random(&mut prng);
        let sheet = generate::sheet(&mut prng, shape);
        let damaged = prng.one_in(3);
        let bytes = if damaged { generate::damaged(&mut prng, &sheet) } else { reference::write(&sheet) };
        Given { prng, sheet, damaged, bytes }
    }
}

/// Puts in every wrong answer, one at a time, and runs sheets until a comparison fails.
fn find_wrong_answers(seed: u64) {
    const MOST: u64 = 20_000;
    let all = wrong::all();
    let mut most = 0;
    for (place, (call, way)) in all.iter().enumerate() {
        wrong::put_in(place);
        match (0..MOST).find(|&case| run_case(seed, case, &mut Tally::default()).is_err()) {
            Some(case) => most = most.max(case + 1),
            None => {
                println!("FAILED: a wrong answer of {call:?} ({way:?}) was not found in {MOST} sheets");
                exit(1);
            }
        }
    }
    wrong::put_in(usize::MAX);
    println!("wrong answers put in: {}, all found, each within {most} sheets", all.len());
}

/// A panic says in which case it happened, also where it ends the program at once.
fn name_the_case_on_panic() {
    let hook = std::panic::take_hook();
    std::panic::set_hook(Box::new(move |information| {
        println!("panic in {}", NOW.get().name());
        hook(information);
    }));
}

/// Prints what failed and the sheet, and ends the program.
fn fail(run: Run, message: &str) -> ! {
    static ONE: Mutex<()> = Mutex::new(());
    let _one = ONE.lock();
    println!("FAILED: {}", run.name());
    println!("{message}");
    let bytes = run.bytes();
    println!("the sheet, {} bytes:", bytes.len());
    for line in bytes.split_inclusive(|&byte| byte == b'\n') {
        println!("{}", line.escape_ascii());
    }
    exit(1);
}

fn arguments() -> Arguments {
    let mut arguments = Arguments { sheets: 100_000, seed: 1, seconds: None, case: None, trace: false };
    let mut words = std::env::args().skip(1);
    let mut plain = 0;
    while let Some(word) = words.next() {
        if let Ok(number) = word.parse() {
            match plain {
                0 => arguments.sheets = number,
                1 => arguments.seed = number,
                _ => usage(),
            }
            plain += 1;
            continue;
        }
        let value = words.next().and_then(|value| value.parse().ok());
        match (word.as_str(), value) {
            ("--sheets", Some(value)) => arguments.sheets = value,
            ("--seed", Some(value)) => arguments.seed = value,
            ("--seconds", Some(value)) => arguments.seconds = Some(value),
            ("--case", Some(value)) => arguments.case = Some(value),
            ("--trace", Some(value)) => arguments.trace = value != 0,
            _ => usage(),
        }
    }
    arguments
}

fn usage() -> ! {
    println!("usage: segtrace-tests [SHEETS [SEED]] [--sheets N] [--seed S] [--seconds T] [--case C] [--trace 1]");
    exit(2);
}
