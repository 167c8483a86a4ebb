//! The window recursion (F-12): the second implementation, the recursion, against the row definition at every window; sheets of kind time,
//! a=0 and sizes 1, examples worked by hand, and wrong answers.

use crate::calls;
use crate::compare::{done, ensure, Case, Outcome};
use crate::frames::{nearly, of_pages, pages_of};
use crate::generate::Prng;
use crate::reference::{self, Intervals, Kind, Row, Sheet};
use crate::vectors::Check;
use crate::wrong::{self, Call, Way};

// ---- The second implementation ----

/// wsocc for every window from 1 to steps, or the number of the refusal.
pub fn windows(bytes: &[u8]) -> Result<Vec<u64>, u64> {
    let sheet = of_kind_time(reference::read(bytes)?).and_then(of_pages)?;
    Ok(recursion(sheet.references().len() as u64, &lengths(&sheet), 1..=sheet.steps.len() as u64))
}

/// A sheet of kind time with a=0; 28 before 26 and 27.
fn of_kind_time(sheet: Sheet) -> Result<Sheet, u64> {
    if sheet.kind != Kind::Time || sheet.a != 0 {
        return Err(28);
    }
    Ok(sheet)
}

/// The lengths of the reuses and end intervals, in steps.
fn lengths(sheet: &Sheet) -> Vec<u64> {
    let Intervals { reuses, ends } = Intervals::of(sheet);
    let unreferenced = reuses.into_iter().map(|(_, interval)| interval).chain(ends);
    unreferenced.flatten().map(|unreferenced| unreferenced + 1).collect()
}

/// The first value; then each window adds the number of intervals longer than it for the next.
fn recursion(first: u64, lengths: &[u64], windows: impl Iterator<Item = u64>) -> Vec<u64> {
    let mut next = first;
    let mut list = Vec::new();
    for window in windows {
        list.push(next);
        next += lengths.iter().filter(|&&length| length > window).count() as u64;
    }
    list
}

// ---- Sheets ----

impl Case<'_> {
    /// The sheet itself, whatever it is, and sheets of kind time, a=0 and sizes 1 made of it.
    pub fn windows(&mut self) -> Outcome {
        let bytes = self.bytes;
        self.window_list(bytes)?;
        let Ok(sheet) = reference::read(bytes) else { return Ok(()) };
        if sheet.steps.len() > 300 && !self.prng.one_in(4) {
            return Ok(());
        }
        let pages = Sheet { kind: Kind::Time, a: 0, ..pages_of(&mut self.prng, &sheet) };
        self.window_list(&reference::write(&pages))?;
        let other = not_quite(&mut self.prng, &sheet, pages);
        self.window_list(&reference::write(&other))
    }

    /// The call on a run of bytes.
    fn window_list(&mut self, bytes: &[u8]) -> Outcome {
        self.on(bytes);
        let want = windows(bytes);
        let shown = |message| format!("{message}; the sheet of sizes 1:\n{}", bytes.escape_ascii());
        let answer = want.as_deref().map_err(|&number| number);
        self.call("windows", answer, |out, written| calls::windows(bytes, out, written)).map_err(shown)?;
        if self.prng.one_in(4) {
            self.safe("windows", segtrace::windows(bytes), want.clone()).map_err(shown)?;
            let mut out = vec![0; want.as_ref().map_or(0, Vec::len)];
            let got = segtrace::windows_into(bytes, &mut out);
            self.safe("windows_into", got, want.clone().map(|list| list.len())).map_err(shown)?;
        }
        match want {
            Ok(list) => self.row_definition(bytes, &list).map_err(shown),
            Err(_) => Ok(()),
        }
    }

    /// The value at a window T is wsocc at the row T - 1 over 1: by the reference at every window, and by the figures of sheets with this
    /// one row, at every window of a short record and at some of a long one.
    fn row_definition(&mut self, bytes: &[u8], list: &[u64]) -> Outcome {
        const WSOCC: usize = 9;
        let mut sheet = reference::read(bytes).expect("a sheet");
        let intervals = Intervals::of(&sheet);
        for (h, &value) in (0..).zip(list) {
            let figures = reference::figures(&sheet, &intervals, Row { h, d: 1 });
            ensure(figures[WSOCC] == value, || {
                format!("the reference's wsocc at {h}/1 is {}, not {value}", figures[WSOCC])
            })?;
        }
        let all: Vec<usize> = (0..list.len()).collect();
        let windows: Vec<usize> =
            if list.len() <= 40 { all } else { (0..5).map(|_| self.prng.pick(&all)).chain([list.len() - 1]).collect() };
        for place in windows {
            let h = place as u64;
            sheet.rows = vec![Row { h, d: 1 }];
            let mut figures = [0; 11];
            done("figures", calls::figures(&reference::write(&sheet), 0, &mut figures))?;
            self.tally.note(0);
            ensure(figures[WSOCC] == list[place], || {
                format!(
                    "windows: {} at the window {}, but wsocc at {h}/1 is {}",
                    list[place],
                    place + 1,
                    figures[WSOCC]
                )
            })?;
        }
        Ok(())
    }
}

/// A sheet that is refused with 28, 26 or 27, mostly by more than one of them.
fn not_quite(prng: &mut Prng, sheet: &Sheet, pages: Sheet) -> Sheet {
    let other = if prng.one_in(3) { pages } else { nearly(prng, sheet, pages) };
    match prng.below(4) {
        0 => other,
        1 => Sheet { kind: Kind::Space, ..other },
        2 => Sheet { a: prng.pick(&[1, 255]), ..other },
        _ => Sheet { kind: Kind::Space, a: 1, ..other },
    }
}

// ---- Examples ----

/// Segment and step of each touch.
type Touches<'a> = &'a [(usize, usize)];

/// Table 2 of document 000, the small ones worked by hand, and refused sheets.
pub fn examples() -> Vec<(Vec<u8>, Check)> {
    let table: &[u8] = include_bytes!("../../examples/windows.sheet");
    // The table ends at 14.
    let values = [15, 28, 39, 48, 51, 53, 54, 55, 56, 57, 58, 58, 58, 58, 58];
    let mut list: Vec<(Vec<u8>, Check)> =
        vec![(table.to_vec(), Box::new(move |bytes| gives(bytes, &Ok(values.to_vec()))))];
    let mut add = |sheet: String, want: Result<Vec<u64>, u64>| {
        list.push((sheet.into_bytes(), Box::new(move |bytes| gives(bytes, &want))));
    };
    let sheet = |kind: &str, a: u64, sizes: &[u64], holds: &str, steps: usize, touches: Touches| {
        let sizes_text: String = sizes.iter().map(|size| format!("size={size}\n")).collect();
        let head = format!("form=3\nkind={kind}\na={a}\nsegs={}\n{sizes_text}rows=1\nrow=1/1\n", sizes.len());
        let warm = holds.matches('\n').count();
        let refs: String = touches.iter().map(|(segment, step)| format!("ref={segment}@{step}\n")).collect();
        format!("{head}warm={warm}\n{holds}steps={steps}\nrefs={}\n{refs}", touches.len())
    };
    let records: [(usize, Touches, &[u64]); 9] = [
        // No step: no window.
        (0, &[], &[]),
        (3, &[], &[0, 0, 0]),
        (1, &[(0, 1)], &[1]),
        // The end interval has 3 steps, then 1.
        (3, &[(0, 1)], &[1, 2, 3]),
        (3, &[(0, 3)], &[1, 1, 1]),
        (3, &[(0, 1), (0, 2), (0, 3)], &[3, 3, 3]),
        // Two reuses of 2 steps, end intervals of 2 and 1.
        (4, &[(0, 1), (1, 2), (0, 3), (1, 4)], &[4, 7, 7, 7]),
        // Idle steps: a reuse of 3 steps, end intervals of 4 and 1.
        (7, &[(0, 1), (0, 4), (1, 7)], &[3, 5, 7, 8, 8, 8, 8]),
        (2, &[(1, 2)], &[1, 1]),
    ];
    for (steps, touches, want) in records {
        add(sheet("time", 0, &[1, 1, 1], "", steps, touches), Ok(want.to_vec()));
    }
    let one = &[(0, 1)];
    add(sheet("space", 0, &[1], "", 1, one), Err(28));
    add(sheet("time", 1, &[1], "", 1, one), Err(28));
    add(sheet("time", 255, &[2], "hold=0\n", 1, one), Err(28));
    add(sheet("space", 0, &[2], "hold=0\n", 0, &[]), Err(28));
    add(sheet("time", 0, &[1, 2], "hold=0\n", 1, one), Err(26));
    add(sheet("time", 0, &[2, 1], "", 0, &[]), Err(26));
    add(sheet("time", 0, &[1, 1], "hold=1\n", 1, one), Err(27));
    add(sheet("time", 0, &[1], "hold=0\n", 0, &[]), Err(27));
    list
}

fn gives(bytes: &[u8], want: &Result<Vec<u64>, u64>) -> Outcome {
    let mut out = vec![0; reference::MOST_STEPS];
    let mut written = 0;
    let returned = calls::windows(bytes, &mut out, &mut written);
    let got = if returned == 0 { Ok(out[..written as usize].to_vec()) } else { Err(returned) };
    ensure(got == *want, || format!("windows: got {got:?}, wanted {want:?}"))
}

// ---- Wrong answers ----

pub const WRONG: [(Call, Way); 17] = [
    (Call::Windows, Way::NotRefused(26)),
    (Call::Windows, Way::NotRefused(27)),
    (Call::Windows, Way::NotRefused(28)),
    (Call::Windows, Way::Named("26 before 28")),
    (Call::Windows, Way::Named("27 before 28")),
    (Call::Windows, Way::Named("27 before 26")),
    (Call::Windows, Way::Named("kind not asked")),
    (Call::Windows, Way::Named("a not asked")),
    (Call::Windows, Way::Named("intervals as long as the window count")),
    (Call::Windows, Way::Named("end intervals left out")),
    (Call::Windows, Way::Named("end intervals to the last step")),
    (Call::Windows, Way::Named("end intervals of segments never touched")),
    (Call::Windows, Way::Named("first touches as intervals")),
    (Call::Windows, Way::Named("steps for refs")),
    (Call::Windows, Way::Named("idle steps left out")),
    (Call::Windows, Way::Named("windows from 0")),
    (Call::Windows, Way::Named("as many numbers as references")),
];

/// The answer with the mistake that is put in, if one is.
pub fn mistaken(bytes: &[u8]) -> Option<Result<Vec<u64>, u64>> {
    match wrong::way(Call::Windows) {
        Some(Way::Named(name)) => Some(with_mistake(name, bytes)),
        _ => None,
    }
}

fn with_mistake(name: &str, bytes: &[u8]) -> Result<Vec<u64>, u64> {
    let mut sheet = reference::read(bytes)?;
    let of_sizes = |sheet: &Sheet| sheet.sizes.iter().any(|&size| size != 1);
    match name {
        "26 before 28" if of_sizes(&sheet) => return Err(26),
        "27 before 28" if !sheet.warm.is_empty() && !of_sizes(&sheet) => return Err(27),
        "27 before 26" if !sheet.warm.is_empty() && sheet.kind == Kind::Time && sheet.a == 0 => return Err(27),
        "kind not asked" => sheet.kind = Kind::Time,
        "a not asked" => sheet.a = 0,
        _ => {}
    }
    let mut sheet = of_kind_time(sheet).and_then(of_pages)?;
    if name == "idle steps left out" {
        sheet.steps.retain(Option::is_some);
    }
    let steps = sheet.steps.len() as u64;
    let mut refs = sheet.references().len() as u64;
    let mut lengths = lengths(&sheet);
    let Intervals { reuses, ends } = Intervals::of(&sheet);
    match name {
        "intervals as long as the window count" => lengths.iter_mut().for_each(|length| *length += 1),
        "end intervals left out" => {
            lengths = reuses.iter().filter_map(|(_, interval)| Some((*interval)? + 1)).collect()
        }
        "end intervals to the last step" => {
            lengths = reuses
                .iter()
                .filter_map(|(_, interval)| Some((*interval)? + 1))
                .chain(ends.into_iter().flatten())
                .collect();
        }
        "end intervals of segments never touched" => {
            lengths.extend(ends.iter().filter(|end| end.is_none()).map(|_| steps + 1));
        }
        "first touches as intervals" => {
            lengths.extend(reuses.iter().filter(|(_, reuse)| reuse.is_none()).map(|_| u64::MAX))
        }
        "steps for refs" => refs = steps,
        _ => {}
    }
    let mut list = recursion(refs, &lengths, 1..=steps);
    match name {
        "windows from 0" => {
            list.insert(0, 0);
            list.pop();
        }
        "as many numbers as references" => list.truncate(refs as usize),
        _ => {}
    }
    Ok(list)
}
