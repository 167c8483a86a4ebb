//! LRU frames (F-9) and how far the list is walked (F-10): the second implementation, a simulation with time stamps, against both calls;
//! sheets of sizes 1, examples worked by hand, and wrong answers.

use crate::calls;
use crate::compare::{ensure, Case, Outcome};
use crate::generate::Prng;
use crate::reference::{self, Kind, Row, Sheet};
use crate::vectors::Check;
use crate::wrong::{self, Call, Way};
use std::cell::RefCell;

// ---- The second implementation ----

/// The misses of least-recently-used replacement with 1, 2, .., segs frames, or the number of the refusal.
pub fn lru(bytes: &[u8]) -> Result<Vec<u64>, u64> {
    let sheet = of_pages(reference::read(bytes)?)?;
    let segs = sheet.sizes.len();
    Ok((1..=segs).map(|frames| misses(segs, &touches(&sheet), frames)).collect())
}

/// A sheet with every size 1 and no warm segment; 26 before 27.
pub fn of_pages(sheet: Sheet) -> Result<Sheet, u64> {
    if sheet.sizes.iter().any(|&size| size != 1) {
        return Err(26);
    }
    if !sheet.warm.is_empty() {
        return Err(27);
    }
    Ok(sheet)
}

/// The segments touched, one after another; idle steps play no part.
fn touches(sheet: &Sheet) -> Vec<usize> {
    sheet.steps.iter().copied().flatten().collect()
}

/// One memory of so many frames: each segment in it has the time of its last touch, and the one with the earliest leaves.
fn misses(segs: usize, touches: &[usize], frames: usize) -> u64 {
    let mut stamps: Vec<Option<usize>> = vec![None; segs];
    let mut held = 0;
    let mut misses = 0;
    for (time, &segment) in touches.iter().enumerate() {
        if stamps[segment].is_none() {
            misses += 1;
            held += 1;
            if held > frames {
                let earliest = stamps.iter().filter_map(|stamp| *stamp).min().expect("a held segment");
                stamps.iter_mut().filter(|stamp| **stamp == Some(earliest)).for_each(|stamp| *stamp = None);
                held -= 1;
            }
        }
        stamps[segment] = Some(time);
    }
    misses
}

/// The entries of the recency list that the pass of a sheet looks at, 0 where it is refused.
fn looked(bytes: &[u8]) -> u64 {
    let sheet = reference::read(bytes).and_then(of_pages);
    sheet.map_or(0, |sheet| entries(&touches(&sheet)).iter().sum())
}

/// The entries that each touch looks at: the distinct segments touched since the last touch of its own, which counts too, or all that were
/// touched before.
fn entries(touches: &[usize]) -> Vec<u64> {
    let count = |(time, segment)| {
        let last = touches[..time].iter().rposition(|other| other == segment);
        distinct(&touches[last.unwrap_or(0)..time])
    };
    touches.iter().enumerate().map(count).collect()
}

/// How many segments there are among some touches.
fn distinct(touches: &[usize]) -> u64 {
    let mut segments = touches.to_vec();
    segments.sort_unstable();
    segments.dedup();
    segments.len() as u64
}

// ---- Sheets ----

impl Case<'_> {
    /// The sheet itself, whatever it is, and sheets of sizes 1 made of it.
    pub fn frames(&mut self) -> Outcome {
        let bytes = self.bytes;
        self.curve(bytes)?;
        let Ok(sheet) = reference::read(bytes) else { return Ok(()) };
        if sheet.steps.len() > 300 && !self.prng.one_in(4) {
            return Ok(());
        }
        let pages = pages_of(&mut self.prng, &sheet);
        self.curve(&reference::write(&pages))?;
        let nearly = nearly(&mut self.prng, &sheet, pages);
        self.curve(&reference::write(&nearly))
    }

    /// Both calls on a run of bytes.
    fn curve(&mut self, bytes: &[u8]) -> Outcome {
        self.on(bytes);
        let want = lru(bytes);
        let shown = |message| format!("{message}; the sheet of sizes 1:\n{}", bytes.escape_ascii());
        let answer = want.as_deref().map_err(|&number| number);
        self.walk(bytes, answer).map_err(shown)?;
        self.call("lru_plain", answer, |out, written| calls::lru_plain(bytes, out, written)).map_err(shown)?;
        if self.prng.one_in(4) {
            let exact = want.as_ref().map_or(0, Vec::len);
            let length = want.clone().map(|list| list.len());
            let looked = looked(bytes);
            let curve = want.clone().map(|misses| segtrace::Lru { misses, looked });
            self.safe("lru", segtrace::lru(bytes), curve).map_err(shown)?;
            let both = length.map(|length| (length, looked));
            self.safe("lru_into", segtrace::lru_into(bytes, &mut vec![0; exact]), both).map_err(shown)?;
            self.safe("lru_plain", segtrace::lru_plain(bytes), want.clone()).map_err(shown)?;
            self.safe("lru_plain_into", segtrace::lru_plain_into(bytes, &mut vec![0; exact]), length).map_err(shown)?;
        }
        match want {
            Ok(list) => falls(bytes, &list).map_err(shown),
            Err(_) => Ok(()),
        }
    }

    /// The pass, and the entries that it looks at: none are reported where it is refused.
    fn walk(&mut self, bytes: &[u8], answer: Result<&[u64], u64>) -> Outcome {
        let old = self.prng.next();
        let reports = RefCell::new(Vec::new());
        self.call("lru", answer, |out, written| {
            let mut looked = old;
            let returned = calls::lru(bytes, out, written, &mut looked);
            reports.borrow_mut().push((returned, looked));
            returned
        })?;
        let want = looked(bytes);
        let wrong =
            reports.into_inner().into_iter().find(|&(number, looked)| looked != if number == 0 { want } else { old });
        ensure(wrong.is_none(), || format!("lru, entries looked at: {wrong:?}, wanted {want}, {old} where refused"))
    }
}

/// The misses fall with the frames, down to one for each segment touched; and the entries looked at are within their bound.
fn falls(bytes: &[u8], list: &[u64]) -> Outcome {
    let touched = touches(&reference::read(bytes).expect("a sheet"));
    let least = distinct(&touched);
    ensure(list.windows(2).all(|pair| pair[0] >= pair[1]), || "the reference's misses rise".to_string())?;
    ensure(list[(least as usize).saturating_sub(1)..].iter().all(|&misses| misses == least), || {
        "the reference misses more than each segment once".to_string()
    })?;
    ensure(looked(bytes) <= touched.len() as u64 * least, || "the reference looks too far".to_string())
}

/// The sheet with every size 1 and no warm segment, in any form that it can have.
pub fn pages_of(prng: &mut Prng, sheet: &Sheet) -> Sheet {
    let lowest = if sheet.steps.contains(&None) { 2 } else { 1 };
    Sheet {
        form: prng.between(lowest, reference::NEWEST_FORM),
        sizes: vec![1; sheet.sizes.len()],
        warm: Vec::new(),
        ..sheet.clone()
    }
}

/// A sheet of sizes 1 with one size that is another, or with warm segments, or both.
pub fn nearly(prng: &mut Prng, sheet: &Sheet, mut pages: Sheet) -> Sheet {
    let which = prng.below(3);
    if which != 0 {
        let segs = pages.sizes.len();
        let place = if prng.one_in(2) { segs - 1 } else { prng.below(segs) };
        pages.sizes[place] = prng.pick(&[2, 257, 4_095]);
    }
    if which != 1 {
        let one = prng.below(pages.sizes.len());
        pages.form = prng.between(3, reference::NEWEST_FORM);
        pages.warm = if sheet.warm.is_empty() { vec![one] } else { sheet.warm.clone() };
    }
    pages
}

// ---- Examples ----

/// The sheet of sizes 1 that a string of references makes, of any form; from form 2 on with idle steps between.
pub fn string(form: u64, segs: usize, touches: &[usize]) -> Vec<u8> {
    let idle = |place: usize| if form > 1 { vec![None; place % 3] } else { Vec::new() };
    let steps = (0..).zip(touches).flat_map(|(place, &segment)| [idle(place), vec![Some(segment)]].concat()).collect();
    let rows = vec![Row { h: 1, d: 1 }];
    let (kind, warm) = (Kind::Space, Vec::new());
    reference::write(&Sheet { form, kind, a: 3, sizes: vec![1; segs], rows, warm, steps, marks: Vec::new() })
}

/// The reference string of document 002.
const PAPER: &[usize] = &[4, 2, 1, 4, 0, 1, 3, 2, 3, 4, 1, 2, 1, 1];
/// The string of Belady's anomaly in document 004, counted from 0.
const BELADY: &[usize] = &[0, 1, 2, 3, 0, 1, 4, 0, 1, 2, 3, 4];
/// Four segments in turn, three times.
const ROUND: &[usize] = &[0, 1, 2, 3, 0, 1, 2, 3, 0, 1, 2, 3];

/// Strings of references, their misses with 1, 2, .. frames, and the entries looked at.
fn curves() -> Vec<(usize, &'static [usize], &'static [u64], u64)> {
    vec![
        (5, PAPER, &[13, 11, 9, 7, 5], 39),
        // First in, first out has 9 misses with 3 frames and 10 with 4.
        // The touches look at 0 1 2 3, 4 4, 4 (a first one), 3 3 5 5 5 entries.
        (5, BELADY, &[12, 12, 10, 8, 5], 39),
        // Segments that are never touched have numbers too.
        (7, BELADY, &[12, 12, 10, 8, 5, 5, 5], 39),
        // One frame too few misses every time, and the whole list is looked at: 0 1 2 3, then 4 each.
        (4, ROUND, &[12, 12, 12, 4], 38),
        (1, &[], &[0], 0),
        (3, &[], &[0, 0, 0], 0),
        // The very first touch looks at nothing, a repeated one at one entry.
        (1, &[0, 0, 0], &[1], 2),
        (2, &[1, 1, 1], &[1, 1], 2),
        (2, &[0, 1, 0, 1, 1], &[4, 2], 6),
    ]
}

pub fn examples() -> Vec<(Vec<u8>, Check)> {
    let mut list: Vec<(Vec<u8>, Check)> = Vec::new();
    for (segs, touches, want, looked) in curves() {
        for form in 1..=reference::NEWEST_FORM {
            let want = Ok((want.to_vec(), looked));
            list.push((string(form, segs, touches), Box::new(move |bytes| gives(bytes, &want))));
        }
    }
    // The trace of examples/aligner.din with pages of 4,096 bytes.
    let aligner: &[u8] = include_bytes!("../../examples/aligner.sheet");
    list.push((aligner.to_vec(), Box::new(|bytes| gives(bytes, &Ok((vec![39, 36, 26, 18, 12, 7, 7], 151))))));
    for (sizes, warm, number) in
        [([1, 2], 0, 26), ([2, 1], 0, 26), ([1, 1], 1, 27), ([1, 2], 1, 26), ([4_095, 1], 2, 26)]
    {
        let holds: String = (0..warm).map(|segment| format!("hold={segment}\n")).collect();
        let [one, other] = sizes;
        let head = format!("form=3\nkind=time\na=0\nsegs=2\nsize={one}\nsize={other}\nrows=1\nrow=1/1\n");
        let sheet = format!("{head}warm={warm}\n{holds}steps=2\nrefs=1\nref=1@2\n");
        list.push((sheet.into_bytes(), Box::new(move |bytes| gives(bytes, &Err(number)))));
    }
    list
}

fn gives(bytes: &[u8], want: &Result<(Vec<u64>, u64), u64>) -> Outcome {
    let (mut out, mut written, mut looked) = ([0; 256], 0, 0);
    let returned = calls::lru(bytes, &mut out, &mut written, &mut looked);
    let got = if returned == 0 { Ok((out[..written as usize].to_vec(), looked)) } else { Err(returned) };
    ensure(got == *want, || format!("lru: got {got:?}, wanted {want:?}"))?;
    let returned = calls::lru_plain(bytes, &mut out, &mut written);
    let got = if returned == 0 { Ok(out[..written as usize].to_vec()) } else { Err(returned) };
    let want = want.clone().map(|(misses, _)| misses);
    ensure(got == want, || format!("lru_plain: got {got:?}, wanted {want:?}"))
}

// ---- Wrong answers ----

/// Mistakes of both calls.
const NAMES: [&str; 10] = [
    "first in, first out",
    "the most recently used leaves",
    "the least often used leaves",
    "one frame more",
    "one frame fewer",
    "first touches not counted",
    "as many numbers as segments touched",
    "27 before 26",
    "26 by the first size alone",
    "27 only where a warm segment is touched",
];

/// Mistakes about the entries looked at.
const LOOKED: [&str; 8] = [
    "the whole list on every touch",
    "nothing on a first touch",
    "the segment itself not counted",
    "a first touch counts itself",
    "every segment in the list from the start",
    "a repeated touch looks at nothing",
    "the bound for the count",
    "reported where refused",
];

pub const WRONG: [(Call, Way); 32] = {
    let mut list = [(Call::Lru, Way::NotRefused(26)); 32];
    list[1] = (Call::Lru, Way::NotRefused(27));
    list[2] = (Call::LruPlain, Way::NotRefused(26));
    list[3] = (Call::LruPlain, Way::NotRefused(27));
    let mut place = 0;
    while place < NAMES.len() {
        list[4 + 2 * place] = (Call::Lru, Way::Named(NAMES[place]));
        list[5 + 2 * place] = (Call::LruPlain, Way::Named(NAMES[place]));
        place += 1;
    }
    let mut place = 0;
    while place < LOOKED.len() {
        list[24 + place] = (Call::Lru, Way::Named(LOOKED[place]));
        place += 1;
    }
    list
};

/// The answer of a call with the mistake that is put in, if one is.
pub fn mistaken(call: Call, bytes: &[u8]) -> Option<Result<Vec<u64>, u64>> {
    match wrong::way(call) {
        Some(Way::Named(name)) if NAMES.contains(&name) => Some(with_mistake(name, bytes)),
        _ => None,
    }
}

/// The entries looked at as a mistake about them, or another one, makes them.
pub fn mistaken_looked(bytes: &[u8], returned: u64, report: &mut u64) {
    let Some(Way::Named(name)) = wrong::way(Call::Lru) else { return };
    if name == "reported where refused" && returned > 0 {
        *report = 0;
    }
    if returned > 0 {
        return;
    }
    let sheet = reference::read(bytes).expect("a sheet");
    let touches = touches(&sheet);
    let entries = entries(&touches);
    let changed = |time: usize| {
        let before = distinct(&touches[..time]);
        let first = !touches[..time].contains(&touches[time]);
        match name {
            "the whole list on every touch" => before,
            "nothing on a first touch" if first => 0,
            "the segment itself not counted" if !first => entries[time] - 1,
            "a first touch counts itself" if first => before + 1,
            "every segment in the list from the start" if first => sheet.sizes.len() as u64,
            "a repeated touch looks at nothing" if entries[time] == 1 && !first => 0,
            "the bound for the count" => distinct(&touches),
            _ => entries[time],
        }
    };
    *report = (0..touches.len()).map(changed).sum();
}

fn with_mistake(name: &str, bytes: &[u8]) -> Result<Vec<u64>, u64> {
    let mut sheet = reference::read(bytes)?;
    match name {
        "27 before 26" if !sheet.warm.is_empty() => return Err(27),
        "26 by the first size alone" if sheet.sizes[0] == 1 => sheet.sizes.fill(1),
        "27 only where a warm segment is touched" => {
            let touched = touches(&sheet);
            sheet.warm.retain(|segment| touched.contains(segment));
        }
        _ => {}
    }
    let sheet = of_pages(sheet)?;
    let (segs, touches) = (sheet.sizes.len(), touches(&sheet));
    let all = distinct(&touches);
    let count = |frames: usize| match name {
        "first in, first out" => replaced(&touches, frames, |place, _| place),
        "the most recently used leaves" => replaced(&touches, frames, |_, times| usize::MAX - times[times.len() - 1]),
        "the least often used leaves" => replaced(&touches, frames, |_, times| times.len()),
        "one frame more" => misses(segs, &touches, frames + 1),
        "one frame fewer" if frames > 1 => misses(segs, &touches, frames - 1),
        "first touches not counted" => misses(segs, &touches, frames) - all,
        _ => misses(segs, &touches, frames),
    };
    let most = if name == "as many numbers as segments touched" { all as usize } else { segs };
    Ok((1..=most).map(count).collect())
}

/// The misses where the segment leaves whose place in the memory and times of its touches give the least.
fn replaced(touches: &[usize], frames: usize, rank: impl Fn(usize, &[usize]) -> usize) -> u64 {
    let mut memory: Vec<(usize, Vec<usize>)> = Vec::new();
    let mut misses = 0;
    for (time, &segment) in touches.iter().enumerate() {
        if let Some((_, times)) = memory.iter_mut().find(|(held, _)| *held == segment) {
            times.push(time);
            continue;
        }
        misses += 1;
        if memory.len() == frames {
            let leaves = (0..frames).min_by_key(|&place| rank(place, &memory[place].1)).expect("a frame");
            memory.remove(leaves);
        }
        memory.push((segment, vec![time]));
    }
    misses
}
