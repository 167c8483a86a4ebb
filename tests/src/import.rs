//! Import of din traces (F-8): the second implementation, random and damaged traces, a simulation of the trace itself, examples worked by
//! hand, and wrong answers.

use crate::calls;
use crate::compare::{done, ensure, Case, Outcome};
use crate::generate::Prng;
use crate::reference::{self, Kind, Row, Sheet};
use crate::vectors::Check;
use crate::wrong::{self, Call, Way};

/// The most lines of a trace, and the most pages.
const LINES: usize = 2_048;
const PAGES: usize = 256;

// ---- The second implementation ----

/// The sheet of a trace with pages of 2 to the power k bytes and the rows of a sheet, or the number of the refusal.
pub fn import_din(trace: &[u8], k: u64, sheet: &[u8]) -> Result<Vec<u8>, u64> {
    let rows = reference::read(sheet)?.rows;
    if !(8..=24).contains(&k) {
        return Err(23);
    }
    Ok(reference::write(&imported(rows, &segments(trace, k)?)))
}

/// The segment of each line: its page, numbered by first appearance. Lines are taken in order, 24 before 25.
fn segments(trace: &[u8], k: u64) -> Result<Vec<usize>, u64> {
    let mut pages: Vec<u64> = Vec::new();
    let mut segments = Vec::new();
    for line in trace.split_inclusive(|&byte| byte == b'\n') {
        let page = address(line).ok_or(24u64)? / (1 << k);
        if segments.len() == LINES {
            return Err(25);
        }
        let number = pages.iter().position(|&other| other == page);
        if number.is_none() {
            pages.push(page);
        }
        if pages.len() > PAGES {
            return Err(25);
        }
        segments.push(number.unwrap_or(pages.len() - 1));
    }
    Ok(segments)
}

/// The address of a line: a label, one blank, 1 to 8 hexadecimal digits, a line feed.
fn address(line: &[u8]) -> Option<u64> {
    let &[b'0'..=b'2', b' ', ref digits @ .., b'\n'] = line else { return None };
    if digits.is_empty() || digits.len() > 8 {
        return None;
    }
    digits.iter().try_fold(0, |value, &digit| Some(16 * value + u64::from(char::from(digit).to_digit(16)?)))
}

fn imported(rows: Vec<Row>, segments: &[usize]) -> Sheet {
    let segs = segments.iter().map(|segment| segment + 1).max().unwrap_or(1);
    let steps = segments.iter().copied().map(Some).collect();
    let (warm, marks) = (Vec::new(), Vec::new());
    Sheet { form: 1, kind: Kind::Time, a: 0, sizes: vec![1; segs], rows, warm, steps, marks }
}

// ---- Traces ----

impl Case<'_> {
    /// Traces with the rows of the case's sheet, whatever it is.
    pub fn imports(&mut self) -> Outcome {
        let accepted = reference::read(self.bytes).is_ok();
        for _ in 0..if accepted { 3 } else { 1 } {
            let k = page_size(&mut self.prng);
            let mut trace = trace(&mut self.prng, k);
            for _ in 0..self.prng.pick(&[0, 0, 0, 0, 1, 1, 2]) {
                trace = damaged(&mut self.prng, trace);
            }
            self.import(&trace, k)?;
        }
        Ok(())
    }

    fn import(&mut self, trace: &[u8], k: u64) -> Outcome {
        let bytes = self.bytes;
        self.on(bytes);
        let given = trace.to_vec();
        let want = import_din(trace, k, bytes);
        let shown = |message| format!("{message}; k is {k}, the trace:\n{}", trace.escape_ascii());
        let answer = want.as_deref().map_err(|&number| number);
        self.call("import_din", answer, |out, written| calls::import_din(trace, k, bytes, out, written))
            .map_err(shown)?;
        ensure(trace == given, || "import_din: the trace handed in was changed".to_string())?;
        if self.prng.one_in(4) {
            self.safe("import_din", segtrace::import_din(trace, k, bytes), want.clone()).map_err(shown)?;
            let exact = want.as_ref().map_or(0, Vec::len);
            let got = segtrace::import_din_into(trace, k, bytes, &mut vec![0; exact]);
            self.safe("import_din_into", got, want.clone().map(|text| text.len())).map_err(shown)?;
        }
        match want {
            Ok(text) => self.imported(trace, k, &text).map_err(shown),
            Err(_) => Ok(()),
        }
    }

    /// What the imported sheet says, from the answers of the calls: it is a sheet, and the misses of a row are those of a simulation of the
    /// trace itself, in which a page stays for as many lines as the row's threshold says.
    fn imported(&mut self, trace: &[u8], k: u64, text: &[u8]) -> Outcome {
        done("check of the imported sheet", calls::check(text))?;
        let sheet = reference::read(text).expect("a sheet");
        let row = self.some_row(&sheet);
        let mut figures = [0; 11];
        done("figures", calls::figures(text, row as u64, &mut figures))?;
        (0..2).for_each(|_| self.tally.note(0));
        let lines = std::str::from_utf8(trace).expect("text").lines();
        let pages: Vec<u32> = lines.map(|line| u32::from_str_radix(&line[2..], 16).expect("an address") >> k).collect();
        let stays = (sheet.rows[row].h / sheet.rows[row].d + 1) as usize;
        let misses = (0..pages.len()).filter(|&at| !pages[at.saturating_sub(stays)..at].contains(&pages[at])).count();
        ensure(figures[2] == misses as u64, || {
            format!("import_din: {} misses at row {row}, {misses} by simulation of the trace", figures[2])
        })
    }
}

/// k, mostly within its range.
fn page_size(prng: &mut Prng) -> u64 {
    match prng.below(8) {
        0 => prng.pick(&[0, 1, 7, 25, 32, 12 + (1 << 8), 12 + (1 << 32), 1 << 40, u64::MAX]),
        1 => prng.pick(&[8, 24]),
        _ => prng.between(8, 24),
    }
}

/// A trace of few or many lines and pages; now and then more than a sheet can have.
fn trace(prng: &mut Prng, k: u64) -> Vec<u8> {
    let k = k.clamp(8, 24) as u32;
    let most = 1u64 << (32 - k);
    let (count, pages) = match prng.below(60) {
        0 => (LINES - 2 + prng.below(4), 5),
        1 | 2 => (254 + prng.below(8), 10_000),
        3 => (prng.below(LINES + 3), prng.pick(&[200, 256, 257, 300])),
        4..=8 => (0, 1),
        9..=20 => (prng.below(60), 20),
        _ => (prng.below(9), 4),
    };
    let first = prng.next() % most;
    let ascending = prng.one_in(2);
    let mut text = String::new();
    for number in 0..count as u64 {
        let page = if ascending { number % pages } else { prng.next() % pages };
        let address = (((first + page) % most) << k) + prng.next() % (1 << k);
        text += &format!("{} {}\n", prng.below(3), digits(prng, address));
    }
    text.into_bytes()
}

/// An address in lower or upper case or both, with zeros in front or without.
fn digits(prng: &mut Prng, address: u64) -> String {
    let width = if prng.one_in(4) { 1 + prng.below(8) } else { 1 };
    let lower = format!("{address:0width$x}");
    match prng.below(4) {
        0 => lower.to_uppercase(),
        1 => lower.chars().map(|digit| if prng.one_in(2) { digit.to_ascii_uppercase() } else { digit }).collect(),
        _ => lower,
    }
}

/// A trace with a damage, often on its last line or near a limit. Some damages leave it a trace.
fn damaged(prng: &mut Prng, mut trace: Vec<u8>) -> Vec<u8> {
    const ODD: [&str; 27] = [
        "",
        " ",
        "0",
        "0 ",
        "0  1",
        "0\t1",
        "3 1",
        "00 1",
        " 0 1",
        "0 1 ",
        "0 1\r",
        "0 g",
        "0 0x1",
        "0 -1",
        "0 +1",
        "0 1 2",
        "a 1",
        "-0 1",
        "0 123456789",
        "0 000000001",
        "2 00000000",
        "1 FFFFFFFF",
        "0 1@",
        "0,1",
        "0 1`",
        "0 1:",
        "/ 1",
    ];
    if trace.is_empty() || prng.one_in(12) {
        let line = prng.pick(&ODD);
        trace.extend_from_slice(line.as_bytes());
        trace.extend_from_slice(prng.pick(&[&b"\n"[..], b"\n", b""]));
        return trace;
    }
    let mut lines: Vec<Vec<u8>> = trace.split_inclusive(|&byte| byte == b'\n').map(<[u8]>::to_vec).collect();
    let line = if prng.one_in(3) { lines.len() - 1 } else { prng.below(lines.len()) };
    match prng.below(8) {
        0 => _ = lines[line].pop(),
        1 => {
            let place = prng.below(lines[line].len());
            lines[line][place] = if prng.one_in(2) { prng.pick(b"0123 afgAFG\n\r\t") } else { prng.next() as u8 };
        }
        2 => {
            let place = prng.below(lines[line].len() + 1);
            lines[line].insert(place, prng.pick(b"0 1f\n3"));
        }
        3 => {
            let place = prng.below(lines[line].len());
            lines[line].remove(place);
        }
        4 => lines.insert(line, prng.pick(&ODD).as_bytes().to_vec()),
        _ => lines[line] = format!("{}\n", prng.pick(&ODD)).into_bytes(),
    }
    lines.concat()
}

// ---- Examples ----

/// The listing's sheet.
const LISTING: &[u8] = include_bytes!("../../examples/listing.sheet");

/// The trace of examples/aligner.din as the sheet of examples/aligner.sheet; small traces; lines that are refused; the limits.
pub fn examples() -> Vec<(Vec<u8>, Check)> {
    let trace: &[u8] = include_bytes!("../../examples/aligner.din");
    let sheet: &[u8] = include_bytes!("../../examples/aligner.sheet");
    let mut list: Vec<(Vec<u8>, Check)> = Vec::new();
    let mut add = |lender: &[u8], trace: &[u8], k: u64, want: Result<Vec<u8>, u64>| {
        let trace = trace.to_vec();
        list.push((lender.to_vec(), Box::new(move |bytes| imports_as(bytes, &trace, k, &want))));
    };
    add(LISTING, trace, 12, Ok(sheet.to_vec()));
    // The sheet may be of any form; its warm segments and steps play no part.
    add(include_bytes!("../../examples/idle.sheet"), trace, 12, Ok(sheet.to_vec()));
    add(include_bytes!("../../examples/warm.sheet"), trace, 12, Ok(sheet.to_vec()));
    let form_4 = String::from_utf8_lossy(include_bytes!("../../examples/warm.sheet")).replace("form=3", "form=4");
    add(form_4.replace("@4", "@4w").as_bytes(), trace, 12, Ok(sheet.to_vec()));
    for (trace, k, segments) in traces() {
        let segs = segments.iter().max().map_or(1, |most| most + 1);
        let sizes = "size=1\n".repeat(segs);
        let refs: String = segments.iter().map(|segment| format!("ref={segment}\n")).collect();
        let head = format!("kind=time\na=0\nsegs={segs}\n{sizes}rows=2\nrow=1/2\nrow=1/1\n");
        add(LISTING, &trace, k, Ok(format!("{head}refs={}\n{refs}", segments.len()).into_bytes()));
    }
    for (trace, k, number) in refused() {
        add(LISTING, &trace, k, Err(number));
    }
    // The sheet's refusal comes first.
    add(b"", b"0", 7, Err(2));
    add(b"kind=time\na=256\n", b"0", 7, Err(4));
    add(&[LISTING, b"\n"].concat(), trace, 25, Err(6));
    list
}

fn imports_as(sheet: &[u8], trace: &[u8], k: u64, want: &Result<Vec<u8>, u64>) -> Outcome {
    let mut out = vec![0; reference::longest(1)];
    let mut written = 0;
    let returned = calls::import_din(trace, k, sheet, &mut out, &mut written);
    let got = if returned == 0 { Ok(out[..written as usize].to_vec()) } else { Err(returned) };
    let text = |answer: &Result<Vec<u8>, u64>| {
        answer.as_ref().map(|text| text.escape_ascii().to_string()).map_err(|&number| number)
    };
    ensure(got == *want, || {
        format!("import of {} with k {k}: got {:?}, wanted {:?}", trace.escape_ascii(), text(&got), text(want))
    })
}

/// So many lines: the pages from 0 on, for k = 8, in turn.
fn lines(count: usize, pages: usize) -> Vec<u8> {
    (0..count).flat_map(|line| format!("{} {:x}00\n", line % 3, line % pages).into_bytes()).collect()
}

/// Traces and the segments of their lines.
fn traces() -> Vec<(Vec<u8>, u64, Vec<usize>)> {
    let text = |text: &str| text.as_bytes().to_vec();
    vec![
        (text(""), 8, vec![]),
        (text(""), 24, vec![]),
        (text("0 0\n"), 8, vec![0]),
        // The page is the address divided by 2^k, rounded down.
        (text("2 1ff\n0 200\n1 1FF\n"), 8, vec![0, 1, 0]),
        (text("2 1ff\n0 200\n1 1FF\n"), 9, vec![0, 1, 0]),
        (text("2 1ff\n0 200\n1 1FF\n"), 10, vec![0, 0, 0]),
        (text("0 ffffff\n0 1000000\n0 FFFFFFFF\n0 0\n"), 24, vec![0, 1, 2, 0]),
        // Numbered by first appearance, not by address; upper case, lower case and zeros in front are one page.
        (text("0 ffffffff\n0 100\n1 FFFFFF00\n2 fFfFfEfF\n2 00000100\n0 1aB\n"), 8, vec![0, 1, 0, 2, 1, 1]),
        (text("2 00000001\n1 000000ff\n0 0000100\n"), 8, vec![0, 0, 1]),
        (lines(LINES, 1), 8, vec![0; LINES]),
        (lines(PAGES, PAGES), 8, (0..PAGES).collect()),
        (lines(LINES, PAGES), 8, (0..LINES).map(|line| line % PAGES).collect()),
    ]
}

/// Traces and the number that each gets.
fn refused() -> Vec<(Vec<u8>, u64, u64)> {
    let malformed = [
        "\n",
        " \n",
        "0\n",
        "0 \n",
        "0",
        "0 1",
        "2 1f\n0 1",
        "2 1f\n\n",
        "0  1\n",
        "0\t1\n",
        "0,1\n",
        "3 1\n",
        "a 1\n",
        "00 1\n",
        " 0 1\n",
        "0 1 \n",
        "0 1\r\n",
        "0 g\n",
        "0 @\n",
        "0 `\n",
        "0 :\n",
        "0 /\n",
        "0 G\n",
        "0 0x1\n",
        "0 -1\n",
        "0 1 2\n",
        "0 123456789\n",
        "0 000000001\n",
        "0 1\n0 1\nx\n0 1\n",
    ];
    let mut list: Vec<(Vec<u8>, u64, u64)> =
        malformed.map(|text| (text.as_bytes().to_vec(), 12, 24)).into_iter().collect();
    for k in [0, 1, 7, 25, 32, 1 << 40, 12 + (1 << 32), u64::MAX] {
        // 23 before 24, and with an empty trace.
        list.extend([(b"0 1\n".to_vec(), k, 23), (b"x".to_vec(), k, 23), (Vec::new(), k, 23)]);
    }
    let full = lines(LINES, 1);
    let pages = lines(PAGES, PAGES);
    let and = |trace: &[u8], more: &str| [trace, more.as_bytes()].concat();
    list.extend([
        // A 2,049th line; a malformed one is 24.
        (and(&full, "0 0\n"), 8, 25),
        (and(&full, "0 0\nx\n"), 8, 25),
        (and(&full, "x\n"), 8, 24),
        (and(&full, "0 0"), 8, 24),
        (and(&full, "\n"), 8, 24),
        // A 257th page; a malformed line before it is 24, one after it is never looked at.
        (and(&pages, "0 ffffffff\n"), 8, 25),
        (and(&pages, "0 ffffffff\nx\n"), 8, 25),
        (and(&pages, "x\n0 ffffffff\n"), 8, 24),
        (and(&pages, "0 ffffffff"), 8, 24),
        (and(&pages, "0 1fffffffff\n"), 8, 24),
        // The 2,049th line with a 257th page.
        (and(&lines(LINES, PAGES), "0 ffffffff\n"), 8, 25),
    ]);
    list
}

// ---- Wrong answers ----

pub const WRONG: [(Call, Way); 18] = [
    (Call::ImportDin, Way::NotRefused(23)),
    (Call::ImportDin, Way::NotRefused(24)),
    (Call::ImportDin, Way::NotRefused(25)),
    (Call::ImportDin, Way::Instead(25, 24)),
    (Call::ImportDin, Way::Named("23 before the sheet's refusal")),
    (Call::ImportDin, Way::Named("23 after the lines")),
    (Call::ImportDin, Way::Named("24 of any line before 25")),
    (Call::ImportDin, Way::Named("25 for a malformed 2,049th line")),
    (Call::ImportDin, Way::Named("a last line without its line feed taken")),
    (Call::ImportDin, Way::Named("nine digits taken")),
    (Call::ImportDin, Way::Named("upper case refused")),
    (Call::ImportDin, Way::Named("two blanks taken")),
    (Call::ImportDin, Way::Named("pages numbered by address")),
    (Call::ImportDin, Way::Named("pages of twice the bytes")),
    (Call::ImportDin, Way::Named("a page for every label")),
    (Call::ImportDin, Way::Named("the kind of the sheet")),
    (Call::ImportDin, Way::Named("the form of the sheet")),
    (Call::ImportDin, Way::Named("no row but the first")),
];

/// The answer with the mistake that is put in, if one is.
pub fn mistaken(trace: &[u8], k: u64, sheet: &[u8]) -> Option<Result<Vec<u8>, u64>> {
    match wrong::way(Call::ImportDin) {
        Some(Way::Named(name)) => Some(with_mistake(name, trace, k, sheet)),
        _ => None,
    }
}

fn with_mistake(name: &str, trace: &[u8], k: u64, sheet: &[u8]) -> Result<Vec<u8>, u64> {
    let range = 8..=24;
    if name == "23 before the sheet's refusal" && !range.contains(&k) {
        return Err(23);
    }
    let lender = reference::read(sheet)?;
    if name == "23 after the lines" {
        segments(trace, k.clamp(8, 24))?;
    }
    if !range.contains(&k) {
        return Err(23);
    }
    let lines = || trace.split_inclusive(|&byte| byte == b'\n');
    let text = match name {
        "a last line without its line feed taken" if !trace.ends_with(b"\n") => [trace, b"\n"].concat(),
        // Without the first of the nine.
        "nine digits taken" => lines()
            .flat_map(|line| if line.len() == 12 { [&line[..2], &line[3..]].concat() } else { line.to_vec() })
            .collect(),
        "two blanks taken" => String::from_utf8_lossy(trace).replace("  ", " ").into_bytes(),
        "upper case refused" => trace.iter().map(|&byte| if byte.is_ascii_uppercase() { b'x' } else { byte }).collect(),
        _ => trace.to_vec(),
    };
    match name {
        "24 of any line before 25" if lines().any(|line| address(line).is_none()) => return Err(24),
        "25 for a malformed 2,049th line" => {
            let head: Vec<u8> = lines().take(LINES).flatten().copied().collect();
            segments(&head, k)?;
            if lines().count() > LINES {
                return Err(25);
            }
        }
        _ => {}
    }
    let mut segments = segments(&text, if name == "pages of twice the bytes" { k + 1 } else { k })?;
    let addresses: Vec<u64> = text.split_inclusive(|&byte| byte == b'\n').filter_map(address).collect();
    if name == "pages numbered by address" {
        let mut pages: Vec<u64> = addresses.iter().map(|address| address >> k).collect();
        pages.sort_unstable();
        pages.dedup();
        let number = |address: &u64| pages.iter().position(|page| *page == address >> k).expect("a page");
        segments = addresses.iter().map(number).collect();
    }
    if name == "a page for every label" && segments.iter().max().is_some_and(|&most| most < 80) {
        let labels = lines().map(|line| usize::from(line[0] - b'0'));
        segments = segments.iter().zip(labels).map(|(segment, label)| 3 * segment + label).collect();
    }
    let mut sheet = imported(lender.rows, &segments);
    match name {
        "the kind of the sheet" => sheet.kind = lender.kind,
        "the form of the sheet" => sheet.form = lender.form,
        "no row but the first" => sheet.rows.truncate(1),
        _ => {}
    }
    Ok(reference::write(&sheet))
}
