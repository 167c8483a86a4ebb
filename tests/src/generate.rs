//! Seeded random sheets, damaged sheets, and schedules.

use crate::reference::{self, Kind, Row, Sheet, STEP};

/// A small generator of random numbers (splitmix64).
pub struct Prng(u64);

impl Prng {
    /// The generator of one case of a run.
    pub fn of_case(seed: u64, case: u64) -> Prng {
        let mut prng = Prng(seed);
        let mixed = prng.next();
        Prng(mixed ^ case.wrapping_mul(0x9e37_79b9_7f4a_7c15))
    }

    pub fn next(&mut self) -> u64 {
        self.0 = self.0.wrapping_add(0x9e37_79b9_7f4a_7c15);
        let mut mixed = self.0;
        mixed = (mixed ^ (mixed >> 30)).wrapping_mul(0xbf58_476d_1ce4_e5b9);
        mixed = (mixed ^ (mixed >> 27)).wrapping_mul(0x94d0_49bb_1331_11eb);
        mixed ^ (mixed >> 31)
    }

    /// A number below a bound above 0.
    pub fn below(&mut self, bound: usize) -> usize {
        (self.next() % bound as u64) as usize
    }

    pub fn between(&mut self, low: u64, high: u64) -> u64 {
        low + self.next() % (high - low + 1)
    }

    pub fn one_in(&mut self, count: usize) -> bool {
        self.below(count) == 0
    }

    pub fn pick<T: Clone>(&mut self, list: &[T]) -> T {
        list[self.below(list.len())].clone()
    }

    /// A number of any size in a range: often an end of the range, else small and large ones alike.
    pub fn any_size(&mut self, low: u64, high: u64) -> u64 {
        match self.below(8) {
            0 => low,
            1 => high,
            2 => self.between(low, high),
            _ => {
                let bits = 1 + self.below(16);
                let number = self.next() % (1 << bits);
                (low + number).min(high)
            }
        }
    }

    pub fn bytes(&mut self, length: usize) -> Vec<u8> {
        let mut bytes = Vec::with_capacity(length + 8);
        while bytes.len() < length {
            bytes.extend_from_slice(&self.next().to_le_bytes());
        }
        bytes.truncate(length);
        bytes
    }
}

// ---- Sheets ----

/// How large a sheet may be.
#[derive(Clone, Copy, Debug, PartialEq, Eq)]
pub enum Shape {
    Tiny,
    Small,
    Middle,
    Large,
    /// Exactly 256 segments, 64 rows, 2,048 steps, in many cases with every line the longest.
    Largest,
}

impl Shape {
    pub fn random(prng: &mut Prng) -> Shape {
        match prng.below(2_000) {
            0..=2 => Shape::Largest,
            3..=12 => Shape::Large,
            13..=199 => Shape::Middle,
            200..=999 => Shape::Small,
            _ => Shape::Tiny,
        }
    }

    /// The most segments, rows and steps.
    fn limits(self) -> (u64, u64, u64) {
        match self {
            Shape::Tiny => (3, 4, 5),
            Shape::Small => (12, 8, 40),
            Shape::Middle => (64, 16, 300),
            Shape::Large | Shape::Largest => (256, 64, 2_048),
        }
    }
}

/// How the references follow one another.
#[derive(Clone, Copy, Debug, PartialEq, Eq)]
pub enum Pattern {
    Uniform,
    Cyclic,
    /// Few segments at a time, now and then others.
    Local,
    /// The same segment several times in a row.
    Runs,
}

/// References to segments of a range, by a pattern.
pub fn references(prng: &mut Prng, pattern: Pattern, lowest: usize, segs: usize, count: usize) -> Vec<usize> {
    let width = segs - lowest;
    let mut base = prng.below(width);
    let near = width.min(4);
    (0..count)
        .map(|index| {
            let offset = match pattern {
                Pattern::Uniform => prng.below(width),
                Pattern::Cyclic => (base + index) % width,
                Pattern::Local => {
                    if prng.one_in(40) {
                        base = prng.below(width);
                    }
                    (base + prng.below(near)) % width
                }
                Pattern::Runs => {
                    if prng.one_in(3) {
                        base = prng.below(width);
                    }
                    base
                }
            };
            lowest + offset
        })
        .collect()
}

/// A random sheet that is accepted.
pub fn sheet(prng: &mut Prng, shape: Shape) -> Sheet {
    let (most_segs, most_rows, most_refs) = shape.limits();
    let largest = shape == Shape::Largest;
    let longest_lines = largest && !prng.one_in(4);
    let segs = if largest { most_segs } else { prng.any_size(1, most_segs) } as usize;
    let row_count = if largest { most_rows } else { prng.any_size(1, most_rows) } as usize;
    let ref_count = match shape {
        Shape::Largest => most_refs,
        Shape::Tiny => prng.between(0, most_refs),
        _ => prng.any_size(0, most_refs),
    } as usize;
    let kind = if longest_lines { Kind::Space } else { prng.pick(&[Kind::Time, Kind::Space]) };
    let a = match prng.below(4) {
        _ if longest_lines => prng.between(100, 255),
        0 => 0,
        1 => 1,
        _ => prng.any_size(0, 255),
    };
    let size_style = if longest_lines { 3 } else { prng.below(4) };
    let sizes = (0..segs)
        .map(|_| match size_style {
            0 => prng.between(1, 5),
            1 => 1,
            2 => prng.any_size(1, 4_095),
            _ => prng.between(1_000, 4_095),
        })
        .collect();
    let pattern = prng.pick(&[Pattern::Uniform, Pattern::Cyclic, Pattern::Local, Pattern::Runs]);
    let lowest = if longest_lines { 100 } else { 0 };
    let mut steps: Vec<Option<usize>> =
        references(prng, pattern, lowest, segs, ref_count).into_iter().map(Some).collect();
    let form = prng.pick(&[1, 2, 3, 3, 4, 4, 4]);
    if form > 1 && !longest_lines {
        put_in_idle_steps(prng, &mut steps, most_refs as usize);
    }
    let warm = if form > 2 { warm_segments(prng, segs, &steps, longest_lines) } else { Vec::new() };
    let marks = if form > 3 { marks(prng, &steps, longest_lines) } else { Vec::new() };
    let mut sheet = Sheet { form, kind, a, sizes, rows: Vec::new(), warm, steps, marks };
    let style = if longest_lines { RowStyle::FiveDigits } else { prng.pick(&RowStyle::ALL) };
    sheet.rows = rows(prng, &sheet, style, row_count);
    sheet
}

/// Steps without a touch: none, a few, many, or all; between touches, in front and at the end.
fn put_in_idle_steps(prng: &mut Prng, steps: &mut Vec<Option<usize>>, most: usize) {
    match prng.below(8) {
        0 => {}
        1 => steps.fill(None),
        2 => {
            let room = most - steps.len();
            let count = room.min(prng.below(6));
            steps.extend(std::iter::repeat_n(None, count));
        }
        3 => {
            let often = 1 + prng.below(6);
            steps.iter_mut().filter(|_| prng.below(6) < often).for_each(|step| *step = None);
        }
        _ => {
            let chance = prng.pick(&[2, 3, 10, 40]);
            let old = std::mem::take(steps);
            for touched in old {
                while prng.one_in(chance) && steps.len() < most {
                    steps.push(None);
                }
                if steps.len() < most {
                    steps.push(touched);
                }
            }
        }
    }
}

/// Warm segments: none, all, one, only such as are never touched, only such as are touched, or any.
fn warm_segments(prng: &mut Prng, segs: usize, steps: &[Option<usize>], all: bool) -> Vec<usize> {
    let style = if all { 1 } else { prng.below(8) };
    let one = prng.below(segs);
    let often = 1 + prng.below(6);
    let mut chosen = |segment: usize| match style {
        0 => false,
        1 => true,
        2 => segment == one,
        3 => !steps.contains(&Some(segment)),
        4 => steps.contains(&Some(segment)),
        _ => prng.below(6) < often,
    };
    (0..segs).filter(|&segment| chosen(segment)).collect()
}

/// Which touches modify: none, all, one, those of one segment, or any.
fn marks(prng: &mut Prng, steps: &[Option<usize>], all: bool) -> Vec<bool> {
    let style = if all { 1 } else { prng.below(10) };
    let one = prng.below(steps.len().max(1));
    let often = prng.pick(&[1, 2, 4, 8, 12]);
    let mut chosen = |step: usize| match style {
        0 => false,
        1 | 2 => true,
        3 => step == one,
        4 => steps[step] == steps[one],
        _ => prng.below(16) < often,
    };
    (0..steps.len()).map(|step| steps[step].is_some() && chosen(step)).collect()
}

/// How the thresholds of the rows are chosen.
#[derive(Clone, Copy, PartialEq, Eq)]
enum RowStyle {
    Any,
    FiveDigits,
    FewDigits,
    /// All near one threshold.
    Close,
    /// At the ratio R/w of a reuse, or just beside it.
    AtReuses,
    /// Several just above the ratio of one reuse or just below it: rows of equal load.
    BesideReuse,
    Mixed,
}

impl RowStyle {
    const ALL: [RowStyle; 7] = [
        RowStyle::Any,
        RowStyle::FiveDigits,
        RowStyle::FewDigits,
        RowStyle::Close,
        RowStyle::AtReuses,
        RowStyle::BesideReuse,
        RowStyle::Mixed,
    ];
}

/// Up to so many rows with ascending thresholds, at least one.
fn rows(prng: &mut Prng, sheet: &Sheet, style: RowStyle, count: usize) -> Vec<Row> {
    let mut centre = threshold(prng, sheet, RowStyle::Any, Row { h: 1, d: 1 });
    if style == RowStyle::BesideReuse {
        centre = reuse_ratio(prng, sheet).unwrap_or(centre);
    }
    let mut rows: Vec<Row> = Vec::new();
    for _ in 0..4 * count {
        let row = threshold(prng, sheet, style, centre);
        // The place after all rows that this one exceeds; left out where the threshold is there already.
        let place = rows.iter().filter(|&&other| row.exceeds(other)).count();
        if rows.len() < count && rows.get(place).is_none_or(|&next| next.exceeds(row)) {
            rows.insert(place, row);
        }
    }
    rows
}

fn threshold(prng: &mut Prng, sheet: &Sheet, style: RowStyle, centre: Row) -> Row {
    let near =
        |prng: &mut Prng, value: u64, low: u64| (value + prng.below(7) as u64).saturating_sub(3).clamp(low, 65_535);
    match style {
        RowStyle::Any => Row { h: prng.any_size(0, 65_535), d: prng.any_size(1, 65_535) },
        RowStyle::FiveDigits => Row { h: prng.between(10_000, 65_535), d: prng.between(10_000, 65_535) },
        RowStyle::FewDigits => Row { h: prng.between(0, 12), d: prng.between(1, 3) },
        RowStyle::Close => Row { h: near(prng, centre.h, 0), d: near(prng, centre.d, 1) },
        RowStyle::AtReuses => at_reuse(prng, sheet).unwrap_or(centre),
        RowStyle::BesideReuse => {
            let d = prng.any_size(1, MOST_PRICE);
            Row { h: (centre.h * d / centre.d + prng.below(3) as u64).min(MOST_PRICE), d }
        }
        RowStyle::Mixed => {
            let other = prng.pick(&RowStyle::ALL[..5]);
            threshold(prng, sheet, other, centre)
        }
    }
}

/// R and w of a random reuse, as h and d. In form 4 at times R of all reuses up to a touch that modifies from the one before it that does,
/// and as many w and one more: where none of them is kept, holding the segment costs there what loads and a store do.
fn reuse_ratio(prng: &mut Prng, sheet: &Sheet) -> Option<Row> {
    let references = sheet.references();
    if references.is_empty() {
        return None;
    }
    let (step, segment) = prng.pick(&references);
    let mut last = sheet.last_touch(segment, step)?;
    let mut row = Row { h: sheet.retention(segment, (step - last - 1) as u64), d: sheet.swap_cost(segment) };
    if sheet.modifies(step) && !prng.one_in(3) {
        let mut reuses = 1;
        while last > 0 && !sheet.modifies(last) {
            let before = sheet.last_touch(segment, last)?;
            row.h += sheet.retention(segment, (last - before - 1) as u64);
            reuses += 1;
            last = before;
        }
        row.d *= reuses + 1;
    }
    Some(row)
}

/// The ratio R/w of a random reuse as a threshold, where it fits one, or a threshold beside it.
fn at_reuse(prng: &mut Prng, sheet: &Sheet) -> Option<Row> {
    let Row { h: retention, d: swap } = reuse_ratio(prng, sheet)?;
    if prng.one_in(2) {
        return Some(close_to(prng, retention, swap));
    }
    let divisor = common_divisor(retention, swap);
    let (mut h, mut d) = (retention / divisor, swap / divisor);
    let most = MOST_PRICE / h.max(d);
    if most > 1 {
        let times = prng.between(1, most);
        (h, d) = (h * times, d * times);
    }
    while h > MOST_PRICE || d > MOST_PRICE {
        (h, d) = (h / 2, (d / 2).max(1));
    }
    match prng.below(6) {
        0 if h > 0 => h -= 1,
        1 if h < MOST_PRICE => h += 1,
        _ => {}
    }
    Some(Row { h, d })
}

const MOST_PRICE: u64 = 65_535;

/// One of the closest fractions h/d to p/q, equal to it or not, along its continued fraction.
fn close_to(prng: &mut Prng, mut p: u64, mut q: u64) -> Row {
    let (mut before, mut last) = (Row { h: 0, d: 1 }, Row { h: 1, d: 0 });
    let between =
        |before: Row, last: Row, times: u64| Row { h: times * last.h + before.h, d: times * last.d + before.d };
    // The most times that give prices in range.
    let room = |before: u64, last: u64| (MOST_PRICE - before).checked_div(last).unwrap_or(MOST_PRICE);
    let most = |before: Row, last: Row| room(before.h, last.h).min(room(before.d, last.d));
    let mut found = Vec::new();
    while q > 0 {
        let times = (p / q).min(most(before, last));
        let next = between(before, last, times);
        found.push(next);
        if times < p / q {
            break;
        }
        (before, last) = (last, next);
        (p, q) = (q, p % q);
    }
    if q == 0 {
        // The last one is p/q itself; this one is beside it.
        found.push(between(before, last, most(before, last)));
    }
    let recent = found.len().saturating_sub(4);
    prng.pick(&found[recent..])
}

fn common_divisor(x: u64, y: u64) -> u64 {
    if y == 0 {
        x
    } else {
        common_divisor(y, x % y)
    }
}

/// Two rates and a minimum, now and then one out of range.
pub fn rates(prng: &mut Prng) -> [u64; 3] {
    [9_999, 9_999, 99_999].map(|most| match prng.below(40) {
        0 => most + 1,
        1 => prng.pick(&[1 << 16, 1 << 32, u64::MAX - 1, u64::MAX]),
        _ => prng.any_size(0, most),
    })
}

// ---- Damaged sheets ----

/// The bytes of a sheet with one to three damages. Some of them leave it a sheet.
pub fn damaged(prng: &mut Prng, sheet: &Sheet) -> Vec<u8> {
    let mut bytes = reference::write(sheet);
    for _ in 0..prng.pick(&[1, 1, 1, 1, 2, 3]) {
        bytes = damage(prng, sheet, bytes);
    }
    bytes
}

const ODD_BYTES: &[u8] = b"0123456789=/@\n\r +-.,xw\0\xff";

fn damage(prng: &mut Prng, sheet: &Sheet, mut bytes: Vec<u8>) -> Vec<u8> {
    if bytes.is_empty() {
        return bytes;
    }
    let byte = if prng.one_in(2) { prng.pick(ODD_BYTES) } else { prng.next() as u8 };
    let place = prng.below(bytes.len());
    match prng.below(27) {
        0 => bytes[place] = byte,
        1 => bytes.insert(place, byte),
        2 => {
            bytes.remove(place);
        }
        3 => bytes.truncate(place),
        4 => {
            bytes.pop();
        }
        5 => bytes = with_tail(prng, bytes),
        6 => bytes = stretched(prng, bytes),
        7 => bytes = with_lines_moved(prng, bytes),
        8 => bytes = with_count_moved(prng, bytes),
        9..=11 => bytes = with_thresholds_moved(prng, bytes),
        12 => bytes = strange(prng),
        13 | 14 => bytes = with_form_line(prng, bytes),
        15 | 16 => bytes = with_holds_moved(prng, sheet, bytes),
        17..=19 => bytes = with_odd_letter(prng, bytes),
        _ => bytes = with_odd_value(prng, sheet, bytes),
    }
    bytes
}

/// The lines, each with its line feed if it has one.
fn lines(bytes: &[u8]) -> Vec<Vec<u8>> {
    bytes.split_inclusive(|&byte| byte == b'\n').map(<[u8]>::to_vec).collect()
}

/// A random line with a key, if there is one.
fn line_with(prng: &mut Prng, lines: &[Vec<u8>], key: &str) -> Option<usize> {
    let found: Vec<usize> =
        (0..lines.len()).filter(|&line| lines[line].starts_with(format!("{key}=").as_bytes())).collect();
    if found.is_empty() {
        return None;
    }
    Some(prng.pick(&found))
}

/// Bytes after the last line.
fn with_tail(prng: &mut Prng, mut bytes: Vec<u8>) -> Vec<u8> {
    let last = lines(&bytes).pop().unwrap_or_default();
    match prng.below(4) {
        0 => bytes.push(b'\n'),
        1 => bytes.extend_from_slice(&last),
        2 => bytes.push(prng.pick(ODD_BYTES)),
        _ => {
            let count = 1 + prng.below(40);
            bytes.extend_from_slice(&prng.bytes(count));
        }
    }
    bytes
}

/// Made about as long as the longest sheet by bytes at the end, within a value or before the first line.
fn stretched(prng: &mut Prng, mut bytes: Vec<u8>) -> Vec<u8> {
    let form = prng.between(1, reference::NEWEST_FORM);
    let length = reference::longest(form) - 2 + prng.below(5);
    let missing = length.saturating_sub(bytes.len());
    let fill = prng.pick(b"0123456789\nr");
    let place = match prng.below(4) {
        0 => bytes.len(),
        1 => 0,
        2 => prng.below(bytes.len()),
        _ => {
            // Right after the "=" of a line, where digits make one very long number.
            let starts: Vec<usize> = (0..bytes.len()).filter(|&at| bytes[at] == b'=').map(|at| at + 1).collect();
            if starts.is_empty() {
                0
            } else {
                prng.pick(&starts)
            }
        }
    };
    bytes.splice(place..place, std::iter::repeat_n(fill, missing));
    if prng.one_in(4) {
        // Far too long.
        let more = prng.below(50_000);
        bytes.extend(std::iter::repeat_n(fill, more));
    }
    bytes
}

/// A first line put in or exchanged that names a form, known or not, or nearly so.
fn with_form_line(prng: &mut Prng, bytes: Vec<u8>) -> Vec<u8> {
    let first = prng.pick(&[
        "form=0\n",
        "form=1\n",
        "form=2\n",
        "form=2\n",
        "form=3\n",
        "form=3\n",
        "form=4\n",
        "form=4\n",
        "form=5\n",
        "form=02\n",
        "form=03\n",
        "form=04\n",
        "form=2",
        "form=3",
        "form=4",
        "form=\n",
        "form=",
        "form\n",
        "Form=2\n",
        "form=2\r\n",
        "form=two\n",
        "form=18446744073709551618\n",
        "form=18446744073709551619\n",
        "form=18446744073709551620\n",
    ]);
    let named = bytes.starts_with(b"form=") && prng.one_in(2);
    let from = if named { bytes.iter().position(|&byte| byte == b'\n').map_or(0, |end| end + 1) } else { 0 };
    [first.as_bytes(), &bytes[from..]].concat()
}

/// A line dropped, doubled or exchanged with another.
fn with_lines_moved(prng: &mut Prng, bytes: Vec<u8>) -> Vec<u8> {
    let mut lines = lines(&bytes);
    let line = prng.below(lines.len());
    let other = prng.below(lines.len());
    match prng.below(4) {
        0 => {
            lines.remove(line);
        }
        1 => lines.insert(line, lines[line].clone()),
        2 => lines.insert(line, lines[other].clone()),
        _ => lines.swap(line, other),
    }
    lines.concat()
}

/// One of the counts a little off, its lines as they were.
fn with_count_moved(prng: &mut Prng, bytes: Vec<u8>) -> Vec<u8> {
    let mut lines = lines(&bytes);
    let key = prng.pick(&["segs", "rows", "warm", "refs", "steps"]);
    let Some(line) = line_with(prng, &lines, key) else { return bytes };
    let Some(count) = value_of(&lines[line]) else { return bytes };
    let moved = (count + 1 + prng.below(3) as u128).saturating_sub(2);
    lines[line] = format!("{key}={moved}\n").into_bytes();
    lines.concat()
}

/// The number on a line, where it has one.
fn value_of(line: &[u8]) -> Option<u128> {
    std::str::from_utf8(line).ok()?.trim_end().split_once('=')?.1.parse().ok()
}

/// A row line with the threshold of the row before, just below it, or far below it.
fn with_thresholds_moved(prng: &mut Prng, bytes: Vec<u8>) -> Vec<u8> {
    let mut lines = lines(&bytes);
    let rows: Vec<usize> = (0..lines.len()).filter(|&line| lines[line].starts_with(b"row=")).collect();
    if rows.len() < 2 {
        return bytes;
    }
    let place = 1 + prng.below(rows.len() - 1);
    let Some((h, d)) = row_of(&lines[rows[place - 1]]) else { return bytes };
    let times = prng.between(1, 5) as u128;
    let (h, d) = match prng.below(7) {
        0 => (h, d),
        1 => (h * times, d * times),
        2 => (h.saturating_sub(1), d),
        3 => (h, d + 1),
        4 => (h + 1, d + 1),
        5 => (0, d),
        // Not above the one before, and out of range too.
        _ => (prng.pick(&[0, h]), 0),
    };
    lines[rows[place]] = format!("row={h}/{d}\n").into_bytes();
    lines.concat()
}

/// The number of a hold line exchanged for that of the line before, a smaller one or one not below segs; or two of these lines exchanged.
fn with_holds_moved(prng: &mut Prng, sheet: &Sheet, bytes: Vec<u8>) -> Vec<u8> {
    let mut lines = lines(&bytes);
    let holds: Vec<usize> = (0..lines.len()).filter(|&line| lines[line].starts_with(b"hold=")).collect();
    if holds.len() < 2 {
        return bytes;
    }
    let place = 1 + prng.below(holds.len() - 1);
    let (before, line) = (holds[place - 1], holds[place]);
    let segs = sheet.sizes.len() as u128;
    let Some(last) = value_of(&lines[before]) else { return bytes };
    let mut put = |line: usize, segment: u128| lines[line] = format!("hold={segment}\n").into_bytes();
    match prng.below(7) {
        0 | 1 => put(line, last),
        2 => put(line, last.saturating_sub(1)),
        3 => put(line, 0),
        // Out of range, and what stands on the next line is not above it.
        4 => put(before, segs + prng.below(3) as u128),
        // Out of range, above what stands before.
        5 => put(line, segs + prng.below(3) as u128),
        _ => lines.swap(before, line),
    }
    lines.concat()
}

/// A letter or another byte put in after the step of a touch or elsewhere on its line, exchanged for its letter, or taken away; at times
/// with a step that is not above the one before.
fn with_odd_letter(prng: &mut Prng, bytes: Vec<u8>) -> Vec<u8> {
    let mut lines = lines(&bytes);
    let Some(line) = line_with(prng, &lines, "ref") else { return bytes };
    let text = String::from_utf8_lossy(&lines[line]).trim_end().to_string();
    let plain = text.strip_suffix('w').unwrap_or(&text);
    let (segment, step) = plain.split_once('@').unwrap_or((plain, ""));
    let changed = match prng.below(12) {
        0 | 1 => format!("{plain}w"),
        2 => plain.to_string(),
        3 => format!("{plain}W"),
        4 => format!("{plain}ww"),
        5 => format!("{segment}@w"),
        6 => format!("{segment}w@{step}"),
        7 => format!("{segment}@w{step}"),
        8 => format!("{plain}{}", prng.pick(&[" w", "w ", "w\r", "w1", "x", "v"])),
        9 => format!("{segment}@0{step}w"),
        10 => format!("{segment}@{}w", prng.pick(&["0", "1", "2049", "65536", "18446744073709551617"])),
        _ => format!("{segment}@{}w", prng.between(0, 6)),
    };
    lines[line] = format!("{changed}\n").into_bytes();
    lines.concat()
}

fn row_of(line: &[u8]) -> Option<(u128, u128)> {
    let (h, d) = std::str::from_utf8(line).ok()?.trim_end().strip_prefix("row=")?.split_once('/')?;
    Some((h.parse().ok()?, d.parse().ok()?))
}

/// Bytes that are no sheet at all, or the beginning of one.
fn strange(prng: &mut Prng) -> Vec<u8> {
    let count = prng.below(30);
    match prng.below(6) {
        0 => Vec::new(),
        1 => b"\n".repeat(count),
        2 => b"kind=time\na=0\nsegs=1\nsize=1\nrows=1\nrow=0/1\nrefs=0".to_vec(),
        3 => b"kind=time\r\na=0\r\nsegs=1\r\nsize=1\r\nrows=1\r\nrow=0/1\r\nrefs=0\r\n".to_vec(),
        4 => {
            let form = prng.between(1, reference::NEWEST_FORM);
            let length = reference::longest(form) - 2 + prng.below(5);
            prng.bytes(length)
        }
        _ => prng.bytes(count),
    }
}

/// The value of a line replaced by another, which is mostly faulty.
fn with_odd_value(prng: &mut Prng, sheet: &Sheet, bytes: Vec<u8>) -> Vec<u8> {
    let mut lines = lines(&bytes);
    let key = prng.pick(&[
        "form", "kind", "a", "segs", "size", "rows", "row", "row", "warm", "hold", "hold", "steps", "refs", "ref",
        "ref", "ref",
    ]);
    let Some(line) = line_with(prng, &lines, key) else { return bytes };
    let old = value_of(&lines[line]).unwrap_or(1);
    let value = match key {
        "kind" => prng.pick(&KIND_WORDS).to_string(),
        "a" => odd_number(prng, old, 0, 255),
        "segs" => odd_number(prng, old, 1, 256),
        "size" => odd_number(prng, old, 1, 4_095),
        "rows" => odd_number(prng, old, 1, 64),
        "form" => odd_number(prng, old, 2, u128::from(reference::NEWEST_FORM)),
        "warm" => odd_number(prng, old, 0, sheet.sizes.len() as u128),
        "hold" => odd_number(prng, old, 0, sheet.sizes.len() as u128 - 1),
        "steps" => odd_number(prng, old, 0, 2_048),
        "refs" => odd_number(prng, old, 0, if sheet.form > 1 { sheet.steps.len() as u128 } else { 2_048 }),
        "ref" if sheet.form > 1 => odd_touch(prng, sheet, &lines[line]),
        "ref" => odd_number(prng, old, 0, sheet.sizes.len() as u128 - 1),
        _ => {
            let (h, d) = row_of(&lines[line]).unwrap_or((1, 1));
            odd_row(prng, h, d)
        }
    };
    lines[line] = format!("{key}={value}\n").into_bytes();
    lines.concat()
}

const KIND_WORDS: [&str; 14] = [
    "",
    "Time",
    "SPACE",
    "times",
    "tim",
    "spac",
    "space ",
    " space",
    "time\r",
    "spacetime",
    "0",
    "time=",
    "=space",
    "time/space",
];

fn odd_number(prng: &mut Prng, old: u128, low: u128, high: u128) -> String {
    match prng.below(26) {
        0 => String::new(),
        1 => "0".to_string(),
        2 => low.saturating_sub(1).to_string(),
        3 => (high + 1).to_string(),
        4 => high.to_string(),
        5 => (10 * high).to_string(),
        6 => format!("0{old}"),
        7 => "00".to_string(),
        8 => format!("{old}{}", prng.pick(&["\r", " ", ".0", "/1", "=", "x", ":", "\0", "e1", ","])),
        9 => format!("{}{old}", prng.pick(&["+", "-", " ", "=", "/", ":", "\t", "0x"])),
        10 => "-".to_string(),
        // Numbers that a wrap of 8, 16, 32, 64 or 128 bits would bring back into the range.
        11 => (old + (1 << 8)).to_string(),
        12 => (old + (1 << 16)).to_string(),
        13 => (old + (1 << 32)).to_string(),
        14 | 15 => (old + (1 << 64)).to_string(),
        16 => format!("340282366920938463463374607431768{}", 211_456 + old % 700_000),
        17 => u64::MAX.to_string(),
        18 => (u64::MAX as u128 * 10 + 9).to_string(),
        19 => {
            let length = 5 + prng.below(300);
            digits(prng, length)
        }
        // Many digits, and a byte at their end that is none.
        20 => {
            let length = 5 + prng.below(40);
            digits(prng, length) + prng.pick(&["x", " ", "\r", "/", ":"])
        }
        21 => "0".repeat(2 + prng.below(30)),
        22 => format!("0{}", digits(prng, 30)),
        23 => (high + prng.between(1, 100_000) as u128).to_string(),
        24 => prng.between(low as u64, high as u64).to_string(),
        _ => prng.any_size(low as u64, high as u64).to_string(),
    }
}

/// Random digits, the first not 0.
fn digits(prng: &mut Prng, length: usize) -> String {
    (0..length).map(|index| char::from(b'0' + prng.between(u64::from(index == 0), 9) as u8)).collect()
}

fn odd_row(prng: &mut Prng, h: u128, d: u128) -> String {
    match prng.below(16) {
        0 => format!("{h}"),
        1 => format!("{h}/"),
        2 => format!("/{d}"),
        3 => "/".to_string(),
        4 => format!("{h}//{d}"),
        5 => format!("{h}/{d}/{d}"),
        6 => format!("{h}/{d}/"),
        7 => format!("{h} {d}"),
        8 => format!("{h}/0"),
        9 => "0/0".to_string(),
        10 => "65536/65536".to_string(),
        // Both numbers odd, in any way: 3 is asked of both before 4 is asked of one.
        11 | 12 => format!("{}/{}", odd_number(prng, h, 0, 65_535), odd_number(prng, d, 1, 65_535)),
        13 | 14 => format!("{}/{d}", odd_number(prng, h, 0, 65_535)),
        _ => format!("{h}/{}", odd_number(prng, d, 1, 65_535)),
    }
}

/// A touch line's value, segment and step, which is mostly faulty: 3 is asked of both before 4 of the segment, and 16 of the step last.
fn odd_touch(prng: &mut Prng, sheet: &Sheet, line: &[u8]) -> String {
    let value = std::str::from_utf8(line).ok().and_then(|line| line.trim_end().strip_prefix("ref="));
    let parts = value.and_then(|value| value.split_once('@'));
    let number = |text: &str| text.strip_suffix('w').unwrap_or(text).parse::<u128>().unwrap_or(1);
    let (segment, step) = parts.map_or((0, 1), |(segment, step)| (number(segment), number(step)));
    let (last_segment, steps) = (sheet.sizes.len() as u128 - 1, sheet.steps.len() as u128);
    let letter = if sheet.form > 3 && prng.one_in(2) { "w" } else { "" };
    match prng.below(20) {
        0 => format!("{segment}"),
        1 => format!("{segment}@"),
        2 => format!("@{step}"),
        3 => "@".to_string(),
        4 => format!("{segment}@@{step}"),
        5 => format!("{segment}@{step}@{step}"),
        6 => format!("{segment}@{step}w"),
        7 => format!("{segment}/{step}"),
        8 => format!("{segment}@0{letter}"),
        9 => format!("{segment}@{}{letter}", steps + 1),
        10 => format!("{segment}@{}{letter}", step.saturating_sub(prng.between(1, 3) as u128)),
        11 => format!("{segment}@{}{letter}", step + prng.between(1, 3) as u128),
        12 => format!("{}@0{letter}", last_segment + 1),
        13 | 14 => {
            let odd = odd_number(prng, segment, 0, last_segment);
            format!("{odd}@{}{letter}", odd_number(prng, step, 1, steps.max(1)))
        }
        15 | 16 => format!("{}@{step}{letter}", odd_number(prng, segment, 0, last_segment)),
        _ => format!("{segment}@{}{letter}", odd_number(prng, step, 1, steps.max(1))),
    }
}

// ---- Schedules ----

/// A random permitted schedule: of what was held before, each segment stays with one chance. At first the warm ones are held.
pub fn permitted_schedule(prng: &mut Prng, sheet: &Sheet) -> Vec<u8> {
    let stays = prng.pick(&[0, 8, 16, 28, 31, 32]);
    let mut schedule = Vec::with_capacity(STEP * sheet.steps.len());
    let mut held: Vec<usize> = sheet.warm.clone();
    for &touched in &sheet.steps {
        held.retain(|&segment| Some(segment) != touched && prng.below(32) < stays);
        held.extend(touched);
        let mut step_bytes = [0; STEP];
        for &segment in &held {
            reference::set_held(&mut step_bytes, segment, true);
        }
        schedule.extend_from_slice(&step_bytes);
    }
    schedule
}

/// A schedule with a damage. Some damages leave it permitted.
pub fn damaged_schedule(prng: &mut Prng, sheet: &Sheet, good: &[u8]) -> Vec<u8> {
    let mut schedule = good.to_vec();
    let steps = sheet.steps.len();
    if steps == 0 || prng.one_in(5) {
        return wrong_length(prng, schedule);
    }
    let (one, other) = (prng.below(steps), prng.below(steps));
    let (early, late) = (one.min(other), one.max(other));
    match prng.below(10) {
        0 => touched_not_held(sheet, &mut schedule, one),
        1 => enters(prng, sheet, &mut schedule, one),
        2 => {
            touched_not_held(sheet, &mut schedule, one);
            enters(prng, sheet, &mut schedule, one);
        }
        3 => {
            enters(prng, sheet, &mut schedule, early);
            touched_not_held(sheet, &mut schedule, late);
        }
        4 => {
            touched_not_held(sheet, &mut schedule, early);
            enters(prng, sheet, &mut schedule, late);
        }
        5 => {
            // A bit at or above segs, in that step alone or in every step from there on.
            let segs = sheet.sizes.len();
            if segs < 256 {
                let segment = segs + prng.below(256 - segs);
                let last = if prng.one_in(2) { early } else { steps - 1 };
                for step in early..=last {
                    reference::set_held(&mut schedule[STEP * step..STEP * (step + 1)], segment, true);
                }
            }
        }
        6 => {
            // Any bit turned.
            let place = prng.below(schedule.len());
            schedule[place] ^= 1 << prng.below(8);
        }
        7 => back_again(prng, sheet, &mut schedule, late),
        8 => {
            // Held segments taken out of one step: those that stay in the next are not held before it.
            schedule[STEP * one..STEP * (one + 1)].fill(0);
            if let Some(touched) = sheet.steps[one] {
                schedule[STEP * one + touched / 8] = 1 << (touched % 8);
            }
        }
        _ => {
            let place = STEP * one;
            let random = prng.bytes(STEP);
            schedule[place..place + STEP].copy_from_slice(&random);
        }
    }
    schedule
}

fn wrong_length(prng: &mut Prng, mut schedule: Vec<u8>) -> Vec<u8> {
    let length = schedule.len();
    match prng.below(8) {
        0 => schedule.truncate(length.saturating_sub(1)),
        1 => schedule.truncate(length.saturating_sub(STEP)),
        2 => schedule.clear(),
        3 => schedule.push(0),
        4 => schedule.extend_from_slice(&[0; STEP]),
        5 => schedule.extend_from_slice(&[0xff; STEP]),
        6 => schedule.resize(length + (1 << 16), 0),
        _ => schedule.resize(2 * length + 1, 0),
    }
    schedule
}

/// 9 in a step, counted from 0, where it has a touch.
fn touched_not_held(sheet: &Sheet, schedule: &mut [u8], step: usize) {
    if let Some(touched) = sheet.steps[step] {
        reference::set_held(&mut schedule[STEP * step..STEP * (step + 1)], touched, false);
    }
}

/// 10 in a step, counted from 0: a segment enters that is neither touched nor held before, if there is one.
fn enters(prng: &mut Prng, sheet: &Sheet, schedule: &mut [u8], step: usize) {
    let bound = if prng.one_in(4) { 256 } else { sheet.sizes.len() };
    let before = match step {
        0 => std::array::from_fn(|segment| sheet.is_warm(segment)),
        _ => reference::held_in(&schedule[STEP * (step - 1)..STEP * step]),
    };
    let out: Vec<usize> =
        (0..bound).filter(|&segment| !before[segment] && Some(segment) != sheet.steps[step]).collect();
    if !out.is_empty() {
        let segment = prng.pick(&out);
        reference::set_held(&mut schedule[STEP * step..STEP * (step + 1)], segment, true);
    }
}

/// 10 in a step, counted from 0: a warm segment that was not held in the steps before comes back untouched, if there is a step before.
fn back_again(prng: &mut Prng, sheet: &Sheet, schedule: &mut [u8], step: usize) {
    let untouched = |segment: &&usize| !sheet.steps[..=step].contains(&Some(**segment));
    let warm: Vec<usize> = sheet.warm.iter().filter(untouched).copied().collect();
    if step == 0 || warm.is_empty() {
        return;
    }
    let segment = prng.pick(&warm);
    for (place, step_bytes) in schedule.chunks_mut(STEP).enumerate().take(step + 1) {
        reference::set_held(step_bytes, segment, place == step);
    }
}
