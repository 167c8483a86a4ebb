//! The segment trace analyser in the plainest way: each answer straight from its definition, in 64-bit numbers of which none may
//! overflow: the tests are built to panic there. A refusal is its number.

/// The longest sheet of a form, in bytes.
pub fn longest(form: u64) -> usize {
    match form {
        2 => 29_163,
        3 => 31_366,
        4 => 33_414,
        _ => 20_012,
    }
}

/// The most steps of a sheet or a recorder.
pub const MOST_STEPS: usize = 2_048;
/// The newest form of a sheet.
pub const NEWEST_FORM: u64 = 4;
/// Bytes of a schedule for one step.
pub const STEP: usize = 32;

#[derive(Clone, Copy, Debug, PartialEq, Eq)]
pub enum Kind {
    Time,
    Space,
}

#[derive(Clone, Copy, Debug, PartialEq, Eq)]
pub struct Row {
    pub h: u64,
    pub d: u64,
}

impl Row {
    /// Whether this threshold exceeds another.
    pub fn exceeds(self, other: Row) -> bool {
        self.h * other.d > other.h * self.d
    }
}

#[derive(Clone, Debug, PartialEq, Eq)]
pub struct Sheet {
    pub form: u64,
    pub kind: Kind,
    pub a: u64,
    pub sizes: Vec<u64>,
    pub rows: Vec<Row>,
    /// The warm segments, those in memory before step 1, ascending. Named from form 3 on; the others have none.
    pub warm: Vec<usize>,
    /// For each step the segment that it touches, if any. Form 1 has a touch in every step.
    pub steps: Vec<Option<usize>>,
    /// In form 4 for each step whether its touch modifies the segment. In the others nothing that stands here has a meaning.
    pub marks: Vec<bool>,
}

// ---- Reading and writing ----

/// The sheet that the bytes are, or the number of its refusal, for a call that takes every form.
pub fn read(bytes: &[u8]) -> Result<Sheet, u64> {
    read_forms(bytes, 1, NEWEST_FORM)
}

/// The same for a call that takes the forms from one to another.
pub fn read_forms(bytes: &[u8], lowest: u64, highest: u64) -> Result<Sheet, u64> {
    // The first complete line decides how long the sheet may be, whatever the call.
    let named = (2..=NEWEST_FORM).find(|form| bytes.starts_with(format!("form={form}\n").as_bytes()));
    if bytes.len() > longest(named.unwrap_or(1)) {
        return Err(1);
    }
    let mut rest = bytes;
    let mut form = 1;
    if bytes.starts_with(b"form=") {
        form = take_number(&mut rest, b"form=", lowest.max(2), highest)?;
    }
    let kind = match take_value(&mut rest, b"kind=")? {
        b"time" => Kind::Time,
        b"space" => Kind::Space,
        _ => return Err(3),
    };
    if form < lowest {
        return Err(4);
    }
    let a = take_number(&mut rest, b"a=", 0, 255)?;
    let segs = take_number(&mut rest, b"segs=", 1, 256)?;
    let mut sizes = Vec::new();
    for _ in 0..segs {
        sizes.push(take_number(&mut rest, b"size=", 1, 4_095)?);
    }
    let row_count = take_number(&mut rest, b"rows=", 1, 64)?;
    let mut rows: Vec<Row> = Vec::new();
    for _ in 0..row_count {
        let row = row_value(take_value(&mut rest, b"row=")?)?;
        if rows.last().is_some_and(|&before| !row.exceeds(before)) {
            return Err(5);
        }
        rows.push(row);
    }
    let warm = if form < 3 { Vec::new() } else { take_warm(&mut rest, segs)? };
    let touches = if form == 1 { take_references(&mut rest, segs)? } else { take_touches(&mut rest, segs, form > 3)? };
    if !rest.is_empty() {
        return Err(6);
    }
    let (steps, marks) = touches.into_iter().unzip();
    let marks = if form > 3 { marks } else { Vec::new() };
    Ok(Sheet { form, kind, a, sizes, rows, warm, steps, marks })
}

/// What a step touches, if anything, and whether the touch modifies it.
type Step = (Option<usize>, bool);

/// warm= and hold= of form 3 on: segments in ascending order.
fn take_warm(rest: &mut &[u8], segs: u64) -> Result<Vec<usize>, u64> {
    let count = take_number(rest, b"warm=", 0, segs)?;
    let mut warm: Vec<usize> = Vec::new();
    for _ in 0..count {
        let segment = take_number(rest, b"hold=", 0, segs - 1)? as usize;
        if warm.last().is_some_and(|&before| segment <= before) {
            return Err(19);
        }
        warm.push(segment);
    }
    Ok(warm)
}

/// refs= and ref= of form 1: a touch in every step.
fn take_references(rest: &mut &[u8], segs: u64) -> Result<Vec<Step>, u64> {
    let count = take_number(rest, b"refs=", 0, MOST_STEPS as u64)?;
    (0..count).map(|_| Ok((Some(take_number(rest, b"ref=", 0, segs - 1)? as usize), false))).collect()
}

/// steps=, refs= and ref= of form 2 on: segment and step, in ascending steps, and in a form with letters a w right after the step of a
/// touch that modifies.
fn take_touches(rest: &mut &[u8], segs: u64, letters: bool) -> Result<Vec<Step>, u64> {
    let count = take_number(rest, b"steps=", 0, MOST_STEPS as u64)?;
    let refs = take_number(rest, b"refs=", 0, count)?;
    let mut steps = vec![(None, false); count as usize];
    let mut last = 0;
    for _ in 0..refs {
        let value = take_value(rest, b"ref=")?;
        let parts: Vec<&[u8]> = value.split(|&byte| byte == b'@').collect();
        let &[segment, step] = &parts[..] else { return Err(3) };
        let before_letter = step.strip_suffix(b"w").filter(|_| letters);
        let (segment, step) = (number_value(segment)?, number_value(before_letter.unwrap_or(step))?);
        let segment = in_range(segment, 0, segs - 1)?;
        if step <= last || step > count {
            return Err(16);
        }
        steps[step as usize - 1] = (Some(segment as usize), before_letter.is_some());
        last = step;
    }
    Ok(steps)
}

/// Takes one line off the rest and gives its value. 2: the line is missing, lacks its line feed or does not begin with its key.
fn take_value<'a>(rest: &mut &'a [u8], key: &[u8]) -> Result<&'a [u8], u64> {
    let end = rest.iter().position(|&byte| byte == b'\n').ok_or(2u64)?;
    let (line, after) = (&rest[..end], &rest[end + 1..]);
    let value = line.strip_prefix(key).ok_or(2u64)?;
    *rest = after;
    Ok(value)
}

fn take_number(rest: &mut &[u8], key: &[u8], low: u64, high: u64) -> Result<u64, u64> {
    let value = number_value(take_value(rest, key)?)?;
    in_range(value, low, high)
}

/// A number of any length: digits with no leading zero. Too many digits for 64 bits count as the largest number.
fn number_value(text: &[u8]) -> Result<u64, u64> {
    let leading_zero = text.len() > 1 && text[0] == b'0';
    if text.is_empty() || leading_zero || !text.iter().all(u8::is_ascii_digit) {
        return Err(3);
    }
    Ok(text.iter().fold(0u64, |value, byte| value.saturating_mul(10).saturating_add(u64::from(byte - b'0'))))
}

fn in_range(value: u64, low: u64, high: u64) -> Result<u64, u64> {
    if value < low || value > high {
        return Err(4);
    }
    Ok(value)
}

/// Two numbers around "/": 3 is asked of both before 4.
fn row_value(text: &[u8]) -> Result<Row, u64> {
    let parts: Vec<&[u8]> = text.split(|&byte| byte == b'/').collect();
    if parts.len() != 2 {
        return Err(3);
    }
    let h = number_value(parts[0])?;
    let d = number_value(parts[1])?;
    Ok(Row { h: in_range(h, 0, 65_535)?, d: in_range(d, 1, 65_535)? })
}

/// The bytes of a sheet.
pub fn write(sheet: &Sheet) -> Vec<u8> {
    let mut text = String::new();
    if sheet.form > 1 {
        text += &format!("form={}\n", sheet.form);
    }
    text += match sheet.kind {
        Kind::Time => "kind=time\n",
        Kind::Space => "kind=space\n",
    };
    text += &format!("a={}\n", sheet.a);
    text += &format!("segs={}\n", sheet.sizes.len());
    for size in &sheet.sizes {
        text += &format!("size={size}\n");
    }
    text += &format!("rows={}\n", sheet.rows.len());
    for row in &sheet.rows {
        text += &format!("row={}/{}\n", row.h, row.d);
    }
    if sheet.form > 2 {
        text += &format!("warm={}\n", sheet.warm.len());
        for segment in &sheet.warm {
            text += &format!("hold={segment}\n");
        }
    }
    if sheet.form > 1 {
        text += &format!("steps={}\n", sheet.steps.len());
    }
    text += &format!("refs={}\n", sheet.references().len());
    for (step, segment) in sheet.references() {
        text += &match sheet.form {
            1 => format!("ref={segment}\n"),
            _ => format!("ref={segment}@{step}{}\n", if sheet.modifies(step) { "w" } else { "" }),
        };
    }
    text.into_bytes()
}

/// The form 1 sheet that the bytes are, in form 2.
pub fn to_form_2(bytes: &[u8]) -> Result<Vec<u8>, u64> {
    let sheet = read_forms(bytes, 1, 1)?;
    Ok(write(&Sheet { form: 2, ..sheet }))
}

/// The form 2 sheet that the bytes are, in form 1. 17: a step is idle.
pub fn to_form_1(bytes: &[u8]) -> Result<Vec<u8>, u64> {
    let sheet = read_forms(bytes, 2, 2)?;
    if sheet.steps.contains(&None) {
        return Err(17);
    }
    Ok(write(&Sheet { form: 1, ..sheet }))
}

// ---- Costs ----

impl Sheet {
    #[inline(always)]
    pub fn size(&self, segment: usize) -> u64 {
        self.sizes[segment]
    }

    #[inline(always)]
    pub fn swap_cost(&self, segment: usize) -> u64 {
        1 + self.a * self.size(segment)
    }

    /// What a reference costs.
    #[inline(always)]
    pub fn reference_cost(&self, segment: usize) -> u64 {
        match self.kind {
            Kind::Time => 1,
            Kind::Space => self.size(segment),
        }
    }

    /// What a step costs in which the segment is held and not touched.
    pub fn holding_cost(&self, segment: usize) -> u64 {
        match self.kind {
            Kind::Time => 1,
            Kind::Space => self.size(segment),
        }
    }

    /// R after an unreferenced time.
    #[inline(always)]
    pub fn retention(&self, segment: usize, unreferenced: u64) -> u64 {
        match self.kind {
            Kind::Time => unreferenced,
            Kind::Space => unreferenced * self.size(segment),
        }
    }

    /// Whether a row keeps a reuse of the segment after an unreferenced time.
    #[inline(always)]
    pub fn keeps(&self, row: Row, segment: usize, unreferenced: u64) -> bool {
        row.d * self.retention(segment, unreferenced) <= row.h * self.swap_cost(segment)
    }

    /// The segment touched in a step, counted from 1, if any.
    pub fn touched(&self, step: usize) -> Option<usize> {
        self.steps[step - 1]
    }

    /// Whether a step, counted from 1, has a touch that modifies its segment: in form 4 alone.
    pub fn modifies(&self, step: usize) -> bool {
        self.form > 3 && self.touched(step).is_some() && self.marks.get(step - 1) == Some(&true)
    }

    pub fn is_warm(&self, segment: usize) -> bool {
        self.warm.contains(&segment)
    }

    /// The last step before this one that touches the segment. A warm segment counts as touched at step 0.
    pub fn last_touch(&self, segment: usize, step: usize) -> Option<usize> {
        let touch = (1..step).rev().find(|&earlier| self.touched(earlier) == Some(segment));
        touch.or(self.is_warm(segment).then_some(0))
    }

    /// The references: step, counted from 1, and segment of each.
    pub fn references(&self) -> Vec<(usize, usize)> {
        self.steps.iter().zip(1..).filter_map(|(touched, step)| Some((step, (*touched)?))).collect()
    }
}

/// The unreferenced times of a sheet.
pub struct Intervals {
    /// For each reference: its segment, and its unreferenced time, none for a first touch of a segment that is not warm.
    pub reuses: Vec<(usize, Option<u64>)>,
    /// For each segment: that of the end interval, none if it is never touched and not warm.
    pub ends: Vec<Option<u64>>,
}

impl Intervals {
    pub fn of(sheet: &Sheet) -> Intervals {
        let since = |segment, step| sheet.last_touch(segment, step).map(|last| (step - last - 1) as u64);
        let end = sheet.steps.len() + 1;
        Intervals {
            reuses: sheet.references().iter().map(|&(step, segment)| (segment, since(segment, step))).collect(),
            ends: (0..sheet.sizes.len()).map(|segment| since(segment, end)).collect(),
        }
    }
}

// ---- Figures ----

/// The eleven items of a row: h, d, misses, volume, load, optmem, opttotal, optocc, wsmem, wsocc, mean.
pub type Figures = [u64; 11];
pub const NAMES: [&str; 11] =
    ["h", "d", "misses", "volume", "load", "optmem", "opttotal", "optocc", "wsmem", "wsocc", "mean"];
pub const LOAD: usize = 4;
pub const OPTMEM: usize = 5;
pub const OPTTOTAL: usize = 6;

pub fn figures(sheet: &Sheet, intervals: &Intervals, row: Row) -> Figures {
    let Row { h, d } = row;
    let (mut misses, mut volume, mut optmem, mut optocc) = (0, 0, 0, 0);
    let (mut wsmem, mut wsocc) = (0, 0);
    for &(segment, reuse) in &intervals.reuses {
        let size = sheet.size(segment);
        // Q and V.
        optmem += sheet.reference_cost(segment);
        optocc += size;
        wsmem += d * sheet.reference_cost(segment);
        wsocc += d * size;
        match reuse {
            Some(unreferenced) if sheet.keeps(row, segment, unreferenced) => {
                optmem += sheet.retention(segment, unreferenced);
                optocc += unreferenced * size;
            }
            _ => {
                misses += 1;
                volume += size;
            }
        }
    }
    let ends = intervals.ends.iter().copied().enumerate();
    for (segment, interval) in intervals.reuses.iter().copied().chain(ends) {
        if let Some(unreferenced) = interval {
            let smaller = (d * sheet.retention(segment, unreferenced)).min(h * sheet.swap_cost(segment));
            wsmem += smaller;
            wsocc += sheet.size(segment) * smaller;
        }
    }
    if sheet.kind == Kind::Space {
        wsocc = wsmem;
    }
    let steps = sheet.steps.len() as u64;
    let load = misses + sheet.a * volume;
    let opttotal = d * optmem + h * load;
    let mean = if steps == 0 { 0 } else { 1_000 * wsocc / (d * steps) };
    [h, d, misses, volume, load, optmem, opttotal, optocc, wsmem, wsocc, mean]
}

/// The listing of a sheet from the figures of its rows and, in form 4, their modtotals.
pub fn listing(sheet: &Sheet, all: &[Figures], modtotals: &[u64]) -> Vec<u8> {
    let mut text = format!("refs={}\n", sheet.references().len());
    if sheet.form > 1 {
        text += &format!("steps={}\n", sheet.steps.len());
    }
    text += &format!("segs={}\nrows={}\n", sheet.sizes.len(), sheet.rows.len());
    for (row, figures) in all.iter().enumerate() {
        for (name, value) in NAMES.iter().zip(figures) {
            text += &format!("{name}={value}\n");
        }
        if sheet.form > 3 {
            text += &format!("modtotal={}\n", modtotals[row]);
        }
    }
    text.into_bytes()
}

/// The page for the binder, and a second one for rows 58 to 63.
pub fn page(sheet: &Sheet, all: &[Figures]) -> Vec<u8> {
    let kind = if sheet.kind == Kind::Space { "space" } else { "time" };
    let aligned = |fields: [String; 6]| {
        let [h, d, misses, volume, load, mean] = fields;
        format!("{h:>7}  {d:>7}  {misses:>8}  {volume:>12}  {load:>12}  {mean:>12}")
    };
    let mut text = String::new();
    for rows in all.chunks(58) {
        let mut lines = vec![format!("kind={kind} a={}", sheet.a)];
        lines.push(aligned(["h", "d", "misses", "volume", "load", "mean"].map(String::from)));
        lines.extend(rows.iter().map(|row| aligned([0, 1, 2, 3, 4, 10].map(|item| row[item].to_string()))));
        lines.resize(60, String::new());
        lines.iter().for_each(|line| text += &format!("{line:<72}\n"));
    }
    text.into_bytes()
}

/// The margin of a reference at a row. 14: it is not between 1 and refs. 15: it is a first touch of a segment that is not warm.
pub fn margin(sheet: &Sheet, row: Row, reference: u64) -> Result<i64, u64> {
    let references = sheet.references();
    if reference < 1 || reference > references.len() as u64 {
        return Err(14);
    }
    let (step, segment) = references[reference as usize - 1];
    let last = sheet.last_touch(segment, step).ok_or(15u64)?;
    let retention = sheet.retention(segment, (step - last - 1) as u64);
    Ok((row.h * sheet.swap_cost(segment)) as i64 - (row.d * retention) as i64)
}

/// The row for a ceiling: the least load of the rows within it, then the first of them with that load. 12: no row is within it.
pub fn size(all: &[Figures], ceiling: u64) -> Result<u64, u64> {
    let fits = |figures: &&Figures| figures[OPTMEM] <= ceiling;
    let least = all.iter().filter(fits).map(|figures| figures[LOAD]).min().ok_or(12u64)?;
    let row = all.iter().position(|figures| fits(&figures) && figures[LOAD] == least);
    Ok(row.expect("a row of the least load") as u64)
}

/// The bill of a row's figures by two rates and a minimum. 18: one of them is out of range.
pub fn bill(figures: &Figures, [memory_rate, load_rate, minimum]: [u64; 3]) -> Result<u64, u64> {
    if memory_rate > 9_999 || load_rate > 9_999 || minimum > 99_999 {
        return Err(18);
    }
    let started = |units: u64| units / 1_000 + u64::from(units % 1_000 > 0);
    Ok((started(figures[OPTMEM]) * memory_rate + started(figures[LOAD]) * load_rate).max(minimum))
}

// ---- Schedules ----

/// Which of the 256 segments are held in a step.
pub type Held = [bool; 256];

pub fn held_in(step_bytes: &[u8]) -> Held {
    std::array::from_fn(|segment| step_bytes[segment / 8] >> (segment % 8) & 1 == 1)
}

pub fn set_held(step_bytes: &mut [u8], segment: usize, held: bool) {
    let bit = 1 << (segment % 8);
    if held {
        step_bytes[segment / 8] |= bit;
    } else {
        step_bytes[segment / 8] &= !bit;
    }
}

/// The optimal schedule of a row: held are the touched segment and, between the two touches of a kept reuse, the segment of it. The first
/// of the two may be that at step 0.
pub fn optimal_schedule(sheet: &Sheet, row: Row) -> Vec<u8> {
    let steps = sheet.steps.len();
    let mut schedule = vec![0; STEP * steps];
    for segment in 0..sheet.sizes.len() {
        let start = sheet.is_warm(segment).then_some(0);
        let touches: Vec<usize> =
            start.into_iter().chain((1..=steps).filter(|&step| sheet.touched(step) == Some(segment))).collect();
        for step in 1..=steps {
            let last = touches.iter().rev().find(|&&touch| touch < step);
            let next = touches.iter().find(|&&touch| touch > step);
            let held = sheet.touched(step) == Some(segment)
                || match (last, next) {
                    (Some(last), Some(next)) => sheet.keeps(row, segment, (next - last - 1) as u64),
                    _ => false,
                };
            set_held(&mut schedule[STEP * (step - 1)..STEP * step], segment, held);
        }
    }
    schedule
}

/// Memory, load and total.
pub type Price = [u64; 3];

/// Checks a schedule step by step and prices it, stores counted: a stay with a touch that modifies adds the swap cost where it ends, or
/// where the record ends. 8: its length. 9 or 10: its earliest faulty step.
pub fn price(sheet: &Sheet, row: Row, schedule: &[u8]) -> Result<Price, u64> {
    if schedule.len() != STEP * sheet.steps.len() {
        return Err(8);
    }
    // Held at step 0, free.
    let mut before: Held = std::array::from_fn(|segment| sheet.is_warm(segment));
    let (mut memory, mut load) = (0, 0);
    // The segments whose stay has had such a touch.
    let mut modified: Held = [false; 256];
    for (step, step_bytes) in (1..).zip(schedule.chunks(STEP)) {
        let touched = sheet.touched(step);
        let held = held_in(step_bytes);
        if touched.is_some_and(|touched| !held[touched]) {
            return Err(9);
        }
        let others = || (0..256).filter(|&segment| Some(segment) != touched && held[segment]);
        if others().any(|segment| !before[segment]) {
            return Err(10);
        }
        for segment in others() {
            memory += sheet.holding_cost(segment);
        }
        load += stores(sheet, &mut modified, |segment| !held[segment]);
        if let Some(touched) = touched {
            memory += sheet.reference_cost(touched);
            if !before[touched] {
                load += sheet.swap_cost(touched);
            }
            modified[touched] |= sheet.modifies(step);
        }
        before = held;
    }
    load += stores(sheet, &mut modified, |_| true);
    Ok([memory, load, row.d * memory + row.h * load])
}

/// The swap costs of the modified segments whose stay ends. They are not modified any more.
fn stores(sheet: &Sheet, modified: &mut Held, ends: impl Fn(usize) -> bool) -> u64 {
    let ended: Vec<usize> = (0..256).filter(|&segment| modified[segment] && ends(segment)).collect();
    ended.iter().for_each(|&segment| modified[segment] = false);
    ended.iter().map(|&segment| sheet.swap_cost(segment)).sum()
}
