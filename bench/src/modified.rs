//! Modified segments: sheets of form 4 with a touch in every step and no warm segment, their listing, the schedule of the least total with
//! stores counted, and the price of one handed in.

use crate::digits::{number, short_run};
use crate::figures::{Pass, Scale};
use crate::listing::{put_row, ROOM};
use crate::schedule::{price, write_held, Price, STEP};
use crate::sheet::{eight, in_range, take_number, value, Sheet, Writer};
use crate::Refusal;

/// A sheet of form 4, and for each step whether its touch modifies.
pub struct Marked {
    pub sheet: Sheet,
    mark_list: [bool; Sheet::REFS],
    /// Whether any touch modifies.
    marked: bool,
}

impl Marked {
    const BYTES: usize = 33_414;

    /// A sheet to read into.
    pub fn empty() -> Marked {
        Marked { sheet: Sheet::empty(), mark_list: [false; Sheet::REFS], marked: false }
    }

    fn marks(&self) -> &[bool] {
        &self.mark_list[..self.sheet.refs]
    }

    /// Reads a sheet. Where it is refused, what the sheet then holds means nothing.
    pub fn read(&mut self, bytes: &[u8]) -> Result<(), Refusal> {
        if bytes.len() > Marked::BYTES {
            return Err(Refusal::SheetTooLong);
        }
        let mut at = 0;
        take_number(bytes, &mut at, b"form=", 4, 4)?;
        self.sheet.read_head(bytes, &mut at)?;
        take_number(bytes, &mut at, b"warm=", 0, 0)?;
        let steps = take_number(bytes, &mut at, b"steps=", 0, Sheet::REFS as u64)?;
        self.sheet.refs = take_number(bytes, &mut at, b"refs=", steps, steps)? as usize;
        let mut marked = false;
        let places = self.sheet.ref_list.iter_mut().zip(&mut self.mark_list);
        for (step, (place, mark)) in (1..=steps).zip(places) {
            let touch = take_touch(bytes, &mut at, self.sheet.segs as u64, step, steps)?;
            (*place, *mark) = (touch.segment as u16, touch.modifies);
            marked |= touch.modifies;
        }
        self.marked = marked;
        if at < bytes.len() {
            return Err(Refusal::BytesAfterEnd);
        }
        Ok(())
    }

    /// What the modifying touches add to opttotal at a row, in one pass over the references.
    fn added(&self, h: u64, d: u64) -> u64 {
        let mut table = Table::new(&self.sheet, h, d);
        let steps = (1..).zip(self.sheet.references()).zip(self.marks());
        steps.map(|((step, &segment), &marked)| table.touch(step, segment, marked).added).sum()
    }
}

struct Touch {
    segment: u64,
    modifies: bool,
}

/// The touch line at a place. The place goes to the next line.
#[inline(always)]
fn take_touch(bytes: &[u8], at: &mut usize, segs: u64, step: u64, steps: u64) -> Result<Touch, Refusal> {
    let start = *at;
    if let Some((touch, now, next)) = short_touch(bytes, start) {
        if (touch.segment < segs) & (now == step) {
            *at = next;
            return Ok(touch);
        }
    }
    let (touch, next) = any_touch(bytes, start, segs, step, steps)?;
    *at = next;
    Ok(touch)
}

/// A touch line of two numbers of up to 4 digits, its step, and the next line's place.
#[inline(always)]
fn short_touch(bytes: &[u8], at: usize) -> Option<(Touch, u64, usize)> {
    let segment = short_run(eight(bytes, at + 4)?);
    let middle = at + 4 + segment.length + 1;
    let step = short_run(eight(bytes, middle)?);
    let modifies = step.after == b'w';
    let end = middle + step.length + usize::from(modifies);
    let right = (bytes[at..at + 4] == *b"ref=") & segment.fine & (segment.after == b'@') & step.fine;
    let touch = Touch { segment: segment.value, modifies };
    (right & (bytes.get(end) == Some(&b'\n'))).then_some((touch, step.value, end + 1))
}

/// The same for a touch line of any form.
#[cold]
fn any_touch(bytes: &[u8], at: usize, segs: u64, step: u64, steps: u64) -> Result<(Touch, usize), Refusal> {
    let (value, next) = value(bytes, at, b"ref=")?;
    let sign = value.iter().position(|&byte| byte == b'@').ok_or(Refusal::ValueMalformed)?;
    let segment = number(&value[..sign]).ok_or(Refusal::ValueMalformed)?;
    let before_letter = value[sign + 1..].strip_suffix(b"w");
    let now = number(before_letter.unwrap_or(&value[sign + 1..])).ok_or(Refusal::ValueMalformed)?;
    let segment = in_range(segment, 0, segs - 1)?;
    // Steps without a touch are not taken here.
    if u64::from(now) != step || step > steps {
        return Err(Refusal::StepNotAbove);
    }
    Ok((Touch { segment, modifies: before_letter.is_some() }, next))
}

/// The state of a pass over the references at a row.
struct Table {
    /// h times the swap cost of each segment, and d times what holding it for one step costs.
    store: [u64; Sheet::SEGS],
    held: [u64; Sheet::SEGS],
    last: [u16; Sheet::SEGS],
    /// The excess since the last modifying touch, `NONE` before the first.
    since: [u64; Sheet::SEGS],
}

const NONE: u64 = 1 << 62;

/// What a touch adds and decides.
struct Touched {
    added: u64,
    /// The step of the touch before, 0 where there is none.
    before: u16,
    kept: bool,
    joined: bool,
}

impl Table {
    fn new(sheet: &Sheet, h: u64, d: u64) -> Table {
        let mut table = Table {
            store: [0; Sheet::SEGS],
            held: [0; Sheet::SEGS],
            last: [0; Sheet::SEGS],
            since: [NONE; Sheet::SEGS],
        };
        for ((store, held), &size) in table.store.iter_mut().zip(&mut table.held).zip(sheet.sizes()) {
            *store = h * sheet.swap_cost(size as u64);
            *held = d * sheet.step_cost(size as u64);
        }
        table
    }

    #[inline(always)]
    fn touch(&mut self, step: u16, segment: u16, marked: bool) -> Touched {
        let segment = segment as usize & 255;
        let store = self.store[segment];
        let before = std::mem::replace(&mut self.last[segment], step);
        // A first touch has an excess too, but nothing since a modifying touch that it could be added to.
        let excess = (u64::from(step - before - 1) * self.held[segment]).saturating_sub(store);
        let since = self.since[segment] + excess;
        self.since[segment] = if marked { 0 } else { since };
        let added = if marked { since.min(store) } else { 0 };
        Touched { added, before, kept: (excess == 0) & (before > 0), joined: since <= store }
    }
}

/// Reads a sheet of form 4 and writes its listing at the head of a lent place. Gives the length.
pub fn listing(bytes: &[u8], out: &mut [u8]) -> Result<usize, Refusal> {
    let mut marked = Marked::empty();
    marked.read(bytes)?;
    let sheet = &marked.sheet;
    let scale = Scale::of(sheet);
    let mut pass = Pass::start();
    pass.take(&scale, sheet.references());
    let mut writer = Writer { bytes: [0; ROOM], at: 0 };
    writer.item(b"refs=", sheet.refs as u64);
    writer.item(b"\nsteps=", sheet.refs as u64);
    writer.item(b"\nsegs=", sheet.segs as u64);
    writer.item(b"\nrows=", sheet.rows as u64);
    pass.sweep(&scale, |_, figures| {
        put_row(&mut writer, &figures);
        // Without a modifying touch nothing is added.
        let added = if marked.marked { marked.added(figures.h, figures.d) } else { 0 };
        writer.item(b"\nmodtotal=", figures.opttotal + added);
    });
    writer.text(b"\n");
    let written = &writer.bytes[..writer.at];
    let place = out.get_mut(..written.len()).ok_or(Refusal::PlaceTooShort)?;
    place.copy_from_slice(written);
    Ok(written.len())
}

/// Writes the schedule of the least total with stores counted at the head of a lent place and gives its length.
pub fn modified_schedule(marked: &Marked, row: u64, out: &mut [u8]) -> Result<usize, Refusal> {
    let (h, d) = marked.sheet.row(row)?;
    let length = STEP * marked.sheet.refs;
    let out = out.get_mut(..length).ok_or(Refusal::PlaceTooShort)?;
    write_held(&marked.sheet, &held_on(marked, h, d), out);
    Ok(length)
}

/// For each step all bits set where the touched segment is held until its next touch, else none: one pass for what each touch decides, and
/// one back for what the next modifying touch of its segment decides.
fn held_on(marked: &Marked, h: u64, d: u64) -> [u64; Sheet::REFS] {
    let mut table = Table::new(&marked.sheet, h, d);
    let mut before = [0u16; Sheet::REFS];
    let mut kept = [false; Sheet::REFS];
    let mut joined = [false; Sheet::REFS];
    for (index, (&segment, &mark)) in marked.sheet.references().iter().zip(marked.marks()).enumerate() {
        let touched = table.touch(index as u16 + 1, segment, mark);
        before[index] = touched.before;
        kept[index] = touched.kept;
        joined[index] = touched.joined;
    }
    let mut held_on = [0; Sheet::REFS];
    let mut next = [false; Sheet::SEGS];
    for (index, (&segment, &mark)) in marked.sheet.references().iter().zip(marked.marks()).enumerate().rev() {
        let flag = &mut next[segment as usize & 255];
        *flag = if mark { joined[index] } else { *flag };
        if before[index] > 0 {
            held_on[(before[index] as usize - 1) & (Sheet::REFS - 1)] = u64::from(kept[index] | *flag).wrapping_neg();
        }
    }
    held_on
}

/// Checks a schedule and prices it at a row with stores counted: each stay at its first modifying touch.
pub fn marked_price(marked: &Marked, row: u64, schedule: &[u8]) -> Result<Price, Refusal> {
    let sheet = &marked.sheet;
    let (h, _) = sheet.row(row)?;
    let Price { memory, load, total } = price(sheet, row, schedule)?;
    let mut flags = [false; Sheet::SEGS];
    let mut stores = 0;
    let mut before = &[0; STEP];
    let (steps, _) = schedule.as_chunks::<STEP>();
    for ((now, &segment), &mark) in steps.iter().zip(sheet.references()).zip(marked.marks()) {
        let segment = segment as usize & 255;
        let modified = flags[segment] & (before[segment / 8] >> (segment % 8) & 1 == 1);
        let swap = sheet.swap_cost(sheet.size_list[segment] as u64);
        stores += if mark & !modified { swap } else { 0 };
        flags[segment] = mark | modified;
        before = now;
    }
    Ok(Price { memory, load: load + stores, total: total + h * stores })
}
