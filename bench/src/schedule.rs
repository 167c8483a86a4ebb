//! Schedules of 32 bytes a step: writing the optimal one, and checking and pricing one handed in.

use crate::sheet::Sheet;
use crate::Refusal;

pub const STEP: usize = 32;

/// The segments held in a step: segment i is bit i % 64 of word i / 64.
type Held = [u64; 4];

/// The set of one segment alone, for each segment.
static ALONE: [Held; Sheet::SEGS] = {
    let mut sets = [[0; 4]; Sheet::SEGS];
    let mut segment = 0;
    while segment < Sheet::SEGS {
        sets[segment][segment / 64] = 1 << (segment % 64);
        segment += 1;
    }
    sets
};

/// Memory, load and total of a schedule at a row.
#[derive(Clone, Copy, Debug, PartialEq, Eq)]
pub struct Price {
    pub memory: u64,
    pub load: u64,
    pub total: u64,
}

/// Writes the optimal schedule of a row at the head of a lent place and gives its length.
pub fn optimal_schedule(sheet: &Sheet, row: u64, out: &mut [u8]) -> Result<usize, Refusal> {
    let (h, d) = sheet.row(row)?;
    let length = STEP * sheet.refs;
    let out = out.get_mut(..length).ok_or(Refusal::PlaceTooShort)?;
    write_held(sheet, &held_on(sheet, h, d), out);
    Ok(length)
}

/// Writes the schedule that holds the touched segment of each step until its next touch where all bits are set for the step.
#[inline(always)]
pub(crate) fn write_held(sheet: &Sheet, held_on: &[u64; Sheet::REFS], out: &mut [u8]) {
    let mut held: Held = [0; 4];
    let (places, _) = out.as_chunks_mut::<STEP>();
    for ((place, &segment), &on) in places.iter_mut().zip(sheet.references()).zip(held_on) {
        let alone = &ALONE[segment as usize & 255];
        for word in 0..4 {
            held[word] |= alone[word];
            place[8 * word..8 * word + 8].copy_from_slice(&held[word].to_le_bytes());
            held[word] &= !(alone[word] & !on);
        }
    }
}

/// For each step all bits set where the touched segment is held until its next touch, else none.
fn held_on(sheet: &Sheet, h: u64, d: u64) -> [u64; Sheet::REFS] {
    // The longest unreferenced time that is kept, by cross products turned to a quotient of whole numbers.
    let mut longest = [0u16; Sheet::SEGS];
    for (place, &size) in longest.iter_mut().zip(sheet.sizes()) {
        let size = size as u64;
        *place = (h * sheet.swap_cost(size) / (d * sheet.step_cost(size))).min(Sheet::REFS as u64) as u16;
    }
    let mut last = [0u16; Sheet::SEGS];
    let mut held_on = [0; Sheet::REFS];
    for (index, &segment) in sheet.references().iter().enumerate() {
        let step = index as u16 + 1;
        let segment = segment as usize & 255;
        let before = last[segment];
        last[segment] = step;
        if before != 0 {
            let kept = step - before - 1 <= longest[segment];
            held_on[(before as usize - 1) & (Sheet::REFS - 1)] = u64::from(kept).wrapping_neg();
        }
    }
    held_on
}

/// Checks a schedule and prices it at a row. Each step looks only at what changed against the step before.
pub fn price(sheet: &Sheet, row: u64, schedule: &[u8]) -> Result<Price, Refusal> {
    let (h, d) = sheet.row(row)?;
    if schedule.len() != STEP * sheet.refs {
        return Err(Refusal::ScheduleLength);
    }
    let mut before = &[0; STEP];
    let mut touched_before = 0;
    // The cost of one step of what is held, the touched segment among it: a reference costs what holding costs.
    let mut running = 0;
    let mut memory = 0;
    let mut load = 0;
    let (steps, _) = schedule.as_chunks::<STEP>();
    for (now, &segment) in steps.iter().zip(sheet.references()) {
        let touched = segment as usize & 255;
        if !holds(now, touched) {
            return Err(Refusal::TouchedNotHeld);
        }
        // Mostly nothing enters but the touched segment, and nothing leaves but the one touched before.
        let mut others = 0;
        for word in 0..4 {
            let (was, is) = (word_of(before, word), word_of(now, word));
            others |= is & !was & !ALONE[touched][word] | was & !is & !ALONE[touched_before][word];
        }
        if others != 0 {
            running -= others_left(sheet, before, now, touched, touched_before)?;
        }
        let left = u64::from(holds(before, touched_before) & !holds(now, touched_before));
        let entered = u64::from(!holds(before, touched));
        let size = sheet.size_list[touched] as u64;
        running -= left * sheet.step_cost(sheet.size_list[touched_before] as u64);
        running += entered * sheet.step_cost(size);
        load += entered * sheet.swap_cost(size);
        memory += running;
        before = now;
        touched_before = touched;
    }
    Ok(Price { memory, load, total: d * memory + h * load })
}

#[inline(always)]
fn holds(step: &[u8; STEP], segment: usize) -> bool {
    step[segment / 8 % STEP] >> (segment % 8) & 1 == 1
}

#[inline(always)]
fn word_of(step: &[u8; STEP], word: usize) -> u64 {
    step[8 * word..].first_chunk().map_or(0, |bytes| u64::from_le_bytes(*bytes))
}

/// The cost of a step of the segments that left, without the one touched before; refused if one entered that is not touched.
#[cold]
fn others_left(
    sheet: &Sheet,
    before: &[u8; STEP],
    now: &[u8; STEP],
    touched: usize,
    touched_before: usize,
) -> Result<u64, Refusal> {
    let mut cost = 0;
    for word in 0..4 {
        let (was, is) = (word_of(before, word), word_of(now, word));
        if is & !was & !ALONE[touched][word] != 0 {
            return Err(Refusal::HeldNotBefore);
        }
        let mut left = was & !is & !ALONE[touched_before][word];
        while left != 0 {
            let segment = 64 * word + left.trailing_zeros() as usize;
            cost += sheet.step_cost(sheet.size_list[segment] as u64);
            left &= left - 1;
        }
    }
    Ok(cost)
}
