//! Wrong answers about warm segments, worked out from the sheet handed in. Each gives back the right answer where its way is not put in.

use crate::reference::{self, Figures, Intervals, Sheet, STEP};
use crate::wrong::{self, Call, Way};

/// The number that `check` gives.
pub fn verdict(bytes: &[u8], returned: u64) -> u64 {
    match (wrong::way(Call::Check), returned) {
        (Some(Way::HoldsEqual), 19) if falls(bytes).is_some_and(|[before, now]| before == now) => 0,
        (Some(Way::HoldsFirst), 4) if falls(bytes).is_some() => 19,
        _ => returned,
    }
}

/// The first two numbers on hold lines of which the second is not above the first.
fn falls(bytes: &[u8]) -> Option<[u64; 2]> {
    let texts = bytes.split(|&byte| byte == b'\n').filter_map(|line| line.strip_prefix(b"hold="));
    let holds: Vec<u64> = texts.map_while(|text| std::str::from_utf8(text).ok()?.parse().ok()).collect();
    holds.windows(2).map(|pair| [pair[0], pair[1]]).find(|[before, now]| now <= before)
}

/// The figures of rows from one on, one after another, with a mistake about the warm segments.
pub fn figures(call: Call, bytes: &[u8], from: u64, out: &mut [u64]) {
    let Some(way) = wrong::way(call) else { return };
    let Ok(sheet) = reference::read(bytes) else { return };
    let Some(intervals) = intervals(way, &sheet) else { return };
    for (row, place) in sheet.rows.iter().skip(from as usize).zip(out.chunks_exact_mut(11)) {
        let figures: Figures = reference::figures(&sheet, &intervals, *row);
        place.copy_from_slice(&figures);
    }
}

/// The intervals of a sheet with a mistake, where the way is one.
fn intervals(way: Way, sheet: &Sheet) -> Option<Intervals> {
    if ![Way::WarmMissed, Way::WarmLonger, Way::WarmNoEnd, Way::WarmEndFromOne].contains(&way) {
        return None;
    }
    let mut intervals = Intervals::of(sheet);
    for &segment in &sheet.warm {
        let first = intervals.reuses.iter_mut().find(|(touched, _)| *touched == segment);
        match (way, first) {
            (Way::WarmMissed, Some((_, interval))) => *interval = None,
            (Way::WarmLonger, Some((_, Some(unreferenced)))) => *unreferenced += 1,
            (Way::WarmNoEnd, None) => intervals.ends[segment] = None,
            (Way::WarmEndFromOne, None) => {
                intervals.ends[segment] = Some((sheet.steps.len() as u64).saturating_sub(1));
            }
            _ => {}
        }
    }
    Some(intervals)
}

/// The optimal schedule of a row: no warm segment is held up to its first touch.
pub fn schedule(bytes: &[u8], row: u64, out: &mut [u8]) {
    if wrong::way(Call::OptimalSchedule) == Some(Way::WarmMissed) {
        let sheet = reference::read(&cold(bytes)).expect("an accepted sheet");
        let schedule = reference::optimal_schedule(&sheet, sheet.rows[row as usize]);
        out[..schedule.len()].copy_from_slice(&schedule);
    }
}

/// The schedule that is priced where one is refused with 10: a warm segment held in a step before its first touch is held up to there.
pub fn other_schedule(bytes: &[u8], schedule: &[u8]) -> Option<Vec<u8>> {
    if wrong::way(Call::Price) != Some(Way::ComesBack) {
        return None;
    }
    let sheet = reference::read(bytes).ok()?;
    let mut filled = schedule.to_vec();
    for &segment in &sheet.warm {
        let touch = sheet.steps.iter().position(|&touched| touched == Some(segment)).unwrap_or(sheet.steps.len());
        let held = |step: &usize| reference::held_in(&schedule[STEP * step..STEP * (step + 1)])[segment];
        for step in 0..(0..touch).rev().find(held).unwrap_or(0) {
            reference::set_held(&mut filled[STEP * step..STEP * (step + 1)], segment, true);
        }
    }
    Some(filled)
}

/// Whether a reference that has a margin gets 15: it is the first touch of its segment.
pub fn has_no_margin(bytes: &[u8], reference: u64) -> bool {
    let first = |sheet: Sheet| {
        let references = sheet.references();
        let (before, now) = references.split_at(reference as usize - 1);
        before.iter().all(|(_, segment)| *segment != now[0].1)
    };
    wrong::way(Call::Margin) == Some(Way::WarmNoMargin) && reference::read(bytes).is_ok_and(first)
}

/// The sheet without warm segments.
pub fn cold(bytes: &[u8]) -> Vec<u8> {
    reference::read(bytes).map_or(Vec::new(), |sheet| reference::write(&Sheet { warm: Vec::new(), ..sheet }))
}
