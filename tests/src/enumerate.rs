//! Demand 3 on small sheets: every permitted schedule is built and compared with the answers under test, in form 4 with stores counted.

use crate::reference::{Row, Sheet, STEP};

/// Sheets up to this size are worth it.
pub const MOST_SEGS: usize = 3;
pub const MOST_STEPS: usize = 5;

/// Memory and load of a schedule, and what its stores add to the load.
#[derive(Clone, Copy, Debug, PartialEq, Eq)]
pub struct Cost {
    pub memory: u64,
    pub load: u64,
    pub stores: u64,
}

impl Cost {
    fn total(self, row: Row) -> u64 {
        row.d * self.memory + row.h * self.load
    }

    /// With stores counted.
    fn stored(self) -> Cost {
        Cost { load: self.load + self.stores, ..self }
    }
}

/// A permitted schedule, the set of held segments a step, and its cost.
pub struct Permitted {
    pub sets: Vec<u8>,
    pub cost: Cost,
}

/// Every permitted schedule of a sheet with no more than 8 segments.
pub fn permitted_schedules(sheet: &Sheet) -> Vec<Permitted> {
    let mut found = Vec::new();
    extend(sheet, Vec::new(), 0, Cost { memory: 0, load: 0, stores: 0 }, &mut found);
    found
}

/// Every permitted continuation of the steps so far. A store is due for each of the modified segments: those whose stay goes on and has
/// had a touch that modifies.
fn extend(sheet: &Sheet, sets: Vec<u8>, modified: u8, cost: Cost, found: &mut Vec<Permitted>) {
    let stored = |set: u8| {
        (0..8).filter(|&segment| set >> segment & 1 == 1).map(|segment| sheet.swap_cost(segment)).sum::<u64>()
    };
    let Some(&touched) = sheet.steps.get(sets.len()) else {
        let stores = cost.stores + stored(modified);
        found.push(Permitted { sets, cost: Cost { stores, ..cost } });
        return;
    };
    let now = touched.filter(|_| sheet.modifies(sets.len() + 1)).map_or(0, |touched| 1 << touched);
    // At step 0 the warm segments are held.
    let before = sets.last().copied().unwrap_or(sheet.warm.iter().map(|segment| 1 << segment).sum());
    for set in 0..1u32 << sheet.sizes.len() {
        let set = set as u8;
        let has = |set: u8, segment: usize| set >> segment & 1 == 1;
        let others = || (0..sheet.sizes.len()).filter(|&segment| Some(segment) != touched && has(set, segment));
        if touched.is_some_and(|touched| !has(set, touched)) || others().any(|segment| !has(before, segment)) {
            continue;
        }
        let held: u64 = others().map(|segment| sheet.holding_cost(segment)).sum();
        let touch = touched.map_or(0, |touched| sheet.reference_cost(touched));
        let swap = touched.filter(|&touched| !has(before, touched)).map_or(0, |touched| sheet.swap_cost(touched));
        let (memory, load) = (cost.memory + touch + held, cost.load + swap);
        let cost = Cost { memory, load, stores: cost.stores + stored(modified & !set) };
        extend(sheet, [&sets[..], &[set]].concat(), modified & set | now, cost, found);
    }
}

/// The schedule's bytes.
pub fn bytes_of(sets: &[u8]) -> Vec<u8> {
    let mut schedule = vec![0; STEP * sets.len()];
    for (place, &set) in schedule.chunks_mut(STEP).zip(sets) {
        place[0] = set;
    }
    schedule
}

/// Checks the answers for a row against every permitted schedule: its opttotal and load, and the optimal schedule written.
pub fn check_row(all: &[Permitted], row: Row, opttotal: u64, load: u64, written: &[u8]) -> Result<(), String> {
    let mut written_found = false;
    for schedule in all {
        let total = schedule.cost.total(row);
        if total < opttotal {
            return Err(format!("schedule {:?} costs {total}, less than opttotal {opttotal}", schedule.sets));
        }
        if total == opttotal && schedule.cost.load < load {
            return Err(format!(
                "schedule {:?} costs opttotal {opttotal} with load {} below {load}",
                schedule.sets, schedule.cost.load
            ));
        }
        if bytes_of(&schedule.sets) == written {
            written_found = true;
            if total != opttotal || schedule.cost.load != load {
                return Err(format!(
                    "the schedule written costs {total} with load {}, not {opttotal} with {load}",
                    schedule.cost.load
                ));
            }
        }
    }
    if !written_found {
        return Err("the schedule written is not a permitted one".to_string());
    }
    Ok(())
}

/// Checks the answers for a row of form 4 against every permitted schedule, stores counted: modtotal is the least total, and the schedule
/// written is of those that have it the one of the least load. No other has that load too, so that the last rule for ties never decides.
pub fn check_modified(all: &[Permitted], row: Row, modtotal: u64, written: &[u8]) -> Result<(), String> {
    let cost = |schedule: &Permitted| {
        let cost = schedule.cost.stored();
        (cost.total(row), cost.load)
    };
    let (total, load) = all.iter().map(cost).min().ok_or("no schedule is permitted")?;
    if total != modtotal {
        return Err(format!("modtotal is {modtotal}, the least total of a permitted schedule {total}"));
    }
    let mut best: Vec<&Permitted> = all.iter().filter(|schedule| cost(schedule) == (total, load)).collect();
    // In the earliest differing step, and there for the lowest differing segment, the first of them holds.
    best.sort_by_key(|schedule| schedule.sets.iter().map(|set| !set.reverse_bits()).collect::<Vec<u8>>());
    if bytes_of(&best[0].sets) != written {
        return Err(format!("the schedule written is not {:?}, of total {total} and load {load}", best[0].sets));
    }
    if best.len() > 1 {
        return Err(format!("{:?} and {:?} both have total {total} and load {load}", best[0].sets, best[1].sets));
    }
    Ok(())
}
