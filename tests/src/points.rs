//! Every operating point (F-11): the second implementation, the points of random sheets against the rows, the thresholds between neighbours
//! and every permitted schedule of small sheets; examples worked by hand, and wrong answers.

use crate::calls;
use crate::compare::{done, ensure, Case, Outcome};
use crate::enumerate;
use crate::reference::{self, Kind, Row, Sheet, LOAD, OPTMEM};
use crate::vectors::Check;
use crate::wrong::{self, Call, Way};

// ---- The second implementation ----

/// R and w of a threshold, optmem and load there.
type Point = [u64; 4];

/// The points of a sheet one after another, or the number of the refusal.
pub fn points(bytes: &[u8]) -> Result<Vec<u64>, u64> {
    Ok(list(&reuses(&reference::read(bytes)?)).concat())
}

/// R and w of a reuse; for a touch that is none, w alone.
type Touch = (Option<u64>, u64);

/// The touches in order, and Q.
struct Touches {
    cost: u64,
    list: Vec<Touch>,
}

fn reuses(sheet: &Sheet) -> Touches {
    let touch = |&(step, segment): &(usize, usize)| {
        let retention = sheet.last_touch(segment, step).map(|last| sheet.retention(segment, (step - last - 1) as u64));
        (retention, sheet.swap_cost(segment))
    };
    let references = sheet.references();
    let cost = references.iter().map(|&(_, segment)| sheet.reference_cost(segment)).sum();
    Touches { cost, list: references.iter().map(touch).collect() }
}

/// Every distinct ratio once, ascending, as the R and w of the earliest reuse having it; 0 and 1 in front where no reuse has ratio 0.
fn list(touches: &Touches) -> Vec<Point> {
    let mut ratios: Vec<(u64, u64)> = Vec::new();
    for &(retention, swap) in &touches.list {
        let Some(retention) = retention else { continue };
        if ratios.iter().all(|&(other, other_swap)| retention * other_swap != other * swap) {
            ratios.push((retention, swap));
        }
    }
    if ratios.iter().all(|&(retention, _)| retention > 0) {
        ratios.push((0, 1));
    }
    ratios.sort_by(|one, other| (one.0 * other.1).cmp(&(other.0 * one.1)));
    ratios.into_iter().map(|(retention, swap)| at(touches, retention, swap)).collect()
}

/// The point at a threshold h/d: a reuse is kept where d times its R is at most h times its w.
fn at(touches: &Touches, h: u64, d: u64) -> Point {
    let mut point = [h, d, touches.cost, 0];
    for &(retention, swap) in &touches.list {
        match retention {
            Some(retention) if d * retention <= h * swap => point[2] += retention,
            _ => point[3] += swap,
        }
    }
    point
}

// ---- Sheets ----

impl Case<'_> {
    /// The sheet itself, whatever it is, and one made of it in which many ratios are equal with other R and w.
    pub fn points(&mut self) -> Outcome {
        let bytes = self.bytes;
        self.point_list(bytes)?;
        let Ok(sheet) = reference::read(bytes) else { return Ok(()) };
        if sheet.steps.len() > 300 {
            return Ok(());
        }
        let sizes = sheet.sizes.iter().map(|_| self.prng.pick(&[1, 3, 3, 7, 15])).collect();
        let equal = Sheet { kind: Kind::Time, a: 1, sizes, ..sheet };
        self.point_list(&reference::write(&equal))
    }

    /// The call on a run of bytes.
    fn point_list(&mut self, bytes: &[u8]) -> Outcome {
        self.on(bytes);
        let want = points(bytes);
        let shown = |message| format!("{message}; the sheet:\n{}", bytes.escape_ascii());
        let answer = want.as_deref().map_err(|&number| number);
        self.call("points", answer, |out, written| calls::points(bytes, out, written)).map_err(shown)?;
        if self.prng.one_in(4) {
            self.wrapped_points(bytes, &want).map_err(shown)?;
        }
        match want {
            Ok(_) => self.curve_holds(bytes).map_err(shown),
            Err(_) => Ok(()),
        }
    }

    /// The safe functions.
    fn wrapped_points(&mut self, bytes: &[u8], want: &Result<Vec<u64>, u64>) -> Outcome {
        let point = |point: &[u64]| segtrace::Point { r: point[0], w: point[1], optmem: point[2], load: point[3] };
        let want: Result<Vec<segtrace::Point>, u64> =
            want.as_ref().map(|numbers| numbers.chunks(4).map(point).collect()).map_err(|&number| number);
        self.safe("points", segtrace::points(bytes), want.clone())?;
        let length = want.as_ref().map_or(0, Vec::len);
        let mut out = vec![segtrace::Point::default(); length];
        self.safe("points_into", segtrace::points_into(bytes, &mut out), want.clone().map(|list| list.len()))?;
        if let Ok(list) = want {
            ensure(out == list, || "wrapper, points_into: other points".to_string())?;
            let mut short = vec![segtrace::Point::default(); length - 1];
            self.safe("points_into", segtrace::points_into(bytes, &mut short), Err(11))?;
        }
        Ok(())
    }

    /// What the request says of the points, from the answers of the calls alone.
    fn curve_holds(&mut self, bytes: &[u8]) -> Outcome {
        let sheet = reference::read(bytes).expect("a sheet");
        let mut out = vec![0; 4 * reference::MOST_STEPS];
        let mut written = 0;
        done("points in a place for 2,048 entries", calls::points(bytes, &mut out, &mut written))?;
        self.tally.note(0);
        let points: Vec<Point> =
            out[..written as usize].chunks(4).map(|point| point.try_into().expect("four")).collect();
        self.rows_are_points(&sheet, bytes, &points)?;
        let place = self.prng.below(points.len());
        self.decisions(&sheet, points[place], points.get(place + 1).copied())?;
        if sheet.sizes.len() <= enumerate::MOST_SEGS && sheet.steps.len() <= enumerate::MOST_STEPS {
            lines_hold(&sheet, &points)?;
        }
        Ok(())
    }

    /// optmem and load of every row are those of a point.
    fn rows_are_points(&mut self, sheet: &Sheet, bytes: &[u8], points: &[Point]) -> Outcome {
        let mut figures = vec![0; 11 * sheet.rows.len()];
        done("all_figures", calls::all_figures(bytes, &mut figures, &mut 0))?;
        self.tally.note(0);
        for row in figures.chunks(11) {
            let on = |point: &Point| point[2] == row[OPTMEM] && point[3] == row[LOAD];
            ensure(points.iter().any(on), || format!("points: row {}/{} is none of them", row[0], row[1]))?;
        }
        Ok(())
    }

    /// A row at a point has its optmem and load; so has one between it and the next, where the keep decisions do not change.
    fn decisions(&mut self, sheet: &Sheet, point: Point, next: Option<Point>) -> Outcome {
        let [r, w, optmem, load] = point;
        let between = next.map(|[next_r, next_w, ..]| Row { h: r + next_r, d: w + next_w });
        for row in [Some(Row { h: r, d: w }), between].into_iter().flatten() {
            if row.h > 65_535 || row.d > 65_535 {
                continue;
            }
            let text = reference::write(&Sheet { rows: vec![row], ..sheet.clone() });
            let mut figures = [0; 11];
            done("figures", calls::figures(&text, 0, &mut figures))?;
            self.tally.note(0);
            ensure([figures[OPTMEM], figures[LOAD]] == [optmem, load], || {
                format!(
                    "points: {}/{} has {} and {}, the point {optmem} and {load}",
                    row.h, row.d, figures[OPTMEM], figures[LOAD]
                )
            })?;
        }
        Ok(())
    }
}

/// Each point is a permitted schedule's, and every permitted schedule lies on or above each line through neighbouring points.
fn lines_hold(sheet: &Sheet, points: &[Point]) -> Outcome {
    let permitted = enumerate::permitted_schedules(sheet);
    let costs: Vec<[i128; 2]> =
        permitted.iter().map(|schedule| [schedule.cost.memory.into(), schedule.cost.load.into()]).collect();
    let corners: Vec<[i128; 2]> = points.iter().map(|&[_, _, optmem, load]| [optmem.into(), load.into()]).collect();
    for corner in &corners {
        ensure(costs.contains(corner), || format!("points: no permitted schedule costs {corner:?}"))?;
    }
    for pair in corners.windows(2) {
        let [[memory, load], [next_memory, next_load]] = [pair[0], pair[1]];
        ensure(memory < next_memory && load > next_load, || format!("points: {pair:?} do not fall"))?;
        let below =
            |cost: &&[i128; 2]| (cost[1] - load) * (next_memory - memory) < (cost[0] - memory) * (next_load - load);
        if let Some(cost) = costs.iter().find(below) {
            return Err(format!("points: a permitted schedule costs {cost:?}, below the line of {pair:?}"));
        }
    }
    Ok(())
}

// ---- Examples ----

/// The sheets of docs/GUIDE.md, small ones, and the most points that a sheet can have; all worked by hand but the last.
pub fn examples() -> Vec<(Vec<u8>, Check)> {
    let mut list: Vec<(Vec<u8>, Check)> = Vec::new();
    let mut add = |sheet: &[u8], want: &[u64]| {
        let want = want.to_vec();
        list.push((sheet.to_vec(), Box::new(move |bytes| gives(bytes, &want))));
    };
    // Reuses with R/w 1/2, 3/4, 0/4 and 2/2.
    let listing = [0, 4, 12, 14, 1, 2, 13, 12, 3, 4, 16, 8, 2, 2, 18, 6];
    add(include_bytes!("../../examples/listing.sheet"), &listing);
    // 2/2, 6/4, 0/4 and 2/2.
    add(include_bytes!("../../examples/idle.sheet"), &[0, 4, 12, 14, 2, 2, 16, 10, 6, 4, 22, 6]);
    // The first touch of the warm segment has 3/4 too.
    add(include_bytes!("../../examples/warm.sheet"), &[0, 4, 12, 14, 1, 2, 13, 12, 3, 4, 19, 4, 2, 2, 21, 2]);
    for (kind, sizes, warm, touches, want) in records() {
        let sizes_text: String = sizes.iter().map(|size| format!("size={size}\n")).collect();
        let head = format!("form=3\nkind={kind}\na=1\nsegs={}\n{sizes_text}rows=1\nrow=1/1\n", sizes.len());
        let holds: String = warm.iter().map(|segment| format!("hold={segment}\n")).collect();
        let steps = touches.last().map_or(2, |(_, step)| step + 1);
        let refs: String = touches.iter().map(|(segment, step)| format!("ref={segment}@{step}\n")).collect();
        let tail = format!("warm={}\n{holds}steps={steps}\nrefs={}\n{refs}", warm.len(), touches.len());
        add((head + &tail).as_bytes(), want);
    }
    list.push((most_points(), Box::new(as_many_as_steps)));
    list
}

/// Kind, sizes, warm segments, touches and points.
type Record = (&'static str, &'static [u64], &'static [usize], &'static [(usize, usize)], &'static [u64]);

/// Sheets with a = 1, so that w is the size and 1.
fn records() -> Vec<Record> {
    vec![
        // No reuses: one entry, with Q and the load of all references.
        ("space", &[1, 3], &[], &[], &[0, 1, 0, 0]),
        ("space", &[1, 3], &[], &[(0, 1), (1, 2)], &[0, 1, 4, 6]),
        // A warm segment that is never touched has none either.
        ("space", &[1, 3], &[0], &[(1, 2)], &[0, 1, 3, 4]),
        // Warm first touches are reuses: at step 1 with R = 0, so that 0 and 1 are not put in, and at step 3 with R = 2 x 3.
        ("space", &[1, 3], &[0, 1], &[(0, 1)], &[0, 2, 1, 0]),
        ("space", &[1, 3], &[0, 1], &[(0, 1), (1, 3)], &[0, 2, 4, 4, 6, 4, 10, 0]),
        // No reuse has ratio 0.
        ("space", &[1, 3], &[], &[(0, 1), (1, 2), (0, 3), (1, 4)], &[0, 1, 8, 12, 1, 2, 9, 10, 3, 4, 12, 6]),
        // 1/2 and 2/4 are one ratio, written as the earlier has it and not reduced.
        ("time", &[1, 3], &[], &[(0, 1), (0, 3), (1, 4), (1, 7)], &[0, 1, 4, 12, 1, 2, 7, 6]),
        ("time", &[1, 3], &[], &[(1, 1), (1, 4), (0, 5), (0, 7)], &[0, 1, 4, 12, 2, 4, 7, 6]),
        // 4/8 begins first, but 1/2 ends first.
        ("time", &[1, 7], &[], &[(1, 1), (0, 2), (0, 4), (1, 6)], &[0, 1, 4, 20, 1, 2, 9, 10]),
        // 0/4 and 0/2 are one ratio.
        ("time", &[1, 3], &[], &[(1, 1), (1, 2), (0, 3), (0, 4)], &[0, 4, 4, 6]),
    ]
}

fn gives(bytes: &[u8], want: &[u64]) -> Outcome {
    let mut out = vec![0; want.len()];
    let mut written = 0;
    done("points", calls::points(bytes, &mut out, &mut written))?;
    ensure(written as usize == want.len() && out == want, || format!("points: {out:?}, wanted {want:?}"))
}

/// A sheet with 2,048 points: the w of its warm segments are primes above 2,048, and no segment has one R twice. Only step 1 has R = 0.
fn most_points() -> Vec<u8> {
    let prime = |number: &u64| {
        (2..*number).take_while(|divisor| divisor * divisor <= *number).all(|divisor| number % divisor > 0)
    };
    let sizes: Vec<u64> = (2_049..4_097).filter(prime).map(|prime| prime - 1).collect();
    let mut used: Vec<Vec<usize>> = vec![Vec::new(); sizes.len()];
    let mut last = vec![0; sizes.len()];
    let mut steps = Vec::new();
    for step in 1..=reference::MOST_STEPS {
        let fits = |segment: &usize| {
            let retention = step - last[*segment] - 1;
            (retention > 0 || step == 1) && !used[*segment].contains(&retention)
        };
        let segment = (0..sizes.len()).filter(fits).min_by_key(|&segment| last[segment]).expect("a segment");
        used[segment].push(step - last[segment] - 1);
        last[segment] = step;
        steps.push(Some(segment));
    }
    let rows = vec![Row { h: 1, d: 1 }];
    let (warm, marks) = ((0..sizes.len()).collect(), Vec::new());
    reference::write(&Sheet { form: 3, kind: Kind::Time, a: 1, sizes, rows, warm, steps, marks })
}

/// 2,048 entries, and no place for fewer.
fn as_many_as_steps(bytes: &[u8]) -> Outcome {
    let mut out = vec![0; 4 * reference::MOST_STEPS];
    let mut written = 0;
    done("points", calls::points(bytes, &mut out, &mut written))?;
    ensure(written as usize == out.len(), || format!("points: {written} numbers of the sheet with the most points"))?;
    let length = out.len() - 1;
    let returned = calls::points(bytes, &mut out[..length], &mut written);
    ensure(returned == 11, || format!("points: got {returned} in a place too short, wanted 11"))
}

// ---- Wrong answers ----

pub const WRONG: [(Call, Way); 14] = [
    (Call::Points, Way::Named("the latest reuse of a ratio")),
    (Call::Points, Way::Named("the reuse that begins first")),
    (Call::Points, Way::Named("R and w reduced")),
    (Call::Points, Way::Named("every reuse listed")),
    (Call::Points, Way::Named("descending")),
    (Call::Points, Way::Named("ordered by R")),
    (Call::Points, Way::Named("no 0 and 1")),
    (Call::Points, Way::Named("0 and 1 always")),
    (Call::Points, Way::Named("dropped on equality")),
    (Call::Points, Way::Named("warm first touches are misses")),
    (Call::Points, Way::Named("end intervals are reuses")),
    (Call::Points, Way::Named("first touches without load")),
    (Call::Points, Way::Named("whole quotients compared")),
    (Call::Points, Way::Named("points of the rows alone")),
];

/// The answer with the mistake that is put in, if one is.
pub fn mistaken(bytes: &[u8]) -> Option<Result<Vec<u64>, u64>> {
    match wrong::way(Call::Points) {
        Some(Way::Named(name)) => Some(reference::read(bytes).map(|sheet| with_mistake(name, sheet))),
        _ => None,
    }
}

fn with_mistake(name: &str, sheet: Sheet) -> Vec<u64> {
    let mut touches = reuses(&sheet);
    match name {
        "the latest reuse of a ratio" => touches.list.reverse(),
        "the reuse that begins first" => touches = by_begin(&sheet),
        "warm first touches are misses" => touches = reuses(&Sheet { warm: Vec::new(), ..sheet.clone() }),
        "end intervals are reuses" => {
            let steps = sheet.steps.len();
            let end = |segment| {
                Some((sheet.retention(segment, (steps - sheet.last_touch(segment, steps + 1)?) as u64), segment))
            };
            let ends = (0..sheet.sizes.len()).filter_map(end);
            touches.list.extend(ends.map(|(retention, segment)| (Some(retention), sheet.swap_cost(segment))));
        }
        _ => {}
    }
    let mut points = list(&touches);
    let zero = |point: &Point| point[0] == 0;
    let all: u64 = touches.list.iter().filter(|(retention, _)| retention.is_none()).map(|(_, swap)| swap).sum();
    match name {
        "R and w reduced" => points.iter_mut().for_each(|point| {
            let divisor = (1..=point[1]).rev().find(|divisor| point[0] % divisor == 0 && point[1] % divisor == 0);
            (0..2).for_each(|place| point[place] /= divisor.unwrap_or(1));
        }),
        "every reuse listed" => {
            points =
                touches.list.iter().filter_map(|&(retention, swap)| Some(at(&touches, retention?, swap))).collect();
            points.sort_by_key(|point| point[2]);
            if !points.first().is_some_and(zero) {
                points.insert(0, at(&touches, 0, 1));
            }
        }
        "descending" => points.reverse(),
        "ordered by R" => points.sort_by_key(|point| point[0]),
        "no 0 and 1" if points[0][1] == 1 && points.len() > 1 => _ = points.remove(0),
        "0 and 1 always" if points[0][1] != 1 => points.insert(0, at(&touches, 0, 1)),
        "dropped on equality" => {
            let below: Vec<[u64; 2]> = points.iter().map(|point| [point[2], point[3]]).collect();
            for (point, before) in points.iter_mut().skip(1).zip(below) {
                point[2..].copy_from_slice(&before);
            }
        }
        "first touches without load" => points.iter_mut().for_each(|point| point[3] -= all),
        "whole quotients compared" => {
            points.dedup_by_key(|point| point[0] / point[1]);
        }
        "points of the rows alone" => {
            let rows: Vec<Point> = sheet.rows.iter().map(|row| at(&touches, row.h, row.d)).collect();
            points.retain(|point| rows.iter().any(|row| row[2..] == point[2..]));
        }
        _ => {}
    }
    points.concat()
}

/// The touches in the order of the last touches before them.
fn by_begin(sheet: &Sheet) -> Touches {
    let mut touches = reuses(sheet);
    let begin = |&(step, segment): &(usize, usize)| sheet.last_touch(segment, step);
    let mut order: Vec<(Option<usize>, Touch)> =
        sheet.references().iter().map(begin).zip(touches.list.iter().copied()).collect();
    order.sort_by_key(|(begin, _)| *begin);
    touches.list = order.into_iter().map(|(_, touch)| touch).collect();
    touches
}
