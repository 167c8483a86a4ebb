//! The figures of the rows: one pass over the references into 65 buckets, then one sweep over the rows.

use crate::sheet::{Kind, Sheet};
use crate::Refusal;
use std::hint::select_unpredictable;

/// The eleven items of a row.
#[derive(Clone, Copy, Debug, Default, PartialEq, Eq)]
pub struct Figures {
    pub h: u64,
    pub d: u64,
    pub misses: u64,
    pub volume: u64,
    pub load: u64,
    pub optmem: u64,
    pub opttotal: u64,
    pub optocc: u64,
    pub wsmem: u64,
    pub wsocc: u64,
    pub mean: u64,
}

impl Figures {
    pub fn items(&self) -> [u64; 11] {
        [
            self.h,
            self.d,
            self.misses,
            self.volume,
            self.load,
            self.optmem,
            self.opttotal,
            self.optocc,
            self.wsmem,
            self.wsocc,
            self.mean,
        ]
    }
}

/// Sums over intervals. The swap costs follow from them: their sum is count + a * volume, and with each multiplied by its size
/// volume + a * squares.
#[derive(Clone, Copy, Default)]
pub struct Bucket {
    count: u64,
    volume: u64,
    squares: u64,
    retention: u64,
    /// Retention with each item multiplied by its size. Summed for kind time only, as squares are.
    retention_sized: u64,
}

impl Bucket {
    #[inline(always)]
    fn add<const SPACE: bool>(&mut self, size: u64, retention: u64) {
        self.count += 1;
        self.volume += size;
        self.retention += retention;
        if !SPACE {
            self.squares += size * size;
            self.retention_sized += retention * size;
        }
    }

    fn join(&mut self, other: &Bucket) {
        self.count += other.count;
        self.volume += other.volume;
        self.squares += other.squares;
        self.retention += other.retention;
        self.retention_sized += other.retention_sized;
    }
}

/// What the pass needs of a sheet besides its references.
#[derive(Clone)]
pub struct Scale {
    kind: Kind,
    a: u64,
    rows: usize,
    row_list: [(u16, u16); Sheet::ROWS],
    /// The bits of each h/d as a quotient of floating point, infinity after the last row.
    thresholds: [u64; Sheet::ROWS],
    sizes: [u16; Sheet::SEGS],
    swap: [f64; Sheet::SEGS],
}

const INFINITY: u64 = f64::INFINITY.to_bits();

/// The bits of x/y. They are in order as the fractions are, and equal where these are equal: two different fractions R/w and h/d
/// differ by a part of 2^-36 at least (h * w is below 2^36), and a quotient is rounded by a part of 2^-53 at most.
#[inline(always)]
fn quotient(x: u64, y: f64) -> u64 {
    (x as f64 / y).to_bits()
}

impl Scale {
    pub fn of(sheet: &Sheet) -> Scale {
        let mut scale = Scale {
            kind: sheet.kind,
            a: sheet.a,
            rows: sheet.rows,
            row_list: sheet.row_list,
            thresholds: [INFINITY; Sheet::ROWS],
            sizes: [0; Sheet::SEGS],
            swap: [1.0; Sheet::SEGS],
        };
        for (place, &(h, d)) in scale.thresholds.iter_mut().zip(sheet.row_pairs()) {
            *place = quotient(h as u64, d as f64);
        }
        scale.sizes[..sheet.segs].copy_from_slice(sheet.sizes());
        for (place, &size) in scale.swap.iter_mut().zip(sheet.sizes()) {
            *place = sheet.swap_cost(size as u64) as f64;
        }
        scale
    }

    pub fn rows(&self) -> usize {
        self.rows
    }

    /// The first row that keeps an interval of this quotient, or the number of rows if none does. There are no more rows than 2 * HALF,
    /// or one row with a HALF of 0.
    #[inline(always)]
    fn first_row<const HALF: usize>(&self, quotient: u64) -> usize {
        let mut row = 0;
        let mut half = HALF;
        while half > 0 {
            row = select_unpredictable(self.thresholds[row + half - 1] < quotient, row + half, row);
            half /= 2;
        }
        row + usize::from(self.thresholds[row] < quotient)
    }
}

/// The state of the pass: the last step of each segment, and the buckets.
#[derive(Clone)]
pub struct Pass {
    steps: u16,
    last: [u16; Sheet::SEGS],
    buckets: [Bucket; Sheet::ROWS + 1],
}

const UNTOUCHED: u16 = 0;

impl Pass {
    pub fn start() -> Pass {
        Pass { steps: 0, last: [UNTOUCHED; Sheet::SEGS], buckets: [Bucket::default(); Sheet::ROWS + 1] }
    }

    pub fn steps(&self) -> u16 {
        self.steps
    }

    /// Takes references, each below the number of segments, no more than 2,048 in all.
    #[inline]
    pub fn take(&mut self, scale: &Scale, references: &[u16]) {
        match (scale.kind, scale.rows) {
            (Kind::Time, 1) => self.take_kind::<false, 0>(scale, references),
            (Kind::Time, 2..=8) => self.take_kind::<false, 4>(scale, references),
            (Kind::Time, _) => self.take_kind::<false, 32>(scale, references),
            (Kind::Space, 1) => self.take_kind::<true, 0>(scale, references),
            (Kind::Space, 2..=8) => self.take_kind::<true, 4>(scale, references),
            (Kind::Space, _) => self.take_kind::<true, 32>(scale, references),
        }
    }

    #[inline(always)]
    fn take_kind<const SPACE: bool, const HALF: usize>(&mut self, scale: &Scale, references: &[u16]) {
        let mut step = self.steps;
        for &reference in references {
            step += 1;
            let segment = reference as usize & 255;
            let before = self.last[segment];
            self.last[segment] = step;
            let size = scale.sizes[segment] as u64;
            let unreferenced = (step - before - 1) as u64;
            let retention = if SPACE { unreferenced * size } else { unreferenced };
            // A first touch goes to the last bucket, where no sum of retentions is read.
            let ratio = select_unpredictable(before == UNTOUCHED, INFINITY, quotient(retention, scale.swap[segment]));
            self.buckets[scale.first_row::<HALF>(ratio)].add::<SPACE>(size, retention);
        }
        self.steps = step;
    }

    /// The figures of every row, one after another.
    pub fn sweep(&self, scale: &Scale, mut give: impl FnMut(usize, Figures)) {
        match scale.kind {
            Kind::Time => self.sweep_kind::<false>(scale, &mut give),
            Kind::Space => self.sweep_kind::<true>(scale, &mut give),
        }
    }

    #[inline(always)]
    fn sweep_kind<const SPACE: bool>(&self, scale: &Scale, give: &mut impl FnMut(usize, Figures)) {
        // The end intervals, one for each touched segment.
        let mut ends = [Bucket::default(); Sheet::ROWS + 1];
        for segment in 0..Sheet::SEGS {
            let last = self.last[segment];
            if last != UNTOUCHED {
                let size = scale.sizes[segment] as u64;
                let unreferenced = (self.steps - last) as u64;
                let retention = if SPACE { unreferenced * size } else { unreferenced };
                ends[scale.first_row::<32>(quotient(retention, scale.swap[segment]))].add::<SPACE>(size, retention);
            }
        }
        let mut all = Bucket::default();
        for bucket in &self.buckets {
            all.join(bucket);
        }
        let refs = self.steps as u64;
        let reference_cost = if SPACE { all.volume } else { refs };
        let mut kept = Bucket::default();
        let mut kept_ends = Bucket::default();
        for row in 0..scale.rows {
            kept.join(&self.buckets[row]);
            kept_ends.join(&ends[row]);
            let (h, d) = (scale.row_list[row].0 as u64, scale.row_list[row].1 as u64);
            let misses = refs - kept.count;
            let volume = all.volume - kept.volume;
            let load = misses + scale.a * volume;
            let optmem = reference_cost + kept.retention;
            // The dropped reuses and end intervals. Each touched segment has one first touch, counted as a miss, and one end interval
            // of the same size and swap cost, so the misses less the kept end intervals have the same sums.
            let dropped_count = misses - kept_ends.count;
            let dropped_volume = volume - kept_ends.volume;
            let dropped_swap = dropped_count + scale.a * dropped_volume;
            let wsmem = d * (optmem + kept_ends.retention) + h * dropped_swap;
            let (optocc, wsocc) = if SPACE {
                (optmem, wsmem)
            } else {
                let optocc = all.volume + kept.retention_sized;
                let dropped_squares = all.squares - kept.squares - kept_ends.squares;
                let dropped_swap_sized = dropped_volume + scale.a * dropped_squares;
                (optocc, d * (optocc + kept_ends.retention_sized) + h * dropped_swap_sized)
            };
            let mean = if refs == 0 { 0 } else { 1_000 * wsocc / (d * refs) };
            give(
                row,
                Figures {
                    h,
                    d,
                    misses,
                    volume,
                    load,
                    optmem,
                    opttotal: d * optmem + h * load,
                    optocc,
                    wsmem,
                    wsocc,
                    mean,
                },
            );
        }
    }
}

/// The figures of every row in a lent list, one record a row. Gives the number of rows.
pub fn all_figures(sheet: &Sheet, out: &mut [Figures]) -> Result<usize, Refusal> {
    let out = out.get_mut(..sheet.rows).ok_or(Refusal::PlaceTooShort)?;
    let scale = Scale::of(sheet);
    let mut pass = Pass::start();
    pass.take(&scale, sheet.references());
    pass.sweep(&scale, |row, figures| out[row] = figures);
    Ok(sheet.rows)
}

/// The figures of one row, without buckets.
pub fn row_figures(sheet: &Sheet, row: u64) -> Result<Figures, Refusal> {
    let (h, d) = sheet.row(row)?;
    Ok(match sheet.kind {
        Kind::Time => one_row::<false>(sheet, h, d),
        Kind::Space => one_row::<true>(sheet, h, d),
    })
}

#[inline(always)]
fn one_row<const SPACE: bool>(sheet: &Sheet, h: u64, d: u64) -> Figures {
    let mut swap_price = [0u64; Sheet::SEGS];
    for (place, &size) in swap_price.iter_mut().zip(sheet.sizes()) {
        *place = h * sheet.swap_cost(size as u64);
    }
    let mut last = [UNTOUCHED; Sheet::SEGS];
    let (mut misses, mut volume, mut total_volume) = (0u64, 0u64, 0u64);
    // Retentions of the kept reuses, and the smaller of the two prices of everything else, each also multiplied by the size.
    let (mut kept, mut kept_sized, mut smaller, mut smaller_sized) = (0u64, 0u64, 0u64, 0u64);
    let mut step = 0u16;
    for &reference in sheet.references() {
        step += 1;
        let segment = reference as usize & 255;
        let before = last[segment];
        last[segment] = step;
        let size = sheet.size_list[segment] as u64;
        let unreferenced = (step - before - 1) as u64;
        let retention = if SPACE { unreferenced * size } else { unreferenced };
        let reuse = before != UNTOUCHED;
        let keep = reuse & (d * retention <= swap_price[segment]);
        let missed = select_unpredictable(keep, 0, size);
        let held = select_unpredictable(keep, retention, 0);
        let dropped = select_unpredictable(keep | !reuse, 0, swap_price[segment]);
        misses += u64::from(!keep);
        volume += missed;
        total_volume += size;
        kept += held;
        smaller += dropped;
        if !SPACE {
            kept_sized += held * size;
            smaller_sized += dropped * size;
        }
    }
    for segment in 0..Sheet::SEGS {
        if last[segment] != UNTOUCHED {
            let size = sheet.size_list[segment] as u64;
            let unreferenced = (step - last[segment]) as u64;
            let retention = if SPACE { unreferenced * size } else { unreferenced };
            let least = (d * retention).min(swap_price[segment]);
            smaller += least;
            if !SPACE {
                smaller_sized += least * size;
            }
        }
    }
    let refs = step as u64;
    let load = misses + sheet.a * volume;
    let optmem = kept + if SPACE { total_volume } else { refs };
    let wsmem = d * optmem + smaller;
    let optocc = if SPACE { optmem } else { total_volume + kept_sized };
    let wsocc = if SPACE { wsmem } else { d * optocc + smaller_sized };
    let mean = if refs == 0 { 0 } else { 1_000 * wsocc / (d * refs) };
    Figures { h, d, misses, volume, load, optmem, opttotal: d * optmem + h * load, optocc, wsmem, wsocc, mean }
}

/// The margin h * w - d * R of the n-th reference, counted from 1.
pub fn margin(sheet: &Sheet, row: u64, reference: u64) -> Result<i64, Refusal> {
    let (h, d) = sheet.row(row)?;
    if reference < 1 || reference > sheet.refs as u64 {
        return Err(Refusal::NoSuchReference);
    }
    let index = reference as usize - 1;
    let segment = sheet.ref_list[index];
    let before = sheet.ref_list[..index].iter().rposition(|&other| other == segment).ok_or(Refusal::FirstTouch)?;
    let size = sheet.size_list[segment as usize & 255] as u64;
    let retention = (index - before - 1) as u64 * sheet.step_cost(size);
    Ok((h * sheet.swap_cost(size)) as i64 - (d * retention) as i64)
}

/// A row with optmem within the ceiling and the least load among such rows. A later row keeps all that an earlier one keeps, so it
/// is the last row within the ceiling.
pub fn size(sheet: &Sheet, ceiling: u64) -> Result<u64, Refusal> {
    let scale = Scale::of(sheet);
    let mut pass = Pass::start();
    pass.take(&scale, sheet.references());
    let mut found = Err(Refusal::NoRowFits);
    pass.sweep(&scale, |row, figures| {
        if figures.optmem <= ceiling {
            found = Ok(row as u64);
        }
    });
    found
}
