//! Every operating point.

/// A run: kind and a, the sizes of the segments, those in memory before it, and the segment of each step; an entry not below the number
/// of segments is a step without a touch.
pub struct Run<'a> {
    pub space: bool,
    pub a: u64,
    pub sizes: &'a [u16],
    pub warm: &'a [u16],
    pub steps: &'a [u16],
}

/// R and w of a reuse, and the step that ends it.
#[derive(Clone, Copy)]
struct Reuse {
    r: u32,
    w: u32,
    step: u32,
}

impl Run<'_> {
    /// The points at the head of a place, four numbers each: R, w, optmem and load. Gives how many points. The reuses are sorted by ratio
    /// and step; then the points are running sums.
    pub fn points(&self, out: &mut [u64]) -> usize {
        let mut reuses = Vec::with_capacity(self.steps.len());
        let (mut memory, mut load) = self.take(&mut reuses);
        reuses.sort_unstable_by(|one, other| {
            let (left, right) = (u64::from(one.r) * u64::from(other.w), u64::from(other.r) * u64::from(one.w));
            left.cmp(&right).then(one.step.cmp(&other.step))
        });
        let mut count = 0;
        if reuses.first().is_none_or(|first| first.r > 0) {
            out[..4].copy_from_slice(&[0, 1, memory, load]);
            count = 1;
        }
        for group in
            reuses.chunk_by(|one, other| u64::from(one.r) * u64::from(other.w) == u64::from(other.r) * u64::from(one.w))
        {
            for reuse in group {
                memory += u64::from(reuse.r);
                load -= u64::from(reuse.w);
            }
            out[4 * count..4 * count + 4].copy_from_slice(&[group[0].r.into(), group[0].w.into(), memory, load]);
            count += 1;
        }
        count
    }

    /// The reuses one after another; Q, and the load of all references.
    fn take(&self, reuses: &mut Vec<Reuse>) -> (u64, u64) {
        const UNTOUCHED: u32 = u32::MAX;
        let mut last = [UNTOUCHED; 256];
        self.warm.iter().for_each(|&segment| last[usize::from(segment)] = 0);
        let (mut memory, mut load) = (0, 0);
        for (step, &segment) in (1..).zip(self.steps) {
            let Some(&size) = self.sizes.get(usize::from(segment)) else { continue };
            let cost = if self.space { u64::from(size) } else { 1 };
            let w = 1 + self.a * u64::from(size);
            memory += cost;
            load += w;
            let before = std::mem::replace(&mut last[usize::from(segment)], step);
            if before != UNTOUCHED {
                reuses.push(Reuse { r: (step - before - 1) * cost as u32, w: w as u32, step });
            }
        }
        (memory, load)
    }
}
