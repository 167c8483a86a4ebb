//! Every operating point of a sheet.

use crate::{c, Refusal, POINTS};

/// An operating point: a threshold R/w, and what the optimal schedule costs there.
#[derive(Clone, Copy, Debug, Default, PartialEq, Eq)]
#[repr(C)]
pub struct Point {
    /// R of the earliest reuse with this ratio; 0 in front where no reuse has ratio 0.
    pub r: u64,
    /// Its w; 1 in front.
    pub w: u64,
    /// Memory of the optimal schedule.
    pub optmem: u64,
    /// Load of the optimal schedule.
    pub load: u64,
}

impl Point {
    /// How many numbers a point has.
    pub const COUNT: usize = 4;
}

/// Every operating point: each distinct ratio R/w among the reuses once, ascending. No permitted schedule lies below a line through two
/// neighbouring points. The sheet's refusals.
///
/// ```
/// let sheet = b"kind=space\na=1\nsegs=2\nsize=1\nsize=3\nrows=1\nrow=1/2\nrefs=4\nref=0\nref=1\nref=0\nref=1\n";
/// let points = segtrace::points(sheet).unwrap();
/// let corners: Vec<(u64, u64)> = points.iter().map(|point| (point.optmem, point.load)).collect();
/// assert_eq!(corners, [(8, 12), (9, 10), (12, 6)]);
/// assert_eq!((points[1].r, points[1].w), (1, 2));
/// ```
pub fn points(sheet: &[u8]) -> Result<Vec<Point>, Refusal> {
    let mut out = vec![Point::default(); POINTS];
    let length = points_into(sheet, &mut out)?;
    out.truncate(length);
    Ok(out)
}

/// The same at the front of `out`. Gives how many points: the sheet's refusals, 11.
pub fn points_into(sheet: &[u8], out: &mut [Point]) -> Result<usize, Refusal> {
    let mut written = 0;
    // A point is four numbers one after the other, so a list of points is one list of numbers. The pointers come from slices and a
    // reference, so they are valid, and the place overlaps nothing else.
    let numbers = out.as_mut_ptr().cast();
    let length = Point::COUNT * out.len();
    Refusal::answer(unsafe { c::segtrace_points(sheet.as_ptr(), sheet.len(), numbers, length, &mut written) })?;
    Ok(written as usize / Point::COUNT)
}
