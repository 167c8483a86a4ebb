//! The fault curve of least-recently-used replacement.

use crate::{c, Refusal, SEGS};

/// What the pass over a sheet gives.
#[derive(Clone, Debug, Default, PartialEq, Eq)]
pub struct Lru {
    /// The misses with 1, 2, .., segs frames.
    pub misses: Vec<u64>,
    /// The entries of the recency list that the pass looks at, each counted as it is looked at: on a touch those from the most recent up
    /// to its segment, on a first touch all. At most refs times the number of distinct segments touched.
    pub looked: u64,
}

/// The misses of least-recently-used replacement with 1, 2, .., segs frames, for a sheet with every size 1 and no warm segment, from stack
/// distances in one pass: the sheet's refusals, 26, 27.
///
/// ```
/// let sheet = b"kind=time\na=0\nsegs=2\nsize=1\nsize=1\nrows=1\nrow=1/1\nrefs=4\nref=0\nref=1\nref=0\nref=0\n";
/// let curve = segtrace::lru(sheet).unwrap();
/// // The four touches look at 0, 1, 2 and 1 entries.
/// assert_eq!((curve.misses, curve.looked), (vec![3, 2], 4));
/// assert_eq!(segtrace::lru_plain(sheet), Ok(vec![3, 2]));
/// ```
pub fn lru(sheet: &[u8]) -> Result<Lru, Refusal> {
    let mut misses = vec![0; SEGS];
    let (length, looked) = lru_into(sheet, &mut misses)?;
    misses.truncate(length);
    Ok(Lru { misses, looked })
}

/// The same with the misses at the front of `out`. Gives how many numbers, and the entries looked at: the refusals of [`lru`], 11.
pub fn lru_into(sheet: &[u8], out: &mut [u64]) -> Result<(usize, u64), Refusal> {
    let (mut written, mut looked) = (0, 0);
    // The pointers come from slices and a reference, so they are valid, and the place overlaps nothing else; so below.
    Refusal::answer(unsafe {
        c::segtrace_lru(sheet.as_ptr(), sheet.len(), out.as_mut_ptr(), out.len(), &mut written, &mut looked)
    })?;
    Ok((written as usize, looked))
}

/// The misses of [`lru`], by simulating one memory for each number of frames in turn: the same refusals.
pub fn lru_plain(sheet: &[u8]) -> Result<Vec<u64>, Refusal> {
    let mut out = vec![0; SEGS];
    let length = lru_plain_into(sheet, &mut out)?;
    out.truncate(length);
    Ok(out)
}

/// The same at the front of `out`. Gives how many numbers: the refusals of [`lru`], 11.
pub fn lru_plain_into(sheet: &[u8], out: &mut [u64]) -> Result<usize, Refusal> {
    let mut written = 0;
    Refusal::answer(unsafe {
        c::segtrace_lru_plain(sheet.as_ptr(), sheet.len(), out.as_mut_ptr(), out.len(), &mut written)
    })?;
    Ok(written as usize)
}
