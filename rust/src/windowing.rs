//! The working set at every window.

use crate::{c, Refusal, STEPS};

/// wsocc for every window T from 1 to steps, which is that of the row T-1/1, for a sheet of kind time with a=0, every size 1 and no warm
/// segment, by the window recursion: the sheet's refusals, 28, 26, 27.
///
/// ```
/// let sheet = b"kind=time\na=0\nsegs=2\nsize=1\nsize=1\nrows=1\nrow=2/1\nrefs=4\nref=0\nref=1\nref=0\nref=1\n";
/// let list = segtrace::windows(sheet).unwrap();
/// assert_eq!(list, [4, 7, 7, 7]);
/// assert_eq!(list[2], segtrace::figures(sheet, 0).unwrap().wsocc);
/// ```
pub fn windows(sheet: &[u8]) -> Result<Vec<u64>, Refusal> {
    let mut out = vec![0; STEPS];
    let length = windows_into(sheet, &mut out)?;
    out.truncate(length);
    Ok(out)
}

/// The same at the front of `out`. Gives how many numbers: the refusals of [`windows`], 11.
pub fn windows_into(sheet: &[u8], out: &mut [u64]) -> Result<usize, Refusal> {
    let mut written = 0;
    // The pointers come from slices and a reference, so they are valid, and the place overlaps nothing else.
    Refusal::answer(unsafe {
        c::segtrace_windows(sheet.as_ptr(), sheet.len(), out.as_mut_ptr(), out.len(), &mut written)
    })?;
    Ok(written as usize)
}
