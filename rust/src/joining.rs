//! Two aligners in one memory.

use crate::{c, Refusal, SHEET_BYTES_FORM_3};

/// Two sheets of form 2 or 3 with the same kind, a and row lines as one sheet of form 3 on the same clock; the second's segments are
/// numbered after the first's. The first sheet's refusals (any other form is 4), then the second's, 20, 21, 22.
///
/// ```
/// let first = b"form=2\nkind=time\na=0\nsegs=1\nsize=1\nrows=1\nrow=1/1\nsteps=3\nrefs=2\nref=0@1\nref=0@3\n";
/// let second = b"form=2\nkind=time\na=0\nsegs=1\nsize=4\nrows=1\nrow=1/1\nsteps=2\nrefs=1\nref=0@2\n";
/// let joint = segtrace::join(first, second).unwrap();
/// assert!(joint.ends_with(b"warm=0\nsteps=3\nrefs=3\nref=0@1\nref=1@2\nref=0@3\n"));
/// assert_eq!(segtrace::join(first, first), Err(segtrace::Refusal::BothTouch));
/// ```
pub fn join(first: &[u8], second: &[u8]) -> Result<Vec<u8>, Refusal> {
    let mut out = vec![0; SHEET_BYTES_FORM_3];
    let length = join_into(first, second, &mut out)?;
    out.truncate(length);
    Ok(out)
}

/// The same at the front of `out`. Gives its length: the refusals of [`join`], 11.
pub fn join_into(first: &[u8], second: &[u8], out: &mut [u8]) -> Result<usize, Refusal> {
    let mut written = 0;
    // The pointers come from slices and a reference, so they are valid, and the place overlaps nothing else.
    Refusal::answer(unsafe {
        let (first_length, second_length) = (first.len(), second.len());
        let (place, length) = (out.as_mut_ptr(), out.len());
        c::segtrace_join(first.as_ptr(), first_length, second.as_ptr(), second_length, place, length, &mut written)
    })?;
    Ok(written as usize)
}
