//! Import of din traces.

use crate::{c, Refusal, SHEET_BYTES_FORM_1};

/// A din trace as a sheet of form 1 of kind time, a=0 and sizes 1, with the rows of a sheet of any form. Each page of 2 to the power k
/// bytes is a segment, numbered by first appearance. The sheet's refusals, 23, then 24 and 25 line by line.
///
/// ```
/// let sheet = b"kind=space\na=1\nsegs=1\nsize=3\nrows=1\nrow=1/2\nrefs=0\n";
/// let text = segtrace::import_din(b"2 8048\n0 bfff1c\n1 80FF\n", 8, sheet).unwrap();
/// assert_eq!(text, b"kind=time\na=0\nsegs=2\nsize=1\nsize=1\nrows=1\nrow=1/2\nrefs=3\nref=0\nref=1\nref=0\n");
/// assert_eq!(segtrace::import_din(b"3 8048\n", 8, sheet), Err(segtrace::Refusal::TraceMalformed));
/// ```
pub fn import_din(trace: &[u8], k: u64, sheet: &[u8]) -> Result<Vec<u8>, Refusal> {
    let mut out = vec![0; SHEET_BYTES_FORM_1];
    let length = import_din_into(trace, k, sheet, &mut out)?;
    out.truncate(length);
    Ok(out)
}

/// The same at the front of `out`. Gives its length: the refusals of [`import_din`], 11.
pub fn import_din_into(trace: &[u8], k: u64, sheet: &[u8], out: &mut [u8]) -> Result<usize, Refusal> {
    let mut written = 0;
    // The pointers come from slices and a reference, so they are valid, and the place overlaps nothing else.
    Refusal::answer(unsafe {
        let (trace_length, sheet_length) = (trace.len(), sheet.len());
        let (place, length) = (out.as_mut_ptr(), out.len());
        c::segtrace_import_din(
            trace.as_ptr(),
            trace_length,
            k,
            sheet.as_ptr(),
            sheet_length,
            place,
            length,
            &mut written,
        )
    })?;
    Ok(written as usize)
}
