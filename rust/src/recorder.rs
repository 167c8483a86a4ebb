//! The recorder.

use crate::{c, Figures, Refusal};

/// A recorder: takes references and idle steps one by one and gives the figures of the sheet that ends there at any moment.
///
/// Its parts are those of `segtrace_recorder` in the header. With numbers put in by hand a call still returns and does nothing undefined,
/// but what it gives means nothing.
#[derive(Clone, Debug, PartialEq, Eq)]
#[repr(C)]
pub struct Recorder {
    /// Kind (0 time, 1 space), a, segs, rows, warm.
    pub head: [u64; 5],
    /// Steps taken, the references' cost Q and volume V.
    pub counts: [u64; 3],
    /// Sizes of the segments, then 0.
    pub sizes: [u16; 256],
    /// The warm segments, ascending, then 0.
    pub holds: [u16; 256],
    /// Prices h of the rows, then 0.
    pub h: [u16; 64],
    /// Prices d of the rows, then 0.
    pub d: [u16; 64],
    /// Last steps of the segments, 0 for a warm one at first.
    pub last: [u16; 256],
    /// 65 buckets: count, volume, retention, swap, and the last two times the size.
    pub sums: [u64; 390],
}

// In each call the pointers come from arrays of the right length and from slices: they are valid, and the lent ones overlap nothing else.
impl Recorder {
    /// No segments, no rows and no references.
    const EMPTY: Recorder = Recorder {
        head: [0; 5],
        counts: [0; 3],
        sizes: [0; 256],
        holds: [0; 256],
        h: [0; 64],
        d: [0; 64],
        last: [0; 256],
        sums: [0; 390],
    };

    /// A recorder with the kind, a, sizes, rows and warm segments of a sheet of forms 1 to 3 and no steps: the sheet's refusals (form 4 is
    /// 4).
    pub fn start(sheet: &[u8]) -> Result<Recorder, Refusal> {
        let mut recorder = Recorder::EMPTY;
        let Recorder { head, counts, sizes, holds, h, d, last, sums } = &mut recorder;
        Refusal::answer(unsafe {
            c::segtrace_recorder_start(
                sheet.as_ptr(),
                sheet.len(),
                head.as_mut_ptr(),
                counts.as_mut_ptr(),
                sizes.as_mut_ptr(),
                holds.as_mut_ptr(),
                h.as_mut_ptr(),
                d.as_mut_ptr(),
                last.as_mut_ptr(),
                sums.as_mut_ptr(),
            )
        })?;
        Ok(recorder)
    }

    /// How many steps have been taken, idle ones too.
    pub fn taken(&self) -> u64 {
        self.counts[0]
    }

    /// Takes one reference: 4 for a segment not below segs, then 13 where 2,048 steps were taken. Refused, the recorder is as it was.
    #[inline]
    pub fn touch(&mut self, segment: u64) -> Result<(), Refusal> {
        Refusal::answer(unsafe {
            c::segtrace_recorder_touch(
                self.head.as_ptr(),
                self.counts.as_mut_ptr(),
                self.sizes.as_ptr(),
                self.holds.as_ptr(),
                self.h.as_ptr(),
                self.d.as_ptr(),
                self.last.as_mut_ptr(),
                self.sums.as_mut_ptr(),
                segment,
            )
        })
    }

    /// Takes one step without a touch: 13 where 2,048 steps were taken. Refused, the recorder is as it was.
    #[inline]
    pub fn idle(&mut self) -> Result<(), Refusal> {
        Refusal::answer(unsafe { c::segtrace_recorder_idle(self.counts.as_mut_ptr()) })
    }

    /// Takes all references, or none: refused as the first touch that would be refused (4, 13), the recorder is as it was.
    pub fn touch_all(&mut self, segments: &[u16]) -> Result<(), Refusal> {
        Refusal::answer(unsafe {
            c::segtrace_recorder_touch_all(
                self.head.as_ptr(),
                self.counts.as_mut_ptr(),
                self.sizes.as_ptr(),
                self.holds.as_ptr(),
                self.h.as_ptr(),
                self.d.as_ptr(),
                self.last.as_mut_ptr(),
                self.sums.as_mut_ptr(),
                segments.as_ptr(),
                segments.len(),
            )
        })
    }

    /// The figures of a row at this moment, those of the sheet that ends here: 7.
    pub fn figures(&self, row: u64) -> Result<Figures, Refusal> {
        let mut figures = Figures::default();
        Refusal::answer(unsafe {
            c::segtrace_recorder_figures(
                self.head.as_ptr(),
                self.counts.as_ptr(),
                self.sizes.as_ptr(),
                self.holds.as_ptr(),
                self.h.as_ptr(),
                self.d.as_ptr(),
                self.last.as_ptr(),
                self.sums.as_ptr(),
                row,
                figures.as_mut_ptr(),
            )
        })?;
        Ok(figures)
    }
}
