//! The recorder: takes references one by one or in bulk; its figures can be read at any moment.

use crate::figures::{Figures, Pass, Scale};
use crate::sheet::Sheet;
use crate::Refusal;

#[derive(Clone)]
pub struct Recorder {
    segs: usize,
    scale: Scale,
    pass: Pass,
}

impl Recorder {
    pub const REFS: usize = Sheet::REFS;

    /// Starts from a sheet's kind, a, sizes and rows, with no references.
    pub fn start(bytes: &[u8]) -> Result<Recorder, Refusal> {
        let mut sheet = Sheet::empty();
        sheet.read(bytes)?;
        Ok(Recorder { segs: sheet.segs, scale: Scale::of(&sheet), pass: Pass::start() })
    }

    /// How many references have been taken.
    pub fn refs(&self) -> usize {
        self.pass.steps() as usize
    }

    /// Takes one reference. Where it is refused, nothing changes.
    #[inline]
    pub fn touch(&mut self, segment: u64) -> Result<(), Refusal> {
        if segment >= self.segs as u64 {
            return Err(Refusal::OutOfRange);
        }
        if self.refs() >= Recorder::REFS {
            return Err(Refusal::RecorderFull);
        }
        self.pass.take(&self.scale, &[segment as u16]);
        Ok(())
    }

    /// Takes all references, or none where `touch` would refuse one, and gives the first such refusal.
    pub fn touch_all(&mut self, segments: &[u16]) -> Result<(), Refusal> {
        let segs = self.segs;
        let room = Recorder::REFS - self.refs();
        let known = segments.iter().position(|&segment| segment as usize >= segs).unwrap_or(segments.len());
        if known.min(room) < segments.len() {
            return Err(if known <= room { Refusal::OutOfRange } else { Refusal::RecorderFull });
        }
        self.pass.take(&self.scale, segments);
        Ok(())
    }

    /// The figures of a row, as of a sheet that ends here.
    pub fn figures(&self, row: u64) -> Result<Figures, Refusal> {
        let mut found = Err(Refusal::NoSuchRow);
        self.pass.sweep(&self.scale, |number, figures| {
            if number as u64 == row {
                found = Ok(figures);
            }
        });
        found
    }

    /// The figures of every row in a lent list, one record a row. Gives the number of rows.
    pub fn all_figures(&self, out: &mut [Figures]) -> Result<usize, Refusal> {
        let out = out.get_mut(..self.scale.rows()).ok_or(Refusal::PlaceTooShort)?;
        self.pass.sweep(&self.scale, |row, figures| out[row] = figures);
        Ok(out.len())
    }
}
