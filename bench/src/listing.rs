//! The listing as text.

use crate::figures::{Figures, Pass, Scale};
use crate::sheet::{Sheet, Writer};
use crate::Refusal;

/// Above the longest listing, of form 4: 38 bytes, and 205 for each of 64 rows, and 8 that the number writer may overwrite.
pub(crate) const ROOM: usize = 13_312;

/// Reads a sheet and writes its listing at the head of a lent place. Gives the length.
pub fn listing(bytes: &[u8], out: &mut [u8]) -> Result<usize, Refusal> {
    let mut sheet = Sheet::empty();
    sheet.read(bytes)?;
    listing_of(&sheet, out)
}

/// The listing of a sheet that has been read.
pub fn listing_of(sheet: &Sheet, out: &mut [u8]) -> Result<usize, Refusal> {
    let scale = Scale::of(sheet);
    let mut pass = Pass::start();
    pass.take(&scale, sheet.references());
    let mut writer = Writer { bytes: [0; ROOM], at: 0 };
    writer.item(b"refs=", sheet.refs as u64);
    writer.item(b"\nsegs=", sheet.segs as u64);
    writer.item(b"\nrows=", sheet.rows as u64);
    pass.sweep(&scale, |_, figures| put_row(&mut writer, &figures));
    writer.text(b"\n");
    let written = &writer.bytes[..writer.at];
    let place = out.get_mut(..written.len()).ok_or(Refusal::PlaceTooShort)?;
    place.copy_from_slice(written);
    Ok(written.len())
}

pub(crate) fn put_row(writer: &mut Writer<ROOM>, figures: &Figures) {
    writer.item(b"\nh=", figures.h);
    writer.item(b"\nd=", figures.d);
    writer.item(b"\nmisses=", figures.misses);
    writer.item(b"\nvolume=", figures.volume);
    writer.item(b"\nload=", figures.load);
    writer.item(b"\noptmem=", figures.optmem);
    writer.item(b"\nopttotal=", figures.opttotal);
    writer.item(b"\noptocc=", figures.optocc);
    writer.item(b"\nwsmem=", figures.wsmem);
    writer.item(b"\nwsocc=", figures.wsocc);
    writer.item(b"\nmean=", figures.mean);
}
