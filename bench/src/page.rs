//! The page for the binder.

use crate::figures::{all_figures, Figures};
use crate::sheet::{Kind, Sheet};
use crate::Refusal;

const LINE: usize = 73;
const LINES: usize = 60;
const ROWS: usize = 58;
/// Where the columns end.
const ENDS: [usize; 6] = [7, 16, 26, 40, 54, 68];

/// Reads a sheet and writes its page, or two pages, at the head of a lent place. Gives the length.
pub fn page(bytes: &[u8], out: &mut [u8]) -> Result<usize, Refusal> {
    let mut sheet = Sheet::empty();
    sheet.read(bytes)?;
    let mut all = [Figures::default(); Sheet::ROWS];
    let rows = all_figures(&sheet, &mut all)?;
    let length = rows.div_ceil(ROWS) * LINES * LINE;
    let place = out.get_mut(..length).ok_or(Refusal::PlaceTooShort)?;
    place.fill(b' ');
    place.chunks_exact_mut(LINE).for_each(|line| line[LINE - 1] = b'\n');
    for (page, rows) in place.chunks_exact_mut(LINES * LINE).zip(all[..rows].chunks(ROWS)) {
        let (title, rest) = page.split_at_mut(LINE);
        let (names, lines) = rest.split_at_mut(LINE);
        let words: &[u8] = if sheet.kind == Kind::Space { b"kind=space a=" } else { b"kind=time a=" };
        title[..words.len()].copy_from_slice(words);
        let digits = 1 + (sheet.a > 9) as usize + (sheet.a > 99) as usize;
        number(title, words.len() + digits, sheet.a);
        for (name, end) in [&b"h"[..], b"d", b"misses", b"volume", b"load", b"mean"].iter().zip(ENDS) {
            names[end - name.len()..end].copy_from_slice(name);
        }
        for (line, row) in lines.chunks_exact_mut(LINE).zip(rows) {
            let items = [row.h, row.d, row.misses, row.volume, row.load, row.mean];
            items.iter().zip(ENDS).for_each(|(&item, end)| number(line, end, item));
        }
    }
    Ok(length)
}

/// The digits of a number, the last one before a place.
fn number(line: &mut [u8], mut end: usize, mut value: u64) {
    loop {
        end -= 1;
        line[end] = b'0' + (value % 10) as u8;
        value /= 10;
        if value == 0 {
            return;
        }
    }
}
