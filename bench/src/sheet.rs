//! The sheet: its limits, reading with refusals 1 to 6, and writing.

use crate::digits::{leading_run, number, put, short_line};
use crate::Refusal;

#[derive(Clone, Copy, Debug, PartialEq, Eq)]
pub enum Kind {
    Time,
    Space,
}

/// An accepted sheet. Only the first `segs`, `rows` and `refs` entries of the lists mean something.
#[derive(Clone)]
pub struct Sheet {
    pub kind: Kind,
    pub a: u64,
    pub segs: usize,
    pub rows: usize,
    pub refs: usize,
    pub size_list: [u16; Sheet::SEGS],
    pub row_list: [(u16, u16); Sheet::ROWS],
    pub ref_list: [u16; Sheet::REFS],
}

impl Sheet {
    pub const BYTES: usize = 20_012;
    pub const SEGS: usize = 256;
    pub const ROWS: usize = 64;
    pub const REFS: usize = 2_048;
    const A: u64 = 255;
    const SIZE: u64 = 4_095;
    const PRICE: u64 = 65_535;

    /// A sheet to read into.
    pub fn empty() -> Sheet {
        Sheet {
            kind: Kind::Time,
            a: 0,
            segs: 0,
            rows: 0,
            refs: 0,
            size_list: [0; Sheet::SEGS],
            row_list: [(0, 0); Sheet::ROWS],
            ref_list: [0; Sheet::REFS],
        }
    }

    pub fn sizes(&self) -> &[u16] {
        &self.size_list[..self.segs]
    }

    pub fn row_pairs(&self) -> &[(u16, u16)] {
        &self.row_list[..self.rows]
    }

    pub fn references(&self) -> &[u16] {
        &self.ref_list[..self.refs]
    }

    /// h and d of a row.
    pub fn row(&self, row: u64) -> Result<(u64, u64), Refusal> {
        if row >= self.rows as u64 {
            return Err(Refusal::NoSuchRow);
        }
        let (h, d) = self.row_list[row as usize];
        Ok((h as u64, d as u64))
    }

    /// What a reference to a segment of this size costs, and what holding it for one step costs.
    #[inline(always)]
    pub fn step_cost(&self, size: u64) -> u64 {
        match self.kind {
            Kind::Time => 1,
            Kind::Space => size,
        }
    }

    #[inline(always)]
    pub fn swap_cost(&self, size: u64) -> u64 {
        1 + self.a * size
    }

    /// Reads a sheet. Where it is refused, what the sheet then holds means nothing.
    pub fn read(&mut self, bytes: &[u8]) -> Result<(), Refusal> {
        if bytes.len() > Sheet::BYTES {
            return Err(Refusal::SheetTooLong);
        }
        let mut at = 0;
        self.read_head(bytes, &mut at)?;
        self.refs = take_number(bytes, &mut at, b"refs=", 0, Sheet::REFS as u64)? as usize;
        let highest = self.segs as u64 - 1;
        for place in &mut self.ref_list[..self.refs] {
            *place = take_number(bytes, &mut at, b"ref=", 0, highest)? as u16;
        }
        if at < bytes.len() {
            return Err(Refusal::BytesAfterEnd);
        }
        Ok(())
    }

    /// The lines from kind= to the rows, from a place on. The place goes to the next line.
    #[inline(always)]
    pub(crate) fn read_head(&mut self, bytes: &[u8], at: &mut usize) -> Result<(), Refusal> {
        let (kind, next) = value(bytes, *at, b"kind=")?;
        *at = next;
        self.kind = match kind {
            b"time" => Kind::Time,
            b"space" => Kind::Space,
            _ => return Err(Refusal::ValueMalformed),
        };
        self.a = take_number(bytes, at, b"a=", 0, Sheet::A)?;
        self.segs = take_number(bytes, at, b"segs=", 1, Sheet::SEGS as u64)? as usize;
        for place in &mut self.size_list[..self.segs] {
            *place = take_number(bytes, at, b"size=", 1, Sheet::SIZE)? as u16;
        }
        self.rows = take_number(bytes, at, b"rows=", 1, Sheet::ROWS as u64)? as usize;
        let mut before: Option<(u64, u64)> = None;
        for place in &mut self.row_list[..self.rows] {
            let (h, d) = take_row(bytes, at)?;
            if before.is_some_and(|(last_h, last_d)| h * last_d <= last_h * d) {
                return Err(Refusal::ThresholdNotAbove);
            }
            before = Some((h, d));
            *place = (h as u16, d as u16);
        }
        Ok(())
    }

    /// Writes the sheet at the head of a lent place and gives its length.
    pub fn write(&self, out: &mut [u8]) -> Result<usize, Refusal> {
        let mut writer = Writer { bytes: [0; Sheet::BYTES + 8], at: 0 };
        writer.text(match self.kind {
            Kind::Time => b"kind=time",
            Kind::Space => b"kind=space",
        });
        writer.item(b"\na=", self.a);
        writer.item(b"\nsegs=", self.segs as u64);
        for &size in self.sizes() {
            writer.item(b"\nsize=", size as u64);
        }
        writer.item(b"\nrows=", self.rows as u64);
        for &(h, d) in self.row_pairs() {
            writer.item(b"\nrow=", h as u64);
            writer.item(b"/", d as u64);
        }
        writer.item(b"\nrefs=", self.refs as u64);
        for &segment in self.references() {
            writer.item(b"\nref=", segment as u64);
        }
        writer.text(b"\n");
        let written = &writer.bytes[..writer.at];
        let place = out.get_mut(..written.len()).ok_or(Refusal::PlaceTooShort)?;
        place.copy_from_slice(written);
        Ok(written.len())
    }
}

/// The 8 bytes from a place on, if there are so many.
#[inline(always)]
pub(crate) fn eight(bytes: &[u8], at: usize) -> Option<u64> {
    let eight = bytes.get(at..)?.first_chunk::<8>()?;
    Some(u64::from_le_bytes(*eight))
}

/// The number on the line at a place, within its range. The place goes to the next line.
#[inline(always)]
pub(crate) fn take_number<const N: usize>(
    bytes: &[u8],
    at: &mut usize,
    key: &[u8; N],
    low: u64,
    high: u64,
) -> Result<u64, Refusal> {
    let start = *at;
    if let Some((value, length)) = eight(bytes, start + N).and_then(short_line) {
        if (bytes[start..start + N] == *key) & (low <= value) & (value <= high) {
            *at = start + N + length + 1;
            return Ok(value);
        }
    }
    let (number, next) = any_number(bytes, start, key, low, high)?;
    *at = next;
    Ok(number)
}

/// The same for a line of any form. Gives the next line's place too.
#[cold]
fn any_number(bytes: &[u8], at: usize, key: &[u8], low: u64, high: u64) -> Result<(u64, usize), Refusal> {
    let (value, next) = value(bytes, at, key)?;
    let number = number(value).ok_or(Refusal::ValueMalformed)?;
    Ok((in_range(number, low, high)?, next))
}

/// The value of the line at a place, all between its key and its line feed, and the next line's place.
pub(crate) fn value<'a>(bytes: &'a [u8], at: usize, key: &[u8]) -> Result<(&'a [u8], usize), Refusal> {
    let rest = &bytes[at..];
    let end = rest.iter().position(|&byte| byte == b'\n').ok_or(Refusal::LineMalformed)?;
    let value = rest[..end].strip_prefix(key).ok_or(Refusal::LineMalformed)?;
    Ok((value, at + end + 1))
}

/// The two numbers of the row line at a place. The place goes to the next line.
#[inline(always)]
fn take_row(bytes: &[u8], at: &mut usize) -> Result<(u64, u64), Refusal> {
    let (h, d, next) = match short_row(bytes, *at) {
        Some((h, d, next)) if h <= Sheet::PRICE && (1..=Sheet::PRICE).contains(&d) => (h, d, next),
        _ => any_row(bytes, *at)?,
    };
    *at = next;
    Ok((h, d))
}

/// A row line of two numbers of up to 7 digits, and the next line's place.
#[inline(always)]
fn short_row(bytes: &[u8], at: usize) -> Option<(u64, u64, usize)> {
    let first = leading_run(eight(bytes, at + 4)?);
    let middle = at + 4 + first.length + 1;
    let second = leading_run(eight(bytes, middle)?);
    let key_stands = bytes[at..at + 4] == *b"row=";
    let right = key_stands & first.fine & (first.after == b'/') & second.fine & (second.after == b'\n');
    right.then_some((first.value, second.value, middle + second.length + 1))
}

/// The same for a row line of any form.
#[cold]
fn any_row(bytes: &[u8], at: usize) -> Result<(u64, u64, usize), Refusal> {
    let (value, next) = value(bytes, at, b"row=")?;
    let slash = value.iter().position(|&byte| byte == b'/').ok_or(Refusal::ValueMalformed)?;
    let h = number(&value[..slash]).ok_or(Refusal::ValueMalformed)?;
    let d = number(&value[slash + 1..]).ok_or(Refusal::ValueMalformed)?;
    Ok((in_range(h, 0, Sheet::PRICE)?, in_range(d, 1, Sheet::PRICE)?, next))
}

pub(crate) fn in_range(value: u32, low: u64, high: u64) -> Result<u64, Refusal> {
    if (low..=high).contains(&(value as u64)) {
        Ok(value as u64)
    } else {
        Err(Refusal::OutOfRange)
    }
}

/// Bytes written one after another.
pub(crate) struct Writer<const N: usize> {
    pub bytes: [u8; N],
    pub at: usize,
}

impl<const N: usize> Writer<N> {
    #[inline(always)]
    pub fn text(&mut self, text: &[u8]) {
        self.bytes[self.at..self.at + text.len()].copy_from_slice(text);
        self.at += text.len();
    }

    /// A text and a number after it.
    #[inline(always)]
    pub fn item(&mut self, text: &[u8], number: u64) {
        self.text(text);
        self.at = put(&mut self.bytes, self.at, number);
    }
}
