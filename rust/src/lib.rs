//! The segment trace analyser: safe functions and types over the calls of `include/segtrace.h`.
//!
//! A sheet is handed in as bytes. Each function says in numbers what may refuse it; [`Refusal`] lists them. The sheet's refusals are 1 to
//! 6, 16 and 19. A refused call leaves every lent place as it was.
//!
//! ```
//! let sheet = b"kind=space\na=1\nsegs=2\nsize=1\nsize=3\nrows=2\nrow=1/2\nrow=1/1\nrefs=3\nref=0\nref=1\nref=0\n";
//! let figures = segtrace::figures(sheet, 0).unwrap();
//! assert_eq!((figures.misses, figures.load), (2, 6));
//! assert_eq!(segtrace::figures(sheet, 2), Err(segtrace::Refusal::NoSuchRow));
//!
//! let mut recorder = segtrace::Recorder::start(sheet).unwrap();
//! assert_eq!(recorder.touch_all(&[0, 1, 0, 2]), Err(segtrace::Refusal::OutOfRange));
//! assert_eq!(recorder.touch_all(&[0, 1, 0]), Ok(()));
//! assert_eq!(recorder.figures(0), Ok(figures));
//! ```

pub mod c;
mod curving;
mod importing;
mod joining;
mod operating;
mod recorder;
mod refusal;
mod windowing;

pub use curving::{lru, lru_into, lru_plain, lru_plain_into, Lru};
pub use importing::{import_din, import_din_into};
pub use joining::{join, join_into};
pub use operating::{points, points_into, Point};
pub use recorder::Recorder;
pub use refusal::Refusal;
pub use windowing::{windows, windows_into};

/// The most bytes of a sheet, of any form.
pub const SHEET_BYTES: usize = 33_414;
/// The most bytes of a sheet of form 1.
pub const SHEET_BYTES_FORM_1: usize = 20_012;
/// The most bytes of a sheet of form 2.
pub const SHEET_BYTES_FORM_2: usize = 29_163;
/// The most bytes of a sheet of form 3.
pub const SHEET_BYTES_FORM_3: usize = 31_366;
/// The most bytes of a listing, of any form.
pub const LISTING_BYTES: usize = 13_158;
/// The most bytes of a page for the binder: two pages.
pub const PAGE_BYTES: usize = 8_760;
/// The most bytes of a schedule.
pub const SCHEDULE_BYTES: usize = 65_536;
/// The most rows of a sheet.
pub const ROWS: usize = 64;
/// The most steps of a sheet or a recorder, and so the most references.
pub const STEPS: usize = 2_048;
/// The most operating points of a sheet.
pub const POINTS: usize = 2_048;
/// The most segments of a sheet.
pub const SEGS: usize = 256;

/// The eleven figures of a row.
#[derive(Clone, Copy, Debug, Default, PartialEq, Eq)]
#[repr(C)]
pub struct Figures {
    /// The price of a load unit.
    pub h: u64,
    /// The price of a memory unit.
    pub d: u64,
    /// References that are not kept, first touches of segments that are not warm included.
    pub misses: u64,
    /// The sizes of the misses, added.
    pub volume: u64,
    /// Misses and a times the volume.
    pub load: u64,
    /// Memory of the optimal schedule.
    pub optmem: u64,
    /// Cost of the optimal schedule: d times optmem and h times the load.
    pub opttotal: u64,
    /// Occupancy of the optimal schedule.
    pub optocc: u64,
    /// Memory of the working set, times d.
    pub wsmem: u64,
    /// Occupancy of the working set, times d.
    pub wsocc: u64,
    /// Mean occupancy of the working set in thousandths, rounded down.
    pub mean: u64,
}

impl Figures {
    /// How many figures a row has.
    pub const COUNT: usize = 11;

    /// The figures in the listing's order.
    pub fn items(&self) -> [u64; Figures::COUNT] {
        [
            self.h,
            self.d,
            self.misses,
            self.volume,
            self.load,
            self.optmem,
            self.opttotal,
            self.optocc,
            self.wsmem,
            self.wsocc,
            self.mean,
        ]
    }

    /// The figures as the list of numbers that they are in memory.
    fn as_mut_ptr(&mut self) -> *mut u64 {
        std::ptr::from_mut(self).cast()
    }
}

/// What a schedule costs at a row.
#[derive(Clone, Copy, Debug, Default, PartialEq, Eq)]
pub struct Price {
    /// Q and what the held untouched segments cost.
    pub memory: u64,
    /// The swap costs of the touches that load and, in form 4, of the stays that are stored.
    pub load: u64,
    /// d times the memory and h times the load.
    pub total: u64,
}

/// The loading tariff, in cents.
#[derive(Clone, Copy, Debug, Default, PartialEq, Eq)]
pub struct Tariff {
    /// For each started 1,000 units of optmem.
    pub memory_rate: u64,
    /// For each started 1,000 load units.
    pub load_rate: u64,
    /// What a bill is raised to where it is lower.
    pub minimum: u64,
}

impl Tariff {
    /// The largest rate.
    pub const MAX_RATE: u64 = 9_999;
    /// The largest minimum.
    pub const MAX_MINIMUM: u64 = 99_999;
}

// In each call below the pointers come from slices and references, so they are valid, and the lent ones overlap nothing else.

/// Whether the bytes are a sheet: the sheet's refusals.
pub fn check(sheet: &[u8]) -> Result<(), Refusal> {
    Refusal::answer(unsafe { c::segtrace_check(sheet.as_ptr(), sheet.len()) })
}

/// The sheet read and written again, at the front of `out`. Gives its length: the sheet's refusals, 11.
pub fn rewrite(sheet: &[u8], out: &mut [u8]) -> Result<usize, Refusal> {
    let mut written = 0;
    Refusal::answer(unsafe {
        c::segtrace_rewrite(sheet.as_ptr(), sheet.len(), out.as_mut_ptr(), out.len(), &mut written)
    })?;
    Ok(written as usize)
}

/// A sheet of form 1 in form 2, at the front of `out`. Gives its length: the sheet's refusals (any other form is 4), 11.
pub fn to_form_2(sheet: &[u8], out: &mut [u8]) -> Result<usize, Refusal> {
    let mut written = 0;
    Refusal::answer(unsafe {
        c::segtrace_to_form_2(sheet.as_ptr(), sheet.len(), out.as_mut_ptr(), out.len(), &mut written)
    })?;
    Ok(written as usize)
}

/// A sheet of form 2 without an idle step in form 1, at the front of `out`. Gives its length: the sheet's refusals (any other form is 4),
/// 17, 11.
pub fn to_form_1(sheet: &[u8], out: &mut [u8]) -> Result<usize, Refusal> {
    let mut written = 0;
    Refusal::answer(unsafe {
        c::segtrace_to_form_1(sheet.as_ptr(), sheet.len(), out.as_mut_ptr(), out.len(), &mut written)
    })?;
    Ok(written as usize)
}

/// The figures of a row, counted from 0: the sheet's refusals, 7.
pub fn figures(sheet: &[u8], row: u64) -> Result<Figures, Refusal> {
    let mut figures = Figures::default();
    Refusal::answer(unsafe { c::segtrace_figures(sheet.as_ptr(), sheet.len(), row, figures.as_mut_ptr()) })?;
    Ok(figures)
}

/// The figures of every row, at the front of `out`. Gives how many rows: the sheet's refusals, 11.
pub fn all_figures(sheet: &[u8], out: &mut [Figures]) -> Result<usize, Refusal> {
    let mut written = 0;
    // A record is eleven numbers one after the other, so a list of records is one list of numbers.
    let numbers = out.as_mut_ptr().cast();
    let length = Figures::COUNT * out.len();
    Refusal::answer(unsafe { c::segtrace_all_figures(sheet.as_ptr(), sheet.len(), numbers, length, &mut written) })?;
    Ok(written as usize / Figures::COUNT)
}

/// The listing, in form 4 with modtotal after each mean, at the front of `out`. Gives its length: the sheet's refusals, 11.
pub fn listing(sheet: &[u8], out: &mut [u8]) -> Result<usize, Refusal> {
    let mut written = 0;
    Refusal::answer(unsafe {
        c::segtrace_listing(sheet.as_ptr(), sheet.len(), out.as_mut_ptr(), out.len(), &mut written)
    })?;
    Ok(written as usize)
}

/// The page for the binder, 60 lines of 72 characters and a line feed, at the front of `out`; two pages where there are more than 58 rows.
/// Gives the length, 4,380 or 8,760: the sheet's refusals, 11.
pub fn page(sheet: &[u8], out: &mut [u8]) -> Result<usize, Refusal> {
    let mut written = 0;
    Refusal::answer(unsafe {
        c::segtrace_page(sheet.as_ptr(), sheet.len(), out.as_mut_ptr(), out.len(), &mut written)
    })?;
    Ok(written as usize)
}

/// The optimal schedule of a row of a sheet of forms 1 to 3, 32 bytes a step, at the front of `out`. Gives its length: the sheet's
/// refusals (form 4 is 4), 7, 11.
pub fn optimal_schedule(sheet: &[u8], row: u64, out: &mut [u8]) -> Result<usize, Refusal> {
    let mut written = 0;
    Refusal::answer(unsafe {
        c::segtrace_optimal_schedule(sheet.as_ptr(), sheet.len(), row, out.as_mut_ptr(), out.len(), &mut written)
    })?;
    Ok(written as usize)
}

/// The schedule of the least total with stores counted, of a row of a sheet of form 4, 32 bytes a step, at the front of `out`. Its total
/// is modtotal of the listing; of several it is the one with the least load. Gives its length: the sheet's refusals (any other form is 4),
/// 7, 11.
///
/// ```
/// let sheet = b"form=4\nkind=space\na=1\nsegs=1\nsize=3\nrows=1\nrow=1/1\nwarm=0\nsteps=4\nrefs=2\nref=0@1w\nref=0@4w\n";
/// let mut schedule = [0; 4 * 32];
/// assert_eq!(segtrace::modified_schedule(sheet, 0, &mut schedule), Ok(4 * 32));
/// // Held from touch to touch, segment 0 is loaded and stored once; dropped, it would be loaded and stored twice.
/// assert!(schedule.iter().step_by(32).all(|&first| first == 1));
/// let price = segtrace::price(sheet, 0, &schedule).unwrap();
/// assert_eq!((price.memory, price.load, price.total), (12, 8, 20));
/// ```
pub fn modified_schedule(sheet: &[u8], row: u64, out: &mut [u8]) -> Result<usize, Refusal> {
    let mut written = 0;
    Refusal::answer(unsafe {
        c::segtrace_modified_schedule(sheet.as_ptr(), sheet.len(), row, out.as_mut_ptr(), out.len(), &mut written)
    })?;
    Ok(written as usize)
}

/// What a schedule costs at a row, in form 4 with stores counted: the sheet's refusals, 7, 8, then 9 or 10 of the earliest faulty step.
pub fn price(sheet: &[u8], row: u64, schedule: &[u8]) -> Result<Price, Refusal> {
    let mut price = [0; 3];
    Refusal::answer(unsafe {
        c::segtrace_price(sheet.as_ptr(), sheet.len(), row, schedule.as_ptr(), schedule.len(), price.as_mut_ptr())
    })?;
    let [memory, load, total] = price;
    Ok(Price { memory, load, total })
}

/// The margin h*w - d*R of a reference, counted from 1, at a row; the reuse is kept where it is 0 or more: the sheet's refusals, 7, 14, 15.
pub fn margin(sheet: &[u8], row: u64, reference: u64) -> Result<i64, Refusal> {
    let mut margin = 0;
    Refusal::answer(unsafe { c::segtrace_margin(sheet.as_ptr(), sheet.len(), row, reference, &mut margin) })?;
    Ok(margin)
}

/// The lowest row with the least load among the rows with optmem within the ceiling: the sheet's refusals, 12.
pub fn size(sheet: &[u8], ceiling: u64) -> Result<u64, Refusal> {
    let mut row = 0;
    Refusal::answer(unsafe { c::segtrace_size(sheet.as_ptr(), sheet.len(), ceiling, &mut row) })?;
    Ok(row)
}

/// The bill of a row in cents: the sheet's refusals, 7, 18.
pub fn bill(sheet: &[u8], row: u64, tariff: Tariff) -> Result<u64, Refusal> {
    let Tariff { memory_rate, load_rate, minimum } = tariff;
    let mut cents = 0;
    Refusal::answer(unsafe {
        c::segtrace_bill(sheet.as_ptr(), sheet.len(), row, memory_rate, load_rate, minimum, &mut cents)
    })?;
    Ok(cents)
}
