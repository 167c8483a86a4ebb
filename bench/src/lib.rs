//! The segment trace analyser in plain, fast, safe Rust: the baseline of the benchmark.
#![forbid(unsafe_code)]
// A row or a word numbers several lists at once.
#![allow(clippy::needless_range_loop)]

mod digits;
pub mod figures;
pub mod frames;
pub mod listing;
pub mod modified;
pub mod page;
pub mod points;
pub mod recorder;
pub mod schedule;
pub mod sheet;
pub mod windows;

pub use figures::{all_figures, margin, row_figures, size, Figures};
pub use listing::{listing, listing_of};
pub use page::page;
pub use recorder::Recorder;
pub use schedule::{optimal_schedule, price, Price};
pub use sheet::{Kind, Sheet};

/// Why a call was refused; the discriminant is the number.
#[derive(Clone, Copy, Debug, PartialEq, Eq)]
#[repr(u64)]
pub enum Refusal {
    SheetTooLong = 1,
    LineMalformed = 2,
    ValueMalformed = 3,
    OutOfRange = 4,
    ThresholdNotAbove = 5,
    BytesAfterEnd = 6,
    NoSuchRow = 7,
    ScheduleLength = 8,
    TouchedNotHeld = 9,
    HeldNotBefore = 10,
    PlaceTooShort = 11,
    NoRowFits = 12,
    RecorderFull = 13,
    NoSuchReference = 14,
    FirstTouch = 15,
    StepNotAbove = 16,
}
