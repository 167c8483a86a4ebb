//! Why a call is refused.

use std::fmt;

/// Why a call was refused. Where several apply, a call gives the first that its comment names.
#[derive(Clone, Copy, Debug, PartialEq, Eq, Hash)]
#[repr(u64)]
pub enum Refusal {
    /// The sheet is longer than 20,012 bytes, in form 2 than 29,163, in form 3 than 31,366, in form 4 than 33,414.
    SheetTooLong = 1,
    /// A line is missing, lacks its line feed, or does not begin with its key and "=".
    LineMalformed,
    /// A value is not a kind word, a number, for a row two numbers around "/", or for a touch two around "@", in form 4 with the letter w.
    ValueMalformed,
    /// A number lies outside its range, or a call is not made for the sheet's form.
    OutOfRange,
    /// A row's threshold does not exceed the one before.
    ThresholdNotAbove,
    /// Bytes follow the last line.
    BytesAfterEnd,
    /// The row asked for is not below rows.
    NoSuchRow,
    /// The schedule does not have 32 bytes a step.
    ScheduleLength,
    /// In the earliest faulty step the touched segment is not held.
    TouchedNotHeld,
    /// In the earliest faulty step a segment is held that was neither touched nor held before.
    HeldNotBefore,
    /// The lent place is shorter than the result.
    PlaceTooShort,
    /// Every row's optmem exceeds the ceiling.
    NoRowFits,
    /// The recorder already has 2,048 steps.
    RecorderFull,
    /// The reference asked for is not between 1 and refs.
    NoSuchReference,
    /// The reference is a first touch of a segment that is not warm and has no margin.
    FirstTouch,
    /// The step of a touch is not above the one before, or lies beyond steps.
    StepNotAbove,
    /// Converting back to form 1: a step is idle.
    IdleStep,
    /// A rate or the minimum of a tariff lies outside its range.
    TariffOutOfRange,
    /// The segment of a hold line is not above the one before.
    HoldNotAbove,
    /// Joining: kind, a or a row line differs.
    HeadsDiffer,
    /// Joining: both sheets touch at one step.
    BothTouch,
    /// Joining: together the sheets have more than 256 segments.
    TooManySegments,
    /// Importing: k is not from 8 to 24.
    PageOutOfRange,
    /// Importing: a line of the trace is malformed.
    TraceMalformed,
    /// Importing: the trace has a 2,049th line or a 257th page.
    TraceTooLong,
    /// A size is not 1.
    SizeNotOne,
    /// A warm segment is named.
    WarmSegment,
    /// The kind is not time, or a is not 0.
    NotTimeZero,
}

impl Refusal {
    /// All refusals, in the order of their numbers.
    pub const ALL: [Refusal; 28] = [
        Refusal::SheetTooLong,
        Refusal::LineMalformed,
        Refusal::ValueMalformed,
        Refusal::OutOfRange,
        Refusal::ThresholdNotAbove,
        Refusal::BytesAfterEnd,
        Refusal::NoSuchRow,
        Refusal::ScheduleLength,
        Refusal::TouchedNotHeld,
        Refusal::HeldNotBefore,
        Refusal::PlaceTooShort,
        Refusal::NoRowFits,
        Refusal::RecorderFull,
        Refusal::NoSuchReference,
        Refusal::FirstTouch,
        Refusal::StepNotAbove,
        Refusal::IdleStep,
        Refusal::TariffOutOfRange,
        Refusal::HoldNotAbove,
        Refusal::HeadsDiffer,
        Refusal::BothTouch,
        Refusal::TooManySegments,
        Refusal::PageOutOfRange,
        Refusal::TraceMalformed,
        Refusal::TraceTooLong,
        Refusal::SizeNotOne,
        Refusal::WarmSegment,
        Refusal::NotTimeZero,
    ];

    /// The number of the refusal.
    pub fn number(self) -> u64 {
        self as u64
    }

    /// The refusal of a number.
    pub fn of_number(number: u64) -> Option<Refusal> {
        Refusal::ALL.into_iter().find(|refusal| refusal.number() == number)
    }

    /// What a call returned, as a result: 0, or the number of a refusal. The library returns no other number.
    #[inline]
    pub(crate) fn answer(returned: u64) -> Result<(), Refusal> {
        match returned {
            0 => Ok(()),
            number => Err(Refusal::of_number(number).expect("the number of a refusal")),
        }
    }
}

impl fmt::Display for Refusal {
    fn fmt(&self, formatter: &mut fmt::Formatter<'_>) -> fmt::Result {
        formatter.write_str(match self {
            Refusal::SheetTooLong => "the sheet is too long",
            Refusal::LineMalformed => "a line is missing, lacks its line feed or does not begin with its key",
            Refusal::ValueMalformed => "a value is not written as asked",
            Refusal::OutOfRange => "a number lies outside its range",
            Refusal::ThresholdNotAbove => "a row's threshold does not exceed the one before",
            Refusal::BytesAfterEnd => "bytes follow the last line",
            Refusal::NoSuchRow => "there is no such row",
            Refusal::ScheduleLength => "the schedule does not have 32 bytes a step",
            Refusal::TouchedNotHeld => "a touched segment is not held",
            Refusal::HeldNotBefore => "a segment is held that was neither touched nor held before",
            Refusal::PlaceTooShort => "the lent place is shorter than the result",
            Refusal::NoRowFits => "no row fits the ceiling",
            Refusal::RecorderFull => "the recorder has 2,048 steps",
            Refusal::NoSuchReference => "there is no such reference",
            Refusal::FirstTouch => "a first touch of a segment that is not warm has no margin",
            Refusal::StepNotAbove => "a step is not above the one before or lies beyond steps",
            Refusal::IdleStep => "a step is idle",
            Refusal::TariffOutOfRange => "a rate or the minimum lies outside its range",
            Refusal::HoldNotAbove => "a warm segment is not above the one before",
            Refusal::HeadsDiffer => "kind, a or a row line differs",
            Refusal::BothTouch => "both sheets touch at one step",
            Refusal::TooManySegments => "together the sheets have more than 256 segments",
            Refusal::PageOutOfRange => "k is not from 8 to 24",
            Refusal::TraceMalformed => "a line of the trace is malformed",
            Refusal::TraceTooLong => "the trace has a 2,049th line or a 257th page",
            Refusal::SizeNotOne => "a size is not 1",
            Refusal::WarmSegment => "a warm segment is named",
            Refusal::NotTimeZero => "the kind is not time or a is not 0",
        })
    }
}

impl std::error::Error for Refusal {}
