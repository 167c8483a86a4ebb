//! Wrong answers, put in behind a call one at a time to show that the tests find them.

use crate::frames;
use crate::import;
use crate::join;
use crate::mistakes;
use crate::modified;
use crate::place::Item;
use crate::points;
use crate::windows;
use segtrace::Recorder;
use std::sync::atomic::{AtomicUsize, Ordering};
use std::sync::OnceLock;

#[derive(Clone, Copy, Debug, PartialEq, Eq)]
pub enum Call {
    Check,
    Rewrite,
    ToForm2,
    ToForm1,
    Join,
    ImportDin,
    Lru,
    LruPlain,
    Windows,
    Points,
    Figures,
    AllFigures,
    Listing,
    Page,
    OptimalSchedule,
    ModifiedSchedule,
    Price,
    Margin,
    Size,
    Bill,
    Start,
    Touch,
    Idle,
    TouchAll,
    FiguresNow,
}

/// What is wrong with an answer.
#[derive(Clone, Copy, Debug, PartialEq, Eq)]
pub enum Way {
    /// A refusal gets the next number.
    OtherNumber,
    /// A refusal of this number is none.
    NotRefused(u64),
    /// A refusal of one number gets another.
    Instead(u64, u64),
    /// What is carried out is refused with this number instead, and left undone.
    Refused(u64),
    /// A result that fills its place is refused with 11.
    ExactRefused,
    /// Carried out, but everything lent stays as it was.
    Idle,
    /// The last item of the result is another.
    LastItem,
    /// The item after the result is changed.
    ItemBeyond,
    /// The first item of a place is changed by a refused call.
    ItemRefused,
    /// The length is one more.
    Length,
    /// The length is changed by a refused call.
    LengthRefused,
    /// Every row's figures are those of row 0.
    RowZero,
    /// A recorder starts with one reference.
    OneReference,
    /// A recorder of kind space starts with 7 for its kind.
    OtherKind,
    /// Only the first reference is filed.
    FirstFiled,
    /// A refused call changes the last steps of a recorder.
    LastRefused,
    /// A refused call changes the sums of a recorder.
    SumsRefused,
    /// 13 comes before 4.
    FullFirst,
    /// The last reference in bulk is not taken.
    LastNotTaken,
    /// A refusal in bulk keeps the references before the refused one.
    Kept,
    /// A first touch of a warm segment is always a miss.
    WarmMissed,
    /// The first interval of a warm segment is one step longer.
    WarmLonger,
    /// A warm segment that is never touched has no end interval.
    WarmNoEnd,
    /// Its end interval runs from step 1.
    WarmEndFromOne,
    /// Equal numbers on two hold lines are accepted.
    HoldsEqual,
    /// 19 comes before the 4 of an earlier line.
    HoldsFirst,
    /// A recorder names the warm segments, but counts none of them as touched at step 0.
    StartsCold,
    /// A warm segment that was dropped may come back untouched.
    ComesBack,
    /// A first touch of a warm segment has no margin.
    WarmNoMargin,
    /// Another answer, worked out beside the call's own examples.
    Named(&'static str),
}

/// Wrong ways of every call with a lent place, and of every call with a list of fixed length.
const PLACE_CALLS: [Call; 14] = [
    Call::Rewrite,
    Call::ToForm2,
    Call::ToForm1,
    Call::Join,
    Call::ImportDin,
    Call::Lru,
    Call::LruPlain,
    Call::Windows,
    Call::Points,
    Call::AllFigures,
    Call::Listing,
    Call::Page,
    Call::OptimalSchedule,
    Call::ModifiedSchedule,
];
const PLACE_WAYS: [Way; 9] = [
    Way::OtherNumber,
    Way::Refused(11),
    Way::ExactRefused,
    Way::Idle,
    Way::LastItem,
    Way::ItemBeyond,
    Way::ItemRefused,
    Way::Length,
    Way::LengthRefused,
];
const LIST_CALLS: [Call; 6] = [Call::Figures, Call::Price, Call::Margin, Call::Size, Call::Bill, Call::FiguresNow];
const LIST_WAYS: [Way; 5] = [Way::OtherNumber, Way::Refused(7), Way::Idle, Way::LastItem, Way::ItemRefused];

/// Wrong ways of single calls.
const OTHERS: [(Call, Way); 57] = [
    (Call::Check, Way::OtherNumber),
    (Call::Check, Way::NotRefused(5)),
    (Call::Check, Way::NotRefused(16)),
    (Call::Check, Way::Instead(16, 4)),
    (Call::Check, Way::NotRefused(19)),
    (Call::Check, Way::Instead(19, 4)),
    (Call::Check, Way::Instead(19, 16)),
    (Call::Check, Way::HoldsEqual),
    (Call::Check, Way::HoldsFirst),
    (Call::Figures, Way::WarmMissed),
    (Call::Figures, Way::WarmLonger),
    (Call::Figures, Way::WarmNoEnd),
    (Call::Figures, Way::WarmEndFromOne),
    (Call::AllFigures, Way::WarmMissed),
    (Call::AllFigures, Way::WarmLonger),
    (Call::AllFigures, Way::WarmNoEnd),
    (Call::AllFigures, Way::WarmEndFromOne),
    (Call::OptimalSchedule, Way::WarmMissed),
    (Call::Price, Way::ComesBack),
    (Call::Margin, Way::WarmNoMargin),
    (Call::Start, Way::StartsCold),
    (Call::Check, Way::Refused(6)),
    (Call::ToForm1, Way::NotRefused(17)),
    (Call::ToForm1, Way::Refused(17)),
    (Call::AllFigures, Way::RowZero),
    (Call::Price, Way::NotRefused(9)),
    (Call::Price, Way::NotRefused(10)),
    (Call::Margin, Way::NotRefused(15)),
    (Call::Size, Way::Refused(12)),
    (Call::Size, Way::RowZero),
    (Call::Bill, Way::NotRefused(18)),
    (Call::Bill, Way::Refused(18)),
    (Call::Start, Way::OtherNumber),
    (Call::Start, Way::Idle),
    (Call::Start, Way::OneReference),
    (Call::Start, Way::OtherKind),
    (Call::Start, Way::LastRefused),
    (Call::Touch, Way::OtherNumber),
    (Call::Touch, Way::NotRefused(13)),
    (Call::Touch, Way::FullFirst),
    (Call::Touch, Way::Idle),
    (Call::Touch, Way::FirstFiled),
    (Call::Touch, Way::LastRefused),
    (Call::Touch, Way::SumsRefused),
    (Call::Idle, Way::OtherNumber),
    (Call::Idle, Way::NotRefused(13)),
    (Call::Idle, Way::Idle),
    (Call::Idle, Way::LastRefused),
    (Call::Idle, Way::SumsRefused),
    (Call::TouchAll, Way::OtherNumber),
    (Call::TouchAll, Way::NotRefused(13)),
    (Call::TouchAll, Way::FullFirst),
    (Call::TouchAll, Way::Idle),
    (Call::TouchAll, Way::LastNotTaken),
    (Call::TouchAll, Way::Kept),
    (Call::TouchAll, Way::LastRefused),
    (Call::TouchAll, Way::SumsRefused),
];

/// Every wrong answer that is put in.
pub fn all() -> &'static [(Call, Way)] {
    static ALL: OnceLock<Vec<(Call, Way)>> = OnceLock::new();
    ALL.get_or_init(listed)
}

fn listed() -> Vec<(Call, Way)> {
    let of_places = PLACE_CALLS.into_iter().flat_map(|call| PLACE_WAYS.map(|way| (call, way)));
    let of_lists = LIST_CALLS.into_iter().flat_map(|call| LIST_WAYS.map(|way| (call, way)));
    let named = [&join::WRONG[..], &import::WRONG, &frames::WRONG, &windows::WRONG, &points::WRONG, &modified::WRONG];
    of_places.chain(of_lists).chain(OTHERS).chain(named.concat()).collect()
}

/// The place in the list of the wrong answer that is put in.
static PUT_IN: AtomicUsize = AtomicUsize::new(usize::MAX);

/// Puts a wrong answer in, by its place in the list; none where there is no such place.
pub fn put_in(place: usize) {
    PUT_IN.store(place, Ordering::Relaxed);
}

/// The wrong way put in behind a call.
pub fn way(call: Call) -> Option<Way> {
    let place = PUT_IN.load(Ordering::Relaxed);
    if place == usize::MAX {
        return None;
    }
    all().get(place).filter(|(at, _)| *at == call).map(|(_, way)| *way)
}

/// The number as a wrong answer makes it.
fn number(way: Way, number: u64) -> u64 {
    match way {
        Way::OtherNumber if number > 0 => number % 15 + 1,
        Way::NotRefused(other) if number == other => 0,
        Way::Instead(one, other) if number == one => other,
        Way::Refused(other) if number == 0 => other,
        _ => number,
    }
}

/// A call with a lent place and a length.
pub fn lent<T: Item>(
    call: Call,
    out: &mut [T],
    written: &mut u64,
    real: impl FnOnce(&mut [T], &mut u64) -> u64,
) -> u64 {
    let Some(way) = way(call) else { return real(out, written) };
    let (old, old_written) = (out.to_vec(), *written);
    let returned = real(out, written);
    if returned > 0 {
        match way {
            Way::ItemRefused if !out.is_empty() => out[0] = out[0].other(),
            Way::LengthRefused => *written = written.wrapping_add(1),
            _ => {}
        }
        return number(way, returned);
    }
    let length = *written as usize;
    match way {
        Way::ExactRefused if length == out.len() => {
            out.copy_from_slice(&old);
            *written = old_written;
            return 11;
        }
        Way::Refused(_) => {
            out.copy_from_slice(&old);
            *written = old_written;
        }
        Way::Idle => out.copy_from_slice(&old),
        Way::LastItem if length > 0 => out[length - 1] = out[length - 1].other(),
        Way::ItemBeyond if length < out.len() => out[length] = out[length].other(),
        Way::Length => *written += 1,
        Way::RowZero => (11..length).for_each(|place| out[place] = out[place % 11]),
        _ => {}
    }
    number(way, returned)
}

/// An answer that is worked out here, put into a lent place as the call would.
pub fn put<T: Item>(answer: Result<Vec<T>, u64>, out: &mut [T], written: &mut u64) -> u64 {
    match answer {
        Ok(result) if result.len() > out.len() => 11,
        Ok(result) => {
            out[..result.len()].copy_from_slice(&result);
            *written = result.len() as u64;
            0
        }
        Err(number) => number,
    }
}

/// A call with a list of fixed length.
pub fn list<T: Item>(call: Call, out: &mut [T], real: impl FnOnce(&mut [T]) -> u64) -> u64 {
    let way = way(call);
    let mut length = out.len() as u64;
    let returned = lent(call, out, &mut length, |out, _| real(out));
    if returned == 0 && call == Call::Size && way == Some(Way::RowZero) {
        out[0] = T::ZERO;
    }
    returned
}

pub fn start(sheet: &[u8], recorder: &mut Recorder, real: impl Fn(&[u8], &mut Recorder) -> u64) -> u64 {
    let Some(way) = way(Call::Start) else { return real(sheet, recorder) };
    let old = recorder.clone();
    let returned = real(sheet, recorder);
    match (way, returned) {
        (Way::Idle, 0) => *recorder = old,
        (Way::OneReference, 0) => recorder.counts[0] = 1,
        (Way::OtherKind, 0) if recorder.head[0] > 0 => recorder.head[0] = 7,
        (Way::LastRefused, 1..) => recorder.last[0] ^= 1,
        (Way::StartsCold, 0) => {
            let mut cold = old;
            real(&mistakes::cold(sheet), &mut cold);
            recorder.last = cold.last;
        }
        _ => {}
    }
    number(way, returned)
}

pub fn touch(call: Call, recorder: &mut Recorder, real: impl FnOnce(&mut Recorder) -> u64) -> u64 {
    let Some(way) = way(call) else { return real(recorder) };
    let old = recorder.clone();
    let returned = real(recorder);
    match (way, returned) {
        (Way::Idle, 0) => *recorder = old,
        (Way::FirstFiled, 0) if old.counts[0] > 0 => recorder.sums = old.sums,
        (Way::LastRefused, 1..) => recorder.last[255] ^= 1,
        (Way::SumsRefused, 1..) => recorder.sums[389] ^= 1,
        (Way::FullFirst, 4) if old.counts[0] >= 2_048 => return 13,
        _ => {}
    }
    number(way, returned)
}

pub fn touch_all(recorder: &mut Recorder, segments: &[u16], real: impl Fn(&mut Recorder, &[u16]) -> u64) -> u64 {
    let Some(way) = way(Call::TouchAll) else { return real(recorder, segments) };
    let old = recorder.clone();
    if way == Way::LastNotTaken && segments.len() > 1 {
        return real(recorder, &segments[..segments.len() - 1]);
    }
    let returned = real(recorder, segments);
    match (way, returned) {
        (Way::Idle, 0) => *recorder = old,
        (Way::FullFirst, 4) if recorder.counts[0] >= 2_048 => return 13,
        (Way::Kept, 1..) => _ = segments.iter().take_while(|segment| real(recorder, &[**segment]) == 0).count(),
        (Way::LastRefused, 1..) => recorder.last[255] ^= 1,
        (Way::SumsRefused, 1..) => recorder.sums[0] ^= 1,
        _ => {}
    }
    number(way, returned)
}
