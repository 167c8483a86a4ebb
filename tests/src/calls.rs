//! The calls of the header on slices and arrays, each giving the number that it returned. A wrong answer can be put in (`wrong.rs`,
//! `mistakes.rs`).
//!
//! In each call the pointers come from slices, arrays and references, so they are valid, and the lent ones overlap nothing else.

use crate::frames;
use crate::import;
use crate::join;
use crate::mistakes;
use crate::modified;
use crate::points;
use crate::windows;
use crate::wrong::{self, Call};
use segtrace::{c, Recorder};
use std::slice::from_mut;

pub fn check(sheet: &[u8]) -> u64 {
    let real = |_: &mut [u8]| unsafe { c::segtrace_check(sheet.as_ptr(), sheet.len()) };
    modified::verdict(sheet, mistakes::verdict(sheet, wrong::list(Call::Check, &mut [], real)))
}

pub fn rewrite(sheet: &[u8], out: &mut [u8], written: &mut u64) -> u64 {
    if let Some(answer) = modified::mistaken_sheet(sheet) {
        return wrong::put(answer, out, written);
    }
    wrong::lent(Call::Rewrite, out, written, |out, written| unsafe {
        c::segtrace_rewrite(sheet.as_ptr(), sheet.len(), out.as_mut_ptr(), out.len(), written)
    })
}

pub fn to_form_2(sheet: &[u8], out: &mut [u8], written: &mut u64) -> u64 {
    wrong::lent(Call::ToForm2, out, written, |out, written| unsafe {
        c::segtrace_to_form_2(sheet.as_ptr(), sheet.len(), out.as_mut_ptr(), out.len(), written)
    })
}

pub fn to_form_1(sheet: &[u8], out: &mut [u8], written: &mut u64) -> u64 {
    wrong::lent(Call::ToForm1, out, written, |out, written| unsafe {
        c::segtrace_to_form_1(sheet.as_ptr(), sheet.len(), out.as_mut_ptr(), out.len(), written)
    })
}

pub fn join(first: &[u8], second: &[u8], out: &mut [u8], written: &mut u64) -> u64 {
    if let Some(answer) = join::mistaken(first, second) {
        return wrong::put(answer, out, written);
    }
    wrong::lent(Call::Join, out, written, |out, written| unsafe {
        let (first_length, second_length) = (first.len(), second.len());
        let (place, length) = (out.as_mut_ptr(), out.len());
        c::segtrace_join(first.as_ptr(), first_length, second.as_ptr(), second_length, place, length, written)
    })
}

pub fn import_din(trace: &[u8], k: u64, sheet: &[u8], out: &mut [u8], written: &mut u64) -> u64 {
    if let Some(answer) = import::mistaken(trace, k, sheet) {
        return wrong::put(answer, out, written);
    }
    wrong::lent(Call::ImportDin, out, written, |out, written| unsafe {
        let (trace_length, sheet_length) = (trace.len(), sheet.len());
        let (place, length) = (out.as_mut_ptr(), out.len());
        c::segtrace_import_din(trace.as_ptr(), trace_length, k, sheet.as_ptr(), sheet_length, place, length, written)
    })
}

pub fn lru(sheet: &[u8], out: &mut [u64], written: &mut u64, looked: &mut u64) -> u64 {
    let returned = wrong::lent(Call::Lru, out, written, |out, written| match frames::mistaken(Call::Lru, sheet) {
        Some(answer) => wrong::put(answer, out, written),
        None => unsafe { c::segtrace_lru(sheet.as_ptr(), sheet.len(), out.as_mut_ptr(), out.len(), written, looked) },
    });
    frames::mistaken_looked(sheet, returned, looked);
    returned
}

pub fn lru_plain(sheet: &[u8], out: &mut [u64], written: &mut u64) -> u64 {
    if let Some(answer) = frames::mistaken(Call::LruPlain, sheet) {
        return wrong::put(answer, out, written);
    }
    wrong::lent(Call::LruPlain, out, written, |out, written| unsafe {
        c::segtrace_lru_plain(sheet.as_ptr(), sheet.len(), out.as_mut_ptr(), out.len(), written)
    })
}

pub fn windows(sheet: &[u8], out: &mut [u64], written: &mut u64) -> u64 {
    if let Some(answer) = windows::mistaken(sheet) {
        return wrong::put(answer, out, written);
    }
    wrong::lent(Call::Windows, out, written, |out, written| unsafe {
        c::segtrace_windows(sheet.as_ptr(), sheet.len(), out.as_mut_ptr(), out.len(), written)
    })
}

pub fn points(sheet: &[u8], out: &mut [u64], written: &mut u64) -> u64 {
    if let Some(answer) = points::mistaken(sheet) {
        return wrong::put(answer, out, written);
    }
    wrong::lent(Call::Points, out, written, |out, written| unsafe {
        c::segtrace_points(sheet.as_ptr(), sheet.len(), out.as_mut_ptr(), out.len(), written)
    })
}

pub fn figures(sheet: &[u8], row: u64, figures: &mut [u64; 11]) -> u64 {
    let returned = wrong::list(Call::Figures, figures, |figures| unsafe {
        c::segtrace_figures(sheet.as_ptr(), sheet.len(), row, figures.as_mut_ptr())
    });
    if returned == 0 {
        mistakes::figures(Call::Figures, sheet, row, figures);
    }
    returned
}

pub fn all_figures(sheet: &[u8], out: &mut [u64], written: &mut u64) -> u64 {
    let returned = wrong::lent(Call::AllFigures, out, written, |out, written| unsafe {
        c::segtrace_all_figures(sheet.as_ptr(), sheet.len(), out.as_mut_ptr(), out.len(), written)
    });
    if returned == 0 {
        mistakes::figures(Call::AllFigures, sheet, 0, out);
    }
    returned
}

pub fn listing(sheet: &[u8], out: &mut [u8], written: &mut u64) -> u64 {
    if let Some(answer) = modified::mistaken_listing(sheet) {
        return wrong::put(answer, out, written);
    }
    wrong::lent(Call::Listing, out, written, |out, written| unsafe {
        c::segtrace_listing(sheet.as_ptr(), sheet.len(), out.as_mut_ptr(), out.len(), written)
    })
}

pub fn page(sheet: &[u8], out: &mut [u8], written: &mut u64) -> u64 {
    wrong::lent(Call::Page, out, written, |out, written| unsafe {
        c::segtrace_page(sheet.as_ptr(), sheet.len(), out.as_mut_ptr(), out.len(), written)
    })
}

pub fn optimal_schedule(sheet: &[u8], row: u64, out: &mut [u8], written: &mut u64) -> u64 {
    if let Some(answer) = modified::mistaken_schedule(Call::OptimalSchedule, sheet, row) {
        return wrong::put(answer, out, written);
    }
    let returned = wrong::lent(Call::OptimalSchedule, out, written, |out, written| unsafe {
        c::segtrace_optimal_schedule(sheet.as_ptr(), sheet.len(), row, out.as_mut_ptr(), out.len(), written)
    });
    if returned == 0 {
        mistakes::schedule(sheet, row, out);
    }
    returned
}

pub fn modified_schedule(sheet: &[u8], row: u64, out: &mut [u8], written: &mut u64) -> u64 {
    if let Some(answer) = modified::mistaken_schedule(Call::ModifiedSchedule, sheet, row) {
        return wrong::put(answer, out, written);
    }
    wrong::lent(Call::ModifiedSchedule, out, written, |out, written| unsafe {
        c::segtrace_modified_schedule(sheet.as_ptr(), sheet.len(), row, out.as_mut_ptr(), out.len(), written)
    })
}

pub fn price(sheet: &[u8], row: u64, schedule: &[u8], price: &mut [u64; 3]) -> u64 {
    let real = |schedule: &[u8], price: &mut [u64]| unsafe {
        let (bytes, length) = (schedule.as_ptr(), schedule.len());
        c::segtrace_price(sheet.as_ptr(), sheet.len(), row, bytes, length, price.as_mut_ptr())
    };
    let returned = wrong::list(Call::Price, price, |price| real(schedule, price));
    if returned == 0 {
        modified::mistaken_price(sheet, row, schedule, price);
    }
    let other = if returned == 10 { mistakes::other_schedule(sheet, schedule) } else { None };
    other.map_or(returned, |other| real(&other, price))
}

pub fn margin(sheet: &[u8], row: u64, reference: u64, margin: &mut i64) -> u64 {
    let old = *margin;
    let returned = wrong::list(Call::Margin, from_mut(margin), |margin| unsafe {
        c::segtrace_margin(sheet.as_ptr(), sheet.len(), row, reference, margin.as_mut_ptr())
    });
    if returned == 0 && mistakes::has_no_margin(sheet, reference) {
        *margin = old;
        return 15;
    }
    returned
}

pub fn size(sheet: &[u8], ceiling: u64, row: &mut u64) -> u64 {
    wrong::list(Call::Size, from_mut(row), |row| unsafe {
        c::segtrace_size(sheet.as_ptr(), sheet.len(), ceiling, row.as_mut_ptr())
    })
}

pub fn bill(sheet: &[u8], row: u64, [memory_rate, load_rate, minimum]: [u64; 3], cents: &mut u64) -> u64 {
    wrong::list(Call::Bill, from_mut(cents), |cents| unsafe {
        let cents = cents.as_mut_ptr();
        c::segtrace_bill(sheet.as_ptr(), sheet.len(), row, memory_rate, load_rate, minimum, cents)
    })
}

pub fn start(sheet: &[u8], recorder: &mut Recorder) -> u64 {
    wrong::start(sheet, recorder, |sheet, Recorder { head, counts, sizes, holds, h, d, last, sums }| unsafe {
        c::segtrace_recorder_start(
            sheet.as_ptr(),
            sheet.len(),
            head.as_mut_ptr(),
            counts.as_mut_ptr(),
            sizes.as_mut_ptr(),
            holds.as_mut_ptr(),
            h.as_mut_ptr(),
            d.as_mut_ptr(),
            last.as_mut_ptr(),
            sums.as_mut_ptr(),
        )
    })
}

pub fn touch(recorder: &mut Recorder, segment: u64) -> u64 {
    wrong::touch(Call::Touch, recorder, |Recorder { head, counts, sizes, holds, h, d, last, sums }| unsafe {
        c::segtrace_recorder_touch(
            head.as_ptr(),
            counts.as_mut_ptr(),
            sizes.as_ptr(),
            holds.as_ptr(),
            h.as_ptr(),
            d.as_ptr(),
            last.as_mut_ptr(),
            sums.as_mut_ptr(),
            segment,
        )
    })
}

pub fn idle(recorder: &mut Recorder) -> u64 {
    wrong::touch(Call::Idle, recorder, |Recorder { counts, .. }| unsafe {
        c::segtrace_recorder_idle(counts.as_mut_ptr())
    })
}

pub fn touch_all(recorder: &mut Recorder, segments: &[u16]) -> u64 {
    wrong::touch_all(recorder, segments, |Recorder { head, counts, sizes, holds, h, d, last, sums }, segments| unsafe {
        c::segtrace_recorder_touch_all(
            head.as_ptr(),
            counts.as_mut_ptr(),
            sizes.as_ptr(),
            holds.as_ptr(),
            h.as_ptr(),
            d.as_ptr(),
            last.as_mut_ptr(),
            sums.as_mut_ptr(),
            segments.as_ptr(),
            segments.len(),
        )
    })
}

pub fn figures_now(recorder: &Recorder, row: u64, figures: &mut [u64; 11]) -> u64 {
    let Recorder { head, counts, sizes, holds, h, d, last, sums } = recorder;
    wrong::list(Call::FiguresNow, figures, |figures| unsafe {
        c::segtrace_recorder_figures(
            head.as_ptr(),
            counts.as_ptr(),
            sizes.as_ptr(),
            holds.as_ptr(),
            h.as_ptr(),
            d.as_ptr(),
            last.as_ptr(),
            sums.as_ptr(),
            row,
            figures.as_mut_ptr(),
        )
    })
}
