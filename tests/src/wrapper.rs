//! The safe functions of the crate `segtrace`, compared with the reference.

use crate::compare::{ensure, Case, Outcome};
use crate::generate;
use crate::modified;
use crate::reference::{self, Figures, Sheet, STEP};
use segtrace::Refusal;
use std::fmt::Debug;

/// What a list of records holds before a call.
const OLD: segtrace::Figures = segtrace::Figures {
    h: 1,
    d: 2,
    misses: 3,
    volume: 4,
    load: 5,
    optmem: 6,
    opttotal: 7,
    optocc: 8,
    wsmem: 9,
    wsocc: 10,
    mean: 11,
};

impl Case<'_> {
    /// The answer of a safe function, with the number for a refusal.
    pub fn safe<T: PartialEq + Debug>(&mut self, name: &str, got: Result<T, Refusal>, want: Result<T, u64>) -> Outcome {
        let got = got.map_err(Refusal::number);
        self.tally.note(*want.as_ref().err().unwrap_or(&0));
        ensure(got == want, || format!("wrapper, {name}: got {got:?}, wanted {want:?}"))
    }

    /// Every safe function gives the sheet's own number.
    pub fn wrapper_refused(&mut self, number: u64, row: u64, reference: u64, ceiling: u64, schedule: &[u8]) -> Outcome {
        let bytes = self.bytes;
        let mut out = [7; 40];
        let mut records = [OLD; 3];
        self.safe("check", segtrace::check(bytes), Err(number))?;
        self.safe("rewrite", segtrace::rewrite(bytes, &mut out), Err(number))?;
        let (second, first) = (reference::to_form_2(bytes), reference::to_form_1(bytes));
        self.safe("to_form_2", segtrace::to_form_2(bytes, &mut out), second.map(|text| text.len()))?;
        self.safe("to_form_1", segtrace::to_form_1(bytes, &mut out), first.map(|text| text.len()))?;
        self.safe("figures", segtrace::figures(bytes, row), Err(number))?;
        self.safe("all_figures", segtrace::all_figures(bytes, &mut records), Err(number))?;
        self.safe("listing", segtrace::listing(bytes, &mut out), Err(number))?;
        self.safe("page", segtrace::page(bytes, &mut out), Err(number))?;
        let [older, newest] = [(1, 3), (4, 4)].map(|(low, high)| reference::read_forms(bytes, low, high).map(|_| 0));
        self.safe("optimal_schedule", segtrace::optimal_schedule(bytes, row, &mut out), older)?;
        self.safe("modified_schedule", segtrace::modified_schedule(bytes, row, &mut out), newest)?;
        self.safe("price", segtrace::price(bytes, row, schedule), Err(number))?;
        self.safe("margin", segtrace::margin(bytes, row, reference), Err(number))?;
        self.safe("size", segtrace::size(bytes, ceiling), Err(number))?;
        self.safe("bill", segtrace::bill(bytes, row, segtrace::Tariff::default()), Err(number))?;
        self.safe("Recorder::start", segtrace::Recorder::start(bytes).map(|_| 0), older)?;
        ensure(out == [7; 40] && records == [OLD; 3], || "wrapper: a refused call changed its place".to_string())
    }

    /// Every safe function once, or a few times, on an accepted sheet.
    pub fn wrapper_accepted(&mut self, sheet: &Sheet, all: &[Figures], listing: &[u8]) -> Outcome {
        if !self.prng.one_in(4) {
            return Ok(());
        }
        let bytes = self.bytes;
        self.safe("check", segtrace::check(bytes), Ok(()))?;
        self.text("rewrite", bytes, |out| segtrace::rewrite(bytes, out))?;
        match sheet.form {
            1 => {
                let second = reference::to_form_2(bytes).unwrap_or_default();
                self.text("to_form_2", &second, |out| segtrace::to_form_2(bytes, out))?;
            }
            _ => {
                let got = segtrace::to_form_1(bytes, &mut vec![0; bytes.len()]);
                self.safe("to_form_1", got, reference::to_form_1(bytes).map(|text| text.len()))?;
            }
        }
        self.text("listing", listing, |out| segtrace::listing(bytes, out))?;
        self.text("page", &reference::page(sheet, all), |out| segtrace::page(bytes, out))?;
        self.records(all)?;
        let (row, no_row) = (self.some_row(sheet), self.no_row(sheet));
        let number = row as u64;
        self.safe("figures", segtrace::figures(bytes, number).map(|figures| figures.items()), Ok(all[row]))?;
        self.safe("figures", segtrace::figures(bytes, no_row).map(|figures| figures.items()), Err(7))?;
        let (best, _) = modified::best(sheet, row, &all[row]);
        if sheet.form > 3 {
            self.text("modified_schedule", &best, |out| segtrace::modified_schedule(bytes, number, out))?;
            self.safe("modified_schedule", segtrace::modified_schedule(bytes, no_row, &mut []), Err(7))?;
            self.safe("optimal_schedule", segtrace::optimal_schedule(bytes, number, &mut []), Err(4))?;
            self.safe("Recorder::start", segtrace::Recorder::start(bytes).map(drop), Err(4))?;
        } else {
            self.text("optimal_schedule", &best, |out| segtrace::optimal_schedule(bytes, number, out))?;
            self.safe("modified_schedule", segtrace::modified_schedule(bytes, number, &mut []), Err(4))?;
        }
        for schedule in [&best[..], &best[..best.len().saturating_sub(STEP)], &vec![0; best.len()]] {
            let got = segtrace::price(bytes, number, schedule).map(|price| [price.memory, price.load, price.total]);
            self.safe("price", got, reference::price(sheet, sheet.rows[row], schedule))?;
        }
        let reference = self.prng.between(0, sheet.references().len() as u64 + 1);
        let margin = reference::margin(sheet, sheet.rows[row], reference);
        self.safe("margin", segtrace::margin(bytes, number, reference), margin)?;
        let ceiling = all[row][reference::OPTMEM].saturating_sub(self.prng.next() & 1);
        self.safe("size", segtrace::size(bytes, ceiling), reference::size(all, ceiling))?;
        let rates = generate::rates(&mut self.prng);
        let [memory_rate, load_rate, minimum] = rates;
        let tariff = segtrace::Tariff { memory_rate, load_rate, minimum };
        self.safe("bill", segtrace::bill(bytes, number, tariff), reference::bill(&all[row], rates))?;
        self.safe("bill", segtrace::bill(bytes, no_row, tariff), Err(7))
    }

    /// A function that writes bytes into a place: long, exact, and short by one.
    fn text(&mut self, name: &str, want: &[u8], call: impl Fn(&mut [u8]) -> Result<usize, Refusal>) -> Outcome {
        let exact = want.len();
        for length in [exact + 9, exact, exact.saturating_sub(1)] {
            let mut out = vec![7; length];
            let fits = length >= exact;
            self.safe(name, call(&mut out), if fits { Ok(exact) } else { Err(11) })?;
            let front = if fits { exact } else { 0 };
            ensure(out[..front] == want[..front] && out[front..].iter().all(|&byte| byte == 7), || {
                format!("wrapper, {name}: another result in a place of {length}")
            })?;
        }
        Ok(())
    }

    /// The figures of all rows in lists of records: long, exact, and short by one.
    fn records(&mut self, all: &[Figures]) -> Outcome {
        for length in [all.len() + 2, all.len(), all.len() - 1] {
            let mut out = vec![OLD; length];
            let fits = length >= all.len();
            let got = segtrace::all_figures(self.bytes, &mut out);
            self.safe("all_figures", got, if fits { Ok(all.len()) } else { Err(11) })?;
            let front = if fits { all.len() } else { 0 };
            let same = out.iter().zip(all).take(front).all(|(record, figures)| record.items() == *figures);
            ensure(same && out[front..].iter().all(|record| *record == OLD), || {
                format!("wrapper, all_figures: other records in a list of {length}")
            })?;
        }
        Ok(())
    }
}
