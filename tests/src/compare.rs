//! One case: every call on one run of bytes, compared with the reference.

use crate::calls;
use crate::enumerate;
use crate::generate::{self, Prng};
use crate::modified;
use crate::place::{Item, Place};
use crate::reference::{self, Figures, Intervals, Price, Row, Sheet, LOAD, OPTMEM, OPTTOTAL, STEP};
use crate::tally::Tally;

/// What a failing comparison says.
pub type Outcome = Result<(), String>;

/// A converter: bytes, the lent place and the length written.
type Convert = fn(&[u8], &mut [u8], &mut u64) -> u64;

pub struct Case<'a> {
    pub prng: Prng,
    /// The sheet under test, accepted or not.
    pub bytes: &'a [u8],
    pub tally: &'a mut Tally,
}

impl Case<'_> {
    pub fn run(&mut self) -> Outcome {
        let given = self.bytes.to_vec();
        self.on(self.bytes);
        match reference::read(self.bytes) {
            Ok(sheet) => self.accepted(&sheet)?,
            Err(number) => self.refused(number)?,
        }
        ensure(self.bytes == given, || "the sheet handed in was changed".to_string())
    }

    /// The calls that follow are on these bytes.
    pub fn on(&mut self, bytes: &[u8]) {
        self.tally.form_4 = bytes.starts_with(b"form=4\n");
    }

    // ---- A sheet that is refused ----

    /// Every call gives the sheet's own number, whatever else is wrong; a call that is not made for every form may give 4 before it.
    fn refused(&mut self, number: u64) -> Outcome {
        let bytes = self.bytes;
        let [older, newest] = [(1, 3), (4, 4)].map(|(low, high)| reference::read_forms(bytes, low, high).map(drop));
        let (row, reference, ceiling) = (self.odd_number(), self.odd_number(), self.prng.next());
        let schedule = self.some_bytes();
        self.verdict(number)?;
        self.call::<u8>("rewrite", Err(number), |out, written| calls::rewrite(bytes, out, written))?;
        self.list_call::<u64, 11>("figures", Err(number), |out| calls::figures(bytes, row, out))?;
        self.call::<u64>("all_figures", Err(number), |out, written| calls::all_figures(bytes, out, written))?;
        self.call::<u8>("listing", Err(number), |out, written| calls::listing(bytes, out, written))?;
        self.call::<u8>("page", Err(number), |out, written| calls::page(bytes, out, written))?;
        self.call::<u8>("optimal_schedule", older.map(|_| &[][..]), |out, written| {
            calls::optimal_schedule(bytes, row, out, written)
        })?;
        self.call::<u8>("modified_schedule", newest.map(|_| &[][..]), |out, written| {
            calls::modified_schedule(bytes, row, out, written)
        })?;
        self.list_call::<u64, 3>("price", Err(number), |out| calls::price(bytes, row, &schedule, out))?;
        self.list_call::<i64, 1>("margin", Err(number), |[out]| calls::margin(bytes, row, reference, out))?;
        self.list_call::<u64, 1>("size", Err(number), |[out]| calls::size(bytes, ceiling, out))?;
        let rates = generate::rates(&mut self.prng);
        self.list_call::<u64, 1>("bill", Err(number), |[out]| calls::bill(bytes, row, rates, out))?;
        self.converters()?;
        self.joins()?;
        self.imports()?;
        self.frames()?;
        self.windows()?;
        self.points()?;
        self.on(bytes);
        self.start_refused(older)?;
        self.wrapper_refused(number, row, reference, ceiling, &schedule)
    }

    /// A small number or any number.
    fn odd_number(&mut self) -> u64 {
        if self.prng.one_in(2) {
            self.prng.between(0, 3)
        } else {
            self.prng.next()
        }
    }

    fn some_bytes(&mut self) -> Vec<u8> {
        let length = self.prng.pick(&[0, 1, STEP, 5 * STEP]);
        self.prng.bytes(length)
    }

    // ---- A sheet that is accepted ----

    fn accepted(&mut self, sheet: &Sheet) -> Outcome {
        let bytes = self.bytes;
        ensure(reference::write(sheet) == bytes, || "the reference writes another sheet than it read".to_string())?;
        let intervals = Intervals::of(sheet);
        let all: Vec<Figures> = sheet.rows.iter().map(|&row| reference::figures(sheet, &intervals, row)).collect();
        self.verdict(0)?;
        self.call("rewrite", Ok(bytes), |out, written| calls::rewrite(bytes, out, written))?;
        let modtotals = modified::modtotals(sheet);
        let listing = reference::listing(sheet, &all, &modtotals);
        self.call("listing", Ok(&listing), |out, written| calls::listing(bytes, out, written))?;
        self.call("page", Ok(&reference::page(sheet, &all)), |out, written| calls::page(bytes, out, written))?;
        self.call("all_figures", Ok(all.as_flattened()), |out, written| calls::all_figures(bytes, out, written))?;
        self.figures(sheet, &all)?;
        self.schedules(sheet, &all, &modtotals)?;
        self.margins(sheet)?;
        self.sizing(&all)?;
        self.bills(sheet, &all)?;
        self.converters()?;
        self.there_and_back(sheet)?;
        self.joins()?;
        self.imports()?;
        self.frames()?;
        self.windows()?;
        self.points()?;
        self.on(bytes);
        if sheet.form > 3 {
            self.modified(sheet)?;
        }
        if sheet.sizes.len() <= enumerate::MOST_SEGS && sheet.steps.len() <= enumerate::MOST_STEPS {
            self.demand_three(sheet)?;
        }
        self.recorder(sheet)?;
        self.wrapper_accepted(sheet, &all, &listing)
    }

    /// `check` on the sheet.
    fn verdict(&mut self, want: u64) -> Outcome {
        let got = calls::check(self.bytes);
        self.tally.note(want);
        ensure(got == want, || format!("check: got {got}, wanted {want}"))
    }

    fn figures(&mut self, sheet: &Sheet, all: &[Figures]) -> Outcome {
        let bytes = self.bytes;
        for row in self.some_rows(sheet, 8) {
            self.list_call("figures", Ok(&all[row]), |out| calls::figures(bytes, row as u64, out))?;
        }
        let row = self.no_row(sheet);
        self.list_call::<u64, 11>("figures", Err(7), |out| calls::figures(bytes, row, out))
    }

    /// Up to so many row numbers; all of them where there are no more.
    fn some_rows(&mut self, sheet: &Sheet, most: usize) -> Vec<usize> {
        let count = sheet.rows.len();
        if count <= most {
            return (0..count).collect();
        }
        (0..most).map(|_| self.prng.below(count)).collect()
    }

    pub fn some_row(&mut self, sheet: &Sheet) -> usize {
        self.prng.below(sheet.rows.len())
    }

    /// A number that is no row.
    pub fn no_row(&mut self, sheet: &Sheet) -> u64 {
        let rows = sheet.rows.len() as u64;
        let row = self.some_row(sheet) as u64;
        self.prng.pick(&[rows, rows + 1, 64, 65, row + (1 << 8), row + (1 << 16), row + (1 << 32), u64::MAX])
    }

    // ---- Schedules ----

    fn schedules(&mut self, sheet: &Sheet, all: &[Figures], modtotals: &[u64]) -> Outcome {
        let bytes = self.bytes;
        let row = self.no_row(sheet);
        self.schedule(sheet, row, Err(7))?;
        let few = if sheet.steps.len() > 100 { 1 } else { 3 };
        for row in self.some_rows(sheet, few) {
            let (best, wanted) = modified::best(sheet, row, &all[row]);
            ensure(sheet.form < 4 || wanted[2] == modtotals[row], || "the reference has two modtotals".to_string())?;
            let price = self.price(sheet, &best, row)?;
            ensure(price == Ok(wanted), || {
                "the reference prices the schedule that it writes otherwise than its figures say".to_string()
            })?;
            self.schedule(sheet, row as u64, Ok(&best))?;
            let damaged = generate::damaged_schedule(&mut self.prng, sheet, &best);
            self.price(sheet, &damaged, row).map(drop)?;
            // In form 4 the schedule of document 01 costs at least as much.
            let kept = self.price(sheet, &reference::optimal_schedule(sheet, sheet.rows[row]), row)?;
            ensure(kept.is_ok_and(|[memory, _, total]| memory == all[row][OPTMEM] && total >= wanted[2]), || {
                format!("the reference prices the schedule of the keep rule at {kept:?}")
            })?;
        }
        for _ in 0..few {
            let row = self.some_row(sheet);
            let permitted = generate::permitted_schedule(&mut self.prng, sheet);
            let [_, load, total] = self
                .price(sheet, &permitted, row)?
                .map_err(|number| format!("the reference refuses a permitted schedule with {number}"))?;
            let (_, [_, least_load, least]) = modified::best(sheet, row, &all[row]);
            ensure((total, load) >= (least, least_load), || {
                format!("the reference finds a permitted schedule of total {total} and load {load} below the optimum")
            })?;
            let damaged = generate::damaged_schedule(&mut self.prng, sheet, &permitted);
            self.price(sheet, &damaged, row).map(drop)?;
            let no_row = self.no_row(sheet);
            self.list_call::<u64, 3>("price", Err(7), |out| calls::price(bytes, no_row, &damaged, out))?;
        }
        Ok(())
    }

    /// The schedule call that is made for the sheet's form, and the other one, which gives 4.
    fn schedule(&mut self, sheet: &Sheet, row: u64, want: Result<&[u8], u64>) -> Outcome {
        let bytes = self.bytes;
        let (older, newest) = if sheet.form > 3 { (Err(4), want) } else { (want, Err(4)) };
        self.call("optimal_schedule", older, |out, written| calls::optimal_schedule(bytes, row, out, written))?;
        self.call("modified_schedule", newest, |out, written| calls::modified_schedule(bytes, row, out, written))
    }

    /// Prices a schedule, permitted or not, at a row. Gives the price or the number that the reference finds.
    fn price(&mut self, sheet: &Sheet, schedule: &[u8], row: usize) -> Result<Result<Price, u64>, String> {
        let bytes = self.bytes;
        let want = reference::price(sheet, sheet.rows[row], schedule);
        let given = want.as_ref().map_err(|&number| number);
        self.list_call("price", given, |out| calls::price(bytes, row as u64, schedule, out))
            .map_err(|message| format!("{message}; the schedule was {}", hexadecimal(schedule)))?;
        Ok(want)
    }

    /// Demand 3 on a small sheet, from the answers of the calls alone.
    fn demand_three(&mut self, sheet: &Sheet) -> Outcome {
        let permitted = enumerate::permitted_schedules(sheet);
        for (number, &row) in sheet.rows.iter().enumerate() {
            if sheet.form > 3 {
                self.demand_three_modified(&permitted, number, row)?;
                continue;
            }
            let mut figures = [0; 11];
            let mut schedule = vec![0; STEP * sheet.steps.len()];
            let mut written = 0;
            done("figures", calls::figures(self.bytes, number as u64, &mut figures))?;
            let returned = calls::optimal_schedule(self.bytes, number as u64, &mut schedule, &mut written);
            done("optimal_schedule", returned)?;
            (0..2).for_each(|_| self.tally.note(0));
            enumerate::check_row(&permitted, row, figures[OPTTOTAL], figures[LOAD], &schedule)
                .map_err(|message| format!("demand 3, row {number}: {message}"))?;
        }
        if self.prng.one_in(10) {
            self.every_pattern(sheet, &permitted)?;
        }
        Ok(())
    }

    /// Every schedule of a small sheet, permitted or not, with one bit that no segment has. Those permitted are the enumerated ones.
    fn every_pattern(&mut self, sheet: &Sheet, permitted: &[enumerate::Permitted]) -> Outcome {
        let steps = sheet.steps.len();
        let width = sheet.sizes.len() + 1;
        if width * steps > 9 {
            return Ok(());
        }
        let row = self.some_row(sheet);
        let mut priced = 0;
        for pattern in 0..1u32 << (width * steps) {
            let sets: Vec<u8> = (0..steps).map(|step| (pattern >> (width * step) & ((1 << width) - 1)) as u8).collect();
            let schedule = enumerate::bytes_of(&sets);
            priced += usize::from(self.price(sheet, &schedule, row)?.is_ok());
        }
        ensure(priced == permitted.len(), || "the enumeration and the reference permit different schedules".to_string())
    }

    // ---- Margins and sizing ----

    fn margins(&mut self, sheet: &Sheet) -> Outcome {
        let refs = sheet.references().len() as u64;
        let steps = sheet.steps.len() as u64;
        for reference in [0, refs + 1, steps, steps + 1, refs + (1 << 16), 1 + (1 << 16), 1 + (1 << 32), u64::MAX] {
            let row = self.some_row(sheet);
            self.margin(sheet, row, reference)?;
        }
        let references: Vec<u64> =
            if refs <= 12 { (1..=refs).collect() } else { (0..12).map(|_| self.prng.between(1, refs)).collect() };
        for &reference in &references {
            let row = self.some_row(sheet);
            self.margin(sheet, row, reference)?;
        }
        let bytes = self.bytes;
        let row = self.no_row(sheet);
        let reference = self.prng.between(0, refs + 1);
        self.list_call::<i64, 1>("margin", Err(7), |[out]| calls::margin(bytes, row, reference, out))
    }

    fn margin(&mut self, sheet: &Sheet, row: usize, reference: u64) -> Outcome {
        let bytes = self.bytes;
        let margin = reference::margin(sheet, sheet.rows[row], reference);
        let references = sheet.references();
        if let Some(&(step, segment)) = reference.checked_sub(1).and_then(|place| references.get(place as usize)) {
            self.margin_agrees(sheet, sheet.rows[row], step, segment, margin)?;
        }
        let want = margin.as_ref().map(std::array::from_ref).map_err(|&number| number);
        self.list_call("margin", want, |[out]| calls::margin(bytes, row as u64, reference, out))
            .map_err(|message| format!("{message} (row {row}, reference {reference})"))
    }

    /// A reuse is kept exactly when its margin is 0 or more.
    fn margin_agrees(&self, sheet: &Sheet, row: Row, step: usize, segment: usize, margin: Result<i64, u64>) -> Outcome {
        let kept = sheet.last_touch(segment, step).map(|last| sheet.keeps(row, segment, (step - last - 1) as u64));
        ensure(kept == margin.ok().map(|margin| margin >= 0), || {
            "the reference's margin and keep rule differ".to_string()
        })
    }

    fn sizing(&mut self, all: &[Figures]) -> Outcome {
        let mut ceilings = vec![0, u64::MAX, self.prng.next()];
        for _ in 0..3 {
            let optmem = self.prng.pick(all)[OPTMEM];
            ceilings.extend([optmem.saturating_sub(1), optmem, optmem + 1]);
        }
        // A ceiling that a narrower number would cut down to one that no row meets, or that every row meets.
        ceilings.push(all[0][OPTMEM].saturating_sub(1) + (1 << 32));
        let bytes = self.bytes;
        for ceiling in ceilings {
            let row = reference::size(all, ceiling);
            let want = row.as_ref().map(std::array::from_ref).map_err(|&number| number);
            self.list_call("size", want, |[out]| calls::size(bytes, ceiling, out))
                .map_err(|message| format!("{message} (ceiling {ceiling})"))?;
        }
        Ok(())
    }

    /// Bills of rows at rates and minimums in range, at its ends and beyond them, and with the minimum at the charge and beside it.
    fn bills(&mut self, sheet: &Sheet, all: &[Figures]) -> Outcome {
        let bytes = self.bytes;
        for row in self.some_rows(sheet, 4) {
            let rates = generate::rates(&mut self.prng);
            let [memory_rate, load_rate, _] = rates;
            let charge = reference::bill(&all[row], [memory_rate, load_rate, 0]).unwrap_or(0);
            for minimum in [rates[2], charge.saturating_sub(1), charge, charge + 1] {
                let rates = [memory_rate, load_rate, minimum];
                let cents = reference::bill(&all[row], rates);
                let want = cents.as_ref().map(std::array::from_ref).map_err(|&number| number);
                self.list_call("bill", want, |[out]| calls::bill(bytes, row as u64, rates, out))
                    .map_err(|message| format!("{message} (row {row}, rates and minimum {rates:?})"))?;
            }
        }
        let (row, rates) = (self.no_row(sheet), generate::rates(&mut self.prng));
        self.list_call::<u64, 1>("bill", Err(7), |[out]| calls::bill(bytes, row, rates, out))
    }

    // ---- Conversion ----

    /// Both converters on the bytes, whatever they are: each takes one form.
    fn converters(&mut self) -> Outcome {
        let bytes = self.bytes;
        let second = reference::to_form_2(bytes);
        let given = second.as_deref().map_err(|&number| number);
        self.call("to_form_2", given, |out, written| calls::to_form_2(bytes, out, written))?;
        let first = reference::to_form_1(bytes);
        let given = first.as_deref().map_err(|&number| number);
        self.call("to_form_1", given, |out, written| calls::to_form_1(bytes, out, written))
    }

    /// Converting there and back restores the bytes, from the answers of the calls alone.
    fn there_and_back(&mut self, sheet: &Sheet) -> Outcome {
        if sheet.form > 2 || (sheet.form == 2 && sheet.steps.contains(&None)) {
            return Ok(());
        }
        let mut there = vec![0; reference::longest(2)];
        let mut back = vec![0; reference::longest(2)];
        let (mut there_length, mut back_length) = (0, 0);
        let (one, other): (Convert, Convert) = match sheet.form {
            1 => (calls::to_form_2, calls::to_form_1),
            _ => (calls::to_form_1, calls::to_form_2),
        };
        done("there", one(self.bytes, &mut there, &mut there_length))?;
        done("back", other(&there[..there_length as usize], &mut back, &mut back_length))?;
        (0..2).for_each(|_| self.tally.note(0));
        ensure(&back[..back_length as usize] == self.bytes, || "there and back are other bytes".to_string())
    }

    // ---- Calls with lent places ----

    /// Makes a call with several places. Where a result is wanted: exact, longer, and short by one and more, which is 11. Where a
    /// refusal is wanted, it comes with places of any length.
    pub fn call<T: Item>(
        &mut self,
        name: &str,
        want: Result<&[T], u64>,
        call: impl Fn(&mut [T], &mut u64) -> u64,
    ) -> Outcome {
        match want {
            Ok(result) => {
                let exact = result.len();
                let mut lengths = vec![exact, exact + 1 + self.prng.below(60)];
                if exact > 0 {
                    lengths.push(exact - 1);
                }
                if exact > 0 && self.prng.one_in(4) {
                    lengths.push(self.prng.below(exact));
                }
                if self.prng.one_in(200) {
                    lengths.push(exact + (1 << 16));
                }
                for length in lengths {
                    let want = if length < exact { Err(11) } else { Ok(result) };
                    self.one_call(name, length, want, &call)?;
                }
            }
            Err(number) => {
                let any = self.prng.below(100);
                let large = if self.prng.one_in(50) { 70_000 } else { any };
                for length in [0, any, large] {
                    self.one_call(name, length, Err(number), &call)?;
                }
            }
        }
        Ok(())
    }

    /// Makes a call with one place and looks at its answer, at every item of the place and around it, and at the length given.
    fn one_call<T: Item>(
        &mut self,
        name: &str,
        length: usize,
        want: Result<&[T], u64>,
        call: impl Fn(&mut [T], &mut u64) -> u64,
    ) -> Outcome {
        let mut place = Place::<T>::new(&mut self.prng, length);
        let mut written = Place::<u64>::new(&mut self.prng, 1);
        let got = call(place.lent(), &mut written.lent()[0]);
        let number = want.err().unwrap_or(0);
        self.tally.note(number);
        ensure(got == number, || format!("{name}: got {got}, wanted {number} (a place of {length})"))?;
        place.check(want.unwrap_or(&[])).map_err(|message| format!("{name}: {message}"))?;
        let length_given: &[u64] = &want.map_or(vec![], |result| vec![result.len() as u64]);
        written.check(length_given).map_err(|message| format!("{name}, length written: {message}"))
    }

    /// Makes a call with a list of fixed length and looks at its answer, at every item and around the list.
    pub fn list_call<T: Item, const N: usize>(
        &mut self,
        name: &str,
        want: Result<&[T; N], u64>,
        call: impl FnOnce(&mut [T; N]) -> u64,
    ) -> Outcome {
        let mut place = Place::<T>::new(&mut self.prng, N);
        let got = call(place.array());
        let number = want.err().unwrap_or(0);
        self.tally.note(number);
        ensure(got == number, || format!("{name}: got {got}, wanted {number}"))?;
        place.check(want.map_or(&[], |list| &list[..])).map_err(|message| format!("{name}: {message}"))
    }
}

/// A call that must be carried out.
pub fn done(name: &str, returned: u64) -> Outcome {
    ensure(returned == 0, || format!("{name}: got {returned}, wanted 0"))
}

pub fn ensure(holds: bool, message: impl FnOnce() -> String) -> Outcome {
    if holds {
        Ok(())
    } else {
        Err(message())
    }
}

/// The bytes of a schedule, one step a line, without the zeros at its end.
fn hexadecimal(schedule: &[u8]) -> String {
    let lines: Vec<String> = schedule
        .chunks(STEP)
        .map(|step| {
            let length = step.iter().rposition(|&byte| byte != 0).map_or(0, |last| last + 1);
            step[..length].iter().map(|byte| format!("{byte:02x}")).collect()
        })
        .collect();
    format!("({} bytes)\n{}", schedule.len(), lines.join("\n"))
}
