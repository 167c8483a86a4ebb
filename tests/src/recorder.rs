//! The recorder: a model of it, recorders fed step by step and in bulk beside the model, and recorders put together by hand.

use crate::calls;
use crate::compare::{ensure, Case, Outcome};
use crate::generate::Prng;
use crate::place::Place;
use crate::reference::{self, Figures, Intervals, Kind, Sheet};
use segtrace::Recorder as Parts;

/// The model: the sheet that ends at the steps taken so far.
pub struct Model {
    sheet: Sheet,
    intervals: Intervals,
    /// The last step that touches each segment; 0 for a warm one before its first touch.
    last: Vec<Option<usize>>,
}

impl Model {
    /// From a sheet's kind, a, sizes, rows and warm set, with no steps.
    pub fn start(sheet: &Sheet) -> Model {
        let sheet = Sheet { steps: Vec::new(), ..sheet.clone() };
        let last: Vec<Option<usize>> =
            (0..sheet.sizes.len()).map(|segment| sheet.is_warm(segment).then_some(0)).collect();
        let ends = last.iter().map(|last| last.map(|_| 0)).collect();
        Model { intervals: Intervals { reuses: Vec::new(), ends }, last, sheet }
    }

    /// The number that a touch gets: 4 for a segment not below segs, before 13 for the step after the 2,048th.
    pub fn touch(&mut self, segment: u64) -> u64 {
        if segment >= self.sheet.sizes.len() as u64 {
            return 4;
        }
        if self.sheet.steps.len() >= reference::MOST_STEPS {
            return 13;
        }
        let segment = segment as usize;
        let step = self.sheet.steps.len() + 1;
        self.intervals.reuses.push((segment, self.last[segment].map(|last| (step - last - 1) as u64)));
        self.last[segment] = Some(step);
        self.step(Some(segment));
        0
    }

    /// The number that a step without a touch gets: 13 for the step after the 2,048th.
    pub fn idle(&mut self) -> u64 {
        if self.sheet.steps.len() >= reference::MOST_STEPS {
            return 13;
        }
        self.step(None);
        0
    }

    fn step(&mut self, touched: Option<usize>) {
        self.sheet.steps.push(touched);
        let step = self.sheet.steps.len();
        for (end, last) in self.intervals.ends.iter_mut().zip(&self.last) {
            *end = last.map(|last| (step - last) as u64);
        }
    }

    /// The number that several references get: that of the first that would be refused, and then none is taken.
    pub fn touch_all(&mut self, segments: &[u16]) -> u64 {
        let taken = self.sheet.steps.len();
        for (index, &segment) in segments.iter().enumerate() {
            if usize::from(segment) >= self.sheet.sizes.len() {
                return 4;
            }
            if taken + index >= reference::MOST_STEPS {
                return 13;
            }
        }
        segments.iter().map(|&segment| self.touch(u64::from(segment))).sum()
    }

    pub fn figures(&self, row: u64) -> Result<Figures, u64> {
        let row = usize::try_from(row).ok().and_then(|row| self.sheet.rows.get(row)).ok_or(7u64)?;
        Ok(reference::figures(&self.sheet, &self.intervals, *row))
    }

    /// Whether its intervals are those of the sheet that ends here.
    fn is_right(&self) -> Outcome {
        let intervals = Intervals::of(&self.sheet);
        ensure(self.intervals.reuses == intervals.reuses && self.intervals.ends == intervals.ends, || {
            "the model's intervals are not those of its sheet".to_string()
        })
    }

    /// Whether a recorder's parts say what the header says of them: head, counts, sizes, warm segments and prices; and the counts and
    /// volumes of the buckets add up.
    fn says(&self, parts: &Parts) -> Outcome {
        let Sheet { kind, a, sizes, rows, warm, steps, .. } = &self.sheet;
        let refs: Vec<usize> = steps.iter().copied().flatten().collect();
        let head = [u64::from(*kind == Kind::Space), *a, sizes.len() as u64, rows.len() as u64, warm.len() as u64];
        ensure(parts.head == head, || format!("recorder: head is {:?}, wanted {head:?}", parts.head))?;
        let cost: u64 = refs.iter().map(|&segment| self.sheet.reference_cost(segment)).sum();
        let volume: u64 = refs.iter().map(|&segment| self.sheet.size(segment)).sum();
        let counts = [steps.len() as u64, cost, volume];
        ensure(parts.counts == counts, || format!("recorder: counts are {:?}, wanted {counts:?}", parts.counts))?;
        let sum = |item: usize| parts.sums.iter().skip(item).step_by(6).sum::<u64>();
        ensure(sum(0) == refs.len() as u64, || "recorder: the bucket counts do not add up".to_string())?;
        ensure(sum(1) == volume, || "recorder: the bucket volumes do not add up".to_string())?;
        let same = |list: &[u16], wanted: &mut dyn Iterator<Item = u64>| {
            let mut wanted = wanted.chain(std::iter::repeat(0));
            list.iter().all(|&item| Some(u64::from(item)) == wanted.next())
        };
        ensure(same(&parts.sizes, &mut sizes.iter().copied()), || "recorder: other sizes".to_string())?;
        ensure(same(&parts.holds, &mut warm.iter().map(|&segment| segment as u64)), || {
            "recorder: other warm segments".to_string()
        })?;
        ensure(same(&parts.h, &mut rows.iter().map(|row| row.h)), || "recorder: other prices h".to_string())?;
        ensure(same(&parts.d, &mut rows.iter().map(|row| row.d)), || "recorder: other prices d".to_string())
    }
}

/// A recorder under test.
pub trait Recorder: Clone {
    fn start(bytes: &[u8]) -> Result<Self, u64>;
    fn touch(&mut self, segment: u64) -> u64;
    fn idle(&mut self) -> u64;
    fn touch_all(&mut self, segments: &[u16]) -> u64;
    fn figures(&self, row: u64, out: &mut [u64; 11]) -> u64;
    fn parts(&self) -> &Parts;
    /// Whether nothing around the recorder was changed.
    fn around(&self) -> bool;
}

/// The calls of the header on a recorder that stands between watched numbers.
#[derive(Clone)]
#[repr(C)]
struct Watched {
    before: [u64; 8],
    parts: Parts,
    after: [u64; 8],
}

const WATCH: [u64; 8] = [0x5aa5_1234_8765_a55a; 8];

impl Recorder for Watched {
    fn start(bytes: &[u8]) -> Result<Watched, u64> {
        // Every number is one that a start must replace.
        let parts = Parts {
            head: [u64::MAX; 5],
            counts: [u64::MAX; 3],
            sizes: [0xabcd; 256],
            holds: [0xabcd; 256],
            h: [0xabcd; 64],
            d: [0xabcd; 64],
            last: [0xabcd; 256],
            sums: [u64::MAX; 390],
        };
        let mut watched = Watched { before: WATCH, parts, after: WATCH };
        match calls::start(bytes, &mut watched.parts) {
            0 => Ok(watched),
            number => Err(number),
        }
    }

    fn touch(&mut self, segment: u64) -> u64 {
        calls::touch(&mut self.parts, segment)
    }

    fn idle(&mut self) -> u64 {
        calls::idle(&mut self.parts)
    }

    fn touch_all(&mut self, segments: &[u16]) -> u64 {
        calls::touch_all(&mut self.parts, segments)
    }

    fn figures(&self, row: u64, out: &mut [u64; 11]) -> u64 {
        calls::figures_now(&self.parts, row, out)
    }

    fn parts(&self) -> &Parts {
        &self.parts
    }

    fn around(&self) -> bool {
        self.before == WATCH && self.after == WATCH
    }
}

/// The recorder of the Rust wrapper.
impl Recorder for Parts {
    fn start(bytes: &[u8]) -> Result<Parts, u64> {
        Parts::start(bytes).map_err(segtrace::Refusal::number)
    }

    fn touch(&mut self, segment: u64) -> u64 {
        Parts::touch(self, segment).err().map_or(0, segtrace::Refusal::number)
    }

    fn idle(&mut self) -> u64 {
        Parts::idle(self).err().map_or(0, segtrace::Refusal::number)
    }

    fn touch_all(&mut self, segments: &[u16]) -> u64 {
        Parts::touch_all(self, segments).err().map_or(0, segtrace::Refusal::number)
    }

    fn figures(&self, row: u64, out: &mut [u64; 11]) -> u64 {
        match Parts::figures(self, row) {
            Ok(figures) => {
                *out = figures.items();
                0
            }
            Err(refusal) => refusal.number(),
        }
    }

    fn parts(&self) -> &Parts {
        self
    }

    fn around(&self) -> bool {
        true
    }
}

impl Case<'_> {
    /// A start on bytes that are no sheet that it takes is refused with the sheet's number, and every part stays.
    pub fn start_refused(&mut self, verdict: Result<(), u64>) -> Outcome {
        let number = verdict.err().ok_or("the reference accepts a sheet of forms 1 to 3 that it refuses")?;
        let old = random_parts(&mut self.prng);
        let mut parts = old.clone();
        let got = calls::start(self.bytes, &mut parts);
        self.tally.note(number);
        ensure(got == number, || format!("recorder: start gives {got}, wanted {number}"))?;
        ensure(parts == old, || "recorder: a refused start changed a part".to_string())
    }

    /// Every way to use a recorder of the sheet. A recorder is not made for form 4.
    pub fn recorder(&mut self, sheet: &Sheet) -> Outcome {
        if sheet.form > 3 {
            self.start_refused(Err(4))?;
            return self.by_hand();
        }
        self.step_by_step::<Watched>(sheet)?;
        self.in_bulk::<Watched>(sheet)?;
        if sheet.steps.len() <= 300 && self.prng.one_in(4) {
            self.step_by_step::<Parts>(sheet)?;
            self.in_bulk::<Parts>(sheet)?;
        }
        self.by_hand()
    }

    fn started<R: Recorder>(&mut self) -> Result<R, String> {
        let recorder = R::start(self.bytes).map_err(|number| format!("recorder: start gives {number}, wanted 0"))?;
        self.tally.note(0);
        Ok(recorder)
    }

    // ---- Step by step ----

    /// Records the sheet's steps one by one, reads figures at every step, and tries what must be refused. On some large sheets the
    /// recorder is filled.
    fn step_by_step<R: Recorder>(&mut self, sheet: &Sheet) -> Outcome {
        let mut model = Model::start(sheet);
        let mut recorder = self.started::<R>()?;
        model.says(recorder.parts())?;
        let fill = sheet.steps.len() > 1_000 && self.prng.one_in(4);
        let count = if fill { reference::MOST_STEPS + 2 } else { sheet.steps.len() };
        for index in 0..count {
            self.look(&model, &recorder)?;
            if self.prng.one_in(1 + count / 4) {
                let odd = no_segment(&mut self.prng, sheet);
                self.touch(&mut model, &mut recorder, odd)?;
            }
            match sheet.steps[index % sheet.steps.len()] {
                Some(segment) => self.touch(&mut model, &mut recorder, segment as u64)?,
                None => self.idle(&mut model, &mut recorder)?,
            }
            // A recorder of any sheet takes steps without a touch.
            if self.prng.one_in(1 + 2 * count) {
                self.idle(&mut model, &mut recorder)?;
            }
        }
        // 4 comes before 13.
        self.touch(&mut model, &mut recorder, sheet.sizes.len() as u64)?;
        self.look_at_rows(&model, &recorder, sheet.rows.len())?;
        model.is_right()?;
        model.says(recorder.parts())?;
        ensure(recorder.around(), || "recorder: a number beside it was changed".to_string())
    }

    /// One touch. Refused, it changes no part.
    fn touch<R: Recorder>(&mut self, model: &mut Model, recorder: &mut R, segment: u64) -> Outcome {
        let want = model.touch(segment);
        let old = (want > 0).then(|| recorder.parts().clone());
        let got = recorder.touch(segment);
        self.tally.note_recorder(want);
        ensure(got == want, || format!("recorder: touch of {segment} gives {got}, wanted {want}"))?;
        ensure(old.is_none_or(|old| old == *recorder.parts()), || {
            format!("recorder: a touch refused with {want} changed a part")
        })
    }

    /// One step without a touch. Refused, it changes no part; taken, only the steps.
    fn idle<R: Recorder>(&mut self, model: &mut Model, recorder: &mut R) -> Outcome {
        let want = model.idle();
        let mut parts = recorder.parts().clone();
        parts.counts[0] += u64::from(want == 0);
        let got = recorder.idle();
        self.tally.note_recorder(want);
        ensure(got == want, || format!("recorder: an idle step gives {got}, wanted {want}"))?;
        ensure(parts == *recorder.parts(), || format!("recorder: an idle step ({want}) changed another part"))
    }

    /// The figures at this step: of every row where that is little work, else of one row; now and then of a row that there is not.
    fn look<R: Recorder>(&mut self, model: &Model, recorder: &R) -> Outcome {
        let rows = model.sheet.rows.len();
        if rows * model.sheet.steps.len() <= 64 {
            self.look_at_rows(model, recorder, rows)?;
        } else {
            let row = self.prng.below(rows) as u64;
            self.look_at(model, recorder, row)?;
        }
        if self.prng.one_in(8) {
            let row = self.no_row(&model.sheet);
            self.look_at(model, recorder, row)?;
        }
        Ok(())
    }

    fn look_at_rows<R: Recorder>(&mut self, model: &Model, recorder: &R, rows: usize) -> Outcome {
        (0..rows as u64).try_for_each(|row| self.look_at(model, recorder, row))
    }

    fn look_at<R: Recorder>(&mut self, model: &Model, recorder: &R, row: u64) -> Outcome {
        let want = model.figures(row);
        self.list_call("recorder, figures", want.as_ref().map_err(|&number| number), |out| recorder.figures(row, out))
            .map_err(|message| format!("{message} (row {row} after {} steps)", model.sheet.steps.len()))
    }

    // ---- In bulk ----

    /// Records the sheet's references in several lists, now and then after the same list with a segment that there is not, beside a
    /// recorder that takes them one by one. Now and then it is filled, and tried when it is full.
    fn in_bulk<R: Recorder>(&mut self, sheet: &Sheet) -> Outcome {
        let mut model = Model::start(sheet);
        let mut recorder = self.started::<R>()?;
        let mut by_calls = self.started::<R>()?;
        let refs: Vec<u16> = sheet.steps.iter().flatten().map(|&segment| segment as u16).collect();
        let mut rest = &refs[..];
        while !rest.is_empty() {
            let (part, after) = rest.split_at(1 + self.prng.below(rest.len()));
            if self.prng.one_in(3) {
                let mut segments = part.to_vec();
                let place = self.prng.below(segments.len() + 1);
                segments.insert(place, no_segment(&mut self.prng, sheet).min(0xffff) as u16);
                self.take(&mut model, &mut recorder, &mut by_calls, &segments)?;
            }
            self.take(&mut model, &mut recorder, &mut by_calls, part)?;
            if self.prng.one_in(3) {
                self.idle(&mut model, &mut recorder)?;
                by_calls.idle();
            }
            rest = after;
        }
        self.take(&mut model, &mut recorder, &mut by_calls, &[])?;
        if !refs.is_empty() && self.prng.one_in(40) {
            self.fill(&mut model, &mut recorder, &mut by_calls, &refs)?;
        }
        model.is_right()?;
        model.says(recorder.parts())?;
        ensure(recorder.around(), || "recorder: a number beside it was changed".to_string())
    }

    /// Fills the recorders with the same references again and again, after a list that is too long, and tries both refusals.
    fn fill<R: Recorder>(&mut self, model: &mut Model, recorder: &mut R, by_calls: &mut R, refs: &[u16]) -> Outcome {
        let wrong = model.sheet.sizes.len() as u16;
        let room = reference::MOST_STEPS - model.sheet.steps.len();
        let mut segments: Vec<u16> = refs.iter().copied().cycle().take(room + 1 + self.prng.below(4)).collect();
        self.take(model, recorder, by_calls, &segments)?;
        // A segment that there is not, where the room ends: 4; and after it: 13.
        segments.insert(room + self.prng.below(2), wrong);
        self.take(model, recorder, by_calls, &segments)?;
        self.take(model, recorder, by_calls, &segments[..room])?;
        for list in [&refs[..1], &[wrong], &[wrong, refs[0]], &[refs[0], wrong], &[]] {
            self.take(model, recorder, by_calls, list)?;
        }
        Ok(())
    }

    /// Hands a list to one recorder in bulk, and to another one by one: number and parts are the same. A list that is refused changes no
    /// part, and has the number of the first touch that is refused.
    fn take<R: Recorder>(
        &mut self,
        model: &mut Model,
        recorder: &mut R,
        by_calls: &mut R,
        segments: &[u16],
    ) -> Outcome {
        let want = model.touch_all(segments);
        let got = recorder.touch_all(segments);
        self.tally.note_recorder(want);
        ensure(got == want, || format!("recorder: {segments:?} in bulk give {got}, wanted {want}"))?;
        let mut touched = by_calls.clone();
        let first = segments.iter().map(|&segment| touched.touch(u64::from(segment))).find(|&number| number > 0);
        ensure(first.unwrap_or(0) == want, || {
            format!("recorder: {segments:?} one by one are refused with {first:?}, wanted {want}")
        })?;
        if want == 0 {
            *by_calls = touched;
        }
        ensure(recorder.parts() == by_calls.parts(), || {
            format!("recorder: {segments:?} in bulk and one by one leave different parts")
        })?;
        let row = self.some_row(&model.sheet) as u64;
        self.look_at(model, recorder, row)
    }

    // ---- Put together by hand ----

    /// Calls on a recorder with any numbers in it: they return, with the number that head and counts alone decide, and refused they
    /// change no part.
    fn by_hand(&mut self) -> Outcome {
        let mut parts = self.hand_made();
        let made = parts.clone();
        self.calls_by_hand(&mut parts).map_err(|message| {
            let Parts { head, counts, .. } = &made;
            format!("{message}; a recorder made by hand with head {head:?} and counts {counts:?}")
        })
    }

    fn calls_by_hand(&mut self, parts: &mut Parts) -> Outcome {
        let segs = parts.head[2].min(256);
        let rows = parts.head[3].min(64);
        for _ in 0..1 + self.prng.below(3) {
            let row = some_number(&mut self.prng, rows);
            self.figures_by_hand(parts, row, rows)?;
            let segment = some_number(&mut self.prng, segs);
            self.touch_by_hand(parts, segment, segs)?;
            self.idle_by_hand(parts)?;
            let length = self.prng.pick(&[0, 1, 2, 20]);
            let mut segments: Vec<u16> =
                (0..length).map(|_| if segs == 0 { 0 } else { self.prng.below(segs as usize) as u16 }).collect();
            if self.prng.one_in(3) {
                segments.push(some_number(&mut self.prng, segs) as u16);
            }
            self.touch_all_by_hand(parts, &segments, segs)?;
        }
        Ok(())
    }

    fn touch_by_hand(&mut self, parts: &mut Parts, segment: u64, segs: u64) -> Outcome {
        let old = parts.clone();
        let want = match segment {
            _ if segment >= segs => 4,
            _ if old.counts[0] >= reference::MOST_STEPS as u64 => 13,
            _ => 0,
        };
        let got = calls::touch(parts, segment);
        self.tally.note_recorder(want);
        ensure(got == want, || format!("recorder: touch of {segment} gives {got}, wanted {want}"))?;
        ensure(head_stays(&old, parts), || {
            "recorder: a touch changed the head, sizes, warm segments or prices".to_string()
        })?;
        ensure(want == 0 || *parts == old, || format!("recorder: a touch refused with {want} changed a part"))
    }

    fn idle_by_hand(&mut self, parts: &mut Parts) -> Outcome {
        let mut wanted = parts.clone();
        let want = if parts.counts[0] >= reference::MOST_STEPS as u64 { 13 } else { 0 };
        wanted.counts[0] += u64::from(want == 0);
        let got = calls::idle(parts);
        self.tally.note_recorder(want);
        ensure(got == want, || format!("recorder: an idle step gives {got}, wanted {want}"))?;
        ensure(*parts == wanted, || format!("recorder: an idle step ({want}) changed another part"))
    }

    fn touch_all_by_hand(&mut self, parts: &mut Parts, segments: &[u16], segs: u64) -> Outcome {
        let old = parts.clone();
        let room = (reference::MOST_STEPS as u64).saturating_sub(old.counts[0]);
        let known = segments.iter().position(|&segment| u64::from(segment) >= segs).unwrap_or(segments.len()) as u64;
        let want = match known.min(room) {
            taken if taken == segments.len() as u64 => 0,
            taken if taken == known => 4,
            _ => 13,
        };
        let got = calls::touch_all(parts, segments);
        self.tally.note_recorder(want);
        ensure(got == want, || format!("recorder: {segments:?} in bulk give {got}, wanted {want}"))?;
        ensure(head_stays(&old, parts), || {
            "recorder: bulk changed the head, sizes, warm segments or prices".to_string()
        })?;
        ensure(want == 0 || *parts == old, || format!("recorder: {segments:?} refused with {want} changed a part"))
    }

    fn figures_by_hand(&mut self, parts: &Parts, row: u64, rows: u64) -> Outcome {
        let old = parts.clone();
        let mut place = Place::<u64>::new(&mut self.prng, 11);
        let want = if row < rows { 0 } else { 7 };
        let got = calls::figures_now(parts, row, place.array());
        self.tally.note_recorder(want);
        ensure(got == want, || format!("recorder: figures of row {row} give {got}, wanted {want}"))?;
        ensure(*parts == old, || "recorder: reading figures changed a part".to_string())?;
        // What stands in the list after figures of such a recorder is not said.
        let given = if want == 0 { place.lent().to_vec() } else { Vec::new() };
        place.check(&given).map_err(|message| format!("recorder: figures of row {row}: {message}"))
    }

    /// Any numbers, the largest and smallest ones, or a recorder of this sheet with some numbers changed.
    fn hand_made(&mut self) -> Parts {
        let prng = &mut self.prng;
        let mut parts = match prng.below(4) {
            0 => random_parts(prng),
            1 => filled_parts(prng),
            2 => small_parts(prng),
            _ => {
                let mut parts = random_parts(prng);
                calls::start(self.bytes, &mut parts);
                (0..1 + prng.below(6)).for_each(|_| change(prng, &mut parts));
                parts
            }
        };
        if !prng.one_in(3) {
            parts.head[2] = prng.pick(&[0, 1, 2, 12, 255, 256, 257, 1 << 16, (1 << 32) + 3, u64::MAX]);
        }
        if !prng.one_in(3) {
            parts.head[3] = prng.pick(&[0, 1, 2, 8, 63, 64, 65, 1 << 16, (1 << 32) + 3, u64::MAX]);
        }
        if !prng.one_in(3) {
            parts.head[4] = prng.pick(&[0, 1, 2, 12, 255, 256, 257, 1 << 16, (1 << 32) + 3, u64::MAX]);
        }
        if !prng.one_in(3) {
            parts.counts[0] = prng.pick(&[0, 1, 7, 2_030, 2_047, 2_048, 2_049, 65_535, 1 << 16, 1 << 32, u64::MAX]);
        }
        parts
    }
}

/// Whether the parts are the same that no call after the start changes.
fn head_stays(old: &Parts, now: &Parts) -> bool {
    old.head == now.head && old.sizes == now.sizes && old.holds == now.holds && old.h == now.h && old.d == now.d
}

/// A number that is no segment of the sheet.
fn no_segment(prng: &mut Prng, sheet: &Sheet) -> u64 {
    let segs = sheet.sizes.len() as u64;
    prng.pick(&[segs, segs + 1, 256, segs - 1 + (1 << 8), segs - 1 + (1 << 16), segs - 1 + (1 << 32), u64::MAX])
}

/// A number below a bound or not.
fn some_number(prng: &mut Prng, bound: u64) -> u64 {
    let below = if bound == 0 { 0 } else { prng.below(bound as usize) as u64 };
    prng.pick(&[below, below, below, bound, bound.saturating_sub(1), bound + 1, 256, below + (1 << 16), u64::MAX])
}

/// Any number of 16 bits in each place.
fn narrow<const N: usize>(prng: &mut Prng) -> [u16; N] {
    std::array::from_fn(|_| prng.next() as u16)
}

fn random_parts(prng: &mut Prng) -> Parts {
    Parts {
        head: std::array::from_fn(|_| prng.next()),
        counts: std::array::from_fn(|_| prng.next()),
        sizes: narrow(prng),
        holds: narrow(prng),
        h: narrow(prng),
        d: narrow(prng),
        last: narrow(prng),
        sums: std::array::from_fn(|_| prng.next()),
    }
}

/// Every part filled with its smallest or its largest number, or one beside it.
fn filled_parts(prng: &mut Prng) -> Parts {
    let mut wide = || prng.pick(&[0, 1, 1 << 60, (1 << 60) + 1, 1 << 63, u64::MAX - 1, u64::MAX]);
    let (head, counts, sums) = ([wide(); 5], [wide(); 3], [wide(); 390]);
    let mut short = || prng.pick(&[0, 1, 4_095, 4_096, 0xfffe, 0xffff]);
    let (sizes, holds, last) = ([short(); 256], [short(); 256], [short(); 256]);
    Parts { head, counts, sizes, holds, h: [short(); 64], d: [short(); 64], last, sums }
}

/// Numbers in the ranges of a recorder, which fit together nowhere.
fn small_parts(prng: &mut Prng) -> Parts {
    let mut parts = random_parts(prng);
    let (segs, warm) = (prng.between(1, 256), prng.between(0, 256));
    parts.head = [prng.between(0, 2), prng.between(0, 256), segs, prng.between(1, 64), warm];
    parts.counts = [prng.between(0, 2_050), prng.between(0, 1 << 24), prng.between(0, 1 << 24)];
    parts.sizes.iter_mut().for_each(|size| *size &= 0x0fff);
    parts.holds.iter_mut().for_each(|hold| *hold &= 0x01ff);
    parts.last.iter_mut().for_each(|last| *last &= 0x0fff);
    let shift = 20 + prng.below(40);
    parts.sums.iter_mut().for_each(|sum| *sum >>= shift);
    parts
}

/// One number changed.
fn change(prng: &mut Prng, parts: &mut Parts) {
    let number = if prng.one_in(2) { prng.next() } else { prng.any_size(0, u64::from(u16::MAX)) };
    let short = number as u16;
    match prng.below(8) {
        0 => parts.head[prng.below(5)] = number,
        1 => parts.counts[prng.below(3)] = number,
        2 => parts.sizes[prng.below(256)] = short,
        3 => parts.h[prng.below(64)] = short,
        4 => parts.d[prng.below(64)] = short,
        5 => parts.last[prng.below(256)] = short,
        6 => parts.holds[prng.below(256)] = short,
        _ => parts.sums[prng.below(390)] = number,
    }
}
