//! Modified segments (F-13): the second implementation, a programme of three states for each segment; what holds of the calls of form 4,
//! against every permitted schedule of small sheets; examples worked by hand, and wrong answers.

use crate::calls;
use crate::compare::{done, ensure, Case, Outcome};
use crate::enumerate::{self, Permitted};
use crate::reference::{self, Figures, Price, Row, Sheet, LOAD, OPTMEM, OPTTOTAL, STEP};
use crate::vectors::Check;
use crate::wrong::{self, Call, Way};

// ---- The second implementation ----

/// modtotal of every row of a sheet of form 4; nothing for another form.
pub fn modtotals(sheet: &Sheet) -> Vec<u64> {
    let rows = if sheet.form > 3 { &sheet.rows[..] } else { &[] };
    rows.iter().map(|&row| least(sheet, row, RIGHT).total).collect()
}

/// A segment in a step: not held, or held in a stay that has had a touch that modifies, or has not.
#[derive(Clone, Copy, PartialEq, Eq)]
enum State {
    Out,
    Clean,
    Modified,
}

const STATES: [State; 3] = [State::Out, State::Clean, State::Modified];

/// Total and load, the total compared first.
type Cost = (u64, u64);

fn sum((total, load): Cost, (more, more_load): Cost) -> Cost {
    (total + more, load + more_load)
}

/// A permitted schedule of the least total and, of these, the least load; of these the one that holds in the earliest differing step, and
/// there the lowest differing segment.
pub struct Least {
    pub total: u64,
    pub load: u64,
    pub schedule: Vec<u8>,
}

/// No segment's cost depends on another's, so each is put at its own least.
pub fn least(sheet: &Sheet, row: Row, rules: Rules) -> Least {
    let mut schedule = vec![0; STEP * sheet.steps.len()];
    let mut cost = (0, 0);
    for segment in 0..sheet.sizes.len() {
        let programme = Programme { sheet, row, segment, rules };
        let after = programme.costs();
        let mut state = programme.start();
        cost = sum(cost, after[0][state as usize]);
        for (step, step_bytes) in (1..).zip(schedule.chunks_mut(STEP)) {
            (state, _) = programme.next(step, state, &after[step]);
            reference::set_held(step_bytes, segment, state != State::Out);
        }
    }
    Least { total: cost.0, load: cost.1, schedule }
}

/// What a segment's stays cost.
struct Programme<'a> {
    sheet: &'a Sheet,
    row: Row,
    segment: usize,
    rules: Rules,
}

impl Programme<'_> {
    /// A warm segment is held at step 0.
    fn start(&self) -> State {
        if self.sheet.is_warm(self.segment) {
            self.rules.warm
        } else {
            State::Out
        }
    }

    /// A load, which is also what a store costs.
    fn swap(&self) -> Cost {
        let swap = self.sheet.swap_cost(self.segment);
        (self.row.h * swap, swap)
    }

    /// For each step from 0 on the least cost of the steps after it, for each state in that step. The record ends every stay.
    fn costs(&self) -> Vec<[Cost; 3]> {
        let steps = self.sheet.steps.len();
        let end = if self.rules.stored_at_end { self.swap() } else { (0, 0) };
        let mut costs = vec![[(0, 0), (0, 0), end]; steps + 1];
        for step in (1..=steps).rev() {
            costs[step - 1] = STATES.map(|before| self.next(step, before, &costs[step]).1);
        }
        costs
    }

    /// The state in a step after the state in the step before, and the least cost from there on. Where both cost the same, it is held.
    fn next(&self, step: usize, before: State, after: &[Cost; 3]) -> (State, Cost) {
        let Programme { sheet, row, segment, rules } = self;
        if sheet.steps[step - 1] == Some(*segment) {
            let modified = before == State::Modified || sheet.modifies(step);
            let state = if modified { State::Modified } else { State::Clean };
            let load = if before == State::Out { self.swap() } else { (0, 0) };
            let touch = sum((row.d * sheet.reference_cost(*segment), 0), load);
            return (state, sum(touch, after[state as usize]));
        }
        let store = if before == State::Modified { self.swap() } else { (0, 0) };
        let dropped = sum(store, after[State::Out as usize]);
        let held = sum((row.d * sheet.holding_cost(*segment), 0), after[before as usize]);
        let holds = if rules.held_on_equality { held <= dropped } else { held.0 < dropped.0 };
        if before != State::Out && holds {
            (before, held)
        } else {
            (State::Out, dropped)
        }
    }
}

/// What a wrong answer changes of the programme.
#[derive(Clone, Copy)]
pub struct Rules {
    /// The state of a warm segment at step 0.
    warm: State,
    /// A stay that the record ends is stored too.
    stored_at_end: bool,
    /// Of equal totals the least load is taken, and then the one that holds; else the one that drops.
    held_on_equality: bool,
}

const RIGHT: Rules = Rules { warm: State::Clean, stored_at_end: true, held_on_equality: true };

/// The schedule that the call made for the sheet's form writes, and its price: in forms 1 to 3 the optimal one, as the row's figures say.
pub fn best(sheet: &Sheet, row: usize, figures: &Figures) -> (Vec<u8>, Price) {
    let prices = sheet.rows[row];
    if sheet.form < 4 {
        let price = [figures[OPTMEM], figures[LOAD], figures[OPTTOTAL]];
        return (reference::optimal_schedule(sheet, prices), price);
    }
    let Least { total, load, schedule } = least(sheet, prices, RIGHT);
    (schedule, [(total - prices.h * load) / prices.d, load, total])
}

// ---- Sheets ----

impl Case<'_> {
    /// What holds of an accepted sheet of form 4, from the answers of the calls: modtotal is what the schedule written costs and not below
    /// opttotal, and the marks change nothing else; without them modtotal is opttotal, and the schedule that of the same sheet in form 3.
    pub fn modified(&mut self, sheet: &Sheet) -> Outcome {
        let bytes = self.bytes;
        let plain = reference::write(&Sheet { form: 3, ..sheet.clone() });
        let unmarked = reference::write(&Sheet { marks: Vec::new(), ..sheet.clone() });
        let row = self.some_row(sheet);
        let figures = self.all_figures_of(bytes, sheet)?;
        ensure(self.all_figures_of(&plain, sheet)? == figures, || "the figures of form 3 are others".to_string())?;
        let opttotals: Vec<u64> = figures.chunks(11).map(|figures| figures[OPTTOTAL]).collect();
        ensure(self.listed(&unmarked)? == opttotals, || "modtotal without marks is not opttotal".to_string())?;
        let modtotals = self.listed(bytes)?;
        ensure(modtotals.iter().zip(&opttotals).all(|(modtotal, opttotal)| modtotal >= opttotal), || {
            "modtotal is below opttotal".to_string()
        })?;
        let schedule = self.schedule_of(calls::modified_schedule, bytes, sheet, row)?;
        let mut price = [0; 3];
        done("price of the schedule written", calls::price(bytes, row as u64, &schedule, &mut price))?;
        ensure(price[2] == modtotals[row], || format!("the schedule written costs {}, not modtotal", price[2]))?;
        let without = self.schedule_of(calls::modified_schedule, &unmarked, sheet, row)?;
        let optimal = self.schedule_of(calls::optimal_schedule, &plain, sheet, row)?;
        ensure(without == optimal, || "without marks another schedule is written than in form 3".to_string())
    }

    /// Demand 3 at a row of a small sheet of form 4, from the answers of the calls alone.
    pub fn demand_three_modified(&mut self, permitted: &[Permitted], number: usize, row: Row) -> Outcome {
        let sheet = reference::read(self.bytes).expect("a sheet");
        let modtotal = self.listed(self.bytes)?[number];
        let schedule = self.schedule_of(calls::modified_schedule, self.bytes, &sheet, number)?;
        enumerate::check_modified(permitted, row, modtotal, &schedule)
            .map_err(|message| format!("demand 3 with stores, row {number}: {message}"))
    }

    fn all_figures_of(&mut self, bytes: &[u8], sheet: &Sheet) -> Result<Vec<u64>, String> {
        let mut figures = vec![0; 11 * sheet.rows.len()];
        done("all_figures", calls::all_figures(bytes, &mut figures, &mut 0))?;
        self.tally.note(0);
        Ok(figures)
    }

    /// The numbers on the lines modtotal= of the listing.
    fn listed(&mut self, bytes: &[u8]) -> Result<Vec<u64>, String> {
        let mut listing = vec![0; segtrace::LISTING_BYTES];
        let mut written = 0;
        done("listing", calls::listing(bytes, &mut listing, &mut written))?;
        self.tally.note(0);
        let text = String::from_utf8_lossy(&listing[..written as usize]).into_owned();
        Ok(text.lines().filter_map(|line| line.strip_prefix("modtotal=")?.parse().ok()).collect())
    }

    fn schedule_of(&mut self, call: Write, bytes: &[u8], sheet: &Sheet, row: usize) -> Result<Vec<u8>, String> {
        let mut schedule = vec![0; STEP * sheet.steps.len()];
        done("a schedule", call(bytes, row as u64, &mut schedule, &mut 0))?;
        self.tally.note(0);
        Ok(schedule)
    }
}

/// A call that writes a schedule: bytes, row, the lent place and the length written.
type Write = fn(&[u8], u64, &mut [u8], &mut u64) -> u64;

// ---- Examples ----

/// examples/modified.sheet, schedules of small sheets priced by hand, and the forms that the calls take.
pub fn examples() -> Vec<(Vec<u8>, Check)> {
    let sheet: &[u8] = include_bytes!("../../examples/modified.sheet");
    let mut list: Vec<(Vec<u8>, Check)> = vec![(sheet.to_vec(), Box::new(listing_and_rows))];
    for (warm, steps, touches, schedules) in stays() {
        list.push((small(warm, steps, touches), Box::new(move |bytes| prices(bytes, schedules))));
    }
    for (warm, steps, touches, modtotal, firsts) in leasts() {
        list.push((small(warm, steps, touches), Box::new(move |bytes| least_is(bytes, modtotal, firsts))));
    }
    for (bytes, numbers) in forms() {
        list.push((bytes, Box::new(move |bytes| taken(bytes, numbers))));
    }
    list
}

/// The listing, and of each row: the first bytes of the schedule written and of that of document 01, which the sheet has in form 3, and
/// what the two cost. Segment 1, w = 4, is modified at steps 1 and 4, which are R = 6 apart. No row keeps that reuse. At row 1/2 holding
/// it costs 12, a load and a store 8. At row 3/4 both ways cost 24, and the longer stay has less load. At row 1/1 it costs 6 against 8.
fn listing_and_rows(bytes: &[u8]) -> Outcome {
    let listing = "refs=6\nsteps=6\nsegs=2\nrows=3\n\
        h=1\nd=2\nmisses=4\nvolume=8\nload=12\noptmem=12\nopttotal=36\noptocc=12\nwsmem=34\nwsocc=34\nmean=2833\nmodtotal=44\n\
        h=3\nd=4\nmisses=4\nvolume=8\nload=12\noptmem=12\nopttotal=84\noptocc=12\nwsmem=78\nwsocc=78\nmean=3250\nmodtotal=108\n\
        h=1\nd=1\nmisses=3\nvolume=7\nload=10\noptmem=14\nopttotal=24\noptocc=14\nwsmem=21\nwsocc=21\nmean=3500\nmodtotal=30\n";
    let mut out = vec![0; listing.len()];
    let mut written = 0;
    done("listing", calls::listing(bytes, &mut out, &mut written))?;
    ensure(out == listing.as_bytes(), || "modified segments: another listing".to_string())?;
    let rows: [([u8; 6], Price, [u8; 6], Price); 3] = [
        ([2, 1, 1, 2, 2, 1], [12, 20, 44], [2, 1, 1, 2, 2, 1], [12, 20, 44]),
        ([2, 3, 3, 2, 2, 1], [18, 12, 108], [2, 1, 1, 2, 2, 1], [12, 20, 108]),
        ([2, 3, 3, 3, 3, 1], [20, 10, 30], [2, 1, 1, 3, 3, 1], [14, 18, 32]),
    ];
    let third = reference::write(&Sheet { form: 3, ..reference::read(bytes).expect("a sheet") });
    for (row, (modified, price, optimal, optimal_price)) in (0..).zip(rows) {
        writes(calls::modified_schedule, bytes, row, &modified)?;
        writes(calls::optimal_schedule, &third, row, &optimal)?;
        costs(bytes, row, &modified, price)?;
        costs(bytes, row, &optimal, optimal_price)?;
        // In form 3 there are no stores: the load is the row's own, and the schedule of form 4 has the load without its stores.
        let [memory, load, _] = price;
        let stores = if row == 0 { 8 } else { 4 };
        let (h, d) = [(1, 2), (3, 4), (1, 1)][row as usize];
        costs(&third, row, &modified, [memory, load - stores, d * memory + h * (load - stores)])?;
    }
    Ok(())
}

fn writes(call: Write, bytes: &[u8], row: u64, firsts: &[u8]) -> Outcome {
    let mut schedule = vec![0; STEP * firsts.len()];
    let mut written = 0;
    done("a schedule", call(bytes, row, &mut schedule, &mut written))?;
    ensure(schedule == enumerate::bytes_of(firsts) && written as usize == schedule.len(), || {
        let got: Vec<u8> = schedule.iter().step_by(STEP).copied().collect();
        format!("row {row}: the schedule {got:?}, wanted {firsts:?}")
    })
}

fn costs(bytes: &[u8], row: u64, firsts: &[u8], want: Price) -> Outcome {
    let mut price = [0; 3];
    done("price", calls::price(bytes, row, &enumerate::bytes_of(firsts), &mut price))?;
    ensure(price == want, || format!("row {row}: {firsts:?} costs {price:?}, wanted {want:?}"))
}

/// Segment and step of a touch, and whether it modifies.
type Touch = (usize, usize, bool);

/// A sheet of two segments of kind space with a = 1, sizes 1 and 3, so w = 2 and 4, and the row 1/1.
fn small(warm: &[usize], steps: usize, touches: &[Touch]) -> Vec<u8> {
    let mut text = "form=4\nkind=space\na=1\nsegs=2\nsize=1\nsize=3\nrows=1\nrow=1/1\n".to_string();
    text += &format!("warm={}\n", warm.len());
    warm.iter().for_each(|segment| text += &format!("hold={segment}\n"));
    text += &format!("steps={steps}\nrefs={}\n", touches.len());
    for (segment, step, modifies) in touches {
        text += &format!("ref={segment}@{step}{}\n", if *modifies { "w" } else { "" });
    }
    text.into_bytes()
}

/// First bytes of a schedule, and its price.
type Priced = (&'static [u8], Price);

/// Warm segments, steps and touches; schedules and their prices.
fn stays() -> Vec<(&'static [usize], usize, &'static [Touch], &'static [Priced])> {
    vec![
        // Touches in a row are one stay, and the record ends it: a load and one store.
        (&[], 2, &[(1, 1, true), (1, 2, true)], &[(&[2, 2], [6, 8, 14])]),
        // The letter on the later touch alone, on the earlier alone, and on none.
        (&[], 2, &[(1, 1, false), (1, 2, true)], &[(&[2, 2], [6, 8, 14])]),
        (&[], 2, &[(1, 1, true), (1, 2, false)], &[(&[2, 2], [6, 8, 14])]),
        (&[], 2, &[(1, 1, false), (1, 2, false)], &[(&[2, 2], [6, 4, 10])]),
        // One touch after a drop starts another stay: two loads and two stores. Held through, one of each.
        (&[], 3, &[(1, 1, true), (1, 3, true)], &[(&[2, 0, 2], [6, 16, 22]), (&[2, 2, 2], [9, 8, 17])]),
        // The second stay has no letter, or the first has none.
        (&[], 3, &[(1, 1, true), (1, 3, false)], &[(&[2, 0, 2], [6, 12, 18]), (&[2, 2, 2], [9, 8, 17])]),
        (&[], 3, &[(1, 1, false), (1, 3, true)], &[(&[2, 0, 2], [6, 12, 18]), (&[2, 2, 2], [9, 8, 17])]),
        // Held after the last touch the stay is the same.
        (&[], 3, &[(1, 1, true)], &[(&[2, 0, 0], [3, 8, 11]), (&[2, 2, 0], [6, 8, 14]), (&[2, 2, 2], [9, 8, 17])]),
        // A warm segment: held from step 1 on its stay starts at step 0, without a load, and has no modifying touch then.
        (&[1], 2, &[(1, 2, true)], &[(&[2, 2], [6, 4, 10]), (&[0, 2], [3, 8, 11])]),
        (&[1], 2, &[(1, 2, false)], &[(&[2, 2], [6, 0, 6]), (&[0, 2], [3, 4, 7])]),
        (&[1], 2, &[], &[(&[2, 2], [6, 0, 6]), (&[2, 0], [3, 0, 3]), (&[0, 0], [0, 0, 0])]),
        (&[1], 1, &[(1, 1, true)], &[(&[2], [3, 4, 7])]),
        // Two segments have stays of their own; w differs.
        (&[], 3, &[(0, 1, true), (1, 2, true), (0, 3, true)], &[(&[1, 3, 1], [6, 12, 18]), (&[1, 2, 1], [5, 16, 21])]),
        // Three stays of one segment, of which the second has no letter.
        (
            &[],
            5,
            &[(0, 1, true), (0, 3, false), (0, 5, true)],
            &[(&[1, 0, 1, 0, 1], [3, 10, 13]), (&[1; 5], [5, 4, 9])],
        ),
    ]
}

fn prices(bytes: &[u8], schedules: &[Priced]) -> Outcome {
    schedules.iter().try_for_each(|(firsts, price)| costs(bytes, 0, firsts, *price))
}

/// Warm segments, steps and touches; modtotal and the first bytes of the schedule written.
fn leasts() -> Vec<(&'static [usize], usize, &'static [Touch], u64, &'static [u8])> {
    vec![
        (&[], 0, &[], 0, &[]),
        (&[0, 1], 2, &[], 0, &[0, 0]),
        // Without letters R = 6 is not kept (w = 4): 6 + 8. With both it is held: 6 + 6, a load and a store.
        (&[], 4, &[(1, 1, false), (1, 4, false)], 14, &[2, 0, 0, 2]),
        (&[], 4, &[(1, 1, true), (1, 4, true)], 20, &[2, 2, 2, 2]),
        // With one of them it does not help.
        (&[], 4, &[(1, 1, true), (1, 4, false)], 18, &[2, 0, 0, 2]),
        (&[], 4, &[(1, 1, false), (1, 4, true)], 18, &[2, 0, 0, 2]),
        // R = 9 between the letters costs 9, a load and a store 8.
        (&[], 5, &[(1, 1, true), (1, 5, true)], 22, &[2, 0, 0, 0, 2]),
        // The excess of both reuses counts: R = 6 and R = 6 cost 12, two loads and a store too, so the long stay is taken for its load.
        (&[], 7, &[(1, 1, true), (1, 4, false), (1, 7, true)], 29, &[2, 2, 2, 2, 2, 2, 2]),
        // R = 6 and R = 3: 9 against 4 + 3 + 4; the second is kept anyway.
        (&[], 6, &[(1, 1, true), (1, 4, false), (1, 6, true)], 26, &[2, 2, 2, 2, 2, 2]),
        // After the last letter the keep rule alone decides.
        (&[], 7, &[(1, 1, true), (1, 4, true), (1, 7, false)], 27, &[2, 2, 2, 2, 0, 0, 2]),
        // A warm segment is not modified at step 0: its first touch at step 3 has R = 6 and is not kept, whatever its letter.
        (&[1], 3, &[(1, 3, true)], 11, &[0, 0, 2]),
        (&[1], 3, &[(1, 3, false)], 7, &[0, 0, 2]),
        (&[1], 2, &[(1, 2, true)], 10, &[2, 2]),
    ]
}

fn least_is(bytes: &[u8], modtotal: u64, firsts: &[u8]) -> Outcome {
    let mut listing = vec![0; segtrace::LISTING_BYTES];
    let mut written = 0;
    done("listing", calls::listing(bytes, &mut listing, &mut written))?;
    let line = format!("\nmodtotal={modtotal}\n");
    let text = &listing[..written as usize];
    ensure(text.ends_with(line.as_bytes()), || format!("{} does not end with {line}", text.escape_ascii()))?;
    writes(calls::modified_schedule, bytes, 0, firsts)?;
    let mut price = [0; 3];
    done("price", calls::price(bytes, 0, &enumerate::bytes_of(firsts), &mut price))?;
    ensure(price[2] == modtotal, || format!("the schedule written costs {}, not {modtotal}", price[2]))
}

/// Bytes and what is given for them by the check, by the schedule call of document 01 and the recorder's start, and by the schedule call
/// of form 4 at row 0 and at row 1.
fn forms() -> Vec<(Vec<u8>, [u64; 4])> {
    let body = "kind=time\na=0\nsegs=1\nsize=1\nrows=1\nrow=1/1\n";
    let second = format!("{body}steps=1\nrefs=1\nref=0@1\n");
    let third = format!("{body}warm=0\nsteps=1\nrefs=1\nref=0@1\n");
    let bytes = |text: String| text.into_bytes();
    vec![
        (bytes(format!("{body}refs=1\nref=0\n")), [0, 0, 4, 4]),
        (bytes(format!("form=2\n{second}")), [0, 0, 4, 4]),
        (bytes(format!("form=3\n{third}")), [0, 0, 4, 4]),
        (bytes(format!("form=4\n{third}")), [0, 4, 0, 7]),
        (bytes(format!("form=4\n{}", third.replace("@1", "@1w"))), [0, 4, 0, 7]),
        (bytes(format!("form=5\n{third}")), [4, 4, 4, 4]),
        // Form 1: on the kind line, after its 2 and 3, before anything of a=.
        (bytes("kind=time\nx".to_string()), [2, 2, 4, 4]),
        (bytes("kind=tim\nx".to_string()), [3, 3, 3, 3]),
        (bytes("kind=time".to_string()), [2, 2, 2, 2]),
        (bytes("Form=4\n".to_string()), [2, 2, 2, 2]),
        // The form line: after its 2 and 3, before anything of kind=.
        (bytes("form=4".to_string()), [2, 2, 2, 2]),
        (bytes("form=04\n".to_string()), [3, 3, 3, 3]),
        (bytes("form=4\nkind=x\n".to_string()), [3, 4, 3, 3]),
        (bytes("form=3\nkind=x\n".to_string()), [3, 3, 4, 4]),
        // 1 comes first, whatever the call: by the first complete line.
        (bytes(format!("form=4\n{}", "x".repeat(33_407))), [2, 4, 2, 2]),
        (bytes(format!("form=4\n{}", "x".repeat(33_408))), [1, 1, 1, 1]),
        (bytes(format!("form=3\n{}", "x".repeat(31_360))), [1, 1, 1, 1]),
        (bytes("x".repeat(20_013)), [1, 1, 1, 1]),
        // The sheet's refusal comes before 7.
        (bytes(format!("form=4\n{third}x")), [6, 4, 6, 6]),
        (bytes(format!("form=4\n{}", third.replace("@1", "@2w"))), [16, 4, 16, 16]),
    ]
}

fn taken(bytes: &[u8], [check, optimal, modified, no_row]: [u64; 4]) -> Outcome {
    let mut place = [0; STEP];
    let mut recorder =
        segtrace::Recorder::start(b"kind=time\na=0\nsegs=1\nsize=1\nrows=1\nrow=1/1\nrefs=0\n").expect("a sheet");
    let got = [
        calls::check(bytes),
        calls::optimal_schedule(bytes, 0, &mut place, &mut 0),
        calls::start(bytes, &mut recorder),
        calls::modified_schedule(bytes, 0, &mut place, &mut 0),
        calls::modified_schedule(bytes, 1, &mut place, &mut 0),
    ];
    let want = [check, optimal, optimal, modified, no_row];
    ensure(got == want, || format!("check, the two schedule calls and the start give {got:?}, wanted {want:?}"))?;
    // 11 comes last.
    let returned = calls::modified_schedule(bytes, 0, &mut place[..STEP - 1], &mut 0);
    let want = if modified == 0 { 11 } else { modified };
    ensure(returned == want, || format!("modified_schedule in a place too short: {returned}, wanted {want}"))
}

// ---- Wrong answers ----

const EVERY_TOUCH: &str = "a store at every modifying touch";
const NOT_AT_END: &str = "no store at the record's end";
const WARM_MODIFIED: &str = "a warm segment modified from the start";
const KEEP_RULE: &str = "the keep rule alone";
const NO_STORES: &str = "stores not counted";
const UNPRICED: &str = "a store without its price";

pub const WRONG: [(Call, Way); 31] = [
    (Call::Listing, Way::Named(EVERY_TOUCH)),
    (Call::Listing, Way::Named(NOT_AT_END)),
    (Call::Listing, Way::Named(WARM_MODIFIED)),
    (Call::Listing, Way::Named(KEEP_RULE)),
    (Call::Listing, Way::Named(NO_STORES)),
    (Call::Listing, Way::Named(UNPRICED)),
    (Call::Listing, Way::Named("modtotal in form 3")),
    (Call::Listing, Way::Named("no modtotal in form 4")),
    (Call::Listing, Way::Named("modtotal before mean")),
    (Call::Listing, Way::Named("modtotal of row 0")),
    (Call::Price, Way::Named(EVERY_TOUCH)),
    (Call::Price, Way::Named(NOT_AT_END)),
    (Call::Price, Way::Named(WARM_MODIFIED)),
    (Call::Price, Way::Named(NO_STORES)),
    (Call::Price, Way::Named(UNPRICED)),
    (Call::Price, Way::Named("one store for each segment")),
    (Call::ModifiedSchedule, Way::Named(NOT_AT_END)),
    (Call::ModifiedSchedule, Way::Named(WARM_MODIFIED)),
    (Call::ModifiedSchedule, Way::Named(KEEP_RULE)),
    (Call::ModifiedSchedule, Way::Named("dropped on equality")),
    (Call::ModifiedSchedule, Way::Named("held after the last touch")),
    (Call::ModifiedSchedule, Way::Named("form 3 taken")),
    (Call::ModifiedSchedule, Way::Named("form 1 not refused on the kind line")),
    (Call::ModifiedSchedule, Way::NotRefused(7)),
    (Call::OptimalSchedule, Way::Named("form 4 taken")),
    (Call::Check, Way::Named("the letter taken in form 3")),
    (Call::Check, Way::Named("W taken")),
    (Call::Check, Way::Named("two letters taken")),
    (Call::Check, Way::Named("3 for a step out of range with its letter")),
    (Call::Check, Way::Named("16 of a step with its letter not asked")),
    (Call::Rewrite, Way::Named("letters left out")),
];

/// The name of the mistake that is put in behind a call, if one is.
fn named(call: Call) -> Option<&'static str> {
    match wrong::way(call) {
        Some(Way::Named(name)) => Some(name),
        _ => None,
    }
}

/// The programme with a mistake.
fn rules(name: &str) -> Rules {
    match name {
        NOT_AT_END => Rules { stored_at_end: false, ..RIGHT },
        WARM_MODIFIED => Rules { warm: State::Modified, ..RIGHT },
        "dropped on equality" => Rules { held_on_equality: false, ..RIGHT },
        _ => RIGHT,
    }
}

/// The price of a schedule that is permitted, with a mistake.
fn priced(name: &str, sheet: &Sheet, row: Row, schedule: &[u8]) -> Price {
    let right = reference::price(sheet, row, schedule).expect("permitted");
    let plain = reference::price(&Sheet { form: 3, ..sheet.clone() }, row, schedule).expect("permitted");
    let [memory, load, _] = plain;
    let swaps =
        |segments: &mut dyn Iterator<Item = usize>| segments.map(|segment| sheet.swap_cost(segment)).sum::<u64>();
    let touches =
        || sheet.references().into_iter().filter(|&(step, _)| sheet.modifies(step)).map(|(_, segment)| segment);
    let held_at = |step: usize, segment: usize| reference::held_in(&schedule[STEP * (step - 1)..STEP * step])[segment];
    let stays_from =
        |segment: usize, step: usize| (step..=sheet.steps.len()).take_while(move |&step| held_at(step, segment));
    let stores = match name {
        EVERY_TOUCH => swaps(&mut touches()),
        "one store for each segment" => {
            swaps(&mut (0..sheet.sizes.len()).filter(|&segment| touches().any(|touched| touched == segment)))
        }
        NO_STORES => 0,
        UNPRICED => return [memory, right[1], plain[2] + right[1] - load],
        NOT_AT_END => {
            // Those of the stays that the record ends: held in the last step, with a modifying touch since they began.
            let ends = |segment: &usize| {
                let from = (1..=sheet.steps.len()).rev().take_while(|&step| held_at(step, *segment)).last();
                from.is_some_and(|from| {
                    stays_from(*segment, from).any(|step| sheet.modifies(step) && sheet.touched(step) == Some(*segment))
                })
            };
            right[1] - load - swaps(&mut (0..sheet.sizes.len()).filter(ends))
        }
        WARM_MODIFIED => {
            // A store more for each warm stay without a modifying touch; held or not in step 1, it began at step 0.
            let clean = |segment: &&usize| {
                !stays_from(**segment, 1).any(|step| sheet.modifies(step) && sheet.touched(step) == Some(**segment))
            };
            right[1] - load + swaps(&mut sheet.warm.iter().filter(clean).copied())
        }
        _ => right[1] - load,
    };
    [memory, load + stores, plain[2] + row.h * stores]
}

/// modtotal of a row with a mistake.
fn modtotal(name: &str, sheet: &Sheet, row: Row) -> u64 {
    let optimal = || reference::optimal_schedule(sheet, row);
    match name {
        EVERY_TOUCH | KEEP_RULE | NO_STORES => priced(name, sheet, row, &optimal())[2],
        UNPRICED => priced(name, sheet, row, &least(sheet, row, RIGHT).schedule)[2],
        "modtotal of row 0" => least(sheet, sheet.rows[0], RIGHT).total,
        _ => least(sheet, row, rules(name)).total,
    }
}

/// The listing with the mistake that is put in.
pub fn mistaken_listing(bytes: &[u8]) -> Option<Result<Vec<u8>, u64>> {
    let name = named(Call::Listing)?;
    Some(reference::read(bytes).map(|mut sheet| {
        let intervals = reference::Intervals::of(&sheet);
        let all: Vec<Figures> = sheet.rows.iter().map(|&row| reference::figures(&sheet, &intervals, row)).collect();
        let rows = if sheet.form > 2 { &sheet.rows[..] } else { &[] };
        let modtotals: Vec<u64> = rows.iter().map(|&row| modtotal(name, &sheet, row)).collect();
        match name {
            "modtotal in form 3" if sheet.form == 3 => sheet.form = 4,
            "no modtotal in form 4" if sheet.form == 4 => sheet.form = 3,
            _ => {}
        }
        let text = String::from_utf8(reference::listing(&sheet, &all, &modtotals)).expect("text");
        let mut lines: Vec<&str> = text.lines().collect();
        if name == "modtotal before mean" {
            let places: Vec<usize> = (1..lines.len()).filter(|&line| lines[line].starts_with("modtotal=")).collect();
            places.into_iter().for_each(|line| lines.swap(line - 1, line));
        }
        lines.iter().flat_map(|line| format!("{line}\n").into_bytes()).collect()
    }))
}

/// The price of a permitted schedule with the mistake that is put in.
pub fn mistaken_price(bytes: &[u8], row: u64, schedule: &[u8], price: &mut Price) {
    if let Some(name) = named(Call::Price) {
        let sheet = reference::read(bytes).expect("a sheet");
        *price = priced(name, &sheet, sheet.rows[row as usize], schedule);
    }
}

/// What a schedule call gives with the mistake that is put in behind it.
pub fn mistaken_schedule(call: Call, bytes: &[u8], row: u64) -> Option<Result<Vec<u8>, u64>> {
    let name = named(call)?;
    let (lowest, highest) = match name {
        "form 4 taken" => (1, 4),
        "form 3 taken" => (3, 4),
        _ => (4, 4),
    };
    if name == "form 1 not refused on the kind line" && !bytes.starts_with(b"form=") {
        return Some(reference::read(bytes).and(Err(4)));
    }
    Some(reference::read_forms(bytes, lowest, highest).and_then(|sheet| {
        let row = *usize::try_from(row).ok().and_then(|row| sheet.rows.get(row)).ok_or(7u64)?;
        Ok(match name {
            KEEP_RULE | "form 4 taken" => reference::optimal_schedule(&sheet, row),
            "held after the last touch" => held_on(&sheet, least(&sheet, row, RIGHT).schedule),
            _ => least(&sheet, row, rules(name)).schedule,
        })
    }))
}

/// The schedule with the segment of the last touch held up to the end.
fn held_on(sheet: &Sheet, mut schedule: Vec<u8>) -> Vec<u8> {
    if let Some(&(step, segment)) = sheet.references().last() {
        schedule[STEP * step..].chunks_mut(STEP).for_each(|bytes| reference::set_held(bytes, segment, true));
    }
    schedule
}

/// The number that `check` gives with a mistake about the letter.
pub fn verdict(bytes: &[u8], returned: u64) -> u64 {
    let Some(name) = named(Call::Check) else { return returned };
    let of_form = |form: &str| bytes.starts_with(form.as_bytes());
    let with = |old: &str, new: &str| String::from_utf8_lossy(bytes).replace(old, new).into_bytes();
    let read = |bytes: &[u8]| reference::read(bytes).map_or_else(|number| number, |_| 0);
    match (name, returned) {
        ("the letter taken in form 3", 3) if of_form("form=3\n") || of_form("form=2\n") => read(&with("w\n", "\n")),
        ("W taken", 3) if of_form("form=4\n") => read(&with("W\n", "w\n")),
        ("two letters taken", 3) if of_form("form=4\n") => read(&with("ww\n", "w\n")),
        ("3 for a step out of range with its letter", 16) if of_form("form=4\n") && faulty_has_letter(bytes) => 3,
        ("16 of a step with its letter not asked", 16) if of_form("form=4\n") && faulty_has_letter(bytes) => 0,
        _ => returned,
    }
}

/// Whether the first touch that is not above the one before, or lies beyond the steps, has the letter.
fn faulty_has_letter(bytes: &[u8]) -> bool {
    let text = String::from_utf8_lossy(bytes);
    let number = |text: &str| text.parse().unwrap_or(u64::MAX);
    let steps = text.lines().find_map(|line| line.strip_prefix("steps=")).map_or(0, number);
    let mut last = 0;
    for (_, step) in text.lines().filter_map(|line| line.strip_prefix("ref=")?.split_once('@')) {
        let now = number(step.strip_suffix('w').unwrap_or(step));
        if now <= last || now > steps {
            return step.ends_with('w');
        }
        last = now;
    }
    false
}

/// The sheet written again without its letters.
pub fn mistaken_sheet(bytes: &[u8]) -> Option<Result<Vec<u8>, u64>> {
    named(Call::Rewrite)?;
    Some(reference::read(bytes).map(|sheet| reference::write(&Sheet { marks: Vec::new(), ..sheet })))
}
