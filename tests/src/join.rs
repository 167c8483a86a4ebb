//! Two aligners in one memory (F-7): the second implementation, pairs that can be joined and pairs that cannot, what the joint sheet's
//! figures say, examples worked by hand, and wrong answers.

use crate::calls;
use crate::compare::{done, ensure, Case, Outcome};
use crate::generate::{self, Prng, Shape};
use crate::reference::{self, Figures, Kind, Row, Sheet, STEP};
use crate::vectors::Check;
use crate::wrong::{self, Call, Way};

// ---- The second implementation ----

/// The sheet that two sheets become, or the number of the refusal.
pub fn join(first: &[u8], second: &[u8]) -> Result<Vec<u8>, u64> {
    let first = reference::read_forms(first, 2, 3)?;
    let second = reference::read_forms(second, 2, 3)?;
    let checks = [heads_differ(&first, &second), both_touch(&first, &second), too_many(&first, &second)];
    match (20..).zip(checks).find(|(_, applies)| *applies) {
        Some((number, _)) => Err(number),
        None => Ok(reference::write(&joined(&first, &second))),
    }
}

fn heads_differ(first: &Sheet, second: &Sheet) -> bool {
    first.kind != second.kind || first.a != second.a || first.rows != second.rows
}

fn both_touch(first: &Sheet, second: &Sheet) -> bool {
    first.steps.iter().zip(&second.steps).any(|(one, other)| one.is_some() && other.is_some())
}

fn too_many(first: &Sheet, second: &Sheet) -> bool {
    first.sizes.len() + second.sizes.len() > 256
}

/// The second's segments are numbered after the first's.
fn joined(first: &Sheet, second: &Sheet) -> Sheet {
    let after = |segment: usize| first.sizes.len() + segment;
    let at = |sheet: &Sheet, step: usize| sheet.steps.get(step).copied().flatten();
    let most = first.steps.len().max(second.steps.len());
    let warm = second.warm.iter().copied().map(after);
    Sheet {
        form: 3,
        sizes: [&first.sizes[..], &second.sizes].concat(),
        warm: first.warm.iter().copied().chain(warm).collect(),
        steps: (0..most).map(|step| at(first, step).or(at(second, step).map(after))).collect(),
        ..first.clone()
    }
}

// ---- Pairs ----

impl Case<'_> {
    /// The sheet with itself, with its other part, and with sheets made for it; refused ones first and second.
    pub fn joins(&mut self) -> Outcome {
        let bytes = self.bytes;
        self.join(bytes, bytes)?;
        let sheet = match reference::read(bytes) {
            Ok(sheet) => sheet,
            Err(_) => generate::sheet(&mut self.prng, Shape::Tiny),
        };
        if sheet.sizes.len() > 1 {
            self.join_parts(&sheet)?;
        }
        for _ in 0..2 {
            let mut first = Sheet { form: if sheet.warm.is_empty() { 2 } else { 3 }, ..sheet.clone() };
            let second = partner(&mut self.prng, &mut first);
            let mut one = reference::write(&first);
            let mut other = reference::write(&second);
            if self.prng.one_in(8) {
                other = generate::damaged(&mut self.prng, &second);
            }
            if self.prng.one_in(16) {
                one = generate::damaged(&mut self.prng, &first);
            }
            self.join(&one, &other)?;
            self.join(bytes, &other)?;
            self.join(&other, bytes)?;
        }
        Ok(())
    }

    /// A sheet in two parts, which joined are the sheet again, in form 3.
    fn join_parts(&mut self, sheet: &Sheet) -> Outcome {
        let (first, second) = parts(&mut self.prng, sheet);
        let (one, other) = (reference::write(&first), reference::write(&second));
        let whole = reference::write(&Sheet { form: 3, ..sheet.clone() });
        ensure(join(&one, &other).as_ref() == Ok(&whole), || "the reference joins two parts otherwise".to_string())?;
        self.join(&one, &other)
    }

    /// Joins two runs of bytes, whatever they are.
    fn join(&mut self, first: &[u8], second: &[u8]) -> Outcome {
        self.on(first);
        let given = [first.to_vec(), second.to_vec()];
        let want = join(first, second);
        let shown = |message| format!("{message}; joined:\n{}and:\n{}", first.escape_ascii(), second.escape_ascii());
        let answer = want.as_deref().map_err(|&number| number);
        self.call("join", answer, |out, written| calls::join(first, second, out, written)).map_err(shown)?;
        ensure(given == [first, second], || "join: a sheet handed in was changed".to_string())?;
        if self.prng.one_in(4) {
            self.safe("join", segtrace::join(first, second), want.clone()).map_err(shown)?;
            let exact = want.as_ref().map_or(0, Vec::len);
            let got = segtrace::join_into(first, second, &mut vec![0; exact]);
            self.safe("join_into", got, want.clone().map(|text| text.len())).map_err(shown)?;
        }
        match want {
            Ok(joint) => self.joint(first, second, &joint).map_err(shown),
            Err(_) => Ok(()),
        }
    }

    /// What the joint sheet says, from the answers of the calls: it is a sheet; misses, volume, load, optmem, opttotal and optocc of a row
    /// are the sums, wsmem and wsocc at least the sums, equal where the steps are; and the optimal schedules stand side by side.
    fn joint(&mut self, first: &[u8], second: &[u8], joint: &[u8]) -> Outcome {
        done("check of the joint sheet", calls::check(joint))?;
        let sheets = [reference::read(first), reference::read(second), reference::read(joint)];
        let [one, other, both] = sheets.map(|sheet| sheet.expect("a sheet"));
        let row = self.some_row(&both) as u64;
        let mut all: [Figures; 3] = [[0; 11]; 3];
        for (bytes, figures) in [first, second, joint].into_iter().zip(&mut all) {
            done("figures", calls::figures(bytes, row, figures))?;
            self.tally.note(0);
        }
        for item in 2..10 {
            let [one_item, other_item, item_of_both] = all.map(|figures| figures[item]);
            let sum = one_item + other_item;
            let afresh = item >= 8 && one.steps.len() != other.steps.len();
            let holds = if afresh { item_of_both >= sum } else { item_of_both == sum };
            ensure(holds, || format!("join: {} is {item_of_both}, the sum {sum}", reference::NAMES[item]))?;
        }
        let (h, d) = (both.rows[row as usize].h, both.rows[row as usize].d);
        ensure(side_by_side(&one, &other, &both, Row { h, d }), || "join: other optimal schedules".to_string())
    }
}

/// Whether the optimal schedule of the joint sheet holds in each step what those of the two hold, by the schedule call.
fn side_by_side(one: &Sheet, other: &Sheet, both: &Sheet, row: Row) -> bool {
    let schedule = |sheet: &Sheet| {
        let place = sheet.rows.iter().position(|other| *other == row).expect("a row of each") as u64;
        let mut schedule = vec![0; STEP * both.steps.len()];
        let returned = calls::optimal_schedule(&reference::write(sheet), place, &mut schedule, &mut 0);
        (returned == 0).then_some(schedule)
    };
    let [Some(first), Some(second), Some(joint)] = [one, other, both].map(schedule) else { return false };
    let segs = one.sizes.len();
    (0..both.steps.len()).all(|step| {
        let held = |schedule: &[u8]| reference::held_in(&schedule[STEP * step..STEP * (step + 1)]);
        let (first, second, joint) = (held(&first), held(&second), held(&joint));
        (0..both.sizes.len())
            .all(|segment| joint[segment] == if segment < segs { first[segment] } else { second[segment - segs] })
    })
}

/// The segments below a number and those from it on as two sheets. One of them may end after its last touch.
fn parts(prng: &mut Prng, sheet: &Sheet) -> (Sheet, Sheet) {
    let from = 1 + prng.below(sheet.sizes.len() - 1);
    let shorter = prng.below(3);
    let mut part = |number: usize, range: std::ops::Range<usize>| {
        let own = |segment: &usize| range.contains(segment);
        let number_of = |segment: usize| segment - range.start;
        let mut steps: Vec<Option<usize>> =
            sheet.steps.iter().map(|touched| touched.filter(own).map(number_of)).collect();
        if number == shorter {
            let touched = steps.iter().rposition(Option::is_some).map_or(0, |last| last + 1);
            steps.truncate(prng.between(touched as u64, steps.len() as u64) as usize);
        }
        let warm: Vec<usize> = sheet.warm.iter().copied().filter(own).map(number_of).collect();
        let form = if warm.is_empty() { prng.pick(&[2, 3]) } else { 3 };
        Sheet { form, sizes: sheet.sizes[range.clone()].to_vec(), warm, steps, ..sheet.clone() }
    };
    (part(0, 0..from), part(1, from..sheet.sizes.len()))
}

/// A sheet that can be joined to a first one, or that cannot in one way or several. The first may be cut to fewer segments.
fn partner(prng: &mut Prng, first: &mut Sheet) -> Sheet {
    let shape =
        if first.steps.len() > 300 { Shape::Middle } else { prng.pick(&[Shape::Tiny, Shape::Tiny, Shape::Small]) };
    let mut second = generate::sheet(prng, shape);
    second = Sheet { kind: first.kind, a: first.a, rows: first.rows.clone(), ..second };
    second.form = if second.warm.is_empty() { prng.pick(&[2, 3]) } else { 3 };
    if first.sizes.len() > 192 {
        keep_segments(first, 128);
    }
    let room = 256 - first.sizes.len();
    keep_segments(&mut second, room);
    for (touched, taken) in second.steps.iter_mut().zip(&first.steps) {
        *touched = touched.filter(|_| taken.is_none());
    }
    for _ in 0..prng.pick(&[0, 0, 0, 1, 1, 1, 2, 3]) {
        fault(prng, first, &mut second);
    }
    second
}

/// The first so many segments alone.
fn keep_segments(sheet: &mut Sheet, count: usize) {
    sheet.sizes.truncate(count);
    sheet.warm.retain(|&segment| segment < count);
    sheet.steps.iter_mut().for_each(|touched| *touched = touched.filter(|&segment| segment < count));
}

/// One reason against joining: another kind, a or row, a step that both touch, too many segments, or form 1 or 4.
fn fault(prng: &mut Prng, first: &Sheet, second: &mut Sheet) {
    match prng.below(11) {
        0 => second.kind = if first.kind == Kind::Time { Kind::Space } else { Kind::Time },
        1 => second.a = if first.a == 255 { 254 } else { first.a + 1 },
        2 | 3 => other_rows(prng, &mut second.rows),
        4..=6 => {
            let touched: Vec<usize> = (0..first.steps.len()).filter(|&step| first.steps[step].is_some()).collect();
            if let Some(&last) = touched.last() {
                let step = if prng.one_in(2) { last } else { prng.pick(&touched) };
                second.steps.resize(second.steps.len().max(step + 1), None);
                second.steps[step] = Some(prng.below(second.sizes.len()));
            }
        }
        7 | 8 => {
            let most = 256 - first.sizes.len();
            let count = (most + prng.pick(&[0, 1, 1, 2, 200])).clamp(1, 256);
            second.sizes.resize(count.max(second.sizes.len()), 1 + prng.between(0, 4_094));
        }
        9 => second.form = 4,
        _ if second.steps.iter().all(Option::is_some) => {
            second.form = 1;
            second.warm.clear();
        }
        _ => {}
    }
}

/// Rows of which one is left out, put in, moved or written otherwise with the same threshold.
fn other_rows(prng: &mut Prng, rows: &mut Vec<Row>) {
    let place = prng.below(rows.len());
    let Row { h, d } = rows[place];
    match prng.below(4) {
        0 if rows.len() > 1 => _ = rows.remove(place),
        1 if rows.len() < 64 => {
            let last = rows[rows.len() - 1];
            if last.h < 65_535 {
                rows.push(Row { h: 65_535, d: last.d });
            }
        }
        2 if h <= 32_767 && d <= 32_767 => rows[place] = Row { h: 2 * h, d: 2 * d },
        _ => {
            let next = rows.get(place + 1).copied();
            let moved = Row { h: h + 1, d };
            if h < 65_535 && next.is_none_or(|next| next.exceeds(moved)) {
                rows[place] = moved;
            }
        }
    }
}

// ---- Examples ----

/// The joint sheet of examples/idle.sheet and examples/second.sheet, its figures worked by hand, and the order of the refusals.
pub fn examples() -> Vec<(Vec<u8>, Check)> {
    let idle: &[u8] = include_bytes!("../../examples/idle.sheet");
    let second: &[u8] = include_bytes!("../../examples/second.sheet");
    let joint: &[u8] = include_bytes!("../../examples/joined.sheet");
    let mut list: Vec<(Vec<u8>, Check)> = vec![
        (joint.to_vec(), Box::new(joint_rows)),
        // The second's own end intervals: 11 - 9 for its one segment, R = 2.
        (second.to_vec(), Box::new(second_rows)),
    ];
    let mut add = |first: Vec<u8>, second: Vec<u8>, want: Result<Vec<u8>, u64>| {
        list.push((first, Box::new(move |bytes| joins_as(bytes, &second, &want))));
    };
    add(idle.to_vec(), second.to_vec(), Ok(joint.to_vec()));
    // The other way round the numbers of the segments change.
    let turned = b"form=3\nkind=space\na=1\nsegs=3\nsize=2\nsize=1\nsize=3\nrows=2\nrow=1/2\nrow=1/1\nwarm=1\nhold=0\nsteps=10\nrefs=9\n\
        ref=1@1\nref=2@2\nref=0@3\nref=1@4\nref=2@5\nref=2@6\nref=1@7\nref=0@8\nref=0@9\n";
    add(second.to_vec(), idle.to_vec(), Ok(turned.to_vec()));
    for (one, other, number) in verdicts() {
        add(one, other, Err(number));
    }
    for (one, other, joint) in small_pairs() {
        add(one, other, Ok(joint));
    }
    let (one, other, largest) = largest_pair();
    add(one, other, Ok(largest));
    list
}

fn joins_as(first: &[u8], second: &[u8], want: &Result<Vec<u8>, u64>) -> Outcome {
    let mut out = vec![0; reference::longest(3)];
    let mut written = 0;
    let returned = calls::join(first, second, &mut out, &mut written);
    let got = if returned == 0 { Ok(out[..written as usize].to_vec()) } else { Err(returned) };
    let text = |answer: &Result<Vec<u8>, u64>| {
        answer.as_ref().map(|text| text.escape_ascii().to_string()).map_err(|&number| number)
    };
    ensure(got == *want, || format!("join to {}: got {:?}, wanted {:?}", second.escape_ascii(), text(&got), text(want)))
}

/// Misses to optocc are the sums 5 + 2, 9 + 4, 14 + 6, 12 + 6, 38 + 18, 12 + 6 and 3 + 2, 7 + 4, 10 + 6, 16 + 6, 26 + 12, 16 + 6. The
/// first's end intervals now reach step 11 and not 9: at row 1/1 segment 0 adds min(3, 2) and not min(1, 2), so wsmem is 25 + 14 + 1; at
/// row 1/2 both were cut off before, so it is 38 + 21.
fn joint_rows(bytes: &[u8]) -> Outcome {
    rows_are(bytes, [[1, 2, 7, 13, 20, 18, 56, 18, 59, 59, 2_950], [1, 1, 5, 11, 16, 22, 38, 22, 40, 40, 4_000]])
}

/// w = 3. The reuses have R = 4 (from step 0), 8 and 0: both rows keep the last alone.
fn second_rows(bytes: &[u8]) -> Outcome {
    rows_are(bytes, [[1, 2, 2, 4, 6, 6, 18, 6, 21, 21, 1_050], [1, 1, 2, 4, 6, 6, 12, 6, 14, 14, 1_400]])
}

fn rows_are(bytes: &[u8], rows: [Figures; 2]) -> Outcome {
    for (row, want) in (0..).zip(rows) {
        let mut figures = [0; 11];
        done("figures", calls::figures(bytes, row, &mut figures))?;
        ensure(figures == want, || format!("joined sheets, row {row}: {figures:?}, wanted {want:?}"))?;
    }
    Ok(())
}

/// A sheet of kind time and a = 0 with so many segments of size 1.
fn small(form: u64, segs: usize, rows: &str, tail: &str) -> Vec<u8> {
    let form = if form > 1 { format!("form={form}\n") } else { String::new() };
    let sizes = "size=1\n".repeat(segs);
    format!("{form}kind=time\na=0\nsegs={segs}\n{sizes}{rows}{tail}").into_bytes()
}

const ROW: &str = "rows=1\nrow=1/2\n";
const NOTHING: &str = "steps=0\nrefs=0\n";
const ONE: &str = "steps=1\nrefs=1\nref=0@1\n";

/// Pairs that are refused.
fn verdicts() -> Vec<(Vec<u8>, Vec<u8>, u64)> {
    let plain = || small(2, 1, ROW, NOTHING);
    let one = || small(2, 1, ROW, ONE);
    let text = |text: &str| text.as_bytes().to_vec();
    let changed = |sheet: Vec<u8>, old: &str, new: &str| {
        String::from_utf8(sheet).expect("text").replacen(old, new, 1).into_bytes()
    };
    let twice = "steps=2\nrefs=2\nref=0@2\nref=0@1\n";
    let holds = "warm=2\nhold=1\nhold=1\nsteps=0\nrefs=0\n";
    vec![
        // Forms 1 and 4, as the first and as the second; form 1 on the kind line, before a=, after its own 3.
        (small(1, 1, ROW, "refs=0\n"), plain(), 4),
        (plain(), small(1, 1, ROW, "refs=0\n"), 4),
        (small(4, 1, ROW, NOTHING), plain(), 4),
        (plain(), small(4, 1, ROW, NOTHING), 4),
        (text("kind=time\nx"), plain(), 4),
        (text("kind=tim\nx"), plain(), 3),
        (text("kind=time"), plain(), 2),
        (plain(), text("kind=time\nx"), 4),
        // The first's refusal wholly before the second's, 16 and 19 too; the second's before 20.
        (small(2, 1, ROW, twice), text(""), 16),
        (text(""), small(2, 1, ROW, twice), 2),
        (small(3, 2, ROW, holds), text(""), 19),
        (plain(), small(3, 2, ROW, holds), 19),
        (plain(), changed(small(2, 1, ROW, twice), "a=0", "a=1"), 16),
        (plain(), [plain(), text("x")].concat(), 6),
        // 20 by the kind, by a, by a row as it is written, by the number of rows.
        (plain(), changed(plain(), "time", "space"), 20),
        (plain(), changed(plain(), "a=0", "a=1"), 20),
        (plain(), changed(plain(), "1/2", "2/4"), 20),
        (plain(), changed(plain(), "1/2", "1/3"), 20),
        (plain(), small(2, 1, "rows=2\nrow=1/2\nrow=1/1\n", NOTHING), 20),
        (small(2, 1, "rows=2\nrow=0/1\nrow=1/2\n", NOTHING), plain(), 20),
        // 20 before 21 before 22.
        (one(), changed(one(), "a=0", "a=1"), 20),
        (one(), one(), 21),
        (one(), small(2, 256, ROW, ONE), 21),
        (one(), changed(small(2, 256, ROW, ONE), "a=0", "a=1"), 20),
        (one(), changed(small(2, 256, ROW, NOTHING), "a=0", "a=1"), 20),
        (one(), small(2, 256, ROW, NOTHING), 22),
        (small(2, 128, ROW, NOTHING), small(2, 129, ROW, NOTHING), 22),
        (small(2, 256, ROW, NOTHING), small(2, 256, ROW, NOTHING), 22),
        (small(2, 2, ROW, "steps=3\nrefs=1\nref=1@3\n"), small(2, 1, ROW, "steps=3\nrefs=2\nref=0@1\nref=0@3\n"), 21),
    ]
}

/// Pairs and what they become.
fn small_pairs() -> Vec<(Vec<u8>, Vec<u8>, Vec<u8>)> {
    let nothing = small(2, 1, ROW, NOTHING);
    let warm = |segs: usize, holds: &str, tail: &str| {
        small(3, segs, ROW, &format!("warm={}\n{holds}{tail}", holds.matches('\n').count()))
    };
    vec![
        // Form 3 also with no warm segment; the same bytes twice.
        (nothing.clone(), nothing.clone(), warm(2, "", NOTHING)),
        // 256 segments.
        (small(2, 128, ROW, NOTHING), small(2, 128, ROW, NOTHING), warm(256, "", NOTHING)),
        (small(2, 255, ROW, ONE), nothing.clone(), warm(256, "", ONE)),
        // The greater of the steps, whichever has it, with touches or without.
        (small(2, 1, ROW, ONE), small(2, 1, ROW, "steps=9\nrefs=0\n"), warm(2, "", "steps=9\nrefs=1\nref=0@1\n")),
        (small(2, 1, ROW, "steps=9\nrefs=0\n"), small(2, 1, ROW, ONE), warm(2, "", "steps=9\nrefs=1\nref=1@1\n")),
        // Warm segments of both.
        (
            warm(2, "hold=0\nhold=1\n", ONE),
            warm(3, "hold=1\n", "steps=2\nrefs=1\nref=2@2\n"),
            warm(5, "hold=0\nhold=1\nhold=3\n", "steps=2\nrefs=2\nref=0@1\nref=4@2\n"),
        ),
        (nothing, warm(2, "hold=0\n", NOTHING), warm(3, "hold=1\n", NOTHING)),
    ]
}

/// Two sheets of 128 warm segments, 64 rows and 1,024 touches each, taking turns, whose joint sheet has exactly 31,366 bytes.
fn largest_pair() -> (Vec<u8>, Vec<u8>, Vec<u8>) {
    let rows: Vec<Row> = (0..64).map(|row| Row { h: 60_000 + row, d: 10_000 }).collect();
    let sheet = |segs: usize, touched: &dyn Fn(usize) -> Option<usize>| Sheet {
        form: 3,
        kind: Kind::Space,
        a: 255,
        sizes: vec![4_095; segs],
        rows: rows.clone(),
        warm: (0..segs).collect(),
        steps: (0..2_048).map(touched).collect(),
        marks: Vec::new(),
    };
    let first = sheet(128, &|step| (step % 2 == 0).then_some(100 + step / 2 % 28));
    let second = sheet(128, &|step| (step % 2 == 1).then_some(step / 2 % 128));
    let both = sheet(256, &|step| Some(if step % 2 == 0 { 100 + step / 2 % 28 } else { 128 + step / 2 % 128 }));
    let joint = reference::write(&both);
    assert_eq!(joint.len(), reference::longest(3), "the largest joint sheet");
    (reference::write(&first), reference::write(&second), joint)
}

// ---- Wrong answers ----

pub const WRONG: [(Call, Way); 15] = [
    (Call::Join, Way::NotRefused(20)),
    (Call::Join, Way::NotRefused(21)),
    (Call::Join, Way::NotRefused(22)),
    (Call::Join, Way::Named("the second's refusal before the first's")),
    (Call::Join, Way::Named("form 1 accepted")),
    (Call::Join, Way::Named("21 before 20")),
    (Call::Join, Way::Named("22 before 21")),
    (Call::Join, Way::Named("rows compared by their thresholds")),
    (Call::Join, Way::Named("rows compared as far as both have them")),
    (Call::Join, Way::Named("21 for two touches anywhere")),
    (Call::Join, Way::Named("steps added")),
    (Call::Join, Way::Named("the first's steps")),
    (Call::Join, Way::Named("warm segments with their old numbers")),
    (Call::Join, Way::Named("form 2 where nothing is warm")),
    (Call::Join, Way::Named("the second's touches in front")),
];

/// The answer with the mistake that is put in, if one is.
pub fn mistaken(first: &[u8], second: &[u8]) -> Option<Result<Vec<u8>, u64>> {
    match wrong::way(Call::Join) {
        Some(Way::Named(name)) => Some(with_mistake(name, first, second)),
        _ => None,
    }
}

fn with_mistake(name: &str, first: &[u8], second: &[u8]) -> Result<Vec<u8>, u64> {
    let right = join(first, second);
    if name == "the second's refusal before the first's" {
        reference::read_forms(second, 2, 3)?;
    }
    let lowest = if name == "form 1 accepted" { 1 } else { 2 };
    let (one, other) = (reference::read_forms(first, lowest, 3)?, reference::read_forms(second, lowest, 3)?);
    let (differ, touch, many) = (heads_differ(&one, &other), both_touch(&one, &other), too_many(&one, &other));
    let rows = one.rows.iter().zip(&other.rows);
    let heads = one.kind != other.kind || one.a != other.a;
    let mut joint = joined(&one, &other);
    match name {
        "21 before 20" if touch => return Err(21),
        "22 before 21" if !differ && many => return Err(22),
        "rows compared by their thresholds" => {
            let mut rows = rows;
            let same = rows.all(|(one, other)| !one.exceeds(*other) && !other.exceeds(*one));
            if !touch && !many && !heads && same && one.rows.len() == other.rows.len() {
                return Ok(reference::write(&joint));
            }
        }
        "rows compared as far as both have them" => {
            let mut rows = rows;
            if !touch && !many && !heads && rows.all(|(one, other)| one == other) {
                return Ok(reference::write(&joint));
            }
        }
        "21 for two touches anywhere" => {
            let touches = |sheet: &Sheet| sheet.steps.iter().any(Option::is_some);
            if !differ && touches(&one) && touches(&other) {
                return Err(21);
            }
        }
        "form 1 accepted" if !differ && !touch && !many => return Ok(reference::write(&joint)),
        _ => {}
    }
    right?;
    match name {
        "steps added" => joint.steps.resize((one.steps.len() + other.steps.len()).min(2_048), None),
        "the first's steps" => {
            let last = joint.steps.iter().rposition(Option::is_some).map_or(0, |last| last + 1);
            joint.steps.truncate(last.max(one.steps.len()));
        }
        "warm segments with their old numbers" => {
            joint.warm = [&one.warm[..], &other.warm].concat();
            joint.warm.sort_unstable();
            joint.warm.dedup();
        }
        "form 2 where nothing is warm" if joint.warm.is_empty() => joint.form = 2,
        "the second's touches in front" => return Ok(in_front(&one, &other, &joint)),
        _ => {}
    }
    Ok(reference::write(&joint))
}

/// The joint sheet's lines with all touches of the second before those of the first.
fn in_front(one: &Sheet, other: &Sheet, joint: &Sheet) -> Vec<u8> {
    let text = String::from_utf8(reference::write(joint)).expect("text");
    let head = text.find("\nref=").map_or(&text[..], |end| &text[..end + 1]);
    let line = |(step, segment): (usize, usize)| format!("ref={segment}@{step}\n");
    let after = |(step, segment): (usize, usize)| (step, one.sizes.len() + segment);
    let second: String = other.references().into_iter().map(after).map(line).collect();
    let first: String = one.references().into_iter().map(line).collect();
    [head, &second, &first].concat().into_bytes()
}
