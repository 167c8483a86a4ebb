//! The sheets that are measured.

/// How many references the different sheets of an input have together: 16 sheets of 2,048, more of shorter ones, so that the processor
/// does not learn their branches.
const REFERENCES: usize = 16 * 2_048;

#[derive(Clone, Copy, Debug)]
pub enum Pattern {
    Uniform,
    Cyclic,
    Local,
}

/// What the sheets of one input have in common.
#[derive(Clone, Copy)]
pub struct Input {
    pub name: &'static str,
    /// Every line as long as it can be: 20,012 bytes.
    pub longest: bool,
    pub segs: usize,
    pub rows: usize,
    pub refs: usize,
    pub pattern: Pattern,
}

impl Input {
    pub fn all() -> Vec<Input> {
        let mut inputs = Vec::new();
        for pattern in [Pattern::Uniform, Pattern::Cyclic, Pattern::Local] {
            inputs.push(Input { name: "largest", longest: true, segs: 256, rows: 64, refs: 2_048, pattern });
        }
        for refs in [2_048, 256] {
            for rows in [64, 8, 1] {
                for pattern in [Pattern::Uniform, Pattern::Cyclic, Pattern::Local] {
                    inputs.push(Input { name: "middle", longest: false, segs: 128, rows, refs, pattern });
                }
            }
        }
        inputs
    }

    pub fn title(&self) -> String {
        let pattern = format!("{:?}", self.pattern).to_lowercase();
        format!("{:<8}{:<8} rows {:>2} refs {:>4}", self.name, pattern, self.rows, self.refs)
    }

    /// The bytes of the sheets. Kind and costs change from one to the next.
    pub fn sheets(&self) -> Vec<Vec<u8>> {
        (0..(REFERENCES / self.refs) as u64).map(|number| self.sheet(&mut Prng(number + 1))).collect()
    }

    fn sheet(&self, prng: &mut Prng) -> Vec<u8> {
        let space = self.longest || prng.below(2) == 0;
        let a = if self.longest { prng.between(100, 255) } else { prng.between(0, 9) };
        let least = if self.longest { 1_000 } else { 1 };
        let sizes: Vec<u64> = (0..self.segs).map(|_| prng.between(least, 4_095)).collect();
        let lowest = if self.longest { 100 } else { 0 };
        let refs = self.references(prng, lowest);
        let rows = self.rows(prng, &retentions(space, a, &sizes, &refs));
        let mut text = format!("kind={}\na={a}\nsegs={}\n", if space { "space" } else { "time" }, self.segs);
        for size in sizes {
            text += &format!("size={size}\n");
        }
        text += &format!("rows={}\n", rows.len());
        for (h, d) in rows {
            text += &format!("row={h}/{d}\n");
        }
        text += &format!("refs={}\n", refs.len());
        for segment in refs {
            text += &format!("ref={segment}\n");
        }
        text.into_bytes()
    }

    fn references(&self, prng: &mut Prng, lowest: usize) -> Vec<usize> {
        let width = (self.segs - lowest) as u64;
        let mut base = prng.below(width);
        (0..self.refs as u64)
            .map(|step| {
                let offset = match self.pattern {
                    Pattern::Uniform => prng.below(width),
                    Pattern::Cyclic => (base + step) % width,
                    Pattern::Local => {
                        if prng.below(40) == 0 {
                            base = prng.below(width);
                        }
                        (base + prng.below(4)) % width
                    }
                };
                lowest + offset as usize
            })
            .collect()
    }

    /// Rows whose thresholds are spread over the ratios R/w of the reuses, filled up with others; any where there is no reuse.
    fn rows(&self, prng: &mut Prng, ratios: &[(u64, u64)]) -> Vec<(u64, u64)> {
        let mut rows: Vec<(u64, u64)> = Vec::new();
        let mut tries = 0;
        while rows.len() < self.rows {
            tries += 1;
            let (retention, swap) = match ratios {
                [] => (prng.between(1, 65_535), prng.between(1, 65_535)),
                _ => ratios[prng.below(ratios.len() as u64) as usize],
            };
            let scale = prng.between(20_000, 65_535);
            let (mut h, mut d) =
                if retention < swap { (scale * retention / swap, scale) } else { (scale, scale * swap / retention) };
            if tries > 20 * self.rows || (self.longest && (h < 10_000 || d < 10_000)) {
                (h, d) = (prng.between(10_000, 65_535), prng.between(10_000, 65_535));
            }
            let place = rows.iter().filter(|(other_h, other_d)| h * other_d > other_h * d).count();
            let already = rows.get(place).is_some_and(|(other_h, other_d)| h * other_d == other_h * d);
            if d > 0 && !already {
                rows.insert(place, (h, d));
            }
        }
        rows
    }
}

/// Pairs of sheets of form 3 that joined have 31,366 bytes: 128 warm segments each, touched in turns.
pub fn pairs() -> Vec<[Vec<u8>; 2]> {
    (1..=16).map(|number| pair(&mut Prng(number))).collect()
}

fn pair(prng: &mut Prng) -> [Vec<u8>; 2] {
    let part = Input { name: "part", longest: true, segs: 128, rows: 64, refs: 1_024, pattern: Pattern::Uniform };
    let a = prng.between(100, 255);
    let rows: String = part.rows(prng, &[]).iter().map(|(h, d)| format!("row={h}/{d}\n")).collect();
    let holds: String = (0..part.segs).map(|segment| format!("hold={segment}\n")).collect();
    [1, 2].map(|from| {
        let mut text = format!("form=3\nkind=space\na={a}\nsegs={}\n", part.segs);
        (0..part.segs).for_each(|_| text += &format!("size={}\n", prng.between(1_000, 4_095)));
        text += &format!("rows={}\n{rows}warm={}\n{holds}", part.rows, part.segs);
        text += &format!("steps=2048\nrefs={}\n", part.refs);
        for (place, segment) in part.references(prng, 100).into_iter().enumerate() {
            text += &format!("ref={segment}@{}\n", 2 * place + from);
        }
        text.into_bytes()
    })
}

/// The sheets of an input in form 4 with a touch in every step and no warm segment; so many of 16 touches modify.
pub fn marked(input: &Input, often: u64) -> Vec<Vec<u8>> {
    let mut prng = Prng(often);
    let text = |sheet: Vec<u8>| {
        let text = String::from_utf8(sheet).expect("text");
        let (head, touches) = text.split_once("refs=").expect("references");
        let steps = input.refs;
        let mut text = format!("form=4\n{head}warm=0\nsteps={steps}\nrefs={steps}\n");
        for (step, line) in (1..).zip(touches.lines().skip(1)) {
            text += &format!("{line}@{step}{}\n", if prng.below(16) < often { "w" } else { "" });
        }
        text.into_bytes()
    };
    input.sheets().into_iter().map(text).collect()
}

/// Din traces of 2,048 lines and 256 pages of 2 to the power k bytes, 8 digits each.
pub fn traces(count: usize, k: u64) -> Vec<Vec<u8>> {
    let trace = |number: usize| {
        let mut prng = Prng(number as u64 + 1);
        let first = prng.between(1 << 28, 1 << 30) >> k;
        let line = |place: u64| {
            let page = if place < 256 { place } else { prng.below(256) };
            format!("{} {:08x}\n", prng.below(3), (first + page) << k | prng.below(1 << k))
        };
        (0..2_048).map(line).collect::<String>().into_bytes()
    };
    (0..count).map(trace).collect()
}

/// The sheets of an input with every size 1, of kind time and a=0.
pub fn of_pages(input: &Input) -> Vec<Vec<u8>> {
    let line = |line: &str| match line.split_once('=') {
        Some(("kind", _)) => "kind=time\n".to_string(),
        Some(("a", _)) => "a=0\n".to_string(),
        Some(("size", _)) => "size=1\n".to_string(),
        _ => format!("{line}\n"),
    };
    let text = |sheet: Vec<u8>| String::from_utf8(sheet).expect("text").lines().map(line).collect::<String>();
    input.sheets().into_iter().map(|sheet| text(sheet).into_bytes()).collect()
}

/// Sheets of 64 segments and 2,048 references, of kind time and a=1. Distinct: the w are primes above 2,048 and no segment has one R twice,
/// so no ratio comes twice, and none is 0. Else all segments have one size and are touched in turn, so that all ratios are equal.
pub fn of_ratios(distinct: bool) -> Vec<Vec<u8>> {
    (1..=16).map(|number| of_ratio(&mut Prng(number), distinct)).collect()
}

fn of_ratio(prng: &mut Prng, distinct: bool) -> Vec<u8> {
    const SEGS: usize = 64;
    let prime = |number: &u64| (2..64).all(|divisor| number % divisor > 0);
    let primes: Vec<u64> = (2_049..4_096).filter(prime).collect();
    let from = prng.below((primes.len() - SEGS) as u64) as usize;
    let sizes: Vec<u64> = (from..from + SEGS).map(|place| primes[if distinct { place } else { from }] - 1).collect();
    // The last step, 0 before the first touch, and the number of each segment: those longest untouched in front.
    let mut order: Vec<(usize, usize)> = (0..SEGS).map(|segment| (0, segment)).collect();
    let mut lengths = vec![Vec::new(); SEGS];
    let mut refs = Vec::new();
    for step in 1..=2_048 {
        // Where distinct, one near the front that was never touched, or with an interval that it did not have; never the last one touched.
        let near = prng.below(8) as usize;
        let fits = |&place: &usize| {
            let (last, segment) = order[place];
            last == 0 || !lengths[segment].contains(&(step - last))
        };
        let place = if distinct { (near..SEGS - 1).chain(0..near).find(fits).expect("a segment") } else { 0 };
        let (last, segment) = order.remove(place);
        lengths[segment].push(step - last);
        order.push((step, segment));
        refs.push(segment);
    }
    let mut text = format!("kind=time\na=1\nsegs={SEGS}\n");
    sizes.iter().for_each(|size| text += &format!("size={size}\n"));
    text += "rows=1\nrow=1/1\nrefs=2048\n";
    refs.iter().for_each(|segment| text += &format!("ref={segment}\n"));
    text.into_bytes()
}

/// R and w of every reuse.
fn retentions(space: bool, a: u64, sizes: &[u64], refs: &[usize]) -> Vec<(u64, u64)> {
    let mut last = vec![None; sizes.len()];
    let mut ratios = Vec::new();
    for (step, &segment) in refs.iter().enumerate() {
        if let Some(before) = last[segment].replace(step) {
            let unreferenced = (step - before - 1) as u64;
            let retention = if space { unreferenced * sizes[segment] } else { unreferenced };
            ratios.push((retention, 1 + a * sizes[segment]));
        }
    }
    ratios
}

/// A small generator of random numbers (splitmix64).
struct Prng(u64);

impl Prng {
    fn next(&mut self) -> u64 {
        self.0 = self.0.wrapping_add(0x9e37_79b9_7f4a_7c15);
        let mut mixed = self.0;
        mixed = (mixed ^ (mixed >> 30)).wrapping_mul(0xbf58_476d_1ce4_e5b9);
        mixed = (mixed ^ (mixed >> 27)).wrapping_mul(0x94d0_49bb_1331_11eb);
        mixed ^ (mixed >> 31)
    }

    fn below(&mut self, bound: u64) -> u64 {
        self.next() % bound
    }

    fn between(&mut self, low: u64, high: u64) -> u64 {
        low + self.below(high - low + 1)
    }
}
