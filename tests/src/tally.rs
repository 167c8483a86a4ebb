//! How many calls were compared, and how often each refusal was reached.

#[derive(Clone, Default)]
pub struct Tally {
    calls: u64,
    /// For each number: the calls refused with it, and the sheets that had such a call.
    refused: [u64; NUMBERS],
    sheets: [u64; NUMBERS],
    reached: [bool; NUMBERS],
    /// The calls of each number on bytes that begin with form=4.
    of_form_4: [u64; NUMBERS],
    /// Whether the calls are on such bytes now.
    pub form_4: bool,
}

/// One more than the largest number of a refusal.
const NUMBERS: usize = 29;

impl Tally {
    /// The numbers that every whole run must reach.
    const REQUIRED: std::ops::Range<usize> = 1..NUMBERS;
    /// Those that no call gives for a sheet of form 4: of the recorder, the converter back, and joining.
    const NOT_FORM_4: [usize; 5] = [13, 17, 20, 21, 22];

    /// Notes a compared call of this sheet and the number that it returned.
    pub fn note(&mut self, number: u64) {
        self.calls += 1;
        if (1..NUMBERS as u64).contains(&number) {
            self.refused[number as usize] += 1;
            self.reached[number as usize] = true;
            self.of_form_4[number as usize] += u64::from(self.form_4);
        }
    }

    /// The same for a call on a recorder. Its 4 is not the sheet's, which alone counts as a sheet's 4.
    pub fn note_recorder(&mut self, number: u64) {
        let reached = self.reached[4];
        self.note(number);
        self.reached[4] = reached;
    }

    pub fn end_of_sheet(&mut self) {
        for (count, reached) in self.sheets.iter_mut().zip(&mut self.reached) {
            *count += u64::from(std::mem::take(reached));
        }
    }

    /// Adds what another thread counted.
    pub fn add(&mut self, other: &Tally) {
        self.calls += other.calls;
        for number in 0..NUMBERS {
            self.refused[number] += other.refused[number];
            self.sheets[number] += other.sheets[number];
            self.of_form_4[number] += other.of_form_4[number];
        }
    }

    pub fn calls(&self) -> u64 {
        self.calls
    }

    /// A line for each number with its calls, its sheets and its calls of form 4.
    pub fn lines(&self) -> String {
        let lines: Vec<String> = Self::REQUIRED
            .map(|number| {
                let (calls, sheets, of_form_4) = (self.refused[number], self.sheets[number], self.of_form_4[number]);
                format!("  {number:>2}: {calls:>10} calls, {sheets:>9} sheets, {of_form_4:>9} calls of form 4")
            })
            .collect();
        lines.join("\n")
    }

    /// The required numbers that no sheet reached, or no sheet of form 4.
    pub fn missing(&self) -> Vec<usize> {
        let unreached = |number: &usize| {
            self.sheets[*number] == 0 || self.of_form_4[*number] == 0 && !Self::NOT_FORM_4.contains(number)
        };
        Self::REQUIRED.filter(unreached).collect()
    }
}
