//! Schedule sheets: reading, and the tests 3, 4 and 5.
pub const INPUTS_LIMIT: usize = 8;
pub const STEPS_LIMIT: usize = 40;
pub const BYTES_LIMIT: usize = 1024;
pub const END_LIMIT: i64 = 268_435_456;

pub struct Refusal {
    pub number: u64,
    pub place: usize,
}

#[derive(Clone, Copy)]
pub struct End {
    pub low: i64,
    pub high: i64,
}

impl End {
    const ZERO: End = End { low: 0, high: 0 };
}

#[derive(Clone, Copy)]
pub struct Step {
    pub code: i64,
    pub first: usize,
    pub second: usize,
    pub value: i64,
}

impl Step {
    const ZERO: Step = Step { code: 0, first: 0, second: 0, value: 0 };
}

pub struct Schedule {
    pub inputs: usize,
    pub squares: usize,
    pub steps: usize,
    pub ends: [End; INPUTS_LIMIT],
    pub step: [Step; STEPS_LIMIT],
}

pub fn counts_pass(inputs: i64, squares: i64, steps: i64) -> bool {
    (1..=INPUTS_LIMIT as i64).contains(&inputs) && (0..=inputs).contains(&squares) && (1..=STEPS_LIMIT as i64).contains(&steps)
}

fn within_limit(z: i64) -> bool {
    (-END_LIMIT..=END_LIMIT).contains(&z)
}

pub fn end_passes(low: i64, high: i64) -> bool {
    within_limit(low) && within_limit(high) && low <= high
}

fn step_passes(earlier: usize, code: i64, first: i64, second: i64, value: i64) -> bool {
    let rows = 1..=earlier as i64;
    match code {
        1 => first == 0 && second == 0 && within_limit(value),
        2..=4 => rows.contains(&first) && rows.contains(&second) && value == 0,
        5 | 6 => rows.contains(&first) && second == 0 && value == 0,
        _ => false,
    }
}

impl Schedule {
    pub const ZERO: Schedule = Schedule { inputs: 0, squares: 0, steps: 0, ends: [End::ZERO; INPUTS_LIMIT], step: [Step::ZERO; STEPS_LIMIT] };

    /// Tests 3, 4 and 5, as the lines would stand.
    pub fn test(&self) -> Result<(), Refusal> {
        if !counts_pass(self.inputs as i64, self.squares as i64, self.steps as i64) {
            return Err(Refusal { number: 3, place: 2 });
        }
        for (i, end) in self.ends[..self.inputs].iter().enumerate() {
            if !end_passes(end.low, end.high) {
                return Err(Refusal { number: 4, place: 4 + i });
            }
        }
        for (i, step) in self.step[..self.steps].iter().enumerate() {
            if !step_passes(self.inputs + i, step.code, step.first as i64, step.second as i64, step.value) {
                return Err(Refusal { number: 5, place: 5 + self.inputs + i });
            }
        }
        Ok(())
    }
}

/// The rest of a sheet, and how many lines were taken from it.
struct Lines<'a> {
    rest: &'a [u8],
    taken: usize,
}

impl<'a> Lines<'a> {
    fn refusal(&self, number: u64) -> Refusal {
        Refusal { number, place: self.taken }
    }

    fn next(&mut self) -> Result<&'a [u8], Refusal> {
        self.taken += 1;
        let end = self.rest.iter().position(|&b| b == b'\n').ok_or(self.refusal(2))?;
        let line = &self.rest[..end];
        self.rest = &self.rest[end + 1..];
        Ok(line)
    }

    fn names(&mut self, names: &[u8]) -> Result<(), Refusal> {
        if self.next()? == names { Ok(()) } else { Err(self.refusal(2)) }
    }

    fn numbers<const WIDTH: usize>(&mut self) -> Result<[i64; WIDTH], Refusal> {
        let mut fields = self.next()?.split(|&b| b == b' ');
        let mut numbers = [0; WIDTH];
        for n in &mut numbers {
            *n = fields.next().and_then(number).ok_or(self.refusal(2))?;
        }
        if fields.next().is_some() { Err(self.refusal(2)) } else { Ok(numbers) }
    }
}

pub fn number(field: &[u8]) -> Option<i64> {
    let digits = field.strip_prefix(b"-").unwrap_or(field);
    let minus = digits.len() < field.len();
    if digits.is_empty() || digits.len() > 10 || (digits[0] == b'0' && (minus || digits.len() > 1)) {
        return None;
    }
    let mut value = 0;
    for &b in digits {
        if !b.is_ascii_digit() {
            return None;
        }
        value = value * 10 + (b - b'0') as i64;
    }
    Some(if minus { -value } else { value })
}

pub fn read(bytes: &[u8]) -> Result<Schedule, Refusal> {
    if bytes.len() > BYTES_LIMIT {
        return Err(Refusal { number: 1, place: 0 });
    }
    let mut lines = Lines { rest: bytes, taken: 0 };
    let mut schedule = Schedule::ZERO;
    lines.names(b"inputs squares steps")?;
    let [inputs, squares, steps] = lines.numbers()?;
    if !counts_pass(inputs, squares, steps) {
        return Err(lines.refusal(3));
    }
    schedule.inputs = inputs as usize;
    schedule.squares = squares as usize;
    schedule.steps = steps as usize;
    lines.names(b"low high")?;
    for i in 0..schedule.inputs {
        let [low, high] = lines.numbers()?;
        if !end_passes(low, high) {
            return Err(lines.refusal(4));
        }
        schedule.ends[i] = End { low, high };
    }
    lines.names(b"step first second value")?;
    for i in 0..schedule.steps {
        let [code, first, second, value] = lines.numbers()?;
        if !step_passes(schedule.inputs + i, code, first, second, value) {
            return Err(lines.refusal(5));
        }
        schedule.step[i] = Step { code, first: first as usize, second: second as usize, value };
    }
    if !lines.rest.is_empty() {
        return Err(Refusal { number: 2, place: lines.taken + 1 });
    }
    Ok(schedule)
}
