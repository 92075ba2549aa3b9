//! A formula read into a schedule in one pass, by recursive descent.
use crate::sheet::{self, End, Refusal, Schedule, Step};

const MAX_TEXT: usize = 200;
const MAX_NESTING: usize = 16;

/// The bytes of a formula, the position of the next one, the place of the first literal beyond the limits, and the schedule so far. Steps that there is
/// no room for are counted only.
struct Reader<'a> {
    text: &'a [u8],
    at: usize,
    beyond: Option<usize>,
    schedule: Schedule,
}

impl Reader<'_> {
    fn here(&self) -> Option<u8> {
        self.text.get(self.at).copied()
    }

    fn wrong(&self) -> Refusal {
        Refusal { number: 10, place: self.at + 1 }
    }

    /// Puts a step behind the others: its row.
    fn put(&mut self, code: i64, first: usize, second: usize, value: i64) -> usize {
        if let Some(room) = self.schedule.step.get_mut(self.schedule.steps) {
            *room = Step { code, first, second, value };
        }
        self.schedule.steps += 1;
        self.schedule.inputs + self.schedule.steps
    }

    /// A sum, inside of which so many brackets may still be opened: its row.
    fn sum(&mut self, depth: usize) -> Result<usize, Refusal> {
        let mut left = self.product(depth)?;
        loop {
            let code = match self.here() {
                Some(b'+') => 2,
                Some(b'-') => 3,
                _ => return Ok(left),
            };
            self.at += 1;
            let right = self.product(depth)?;
            left = self.put(code, left, right, 0);
        }
    }

    fn product(&mut self, depth: usize) -> Result<usize, Refusal> {
        let mut left = self.operand(depth)?;
        while let Some(sign @ (b'*' | b'/')) = self.here() {
            self.at += 1;
            let mut right = self.operand(depth)?;
            if sign == b'/' {
                right = self.put(5, right, 0, 0);
            }
            left = self.put(4, left, right, 0);
        }
        Ok(left)
    }

    fn operand(&mut self, depth: usize) -> Result<usize, Refusal> {
        match self.here() {
            Some(b'0'..=b'9') => Ok(self.literal()),
            Some(b'(') if depth > 0 => self.bracket(depth - 1),
            Some(letter @ b'a'..=b'z') if usize::from(letter - b'a') < self.schedule.inputs => {
                self.at += 1;
                Ok(usize::from(letter - b'a') + 1)
            }
            _ => Err(self.wrong()),
        }
    }

    fn bracket(&mut self, depth: usize) -> Result<usize, Refusal> {
        self.at += 1;
        let row = self.sum(depth)?;
        if self.here() != Some(b')') {
            return Err(self.wrong());
        }
        self.at += 1;
        Ok(row)
    }

    /// A zero, or digits that do not begin with one. Every value above the limit becomes one above it.
    fn literal(&mut self) -> usize {
        let place = self.at + 1;
        let mut value = 0;
        while let Some(digit @ b'0'..=b'9') = self.here() {
            value = (value * 10 + i64::from(digit - b'0')).min(sheet::END_LIMIT + 1);
            self.at += 1;
            if value == 0 {
                break;
            }
        }
        if value > sheet::END_LIMIT && self.beyond.is_none() {
            self.beyond = Some(place);
        }
        self.put(1, 0, 0, value)
    }

    /// The whole text is a sum.
    fn formula(&mut self) -> Result<(), Refusal> {
        self.sum(MAX_NESTING)?;
        if self.at < self.text.len() { Err(self.wrong()) } else { Ok(()) }
    }
}

/// The schedule with these inputs and no step yet, tested by 3 and 4.
fn inputs(squares: i64, ends: &[End]) -> Result<Schedule, Refusal> {
    if !sheet::counts_pass(ends.len() as i64, squares, 1) {
        return Err(Refusal { number: 3, place: 2 });
    }
    if let Some(i) = ends.iter().position(|end| !sheet::end_passes(end.low, end.high)) {
        return Err(Refusal { number: 4, place: 4 + i });
    }
    let mut schedule = Schedule { inputs: ends.len(), squares: squares as usize, ..Schedule::ZERO };
    schedule.ends[..ends.len()].copy_from_slice(ends);
    Ok(schedule)
}

pub fn read(squares: i64, ends: &[End], text: &[u8]) -> Result<Schedule, Refusal> {
    let schedule = inputs(squares, ends)?;
    let within = &text[..text.len().min(MAX_TEXT)];
    let mut reader = Reader { text: within, at: 0, beyond: None, schedule };
    reader.formula()?;
    if text.len() > MAX_TEXT {
        return Err(Refusal { number: 10, place: MAX_TEXT + 1 });
    }
    if let Some(place) = reader.beyond {
        return Err(Refusal { number: 5, place });
    }
    if !(1..=reader.schedule.step.len()).contains(&reader.schedule.steps) {
        return Err(Refusal { number: 11, place: 0 });
    }
    Ok(reader.schedule)
}
