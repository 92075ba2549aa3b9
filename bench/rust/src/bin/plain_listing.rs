//! The program `ranges` written plainly in Rust, to be measured beside it: a sheet is read from standard input, and its listing or its refusal is
//! printed with one write.
#[path = "../evaluation.rs"]
mod evaluation;
#[path = "../intervals.rs"]
mod intervals;
#[path = "../rows.rs"]
mod rows;
#[path = "../sheet.rs"]
mod sheet;

use rows::{Range, Row, ROWS_LIMIT};
use sheet::Refusal;
use std::fmt::Write as _;
use std::io::{Read, Write};

/// One byte more than a sheet may have.
const SHEET_ROOM: u64 = sheet::BYTES_LIMIT as u64 + 1;

/// The number of the first row that is the same as the row of an index and stands before it, or 0.
fn first_same(rows: &[Row], index: usize) -> usize {
    rows[..index].iter().position(|earlier| *earlier == rows[index]).map_or(0, |first| first + 1)
}

fn listing(input: &[u8]) -> Result<String, Refusal> {
    let schedule = sheet::read(input)?;
    let mut table = [Row::ZERO; ROWS_LIMIT];
    let mut ranges = [Range::ZERO; ROWS_LIMIT];
    evaluation::evaluate(&schedule, &mut table, &mut ranges)?;
    let rows = &table[..schedule.inputs + schedule.steps];
    let mut text = String::with_capacity(4096);
    text.push_str("row low high own same\n");
    for (index, (row, Range { low, high })) in rows.iter().zip(&ranges).enumerate() {
        let own = row.linear[index];
        writeln!(text, "{} {low} {high} {own} {}", index + 1, first_same(rows, index)).expect("a string takes any text");
    }
    Ok(text)
}

fn main() {
    let mut input = Vec::with_capacity(2048);
    std::io::stdin().take(SHEET_ROOM).read_to_end(&mut input).expect("standard input can be read");
    let text = listing(&input).unwrap_or_else(|refusal| format!("refused place\n{} {}\n", refusal.number, refusal.place));
    std::io::stdout().write_all(text.as_bytes()).expect("standard output can be written");
}
