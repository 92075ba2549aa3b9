//! The specification written plainly in Rust, to be timed beside `bench_evaluate`: standard input has a line with a count N and then a
//! sheet; the sheet is read, evaluated N times into one table of rows and one of answered ranges, and one line is printed: N, and the last
//! row's low and high.
mod evaluation;
mod intervals;
mod rows;
mod sheet;

use rows::{Range, Row, ROWS_LIMIT};
use sheet::Refusal;
use std::io::Read;

fn run(input: &[u8]) -> Result<String, Refusal> {
    let line = input.iter().position(|&b| b == b'\n').unwrap_or(input.len());
    let times: u64 = std::str::from_utf8(&input[..line]).ok().and_then(|s| s.parse().ok()).unwrap_or(0);
    let schedule = sheet::read(input.get(line + 1..).unwrap_or(&[]))?;
    let mut table = [Row::ZERO; ROWS_LIMIT];
    let mut ranges = [Range::ZERO; ROWS_LIMIT];
    let mut answer = Ok(());
    for _ in 0..times {
        answer = evaluation::evaluate(std::hint::black_box(&schedule), &mut table, &mut ranges);
    }
    answer?;
    let Range { low, high } = ranges[schedule.inputs + schedule.steps - 1];
    Ok(format!("{times} {low} {high}"))
}

fn main() {
    let mut input = Vec::new();
    std::io::stdin().read_to_end(&mut input).expect("standard input can be read");
    match run(&input) {
        Ok(line) => println!("{line}"),
        Err(refusal) => println!("refused {} {}", refusal.number, refusal.place),
    }
}
