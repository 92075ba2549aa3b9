//! Evaluation into a table of rows and a table of their answered ranges.
use crate::intervals;
use crate::rows::{self, Answer, Range, Row, ROWS_LIMIT};
use crate::sheet::{Refusal, Schedule};

pub fn evaluate(schedule: &Schedule, table: &mut [Row], ranges: &mut [Range]) -> Result<(), Refusal> {
    schedule.test()?;
    let rows = schedule.inputs + schedule.steps;
    if table.len() < rows || ranges.len() < rows {
        return Err(Refusal { number: 8, place: 0 });
    }
    let mut own_ranges = [Range::ZERO; ROWS_LIMIT];
    for own in 0..rows {
        match work_row(schedule, table, &own_ranges, own) {
            Ok((row, range)) => {
                table[own] = row;
                own_ranges[own] = range;
                ranges[own] = answered(schedule, ranges, own, range);
            }
            Err(number) => return Err(Refusal { number, place: own + 1 }),
        }
    }
    Ok(())
}

/// A row and its own range. Reciprocals and roots go by the own range of their operand.
fn work_row(schedule: &Schedule, table: &[Row], own_ranges: &[Range], own: usize) -> Answer {
    if own < schedule.inputs {
        let end = &schedule.ends[own];
        return rows::input(own, end.low, end.high);
    }
    let step = &schedule.step[own - schedule.inputs];
    let squares = schedule.squares;
    match step.code {
        1 => rows::constant(step.value),
        2 => rows::add(&table[step.first - 1], &table[step.second - 1]),
        3 => rows::subtract(&table[step.first - 1], &table[step.second - 1]),
        4 => rows::multiply(&table[step.first - 1], &table[step.second - 1], squares, own),
        5 => rows::reciprocal(&table[step.first - 1], own_ranges[step.first - 1], squares, own),
        _ => rows::root(&table[step.first - 1], own_ranges[step.first - 1], squares, own),
    }
}

/// The overlap of a row's own range with its plain one, which is made from the answered ranges of its operands. Of an input and of a
/// constant both are the same.
fn answered(schedule: &Schedule, ranges: &[Range], own: usize, own_range: Range) -> Range {
    if own < schedule.inputs {
        return own_range;
    }
    let step = &schedule.step[own - schedule.inputs];
    let plain = match step.code {
        1 => return own_range,
        2 => intervals::add(ranges[step.first - 1], ranges[step.second - 1]),
        3 => intervals::subtract(ranges[step.first - 1], ranges[step.second - 1]),
        4 => intervals::multiply(ranges[step.first - 1], ranges[step.second - 1]),
        5 => intervals::reciprocal(ranges[step.first - 1]),
        _ => intervals::root(ranges[step.first - 1]),
    };
    intervals::overlap(own_range, plain)
}
