//! The program `formula` written plainly in Rust, to be measured beside it: a formula, the squares and the ends are its arguments, and the sheet or the
//! refusal is printed with one write. A wrong call prints how to call it, on standard error, and ends with status 2.
#[path = "../formula.rs"]
mod formula;
#[allow(dead_code)] // no sheet is read here
#[path = "../sheet.rs"]
mod sheet;

use sheet::{End, Refusal, Schedule};
use std::fmt::Write as _;
use std::io::Write;
use std::os::unix::ffi::OsStringExt;

const HOW_TO_CALL: &str = "call: formula FORMULA SQUARES LOW HIGH LOW HIGH ..., as formula '(a+8192)*b' 2 -512 512 4096 8192";

/// The arguments of a right call.
struct Call {
    formula: Vec<u8>,
    squares: i64,
    ends: Vec<End>,
}

fn call() -> Option<Call> {
    let mut words = std::env::args_os().skip(1).map(OsStringExt::into_vec);
    let formula = words.next()?;
    let squares = sheet::number(&words.next()?)?;
    let mut ends = Vec::with_capacity(sheet::INPUTS_LIMIT);
    while let Some(word) = words.next() {
        let low = sheet::number(&word)?;
        let high = sheet::number(&words.next()?)?;
        ends.push(End { low, high });
    }
    Some(Call { formula, squares, ends })
}

fn sheet_text(schedule: &Schedule) -> Result<String, std::fmt::Error> {
    let mut text = String::with_capacity(sheet::BYTES_LIMIT);
    text.push_str("inputs squares steps\n");
    writeln!(text, "{} {} {}", schedule.inputs, schedule.squares, schedule.steps)?;
    text.push_str("low high\n");
    for end in &schedule.ends[..schedule.inputs] {
        writeln!(text, "{} {}", end.low, end.high)?;
    }
    text.push_str("step first second value\n");
    for step in &schedule.step[..schedule.steps] {
        writeln!(text, "{} {} {} {}", step.code, step.first, step.second, step.value)?;
    }
    Ok(text)
}

fn answer(call: &Call) -> Result<String, Refusal> {
    let schedule = formula::read(call.squares, &call.ends, &call.formula)?;
    Ok(sheet_text(&schedule).expect("a string takes any text"))
}

fn main() {
    let Some(call) = call() else {
        eprintln!("{HOW_TO_CALL}");
        std::process::exit(2);
    };
    let text = answer(&call).unwrap_or_else(|refusal| format!("refused place\n{} {}\n", refusal.number, refusal.place));
    std::io::stdout().write_all(text.as_bytes()).expect("standard output can be written");
}
