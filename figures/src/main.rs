//! figures PROGRAM PLAIN: compares the contestants' answers, then prints times and instruction counts as
//! Markdown. PROGRAM is the proved program, PLAIN the one in plain Rust.
//! figures calls CALL PART BANDWIDTH TIMES: makes one call so many times, for an instruction count.
//! figures calls CALL SHEET TIMES: the same over a sheet by its name.

mod contestants;
mod measure;
mod tables;

use figures::inputs;
use std::env;
use std::process::ExitCode;

fn main() -> ExitCode {
    let words: Vec<String> = env::args().skip(1).collect();
    let words: Vec<&str> = words.iter().map(String::as_str).collect();
    let done = match words[..] {
        ["calls", call, part, bandwidth, times] => repeated(call, part, bandwidth, times),
        ["calls", call, sheet, times] => repeated_over(call, sheet, times),
        [program, plain] => tables::print(program, plain),
        _ => Err(String::from("usage: figures PROGRAM PLAIN")),
    };
    match done {
        Ok(()) => ExitCode::SUCCESS,
        Err(message) => {
            eprintln!("figures: {message}");
            ExitCode::FAILURE
        }
    }
}

fn repeated_over(call: &str, sheet: &str, times: &str) -> Result<(), String> {
    let call = contestants::CALLS.iter().find(|c| c.name == call);
    let sheet = inputs::sheets().into_iter().find(|s| s.name == sheet);
    let (Some(call), Some(sheet), Ok(times)) = (call, sheet, times.parse()) else {
        return Err(String::from("bad words after calls"));
    };
    measure::repeat(call, &inputs::input(1, 1).with_sheet(sheet.sheet), times);
    Ok(())
}

fn repeated(call: &str, part: &str, bandwidth: &str, times: &str) -> Result<(), String> {
    let call = contestants::CALLS.iter().find(|c| c.name == call);
    let (Some(call), Ok(part), Ok(bandwidth), Ok(times)) =
        (call, part.parse(), bandwidth.parse(), times.parse())
    else {
        return Err(String::from("bad words after calls"));
    };
    measure::repeat(call, &inputs::input(part, bandwidth), times);
    Ok(())
}
