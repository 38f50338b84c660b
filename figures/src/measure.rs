//! Times and instruction counts.

use crate::contestants::Contestant;
use figures::inputs::{Buffers, Input};
use std::env;
use std::hint::black_box;
use std::io::{Read, Write};
use std::process::{Command, Stdio};
use std::time::{Duration, Instant};

/// How many rounds a call is timed in, and for about how long in each.
pub const ROUNDS: usize = 1001;
pub const BATCH: Duration = Duration::from_micros(150);

/// How many rounds a process is timed in.
pub const PROCESS_ROUNDS: usize = 401;

/// How many calls are counted.
pub const COUNTED_CALLS: u64 = 8;

/// The times of one contestant, a round each, in nanoseconds for one call.
pub type Times = Vec<f64>;

pub fn repeat(contestant: &Contestant, input: &Input, times: usize) {
    let mut lent = Buffers::marked();
    for _ in 0..times {
        black_box((contestant.call)(black_box(input), black_box(&mut lent)));
    }
}

/// Times the contestants in turn, a batch each in every round, another one first each round.
pub fn times(contestants: &[(&Contestant, &Input)]) -> Vec<Times> {
    let mut lent = Buffers::marked();
    let mut batch = |(contestant, input): (&Contestant, &Input), calls: usize| {
        let began = Instant::now();
        for _ in 0..calls {
            black_box((contestant.call)(black_box(input), black_box(&mut lent)));
        }
        began.elapsed().as_nanos() as f64 / calls as f64
    };
    let mut calls = Vec::new();
    for &contestant in contestants {
        let least = least(&(0..20).map(|_| batch(contestant, 1)).collect::<Times>());
        calls.push((BATCH.as_nanos() as f64 / least).max(1.0) as usize);
    }
    let mut times = vec![Times::new(); contestants.len()];
    for round in 0..ROUNDS {
        for turn in 0..contestants.len() {
            let k = (round + turn) % contestants.len();
            times[k].push(batch(contestants[k], calls[k]));
        }
    }
    times
}

/// What a process writes for these bytes on standard input.
pub fn written(program: &str, sheet: &[u8]) -> Result<Vec<u8>, String> {
    let fault = |error| format!("{program}: {error}");
    let mut child = Command::new(program)
        .stdin(Stdio::piped())
        .stdout(Stdio::piped())
        .spawn()
        .map_err(fault)?;
    let mut output = Vec::with_capacity(65_536);
    // Dropped when written, so the process meets the end. A sheet fits a pipe.
    let mut input = child.stdin.take().expect("a piped input");
    input.write_all(sheet).map_err(fault)?;
    drop(input);
    let mut from = child.stdout.take().expect("a piped output");
    from.read_to_end(&mut output).map_err(fault)?;
    child.wait().map_err(fault)?;
    Ok(output)
}

/// Times the programs in turn, from start to end.
pub fn process_times(programs: &[(&str, &[u8])]) -> Result<Vec<Times>, String> {
    let mut times = vec![Times::new(); programs.len()];
    for round in 0..PROCESS_ROUNDS {
        for turn in 0..programs.len() {
            let k = (round + turn) % programs.len();
            let (program, sheet) = programs[k];
            let began = Instant::now();
            black_box(written(program, sheet)?);
            times[k].push(began.elapsed().as_nanos() as f64);
        }
    }
    Ok(times)
}

pub fn least(times: &Times) -> f64 {
    times.iter().copied().fold(f64::INFINITY, f64::min)
}

/// The median over all rounds of one contestant's time divided by another's.
pub fn median_ratio(of: &Times, by: &Times) -> f64 {
    let mut ratios: Vec<f64> = of.iter().zip(by).map(|(a, b)| a / b).collect();
    ratios.sort_by(f64::total_cmp);
    ratios[ratios.len() / 2]
}

/// The instructions of a command under callgrind.
fn counted(words: &[&str], sheet: &[u8]) -> Result<u64, String> {
    let fault = |error| format!("valgrind: {error}");
    let mut child = Command::new("valgrind")
        .args(["--tool=callgrind", "--callgrind-out-file=/dev/null"])
        .args(words)
        .stdin(Stdio::piped())
        .stdout(Stdio::null())
        .stderr(Stdio::piped())
        .spawn()
        .map_err(fault)?;
    let mut input = child.stdin.take().expect("a piped input");
    input.write_all(sheet).map_err(fault)?;
    drop(input);
    let ended = child.wait_with_output().map_err(fault)?;
    let said = String::from_utf8_lossy(&ended.stderr);
    let line = said.lines().find(|line| line.contains("Collected :"));
    line.and_then(|line| line.rsplit(' ').next())
        .and_then(|number| number.parse().ok())
        .ok_or_else(|| format!("callgrind counted nothing: {said}"))
}

/// The instructions of one call: what so many calls more add, divided.
pub fn instructions(name: &str, part: usize, bandwidth: u32) -> Result<u64, String> {
    added_instructions(&[name, &part.to_string(), &bandwidth.to_string()])
}

/// The instructions of one call over the sheet of this name.
pub fn sheet_instructions(name: &str, sheet: &str) -> Result<u64, String> {
    added_instructions(&[name, sheet])
}

fn added_instructions(words: &[&str]) -> Result<u64, String> {
    let own = env::current_exe().map_err(|error| error.to_string())?;
    let own = own.to_string_lossy().into_owned();
    let count = |calls: u64| {
        let calls = calls.to_string();
        counted(&[&[&own, "calls"], words, &[&calls]].concat(), b"")
    };
    let added = count(2 * COUNTED_CALLS)? - count(COUNTED_CALLS)?;
    Ok(added / COUNTED_CALLS)
}

/// The instructions of a whole process, its start included.
pub fn process_instructions(program: &str, sheet: &[u8]) -> Result<u64, String> {
    counted(&[program], sheet)
}
