//! The program in plain Rust: one loop of reads into a buffer, one write.

use figures::plain::{refusal_text, text, MAX_OUTPUT, MAX_SHEET};
use std::io::{self, Read, Write};

fn main() -> io::Result<()> {
    let mut sheet = [0; MAX_SHEET + 1];
    let mut done = 0;
    let mut input = io::stdin().lock();
    while done < sheet.len() {
        match input.read(&mut sheet[done..])? {
            0 => break,
            more => done += more,
        }
    }
    let mut out = [0; MAX_OUTPUT];
    let n = text(&sheet[..done], &mut out)
        .or_else(|refusal| refusal_text(refusal.report as u64, refusal.place as u64, &mut out))
        .unwrap_or(0);
    let mut output = io::stdout().lock();
    output.write_all(&out[..n])?;
    output.flush()
}
