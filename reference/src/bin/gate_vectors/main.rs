//! The cases of the gate's program `vectors`, and what it has to write for them.
//!
//! `gate_vectors crates` writes stdin and stdout of the program into its
//! folder below `crates`, always the same. The answers are the second
//! implementation's.
//!
//! # Calls
//!
//! Numbers and slices only. The words on the right are those of
//! docs/SPECIFICATION.md; lent lists are starred. The numbers of the calls are
//! those of `reference/calls.txt`.
//!
//! ```text
//! evaluate(minutes, values, point, bandwidth, row*)        the question at one mark: its row
//! window(minutes, values, point, bandwidth, bounds*)       the same question: its run
//! advance(record*, minutes, values, point, bandwidth)      the single step
//! turn(record*, minutes, values, point, bandwidth)         the turn
//! row(record, point, bandwidth, row*)                      the row of a record
//!
//! smooth(minutes, values, points, bandwidths, rows*)       the sweep
//! preview(minutes, values, points, bandwidths, rows*)      the preview
//! fill(first, spacing, preset, points*, bandwidths*)       the mark filler
//!
//! read(sheet, minutes*, values*, points*, bandwidths*, counts*)   the reader
//!
//! text(sheet, out*)                                        the curve that the program writes
//! text lent                                                the same, with a buffer of another length
//! refusal_text(number, place, out*)                        the refusal that the program writes
//! refusal_text lent                                        the same, with a buffer of another length
//!
//! first_at_most(minutes, values, points, bandwidths, limit, position*)   the first mark at or below a limit
//! decisive(minutes, values, point, bandwidth, limit, position*)          the reading that decides
//!
//! compare(minutes, values, minutes, values, points, bandwidths, out*)    two tanks, and the run handed back
//! window run(minutes, values, point, bandwidth)            the run handed back
//!
//! neighbours(minutes, values, points, k, bandwidths*, rows*)   half widths by neighbours
//!
//! biweight(minutes, values, point, row*)                   the biweight row at one mark
//!
//! doubles(weight, number, doubles*)                        a weight or a sum as doubles
//! row cells(row)                                           both of a row, by the call that takes a row
//!
//! smooth_ranges(minutes, lows, highs, points, bandwidths, rows*)                         the sweep over ranges
//! read_ranges(sheet, minutes*, lows*, highs*, points*, bandwidths*, counts*)             the reader of both kinds
//!
//! boxes(minutes, temperatures, values, points, bandwidths, points, bandwidths, boxes*, counts*, sums*)   minute and temperature together
//! ```
//!
//! An answer is a number and a detail. Number 0 is accepted, with the passes
//! of a sweep or a preview or up to the mark that answers, the bytes of a text, the
//! higher of two tanks, how many doubles are used, else 0 as detail; 1 to 17 is
//! a report, with its place. The lists for a row, bounds, a record, counts, a position, a
//! parting and doubles have one length only (`ROW_WIDTH`, `BOUNDS`, `RECORD`, `COUNTS`,
//! `RANGE_COUNTS`, `ANSWER`, `PARTING`, `DOUBLES`), and out has `MOST_OUTPUT` bytes.
//! Another length of these is report 8 at place 0, before any other. A refused
//! sheet has no curve: text then answers with the sheet's report, and
//! refusal_text writes the text of any number and place.
//!
//! # Standard input
//!
//! Each case is headed by its size in bytes, as five digits and a line feed. A
//! case is decimal numbers, each followed by exactly one byte, a space or a
//! line feed: its call's number, and then what the call takes. A list is its length and
//! then its numbers:
//!
//! ```text
//! evaluate           MINUTES VALUES point bandwidth length-of-row
//! window             MINUTES VALUES point bandwidth length-of-bounds
//! advance            RECORD MINUTES VALUES point bandwidth
//! turn               RECORD MINUTES VALUES point bandwidth
//! row                RECORD point bandwidth length-of-row
//! smooth             MINUTES VALUES POINTS BANDWIDTHS length-of-rows
//! preview            MINUTES VALUES POINTS BANDWIDTHS length-of-rows
//! fill               first spacing preset length-of-points length-of-bandwidths
//! read               length-of-minutes -values -points -bandwidths -counts SHEET
//! text               SHEET
//! text lent          length-of-out SHEET
//! refusal_text       number place
//! refusal_text lent  number place length-of-out
//! first_at_most      MINUTES VALUES POINTS BANDWIDTHS limit length-of-position
//! decisive           MINUTES VALUES point bandwidth limit length-of-position
//! compare            MINUTES VALUES MINUTES VALUES POINTS BANDWIDTHS length-of-out
//! window run         MINUTES VALUES point bandwidth
//! neighbours         MINUTES VALUES POINTS k length-of-bandwidths length-of-rows
//! biweight           MINUTES VALUES point length-of-row
//! doubles            weight number length-of-doubles
//! row cells          left right weight sum value
//! smooth_ranges      MINUTES LOWS HIGHS POINTS BANDWIDTHS length-of-rows
//! read_ranges        length-of-minutes -lows -highs -points -bandwidths -counts SHEET
//! boxes              MINUTES TEMPERATURES VALUES POINTS BANDWIDTHS POINTS BANDWIDTHS length-of-boxes -counts -sums
//! ```
//!
//! The bytes of a sheet stand as they are, up to the end of the case. There are
//! at most 1,100 minutes, values, points or bandwidths, 2,600 rows, 3,600 over ranges, 16 numbers
//! of a record, 8 of a row, bounds, counts, a position, a parting or doubles, 44,200 bytes of
//! out, 40 points or bandwidths, 2,400 boxes and 4,300 counts or sums of boxes, 40,000 bytes of a case and 100,000 cases.
//!
//! # Standard output
//!
//! For each case a line `number detail`, then each lent list as it is after the
//! call, whole, a line each. A list is written as runs of equal elements, each
//! `VALUE` or, for more than one, `VALUE*COUNT`, and a space behind each run.
//! Before the call a lent list holds 7 everywhere, except the record of a step,
//! which the case gives. Doubles are written by their bit patterns, and hold 7 as a double
//! before the call; of a row the doubles of its weight and then those of its sum are
//! written, as two lists. For an accepted text the bytes written stand as they are before
//! the line of out's other bytes. A run that is handed back has a line with its
//! length, as an answer's number and detail, and one with its values.

mod biweight;
mod boxes;
mod calls;
mod doubles;
mod draws;
mod files;
mod limit;
mod neighbours;
mod pair;
mod point;
mod ranges;
mod sheet;
mod sweep;
mod text;

use files::Cases;
use reference::generators::random::Random;
use std::path::PathBuf;

/// Every case, each call's random ones last.
fn all() -> Cases {
    let mut cases = Cases::default();
    point::cases(&mut cases);
    sweep::cases(&mut cases);
    sheet::cases(&mut cases);
    text::cases(&mut cases);
    limit::cases(&mut cases);
    neighbours::cases(&mut cases);
    pair::cases(&mut cases);
    biweight::cases(&mut cases);
    boxes::cases(&mut cases);
    doubles::cases(&mut cases);
    ranges::cases(&mut cases);
    let random = &mut Random(1);
    point::random_cases(random, &mut cases);
    sweep::random_cases(random, &mut cases);
    sheet::random_cases(random, &mut cases);
    text::random_cases(random, &mut cases);
    limit::random_cases(random, &mut cases);
    neighbours::random_cases(&mut cases);
    pair::random_cases(&mut Random(12), &mut cases);
    biweight::random_cases(&mut cases);
    doubles::random_cases(&mut Random(11), &mut cases);
    ranges::random_cases(&mut cases);
    boxes::random_cases(&mut cases);
    cases
}

fn main() -> std::io::Result<()> {
    let words: Vec<PathBuf> = std::env::args_os().skip(1).map(PathBuf::from).collect();
    let [folder] = &words[..] else {
        eprintln!("use: gate_vectors FOLDER");
        std::process::exit(2);
    };
    let cases = all();
    cases.check();
    cases.write(folder)
}
