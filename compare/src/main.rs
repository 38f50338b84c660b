//! Compares every proved call and the program with the second implementation.
//!
//! `compare PROGRAM EXAMPLES`: PROGRAM is the program `tankcurve`, EXAMPLES the folder of the published
//! sheets and curves. All seeds are fixed, so each run has the same cases. The first difference is
//! printed with its whole case and ends the run with status 1, and so does a report that a call can
//! give and that never came.

mod biweight;
mod boxes;
mod calls;
mod cases;
mod doubles;
mod lent;
mod limit;
mod lists;
mod neighbours;
mod pair;
mod ranges;
mod sheets;
mod tally;

use biweight::Biweights;
use boxes::InBoxes;
use calls::Calls;
use doubles::Cells;
use limit::Questions;
use neighbours::Neighbours;
use pair::Pairs;
use ranges::Ranges;
use std::ffi::OsStr;
use std::fs;
use std::path::{Path, PathBuf};
use std::process::ExitCode;
use tally::Tally;

/// Every sheet of the folder, against its curve.
fn published(calls: &mut Calls, examples: &Path) -> Result<(), String> {
    let read = |path: &Path| fs::read(path).map_err(|error| format!("{}: {error}", path.display()));
    let entries =
        fs::read_dir(examples).map_err(|error| format!("{}: {error}", examples.display()))?;
    let mut paths: Vec<PathBuf> = entries
        .filter_map(|entry| entry.ok().map(|entry| entry.path()))
        .filter(|path| path.extension() == Some(OsStr::new("sheet")))
        .collect();
    paths.sort();
    for path in &paths {
        cases::published(calls, &read(path)?, &read(&path.with_extension("curve"))?)
            .map_err(|difference| format!("{}: {difference}", path.display()))?;
    }
    if paths.is_empty() {
        return Err(format!("{}: no sheets", examples.display()));
    }
    println!("{} published sheets agree", paths.len());
    Ok(())
}

/// What is compared, by groups of calls, each with its tallies.
struct Compared {
    calls: Calls,
    questions: Questions,
    by_neighbours: Neighbours,
    pairs: Pairs,
    biweights: Biweights,
    cells: Cells,
    by_ranges: Ranges,
    in_boxes: InBoxes,
}

impl Compared {
    fn new(program: &Path) -> Compared {
        Compared {
            calls: Calls::new(program.to_path_buf()),
            questions: Questions::new(),
            by_neighbours: Neighbours::new(),
            pairs: Pairs::new(),
            biweights: Biweights::new(),
            cells: Cells::new(),
            by_ranges: Ranges::new(),
            in_boxes: InBoxes::new(),
        }
    }

    fn tallies(&self) -> impl Iterator<Item = &Tally> {
        let calls = self.calls.tallies().into_iter();
        calls
            .chain(self.questions.tallies())
            .chain(self.by_neighbours.tallies())
            .chain(self.pairs.tallies())
            .chain(self.biweights.tallies())
            .chain(self.cells.tallies())
            .chain(self.by_ranges.tallies())
            .chain(self.in_boxes.tallies())
    }
}

/// Every case of every group; how many agree.
fn compare(compared: &mut Compared, examples: &Path) -> Result<u64, String> {
    let calls = &mut compared.calls;
    published(calls, examples)?;
    cases::evaluate_and_window(calls)?;
    cases::advance(calls)?;
    cases::turn(calls)?;
    cases::row(calls)?;
    cases::smooth(calls)?;
    cases::preview(calls)?;
    cases::every_curve(calls)?;
    cases::fill(calls)?;
    cases::read_and_text(calls)?;
    cases::refusal_text(calls)?;
    cases::program(calls)?;
    limit::first_at_most(&mut compared.questions)?;
    limit::decisive(&mut compared.questions)?;
    neighbours::neighbours(&mut compared.by_neighbours)?;
    pair::compare(&mut compared.pairs)?;
    biweight::biweight(&mut compared.biweights)?;
    doubles::doubles(&mut compared.cells)?;
    ranges::ranges(&mut compared.by_ranges, calls)?;
    boxes::boxes(&mut compared.in_boxes)?;
    compared
        .tallies()
        .for_each(|tally| println!("{}", tally.line()));
    compared.tallies().try_for_each(Tally::complete)?;
    Ok(compared.tallies().map(Tally::cases).sum())
}

fn main() -> ExitCode {
    let words: Vec<PathBuf> = std::env::args_os().skip(1).map(PathBuf::from).collect();
    let [program, examples] = &words[..] else {
        eprintln!("use: compare PROGRAM EXAMPLES");
        return ExitCode::from(2);
    };
    match compare(&mut Compared::new(program), examples) {
        Ok(total) => {
            println!("compare: {total} cases agree");
            ExitCode::SUCCESS
        }
        Err(difference) => {
            println!("compare: {difference}");
            ExitCode::FAILURE
        }
    }
}
