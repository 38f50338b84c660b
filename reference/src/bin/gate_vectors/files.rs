//! The program's files, the numbers of the calls, and what is counted of the cases.

use reference::exported::DETAIL_UNIT;
use reference::Refusal;
use std::collections::BTreeMap;
use std::fs;
use std::io;
use std::path::Path;

/// The most bytes of standard input. It is our own limit, that of a file that
/// can still be looked at.
const MOST_STDIN: usize = 2_000_000;

/// The most bytes of a case: they fit into the program's buffer.
const MOST_BYTES: usize = 40_000;

/// The most cases: the program's MOST_CASES.
const MOST_CASES: usize = 100_000;

/// The calls by their numbers. Python's tests read the same table, and
/// `tests/compare` holds the program's match to it.
const TABLE: &str = include_str!("../../../calls.txt");

/// Each number of the table, with the call.
fn table() -> impl Iterator<Item = (u64, &'static str)> {
    let lines = TABLE.lines().filter(|line| !line.starts_with('#'));
    lines.map(|line| {
        let (number, call) = line.split_once(' ').expect("a number and a call");
        (number.parse().expect("a number"), call)
    })
}

/// The number of a call.
fn number_of(call: &str) -> u64 {
    let found = table().find(|&(_, name)| name == call);
    found.unwrap_or_else(|| panic!("{call} has no number")).0
}

/// Each call, and what it can answer.
const REPORTS: [(&str, &[u64]); 21] = [
    ("evaluate", &[8, 6, 4, 9, 0]),
    ("window", &[8, 6, 4, 9, 0]),
    ("advance", &[8, 6, 11, 9, 0]),
    ("turn", &[8, 6, 4, 11, 9, 0]),
    ("row", &[8, 0]),
    ("smooth", &[8, 6, 7, 4, 5, 9, 10, 0]),
    ("preview", &[8, 6, 7, 4, 5, 9, 10, 0]),
    ("fill", &[8, 7, 6, 12, 13, 0]),
    ("read", &[8, 1, 2, 3, 4, 5, 9, 10, 6, 7, 0]),
    ("text", &[8, 1, 2, 3, 4, 15, 5, 9, 10, 6, 7, 0]),
    ("refusal_text", &[8, 0]),
    ("first_at_most", &[8, 6, 7, 4, 5, 9, 10, 0]),
    ("decisive", &[8, 6, 4, 9, 0]),
    ("neighbours", &[8, 6, 7, 4, 5, 14, 0]),
    ("compare", &[8, 6, 7, 4, 5, 9, 10, 16, 0]),
    ("biweight", &[8, 6, 4, 0]),
    ("doubles", &[8, 0]),
    ("row cells", &[0]),
    ("smooth_ranges", &[8, 6, 7, 4, 15, 5, 9, 10, 0]),
    ("read_ranges", &[8, 1, 2, 3, 4, 15, 5, 9, 10, 6, 7, 0]),
    ("boxes", &[8, 6, 7, 5, 17, 9, 0]),
];

/// What a call gave: its answer and its lent lists.
pub struct Answer {
    pub number: u64,
    pub detail: u64,
    pub lists: Vec<Vec<u64>>,
}

impl Answer {
    /// The case is the refusal it was written for.
    #[track_caller]
    pub fn refused(&self, number: u64, place: u64) {
        assert_eq!((self.number, self.detail), (number, place));
    }

    /// The case is accepted, with this detail and this first list.
    #[track_caller]
    pub fn accepted(&self, detail: u64, list: &[u64]) {
        assert_eq!((self.number, self.detail), (0, detail));
        assert_eq!(self.lists[0], list);
    }

    /// The case is a sheet with so many kept readings and marks.
    #[track_caller]
    pub fn used(&self, kept: u64, marks: u64) {
        assert_eq!((self.number, self.detail), (0, 0));
        assert_eq!(self.lists[4], [kept, marks]);
    }
}

/// A list as runs of equal elements.
fn runs(list: &[u64]) -> String {
    let mut line = String::new();
    for run in list.chunk_by(|a, b| a == b) {
        line += &run[0].to_string();
        if run.len() > 1 {
            line += &format!("*{}", run.len());
        }
        line += " ";
    }
    line + "\n"
}

/// The cases so far, what the program has to write, and what was told how often.
#[derive(Default)]
pub struct Cases {
    stdin: Vec<u8>,
    stdout: Vec<u8>,
    /// How many cases each call has.
    made: BTreeMap<&'static str, usize>,
    /// How often each call gave each number.
    told: BTreeMap<(&'static str, u64), usize>,
}

impl Cases {
    /// A case of a call with these numbers and, behind them, these bytes.
    pub fn case(&mut self, call: &'static str, numbers: &[u64], bytes: &[u8]) {
        let mut words = vec![number_of(call).to_string()];
        words.extend(numbers.iter().map(u64::to_string));
        let case = [words.join(" ").as_bytes(), b"\n", bytes].concat();
        assert!(case.len() <= MOST_BYTES, "{} bytes of a case", case.len());
        self.stdin.extend(format!("{:05}\n", case.len()).bytes());
        self.stdin.extend(case);
        *self.made.entry(call).or_default() += 1;
    }

    /// What the case before gives: an answer, the text that stands in front of
    /// a buffer, and the lent lists.
    pub fn answer(
        &mut self,
        call: &'static str,
        result: Result<u64, Refusal>,
        text: &[u8],
        lists: Vec<Vec<u64>>,
    ) -> Answer {
        let (number, detail) = match result {
            Ok(detail) => (0, detail),
            Err(refusal) => (u64::from(refusal.number), refusal.place),
        };
        self.stdout
            .extend(format!("{number} {detail}\n").into_bytes());
        self.stdout.extend(text);
        for list in &lists {
            self.stdout.extend(runs(list).into_bytes());
        }
        *self.told.entry((call, number)).or_default() += 1;
        Answer {
            number,
            detail,
            lists,
        }
    }

    /// What the case before gives besides: a part of a list that is handed back.
    pub fn part(&mut self, part: &[u16]) {
        let length = part.len() as u64;
        let (number, detail) = (length % DETAIL_UNIT, length / DETAIL_UNIT);
        self.stdout
            .extend(format!("{number} {detail}\n").into_bytes());
        let list: Vec<u64> = part.iter().map(|&value| value.into()).collect();
        self.stdout.extend(runs(&list).into_bytes());
    }

    /// Each report of each call occurs at least twice and no other one, the
    /// table has the numbers from 1 on, each with cases, and the input is short
    /// enough.
    pub fn check(&self) {
        for (call, reports) in REPORTS {
            for &number in reports {
                let times = self.told.get(&(call, number)).copied().unwrap_or(0);
                assert!(times >= 2, "{call}, number {number}: {times} cases");
            }
            let seen = self.told.keys().filter(|key| key.0 == call).count();
            assert_eq!(seen, reports.len(), "{call} gives another number");
        }
        for (wanted, (number, call)) in (1..).zip(table()) {
            assert_eq!(number, wanted, "the number of {call}");
            let cases = self.made.get(call).copied().unwrap_or(0);
            println!("{number} {call}: {cases} cases");
            assert!(cases >= 2, "{call}: {cases} cases");
        }
        assert_eq!(table().count(), self.made.len(), "a call is there twice");
        let cases: usize = self.made.values().sum();
        let size = self.stdin.len();
        println!("{cases} cases, {size} bytes of stdin");
        assert!(size <= MOST_STDIN, "{size} bytes of stdin");
        assert!(cases <= MOST_CASES, "{cases} cases");
    }

    pub fn write(&self, folder: &Path) -> io::Result<()> {
        let own = folder.join("vectors");
        fs::create_dir_all(&own)?;
        fs::write(own.join("stdin"), &self.stdin)?;
        fs::write(own.join("stdout"), &self.stdout)
    }
}
