//! How often each answer came.

use reference::exported::DETAIL_UNIT;

/// How many numbers an answer can have.
const NUMBERS: usize = DETAIL_UNIT as usize;

/// The answers of one call.
pub struct Tally {
    call: &'static str,
    /// The reports that the call can give, in the order in which it looks for them.
    listed: &'static [u8],
    cases: u64,
    accepted: u64,
    reports: [u64; NUMBERS],
}

impl Tally {
    pub fn new(call: &'static str, listed: &'static [u8]) -> Tally {
        Tally {
            call,
            listed,
            cases: 0,
            accepted: 0,
            reports: [0; NUMBERS],
        }
    }

    /// Counts one case: 0 if it was accepted, or its report.
    pub fn count(&mut self, number: u8) {
        self.cases += 1;
        if number == 0 {
            self.accepted += 1;
        } else {
            self.reports[usize::from(number)] += 1;
        }
    }

    pub fn cases(&self) -> u64 {
        self.cases
    }

    /// One line: cases, accepted ones, and how often each listed report came.
    pub fn line(&self) -> String {
        let reports: Vec<String> = self
            .listed
            .iter()
            .map(|&number| format!("{number}: {}", self.reports[usize::from(number)]))
            .collect();
        format!(
            "{:<12} {:>7} cases, {:>7} accepted; reports {}",
            self.call,
            self.cases,
            self.accepted,
            reports.join(", ")
        )
    }

    /// Something was accepted, and exactly the listed reports came.
    pub fn complete(&self) -> Result<(), String> {
        if self.accepted == 0 {
            return Err(format!("{}: no case was accepted", self.call));
        }
        for number in 1..=u8::MAX {
            let came = self.reports[usize::from(number)] > 0;
            let listed = self.listed.contains(&number);
            if listed && !came {
                return Err(format!("{}: report {number} never came", self.call));
            }
            if came && !listed {
                return Err(format!("{}: report {number} is not listed", self.call));
            }
        }
        Ok(())
    }
}
