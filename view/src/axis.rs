//! An axis with round ticks.

/// An axis over whole numbers: `unit` of them are one of what the axis is labelled in.
#[derive(Clone, Debug, PartialEq)]
pub struct Axis {
    unit: u64,
    /// Between two ticks, in thousandths of a unit.
    step: u64,
    /// The first and the last tick, in steps.
    first: u64,
    last: u64,
}

impl Axis {
    /// An axis from at or below `low` to at or above `high`, with at most `ticks` steps between them
    /// and one more at each end. No step is finer than `finest` thousandths of a unit.
    pub fn new(low: u64, high: u64, unit: u64, finest: u64, ticks: u64) -> Axis {
        let span = high.saturating_sub(low) * 1000;
        let rounds = |power: u32| [1, 2, 5].map(|digit| digit * 10u64.pow(power));
        let fits = |step: &u64| *step >= finest && step * unit * ticks >= span;
        let step = (0..8).flat_map(rounds).find(fits).unwrap_or(10u64.pow(8));
        let first = low * 1000 / (unit * step);
        let last = (high * 1000).div_ceil(unit * step).max(first + 1);
        Axis {
            unit,
            step,
            first,
            last,
        }
    }

    /// Where a number lies, from 0 at the first tick to 1 at the last.
    pub fn fraction(&self, number: f64) -> f64 {
        let steps = number * 1000.0 / (self.unit * self.step) as f64;
        (steps - self.first as f64) / (self.last - self.first) as f64
    }

    /// The ticks: where each lies, from 0 to 1, and its label.
    pub fn ticks(&self) -> Vec<(f64, String)> {
        let whole = (self.last - self.first) as f64;
        let tick = |at: u64| ((at - self.first) as f64 / whole, self.label(at));
        (self.first..=self.last).map(tick).collect()
    }

    fn label(&self, at: u64) -> String {
        let thousandths = at * self.step;
        let decimals = match self.step {
            step if step % 1000 == 0 => 0,
            step if step % 100 == 0 => 1,
            step if step % 10 == 0 => 2,
            _ => 3,
        };
        let fraction = format!("{:03}", thousandths % 1000);
        match decimals {
            0 => (thousandths / 1000).to_string(),
            _ => format!("{}.{}", thousandths / 1000, &fraction[..decimals]),
        }
    }
}

#[cfg(test)]
mod tests {
    use super::*;

    fn labels(axis: &Axis) -> Vec<String> {
        axis.ticks().into_iter().map(|(_, label)| label).collect()
    }

    #[test]
    fn days() {
        let axis = Axis::new(5790, 15_840, 1440, 1, 10);
        assert_eq!(labels(&axis), ["4", "5", "6", "7", "8", "9", "10", "11"]);
        assert_eq!(axis.fraction(4.0 * 1440.0), 0.0);
        assert_eq!(axis.fraction(11.0 * 1440.0), 1.0);
    }

    #[test]
    fn parts_of_days() {
        let axis = Axis::new(10, 60, 1440, 1, 10);
        assert_eq!(
            labels(&axis),
            ["0.005", "0.010", "0.015", "0.020", "0.025", "0.030", "0.035", "0.040", "0.045"]
        );
    }

    #[test]
    fn levels() {
        let axis = Axis::new(0, 5620, 10, 100, 6);
        assert_eq!(
            labels(&axis),
            ["0", "100", "200", "300", "400", "500", "600"]
        );
        assert_eq!(labels(&Axis::new(0, 1, 10, 100, 6)), ["0.0", "0.1"]);
    }

    #[test]
    fn everything_lies_between_the_ends() {
        for (low, high) in [
            (0, 0),
            (65_535, 65_535),
            (0, 65_535),
            (1, 2),
            (7, 4000),
            (1439, 1441),
        ] {
            for (unit, finest) in [(1440, 1), (10, 100)] {
                let axis = Axis::new(low, high, unit, finest, 8);
                assert!(axis.fraction(low as f64) >= 0.0 && axis.fraction(high as f64) <= 1.0);
                let ticks = axis.ticks();
                assert!(
                    (2..=10).contains(&ticks.len()),
                    "{low} {high} {unit}: {ticks:?}"
                );
            }
        }
    }
}
