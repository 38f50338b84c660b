//! Steps, the plain book, the sweep and the rows agree.

use reference::*;

/// A small generator of numbers (xorshift64).
struct Dice(u64);

impl Dice {
    fn below(&mut self, end: u64) -> u64 {
        self.0 ^= self.0 << 13;
        self.0 ^= self.0 >> 7;
        self.0 ^= self.0 << 17;
        self.0 % end
    }
}

/// The plain book beside a list of steps: which positions came in and which
/// went out, in the order in which they did.
#[derive(Default)]
struct Book {
    taken: Vec<usize>,
    gone: Vec<usize>,
}

impl Book {
    /// One step, told by what it gets beside the record. Answers whether the
    /// book refuses it.
    fn feed(&mut self, minutes: &[u16], values: &[u16], mark: u16, half: u32) -> bool {
        if minutes.len() != values.len() || minutes.len() > 1024 || half == 0 || half > 65536 {
            return true;
        }
        let (z, h) = (u64::from(mark), u64::from(half));
        for (i, &minute) in minutes.iter().enumerate() {
            if !self.taken.contains(&i) && u64::from(minute) <= z + h {
                self.taken.push(i);
            }
        }
        for (i, &minute) in minutes.iter().enumerate() {
            if self.taken.contains(&i) && !self.gone.contains(&i) && u64::from(minute) + h < z {
                self.gone.push(i);
            }
        }
        false
    }
}

/// The direct sums over all readings inside the closed window.
fn direct(minutes: &[u16], values: &[u16], mark: u16, half: u32) -> [u64; 6] {
    let mut sums = [0; 6];
    for (&minute, &value) in minutes.iter().zip(values) {
        let away = i64::from(minute) - i64::from(mark);
        if away.abs() <= i64::from(half) {
            let (m, v) = (u64::from(minute), u64::from(value));
            for (p, power) in [1, m, m * m].into_iter().enumerate() {
                sums[p] += power;
                sums[p + 3] += power * v;
            }
        }
    }
    sums
}

/// Readings in order, and marks of which no edge falls.
fn case(dice: &mut Dice) -> (Vec<u16>, Vec<u16>, Vec<u16>, Vec<u32>) {
    let span = [3, 40, 2000, 65536][dice.below(4) as usize];
    let count = dice.below(30) as usize;
    let mut minutes: Vec<u16> = (0..count).map(|_| dice.below(span) as u16).collect();
    minutes.sort();
    let values: Vec<u16> = (0..count).map(|_| dice.below(65536) as u16).collect();
    let mut marks = vec![dice.below(span) as u16];
    let mut halves = vec![1 + dice.below(span) as u32];
    for _ in 0..dice.below(10) {
        let (mark, half) = (*marks.last().unwrap(), *halves.last().unwrap());
        let by = dice.below(span / 2 + 1).min(u64::from(65535 - mark)) as i64;
        let change = dice.below(2 * by as u64 + 1) as i64 - by;
        marks.push((i64::from(mark) + by) as u16);
        halves.push((i64::from(half) + change).clamp(1, 65536) as u32);
    }
    (minutes, values, marks, halves)
}

#[test]
fn steps_and_book() {
    let mut dice = Dice(88172645463325252);
    for _ in 0..1500 {
        let (minutes, values, marks, halves) = case(&mut dice);
        let mut book = Book::default();
        let mut record = Record::default();
        let mut sums = [0; 6];
        for k in 0..marks.len() {
            let bad = dice.below(6) == 0;
            let half = if bad {
                [0, 65537][dice.below(2) as usize]
            } else {
                halves[k]
            };
            let before = record;
            let (taken, gone) = (book.taken.len(), book.gone.len());
            let refused = book.feed(&minutes, &values, marks[k], half);
            let answer = step(record, &minutes, &values, marks[k], half);
            if refused {
                assert_eq!(
                    answer,
                    Err(Refusal {
                        number: 9,
                        place: 0
                    })
                );
            } else {
                record = answer.unwrap();
                sums = direct(&minutes, &values, marks[k], half);
            }
            assert_eq!(record.right, book.taken.len() as u64);
            assert_eq!(record.left, book.gone.len() as u64);
            assert_eq!(record.sums, sums);
            assert_eq!(record.passes, record.right + record.left);
            let passed = |from: u64, to: u64| (from as usize..to as usize).collect::<Vec<_>>();
            assert_eq!(passed(before.right, record.right), book.taken[taken..]);
            assert_eq!(passed(before.left, record.left), book.gone[gone..]);
        }
    }
}

#[test]
fn sweep_and_steps_and_rows() {
    let mut dice = Dice(1234567);
    for _ in 0..1500 {
        let (minutes, values, marks, halves) = case(&mut dice);
        let mut rows = vec![0; ROW_WIDTH * marks.len()];
        let passes = sweep(&minutes, &values, &marks, &halves, &mut rows).unwrap();
        let mut book = Book::default();
        let mut record = Record::default();
        for (k, row) in rows.chunks(ROW_WIDTH).enumerate() {
            let (mark, half) = (marks[k], halves[k]);
            book.feed(&minutes, &values, mark, half);
            record = step(record, &minutes, &values, mark, half).unwrap();
            assert_eq!(one_mark(&minutes, &values, mark, half).unwrap(), row);
            assert_eq!([record.left, record.right], row[..2]);

            // Weight and sum, each from three of the six sums.
            let (z, h) = (i128::from(mark), i128::from(half));
            let s = record.sums.map(i128::from);
            let weight = (h * h - z * z) * s[0] + 2 * z * s[1] - s[2];
            let sum = (h * h - z * z) * s[3] + 2 * z * s[4] - s[5];
            assert_eq!([weight, sum], [i128::from(row[2]), i128::from(row[3])]);

            // Nearest whole number, of two the even one; missing only at weight
            // 0.
            let value = i128::from(row[4]);
            if weight == 0 {
                assert_eq!(value, 65536);
            } else {
                let ends = [(2 * value - 1) * weight, (2 * value + 1) * weight];
                assert!(ends[0] <= 2 * sum && 2 * sum <= ends[1]);
                assert!(value % 2 == 0 || !ends.contains(&(2 * sum)));
                assert!(value <= 65535);
            }
        }
        assert_eq!(passes, (book.taken.len() + book.gone.len()) as u64);
        assert_eq!(passes, record.right + record.left);
        assert_eq!(passes, record.passes);
        assert!(passes <= 2 * minutes.len() as u64);
    }
}

/// The bytes of any kind: the program ends and writes one of its two forms.
#[test]
fn any_bytes() {
    let mut dice = Dice(42);
    let fit = b"mark,half\n20,10\n25,15\n\nminute,inj,vdk\n10,3,40\n12,1,900\n20,3,60\n";
    for _ in 0..3000 {
        let mut bytes = fit.to_vec();
        for _ in 0..dice.below(4) {
            let at = dice.below(bytes.len() as u64) as usize;
            match dice.below(3) {
                0 => bytes[at] = dice.below(256) as u8,
                1 => bytes[at] = b"0123456789,\n"[dice.below(12) as usize],
                _ => {
                    bytes.remove(at);
                }
            }
        }
        let written = String::from_utf8(program(&bytes)).unwrap();
        let lines: Vec<&str> = written.lines().collect();
        assert!(written.ends_with('\n'));
        if lines[0] == "refused,place" {
            assert_eq!(lines.len(), 2);
        } else {
            assert_eq!(lines[0], "mark,half,left,right,weight,sum,vdk");
            assert_eq!(lines[lines.len() - 3..][..2], ["", "kept,passes"]);
        }
    }
}
