//! The tables.

use crate::contestants::{agree, called};
use crate::measure::{
    instructions, least, median_ratio, process_instructions, process_times, sheet_instructions,
    times, written, Times, BATCH, COUNTED_CALLS, PROCESS_ROUNDS, ROUNDS,
};
use figures::inputs::{input, sheets, Input, NamedSheet};
use figures::plain::{MAX_OUTPUT, MAX_POINTS, MAX_SAMPLES, ROW_WIDTH};

/// The bandwidth of every figure but those that name another.
const BANDWIDTH: u32 = 20_000;

/// The widest bandwidth: every reading lies in the window of the mark in the middle.
const WIDE: u32 = 65_536;

const SMOOTHS: [&str; 4] = [
    "tankcurve_smooth",
    "plain::smooth",
    "direct::smooth",
    "reference::sweep",
];
const READS: [&str; 3] = ["tankcurve_read", "plain::read", "plain::with_memchr::read"];
const TEXTS: [&str; 2] = ["tankcurve_text", "plain::text"];

/// A time in microseconds.
fn micros(nanos: f64) -> String {
    format!("{:.2} µs", nanos / 1000.0)
}

/// A whole number with commas between thousands.
fn grouped(n: u64) -> String {
    let digits = n.to_string();
    let mut text = String::new();
    for (i, digit) in digits.chars().enumerate() {
        if i != 0 && (digits.len() - i).is_multiple_of(3) {
            text.push(',');
        }
        text.push(digit);
    }
    text
}

/// Whether a goal is met by the median of the rounds, by the least times and by instructions.
fn verdict(ratios: [f64; 3], met: impl Fn(f64) -> bool) -> &'static str {
    match ratios.map(met) {
        [true, true, _] => "met",
        [false, false, _] => "missed",
        _ => "open: the two ratios of times differ",
    }
}

/// A line that compares the proved contestant, the first, with another.
fn line(what: &str, goal: Option<f64>, times: [&Times; 2], counts: [u64; 2]) {
    let ratios = [
        median_ratio(times[0], times[1]),
        least(times[0]) / least(times[1]),
        counts[0] as f64 / counts[1] as f64,
    ];
    let goal = goal.map_or(String::from("none"), |most| {
        format!("at most {most}: {}", verdict(ratios, |r| r <= most))
    });
    println!(
        "| {what} | {} | {} | {:.2} | {:.2} | {} | {} | {:.2} | {goal} |",
        micros(least(times[0])),
        micros(least(times[1])),
        ratios[0],
        ratios[1],
        grouped(counts[0]),
        grouped(counts[1]),
        ratios[2],
    );
}

fn call_line(what: &str, goal: Option<f64>, names: [&str; 2], given: &Input) -> Result<(), String> {
    let timed = times(&[(called(names[0]), given), (called(names[1]), given)]);
    let counts = [
        instructions(names[0], 1, BANDWIDTH)?,
        instructions(names[1], 1, BANDWIDTH)?,
    ];
    line(what, goal, [&timed[0], &timed[1]], counts);
    Ok(())
}

fn beside_rust(program: &str, plain: &str, full: &Input) -> Result<(), String> {
    println!("### Beside plain Rust\n");
    println!(
        "Ratios are proved ÷ plain: the median of the rounds, the least times, the instructions.\n"
    );
    println!(
        "| what | proved, least time | plain, least time | ratio, median | ratio, least | \
         proved, instructions | plain, instructions | ratio, instructions | goal |"
    );
    println!("|---|---|---|---|---|---|---|---|---|");
    let smooths = [SMOOTHS[0], SMOOTHS[1]];
    call_line("sweep: `tankcurve_smooth`", Some(1.1), smooths, full)?;
    let reads = [READS[0], READS[1]];
    call_line("reader: `tankcurve_read`", Some(1.2), reads, full)?;
    call_line("sheet to text: `tankcurve_text`", Some(1.0), TEXTS, full)?;
    let sheets: [(&str, &[u8]); 2] = [("full sheet", &full.sheet), ("empty input", b"")];
    for (what, sheet) in sheets {
        let timed = process_times(&[(program, sheet), (plain, sheet)])?;
        let counts = [
            process_instructions(program, sheet)?,
            process_instructions(plain, sheet)?,
        ];
        let what = format!("program as a process, {what}");
        line(&what, None, [&timed[0], &timed[1]], counts);
    }
    Ok(())
}

/// The first mark at or below a limit, beside the sweep over the same lists.
fn first_at_most(full: &Input) -> Result<(), String> {
    let names = [
        "tankcurve_smooth, falling values",
        "tankcurve_first_at_most, mark 0",
        "tankcurve_first_at_most, mark 255",
        "tankcurve_first_at_most, none",
    ];
    let timed = times(&names.map(|name| (called(name), full)));
    println!("\n### The first mark at or below a limit\n");
    println!(
        "The readings and marks above with values that fall from reading to reading, and limits at which mark 0, mark 255 or none
answers. Ratios are to the sweep over the same lists.
"
    );
    println!("| what | least time | instructions | ratio, instructions | goal |");
    println!("|---|---|---|---|---|");
    let sweep = instructions(names[0], 1, BANDWIDTH)?;
    let goals = [None, None, None, Some(1.0)];
    for ((name, times), goal) in names.iter().zip(&timed).zip(goals) {
        let count = instructions(name, 1, BANDWIDTH)?;
        let ratio = count as f64 / sweep as f64;
        let goal = goal.map_or(String::new(), |most| {
            let met = if ratio <= most { "met" } else { "not met" };
            format!("at most {most}: {met}")
        });
        println!(
            "| {name} | {} | {} | {ratio:.3} | {goal} |",
            micros(least(times)),
            grouped(count)
        );
    }
    Ok(())
}

/// The reading that decides, beside the question at the same mark.
fn decisive(wide: &Input) -> Result<(), String> {
    let names = [
        "tankcurve_evaluate",
        "tankcurve_decisive, reading 0",
        "tankcurve_decisive, none",
    ];
    let timed = times(&names.map(|name| (called(name), wide)));
    println!("\n### The reading that decides\n");
    println!(
        "1,024 readings, all of them in the window of the mark in the middle, and limits at which reading 0 or none decides. Ratios
are to the question at that mark.
"
    );
    println!("| what | least time | instructions | ratio, instructions | goal |");
    println!("|---|---|---|---|---|");
    let question = instructions(names[0], 1, WIDE)?;
    let goals = [None, None, Some(4.0)];
    for ((name, times), goal) in names.iter().zip(&timed).zip(goals) {
        let count = instructions(name, 1, WIDE)?;
        let ratio = count as f64 / question as f64;
        let goal = goal.map_or(String::new(), |most| {
            let met = if ratio <= most { "met" } else { "not met" };
            format!("at most {most}: {met}")
        });
        println!(
            "| {name} | {} | {} | {ratio:.3} | {goal} |",
            micros(least(times)),
            grouped(count)
        );
    }
    println!("\nWhere none decides, by the number of readings; linear is 0.25 and 0.50.\n");
    println!("| readings | instructions | ratio, instructions |");
    println!("|---|---|---|");
    let full = instructions(names[2], 1, WIDE)?;
    for part in [4, 2, 1] {
        let count = instructions(names[2], part, WIDE)?;
        let ratio = count as f64 / full as f64;
        println!("| {} | {} | {ratio:.3} |", 1024 / part, grouped(count));
    }
    Ok(())
}

/// Half widths by neighbours, beside the sweep with the same half widths, and at a half and a quarter of the size.
fn neighbours() -> Result<(), String> {
    println!("\n### Half widths by neighbours\n");
    println!(
        "The readings and marks above; of a half and of a quarter of them the same share is K. Ratios are to the sweep with the half
widths that come of it, and of instructions to those at full size; linear is 0.25 and 0.50.
"
    );
    println!("| K | size | the sweep, instructions | `tankcurve_neighbours`, instructions | ratio | goal | ratio to full size |");
    println!("|---|---|---|---|---|---|---|");
    for of in ["16", "608"] {
        let sweep = format!("tankcurve_smooth, half widths of {of} neighbours");
        let call = format!("tankcurve_neighbours, {of}");
        let full = instructions(&call, 1, BANDWIDTH)?;
        for part in [4, 2, 1] {
            let counts = [
                instructions(&sweep, part, BANDWIDTH)?,
                instructions(&call, part, BANDWIDTH)?,
            ];
            let ratio = counts[1] as f64 / counts[0] as f64;
            let goal = match (part, ratio <= 1.4) {
                (1, true) => "at most 1.4: met",
                (1, false) => "at most 1.4: not met",
                _ => "",
            };
            println!(
                "| {of} ÷ {part} | {} × {} | {} | {} | {ratio:.3} | {goal} | {:.3} |",
                MAX_SAMPLES / part,
                MAX_POINTS / part,
                grouped(counts[0]),
                grouped(counts[1]),
                counts[1] as f64 / full as f64,
            );
        }
    }
    Ok(())
}

/// The biweight row beside the row of the same window, for runs of three lengths.
fn biweight(full: &Input) -> Result<(), String> {
    println!("\n### The biweight row\n");
    println!(
        "1,024 readings, one each minute, at marks with so many of them in the window, all from the first on; beside
`tankcurve_evaluate` at the same mark with half width 720. Ratios are to that.
"
    );
    println!("| readings in the run | `tankcurve_biweight` | `tankcurve_evaluate` | ratio, instructions | least times |");
    println!("|---|---|---|---|---|");
    for run in ["none", "512", "1024"] {
        let names = ["biweight", "evaluate"].map(|call| format!("tankcurve_{call}, {run}"));
        let timed = times(&[(called(&names[0]), full), (called(&names[1]), full)]);
        let counts = [
            instructions(&names[0], 1, BANDWIDTH)?,
            instructions(&names[1], 1, BANDWIDTH)?,
        ];
        println!(
            "| {run} | {} | {} | {:.2} | {} and {} |",
            grouped(counts[0]),
            grouped(counts[1]),
            counts[0] as f64 / counts[1] as f64,
            micros(least(&timed[0])),
            micros(least(&timed[1])),
        );
    }
    Ok(())
}

/// The sweep over ranges, beside the sweep over their highs.
fn ranges(full: &Input) -> Result<(), String> {
    println!("\n### Ranges\n");
    println!(
        "The readings and marks above, with values that fall from reading to reading as highs, and each third reading from 0
up, the others with equal ends; beside the sweep over the highs. Ratios are to that.
"
    );
    println!("| half width | the sweep, instructions | `tankcurve_smooth_ranges`, instructions | ratio, instructions | goal | least times |");
    println!("|---|---|---|---|---|---|");
    let names = ["tankcurve_smooth, highs", "tankcurve_smooth_ranges"];
    for bandwidth in [1440, BANDWIDTH, 65_536] {
        let given = &input(1, bandwidth);
        let given = if bandwidth == BANDWIDTH { full } else { given };
        let timed = times(&names.map(|name| (called(name), given)));
        let counts = [
            instructions(names[0], 1, bandwidth)?,
            instructions(names[1], 1, bandwidth)?,
        ];
        let ratio = counts[1] as f64 / counts[0] as f64;
        println!(
            "| {} | {} | {} | {ratio:.3} | at most 2: {} | {} and {} |",
            grouped(u64::from(bandwidth)),
            grouped(counts[0]),
            grouped(counts[1]),
            if ratio <= 2.0 { "met" } else { "not met" },
            micros(least(&timed[0])),
            micros(least(&timed[1])),
        );
    }
    Ok(())
}

/// Minute and temperature together, beside the same algorithm in plain Rust and beside readings × pairs, and by the number of
/// readings and of marks.
fn in_boxes(full: &Input) -> Result<(), String> {
    let names = ["tankcurve_boxes", "plain::boxes", "direct::boxes"];
    agree(&names, full)?;
    let timed = times(&names.map(|name| (called(name), full)));
    println!("\n### Minute and temperature together\n");
    println!(
        "1,024 readings in no order, 32 marks of each direction, which cut it in 65 strips: 1,024 pairs. `plain::boxes` is the same algorithm in
plain Rust; `direct::boxes` looks at every reading for every pair, in 32 bits, in a loop that
the compiler makes of vector instructions. Ratios are to `tankcurve_boxes`.
"
    );
    println!("| what | least time | ratio, median | ratio, least | instructions | ratio, instructions | goal |");
    println!("|---|---|---|---|---|---|---|");
    let proved = instructions(names[0], 1, BANDWIDTH)?;
    for (name, times) in names.iter().zip(&timed) {
        let count = instructions(name, 1, BANDWIDTH)?;
        let ratios = [
            median_ratio(times, &timed[0]),
            least(times) / least(&timed[0]),
            count as f64 / proved as f64,
        ];
        let goal = match *name {
            "plain::boxes" => format!(
                "`tankcurve_boxes` at most 1.1 of it: {}",
                verdict(ratios, |r| 1.0 / r <= 1.1)
            ),
            "direct::boxes" => format!("at least 20: {}", verdict(ratios, |r| 20.0 <= r)),
            _ => String::new(),
        };
        println!(
            "| `{name}` | {} | {:.2} | {:.2} | {} | {:.2} | {goal} |",
            micros(least(times)),
            ratios[0],
            ratios[1],
            grouped(count),
            ratios[2],
        );
    }
    println!("\nBy the number of readings and of marks of each direction:\n");
    println!("| readings | marks | instructions | ratio, instructions |");
    println!("|---|---|---|---|");
    let sizes = [
        ("tankcurve_boxes, no readings", 0, 32),
        ("tankcurve_boxes, 512 readings", 512, 32),
        ("tankcurve_boxes, 1 mark", 1024, 1),
        ("tankcurve_boxes, 16 marks", 1024, 16),
        (names[0], 1024, 32),
    ];
    for (name, readings, marks) in sizes {
        let count = instructions(name, 1, BANDWIDTH)?;
        println!(
            "| {} | {marks} | {} | {:.3} |",
            grouped(readings),
            grouped(count),
            count as f64 / proved as f64
        );
    }
    Ok(())
}

/// A turn beside one that is refused after the order check and has moved nothing.
fn turn(full: &Input) -> Result<(), String> {
    let names = ["tankcurve_turn", "tankcurve_turn, refused with 9"];
    let timed = times(&[(called(names[0]), full), (called(names[1]), full)]);
    let counts = [
        instructions(names[0], 1, BANDWIDTH)?,
        instructions(names[1], 1, BANDWIDTH)?,
    ];
    println!("\n### The turn\n");
    println!(
        "A record of 1,000 of 1,024 readings, turned to a window that has four more on each side, beside the same turn with
half width 0, which is refused with 9 once the order of the minutes has been looked at.
"
    );
    println!("| what | least time | instructions | ratio, instructions | goal |");
    println!("|---|---|---|---|---|");
    let ratio = counts[0] as f64 / counts[1] as f64;
    println!(
        "| refused with 9 | {} | {} | 1.000 | |",
        micros(least(&timed[1])),
        grouped(counts[1])
    );
    println!(
        "| over 8 positions | {} | {} | {ratio:.3} | at most 1.1: {} |",
        micros(least(&timed[0])),
        grouped(counts[0]),
        if ratio <= 1.1 { "met" } else { "not met" }
    );
    Ok(())
}

/// Two tanks, beside a sweep of each.
fn two_tanks(full: &Input) -> Result<(), String> {
    let names = [
        "two sweeps, falling values",
        "tankcurve_compare, apart at mark 0",
        "tankcurve_compare, apart at mark 255",
        "tankcurve_compare, alike",
    ];
    let timed = times(&names.map(|name| (called(name), full)));
    println!("\n### Two tanks\n");
    println!(
        "The readings and marks above with values that fall from reading to reading, set against the same minutes with values
that are other from the first reading on, from reading 879 on, or nowhere. Ratios are to two sweeps over the first tank's lists.
"
    );
    println!("| what | least time | instructions | ratio, instructions | goal |");
    println!("|---|---|---|---|---|");
    let sweeps = instructions(names[0], 1, BANDWIDTH)?;
    let goals = [None, None, None, Some(1.1)];
    for ((name, times), goal) in names.into_iter().zip(&timed).zip(goals) {
        let count = instructions(name, 1, BANDWIDTH)?;
        let ratio = count as f64 / sweeps as f64;
        let goal = goal.map_or(String::new(), |most| {
            let met = if ratio <= most { "met" } else { "not met" };
            format!("at most {most}: {met}")
        });
        println!(
            "| {name} | {} | {} | {ratio:.3} | {goal} |",
            micros(least(times)),
            grouped(count)
        );
    }
    Ok(())
}

fn beside_direct_sums() -> Result<(), String> {
    println!("\n### The sweep beside direct evaluation\n");
    println!(
        "Ratios are direct ÷ `tankcurve_smooth`. The run is the mean number of readings in a window. `direct::smooth` has
the same checks and edges and sums over the run of each mark in 64 bits; `reference::sweep`, the second
implementation, goes through all readings at each mark in 128 bits, here without checks of overflow.
"
    );
    println!(
        "| half width | run | direct evaluation | its least time | ratio, median | ratio, least | \
         its instructions | ratio, instructions | goal |"
    );
    println!("|---|---|---|---|---|---|---|---|---|");
    for (bandwidth, goal) in [(1440, None), (BANDWIDTH, Some(20.0)), (65_536, Some(20.0))] {
        let given = input(1, bandwidth);
        let names = [SMOOTHS[0], SMOOTHS[2], SMOOTHS[3]];
        let timed = times(&names.map(|name| (called(name), &given)));
        let proved = instructions(names[0], 1, bandwidth)?;
        for k in [1, 2] {
            let count = instructions(names[k], 1, bandwidth)?;
            let ratios = [
                median_ratio(&timed[k], &timed[0]),
                least(&timed[k]) / least(&timed[0]),
                count as f64 / proved as f64,
            ];
            let goal = goal.map_or(String::from("none"), |fewest| {
                format!("at least {fewest}: {}", verdict(ratios, |r| fewest <= r))
            });
            println!(
                "| {} | {} | `{}` | {} | {:.1} | {:.1} | {} | {:.1} | {goal} |",
                grouped(u64::from(bandwidth)),
                mean_run(&given),
                names[k],
                micros(least(&timed[k])),
                ratios[0],
                ratios[1],
                grouped(count),
                ratios[2],
            );
        }
    }
    Ok(())
}

fn searches() -> Result<(), String> {
    println!("\n### The search for line feeds\n");
    println!(
        "Instructions of the reader, which searches by words of eight bytes. Plain Rust has the same search, and in the last
two columns `memchr` of the C library. Ratios are `tankcurve_read` ÷ plain.
"
    );
    println!(
        "| sheet | bytes | `tankcurve_read` | `plain::read` | ratio | with `memchr` | ratio |"
    );
    println!("|---|---|---|---|---|---|---|");
    for NamedSheet { name, what, sheet } in sheets() {
        let counts = [
            sheet_instructions(READS[0], name)?,
            sheet_instructions(READS[1], name)?,
            sheet_instructions(READS[2], name)?,
        ];
        println!(
            "| {what} | {} | {} | {} | {:.2} | {} | {:.2} |",
            grouped(sheet.len() as u64),
            grouped(counts[0]),
            grouped(counts[1]),
            counts[0] as f64 / counts[1] as f64,
            grouped(counts[2]),
            counts[0] as f64 / counts[2] as f64,
        );
    }
    Ok(())
}

/// The mean number of readings in a window.
fn mean_run(given: &Input) -> usize {
    let mut all = 0;
    for (&z, &h) in given.points.iter().zip(&given.bandwidths) {
        let inside = |&&t: &&u16| u32::from(t.abs_diff(z)) <= h;
        all += given.minutes.iter().filter(inside).count();
    }
    all / given.points.len()
}

fn growth(parts: &[(usize, Input)]) -> Result<(), String> {
    println!("\n### Growth\n");
    println!("Each number is divided by that at full size; linear is 0.25 and 0.50.\n");
    println!("| call | size | least time | ratio, median | ratio, least | instructions | ratio, instructions |");
    println!("|---|---|---|---|---|---|---|");
    for name in [SMOOTHS[0], READS[0], TEXTS[0]] {
        let call = called(name);
        let contestants: Vec<_> = parts.iter().map(|(_, given)| (call, given)).collect();
        let timed = times(&contestants);
        let whole = instructions(name, 1, BANDWIDTH)?;
        for (k, (part, given)) in parts.iter().enumerate() {
            let full = &timed[parts.len() - 1];
            let count = instructions(name, *part, BANDWIDTH)?;
            println!(
                "| `{name}` | {} × {} | {} | {:.3} | {:.3} | {} | {:.3} |",
                given.minutes.len(),
                given.points.len(),
                micros(least(&timed[k])),
                median_ratio(&timed[k], full),
                least(&timed[k]) / least(full),
                grouped(count),
                count as f64 / whole as f64,
            );
        }
    }
    Ok(())
}

/// The contestants agree on every input that is timed, and on inputs with faults.
fn all_agree(program: &str, plain: &str, parts: &[(usize, Input)]) -> Result<usize, String> {
    let mut given = input(128, 1440).edits();
    given.extend([input(1, 1440), input(1, 65_536)]);
    let any = input(128, 1440);
    given.extend(sheets().map(|named| any.with_sheet(named.sheet)));
    for given in given.iter().chain(parts.iter().map(|(_, given)| given)) {
        agree(&SMOOTHS, given)?;
        agree(&READS, given)?;
        agree(&TEXTS, given)?;
    }
    for sheet in [&parts[2].1.sheet[..], b""] {
        let expected = reference::program(sheet);
        if written(program, sheet)? != expected || written(plain, sheet)? != expected {
            return Err(String::from("the programs do not agree"));
        }
    }
    Ok(given.len() + parts.len())
}

pub fn print(program: &str, plain: &str) -> Result<(), String> {
    let parts = [4, 2, 1].map(|part| (part, input(part, BANDWIDTH)));
    let compared = all_agree(program, plain, &parts)?;
    let full = &parts[2].1;
    let (samples, points) = (full.minutes.len() as u64, full.points.len() as u64);
    println!(
        "Before any time was taken the contestants gave equal answers and left equal buffers on {} inputs, those of
the tables among them and most of the others with a fault, and the two programs wrote the same.

Inputs: {} readings and {} marks, minutes 10,000 to 65,242 every 54, marks 10,000 to 65,188 every 108,
half width {} where none is named: a sweep of {} passes. Their sheet has {} bytes, each number five
digits, every reading kept. A half and a quarter have every second and every fourth minute and mark.

Buffers: lists and sheets on the heap; the lent buffers (minutes and values 1,024 × 2 bytes, marks 512 × 2,
half widths 512 × 4, rows {} × 8, out {}) in one block of the heap, the same for all contestants. The
reader's own lists (7 KB), the text's lists and rows (38 KB, in plain Rust 27) and the programs' sheet and output (44 KB in one buffer, in plain Rust
77 in two) are on the stack, in both languages. Inputs and buffers stay in the cache from call to call.

Times: contestants take turns in one process, {} rounds of about {} µs each; a process is timed from its start
to its end, with pipes, {} rounds. Instructions: callgrind, what {} calls more add, divided by {}; of a process
all, the loader's too.
",
        grouped(compared as u64),
        grouped(samples),
        grouped(points),
        grouped(u64::from(BANDWIDTH)),
        grouped(passes(full)),
        grouped(full.sheet.len() as u64),
        grouped((ROW_WIDTH * MAX_POINTS) as u64),
        grouped(MAX_OUTPUT as u64),
        grouped(ROUNDS as u64),
        BATCH.as_micros(),
        PROCESS_ROUNDS,
        COUNTED_CALLS,
        COUNTED_CALLS,
    );
    beside_rust(program, plain, full)?;
    searches()?;
    beside_direct_sums()?;
    turn(full)?;
    first_at_most(full)?;
    decisive(&input(1, WIDE))?;
    two_tanks(full)?;
    neighbours()?;
    biweight(full)?;
    ranges(full)?;
    in_boxes(full)?;
    growth(&parts)
}

fn passes(given: &Input) -> u64 {
    let mut rows = vec![0; ROW_WIDTH * given.points.len()];
    let (minutes, values) = (&given.minutes, &given.values);
    tankcurve::smooth(minutes, values, &given.points, &given.bandwidths, &mut rows)
        .map_or(0, |curve| curve.passes)
}
