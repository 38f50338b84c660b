//! Readings known as ranges: the sweep, the reader of both kinds of sheet, and
//! what is written of them.

use reference::*;

fn no<T>(number: u8, place: u64) -> Result<T, Refusal> {
    Err(Refusal { number, place })
}

const MINUTES: [u16; 4] = [10, 20, 20, 35];
const LOWS: [u16; 4] = [40, 0, 80, 0];
const HIGHS: [u16; 4] = [40, 60, 80, 20];
const MARKS: [u16; 3] = [20, 25, 60];
const HALVES: [u32; 3] = [10, 15, 20];

const FRONT: &str = "mark,half\n20,10\n25,15\n60,20\n\n";
const RANGES: &str = "minute,inj,low,high\n10,3,40,40\n12,1,900,900\n14,2,400,400\n20,3,0,60\n20,4,80,80\n35,5,0,20\n";
const PLAIN: &str = "minute,inj,vdk\n10,3,40\n12,1,900\n14,2,400\n20,3,60\n20,4,80\n35,5,20\n";

fn swept(lows: &[u16], highs: &[u16]) -> (Result<u64, Refusal>, Vec<u64>) {
    let mut rows = vec![7; RANGE_ROW_WIDTH * MARKS.len()];
    let answer = sweep_ranges(&MINUTES, lows, highs, &MARKS, &HALVES, &mut rows);
    (answer, rows)
}

/// Five lists, filled with what no reading of the tests has.
#[derive(Clone, Debug, PartialEq)]
struct Lists {
    minutes: Vec<u16>,
    lows: Vec<u16>,
    highs: Vec<u16>,
    marks: Vec<u16>,
    halves: Vec<u32>,
}

fn filled() -> Lists {
    Lists {
        minutes: vec![61_001; 1024],
        lows: vec![61_002; 1024],
        highs: vec![61_003; 1024],
        marks: vec![61_004; 512],
        halves: vec![61_005; 512],
    }
}

fn read_into(sheet: &[u8], lists: &mut Lists) -> Result<(usize, usize, Kind), Refusal> {
    read_ranges(
        sheet,
        &mut lists.minutes,
        &mut lists.lows,
        &mut lists.highs,
        &mut lists.marks,
        &mut lists.halves,
    )
}

fn read_both(sheet: &str) -> Result<(usize, usize, Kind), Refusal> {
    let mut lists = filled();
    let answer = read_into(sheet.as_bytes(), &mut lists);
    if answer.is_err() {
        assert_eq!(lists, filled());
    }
    answer
}

// ------------------------------------------------------------- the sweep

#[test]
fn rows_of_the_published_readings() {
    let (answer, rows) = swept(&LOWS, &HIGHS);
    assert_eq!(answer, Ok(8));
    let rows: Vec<&[u64]> = rows.chunks(RANGE_ROW_WIDTH).collect();
    assert_eq!(rows[0], [0, 3, 200, 8000, 14000, 40, 70]);
    assert_eq!(rows[1], [0, 4, 525, 16000, 30500, 30, 58]);
    assert_eq!(rows[2], [4, 4, 0, 0, 0, 65536, 65536]);
    assert_eq!(rows.len(), MARKS.len());
}

/// Equal ends are no fault, and double the plain rows' sum and value.
#[test]
fn equal_ends_double() {
    let (answer, rows) = swept(&HIGHS, &HIGHS);
    let mut plain = [0; ROW_WIDTH * MARKS.len()];
    assert_eq!(answer, sweep(&MINUTES, &HIGHS, &MARKS, &HALVES, &mut plain));
    for (seven, five) in rows.chunks(RANGE_ROW_WIDTH).zip(plain.chunks(ROW_WIDTH)) {
        assert_eq!(seven[..3], five[..3]);
        assert_eq!(seven[3..5], [five[3], five[3]]);
        assert_eq!(seven[5..], [five[4], five[4]]);
    }
}

/// Each choice of values between lies between, both ends among them.
#[test]
fn choices_lie_between() {
    let (_, rows) = swept(&LOWS, &HIGHS);
    for second in [0, 1, 31, 60] {
        for last in [0, 7, 20] {
            let mut plain = [0; ROW_WIDTH * MARKS.len()];
            let answer = sweep(
                &MINUTES,
                &[40, second, 80, last],
                &MARKS,
                &HALVES,
                &mut plain,
            );
            assert_eq!(answer, Ok(8));
            for (seven, five) in rows.chunks(RANGE_ROW_WIDTH).zip(plain.chunks(ROW_WIDTH)) {
                assert_eq!(seven[..3], five[..3]);
                assert!(seven[3] <= five[3] && five[3] <= seven[4]);
                assert!(seven[5] <= five[4] && five[4] <= seven[6]);
                if (second, last) == (0, 0) {
                    assert_eq!([five[3], five[4]], [seven[3], seven[5]]);
                }
                if (second, last) == (60, 20) {
                    assert_eq!([five[3], five[4]], [seven[4], seven[6]]);
                }
            }
        }
    }
}

/// Each end is rounded for itself, a half to the even number.
#[test]
fn ends_are_rounded_apart() {
    let mut rows = [0; RANGE_ROW_WIDTH];
    let answer = sweep_ranges(&[0, 0], &[2, 3], &[3, 4], &[0], &[1], &mut rows);
    assert_eq!(answer, Ok(2));
    assert_eq!(rows, [0, 2, 2, 5, 7, 2, 4]);
}

#[test]
fn sweep_reports() {
    let ask = |m: &[u16], l: &[u16], h: &[u16], z: &[u16], w: &[u32], rows: usize| {
        let mut out = vec![9; rows];
        let answer = sweep_ranges(m, l, h, z, w, &mut out);
        if answer.is_err() {
            assert_eq!(out, vec![9; rows]);
        }
        answer
    };
    let mut falling = vec![3u16; 1025];
    falling[1] = 2;
    let ones = [1; 1025];
    let three = &falling[..3];
    // 8, 6, 7, 4, 15, 5, 9, 10, each with the faults of those behind it.
    assert_eq!(ask(&falling, &[], &ones, &[], &[], 0), no(8, 0));
    assert_eq!(ask(&falling, &ones, &[], &[], &[], 0), no(8, 0));
    assert_eq!(ask(&falling, &ones, &ones, &[], &[0], 0), no(8, 0));
    for rows in [0, 5, 6, 8, 14] {
        assert_eq!(ask(three, &[2; 3], &[1; 3], &[7], &[0], rows), no(8, 0));
    }
    assert_eq!(ask(&falling, &ones, &ones, &[], &[], 0), no(6, 0));
    let many = ask(three, &[2; 3], &[1; 3], &[5; 513], &[0; 513], 3591);
    assert_eq!(many, no(6, 0));
    assert_eq!(ask(three, &[2; 3], &[1; 3], &[], &[], 0), no(7, 0));
    assert_eq!(ask(three, &[2; 3], &[1; 3], &[7, 6], &[0, 0], 14), no(4, 1));
    let crossed = ask(&[3; 3], &[1, 2, 2], &[1; 3], &[7, 6], &[0, 0], 14);
    assert_eq!(crossed, no(15, 1));
    assert_eq!(ask(&[3], &[1], &[1], &[7, 6], &[0, 0], 14), no(5, 1));
    assert_eq!(ask(&[3], &[1], &[1], &[7, 7], &[9, 0], 14), no(9, 1));
    assert_eq!(ask(&[3], &[1], &[1], &[7, 7], &[9, 8], 14), no(10, 1));
    // Crossed at 1, early at 3: the order of the reports and not of the places.
    let early = ask(&[3, 4, 5, 4], &[0, 9, 0, 0], &[5; 4], &[7], &[9], 7);
    assert_eq!(early, no(4, 3));
}

// ------------------------------------------------------------- the reader

#[test]
fn both_kinds_are_told() {
    let mut lists = filled();
    let sheet = format!("{FRONT}{RANGES}");
    let answer = read_into(sheet.as_bytes(), &mut lists);
    assert_eq!(answer, Ok((4, 3, Kind::Ranges)));
    let mut wanted = filled();
    wanted.minutes[..4].copy_from_slice(&MINUTES);
    wanted.lows[..4].copy_from_slice(&LOWS);
    wanted.highs[..4].copy_from_slice(&HIGHS);
    wanted.marks[..3].copy_from_slice(&MARKS);
    wanted.halves[..3].copy_from_slice(&HALVES);
    assert_eq!(lists, wanted);

    let mut lists = filled();
    let sheet = format!("{FRONT}{PLAIN}");
    let answer = read_into(sheet.as_bytes(), &mut lists);
    assert_eq!(answer, Ok((4, 3, Kind::Plain)));
    wanted.lows[..4].copy_from_slice(&HIGHS);
    assert_eq!(lists, wanted);
}

/// The second names line alone decides the kind.
#[test]
fn kind_without_readings() {
    let of = |names: &str| read_both(&format!("{FRONT}{names}"));
    assert_eq!(of("minute,inj,vdk\n"), Ok((0, 3, Kind::Plain)));
    assert_eq!(of("minute,inj,low,high\n"), Ok((0, 3, Kind::Ranges)));
    assert_eq!(of("minute,inj,low,high\r\n"), Ok((0, 3, Kind::Ranges)));
    for wrong in [
        "minute,inj,low\n",
        "minute,inj,high,low\n",
        "minute,inj,low,high,\n",
        "minute,inj,low,high",
        "minute,inj,low,high\r",
        "minute,inj,vdk,vdk\n",
        "\n",
        "",
    ] {
        assert_eq!(of(wrong), no(2, 29), "{wrong:?}");
    }
    // A line of the other kind is of wrong form.
    assert_eq!(of("minute,inj,vdk\n1,3,4,4\n"), no(3, 44));
    assert_eq!(of("minute,inj,low,high\n1,3,4\n"), no(3, 49));
}

#[test]
fn reader_reports() {
    let of = |lines: &str| read_both(&format!("{FRONT}minute,inj,low,high\n{lines}"));
    assert_eq!(of("1,3,4,4,4\n"), no(3, 49));
    assert_eq!(of("1,3,4,\n"), no(3, 49));
    assert_eq!(of("1,3,4,65536\n"), no(3, 49));
    assert_eq!(of("1,3,65536,65535\n"), no(3, 49));
    assert_eq!(of("1,0,4,4\n"), no(3, 49));
    assert_eq!(of("1,3,04,4\n"), no(3, 49));
    assert_eq!(of("1,3,4,4"), no(3, 49));
    assert_eq!(of("\n"), no(3, 49));
    // Early before crossed, of one line; of two lines the first.
    assert_eq!(of("2,3,4,4\n1,3,5,4\n"), no(4, 57));
    assert_eq!(of("2,3,5,4\n1,3,4,4\n"), no(15, 49));
    assert_eq!(of("2,3,4,4\n1,1,5,4\n"), no(4, 57));
    // Dropped lines are checked too.
    assert_eq!(of("2,1,5,4\n"), no(15, 49));
    assert_eq!(of("2,2,5,4\n"), no(15, 49));
    assert_eq!(of("2,1,4,4\n1,3,4,4\n"), no(4, 57));
    // Crossed before crowded.
    let many = "2,3,4,5\n".repeat(1024);
    assert_eq!(of(&many), Ok((1024, 3, Kind::Ranges)));
    assert_eq!(of(&format!("{many}2,1,4,5\n")), Ok((1024, 3, Kind::Ranges)));
    assert_eq!(of(&format!("{many}2,3,4,5\n")), no(6, 49 + 8192));
    assert_eq!(of(&format!("{many}2,3,5,4\n")), no(15, 49 + 8192));
    // Of the published sheet, its first dropped line crossed.
    let sheet = format!("{FRONT}{RANGES}").replace("12,1,900,900", "12,1,901,900");
    assert_eq!(read_both(&sheet), no(15, 60));
    assert_eq!(program(sheet.as_bytes()), b"refused,place\n15,60\n");
    // Crossed at the second reading, early at the fourth: the first line.
    let lists = of("3,3,0,5\n4,3,9,5\n5,3,0,5\n4,3,0,5\n");
    assert_eq!(lists, no(15, 57));
}

#[test]
fn reader_wants_its_lengths() {
    let good = format!("{FRONT}{RANGES}");
    for k in 0..5 {
        for longer in [false, true] {
            let mut lists = filled();
            let length = |n: usize| if longer { n + 1 } else { n - 1 };
            match k {
                0 => lists.minutes.resize(length(1024), 1),
                1 => lists.lows.resize(length(1024), 1),
                2 => lists.highs.resize(length(1024), 1),
                3 => lists.marks.resize(length(512), 1),
                _ => lists.halves.resize(length(512), 1),
            }
            let before = lists.clone();
            assert_eq!(read_into(good.as_bytes(), &mut lists), no(8, 0));
            assert_eq!(read_into(&[b'x'; 32_769], &mut lists), no(8, 0));
            assert_eq!(lists, before);
        }
    }
    let mut lists = filled();
    assert_eq!(read_into(&[b'x'; 32_769], &mut lists), no(1, 32_768));
}

/// A sheet of ranges is no plain one.
#[test]
fn first_reader_takes_no_ranges() {
    let sheet = format!("{FRONT}{RANGES}");
    let mut l = filled();
    let answer = read(
        sheet.as_bytes(),
        &mut l.minutes,
        &mut l.lows,
        &mut l.marks,
        &mut l.halves,
    );
    assert_eq!(answer, no(2, 29));
    assert_eq!(l, filled());
}

// ------------------------------------------------------------ the program

#[test]
fn published_sheet_with_ranges() {
    let written = "mark,half,left,right,weight,sumlow,sumhigh,vdklow,vdkhigh\n\
        20,10,0,3,200,8000,14000,40,70\n\
        25,15,0,4,525,16000,30500,30,58\n\
        60,20,4,4,0,0,0,-,-\n\
        \n\
        kept,passes\n\
        4,8\n";
    let sheet = format!("{FRONT}{RANGES}");
    assert_eq!(
        String::from_utf8(program(sheet.as_bytes())).unwrap(),
        written
    );
    let office = sheet.replace('\n', "\r\n");
    assert_eq!(program(office.as_bytes()), written.as_bytes());

    let mut out = vec![1; MOST_OUTPUT];
    assert_eq!(text(sheet.as_bytes(), &mut out), Ok(written.len()));
    assert_eq!(out[..written.len()], *written.as_bytes());
    assert!(out[written.len()..].iter().all(|&byte| byte == 1));
    assert_eq!(text(sheet.as_bytes(), &mut [1; 44_112]), no(8, 0));
    assert_eq!(text(b"", &mut out), no(2, 0));
}

/// A plain sheet, a refused one, and the empty one are written as they were.
#[test]
fn plain_sheets_are_written_as_before() {
    let sheet = format!("{FRONT}{PLAIN}");
    for sheet in [sheet.as_str(), "", "mark,half\n\n", &sheet[..60]] {
        assert_eq!(program(sheet.as_bytes()), plain_program(sheet.as_bytes()));
    }
    for name in ["document", "even-fall", "afternoon", "office"] {
        let path = format!("{}/../examples/{name}.sheet", env!("CARGO_MANIFEST_DIR"));
        let sheet = std::fs::read(path).unwrap();
        assert_eq!(program(&sheet), plain_program(&sheet));
    }
}

/// The longest line of ranges: all numbers at their greatest length.
#[test]
fn no_line_is_longer_than_counted() {
    // 1,024 readings do not fit a sheet with values of five digits; the lists
    // can have them.
    let (minutes, values) = ([65_535; 1024], [65_535; 1024]);
    let mut rows = [0; RANGE_ROW_WIDTH];
    let answer = sweep_ranges(&minutes, &values, &values, &[65_535], &[65_536], &mut rows);
    assert_eq!(answer, Ok(1024));
    let digits = |k: usize| rows[k].to_string().len();
    assert_eq!((digits(2), digits(3), digits(5)), (13, 18, 5));
    assert_eq!(5 + 5 + 4 + 4 + 13 + 2 * 18 + 2 * 5 + 8 + 1, 86);
    assert_eq!(58 + 512 * 86 + 1 + 12 + 10, MOST_OUTPUT);
}
