//! What the program does with good sheets, and with commands that ask for something else.

mod run;

use run::{files, folder, root, run};
use std::fs;
use std::path::Path;

const EVEN_FALL: &str = "examples/even-fall.sheet";
const AFTERNOON: &str = "examples/afternoon.sheet";

fn read(path: impl AsRef<Path>) -> Vec<u8> {
    fs::read(root().join(path)).expect("the file is there")
}

fn words(lines: &[&str]) -> String {
    lines
        .iter()
        .map(|line| format!("tankview: {line}\n"))
        .collect()
}

/// Wrong use, or a file that cannot be read or written: status 2, words, and no curve where `curve` is empty.
fn trouble(arguments: &[&str], curve: &[u8], said: &str) {
    let ran = run(arguments, b"");
    assert_eq!(ran.status, Some(2), "{arguments:?}: {}", ran.stderr);
    assert!(ran.stderr.contains(said), "{arguments:?}: {}", ran.stderr);
    assert_eq!(ran.stdout, curve, "{arguments:?}");
}

#[test]
fn the_curve_byte_for_byte() {
    let mut sheets = 0;
    for name in files(&root().join("examples")) {
        let Some(name) = name.strip_suffix(".sheet") else {
            continue;
        };
        let (sheet, curve) = (
            format!("examples/{name}.sheet"),
            read(format!("examples/{name}.curve")),
        );
        let by_name = run(&[&sheet], b"");
        let by_input = run(&[], &read(&sheet));
        let by_dash = run(&["-"], &read(&sheet));
        for ran in [by_name, by_input, by_dash] {
            assert_eq!((ran.status, ran.stderr.as_str()), (Some(0), ""), "{name}");
            assert_eq!(ran.stdout, curve, "{name}");
        }
        sheets += 1;
    }
    assert!(sheets >= 7);
}

#[test]
fn help_names_every_option() {
    let ran = run(&["--help"], b"");
    let text = String::from_utf8(ran.stdout).unwrap();
    for option in [
        "--svg OUT",
        "--limit N",
        "--window M",
        "--help",
        "FILE [SECOND]",
        "neither\nmay be a sheet with ranges",
        "not for a sheet with ranges",
        "how many readings the window of the mark",
        "Exit status: 0",
    ] {
        assert!(text.contains(option), "{option}");
    }
    assert_eq!((ran.status, ran.stderr.as_str()), (Some(0), ""));
}

#[test]
fn a_limit_in_words() {
    let ran = run(&["--limit", "945", EVEN_FALL], b"");
    assert_eq!(ran.stderr, words(&[
        "first at or below the limit of 94.5 µg/l: mark 14400 (day 10.00) with 93.9 µg/l",
        "the reading of line 28 decides that: minute 14660 (day 10.18), 91.0 µg/l; without it the mark has 94.9 µg/l",
    ]));
    assert_eq!(
        (ran.status, ran.stdout),
        (Some(0), read("examples/even-fall.curve"))
    );
}

#[test]
fn a_limit_that_no_single_reading_decides() {
    let ran = run(&["--limit", "1000", EVEN_FALL], b"");
    assert_eq!(ran.stderr, words(&[
        "first at or below the limit of 100.0 µg/l: mark 14400 (day 10.00) with 93.9 µg/l",
        "no single reading decides that: without any one of them the mark stays at or below the limit",
    ]));
}

/// Behind the first mark at or below the limit the curve of the afternoon rises above it again.
#[test]
fn a_curve_that_is_above_the_limit_again() {
    let again = "behind mark 14400 the curve is above the limit again: first at mark 15840 (day 11.00) with 108.2 µg/l";
    let ran = run(&["--limit", "1000", AFTERNOON], b"");
    let said = words(&[again]);
    assert!(ran.stderr.ends_with(&said), "{}", ran.stderr);
    assert_eq!(ran.stderr.matches("above the limit again").count(), 1);
    let ran = run(&["--limit", "1000", EVEN_FALL, AFTERNOON], b"");
    let said = words(&[&format!("afternoon: {again}")]);
    assert!(ran.stderr.ends_with(&said), "{}", ran.stderr);
    assert_eq!(ran.stderr.matches("above the limit again").count(), 1);
}

/// A mark without a value is not above the limit, nor is one at it, nor one in front of the first.
#[test]
fn a_curve_that_stays_at_the_limit() {
    let sheet =
        "mark,half\n5,4\n10,4\n20,4\n30,4\n40,4\n\nminute,inj,vdk\n5,3,90\n10,4,30\n30,5,40\n";
    let ran = run(&["--limit", "40"], sheet.as_bytes());
    assert!(ran.stderr.contains("mark 10 "), "{}", ran.stderr);
    assert!(!ran.stderr.contains("again"), "{}", ran.stderr);
    let ran = run(&["--limit", "39"], sheet.as_bytes());
    let said = words(&["behind mark 10 the curve is above the limit again: first at mark 30 (day 0.02) with 4.0 µg/l"]);
    assert!(ran.stderr.ends_with(&said), "{}", ran.stderr);
}

#[test]
fn a_limit_that_no_mark_reaches() {
    let ran = run(&["--limit", "945", AFTERNOON], b"");
    assert_eq!(
        ran.stderr,
        words(&["no mark has a value at or below the limit of 94.5 µg/l"])
    );
    assert_eq!(ran.status, Some(0));
}

#[test]
fn a_value_that_hangs_on_its_only_reading() {
    let sheet = b"mark,half\n10,5\n\nminute,inj,vdk\n10,3,40\n";
    let ran = run(&["--limit", "40"], sheet);
    assert_eq!(ran.stderr, words(&[
        "first at or below the limit of 4.0 µg/l: mark 10 (day 0.01) with 4.0 µg/l",
        "the reading of line 5 decides that: minute 10 (day 0.01), 4.0 µg/l; without it the mark has no value",
    ]));
}

#[test]
fn a_window_in_words() {
    let ran = run(&["--window", "15840", EVEN_FALL], b"");
    assert_eq!(ran.stderr, words(&["window of mark 15840 (day 11.00): minutes 14400 to 17280, half width 1440, with 5 readings"]));
    let near = "--window 15841: the sheet has no mark at that minute; the nearest is 15840";
    trouble(&["--window", "15841", EVEN_FALL], b"", near);
    let near = "the nearest are 7200 and 7920";
    trouble(&["--window", "7500", EVEN_FALL], b"", near);
}

#[test]
fn two_tanks_in_words() {
    let ran = run(&[EVEN_FALL, AFTERNOON], b"");
    assert_eq!(ran.stderr, words(&[
        "examples/afternoon.sheet: its own marks are not used; it is set over the marks of examples/even-fall.sheet",
        "even-fall and afternoon part at mark 13680 (day 9.50): 103.5 µg/l and 103.2 µg/l; even-fall is higher",
    ]));
    assert_eq!(
        (ran.status, ran.stdout),
        (Some(0), read("examples/even-fall.curve"))
    );
    let ran = run(&[EVEN_FALL, "examples/office.sheet"], b"");
    assert!(
        ran.stderr
            .ends_with("even-fall and office have the same values at all marks\n"),
        "{}",
        ran.stderr
    );
}

#[test]
fn two_sheets_of_one_name() {
    let ran = run(&[EVEN_FALL, EVEN_FALL], b"");
    let said = "even-fall (first) and even-fall (second) have the same values at all marks\n";
    assert!(ran.stderr.ends_with(said), "{}", ran.stderr);
}

#[test]
fn a_missing_value_is_the_higher_one() {
    let ran = run(
        &["-", EVEN_FALL],
        b"mark,half\n10,5\n\nminute,inj,vdk\n10,3,40\n",
    );
    assert!(
        ran.stderr.ends_with("standard input and even-fall part at mark 10 (day 0.01): 4.0 µg/l and no value; even-fall is higher, since no value counts as the higher one\n"),
        "{}",
        ran.stderr
    );
}

#[test]
fn a_limit_for_both_tanks() {
    let ran = run(&["--limit=945", EVEN_FALL, AFTERNOON], b"");
    assert!(
        ran.stderr
            .contains("tankview: even-fall: first at or below the limit"),
        "{}",
        ran.stderr
    );
    assert!(
        ran.stderr
            .contains("tankview: afternoon: no mark has a value at or below the limit"),
        "{}",
        ran.stderr
    );
}

#[test]
fn wrong_use() {
    for (arguments, said) in [
        (&["--svg"][..], "--svg needs a file's name behind it"),
        (
            &["--limit", "100.0", EVEN_FALL],
            "1000 stands for 100.0 µg/l",
        ),
        (
            &["--limit", "65536", EVEN_FALL],
            "a whole number of 0 to 65535",
        ),
        (&["--colour", EVEN_FALL], "there is no option --colour"),
        (&[EVEN_FALL, AFTERNOON, EVEN_FALL], "at most two sheets"),
        (&["-", "-"], "standard input can be one of the two"),
        (&["no-such.sheet"], "no-such.sheet cannot be read: "),
        (
            &[EVEN_FALL, "no-such.sheet"],
            "no-such.sheet cannot be read: ",
        ),
        (&["examples"], "examples cannot be read: "),
    ] {
        trouble(arguments, b"", said);
    }
}

#[test]
fn a_refused_sheet_leaves_no_picture() {
    let folder = folder("refused");
    let (bad, out) = (folder.join("bad.sheet"), folder.join("out.svg"));
    fs::write(&bad, "mark,half\n").unwrap();
    let (bad, out) = (bad.to_str().unwrap(), out.to_str().unwrap());
    let ran = run(&["--svg", out, bad], b"");
    assert_eq!(
        (ran.status, ran.stdout.as_slice()),
        (Some(1), &b"refused,place\n3,10\n"[..])
    );
    let ran = run(&["--svg", out, EVEN_FALL, bad], b"");
    assert_eq!(
        (ran.status, ran.stdout),
        (Some(1), read("examples/even-fall.curve"))
    );
    assert!(
        ran.stderr
            .contains("bad.sheet is refused with report 3, torn line, "),
        "{}",
        ran.stderr
    );
    let ran = run(&["--svg", out, bad, EVEN_FALL], b"");
    assert_eq!(ran.status, Some(1));
    assert_eq!(files(&folder), ["bad.sheet"]);
}

#[test]
fn a_picture_that_cannot_be_written() {
    let folder = folder("unwritten");
    let at = |name: &str| folder.join(name).to_str().unwrap().to_string();
    let curve = read("examples/even-fall.curve");
    trouble(
        &["--svg", &at("none/out.svg"), EVEN_FALL],
        &curve,
        "cannot be written: ",
    );
    trouble(&["--svg", &at(""), EVEN_FALL], b"", "no ordinary file");
    trouble(&["--svg", "/dev/null", EVEN_FALL], b"", "no ordinary file");
    trouble(
        &["--svg", "-", EVEN_FALL],
        b"",
        "the picture goes into a file",
    );
    fs::copy(root().join(EVEN_FALL), at("own.sheet")).unwrap();
    trouble(
        &["--svg", &at("own.sheet"), &at("own.sheet")],
        b"",
        "it is the sheet",
    );
    trouble(
        &["--svg", &at("own.sheet"), EVEN_FALL, &at("own.sheet")],
        b"",
        "it is the sheet",
    );
    assert_eq!(fs::read(at("own.sheet")).unwrap(), read(EVEN_FALL));
    assert_eq!(files(&folder), ["own.sheet"]);
}

/// An older picture is replaced whole, through a link too.
#[test]
fn a_picture_replaces_another() {
    let folder = folder("replaced");
    let (out, link) = (folder.join("out.svg"), folder.join("link.svg"));
    fs::write(&out, "old".repeat(100_000)).unwrap();
    std::os::unix::fs::symlink("out.svg", &link).unwrap();
    let ran = run(&["--svg", link.to_str().unwrap(), EVEN_FALL], b"");
    assert_eq!((ran.status, ran.stderr.as_str()), (Some(0), ""));
    assert!(fs::symlink_metadata(&link).unwrap().is_symlink());
    let picture = fs::read_to_string(&out).unwrap();
    assert!(picture.starts_with("<svg ") && picture.ends_with("</svg>\n"));
    assert_eq!(files(&folder), ["link.svg", "out.svg"]);
}

const RANGES: &[u8] = b"mark,half\n20,10\n25,15\n60,20\n\nminute,inj,low,high\n10,3,0,40\n20,3,60,60\n20,4,0,80\n35,5,20,20\n";

#[test]
fn a_sheet_with_ranges() {
    let ran = run(&["--window", "25"], RANGES);
    let curve = "mark,half,left,right,weight,sumlow,sumhigh,vdklow,vdkhigh\n20,10,0,3,200,6000,14000,30,70\n25,15,0,4,525,14500,30500,28,58\n60,20,4,4,0,0,0,-,-\n\nkept,passes\n4,8\n";
    assert_eq!(String::from_utf8(ran.stdout).unwrap(), curve);
    assert_eq!(
        ran.stderr,
        words(&["window of mark 25 (day 0.02): minutes 10 to 40, half width 15, with 4 readings"])
    );
    assert_eq!(ran.status, Some(0));
}

/// A limit and a second tank ask about one value a mark.
#[test]
fn ranges_have_no_limit_and_no_second_tank() {
    let folder = folder("ranges");
    let (sheet, out) = (folder.join("trace.sheet"), folder.join("out.svg"));
    fs::write(&sheet, RANGES).unwrap();
    let (sheet, out) = (sheet.to_str().unwrap(), out.to_str().unwrap());
    trouble(
        &["--svg", out, "--limit", "60", sheet],
        b"",
        "--limit asks about one value a mark; ",
    );
    trouble(
        &["--svg", out, sheet, EVEN_FALL],
        b"",
        "two tanks are compared by one value a mark; ",
    );
    trouble(
        &["--svg", out, EVEN_FALL, sheet],
        b"",
        "trace.sheet has ranges\n",
    );
    assert_eq!(files(&folder), ["trace.sheet"]);
}
