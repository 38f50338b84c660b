//! What stands in a picture. The pictures of `examples/` are compared whole by `tests/view`.

mod run;

use run::{folder, run};
use std::fs;

/// The picture that a command with `--svg` makes.
fn picture(test: &str, arguments: &[&str], input: &[u8]) -> String {
    let out = folder(test).join("out.svg");
    let out = out.to_str().unwrap();
    let ran = run(&[&["--svg", out], arguments].concat(), input);
    assert_eq!(ran.status, Some(0), "{}", ran.stderr);
    fs::read_to_string(out).unwrap()
}

/// The lines between the legend and the end that begin so; the legend ends with the notes' group.
fn drawn<'a>(picture: &'a str, begin: &str) -> Vec<&'a str> {
    let (_, plot) = picture.split_once("fill=\"#333333\">").expect("notes");
    plot.lines()
        .filter(|line| line.starts_with(begin))
        .collect()
}

/// The elements of the groups that begin so.
fn grouped(picture: &str, begin: &str) -> usize {
    let (_, plot) = picture.split_once("fill=\"#333333\">").expect("notes");
    let groups = plot.split("<g ").filter(|group| group.starts_with(begin));
    groups
        .map(|group| group.split("</g>").next().unwrap_or("").lines().count() - 1)
        .sum()
}

/// Every number of an attribute with a place in it.
fn places(picture: &str) -> Vec<f64> {
    let mut places = Vec::new();
    for name in [
        " x=\"",
        " y=\"",
        " x1=\"",
        " y1=\"",
        " x2=\"",
        " y2=\"",
        " cx=\"",
        " cy=\"",
        " points=\"",
    ] {
        for rest in picture.split(name).skip(1) {
            let value = rest.split('"').next().unwrap_or("");
            places.extend(
                value
                    .split([',', ' ', '\n'])
                    .map(|number| number.parse::<f64>().unwrap()),
            );
        }
    }
    places
}

const FILLED: &str = "fill=\"#06264d\" fill-opacity=\"0.45\"";
const HOLLOW: &str = "fill=\"none\" stroke=\"#06264d\"";

#[test]
fn the_season() {
    let picture = picture("season", &["examples/season.sheet"], b"");
    assert_eq!(grouped(&picture, FILLED), 1024, "kept readings");
    assert_eq!(grouped(&picture, HOLLOW), 16, "dropped ones");
    // Two pauses break the curve; 20 marks have no value, each with a cross of two lines.
    assert_eq!(drawn(&picture, "<polyline").len(), 3);
    assert_eq!(
        drawn(&picture, "<line")
            .iter()
            .filter(|line| line.contains("stroke-width=\"1.8\""))
            .count(),
        40
    );
    assert!(picture.contains(">days since pitching<") && picture.contains(">diacetyl, µg/l<"));
}

#[test]
fn a_limit_and_what_answers_it() {
    let picture = picture(
        "limit",
        &["--limit", "945", "examples/even-fall.sheet"],
        b"",
    );
    assert!(picture.contains(">limit 94.5 µg/l<"));
    assert!(
        picture.contains(">first at or below it<") && picture.contains(">reading that decides<")
    );
    let ring = "fill=\"none\" stroke=\"#06264d\" stroke-width=\"2.4\"/>";
    assert_eq!(
        drawn(&picture, "<circle")
            .iter()
            .filter(|line| line.ends_with(ring))
            .count(),
        1
    );
    assert_eq!(
        drawn(&picture, "<rect")
            .iter()
            .filter(|line| line.ends_with(ring))
            .count(),
        1
    );
}

#[test]
fn no_answer_no_ring() {
    let picture = picture(
        "unanswered",
        &["--limit", "945", "examples/afternoon.sheet"],
        b"",
    );
    assert!(picture.contains("no mark has a value at or below the limit of 94.5 µg/l"));
    assert!(!picture.contains("first at or below it") && !picture.contains("reading that decides"));
}

/// A curve that is there at one mark, missing at the next, and there again.
#[test]
fn values_alone_are_seen() {
    let sheet = b"mark,half\n10,5\n20,5\n30,5\n\nminute,inj,vdk\n10,3,40\n30,4,50\n";
    let picture = picture("alone", &[], sheet);
    assert!(drawn(&picture, "<polyline").is_empty());
    assert_eq!(drawn(&picture, "<rect").len(), 2);
}

/// The same among so many marks that the others have none of their own.
#[test]
fn values_alone_are_seen_among_many() {
    let marks: String = (1..=70).map(|k| format!("{},5\n", 10 * k)).collect();
    let sheet =
        format!("mark,half\n{marks}\nminute,inj,vdk\n10,3,40\n300,4,50\n304,5,50\n306,6,50\n");
    let picture = picture("many", &[], sheet.as_bytes());
    // 10 stands alone; 300 and 310 are joined.
    assert_eq!(drawn(&picture, "<polyline").len(), 1);
    assert_eq!(drawn(&picture, "<rect").len(), 1);
}

/// Sheets at the ends of what there is: everything lies within the picture, and each group ends.
#[test]
fn odd_sheets_stay_within_the_picture() {
    for (name, marks, readings) in [
        ("none", "0,1", ""),
        ("late", "65535,65536", ""),
        ("one", "10,5", "10,3,0\n"),
        ("same", "10,5\n10,5", "10,3,7\n10,4,9\n"),
        ("greatest", "0,1\n65535,65536", "0,3,65535\n65535,9,65535\n"),
        ("dropped", "10,5", "9,1,65535\n"),
    ] {
        let sheet = format!("mark,half\n{marks}\n\nminute,inj,vdk\n{readings}");
        let last = marks
            .rsplit('\n')
            .next()
            .and_then(|line| line.split(',').next())
            .unwrap();
        let picture = picture(
            name,
            &["--window", last, "--limit", "65535"],
            sheet.as_bytes(),
        );
        for place in places(&picture) {
            assert!((0.0..=960.0).contains(&place), "{name}: {place}");
        }
        assert_eq!(
            picture.matches("<g ").count(),
            picture.matches("</g>").count(),
            "{name}"
        );
        assert!(
            picture.starts_with("<svg ") && picture.ends_with("</svg>\n"),
            "{name}"
        );
    }
}

/// No text is smaller than 15 of the picture's 960 units of width.
#[test]
fn texts_can_be_read() {
    let picture = picture(
        "sizes",
        &[
            "--limit",
            "945",
            "examples/even-fall.sheet",
            "examples/afternoon.sheet",
        ],
        b"",
    );
    let sizes: Vec<u32> = picture
        .split("font-size=\"")
        .skip(1)
        .map(|rest| rest.split('"').next().unwrap().parse().unwrap())
        .collect();
    assert!(
        sizes.len() > 3 && sizes.iter().all(|&size| size >= 15),
        "{sizes:?}"
    );
}

/// A name with letters that mean something else in a picture.
#[test]
fn a_name_is_only_a_name() {
    let folder = folder("named");
    let sheet = folder.join("a<b>&\"c.sheet");
    fs::copy(run::root().join("examples/document.sheet"), &sheet).unwrap();
    let out = folder.join("out.svg");
    let ran = run(
        &["--svg", out.to_str().unwrap(), sheet.to_str().unwrap()],
        b"",
    );
    assert_eq!(ran.status, Some(0));
    let picture = fs::read_to_string(out).unwrap();
    assert!(picture.contains("a&lt;b&gt;&amp;&quot;c") && !picture.contains("a<b>"));
}

/// Ranges are bars, a dropped one hollow, a range of one value a dot; the curve is a band between two lines.
#[test]
fn a_sheet_with_ranges() {
    let sheet = b"mark,half\n20,10\n25,15\n60,20\n\nminute,inj,low,high\n10,3,0,40\n12,1,0,900\n20,3,60,60\n20,4,0,80\n35,5,20,20\n";
    let picture = picture("ranges", &[], sheet);
    let (_, plot) = picture.split_once("fill=\"#333333\">").unwrap();
    let kept = plot
        .split(FILLED)
        .nth(1)
        .unwrap()
        .split("</g>")
        .next()
        .unwrap();
    assert_eq!(
        (
            kept.matches("<rect").count(),
            kept.matches("<circle").count()
        ),
        (2, 2)
    );
    let dropped = plot
        .split(HOLLOW)
        .nth(1)
        .unwrap()
        .split("</g>")
        .next()
        .unwrap();
    assert_eq!(
        (
            dropped.matches("<rect").count(),
            dropped.matches("<circle").count()
        ),
        (1, 0)
    );
    assert_eq!(
        (
            drawn(&picture, "<polygon").len(),
            drawn(&picture, "<polyline").len()
        ),
        (1, 2)
    );
    assert!(picture.contains(">reading<") && picture.contains(">reading, from low to high<"));
}

/// The legend has just the kinds of readings that are drawn.
#[test]
fn the_legend_of_ranges() {
    for (readings, dots, bars) in [
        ("10,3,0,40\n", false, true),
        ("10,3,40,40\n", true, false),
        ("10,3,40,40\n11,1,0,40\n", true, false),
        ("10,3,0,40\n11,3,40,40\n", true, true),
        ("", false, true),
    ] {
        let sheet = format!("mark,half\n20,10\n\nminute,inj,low,high\n{readings}");
        let picture = picture("legend", &[], sheet.as_bytes());
        let has = |words: &str| picture.contains(words);
        assert_eq!(
            (has(">reading<"), has(">reading, from low to high<")),
            (dots, bars),
            "{readings}"
        );
    }
}

/// Two long names in capitals: the title takes two lines, and everything stays within the picture.
#[test]
fn long_names() {
    let folder = folder("long-names");
    let names = [
        "LAGERKELLER WEST TANK 12",
        "LAGERKELLER OST TANK 13 MAERZ 2026",
    ];
    let sheets = names.map(|name| folder.join(format!("{name}.sheet")));
    for sheet in &sheets {
        fs::copy(run::root().join("examples/even-fall.sheet"), sheet).unwrap();
    }
    let [first, second] = sheets.map(|sheet| sheet.to_str().unwrap().to_string());
    let picture = picture("long", &["--limit", "945", &first, &second], b"");
    assert_eq!(picture.matches("font-weight=\"bold\"").count(), 2);
    for place in places(&picture) {
        assert!((0.0..=960.0).contains(&place), "{place}");
    }
}
