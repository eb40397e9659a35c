//! Network and local accuracies and variance factors, *91* *92* *93*: what is
//! shown of them, what is refused and where, and their house style.

use crate::deposits::network;
use crate::desk::Desk;
use crate::pointing::pointed;
use shelf::sample;
use std::ops::RangeInclusive;

#[test]
fn their_values_with_their_units() {
    let desk = Desk::new("accuracies");
    desk.put("net.b", &network());
    for (record, said) in [
        (
            "41",
            "*91* network accuracy\n    \
             columns 1-6   sequence number                     missing\n    \
             columns 11-14 station                             104\n    \
             columns 21-30 north standard deviation            0.67 cm\n    \
             columns 31-40 east standard deviation             0.59 cm\n    \
             columns 41-50 correlation coefficient             0.11240853\n    \
             columns 51-60 ellipsoid height standard deviation 2.16 cm\n    \
             column 65     scaled code                         \"Y\"\n    \
             columns 66-80 comment                             \"one session    \"\n",
        ),
        (
            "42",
            "*92* local accuracy\n    \
             columns 1-6   sequence number                     missing\n    \
             columns 11-14 standpoint station                  101\n    \
             columns 17-20 forepoint station                   102\n    \
             columns 23-32 north standard deviation            0.33 cm\n    \
             columns 33-42 east standard deviation             0.30 cm\n    \
             columns 43-52 correlation coefficient             -0.00187203\n    \
             columns 53-62 ellipsoid height standard deviation 0.98 cm\n    \
             column 67     scaled code                         \"Y\"\n    \
             columns 68-80 comment                             \"             \"\n",
        ),
        (
            "47",
            "*93* variance factors\n    \
             columns 1-6   sequence number             missing\n    \
             columns 11-18 horizontal factor           1.386\n    \
             columns 19-26 vertical factor             2.214\n    \
             columns 27-80 comment                     \
             \"free adjustment, 27 February 2024                     \"\n",
        ),
    ] {
        let ran = desk.run(&["show", "net.b", record]).ended(0);
        assert_eq!(ran.out, format!("net.b, record {record}: {said}"));
    }
}

/// What is shown of a line by itself, from column 11 on, behind the names.
fn values(desk: &Desk, parts: &[(usize, &str)]) -> Vec<String> {
    let sequence = [(1, "999999")];
    desk.put("line.b", &sample::line(&[&sequence, parts].concat()));
    let out = desk.run(&["show", "line.b", "1"]).ended(0).out;
    let mut lines = out.lines().skip(1);
    let start = lines.next().unwrap().find("999999").unwrap();
    lines.map(|line| line[start..].to_string()).collect()
}

#[test]
fn both_ends_of_a_network_accuracy() {
    let desk = Desk::new("ends-91");
    let least = [
        (7, "*91*"),
        (11, "   1"),
        (21, "         0"),
        (31, "0000000000"),
        (41, "-099999990"),
        (51, "         1"),
        (65, "N"),
    ];
    let shown = [
        "1",
        "0.00 cm",
        "0.00 cm",
        "-0.99999990",
        "0.01 cm",
        "\"N\"",
        "\"               \"",
    ];
    assert_eq!(values(&desk, &least), shown);
    let most = [
        (7, "*91*"),
        (11, "9999"),
        (21, "0999999999"),
        (31, " 999999999"),
        (41, "0099999999"),
        (51, "0999999999"),
        (65, "Y"),
        (66, "~~~~~~~~~~~~~~~"),
    ];
    let shown = [
        "9999",
        "9999999.99 cm",
        "9999999.99 cm",
        "0.99999999",
        "9999999.99 cm",
        "\"Y\"",
        "\"~~~~~~~~~~~~~~~\"",
    ];
    assert_eq!(values(&desk, &most), shown);
}

/// The sign stays where the whole part is zero; minus zero has none.
#[test]
fn correlations_of_a_local_accuracy() {
    let desk = Desk::new("ends-92");
    for (text, shown) in [
        ("-099999990", "-0.99999990"),
        (" -99999990", "-0.99999990"),
        ("-050000000", "-0.50000000"),
        ("        -1", "-0.00000001"),
        ("        -0", "0.00000000"),
        ("         0", "0.00000000"),
        ("0050000000", "0.50000000"),
        ("  99999999", "0.99999999"),
    ] {
        let line = [
            (7, "*92*"),
            (11, "   1"),
            (17, "9999"),
            (23, "      1234"),
            (33, " 999999999"),
            (43, text),
            (53, "         0"),
            (67, "N"),
            (68, "to the pillar"),
        ];
        let before = ["1", "9999", "12.34 cm", "9999999.99 cm"];
        let behind = ["0.00 cm", "\"N\"", "\"to the pillar\""];
        let expected = [&before[..], &[shown], &behind].concat();
        assert_eq!(values(&desk, &line), expected, "{text}");
    }
}

#[test]
fn both_ends_of_the_variance_factors() {
    let desk = Desk::new("ends-93");
    for (horizontal, vertical, shown) in [
        ("00000001", "    9999", ["0.001", "9.999"]),
        ("00009999", "       1", ["9.999", "0.001"]),
        ("    1000", "00001000", ["1.000", "1.000"]),
    ] {
        let line = [(7, "*93*"), (11, horizontal), (19, vertical), (27, "free")];
        let comment = format!("\"free{}\"", " ".repeat(50));
        let expected = [&shown[..], &[&comment]].concat();
        assert_eq!(values(&desk, &line), expected);
    }
}

/// A text in a field, which of its columns is named, and what that could have
/// held.
type Case = (&'static str, usize, &'static str);

/// Each text put into a field of the sample, of which `must` is said.
fn bad(record: usize, columns: RangeInclusive<usize>, must: &str, cases: &[Case]) {
    let (first, last) = columns.into_inner();
    let place = match first == last {
        true => format!("column {first}"),
        false => format!("columns {first}-{last}"),
    };
    let words = must.replace(" must be ", &format!(" in {place} must be "));
    let column = |at| first + at - 1;
    let cases: Vec<Case> = cases
        .iter()
        .map(|&(text, at, could)| (text, column(at), could))
        .collect();
    pointed(
        &format!("{record}-{first}"),
        (record, first),
        &words,
        &cases,
    );
}

/// 0 is good there, and no point is written.
#[test]
fn a_bad_standard_deviation() {
    for (record, columns, name) in [
        (21, 21..=30, "north"),
        (21, 31..=40, "east"),
        (21, 51..=60, "ellipsoid height"),
        (22, 23..=32, "north"),
        (22, 33..=42, "east"),
        (22, 53..=62, "ellipsoid height"),
    ] {
        let must = format!(
            "{name} standard deviation must be a number of hundredths of a centimetre from 0 to \
             999999999, blanks only in front"
        );
        let cases = [
            ("1000000000", 1, "a blank or 0"),
            ("x000000000", 1, "a blank or 0"),
            (" -00000001", 2, "a blank or a digit"),
            ("0 00000001", 2, "a digit"),
            ("      0.62", 8, "a digit"),
            ("000000062 ", 10, "a digit"),
            ("          ", 10, "a digit"),
        ];
        bad(record, columns, &must, &cases);
    }
}

#[test]
fn a_bad_correlation() {
    for (record, columns) in [(21, 41..=50), (22, 43..=52)] {
        let must = "correlation coefficient must be a number of hundred-millionths from \
                    -99999990 to 99999999: blanks, perhaps a minus, digits";
        let cases = [
            ("1000000000", 1, "a blank, a minus or 0"),
            ("0100000000", 2, "0"),
            (" 100000000", 2, "a blank, a minus or 0"),
            ("-100000000", 2, "0"),
            ("- 50000000", 2, "0"),
            ("0-50000000", 2, "0"),
            (" --5000000", 3, "a digit"),
            ("       .50", 8, "a blank, a minus or a digit"),
            ("       -.5", 9, "a digit"),
            ("-099999991", 10, "0"),
            (" -99999999", 10, "0"),
            ("         -", 10, "a digit"),
            ("          ", 10, "a digit"),
        ];
        bad(record, columns, must, &cases);
    }
}

/// 0 is not good there.
#[test]
fn a_bad_factor() {
    for (columns, name) in [(11..=18, "horizontal"), (19..=26, "vertical")] {
        let must = format!(
            "{name} factor must be a number of thousandths from 1 to 9999, blanks only in front"
        );
        let cases = [
            ("10000000", 1, "a blank or 0"),
            ("00010000", 4, "0"),
            ("   1.000", 4, "a blank or 0"),
            ("    -100", 5, "a blank or a digit"),
            ("    1.00", 6, "a digit"),
            ("00000000", 8, "a digit 1 to 9"),
            ("        ", 8, "a digit 1 to 9"),
        ];
        bad(23, columns, &must, &cases);
    }
}

#[test]
fn a_bad_station() {
    for (record, columns, name) in [
        (21, 11..=14, "station"),
        (22, 11..=14, "standpoint station"),
        (22, 17..=20, "forepoint station"),
    ] {
        let must = format!("{name} must be a number from 1 to 9999, blanks only in front");
        let cases = [("0000", 4, "a digit 1 to 9"), ("1 23", 2, "a digit")];
        bad(record, columns, &must, &cases);
    }
}

#[test]
fn a_spacer_that_is_not_blank() {
    for (record, columns) in [
        (21, 15..=20),
        (21, 61..=64),
        (22, 15..=16),
        (22, 21..=22),
        (22, 63..=66),
    ] {
        let cases = [("0", 1, "a blank"), (" x", 2, "a blank")];
        bad(record, columns, "spacer must be blank", &cases);
    }
}

/// It may not be blank.
#[test]
fn a_bad_scaled_code() {
    for (record, columns) in [(21, 65..=65), (22, 67..=67)] {
        let cases = [" ", "y", "0", "-"].map(|text| (text, 1, ""));
        bad(record, columns, "scaled code must be Y or N", &cases);
    }
}

/// What check says of the network's deposit with a station replaced.
fn refusal(desk: &Desk, record: usize, column: usize, station: &str) -> String {
    let file = sample::with(&network(), record, column, station);
    desk.put("net.b", &file);
    let out = desk.run(&["check", "net.b"]).ended(1).out;
    let line = String::from_utf8_lossy(&file[81 * (record - 1)..][..80]);
    let drawn = format!("\n    {line}\n    {:>column$}\n", '^');
    assert!(out.ends_with(&drawn), "{out}");
    out.replace(&drawn, "")
}

/// By value: ` 101` is `0101`.
#[test]
fn a_local_accuracy_of_a_station_to_itself() {
    let desk = Desk::new("itself");
    let said = "net.b: refused, fault 10, record 42, column 17\n    \
                a field well formed that disagrees with an earlier one: forepoint station in \
                columns 17-20 must be another than the standpoint station in columns 11-14";
    for station in ["0101", " 101"] {
        assert_eq!(refusal(&desk, 42, 17, station), said);
        let shown = desk.run(&["show", "net.b", "42"]).ended(1).out;
        assert!(shown.starts_with(said), "{shown}");
    }
}

/// A record by itself is not asked whether its stations are defined.
#[test]
fn undefined_stations() {
    let desk = Desk::new("undefined");
    for (record, column, name) in [
        (38, 11, "station"),
        (42, 11, "standpoint station"),
        (42, 17, "forepoint station"),
    ] {
        let last = column + 3;
        let said = format!(
            "net.b: refused, fault 12, record {record}, column {column}\n    \
             a *25*, *91* or *92* names an undefined number: {name} in columns {column}-{last} \
             is defined by no record of this file"
        );
        assert_eq!(refusal(&desk, record, column, "0777"), said);
        let ran = desk.run(&["show", "net.b", &record.to_string()]).ended(0);
        let row = format!("columns {column}-{last} {name:<36}777\n");
        assert!(ran.out.contains(&row), "{}", ran.out);
    }
}

/// The accuracies of the deposit, from record 38 on.
const HOUSE: [&str; 10] = [
    "000380*91*0101      00000000410000000038-0031077420000000132    Y               ",
    "000390*91*0102      0000000046000000004400018940060000000151    Y               ",
    "000400*91*0103      00000000400000000037-0025601180000000127    Y               ",
    "000410*91*0104      0000000067000000005900112408530000000216    Yone session    ",
    "000420*92*0101  0102  00000000330000000030-0001872030000000098    Y             ",
    "000430*92*0101  0103  00000000290000000027-0040155290000000090    Y             ",
    "000440*92*0101  0104  0000000054000000004700128033170000000173    Y             ",
    "000450*92*0102  0103  0000000036000000003400007201640000000109    Y             ",
    "000460*92*0103  0104  0000000055000000004900109924750000000178    Y             ",
    "000470*93*0000138600002214free adjustment, 27 February 2024                     ",
];

#[test]
fn their_house_style() {
    let desk = Desk::new("accuracies-house");
    let file = network();
    desk.put("net.b", &file);
    let ran = desk.run(&["rewrite", "net.b", "out.b"]).ended(0);
    let said = "net.b: accepted, 48 records written to out.b\n";
    assert_eq!((&ran.out[..], &ran.err[..]), (said, ""));
    let before = String::from_utf8(file[..81 * 37].to_vec()).unwrap();
    let behind = String::from_utf8(file[81 * 47 + 6..].to_vec()).unwrap();
    let expected = format!("{before}{}\n000480{behind}", HOUSE.join("\n"));
    assert_eq!(String::from_utf8(desk.get("out.b")).unwrap(), expected);
}
