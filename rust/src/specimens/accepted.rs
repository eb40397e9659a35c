//! Accepted files.

use super::survey::*;
use super::{accuracies, receivers, Specimen};

pub fn specimens() -> Vec<Specimen> {
    let mut all = vec![
        Specimen::good(
            "accepted_all_kinds",
            "all fourteen kinds, three stations, a third *27*, heights missing and negative, southern and western angles: nothing is wrong",
            all_kinds(),
        ),
        Specimen::good(
            "accepted_fewest_records",
            "one record for each place that must be filled, all sequence numbers blank: nothing is wrong",
            fewest(),
        ),
        Specimen::good(
            "accepted_third_27",
            "a group with three *27*: the third is good",
            small_before(7, &[measurement("  12", "231111", "1015", "01543")]),
        ),
        Specimen::good(
            "accepted_two_thousand_records",
            "300 stations, 2,025 records, the *80* in falling order: nothing is wrong",
            long(),
        ),
        Specimen::good(
            "accepted_titles_as_printed",
            "*10* with the 48 characters of a title as 001 prints them, names of *12* that start with the eleven marks as it prints those and end with the last eleven letters and the digits: each of them may stand there",
            small_with(&[
                (2, 11, "ABCDEFGHIJKLMNOPQRSTUVWXYZ0123456789*,'=)(-.+\\/                       "),
                (3, 26, "*,'=(-.+)/ PQRSTUV"),
                (3, 47, "WXYZ0123456789    "),
            ]),
        ),
    ];
    all.extend(accuracies::accepted());
    all.extend(receivers::accepted());
    all.extend(slips());
    all.extend(dress());
    all
}

pub fn all_kinds() -> Vec<u8> {
    let mut lines = observations();
    lines.extend(equipment_and_marks());
    numbered(lines).concat()
}

fn observations() -> Vec<Vec<u8>> {
    vec![
        job(),
        title(),
        title_more(),
        project(),
        occupation("  12", "T3153A0012", "007", "003"),
        comment("Antenna on a tribrach over the disk; sheet {12-A}, 28 C & cloudy ~"),
        measurement("  12", "231111", " 102", " 1543"),
        measurement(" 012", "231111", " 515", "01542"),
        measurement("0012", "231111", "0930", " 1543"),
        occupation("0045", "L3163Bbm45", "  8", "444"),
        comment(""),
        comment("Mark stands above the bracket: height is negative"),
        measurement("0045", "231112", "0000", "  -12"),
        measurement("0045", "231112", "2359", "  -13"),
        occupation("9999", "T3660Z!#~ ", "  7", "  3"),
        measurement("9999", "231231", "  10", "00000"),
        measurement("9999", "240101", "   5", "   -0"),
    ]
}

/// North, east, correlation and ellipsoid height of three accuracies, padded
/// in several ways.
const FIGURES: [[&str; 4]; 3] = [
    ["        62", "0000000058", " -12345678", "     00110"],
    ["0000000071", "        64", "   5000000", "       131"],
    ["        40", "        38", "        -0", "0999999999"],
];

fn equipment_and_marks() -> Vec<Vec<u8>> {
    let geoid = [(30, "x/y z"), (36, "    -32"), (43, "G")];
    let ellipsoid = [(46, "9999999"), (53, "C")];
    vec![
        instrument("007", " 45", ["Trimble", "NetR9", "5049K72258"]),
        instrument("  8", "112", ["Leica Geosystems", "GS18", "sn-3701188"]),
        instrument("999", "999", ["unknown", "", ""]),
        antenna("  3", "TRM57971.00", "NONE", "1441112501"),
        antenna("444", "LEIAR25.R4", "LEIT", ""),
        point(
            "0045",
            "Tuburan BM 17 (reset 1987)",
            "11434512345N",
            "123015900000E",
        ),
        full_heights("  45"),
        point("  12", "TUTUILA TIE", "14170000001S", "170420959999W"),
        heights("  12", &[&geoid[..], &ellipsoid[..]].concat()),
        point("9999", "", "38531512345N", "077020100000W"),
        heights("9999", &[]),
        network("  12", FIGURES[0], "Y", "{net} 2024 & ~"),
        network("0045", FIGURES[1], "N", ""),
        local(["0045", "  12"], FIGURES[2], "N", "!vector 45-12"),
        factor("    1000", "   02345", "{factors} of the free adjustment"),
        job(),
    ]
}

fn fewest() -> Vec<u8> {
    let mut lines = small();
    lines.remove(9);
    lines.remove(7);
    for line in &mut lines {
        line[..6].fill(b' ');
    }
    lines.concat()
}

/// Each station has one group, of three *27* at every third station.
fn long() -> Vec<u8> {
    let mut lines = vec![job(), title(), project()];
    for station in 1..=300 {
        let number = format!("{station:04}");
        let day = format!("T{:03}3A{number}", station + 60);
        let equipment = format!("{:03}", station % 20 + 1);
        lines.push(occupation(
            &number,
            &day,
            &equipment,
            &format!("{:>3}", station % 10 + 1),
        ));
        lines.push(comment(&format!("Occupation {station} of 300")));
        for time in 0..if station % 3 == 0 { 3 } else { 2 } {
            let time = format!("{:04}", 800 + 100 * time + station % 60);
            let height = format!("{:05}", 1_500 + station);
            lines.push(measurement(&number, "231111", &time, &height));
        }
    }
    for number in 1..=20 {
        lines.push(instrument(
            &format!("{number:>3}"),
            "045",
            ["Trimble", "NetR9", "5049K"],
        ));
    }
    for number in 1..=10 {
        lines.push(antenna(&format!("{number:>3}"), "TRM57971.00", "NONE", ""));
    }
    for station in (1..=300).rev() {
        lines.push(far_point(station));
        lines.push(far_heights(station));
    }
    for station in 1..=90 {
        lines.push(far_network(station));
    }
    lines.push(factor("    1000", "    1000", ""));
    lines.push(job());
    lines.concat()
}

fn far_point(station: u32) -> Vec<u8> {
    let minutes = station % 60;
    let seconds = station * 7 % 60;
    let latitude = format!(
        "{:02}{minutes:02}{seconds:02}{:05}",
        station % 90,
        station * 331
    );
    let longitude = format!(
        "{:03}{minutes:02}{seconds:02}{:05}",
        station % 180,
        station * 127
    );
    let south = if station % 6 < 3 { "S" } else { "N" };
    let west = if station % 4 < 2 { "E" } else { "W" };
    point(
        &format!("{station:>4}"),
        &format!("TUBURAN BM {station}"),
        &(latitude + south),
        &(longitude + west),
    )
}

/// Every fifth station has no orthometric height; many heights are negative.
fn far_heights(station: u32) -> Vec<u8> {
    let number = format!("{station:>4}");
    let height = i64::from(station) * 41 - 5_000;
    let height = format!("{height:>7}");
    if station.is_multiple_of(5) {
        heights(&number, &[(46, &height), (53, "B")])
    } else {
        heights(
            &number,
            &[(17, &height), (24, "A"), (27, "N"), (57, "GNSS leveling")],
        )
    }
}

/// Half of the correlations are negative, and their minus moves.
fn far_network(station: i64) -> Vec<u8> {
    let correlation = (station - 45) * 1_111_111;
    let figures = [
        format!("{:>10}", station * 7),
        format!("{:010}", station * 5),
        format!("{correlation:>10}"),
        format!("{:>10}", station * station),
    ];
    let scaled = if station % 2 == 0 { "Y" } else { "N" };
    network(
        &format!("{station:>4}"),
        figures.each_ref().map(String::as_str),
        scaled,
        "",
    )
}

/// The paper's slips but the last, which is a refusal.
fn slips() -> Vec<Specimen> {
    vec![
        Specimen::good(
            "slip_86_with_blank_comment",
            "the *86* has no comment: it is a record all the same, counted, and its heights are rewritten",
            small_with(&[(12, 57, "            ")]),
        ),
        Specimen::good(
            "slip_blank_height_is_missing",
            "the first *86* has no orthometric height, the second one of 0 mm: rewritten, the first stays blank and the second is 0000000",
            missing_and_zero(),
        ),
        Specimen::good(
            "slip_half_metre_below",
            "orthometric height and antenna height of -500 mm: rewritten with their minus, -000500 and -0500",
            small_with(&[(12, 17, "   -500"), (5, 56, " -500")]),
        ),
        Specimen::good(
            "slip_25_before_its_80",
            "two *25* name stations whose *80* stand later, in the other order: both are defined",
            two_stations(),
        ),
    ]
}

fn missing_and_zero() -> Vec<u8> {
    let mut lines = small();
    lines.splice(
        11..12,
        [
            heights("0012", &[(46, "-020905"), (53, "B")]),
            second_point("0013"),
            heights("0013", &[(17, "      0"), (24, "A"), (27, "N")]),
        ],
    );
    lines.concat()
}

fn two_stations() -> Vec<u8> {
    let mut lines = small();
    lines.splice(
        6..6,
        [
            occupation("0013", "T3153B0013", "008", "004"),
            measurement("0013", "231111", "1102", "01543"),
            measurement("0013", "231111", "1230", "01542"),
        ],
    );
    lines.splice(13..13, [second_point("0013"), heights("0013", &[])]);
    lines.concat()
}

/// One meaning twice, then another meaning by one millimetre.
fn dress() -> Vec<Specimen> {
    vec![
        Specimen::good(
            "dress_house",
            "a file in house style: it is rewritten as it stands",
            house_dress("-001234"),
        ),
        Specimen::good(
            "dress_other",
            "the same meaning in another dress (sequence numbers, padding, places of the minus, minus of a zero, letter of a zero, 180 W): rewritten, the same bytes as dress_house",
            other_dress(),
        ),
        Specimen::good(
            "dress_other_meaning",
            "dress_house with one height a millimetre lower: rewritten, other bytes than dress_house",
            house_dress("-001235"),
        ),
    ]
}

fn house_dress(height: &str) -> Vec<u8> {
    let coded = [
        (17, height),
        (24, "A"),
        (27, "Y"),
        (46, "0000000"),
        (53, "B"),
    ];
    numbered(vec![
        job(),
        title(),
        project(),
        occupation("0012", "T3153A0012", "007", "003"),
        measurement("0012", "231111", "0102", "-0012"),
        measurement("0012", "231111", "0930", "00000"),
        instrument("007", "045", ["Trimble", "NetR9", "5049K72258"]),
        antenna("003", "TRM57971.00", "NONE", "1441112501"),
        point("0012", "ON BOTH LINES", "00000000000N", "180000000000E"),
        heights("0012", &coded),
        point("0013", "OFF ACCRA", "00000000000N", "000000000000E"),
        heights("0013", &[(36, "-033250"), (43, "9")]),
        network("0012", FIGURES_IN_HOUSE[0], "Y", "scaled"),
        local(["0013", "0012"], FIGURES_IN_HOUSE[1], "N", ""),
        factor("00001000", "00000001", "by hand"),
        job(),
    ])
    .concat()
}

/// Of dress_house's *91* and *92*.
const FIGURES_IN_HOUSE: [[&str; 4]; 2] = [
    ["0000000062", "0999999999", "-000000050", "0000000000"],
    ["0000000001", "0000001234", "0000000000", "0000000075"],
];

/// The same figures.
const FIGURES_IN_OTHER_DRESS: [[&str; 4]; 2] = [
    ["        62", " 999999999", "       -50", "         0"],
    ["   0000001", "    001234", "    -00000", "  00000075"],
];

fn other_dress() -> Vec<u8> {
    let mut lines = vec![
        job(),
        title(),
        project(),
        occupation("  12", "T3153A0012", "  7", " 03"),
        measurement(" 012", "231111", " 102", "  -12"),
        measurement("  12", "231111", " 930", " -000"),
        instrument(" 07", " 45", ["Trimble", "NetR9", "5049K72258"]),
        antenna("  3", "TRM57971.00", "NONE", "1441112501"),
        point("  12", "ON BOTH LINES", "00000000000S", "180000000000W"),
        heights(
            "0012",
            &[
                (17, "  -1234"),
                (24, "A"),
                (27, "Y"),
                (46, "     -0"),
                (53, "B"),
            ],
        ),
        point(" 013", "OFF ACCRA", "00000000000S", "000000000000W"),
        heights("  13", &[(36, " -33250"), (43, "9")]),
        network(" 012", FIGURES_IN_OTHER_DRESS[0], "Y", "scaled"),
        local(["  13", " 012"], FIGURES_IN_OTHER_DRESS[1], "N", ""),
        factor("    1000", "       1", "by hand"),
        job(),
    ];
    let sequences = ["999999", "     1", " 00010", "      ", "000001"];
    for (line, sequence) in lines.iter_mut().zip(sequences.iter().cycle()) {
        line[..6].copy_from_slice(sequence.as_bytes());
    }
    lines.concat()
}
