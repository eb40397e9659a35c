//! The records of made-up GNSS control surveys, and changes to a file.

/// A record: texts by their first column, counted from 1, blank elsewhere.
pub fn record(parts: &[(usize, &str)]) -> Vec<u8> {
    let mut line = vec![b' '; 81];
    for (first, text) in parts {
        put(&mut line, *first, text);
    }
    line[80] = b'\n';
    line
}

fn put(line: &mut [u8], first: usize, text: &str) {
    line[first - 1..first - 1 + text.len()].copy_from_slice(text.as_bytes());
}

pub fn job() -> Vec<u8> {
    record(&[
        (7, "*C3*"),
        (11, "BFILE Kabunlisog Survey Party; deposited 15 Jan. 2024"),
    ])
}

pub fn title() -> Vec<u8> {
    record(&[
        (7, "*10*"),
        (
            11,
            "TUBURAN BAY GNSS CONTROL SURVEY, PART 2 ('BM 4' TO 'BM 17')",
        ),
    ])
}

pub fn title_more() -> Vec<u8> {
    record(&[
        (7, "*11*"),
        (11, "HEIGHTS=GEOID+MODEL \\ CLASS A/B *DRAFT* NO. 3-1"),
    ])
}

pub fn project() -> Vec<u8> {
    record(&[
        (7, "*12*"),
        (11, "202311"),
        (17, "202402"),
        (23, "RMD"),
        (26, "DELA CRUZ, R.M."),
        (44, "J S"),
        (47, "SANTOS J./UY (2)"),
        (76, "4"),
        (77, "RP"),
    ])
}

pub fn occupation(station: &str, media: &str, instrument: &str, antenna: &str) -> Vec<u8> {
    record(&[
        (7, "*25*"),
        (11, station),
        (15, media),
        (25, "RMD"),
        (28, instrument),
        (33, antenna),
    ])
}

pub fn comment(text: &str) -> Vec<u8> {
    record(&[(7, "*26*"), (11, text)])
}

pub fn measurement(station: &str, date: &str, time: &str, height: &str) -> Vec<u8> {
    record(&[
        (7, "*27*"),
        (11, station),
        (15, date),
        (21, time),
        (56, height),
    ])
}

pub fn instrument(number: &str, code: &str, texts: [&str; 3]) -> Vec<u8> {
    let [maker, model, serial] = texts;
    record(&[
        (7, "*70*"),
        (11, number),
        (14, code),
        (23, maker),
        (63, model),
        (71, serial),
    ])
}

pub fn antenna(number: &str, code: &str, radome: &str, serial: &str) -> Vec<u8> {
    record(&[
        (7, "*72*"),
        (11, number),
        (17, code),
        (33, radome),
        (45, serial),
    ])
}

/// The angles with their letters.
pub fn point(station: &str, name: &str, latitude: &str, longitude: &str) -> Vec<u8> {
    record(&[
        (7, "*80*"),
        (11, station),
        (15, name),
        (45, latitude),
        (57, longitude),
        (77, "RP"),
    ])
}

pub fn second_point(station: &str) -> Vec<u8> {
    point(station, "TUBURAN BM 5", "11434612345N", "123020100000E")
}

/// Heights as columns and texts; what is not given stays blank.
pub fn heights(station: &str, parts: &[(usize, &str)]) -> Vec<u8> {
    let mut line = record(&[(7, "*86*"), (11, station)]);
    for (first, text) in parts {
        put(&mut line, *first, text);
    }
    line
}

/// The three heights of a bench mark, in house style.
pub fn full_heights(station: &str) -> Vec<u8> {
    heights(
        station,
        &[
            (17, "0012345"),
            (24, "A"),
            (25, "21"),
            (27, "Y"),
            (28, "88"),
            (30, "NAMRIA"),
            (36, "-033250"),
            (43, "9"),
            (46, "-020905"),
            (53, "B"),
            (56, "A"),
            (57, "leveled 2019"),
        ],
    )
}

/// The figures are north, east, correlation and ellipsoid height.
pub fn network(station: &str, figures: [&str; 4], scaled: &str, comment: &str) -> Vec<u8> {
    let mut line = record(&[(7, "*91*"), (11, station), (65, scaled), (66, comment)]);
    put_figures(&mut line, 21, figures);
    line
}

pub fn local(stations: [&str; 2], figures: [&str; 4], scaled: &str, comment: &str) -> Vec<u8> {
    let [from, to] = stations;
    let mut line = record(&[
        (7, "*92*"),
        (11, from),
        (17, to),
        (67, scaled),
        (68, comment),
    ]);
    put_figures(&mut line, 23, figures);
    line
}

/// Ten columns for each of them.
fn put_figures(line: &mut [u8], first: usize, figures: [&str; 4]) {
    for (first, figure) in (first..).step_by(10).zip(figures) {
        put(line, first, figure);
    }
}

pub fn factor(horizontal: &str, vertical: &str, comment: &str) -> Vec<u8> {
    record(&[(7, "*93*"), (11, horizontal), (19, vertical), (27, comment)])
}

/// Sequence numbers by the record's number, as house style has them.
pub fn numbered(mut lines: Vec<Vec<u8>>) -> Vec<Vec<u8>> {
    for (line, number) in lines.iter_mut().zip(1..) {
        put(line, 1, &format!("{:06}", 10 * number));
    }
    lines
}

/// Thirteen records: one station, two instruments, two antennas. All but
/// records 8 and 10 are needed.
pub fn small() -> Vec<Vec<u8>> {
    numbered(vec![
        job(),
        title(),
        project(),
        occupation("0012", "T3153A0012", "007", "003"),
        measurement("0012", "231111", "0102", "01543"),
        measurement("0012", "231111", "0930", "01542"),
        instrument("007", "045", ["Trimble", "NetR9", "5049K72258"]),
        instrument("008", "112", ["Leica Geosystems", "GS18", "3701188"]),
        antenna("003", "TRM57971.00", "NONE", "1441112501"),
        antenna("004", "LEIAR25.R4", "LEIT", "726087"),
        point("0012", "TUBURAN BM 4 1931", "11434512345N", "123015900000E"),
        full_heights("0012"),
        job(),
    ])
}

/// Some columns of a record replaced: its number, the first column, the text.
pub type Change = (usize, usize, &'static str);

fn changed(mut lines: Vec<Vec<u8>>, changes: &[Change]) -> Vec<u8> {
    for (number, first, text) in changes {
        put(&mut lines[number - 1], *first, text);
    }
    lines.concat()
}

/// The small file with some columns replaced.
pub fn small_with(changes: &[Change]) -> Vec<u8> {
    changed(small(), changes)
}

/// The small file with a second station and the accuracies of both: records
/// 13 and 14 are the *80* and *86* of station 13, 15 and 16 the *91*, 17 the
/// *92*, 18 the *93*, 19 the job code.
pub fn adjusted() -> Vec<Vec<u8>> {
    let first = ["0000000062", "0000000058", "-012345678", "0000000110"];
    let second = ["0000000071", "0000000064", "0005000000", "0000000131"];
    let between = ["0000000040", "0000000038", "0000000000", "0000000075"];
    let mut lines = small();
    lines.splice(
        12..12,
        [
            second_point("0013"),
            heights("0013", &[]),
            network("0012", first, "Y", "free adjustment"),
            network("0013", second, "Y", ""),
            local(["0012", "0013"], between, "N", "vector 7 ~"),
            factor("00001000", "00002345", "HORIZONTAL, {vertical}"),
        ],
    );
    numbered(lines)
}

/// The adjusted file with some columns replaced.
pub fn adjusted_with(changes: &[Change]) -> Vec<u8> {
    changed(adjusted(), changes)
}

/// The small file with records put before one of its own, by its number.
pub fn small_before(number: usize, more: &[Vec<u8>]) -> Vec<u8> {
    let mut lines = small();
    lines.splice(number - 1..number - 1, more.iter().cloned());
    lines.concat()
}

/// The small file without one of its records.
pub fn small_without(number: usize) -> Vec<u8> {
    let mut lines = small();
    lines.remove(number - 1);
    lines.concat()
}
