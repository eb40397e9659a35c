//! A small file with all fourteen kinds, made by hand.

/// A record of 81 bytes: texts by first column, blank elsewhere.
pub fn line(parts: &[(usize, &str)]) -> Vec<u8> {
    let mut line = vec![b' '; 80];
    for (first, text) in parts {
        line[first - 1..first - 1 + text.len()].copy_from_slice(text.as_bytes());
    }
    line.push(b'\n');
    line
}

pub fn job() -> Vec<u8> {
    line(&[(1, "000010"), (7, "*A1*"), (11, "HZTLOBS NGS   {a}~")])
}

pub fn title() -> Vec<u8> {
    line(&[(7, "*10*"), (11, "NORTH SHORE \\ PART 2, (A='B') *-.+/")])
}

pub fn title_more() -> Vec<u8> {
    line(&[(7, "*11*"), (11, "AND ISLANDS")])
}

pub fn project() -> Vec<u8> {
    line(&[
        (1, "    40"),
        (7, "*12*"),
        (11, "201911"),
        (17, "202002"),
        (23, "A C"),
        (26, "COOPER A,'=)(-.+/*"),
        (44, "   "),
        (47, "9 LIVES"),
        (76, "4"),
        (77, "MI"),
    ])
}

pub fn occupation(station: &str) -> Vec<u8> {
    line(&[
        (7, "*25*"),
        (11, station),
        (15, "T3669Aab~ "),
        (25, "J B"),
        (28, "  7"),
        (33, "003"),
    ])
}

pub fn comment() -> Vec<u8> {
    line(&[(7, "*26*"), (11, "Rained; see {log} ~")])
}

pub fn measurement(station: &str) -> Vec<u8> {
    line(&[
        (7, "*27*"),
        (11, station),
        (15, "191105"),
        (21, " 930"),
        (56, " 1543"),
    ])
}

pub fn instrument(number: &str) -> Vec<u8> {
    line(&[
        (7, "*70*"),
        (11, number),
        (14, " 45"),
        (23, "Maker & Sons"),
        (63, "Model 3"),
        (71, "sn-00012"),
    ])
}

pub fn antenna(number: &str) -> Vec<u8> {
    line(&[
        (7, "*72*"),
        (11, number),
        (17, "TRM55971.00"),
        (33, "NONE"),
        (45, "UNK"),
    ])
}

pub fn point(station: &str) -> Vec<u8> {
    line(&[
        (7, "*80*"),
        (11, station),
        (15, "Lighthouse 2"),
        (45, "38531512345"),
        (56, "N"),
        (57, "077020100000"),
        (69, "W"),
        (77, "MI"),
    ])
}

pub fn heights(station: &str) -> Vec<u8> {
    line(&[
        (7, "*86*"),
        (11, station),
        (17, "  12345"),
        (24, "A"),
        (25, "12"),
        (27, "Y"),
        (28, "88"),
        (30, "NGS"),
        (36, "-033250"),
        (43, "6"),
        (46, "  -1234"),
        (53, "B"),
        (56, "A"),
        (57, "set by hand"),
    ])
}

/// A *86* with no heights, and so without their codes.
pub fn no_heights(station: &str) -> Vec<u8> {
    line(&[(7, "*86*"), (11, station)])
}

pub fn network(station: &str) -> Vec<u8> {
    line(&[
        (7, "*91*"),
        (11, station),
        (21, "       123"),
        (31, "0000000098"),
        (41, " -12345678"),
        (51, "     00256"),
        (65, "Y"),
        (66, "{scaled}  a&b ~"),
    ])
}

pub fn local(standpoint: &str, forepoint: &str) -> Vec<u8> {
    line(&[
        (7, "*92*"),
        (11, standpoint),
        (17, forepoint),
        (23, "0999999999"),
        (33, "         0"),
        (43, "  50000000"),
        (53, "    123456"),
        (67, "N"),
        (68, "Not scaled; ~"),
    ])
}

pub fn factor() -> Vec<u8> {
    line(&[
        (7, "*93*"),
        (11, "    1000"),
        (19, "00002345"),
        (27, "horizontal & vertical {factors} ~"),
    ])
}

/// Records 1 to 24.
pub fn lines() -> Vec<Vec<u8>> {
    vec![
        job(),              // 1
        title(),            // 2
        title_more(),       // 3
        project(),          // 4
        occupation("  12"), // 5
        comment(),          // 6
        measurement("0012"),
        measurement(" 012"),
        measurement("  12"), // 9
        occupation("0345"),  // 10
        measurement("0345"),
        measurement(" 345"), // 12
        instrument("007"),   // 13
        instrument("  8"),   // 14
        antenna("  3"),      // 15
        antenna("444"),      // 16
        point("0345"),       // 17
        heights(" 345"),     // 18
        point("0012"),       // 19
        no_heights("  12"),  // 20
        network(" 345"),     // 21
        local("  12", "0345"),
        factor(),
        job(), // 24
    ]
}

pub fn file() -> Vec<u8> {
    lines().concat()
}

/// The file with its second group, records 10 to 12, of a station that no *80*
/// defines: good in form.
pub fn undefined_station() -> Vec<u8> {
    let mut lines = lines();
    lines[9] = occupation("0346");
    lines[10] = measurement("0346");
    lines[11] = measurement("0346");
    lines.concat()
}

/// The file with a second *80* of a station, record 21, and its *86*: good in
/// form too.
pub fn repeated_station() -> Vec<u8> {
    let mut lines = lines();
    lines.insert(20, point("0345"));
    lines.insert(21, no_heights("0345"));
    lines.concat()
}

/// Counts of the sample, in the order AA 10 11 12 25 26 27 70 72 80 86 91 92 93.
pub const COUNTS: [u32; 14] = [2, 1, 1, 1, 2, 1, 5, 2, 2, 2, 2, 1, 1, 1];

/// The file with some columns of a record replaced.
pub fn with(file: &[u8], record: usize, first: usize, text: &str) -> Vec<u8> {
    let mut changed = file.to_vec();
    let start = 81 * (record - 1) + first - 1;
    changed[start..start + text.len()].copy_from_slice(text.as_bytes());
    changed
}
