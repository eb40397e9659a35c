//! What may follow what, every place against every code.

use crate::sample::*;

/// A record to put after the places below: comparisons come out well.
fn record(code: &str) -> Vec<u8> {
    match code {
        "A1" => job(),
        "B2" => line(&[(7, "*B2*")]),
        "10" => title(),
        "11" => title_more(),
        "12" => project(),
        "25" => occupation("0012"),
        "26" => comment(),
        "27" => measurement("0012"),
        "70" => instrument("008"),
        "72" => antenna("004"),
        "80" => point("0013"),
        "86" => no_heights("0012"),
        "91" => network("  12"),
        "92" => local("  12", "0345"),
        "93" => factor(),
        _ => unreachable!(),
    }
}

const CODES: [&str; 15] = [
    "A1", "B2", "10", "11", "12", "25", "26", "27", "70", "72", "80", "86", "91", "92", "93",
];

/// The records that lead to a place, and the codes that may come after it.
fn places() -> Vec<(Vec<Vec<u8>>, Vec<&'static str>)> {
    let mut places = Vec::new();
    let mut so_far: Vec<Vec<u8>> = Vec::new();
    let mut place = |more: &[Vec<u8>], may_come: &str| {
        so_far.extend_from_slice(more);
        let may_come = match may_come {
            "" => Vec::new(),
            codes => CODES
                .into_iter()
                .filter(|code| codes.split(' ').any(|known| known == *code))
                .collect(),
        };
        places.push((so_far.clone(), may_come));
    };
    place(&[], "A1 B2");
    place(&[job()], "10");
    place(&[title()], "11 12");
    place(&[title_more()], "12");
    place(&[project()], "25");
    place(&[occupation("0012")], "26 27");
    place(&[comment()], "26 27");
    place(&[comment()], "26 27");
    place(&[measurement("0012")], "27");
    place(&[measurement("0012")], "27 25 70");
    place(&[measurement("0012")], "25 70");
    // A new group counts its measurements anew.
    place(&[occupation("0012")], "26 27");
    place(&[measurement("0012")], "27");
    place(&[measurement("0012")], "27 25 70");
    place(&[instrument("007")], "70 72");
    // As many *70* as there are, of one number too.
    place(&[instrument("  7")], "70 72");
    place(&[instrument("008")], "70 72");
    place(&[antenna("003")], "72 80");
    place(&[point("0012")], "86");
    place(&[no_heights("0012")], "80 91 92 93 A1");
    // A *92* names two stations.
    let second = [point("0345"), no_heights("0345")];
    place(&second, "80 91 92 93 A1");
    place(&[network("  12")], "91 92 93 A1");
    place(&[network("  12")], "91 92 93 A1");
    place(&[local("  12", "0345")], "92 93 A1");
    place(&[local("  12", "0345")], "92 93 A1");
    place(&[factor()], "A1");
    place(&[job()], "");
    places
}

#[test]
fn every_place_takes_exactly_its_codes() {
    for (so_far, may_come) in places() {
        let at = so_far.len() as u64 + 1;
        for code in CODES {
            let file = [so_far.concat(), record(code)].concat();
            let ends = code == "A1" && so_far.len() > 1;
            let expected = if !may_come.contains(&code) {
                (7, at, 7)
            } else if ends {
                ACCEPTED
            } else {
                (8, at + 1, 1)
            };
            assert_eq!(verdict(&file), expected, "record {at}, code {code}");
        }
    }
}

#[test]
fn a_file_ends_after_its_last_job_code_only() {
    for (so_far, may_come) in places() {
        let expected = if may_come.is_empty() {
            ACCEPTED
        } else {
            (8, so_far.len() as u64 + 1, 1)
        };
        assert_eq!(verdict(&so_far.concat()), expected);
    }
}

#[test]
fn the_last_job_code_is_the_first_records() {
    let mut lines = lines();
    lines[23] = line(&[(7, "*A2*")]);
    assert_eq!(verdict(&lines.concat()), (7, 24, 7));
    lines[0] = line(&[(7, "*A2*")]);
    assert_eq!(verdict(&lines.concat()), ACCEPTED);
    for code in ["*AA*", "*ZZ*", "*Z9*", "*M0*"] {
        lines[0] = line(&[(7, code)]);
        lines[23] = line(&[(7, code)]);
        assert_eq!(verdict(&lines.concat()), ACCEPTED, "{code}");
    }
}
