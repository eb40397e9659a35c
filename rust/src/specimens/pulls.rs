//! Lists of records to pull from the files tried.

/// A list, and what the request says of it.
pub struct Pull {
    /// The name of the file tried, without `.bfile`.
    pub file: &'static str,
    pub records: &'static [u32],
    /// So many bytes less than three more than the entries need, and so many
    /// places less than two more.
    pub less: (usize, usize),
    /// The fault number of each entry; nothing where the call is refused with
    /// 1.
    pub faults: Option<&'static [u32]>,
    /// Why these are the numbers.
    pub why: &'static str,
}

impl Pull {
    pub fn file_name(&self) -> String {
        format!("{}.bfile", self.file)
    }

    /// The bytes and the places lent.
    pub fn lent(&self) -> (usize, usize) {
        let entries = self.records.len();
        (81 * entries + 3 - self.less.0, entries + 2 - self.less.1)
    }

    /// The list's row on the page beside the files.
    pub fn row(&self) -> String {
        let name = self.file_name();
        let (room, places) = self.lent();
        let records = spelled(self.records);
        let faults = self.faults.map_or("-".to_string(), spelled);
        let answer = u32::from(self.faults.is_none());
        let why = self.why;
        format!("| `{name}` | {records} | {room} | {places} | {answer} | {faults} | {why} |\n")
    }
}

fn spelled(numbers: &[u32]) -> String {
    match numbers {
        [] => "none".to_string(),
        _ => numbers
            .iter()
            .map(u32::to_string)
            .collect::<Vec<_>>()
            .join(" "),
    }
}

const ALL_KINDS: &str = "accepted_all_kinds";
const SOME: &[u32] = &[24, 23, 1, 17, 24, 33, 34, 0, 100_000, 31];
const SOME_FAULTS: &[u32] = &[0, 0, 0, 0, 0, 0, 13, 13, 13, 0];

const fn pull(
    file: &'static str,
    records: &'static [u32],
    faults: &'static [u32],
    why: &'static str,
) -> Pull {
    Pull {
        file,
        records,
        less: (0, 0),
        faults: Some(faults),
        why,
    }
}

/// The first list with other lengths.
const fn lent(less: (usize, usize), is_enough: bool, why: &'static str) -> Pull {
    Pull {
        file: ALL_KINDS,
        records: SOME,
        less,
        faults: if is_enough { Some(SOME_FAULTS) } else { None },
        why,
    }
}

/// In the order in which they are tried.
pub const PULLS: [Pull; 19] = [
    pull(
        ALL_KINDS,
        SOME,
        SOME_FAULTS,
        "in any order, 24 twice, 33 the last; 34 is past it, 0 and 100,000 are no records of any file",
    ),
    lent((3, 2), true, "ten entries need 810 bytes and ten places"),
    lent((4, 2), false, "a byte less: nothing is touched"),
    lent((3, 3), false, "a place less: nothing is touched"),
    pull(
        "fault_07_no_first_job_code",
        &[1, 10, 11, 12],
        &[0, 0, 0, 0],
        "the file is refused, its records can be read; each is numbered by its place in this file",
    ),
    pull(
        "fault_08_first_job_code_only",
        &[1, 2],
        &[0, 13],
        "a record that must follow is none that is there",
    ),
    pull(
        "fault_10_27_of_other_station",
        &[6],
        &[0],
        "what disagrees with another record is good by itself",
    ),
    pull(
        "fault_11_station_defined_twice",
        &[13, 14],
        &[0, 0],
        "the second *80* of a station, and its *86*",
    ),
    pull(
        "fault_12_station",
        &[4],
        &[0],
        "a *25* of a station that no *80* defines",
    ),
    pull(
        "fault_03_short_last_line",
        &[13, 12, 14],
        &[3, 0, 13],
        "the cut line has begun, so it is a record; there is none behind it",
    ),
    pull(
        "fault_04_before_03",
        &[13, 12, 14],
        &[4, 0, 13],
        "in a cut line a bad byte stands in a lower column than its end",
    ),
    pull(
        "fault_05_line_of_81_columns",
        &[2, 3, 4],
        &[5, 0, 0],
        "a blank in the place of the line feed; the next line starts where it should",
    ),
    pull(
        "fault_06_code_not_kept",
        &[2, 3, 4],
        &[0, 6, 0],
        "*13* between two good records, which keep their places",
    ),
    pull(
        "fault_09_station_0",
        &[2, 3, 4],
        &[0, 0, 9],
        "station 0 in a *25*",
    ),
    pull(
        "fault_10_end_before_beginning",
        &[2, 3, 4],
        &[0, 10, 0],
        "a *12* that disagrees with itself",
    ),
    pull(
        "fault_10_92_of_one_station",
        &[17, 18],
        &[10, 0],
        "a *92* that disagrees with itself",
    ),
    pull(ALL_KINDS, &[], &[], "no entry: nothing is touched"),
    Pull {
        file: "fault_08_empty",
        records: &[],
        less: (3, 2),
        faults: Some(&[]),
        why: "no entry needs no byte and no place",
    },
    pull(
        "fault_08_empty",
        &[1],
        &[13],
        "an empty file has no record",
    ),
];
