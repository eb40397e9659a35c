//! The implementations, given the same and compared.

use crate::files::Family;
use shelf::calls::{
    Calls, FileCalls, FIELD_WORDS, FORM_WORDS, PAD_WORDS, PULL_WORDS, READ_WORDS, REFERENCES_WORDS,
    REWRITE_WORDS, WRITE_WORDS,
};
use shelf::library::Library;
use shelf::plain::layout::{kind_of, KINDS};
use shelf::plain::{Plain, LINE, TABLE_WORDS};
use shelf::tuned::{self, Tuned};
use std::fmt::Debug;
use std::{env, fs, thread};

/// What is expected comes from the first, what is found from the others.
const NAMES: [&str; 3] = ["plain", "library", "tuned"];
const OF_FILES: [&dyn FileCalls; 3] = [&Plain, &Library, &Tuned];
/// The tuned implementation has no calls for one record.
const OF_RECORDS: [&dyn Calls; 2] = [&Plain, &Library];

/// Behind what is lent stand so many words or bytes that are not, and that
/// no call may touch.
const BEYOND: usize = 5;

/// The row of [`Sides::places`] for records that have no known code.
const NO_KIND: usize = KINDS.len();

/// Fault numbers, 0 among them.
const NUMBERS: usize = 15;

/// The form is not good: references says so, and no other call.
const FORM_NOT_GOOD: u32 = 14;

pub struct Sides {
    tables: [Vec<u32>; 3],
    outs: [Vec<u8>; 3],
    fault_lists: [Vec<u32>; 2],
    /// How many calls were compared.
    cases: u64,
    /// How often each fault came, by number, kind of its record and column.
    places: Vec<[[u32; LINE + 1]; NO_KIND + 1]>,
    /// How often references answered 14, by form's number.
    not_formed: [u32; NUMBERS],
}

impl Sides {
    pub fn new() -> Sides {
        Sides {
            tables: [const { Vec::new() }; 3],
            outs: [const { Vec::new() }; 3],
            fault_lists: [const { Vec::new() }; 2],
            cases: 0,
            places: vec![[[0; LINE + 1]; NO_KIND + 1]; NUMBERS],
            not_formed: [0; NUMBERS],
        }
    }

    /// Form with all that it needs and a word more. Gives its number.
    pub fn form(&mut self, file: &[u8]) -> u32 {
        let fault = self.form_lent(file, FORM_WORDS + 1);
        self.place(file, fault);
        tuned_alone(file, "form", tuned::formed(file), fault);
        fault[0]
    }

    /// Form with so many words of an answer. Gives the first words of it: the
    /// fault, if there was room for it.
    pub fn form_lent(&mut self, file: &[u8], answers: usize) -> [u32; 3] {
        let mark = self.mark();
        let mut given = [[mark; FORM_WORDS + BEYOND]; 3];
        for side in 0..3 {
            OF_FILES[side].form(file, &mut given[side][..answers]);
        }
        let about = || format!("form, answer of {answers} words");
        same(file, &about, "answer", &given);
        [given[1][0], given[1][1], given[1][2]]
    }

    /// References with all that it needs and a word more, of a file to which
    /// form answered `formed`: 14 exactly where form refuses.
    pub fn references(&mut self, file: &[u8], formed: u32) {
        let fault = self.references_lent(file, TABLE_WORDS + 1, REFERENCES_WORDS + 1);
        self.place(file, fault);
        let good = tuned::accepted(file, &mut self.tables[2]);
        tuned_alone(file, "references", good, fault);
        if (fault[0] == FORM_NOT_GOOD) != (formed != 0) {
            panic!("form {formed}, references {fault:?}; {}", keep(file));
        }
        if fault[0] == FORM_NOT_GOOD {
            self.not_formed[formed as usize] += 1;
        }
    }

    /// Form, and then references.
    pub fn judge(&mut self, file: &[u8]) {
        let formed = self.form(file);
        self.references(file, formed);
    }

    /// References with so many words of a table and of an answer. Gives the
    /// fault, if there was room for it.
    pub fn references_lent(&mut self, file: &[u8], words: usize, answers: usize) -> [u32; 3] {
        let mark = self.mark();
        // Tried with answers as long as the other calls' too.
        let mut given = [[mark; REWRITE_WORDS + BEYOND]; 3];
        for side in 0..3 {
            let table = renewed(&mut self.tables[side], words, mark);
            OF_FILES[side].references(file, table, &mut given[side][..answers]);
        }
        let about = || format!("references, table of {words}, answer of {answers} words");
        same(file, &about, "answer", &given);
        same(file, &about, "table", &self.tables);
        [given[1][0], given[1][1], given[1][2]]
    }

    /// The library's form and references say of a file what its rewrite says,
    /// and references leaves rewrite's table. These are three cases.
    pub fn together(&mut self, file: &[u8]) {
        let [mark, ..] = [self.mark(), self.mark(), self.mark()];
        let [table, other, _] = &mut self.tables;
        let [table, other] = [table, other].map(|part| renewed(part, TABLE_WORDS + 1, mark));
        let mut formed = [mark; FORM_WORDS];
        let mut named = [mark; REFERENCES_WORDS];
        Library.form(file, &mut formed);
        Library.references(file, table, &mut named);
        let mut expected = [mark; REWRITE_WORDS];
        let out = renewed(&mut self.outs[0], file.len(), mark as u8);
        Library.rewrite(file, other, out, &mut expected);
        let said = match named {
            [0 | FORM_NOT_GOOD, ..] => formed,
            [number, record, column] => {
                assert_eq!(formed[0], 0, "{}", keep(file));
                let mut refused = [0; REWRITE_WORDS];
                refused[..3].copy_from_slice(&[number, record, column]);
                refused
            }
        };
        assert_eq!(said, expected, "{}", keep(file));
        assert!(table == other, "the tables differ; {}", keep(file));
        let [number, record, column, ..] = expected;
        self.place(file, [number, record, column]);
    }

    /// Rewrite with all that it needs and a word and a byte more.
    pub fn rewrite(&mut self, file: &[u8]) {
        let room = file.len() + 1;
        let fault = self.rewrite_lent(file, TABLE_WORDS + 1, room, REWRITE_WORDS + 1);
        self.place(file, fault);
    }

    /// Rewrite with so many words of a table, bytes of output and words of an
    /// answer. Gives the fault, if there was room for it.
    pub fn rewrite_lent(
        &mut self,
        file: &[u8],
        words: usize,
        room: usize,
        answers: usize,
    ) -> [u32; 3] {
        let mark = self.mark();
        let mut given = [[mark; REWRITE_WORDS + BEYOND]; 3];
        for side in 0..3 {
            let table = renewed(&mut self.tables[side], words, mark);
            let out = renewed(&mut self.outs[side], room, mark as u8);
            OF_FILES[side].rewrite(file, table, out, &mut given[side][..answers]);
        }
        let about =
            || format!("rewrite, table of {words}, output of {room}, answer of {answers} words");
        same(file, &about, "answer", &given);
        same(file, &about, "table", &self.tables);
        same(file, &about, "output", &self.outs);
        [given[1][0], given[1][1], given[1][2]]
    }

    /// Read with all that it needs and a word more.
    pub fn read(&mut self, file: &[u8], record: u32) {
        let fault = self.read_lent(file, record, READ_WORDS + 1);
        self.place(file, fault);
    }

    /// Read with so many words of an answer. Gives the fault, if there was
    /// room for it.
    pub fn read_lent(&mut self, file: &[u8], record: u32, answers: usize) -> [u32; 3] {
        let mark = i64::from(self.mark()) << 20;
        let mut given = [[mark; READ_WORDS + BEYOND]; 2];
        for side in 0..2 {
            OF_RECORDS[side].read(file, record, &mut given[side][..answers]);
        }
        let about = || format!("read of record {record}, answer of {answers} words");
        same(file, &about, "answer", &given);
        [given[1][0] as u32, given[1][1] as u32, given[1][2] as u32]
    }

    /// Field with an answer of so many words. Gives offset and length, if
    /// there was room for them.
    pub fn field(&mut self, file: &[u8], record: u32, column: u32, answers: usize) -> [u64; 2] {
        let mark = u64::from(self.mark()) << 20;
        let mut given = [[mark; FIELD_WORDS + BEYOND]; 2];
        for side in 0..2 {
            OF_RECORDS[side].field(file, record, column, &mut given[side][..answers]);
        }
        let about =
            || format!("field of record {record}, column {column}, answer of {answers} words");
        same(file, &about, "answer", &given);
        [given[1][0], given[1][1]]
    }

    /// Write with so many bytes of output and words of an answer.
    pub fn write_lent(
        &mut self,
        values: &[i64],
        texts: [&[u8]; 3],
        room: usize,
        answers: usize,
    ) -> [u32; 3] {
        let mark = self.mark();
        let mut given = [[mark; WRITE_WORDS + BEYOND]; 2];
        for side in 0..2 {
            let out = renewed(&mut self.outs[side], room, mark as u8);
            OF_RECORDS[side].write(out, values, texts, &mut given[side][..answers]);
        }
        let about = || {
            let texts = texts.map(|text| text.escape_ascii().to_string());
            format!("write of {values:?} {texts:?}, output of {room}, answer of {answers} words")
        };
        same(b"", &about, "answer", &given);
        same(b"", &about, "output", &self.outs[..2]);
        [given[1][0], given[1][1], given[1][2]]
    }

    /// Write with all that it needs and a byte and a word more.
    pub fn write(&mut self, values: &[i64], texts: [&[u8]; 3]) -> u32 {
        let [number, _, column] = self.write_lent(values, texts, LINE + 1, WRITE_WORDS + 1);
        let kind = values.first().map_or(NO_KIND, |&kind| {
            usize::try_from(kind).map_or(NO_KIND, |kind| kind.min(NO_KIND))
        });
        self.places[number as usize][kind][column as usize] += 1;
        number
    }

    /// Pad with so many bytes of output and words of an answer. Gives the
    /// first words of the answer, if there was room for them.
    pub fn pad_lent(&mut self, input: &[u8], room: usize, answers: usize) -> [u32; PAD_WORDS] {
        let mark = self.mark();
        let mut given = [[mark; PAD_WORDS + BEYOND]; 2];
        for side in 0..2 {
            let out = renewed(&mut self.outs[side], room, mark as u8);
            OF_RECORDS[side].pad(input, out, &mut given[side][..answers]);
        }
        let about = || format!("pad, output of {room}, answer of {answers} words");
        same(input, &about, "answer", &given);
        same(input, &about, "output", &self.outs[..2]);
        let [number, record, column, lines, ..] = given[1];
        [number, record, column, lines]
    }

    /// Pad with all that it needs and a byte and a word more. Gives the
    /// padded file, empty on a refusal.
    pub fn pad(&mut self, input: &[u8]) -> &[u8] {
        let ends = input.iter().filter(|&&byte| byte == b'\n').count();
        let room = LINE * (ends + 1) + 1;
        let [number, _, column, lines] = self.pad_lent(input, room, PAD_WORDS + 1);
        self.places[number as usize][NO_KIND][column as usize] += 1;
        &self.outs[1][..LINE * lines as usize]
    }

    /// Pull with so many bytes of output, places of a fault list and words of
    /// an answer. Gives the first words of the answer, if there was room for
    /// them.
    pub fn pull_lent(
        &mut self,
        file: &[u8],
        records: &[u32],
        [room, places, answers]: [usize; 3],
    ) -> [u32; PULL_WORDS] {
        let mark = self.mark();
        let mut given = [[mark; PULL_WORDS + BEYOND]; 2];
        for side in 0..2 {
            let out = renewed(&mut self.outs[side], room, mark as u8);
            let faults = renewed(&mut self.fault_lists[side], places, mark);
            OF_RECORDS[side].pull(file, records, out, faults, &mut given[side][..answers]);
        }
        let about = || {
            let (entries, first) = (records.len(), &records[..records.len().min(100)]);
            format!(
                "pull of {entries} entries {first:?}, output of {room}, \
                 fault list of {places}, answer of {answers} words"
            )
        };
        same(file, &about, "answer", &given);
        same(file, &about, "output", &self.outs[..2]);
        same(file, &about, "fault list", &self.fault_lists);
        let [number, record, column, ..] = given[1];
        if number == 0 {
            for (at, &record) in records.iter().enumerate() {
                // A fault list says nothing of columns.
                self.place(file, [self.fault_lists[1][at], record, 0]);
            }
        }
        [number, record, column]
    }

    /// Pull with all that it needs and a byte, a place and a word more. Gives
    /// the lines and the fault numbers.
    pub fn pull(&mut self, file: &[u8], records: &[u32]) -> (&[u8], &[u32]) {
        let (room, places) = (LINE * records.len(), records.len());
        let answer = self.pull_lent(file, records, [room + 1, places + 1, PULL_WORDS + 1]);
        assert_eq!(answer, [0; PULL_WORDS], "{}", keep(file));
        (&self.outs[1][..room], &self.fault_lists[1][..places])
    }

    /// A number for each case, to fill what is lent with: what a call leaves
    /// alone then differs from what an earlier case left there.
    fn mark(&mut self) -> u32 {
        self.cases += 1;
        0x8000_0080 | self.cases as u32
    }

    fn place(&mut self, file: &[u8], [number, record, column]: [u32; 3]) {
        let start = LINE * (record.max(1) as usize - 1);
        let kind = file
            .get(start + 6..start + 10)
            .and_then(kind_of)
            .unwrap_or(NO_KIND);
        self.places[number as usize][kind][column as usize] += 1;
    }

    /// Tries a call on each file of a family.
    pub fn over(family: Family, least: u64, call: impl Fn(&mut Sides, &[u8], u32)) -> Sides {
        let mut sides = Sides::new();
        family(&mut |file, record| call(&mut sides, file, record));
        sides.tried(least);
        sides
    }

    /// Says how many cases a test has tried, which `--nocapture` shows, and
    /// that they are no fewer than meant.
    pub fn tried(&self, least: u64) {
        let test = thread::current().name().unwrap_or("").to_string();
        println!("{test}: {} cases", self.cases);
        assert!(self.cases >= least, "{} cases of {least}", self.cases);
    }

    /// How often this fault came at all.
    pub fn faults(&self, number: usize) -> u32 {
        self.places[number].iter().flatten().sum()
    }

    /// Whether no fault but these came.
    pub fn are_all(&self, numbers: &[usize]) -> bool {
        (0..NUMBERS).all(|number| numbers.contains(&number) || self.faults(number) == 0)
    }

    /// How often references answered 14 where form had this fault.
    pub fn not_formed(&self, number: usize) -> u32 {
        self.not_formed[number]
    }

    /// How often this fault came for a kind at a column.
    pub fn faults_at(&self, number: usize, kind: usize, column: usize) -> u32 {
        self.places[number][kind][column]
    }
}

/// The tuned implementation hands a file over as soon as it finds it faulty,
/// and what is answered then is not its own: so it is asked by itself whether a
/// file is good.
fn tuned_alone(file: &[u8], call: &str, found: Option<[u32; 14]>, fault: [u32; 3]) {
    if found.is_some() != (fault[0] == 0) {
        let found = found.is_some();
        panic!(
            "tuned {call}: good {found}, plain {fault:?}; {}",
            keep(file)
        );
    }
}

/// Fills a part with a mark and gives it but for what is not lent.
fn renewed<T: Copy>(part: &mut Vec<T>, lent: usize, mark: T) -> &mut [T] {
    part.clear();
    part.resize(lent + BEYOND, mark);
    &mut part[..lent]
}

/// Stops at the first difference and keeps the file that brought it.
fn same<T: PartialEq + Debug, P: AsRef<[T]>>(
    file: &[u8],
    about: &dyn Fn() -> String,
    what: &str,
    given: &[P],
) {
    let expected = given[0].as_ref();
    for (name, found) in NAMES.iter().zip(given).skip(1) {
        let found = found.as_ref();
        if expected == found {
            continue;
        }
        let place = expected
            .iter()
            .zip(found)
            .position(|(one, other)| one != other);
        let place = place.unwrap_or(expected.len().min(found.len()));
        panic!(
            "{}: {what} differs at {place}: plain {:?}, {name} {:?}; {}",
            about(),
            expected.get(place),
            found.get(place),
            keep(file),
        );
    }
}

/// Keeps a file that brought a difference, and says where.
fn keep(file: &[u8]) -> String {
    let test = thread::current().name().unwrap_or("").replace(':', "-");
    let name = env::temp_dir().join(format!("shelf-differs-{test}.b"));
    let kept = match fs::write(&name, file) {
        Ok(()) => format!("kept as {}", name.display()),
        Err(trouble) => format!("not kept: {trouble}"),
    };
    format!("the file of {} bytes is {kept}", file.len())
}
