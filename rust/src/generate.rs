//! Made-up files, accepted and damaged, the same for the same seed.
//!
//! The files are built here column by column and not through the writer:
//! the writer knows house style only, and a reader has to take every dress.

use crate::plain::layout::{self, FIELDS};
use crate::plain::{LAST_RECORD, LINE};

/// A small generator of numbers (splitmix64).
pub struct Dice {
    state: u64,
}

impl Dice {
    pub fn new(seed: u64) -> Dice {
        Dice { state: seed }
    }

    pub fn roll(&mut self) -> u64 {
        self.state = self.state.wrapping_add(0x9e37_79b9_7f4a_7c15);
        let mut mixed = self.state;
        mixed = (mixed ^ (mixed >> 30)).wrapping_mul(0xbf58_476d_1ce4_e5b9);
        mixed = (mixed ^ (mixed >> 27)).wrapping_mul(0x94d0_49bb_1331_11eb);
        mixed ^ (mixed >> 31)
    }

    /// 0 up to but not including `end`, which is not 0.
    pub fn below(&mut self, end: usize) -> usize {
        (self.roll() % end as u64) as usize
    }

    /// Both ends included.
    pub fn between(&mut self, least: i64, most: i64) -> i64 {
        least + (self.roll() % (most - least + 1) as u64) as i64
    }

    pub fn one_in(&mut self, times: usize) -> bool {
        self.below(times) == 0
    }

    pub fn pick<T: Copy>(&mut self, choices: &[T]) -> T {
        choices[self.below(choices.len())]
    }
}

const UPPER: &[u8] = b"ABCDEFGHIJKLMNOPQRSTUVWXYZ";
const UPPER_OR_SPACE: &[u8] = b"ABCDEFGHIJKLMNOPQRSTUVWXYZ ";
const DIGITS: &[u8] = b"0123456789";
const UPPER_OR_DIGIT: &[u8] = b"ABCDEFGHIJKLMNOPQRSTUVWXYZ0123456789";
const NAME: &[u8] = b"ABCDEFGHIJKLMNOPQRSTUVWXYZ0123456789*,'=)(-.+/ ";
const TITLE: &[u8] = b"ABCDEFGHIJKLMNOPQRSTUVWXYZ0123456789*,'=)(-.+/ \\";

/// The fewest records an accepted file can have.
pub const FEWEST: usize = 11;

/// How many of each part a file is to have.
struct Plan {
    title_more: bool,
    /// For each group its comments, and whether it has a third measurement.
    groups: Vec<(usize, bool)>,
    /// *70* records; their numbers may repeat.
    instruments: usize,
    antennas: usize,
    points: usize,
    network: usize,
    local: usize,
    factor: bool,
}

impl Plan {
    /// A file of [`FEWEST`] records.
    fn shortest() -> Plan {
        Plan {
            title_more: false,
            groups: vec![(0, false)],
            instruments: 1,
            antennas: 1,
            points: 1,
            network: 0,
            local: 0,
            factor: false,
        }
    }
}

fn plan(dice: &mut Dice, records: usize) -> Plan {
    let mut plan = Plan::shortest();
    let mut spare = records - FEWEST;
    if spare > 0 && !dice.one_in(3) {
        plan.title_more = true;
        spare -= 1;
    }
    if spare > 0 && !dice.one_in(3) {
        plan.factor = true;
        spare -= 1;
    }
    while spare > 0 {
        let group = dice.below(plan.groups.len());
        match dice.below(20) {
            0..=5 if spare >= 3 => {
                plan.groups.push((0, false));
                spare -= 3;
            }
            6..=7 => {
                plan.groups[group].0 += 1;
                spare -= 1;
            }
            8..=9 if !plan.groups[group].1 => {
                plan.groups[group].1 = true;
                spare -= 1;
            }
            10 if plan.instruments < 999 => {
                plan.instruments += 1;
                spare -= 1;
            }
            11 if plan.antennas < 999 => {
                plan.antennas += 1;
                spare -= 1;
            }
            12..=17 if spare >= 2 && plan.points < 9_999 => {
                plan.points += 1;
                spare -= 2;
            }
            18 => {
                plan.network += 1;
                spare -= 1;
            }
            // It names two stations.
            19 if plan.points >= 2 => {
                plan.local += 1;
                spare -= 1;
            }
            _ => (),
        }
    }
    plan
}

/// An accepted file of so many records, at least [`FEWEST`]. Above 99,999 it
/// is accepted but for its length.
pub fn accepted(seed: u64, records: usize) -> Vec<u8> {
    let mut dice = Dice::new(seed);
    let plan = plan(&mut dice, records.max(FEWEST));
    planned(&mut dice, &plan)
}

/// The kinds that nearly all records of a file are of.
#[derive(Clone, Copy, Debug, PartialEq, Eq)]
pub enum Mostly {
    /// *26*
    Comments,
    /// *91*
    Network,
    /// *92*, with one more *80* and *86*, since each names two stations
    Local,
    /// *25* with two *27*
    Groups,
    /// *70* and *72*, 999 of each at most
    Equipment,
    /// *80* with *86*, 9,999 of each at most
    Points,
}

/// An accepted file of these kinds but for the [`FEWEST`] others, and of so
/// many records at most.
pub fn accepted_mostly(seed: u64, mostly: Mostly, records: usize) -> Vec<u8> {
    let spare = records.saturating_sub(FEWEST);
    let mut plan = Plan::shortest();
    match mostly {
        Mostly::Comments => plan.groups[0].0 = spare,
        Mostly::Network => plan.network = spare,
        Mostly::Local if spare < 3 => (),
        Mostly::Local => {
            plan.points = 2;
            plan.local = spare - 2;
        }
        Mostly::Groups => plan.groups.resize(1 + spare / 3, (0, false)),
        Mostly::Equipment => {
            plan.instruments = (1 + spare / 2).min(999);
            plan.antennas = plan.instruments;
        }
        Mostly::Points => plan.points = (1 + spare / 2).min(9_999),
    }
    planned(&mut Dice::new(seed), &plan)
}

fn planned(dice: &mut Dice, plan: &Plan) -> Vec<u8> {
    let stations = some_of(dice, plan.points, 9_999);
    let mut instruments = some_of(dice, plan.instruments, 999);
    instruments.sort_unstable();
    repeat_some(dice, &mut instruments);
    let mut antennas = some_of(dice, plan.antennas, 999);
    antennas.sort_unstable();
    let job = [dice.pick(UPPER), dice.pick(UPPER_OR_DIGIT)];

    let mut file = Vec::new();
    job_record(dice, &mut file, job);
    text_record(dice, &mut file, b"10", TITLE);
    if plan.title_more {
        text_record(dice, &mut file, b"11", TITLE);
    }
    project(dice, &mut file);
    for &(comments, third) in &plan.groups {
        let station = dice.pick(&stations);
        let instrument = dice.pick(&instruments);
        let antenna = dice.pick(&antennas);
        occupation(dice, &mut file, station, instrument, antenna);
        for _ in 0..comments {
            printable_record(dice, &mut file, b"26");
        }
        for _ in 0..if third { 3 } else { 2 } {
            measurement(dice, &mut file, station);
        }
    }
    for &number in &instruments {
        instrument(dice, &mut file, number);
    }
    for &number in &antennas {
        antenna(dice, &mut file, number);
    }
    for &station in &stations {
        point(dice, &mut file, station);
        heights(dice, &mut file, station);
    }
    accuracies(dice, &mut file, plan, &stations);
    job_record(dice, &mut file, job);
    file
}

fn accuracies(dice: &mut Dice, file: &mut Vec<u8>, plan: &Plan, stations: &[i64]) {
    for _ in 0..plan.network {
        let station = dice.pick(stations);
        network(dice, file, station);
    }
    for _ in 0..plan.local {
        let here = dice.below(stations.len());
        let there = (here + 1 + dice.below(stations.len() - 1)) % stations.len();
        local(dice, file, stations[here], stations[there]);
    }
    if plan.factor {
        factor(dice, file);
    }
}

/// So many different numbers from 1 to `most`, in no order. They are small
/// ones half the time: only those can be padded.
fn some_of(dice: &mut Dice, count: usize, most: i64) -> Vec<i64> {
    let most = if dice.one_in(2) {
        most.min(2 * count as i64 + 10)
    } else {
        most
    };
    let mut numbers: Vec<i64> = (1..=most).collect();
    for here in 0..count {
        let there = here + dice.below(numbers.len() - here);
        numbers.swap(here, there);
    }
    numbers.truncate(count);
    numbers
}

/// Makes some of these numbers the one before: in one file none, in another
/// all, mostly runs of two or three. The dice are its own, so that no other
/// column depends on what repeats.
fn repeat_some(dice: &Dice, numbers: &mut [i64]) {
    let mut dice = Dice::new(!dice.state);
    let quarters = dice.pick(&[0, 1, 1, 2, 2, 3, 4]);
    for at in 1..numbers.len() {
        if dice.below(4) < quarters {
            numbers[at] = numbers[at - 1];
        }
    }
}

/// A blank line with this code and some sequence number, put at the end of
/// the file. Gives the line for its fields to be filled in.
fn begin<'a>(dice: &mut Dice, file: &'a mut Vec<u8>, code: &[u8; 2]) -> &'a mut [u8] {
    let start = file.len();
    file.resize(start + LINE, b' ');
    let line = &mut file[start..];
    line[LINE - 1] = b'\n';
    match dice.below(4) {
        0 => (),
        1 => {
            let sequence = dice.pick(&[1, 9, 10, 999_999]);
            put_number(dice, line, 1, 6, sequence);
        }
        _ => {
            let sequence = dice.between(1, 999_999);
            put_number(dice, line, 1, 6, sequence);
        }
    }
    put(line, 7, b"*");
    put(line, 8, code);
    put(line, 10, b"*");
    line
}

/// Puts bytes into a line from a column on, counted from 1.
fn put(line: &mut [u8], first: usize, bytes: &[u8]) {
    line[first - 1..first - 1 + bytes.len()].copy_from_slice(bytes);
}

/// Zero filled, padded with blanks, or some of both.
fn put_number(dice: &mut Dice, line: &mut [u8], first: usize, width: usize, value: i64) {
    let shortest = value.to_string().len();
    let digits = match dice.below(3) {
        0 => width,
        1 => shortest,
        _ => dice.between(shortest as i64, width as i64) as usize,
    };
    let text = format!("{value:0digits$}");
    put(line, first, format!("{text:>width$}").as_bytes());
}

/// The minus anywhere before the digits; a zero now and then with a minus.
fn put_signed(dice: &mut Dice, line: &mut [u8], first: usize, width: usize, value: i64) {
    if value < 0 || (value == 0 && dice.one_in(2)) {
        let shortest = value.abs().to_string().len();
        let digits = match dice.below(3) {
            0 => width - 1,
            1 => shortest,
            _ => dice.between(shortest as i64, width as i64 - 1) as usize,
        };
        let text = format!("-{:0digits$}", value.abs());
        put(line, first, format!("{text:>width$}").as_bytes());
    } else {
        put_number(dice, line, first, width, value);
    }
}

/// The ends of the range and what is near zero come often.
fn some_signed(dice: &mut Dice, least: i64, most: i64) -> i64 {
    match dice.below(4) {
        0 => dice.pick(&[least, most, 0, 1, -1, -500]),
        1 => dice.between(-2_000, 2_000),
        _ => dice.between(least, most),
    }
}

/// A height that has a code.
fn put_coded_height(dice: &mut Dice, line: &mut [u8], first: usize) {
    let height = some_signed(dice, -999_999, 9_999_999);
    put_signed(dice, line, first, 7, height);
}

fn put_set(dice: &mut Dice, line: &mut [u8], first: usize, width: usize, set: &[u8]) {
    for column in first..first + width {
        let byte = dice.pick(set);
        put(line, column, &[byte]);
    }
}

/// Blank, a word with blanks after it, or full.
fn put_text(dice: &mut Dice, line: &mut [u8], first: usize, width: usize, set: &[u8]) {
    let filled = match dice.below(4) {
        0 => 0,
        1 => width,
        _ => dice.below(width + 1),
    };
    put_set(dice, line, first, filled, set);
}

fn put_printable(dice: &mut Dice, line: &mut [u8], first: usize, width: usize) {
    let all: Vec<u8> = (0x20..=0x7e).collect();
    put_text(dice, line, first, width, &all);
}

fn text_record(dice: &mut Dice, file: &mut Vec<u8>, code: &[u8; 2], set: &[u8]) {
    let line = begin(dice, file, code);
    put_text(dice, line, 11, 70, set);
}

fn printable_record(dice: &mut Dice, file: &mut Vec<u8>, code: &[u8; 2]) {
    let line = begin(dice, file, code);
    put_printable(dice, line, 11, 70);
}

fn job_record(dice: &mut Dice, file: &mut Vec<u8>, job: [u8; 2]) {
    printable_record(dice, file, &job);
}

fn project(dice: &mut Dice, file: &mut Vec<u8>) {
    let line = begin(dice, file, b"12");
    let year = match dice.below(3) {
        0 => dice.pick(&[1, 9_998]),
        _ => dice.between(1_980, 2_030),
    };
    let month = dice.between(1, 12);
    let (last_year, last_month) = match dice.below(3) {
        0 => (year, month),
        1 => (year, dice.between(month, 12)),
        _ => (year + 1, dice.between(1, 12)),
    };
    put(line, 11, format!("{year:04}{month:02}").as_bytes());
    put(
        line,
        17,
        format!("{last_year:04}{last_month:02}").as_bytes(),
    );
    put_set(dice, line, 23, 3, UPPER_OR_SPACE);
    put_text(dice, line, 26, 18, NAME);
    put_set(dice, line, 44, 3, UPPER_OR_SPACE);
    put_text(dice, line, 47, 18, NAME);
    put(line, 76, b"4");
    put_set(dice, line, 77, 2, UPPER);
}

fn occupation(dice: &mut Dice, file: &mut Vec<u8>, station: i64, instrument: i64, antenna: i64) {
    let line = begin(dice, file, b"25");
    put_number(dice, line, 11, 4, station);
    put_set(dice, line, 15, 1, UPPER);
    let day = match dice.below(4) {
        0 => dice.pick(&[1, 366]),
        _ => dice.between(1, 366),
    };
    put(line, 16, format!("{day:03}").as_bytes());
    put_set(dice, line, 19, 1, DIGITS);
    put_set(dice, line, 20, 1, UPPER_OR_DIGIT);
    put_printable(dice, line, 21, 4);
    put_set(dice, line, 25, 3, UPPER_OR_SPACE);
    put_number(dice, line, 28, 3, instrument);
    put_number(dice, line, 33, 3, antenna);
}

fn measurement(dice: &mut Dice, file: &mut Vec<u8>, station: i64) {
    let line = begin(dice, file, b"27");
    put_number(dice, line, 11, 4, station);
    let date = dice.between(0, 999_999);
    put_number(dice, line, 15, 6, date);
    let time = dice.between(0, 9_999);
    put_number(dice, line, 21, 4, time);
    let height = some_signed(dice, -9_999, 99_999);
    put_signed(dice, line, 56, 5, height);
}

fn instrument(dice: &mut Dice, file: &mut Vec<u8>, number: i64) {
    let line = begin(dice, file, b"70");
    put_number(dice, line, 11, 3, number);
    let code = dice.between(1, 999);
    put_number(dice, line, 14, 3, code);
    put_printable(dice, line, 23, 18);
    put_printable(dice, line, 63, 8);
    put_printable(dice, line, 71, 10);
}

fn antenna(dice: &mut Dice, file: &mut Vec<u8>, number: i64) {
    let line = begin(dice, file, b"72");
    put_number(dice, line, 11, 3, number);
    put_printable(dice, line, 17, 16);
    put_set(dice, line, 33, 4, UPPER);
    put_printable(dice, line, 45, 20);
}

fn point(dice: &mut Dice, file: &mut Vec<u8>, station: i64) {
    let line = begin(dice, file, b"80");
    put_number(dice, line, 11, 4, station);
    put_printable(dice, line, 15, 30);
    let latitude = some_angle(dice, 90);
    put(line, 45, format!("{latitude:011}").as_bytes());
    let letter = dice.pick(b"NS");
    put(line, 56, &[letter]);
    let longitude = some_angle(dice, 180);
    put(line, 57, format!("{longitude:012}").as_bytes());
    let letter = dice.pick(b"EW");
    put(line, 69, &[letter]);
    put_set(dice, line, 77, 2, UPPER);
}

/// Degrees, minutes, seconds and decimals as the digits of one number. Zero
/// and the largest angle come often, since their letter is a matter of dress.
fn some_angle(dice: &mut Dice, degrees: i64) -> i64 {
    match dice.below(8) {
        0 => 0,
        1 => degrees * 1_000_000_000,
        2 => 1,
        3 => (degrees - 1) * 1_000_000_000 + 595_999_999,
        _ => {
            let whole = dice.between(0, degrees - 1);
            let minutes = dice.between(0, 59);
            let seconds = dice.between(0, 59);
            let decimals = dice.between(0, 99_999);
            ((whole * 100 + minutes) * 100 + seconds) * 100_000 + decimals
        }
    }
}

fn heights(dice: &mut Dice, file: &mut Vec<u8>, station: i64) {
    let line = begin(dice, file, b"86");
    put_number(dice, line, 11, 4, station);
    if !dice.one_in(4) {
        put_coded_height(dice, line, 17);
        put_set(dice, line, 24, 1, UPPER);
        put_set(dice, line, 27, 1, b"YN");
    }
    if dice.one_in(2) {
        put_set(dice, line, 25, 2, DIGITS);
    }
    if dice.one_in(2) {
        put_set(dice, line, 28, 2, UPPER_OR_DIGIT);
    }
    put_printable(dice, line, 30, 6);
    if !dice.one_in(4) {
        put_coded_height(dice, line, 36);
        put_set(dice, line, 43, 1, UPPER_OR_DIGIT);
    }
    if !dice.one_in(4) {
        put_coded_height(dice, line, 46);
        put_set(dice, line, 53, 1, UPPER);
    }
    put_set(dice, line, 56, 1, UPPER_OR_SPACE);
    put_printable(dice, line, 57, 24);
}

fn network(dice: &mut Dice, file: &mut Vec<u8>, station: i64) {
    let line = begin(dice, file, b"91");
    put_number(dice, line, 11, 4, station);
    put_accuracy(dice, line, 21);
    put_set(dice, line, 65, 1, b"YN");
    put_printable(dice, line, 66, 15);
}

fn local(dice: &mut Dice, file: &mut Vec<u8>, from: i64, to: i64) {
    let line = begin(dice, file, b"92");
    put_number(dice, line, 11, 4, from);
    put_number(dice, line, 17, 4, to);
    put_accuracy(dice, line, 23);
    put_set(dice, line, 67, 1, b"YN");
    put_printable(dice, line, 68, 13);
}

fn factor(dice: &mut Dice, file: &mut Vec<u8>) {
    let line = begin(dice, file, b"93");
    for first in [11, 19] {
        let factor = match dice.below(4) {
            0 => dice.pick(&[1, 9_999, 1_000]),
            _ => dice.between(1, 9_999),
        };
        put_number(dice, line, first, 8, factor);
    }
    put_printable(dice, line, 27, 54);
}

/// North, east, correlation and height, ten columns each.
fn put_accuracy(dice: &mut Dice, line: &mut [u8], first: usize) {
    for first in [first, first + 10, first + 30] {
        let deviation = match dice.below(4) {
            0 => dice.pick(&[0, 1, 999_999_999]),
            1 => dice.between(0, 999_999_999),
            _ => dice.between(0, 5_000),
        };
        put_number(dice, line, first, 10, deviation);
    }
    let correlation = some_signed(dice, -99_999_990, 99_999_999);
    put_signed(dice, line, first + 20, 10, correlation);
}

/// The ways to damage a file.
#[derive(Clone, Copy, Debug, PartialEq, Eq)]
pub enum Damage {
    /// Any byte in any of the 81 columns.
    AnyByte,
    /// A printable byte in columns 1-80.
    PrintableByte,
    /// A whole field filled with something telling.
    FieldFill,
    /// Cut off anywhere.
    Cut,
    /// Cut off after a whole line.
    CutLines,
    DeleteLine,
    DuplicateLine,
    SwapLines,
    /// A carriage return before a line feed, of one line or of all.
    CarriageReturn,
    /// One byte too many or too few in a line.
    Shift,
    /// Another code, known or not.
    Code,
    Sequence,
    /// A *25* that names a number nobody defines, its *27* follow suit; or a
    /// *91* or *92* that names such a station.
    Undefined,
    /// A point that takes another's number, or is there twice.
    Repeated,
    /// A *27*, *70*, *72* or *86* whose number disagrees with an earlier one;
    /// of a *70* only one that falls does.
    Disagreeing,
    /// A *12* whose months are exchanged, a height's code put or taken, or a
    /// *92* of one station.
    DisagreeingFields,
    /// Something after the end.
    Append,
}

pub const DAMAGES: [Damage; 17] = [
    Damage::AnyByte,
    Damage::PrintableByte,
    Damage::FieldFill,
    Damage::Cut,
    Damage::CutLines,
    Damage::DeleteLine,
    Damage::DuplicateLine,
    Damage::SwapLines,
    Damage::CarriageReturn,
    Damage::Shift,
    Damage::Code,
    Damage::Sequence,
    Damage::Undefined,
    Damage::Repeated,
    Damage::Disagreeing,
    Damage::DisagreeingFields,
    Damage::Append,
];

/// A file to try: small and damaged mostly, accepted now and then, and once
/// in 64 seeds about as long as a file may be.
pub fn case(seed: u64) -> Vec<u8> {
    let mut dice = Dice::new(!seed);
    let dice = &mut dice;
    if seed % 64 == 63 {
        return at_the_limit(dice);
    }
    let records = match dice.below(4) {
        0 => FEWEST,
        1 => FEWEST + dice.below(8),
        2 => FEWEST + dice.below(40),
        _ => FEWEST + dice.below(200),
    };
    let mut file = accepted(dice.roll(), records);
    let times = dice.pick(&[0, 1, 1, 1, 1, 1, 2, 2, 3]);
    for _ in 0..times {
        let way = dice.pick(&DAMAGES);
        damage(dice, &mut file, way);
    }
    file
}

/// A file of 99,999 records or a little more: fault 2, fault 8 at record
/// 100,000, accepted, or a fault of the last records.
fn at_the_limit(dice: &mut Dice) -> Vec<u8> {
    let limit = LAST_RECORD as usize;
    match dice.below(4) {
        0 => accepted(dice.roll(), limit),
        1 => {
            let records = limit + 1 + dice.below(3);
            accepted(dice.roll(), records)
        }
        2 => {
            // The end of the longer file is lost, so a record must follow.
            let mut file = accepted(dice.roll(), limit + 1);
            let more = dice.below(2);
            file.truncate(limit * LINE + more);
            file
        }
        _ => {
            let mut file = accepted(dice.roll(), limit);
            damage(dice, &mut file, Damage::Append);
            file
        }
    }
}

/// Damages a file in one way. A file that has nothing to damage so, and now
/// and then a lucky one, stays accepted.
pub fn damage(dice: &mut Dice, file: &mut Vec<u8>, way: Damage) {
    let lines = file.len() / LINE;
    if lines == 0 {
        file.push(dice.below(256) as u8);
        return;
    }
    let record = dice.below(lines);
    let start = record * LINE;
    match way {
        Damage::AnyByte => file[start + dice.below(LINE)] = dice.below(256) as u8,
        Damage::PrintableByte => {
            file[start + dice.below(LINE - 1)] = dice.between(0x20, 0x7e) as u8;
        }
        Damage::FieldFill => {
            if let Some(kind) = layout::kind_of(&file[start + 6..start + 10]) {
                let field = dice.pick(FIELDS[kind]);
                let first = start + field.first - 1;
                telling(dice, &mut file[first..first + field.width]);
            }
        }
        Damage::Cut => file.truncate(dice.below(file.len())),
        Damage::CutLines => file.truncate(start),
        Damage::DeleteLine => {
            file.drain(start..start + LINE);
        }
        Damage::DuplicateLine => {
            let line = file[start..start + LINE].to_vec();
            file.splice(start..start, line);
        }
        Damage::SwapLines => {
            let other = dice.below(lines) * LINE;
            for column in 0..LINE {
                file.swap(start + column, other + column);
            }
        }
        Damage::CarriageReturn => {
            if dice.one_in(2) {
                file.insert(start + LINE - 1, b'\r');
            } else {
                *file = file
                    .chunks(LINE)
                    .flat_map(|line| match line.split_last() {
                        Some((b'\n', columns)) => [columns, b"\r\n"].concat(),
                        _ => line.to_vec(),
                    })
                    .collect();
            }
        }
        Damage::Shift => {
            if dice.one_in(2) {
                file.insert(start + dice.below(LINE), b' ');
            } else {
                file.remove(start + dice.below(LINE));
            }
        }
        Damage::Code => {
            let code = match dice.below(6) {
                0 => format!("*{}*", dice.between(0, 99)),
                1 | 2 => dice
                    .pick(&[
                        "*13*", "*71*", "*1A*", "*a1*", "*Aa*", "*  *", " 10*", "*A1 ",
                    ])
                    .to_string(),
                3 => {
                    let job = [dice.pick(UPPER), dice.pick(UPPER_OR_DIGIT)];
                    format!("*{}{}*", char::from(job[0]), char::from(job[1]))
                }
                _ => format!("*{}*", dice.pick(&layout::KINDS)),
            };
            put(&mut file[start..], 7, code.as_bytes());
        }
        Damage::Sequence => {
            let sequence = dice.pick(&[
                "      ", "000000", "     0", "1     ", "-00001", "  1 23", "12345A", "00001.",
            ]);
            put(&mut file[start..], 1, sequence.as_bytes());
        }
        Damage::Undefined => undefined(dice, file),
        Damage::Repeated => repeated(dice, file),
        Damage::Disagreeing => disagreeing(dice, file),
        Damage::DisagreeingFields => disagreeing_fields(dice, file),
        Damage::Append => match dice.below(4) {
            0 => file.push(dice.below(256) as u8),
            1 => file.push(b'\n'),
            2 => file.extend(vec![b' '; LINE]),
            _ => file.extend_from_within(start..start + LINE),
        },
    }
}

/// Fills a field with what numbers, heights, angles and codes go wrong on.
pub fn telling(dice: &mut Dice, field: &mut [u8]) {
    let width = field.len();
    match dice.below(8) {
        0 => field.fill(b' '),
        1 => field.fill(b'0'),
        2 => field.fill(b'9'),
        3 => {
            field.fill(b'0');
            field[0] = b'-';
        }
        4 => {
            field.fill(b' ');
            field[width - 1] = dice.pick(b"-17A");
        }
        5 => {
            field.fill(b'1');
            field[dice.below(width)] = dice.pick(b" -+.");
        }
        6 => {
            for byte in field {
                *byte = dice.pick(b"0123456789 -");
            }
        }
        _ => {
            for byte in field {
                *byte = dice.pick(b" ABYN0123456");
            }
        }
    }
}

/// A file of whole lines as an editor leaves it that strips trailing blanks
/// and ends lines in a way of its own.
pub fn stripped(file: &[u8], end: &str) -> Vec<u8> {
    file.chunks_exact(LINE)
        .flat_map(|line| [without_blanks(line), end.as_bytes()].concat())
        .collect()
}

/// The columns of a line up to the last that is not blank.
pub fn without_blanks(line: &[u8]) -> &[u8] {
    let columns = &line[..LINE - 1];
    let last = columns.iter().rposition(|&byte| byte != b' ');
    &columns[..last.map_or(0, |last| last + 1)]
}

/// The starts of the whole lines of these kinds.
fn starts(file: &[u8], kinds: &[usize]) -> Vec<usize> {
    (0..file.len() / LINE)
        .map(|record| record * LINE)
        .filter(|&start| {
            layout::kind_of(&file[start + 6..start + 10]).is_some_and(|kind| kinds.contains(&kind))
        })
        .collect()
}

fn undefined(dice: &mut Dice, file: &mut [u8]) {
    let kind = dice.pick(&[layout::OCCUPATION, layout::NETWORK, layout::LOCAL]);
    let records = starts(file, &[kind]);
    if records.is_empty() {
        return;
    }
    let start = dice.pick(&records);
    if kind == layout::OCCUPATION {
        return undefined_of_occupation(dice, &mut file[start..]);
    }
    let first = match kind {
        layout::LOCAL => dice.pick(&[11, 17]),
        _ => 11,
    };
    let station = dice.between(1, 9_999);
    put_number(dice, &mut file[start..start + LINE], first, 4, station);
}

/// Of the *25* that `rest` begins with.
fn undefined_of_occupation(dice: &mut Dice, rest: &mut [u8]) {
    let (line, after) = rest.split_at_mut(LINE);
    let first = dice.pick(&[11, 28, 33]);
    if first != 11 {
        let number = dice.between(1, 999);
        return put_number(dice, line, first, 3, number);
    }
    let station = dice.between(1, 9_999);
    put_number(dice, line, 11, 4, station);
    for line in after.chunks_exact_mut(LINE) {
        match layout::kind_of(&line[6..10]) {
            Some(layout::COMMENT) => (),
            Some(layout::MEASUREMENT) => put_number(dice, line, 11, 4, station),
            _ => break,
        }
    }
}

fn repeated(dice: &mut Dice, file: &mut Vec<u8>) {
    let points = starts(file, &[layout::POINT]);
    if points.is_empty() {
        return;
    }
    let from = dice.pick(&points);
    let to = dice.pick(&points);
    let end = (from + 2 * LINE).min(file.len());
    if from == to {
        let pair = file[from..end].to_vec();
        file.splice(from..from, pair);
    } else {
        let station = file[from + 10..from + 14].to_vec();
        put(&mut file[to..], 11, &station);
        if to + 2 * LINE <= file.len() {
            put(&mut file[to + LINE..], 11, &station);
        }
    }
}

fn disagreeing(dice: &mut Dice, file: &mut [u8]) {
    let kinds = [
        layout::MEASUREMENT,
        layout::INSTRUMENT,
        layout::ANTENNA,
        layout::HEIGHTS,
    ];
    let kind = dice.pick(&kinds);
    let records = starts(file, &[kind]);
    if records.is_empty() {
        return;
    }
    if kind == layout::INSTRUMENT {
        return falling(dice, file, &records);
    }
    let start = dice.pick(&records);
    if kind == layout::ANTENNA {
        // Another's number: repeated, or falling.
        let from = dice.pick(&records);
        let number = file[from + 10..from + 13].to_vec();
        put(&mut file[start..], 11, &number);
    } else {
        let station = dice.between(1, 9_999);
        put_number(dice, &mut file[start..start + LINE], 11, 4, station);
    }
}

/// Puts one of the *70* that start here below the one before it, by one or by
/// more. The first has none before it, and no number is below 1.
fn falling(dice: &mut Dice, file: &mut [u8], starts: &[usize]) {
    if starts.len() < 2 {
        return;
    }
    let at = 1 + dice.below(starts.len() - 1);
    let before = number_at(&file[starts[at - 1]..], 11, 3);
    if before < 2 {
        return;
    }
    let number = match dice.below(2) {
        0 => before - 1,
        _ => dice.between(1, before - 1),
    };
    let line = &mut file[starts[at]..starts[at] + LINE];
    put_number(dice, line, 11, 3, number);
}

/// The number in some columns of a line, blanks before it or not; 0 if they
/// hold none.
fn number_at(line: &[u8], first: usize, width: usize) -> i64 {
    let held = String::from_utf8_lossy(&line[first - 1..first - 1 + width]);
    held.trim_start().parse().unwrap_or(0)
}

fn disagreeing_fields(dice: &mut Dice, file: &mut [u8]) {
    let records = starts(file, &[layout::PROJECT, layout::HEIGHTS, layout::LOCAL]);
    if records.is_empty() {
        return;
    }
    let start = dice.pick(&records);
    let line = &mut file[start..start + LINE];
    match layout::kind_of(&line[6..10]) {
        Some(layout::PROJECT) => {
            for column in 10..16 {
                line.swap(column, column + 6);
            }
        }
        Some(layout::LOCAL) => {
            let station = number_at(line, 11, 4);
            put_number(dice, line, 17, 4, station);
        }
        _ => {
            let column = dice.pick(&[24, 27, 43, 53]);
            let code = dice.pick(b" YNA");
            put(line, column, &[code]);
        }
    }
}
