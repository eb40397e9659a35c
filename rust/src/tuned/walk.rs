//! The whole file, in the order in which its records come.

use super::judge::{self, Digits};
use super::rows::Line;
use crate::plain::layout::{
    ANTENNA, COMMENT, FACTOR, HEIGHTS, INSTRUMENT, JOB, LOCAL, MEASUREMENT, NETWORK, OCCUPATION,
    POINT, PROJECT, TITLE, TITLE_MORE,
};
use crate::plain::{FIRST_ANTENNA_WORD, FIRST_INSTRUMENT_WORD, LAST_RECORD, LINE, TABLE_WORDS};

/// What becomes of the numbers that records name and define, each by the word
/// of the table that is its own; `None` is a fault.
trait Numbers {
    /// A *25* names a number.
    fn name(&mut self, at: usize) -> Option<()>;

    fn define(&mut self, at: usize, record: u32) -> Option<()>;

    /// A *91* or *92* names a station.
    fn find(&self, at: usize) -> Option<()>;

    /// Whether all that was named is defined, once the file is at its end.
    fn are_all_defined(&self) -> bool;
}

/// References are not judged.
struct Unjudged;

impl Numbers for Unjudged {
    #[inline(always)]
    fn name(&mut self, _: usize) -> Option<()> {
        Some(())
    }

    #[inline(always)]
    fn define(&mut self, _: usize, _: u32) -> Option<()> {
        Some(())
    }

    #[inline(always)]
    fn find(&self, _: usize) -> Option<()> {
        Some(())
    }

    fn are_all_defined(&self) -> bool {
        true
    }
}

/// The word of a number that a *25* named and nothing has defined yet. All
/// *25* come before all definitions and all *91* and *92* after them, so one
/// pass settles every reference.
const NAMED: u32 = u32::MAX;

struct Table<'a> {
    words: &'a mut [u32; TABLE_WORDS],
    /// How many words are [`NAMED`].
    undefined: u32,
}

impl Numbers for Table<'_> {
    #[inline(always)]
    fn name(&mut self, at: usize) -> Option<()> {
        let word = self.words.get_mut(at)?;
        self.undefined += u32::from(*word == 0);
        *word = NAMED;
        Some(())
    }

    /// `None` if the number was defined before.
    #[inline(always)]
    fn define(&mut self, at: usize, record: u32) -> Option<()> {
        let word = self.words.get_mut(at)?;
        self.undefined -= u32::from(*word == NAMED);
        let is_new = *word == 0 || *word == NAMED;
        *word = record;
        is_new.then_some(())
    }

    /// `None` if no point has this station. One that is only [`NAMED`] is
    /// among the undefined anyway.
    #[inline(always)]
    fn find(&self, at: usize) -> Option<()> {
        let word = self.words.get(at)?;
        (*word != 0).then_some(())
    }

    fn are_all_defined(&self) -> bool {
        self.undefined == 0
    }
}

struct Walk<'a, N> {
    rest: &'a [u8],
    /// The number of the record last taken.
    record: u32,
    numbers: N,
    counts: [u32; 14],
}

/// The counts of a file of good form and order; `None` of another.
pub fn formed(file: &[u8]) -> Option<[u32; 14]> {
    walk(file, Unjudged)
}

/// The counts of a good file, with its table filled; `None` if it has a fault
/// or the table is too short. A table that is long enough is then left as it
/// happens to be.
pub fn accepted(file: &[u8], table: &mut [u32]) -> Option<[u32; 14]> {
    let words = table.first_chunk_mut()?;
    words.fill(0);
    let undefined = 0;
    walk(file, Table { words, undefined })
}

fn walk(file: &[u8], numbers: impl Numbers) -> Option<[u32; 14]> {
    if file.len() > LAST_RECORD as usize * LINE {
        return None;
    }
    let mut walk = Walk {
        rest: file,
        record: 0,
        numbers,
        counts: [0; 14],
    };
    let code = walk.head()?;
    walk.groups()?;
    walk.equipment()?;
    walk.points()?;
    walk.accuracies()?;
    let last = walk.take()?;
    let good = judge::job(last) && last[6..10] == code && walk.rest.is_empty();
    walk.counts[JOB] = 2;
    (good && walk.numbers.are_all_defined()).then_some(walk.counts)
}

impl<'a, N: Numbers> Walk<'a, N> {
    /// Whether a record of this code comes next, as far as its two characters
    /// say; the whole code is judged with the record.
    #[inline(always)]
    fn comes(&self, code: &[u8; 2]) -> bool {
        self.rest.len() >= LINE && self.rest[7..9] == *code
    }

    #[inline(always)]
    fn take(&mut self) -> Option<&'a Line> {
        let (line, rest) = self.rest.split_first_chunk()?;
        self.rest = rest;
        self.record += 1;
        Some(line)
    }

    /// Takes a record whose judge says no more than whether it is good.
    #[inline(always)]
    fn take_good(&mut self, judge: impl Fn(&Line) -> bool) -> Option<()> {
        judge(self.take()?).then_some(())
    }

    /// Up to the *12*. Gives the job code with its asterisks.
    fn head(&mut self) -> Option<[u8; 4]> {
        let first = self.take()?;
        if !judge::job(first) {
            return None;
        }
        self.take_good(judge::title::<TITLE>)?;
        if self.comes(b"11") {
            self.take_good(judge::title::<TITLE_MORE>)?;
        }
        self.take_good(judge::project)?;
        self.counts[TITLE] = 1;
        self.counts[TITLE_MORE] = self.record - 3;
        self.counts[PROJECT] = 1;
        Some([first[6], first[7], first[8], first[9]])
    }

    /// Every *25* with its comments and its two or three measurements.
    fn groups(&mut self) -> Option<()> {
        let [mut groups, mut comments, before] = [0, 0, self.record];
        loop {
            let named = judge::occupation(self.take()?)?;
            let numbers = &mut self.numbers;
            numbers.name(judge::value(named.station))?;
            numbers.name(FIRST_INSTRUMENT_WORD + judge::value(named.instrument))?;
            numbers.name(FIRST_ANTENNA_WORD + judge::value(named.antenna))?;
            groups += 1;
            while self.comes(b"26") {
                self.take_good(judge::formed::<COMMENT>)?;
                comments += 1;
            }
            self.measurement(named.station)?;
            self.measurement(named.station)?;
            if self.comes(b"27") {
                self.measurement(named.station)?;
            }
            if !self.comes(b"25") {
                self.counts[OCCUPATION] = groups;
                self.counts[COMMENT] = comments;
                self.counts[MEASUREMENT] = self.record - before - groups - comments;
                return Some(());
            }
        }
    }

    #[inline(always)]
    fn measurement(&mut self, station: Digits) -> Option<()> {
        self.take_good(|line| judge::measurement(line, station))
    }

    /// *70*, which never fall, and *72*, which rise strictly.
    fn equipment(&mut self) -> Option<()> {
        self.counts[INSTRUMENT] =
            self.rising(b"70", FIRST_INSTRUMENT_WORD, true, judge::instrument)?;
        self.counts[ANTENNA] = self.rising(b"72", FIRST_ANTENNA_WORD, false, judge::antenna)?;
        Some(())
    }

    /// Numbers that rise, or may repeat: the first record of a number is the
    /// one that defines it.
    #[inline(always)]
    fn rising(
        &mut self,
        code: &[u8; 2],
        first_word: usize,
        may_repeat: bool,
        judge: impl Fn(&Line) -> Option<Digits>,
    ) -> Option<u32> {
        let before = self.record;
        let mut last = judge(self.take()?)?;
        self.define(first_word + judge::value(last))?;
        while self.comes(code) {
            let number = judge(self.take()?)?;
            if may_repeat && number == last {
                continue;
            }
            if !judge::is_above(number, last) {
                return None;
            }
            self.define(first_word + judge::value(number))?;
            last = number;
        }
        Some(self.record - before)
    }

    /// Each *80* with its *86*.
    fn points(&mut self) -> Option<()> {
        let before = self.record;
        loop {
            let station = judge::point(self.take()?)?;
            self.define(judge::value(station))?;
            self.take_good(|line| judge::heights(line, station))?;
            if !self.comes(b"80") {
                self.counts[POINT] = (self.record - before) / 2;
                self.counts[HEIGHTS] = self.counts[POINT];
                return Some(());
            }
        }
    }

    /// *91* and *92* as many as there are, and a *93*. They come after all
    /// definitions, so what they name has to be defined already.
    fn accuracies(&mut self) -> Option<()> {
        self.counts[NETWORK] = self.networks()?;
        self.counts[LOCAL] = self.locals()?;
        if self.comes(b"93") {
            self.take_good(judge::factor)?;
            self.counts[FACTOR] = 1;
        }
        Some(())
    }

    fn networks(&mut self) -> Option<u32> {
        let before = self.record;
        while self.comes(b"91") {
            let station = judge::network(self.take()?)?;
            self.numbers.find(judge::value(station))?;
        }
        Some(self.record - before)
    }

    fn locals(&mut self) -> Option<u32> {
        let before = self.record;
        while self.comes(b"92") {
            let [from, to] = judge::local(self.take()?)?;
            self.numbers.find(judge::value(from))?;
            self.numbers.find(judge::value(to))?;
        }
        Some(self.record - before)
    }

    #[inline(always)]
    fn define(&mut self, at: usize) -> Option<()> {
        self.numbers.define(at, self.record)
    }
}
