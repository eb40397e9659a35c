//! Nanoseconds a record of form, references, rewrite, pad and pull: the library,
//! the plain and the tuned implementation and memcpy, in turn on the same files.
//!
//! ```text
//! bench                      every file
//! bench NAME..               the files whose names begin so: bench mixed '*8'
//! bench --times N JOB NAME   one job on one file N times and no clock, for a
//!                            profiler: bench --times 20 'form tuned' mixed
//! ```
//!
//! memcpy copies as many bytes as a call puts into its output.

use shelf::calls::{Calls, FileCalls, REWRITE_WORDS};
use shelf::generate::{accepted, accepted_mostly, stripped, Mostly};
use shelf::library::{Library, IS_STANDIN};
use shelf::plain::{self, Plain, LAST_RECORD, LINE, TABLE_WORDS};
use shelf::tuned::Tuned;
use std::env;
use std::hint::black_box;
use std::process::ExitCode;
use std::time::Instant;

const MOST: usize = LAST_RECORD as usize;
/// Of a file by kind: small enough for the processor's own memory.
const BY_KIND: usize = 10_000;
const ROUNDS: usize = 25;

type Make = fn() -> Vec<u8>;

/// Jobs and the files that each of them is timed on.
struct Table {
    files: &'static [(&'static str, Make)],
    /// The first is memcpy.
    jobs: &'static [(&'static str, Job)],
    /// Whether the times are to be held against memcpy's.
    in_memcpys: bool,
}

const TABLES: [Table; 3] = [
    Table {
        files: &ACCEPTED,
        jobs: &JUDGING,
        in_memcpys: false,
    },
    Table {
        files: &LINES,
        jobs: &PADDING,
        in_memcpys: true,
    },
    Table {
        files: &PULLED,
        jobs: &PULLING,
        in_memcpys: false,
    },
];

/// All are accepted. Where nothing is said the dress is mixed: numbers padded
/// in every way, and so on.
const ACCEPTED: [(&str, Make); 16] = [
    ("mixed", || accepted(1, MOST)),
    ("mixed, another", || accepted(2, MOST)),
    ("mixed, house", || house(accepted(1, MOST))),
    ("comments", || accepted_mostly(3, Mostly::Comments, MOST)),
    ("small", || accepted(4, 27)),
    ("*26*", || of_kind(Mostly::Comments)),
    ("*25* *27*", || of_kind(Mostly::Groups)),
    ("*25* *27*, house", || house(of_kind(Mostly::Groups))),
    ("*80* *86*", || of_kind(Mostly::Points)),
    ("*80* *86*, house", || house(of_kind(Mostly::Points))),
    ("*70* *72*", || of_kind(Mostly::Equipment)),
    ("*70* *72*, house", || house(of_kind(Mostly::Equipment))),
    ("*91*", || of_kind(Mostly::Network)),
    ("*91*, house", || house(of_kind(Mostly::Network))),
    ("*92*", || of_kind(Mostly::Local)),
    ("*92*, house", || house(of_kind(Mostly::Local))),
];

/// The mixed file as it stands and as editors leave it.
const LINES: [(&str, Make); 3] = [
    ("full", || accepted(1, MOST)),
    ("trimmed, LF", || stripped(&accepted(1, MOST), "\n")),
    ("trimmed, CR LF", || stripped(&accepted(1, MOST), "\r\n")),
];

/// Of which all records are pulled, in order.
const PULLED: [(&str, Make); 3] = [
    ("pulled, mixed", || accepted(1, MOST)),
    ("pulled, house", || house(accepted(1, MOST))),
    ("pulled, small", || accepted(4, 27)),
];

fn of_kind(mostly: Mostly) -> Vec<u8> {
    accepted_mostly(5, mostly, BY_KIND)
}

fn house(file: Vec<u8>) -> Vec<u8> {
    let mut out = vec![0; file.len()];
    plain::rewrite(&file, &mut [0; TABLE_WORDS], &mut out);
    out
}

#[derive(Clone, Copy)]
enum Job {
    Memcpy,
    Form(&'static dyn FileCalls),
    References(&'static dyn FileCalls),
    Rewrite(&'static dyn FileCalls),
    Pad(&'static dyn Calls),
    Pull(&'static dyn Calls),
}

const JUDGING: [(&str, Job); 10] = [
    ("memcpy", Job::Memcpy),
    ("form library", Job::Form(&Library)),
    ("form plain", Job::Form(&Plain)),
    ("form tuned", Job::Form(&Tuned)),
    ("references library", Job::References(&Library)),
    ("references plain", Job::References(&Plain)),
    ("references tuned", Job::References(&Tuned)),
    ("rewrite library", Job::Rewrite(&Library)),
    ("rewrite plain", Job::Rewrite(&Plain)),
    ("rewrite tuned", Job::Rewrite(&Tuned)),
];

const PADDING: [(&str, Job); 3] = [
    ("memcpy", Job::Memcpy),
    ("pad library", Job::Pad(&Library)),
    ("pad plain", Job::Pad(&Plain)),
];

/// Rewriting the same file beside it, which judges the file as a whole too.
const PULLING: [(&str, Job); 5] = [
    ("memcpy", Job::Memcpy),
    ("pull library", Job::Pull(&Library)),
    ("rewrite library", Job::Rewrite(&Library)),
    ("pull plain", Job::Pull(&Plain)),
    ("rewrite plain", Job::Rewrite(&Plain)),
];

/// What is given to a call.
struct Given {
    input: Vec<u8>,
    /// The numbers of all records, in order.
    numbers: Vec<u32>,
    /// What the input pads to, if that is not the input itself.
    padded: Option<Vec<u8>>,
}

impl Given {
    fn new(input: Vec<u8>) -> Given {
        let mut padded = vec![0; LINE * MOST];
        let lines = plain::pad(&input, &mut padded).lines as usize;
        padded.truncate(LINE * lines);
        Given {
            numbers: (1..=lines as u32).collect(),
            padded: Some(padded).filter(|padded| *padded != input),
            input,
        }
    }

    /// The whole lines, which memcpy copies.
    fn file(&self) -> &[u8] {
        self.padded.as_ref().unwrap_or(&self.input)
    }

    fn records(&self) -> usize {
        self.file().len() / LINE
    }
}

/// What is lent to a call.
#[derive(PartialEq, Eq)]
struct Lent {
    table: Vec<u32>,
    out: Vec<u8>,
    faults: Vec<u32>,
    /// As long as the longest needs it.
    answer: [u32; REWRITE_WORDS],
}

impl Lent {
    fn new(given: &Given) -> Lent {
        Lent {
            table: vec![0; TABLE_WORDS],
            out: vec![0; given.file().len()],
            faults: vec![0; given.records()],
            answer: [0; REWRITE_WORDS],
        }
    }

    fn run(&mut self, job: Job, given: &Given, times: usize) {
        let Lent {
            table,
            out,
            faults,
            answer,
        } = self;
        for _ in 0..times {
            let input = black_box(&given.input);
            match job {
                Job::Memcpy => out.copy_from_slice(black_box(given.file())),
                Job::Form(side) => side.form(input, answer),
                Job::References(side) => side.references(input, table, answer),
                Job::Rewrite(side) => side.rewrite(input, table, out, answer),
                Job::Pad(side) => side.pad(input, out, answer),
                Job::Pull(side) => side.pull(input, &given.numbers, out, faults, answer),
            }
            black_box(&out);
            black_box(&answer);
        }
    }
}

/// A time says nothing of a call that answers wrongly: a job must leave what
/// the plain implementation leaves, and accept.
fn agrees(job: Job, given: &Given) -> bool {
    let left = |job| {
        let mut lent = Lent::new(given);
        lent.run(job, given, 1);
        lent
    };
    let lent = left(job);
    let plain = match job {
        Job::Memcpy => return lent.out == given.file(),
        Job::Form(_) => Job::Form(&Plain),
        Job::References(_) => Job::References(&Plain),
        Job::Rewrite(_) => Job::Rewrite(&Plain),
        Job::Pad(_) => Job::Pad(&Plain),
        Job::Pull(_) => Job::Pull(&Plain),
    };
    lent.answer[0] == 0 && lent == left(plain)
}

/// A file with the best time of each job in nanoseconds a record.
struct Timed {
    name: &'static str,
    given: Given,
    /// The same in every round: memory that is new is slow to write.
    lent: Lent,
    jobs: &'static [(&'static str, Job)],
    best: Vec<f64>,
}

impl Timed {
    /// Every job once, in turn. Short files are judged many times in a turn,
    /// so that the clock can see it.
    fn turn(&mut self) {
        let times = (MOST / self.given.records()).max(1);
        let records = (times * self.given.records()) as f64;
        for (&(_, job), least) in self.jobs.iter().zip(&mut self.best) {
            // No job is to pay for what another left in the cache.
            self.lent.run(job, &self.given, 1);
            let start = Instant::now();
            self.lent.run(job, &self.given, times);
            *least = least.min(start.elapsed().as_nanos() as f64 / records);
        }
    }
}

/// The files whose names begin with one of the words, or all of them. Jobs
/// and files take turns in every round, so that what disturbs the machine for
/// a while disturbs them alike.
fn measure(words: &[String]) -> Result<[Vec<Timed>; TABLES.len()], String> {
    let mut all = [const { Vec::new() }; TABLES.len()];
    for (table, timed) in TABLES.iter().zip(&mut all) {
        let jobs = table.jobs;
        for &(name, make) in table.files {
            if !words.is_empty() && !words.iter().any(|word| name.starts_with(word)) {
                continue;
            }
            let given = Given::new(make());
            if !jobs.iter().all(|&(_, job)| agrees(job, &given)) {
                return Err(format!("{name}: the implementations differ, or refuse it"));
            }
            timed.push(Timed {
                name,
                lent: Lent::new(&given),
                given,
                jobs,
                best: vec![f64::MAX; jobs.len()],
            });
        }
    }
    if all.iter().all(Vec::is_empty) {
        return Err(format!("no file has a name like {}", words.join(", ")));
    }
    for _ in 0..ROUNDS {
        all.iter_mut().flatten().for_each(Timed::turn);
    }
    Ok(all)
}

fn print_times(words: &[String]) -> Result<(), String> {
    let all = measure(words)?;
    if IS_STANDIN {
        println!("The library is the stand-in: its times are the plain implementation's.");
    }
    println!("ns a record, best of {ROUNDS} rounds; behind an x how many times memcpy's");
    for (table, rows) in TABLES.iter().zip(&all) {
        if !rows.is_empty() {
            print_rows(table, rows);
        }
    }
    Ok(())
}

fn print_rows(table: &Table, rows: &[Timed]) {
    print!("{:<18}{:>8}", "file", "records");
    for (name, _) in table.jobs {
        print!("{name:>20}");
    }
    println!();
    for timed in rows {
        print!("{:<18}{:>8}", timed.name, timed.given.records());
        for nanoseconds in &timed.best {
            if table.in_memcpys {
                print!("{nanoseconds:>13.1} x{:>5.2}", nanoseconds / timed.best[0]);
            } else {
                print!("{nanoseconds:>20.1}");
            }
        }
        println!();
    }
}

fn profile(times: &str, job: &str, file: &str) -> Result<(), String> {
    let times = times.parse().map_err(|_| format!("no number: {times}"))?;
    let mut files = TABLES
        .iter()
        .flat_map(|table| table.files.iter().map(move |named| (table, named)));
    let found = files.find(|(_, (name, _))| *name == file);
    let (table, (_, make)) = found.ok_or("no such file")?;
    let job = table.jobs.iter().find(|(name, _)| *name == job);
    let (_, job) = job.ok_or("no such job on that file")?;
    let given = Given::new(make());
    Lent::new(&given).run(*job, &given, times);
    println!("{} records", times * given.records());
    Ok(())
}

fn main() -> ExitCode {
    let words: Vec<String> = env::args().skip(1).collect();
    let done = match &words[..] {
        [option, times, job, file] if option == "--times" => profile(times, job, file),
        _ => print_times(&words),
    };
    match done {
        Ok(()) => ExitCode::SUCCESS,
        Err(trouble) => {
            eprintln!("bench: {trouble}");
            ExitCode::FAILURE
        }
    }
}
