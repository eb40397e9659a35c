//! The pull list, sentence by sentence (02, T-07), of the plain implementation
//! and of the library.

use crate::pointing::SIDES;
use crate::sample::*;
use shelf::calls::PULL_WORDS;
use shelf::plain::{pull, Fault};
use shelf::{generate, library};

/// What stands in an output before a call, and in a fault list and an answer.
const BEFORE: u8 = b'#';
const BEFORE_WORD: u32 = 99;

const GOOD: [u32; PULL_WORDS] = [0, 0, 0];
const SHORT: [u32; PULL_WORDS] = [1, 0, 0];
/// What a refusal leaves of lines and fault numbers.
const NOTHING: (&[u8], &[u32]) = (b"", &[]);

/// An entry, with the line and the fault number that it gets.
type Entry = (u32, Vec<u8>, u32);

fn good(record: u32, line: Vec<u8>) -> Entry {
    (record, line, 0)
}

/// A record that can't be read: 80 blanks and a line feed.
fn bad(record: u32, number: u32) -> Entry {
    (record, [&[b' '; 80][..], b"\n"].concat(), number)
}

/// A record of the sample, which is good.
fn sample(record: u32) -> Entry {
    good(record, in_house_style().swap_remove(record as usize - 1))
}

/// The sample's records in house style, written by hand.
fn in_house_style() -> Vec<Vec<u8>> {
    let occupation = |start| line(&[(1, start), (33, "003")]);
    let measurement = |start| line(&[(1, start), (56, "01543")]);
    let instrument = |start| line(&[(1, start), (23, "Maker & Sons"), (63, "Model 3 sn-00012")]);
    let antenna = |start| line(&[(1, start), (17, "TRM55971.00     NONE"), (45, "UNK")]);
    let point = |start| line(&[(1, start), (45, "38531512345N077020100000W"), (77, "MI")]);
    vec![
        line(&[(1, "000010*A1*HZTLOBS NGS   {a}~")]),
        line(&[(1, "000020*10*NORTH SHORE \\ PART 2, (A='B') *-.+/")]),
        line(&[(1, "000030*11*AND ISLANDS")]),
        line(&[
            (1, "000040*12*201911202002A CCOOPER A,'=)(-.+/*   9 LIVES"),
            (76, "4MI"),
        ]),
        occupation("000050*25*0012T3669Aab~ J B007"),
        line(&[(1, "000060*26*Rained; see {log} ~")]),
        measurement("000070*27*00121911050930"),
        measurement("000080*27*00121911050930"),
        measurement("000090*27*00121911050930"),
        occupation("000100*25*0345T3669Aab~ J B007"),
        measurement("000110*27*03451911050930"),
        measurement("000120*27*03451911050930"),
        instrument("000130*70*007045"),
        instrument("000140*70*008045"),
        antenna("000150*72*003"),
        antenna("000160*72*444"),
        point("000170*80*0345Lighthouse 2"),
        line(&[
            (1, "000180*86*0345  0012345A12Y88NGS   -0332506"),
            (46, "-001234B  Aset by hand"),
        ]),
        point("000190*80*0012Lighthouse 2"),
        line(&[(1, "000200*86*0012")]),
        line(&[
            (1, "000210*91*0345"),
            (21, "00000001230000000098-0123456780000000256"),
            (65, "Y{scaled}  a&b ~"),
        ]),
        line(&[
            (1, "000220*92*0012  0345"),
            (23, "0999999999000000000000500000000000123456"),
            (67, "NNot scaled; ~"),
        ]),
        line(&[(
            1,
            "000230*93*0000100000002345horizontal & vertical {factors} ~",
        )]),
        line(&[(1, "000240*A1*HZTLOBS NGS   {a}~")]),
    ]
}

/// Both sides answer these words, and leave an output of so many bytes and a
/// fault list of so many places with these lines and numbers at their starts
/// and the rest as it was.
fn answers(
    file: &[u8],
    records: &[u32],
    (room, places): (usize, usize),
    words: [u32; PULL_WORDS],
    (lines, numbers): (&[u8], &[u32]),
) {
    for (name, side) in SIDES {
        let mut out = vec![BEFORE; room];
        let mut faults = vec![BEFORE_WORD; places];
        let mut answer = [BEFORE_WORD; PULL_WORDS + 2];
        side.pull(file, records, &mut out, &mut faults, &mut answer);
        let first = &records[..records.len().min(50)];
        let about = format!("{name}: {first:?}, output of {room}, fault list of {places}");
        assert_eq!(answer[..PULL_WORDS], words, "{about}");
        assert_eq!(answer[PULL_WORDS..], [BEFORE_WORD; 2], "{about}");
        let (pulled, rest) = out.split_at(lines.len());
        for (found, expected) in pulled.chunks(81).zip(lines.chunks(81)) {
            let [found, expected] = [found, expected].map(String::from_utf8_lossy);
            assert_eq!(found, expected, "{about}");
        }
        assert!(rest.iter().all(|&byte| byte == BEFORE), "{about}");
        let (given, rest) = faults.split_at(numbers.len());
        assert_eq!(given, numbers, "{about}");
        assert!(rest.iter().all(|&word| word == BEFORE_WORD), "{about}");
    }
}

/// The list of these entries pulls to their lines and fault numbers, with just
/// enough lent and with more.
fn pulls(file: &[u8], entries: &[Entry]) {
    let records: Vec<u32> = entries.iter().map(|entry| entry.0).collect();
    let lines: Vec<Vec<u8>> = entries.iter().map(|entry| entry.1.clone()).collect();
    let lines = lines.concat();
    let numbers: Vec<u32> = entries.iter().map(|entry| entry.2).collect();
    let (room, places) = (81 * entries.len(), entries.len());
    for lent in [
        (room, places),
        (room + 1, places),
        (room, places + 1),
        (room + 200, places + 100),
    ] {
        answers(file, &records, lent, GOOD, (&lines, &numbers));
    }
    assert!(library::pull(file, &records) == (lines, numbers));
}

/// These lengths are too short for the list, whatever the file is.
fn is_short(records: &[u32], lent: (usize, usize)) {
    let unread = with(&file(), 7, 11, "0000");
    for file in [&file()[..], &unread, &file()[..100], b"", b"\xff"] {
        answers(file, records, lent, SHORT, NOTHING);
    }
}

#[test]
fn one_record_byte_by_byte() {
    let pulled =
        b"000070*27*00121911050930                               01543                    \n";
    assert_eq!(pulled.len(), 81);
    pulls(&file(), &[good(7, pulled.to_vec())]);
}

#[test]
fn a_record_of_each_kind_is_in_house_style() {
    let entries: Vec<Entry> = (1..=24).map(sample).collect();
    pulls(&file(), &entries);
}

#[test]
fn what_has_more_than_one_dress_has_that_of_the_house() {
    let point = |angles| line(&[(1, "000170*80*0345Lighthouse 2"), (45, angles), (77, "MI")]);
    for (held, dressed) in [
        ("00000000000S180000000000W", "00000000000N180000000000E"),
        ("90000000000S000000000001W", "90000000000S000000000001W"),
        ("00000000001S000000000000W", "00000000001S000000000000E"),
    ] {
        let file = with(&file(), 17, 45, held);
        pulls(&file, &[good(17, point(dressed))]);
    }
    let measurement = |height| line(&[(1, "000070*27*00121911050930"), (56, height)]);
    for (held, dressed) in [
        (" -500", "-0500"),
        ("   -0", "00000"),
        ("-9999", "-9999"),
        ("    7", "00007"),
    ] {
        let file = with(&file(), 7, 56, held);
        pulls(&file, &[good(7, measurement(dressed))]);
    }
}

/// "A good record's sequence number is 10 times its own record number": the
/// entry's place has no say in it.
#[test]
fn the_sequence_number_goes_by_the_record_and_not_by_the_place() {
    let sevens = line(&[(1, "000070*27*00121911050930"), (56, "01543")]);
    pulls(&file(), &[good(7, sevens.clone())]);
    pulls(
        &file(),
        &[bad(0, 13), sample(24), good(7, sevens), sample(1)],
    );
    let backwards: Vec<Entry> = (1..=24).rev().map(sample).collect();
    pulls(&file(), &backwards);
}

#[test]
fn the_sequence_number_that_it_had_is_not_kept() {
    for held in ["      ", "000001", " 12345", "999999"] {
        pulls(&with(&file(), 6, 1, held), &[sample(6)]);
    }
    // It is judged all the same.
    for held in ["000000", "1     ", "-00001", "12345A"] {
        pulls(&with(&file(), 6, 1, held), &[bad(6, 9), sample(7)]);
    }
}

#[test]
fn answers_stand_in_the_lists_order() {
    pulls(&file(), &[sample(20), sample(3), sample(19), sample(4)]);
    // One that can't be read keeps its place, and so do those behind it.
    pulls(
        &file(),
        &[bad(25, 13), sample(3), bad(0, 13), bad(0, 13), sample(2)],
    );
}

#[test]
fn an_entry_may_come_again() {
    pulls(&file(), &[sample(7), sample(7)]);
    pulls(
        &with(&file(), 4, 17, "201910"),
        &[bad(4, 10), sample(7), bad(4, 10), sample(7), sample(7)],
    );
    pulls(&file(), &vec![sample(24); 50]);
}

#[test]
fn a_list_may_be_longer_than_any_file() {
    let some = vec![sample(7), bad(0, 13), sample(24), bad(25, 13), sample(1)];
    pulls(&file(), &vec![some; 30_000].concat());
}

#[test]
fn a_record_that_is_not_there_is_13() {
    // Counted in 32 bits, the last of these would start at byte 32.
    for record in [
        0,
        25,
        26,
        1_000,
        99_999,
        100_000,
        100_001,
        u32::MAX,
        53_024_288,
        53_024_289,
    ] {
        pulls(&file(), &[bad(record, 13)]);
        pulls(&file(), &[sample(24), bad(record, 13), sample(1)]);
    }
    pulls(&file()[..81], &[sample(1), bad(2, 13)]);
}

#[test]
fn every_entry_of_an_empty_file_is_13() {
    let records = [1, 0, 2, 99_999, 100_000, u32::MAX, 1];
    pulls(b"", &records.map(|record| bad(record, 13)));
}

#[test]
fn record_99_999_is_the_last_that_is_read() {
    let long = comment().repeat(100_001);
    let comment = |start: &str| line(&[(1, start), (7, "*26*Rained; see {log} ~")]);
    let ends = [
        good(99_998, comment("999980")),
        good(99_999, comment("999990")),
        bad(100_000, 13),
        bad(100_001, 13),
        bad(100_002, 13),
        good(1, comment("000010")),
    ];
    pulls(&long, &ends);
    pulls(&long[..81 * 99_999 + 40], &ends);
    pulls(&long[..81 * 99_999], &ends);
    // Fault 2, and its first record is good.
    let full = generate::accepted(3, 100_000);
    assert_eq!(verdict(&full), (2, 100_000, 1));
    let first = [&b"000010"[..], &full[6..81]].concat();
    pulls(&full, &[bad(100_000, 13), good(1, first)]);
}

/// Record, first column and text of each change, and the fault number.
const CHANGES: [(usize, usize, &str, u32); 24] = [
    (3, 1, "\x1f", 4),
    (3, 40, "\t", 4),
    (3, 80, "\n", 4),
    (3, 80, "\x7f", 4),
    (3, 81, "\r", 5),
    (3, 81, " ", 5),
    (3, 7, "*13*", 6),
    (3, 7, "*a1*", 6),
    (3, 7, " 11*", 6),
    (3, 11, "a", 9),
    (4, 15, "13", 9),
    (5, 16, "367", 9),
    (7, 11, "0000", 9),
    (7, 15, "      ", 9),
    (17, 45, "91", 9),
    (18, 17, "12 3456", 9),
    (22, 11, "345 ", 9),
    (22, 43, "0100000000", 9),
    // A *12* that ends before it begins.
    (4, 17, "201910", 10),
    // A code without its height, and a height without its code.
    (18, 17, "       ", 10),
    (20, 24, "A", 10),
    (20, 43, "6", 10),
    (18, 24, " ", 10),
    // A *92* of one station.
    (22, 17, "  12", 10),
];

/// "A record that can't be read gets 80 blanks and a line feed; a second lent
/// list holds each fault number": the one that read gives, and its neighbours
/// are good.
#[test]
fn each_fault_of_a_record() {
    for (record, first, text, number) in CHANGES {
        let file = with(&file(), record, first, text);
        let record = record as u32;
        pulls(&file, &[bad(record, number)]);
        pulls(
            &file,
            &[
                sample(record - 1),
                bad(record, number),
                sample(record + 1),
                bad(record, number),
            ],
        );
    }
}

#[test]
fn a_cut_last_line_is_3() {
    for bytes in [1, 6, 10, 40, 79, 80] {
        let cut = &file()[..81 * 6 + bytes];
        pulls(cut, &[sample(6), bad(7, 3), bad(8, 13), sample(1)]);
    }
    pulls(&file()[..81 * 6], &[sample(6), bad(7, 13)]);
    pulls(&file()[..81 * 7], &[sample(6), sample(7), bad(8, 13)]);
}

#[test]
fn a_cut_last_line_with_a_byte_that_is_not_printable_is_4() {
    for line in [
        &b"\n"[..],
        b"000070*27*0012\n",
        b"000070*27*0012\r\n",
        b"000070*27*0012\x7f1911",
        b"\xff00070*27*0012",
    ] {
        let cut = [&file()[..81 * 6], line].concat();
        pulls(&cut, &[sample(6), bad(7, 4), bad(8, 13)]);
    }
}

/// "each entry's fault is as in read", which makes no comparison between
/// records.
#[test]
fn a_record_that_disagrees_with_another_is_good() {
    let measurement = |start| line(&[(1, start), (56, "01543")]);
    let mut instrument = sample(14).1;
    instrument[10..13].copy_from_slice(b"006");
    let mut antenna = sample(16).1;
    antenna[10..13].copy_from_slice(b"003");
    let mut heights = sample(18).1;
    heights[10..14].copy_from_slice(b"0012");
    for (record, text, pulled) in [
        (7, "0345", measurement("000070*27*03451911050930")),
        (7, "9999", measurement("000070*27*99991911050930")),
        (14, "  6", instrument),
        (16, "003", antenna),
        (18, "  12", heights),
    ] {
        let file = with(&file(), record, 11, text);
        assert_eq!(verdict(&file), (10, record as u64, 11));
        let record = record as u32;
        let pulled = good(record, pulled);
        pulls(&file, &[pulled, sample(record - 1), sample(record + 1)]);
    }
}

#[test]
fn a_record_out_of_its_order_is_good() {
    let mut misplaced = lines();
    misplaced[5] = title();
    let misplaced = misplaced.concat();
    assert_eq!(verdict(&misplaced), (7, 6, 7));
    let title = line(&[(1, "000060*10*NORTH SHORE \\ PART 2, (A='B') *-.+/")]);
    pulls(&misplaced, &[sample(5), good(6, title), sample(7)]);
    // Each is good as the only record of a file.
    for (record, alone) in (1..).zip(lines()) {
        let mut expected = sample(record).1;
        expected[..6].copy_from_slice(b"000010");
        pulls(&alone, &[good(1, expected)]);
    }
}

#[test]
fn a_file_that_ends_too_early_has_good_records() {
    let unended = &file()[..81 * 23];
    assert_eq!(verdict(unended), (8, 24, 1));
    pulls(unended, &[sample(23), bad(24, 13), sample(1)]);
}

#[test]
fn a_station_defined_again_is_good() {
    let file = repeated_station();
    assert_eq!(verdict(&file), (11, 21, 11));
    let again = line(&[
        (1, "000210*80*0345Lighthouse 2"),
        (45, "38531512345N077020100000W"),
        (77, "MI"),
    ]);
    let heights = line(&[(1, "000220*86*0345")]);
    pulls(&file, &[good(21, again), sample(17), good(22, heights)]);
}

#[test]
fn an_undefined_number_is_good() {
    let group = undefined_station();
    assert_eq!(verdict(&group), (12, 10, 11));
    let occupation = line(&[(1, "000100*25*0346T3669Aab~ J B007"), (33, "003")]);
    let measurement = line(&[(1, "000110*27*03461911050930"), (56, "01543")]);
    pulls(&group, &[good(10, occupation), good(11, measurement)]);
    let accuracy = with(&file(), 21, 11, "  13");
    assert_eq!(verdict(&accuracy), (12, 21, 11));
    let mut pulled = sample(21).1;
    pulled[10..14].copy_from_slice(b"0013");
    pulls(&accuracy, &[good(21, pulled), sample(22)]);
}

#[test]
fn a_list_of_good_records_does_not_ask_what_the_others_are() {
    let mut file = vec![0xff; 81 * 24];
    file[81 * 6..81 * 7].copy_from_slice(&measurement("  12"));
    pulls(&file, &[sample(7), bad(6, 4), bad(8, 4), sample(7)]);
}

/// Demand 3's house style: what rewriting gives of an accepted file.
#[test]
fn all_records_of_an_accepted_file_in_order_are_its_rewriting() {
    let whole = |file: &[u8]| {
        let records: Vec<u32> = (1..=file.len() as u32 / 81).collect();
        let lent = (file.len(), records.len());
        let numbers = vec![0; records.len()];
        answers(file, &records, lent, GOOD, (&house(file), &numbers));
    };
    whole(&file());
    for seed in 0..200 {
        whole(&generate::accepted(seed, 11 + (seed as usize * 7) % 150));
    }
    whole(&generate::accepted(7, 99_999));
}

#[test]
fn an_empty_list_is_good_and_touches_nothing() {
    for file in [&file()[..], &file()[..100], b"", b"\xff"] {
        for room in [0, 1, 80, 81, 200] {
            for places in [0, 1, 3] {
                answers(file, &[], (room, places), GOOD, NOTHING);
            }
        }
    }
    assert_eq!(library::pull(&file(), &[]), (vec![], vec![]));
}

/// "if the output has fewer than 81 bytes an entry": an entry that can't be
/// read takes as many, and none is written even where it would fit.
#[test]
fn refusal_1_when_the_output_is_short() {
    for records in [&[7][..], &[0], &[7, 7], &[24, 100_000, 1], &[3; 100]] {
        let entries = records.len();
        for room in [0, 1, 80, 81 * (entries - 1), 81 * entries - 1] {
            for places in [entries, entries + 1, entries + 200] {
                is_short(records, (room, places));
            }
        }
    }
}

/// "or the fault list fewer places than entries", however long the output is.
#[test]
fn refusal_1_when_the_fault_list_is_short() {
    for records in [&[7][..], &[0], &[7, 7], &[24, 100_000, 1], &[3; 100]] {
        let entries = records.len();
        for places in [0, entries / 2, entries - 1] {
            for room in [81 * entries, 81 * entries + 1, 81 * entries + 20_000] {
                is_short(records, (room, places));
            }
        }
    }
}

#[test]
fn refusal_1_when_both_are_short() {
    for records in [&[7][..], &[0], &[24, 100_000, 1], &[3; 100]] {
        let entries = records.len();
        for lent in [(0, 0), (81 * entries - 1, 0), (0, entries - 1)] {
            is_short(records, lent);
        }
        is_short(records, (81 * entries - 1, entries - 1));
    }
}

/// 81 x 53,024,289 is 113 above 2 to the 32nd. Nothing of so long a list is
/// looked at, so its zeros cost nothing.
#[test]
fn bytes_are_not_counted_in_32_bits() {
    let records = vec![0; 53_024_289];
    let mut faults = vec![0; records.len()];
    for (name, side) in SIDES {
        let mut out = [BEFORE; 113];
        let mut answer = [BEFORE_WORD; PULL_WORDS];
        side.pull(&file(), &records, &mut out, &mut faults, &mut answer);
        assert_eq!(answer, SHORT, "{name}");
        assert_eq!(out, [BEFORE; 113], "{name}");
        assert_eq!(faults[..2], [0, 0], "{name}");
    }
}

#[test]
fn the_answer_below_its_words() {
    let mut out = [BEFORE; 81 * 3 + 2];
    let mut faults = [BEFORE_WORD; 5];
    let records = [24, 25, 7];
    let file = file();
    for (room, places) in [(81 * 3 - 1, 3), (81 * 3, 2), (0, 0)] {
        let fault = pull(&file, &records, &mut out[..room], &mut faults[..places]);
        assert_eq!(found(fault), (1, 0, 0));
        assert_eq!(out, [BEFORE; 81 * 3 + 2]);
        assert_eq!(faults, [BEFORE_WORD; 5]);
    }
    let fault = pull(&file, &records, &mut out, &mut faults);
    assert_eq!(fault, Fault::ACCEPTED);
    let lines = [sample(24).1, bad(25, 13).1, sample(7).1, b"##".to_vec()];
    assert_eq!(out.to_vec(), lines.concat());
    assert_eq!(faults, [0, 13, 0, BEFORE_WORD, BEFORE_WORD]);
}

#[test]
fn an_answer_too_short_means_that_nothing_is_touched() {
    for (name, side) in SIDES {
        for words in 0..PULL_WORDS {
            for records in [&[7, 25][..], &[]] {
                for (room, places) in [(162, 2), (161, 2), (162, 1), (200, 7)] {
                    let mut out = vec![BEFORE; room];
                    let mut faults = vec![BEFORE_WORD; places];
                    let mut answer = vec![BEFORE_WORD; words];
                    side.pull(&file(), records, &mut out, &mut faults, &mut answer);
                    assert_eq!(answer, vec![BEFORE_WORD; words], "{name}");
                    assert_eq!(out, vec![BEFORE; room], "{name}");
                    assert_eq!(faults, vec![BEFORE_WORD; places], "{name}");
                }
            }
        }
    }
}
