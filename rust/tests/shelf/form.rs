//! `shelf check --form`

use crate::check::{COUNTED, NOT_COUNTED};
use crate::desk::Desk;
use shelf::{generate, sample};

/// What is said of the sample, and of every file with as many records of each
/// kind.
const COUNTS: &str =
    "24 records: AA 2 10 1 11 1 12 1 25 2 26 1 27 5 70 2 72 2 80 2 86 2 91 1 92 1 \
                      93 1";

#[test]
fn an_accepted_form_is_no_accepted_file_and_is_not_called_one() {
    let desk = Desk::new("form");
    desk.put("good.b", &sample::file());
    desk.put("undefined.b", &sample::undefined_station());
    let ran = desk.run(&["check", "--form", "good.b", "undefined.b"]);
    let ran = ran.ended(0);
    let said = "form accepted, references not judged";
    assert_eq!(
        ran.out,
        format!("good.b: {said}, {COUNTS}\nundefined.b: {said}, {COUNTS}\n")
    );
    assert_eq!(ran.err, "");
    // Without the option the undefined station is refused, as ever.
    let ran = desk.run(&["check", "good.b", "undefined.b"]).ended(1);
    let expected = format!(
        "good.b: accepted, {COUNTS}\nundefined.b: refused, fault 12, record 10, column 11\n"
    );
    assert!(ran.out.starts_with(&expected), "{}", ran.out);
}

#[test]
fn a_repeated_station_is_counted_twice_and_left_to_the_references() {
    let desk = Desk::new("form-repeated");
    desk.put("twice.b", &sample::repeated_station());
    let ran = desk.run(&["check", "--form", "twice.b"]).ended(0);
    assert!(ran.out.contains("references not judged, 26 records:"));
    assert!(ran.out.contains(" 80 3 86 3 "));
    let ran = desk.run(&["check", "twice.b"]).ended(1);
    assert!(ran.out.contains("refused, fault 11, record 21, column 11"));
}

/// Each fault of form is told in the same words with the option and without.
#[test]
fn what_is_wrong_with_the_form_is_said_as_check_says_it() {
    let desk = Desk::new("form-faults");
    let good = sample::file();
    for file in [
        generate::accepted(2, 100_000),
        good[..100].to_vec(),
        sample::with(&good, 3, 40, "\t"),
        sample::with(&good, 3, 81, "x"),
        sample::with(&good, 3, 7, "*13*"),
        sample::with(&good, 3, 7, "*86*"),
        Vec::new(),
        sample::with(&good, 5, 28, "7  "),
        sample::with(&good, 18, 24, " "),
        sample::with(&sample::undefined_station(), 20, 15, "x"),
    ] {
        desk.put("bad.b", &file);
        let whole = desk.run(&["check", "bad.b"]).ended(1);
        let form = desk.run(&["check", "--form", "bad.b"]).ended(1);
        assert!(form.out.starts_with("bad.b: refused, fault "));
        assert_eq!((form.out, form.err), (whole.out, whole.err));
    }
}

#[test]
fn padding_first_and_what_it_would_do() {
    let desk = Desk::new("form-pad");
    desk.put("good.b", &sample::file());
    let stripped = generate::stripped(&sample::undefined_station(), "\r\n");
    desk.put("short.b", &stripped);
    desk.put("long.b", &[b'x'; 81]);
    let ran = desk.run(&["check", "--form", "--pad", "good.b", "short.b"]);
    let said = format!("form accepted, references not judged, {COUNTS}");
    assert_eq!(
        ran.ended(0).out,
        format!("good.b: {said}\nshort.b: {said}\n")
    );
    let advice =
        "    with --pad, which fills its lines to 80 columns, its form would be accepted\n";
    let ran = desk.run(&["check", "--form", "short.b"]).ended(1);
    assert!(ran.out.ends_with(advice), "{}", ran.out);
    // The whole file would be refused with and without.
    let ran = desk.run(&["check", "short.b"]).ended(1);
    assert!(!ran.out.contains("--pad"), "{}", ran.out);
    let ran = desk.run(&["check", "--form", "--pad", "long.b"]).ended(1);
    let refused = "long.b: refused by the padding, fault 5, line 1, column 81\n";
    assert!(ran.out.starts_with(refused), "{}", ran.out);
}

#[test]
fn quiet_folders_lists_and_standard_input() {
    let desk = Desk::new("form-quiet");
    desk.put("folder/a/open.b", &sample::undefined_station());
    desk.put("folder/bad.b", b"bad");
    let ran = desk.run(&["check", "--form", "--quiet", "folder"]).ended(1);
    assert!(ran.out.starts_with("folder/bad.b: refused, fault 3"));
    let ran = desk.run(&["check", "--form", "folder", "none.b"]).ended(2);
    let accepted = "folder/a/open.b: form accepted, references not judged, 24 records:";
    assert!(ran.out.starts_with(accepted));
    assert_eq!(ran.err, "shelf: none.b: there is no such file or folder\n");
    let words = ["check", "--form", "--quiet", "folder/a"];
    let ran = desk.run(&words).ended(0);
    assert_eq!((&ran.out[..], &ran.err[..]), ("", ""));
    let words = ["check", "--files-from=-", "--form"];
    let ran = desk.fed(&words, b"folder/a/open.b\n").ended(0);
    assert!(ran.out.starts_with(accepted));
    let words = ["check", "--form", "-"];
    let ran = desk.fed(&words, &sample::undefined_station()).ended(0);
    assert!(ran.out.starts_with("-: form accepted, references not"));
}

/// The member is there whatever the verdict, so that nobody has to know how
/// the command was called.
#[test]
fn in_json_every_file_that_is_judged_says_it() {
    let desk = Desk::new("form-json");
    desk.put("open.b", &sample::undefined_station());
    desk.put("bad.b", b"");
    let short = generate::stripped(&sample::undefined_station(), "\n");
    desk.put("short.b", &short);
    let words = ["check", "--form", "--json", "open.b", "bad.b", "none.b"];
    let ran = desk.run(&words).ended(2);
    let expected = format!(
        "{{\"name\":\"open.b\",\"number\":0,\"record\":0,\"column\":0,\"records\":24,\
         \"counts\":{{{COUNTED}}},\"text\":\"form accepted, references not judged\",\
         \"references\":\"not judged\"}}\n\
         {{\"name\":\"bad.b\",\"number\":8,\"record\":1,\"column\":1,\"records\":0,\
         \"counts\":{{{NOT_COUNTED}}},\"text\":\"the file ends where a record must follow\",\
         \"references\":\"not judged\"}}\n\
         {{\"name\":\"none.b\",\"error\":\"there is no such file or folder\"}}\n"
    );
    assert_eq!(ran.out, expected);
    let ran = desk.run(&["check", "--form", "--json", "short.b"]).ended(1);
    let ends = ",\"references\":\"not judged\",\"padding\":\"would help\"}\n";
    assert!(ran.out.ends_with(ends), "{}", ran.out);
    let words = ["check", "--form", "--json", "--pad", "short.b"];
    let ran = desk.run(&words).ended(0);
    let ends = ",\"references\":\"not judged\",\"padding\":\"changed\"}\n";
    assert!(ran.out.ends_with(ends), "{}", ran.out);
    // Without the option nothing is said of references.
    let ran = desk.run(&["check", "--json", "open.b"]).ended(1);
    assert!(!ran.out.contains("references"), "{}", ran.out);
}
