//! `shelf sheet`

use crate::desk::Desk;
use shelf::{generate, plain, sample};

#[test]
fn the_published_sheets() {
    let desk = Desk::new("sheets");
    desk.put("empty.b", b"");
    let ran = desk.run(&["sheet", "empty.b"]).ended(1);
    assert_eq!(ran.out, "FILE\t0\t8\t1\t1\n");
    desk.put(
        "one.b",
        format!("000010*A1*{}\n", " ".repeat(70)).as_bytes(),
    );
    let ran = desk.run(&["sheet", "one.b"]).ended(1);
    assert_eq!(ran.out, "FILE\t1\t8\t2\t1\n");
}

#[test]
fn the_samples_sheet() {
    let desk = Desk::new("sheet");
    desk.put("good.b", &sample::file());
    let ran = desk.run(&["sheet", "good.b"]).ended(0);
    assert!(ran
        .out
        .starts_with("FILE\t24\t0\t0\t0\nKIND\tAA\t2\nKIND\t10\t1\n"));
    assert!(ran.out.ends_with("KIND\t93\t1\n"));
    assert_eq!(ran.out.lines().count(), 15);
}

#[test]
fn up_to_64_800_bytes() {
    let desk = Desk::new("sheet-limit");
    let full = generate::accepted(4, 800);
    desk.put("full.b", &full);
    let ran = desk.run(&["sheet", "full.b"]).ended(0);
    assert!(ran.out.starts_with("FILE\t800\t0\t0\t0\n"));
    desk.put("more.b", &[&full[..], b" "].concat());
    let ran = desk.run(&["sheet", "more.b"]).ended(1);
    assert_eq!(ran.out, "FILE\t0\t1\t0\t0\n");
}

#[test]
fn sheets_of_damaged_files_are_the_plain_ones() {
    let desk = Desk::new("sheet-damaged");
    for seed in 0..60 {
        let file = generate::case(seed);
        desk.put("file.b", &file);
        let ran = desk.run(&["sheet", "file.b"]);
        assert_eq!(ran.out.as_bytes(), plain::sheet(&file), "seed {seed}");
        assert_eq!(ran.status == 0, ran.out.contains("KIND"), "seed {seed}");
    }
}
