//! `shelf rewrite`

use crate::desk::{house, Desk};
use shelf::{generate, sample};
use std::os::unix::fs::symlink;

#[test]
fn an_accepted_file_in_house_style() {
    let desk = Desk::new("rewrite");
    for (seed, records) in [(1, 11), (2, 300), (3, 99_999)] {
        let file = generate::accepted(seed, records);
        desk.put("in.b", &file);
        let ran = desk
            .run(&["rewrite", "in.b", "out.b", "--replace"])
            .ended(0);
        let said = format!("in.b: accepted, {records} records written to out.b\n");
        assert_eq!(ran.out, said);
        assert!(desk.get("out.b") == house(&file));
        assert!(desk.get("in.b") == file);
        assert_eq!(desk.files("."), ["in.b", "out.b"]);
    }
}

#[test]
fn a_refused_file_is_not_written() {
    let desk = Desk::new("rewrite-refused");
    desk.put("in.b", &sample::with(&sample::file(), 5, 33, "  9"));
    desk.put("old.b", b"kept");
    let ran = desk.run(&["rewrite", "in.b", "out.b"]).ended(1);
    assert!(ran.out.contains("fault 12, record 5, column 33"));
    desk.run(&["rewrite", "in.b", "old.b", "--replace"])
        .ended(1);
    assert_eq!(desk.get("old.b"), b"kept");
    assert_eq!(desk.files("."), ["in.b", "old.b"]);
}

#[test]
fn a_file_that_is_there_is_written_over_only_if_told() {
    let desk = Desk::new("rewrite-over");
    let file = sample::file();
    desk.put("in.b", &file);
    desk.put("out.b", b"kept");
    let ran = desk.run(&["rewrite", "in.b", "out.b"]).ended(2);
    let said = "shelf: out.b: there is one already (--replace lets it be written over)\n";
    assert_eq!(ran.err, said);
    assert_eq!(desk.get("out.b"), b"kept");
    desk.run(&["rewrite", "in.b", "out.b", "--replace"])
        .ended(0);
    assert_eq!(desk.get("out.b"), house(&file));
    // Also over itself.
    desk.run(&["rewrite", "in.b", "in.b"]).ended(2);
    assert_eq!(desk.get("in.b"), file);
    desk.run(&["rewrite", "--replace", "in.b", "in.b"]).ended(0);
    assert_eq!(desk.get("in.b"), house(&file));
    assert_eq!(desk.files("."), ["in.b", "out.b"]);
}

#[test]
fn what_is_no_regular_file_is_never_written_over() {
    let desk = Desk::new("rewrite-device");
    desk.put("in.b", &sample::file());
    desk.put("aim.b", b"kept");
    symlink("aim.b", desk.path("link.b")).unwrap();
    symlink("/dev/full", desk.path("device.b")).unwrap();
    for name in ["link.b", "device.b", ".", "/dev/full"] {
        for verb in ["rewrite", "pad"] {
            let ran = desk.run(&[verb, "in.b", name, "--replace"]).ended(2);
            let said = format!("shelf: {name}: not written over: it is no regular file\n");
            assert_eq!(ran.err, said);
        }
    }
    assert_eq!(desk.get("aim.b"), b"kept");
    assert_eq!(desk.files("."), ["aim.b", "device.b", "in.b", "link.b"]);
}
