//! A move killed right after each change of the disk, and run again.

use crate::desk::{house, Desk};
use crate::held::{killed_after, KILL};
use shelf::generate;
use shelf::sha256::Digest;
use std::fs;

const MOVE: [&str; 5] = ["move", "old", "new", "--ledger", "ledger.tsv"];

/// A deposit, with what each file's house style is.
fn deposited(name: &str, files: usize) -> (Desk, Vec<(String, Vec<u8>)>) {
    let desk = Desk::new(name);
    let houses = (0..files).map(|number| {
        let file = generate::accepted(number as u64, 11 + number % 20);
        let name = format!("{}/{}/{number:03}.b", number % 3, number % 2);
        desk.put(format!("old/{name}"), &file);
        (name, house(&file))
    });
    let houses = houses.collect();
    (desk, houses)
}

/// What is there after the kill: whole files under their names, at most one
/// draft, and a ledger that says nothing but what is true.
fn nothing_false(desk: &Desk, houses: &[(String, Vec<u8>)]) {
    let mut there = desk.files("new");
    there.retain(|name| !name.contains("/.shelf-"));
    for name in &there {
        let (_, house) = houses.iter().find(|(house, _)| house == name).unwrap();
        assert!(desk.get(format!("new/{name}")) == *house, "{name}");
    }
    assert!(desk.files("new").len() <= there.len() + 1);
    let name = match desk.has("ledger.tsv") {
        true => "ledger.tsv",
        false => "ledger.tsv.unfinished",
    };
    if !desk.has(name) {
        return;
    }
    let ledger = String::from_utf8(desk.get(name)).unwrap();
    // Whatever has the ledger's name is whole.
    assert!(!desk.has("ledger.tsv") || ledger.contains("\nTOTAL failed\t"));
    for (name, house) in houses {
        let mut rows = ledger
            .lines()
            .filter(|row| row.starts_with(&format!("{name}\t")));
        if let Some(row) = rows.next() {
            assert!(
                there.contains(name) && row.contains("\taccepted\t"),
                "{row}"
            );
            assert!(row.ends_with(&Digest::of(house).to_string()), "{row}");
        }
    }
}

/// The run after it moves all that is not there yet, and leaves no draft.
fn taken_up(desk: &Desk, houses: &[(String, Vec<u8>)]) {
    let _ = fs::remove_file(desk.path("ledger.tsv"));
    let ran = desk.run(&MOVE).ended(0);
    let files = houses.len();
    let said = format!("{files} files below old: {files} accepted, 0 refused");
    assert!(ran.out.starts_with(&said));
    assert_eq!(desk.files("new").len(), files);
    for (name, house) in houses {
        assert!(desk.get(format!("new/{name}")) == *house, "{name}");
    }
    let ledger = String::from_utf8(desk.get("ledger.tsv")).unwrap();
    assert_eq!(ledger.lines().count(), 1 + files + 4);
}

/// Kills a move after its first change of the disk, after its second, and so
/// on, up to `most` or to its end. Gives how often it was killed.
fn killed_at_every_point(name: &str, files: usize, most: usize) -> usize {
    let (desk, houses) = deposited(name, files);
    let before: Vec<_> = houses
        .iter()
        .map(|(name, _)| desk.get(format!("old/{name}")))
        .collect();
    for point in 1..=most {
        let ran = killed_after(desk.command(&MOVE), point);
        if ran.status == 0 {
            return point - 1;
        }
        assert_eq!(ran.status, -KILL, "{}", ran.err);
        nothing_false(&desk, &houses);
        taken_up(&desk, &houses);
        let after = houses
            .iter()
            .map(|(name, _)| desk.get(format!("old/{name}")));
        assert!(after.eq(before.iter().cloned()), "point {point}");
        assert_eq!(desk.files("old").len(), files);
        fs::remove_dir_all(desk.path("new")).unwrap();
        for name in desk
            .files(".")
            .iter()
            .filter(|name| name.starts_with("ledger"))
        {
            fs::remove_file(desk.path(name)).unwrap();
        }
    }
    most
}

#[test]
fn nothing_is_lost_at_any_point() {
    let points = killed_at_every_point("kill", 5, usize::MAX);
    // Making, writing, rights, time, flushing, naming and clearing away of
    // each file, and its row.
    assert!(points >= 5 * 8, "{points}");
}

/// By hand: rust/tests/kill-a-move
#[test]
#[ignore = "takes minutes"]
fn nothing_is_lost_at_1_000_points() {
    assert_eq!(killed_at_every_point("kill-long", 150, 1_000), 1_000);
}
