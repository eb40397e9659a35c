//! `shelf-sheet` and `shelf-install` in a tree of their own, with a stand-in
//! for `rt`; the completions of bash.

use crate::desk::{Desk, Ran};
use crate::held::terminal;
use std::fs;
use std::os::unix::fs::symlink;
use std::process::{Command, Stdio};
use std::thread;

const ROOT: &str = concat!(env!("CARGO_MANIFEST_DIR"), "/..");

/// Called in the program's folder: builds a program that counts bytes, notes
/// that it was called, and fails if another of its kind is at work.
const RT: &str = "#!/bin/sh\n\
    cd ../..\n\
    mkdir busy || { echo broken >> calls; exit 1; }\n\
    echo \"$@\" >> calls\n\
    mkdir -p crates/sheet/out\n\
    printf '#!/bin/sh\\nwc -c\\n' > crates/sheet/out/sheet\n\
    chmod +x crates/sheet/out/sheet\n\
    rmdir busy\n";

/// Runs the program that it is told to emulate, the last of its words: on
/// another processor than x86-64 the script looks for it in the kit.
const EMULATOR: &str = "#!/bin/sh\nfor word; do :; done\nexec \"$word\"\n";

/// A tree with the script, and stand-ins for rt and for the kit's emulator.
fn tree(name: &str) -> Desk {
    let desk = Desk::new(name);
    desk.put("tree/crates/one/src/lib.rt", b"");
    desk.put("tree/crates.txt", b"one:\n");
    let script = fs::read(format!("{ROOT}/shelf-sheet")).unwrap();
    desk.put("tree/shelf-sheet", &script);
    desk.mode("tree/shelf-sheet", 0o755);
    desk.put("kit/rt", RT.as_bytes());
    desk.mode("kit/rt", 0o755);
    let emulator = format!("on/{}/toolchain/bin/qemu-x86_64", std::env::consts::ARCH);
    desk.put(&emulator, EMULATOR.as_bytes());
    desk.mode(&emulator, 0o755);
    desk.put("five", b"12345");
    desk
}

/// The script, with the stand-in for rt in front of all others.
fn script(desk: &Desk, words: &[&str]) -> Command {
    let mut command = desk.program("tree/shelf-sheet");
    let path = std::env::var("PATH").unwrap();
    command.env("PATH", format!("{}:{path}", desk.path("kit").display()));
    command.args(words);
    command
}

fn sheet(desk: &Desk, words: &[&str]) -> Ran {
    Ran::of(script(desk, words).output().unwrap())
}

fn calls(desk: &Desk) -> usize {
    let calls = fs::read_to_string(desk.path("tree/calls")).unwrap_or_default();
    assert!(!calls.contains("broken"));
    calls.lines().count()
}

#[test]
fn a_file_by_its_name_or_on_standard_input() {
    let desk = tree("sheet-file");
    assert_eq!(sheet(&desk, &["five"]).ended(0).out.trim(), "5");
    let mut command = script(&desk, &[]);
    command.stdin(fs::File::open(desk.path("five")).unwrap());
    assert_eq!(Ran::of(command.output().unwrap()).ended(0).out.trim(), "5");
    assert_eq!(sheet(&desk, &["-"]).ended(0).out.trim(), "0");
    assert_eq!(sheet(&desk, &["--", "five"]).ended(0).out.trim(), "5");
    for words in [
        &["none"][..],
        &["tree"],
        &["five", "five"],
        &["--frobnicate"],
    ] {
        let ran = sheet(&desk, words).ended(2);
        assert_eq!(ran.out, "");
        assert!(ran.err.starts_with("shelf-sheet: "), "{}", ran.err);
    }
    assert!(sheet(&desk, &["--help"])
        .ended(0)
        .out
        .starts_with("shelf-sheet FILE"));
}

#[test]
fn without_a_word_on_a_terminal_it_says_how_to_use_it() {
    let desk = tree("sheet-terminal");
    let mut command = script(&desk, &[]);
    let (_ours, theirs) = terminal();
    command.stdin(Stdio::from(theirs));
    let ran = Ran::of(command.output().unwrap()).ended(2);
    assert_eq!(ran.out, "");
    assert!(ran.err.starts_with("shelf-sheet FILE"));
    assert_eq!(calls(&desk), 0);
}

#[test]
fn the_program_is_built_once_and_anew_after_an_edit() {
    let desk = tree("sheet-once");
    let ran = sheet(&desk, &["five"]).ended(0);
    assert!(ran.err.contains("proving and building the program: some "));
    assert_eq!(sheet(&desk, &["five"]).ended(0).err, "");
    assert_eq!(calls(&desk), 1);
    let edited = fs::File::options()
        .append(true)
        .open(desk.path("tree/crates/one/src/lib.rt"));
    let built = fs::metadata(desk.path("tree/crates/sheet/out/shelf-sheet.built")).unwrap();
    let later = built.modified().unwrap() + std::time::Duration::from_secs(2);
    edited.unwrap().set_modified(later).unwrap();
    sheet(&desk, &["five"]).ended(0);
    assert_eq!(calls(&desk), 2);
    // A link to the script is the script.
    symlink("tree/shelf-sheet", desk.path("link")).unwrap();
    let mut command = desk.program("./link");
    command.arg("five").env(
        "PATH",
        script(&desk, &[]).get_envs().last().unwrap().1.unwrap(),
    );
    assert_eq!(Ran::of(command.output().unwrap()).ended(0).out.trim(), "5");
}

#[test]
fn many_at_once_build_once() {
    let desk = tree("sheet-many");
    let ran: Vec<Ran> = thread::scope(|scope| {
        let started: Vec<_> = (0..8)
            .map(|_| scope.spawn(|| sheet(&desk, &["five"])))
            .collect();
        started.into_iter().map(|ran| ran.join().unwrap()).collect()
    });
    for ran in ran {
        assert_eq!(ran.ended(0).out.trim(), "5");
    }
    assert_eq!(calls(&desk), 1);
}

#[test]
fn without_rt_the_built_program_still_runs() {
    let desk = tree("sheet-without");
    let without = |desk: &Desk| {
        // The tools that the script needs, and no other.
        let tools = desk.path("tools");
        fs::create_dir_all(&tools).unwrap();
        for tool in [
            "bash", "dirname", "readlink", "find", "uname", "wc", "env", "sh",
        ] {
            let found = desk.shell(&format!("command -v {tool}")).ended(0).out;
            let _ = symlink(found.trim(), tools.join(tool));
        }
        let mut command = desk.program("tree/shelf-sheet");
        command.env("PATH", &tools).arg("five");
        Ran::of(command.output().unwrap())
    };
    let ran = without(&desk).ended(2);
    assert!(
        ran.err.contains("rt, the command of the Rattle kit"),
        "{}",
        ran.err
    );
    sheet(&desk, &["five"]).ended(0);
    if cfg!(target_arch = "x86_64") {
        assert_eq!(without(&desk).ended(0).out.trim(), "5");
    } else {
        let ran = without(&desk).ended(2);
        assert!(ran.err.contains("the emulator"), "{}", ran.err);
    }
}

/// What is linked is what the sources say.
#[test]
fn an_archive_older_than_its_sources_is_not_linked() {
    let desk = Desk::new("archive");
    desk.put("crates.txt", b"one:\nother:\nexport staticlib: one\n");
    let sources = ["one", "other", "export"].map(|name| format!("crates/{name}/src/lib.rt"));
    for name in ["Cargo.toml", "Cargo.lock", "build.rs", "src/sha256.rs"] {
        let file = fs::read(format!("{ROOT}/rust/{name}")).unwrap();
        desk.put(format!("rust/{name}"), &file);
    }
    desk.put("rust/src/lib.rs", b"");
    let build = || {
        let cargo = std::env::var("CARGO").unwrap_or("cargo".to_string());
        let mut command = desk.program(&cargo);
        // Where cargo and rustc find their own.
        for name in ["HOME", "RUSTUP_HOME", "CARGO_HOME", "RUSTUP_TOOLCHAIN"] {
            command.envs(std::env::var_os(name).map(|value| (name, value)));
        }
        command.args(["build", "--offline", "--manifest-path", "rust/Cargo.toml"]);
        Ran::of(command.output().unwrap())
    };
    let said = |ran: Ran, what: &str| assert!(ran.err.contains(what), "{}", ran.err);
    for name in &sources {
        desk.put(name, b"");
    }
    said(
        build().ended(101),
        "crates/export/out/libexport.a is not there: run",
    );
    desk.put("crates/export/out/libexport.a", b"!<arch>\n");
    let built = fs::metadata(desk.path("crates/export/out/libexport.a")).unwrap();
    let at = |name: &str, seconds: u64| {
        let file = fs::File::options()
            .append(true)
            .open(desk.path(name))
            .unwrap();
        let when = built.modified().unwrap() + std::time::Duration::from_secs(seconds);
        file.set_modified(when).unwrap();
    };
    for name in [&sources[0], &sources[2]] {
        at(name, 10);
        said(build().ended(101), &format!("is older than {name}"));
        at("crates/export/out/libexport.a", 20);
        build().ended(0);
        at("crates/export/out/libexport.a", 0);
        at(name, 0);
    }
    // Of a crate that it does not name nothing was built into it.
    at(&sources[1], 10);
    build().ended(0);
}

#[test]
fn what_is_installed() {
    let desk = Desk::new("install");
    for name in [
        "shelf-install",
        "share/shelf.1",
        "share/shelf.bash",
        "share/_shelf",
        "share/shelf.fish",
    ] {
        desk.put(
            format!("tree/{name}"),
            &fs::read(format!("{ROOT}/{name}")).unwrap(),
        );
    }
    desk.mode("tree/shelf-install", 0o755);
    let ran = desk.shell("tree/shelf-install there").ended(2);
    assert!(ran.err.contains("./shelf-build builds it"));
    fs::copy(env!("CARGO_BIN_EXE_shelf"), desk.path("tree/shelf")).unwrap();
    desk.shell("DESTDIR=$PWD/there tree/shelf-install /usr")
        .ended(0);
    assert_eq!(
        desk.files("there/usr"),
        [
            "bin/shelf",
            "share/bash-completion/completions/shelf",
            "share/fish/vendor_completions.d/shelf.fish",
            "share/man/man1/shelf.1",
            "share/zsh/site-functions/_shelf",
        ]
    );
    desk.shell("there/usr/bin/shelf --version").ended(0);
    desk.shell("tree/shelf-install --help").ended(2);
    desk.shell("tree/shelf-install a b").ended(2);
}

#[test]
fn what_bash_offers() {
    let desk = Desk::new("bash");
    desk.put("file", b"");
    for (words, offered) in [
        ("ch", "check"),
        (
            "",
            "check sheet show pull pad rewrite move help --help --version",
        ),
        ("move --d", "--dry-run"),
        ("check --j", "--json"),
        ("check --fo", "--form"),
        ("rewrite --fo", ""),
        ("pull file --s", "--station"),
        ("rewrite --p", "--pad"),
        ("sheet --re", ""),
        ("help re", "rewrite"),
        ("move --ledger f", ""),
        ("move --ledger --r", ""),
    ] {
        let words: Vec<&str> = std::iter::once("shelf").chain(words.split(' ')).collect();
        let line = format!(
            "source '{ROOT}/share/shelf.bash'; COMP_WORDS=({}); COMP_CWORD={}; _shelf; \
             echo ${{COMPREPLY[@]}}",
            words
                .iter()
                .map(|word| format!("'{word}'"))
                .collect::<Vec<_>>()
                .join(" "),
            words.len() - 1
        );
        let mut command = desk.program("bash");
        command.arg("-c").arg(line);
        let ran = Ran::of(command.output().unwrap()).ended(0);
        assert_eq!(ran.out.trim(), offered, "{words:?}");
    }
}
