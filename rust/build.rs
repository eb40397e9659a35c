//! Links the proved library's archive, which `rt lib` writes in
//! crates/export.
//! One that is older than the sources it was built from is refused.

#[path = "src/sha256.rs"]
#[allow(dead_code)]
mod sha256;

use sha256::Digest;
use std::path::{Path, PathBuf};
use std::process::exit;
use std::time::SystemTime;
use std::{env, fs, io};

fn main() {
    println!("cargo:rerun-if-changed=build.rs");
    if env::var_os("CARGO_FEATURE_STANDIN").is_some() {
        println!("cargo:rustc-env=SHELF_LIBRARY=a stand-in, not the proved one");
        return;
    }
    let project = Path::new(env!("CARGO_MANIFEST_DIR")).join("..");
    let folder = project.join("crates/export/out");
    let archive = folder.join("libexport.a");
    println!("cargo:rerun-if-changed={}", archive.display());
    let Ok(bytes) = fs::read(&archive) else {
        refuse("is not there");
    };
    match newest(&project) {
        Ok((newest, _)) if modified(&archive).is_ok_and(|built| newest <= built) => (),
        Ok((_, path)) => refuse(&format!("is older than {path}")),
        Err(error) => refuse(&format!("cannot be held against its sources: {error}")),
    }
    let digest = Digest::of(&bytes);
    println!("cargo:rustc-env=SHELF_LIBRARY=libexport.a, sha-256 {digest}");
    println!("cargo:rustc-link-search=native={}", folder.display());
    println!("cargo:rustc-link-lib=static=export");
}

fn refuse(what: &str) -> ! {
    eprintln!("crates/export/out/libexport.a {what}: run `rt lib` in crates/export first");
    exit(1)
}

/// The source of the archive that was changed last: those of `export` and of
/// the crates that it names in crates.txt.
fn newest(project: &Path) -> io::Result<(SystemTime, String)> {
    let listed = project.join("crates.txt");
    println!("cargo:rerun-if-changed={}", listed.display());
    let text = fs::read_to_string(&listed)?;
    // A line is 'NAME: NEED ..', with more words after the name where it has any.
    let needs = text.lines().find_map(|line| {
        let (said, needs) = line.split_once(':')?;
        (said.split_whitespace().next() == Some("export")).then_some(needs)
    });
    let crates = needs.unwrap_or("").split_whitespace().chain(["export"]);
    let mut newest = (modified(&listed)?, "crates.txt".to_string());
    for name in crates {
        let folder = PathBuf::from("crates").join(name).join("src");
        println!("cargo:rerun-if-changed={}", project.join(&folder).display());
        for entry in fs::read_dir(project.join(&folder))? {
            let path = folder.join(entry?.file_name());
            let changed = modified(&project.join(&path))?;
            newest = newest.max((changed, path.display().to_string()));
        }
    }
    Ok(newest)
}

fn modified(path: &Path) -> io::Result<SystemTime> {
    fs::metadata(path)?.modified()
}
