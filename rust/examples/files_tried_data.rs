//! Writes what `crates/files_tried` is run on: the whole files, their names as
//! the program's arguments, the inputs of the padding step, and the page with
//! their verdicts.

use shelf::files_tried::folder;
use shelf::specimens::{inputs, page, specimens};
use std::{fs, io};

fn main() -> io::Result<()> {
    let folder = folder();
    let data = folder.join("data");
    fs::create_dir_all(&data)?;
    let all = specimens();
    for one in &all {
        fs::write(data.join(one.file_name()), &one.file)?;
    }
    let inputs = inputs();
    for one in &inputs {
        fs::write(data.join(one.file_name()), &one.bytes)?;
    }
    fs::write(data.join("README.md"), page(&all, &inputs))?;
    let names: Vec<String> = all.iter().map(|one| one.file_name() + "\n").collect();
    fs::write(folder.join("args"), names.concat())
}
