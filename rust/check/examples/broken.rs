//! Writes the captures that break a rule, and those that nearly do, with their manifest: `broken FOLDER`, which is
//! vectors/captures of the repository.
#[path = "../tests/common/cases.rs"]
mod cases;
#[path = "../../capture/tests/common/mod.rs"]
mod common;
#[path = "../../capture/tests/common/files.rs"]
mod files;
#[path = "../../capture/tests/common/made.rs"]
mod made;
#[path = "../tests/common/talk.rs"]
mod talk;

use std::error::Error;
use std::fs;
use std::path::PathBuf;

fn main() -> Result<(), Box<dyn Error>> {
    let [folder] = &std::env::args_os().skip(1).map(PathBuf::from).collect::<Vec<_>>()[..] else {
        return Err("broken FOLDER".into());
    };
    let captures = folder.join("broken");
    fs::create_dir_all(&captures)?;
    // Those of a name that is no longer there.
    for entry in fs::read_dir(&captures)? {
        let path = entry?.path();
        if path.extension().is_some_and(|extension| extension == "pcapng") {
            fs::remove_file(path)?;
        }
    }
    let cases = cases::all();
    for case in &cases {
        fs::write(captures.join(case.file()), case.capture())?;
    }
    fs::write(folder.join("broken.json"), cases::manifest())?;
    println!("{} has {} captures, and broken.json says what is in each", captures.display(), cases.len());
    Ok(())
}
