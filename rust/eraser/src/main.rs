//! Erases the proved sources: `erase library|checks TOP INTO`.
//!
//! TOP is the repository, and INTO the folder that is written: `library` are the crates of the Rust crate, `checks` the
//! tests and programs. It prints how often each rule was used. A source that it doesn't know ends it with status 1, the
//! file, the line and the reason.
use std::env;
use std::path::Path;
use std::process::ExitCode;

fn run(args: &[String]) -> Result<eraser::Counts, String> {
    let [what, top, into] = args else {
        return Err("usage: erase library|checks TOP INTO".to_string());
    };
    let tree = match what.as_str() {
        "library" => eraser::library(Path::new(top))?,
        "checks" => eraser::checks(Path::new(top))?,
        _ => return Err(format!("neither library nor checks: {what}")),
    };
    tree.write(Path::new(into))?;
    Ok(tree.counts)
}

fn main() -> ExitCode {
    let args: Vec<String> = env::args().skip(1).collect();
    match run(&args) {
        Ok(counts) => {
            for (rule, count) in counts {
                println!("{count:6} {rule}");
            }
            ExitCode::SUCCESS
        }
        Err(why) => {
            eprintln!("erase: {why}");
            ExitCode::FAILURE
        }
    }
}
