//! Erases the tests and programs into cargo's folder for generated files.
use std::env;
use std::path::Path;
use std::process::exit;

fn main() {
    println!("cargo:rerun-if-changed=../../crates");
    println!("cargo:rerun-if-changed=../../crates.txt");
    let into = env::var("OUT_DIR").unwrap_or_default();
    if let Err(why) = eraser::checks(Path::new("../..")).and_then(|tree| tree.write(Path::new(&into))) {
        eprintln!("{why}");
        exit(1);
    }
}
