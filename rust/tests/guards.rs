//! No function of the crate's users has a `requires`: those of the proved sources are for the crate alone, so that
//! `rustc` lets nobody else call or reexport them, except in traits whose functions users write or can't name.
use std::fs;
use std::path::{Path, PathBuf};

// The traits whose functions have a `requires`. Users implement the keys, which the crate calls as required; it has a
// `BufMutExt` of its own, and reexports no `StoredId`.
const TRAITS: [&str; 4] = ["BufMutExt", "HeaderKey", "PacketKey", "StoredId"];

fn files_of(folder: &Path, found: &mut Vec<PathBuf>) {
    for entry in fs::read_dir(folder).unwrap() {
        let path = entry.unwrap().path();
        if path.is_dir() { files_of(&path, found) } else { found.push(path) }
    }
}

fn sources(folder: &str) -> Vec<(PathBuf, String)> {
    let mut found = vec![];
    files_of(&Path::new(env!("CARGO_MANIFEST_DIR")).join("src").join(folder), &mut found);
    found.retain(|path| path.extension().is_some_and(|kind| kind == "rs"));
    found.into_iter().map(|path| (path.clone(), fs::read_to_string(path).unwrap())).collect()
}

// The line of the function that a clause belongs to: the clauses of a trait's function come before it.
fn function_of(lines: &[&str], clause: usize) -> usize {
    let is_function = |at: &usize| format!(" {}", lines[*at]).contains(" fn ") && !lines[*at].trim().starts_with("//");
    let before = lines[clause].contains("```text\\n") || lines[clause].trim().starts_with("///");
    if before { (clause..lines.len()).find(is_function).unwrap() } else { (0..clause).rev().find(is_function).unwrap() }
}

#[test]
fn a_function_with_a_condition_is_no_users() {
    let mut count = 0;
    for (path, text) in sources("proved") {
        let lines: Vec<&str> = text.lines().collect();
        let is_clause = |line: &str| {
            let clause = line.trim_start().trim_start_matches(['/', '!']).trim_start();
            line.contains("```text\\nrequires ") || line.trim().starts_with("//") && clause.starts_with("requires ")
        };
        for clause in (0..lines.len()).filter(|at| is_clause(lines[*at])) {
            let function = function_of(&lines, clause);
            let head = lines[function].trim();
            let item =
                (0..=function).rev().find(|at| !lines[*at].is_empty() && !lines[*at].starts_with([' ', '}', '/']));
            let item = lines[item.unwrap()];
            let of_trait = item.starts_with("pub trait ") && TRAITS.iter().any(|name| item.contains(name));
            let is_private = head.starts_with("fn ") || head.starts_with("const fn ");
            let is_hidden = head.starts_with("pub(crate) ") || head.starts_with("pub(super) ");
            let of_type = !item.contains(" for ") && !item.contains("trait ");
            let at = format!("{}:{}: {head}", path.display(), function + 1);
            assert!(of_trait || of_type && (is_private || is_hidden), "{at}");
            count += 1;
        }
    }
    assert!(count > 300, "{count} clauses");
}

#[test]
fn what_is_reexported_is_named() {
    for (path, text) in sources("") {
        let is_proved = path.components().any(|part| part.as_os_str() == "proved" || part.as_os_str() == "kit");
        for line in text.lines().filter(|line| !is_proved && line.trim_start().starts_with("pub use")) {
            assert!(!line.contains('*') && !line.contains("BufMutExt") && !line.contains("StoredId"), "{line}");
        }
    }
}

// A public function that checks what a proved one requires shows its contract.
#[test]
fn contracts_are_shown() {
    let mut files = vec![];
    files_of(&Path::new(env!("CARGO_MANIFEST_DIR")).join("src/proved/contracts"), &mut files);
    assert_eq!(files.len(), 40);
    let layer: String = sources("").into_iter().map(|(_, text)| text).collect();
    for file in files {
        let name = file.file_name().unwrap().to_str().unwrap();
        let (ty, function) = name.split_once('.').unwrap();
        let is_close = matches!(ty, "Close" | "ApplicationClose" | "ConnectionClose");
        let shown = if is_close { format!("$contracts, \".{function}") } else { format!("proved/contracts/{name}") };
        assert!(layer.contains(&format!("{shown}\")")), "{name}");
    }
}
