//! The page of the manual and the completions name what `quic-wire --help` names, which is what the program takes.
use std::collections::BTreeSet;
use std::process::Command;

const TAKEN: &str = include_str!("../src/args.rs");
const MANUAL: &str = include_str!("../man/quic-wire.1");
const BASH: &str = include_str!("../completions/quic-wire.bash");
const ZSH: &str = include_str!("../completions/_quic-wire");
const FISH: &str = include_str!("../completions/quic-wire.fish");

// That of the program, and those of the modes `capture` and `check`.
fn help() -> String {
    let help = |arguments: &[&str]| {
        let output = Command::new(env!("CARGO_BIN_EXE_quic-wire")).args(arguments).output().unwrap();
        String::from_utf8(output.stdout).unwrap()
    };
    help(&["--help"]) + &help(&["capture", "--help"]) + &help(&["check", "--help"])
}

// The names after a mark, as `json` is after `--` in `--json`.
fn names<'a>(text: &'a str, mark: &str) -> BTreeSet<&'a str> {
    let is_of_name = |c: char| c.is_ascii_lowercase() || c.is_ascii_digit() || c == '-';
    let ends = text.match_indices(mark).map(|(begin, _)| &text[begin + mark.len()..]);
    let names = ends.map(|rest| &rest[..rest.find(|c| !is_of_name(c)).unwrap_or(rest.len())]);
    names.filter(|name| name.starts_with(|c: char| c.is_ascii_lowercase())).collect()
}

// The tags of the options, as `.It Fl h , -help`.
fn options_of_manual() -> BTreeSet<&'static str> {
    let tags = MANUAL.lines().filter_map(|line| line.strip_prefix(".It Fl "));
    tags.flat_map(|tag| tag.split(' ').filter_map(|word| word.strip_prefix('-'))).collect()
}

#[test]
fn the_same_options_are_named_everywhere() {
    let help = help();
    let options = names(&help, "--");
    assert_eq!(names(TAKEN, "\"--"), options, "what the program takes");
    assert_eq!(options_of_manual(), options, "the manual");
    assert_eq!(names(BASH, "--"), options, "bash");
    assert_eq!(names(ZSH, "--"), options, "zsh");
    let completed: String = FISH.lines().filter(|line| line.starts_with("complete ")).collect();
    assert_eq!(names(&completed, " -l "), options, "fish");
}

#[test]
fn the_same_values_are_named_everywhere() {
    let help = help();
    let words = [
        "frames", "canon", "datagram", "params", "number", "ranges", "capture", "check", "client", "server", "always",
        "never", "auto", "6b3343cf",
    ];
    for word in words {
        for (name, text) in [("help", &help[..]), ("manual", MANUAL), ("bash", BASH), ("zsh", ZSH), ("fish", FISH)] {
            let has = text.split(|c: char| !c.is_ascii_alphanumeric()).any(|part| part == word);
            assert!(has, "{name}: {word}");
        }
    }
}
