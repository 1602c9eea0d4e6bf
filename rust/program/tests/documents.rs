//! What the program's README.md, the repository's and docs/CHECK.md show is what the program prints.
#![cfg(feature = "capture")]
#[path = "common/mod.rs"]
mod program;

use program::run;

const README: &str = include_str!("../README.md");
const TOP: &str = include_str!("../../../README.md");
const CHECK: &str = include_str!("../../../docs/CHECK.md");
/// Where the README at the top calls it, as seen from here.
const CAPTURES: &str = "../../vectors/captures/";

// The commands of a text's blocks, each with the lines that are shown below it.
fn examples(text: &str) -> Vec<(&str, &str)> {
    let blocks = text.split("```text\n").skip(1).map(|rest| rest.split("\n```").next().unwrap());
    let commands = blocks.flat_map(|block| block.strip_prefix("$ ").unwrap_or_default().split("\n$ "));
    commands.map(|command| command.split_once('\n').unwrap_or((command, ""))).collect()
}

// What a command prints: `quic-wire ..` or `echo .. | quic-wire ..`.
fn printed(command: &str) -> String {
    let (input, call) = command.split_once(" | ").unwrap_or(("echo", command));
    let arguments: Vec<_> = call.strip_prefix("quic-wire ").unwrap().split(' ').collect();
    run(&arguments, input.strip_prefix("echo").unwrap().trim().as_bytes()).0
}

#[test]
fn the_examples_print_what_is_shown() {
    let examples: Vec<_> = examples(README).into_iter().filter(|(command, _)| command.contains("quic-wire ")).collect();
    assert!(examples.len() > 4, "{examples:?}");
    for (command, shown) in examples {
        assert_eq!(printed(command).trim_end(), shown, "{command}");
    }
}

// It shows one finding of several.
#[test]
fn the_first_example_finds_what_is_shown() {
    let (_, rest) = TOP.split_once("\n    cargo run -p quic-wire-cli -- check ").unwrap();
    let (words, rest) = rest.split_once('\n').unwrap();
    let shown = rest.split_once("\n\n    ").unwrap().1.split("\n\n").next().unwrap().replace("\n    ", "\n");
    let is_file = |word: &str| word.starts_with("ngtcp2-");
    let words = words.split(' ').map(|word| if is_file(word) { format!("{CAPTURES}{word}") } else { word.into() });
    let words: Vec<String> = words.collect();
    let arguments: Vec<&str> = ["check"].into_iter().chain(words.iter().map(String::as_str)).collect();
    let (text, _, status) = run(&arguments, b"");
    assert_eq!(status, 1, "{text}");
    assert!(text.replace(CAPTURES, "").contains(&format!("{shown}\n")), "{text}");
}

#[test]
fn the_page_for_ci_has_the_number_of_rules() {
    let (text, ..) = run(&["check", "../capture/tests/data/small.pcap"], b"");
    let last = text.lines().last().unwrap();
    let count = last.split(", ").find(|part| part.contains(" rules: ")).unwrap().split(':').next().unwrap();
    assert!(CHECK.contains(&format!("{count}: 1 MUST broken\n")), "{last}");
}
