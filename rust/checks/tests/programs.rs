//! Each program prints its stored output, byte for byte, and ends with its stored status. `QUIC_WIRE_RUN` is how a
//! program of another target is run: words, in which `{}` is its name.
use std::env;
use std::fs::{self, File};
use std::path::{Path, PathBuf};
use std::process::{Command, Stdio};

// The folder of a program's crate.
fn folder(name: &str) -> PathBuf {
    Path::new(env!("CARGO_MANIFEST_DIR")).join("../../crates").join(name)
}

// The command that runs a program, which cargo built here.
fn command(name: &str, built: &str) -> Command {
    let run = env::var("QUIC_WIRE_RUN").unwrap_or_else(|_| built.to_string()).replace("{}", name);
    let mut words = run.split_whitespace();
    let mut command = Command::new(words.next().expect("a program"));
    command.args(words);
    command
}

// Runs a program as the gate does, with its arguments and input, in the folder of its files.
fn prints_what_is_stored(name: &str, program: &str) {
    let at = folder(name);
    let data = at.join("data");
    let args = fs::read_to_string(at.join("args")).unwrap_or_default();
    let input = File::open(at.join("stdin")).map_or_else(|_| Stdio::null(), Stdio::from);
    let ran = command(name, program)
        .args(args.lines())
        .stdin(input)
        .current_dir(if data.exists() { &data } else { &at })
        .output()
        .unwrap_or_else(|e| panic!("{name} didn't run: {e}"));
    let status = fs::read_to_string(at.join("status")).map_or(0, |text| text.trim().parse().expect("a status"));
    assert_eq!(ran.status.code(), Some(status), "{name}: its status; it said {}", String::from_utf8_lossy(&ran.stderr));
    is_file(name, &ran.stdout, &at.join("stdout"));
}

// A program's output is the file's bytes.
fn is_file(name: &str, output: &[u8], file: &Path) {
    let stored = fs::read(file).expect("a stored output");
    let (printed, wanted) = (output.split(|b| *b == b'\n'), stored.split(|b| *b == b'\n'));
    for (line, (printed, wanted)) in printed.zip(wanted).enumerate() {
        let (printed, wanted) = (String::from_utf8_lossy(printed), String::from_utf8_lossy(wanted));
        assert_eq!(printed, wanted, "{name}: line {} of its output", line + 1);
    }
    assert!(output == stored, "{name}: {} bytes instead of {}", output.len(), stored.len());
}

// The formats as data are what is proved, and the names of the tables.
#[test]
fn formats() {
    let ran = command("formats", env!("CARGO_BIN_EXE_formats")).output().expect("the program of the formats");
    assert!(ran.status.success(), "formats: {}", String::from_utf8_lossy(&ran.stderr));
    is_file("formats", &ran.stdout, &folder("../docs/formats.json"));
}

macro_rules! programs {
    ($($name:ident)*) => {
        $(#[test]
        fn $name() {
            prints_what_is_stored(stringify!($name), env!(concat!("CARGO_BIN_EXE_", stringify!($name))));
        })*

        // No program with a stored output is forgotten.
        #[test]
        fn all_programs() {
            let mut stored = Vec::new();
            for entry in fs::read_dir(folder("")).expect("the crates") {
                let at = entry.expect("a crate").path();
                if at.join("stdout").exists() {
                    stored.push(at.file_name().expect("a name").to_string_lossy().into_owned());
                }
            }
            stored.sort();
            assert_eq!(stored, [$(stringify!($name)),*], "the programs with a stored output");
        }
    };
}

programs! {
    quic_example
    quic_replay
    quic_replay_calls
    quic_replay_packets
    quic_show
}
