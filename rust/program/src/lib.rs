//! What the program `quic-wire` does, which decodes QUIC from lines of hexadecimal, dumps or captures. Others that read
//! captures write the same objects of JSON with [`objects`].
mod args;
mod canon;
#[cfg(feature = "capture")]
mod capture;
#[cfg(feature = "capture")]
mod check;
mod colour;
mod datagram;
mod dump;
mod fault;
#[rustfmt::skip]
mod formats;
mod frames;
mod help;
mod hint;
mod input;
mod link;
mod number;
#[cfg(feature = "capture")]
pub mod objects;
mod output;
mod params;
mod plain;
mod ranges;

use args::{Args, Call, Captures, Checks, Mode};
use datagram::Ids;
use input::{Piece, Pieces};
use output::{Look, Output};
use std::ffi::OsStr;
use std::fmt::Display;
use std::fs::File;
use std::io::{self, BufRead, BufReader, BufWriter, ErrorKind, Write};
use std::process::ExitCode;

// A line was rejected; usage error; reading, writing or an allocation failed. As for `quic-show`.
const REFUSED: u8 = 1;
const WRONG_CALL: u8 = 2;
const FAILED: u8 = 3;
// The reader of the output has stopped, as `head` does: the shell's status for a program that SIGPIPE ended.
const UNREAD: u8 = 141;

const WHOLE_PACKET: &str = "an IP packet, not a QUIC payload; use the mode datagram";

/// Does what the arguments of the process say, and returns its status. `is_closed` says that the process began without
/// a standard output.
pub fn run(is_closed: bool) -> ExitCode {
    match args::parse(std::env::args_os().skip(1)) {
        Ok(_) if is_closed => {
            say("write failed: standard output is closed");
            ExitCode::from(FAILED)
        }
        Ok(Call::Show(args)) => show(&args),
        Ok(Call::Capture(args)) => show_captures(&args),
        Ok(Call::Check(args)) => check_captures(&args),
        Ok(Call::Print(text)) => status(io::stdout().write_all(text.as_bytes()), true),
        Err(what) => {
            say(format_args!("{what}\n{}\n--help says more", help::USAGE));
            ExitCode::from(WRONG_CALL)
        }
    }
}

// A line on standard error. If that fails, nothing can be done.
fn say(what: impl Display) {
    let _ = writeln!(io::stderr(), "quic-wire: {what}");
}

#[cfg(feature = "capture")]
fn show_captures(args: &Captures) -> ExitCode {
    capture::run(args)
}

#[cfg(feature = "capture")]
fn check_captures(args: &Checks) -> ExitCode {
    check::run(args)
}

#[cfg(not(feature = "capture"))]
fn show_captures(_: &Captures) -> ExitCode {
    without("capture")
}

#[cfg(not(feature = "capture"))]
fn check_captures(_: &Checks) -> ExitCode {
    without("check")
}

#[cfg(not(feature = "capture"))]
fn without(mode: &str) -> ExitCode {
    say(format_args!("the mode {mode} isn't in this program, which was built without its feature capture"));
    ExitCode::from(WRONG_CALL)
}

fn show(args: &Args) -> ExitCode {
    let mut output = Output::new(BufWriter::new(io::stdout().lock()), look(args));
    let mut are_read = true;
    for file in &args.files {
        if args.files.len() > 1 {
            output.set_file(file.to_string_lossy().into_owned());
        }
        match show_file(args, file, &mut output) {
            Err(Failure::Reading(error)) => {
                are_read = false;
                say(format_args!("{}: {error}", file.to_string_lossy()));
            }
            Err(Failure::Writing(error)) => return status(Err(error), output.errors() == 0),
            Ok(()) => {}
        }
    }
    if are_read { status(Ok(()), output.errors() == 0) } else { ExitCode::from(FAILED) }
}

fn look(args: &Args) -> Look {
    match args {
        Args { json: true, .. } => Look::Json,
        _ if args.colours.is_on() => Look::Coloured,
        _ => Look::Plain,
    }
}

enum Failure {
    /// For one file; others may be read.
    Reading(io::Error),
    Writing(io::Error),
}

fn show_file(args: &Args, file: &OsStr, output: &mut Output<impl Write>) -> Result<(), Failure> {
    if file == "-" {
        return show_all(args, io::stdin().lock(), output);
    }
    show_all(args, BufReader::new(File::open(file).map_err(Failure::Reading)?), output)
}

// Prints the result of each piece before it waits for the next, and at most one hint.
fn show_all(args: &Args, source: impl BufRead, output: &mut Output<impl Write>) -> Result<(), Failure> {
    let mut ids = Ids::default();
    let mut has_hint = false;
    for piece in Pieces::new(source, args.plain) {
        let Piece { line, bytes } = piece.map_err(Failure::Reading)?;
        output.set_line(line);
        let errors = output.errors();
        let written = match &bytes {
            Ok(bytes) => show_piece(&args.mode, bytes, &mut ids, output),
            Err(what) => output.error(what, None, &[]),
        };
        written.and_then(|()| output.flush()).map_err(|error| match error.kind() {
            ErrorKind::OutOfMemory => Failure::Reading(error),
            _ => Failure::Writing(error),
        })?;
        let rejected = bytes.ok().filter(|_| !has_hint && output.errors() > errors);
        if let Some((what, mode)) = rejected.and_then(|bytes| hint::other_mode(&args.mode, &bytes)) {
            say(format_args!("hint: {} reads as {what}; use the mode {mode}", output.place()));
            has_hint = true;
        }
    }
    Ok(())
}

fn show_piece(mode: &Mode, bytes: &[u8], ids: &mut Ids, output: &mut Output<impl Write>) -> io::Result<()> {
    match mode {
        Mode::Frames(_) | Mode::Canon(_) if link::packet(bytes).is_some() => output.error(WHOLE_PACKET, None, &[]),
        Mode::Frames(rules) => frames::show(bytes, *rules, output),
        Mode::Canon(rules) => canon::show(bytes, *rules, output),
        Mode::Datagram(how) => datagram::show(bytes, how, ids, output),
        Mode::Params { side, options } => params::show(bytes, *side, *options, output),
        Mode::Number { largest, reading } => number::show(bytes, *largest, *reading, output),
        Mode::Ranges => ranges::show(bytes, output),
    }
}

fn status(written: io::Result<()>, is_clean: bool) -> ExitCode {
    ExitCode::from(match written {
        Ok(()) if is_clean => 0,
        Ok(()) => REFUSED,
        Err(error) if error.kind() == ErrorKind::BrokenPipe => UNREAD,
        Err(error) => {
            say(format_args!("write failed: {error}"));
            FAILED
        }
    })
}
