//! The mode `capture`: the packets of captures, and the frames of those that there are keys for.
pub mod json;
pub mod keys;
pub mod object;
pub mod qlog;
pub mod reading;
pub mod report;
pub mod screen;
mod source;
mod text;
pub mod words;

use crate::args::Captures;
use crate::{FAILED, say, status};
use json::Json;
use keys::KeyLogs;
use qlog::{Folder, Qlog};
use reading::{read, read_each};
use report::{Form, Report};
use screen::{Queue, Screen};
use std::borrow::Cow;
use std::ffi::OsStr;
use std::process::ExitCode;
use std::sync::Arc;
use text::Text;

/// Shows captures.
pub fn run(args: &Captures) -> ExitCode {
    let queue = Arc::new(Queue::default());
    let (logs, unread) = KeyLogs::open(&args.keylogs);
    let stems = qlog::stems(&args.files);
    let are_read = read_each(&args.files, &queue, |file, place, screen| {
        let mut report = Report::new(Cow::Borrowed(&args.filter), forms(args, screen, &stems[place]));
        let read = read(file, &logs, &mut report, screen);
        let said = read.as_ref().err().cloned().or_else(|| report.missing());
        said.iter().for_each(|what| screen.say(format_args!("{}: {what}", file.to_string_lossy())));
        read.is_ok()
    });
    let are_read = unread.is_empty() && are_read.into_iter().all(|is_read| is_read);
    ended(&queue, if are_read { ExitCode::SUCCESS } else { ExitCode::from(FAILED) })
}

/// The status after all files, unless not all could be written.
pub fn ended(queue: &Queue, code: ExitCode) -> ExitCode {
    match queue.finish() {
        Ok(()) => code,
        Err(screen::Failure::Output(error)) => status(Err(error), true),
        Err(screen::Failure::File(what)) => {
            say(what);
            ExitCode::from(FAILED)
        }
    }
}

// What is found goes to standard output and, if there is a folder for it, its packets go there.
fn forms<'s>(args: &Captures, screen: &'s Screen, stem: &OsStr) -> Vec<Box<dyn Form + 's>> {
    let (has_packets, has_names) = (args.qlog.is_none(), args.files.len() > 1);
    let mut forms: Vec<Box<dyn Form>> = vec![match args.json {
        true => Box::new(Json::new(screen, has_packets, has_names)),
        false => Box::new(Text::new(screen, args.colours.is_on(), has_packets, has_names)),
    }];
    if let Some(folder) = &args.qlog {
        forms.push(Box::new(Qlog::new(Folder::new(screen, folder, stem), &stem.to_string_lossy())));
    }
    forms
}
