//! The reading of capture files.
use super::keys::KeyLogs;
use super::screen::{Queue, Screen};
use super::source::Source;
use quic_wire_capture::capture::{Capture, Datagram, Item};
use quic_wire_capture::file::FileError;
use quic_wire_capture::follow::Follower;
use quic_wire_capture::input::{self, InputError};
use std::cell::Cell;
use std::ffi::{OsStr, OsString};
use std::fs;
use std::panic::resume_unwind;
use std::sync::Arc;
use std::sync::atomic::{AtomicUsize, Ordering};
use std::thread;

/// What takes the datagrams of captures.
pub trait Taker {
    /// A capture begins.
    fn begin(&mut self, file: &OsStr);
    fn datagram(&mut self, datagram: &Datagram<'_>, follower: &mut Follower);
    /// The capture can't be read on, for a reason. Its end comes next.
    fn failed(&mut self, why: &str) {
        let _ = why;
    }
    /// It can't be opened, for a reason. Nothing else comes of it.
    fn unread(&mut self, why: &str) {
        let _ = why;
    }
    /// The capture ends.
    fn end(&mut self, follower: &mut Follower, capture: &Capture);
}

/// Reads a file to its end, or as far as it can be read. An error is what to say of it.
pub fn read(file: &OsStr, logs: &KeyLogs, taker: &mut dyn Taker, screen: &Screen) -> Result<(), String> {
    let (bytes, mut polled) = (Cell::new(0), 0);
    let source = Source::open(file, screen, &bytes).map_err(|error| error.to_string());
    let source = source.inspect_err(|what| taker.unread(what))?;
    let is_live = source.is_live();
    let (mut capture, mut follower) = (Capture::default(), Follower::default());
    let mut tails = logs.fill(&mut follower.keylog, is_live);
    taker.begin(file);
    let read = input::read(source, &mut capture, |item| {
        if is_live && polled != bytes.get() {
            polled = bytes.get();
            logs.poll(&mut tails, &mut follower.keylog);
        }
        match item {
            Item::Datagram(datagram) => taker.datagram(&datagram, &mut follower),
            Item::Secrets(text) => follower.keylog.add(text),
        }
    });
    let failure = match read {
        Err(error) => Some(said(&error, capture.records())),
        Ok(()) if bytes.get() == 0 => Some("the file is empty".into()),
        Ok(()) if capture.is_cut() => Some(format!("cut off after record {}", capture.records())),
        Ok(()) => None,
    };
    failure.iter().filter(|_| !screen.has_failed()).for_each(|what| taker.failed(what));
    taker.end(&mut follower, &capture);
    screen.clear();
    failure.filter(|_| !screen.has_failed()).map_or(Ok(()), Err)
}

/// Reads each file, several at once if all are on the disk. What is written of a file comes after what is of those
/// before it. Returns what was made of each, up to a failure.
pub fn read_each<T: Send>(
    files: &[OsString],
    queue: &Arc<Queue>,
    read: impl Fn(&OsStr, usize, &Screen) -> T + Sync,
) -> Vec<T> {
    let next = AtomicUsize::new(0);
    let work = || {
        let mut results = Vec::new();
        loop {
            let place = next.fetch_add(1, Ordering::Relaxed);
            let Some(file) = files.get(place).filter(|_| !queue.has_failed()) else { return results };
            results.push(read(file, place, &Screen::new(queue, place)));
        }
    };
    thread::scope(|scope| {
        let begin = |_| thread::Builder::new().spawn_scoped(scope, work).ok();
        let others: Vec<_> = (1..threads(files)).map_while(begin).collect();
        let mut results = work();
        for other in others {
            results.extend(other.join().unwrap_or_else(|panic| resume_unwind(panic)));
        }
        results
    })
}

// How many files are read at once. What comes from elsewhere may come at any time, or may be read only once.
fn threads(files: &[OsString]) -> usize {
    let is_on_disk = |file: &OsString| file != "-" && fs::metadata(file).is_ok_and(|what| what.is_file());
    let processors = thread::available_parallelism().map_or(1, |count| count.get());
    if files.iter().all(is_on_disk) { processors.min(files.len()) } else { 1 }
}

/// An error, with the record after which it is.
pub fn said(error: &InputError, records: u64) -> String {
    match error {
        InputError::File(FileError::LongRecord { .. } | FileError::CutBlock { .. }) => error.to_string(),
        _ if records == 0 => error.to_string(),
        _ => format!("after record {records}: {error}"),
    }
}
