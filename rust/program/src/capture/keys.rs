//! Key logs, which may grow while a capture comes in.
use crate::say;
use quic_wire_capture::keylog::{GrowingLog, KeyLog};
use std::ffi::{OsStr, OsString};
use std::fs::File;
use std::io::{self, ErrorKind, Read};
use std::sync::{PoisonError, RwLock};

const PIECE: usize = 1 << 16;

/// The key logs that are given. Several captures may be filled from them at once.
pub struct KeyLogs(Vec<Log>);

enum Log {
    /// A file on the disk, by its name. Each capture reads it again: it may have more secrets than are kept.
    OnDisk(OsString),
    /// What can be read only once, as a pipe, and what came so far.
    Once(File, RwLock<Vec<u8>>),
}

/// The key logs for one capture, of which the last lines have no end yet.
pub struct Tails(Vec<Tail>);

struct Tail {
    growing: GrowingLog,
    /// A file on the disk, of which all before was read.
    file: Option<File>,
}

impl KeyLogs {
    /// Opens the files. Also returns which can't be read, and why; it says so.
    pub fn open(files: &[OsString]) -> (KeyLogs, Vec<String>) {
        let (mut logs, mut unread) = (Vec::new(), Vec::new());
        for file in files {
            match Log::open(file) {
                Ok(log) => logs.push(log),
                Err(error) => unread.push(format!("{}: {error}", file.to_string_lossy())),
            }
        }
        unread.iter().for_each(say);
        (KeyLogs(logs), unread)
    }

    /// Adds their lines to the secrets of a capture. If they may grow, their last lines needn't be whole.
    pub fn fill(&self, secrets: &mut KeyLog, may_grow: bool) -> Tails {
        let fill = |log: &Log| {
            let mut tail = Tail { growing: GrowingLog::default(), file: None };
            match log {
                // What can't be read now may be read later.
                Log::OnDisk(name) => tail.file = File::open(name).ok(),
                Log::Once(_, text) => {
                    tail.growing.add(&text.read().unwrap_or_else(PoisonError::into_inner), secrets);
                }
            }
            tail.read_on(secrets);
            tail.take_last(secrets, may_grow);
            tail
        };
        Tails(self.0.iter().map(fill).collect())
    }

    /// Adds the lines that came since then.
    pub fn poll(&self, tails: &mut Tails, secrets: &mut KeyLog) {
        for (log, tail) in self.0.iter().zip(&mut tails.0) {
            let Log::Once(file, text) = log else {
                tail.read_on(secrets);
                continue;
            };
            let (mut file, mut text) = (file, text.write().unwrap_or_else(PoisonError::into_inner));
            let len = text.len();
            // What can't be read now may be read later.
            let _ = file.read_to_end(&mut text);
            if let Some(new) = text.get(len..) {
                tail.growing.add(new, secrets);
            }
        }
    }
}

impl Log {
    fn open(name: &OsStr) -> io::Result<Log> {
        let mut file = File::open(name)?;
        if file.metadata()?.is_file() {
            // It says now whether it can be read.
            io::copy(&mut file.take(1), &mut io::sink())?;
            return Ok(Log::OnDisk(name.to_os_string()));
        }
        let mut text = Vec::new();
        file.read_to_end(&mut text)?;
        Ok(Log::Once(file, RwLock::new(text)))
    }
}

impl Tail {
    // Adds the lines that are on the disk and weren't read.
    fn read_on(&mut self, secrets: &mut KeyLog) {
        let Some(file) = &mut self.file else { return };
        let mut piece = [0; PIECE];
        loop {
            match file.read(&mut piece) {
                Ok(0) => return,
                Ok(len) => self.growing.add(&piece[..len], secrets),
                Err(error) if error.kind() == ErrorKind::Interrupted => {}
                Err(_) => return,
            }
        }
    }

    // Adds a last line without an end; if it may grow, only one that can be read. With more of it, it is added again.
    fn take_last(&self, secrets: &mut KeyLog, may_grow: bool) {
        let mut alone = KeyLog::default();
        self.growing.clone().end(&mut alone);
        if !may_grow || alone.skipped() == 0 {
            self.growing.clone().end(secrets);
        }
    }
}
