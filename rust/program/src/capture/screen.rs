//! Standard output, to which files are written in their order although several are read at once, and what is said on
//! standard error meanwhile.
use std::cell::RefCell;
use std::collections::BTreeMap;
use std::fmt::Display;
use std::io::{self, BufWriter, IsTerminal, Stdout, Write};
use std::mem;
use std::sync::atomic::{AtomicBool, Ordering};
use std::sync::{Arc, Condvar, Mutex, MutexGuard, PoisonError};
use std::time::{Duration, Instant};

// When progress is shown for the first time, and how often then.
const PATIENCE: Duration = Duration::from_secs(1);
const PAUSE: Duration = Duration::from_millis(200);
const ROOM: usize = 1 << 16;
// How many bytes wait at most until the files before theirs are over.
const MOST_WAITING: usize = 1 << 26;

/// What takes whole lines.
pub trait Lines {
    /// Takes lines, each with its end.
    fn write(&self, lines: &str);
}

/// Why nothing more is shown.
pub enum Failure {
    /// Standard output can't be written to.
    Output(io::Error),
    /// Another file can't.
    File(String),
}

/// What several files write, each of which waits for its turn.
#[derive(Default)]
pub struct Queue {
    state: Mutex<State>,
    moved: Condvar,
    has_failed: AtomicBool,
}

struct State {
    out: BufWriter<Stdout>,
    /// The file that is written at once.
    turn: usize,
    /// What others will write.
    waiting: BTreeMap<usize, Waiting>,
    waiting_len: usize,
    failure: Option<Failure>,
    progress: Option<Progress>,
}

#[derive(Default)]
struct Waiting {
    parts: Vec<Part>,
    is_over: bool,
}

enum Part {
    /// Whole lines for standard output.
    Lines(String),
    /// A line for standard error.
    Said(String),
}

/// A line on a terminal that says how far a file is read.
struct Progress {
    begun: Instant,
    shown: Instant,
    is_shown: bool,
}

impl Default for State {
    fn default() -> Self {
        let now = Instant::now();
        let progress = Progress { begun: now, shown: now, is_shown: false };
        State {
            out: BufWriter::with_capacity(ROOM, io::stdout()),
            turn: 0,
            waiting: BTreeMap::new(),
            waiting_len: 0,
            failure: None,
            progress: io::stderr().is_terminal().then_some(progress),
        }
    }
}

impl Queue {
    pub fn has_failed(&self) -> bool {
        self.has_failed.load(Ordering::Relaxed)
    }

    /// The failure, if there was one. All files are over.
    pub fn finish(&self) -> Result<(), Failure> {
        let mut state = self.lock();
        state.try_to(Write::flush);
        state.failure.take().map_or(Ok(()), Err)
    }

    // What a thread that panicked left is whole.
    fn lock(&self) -> MutexGuard<'_, State> {
        self.state.lock().unwrap_or_else(PoisonError::into_inner)
    }

    // Changes the state, and wakes those who wait for that if it failed.
    fn with(&self, change: impl FnOnce(&mut State)) {
        let mut state = self.lock();
        change(&mut state);
        if state.failure.is_some() {
            self.has_failed.store(true, Ordering::Relaxed);
            self.moved.notify_all();
        }
    }

    // Shows a part of a file if it is its turn. Otherwise it waits, and so does the caller if too much does.
    fn put(&self, place: usize, part: Part) {
        let mut state = self.lock();
        while state.turn != place && state.failure.is_none() && state.waiting_len + part.len() > MOST_WAITING {
            state = self.moved.wait(state).unwrap_or_else(PoisonError::into_inner);
        }
        drop(state);
        self.with(|state| match state.turn == place {
            true => state.show(part),
            false => {
                state.waiting_len += part.len();
                state.waiting.entry(place).or_default().parts.push(part);
            }
        });
    }

    // Ends a file. The next ones have their turns, up to one that isn't over.
    fn end(&self, place: usize) {
        self.with(|state| {
            state.waiting.entry(place).or_default().is_over = true;
            state.clear();
            while state.waiting.get(&state.turn).is_some_and(|waiting| waiting.is_over) {
                state.waiting.remove(&state.turn);
                state.turn += 1;
                let parts = state.waiting.get_mut(&state.turn).map(|waiting| mem::take(&mut waiting.parts));
                for part in parts.unwrap_or_default() {
                    state.waiting_len -= part.len();
                    state.show(part);
                }
            }
        });
        self.moved.notify_all();
    }
}

impl Part {
    fn len(&self) -> usize {
        match self {
            Part::Lines(text) | Part::Said(text) => text.len(),
        }
    }
}

impl State {
    fn try_to(&mut self, write: impl FnOnce(&mut BufWriter<Stdout>) -> io::Result<()>) {
        if self.failure.is_none() {
            self.failure = write(&mut self.out).err().map(Failure::Output);
        }
    }

    fn show(&mut self, part: Part) {
        match part {
            Part::Lines(lines) => {
                self.clear();
                self.try_to(|out| out.write_all(lines.as_bytes()));
            }
            Part::Said(what) => {
                self.try_to(Write::flush);
                self.clear();
                crate::say(what);
            }
        }
    }

    fn tick(&mut self, what: impl Display) {
        let Some(progress) = &mut self.progress else { return };
        let now = Instant::now();
        if now - progress.begun < PATIENCE || progress.is_shown && now - progress.shown < PAUSE {
            return;
        }
        (progress.shown, progress.is_shown) = (now, true);
        // Lines that are whole come before it.
        self.try_to(Write::flush);
        let _ = write!(io::stderr(), "\r\x1b[K{what}");
    }

    fn clear(&mut self) {
        if let Some(progress) = self.progress.as_mut().filter(|progress| progress.is_shown) {
            progress.is_shown = false;
            let _ = write!(io::stderr(), "\r\x1b[K");
        }
    }
}

/// What a file writes. It is over when this is dropped, also by a panic, so that no other file waits forever.
pub struct Screen {
    queue: Arc<Queue>,
    place: usize,
    lines: RefCell<String>,
}

impl Screen {
    /// For the file at a place among all, from 0 on.
    pub fn new(queue: &Arc<Queue>, place: usize) -> Self {
        Screen { queue: queue.clone(), place, lines: RefCell::default() }
    }

    /// Writes whole lines.
    pub fn write(&self, lines: &str) {
        self.lines.borrow_mut().push_str(lines);
        if self.lines.borrow().len() >= ROOM {
            self.put_lines();
        }
    }

    fn put_lines(&self) {
        let lines = self.lines.take();
        if !lines.is_empty() {
            self.queue.put(self.place, Part::Lines(lines));
        }
    }

    // Does something if it is this file's turn.
    fn in_turn(&self, change: impl FnOnce(&mut State)) {
        self.queue.with(|state| {
            if state.turn == self.place {
                change(state);
            }
        });
    }

    pub fn flush(&self) {
        self.put_lines();
        self.in_turn(|state| state.try_to(Write::flush));
    }

    /// Says that another file can't be written to.
    pub fn fail(&self, what: String) {
        self.queue.with(|state| {
            state.failure.get_or_insert(Failure::File(what));
        });
    }

    pub fn has_failed(&self) -> bool {
        self.queue.has_failed()
    }

    /// Says something on standard error, after what was written.
    pub fn say(&self, what: impl Display) {
        self.put_lines();
        self.queue.put(self.place, Part::Said(what.to_string()));
    }

    /// Says how far a file is read, if that takes long and someone sees it.
    pub fn tick(&self, progress: impl Display) {
        self.in_turn(|state| state.tick(progress));
    }

    /// Removes what says that.
    pub fn clear(&self) {
        self.in_turn(State::clear);
    }
}

impl Lines for &Screen {
    fn write(&self, lines: &str) {
        Screen::write(self, lines);
    }
}

impl Drop for Screen {
    fn drop(&mut self) {
        self.put_lines();
        self.queue.end(self.place);
    }
}
