//! Lines for people and for programs.
mod value;

use crate::colour::{Painted, Part};
use std::fmt::Display;
use std::io::{self, Write};
use std::ops::Range;
pub use value::{Field, Json, Quoted, Value, unknown};

/// How lines look.
#[derive(Clone, Copy, PartialEq)]
pub enum Look {
    Plain,
    Coloured,
    Json,
}

/// Where the lines go.
pub struct Output<W> {
    out: W,
    look: Look,
    file: Option<String>,
    line: usize,
    errors: usize,
}

impl<W: Write> Output<W> {
    pub fn new(out: W, look: Look) -> Self {
        Output { out, look, file: None, line: 0, errors: 0 }
    }

    pub fn set_file(&mut self, file: String) {
        self.file = Some(file);
    }

    pub fn set_line(&mut self, line: usize) {
        self.line = line;
    }

    /// How many errors were printed.
    pub fn errors(&self) -> usize {
        self.errors
    }

    /// The line of input, for a message.
    pub fn place(&self) -> String {
        match &self.file {
            Some(file) => format!("{file}:{}", self.line),
            None => format!("line {}", self.line),
        }
    }

    pub fn flush(&mut self) -> io::Result<()> {
        self.out.flush()
    }

    /// What is at an offset: its name, which is its `key`, and its fields. Fields in `more` are only for programs.
    pub fn item(
        &mut self,
        place: Range<usize>,
        (key, name): (&'static str, &str),
        fields: &[Field<'_>],
        more: &[Field<'_>],
    ) -> io::Result<()> {
        if self.look == Look::Json {
            let places = [("start", Value::Number(place.start as u64)), ("end", Value::Number(place.end as u64))];
            return self.object(&[&places, &[(key, Value::Word(name.into()))], fields, more]);
        }
        self.source()?;
        let place = self.paint(Part::Place, format_args!("{}..{}", place.start, place.end)).to_string();
        write!(self.out, " {place} {}", Part::Kind.paint(self.is_coloured(), name))?;
        self.line_end(fields)
    }

    /// Only fields, for people each on its line.
    pub fn fields(&mut self, fields: &[Field<'_>], more: &[Field<'_>]) -> io::Result<()> {
        if self.look == Look::Json {
            return self.object(&[fields, more]);
        }
        for (name, value) in fields {
            self.source()?;
            writeln!(self.out, " {}={value}", Part::Name.paint(self.is_coloured(), name))?;
        }
        Ok(())
    }

    /// An error at a byte, with what was read before it and what is known about it.
    pub fn error(&mut self, what: &str, at: Option<usize>, fields: &[Field<'_>]) -> io::Result<()> {
        self.errors += 1;
        if self.look == Look::Json {
            let at = at.map(|at| ("offset", Value::Number(at as u64)));
            return self.object(&[at.as_slice(), &[("error", Value::Word(what.into()))], fields]);
        }
        self.source()?;
        let what = match at {
            Some(at) => format!("error at {at}: {what}"),
            None => format!("error {what}"),
        };
        write!(self.out, " {}", Part::Error.paint(self.is_coloured(), what))?;
        self.line_end(fields)
    }

    fn is_coloured(&self) -> bool {
        self.look == Look::Coloured
    }

    fn paint<T: Display>(&self, part: Part, text: T) -> Painted<T> {
        part.paint(self.is_coloured(), text)
    }

    // What a line begins with.
    fn source(&mut self) -> io::Result<()> {
        let file = self.file.as_ref().map_or(String::new(), |file| format!("{file}:"));
        let source = self.paint(Part::Source, format!("{file}{}:", self.line));
        write!(self.out, "{source}")
    }

    // What a line ends with.
    fn line_end(&mut self, fields: &[Field<'_>]) -> io::Result<()> {
        for (name, value) in fields {
            write!(self.out, " {}={value}", Part::Name.paint(self.is_coloured(), name))?;
        }
        writeln!(self.out)
    }

    fn object(&mut self, parts: &[&[Field<'_>]]) -> io::Result<()> {
        write!(self.out, "{{\"line\":{}", self.line)?;
        if let Some(file) = &self.file {
            write!(self.out, ",\"file\":{}", Quoted(file.as_bytes()))?;
        }
        for (name, value) in parts.iter().copied().flatten() {
            write!(self.out, ",\"{name}\":{}", Json(value))?;
        }
        writeln!(self.out, "}}")
    }
}

#[cfg(test)]
mod tests;
