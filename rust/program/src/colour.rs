//! Colours, for terminals.
use std::ffi::OsStr;
use std::fmt::{self, Display, Formatter};
use std::io::{self, IsTerminal};

/// When to use colours.
#[derive(Clone, Copy, Default)]
pub enum When {
    Always,
    Never,
    #[default]
    Auto,
}

impl When {
    /// Whether standard output is coloured.
    pub fn is_on(self) -> bool {
        let variable = |name| std::env::var_os(name);
        self.is_on_for(io::stdout().is_terminal(), variable("NO_COLOR").as_deref(), variable("TERM").as_deref())
    }

    fn is_on_for(self, is_terminal: bool, no_color: Option<&OsStr>, term: Option<&OsStr>) -> bool {
        match self {
            When::Always => true,
            When::Never => false,
            When::Auto => {
                let is_unwanted = no_color.is_some_and(|value| !value.is_empty());
                is_terminal && !is_unwanted && term.is_some_and(|term| !term.is_empty() && term != "dumb")
            }
        }
    }
}

/// The parts of a line that have their own colour.
#[derive(Clone, Copy)]
pub enum Part {
    /// The number of the line, and the file.
    Source,
    Place,
    /// What a frame or a packet is.
    Kind,
    /// The name of a field.
    Name,
    Error,
}

impl Part {
    // Its ECMA-48 code.
    fn code(self) -> &'static str {
        match self {
            Part::Source => "2",
            Part::Place => "33",
            Part::Kind => "1;32",
            Part::Name => "36",
            Part::Error => "1;31",
        }
    }

    /// The text, in the colour of this part if colours are used.
    pub fn paint<T: Display>(self, is_on: bool, text: T) -> Painted<T> {
        Painted { code: is_on.then(|| self.code()), text }
    }
}

/// A text with its colour.
pub struct Painted<T> {
    code: Option<&'static str>,
    text: T,
}

impl<T: Display> Display for Painted<T> {
    fn fmt(&self, f: &mut Formatter<'_>) -> fmt::Result {
        match self.code {
            Some(code) => write!(f, "\x1b[{code}m{}\x1b[0m", self.text),
            None => self.text.fmt(f),
        }
    }
}

#[cfg(test)]
mod tests {
    use super::*;

    #[test]
    fn colours_are_for_terminals_that_have_them() {
        let auto = |is_terminal, no_color: Option<&str>, term: Option<&str>| {
            When::Auto.is_on_for(is_terminal, no_color.map(OsStr::new), term.map(OsStr::new))
        };
        assert!(auto(true, None, Some("xterm")) && auto(true, Some(""), Some("xterm")));
        assert!(!auto(false, None, Some("xterm")) && !auto(true, Some("0"), Some("xterm")));
        assert!(!auto(true, None, Some("dumb")) && !auto(true, None, None) && !auto(true, None, Some("")));
        assert!(When::Always.is_on_for(false, Some(OsStr::new("1")), None));
        assert!(!When::Never.is_on_for(true, None, Some(OsStr::new("xterm"))));
    }

    #[test]
    fn a_colour_ends_with_its_part() {
        assert_eq!(Part::Error.paint(true, "cut off").to_string(), "\x1b[1;31mcut off\x1b[0m");
        assert_eq!(Part::Place.paint(false, 7).to_string(), "7");
    }
}
