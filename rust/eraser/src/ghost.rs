//! What only the prover reads: ghost items, its attributes, and the marks that Rust doesn't have.
use crate::erase::Eraser;
use crate::lex::{Kind, Result};

/// Attributes of the prover.
const OF_THE_PROVER: [&str; 2] = ["tactic", "cycle"];

/// Attributes that are as in Rust.
const ATTRIBUTES: [&str; 9] = ["inline", "error", "allow", "test", "cfg", "must_use", "cold", "from", "repr"];

impl Eraser<'_> {
    /// Makes the tokens from `from` up to `to` a comment. If code stands in the same line, they are removed.
    pub fn comment_out(&mut self, rule: &'static str, from: usize, to: usize) -> Result<()> {
        let source = &self.source;
        let (start, end) = (source.tokens[from].start, source.tokens[to - 1].end);
        let (first, last) = (source.line_of(start), source.line_of(end));
        if source.begins_line(start) && source.ends_line(end) {
            let by = self.prefixed(first, last, source.indent_of(first), "//");
            let (start, end) = (source.line_start(first), source.line_end(last));
            self.count(rule);
            self.edit(start, end, by);
        } else if first == last {
            self.remove(rule, from, to);
        } else {
            return source.fail(from, "a ghost region of several lines that shares a line with code");
        }
        Ok(())
    }

    /// Whole lines, each with a mark between its indentation and its text.
    pub fn prefixed(&self, first: usize, last: usize, indent: &str, mark: &str) -> String {
        let source = &self.source;
        let lines = (first..=last).map(|line| {
            let text = &source.text[source.line_start(line)..source.line_end(line)];
            let text = text.strip_prefix(indent).unwrap_or(text.trim_start());
            format!("{indent}{mark} {text}").trim_end().to_string()
        });
        lines.collect::<Vec<_>>().join("\n")
    }

    /// A `ghost use`.
    pub fn ghost_use(&mut self, at: usize) -> Result<()> {
        if self.with_docs(at)? != at {
            return self.source.fail(at, "a `ghost use` with documentation");
        }
        self.comment_out("ghost use", at, at + 1)
    }

    /// A ghost member goes with its `pub` and its documentation.
    pub fn ghost_member(&mut self, at: usize) -> Result<()> {
        let from = if self.source.before(at) == "pub" { at - 1 } else { at };
        let documented = self.with_docs(from)?;
        self.comment_out("ghost member", documented, at + 1)
    }

    // The first token of an item with its documentation. An attribute is refused.
    fn with_docs(&self, item: usize) -> Result<usize> {
        let (source, mut from) = (&self.source, item);
        while from > 0 {
            match source.kind(from - 1) {
                Some(Kind::Doc) => from -= 1,
                _ if source.word(from - 1) == "]" && source.before(source.partner(from - 1)) == "#" => {
                    return source.fail(from - 1, "an attribute of a ghost item");
                }
                _ => break,
            }
        }
        Ok(from)
    }

    /// The token behind an `impl Model for ..`, whose body has only ghost members; none for another `impl`.
    pub fn model(&self, at: usize) -> Result<Option<usize>> {
        let (source, mut head) = (&self.source, at + 1);
        if source.word(head) == "<" {
            head = source.find(head, &[">"]).map_or(source.len(), |end| end + 1);
        }
        if !source.are(head, &["Model", "for"]) {
            return Ok(None);
        }
        if self.with_docs(at)? != at {
            return source.fail(at, "an `impl Model` with documentation");
        }
        let Some(open) = source.find(head, &["{"]) else {
            return source.fail(at, "an `impl Model` without a body");
        };
        let close = source.partner(open);
        let is_ghost = |at: &usize| matches!(source.kind(*at), Some(Kind::GhostMember | Kind::GhostUse | Kind::Doc));
        match (open + 1..close).find(|at| !is_ghost(at)) {
            Some(inside) => source.fail(inside, "code in an `impl Model`"),
            None => Ok(Some(close + 1)),
        }
    }

    /// An attribute: those of the prover become comments, `derive` loses `Drop`, and others must be known.
    pub fn attribute(&mut self, at: usize) -> Result<usize> {
        let source = &self.source;
        let open = if source.word(at + 1) == "!" { at + 2 } else { at + 1 };
        if source.word(open) != "[" {
            return source.fail(at, "a `#` without an attribute");
        }
        let (close, name) = (source.partner(open), source.word(open + 1));
        if OF_THE_PROVER.contains(&name) {
            self.comment_out("attribute of the prover", at, close + 1)?;
        } else if name == "derive" {
            self.derive(open + 2);
            for inside in open + 2..close {
                if self.source.word(inside) == "Drop" {
                    self.listed("Drop derived", inside)?;
                }
            }
        } else if name == "cfg" && !source.are(open + 2, &["(", "test", ")", "]"]) {
            return source.fail(at, "a `cfg` that isn't `cfg(test)`");
        } else if !ATTRIBUTES.contains(&name) {
            return source.fail(at, "an attribute that isn't known");
        }
        Ok(close + 1)
    }

    /// Removes a name from a list, with a comma.
    pub fn listed(&mut self, rule: &'static str, at: usize) -> Result<()> {
        let source = &self.source;
        if source.word(at + 1) == "," {
            self.remove(rule, at, at + 2);
        } else if source.before(at) == "," {
            self.remove(rule, at - 1, at + 1);
        } else if source.before(at) == "(" && source.word(at + 1) == ")" {
            self.remove(rule, at, at + 1);
        } else {
            return source.fail(at, "a name that stands in no list");
        }
        Ok(())
    }

    /// `+ Drop`, `: Drop` or `Drop +`.
    pub fn drop_bound(&mut self, at: usize) -> Result<usize> {
        let source = &self.source;
        let (before, next) = (source.before(at), source.word(at + 1));
        if before == "+" {
            self.remove("bound Drop", at - 1, at + 1);
        } else if before == ":" && next == "+" {
            self.remove("bound Drop", at, at + 2);
            return Ok(at + 2);
        } else if before == ":" && !source.are(at - 2, &[":", ":"]) && matches!(next, "," | ">" | "{") {
            self.remove("bound Drop", at - 1, at + 1);
        } else {
            return source.fail(at, "a `Drop` that is no bound");
        }
        Ok(at + 1)
    }
}
