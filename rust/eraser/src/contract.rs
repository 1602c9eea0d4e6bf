//! The clauses of a function: a section of its documentation if it is public, and else comments.
//!
//! If the function has a body, the section is documentation inside it, on the lines that the clauses have:
//!
//! ```text
//! pub fn f(n: u64) -> u64 { #![doc = "# Contract\n```text"]
//!     //! requires { n < 2 ^ 62 }
//!     //! ensures { result ≡ n }
//!     //! ```
//!     n
//! }
//! ```
//!
//! Otherwise the lines of the clauses and of the signature change places.
use crate::erase::Eraser;
use crate::lex::{Kind, Result};

// How the section begins, in a string, and how it ends.
const BEGIN: &str = r"# Contract\n```text";
const FENCE: &str = "```";

impl Eraser<'_> {
    /// The function whose `fn` is at `at`.
    pub fn function(&mut self, at: usize) -> Result<()> {
        if self.source.kind(at + 1) != Some(Kind::Word) {
            return Ok(()); // the type of a function
        }
        self.handle(at)?;
        let Some((first, next)) = self.clauses_of(at)? else {
            return self.guard(at, false);
        };
        let mut requires = false;
        for clause in first..next {
            let start = self.source.tokens[clause].start;
            let is_required = self.source.text[start..].starts_with('r');
            self.count(if is_required { "requires" } else { "ensures" });
            requires |= is_required;
        }
        self.guard(at, requires)?;
        self.clauses.insert(first, next);
        let has_body = self.source.word(next) == "{";
        let lines = self.lines_of(first, next, has_body)?;
        let text = &self.source.text[self.source.line_start(lines.0)..self.source.line_end(lines.1)];
        if text.contains(FENCE) {
            return self.source.fail(first, "a clause that would end its section of the documentation");
        }
        if let Some(name) = self.guarded(at) {
            let indent = self.indent_of(first);
            let all = self.prefixed(lines.0, lines.1, indent, "");
            let text = all.split('\n').map(|line| line.get(indent.len() + 1..).unwrap_or(""));
            let text = text.collect::<Vec<_>>().join("\n");
            self.contracts.insert(name, text);
        }
        match (self.is_public(at), has_body) {
            (true, true) => self.document_inside(first, next, lines),
            (true, false) => self.document_before(at, first, next, lines)?,
            (false, true) => {
                let by = self.prefixed(lines.0, lines.1, self.indent_of(first), "//");
                self.edit(self.source.line_start(lines.0), self.source.line_end(lines.1), by);
            }
            (false, false) => return self.source.fail(at, "a function with clauses and without a body in no trait"),
        }
        Ok(())
    }

    // The tokens of a function's clauses: the first, and what follows the last.
    fn clauses_of(&self, at: usize) -> Result<Option<(usize, usize)>> {
        let (source, mut first) = (&self.source, at + 2);
        while source.kind(first) != Some(Kind::Clause) {
            match source.word(first) {
                "{" | ";" => return Ok(None),
                "(" | "[" => first = source.partner(first),
                _ if first >= source.len() => return source.fail(at, "a function without a body"),
                _ => {}
            }
            first += 1;
        }
        let mut next = first;
        while source.kind(next) == Some(Kind::Clause) {
            next += 1;
        }
        if !matches!(source.word(next), "{" | ";") {
            return source.fail(next, "a clause that isn't followed by a body or `;`");
        }
        Ok(Some((first, next)))
    }

    // The lines of the clauses, with the comments between them. They must share none with code.
    fn lines_of(&self, first: usize, next: usize, has_body: bool) -> Result<(usize, usize)> {
        let (source, tokens) = (&self.source, &self.source.tokens);
        let from = source.line_of(tokens[first - 1].end) + 1;
        let behind = source.line_of(tokens[next].start) + usize::from(!has_body);
        let shares = !source.ends_line(tokens[first - 1].end)
            || (first..next).any(|at| !source.begins_line(tokens[at].start))
            || source.begins_line(tokens[next].start) != has_body;
        if shares || from >= behind {
            return source.fail(first, "a clause that shares a line with code");
        }
        Ok((from, behind - 1))
    }

    /// Whether the function whose `fn` is at `at` is `pub`, without a restriction.
    pub fn is_pub(&self, at: usize) -> bool {
        self.pub_of(at).is_some()
    }

    /// Its `pub`, if it has no restriction.
    pub fn pub_of(&self, at: usize) -> Option<usize> {
        (self.head_of(at)..at).find(|at| self.source.word(*at) == "pub" && self.source.word(at + 1) != "(")
    }

    // Whether others can call it: it is `pub`, or a trait's.
    fn is_public(&self, at: usize) -> bool {
        let source = &self.source;
        if self.is_pub(at) {
            return true;
        }
        let Some(open) = source.parent(at) else {
            return false;
        };
        let from = (0..open).rev().find(|at| matches!(source.word(*at), ";" | "{" | "}")).map_or(0, |at| at + 1);
        let has = |word: &str| (from..open).any(|at| source.word(at) == word);
        has("trait") || has("impl") && has("for")
    }

    // Where a function begins, without its attributes.
    fn head_of(&self, at: usize) -> usize {
        let (source, mut head) = (&self.source, at);
        while head > 0 {
            match source.word(head - 1) {
                "const" | "final" | "pub" => head -= 1,
                ")" if source.before(source.partner(head - 1)) == "pub" => head = source.partner(head - 1),
                _ => break,
            }
        }
        head
    }

    // The indentation of a token's line.
    fn indent_of(&self, at: usize) -> &str {
        self.source.indent_of(self.source.line_of(self.source.tokens[at].start))
    }

    // The section stands where the clauses are, and the body's brace before it.
    fn document_inside(&mut self, first: usize, next: usize, (from, to): (usize, usize)) {
        self.count("contract in a body");
        let source = &self.source;
        let open = source.tokens[next];
        let indent = self.indent_of(first);
        let end = match source.text[open.end..].chars().next() {
            Some('\n') => format!("//! {FENCE}"),
            _ => format!("#![doc = \"{FENCE}\"] "),
        };
        let by = format!("{}\n{indent}{end}", self.prefixed(from, to, indent, "//!"));
        let (head, start) = (source.tokens[first - 1].end, source.line_start(from));
        self.edit(head, head, format!(" {{ #![doc = \"{BEGIN}\"]"));
        self.edit(start, open.end, by);
    }

    // The section stands before the function, whose lines come after it.
    fn document_before(&mut self, at: usize, first: usize, next: usize, (from, to): (usize, usize)) -> Result<()> {
        self.count("contract of a trait");
        let source = &self.source;
        let (head, last) = (source.tokens[self.head_of(at)].start, source.tokens[first - 1].end);
        if !source.begins_line(head) {
            return source.fail(at, "a function with clauses that doesn't begin its line");
        }
        let indent = self.indent_of(self.head_of(at));
        let clauses = self.prefixed(from, to, self.indent_of(first), "");
        let mut lines = clauses.strip_suffix(';').unwrap_or(&clauses).split('\n');
        let one = lines.next().unwrap_or("").trim_start().replace('\\', r"\\").replace('"', "\\\"");
        let mut by = format!("#[doc = \"{BEGIN}\\n{one}\"]\n{indent}");
        for line in lines {
            let text = line.strip_prefix(self.indent_of(first)).unwrap_or("");
            by += &format!("///{text}\n{indent}");
        }
        self.edit(head, head, by + &format!("#[doc = \"{FENCE}\"] "));
        self.edit(last, self.source.tokens[next].start, String::new());
        Ok(())
    }
}
