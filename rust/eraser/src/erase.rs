//! One file: its rules are applied token by token, and its lines stay.
use crate::guard::PREFIX;
use crate::lex::{Kind, Refusal, Result, refuse, tokens};
use crate::source::Source;
use std::collections::BTreeMap;

/// Which paths stand for the crates and for the shim.
#[derive(Clone, Default)]
pub struct Paths {
    /// The path that stands for the file's own crate.
    pub own: String,
    /// The paths that stand for the other crates, by their names.
    pub others: BTreeMap<String, String>,
    /// The path of the shim, which stands for Rattle's libraries.
    pub kit: String,
    /// Methods that are renamed where they are called, each after the token before its `.`.
    pub renamed: Vec<(&'static str, &'static str)>,
}

impl Paths {
    /// Whether the file is one of the Rust crate's.
    pub fn is_library(&self) -> bool {
        self.own.starts_with("crate::proved::")
    }
}

/// How often each rule was used.
pub type Counts = BTreeMap<&'static str, usize>;

/// What was made of a file.
pub struct Erased {
    /// The Rust text.
    pub text: String,
    /// How often each rule was used.
    pub counts: Counts,
    /// The clauses of functions that the crate calls by functions of its own, by the names of these, such as
    /// `Frame.encode`.
    pub contracts: BTreeMap<String, String>,
}

/// Words of the prover and of Rattle's allocators. None may be left in Rust code.
const NEVER_LEFT: [&str; 9] =
    ["ghost", "requires", "ensures", "tactic", "Model", "Global", "Drop", "allocator", "final"];

/// Names that Rattle's prelude has, and methods that only the shim gives to Rust's types. A name that is missing here
/// doesn't compile.
const OF_PRELUDE: [&str; 17] = [
    "Vec",
    "String",
    "HostRuntime",
    "BufWriter",
    "from_octets",
    "push",
    "push_str",
    "insert",
    "clone",
    "slice",
    "split_to",
    "collect",
    "repeat",
    "as_slice",
    "as_mut_slice",
    "freeze_to",
    "push_reserved",
];

/// The same of tests and programs, which call by its name what the crate renames.
const OF_CHECKS: [&str; 9] =
    ["encode", "encode_body_into", "encode_into", "encoded_len", "expand", "finish", "min_len", "open_next", "size"];

/// Makes Rust of a Rattle file, with the same lines.
///
/// # Errors
///
/// The first place that no rule knows.
pub fn erase(text: &str, paths: &Paths) -> Result<Erased> {
    let source = Source::new(text)?;
    let mut eraser = Eraser {
        source,
        paths,
        clauses: BTreeMap::new(),
        contracts: BTreeMap::new(),
        edits: Vec::new(),
        counts: Counts::new(),
    };
    (0..eraser.source.len()).try_for_each(|at| eraser.means_the_same(at))?;
    eraser.prelude()?;
    let mut at = 0;
    while at < eraser.source.len() {
        at = eraser.rule(at)?;
    }
    let text = eraser.applied()?;
    for (receiver, method) in &paths.renamed {
        if !text.contains(&format!("{receiver}.{PREFIX}{method}(")) {
            return refuse(0, "a call that is to be renamed isn't there");
        }
    }
    is_rust(&text).map_err(|left| {
        // The lines are the same in both.
        let line = text[..left.at].matches('\n').count();
        Refusal { at: eraser.source.line_start(line), ..left }
    })?;
    Ok(Erased { text, counts: eraser.counts, contracts: eraser.contracts })
}

// Reads the result again: nothing of the prover's may be left in it.
fn is_rust(text: &str) -> Result<()> {
    let left = |why: &str, at: usize| Err(Refusal { at, why: format!("{why} would be left") });
    for token in tokens(text)? {
        let word = &text[token.start..token.end];
        match token.kind {
            Kind::GhostUse | Kind::GhostMember | Kind::Clause => return left("a ghost region", token.start),
            Kind::Word if NEVER_LEFT.contains(&word) => return left(&format!("`{word}`"), token.start),
            _ => {}
        }
    }
    Ok(())
}

/// A file that is being erased.
pub struct Eraser<'a> {
    /// The file.
    pub source: Source<'a>,
    /// The paths of crates and shim.
    pub paths: &'a Paths,
    /// The clauses of each function whose signature was seen: the first one's token, and the token behind the last.
    pub clauses: BTreeMap<usize, usize>,
    /// Those of functions that the crate guards, as they are written, by their names.
    pub contracts: BTreeMap<String, String>,
    // Byte ranges, and what replaces them.
    edits: Vec<(usize, usize, String)>,
    counts: Counts,
}

impl Eraser<'_> {
    /// Counts a use of a rule.
    pub fn count(&mut self, rule: &'static str) {
        *self.counts.entry(rule).or_insert(0) += 1;
    }

    /// Replaces a range of bytes.
    pub fn edit(&mut self, start: usize, end: usize, by: String) {
        self.edits.push((start, end, by));
    }

    /// Replaces the tokens from `from` up to `to`, by something without a line end. Their line ends stay.
    pub fn replace(&mut self, rule: &'static str, from: usize, to: usize, by: &str) {
        self.count(rule);
        let (start, end) = (self.source.tokens[from].start, self.source.tokens[to - 1].end);
        let lines = "\n".repeat(self.source.text[start..end].matches('\n').count());
        self.edit(start, end, by.to_string() + &lines);
    }

    /// Removes the tokens from `from` up to `to`, and a space that isn't needed any more. Their line ends stay.
    pub fn remove(&mut self, rule: &'static str, from: usize, to: usize) {
        self.count(rule);
        let tokens = &self.source.tokens;
        let (mut start, mut end) = (tokens[from].start, tokens[to - 1].end);
        if matches!(self.source.word(from), "," | "+" | ":") {
            start = tokens[from - 1].end;
        } else if tokens.get(to).is_some_and(|next| self.source.line_of(next.start) == self.source.line_of(end)) {
            end = tokens[to].start;
        }
        let lines = "\n".repeat(self.source.text[start..end].matches('\n').count());
        self.edit(start, end, lines);
    }

    /// Inserts text before a token.
    pub fn insert(&mut self, at: usize, what: String) {
        let start = self.source.tokens[at].start;
        self.edit(start, start, what);
    }

    // Applies the rule for a token, and returns the token from which to go on.
    fn rule(&mut self, at: usize) -> Result<usize> {
        let source = &self.source;
        match source.tokens[at].kind {
            Kind::GhostUse => self.ghost_use(at)?,
            Kind::GhostMember => self.ghost_member(at)?,
            Kind::Clause => {
                return match self.clauses.get(&at) {
                    Some(end) => Ok(*end),
                    None => source.fail(at, "a clause that doesn't follow a function's signature"),
                };
            }
            Kind::Mark if source.word(at) == "#" => return self.attribute(at),
            Kind::Word => return self.of_word(at),
            Kind::Mark if self.is_argument(at) => return self.argument(at),
            _ => {}
        }
        Ok(at + 1)
    }

    fn of_word(&mut self, at: usize) -> Result<usize> {
        let source = &self.source;
        let (word, next) = (source.word(at), source.word(at + 1));
        match word {
            "impl" => {
                if let Some(end) = self.model(at)? {
                    self.comment_out("impl Model", at, end)?;
                    return Ok(end);
                }
            }
            "fn" => self.function(at)?,
            "final" if next == "fn" => self.remove("final fn", at, at + 1),
            "use" => return self.import(at),
            "Drop" => return self.drop_bound(at),
            "let" if self.is_allocator_bound(at) => {
                self.remove("allocator bound", at, at + 9);
                return Ok(at + 9);
            }
            _ if self.is_argument(at) => return self.argument(at),
            _ if next == "!" && matches!(source.word(at + 2), "(" | "[" | "{") => return self.call_macro(at),
            _ => return self.of_name(at),
        }
        Ok(at + 1)
    }

    // A file that needs the shim's names imports them on the empty line before its first item, or else in the item's
    // line.
    fn prelude(&mut self) -> Result<()> {
        let source = &self.source;
        let of_checks = |word: &str| !self.paths.is_library() && OF_CHECKS.contains(&word);
        if !(0..source.len()).any(|at| OF_PRELUDE.contains(&source.word(at)) || of_checks(source.word(at))) {
            return Ok(());
        }
        let mut at = 0;
        loop {
            if matches!(source.kind(at), Some(Kind::InnerDoc | Kind::GhostUse)) {
                at += 1;
            } else if source.are(at, &["#", "!", "["]) {
                at = source.partner(at + 2) + 1;
            } else {
                break;
            }
        }
        let Some(token) = source.tokens.get(at) else {
            return Ok(());
        };
        let import = format!("use {}::prelude::*;", self.paths.kit);
        let line = source.line_of(token.start);
        match line.checked_sub(1).filter(|line| source.line_start(*line) == source.line_end(*line)) {
            Some(empty) => self.edit(source.line_start(empty), source.line_start(empty), import),
            None if matches!(token.kind, Kind::Word | Kind::Mark) => self.insert(at, import + " "),
            None => return source.fail(at, "no empty line before the first item, which is documented"),
        }
        Ok(())
    }

    // The text with all edits. A changed line has no spaces at its end.
    fn applied(&mut self) -> Result<String> {
        let mut edits = std::mem::take(&mut self.edits);
        edits.sort_by_key(|edit| (edit.0, edit.1));
        let (text, mut out, mut at) = (self.source.text, String::new(), 0);
        for (start, end, by) in edits {
            if start < at {
                return refuse(start, "two rules for one place");
            }
            out.push_str(&text[at..start]);
            out.push_str(&by);
            at = end;
        }
        out.push_str(&text[at..]);
        if out.matches('\n').count() != text.matches('\n').count() {
            return refuse(0, "a rule that moves lines");
        }
        let trimmed = |(new, old): (&str, &str)| if new == old { new.to_string() } else { new.trim_end().to_string() };
        Ok(out.split('\n').zip(text.split('\n')).map(trimmed).collect::<Vec<_>>().join("\n"))
    }
}
