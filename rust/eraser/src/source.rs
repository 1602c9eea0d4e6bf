//! A Rattle file as tokens, with its brackets and lines.
use crate::lex::{Kind, Result, Token, refuse, tokens};

/// A file, its tokens, and which bracket belongs to which.
pub struct Source<'a> {
    /// The file's text.
    pub text: &'a str,
    /// Its tokens, without comments.
    pub tokens: Vec<Token>,
    // Of each bracket the other one, and of each token the bracket that it stands in.
    partner: Vec<usize>,
    parent: Vec<Option<usize>>,
    // Where each line begins.
    lines: Vec<usize>,
}

impl<'a> Source<'a> {
    /// Reads a file.
    pub fn new(text: &'a str) -> Result<Source<'a>> {
        let tokens = tokens(text)?;
        let lines = std::iter::once(0).chain(text.match_indices('\n').map(|(at, _)| at + 1)).collect();
        let (partner, parent) = (vec![0; tokens.len()], vec![None; tokens.len()]);
        let mut source = Source { text, tokens, partner, parent, lines };
        source.pair()?;
        Ok(source)
    }

    fn pair(&mut self) -> Result<()> {
        let mut open = Vec::new();
        for at in 0..self.tokens.len() {
            self.parent[at] = open.last().copied();
            let close = match self.word(at) {
                _ if self.tokens[at].kind != Kind::Mark => continue,
                "(" | "[" | "{" => {
                    open.push(at);
                    continue;
                }
                ")" => "(",
                "]" => "[",
                "}" => "{",
                _ => continue,
            };
            match open.pop() {
                Some(other) if self.word(other) == close => {
                    self.partner[other] = at;
                    self.partner[at] = other;
                }
                _ => return refuse(self.tokens[at].start, "a bracket without its partner"),
            }
        }
        match open.pop() {
            Some(at) => refuse(self.tokens[at].start, "a bracket without its partner"),
            None => Ok(()),
        }
    }

    /// How many tokens there are.
    pub fn len(&self) -> usize {
        self.tokens.len()
    }

    /// The text of a token; nothing for a ghost region or behind the end.
    pub fn word(&self, at: usize) -> &'a str {
        match self.tokens.get(at) {
            Some(token) if !matches!(token.kind, Kind::Clause | Kind::GhostMember | Kind::GhostUse) => {
                &self.text[token.start..token.end]
            }
            _ => "",
        }
    }

    /// The text of the token before this one.
    pub fn before(&self, at: usize) -> &'a str {
        at.checked_sub(1).map_or("", |at| self.word(at))
    }

    /// What a token is.
    pub fn kind(&self, at: usize) -> Option<Kind> {
        self.tokens.get(at).map(|token| token.kind)
    }

    /// Whether these tokens begin at `at`.
    pub fn are(&self, at: usize, words: &[&str]) -> bool {
        words.iter().enumerate().all(|(i, word)| self.word(at + i) == *word)
    }

    /// The other bracket of a pair.
    pub fn partner(&self, at: usize) -> usize {
        self.partner[at]
    }

    /// The opening bracket of the innermost pair that a token stands in.
    pub fn parent(&self, at: usize) -> Option<usize> {
        self.parent[at]
    }

    /// The first of these tokens from `at` on.
    pub fn find(&self, at: usize, words: &[&str]) -> Option<usize> {
        (at..self.len()).find(|at| words.contains(&self.word(*at)))
    }

    /// A refusal at a token.
    pub fn fail<T>(&self, at: usize, why: &str) -> Result<T> {
        refuse(self.tokens.get(at).map_or(self.text.len(), |token| token.start), why)
    }

    /// The line that a byte is in.
    pub fn line_of(&self, at: usize) -> usize {
        self.lines.partition_point(|start| *start <= at) - 1
    }

    /// Where a line begins.
    pub fn line_start(&self, line: usize) -> usize {
        self.lines[line]
    }

    /// The byte behind a line, which is its line end or the text's end.
    pub fn line_end(&self, line: usize) -> usize {
        self.lines.get(line + 1).map_or(self.text.len(), |next| next - 1)
    }

    /// The spaces with which a line begins.
    pub fn indent_of(&self, line: usize) -> &'a str {
        let text = &self.text[self.line_start(line)..self.line_end(line)];
        &text[..text.len() - text.trim_start().len()]
    }

    /// Whether only spaces stand before a byte in its line.
    pub fn begins_line(&self, at: usize) -> bool {
        self.text[self.line_start(self.line_of(at))..at].trim().is_empty()
    }

    /// Whether only spaces, or a comment, stand between a byte and the end of its line.
    pub fn ends_line(&self, at: usize) -> bool {
        let rest = self.text[at..self.line_end(self.line_of(at))].trim_start();
        rest.is_empty() || rest.starts_with("//")
    }
}
