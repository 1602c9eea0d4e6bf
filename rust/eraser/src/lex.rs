//! Tokens of a Rattle file: Rust's, and the ghost regions, whose insides are another language and are only bracketed.

/// What a token is.
#[derive(Clone, Copy, Debug, PartialEq, Eq)]
pub enum Kind {
    /// A name or a keyword.
    Word,
    /// A lifetime.
    Lifetime,
    /// A number, a character or a string.
    Literal,
    /// One character of punctuation.
    Mark,
    /// A line that begins with `///`.
    Doc,
    /// A line that begins with `//!`.
    InnerDoc,
    /// `ghost use PATH.{..};` or `ghost use PATH as NAME;`.
    GhostUse,
    /// `ghost name: {..} = {..};`, or with a comma at its end.
    GhostMember,
    /// `requires name {..}` or `ensures* name {..}`.
    Clause,
}

/// A token, with its byte range.
#[derive(Clone, Copy, Debug)]
pub struct Token {
    /// What it is.
    pub kind: Kind,
    /// Its first byte.
    pub start: usize,
    /// The byte behind it.
    pub end: usize,
}

/// A byte offset in a source, and why the source can't be erased from there on.
#[derive(Clone, Debug, PartialEq, Eq)]
pub struct Refusal {
    /// The offset.
    pub at: usize,
    /// What was found.
    pub why: String,
}

/// A result for a source that may be refused.
pub type Result<T> = std::result::Result<T, Refusal>;

/// A refusal at an offset.
pub fn refuse<T>(at: usize, why: &str) -> Result<T> {
    Err(Refusal { at, why: why.to_string() })
}

/// All tokens, without comments.
pub fn tokens(text: &str) -> Result<Vec<Token>> {
    let mut lexer = Lexer { text: text.as_bytes(), at: 0 };
    let mut all = Vec::new();
    while let Some(token) = lexer.next()? {
        all.push(token);
    }
    Ok(all)
}

struct Lexer<'a> {
    text: &'a [u8],
    at: usize,
}

fn starts_word(b: u8) -> bool {
    b.is_ascii_alphabetic() || b == b'_'
}

fn in_word(b: u8) -> bool {
    b.is_ascii_alphanumeric() || b == b'_'
}

impl Lexer<'_> {
    // A byte that comes later, or 0 behind the end.
    fn peek(&self, ahead: usize) -> u8 {
        *self.text.get(self.at + ahead).unwrap_or(&0)
    }

    fn space(&mut self) {
        while self.peek(0).is_ascii_whitespace() {
            self.at += 1;
        }
    }

    fn word(&mut self) -> &[u8] {
        let start = self.at;
        while in_word(self.peek(0)) {
            self.at += 1;
        }
        &self.text[start..self.at]
    }

    fn line(&mut self) {
        while self.at < self.text.len() && self.peek(0) != b'\n' {
            self.at += 1;
        }
    }

    fn next(&mut self) -> Result<Option<Token>> {
        loop {
            self.space();
            let start = self.at;
            if start >= self.text.len() {
                return Ok(None);
            }
            if let Some(kind) = self.token(start)? {
                return Ok(Some(Token { kind, start, end: self.at }));
            }
        }
    }

    // The token that begins here, or none for a comment.
    fn token(&mut self, start: usize) -> Result<Option<Kind>> {
        Ok(Some(match (self.peek(0), self.peek(1)) {
            (b'/', b'/') => return Ok(self.comment()),
            (b'/', b'*') => return refuse(start, "a block comment"),
            (b'"', _) => self.string()?,
            (b'b', b'"') => {
                self.at += 1;
                self.string()?
            }
            (b'b', b'\'') => {
                self.at += 1;
                self.character()?
            }
            (b'r', b'"' | b'#') | (b'b' | b'c', b'r') if self.is_raw() => return refuse(start, "a raw string"),
            (b'\'', _) => self.character()?,
            (b, _) if b.is_ascii_digit() => self.number(),
            (b, _) if starts_word(b) => match self.word() {
                b"ghost" => self.ghost(start)?,
                b"requires" | b"ensures" => self.clause(start)?,
                _ => Kind::Word,
            },
            (b, _) if b.is_ascii_punctuation() => {
                self.at += 1;
                Kind::Mark
            }
            _ => return refuse(start, "a character that isn't Rust's, outside ghost regions"),
        }))
    }

    // Whether a raw string or a raw name begins here.
    fn is_raw(&self) -> bool {
        let at = usize::from(self.peek(0) != b'r') + 1;
        matches!(self.peek(at), b'"' | b'#')
    }

    fn comment(&mut self) -> Option<Kind> {
        let kind = match (self.peek(2), self.peek(3)) {
            (b'!', _) => Some(Kind::InnerDoc),
            (b'/', b'/') => None,
            (b'/', _) => Some(Kind::Doc),
            _ => None,
        };
        self.line();
        kind
    }

    fn number(&mut self) -> Kind {
        while in_word(self.peek(0)) || self.peek(0) == b'.' && self.peek(1).is_ascii_digit() {
            self.at += 1;
        }
        Kind::Literal
    }

    fn string(&mut self) -> Result<Kind> {
        let start = self.at;
        self.at += 1;
        loop {
            match self.peek(0) {
                0 => return refuse(start, "a string without its end"),
                b'"' => break,
                b'\\' => self.at += 2,
                _ => self.at += 1,
            }
        }
        self.at += 1;
        Ok(Kind::Literal)
    }

    // A character or a lifetime.
    fn character(&mut self) -> Result<Kind> {
        let start = self.at;
        self.at += 1;
        if self.peek(0) == b'\\' {
            self.at += 2;
        } else if starts_word(self.peek(0)) && self.peek(1) != b'\'' {
            self.word();
            return Ok(Kind::Lifetime);
        } else {
            self.at += 1;
        }
        while self.peek(0) != b'\'' {
            if matches!(self.peek(0), 0 | b'\n') {
                return refuse(start, "a character without its end");
            }
            self.at += 1;
        }
        self.at += 1;
        Ok(Kind::Literal)
    }

    // The braces of a ghost region. Strings and comments in it are passed over.
    fn braces(&mut self) -> Result<()> {
        let start = self.at;
        if self.peek(0) != b'{' {
            return refuse(start, "a ghost region without braces");
        }
        let mut depth = 0;
        loop {
            match (self.peek(0), self.peek(1)) {
                (0, _) => return refuse(start, "a ghost region without its closing brace"),
                (b'{', _) => depth += 1,
                (b'}', _) => depth -= 1,
                (b'"', _) => {
                    self.string()?;
                    continue;
                }
                (b'\'', b'{' | b'}' | b'"') => return refuse(self.at, "a quoted brace in a ghost region"),
                (b'/', b'/') => {
                    self.line();
                    continue;
                }
                _ => {}
            }
            self.at += 1;
            if depth == 0 {
                return Ok(());
            }
        }
    }

    fn ghost(&mut self, start: usize) -> Result<Kind> {
        self.space();
        match self.word() {
            b"use" => self.ghost_use(start),
            b"" => refuse(start, "a ghost item without a name"),
            _ => self.ghost_member(start),
        }
    }

    fn ghost_use(&mut self, start: usize) -> Result<Kind> {
        self.space();
        while in_word(self.peek(0)) || self.peek(0) == b'.' {
            self.at += 1;
        }
        if self.peek(0) == b'{' {
            self.braces()?;
        } else if self.text[self.at..].starts_with(b" as ") {
            self.at += 4;
            self.word();
        }
        if self.peek(0) != b';' {
            return refuse(start, "a `ghost use` that isn't `ghost use PATH.{..};` or `ghost use PATH as NAME;`");
        }
        self.at += 1;
        Ok(Kind::GhostUse)
    }

    fn ghost_member(&mut self, start: usize) -> Result<Kind> {
        let mut parts = 0;
        for mark in [b':', b'='] {
            self.space();
            if self.peek(0) == mark {
                self.at += 1;
                self.space();
                self.braces()?;
                parts += 1;
            }
        }
        self.space();
        if parts == 0 || !matches!(self.peek(0), b';' | b',') {
            return refuse(start, "a ghost item that isn't `ghost name: {..} = {..};`");
        }
        self.at += 1;
        Ok(Kind::GhostMember)
    }

    fn clause(&mut self, start: usize) -> Result<Kind> {
        if self.peek(0) == b'*' {
            self.at += 1;
        }
        self.space();
        self.word();
        self.space();
        if self.peek(0) != b'{' {
            return refuse(start, "a clause that isn't `requires name {..}` or `ensures name {..}`");
        }
        self.braces()?;
        Ok(Kind::Clause)
    }
}
