//! Forms that Rust and Rattle both accept but that mean something else in each, as the kit's documents list them, and
//! forms that would bring what no proof covers. All are refused.
use crate::erase::Eraser;
use crate::lex::Result;

/// Words of such forms: a type's layout, threads, and errors whose texts differ.
const WORDS: [(&str, &str); 9] = [
    ("size_of", "the size of a type, which isn't Rust's"),
    ("size_of_val", "the size of a type, which isn't Rust's"),
    ("align_of", "the alignment of a type, which isn't Rust's"),
    ("thread", "a thread, whose results aren't dropped as in Rust"),
    ("sync", "a channel or a lock, which isn't Rust's"),
    ("anyhow", "an error whose text isn't Rust's"),
    ("dyn", "a trait object"),
    ("extern", "a foreign function"),
    ("unsafe", "unsafe code"),
];

impl Eraser<'_> {
    /// Refuses a token that begins such a form.
    pub fn means_the_same(&self, at: usize) -> Result<()> {
        let source = &self.source;
        let word = source.word(at);
        if let Some((_, why)) = WORDS.iter().find(|(other, _)| *other == word) {
            return source.fail(at, why);
        }
        if word == "clone" && source.before(at) == ":" {
            return source.fail(at, "a `clone` by its path, which returns a `Result` in Rattle");
        }
        let is_range = source.are(at, &[".", "."]) && source.before(at) != ".";
        if is_range && source.word(at + 2) == ")" && !matches!(source.before(at), "(" | ",") {
            return source.fail(at, "a range without an end, which ends elsewhere in Rattle");
        }
        let is_update = is_range && matches!(source.before(at), "{" | ",");
        if is_update && source.find(at, &["[", "}", ","]).is_some_and(|end| source.word(end) == "[") {
            return source.fail(at, "fields from an indexed value, which Rattle may not read");
        }
        Ok(())
    }
}
