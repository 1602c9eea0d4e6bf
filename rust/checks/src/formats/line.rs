//! A line of JSON.

/// A line of JSON. All its texts are ASCII without quotes and backslashes.
pub(crate) struct Line {
    text: String,
}

impl Line {
    /// An object that was begun.
    pub(crate) fn new() -> Line {
        Line { text: "{".to_string() }
    }

    /// What was written.
    pub(crate) fn as_str(&self) -> &str {
        &self.text
    }

    // A comma before all except the first item.
    fn separate(&mut self) {
        if !self.text.ends_with(['{', '[']) {
            self.text.push_str(", ");
        }
    }

    // A member, whose value is JSON already.
    fn member(&mut self, name: &str, value: &str) {
        self.separate();
        self.text.push_str(&format!("\"{name}\": {value}"));
    }

    /// Begins an object or a list, `{` or `[`, as a member.
    pub(crate) fn open(&mut self, name: &str, bracket: &str) {
        self.member(name, bracket);
    }

    /// Begins a field in a list.
    pub(crate) fn field(&mut self, index: usize, kind: &str) {
        self.item();
        self.number("index", index as u64);
        self.text("kind", kind);
    }

    /// Begins an object in a list.
    pub(crate) fn item(&mut self) {
        self.separate();
        self.text.push('{');
    }

    /// Ends an object or a list, by `}` or `]`.
    pub(crate) fn close(&mut self, bracket: &str) {
        self.text.push_str(bracket);
    }

    /// A member that is a text.
    pub(crate) fn text(&mut self, name: &str, value: &str) {
        self.member(name, &format!("\"{value}\""));
    }

    /// The same, if the text isn't empty.
    pub(crate) fn text_if_any(&mut self, name: &str, value: &str) {
        if !value.is_empty() {
            self.text(name, value);
        }
    }

    /// A member that is a number.
    pub(crate) fn number(&mut self, name: &str, value: u64) {
        self.member(name, &value.to_string());
    }

    /// A member that is a negative number, or 0.
    pub(crate) fn signed(&mut self, name: &str, value: i32) {
        self.member(name, &value.to_string());
    }

    /// A member that is true or false.
    pub(crate) fn flag(&mut self, name: &str, value: bool) {
        self.member(name, &value.to_string());
    }

    /// A member that has the least and the most bytes of a field.
    pub(crate) fn bytes(&mut self, least: u64, most: u64) {
        self.member("bytes", &format!("[{least}, {most}]"));
    }

    /// A text in a list.
    pub(crate) fn word(&mut self, value: &str) {
        self.separate();
        self.text.push_str(&format!("\"{value}\""));
    }

    /// The member `length`, if a field's length has a name.
    pub(crate) fn length_if_any(&mut self, name: &str) {
        if !name.is_empty() {
            self.open("length", "{");
            self.named(name);
            self.close("}");
        }
    }

    /// The members `name`, a name in an RFC, and `key`, the same in small letters with underscores.
    pub(crate) fn named(&mut self, name: &str) {
        self.text("name", name);
        let key: String =
            name.chars().map(|c| if c.is_ascii_alphanumeric() { c.to_ascii_lowercase() } else { '_' }).collect();
        self.text("key", &key);
    }
}
