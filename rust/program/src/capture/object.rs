//! Objects of JSON, member by member.
use crate::output::{Field, Json, Quoted};
use std::fmt::{Arguments, Write};

/// An object that isn't closed.
pub struct Object<'t> {
    text: &'t mut String,
    is_empty: bool,
}

impl<'t> Object<'t> {
    /// Begins an object at the end of a text.
    pub fn new(text: &'t mut String) -> Self {
        text.push('{');
        Object { text, is_empty: true }
    }

    pub fn end(self) {
        self.text.push('}');
    }

    // Its next member up to the value.
    fn name(&mut self, name: &str) -> &mut String {
        if !std::mem::take(&mut self.is_empty) {
            self.text.push(',');
        }
        self.plainly(format_args!("{}:", Quoted(name.as_bytes())));
        self.text
    }

    // Writing to a string doesn't fail.
    fn plainly(&mut self, what: Arguments<'_>) {
        let _ = self.text.write_fmt(what);
    }

    /// A value that is JSON.
    pub fn plain(&mut self, name: &str, value: Arguments<'_>) {
        self.name(name);
        self.plainly(value);
    }

    pub fn number(&mut self, name: &str, value: u64) {
        self.plain(name, format_args!("{value}"));
    }

    pub fn flag(&mut self, name: &str, value: bool) {
        self.plain(name, format_args!("{value}"));
    }

    pub fn word(&mut self, name: &str, value: &str) {
        self.plain(name, format_args!("{}", Quoted(value.as_bytes())));
    }

    pub fn field(&mut self, (name, value): &Field<'_>) {
        self.plain(name, format_args!("{}", Json(value)));
    }

    /// A range of bytes, without its end.
    pub fn range(&mut self, name: &str, start: usize, end: usize) {
        self.plain(name, format_args!("[{start},{end}]"));
    }

    /// Another object.
    pub fn inner(&mut self, name: &str, fill: impl FnOnce(&mut Object<'_>)) {
        let text = self.name(name);
        let mut object = Object::new(text);
        fill(&mut object);
        object.end();
    }

    /// A list of objects.
    pub fn list<T>(
        &mut self,
        name: &str,
        items: impl IntoIterator<Item = T>,
        mut fill: impl FnMut(&mut Object<'_>, T),
    ) {
        let text = self.name(name);
        text.push('[');
        for (index, item) in items.into_iter().enumerate() {
            if index > 0 {
                text.push(',');
            }
            let mut object = Object::new(text);
            fill(&mut object, item);
            object.end();
        }
        text.push(']');
    }
}
