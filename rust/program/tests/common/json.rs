//! JSON, and the part of JSON Schema that docs/capture.schema.json uses.
#![allow(dead_code, reason = "each test uses a part")]

use std::collections::BTreeSet;

#[derive(Clone, Debug, PartialEq)]
pub enum Json {
    Null,
    Flag(bool),
    /// As it is written.
    Number(String),
    Text(String),
    List(Vec<Json>),
    Object(Vec<(String, Json)>),
}

impl Json {
    /// Reads a text, all of it. It panics if that isn't JSON, or has a name twice in an object.
    pub fn read(text: &str) -> Json {
        let mut rest = text.trim();
        let value = value(&mut rest);
        assert!(rest.is_empty(), "{rest} follows");
        value
    }

    pub fn get(&self, name: &str) -> Option<&Json> {
        let Json::Object(members) = self else { return None };
        members.iter().find(|(one, _)| one == name).map(|(_, value)| value)
    }

    /// What is at the end of names with dots between them, as `a.b`; an index finds an item of a list.
    pub fn at(&self, path: &str) -> &Json {
        path.split('.').fold(self, |value, name| match value {
            Json::List(items) => &items[name.parse::<usize>().unwrap()],
            _ => value.get(name).unwrap_or_else(|| panic!("{path} isn't in {value:?}")),
        })
    }

    pub fn items(&self) -> &[Json] {
        if let Json::List(items) = self { items } else { panic!("{self:?} is no list") }
    }

    pub fn text(&self) -> &str {
        if let Json::Text(text) = self { text } else { panic!("{self:?} is no text") }
    }

    pub fn members(&self) -> &[(String, Json)] {
        if let Json::Object(members) = self { members } else { &[] }
    }

    pub fn is_integer(&self) -> bool {
        matches!(self, Json::Number(digits) if digits.bytes().all(|byte| byte.is_ascii_digit()))
    }
}

fn pass(rest: &mut &str, text: &str) {
    *rest = rest.strip_prefix(text).unwrap_or_else(|| panic!("{text} expected: {rest}")).trim_start();
}

fn value(rest: &mut &str) -> Json {
    let word = [("null", Json::Null), ("true", Json::Flag(true)), ("false", Json::Flag(false))];
    if let Some((name, value)) = word.into_iter().find(|(name, _)| rest.starts_with(name)) {
        pass(rest, name);
        return value;
    }
    match rest.chars().next().unwrap() {
        '{' => {
            let mut members: Vec<(String, Json)> = Vec::new();
            sequence(rest, '{', '}', |rest| {
                let name = string(rest);
                pass(rest, ":");
                assert!(members.iter().all(|(other, _)| *other != name), "{name} is there twice");
                members.push((name, value(rest)));
            });
            Json::Object(members)
        }
        '[' => {
            let mut items = Vec::new();
            sequence(rest, '[', ']', |rest| items.push(value(rest)));
            Json::List(items)
        }
        '"' => Json::Text(string(rest)),
        _ => {
            let is_part = |c: char| c.is_ascii_digit() || matches!(c, '-' | '.' | 'e' | '+');
            let (number, after) = rest.split_at(rest.find(|c| !is_part(c)).unwrap_or(rest.len()));
            number.parse::<f64>().unwrap_or_else(|_| panic!("no number: {rest}"));
            *rest = after.trim_start();
            Json::Number(number.into())
        }
    }
}

fn sequence(rest: &mut &str, begin: char, end: char, mut item: impl FnMut(&mut &str)) {
    pass(rest, begin.encode_utf8(&mut [0; 4]));
    let mut is_first = true;
    while !rest.starts_with(end) {
        if !std::mem::take(&mut is_first) {
            pass(rest, ",");
        }
        item(rest);
    }
    pass(rest, end.encode_utf8(&mut [0; 4]));
}

fn string(rest: &mut &str) -> String {
    let text = rest.strip_prefix('"').unwrap_or_else(|| panic!("no string: {rest}"));
    let (mut out, mut chars) = (String::new(), text.char_indices());
    loop {
        match chars.next().unwrap() {
            (at, '"') => {
                *rest = text[at + 1..].trim_start();
                return out;
            }
            (_, '\\') => match chars.next().unwrap().1 {
                'u' => {
                    let digits: String = (0..4).map(|_| chars.next().unwrap().1).collect();
                    out.push(char::from_u32(u32::from_str_radix(&digits, 16).unwrap()).unwrap());
                }
                c @ ('"' | '\\' | '/') => out.push(c),
                c => panic!("an escape that isn't used here: {c}"),
            },
            (_, c) => out.push(c),
        }
    }
}

const KEYWORDS: [&str; 15] = [
    "$schema",
    "$defs",
    "$ref",
    "title",
    "description",
    "oneOf",
    "type",
    "const",
    "enum",
    "required",
    "additionalProperties",
    "properties",
    "items",
    "minItems",
    "maxItems",
];

/// A schema, and the members that the values had which were compared with it.
pub struct Schema {
    all: Json,
    pub seen: BTreeSet<String>,
}

impl Schema {
    pub fn read(text: &str) -> Schema {
        Schema { all: Json::read(text), seen: BTreeSet::new() }
    }

    /// Panics if a value doesn't fit.
    pub fn check(&mut self, value: &Json) {
        let all = self.all.clone();
        let result = self.fits(value, &all, "");
        assert!(result.is_ok(), "{}: {value:?}", result.unwrap_err());
    }

    fn fits(&mut self, value: &Json, rule: &Json, name: &str) -> Result<(), String> {
        for (keyword, _) in rule.members() {
            assert!(KEYWORDS.contains(&&keyword[..]), "the schema's {keyword} isn't compared");
        }
        if let Some(target) = rule.get("$ref") {
            let name = target.text().strip_prefix("#/$defs/").unwrap().to_string();
            let rule = self.all.at("$defs").at(&name).clone();
            self.fits(value, &rule, &name)?;
        }
        if let Some(rules) = rule.get("oneOf") {
            let fitting = rules.items().iter().filter(|rule| self.fits(value, rule, name).is_ok()).count();
            let kind = value.get("kind").map(|kind| format!("#/$defs/{}", kind.text()));
            let wanted = rules.items().iter().find(|rule| rule.get("$ref").map(Json::text) == kind.as_deref());
            if fitting != 1 {
                return Err(wanted.map_or(Err("no kind".into()), |rule| self.fits(value, rule, name)).unwrap_err());
            }
        }
        if rule.get("type").is_some_and(|kind| !is_of(value, kind)) {
            return Err(format!("{name}: {value:?} is of another type"));
        }
        let is_among = |list: &Json| list.items().contains(value);
        if rule.get("const").is_some_and(|one| one != value) || rule.get("enum").is_some_and(|all| !is_among(all)) {
            return Err(format!("{name}: {value:?} isn't a value of it"));
        }
        self.parts(value, rule, name)
    }

    fn parts(&mut self, value: &Json, rule: &Json, name: &str) -> Result<(), String> {
        if let (Json::List(items), Some(of)) = (value, rule.get("items")) {
            let bound =
                |word: &str| Some(if let Json::Number(most) = rule.get(word)? { most.parse().unwrap() } else { 0 });
            if bound("minItems").is_some_and(|least| items.len() < least)
                || bound("maxItems").is_some_and(|most| items.len() > most)
            {
                return Err(format!("{name}: {} items", items.len()));
            }
            items.iter().try_for_each(|item| self.fits(item, of, &format!("{name}[]")))?;
        }
        let Some(properties) = rule.get("properties") else { return Ok(()) };
        let required = rule.get("required").map_or(&[][..], Json::items);
        if let Some(lacking) = required.iter().find(|one| value.get(one.text()).is_none()) {
            return Err(format!("{name}: {lacking:?} isn't there"));
        }
        for (member, value) in value.members() {
            let Some(rule) = properties.get(member) else {
                return Err(format!("{name}: {member} isn't in the schema"));
            };
            let name = format!("{name}.{member}");
            self.fits(value, rule, &name)?;
            self.seen.insert(name);
        }
        Ok(())
    }

    /// All members that values may have.
    pub fn members(&self) -> BTreeSet<String> {
        let mut members = BTreeSet::new();
        self.all.at("$defs").members().iter().for_each(|(name, rule)| add(rule, name, &mut members));
        members
    }
}

fn add(rule: &Json, name: &str, members: &mut BTreeSet<String>) {
    if let Some(of) = rule.get("items") {
        add(of, &format!("{name}[]"), members);
    }
    for (member, rule) in rule.get("properties").map_or(&[][..], Json::members) {
        let name = format!("{name}.{member}");
        add(rule, &name, members);
        members.insert(name);
    }
}

fn is_of(value: &Json, kind: &Json) -> bool {
    match kind {
        Json::List(kinds) => kinds.iter().any(|kind| is_of(value, kind)),
        kind => match (kind.text(), value) {
            ("object", Json::Object(_)) | ("array", Json::List(_)) | ("string", Json::Text(_)) => true,
            ("boolean", Json::Flag(_)) | ("number", Json::Number(_)) => true,
            ("integer", value) => value.is_integer(),
            _ => false,
        },
    }
}
