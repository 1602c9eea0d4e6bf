//! Bytes that aren't a dump: hexadecimal, lists as in source code and JSON, literals of Python and Rust, base64.

/// Why there are no bytes, and from which byte of the text on.
#[derive(Debug, PartialEq)]
pub struct Fault {
    pub what: String,
    pub at: usize,
}

pub type Read = Result<Vec<u8>, Fault>;

fn fault<T>(what: impl Into<String>, at: usize) -> Result<T, Fault> {
    Err(Fault { what: what.into(), at })
}

/// The bytes that a text means.
pub fn read(text: &[u8]) -> Read {
    let begin = value_at(text);
    if let Some(at) = literal_at(text) {
        return literal(text, at);
    }
    let has = |signs: &[u8]| text[begin..].iter().any(|byte| signs.contains(byte));
    if has(b"[{(") && !has(b"\"'\\") && words(text, begin).all(|(_, word)| decimal(word).is_some()) {
        return list_of_decimals(text, begin);
    }
    hexadecimal(text, begin)
}

// A list as JSON has it. Where each number has two digits it may be hexadecimal.
fn list_of_decimals(text: &[u8], begin: usize) -> Read {
    if words(text, begin).all(|(_, word)| word.len() == 2) {
        return match words(text, begin).next() {
            Some((at, _)) => fault("ambiguous numbers, decimal or hexadecimal; add 0x to each, from the one", at),
            None => Ok(Vec::new()),
        };
    }
    Ok(words(text, begin).filter_map(|(_, word)| decimal(word)).collect())
}

/// Hexadecimal with only blanks between its digits.
pub fn unhex(text: &[u8]) -> Option<Vec<u8>> {
    let is_hex = text.iter().all(|byte| *byte == b' ' || byte.is_ascii_hexdigit());
    hexadecimal(text, 0).ok().filter(|_| is_hex)
}

/// Bytes of two digits, at least one, with one blank between them or, if there is a gap, two behind the eighth.
pub fn pairs(text: &[u8], has_gap: bool) -> Option<Vec<u8>> {
    let mut bytes = Vec::new();
    let mut at = 0;
    loop {
        bytes.push((digit(*text.get(at)?)? << 4) | digit(*text.get(at + 1)?)?);
        match &text[at + 2..] {
            [] => return Some(bytes),
            [b' ', b' ', ..] if has_gap && bytes.len() == 8 => at += 4,
            [b' ', ..] => at += 3,
            _ => return None,
        }
    }
}

// Digits by twos, with separators between them.
fn hexadecimal(text: &[u8], begin: usize) -> Read {
    let mut bytes = Vec::with_capacity((text.len() - begin) / 2);
    for (at, word) in words(text, begin) {
        let digits = word.strip_prefix(b"0x").or_else(|| word.strip_prefix(b"0X")).unwrap_or(word);
        let first = at + word.len() - digits.len();
        if let Some(wrong) = digits.iter().position(|digit| !digit.is_ascii_hexdigit()) {
            let c = character(&text[first + wrong..]);
            return fault(format!("not hexadecimal: {c:?}"), first + wrong);
        }
        let pairs = digits.chunks_exact(2);
        if digits.is_empty() {
            return fault("no digits after 0x", at);
        }
        if !pairs.remainder().is_empty() {
            return fault(format!("an odd number of digits, {},", digits.len()), at);
        }
        bytes.extend(pairs.filter_map(|pair| Some((digit(pair[0])? << 4) | digit(pair[1])?)));
    }
    Ok(bytes)
}

fn digit(byte: u8) -> Option<u8> {
    char::from(byte).to_digit(16).map(|digit| digit as u8)
}

// The character that bytes begin with.
fn character(bytes: &[u8]) -> char {
    let front = &bytes[..bytes.len().min(4)];
    String::from_utf8_lossy(front).chars().next().unwrap_or_default()
}

// What is between separators, with its offset. After a backslash an x is one too.
fn words(text: &[u8], begin: usize) -> impl Iterator<Item = (usize, &[u8])> {
    let mut at = begin;
    let parts = text[begin..].split(|byte| b" \t\r\n,:;(){}[]\"'\\".contains(byte)).map(move |part| {
        let from = at;
        at += part.len() + 1;
        (from, part)
    });
    let escaped = move |(at, word): (usize, &[u8])| match word.strip_prefix(b"x") {
        Some(digits) if at > begin && text[at - 1] == b'\\' => (at + 1, digits.len()),
        _ => (at, word.len()),
    };
    parts.map(escaped).filter(|(_, len)| *len > 0).map(|(at, len)| (at, &text[at..at + len]))
}

// A byte as lists of JSON have it.
fn decimal(word: &[u8]) -> Option<u8> {
    let is_plain = word.iter().all(u8::is_ascii_digit) && (word == b"0" || !word.starts_with(b"0"));
    std::str::from_utf8(word).ok().filter(|_| is_plain)?.parse().ok()
}

/// Where the value begins that is given to a name, as in `uint8_t payload[] = {`; else 0.
fn value_at(text: &[u8]) -> usize {
    let Some(end) = text.iter().position(|byte| *byte == b'=') else { return 0 };
    let (name, value) = (&text[..end], text[end + 1..].trim_ascii());
    let is_name = name.trim_ascii_start().first().is_some_and(|byte| byte.is_ascii_alphabetic() || *byte == b'_');
    let is_quoted = name.iter().any(|byte| b"\"'\\".contains(byte));
    if is_name && !is_quoted && !value.is_empty() && !value.starts_with(b"=") { end + 1 } else { 0 }
}

/// Where a literal of bytes begins, as `b'..'` of Python or Rust, if the text is one.
fn literal_at(text: &[u8]) -> Option<usize> {
    let value = text[value_at(text)..].trim_ascii_start();
    let value = value.strip_prefix(b"bytearray(").unwrap_or(value);
    (value.starts_with(b"b'") || value.starts_with(b"b\"")).then(|| text.len() - value.len())
}

/// Whether a text is a literal of bytes, in which nothing is a comment.
pub fn is_literal(text: &[u8]) -> bool {
    literal_at(text).is_some()
}

fn literal(text: &[u8], begin: usize) -> Read {
    let quote = text[begin + 1];
    let mut bytes = Vec::new();
    let mut at = begin + 2;
    loop {
        match text.get(at) {
            Some(byte) if *byte == quote => break,
            Some(b'\\') => {
                let Some((byte, len)) = escaped(&text[at + 1..]) else { return fault("unknown escape:", at) };
                bytes.push(byte);
                at += 1 + len;
            }
            Some(byte) if byte.is_ascii() => {
                bytes.push(*byte);
                at += 1;
            }
            Some(_) => return fault("value above one byte:", at),
            None => return fault("no closing quote for the bytes that begin", begin),
        }
    }
    match text[at + 1..].iter().position(|byte| !b") \t\r\n,;".contains(byte)) {
        Some(behind) => fault("unexpected text after the bytes:", at + 1 + behind),
        None => Ok(bytes),
    }
}

// The byte that an escape means, and how many characters it has after its backslash.
fn escaped(text: &[u8]) -> Option<(u8, usize)> {
    let byte = match text.first()? {
        b'x' => return Some(((digit(*text.get(1)?)? << 4) | digit(*text.get(2)?)?, 3)),
        b'0' if !text.get(1).is_some_and(u8::is_ascii_digit) => 0,
        b'a' => 7,
        b'b' => 8,
        b't' => b'\t',
        b'n' => b'\n',
        b'v' => 11,
        b'f' => 12,
        b'r' => b'\r',
        quoted @ (b'\\' | b'\'' | b'"') => *quoted,
        _ => return None,
    };
    Some((byte, 1))
}

/// The bytes of a text in base64, with either alphabet of RFC 4648, and with padding or without.
pub fn base64(text: &[u8]) -> Read {
    let mut bytes = Vec::with_capacity(text.len() / 4 * 3 + 3);
    let (mut bits, mut count, mut padding) = (0_u32, 0, 0);
    for (at, c) in text.iter().enumerate().filter(|(_, c)| !c.is_ascii_whitespace()) {
        let value = match c {
            b'A'..=b'Z' => c - b'A',
            b'a'..=b'z' => c - b'a' + 26,
            b'0'..=b'9' => c - b'0' + 52,
            b'+' | b'-' => 62,
            b'/' | b'_' => 63,
            b'=' if count % 4 >= 2 && padding < 4 - count % 4 => {
                padding += 1;
                continue;
            }
            _ => return fault(format!("not base64: {:?}", character(&text[at..])), at),
        };
        if padding > 0 {
            return fault("unexpected text after the bytes:", at);
        }
        (bits, count) = ((bits << 6) | u32::from(value), count + 1);
        if count % 4 != 1 {
            bytes.push((bits >> (2 * (3 - (count - 1) % 4))) as u8);
        }
    }
    match count % 4 {
        1 => fault("base64 ends within a byte", text.len()),
        _ => Ok(bytes),
    }
}

/// Replaces the comments of a line, `# ..`, `// ..` and `/* .. */`, with blanks. Returns whether there was one.
pub fn blank_comments(text: &mut Vec<u8>) -> bool {
    let (mut blanked, mut has_comment, mut is_closed) = (Vec::with_capacity(text.len()), false, true);
    let mut at = 0;
    while at < text.len() {
        let rest = &text[at..];
        let len = match rest {
            [b'#', ..] | [b'/', b'/', ..] => rest.len(),
            [b'/', b'*', ..] if is_closed => {
                let end = rest.windows(2).skip(2).position(|two| two == b"*/");
                is_closed = end.is_some();
                end.map_or(0, |end| end + 4)
            }
            _ => 0,
        };
        if len == 0 {
            blanked.push(text[at]);
        }
        // One for each character.
        blanked.extend(rest[..len].iter().filter(|byte| **byte & 0xc0 != 0x80).map(|_| b' '));
        has_comment |= len > 0;
        at += len.max(1);
    }
    *text = blanked;
    has_comment
}

/// How many brackets are open after a text, given how many were before it.
pub fn open_brackets(before: usize, text: &[u8]) -> usize {
    text.iter().fold(before, |open, byte| match byte {
        b'[' | b'{' | b'(' => open + 1,
        b']' | b'}' | b')' => open.saturating_sub(1),
        _ => open,
    })
}

/// Whether a line is the number of bytes, as `xxd -i` and `xxd -C -i` print it below them.
pub fn is_length(text: &[u8]) -> bool {
    let is_equal = |part: &[u8]| part.eq_ignore_ascii_case(b"_len = ");
    let text = text.trim_ascii();
    text.starts_with(b"unsigned int ") && text.ends_with(b";") && text.windows(7).any(is_equal)
}
