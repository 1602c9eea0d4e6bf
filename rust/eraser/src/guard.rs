//! What a user of the crate may call. A function with a `requires` is for the crate alone; if the crate has a public
//! one of its name, which checks what is required, it is renamed. Traits that Rust users expect are derived.
use crate::erase::Eraser;
use crate::lex::Result;

/// What a function is called whose name the crate gives to a function that checks its `requires`.
pub const PREFIX: &str = "proved_";

/// Types, and their functions that the crate has under the same names.
const RENAMED: [(&str, &[&str]); 20] = [
    ("Ack", &["encode", "encode_from", "from_parts"]),
    ("ApplicationClose", &["encode", "min_len"]),
    ("Close", &["encode", "min_len"]),
    ("ConnectionClose", &["encode", "min_len"]),
    ("ConnectionId", &["from_buf", "new"]),
    ("Crypto", &["encode"]),
    ("Datagram", &["encode", "size"]),
    ("EcnCounts", &["encode"]),
    ("FixedLengthConnectionIdParser", &["new"]),
    ("Frame", &["encode", "encode_body_into", "encode_into", "encoded_len"]),
    ("Header", &["encode", "encoded_len"]),
    ("NewConnectionId", &["encode"]),
    ("NewToken", &["encode", "size"]),
    ("PacketNumber", &["decode", "encode", "expand", "new"]),
    ("Packets", &["open_next"]),
    ("PartialDecode", &["finish"]),
    ("PartialEncode", &["finish"]),
    ("ReservedTransportParameter", &["new"]),
    ("StreamId", &["new"]),
    ("StreamMeta", &["encode"]),
];

/// Calls of these by a value: the source, the token before the `.`, and the method.
const CALLS: [(&str, &str, &str); 18] = [
    ("quic_canon/src/canonical.rt", "frame", "encode"),
    ("quic_canon/src/canonical.rt", "frame", "encoded_len"),
    ("quic_frame_fields/src/frame/ack_encode.rt", "counts", "encode"),
    ("quic_frame_fields/src/frame/encode.rt", "close", "encode"),
    ("quic_frame_fields/src/frame/encode.rt", "close", "min_len"),
    ("quic_frame_fields/src/frame/encode.rt", "self", "min_len"),
    ("quic_frames/src/frame/encode.rt", "crypto", "encode"),
    ("quic_frames/src/frame/encode.rt", "new", "encode"),
    ("quic_frames/src/frame/encode.rt", "token", "encode"),
    ("quic_frames/src/frame/encode.rt", "token", "size"),
    ("quic_levels/src/opening.rt", ")", "expand"),
    ("quic_packets/src/opening.rt", ")", "expand"),
    ("quic_packets/src/payload.rt", "]", "encoded_len"),
    ("quic_packets/src/payload.rt", "frame", "encode"),
    ("quic_packets/src/seal.rt", "header", "encode"),
    ("quic_packets/src/seal.rt", "header", "encoded_len"),
    ("quic_packets/src/seal.rt", "partial", "finish"),
    ("quic_wire/src/calls.rt", "]", "encode"),
];

/// Those that the crate has under the same names, or as a method.
const WRAPPED: [&str; 5] = ["open_datagram", "open_next", "open_packet", "seal_packet", "write_entry"];

/// Functions with a `requires` in lists of names that a module reexports.
const REEXPORTED: [&str; 8] = [
    "open_datagram",
    "open_next",
    "open_packet",
    "seal_packet",
    "write_entry",
    "write_entry_header_into",
    "write_entry_into",
    "write_number_entry_into",
];

/// Methods without a `requires` that only proofs and the libraries for C call.
const FOR_THE_CRATE: [&str; 3] = ["numbers", "of_flags", "type_bounds"];

/// Types, and the traits that they have in Rust beside those of the sources.
const DERIVED: [(&str, &str); 46] = [
    ("Ack", "Hash"),
    ("AckError", "Hash"),
    ("AckFrequency", "Hash"),
    ("ApplicationClose", "Hash"),
    ("CanonBytes", "Clone"),
    ("Checked", "Clone, Debug"),
    ("Close", "PartialEq, Eq, Hash"),
    ("Code", "PartialOrd, Ord, Hash"),
    ("ConnectionClose", "Hash"),
    ("Crypto", "PartialEq, Eq, Hash"),
    ("Cursor", "Clone, Debug"),
    ("Datagram", "PartialEq, Eq, Hash"),
    ("EcnCodepoint", "Hash"),
    ("EcnCounts", "Default, Hash"),
    ("Expected", "Default, Hash"),
    ("Frame", "PartialEq, Eq, Hash"),
    ("FrameType", "PartialOrd, Ord, Hash"),
    ("Header", "Clone, PartialEq, Eq"),
    ("HeaderKind", "Hash"),
    ("InitialHeader", "Clone, PartialEq, Eq"),
    ("InitialPacket", "Clone"),
    ("InvalidFrame", "Hash"),
    ("Iter", "Clone, Debug"),
    ("Keys", "Clone, Debug"),
    ("Level", "Hash"),
    ("LevelKeys", "Clone, Debug"),
    ("LongType", "Hash"),
    ("NewConnectionId", "PartialEq, Eq, Hash"),
    ("NewToken", "PartialEq, Eq, Hash"),
    ("OneRttKeys", "Clone, Debug"),
    ("Opened", "Clone"),
    ("Packet", "Clone"),
    ("PacketNumber", "Hash"),
    ("PacketType", "Hash"),
    ("PartialDecode", "Clone"),
    ("ProtectedHeader", "PartialEq, Eq"),
    ("ProtectedInitialHeader", "PartialEq, Eq"),
    ("ReadOptions", "Hash"),
    ("Receiver", "Clone, Default"),
    ("ResetStream", "PartialEq, Eq, Hash"),
    ("Rules", "Hash"),
    ("SpaceId", "Hash"),
    ("SpaceKeys", "Clone, Debug"),
    ("StopSending", "PartialEq, Eq, Hash"),
    ("Stream", "PartialEq, Eq, Hash"),
    ("StreamMeta", "PartialEq, Eq, Hash"),
];

// Whether a function of a type is renamed.
fn is_renamed(ty: &str, name: &str) -> bool {
    RENAMED.iter().any(|(other, names)| *other == ty && names.contains(&name))
}

/// The calls by a value that are renamed in a source: the token before the `.`, and the method.
pub fn calls_in(file: &str) -> Vec<(&'static str, &'static str)> {
    CALLS.iter().filter(|call| file.ends_with(call.0)).map(|call| (call.1, call.2)).collect()
}

impl<'a> Eraser<'a> {
    /// The function whose `fn` is at `at`: one that users may not call loses its `pub`, and one whose name the crate
    /// needs is renamed. `requires` says whether it has such a clause.
    pub fn guard(&mut self, at: usize, requires: bool) -> Result<()> {
        let source = &self.source;
        let (name, ty) = (source.word(at + 1), self.type_of(at));
        let is_renamed = ty.is_some_and(|ty| is_renamed(ty, name));
        let is_hidden = requires || ty.is_some() && FOR_THE_CRATE.contains(&name);
        if is_renamed && !requires {
            return source.fail(at, "a function that would be renamed and has no `requires`");
        }
        if is_renamed {
            let name = format!("{PREFIX}{name}");
            self.replace("function that the crate guards", at + 1, at + 2, &name);
        }
        if let Some(public) = self.pub_of(at).filter(|_| is_hidden) {
            self.count("function for the crate alone");
            let end = self.source.tokens[public].end;
            self.edit(end, end, "(crate)".to_string());
        }
        Ok(())
    }

    /// What the crate's own function for that at `at` is named after, if there is one: `Type.name` or `name`.
    pub fn guarded(&self, at: usize) -> Option<String> {
        let (name, ty) = (self.source.word(at + 1), self.type_of(at));
        match ty {
            Some(ty) if is_renamed(ty, name) => Some(format!("{ty}.{name}")),
            None if WRAPPED.contains(&name) && self.is_pub(at) => Some(name.to_string()),
            _ => None,
        }
    }

    // The type whose inherent function begins at `at`.
    fn type_of(&self, at: usize) -> Option<&'a str> {
        let source = &self.source;
        let open = source.parent(at).filter(|open| source.word(*open) == "{")?;
        let from = (0..open).rev().find(|at| matches!(source.word(*at), ";" | "{" | "}" | "]")).map_or(0, |at| at + 1);
        let mut head = (from..open).find(|at| source.word(*at) == "impl")? + 1;
        if (head..open).any(|at| source.word(at) == "for") {
            return None;
        }
        let mut depth = 0;
        while head < open {
            match source.word(head) {
                "<" => depth += 1,
                ">" => depth -= 1,
                word if depth == 0 => return Some(word),
                _ => {}
            }
            head += 1;
        }
        None
    }

    /// A function that is renamed, called by its path or by a value.
    pub fn renamed_call(&mut self, at: usize) -> bool {
        let source = &self.source;
        let word = source.word(at);
        if source.are(at + 1, &[":", ":"]) && is_renamed(word, source.word(at + 3)) {
            let name = format!("{PREFIX}{}", source.word(at + 3));
            self.replace("call of a function that the crate guards", at + 3, at + 4, &name);
        } else if source.before(at) == "." && source.word(at + 1) == "(" {
            let receiver = at.checked_sub(2).map_or("", |at| source.word(at));
            if self.paths.renamed.contains(&(receiver, word)) {
                let name = format!("{PREFIX}{word}");
                self.replace("call of a function that the crate guards", at, at + 1, &name);
                return true;
            }
        }
        false
    }

    /// The `use` at `at`: a list with such a function isn't reexported to users.
    pub fn guard_import(&mut self, at: usize, end: usize) {
        let source = &self.source;
        if source.before(at) == "pub" && (at..end).any(|at| REEXPORTED.contains(&source.word(at))) {
            let end = source.tokens[at - 1].end;
            self.count("reexport for the crate alone");
            self.edit(end, end, "(crate)".to_string());
        }
    }

    /// The `derive` whose list opens at `open`: it gets the traits that the type has in Rust.
    pub fn derive(&mut self, open: usize) {
        let source = &self.source;
        let close = source.partner(open);
        let Some(named) = source.find(close, &["struct", "enum"]) else {
            return;
        };
        let ty = source.word(named + 1);
        if let Some((_, traits)) = DERIVED.iter().find(|(other, _)| *other == ty && self.paths.is_library()) {
            // Of a list that has only `Drop` nothing is left.
            let is_empty = !(open + 1..close).any(|at| !matches!(source.word(at), "Drop" | ","));
            let by = if is_empty { traits.to_string() } else { format!(", {traits}") };
            let start = source.tokens[close].start;
            self.count("trait derived");
            self.edit(start, start, by);
        }
    }
}
