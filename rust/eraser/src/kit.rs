//! Where Rattle's libraries differ from Rust's: allocators that are passed, calls that can fail, the handle of the
//! runtime, and where modules are found.
use crate::erase::Eraser;
use crate::lex::{Kind, Result};

/// Libraries of which the shim has its own modules.
const PORTS: [&str; 5] = ["bytes", "smallvec", "thiserror", "bstr", "hex"];

/// Modules of Rattle's `std` for which the shim stands.
const KIT_STD: [&str; 5] = ["alloc", "test", "env", "fs", "rt"];

/// Methods that return a `Result` in Rattle, since they allocate, but not in Rust.
const FALLIBLE: [&str; 12] = [
    "push",
    "push_str",
    "extend_from_slice",
    "reserve",
    "resize",
    "clone",
    "slice",
    "split_to",
    "split_off",
    "freeze",
    "collect",
    "repeat",
];

/// The same where the call's error is mapped: the sources have methods of their own of these names.
const FALLIBLE_IF_MAPPED: [&str; 1] = ["insert"];

/// The same for functions of a type, and functions that are newer than the oldest Rust that is to compile this.
const FUNCTIONS_OF: [(&str, &str); 8] = [
    ("Vec", "with_capacity"),
    ("String", "from_str"),
    ("Bytes", "copy_from_slice"),
    ("BytesMut", "copy_from_slice"),
    ("BytesMut", "from_vec"),
    ("BufWriter", "new"),
    ("Ipv4Addr", "from_octets"),
    ("Ipv6Addr", "from_octets"),
];

/// Macros that are as in Rust, or of the file's own, and those of Rattle for which there is a rule.
const MACROS: [&str; 10] =
    ["unreachable", "write", "writeln", "matches", "format_args", "format", "println", "prove", "macro_rules", "twice"];

// The parameter of a function that the runtime calls.
const HANDLE: [&str; 5] = ["(", "rt", ":", "HostRuntime", ")"];

impl Eraser<'_> {
    /// A name: a path, a method, or the parameters of a formatter.
    pub fn of_name(&mut self, at: usize) -> Result<usize> {
        let source = &self.source;
        let (word, before, next) = (source.word(at), source.before(at), source.word(at + 1));
        if word == "fmt" && source.are(at + 1, &["<", "W", ":", "fmt", ":", ":", "Write", ">"]) {
            self.remove("fmt<W: fmt::Write>", at + 1, at + 9);
            return Ok(at + 9);
        }
        if word == "Formatter" && source.are(at + 1, &["<", "W", ">"]) {
            self.replace("Formatter<W>", at + 2, at + 3, "'_");
            return Ok(at + 4);
        }
        if self.renamed_call(at) {
            return Ok(at + 1);
        }
        let source = &self.source;
        if self.is_path_head(at) {
            self.path(at);
        } else if before == "." && next == "(" && self.is_fallible(at) {
            self.replace("call of a method that can fail", at, at + 1, &format!("kit_{word}"));
        } else if before == "fn" && FALLIBLE.contains(&word) && self.has_self(at + 1) {
            if self.is_pub(at - 1) {
                return source.fail(at, "a public method that would be renamed");
            }
            // A `reserve` that is defined is a buffer's; one that is called is a vector's.
            let name = if word == "reserve" { "make_room" } else { word };
            self.replace("method that can fail", at, at + 1, &format!("kit_{name}"));
        }
        Ok(at + 1)
    }

    // Whether the method that is called here is one that is renamed.
    fn is_fallible(&self, at: usize) -> bool {
        let word = self.source.word(at);
        FALLIBLE.contains(&word)
            || FALLIBLE_IF_MAPPED.contains(&word) && self.source.are(self.source.partner(at + 1) + 1, &[".", "map_err"])
    }

    // Whether the parameters that begin here are a method's.
    fn has_self(&self, open: usize) -> bool {
        self.source.word(open) == "(" && (open + 1..open + 4).any(|at| self.source.word(at) == "self")
    }

    /// A `use`, without the names that Rust doesn't have.
    pub fn import(&mut self, at: usize) -> Result<usize> {
        let source = &self.source;
        let Some(end) = source.find(at, &[";"]) else {
            return source.fail(at, "a `use` without its end");
        };
        self.guard_import(at, end);
        let source = &self.source;
        let whole = ["std :: marker :: Model ;", "std :: alloc :: Global ;"];
        let words: Vec<&str> = (at + 1..=end).map(|at| source.word(at)).collect();
        if whole.contains(&words.join(" ").replace(": :", "::").as_str()) {
            self.comment_out("use of a ghost or an allocator", at, end + 1)?;
            return Ok(end + 1);
        }
        let mut inside = at + 1;
        while inside < end {
            if matches!(self.source.word(inside), "Model" | "Global") {
                self.listed("use of a ghost or an allocator", inside)?;
            } else if self.source.kind(inside) == Some(Kind::Word) && self.is_path_head(inside) {
                self.path(inside);
            }
            inside += 1;
        }
        Ok(end + 1)
    }

    // Whether a path of several names begins here.
    fn is_path_head(&self, at: usize) -> bool {
        let source = &self.source;
        source.are(at + 1, &[":", ":"]) && !(at > 1 && source.are(at - 2, &[":", ":"]))
    }

    fn path(&mut self, at: usize) {
        let (head, next, kit) = (self.source.word(at), self.source.word(at + 3), &self.paths.kit);
        if head == "crate" {
            let own = self.paths.own.clone();
            self.replace("path of the crate", at, at + 1, &own);
        } else if let Some(path) = self.paths.others.get(head).cloned() {
            self.replace("path of another crate", at, at + 1, &path);
        } else if PORTS.contains(&head) {
            self.replace("path of a library", at, at + 1, &format!("{kit}::{head}"));
        } else if head == "std" && (KIT_STD.contains(&next) || self.source.are(at + 3, &["io", ":", ":", "Cursor"])) {
            self.replace("path of Rattle's std", at, at + 1, &kit.clone());
        } else if FUNCTIONS_OF.contains(&(head, next)) {
            self.replace("call of a function that can fail", at + 3, at + 4, &format!("kit_{next}"));
        }
    }

    // The token behind the allocator that begins here: `alloc`, `rt.alloc()` or `*x.allocator()`.
    fn allocator(&self, at: usize) -> Option<usize> {
        let source = &self.source;
        if source.word(at) == "alloc" && !matches!(source.word(at + 1), "." | ":" | "(" | "=") {
            return Some(at + 1);
        }
        if source.are(at, &["rt", ".", "alloc", "(", ")"]) {
            return Some(at + 5);
        }
        let mut end = at + 1;
        while source.word(at) == "*" && source.kind(end) == Some(Kind::Word) && source.word(end + 1) == "." {
            if source.are(end + 2, &["allocator", "(", ")"]) {
                return Some(end + 5);
            }
            end += 2;
        }
        None
    }

    // The token behind an allocator that is passed, or that is a parameter or a field.
    fn passed(&self, at: usize) -> Option<usize> {
        let is_named = self.source.are(at, &["alloc", ":", "Global"]);
        if is_named { Some(at + 3) } else { self.allocator(at) }
    }

    /// Whether an allocator stands here as an argument, a parameter or a field.
    pub fn is_argument(&self, at: usize) -> bool {
        matches!(self.source.before(at), "(" | "," | "{")
            && self.passed(at).is_some_and(|end| matches!(self.source.word(end), "," | ")" | "}"))
    }

    /// Removes it, with a comma.
    pub fn argument(&mut self, at: usize) -> Result<usize> {
        let Some(end) = self.passed(at) else {
            return self.source.fail(at, "an allocator of an unknown form");
        };
        if self.source.word(end) == "," {
            self.remove("allocator passed", at, end + 1);
            return Ok(end + 1);
        }
        let from = if self.source.before(at) == "," { at - 1 } else { at };
        self.remove("allocator passed", from, end);
        Ok(end)
    }

    /// Whether `let alloc = rt.alloc();` begins here.
    pub fn is_allocator_bound(&self, at: usize) -> bool {
        self.source.are(at + 1, &["alloc", "=", "rt", ".", "alloc", "(", ")", ";"])
    }

    /// A function that the runtime calls, a test or `main`, makes the handle in its body.
    pub fn handle(&mut self, at: usize) -> Result<()> {
        let source = &self.source;
        let is_main = source.word(at + 1) == "main";
        let is_test = at >= 4 && source.are(at - 4, &["#", "[", "test", "]"]);
        if !is_main && !is_test || !source.are(at + 2, &HANDLE) {
            return Ok(());
        }
        let Some(open) = source.find(at, &["{"]) else {
            return source.fail(at, "a function without a body");
        };
        self.remove("handle of the runtime", at + 3, at + 6);
        if is_main {
            self.insert(at, "pub ".to_string());
        }
        let behind = self.source.tokens[open].end;
        self.edit(behind, behind, format!(" let rt = {}::rt::HostRuntime;", self.paths.kit));
        Ok(())
    }

    /// A macro.
    pub fn call_macro(&mut self, at: usize) -> Result<usize> {
        let source = &self.source;
        let (name, open, kit) = (source.word(at), at + 2, &self.paths.kit);
        if !MACROS.contains(&name) {
            return source.fail(at, "a macro that isn't known");
        }
        if name == "prove" {
            self.replace("prove!", at, at + 1, "debug_assert");
        } else if name == "format" && source.word(open + 1) == "in" {
            let Some(end) = source.find(open, &[";"]).filter(|end| *end < source.partner(open)) else {
                return source.fail(at, "a `format!` of an unknown form");
            };
            self.replace("format! in an allocator", at, at + 1, &format!("{kit}::fallible_format"));
            self.remove("allocator passed", open + 1, end + 1);
            return Ok(end + 1);
        } else if name == "println" && source.are(open + 1, &["rt", ";"]) {
            self.replace("println! by a handle", at, at + 1, &format!("{kit}::host_println"));
            self.remove("handle passed", open + 1, open + 3);
            return Ok(open + 3);
        }
        Ok(open + 1)
    }
}
