//! What is erased, and what is refused.
use crate::lex::{Kind, tokens};
use crate::{Paths, erase, library};
use std::collections::BTreeMap;
use std::path::PathBuf;
use std::{env, fs, process};

fn paths() -> Paths {
    let others = BTreeMap::from([("quic_base".to_string(), "crate::proved::quic_base".to_string())]);
    Paths { own: "crate::proved::mine".into(), others, kit: "crate::kit".into(), ..Paths::default() }
}

fn erased(text: &str) -> String {
    erase(text, &paths()).map(|erased| erased.text).unwrap_or_else(|refusal| panic!("{}: {text}", refusal.why))
}

// The line of the refusal, and its reason.
fn refusal(text: &str) -> (usize, String) {
    match erase(text, &paths()) {
        Ok(erased) => panic!("not refused: {text}\nbut erased: {}", erased.text),
        Err(refusal) => (text[..refusal.at].matches('\n').count() + 1, refusal.why),
    }
}

#[test]
fn a_private_function_keeps_its_clauses_as_comments() {
    let source =
        "fn f(n: u64) -> u64\n    requires { n < 2 ^ 62 }\n    ensures* x { result\n        ≡ n }\n{\n    n\n}\n";
    let rust = "fn f(n: u64) -> u64\n    // requires { n < 2 ^ 62 }\n    // ensures* x { result\n    //     ≡ n }\n\
                {\n    n\n}\n";
    assert_eq!(erased(source), rust);
    assert_eq!(erased(&format!("pub(crate) {source}")), format!("pub(crate) {rust}"));
}

#[test]
fn what_the_crate_guards_has_its_contract() {
    let source = "impl StreamId {\n    pub fn new(n: u64)\n        requires { n\n            < 2 }\n    {\n    }\n\n    \
                  pub fn f()\n        ensures { \u{22a4} }\n    {\n    }\n}\n";
    let Ok(erased) = erase(source, &paths()) else { panic!("{source}") };
    let wanted = BTreeMap::from([("StreamId.new".to_string(), "requires { n\n    < 2 }".to_string())]);
    assert_eq!(erased.contracts, wanted);
}

#[test]
fn a_public_function_documents_its_clauses() {
    assert_eq!(
        erased("/// Doc.\npub fn f(n: u64)\n    requires { n < 2 }\n\n    // Why.\n    ensures { ⊤ }\n{\n    n\n}\n"),
        "/// Doc.\npub(crate) fn f(n: u64) { #![doc = \"# Contract\\n```text\"]\n    //! requires { n < 2 }\n    \
         //!\n    \
         //! // Why.\n    //! ensures { ⊤ }\n    //! ```\n    n\n}\n"
    );
    assert_eq!(
        erased("pub fn law()\n    ensures { ⊤ }\n{}\n"),
        "pub fn law() { #![doc = \"# Contract\\n```text\"]\n    //! ensures { ⊤ }\n    #![doc = \"```\"] }\n"
    );
}

#[test]
fn a_function_that_a_type_has_of_a_trait_documents_its_clauses() {
    assert_eq!(
        erased("impl T for X {\n    fn f()\n        ensures { a }\n    {\n    }\n}\n"),
        "impl T for X {\n    fn f() { #![doc = \"# Contract\\n```text\"]\n        //! ensures { a }\n        \
         //! ```\n    }\n}\n"
    );
}

#[test]
fn a_function_of_a_trait_documents_its_clauses_before_it() {
    assert_eq!(
        erased(
            "trait T {\n    /// Doc.\n    fn f(\n        &self,\n    )\n        requires { \"a\" }\n        \
             ensures { b\n            c };\n}\n"
        ),
        "trait T {\n    /// Doc.\n    #[doc = \"# Contract\\n```text\\nrequires { \\\"a\\\" }\"]\n    \
         /// ensures { b\n    ///     c }\n    #[doc = \"```\"] fn f(\n        &self,\n    );\n}\n"
    );
}

#[test]
fn attributes_stay_before_the_documentation_of_clauses() {
    assert_eq!(
        erased("trait T {\n    #[tactic(auto)]\n    #[inline]\n    fn f()\n        ensures { a };\n}\n"),
        "trait T {\n    // #[tactic(auto)]\n    #[inline]\n    #[doc = \"# Contract\\n```text\\nensures { a }\"]\n    \
         #[doc = \"```\"] fn f();\n}\n"
    );
}

#[test]
fn ghost_items_become_comments_with_their_documentation() {
    assert_eq!(erased("ghost use A.B.{◌≡◌,\n    C};\nfn f() {}\n"), "// ghost use A.B.{◌≡◌,\n//     C};\nfn f() {}\n");
    assert_eq!(erased("ghost use A.B as c;\n"), "// ghost use A.B as c;\n");
    assert_eq!(
        erased("trait T {\n    /// Doc.\n    ghost a: { ℕ } = { 1 };\n\n    fn f();\n}\n"),
        "trait T {\n    // /// Doc.\n    // ghost a: { ℕ } = { 1 };\n\n    fn f();\n}\n"
    );
    assert_eq!(
        erased("struct X {\n    pub ghost a: { ℕ },\n    b: u8,\n}\n"),
        "struct X {\n    // pub ghost a: { ℕ },\n    b: u8,\n}\n"
    );
    assert_eq!(
        erased("impl<'a> Model for X<'a> {\n    ghost use A.{b};\n\n    ghost Value = { ℕ };\n}\nstruct Y;\n"),
        "// impl<'a> Model for X<'a> {\n//     ghost use A.{b};\n//\n//     ghost Value = { ℕ };\n// }\nstruct Y;\n"
    );
    assert_eq!(erased("struct X { ghost a: { b }, c: u8 }\n"), "struct X { c: u8 }\n");
    assert_eq!(erased("ghost use A.{b}; // why { not\nfn f() {}\n"), "// ghost use A.{b}; // why { not\nfn f() {}\n");
}

#[test]
fn a_ghost_ends_where_its_braces_do() {
    assert_eq!(erased("fn f()\n    ensures { \"}\" }\n{}\n"), "fn f()\n    // ensures { \"}\" }\n{}\n");
    assert_eq!(
        erased("fn f()\n    ensures { a // }\n    b }\n{}\n"),
        "fn f()\n    // ensures { a // }\n    // b }\n{}\n"
    );
    assert_eq!(erased("fn f()\n    ensures { x' {y} }\n{ g() }\n"), "fn f()\n    // ensures { x' {y} }\n{ g() }\n");
}

#[test]
fn marks_of_the_prover_go() {
    assert_eq!(
        erased("#[tactic(auto,\n    using(a))]\n#[derive(Debug, Drop)]\nstruct Y<T: A + Drop>(T);\n"),
        "// #[tactic(auto,\n//     using(a))]\n#[derive(Debug)]\nstruct Y<T: A>(T);\n"
    );
    assert_eq!(erased("struct Y<T: Drop + 'static, U: Drop>(T, U);\n"), "struct Y<T: 'static, U>(T, U);\n");
    assert_eq!(erased("use std::marker::{Model, PhantomData};\n"), "use std::marker::{PhantomData};\n");
    assert_eq!(erased("use std::marker::Model;\n"), "// use std::marker::Model;\n");
    assert_eq!(
        erased("    final fn f() {\n        prove!(a);\n    }\n"),
        "    fn f() {\n        debug_assert!(a);\n    }\n"
    );
}

#[test]
fn the_shim_stands_for_libraries() {
    assert_eq!(
        erased("use bytes::Buf;\n\nfn f(alloc: Global) {\n    g(alloc, 1);\n    v.push(2)?;\n}\n"),
        "use crate::kit::prelude::*; use crate::kit::bytes::Buf;\n\nfn f() {\n    g(1);\n    v.kit_push(2)?;\n}\n"
    );
    assert_eq!(
        erased("//! Doc.\n\nuse crate::a;\nuse quic_base::b;\n\nfn f() -> Vec<u8> {\n    Vec::new(rt.alloc())\n}\n"),
        "//! Doc.\nuse crate::kit::prelude::*;\nuse crate::proved::mine::a;\nuse crate::proved::quic_base::b;\n\n\
         fn f() -> Vec<u8> {\n    Vec::new()\n}\n"
    );
    assert_eq!(
        erased("fn fmt<W: fmt::Write>(&self, f: &mut fmt::Formatter<W>) {}\n"),
        "fn fmt(&self, f: &mut fmt::Formatter<'_>) {}\n"
    );
    assert_eq!(
        erased(
            "\n#[test]\nfn t(rt: HostRuntime) {\n    format!(in rt.alloc(); \"{}\", 1)?;\n    \
             println!(rt; \"a\")?;\n}\n"
        ),
        "use crate::kit::prelude::*;\n#[test]\nfn t() { let rt = crate::kit::rt::HostRuntime;\n    \
         crate::kit::fallible_format!(\"{}\", 1)?;\n    crate::kit::host_println!(\"a\")?;\n}\n"
    );
}

#[test]
fn a_function_with_a_condition_is_for_the_crate_alone() {
    assert_eq!(
        erased("impl<'a> Frame<'a> {\n    pub fn encode()\n        requires { a }\n    {\n    }\n}\n"),
        "impl<'a> Frame<'a> {\n    pub(crate) fn proved_encode() { #![doc = \"# Contract\\n```text\"]\n        \
         //! requires { a }\n        //! ```\n    }\n}\n"
    );
    assert_eq!(
        erased("impl X {\n    pub fn type_bounds() {}\n}\n"),
        "impl X {\n    pub(crate) fn type_bounds() {}\n}\n"
    );
    assert_eq!(erased("pub fn type_bounds() {}\n"), "pub fn type_bounds() {}\n");
    assert_eq!(erased("pub use a::{B, open_packet};\n"), "pub(crate) use a::{B, open_packet};\n");
    assert_eq!(erased("use a::{B, open_packet};\n"), "use a::{B, open_packet};\n");
}

#[test]
fn a_function_that_is_renamed_is_called_by_its_new_name() {
    let one = erased("\nfn f() {\n    StreamId::new(1);\n    a::StreamId::new(2);\n    X::new(3);\n}\n");
    assert_eq!(one, "\nfn f() {\n    StreamId::proved_new(1);\n    a::StreamId::proved_new(2);\n    X::new(3);\n}\n");
    let renamed = vec![("header", "encode"), ("]", "encode")];
    let rust = erase(
        "fn f() {\n    header.encode();\n    x[0].encode();\n    y.encode();\n}\n",
        &Paths { renamed, ..paths() },
    );
    let wanted = "fn f() {\n    header.proved_encode();\n    x[0].proved_encode();\n    y.encode();\n}\n";
    assert_eq!(rust.map(|erased| erased.text).unwrap_or_default(), wanted);
    let renamed = vec![("header", "encode")];
    assert!(erase("fn f() {}\n", &Paths { renamed, ..paths() }).is_err(), "a call that isn't there");
    assert_eq!(
        refusal("impl Frame {\n    pub fn encode() {}\n}\n"),
        (2, "a function that would be renamed and has no `requires`".to_string())
    );
}

#[test]
fn types_have_the_traits_that_rust_users_expect() {
    assert_eq!(
        erased("#[derive(Drop)]\npub struct Keys<H>(H);\n"),
        "#[derive(Clone, Debug)]\npub struct Keys<H>(H);\n"
    );
    assert_eq!(
        erased("#[derive(Clone, Copy)]\n#[must_use]\nenum Close {}\n"),
        "#[derive(Clone, Copy, PartialEq, Eq, Hash)]\n#[must_use]\nenum Close {}\n"
    );
    assert_eq!(erased("#[derive(Clone)]\npub struct Other;\n"), "#[derive(Clone)]\npub struct Other;\n");
    let tests = Paths { own: "crate::tested::mine".into(), ..paths() };
    let kept = erase("#[derive(Drop)]\nstruct Keys;\n", &tests).map(|erased| erased.text).unwrap_or_default();
    assert_eq!(kept, "#[derive()]\nstruct Keys;\n");
}

// Forms of ghosts that aren't known, or have lost a part.
const GHOSTS: [(&str, usize, &str); 29] = [
    ("fn f() {\n    ghost let x = 1;\n}", 2, "a ghost item that isn't"),
    ("fn f() {\n    ghost { x }\n}", 2, "a ghost item without a name"),
    ("ghost fn f() {}", 1, "a ghost item that isn't"),
    ("ghost a: { ℕ }\nfn f() {}", 1, "a ghost item that isn't"),
    ("trait T {\n    ghost a: ℕ;\n}", 2, "a ghost region without braces"),
    ("ghost use A.{b}\nuse c::d;", 1, "a `ghost use` that isn't"),
    ("ghost use A.{b;\nuse c::d;", 1, "a ghost region without its closing brace"),
    ("ghost use A as b\nuse c::d;", 1, "a `ghost use` that isn't"),
    ("#[cfg(test)]\nghost use A.{b};\nfn f() {}", 1, "an attribute of a ghost item"),
    ("/// Doc.\nghost use A.{b};\nfn f() {}", 2, "a `ghost use` with documentation"),
    ("trait T {\n    #[inline]\n    ghost a: { b };\n}", 2, "an attribute of a ghost item"),
    ("struct X { ghost a: { b\n}, c: u8 }", 1, "a ghost region of several lines"),
    ("fn f()\n    requires a\n{}\nfn g() {}", 4, "a clause that isn't followed by a body"),
    ("fn f()\n    requires { a\n{}", 2, "a ghost region without its closing brace"),
    ("fn f()\n    requires { a }}\n{}", 2, "a bracket without its partner"),
    ("fn f()\n    requires { a }\nstruct X;", 3, "a clause that isn't followed by a body"),
    ("fn f() requires { a } {}", 1, "a clause that shares a line with code"),
    ("fn f()\n    requires { a } {}", 2, "a clause that shares a line with code"),
    ("fn f()\n    requires { a } ensures { b }\n{}", 2, "a clause that shares a line with code"),
    ("fn f() {\n    requires { a }\n}", 2, "a clause that doesn't follow a function's signature"),
    ("fn f() { x.requires(1) }", 1, "a clause that isn't"),
    ("fn f()\n    ensures { a };", 1, "a function with clauses and without a body in no trait"),
    ("pub fn f()\n    ensures { ``` }\n{}", 2, "a clause that would end its section"),
    ("fn f()\n    ensures { '}' }\n{}", 2, "a quoted brace in a ghost region"),
    ("impl Model for X {\n    fn f() {}\n}", 2, "code in an `impl Model`"),
    ("/// Doc.\nimpl Model for X {}", 2, "an `impl Model` with documentation"),
    ("impl Model for X;", 1, "an `impl Model` without a body"),
    ("fn f<T: Model>() {}", 1, "`Model` would be left"),
    ("fn g(alloc: Global) {\n    g(alloc, 1);\n}\nfn f<T: Model>() {}", 4, "`Model` would be left"),
];

#[test]
fn half_a_ghost_is_refused() {
    for (text, line, why) in GHOSTS {
        let (at, said) = refusal(text);
        assert!(at == line && said.starts_with(why), "{text}\n  line {at}: {said}, not line {line}: {why}");
    }
}

const OTHERS: [(&str, &str); 25] = [
    ("fn f() { let é = 1; }", "a character that isn't Rust's"),
    ("fn f() { vec![1] }", "a macro that isn't known"),
    ("fn f() { r\"a\" }", "a raw string"),
    ("fn f() { br#\"a\"# }", "a raw string"),
    ("fn f() { \"a }", "a string without its end"),
    ("fn f() { '\\n }", "a character without its end"),
    ("fn f() { /* ghost */ }", "a block comment"),
    ("fn f() { ( }", "a bracket without its partner"),
    ("fn f() { }}", "a bracket without its partner"),
    ("#[deprecated] struct X;", "an attribute that isn't known"),
    ("# fn f() {}", "a `#` without an attribute"),
    ("impl Drop for X { fn drop(self) {} }", "a `Drop` that is no bound"),
    ("fn f() -> Box<Global> {}", "`Global` would be left"),
    ("fn f() { x.allocator() }", "`allocator` would be left"),
    ("fn f() { format!(in alloc) }", "a `format!` of an unknown form"),
    ("use std::fmt", "a `use` without its end"),
    ("impl X { pub fn push(&mut self) {} }", "a public method that would be renamed"),
    ("#[cfg(unix)]\nfn f() {}", "a `cfg` that isn't `cfg(test)`"),
    ("fn f() { g(a.map(T::clone)) }", "a `clone` by its path"),
    ("fn f() { (250u8..).take(9) }", "a range without an end"),
    ("fn f() { S { a: 1, ..v[0] } }", "fields from an indexed value"),
    ("fn f() { size_of::<u8>() }", "the size of a type"),
    ("use std::thread;", "a thread"),
    ("fn f(x: &dyn T) {}", "a trait object"),
    ("fn f() { unsafe { g() } }", "unsafe code"),
];

#[test]
fn what_no_rule_knows_is_refused() {
    for (text, why) in OTHERS {
        let (_, said) = refusal(text);
        assert!(said.starts_with(why), "{text}: {said}, not: {why}");
    }
}

// A repository with one crate, whose root is this text; it is removed at the end.
struct Repository(PathBuf);

impl Repository {
    fn new(root: &str) -> Repository {
        let top = env::temp_dir().join(format!("eraser-{}-{}", process::id(), root.len()));
        let source = top.join("crates/quic_wire/src");
        fs::create_dir_all(&source).expect("a folder");
        fs::write(source.join("lib.rt"), root).expect("a source");
        fs::write(top.join("crates.txt"), "# The crates.\nquic_wire: bytes\n").expect("the crates");
        Repository(top)
    }
}

impl Drop for Repository {
    fn drop(&mut self) {
        let _ = fs::remove_dir_all(&self.0);
    }
}

#[test]
fn a_refusal_names_file_line_and_column() {
    let top = Repository::new("//! Doc.\n\nfn f() {\n    vec![1]\n}\n");
    let said = library(&top.0).err();
    assert_eq!(said.as_deref(), Some("crates/quic_wire/src/lib.rt:4:5: a macro that isn't known"));
}

#[test]
fn a_file_names_its_source() {
    let top = Repository::new("//! Doc.\n");
    let tree = library(&top.0).unwrap_or_else(|why| panic!("{why}"));
    let names: Vec<_> = tree.files.keys().map(|path| path.display().to_string()).collect();
    assert_eq!(names, ["mod.rs", "quic_wire/mod.rs"], "the files");
    let text = &tree.files[&PathBuf::from("quic_wire/mod.rs")];
    assert_eq!(text, "// Generated by scripts/erase from crates/quic_wire/src/lib.rt. Don't edit it.\n//! Doc.\n");
    assert!(tree.files[&PathBuf::from("mod.rs")].ends_with("\npub mod quic_wire;\n"), "the modules");
}

// Each form of a ghost, between code.
const ALL_GHOSTS: &str = "\
ghost use A.B.{◌≡◌, c};
ghost use A.B as d;
use std::fmt;

#[tactic(auto, using(a::b))]
pub struct X {
    ghost a: { ℕ → { y } },
    b: u8,
}

impl Model for X {
    ghost Value = { ℕ };
}

pub trait T {
    /// Doc.
    ghost law: { (n : ℕ) → n ≡ n } = { refl };

    fn f(&self) -> u8
        requires a { b ≡ { c } }
        ensures { d };
}

pub fn g(x: u8) -> u8
    requires { x < 2 }
    ensures* e { { x } ≡ \"}\" }
{
    let y = { x };
    h(y)
}

fn h(x: u8) -> u8
    ensures { x ≡ result }
{
    x
}
";

// The code of a Rust text: its tokens, without documentation.
fn code(text: &str) -> Vec<&str> {
    let tokens = tokens(text).unwrap_or_default();
    let words: Vec<&str> = tokens
        .iter()
        .filter(|token| !matches!(token.kind, Kind::Doc | Kind::InnerDoc))
        .map(|token| &text[token.start..token.end])
        .collect();
    words.into_iter().filter(|word| !word.starts_with("\"# Contract")).collect()
}

// How many of the texts that lack one mark of a ghost are refused, and of how many the code is the same. No other is
// allowed: a ghost takes no code with it, and leaves none.
fn with_a_mark_less(name: &str, text: &str) -> (usize, usize) {
    let whole = erased(text);
    let is_ghost = |kind| matches!(kind, Kind::GhostUse | Kind::GhostMember | Kind::Clause);
    let ghosts = tokens(text).unwrap_or_default().into_iter().filter(|token| is_ghost(token.kind));
    let (mut refused, mut same) = (0, 0);
    for at in ghosts.flat_map(|ghost| ghost.start..ghost.end) {
        if b"{};:=,*\"".contains(&text.as_bytes()[at]) {
            match erase(&format!("{}{}", &text[..at], &text[at + 1..]), &paths()) {
                Err(_) => refused += 1,
                Ok(erased) if code(&erased.text) == code(&whole) => same += 1,
                Ok(_) => panic!("{name}:{}: other code without this mark", text[..at].matches('\n').count() + 1),
            }
        }
    }
    (refused, same)
}

#[test]
fn a_ghost_with_a_mark_less_takes_no_code_with_it() {
    let (refused, same) = with_a_mark_less("the sample", ALL_GHOSTS);
    assert!(refused > 30 && same > 0, "{refused} refused, {same} the same");
}

// The same for the sources themselves.
#[test]
fn no_ghost_of_the_sources_with_a_mark_less_takes_code_with_it() {
    let crates = PathBuf::from(concat!(env!("CARGO_MANIFEST_DIR"), "/../../crates"));
    let mut todo: Vec<PathBuf> = fs::read_dir(&crates)
        .expect("the crates")
        .map(|entry| entry.expect("a crate").path())
        .filter(|at| at.file_name().is_some_and(|name| !is_for_c(&name.to_string_lossy())))
        .map(|at| at.join("src"))
        .collect();
    let (mut files, mut refused, mut same) = (0, 0, 0);
    while let Some(at) = todo.pop() {
        if at.is_dir() {
            todo.extend(fs::read_dir(&at).expect("a folder").map(|entry| entry.expect("an entry").path()));
        } else if at.extension().is_some_and(|extension| extension == "rt") {
            let text = fs::read_to_string(&at).expect("a source");
            let found = with_a_mark_less(&at.display().to_string(), &text);
            (files, refused, same) = (files + 1, refused + found.0, same + found.1);
        }
    }
    assert!(files > 200 && refused > 5000, "{files} files, {refused} refused, {same} the same");
}

// The libraries for C aren't erased.
fn is_for_c(name: &str) -> bool {
    name == "quic_c" || name.starts_with("quic_c_")
}
