#!/usr/bin/env python3
"""A second opinion on rust/eraser, by other means: what each Rust file has to be is made again from its source by the
rules of this file, and compared token by token and line by line. Clauses and other ghosts must be comments or
documentation, unchanged. With --mutants, N changes of one token or comment, each made alone at a place that SEED
chooses, must be noticed.

scripts/lib/check_erased.py [--mutants N] [--seed SEED] library|checks FOLDER

FOLDER has what `erase library` or `erase checks` wrote.
Exit status: 0 all files are right, and each mutant was noticed; 1 not so; 2 usage error.
"""
import argparse
import collections
import pathlib
import random
import re
import sys

TOP = pathlib.Path(__file__).resolve().parents[2]
TOKEN = re.compile(
    r"""(?P<comment>//[^\n]*)|(?P<literal>b?"(?:[^"\\]|\\[\s\S])*"|b?'(?:[^'\\\n]|\\[^\n]{1,9}?)')"""
    r"""|'\w+|\d\w*(?:\.\d\w*)?|\w+|::|[^\s\w]"""
)
PASSED = r'//[^\n]*|"(?:[^"\\]|\\[\s\S])*"'
GHOST = re.compile(
    PASSED + r"|^impl(?:<[^>]*>)? Model for\b|#!?\[(?:tactic|cycle)\b|\b(?:pub\s+)?ghost\b|\b(?:requires|ensures)\b",
    re.M,
)
HEAD = re.compile(r" *(pub |pub\([^)]*\) |)(?:final )?(?:const )?fn \w")

ALLOCATOR = r"(?:alloc : Global|alloc|rt \. alloc \( \)|\* (?:\w+ \. )+allocator \( \))"
FALLIBLE = "push|push_str|extend_from_slice|reserve|resize|clone|slice|split_to|split_off|freeze|collect|repeat"
OF_TYPES = (
    r"Vec :: (?=with_capacity)|String :: (?=from_str)|Bytes(?:Mut)? :: (?=copy_from_slice)|BytesMut :: (?=from_vec)"
    r"|BufWriter :: (?=new)|Ipv[46]Addr :: (?=from_octets)"
)
IN_BRACKETS = r"\( [^()]*(?:\( [^()]*\) [^()]*)*\)"
MAPPED = IN_BRACKETS + r" \. map_err\b"

# What differs besides ghosts: tokens of the source, and what stands in their place: §kit, §own and §all are the paths
# of the shim, of the crate, and of the other crates.
RULES = [
    (r"let alloc = rt \. alloc \( \) ;", ""),
    (r"\bformat ! \( in (?:alloc|rt \. alloc \( \)) ;", "§kit :: fallible_format ! ("),
    (r"\bprintln ! \( rt ;", "§kit :: host_println ! ("),
    (rf"([(,{{] ){ALLOCATOR} ,", r"\1"),
    (rf", {ALLOCATOR}(?= [)}}])", ""),
    (rf"([({{] ){ALLOCATOR}(?= [)}}])", r"\1"),
    (r"use std :: (?:marker :: Model|alloc :: Global) ;", ""),
    (r"\b(?:Model|Global) ,", ""),
    (r", (?:Model|Global)\b", ""),
    (r"\+ Drop\b", ""),
    (r": Drop(?= [,>{])", ""),
    (r"\bDrop [,+]", ""),
    (r", Drop(?= \))", ""),
    (r"(\( )Drop(?= \))", r"\1"),
    (r"\bfinal(?= fn\b)", ""),
    (r"\bfmt < W : fmt :: Write >", "fmt"),
    (r"\bFormatter < W >", "Formatter < '_ >"),
    (r"\bprove !", "debug_assert !"),
    (r"(# \[ test \] fn \w+ \( )rt : HostRuntime( [^{]*\{)", r"\1\2 let rt = §kit :: rt :: HostRuntime ;"),
    (r"(fn main \( )rt : HostRuntime( [^{]*\{)", r"pub \1\2 let rt = §kit :: rt :: HostRuntime ;"),
    (rf"(\. )({FALLIBLE})(?= \()", r"\1kit_\2"),
    (rf"(\. )insert(?= {MAPPED})", r"\1kit_insert"),
    (r"\b(fn )reserve(?= \( (?:& )?(?:mut )?self\b)", r"\1kit_make_room"),
    (rf"\b(fn )({FALLIBLE})(?= \( (?:& )?(?:mut )?self\b)", r"\1kit_\2"),
    (rf"\b({OF_TYPES})", r"\1kit_"),
    (r"(?<!::\s)\bcrate(?= ::)", "§own"),
    (r"(?<!::\s)\b(quic_\w+)(?= ::)", r"§all\1"),
    (r"(?<!::\s)\b(bytes|smallvec|thiserror|bstr|hex)(?= ::)", r"§kit :: \1"),
    (r"(?<!::\s)\bstd(?= :: (?:(?:alloc|test|env|fs|rt)\b|io :: Cursor\b))", "§kit"),
]

# What only the Rust file has: the section of a contract, within a body or before a function of a trait.
BEGIN = r'doc = "#␣Contract\\n```text'
ADDED = [
    (rf'(\{{ )# ! \[ {BEGIN}" \]', r"\1"),
    (r'# ! \[ doc = "```" \](?= \})', ""),
    (rf'# \[ {BEGIN}\\n(?:[^"\\]|\\.)*" \] # \[ doc = "```" \]', ""),
]
INTO = str.maketrans(" \n\t", "␣␤␉")


# Functions that the crate guards by functions of their names, by their types.
PREFIX = "proved_"
GUARDED = {
    "Ack": "encode encode_from from_parts",
    "ApplicationClose": "encode min_len",
    "Close": "encode min_len",
    "ConnectionClose": "encode min_len",
    "ConnectionId": "from_buf new",
    "Crypto": "encode",
    "Datagram": "encode size",
    "EcnCounts": "encode",
    "FixedLengthConnectionIdParser": "new",
    "Frame": "encode encode_body_into encode_into encoded_len",
    "Header": "encode encoded_len",
    "NewConnectionId": "encode",
    "NewToken": "encode size",
    "PacketNumber": "decode encode expand new",
    "Packets": "open_next",
    "PartialDecode": "finish",
    "PartialEncode": "finish",
    "ReservedTransportParameter": "new",
    "StreamId": "new",
    "StreamMeta": "encode",
}
# How they are called by values, in each source.
CALLED = {
    "quic_canon/src/canonical.rt": r"frame \. encode|frame \. encoded_len",
    "quic_frame_fields/src/frame/ack_encode.rt": r"counts \. encode",
    "quic_frame_fields/src/frame/encode.rt": r"close \. encode|close \. min_len|self \. min_len",
    "quic_frames/src/frame/encode.rt": r"crypto \. encode|new \. encode|token \. encode|token \. size",
    "quic_levels/src/opening.rt": r"\) \. expand",
    "quic_packets/src/opening.rt": r"\) \. expand",
    "quic_packets/src/payload.rt": r"\] \. encoded_len|frame \. encode",
    "quic_packets/src/seal.rt": r"header \. encode|header \. encoded_len|partial \. finish",
    "quic_wire/src/calls.rt": r"\] \. encode",
}
# Lists of names with functions that users may not call, and methods that they need not.
HIDDEN = r"\b(?:open_datagram|open_next|open_packet|seal_packet|write_(?:number_)?entry(?:_header)?(?:_into)?)\b"
# Those that the crate has under the same names, or as a method; and what stands before a contract in its documentation.
WRAPPED = ("open_datagram", "open_next", "open_packet", "seal_packet", "write_entry")
BEFORE_CONTRACT = """
# What is proved

It checks what is required, and calls a proved function with this contract:

"""
UNNEEDED = ("numbers", "of_flags", "type_bounds")
# The traits that types have in Rust beside those of the sources.
DERIVED = {
    "Clone": "CanonBytes InitialPacket Opened Packet PartialDecode",
    "Clone, Debug": "Checked Cursor Iter Keys LevelKeys OneRttKeys SpaceKeys",
    "Clone, Default": "Receiver",
    "Clone, PartialEq, Eq": "Header InitialHeader",
    "Default, Hash": "EcnCounts Expected",
    "Hash": "Ack AckError AckFrequency ApplicationClose ConnectionClose EcnCodepoint HeaderKind InvalidFrame Level "
    "LongType PacketNumber PacketType ReadOptions Rules SpaceId",
    "PartialEq, Eq": "ProtectedHeader ProtectedInitialHeader",
    "PartialEq, Eq, Hash": "Close Crypto Datagram Frame NewConnectionId NewToken ResetStream StopSending Stream "
    "StreamMeta",
    "PartialOrd, Ord, Hash": "Code FrameType",
}
KINDS = ("struct", "enum")
DERIVED = {f"{kind} {name}": by for by, names in DERIVED.items() for name in names.split() for kind in KINDS}


def compiled(rules):
    return [(re.compile(pattern.replace(" ", r"\s+")), by) for pattern, by in rules]


RULES, ADDED = compiled(RULES), compiled(ADDED)


def by_rules(text, rules):
    """Applies rules to tokens; each line end stays."""

    def replaced(m, by):
        made = m.expand(by)
        return made + "\n" * (m[0].count("\n") - made.count("\n"))

    for pattern, by in rules:
        text = pattern.sub(lambda m, by=by: replaced(m, by), text)
    return text


def closed(text, at, pair="{}"):
    """The end of the first pair of brackets from `at` on."""
    depth = 0
    for m in re.compile(PASSED + "|[" + re.escape(pair) + "]").finditer(text, at):
        depth += (m[0] == pair[0]) - (m[0] == pair[1])
        if m[0] in pair and depth == 0:
            return m.end()
    raise ValueError("a ghost without its end")


def without_ghosts(text):
    """The source with only the line ends of its ghosts; the lines of its clauses, and those of its other ghosts."""
    out, at, lines = [], 0, ([], [])
    for m in GHOST.finditer(text):
        if m.start() < at or m[0][0] in '/"':
            continue
        is_clause = m[0] in ("requires", "ensures")
        if m[0][0] == "#":
            end = closed(text, m.start(), "[]")
        elif is_clause or m[0].startswith("impl"):
            end = closed(text, m.end())
        elif re.match(r"\s+use\b", text[m.end() :]):
            end = text.index(";", m.end()) + 1
        else:
            end = m.end()
            while text[end] not in ";,":
                end = closed(text, end) if text[end] == "{" else end + 1
            end += 1
        # A ghost member goes with its documentation.
        documented = re.search(r"(?:^ *///[^\n]*\n)* *\Z", text[: m.start()], re.M) if "ghost" in m[0] else None
        start = documented.start() if documented else m.start()
        lines[not is_clause].extend(range(text.count("\n", 0, start), text.count("\n", 0, end) + 1))
        out.append(text[at : m.start()] + "\n" * text.count("\n", m.start(), end))
        at = end
    return "".join(out) + text[at:], lines[0], lines[1]


def tokens(text):
    """The tokens of each line with spaces between them, and the comment of each line. A literal is one token."""
    found, comments, line, at = collections.defaultdict(list), {}, 0, 0
    for m in TOKEN.finditer(text):
        line, at = line + text.count("\n", at, m.start()), m.start()
        if m["comment"]:
            comments[line] = m[0]
        else:
            found[line].append(m[0].translate(INTO) if m["literal"] else m[0])
    return "\n".join(" ".join(found[line]) for line in range(text.count("\n") + 1)), comments


class File:
    """A source, and what is known of the Rust file."""

    def __init__(self, source, rust, kit, own, others):
        self.rust, self.name, self.kit = rust, source.relative_to(TOP).as_posix(), kit
        text = source.read_text(encoding="utf-8")
        code, clauses, self.ghosts = without_ghosts(text)
        self.lines = text.split("\n")
        joined, self.comments = tokens(code)
        joined = self.guarded(joined, own.startswith("crate::proved"))
        joined = re.sub(r"§all(\w+)", lambda m: others(m[1]), by_rules(joined, RULES))
        joined = joined.replace("§own", own).replace("§kit", kit)
        self.wanted = [line.replace("::", " :: ").split() for line in joined.split("\n")]
        self.heads, self.shown = {}, {}
        for line in clauses:
            self.add_head(line)
        self.restrict()

    def guarded(self, joined, is_library):
        """The tokens with the names of functions that the crate guards, and with the traits that types have in Rust."""
        for ty, names in GUARDED.items():
            joined = re.sub(rf"\b({ty}\s+::\s+)(?=(?:{names.replace(' ', '|')})\b)", rf"\1{PREFIX}", joined)
        for file, calls in CALLED.items():
            if self.name.endswith(file):
                joined = re.sub(rf"({calls})(?= \()", lambda m: PREFIX.join(re.split(r"(?<=\. )", m[0])), joined)
        if is_library:
            joined = re.sub(
                r"(\bderive \( )([^)]*)(\) \](?:\s+# \[ [^\]]*\])*\s+(?:pub )?(?:\( crate \) )?)((?:struct|enum) \w+)",
                lambda m: m[1] + self.derived(m[2], DERIVED.get(m[4])) + m[3] + m[4],
                joined,
            )
        return re.sub(r"\bpub(?= use [^;]*" + HIDDEN + ")", "pub ( crate )", joined)

    @staticmethod
    def derived(names, by):
        if by is None:
            return names
        kept = [name for name in names.replace(" ", "").split(",") if name not in ("", "Drop")]
        return " , ".join(kept + by.split(", ")) + " "

    def restrict(self):
        """Renames the functions that the crate guards, and restricts those that users may not call."""
        ty = None
        for at, line in enumerate(self.lines):
            if m := re.match(r"impl(?:<[^>]*>)? ([\w:]+)(?:<.*>)? \{$", line):
                ty = m[1]
            elif line == "}":
                ty = None
            if not (m := re.match(r" *(pub )?(?:final )?(?:const )?fn (\w+)", line)) or "fn" not in self.wanted[at]:
                continue
            wanted, name = self.wanted[at], m[2]
            end, clause = self.heads.get(at, (at, at))
            requires = any(re.match(r" *requires\b", one) for one in self.lines[at + 1 : end + 1] if clause != at)
            if ty and name in GUARDED.get(ty, "").split():
                wanted[wanted.index(name)] = PREFIX + name
                self.shown[f"{ty}.{name}"] = self.contract(at, end, clause)
            elif not ty and name in WRAPPED and m[1]:
                self.shown[name] = self.contract(at, end, clause)
            if m[1] and (requires or ty and name in UNNEEDED):
                wanted[wanted.index("pub")] = "pub ( crate )"
        self.wanted = [" ".join(line).split() for line in self.wanted]

    def add_head(self, clause):
        """The lines of a function with a clause, from its name up to its brace or semicolon."""
        start = end = clause
        while not HEAD.match(self.lines[start]):
            start -= 1
        while not self.wanted[end] or end == start:
            end += 1
        if start not in self.heads:
            self.heads[start] = (end, clause)

    def contract(self, start, end, clause):
        """The text of the clauses, and of the comments between them."""
        signature = max(line for line in range(start, clause) if self.wanted[line])
        lines = [line.strip() for line in self.lines[signature + 1 : end + 1]]
        return [*lines[:-1], lines[-1][:-1] if lines[-1].endswith(";") else ""]

    def faults(self, text):
        """What is wrong with the text of the Rust file."""
        header, _, text = text.partition("\n")
        if header != f"// Generated by scripts/erase from {self.name}. Don't edit it.":
            yield f"{self.name}:1: another first line: {header}"
        lines = text.split("\n")
        if len(lines) != len(self.lines):
            yield f"{self.name}: {len(lines)} lines, not {len(self.lines)}"
            return
        joined, comments = tokens(text)
        prelude = rf"(?m)^use {self.kit.replace('::', ' :: ')} :: prelude :: \* ;"
        joined = re.sub(prelude, "", by_rules(joined, ADDED), count=1)
        found = [line.replace("::", " :: ").split() for line in joined.split("\n")]
        at = 0
        while at < len(lines):
            end, clause = self.heads.get(at, (at, None))
            if sum(found[at : end + 1], []) != sum(self.wanted[at : end + 1], []):
                wanted = " ".join(sum(self.wanted[at : end + 1], []))
                yield f"{self.name}:{at + 1}: other tokens\n  {wanted}\n  {' '.join(sum(found[at : end + 1], []))}"
            elif clause is not None:
                yield from self.faults_of_head(at, end, clause, lines)
            elif lines[at] != self.lines[at] or at in self.ghosts:
                yield from self.faults_of_line(at, lines[at], comments.get(at))
            at = end + 1

    def faults_of_head(self, start, end, clause, lines):
        said, marks, begun, ended = [], set(), 0, 0
        for line in lines[start : end + 1]:
            begun += re.search(r'( \{ #!|^\s*#)\[doc = "# Contract\\n```text', line) is not None
            ended += re.match(r'\s*(//! ```$|#!\[doc = "```"\] \}|#\[doc = "```"\] )', line) is not None
            if m := re.match(r'\s*#\[doc = "# Contract\\n```text\\n(.*)"\]$', line):
                said.append(re.sub(r"\\(.)", r"\1", m[1]))
            elif m := re.match(r"\s*(//[/!]?) ?(.*)$", line):
                marks.add(m[1])
                said.append(m[2].strip())
        wanted = self.contract(start, end, clause)
        if [one for one in said if one not in ("", "```")] != [one for one in wanted if one]:
            yield f"{self.name}:{start + 1}: another contract\n  {wanted}\n  {said}"
        is_documented = begun == ended == 1 and marks in ({"//!"}, {"///"}, set())
        is_public = HEAD.match(self.lines[start])[1] == "pub "
        if not is_documented and (is_public or begun or ended or marks != {"//"}):
            yield f"{self.name}:{start + 1}: neither documentation nor comments"

    def faults_of_line(self, at, line, comment):
        source = self.lines[at].strip()
        if not self.wanted[at] and (at in self.ghosts or source.startswith(("use std::marker", "use std::alloc"))):
            if not line.strip().startswith("//") or line.strip()[2:].strip() != source:
                yield f"{self.name}:{at + 1}: not the ghost as a comment: {line}"
        elif comment != self.comments.get(at) and at not in self.ghosts:
            yield f"{self.name}:{at + 1}: another comment: {line}"


def files(kind, folder):
    """All files of the folder, with their sources."""
    crates = {path.name: path for pattern in ("quic_*", "*/quic_*") for path in folder.glob(pattern) if path.is_dir()}
    for name in sorted(crates):
        source = TOP / "crates" / name / "src"
        is_program = (source / "main.rt").exists()

        def others(crate):
            return f"crate::{'tested' if kind == 'checks' and crate in crates else 'proved'}::{crate}"

        kit = "crate::kit" if kind == "library" else "crate::host"
        own = f"crate::programs::{name}" if is_program else others(name)
        for file in sorted(source.rglob("*.rt")):
            to = file.relative_to(source).with_suffix(".rs")
            to = "mod.rs" if str(to) in ("lib.rs", "main.rs") else to
            yield File(file, crates[name] / to, kit, own, others)


def faults_of_contracts(all_files, folder):
    """What is wrong with the contracts that the documentation of the crate's own functions has."""
    wanted = {}
    for file in all_files:
        wanted.update(file.shown)
    there = {path.stem: path for path in folder.glob("*")}
    for name in sorted(wanted.keys() ^ there.keys()):
        yield f"{folder / name}: {'made from no source' if name in there else 'missing'}"
    for name in sorted(wanted.keys() & there.keys()):
        head, _, text = there[name].read_text(encoding="utf-8").partition("```text\n")
        said = [line.strip() for line in text.split("\n")]
        if head != BEFORE_CONTRACT or [one for one in said if one] != [one for one in wanted[name] if one] + ["```"]:
            yield f"{there[name]}: another contract"


def mutant(text, chance):
    """The text with one token or comment less, twice, or in another's place."""
    places = list(TOKEN.finditer(text))
    one, other = chance.choice(places), chance.choice(places)
    by = chance.choice(["", f"{one[0]} {one[0]}", other[0]])
    return text[: one.start()] + by + text[one.end() :], text.count("\n", 0, one.start()) + 1, one[0], by


def main():
    parser = argparse.ArgumentParser(usage=__doc__.split("\n\n")[1], description=__doc__.split("\n\n")[0])
    parser.add_argument("--mutants", type=int, default=0)
    parser.add_argument("--seed", type=int, default=1)
    parser.add_argument("kind", choices=["library", "checks"])
    parser.add_argument("folder", type=pathlib.Path)
    args = parser.parse_args()
    if not args.folder.is_dir():
        parser.error(f"no folder: {args.folder}")
    all_files, wrong, lines = list(files(args.kind, args.folder)), 0, 0
    # A folder of several crates has a list of them.
    depth = 1 if args.kind == "library" else 2
    there = {path for path in args.folder.glob("*/**/*.rs") if len(path.relative_to(args.folder).parts) > depth}
    for path in sorted({file.rust for file in all_files} ^ there):
        wrong += 1
        print(f"{path}: {'made from no source' if path in there else 'missing'}")
    all_files = [file for file in all_files if file.rust in there]
    if not all_files:
        parser.error(f"no erased crate in {args.folder}")
    for file in all_files:
        lines += len(file.lines)
        for fault in file.faults(file.rust.read_text(encoding="utf-8")):
            wrong += 1
            print(fault)
    if args.kind == "library":
        for fault in faults_of_contracts(all_files, args.folder / "contracts"):
            wrong += 1
            print(fault)
    print(f"check_erased: {args.kind}: {len(all_files)} files, {lines} lines: {wrong} faults")
    chance, tried, missed = random.Random(args.seed), 0, 0
    while tried < args.mutants:
        file = chance.choice(all_files)
        text = file.rust.read_text(encoding="utf-8")
        changed, line, one, by = mutant(text, chance)
        if changed.split() == text.split():
            continue
        tried += 1
        if not any(True for _ in file.faults(changed)):
            missed += 1
            print(f"{file.rust}:{line}: not noticed: {one} became {by or 'nothing'}")
    if tried:
        print(f"check_erased: {args.kind}: {tried} mutants (seed {args.seed}): {missed} not noticed")
    sys.exit(wrong != 0 or missed != 0)


main()
