#!/usr/bin/env python3
"""Prints quic_wire.3, the manual page of the C library, from c/include/quic_wire.h: which call does what, which calls
name each error, then each call with its declaration and its comment.

scripts/lib/manual.py HEADER DATE
"""
import collections
import os
import re
import sys

Call = collections.namedtuple("Call", "name declaration text")
SECTION = re.compile(r"/\* ---- (.*?) *\*/", re.S)
DECLARED = r"(?:QUIC_WIRE_CHECKED\s+)?(?:QUIC_WIRE_API|extern|static inline)\s+([^;{]*\))"
# A comment, and the calls that are declared after it.
CALLS = re.compile(rf"/\*((?:(?!\*/).)*)\*/\n((?:{DECLARED}[;{{ ]+\n)+)", re.S)


def unstarred(comment):
    """The lines of a comment without its markers."""
    return re.sub(r"(?:^|\n) ?\*(?=\s)", "\n", comment).strip()


def escaped(text):
    return re.sub(r"^([.'])", r"\\&\1", text.replace("\\", "\\e").replace("-", "\\-"), flags=re.M)


def marked(text):
    """A text with arguments, which the header has between bars, in italics, and names of calls and constants in bold."""
    text = escaped(" ".join(text.split()))
    text = re.sub(r"\|([^|]+)\|", r"\\fI\1\\fR", text)
    return re.sub(r"\b(quic_wire_\w+|QUIC_WIRE_\w+)", r"\\fB\1\\fR", text)


def calls_of(section):
    for comment, declarations, _ in CALLS.findall(section):
        for declaration in re.findall(DECLARED, declarations):
            name = re.search(r"(quic_wire_\w+)\(", declaration)
            yield Call(name[1], " ".join(declaration.split()) + ";", unstarred(comment))


def sections_of(header):
    """The title of each section that has calls, what is said of them all, and the calls."""
    parts = SECTION.split(header)
    for title, section in zip(parts[1::2], parts[2::2]):
        calls = list(calls_of(section))
        if calls:
            title, _, intro = unstarred(title).partition(".  ")
            yield title.split(", by the |side|")[0].rstrip("."), intro, calls


def first_sentence(text):
    return re.split(r"(?<=[A-Za-z\d)|])[.;:](?:\s|$)", " ".join(text.split()))[0]


def laid_out(paragraph):
    """A paragraph. Each entry of a list has its own line."""
    before, *entries = re.split(r"(?:^|\n)\s*- ", paragraph)
    lines = [marked(before)] if before.strip() else []
    return "\n.br\n".join([*lines, *(f"\\(bu {marked(entry)}" for entry in entries)])


def described(call):
    yield f".TP\n.B {escaped(call.declaration)}"
    paragraphs = re.split(r"\n\s*\n", call.text)
    yield "\n.IP\n".join(map(laid_out, paragraphs))


# An error with its number and what it is; how a call names errors, and the call whose results it has.
ERROR = re.compile(r"(QUIC_WIRE_ERR_\w+) = -\d+,?(?:\s*/\*(.*?)\*/)?", re.S)
NAMED = re.compile(r"QUIC_WIRE_ERR_[A-Z_]*[A-Z](?:_\.\.\.)?")
LIKE = re.compile(r"[Rr]eturns what (quic_wire_\w+) does|results,? .*? are as for (quic_wire_\w+)")


def errors_of(call, calls, groups):
    """The errors that the description of a call names, or that of the call whose results it has. `...` is for the first
    group that has such errors."""
    if not re.match(r"int", call.declaration):
        return set()
    text, found = " ".join(call.text.split()), set()
    for name in NAMED.findall(text):
        like = [{it for it in group if it.startswith(name[:-3])} for group in groups]
        found |= next(filter(None, like)) if name.endswith("...") else {name}
    for names in LIKE.findall(text):
        found |= errors_of(calls[next(filter(None, names))], calls, groups)
    return found


def errors(header, sections):
    """Each error, with the calls that name it."""
    texts = dict(ERROR.findall(header))
    groups = [[name for name, _ in ERROR.findall(part)] for part in re.split(r"\n\s*\n", header)]
    calls = {call.name: call for _, _, group in sections for call in group}
    named = {name: errors_of(call, calls, groups) for name, call in calls.items()}
    for error, text in texts.items():
        yield f".TP\n.B {error}"
        if text:
            yield f"{marked(unstarred(text))}\n.br"
        yield marked(", ".join(name for name in calls if error in named[name]))


def page(header, date):
    version = re.search(r'QUIC_WIRE_LIB_TEXT "(.*)"', header)[1]
    opening = unstarred(re.search(r"\n/\*\n(.*?)\*/", header, re.S)[1])
    before, _, rest = opening.partition("Read the frames of a payload:")
    paragraphs = re.split(r"\n\s*\n", before.strip())[1:]
    sections = list(sections_of(header))
    yield f'.TH QUIC_WIRE 3 "{date}" "quic_wire {version}" "Library calls"'
    yield ".SH NAME\nquic_wire \\- the wire layer of QUIC"
    yield ".SH SYNOPSIS\n.nf\n.B #include <quic_wire.h>\n.fi"
    yield ".PP\n.B cc program.c $(pkg\\-config \\-\\-cflags \\-\\-libs quic_wire)"
    yield ".PP\nIf PREFIX is none of the system's folders, also \\-Wl,\\-rpath,PREFIX/lib."
    yield ".SH DESCRIPTION"
    yield "\n.PP\n".join(map(marked, paragraphs))
    yield ".SH WHICH CALL DOES WHAT"
    for title, _, calls in sections:
        yield f".SS {escaped(title)}"
        for call in calls:
            yield f".TP\n.B {call.name}\n{marked(first_sentence(call.text))}"
    yield ".SH ERRORS\nEach error, with the calls whose descriptions name it."
    yield from errors(header, sections)
    yield ".SH CALLS"
    for title, intro, calls in sections:
        yield f".SS {escaped(title)}"
        if intro:
            yield marked(intro)
        for call in calls:
            yield from described(call)
    example = rest.split("\n\n")[1] if rest else ""
    yield f".SH EXAMPLES\nRead the frames of a payload:\n.PP\n.nf\n.RS\n{escaped(example)}\n.RE\n.fi"
    yield ".SH SEE ALSO\n.BR quic\\-show (1),\n.BR quic\\-wire (1)\n.PP\nRFC 9000, RFC 9001, RFC 9221, RFC 9369"


def main():
    if sys.argv[1:] in (["-h"], ["--help"]):
        print(__doc__.strip())
        return
    if len(sys.argv) != 3 or not os.path.exists(sys.argv[1]):
        print("usage: scripts/lib/manual.py HEADER DATE", file=sys.stderr)
        sys.exit(2)
    with open(sys.argv[1], encoding="utf-8") as it:
        print("\n".join(page(it.read(), sys.argv[2])))


main()
