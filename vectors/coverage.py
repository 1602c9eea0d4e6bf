#!/usr/bin/env python3
"""Compares coverage.txt with the tests: each of its patterns fits a test, and each test belongs to a line of it.

coverage.py [RFCS]

RFCS is a folder of rfcNNNN.txt or rfcNNNN.txt.gz. With it, each quotation of coverage.txt must be in the text of its
section, each sentence with MUST in the sections of SCOPE must have a line, and the bytes of the worked examples must be
in the RFC, and so must the section of each test. A document whose text isn't in the folder is named and skipped."""
import fnmatch
import gzip
import pathlib
import re
import sys
from typing import NamedTuple

import run

HERE = pathlib.Path(__file__).parent
# The sections whose every MUST has a line.
SCOPE = {
    "RFC 8999": r"5\.1|6",
    "RFC 9000": r"5\.1|7\.4|7\.4\.2|12\.2|12\.4|16|17(\..*)?|18(\..*)?|19(\..*)?|20(\..*)?",
    "RFC 9001": r"5\.4\.[12]|5\.5",
    "RFC 9221": r"4",
    "RFC 9287": r"3",
}
RULE = re.compile(r"\bMUST\b|cannot exceed|are invalid")
HEADING = re.compile(r"^(?:Appendix )?([0-9A-Z]+(?:\.[0-9]+)*)\.  \S")
PAGE = re.compile(r"\[Page \d+\]$|^RFC \d{4} +\S.*\d{4}$")
EXAMPLES = re.compile(r"RFC 9001 A\.[1-5]")
LEAST_EXAMPLE = 4  # bytes that are worth a search
COPIED_CALLS = {"initial-keys", "keys", "mask", "packet-seal", "packet-open", "retry-tag"}


class Line(NamedTuple):
    """A line of coverage.txt."""

    where: str
    sentence: str
    ids: list
    why: str

    @property
    def document(self):
        return self.where.rpartition(" ")[0]


def lines():
    for text in (HERE / "coverage.txt").read_text(encoding="utf-8").splitlines():
        if not text.startswith("#"):
            where, sentence, ids, *why = (column.strip() for column in text.split(" | "))
            yield Line(where, sentence, [] if ids == "-" else ids.split(), why[0] if why else "")


def faults_of_tests(every, tests):
    """Patterns that fit no test, lines without tests or a reason, and tests without a line."""
    seen, places = set(), {line.where for line in every}
    for line in every:
        if not line.ids and not line.why:
            yield f"{line.where}: no test and no reason: {line.sentence}"
        for pattern in line.ids:
            found = {test["id"] for test in tests if fnmatch.fnmatchcase(test["id"], pattern)}
            seen |= found
            if not found:
                yield f"{line.where}: no test fits {pattern}"
    for test in tests:
        if test["id"] not in seen and test["rfc"] not in places:
            yield f"{test['id']}: no line of coverage.txt has it or {test['rfc']}"


def normal(text):
    return re.sub(r"\s+", " ", text).lower()


def text_in(folder, document):
    """The text of an RFC, or None if the folder lacks it."""
    path = folder / f"rfc{document.split()[-1]}.txt"
    packed = path.with_name(path.name + ".gz")
    if not document.startswith("RFC ") or not path.exists() and not packed.exists():
        return None
    whole = path.read_bytes() if path.exists() else gzip.decompress(packed.read_bytes())
    return whole.decode("utf-8", errors="replace")


def sections(whole):
    """The text of each section, without page breaks."""
    section, texts = None, {}
    for text in whole.replace("\f", "").replace("\r", "").split("\n"):
        if found := HEADING.match(text):
            section = found[1]
        elif section and not PAGE.search(text):
            texts[section] = texts.get(section, "") + text.strip() + "\n"
    return texts


def sentences(text):
    for paragraph in re.split(r"\n\s*\n", text):
        paragraph = re.sub(r"(\w)- (\w)", r"\1-\2", paragraph.replace("\n", " ").strip())
        yield from re.split(r"(?<=[.;])\s+(?=[A-Z(])", paragraph)


def faults_of_document(document, every, texts):
    """Quotations that aren't in the text of a document, and its rules without a line."""
    found = {section: [normal(one) for one in sentences(text)] for section, text in texts.items()}
    quoted = [line for line in every if line.document == document and not line.sentence.startswith("~")]
    for line in quoted:
        section = line.where.rpartition(" ")[2]
        if not any(normal(line.sentence) in one for one in found.get(section, ())):
            yield f"{line.where}: not in its text: {line.sentence}"
    for section, text in texts.items():
        if not re.fullmatch(SCOPE.get(document, "-"), section):
            continue
        begun = [normal(line.sentence) for line in quoted if line.where == f"{document} {section}"]
        for one in sentences(text):
            if RULE.search(one) and not any(begin in normal(one) for begin in begun):
                yield f"{document} {section}: no line for: {one[:100]}"


def copied(test):
    """The bytes of a worked example that are in the RFC. It shortens PADDING at the end of a payload."""
    context = test.get("context", {})
    yield from (context[name] for name in ("mask", "sample", "secret", "hp", "header") if name in context)
    if "fields" in test or test.get("call") in COPIED_CALLS:
        yield test["input"]
        yield from test["answers"][0]["read"].split() if "call" in test else ()


def faults_of_examples(tests, texts):
    """Bytes of worked examples that aren't in the RFC."""
    digits = "".join(re.sub(r"\s+", "", text) for section, text in texts.items() if section.startswith("A."))
    for test in (test for test in tests if EXAMPLES.fullmatch(test["rfc"])):
        for text in copied(test):
            if len(text) >= 2 * LEAST_EXAMPLE and text.rstrip("0") not in digits:
                yield f"{test['id']}: not in the appendix of RFC 9001: {text[:60]}"


def faults_of_sections(document, tests, texts):
    """Tests of a section that the document lacks."""
    for test in tests:
        cited, section = test["rfc"].rsplit(" ", 1)
        if cited == document and section not in texts:
            yield f"{test['id']}: no section {section} in {document}"


def faults_of_texts(folder, every, tests):
    """What differs from the texts in a folder; what is skipped is printed."""
    for document in dict.fromkeys(line.document for line in every):
        whole = text_in(folder, document)
        if whole is None:
            print(f"coverage.py: {document} is skipped: its text isn't in {folder}")
            continue
        texts = sections(whole)
        yield from faults_of_document(document, every, texts)
        yield from faults_of_sections(document, tests, texts)
        if document == "RFC 9001":
            yield from faults_of_examples(tests, texts)


def main():
    if len(sys.argv) > 2:
        print("usage: coverage.py [RFCS]", file=sys.stderr)
        return 2
    every, tests = list(lines()), [entry.test for entry in run.tests()]
    faults = list(faults_of_tests(every, tests))
    if len(sys.argv) == 2:
        faults += faults_of_texts(pathlib.Path(sys.argv[1]), every, tests)
    else:
        print("coverage.py: quotations aren't compared, since no folder of RFCs is given")
    print("\n".join(faults), end="\n" if faults else "")
    tested = sum(bool(line.ids) for line in every)
    counts = f"{tested} with tests, {len(every) - tested} that no wire layer can check"
    print(f"coverage.py: {len(every)} sentences, {counts}: {len(faults)} faults")
    return 1 if faults else 0


if __name__ == "__main__":
    sys.exit(main())
