"""apply.py EDITS.. TREE: applies lists of edits to the files of a tree.

A list has a line `= FILE BEFORE AFTER` for each file, with the SHA-256 of the file before and after, and then edits as
`diff -e` writes them, from the end of the file to its beginning. AFTER is `-` if the file is removed. Lists may be made
for the same file, if no two change the same line, or one for the file that others leave. Nothing is changed if a file
isn't the one that the edits were made for.

apply.py --make ORIGINAL CHANGED FILE.. writes such a list for these files to standard output.
"""

import collections
import hashlib
import pathlib
import re
import subprocess
import sys

COMMAND = re.compile(r"(\d+)(?:,(\d+))?([acd])")


def digest(text):
    return hashlib.sha256(text.encode()).hexdigest()


class Part:
    """The edits of one list to one file."""

    def __init__(self, text):
        first, _, body = text.partition("\n")
        self.name, self.before, self.after = first.split()
        self.edits = list(self.read(iter(body.splitlines())))

    @staticmethod
    def read(lines):
        """For each edit, from the end of the file: the lines that it replaces, as a range, and the new ones."""
        for line in lines:
            first, last, command = COMMAND.fullmatch(line).groups()
            first, last = int(first), int(last or first)
            new = []
            if command != "d":
                new = [line + "\n" for line in iter(lambda: next(lines), ".")]
            yield (first, first, new) if command == "a" else (first - 1, last, new)


def edited(path, text, edits):
    """The text after edits, which go from its end to its beginning."""
    lines = text.splitlines(keepends=True)
    end = len(lines)
    for first, last, new in edits:
        if last > end:
            sys.exit(f"apply: two lists change line {last} of {path}")
        lines[first:last] = new
        end = first
    return "".join(lines)


def edited_by(path, text, parts):
    """The text after the edits of several lists that were made for it; None if the only one removes the file."""
    if [part.after for part in parts] == ["-"]:
        return None
    for part in parts:
        if digest(edited(path, text, part.edits)) != part.after:
            sys.exit(f"apply: {path} didn't become what it should")
    edits = [edit for part in reversed(parts) for edit in part.edits]
    return edited(path, text, sorted(edits, key=lambda edit: edit[:2], reverse=True))


def changed_by(path, parts):
    """The file's text after all edits."""
    text = path.read_text()
    while parts:
        now = [part for part in parts if text is not None and part.before == digest(text)]
        if not now:
            sys.exit(f"apply: {path} is not the file that the edits were made for")
        text = edited_by(path, text, now)
        parts = [part for part in parts if part not in now]
    return text


def apply(lists, tree):
    """Writes the files that the edits change, once all of them are known to be the right ones."""
    parts = collections.defaultdict(list)
    for edits in lists:
        for part in map(Part, re.split(r"(?m)^= ", edits)[1:]):
            parts[tree / part.name].append(part)
    changed = {path: changed_by(path, parts[path]) for path in parts}
    for path, text in changed.items():
        if text is None:
            path.unlink()
        else:
            path.write_text(text)


def make(original, changed, names):
    for name in names:
        before, after = (tree / name for tree in (original, changed))
        if not after.exists():
            print("=", name, digest(before.read_text()), "-")
            continue
        print("=", name, digest(before.read_text()), digest(after.read_text()))
        edits = subprocess.run(["diff", "-e", before, after], capture_output=True, text=True)
        print(edits.stdout, end="")


def main():
    args = sys.argv[1:]
    if args[0] == "--make":
        make(pathlib.Path(args[1]), pathlib.Path(args[2]), args[3:])
    else:
        apply([pathlib.Path(arg).read_text() for arg in args[:-1]], pathlib.Path(args[-1]))


if __name__ == "__main__":
    main()
