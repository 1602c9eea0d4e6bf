"""project.py TOP COPY: copies to COPY the static libraries of the repository TOP and what they stand on, with a program,
`exports`, that calls each of their exports once, with zeros, so that an unproved run of it holds them all. It prints
the names of the exports, a line each."""
import re
import shutil
import sys
from pathlib import Path

EXPORT = re.compile(r'pub extern "C" fn (\w+)\((.*?)\)\s*->\s*(\w+)', re.S)
STRUCT = re.compile(r"pub struct (\w+) \{(.*?)\n\}", re.S)
FIELD = re.compile(r"pub (\w+): ([^,]+),")


def crates(top):
    """The crates of crates.txt, each with those that it uses, and the names of the static libraries."""
    uses, static = {}, []
    for line in (top / "crates.txt").read_text().splitlines():
        found = re.match(r"(\w+)( staticlib)?: *(.*)", line)
        if found:
            uses[found[1]] = found[3].split()
            if found[2]:
                static.append(found[1])
    return uses, static


def below(names, uses):
    """These crates and all that they use."""
    found, todo = set(), list(names)
    while todo:
        name = todo.pop()
        if name in uses and name not in found:
            found.add(name)
            todo += uses[name]
    return found


def zero(kind, structs):
    """A zero of a type: a number, an array or a struct of these."""
    kind = kind.strip()
    if kind.startswith("["):
        of, _, count = kind.strip("[]").partition(";")
        return f"[{zero(of, structs)}; {count.strip() or 2}]"
    return structs.get(kind) or {"bool": "false"}.get(kind, f"0{kind}")


def structs_of(name, folder):
    """Each struct of a crate's public module of words or fields, as a zero with its path."""
    found = {}
    for module in "words", "field":
        file = folder / "src" / f"{module}.rt"
        for struct, fields in STRUCT.findall(file.read_text()) if file.exists() else ():
            values = (f"{field}: {zero(kind, {})}" for field, kind in FIELD.findall(fields))
            found[struct] = f"{name}::{module}::{struct} {{ {', '.join(values)} }}"
    return found


def arguments(declared, structs):
    """Declarations of the variables that a call borrows, and its arguments."""
    lets, words = [], []
    for number, parameter in enumerate(filter(None, re.split(r",\s*(?![^\[]*\])", declared.strip().rstrip(",")))):
        kind = parameter.split(":", 1)[1].strip()
        borrowed = re.match(r"&(mut )?(.*)", kind, re.S)
        if borrowed:
            is_mutable = borrowed[1] or ""
            lets.append(f"let {is_mutable}v{number} = {zero(borrowed[2], structs)};")
            words.append(f"&{is_mutable}v{number}")
        else:
            words.append("a" if kind == "Global" else zero(kind, structs))
    return lets, words


def calls_of(name, folder, structs):
    """The lines of a program that call each export of a library, and the names of these."""
    lines, names = [], []
    for file in sorted((folder / "src").glob("*.rt")):
        for export, declared, _ in EXPORT.findall(file.read_text()):
            lets, words = arguments(declared, structs)
            path = name if file.stem == "lib" else f"{name}::{file.stem}"
            lines.append("".join(f"{it} " for it in ("{", *lets)) + f"s ^= {path}::{export}({', '.join(words)}) as u64; }}")
            names.append(export)
    return lines, names


def opened(root):
    """The text of a library whose modules other crates see, since the program calls what is in them."""
    return re.sub(r"^(pub\(crate\) )?mod ", "pub mod ", root, flags=re.M)


def main():
    top, copy = map(Path, sys.argv[1:])
    uses, static = crates(top)
    needed, lines, exports = below(static, uses), [], []
    shutil.copytree(top / "crates", copy / "crates", ignore=shutil.ignore_patterns("must-fail", "data", "more-edits"))
    shutil.copy(top / "HANDLES", copy)
    for folder in (copy / "crates").iterdir():
        if folder.name not in needed:
            shutil.rmtree(folder)
    for name in static:
        folder, structs = copy / "crates" / name, {}
        for used in [*uses[name], name]:
            structs |= structs_of(used, copy / "crates" / used)
        root = folder / "src" / "lib.rt"
        root.write_text(opened(root.read_text()))
        calls, names = calls_of(name, folder, structs)
        lines, exports = lines + calls, exports + names
    program = copy / "crates" / "exports" / "src"
    program.mkdir(parents=True)
    body = "\n".join(f"    {line}" for line in lines)
    (program / "main.rt").write_text(
        f"fn main(rt: HostRuntime) {{\n    let a = rt.alloc();\n    let mut s: u64 = 0;\n{body}\n"
        '    let _ = println!(rt; "{s}");\n}\n'
    )
    listed = [f"{name}: {' '.join(uses[name])}\n" for name in uses if name in needed]
    used = sorted({it for name in static for it in (name, *uses[name])})
    (copy / "crates.txt").write_text("".join([*listed, f"exports: {' '.join(used)}\n"]))
    print("\n".join(exports))


if __name__ == "__main__":
    main()
