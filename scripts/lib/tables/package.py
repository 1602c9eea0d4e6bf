"""What python/src/quic_wire/__init__.py imports from its module in C, and the list of its names."""
import ast
import json

from lib.tables import c, stub
from lib.tables.formats import read

PATH = "python/src/quic_wire/__init__.py"
BEGIN, END = "# Made by scripts/make/tables:\n", "# End of what is made.\n"
CONSTANTS = ["LIBRARY_VERSION"]


def in_order(names):
    """Constants, then classes, then functions."""
    return sorted(names, key=lambda name: (not name.isupper(), name))


def listed(names, brackets, front):
    """Names between brackets, in lines as long as the other lists of the package."""
    begin, end = brackets
    lines = [""]
    for name in names:
        if lines[-1] and len(lines[-1]) + len(name) > 110:
            lines.append("")
        lines[-1] += f"{' ' * bool(lines[-1])}{name},"
    return f"{front}{begin}\n" + "".join(f"    {line}\n" for line in lines) + f"{end}  # fmt: skip\n"


def of_wire(formats):
    """The public names of the module: functions that have documentation, classes, constants."""
    for node in ast.parse(stub.made(formats)).body:
        is_function = isinstance(node, ast.FunctionDef) and ast.get_docstring(node)
        if (is_function or isinstance(node, ast.ClassDef)) and not node.name.startswith("_"):
            yield node.name
    yield from CONSTANTS


def of_others(source):
    """The names that the package has from its other modules and defines itself, without those of other packages."""
    for node in ast.parse(source).body:
        if isinstance(node, ast.ImportFrom) and node.level and node.module not in (None, "_wire", "_version"):
            yield from (one.name for one in node.names)
        elif isinstance(node, ast.FunctionDef):
            yield node.name


def made(formats):
    """The file, with both between two comments each."""
    source = read(PATH)
    names = list(of_wire(formats))
    blocks = [
        listed(in_order(names), "()", "from ._wire import "),
        listed(map(json.dumps, in_order([*names, *of_others(source)])), "[]", "__all__ = "),
    ]
    return c.with_blocks(source, blocks, BEGIN, END)
