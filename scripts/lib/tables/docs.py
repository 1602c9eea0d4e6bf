"""python/wire/docs.h."""
import ast
import json
import re

from lib.tables.formats import read

PATH = "python/wire/docs.h"
STUB = "python/src/quic_wire/_wire.pyi.in"
BEGIN = f"""/* SPDX-License-Identifier: MIT OR Apache-2.0 */
/* Made by scripts/make/tables from {STUB}: change nothing here.
 * What Python says of each function of the module, DOC_name, and of each method, DOC_class_name: the signature, then
 * the documentation. WIRE_CALLS has a row for each that isn't called with one argument by position, or none: name,
 * Python's name, how many arguments are needed, how many may be passed by position, and their names, empty for those
 * that can't be passed by name. */
"""


def default(node, source):
    """The default of an argument, as it is written; an ellipsis is 0, without flags."""
    text = ast.get_source_segment(source, node)
    return {"...": "0"}.get(text, text.replace('"', "'"))


def arguments(given, source):
    """The arguments as a signature lists them, without types."""
    listed = [*given.posonlyargs, *given.args]
    defaults = [None] * (len(listed) - len(given.defaults)) + given.defaults
    texts = [one.arg + (f"={default(value, source)}" if value else "") for one, value in zip(listed, defaults)]
    if given.posonlyargs:
        texts.insert(len(given.posonlyargs), "/")
    named = [f"{one.arg}={default(value, source)}" for one, value in zip(given.kwonlyargs, given.kw_defaults)]
    return texts + ["*"] * bool(named) + named


def signature(function, source, is_method):
    """The first argument of a function in C is the module, that of a method its object or class."""
    texts = arguments(function.args, source)
    if not is_method:
        return ", ".join(["$module", *texts])
    texts[0] = {"self": "$self", "cls": "$type"}[texts[0]]
    return ", ".join(texts if "/" in texts else [texts[0], "/", *texts[1:]])


def call(function, word, is_method):
    """The row of a function; nothing if it has at most one argument, and that only by position."""
    given = function.args
    listed = [*given.posonlyargs, *given.args][is_method:]
    if len(listed) < 2 and not given.kwonlyargs and not given.defaults:
        return ""
    names = ["" if one in given.posonlyargs else one.arg for one in listed] + [one.arg for one in given.kwonlyargs]
    words = [json.dumps(function.name), len(listed) - len(given.defaults), len(listed), *map(json.dumps, names)]
    return f"CALL({word}, {', '.join(map(str, words))})"


def functions(nodes, of=""):
    """Those among these nodes that are documented, and the methods of their classes, with the names that C has."""
    for node in nodes:
        if isinstance(node, ast.ClassDef):
            yield from functions(node.body, f"{node.name.lstrip('_')}_")
        elif isinstance(node, ast.FunctionDef) and ast.get_docstring(node):
            yield node, f"{of}{node.name}", bool(of)


def doc(node, word, is_method, source):
    text = f"{node.name}({signature(node, source, is_method)})\n--\n\n{ast.get_docstring(node)}"
    lines = (f" \\\n  {json.dumps(line)}" for line in re.findall(r".+\n--\n\n|.+\n?", text))
    return f"#define DOC_{word} PyDoc_STR({''.join(lines)})\n"


def made(_):
    source = re.sub(r"^(@\w+@)$", r"# \1", read(STUB), flags=re.M)
    found = list(functions(ast.parse(source).body))
    rows = filter(None, (call(*one) for one in found))
    docs = (doc(*one, source) for one in found)
    return f"{BEGIN}{''.join(docs)}#define WIRE_CALLS" + "".join(f" \\\n  {row}" for row in rows) + "\n"
