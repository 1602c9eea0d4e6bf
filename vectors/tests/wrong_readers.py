#!/usr/bin/env python3
"""Checks that the tests notice wrong readers: the plain reader is changed in one place at a time, an operator, a
number, a condition or an exception, and a test must fail each time.

wrong_readers.py [-v]

unseen.txt has the changes that no test can notice, each with why. Status 1: another one isn't noticed."""
import ast
import copy
import pathlib
import signal
import sys
import types
from collections import Counter
from typing import NamedTuple

HERE = pathlib.Path(__file__).parent
sys.path.insert(0, str(HERE.parent))
import run  # noqa: E402

SECONDS = 5  # for a changed reader; an endless loop is noticed
# Its modules, each after those that it imports; the last answers lines, and isn't changed.
MODULES = ["reader.input", "reader.frames", "reader.packets", "reader.parameters", "reader.layer", "plain"]
COMPARISONS = {
    ast.Lt: ast.LtE, ast.LtE: ast.Lt, ast.Gt: ast.GtE, ast.GtE: ast.Gt, ast.Eq: ast.NotEq, ast.NotEq: ast.Eq,
    ast.In: ast.NotIn, ast.NotIn: ast.In,
}  # fmt: skip
OPERATORS = {
    ast.Add: ast.Sub, ast.Sub: ast.Add, ast.LShift: ast.RShift, ast.RShift: ast.LShift, ast.BitAnd: ast.BitOr,
    ast.BitOr: ast.BitAnd, ast.BitXor: ast.BitOr, ast.Mult: ast.Add, ast.FloorDiv: ast.Mult, ast.Mod: ast.Mult,
}  # fmt: skip


class Change(NamedTuple):
    """A node, by its number among those of a module, and what it becomes."""

    module: str
    node: int
    text: str
    make: object


class TooSlow(Exception):
    pass


def changes_of(node):
    """What a node may become, as functions that change it in place."""

    def comparison(index, kind):
        return lambda one: one.ops.__setitem__(index, kind())

    if isinstance(node, ast.Compare):
        kinds = [COMPARISONS.get(type(op)) for op in node.ops]
        return [comparison(index, kind) for index, kind in enumerate(kinds) if kind]
    if isinstance(node, (ast.BinOp, ast.AugAssign)) and type(node.op) in OPERATORS:
        return [lambda one: setattr(one, "op", OPERATORS[type(one.op)]())]
    if isinstance(node, ast.Constant) and type(node.value) is int:
        less = [lambda one: setattr(one, "value", one.value - 1)] if node.value > 0 else []
        return [lambda one: setattr(one, "value", one.value + 1)] + less
    if isinstance(node, ast.BoolOp):
        return [lambda one: setattr(one, "op", ast.Or() if isinstance(one.op, ast.And) else ast.And())]
    if isinstance(node, ast.UnaryOp) and isinstance(node.op, ast.Not):
        return [lambda one: setattr(one, "operand", ast.UnaryOp(ast.Not(), one.operand))]
    if isinstance(node, ast.Raise):  # `raise x` becomes a statement without effect
        return [lambda one: (setattr(one, "__class__", ast.Expr), setattr(one, "value", ast.Constant(None)))]
    return []


def changes(module, tree):
    """All changes of a module."""
    nodes = {id(node): number for number, node in enumerate(ast.walk(tree))}
    seen = Counter()
    for top in tree.body:
        if isinstance(top, (ast.FunctionDef, ast.ClassDef)):
            owner = top.name
        elif isinstance(top, ast.Assign):
            owner = ast.unparse(top.targets[0])
        else:
            continue
        for node in ast.walk(top):
            for number, make in enumerate(changes_of(node)):
                text = f"{owner}: {ast.unparse(node).splitlines()[0][:70]} #{number}"
                seen[text] += 1
                text += f" ({seen[text]})" if seen[text] > 1 else ""
                yield Change(module, nodes[id(node)], text, make)


def changed(trees, change):
    """What answers lines after a change."""
    other = copy.deepcopy(trees[change.module])
    change.make(next(node for number, node in enumerate(ast.walk(other)) if number == change.node))
    for name in MODULES:
        tree = ast.fix_missing_locations(other) if name == change.module else trees[name]
        module = sys.modules[name] = types.ModuleType(name)
        exec(compile(tree, name, "exec"), module.__dict__)
    return module.answer


def rfc_of(test):
    """The document whose answer the plain reader gives; no answer of those that depart from it is allowed."""
    return next(one["by"] for one in test["answers"] if one["by"].startswith(("RFC", "ACK")))


def is_noticed(answer, entries):
    """Whether a test fails, or the reader does."""
    for line, test in entries:
        try:
            if run.judge(test, answer(line), rfc_of(test))[0] in run.FAILURES:
                return True
        except Exception:  # noqa: BLE001, whatever a changed reader raises
            return True
    return False


def is_seen(trees, change, entries):
    """Whether a change is noticed within its time."""
    signal.setitimer(signal.ITIMER_REAL, SECONDS)
    try:
        return is_noticed(changed(trees, change), entries)
    except Exception:  # noqa: BLE001, too slow, or no program any more
        return True
    finally:
        signal.setitimer(signal.ITIMER_REAL, 0)


def stop(*_):
    raise TooSlow


def main():
    signal.signal(signal.SIGALRM, stop)
    files = {name: HERE / f"{name.replace('.', '/')}.py" for name in MODULES}
    trees = {name: ast.parse(path.read_text(encoding="utf-8")) for name, path in files.items()}
    every = [entry for entry in run.tests() if entry.form != "cipher"]
    entries = [(run.line(form, test), test) for form, _, test in every + run.writers(every)]
    listed = (HERE / "unseen.txt").read_text(encoding="utf-8").splitlines()
    known = {line.split(" | ")[0] for line in listed if not line.startswith("#")}
    all_changes = [change for name in MODULES[:-1] for change in changes(name, trees[name])]
    unseen = [change.text for change in all_changes if not is_seen(trees, change, entries)]
    new = [text for text in unseen if text not in known]
    stale = sorted(known.difference(unseen))
    for text in unseen if "-v" in sys.argv else new:
        print(f"not noticed: {text}")
    for text in stale:
        print(f"noticed, and in unseen.txt: {text}")
    print(f"wrong_readers.py: {len(all_changes)} changes, {len(all_changes) - len(unseen)} noticed, {len(new)} faults")
    return 1 if new or stale else 0


if __name__ == "__main__":
    sys.exit(main())
