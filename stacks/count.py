"""count.py [--whole] TITLE UNIT PARTS PROFILE..: what parts of a program cost, from profiles of callgrind.

A line of the file PARTS is `name calls functions`, with two regular expressions: a function belongs to the first part
whose `functions` match `file:function` (the file is that of the line, so inlined code counts for the file that contains
it), and a part is called as often as the functions that `calls` matches. If a function of a part calls one that the
line `helpers - functions` names, the cost of that counts for the part. Prints rows of tab-separated fields: the cost of
each part per its calls, of all parts per the calls of the one named UNIT, and of the whole; one field for each profile.
With --whole it prints one row: the cost of all parts per UNIT in the first profile, and in another one that cost less
what the whole program takes less. So it also counts code that the compiler puts into functions of no part.
"""

import collections
import functools
import re
import sys

NAME = re.compile(r"(?:\((\d+)\))?(?: ?(.*))?")


class Profile:
    """Instructions by `file:function`, those of what each calls, and how often each function was called."""

    def __init__(self, path):
        self.names = {}
        self.cost = collections.Counter()
        self.calls = collections.Counter()
        self.into = collections.Counter()
        self.total = 0
        with open(path, errors="replace") as lines:
            self.read(lines)

    def named(self, kind, text):
        number, name = NAME.fullmatch(text.strip()).groups()
        if name:
            self.names[kind, number] = name
        return self.names[kind, number]

    def read(self, lines):
        file = function = callee = None
        is_call = False
        for line in lines:
            key, _, value = line.partition("=")
            if key in ("fl", "fi", "fe"):
                file = self.named("file", value).rsplit("/", 1)[-1]
            elif key == "fn":
                function = self.named("function", value)
            elif key == "cfn":
                callee = self.named("function", value)
            elif key in ("cfl", "cfi"):
                self.named("file", value)
            elif key == "calls":
                self.calls[callee] += int(value.split()[0])
                is_call = True
            elif line[:1] in "+-*0123456789" and function:
                cost = int(line.split()[1])
                if is_call:  # the cost of what was called
                    is_call = False
                    self.into[f"{file}:{function}", callee] += cost
                    continue
                self.cost[f"{file}:{function}"] += cost
                self.total += cost


def read_parts(path):
    parts = []
    with open(path) as lines:
        for line in lines:
            if line.strip() and not line.startswith("#"):
                name, calls, functions = line.split()
                parts.append((name, re.compile(calls), re.compile(functions)))
    return parts


def count(parts, path):
    """Instructions and calls of each part, and instructions of the whole."""
    profile = Profile(path)
    cost = collections.Counter()
    part_of = functools.cache(lambda key: next((n for n, _, f in parts if n != "helpers" and f.search(key)), None))
    helpers = next((f for n, _, f in parts if n == "helpers"), re.compile("^$"))
    for key, instructions in profile.cost.items():
        cost[part_of(key)] += instructions
    for (key, callee), instructions in profile.into.items():
        if part_of(key) and not part_of(f":{callee}") and helpers.search(callee):
            cost[part_of(key)] += instructions
    calls = {n: sum(k for f, k in profile.calls.items() if c.fullmatch(f)) for n, c, _ in parts}
    return cost, calls, profile.total


def print_whole(title, unit, counted):
    costs, calls, total = counted[0]
    parts = sum(cost for name, cost in costs.items() if name)
    fields = [f"{(parts - total + whole) / calls[unit]:.0f}" for _, _, whole in counted]
    print(f"{title}: instructions for each of '{unit.replace('_', ' ')}'", *fields, sep="\t")


def main():
    is_whole = sys.argv[1] == "--whole"
    title, unit, path, *profiles = sys.argv[1 + is_whole :]
    parts = read_parts(path)
    counted = [count(parts, path) for path in profiles]
    if is_whole:
        print_whole(title, unit, counted)
        return
    for name, _, _ in parts:
        if any(cost[name] for cost, _, _ in counted) and all(calls[name] for _, calls, _ in counted):
            fields = [f"{cost[name] / calls[name]:.1f} ({calls[name]} calls)" for cost, calls, _ in counted]
            print(f"{title}: {name.replace('_', ' ')}, instructions a call", *fields, sep="\t")
    fields = [f"{sum(cost[n] for n, _, _ in parts) / calls[unit]:.1f}" for cost, calls, _ in counted]
    print(f"{title}: all of these, instructions for each of '{unit.replace('_', ' ')}'", *fields, sep="\t")
    print(f"{title}: the whole program, instructions", *(total for _, _, total in counted), sep="\t")


if __name__ == "__main__":
    main()
