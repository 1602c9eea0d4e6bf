#!/usr/bin/env python3
"""Prints what users of a Rust crate can name and call, from the JSON that rustdoc makes of it: one item a line, sorted,
with its signature, and with the path that has the fewest parts; `use` is each other path. Of std's items only the names
are printed, of other crates' items the crate too; `_` stands before what no user can name. `impl` includes what is
derived, and what a type lacks of Send and Sync.

scripts/lib/api.py FILE.json
"""
import json
import sys

STD = ("alloc", "core", "std")
# What rustdoc itself adds to a type.
HIDDEN = ("StructuralPartialEq", "Freeze", "Unpin", "UnsafeUnpin", "RefUnwindSafe", "UnwindSafe")


class Types:
    """Types, bounds and signatures as they are written in Rust."""

    def __init__(self, crate):
        self.index, self.paths, self.named = crate["index"], crate["paths"], {}

    def name(self, path):
        """The name of an item."""
        known = self.named.get(path["id"])
        if known:
            return known
        found = self.paths.get(str(path["id"]))
        if not found or found["crate_id"] == 0:
            written = path.get("path") or path["name"]  # as older Rusts call it
            return f"_::{written.split('::')[-1]}"
        parts = found["path"]
        return parts[-1] if parts[0] in STD else f"{parts[0]}::{parts[-1]}"

    def path(self, path):
        return self.name(path) + self.args(path.get("args"))

    def args(self, args):
        if not args:
            return ""
        if "parenthesized" in args:
            of = args["parenthesized"]
            return f"({', '.join(map(self.type, of['inputs']))})" + self.output(of["output"])
        of = args["angle_bracketed"]
        parts = [self.arg(arg) for arg in of["args"]] + [self.constraint(one) for one in of["constraints"]]
        return f"<{', '.join(parts)}>" if parts else ""

    def arg(self, arg):
        if arg == "infer":
            return "_"
        if "const" in arg:
            return arg["const"]["expr"]
        return arg["lifetime"] if "lifetime" in arg else self.type(arg["type"])

    def constraint(self, one):
        if "equality" in one["binding"]:
            term = one["binding"]["equality"]
            return f"{one['name']} = " + (self.type(term["type"]) if "type" in term else term["constant"]["expr"])
        return f"{one['name']}: " + self.bounds(one["binding"]["constraint"])

    def output(self, output):
        return f" -> {self.type(output)}" if output else ""

    def type(self, ty):
        """A type."""
        kind, of = next(iter(ty.items()))
        if kind in ("primitive", "generic"):
            return of
        if kind == "resolved_path":
            return self.path(of)
        if kind == "borrowed_ref":
            lifetime = f"{of['lifetime']} " if of["lifetime"] else ""
            return f"&{lifetime}{'mut ' if of['is_mutable'] else ''}{self.type(of['type'])}"
        if kind == "tuple":
            return f"({', '.join(map(self.type, of))}{',' if len(of) == 1 else ''})"
        if kind == "slice":
            return f"[{self.type(of)}]"
        if kind == "array":
            return f"[{self.type(of['type'])}; {of['len']}]"
        if kind == "impl_trait":
            return f"impl {self.bounds(of)}"
        if kind == "dyn_trait":
            lifetime = [of["lifetime"]] if of["lifetime"] else []
            return "dyn " + " + ".join([self.path(one["trait"]) for one in of["traits"]] + lifetime)
        if kind == "qualified_path":
            of_trait = f" as {self.path(of['trait'])}" if of.get("trait") else ""
            return f"<{self.type(of['self_type'])}{of_trait}>::{of['name']}"
        raise ValueError(f"unknown type: {ty}")

    def bounds(self, bounds):
        return " + ".join(map(self.bound, bounds))

    def bound(self, bound):
        if "outlives" in bound:
            return bound["outlives"]
        of = bound["trait_bound"]
        return ("?" if of["modifier"] == "maybe" else "") + self.path(of["trait"])

    def generics(self, generics):
        """Parameters, and what stands behind `where`."""
        params = [self.param(one["name"], one["kind"]) for one in generics["params"] if not is_hidden(one)]
        where = [text for text in map(self.predicate, generics["where_predicates"]) if text]
        return f"<{', '.join(params)}>" if params else "", f" where {', '.join(where)}" if where else ""

    def param(self, name, kind):
        if "lifetime" in kind:
            outlives = kind["lifetime"]["outlives"]
            return f"{name}: {' + '.join(outlives)}" if outlives else name
        if "const" in kind:
            return f"const {name}: {self.type(kind['const']['type'])}"
        bounds = self.bounds(kind["type"]["bounds"])
        return f"{name}: {bounds}" if bounds else name

    def predicate(self, predicate):
        if "bound_predicate" in predicate:
            of = predicate["bound_predicate"]
            return f"{self.type(of['type'])}: {self.bounds(of['bounds'])}"
        of = predicate["lifetime_predicate"]
        return f"{of['lifetime']}: {' + '.join(of['outlives'])}"

    def function(self, name, of):
        """The signature of a function."""
        params, where = self.generics(of["generics"])
        words = [word for word in ("const", "async", "unsafe") if of["header"][f"is_{word}"]]
        args = ", ".join(self.argument(*one) for one in of["sig"]["inputs"])
        return f"{' '.join(words + ['fn'])} {name}{params}({args}){self.output(of['sig']['output'])}{where}"

    def argument(self, name, ty):
        text = self.type(ty)
        if name == "self" and text.endswith("Self") and text in ("Self", "&Self", "&mut Self"):
            return text[:-4] + "self"
        return f"{name}: {text}"


def is_hidden(param):
    """Whether it stands for an `impl Trait` among the arguments."""
    return "type" in param["kind"] and param["kind"]["type"]["is_synthetic"]


class Api:
    """The lines."""

    def __init__(self, crate):
        self.index, self.types, self.lines, self.found = crate["index"], Types(crate), set(), []
        root = self.index[str(crate["root"])]
        self.walk([(root["name"], root)])
        for path, item in self.found:
            self.item(path, item)

    def walk(self, level):
        """Finds the items of modules, those with short paths first."""
        while level:
            below = []
            for path, module in level:
                self.lines.add(f"mod {path}")
                for item in (self.index[str(one)] for one in module["inner"]["module"]["items"]):
                    self.visit(path, item, below)
            level = below

    def visit(self, path, item, below):
        kind, of = next(iter(item["inner"].items()))
        if kind == "use":
            target = self.index.get(str(of["id"]))
            if not target:
                self.lines.add(f"use {path}::{of['name']} = {of['source']}")
                return
            if of["is_glob"]:
                raise ValueError(f"a glob in {path}")
            item, name = target, of["name"]
            kind = next(iter(item["inner"]))
        else:
            name = item["name"]
        name = f"{path}::{name}"
        if kind == "module":
            below.append((name, item))
        elif item["id"] in self.types.named:
            self.lines.add(f"use {name} = {self.types.named[item['id']]}")
        else:
            self.types.named[item["id"]] = name
            self.found.append((name, item))

    def item(self, path, item):
        kind, of = next(iter(item["inner"].items()))
        params, where = self.types.generics(of["generics"]) if "generics" in of else ("", "")
        marks = "#[non_exhaustive] " if "non_exhaustive" in str(item["attrs"]) else ""
        if kind == "function":
            self.lines.add(self.types.function(path, of))
        elif kind == "constant":
            value = of["const"]["value"]
            self.lines.add(f"const {path}: {self.types.type(of['type'])}" + (f" = {value}" if value else ""))
        elif kind == "type_alias":
            self.lines.add(f"type {path}{params}{where} = {self.types.type(of['type'])}")
        elif kind == "trait":
            bounds = self.types.bounds(of["bounds"])
            self.lines.add(f"trait {path}{params}{': ' if bounds else ''}{bounds}{where}")
            self.members(path, of["items"], of_trait=True)
        elif kind in ("struct", "enum"):
            self.lines.add(f"{marks}{kind} {path}{params}{where}{self.fields(path, kind, of)}")
            for one in of["impls"]:
                self.implementation(path, self.index[str(one)]["inner"]["impl"])
        else:
            raise ValueError(f"unknown kind: {kind}")

    def fields(self, path, kind, of):
        """Adds the fields or variants, and returns what stands behind the name."""
        if kind == "enum":
            for variant in (self.index[str(one)] for one in of["variants"]):
                self.variant(path, variant)
            return ""
        if of["kind"] == "unit":
            return ";"
        if "tuple" in of["kind"]:
            return f"({', '.join(self.field(one) for one in of['kind']['tuple'])})"
        plain = of["kind"]["plain"]
        for field in (self.index[str(one)] for one in plain["fields"]):
            self.lines.add(f"field {path}::{field['name']}: {self.types.type(field['inner']['struct_field'])}")
        return " { .. }" if plain["has_stripped_fields"] else ""

    def field(self, one):
        return self.types.type(self.index[str(one)]["inner"]["struct_field"]) if one is not None else "_"

    def variant(self, path, variant):
        kind = variant["inner"]["variant"]["kind"]
        text = ""
        if "tuple" in kind:
            text = f"({', '.join(self.field(one) for one in kind['tuple'])})"
        elif "struct" in kind:
            fields = [self.index[str(one)]["name"] + ": " + self.field(one) for one in kind["struct"]["fields"]]
            text = f" {{ {', '.join(fields)} }}"
        self.lines.add(f"variant {path}::{variant['name']}{text}")

    def members(self, path, items, of_trait=False):
        for item in (self.index[str(one)] for one in items):
            kind, of = next(iter(item["inner"].items()))
            name = f"{path}::{item['name']}"
            if kind == "function":
                self.lines.add(self.types.function(name, of) + (" { .. }" if of_trait and of["has_body"] else ""))
            elif kind == "assoc_const":
                self.lines.add(f"const {name}: {self.types.type(of['type'])}")
            else:
                bounds = self.types.bounds(of["bounds"])
                self.lines.add(f"type {name}{': ' if bounds else ''}{bounds}")

    def implementation(self, path, of):
        params, where = self.types.generics(of["generics"])
        ty = self.types.type(of["for"])
        if of["trait"] is None:
            self.members(ty, of["items"])
            return
        name = self.types.path(of["trait"])
        known = str(of["trait"]["id"]) not in self.index or of["trait"]["id"] in self.types.named
        if not known or of["blanket_impl"] or name in HIDDEN or of["is_synthetic"] and not of["is_negative"]:
            return
        items = (self.index[str(one)] for one in of["items"])
        named = [(one["name"], one["inner"]["assoc_type"]["type"]) for one in items if "assoc_type" in one["inner"]]
        types = ", ".join(f"{name} = {self.types.type(of_name)}" for name, of_name in named)
        not_this = "!" if of["is_negative"] else ""
        self.lines.add(f"impl{params} {not_this}{name} for {ty}{where}{f' {{ {types} }}' if types else ''}")


def main():
    if len(sys.argv) != 2:
        print(f"usage: {sys.argv[0]} FILE.json", file=sys.stderr)
        return 2
    with open(sys.argv[1], encoding="utf-8") as file:
        lines = Api(json.load(file)).lines
    print("\n".join(sorted(lines)))
    return 0


if __name__ == "__main__":
    sys.exit(main())
