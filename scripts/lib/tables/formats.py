"""docs/formats.json as its generators read it, and what they have in common."""
import json
import os
import re

TOP = os.path.dirname(os.path.dirname(os.path.dirname(os.path.dirname(os.path.realpath(__file__)))))
FILE = "docs/formats.json"
HEADER = "c/include/quic_wire.h"
MADE = f"Made by scripts/make/tables from {FILE}: change nothing here."


def read(path):
    with open(os.path.join(TOP, path), encoding="utf-8") as it:
        return it.read()


def load():
    """The formats, as docs/formats.schema.json explains them."""
    return json.loads(read(FILE))


def constants(prefix):
    """The numbers of the constants of the header for C whose names begin so, by the rest of their names."""
    found = re.findall(rf"^(?:#define|  )? *QUIC_WIRE_{prefix}_(\w+) (?:= )?(-?\w+)", read(HEADER), re.M)
    return {name: int(number.rstrip("u"), 0) for name, number in found}


def enumeration(name, prefix):
    """The numbers of an enumeration of the header for C, by their names without a prefix."""
    body = re.search(rf"typedef enum quic_wire_{name} \{{(.*?)\}} quic_wire_{name};", read(HEADER), re.S)[1]
    found = re.findall(rf"^  QUIC_WIRE_{prefix}_(\w+) = (-?\w+)", body, re.M)
    return {word: int(number, 0) for word, number in found}


def packet_kinds():
    """The number of each kind of packet in C, by the name that its header has in the RFC."""
    kinds = enumeration("packet_kind", "PACKET")
    return {header["name"]: kinds[header["name"].upper().replace("-", "").replace(" ", "_")]
            for header in load()["headers"]}


def power(number):
    """A number as the RFCs write it: 2^60, 2^14 - 1, 20."""
    for bits in range(10, 64):
        if number == 1 << bits:
            return f"2^{bits}"
        if number == (1 << bits) - 1:
            return f"2^{bits} - 1"
    return str(number)


def bound_of(parameter):
    """What a parameter's number must be, or nothing: "at most 20"."""
    if "min" in parameter:
        return f"{power(parameter['min'])} or more"
    if "max_of" in parameter:
        return f"at most {parameter['max_of']['parameter']}"
    most = power(parameter["max"]) if "max" in parameter else ""
    return f"below {most.removesuffix(' - 1')}" if most.endswith(" - 1") else f"at most {most}" if most else ""


def wanted(parameter, number="one variable-length integer and nothing after it"):
    """What a parameter's value must be; the text for a number without bounds can be another."""
    kind, least_and_most = parameter["kind"], parameter.get("bytes", [0, 0])
    if kind == "number":
        bound = bound_of(parameter)
        if "max_of" in parameter:
            return f"a number of {parameter['unit']}, {bound}"
        link = " of" * bool(bound) * (not bound.startswith("below"))
        return f"a number{link} {bound}" if bound else number
    return {
        "flag": "no bytes",
        "bytes": f"{least_and_most[1]} bytes",
        "id": f"an id of at most {least_and_most[1]} bytes",
        "preferred_address": "an address, an id that isn't empty, a token",
        "skipped": "any bytes",
    }[kind]


def headers(formats):
    """The headers, each with its version, 0 if it has none or any, and its kind of packet."""
    kinds = packet_kinds()
    found = [(header.get("version", 0), kinds[header["name"]], header) for header in formats["headers"]]
    return sorted(found, key=lambda it: it[:2])


def filled(begin, items, end, indent, step="    "):
    """Items between brackets, in one line or, if that is long, in several, indented by a step more than the first."""
    line = begin + ", ".join(items) + end
    if len(indent) + len(line) < 100:
        return line
    lines = [""]
    for item in items:
        if lines[-1] and len(indent + step) + len(lines[-1]) + len(item) > 117:
            lines.append("")
        lines[-1] += f" {item}," if lines[-1] else f"{item},"
    return begin + "".join(f"\n{indent}{step}{line}" for line in lines) + f"\n{indent}{end}"
