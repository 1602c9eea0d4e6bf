"""Figures in the RFC's notation, from the fields of docs/formats.json."""


def figure(title, lines):
    return [f"    {title} {{", *(f"      {line}," for line in lines), "    }", ""]


def columns(rows):
    """Rows of words as a figure, each column as wide as its longest word."""
    rows = list(rows)
    widths = [max(map(len, column)) for column in zip(*rows)]
    return [*("    " + "  ".join(map(str.ljust, row, widths)).rstrip() for row in rows), ""]


def section_of(text):
    """A section as the page's titles have it: without RFC 9000, the others shorter."""
    document, number = text.split(", section ")
    names = {"RFC 9000": "", "draft-ietf-quic-ack-frequency": "ACK frequency draft, "}
    return names.get(document, f"{document}, ") + number


def width_of(one):
    """How many bits a field has."""
    if "bytes" not in one:
        return ".."
    least, most = (8 * count for count in one["bytes"])
    return str(least) if least == most else f"{least}..{most}"


def lines_of(one):
    """The lines of a field, or of what follows a header."""
    kind, name = one.get("kind"), one.get("name")
    if kind in ("first_byte", "implied", "ordered", "supported"):
        return []
    if kind == "number":
        return [f"{name} (i)"]
    if kind == "ranges":
        count, first, *_ = one["numbers"]
        return [f"{count['name']} (i)", f"{first['name']} (i)", "ACK Range (..) ..."]
    length = [f"{one['length']['name']} ({'i' if kind == 'counted' else 8})"] if "length" in one else []
    value = f" = {one['value']}" if "value" in one else ""
    return [*length, f"{name} ({width_of(one)}){value}{' ...' * one.get('repeated', False)}"]
