"""web/formats.js."""
import json

from lib.tables import proved
from lib.tables.formats import MADE, bound_of, enumeration, filled, headers, wanted

PATH = "web/formats.js"
BEGIN = f"""// The formats of QUIC as data: the fields of frames and headers, transport parameters, error codes,
// reasons.
// {MADE}
// docs/formats.schema.json explains the members. Keys are Numbers; bounds, defaults and values are BigInts.

"""
# Members that are BigInts, as the page has these numbers from the library.
BIG = {"max", "min", "default", "value", "times"}


def text(value, indent="  ", is_big=False):
    """A value as JavaScript has it: members in the order of the file, in several lines if they need these."""
    if isinstance(value, dict):
        big = BIG if "kind" in value or "times" in value else ()
        members = [f"{word}: {text(it, indent + '  ', word in big)}" for word, it in value.items()]
        return filled("{", members, "}", indent, "  ")
    if isinstance(value, list):
        return "[" + ", ".join(map(text, value)) + "]"
    return json.dumps(value, ensure_ascii=False) + "n" * is_big


def slim(one):
    """A field without the keys of its names: a length is its name, an ACK's numbers are theirs."""
    short = {word: it for word, it in one.items() if word != "key"}
    if "length" in short:
        short["length"] = short["length"]["name"]
    if "numbers" in short:
        short["numbers"] = [number["name"] for number in short["numbers"]]
    return short


def rows(some, indent):
    return "".join(f"{indent}{text(slim(one), indent)},\n" for one in some)


def frame(one):
    kinds = enumeration("frame_kind", "FRAME")
    kind = kinds.get(one.get("quinn_proto"), kinds.get(one["name"]))
    words = [word for word in ("type", "name", "quinn_proto", "section") if word in one]
    front = f"kind: {kind:#04x}, " + "".join(f"{word}: {text(one[word])}, " for word in words)
    return f"  [{one['type']:#04x}, {{{front}fields: [\n{rows(one['fields'], '    ')}  ]}}],\n"


def header(kind, one):
    front = f"name: {text(one['name'])}, section: {text(one['section'])}"
    return (
        f"    [{kind}, {{{front}, first_byte: [\n{rows(one['first_byte'], '      ')}    ], fields: [\n"
        f"{rows(one['fields'], '      ')}    ], after: {text([part['name'] for part in one['after']])}}}],\n")


def parameter(one):
    bound = bound_of(one)
    return {**one, "wanted": wanted(one), **({"bound": bound} if bound else {})}


def entries(some, key):
    numbers = (hex(one[key]) if one[key] >= 0 else str(one[key]) for one in some)
    return "".join(f"  [{number}, {text(one)}],\n" for number, one in zip(numbers, some))


def made(formats):
    versions = {}
    for version, kind, one in headers(formats):
        versions.setdefault(version, []).append(header(kind, one))
    by_version = (f"  [{version:#x}, new Map([\n{''.join(some)}  ])],\n" for version, some in versions.items())
    tables = {
        "// Frames by their types. |kind| is one type for all of STREAM, of ACK and of DATAGRAM.\nexport const FRAMES = new Map([": map(frame, formats["frames"]),
        "// Headers by their versions, then by their kinds of packets; those without a version of their own have"
        " version 0.\nexport const HEADERS = new Map([": by_version,
        "// Transport parameters by their ids. |wanted| is what the value must be, |bound| of a number its bounds.\n"
        "export const PARAMETERS = new Map([":
            entries([parameter(one) for one in formats["parameters"]], "id"),
        "// Codes to close with.\nexport const ERROR_CODES = new Map([": entries(formats["error_codes"], "code"),
        "// Why something is rejected, by what the library returns.\nexport const REASONS = new Map([":
            entries(formats["reasons"], "number"),
    }
    parts = [f"{begin}\n{''.join(some)}]);\n\n" for begin, some in tables.items()]
    return (
        f"{BEGIN}{''.join(parts)}"
        f"export const PREFERRED_ADDRESS = [\n{rows(formats['preferred_address'], '  ')}];\n\n"
        "// The versions that are read by default: 1, the drafts 29 to 34, 2.\n"
        f"{filled('export const VERSIONS = [', proved.versions(), ']', '', '  ')};\n")
