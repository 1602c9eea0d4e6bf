"""The texts of errors and the names of frames in c/src/texts.c."""
from lib.tables import c
from lib.tables.formats import read

PATH = "c/src/texts.c"
# The error of a call that the header itself has.
LIBRARY = '  case QUIC_WIRE_ERR_LIBRARY: return "library and header differ in version";\n'


def case(labels, text):
    """A case with its labels, in several lines if they need these."""
    front = [f"case {label}:" for label in labels]
    line = f"  {' '.join(front)} return \"{text}\";\n"
    if len(line) <= 81:
        return line
    if len(front) == 1:
        return f"  {front[0]}\n    return \"{text}\";\n"
    half = len(front) // 2
    return f"  {' '.join(front[:half])}\n  {' '.join(front[half:])} return \"{text}\";\n"


def made(formats):
    """The file, in which two functions have these texts."""
    errors, names = "", {}
    for reason in formats["reasons"]:
        errors += case([f"QUIC_WIRE_ERR_{reason['name']}"], reason["text"]) + LIBRARY * (reason["name"] == "NOBUF")
    for frame in formats["frames"]:
        names.setdefault(frame.get("quinn_proto", frame["name"]), []).append(f"{frame['type']:#04x}")
    return c.with_blocks(read(PATH), [errors, "".join(case(types, name) for name, types in names.items())])
