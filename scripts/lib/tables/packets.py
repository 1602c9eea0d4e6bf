"""web/packets.js: the packets of RFC 9001, appendix A, that the page has as examples."""
import textwrap

from lib.tables.formats import read

PATH = "web/packets.js"
VECTORS = "vectors/tables/ciphers.txt"
BEGIN = f"""// Packets of RFC 9001, appendix A, by their sections.
// Made by scripts/make/tables from {VECTORS}: change nothing here.

"""
TESTS = {"A2": "sealed.a2", "A3": "sealed.a3"}


def digits(name):
    """The packet that a test of the vectors seals."""
    line = next(line for line in read(VECTORS).splitlines() if line.startswith(f"{name} | "))
    return line.split(" | ")[3]


def made(_):
    rows = ""
    for section, name in TESTS.items():
        lines = "\n    + ".join(f'"{line}"' for line in textwrap.wrap(digits(name), 112))
        rows += f"  {section}: {lines},\n"
    return f"{BEGIN}export const RFC_9001 = {{\n{rows}}};\n"
