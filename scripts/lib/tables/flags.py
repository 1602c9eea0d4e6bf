"""The flags in python/src/quic_wire/checks.py."""
from lib.tables import c, classes
from lib.tables.formats import read

PATH = "python/src/quic_wire/checks.py"
BEGIN, END = "    # Made by scripts/make/tables:\n", "    # End of what is made.\n"


def made(_):
    """The file, in which the class has the flags of readers."""
    rows = (f"    {word} = _wire.READ_{word}\n" for word in classes.flags() if word != "RFC")
    return c.with_blocks(read(PATH), ["".join(rows)], BEGIN, END)
