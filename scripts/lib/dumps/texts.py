"""Random texts: pieces of dumps and lists, whole dumps in each form, and both with changes."""

WORDS = (
    "00000000|0000000|000000|00000|0000|000010|0000010|00000010|0010|0000020|0000016|000002|0000002|00000002|000001|"
    "0000001|ffffffffffff|fffffffffffff|:|: |  |   | | | |\n|\n|\n|\n\n|*\n|01|06|0106|10|16|1|255|256|0x|0x01|0X0a|"
    "\\x01|,|, |[|]|{|}|(|)|>|>..<|..|.|b'|'|\"|b\"|\\|\\n|\\0|=|x = |uint8_t p[] = {|unsigned int p_len = 2;|"
    "bytearray(|#|//|/*|*/|# c|\t|\r\n|\r|\f|\u0142|\u2192| \u2192 |\U0001f600|zz|ff|AQYA|QAAKAAFh|;|+1|-1|  10| 001|"
    "12:00:01.000001 IP|Frame (3 bytes):|Data (1 byte):|a > b: c|00000001|01000001|3030|16000601|0601|003001|"
    "40000a 00 01 61|000000 01 06|\ufeff|0g|0000010 3e|7|89|\u00a0|\u2028"
).split("|") + ["|", "|..|"]
CHANGED = "0123456789abcdef :|>*,\n\t.x'\"[](){}\\#/=-"
FRONTS = ["%08x: ", "0x%04x:  ", "%08d: ", "%08x  ", "%04x  ", "%04x   ", "%06x ", "%07o ", "%07d ", "%06x  "]
CLOSED = {3, 6, 7, 8, 9}


def row_of(form, data, width, has_text, choice):
    """The bytes of a row, and text, as the program of a form prints them."""
    shown = "".join(chr(byte) if 0x20 <= byte < 0x7F else "." for byte in data)
    size = choice([1, 2, 2, 2, 4]) if form < 3 else 1
    line = " ".join(data[at : at + size].hex() for at in range(0, len(data), size))
    if form == 3 and len(data) > 8:
        line = f"{line[:23]} {line[23:]}"
    if not has_text:
        return line
    missing = width - len(data)
    blanks = missing * 2 + (missing + size - 1) // size
    beside = {3: f"  |{shown}|", 4: f"   {shown}", 5: f"   {shown}", 6: f"  >{shown}<", 7: f"  >{shown}<"}
    return line + " " * blanks + beside.get(form, f"  {shown}")


def dump(random):
    """A dump in one of the forms, where rows may be left out, and with or without its end."""
    choice = random.choice
    count = choice([1, 2, 3, 4, 8, 15, 16, 17, 20, 32, 33, 48])
    data = bytes(choice([0, 0, 1, 6, 0x10, 0x20, 0x41, random.randrange(256)]) for _ in range(count))
    data = bytes(count) if random.random() < 0.3 else data
    form, width = random.randrange(len(FRONTS)), choice([16, 16, 16, 8, 4, 1])
    base, has_text = choice([0, 0, 0, 0, 16, 5, 0x40, 0x1000]), random.random() < 0.5
    lines, before = [], None
    for at in range(0, count, width):
        row = data[at : at + width]
        if row == before and random.random() < 0.6:
            lines += ["*"] if lines[-1] != "*" else []
        else:
            lines.append(FRONTS[form] % (base + at) + row_of(form, row, width, has_text, choice))
        before = row
    if form in CLOSED and random.random() < 0.9:
        lines.append((FRONTS[form] % (base + count)).strip())
    return "\n".join(lines) + "\n"


def change(random, text):
    kind, at = random.randrange(8), random.randrange(len(text) + 1)
    if kind == 0:
        return text[:at] + random.choice(CHANGED) + text[at + 1 :]
    if kind == 1:
        return text[:at] + random.choice(WORDS) + text[at:]
    if kind == 2:
        return text[:at] + text[at + random.choice([1, 1, 2, 3, 8, 60]) :]
    if kind == 3:
        begin = random.randrange(len(text) + 1)
        return text[:at] + text[begin : begin + random.choice([1, 4, 16, 70])] + text[at:]
    if kind in (4, 5):
        lines = text.split("\n")
        line = lines[random.randrange(len(lines))]
        lines.remove(line) if kind == 4 else lines.insert(random.randrange(len(lines) + 1), line)
        return "\n".join(lines)
    return text[:at] if kind == 6 else text[:at] + random.choice([" ", "  ", "\n", "0"]) + text[at:]


def text(random, files):
    """A text; |files| are some that programs printed."""
    kind = random.random()
    if kind < 0.25:
        return "".join(random.choice(WORDS) for _ in range(random.randrange(1, 14)))
    if kind < 0.3:
        return "".join(random.choice("0123456789abcdef \n:.|x,[]") for _ in range(random.randrange(1, 60)))
    if kind < 0.75:
        parts = [dump(random), dump(random), "\n", "01\n", "40000a 00 01 61\n"]
        found = "".join(random.choice(parts) for _ in range(random.choice([1, 1, 2, 3])))
    else:
        found = "".join(random.choice(files) for _ in range(random.choice([1, 1, 2])))
    for _ in range(random.choice([0, 0, 1, 1, 1, 2, 3, 5])):
        found = change(random, found)
    return found
