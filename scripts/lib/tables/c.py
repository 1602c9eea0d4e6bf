"""What is made in place: lines between two comments. Those of headers for C are at most 80 columns wide."""
import re
import textwrap

BEGIN, END = "/* Made by scripts/make/tables: */\n", "/* End of what is made. */\n"
WIDTH = 80


def with_blocks(source, blocks, begin=BEGIN, end=END):
    """A source with these texts between its pairs of comments."""
    front, *parts = source.split(begin)
    assert len(parts) == len(blocks), f"{len(parts)} blocks and not {len(blocks)}"
    return front + "".join(begin + block + end + part.split(end)[1] for block, part in zip(blocks, parts))


def without_blocks(source):
    """A source without what is between its pairs of comments."""
    return re.sub(f"{re.escape(BEGIN)}.*?{re.escape(END)}", "", source, flags=re.S)


def wrapped(front, items, end, between=","):
    """Items after the front of a line; in further lines they are below the first one."""
    lines = [front]
    for number, item in enumerate(items):
        item += end if number == len(items) - 1 else between
        if number and len(lines[-1]) + 1 + len(item) > WIDTH:
            lines.append(" " * len(front) + item)
        else:
            lines[-1] += " " * bool(number) + item
    return "\n".join(lines) + "\n"


def comment(text, column, further="   "):
    """The lines of a comment that begins in this column; its further lines begin so. A number stays with what is before
    it."""
    text = re.sub(r" (?=- \d|\d+$)|(?<= -) ", "\xa0", text)
    lines = textwrap.wrap(
        f"/* {text}\xa0*/", WIDTH - column, subsequent_indent=further, break_on_hyphens=False, break_long_words=False)
    return [line.replace("\xa0", " ") for line in lines]


def title(text, indent):
    """A comment on what follows it."""
    return "".join(f"{indent}{line}\n" for line in comment(text, len(indent), " * ")) if text else ""


def commented(lines):
    """Lines of code, each with a comment or none. Those of consecutive lines are below one another if they fit."""
    groups = []
    for code, text in lines:
        group = [*(groups[-1] if groups else []), (code, text)]
        column = max(len(code) for code, _ in group) + 1
        if text and group[:-1] and all(it and column + len(it) + 6 <= WIDTH for _, it in group):
            groups[-1] = group
        else:
            groups.append([(code, text)])
    made = ""
    for group in groups:
        column = max(len(code) for code, _ in group) + 1
        for code, text in group:
            first, *more = comment(text, column) if text else [""]
            made += f"{code:{column}}{first}".rstrip() + "\n"
            made += "".join(f"{'':{column}}{line}\n" for line in more)
    return made
