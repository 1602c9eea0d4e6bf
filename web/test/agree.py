"""Whether the page shows each line of the lists as quic-show prints it."""
import lists
from common import same, source

BATCH = 250


def compare(browser, command, batch, wanted, shortest):
    """Shows lines in the page, and compares its texts with those of quic-show."""
    shown = browser.run(source("batch.js"), batch, lists.FORMS[command])
    for index, (line, answer) in enumerate(zip(batch, shown, strict=True)):
        same(answer["printed"].get(command), wanted[index], f"{command} {line}")
        same(answer["faults"], [], f"{command} {line}")
        if shortest:
            same(answer["printed"].get("canon"), shortest[index], f"canon {line}")


def all_agree(browser, program, tried):
    """Every list, in batches. Returns how many lines were shown."""
    count = 0
    for command, lines in tried.items():
        wanted = lists.printed(program, command, lines)
        is_frames = command in ("frames", "strict")
        shortest = lists.printed(program, "canon", lines) if is_frames else None
        for at in range(0, len(lines), BATCH):
            part = slice(at, at + BATCH)
            compare(browser, command, lines[part], wanted[part], shortest and shortest[part])
        count += len(lines)
    return count
