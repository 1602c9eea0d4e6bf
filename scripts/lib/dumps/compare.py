"""Compares the readers of dumps with each other, with the programs that print dumps, and with themselves on texts of
twice the length.

compare.py TOP WORK SEED COUNT: TOP is the repository, WORK has the program read and the page's modules in page/.
"""

import collections
import pathlib
import random
import resource
import struct
import subprocess
import sys

import programs
import texts

TOP, WORK, SEED, COUNT = pathlib.Path(sys.argv[1]), pathlib.Path(sys.argv[2]), int(sys.argv[3]), int(sys.argv[4])
HERE = pathlib.Path(__file__).parent
READERS = {
    "Rust": [WORK / "read"],
    "JavaScript": ["node", HERE / "read.mjs", WORK / "page"],
}
AT_ONCE = 25_000
MOST_SHOWN = 5
# The greatest ratio of the times for two texts, of which one is twice the other: 4 if time grows with the square.
MOST_TIMES = 3
NUMBERS = 100_000


def answers(reader, given):
    """What a reader reads from each text."""
    data = b"".join(struct.pack("<I", len(text)) + text for text in given)
    done = subprocess.run(READERS[reader], input=data, capture_output=True)
    found = done.stdout.decode("utf-8", "replace").split("\n")[:-1]
    if done.returncode or len(found) != len(given):
        sys.exit(f"{reader}: status {done.returncode} after {len(found)} of {len(given)} texts\n{done.stderr.decode()}")
    return found


def differ(text):
    return len({answers(reader, [text])[0] for reader in READERS}) > 1


def shortened(text):
    """A text that is no longer and that readers don't agree on either."""
    size = max(1, len(text) // 2)
    while size:
        before, at = text, 0
        while at < len(text):
            less = (text[:at] + text[at + size :]).decode("utf-8", "ignore").encode()
            if less != text and differ(less):
                text = less
            else:
                at += size
        size = size if text != before else size // 2
    return text


def compare_with_each_other(files):
    """Returns how many random texts are read in different ways."""
    count = pieces = errors = wrong = 0
    for seed in range(SEED, SEED + (COUNT + AT_ONCE - 1) // AT_ONCE):
        choice = random.Random(seed)
        given = [texts.text(choice, files).encode() for _ in range(min(AT_ONCE, COUNT - count))]
        found = [answers(reader, given) for reader in READERS]
        for text, *of_each in zip(given, *found):
            pieces += of_each[0].count("\t")
            errors += of_each[0].count(" error ")
            if len(set(of_each)) > 1:
                wrong += 1
                show_difference(text, wrong)
        count += len(given)
    print(f"{count} texts of {pieces} pieces, {errors} of them errors: {wrong} read in different ways")
    return wrong


def show_difference(text, wrong):
    if wrong <= MOST_SHOWN:
        text = shortened(text)
        print(f"{text!r}:", *(f"  {reader}: {answers(reader, [text])[0]}" for reader in READERS), sep="\n")


def compare_with_programs():
    """Returns how often what programs print is read as other bytes."""
    choice, wrong, of_calls = random.Random(SEED), 0, collections.Counter()
    jobs = [job for _ in range(max(10, COUNT // AT_ONCE)) for job in programs.printed(choice, WORK / "payload")]
    for (call, data), text, answer in zip(*zip(*jobs), answers("Rust", [text for _, text in jobs])):
        of_calls["error" if " error " in answer else "read"] += 1
        if not programs.is_right(call, data, answer):
            wrong += 1
            if wrong <= MOST_SHOWN:
                print(f"{' '.join(call)} of {data.hex()}:\n{text.decode()}{answer}")
    print(f"{len(jobs)} dumps by programs: {of_calls['read']} read, {of_calls['error']} errors, {wrong} as other bytes")
    return wrong


def time_of(reader, text, times):
    """The least processor time that a reader takes for a text, of three."""

    def once(given):
        before = resource.getrusage(resource.RUSAGE_CHILDREN)
        answers(reader, given)
        after = resource.getrusage(resource.RUSAGE_CHILDREN)
        return after.ru_utime + after.ru_stime - before.ru_utime - before.ru_stime

    return min(once([text] * times) for _ in range(3)) - min(once([]) for _ in range(3))


def compare_times():
    """Returns for how many forms twice the length takes much more than twice the time."""
    forms = {
        "a number a line": lambda count: "[\n" + ",\n".join(str(i % 256) for i in range(count)) + "\n]\n",
        "rows of xxd": lambda count: "".join(f"{i:08x}: 07  .\n" for i in range(count)),
        "lines": lambda count: "0107\n" * count,
        "numbers in a line": lambda count: "0x07, " * count + "0x07\n",
        "open brackets": lambda count: "[\n" * count,
        "comments in a list": lambda count: "[1,\n" + "# c\n" * count + "2]\n",
    }
    wrong = 0
    for name, text in forms.items():
        for reader, times in (("Rust", 40), ("JavaScript", 5)):
            one, two = (time_of(reader, text(count).encode(), times) for count in (NUMBERS, 2 * NUMBERS))
            print(f"{name}, {reader}: {one / times:.3f} s for {NUMBERS}, {two / one:.2f} times that for twice as many")
            wrong += two > MOST_TIMES * one
    return wrong


def main():
    files = [path.read_text() for path in sorted((TOP / "rust" / "program" / "tests" / "dumps").glob("*.txt"))]
    wrong = compare_with_programs() + compare_with_each_other(files) + compare_times()
    return 1 if wrong else 0


sys.exit(main())
