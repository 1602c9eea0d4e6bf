"""count.py OURS OWN FOLDER ROUNDS: what the crate's calls and quinn-proto's own cost on the lists of FOLDER, *.hex.

Prints, for each work of works.rs, instructions for a unit (a frame, a packet, a list of parameters, a header, a change
of a set) of the crate and of quinn-proto, and the ratios of instructions and of times. Instructions are those of six
rounds less those of two, by callgrind. Times are the least of ROUNDS rounds of each of five runs, in turn.
"""

import functools
import pathlib
import re
import subprocess
import sys
import tempfile

RUNS = 5
# What is done to make what the work is given, which isn't its own. Only quinn-proto's reader needs shared bytes.
PREPARED = {"cut": "copied"}
PREPARED_OWN = {"read": "shared", "acks": "shared"} | PREPARED
OF_PAYLOADS = ("read", "written")
OF_OTHERS = (("cut", "datagrams"), ("params", "params"), ("params-written", "params"))
WITHOUT_LIST = ("short", "initial", "set-in-order", "set-mixed")


class Program:
    def __init__(self, path, prepared):
        self.path, self.prepared = path, prepared

    def run(self, work, items, rounds, *before):
        """How many units a round has, and the nanoseconds of the shortest."""
        command = [*before, self.path, work, items, str(rounds)]
        units, least, _ = subprocess.run(command, check=True, capture_output=True, text=True).stdout.split()
        return int(units), int(least)

    def instructions(self, work, items, rounds):
        with tempfile.NamedTemporaryFile("r") as profile:
            counting = "valgrind", "-q", "--tool=callgrind", f"--callgrind-out-file={profile.name}"
            self.run(work, items, rounds, *counting)
            return int(re.search(r"^totals: (\d+)", profile.read(), re.M)[1])

    @functools.cache
    def cost(self, work, items):
        """Instructions for a unit."""
        units, _ = self.run(work, items, 1)
        own = (self.instructions(work, items, 6) - self.instructions(work, items, 2)) / 4 / units
        return own - (self.cost(self.prepared[work], items) if work in self.prepared else 0)

    def time(self, work, items, rounds):
        """Nanoseconds for a unit."""
        units, least = self.run(work, items, rounds)
        return least / units - (self.time(self.prepared[work], items, rounds) if work in self.prepared else 0)


def row(programs, work, items, rounds):
    ours, own = (program.cost(work, items) for program in programs)
    times = [[program.time(work, items, rounds) for program in programs] for _ in range(RUNS)]
    least, least_own = map(min, zip(*times))
    print(f"{work} {items.stem}: {ours:.0f}; {own:.0f}; {ours / own:.2f}; time {least / least_own:.2f}", flush=True)


def main(ours, own, folder, rounds):
    programs = Program(ours, PREPARED), Program(own, PREPARED_OWN)
    lists = {path.stem: path for path in sorted(pathlib.Path(folder).glob("*.hex"))}
    payloads = [path for name, path in lists.items() if name not in ("datagrams", "params")]
    for work in OF_PAYLOADS:
        for items in payloads:
            row(programs, work, items, rounds)
    if "acks" in lists:
        row(programs, "acks", lists["acks"], rounds)
    for work, name in OF_OTHERS:
        if name in lists:
            row(programs, work, lists[name], rounds)
    for work in WITHOUT_LIST:
        row(programs, work, payloads[0], rounds)


if len(sys.argv) != 5:
    sys.exit("usage: count.py OURS OWN FOLDER ROUNDS")
main(*sys.argv[1:4], int(sys.argv[4]))
