"""The lines that the page is tested with, and what quic-show prints for them."""
import os
import random
import re
import subprocess
import sys

MUTATED = 10000
SEED = 9000

# The arguments of each command of quic-show, and the settings of the page that show the same: quic-show reads as
# quinn-proto does.
FORMS = {
    "frames": {"mode": "frames", "quinn": True},
    "strict": {"mode": "frames", "quinn": True, "strict": True},
    "datagram 0": {"mode": "datagram", "quinn": True, "idLength": 0},
    "datagram 8": {"mode": "datagram", "quinn": True, "idLength": 8},
    "datagram 20": {"mode": "datagram", "quinn": True, "idLength": 20},
    "params client": {"mode": "params", "quinn": True, "side": "client"},
    "params server": {"mode": "params", "quinn": True, "side": "server"},
}


def read_lines(path):
    with open(path, encoding="ascii") as file:
        return file.read().splitlines()


def lines_of(top, form):
    """The lines of quic_replay's list, and the inputs of the test vectors."""
    told = subprocess.run(
        [sys.executable, f"{top}/vectors/inputs.py", form], capture_output=True, text=True, check=True
    ).stdout
    return read_lines(f"{top}/crates/quic_replay/data/{form.removesuffix('s')}s.in") + told.splitlines()


def stored(top):
    """The lists of the repository, each with a command."""
    payloads, datagrams, params = (lines_of(top, form) for form in ("payload", "datagram", "params"))
    lists = {"frames": payloads, "strict": payloads}
    for length in (0, 8, 20):
        lists[f"datagram {length}"] = datagrams
    for side in ("client", "server"):
        lists[f"params {side}"] = params
    return lists


def worked(top):
    """The commands in README whose input is a line, and their lines."""
    with open(f"{top}/README.md", encoding="utf-8") as file:
        text = file.read()
    program = r"(?:\./quic-show|dist/quic-show-x86_64-linux)"
    found = re.findall(rf"^    echo '?([0-9a-f][0-9a-f ]*)'? \|(?: tr -d ' :' \|)? {program} (.+)$", text, re.M)
    if not found:
        raise ValueError("README has no command whose input is a line")
    lists = {}
    for digits, command in found:
        lists.setdefault(command, []).append(digits.replace(" ", ""))
    return lists


def mutate(line, chance):
    """The line with some bytes changed, left out, inserted or cut off."""
    data = bytearray.fromhex(line)
    for _ in range(chance.randint(1, 3)):
        place = chance.randint(0, len(data))
        kind = chance.randrange(4)
        if kind == 0 and place < len(data):
            data[place] = chance.choice([0, 1, 0x40, 0x80, 0xC0, 0xFF, data[place] ^ (1 << chance.randrange(8))])
        elif kind == 1 and place < len(data):
            del data[place]
        elif kind == 2:
            data.insert(place, chance.randrange(256))
        elif kind == 3:
            del data[place:]
    return data.hex()


def mutated(lists, count=MUTATED):
    """This many lines made from the lists with a seed, equally many for each command."""
    chance = random.Random(SEED)
    share = -(-count // len(lists))
    return {command: [mutate(chance.choice(lines), chance) for _ in range(share)] for command, lines in lists.items()}


def printed(program, command, lines):
    """What quic-show prints for each line."""
    ends = {"canon": 1}
    text = "".join(line + "\n" for line in lines)
    done = subprocess.run([program, *command.split()], input=text, capture_output=True, text=True, check=False)
    if done.returncode > 1:
        raise SystemExit(f"browsers: {os.path.basename(program)} {command} ended with {done.returncode}: {done.stderr}")
    out = done.stdout.splitlines()
    if command in ends:
        return out
    return list(cut(out, lines, command))


def cut(out, lines, command):
    """The lines printed for each line of input: they end with the last byte, with an error, or with `ok`."""
    at = 0
    for line in lines:
        begin = at
        while True:
            word = out[at]
            at += 1
            if word.startswith("error ") or word == "ok":
                break
            if not command.startswith("params") and word.split(" ")[0].endswith(f"..{len(line) // 2}"):
                break
        yield "\n".join(out[begin:at])
    if at != len(out):
        raise SystemExit(f"browsers: quic-show {command} printed {len(out)} lines and not {at}")
