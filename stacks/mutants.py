"""mutants.py LIST COUNT: this many lines of hexadecimal, the same each time: those of a list with bytes and bits
changed, cut, and with pieces of other lines inserted; and random bytes."""

import random
import sys


def mutant(rng, lines):
    if rng.randrange(4) == 0:
        return bytearray(rng.randbytes(rng.randrange(1, 40)))
    line = bytearray(rng.choice(lines))
    for _ in range(rng.randrange(1, 4)):
        at = rng.randrange(len(line))
        change = rng.randrange(4)
        if change == 0:
            line[at] = rng.randrange(256)
        elif change == 1:
            line[at] ^= 1 << rng.randrange(8)
        elif change == 2:
            del line[at + 1 :]
        else:
            line[at:at] = rng.choice(lines)[: rng.randrange(1, 30)]
    return line


def main():
    with open(sys.argv[1]) as text:
        lines = [bytes.fromhex(line) for line in text.read().split()]
    lines = [line for line in lines if len(line) < 300]
    rng = random.Random(11)
    for _ in range(int(sys.argv[2])):
        print(mutant(rng, lines).hex())


if __name__ == "__main__":
    main()
