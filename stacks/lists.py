"""lists.py payload|params COUNT <LIST: lines for the drivers (vectors/README.md): those of a list of hexadecimal, and
this many made from them (mutants.py). Lists of parameters come twice, as a server's and as a client's. Each gets the
ids that RFC 9000, section 7.3, requires if it lacks them, since some stacks check these first."""

import random
import sys

from mutants import mutant

SEED = 17
ODCID, ISCID = 0x00, 0x0F


def integer_at(data, at):
    """A variable-length integer, and where it ends."""
    end = at + (1 << (data[at] >> 6))
    if end > len(data):
        raise IndexError
    return int.from_bytes(data[at:end], "big") & ((1 << 8 * (end - at) - 2) - 1), end


def entries(data):
    """The entries of a list of parameters, as ids, values and how many bytes their lengths have, up to where it is cut
    off; and whether it is."""
    found, at = [], 0
    try:
        while at < len(data):
            ident, begin = integer_at(data, at)
            size, at = integer_at(data, begin)
            if at + size > len(data):
                raise IndexError
            found.append((ident, data[at : at + size], at - begin))
            at += size
    except IndexError:
        return found, True
    return found, False


def with_ids(data, is_server):
    found, is_cut = entries(data)
    idents = {ident for ident, _, _ in found}
    more = b"".join(bytes([ident, 0]) for ident in [ISCID] + [ODCID] * is_server if ident not in idents)
    return more + data if is_cut else data + more


def main():
    form, count = sys.argv[1], int(sys.argv[2])
    rng = random.Random(SEED)
    lines = [bytes.fromhex(line) for line in sys.stdin.read().split()]
    short = [line for line in lines if 0 < len(line) < 300]
    lines += [bytes(mutant(rng, short)) for _ in range(count)]
    for line in dict.fromkeys(lines):
        if form == "payload":
            print("payload -", line.hex() or "-")
        else:
            print("params -", with_ids(line, True).hex())
            print("params from=client", with_ids(line, False).hex())


if __name__ == "__main__":
    main()
