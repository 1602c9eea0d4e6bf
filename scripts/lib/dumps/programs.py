"""What programs print of random bytes, which must be read as these bytes or be an error, never as others."""

import subprocess

# Those that are read, except what may mean two things.
READ = """
xxd; xxd -a; xxd -g1; xxd -g4; xxd -g0; xxd -g3; xxd -g8; xxd -c5; xxd -c 8 -g1; xxd -c32; xxd -u; xxd -d; xxd -d -a;
xxd -d -g1; xxd -p -c0; xxd -i; xxd -i -u; xxd -C -i; xxd -s 16; xxd -s 5; xxd -o 64; hexdump -C; hexdump -Cv;
hexdump -C -s 16; hexdump -C -s 3; od -A x -t x1; od -A x -t x1z; od -A d -t x1; od -A d -t x1z; od -t x1; od -t x1z;
od -v -t x1; od -A d -v -t x1; od -A x -v -t x1; od -w8 -t x1; od -w8 -A d -t x1; od -w8 -A x -t x1; od -w1 -A x -t x1;
od -j 16 -t x1; od -j 5 -A x -t x1; od -j 5 -A d -t x1; busybox hexdump -C; busybox xxd; busybox od -t x1;
busybox od -A x -t x1; busybox od -A d -t x1
"""
# Those that are an error, except where the bytes are the same.
REJECTED = """
xxd -e; xxd -e -g8; xxd -b; xxd -b -c2; hexdump; hexdump -x; hexdump -b; hexdump -c; hexdump -d; hexdump -o; od;
od -x; od -b; od -c; od -A x; od -A x -x; od -A d -x; od -A x -t u1; od -t u1; od -A d -t u1; od -t d1; od -A x -t d1;
od -t o1; od -t x4; od -t x8; od -A x -t x4; od -A x -t x8; od -A x -t u2; od -A x -t o1; od -A x -t x2 --endian=big;
od -A x -t x1 -t u1; busybox hexdump
"""


def calls(text):
    return [call.split() for call in " ".join(text.split()).split("; ")]


def payload(random):
    count = random.choice([1, 2, 3, 4, 5, 7, 8, 9, 15, 16, 17, 20, 31, 32, 33, 48, 64, 112, 160, 176, 352, 1200])
    sixteen = random.randbytes(16)
    return random.choice([
        bytes(count),
        random.randbytes(count),
        bytes(random.choice(b"0123456789abcdef .|>:") for _ in range(count)),
        b" " * count,
        bytes(random.choice([0x10, 0x11, 0x01, 0]) for _ in range(count)),
        (sixteen * count)[:count],
        bytes(random.choice(range(10, 100)) for _ in range(count)),
        random.randbytes(count // 2) + bytes(count - count // 2),
    ])


def skipped(call):
    return next((int(call[call.index(option) + 1]) for option in ("-s", "-j") if option in call), 0)


def printed(random, path):
    """Pairs of a call with the bytes that it printed, and what it printed."""
    data = payload(random)
    path.write_bytes(data)
    for call in calls(READ) + calls(REJECTED):
        rest = data[skipped(call) :]
        if not rest:
            continue
        try:
            done = subprocess.run([*call, path], capture_output=True)
        except FileNotFoundError:
            continue
        if done.returncode == 0 and done.stdout:
            yield (call, rest), done.stdout.decode("latin-1").encode()


def is_right(call, data, answer):
    """Whether what was read is these bytes or only errors."""
    pieces = answer.split("\t")[:-1]
    are_errors = all(" error " in piece for piece in pieces) and pieces != []
    return are_errors or [piece.split(" ", 1)[1] for piece in pieces] == [data.hex()]
