"""What hostile callers do: wrong arguments, buffers of all kinds, threads, interpreters, and calls without end.

    python -m tests.abuse [SEED [CALLS]]

from the folder above. Prints a line for each part, with how many calls it made, and each fault with what made it. The
default is 1 and 1,000,000. Exit status: 0 no fault, 1 a fault, 2 usage error; a crash is a fault too.

Partners to compare with: which arguments a call takes is what inspect.signature says; what any buffer holds is read as
the same bytes are.
"""

import array
import contextlib
import gc
import importlib
import inspect
import mmap
import pickle
import random
import sys
import threading

import quic_wire as q

try:
    import ctypes
except ImportError:  # in some interpreters below another
    ctypes = None
try:
    import resource
except ImportError:  # on Windows
    resource = None

# What may be raised for wrong arguments; MemoryError for a PADDING of 2^62 bytes, or so many versions.
EXPECTED = (ValueError, TypeError, BufferError, MemoryError)
PAYLOAD = bytes.fromhex("0001" "0600026162" "0a000163" "03090501010002010203" "0000" "180201026162" + "07" * 16)
SHOWN = 200  # characters of a fault
# A length for which CPython makes a tuple first. Without its lock 3.13 has no MemoryError for one that takes all memory
# of the machine, and doesn't give all of a long one back: `tuple` of such an object grows too.
LIE = 1 << 40 if getattr(sys, "_is_gil_enabled", lambda: True)() else 40
MEMORY = 3 << 30  # bytes for all calls, so that a PADDING of 2^32 bytes is a MemoryError and the machine keeps its own
TIMES = 16  # that calls are done again
SLACK = 60  # blocks, references or pages that may be left each time, as those of what is printed
faults = []
signatures = {}


class Raised(Exception):
    """What hostile objects raise."""


class Hostile:
    """An object whose every method raises."""

    def _raise(self, *_):
        raise Raised

    __index__ = __int__ = __bool__ = __len__ = __iter__ = __getitem__ = __hash__ = __eq__ = __buffer__ = encode = _raise


class Liar:
    """A sequence whose length isn't what it has, of which each element changes what it was read from."""

    def __init__(self, values, length):
        self.values, self.length = values, length

    def __len__(self):
        return self.length

    def __getitem__(self, i):
        value = self.values[i]
        self.values.clear()
        return value

    def __iter__(self):
        yield from list(self.values)


class Index:
    """A number that isn't an int."""

    def __init__(self, number):
        self.number = number

    def __index__(self):
        return self.number


def fault(*what):
    faults.append(what)
    print("fault:", " ".join(repr(one)[:SHOWN] for one in what), flush=True)


# ---- Arguments

NUMBERS = [0, 1, 2, 4, 7, 8, 20, 21, 63, 64, 255, 256, 1 << 32, (1 << 62) - 1, 1 << 62, (1 << 64) - 1, 1 << 64, -1]
NUMBERS += [1 << 70, True, q.Side.SERVER, q.PacketType.ONE_RTT, q.Checks.RFC]


def values():
    """Values of every kind that an argument may be given."""
    data = bytearray(PAYLOAD)
    return [
        *NUMBERS, None, "text", "", 1.5, b"", b"\x01", bytes(16), bytes(20), PAYLOAD, data, memoryview(data)[3:],
        memoryview(data)[::2], array.array("H", [1, 2]), [], [1], [(1, 5)], [range(3)], [range(9, 0, -1)], ["ab"],
        (i for i in range(3)), [(0, b"")], {1: 2}, q.Ping, q.Ping(), q.Ack(ranges=[range(4)]), q.RangeSet([(1, 9)]),
        q.TransportParameters(), Hostile(), Index(1), Index(1 << 70), Liar([1, 2], 2), Liar([range(3)], LIE),
        object(),
    ]  # fmt: skip


def callables():
    """All that can be called, with its name. Objects are new, since sets change."""
    classes = [*q.Frame.__subclasses__(), q.RangeSet, q.TransportParameters]
    for name in q.__all__:
        one = getattr(q, name)
        if one in classes or inspect.isbuiltin(one) or inspect.isfunction(one):
            yield name, one
    objects = [q.frames(PAYLOAD), q.read_packet(b"\x41" * 40, 8), q.RangeSet([(1, 5)]), q.TransportParameters()]
    for owner in [*objects, *q.read_frames(PAYLOAD)]:
        for name in dir(owner):
            if not name.startswith("__") and callable(getattr(owner, name)):
                yield f"{type(owner).__name__}.{name}", getattr(owner, name)


def signature_of(name, call):
    """A call's signature, made once: CPython 3.13 without its lock never frees what it parses for that."""
    if name not in signatures:
        try:
            signatures[name] = inspect.signature(call)
        except ValueError:
            signatures[name] = None
    return signatures[name]


def chosen(chance, signature):
    """Arguments by position and by name."""
    pool, names = values(), list(signature.parameters) if signature else []
    count = chance.choice([len(names), chance.randrange(len(names) + 2)])
    args = [chance.choice(pool) for _ in range(chance.randrange(count + 1))]
    by_name = chance.sample([*names, "other", 7], chance.randrange(min(len(names), 3) + 1))
    return args, {name: chance.choice(pool) for name in by_name}


def does_bind(signature, args, named):
    try:
        signature.bind(*args, **named)
    except TypeError:
        return False
    return True


def exhaust(result):
    """What is read later, is read now."""
    if inspect.isgenerator(result) or isinstance(result, q.FrameIterator):
        list(result)


def try_arguments(chance, count):
    """Any arguments are taken or rejected, and those that don't fit the signature aren't taken."""
    tried = [(name, call, signature_of(name, call)) for name, call in callables()]
    for _ in range(count):
        name, call, signature = chance.choice(tried)
        args, named = chosen(chance, signature)
        fits = signature is None or does_bind(signature, args, named)
        try:
            exhaust(call(*args, **named))
            if not fits:
                fault(name, "takes", args, named)
        except (Raised, *EXPECTED):
            pass
        except Exception as error:
            fault(name, args, named, error)
    return count


# ---- Buffers


def buffers(data):
    """The same bytes in every kind of buffer, with its name."""
    yield "bytearray", bytearray(data)
    yield "memoryview", memoryview(data)
    yield "a part of a memoryview", memoryview(b"\xff" + data + b"\xff")[1:-1]
    yield "signed bytes", memoryview(data).cast("b")
    yield "array", array.array("B", data)
    if ctypes:
        yield "ctypes", (ctypes.c_ubyte * len(data)).from_buffer_copy(data)
    if len(data) % 2 == 0:
        yield "words", array.array("H", data)
        yield "two dimensions", memoryview(data).cast("B", (2, len(data) // 2)) if data else data
    if data:
        pages = mmap.mmap(-1, len(data))
        pages.write(data)
        yield "mmap", pages


def scattered(data):
    """Buffers that aren't contiguous."""
    twice = bytes(byte for byte in data for _ in range(2))
    yield memoryview(twice)[::2]
    yield memoryview(data)[::-1]


READERS = {
    "read_frames": lambda data: [frame.as_dict() for frame in q.read_frames(data)],
    "frames": lambda data: [(frame, frame.begin, frame.end) for frame in q.frames(data, checks=q.Checks.RFC)],
    "canonical": q.canonical,
    "read_packets": lambda data: [(repr(one), one.dcid, bytes(one.data)) for one in q.read_packets(data, 8)],
    "packets": lambda data: [repr(one) for one in q.packets(data, 0, checks=q.Checks.RFC)],
    "TransportParameters.read": lambda data: q.TransportParameters.read(q.Side.CLIENT, data),
    "parameters": lambda data: [repr(one) for one in q.parameters(data)],
    "find_parameter": lambda data: [q.find_parameter(data, number) for number in (4, 0x0F, 99)],
    "read_varint": lambda data: q.read_varint(data),
    "frame_fields": lambda data: q.frame_fields(data),
    "packet_fields": lambda data: q.packet_fields(data, 4),
}


def outcome(read, data):
    """What a reader returns, or why it rejects."""
    try:
        return read(data)
    except q.Error as error:
        return str(error)


def mutated(chance):
    """A payload, a datagram or a list with some bytes changed, or any bytes."""
    seeds = [
        PAYLOAD, q.write_header(q.PacketType.INITIAL, bytes(8), b"ab", b"token") + bytes(30), b"\x41" * 40,
        q.TransportParameters(initial_max_data=5, initial_source_connection_id=b"abc").write(0), chance.randbytes(12),
    ]  # fmt: skip
    data = bytearray(chance.choice(seeds))
    for _ in range(chance.randrange(4)):
        data[chance.randrange(len(data))] = chance.randrange(256)
    return bytes(data[: chance.randrange(len(data) + 1)] if chance.random() < 0.3 else data)


def try_buffers(chance, count):
    """Every buffer is read as its bytes are, and one with holes isn't read."""
    for i in range(count):
        data = mutated(chance)
        name, read = chance.choice(list(READERS.items()))
        wanted = outcome(read, data)
        for kind, buffer in buffers(data):
            if outcome(read, buffer) != wanted:
                fault(name, kind, data)
        for buffer in scattered(data) if len(data) > 1 else ():
            try:
                read(buffer)
                fault(name, "scattered", data)
            except EXPECTED:
                pass
    return count


# ---- Threads and interpreters


def read_and_show(payload):
    """Objects of bytes that may change at any time."""
    with contextlib.suppress(ValueError):
        for frame in q.frames(payload):
            repr(frame), frame.encode(), hash(frame)
    with contextlib.suppress(ValueError):
        q.RangeSet(q.read_frames(payload, at=11)[0])
    with contextlib.suppress(ValueError):
        [repr(one) for one in q.read_packets(payload, 8)]


def try_threads(chance, count):
    """Threads that read what others change, and share iterators, sets and frames."""
    payload, shared, numbers = bytearray(PAYLOAD), q.frames(b"\x01" * count), q.RangeSet()
    lent = bytearray(PAYLOAD)
    frames = q.read_frames(lent)
    found, seeds = [], [chance.random() for _ in range(4)]

    def scribble(seed):
        own = random.Random(seed)
        for _ in range(count):
            payload[own.randrange(len(payload))] = own.randrange(256)

    def work(seed):
        own = random.Random(seed)
        try:
            for _ in range(count // 100):
                read_and_show(payload)
                for frame in frames:
                    repr(frame), frame.encode(), hash(frame), getattr(frame, "data", None)
            for frame in shared:
                found.append(frame.begin)
                numbers.insert(own.randrange(1000), own.randrange(1000))
                numbers.remove(own.randrange(1000))
                q.RangeSet(numbers), repr(numbers), pickle.dumps(numbers)
                with contextlib.suppress(ValueError):
                    q.Ack(ranges=numbers).encode()
        except BaseException as error:
            fault("a thread", error)

    threads = [threading.Thread(target=scribble, args=seeds[:1])]
    threads += [threading.Thread(target=work, args=(seed,)) for seed in seeds]
    for thread in threads:
        thread.start()
    for thread in threads:
        thread.join()
    if sorted(found) != list(range(count)):
        fault("threads share the frames of an iterator", len(found), count)
    frames.clear()
    try:
        lent.append(0)
    except BufferError as error:
        fault("threads share frames, and their buffer stays", error)
    return 6 * count


BODY = """
import random, sys
sys.path[:] = {path!r}
from tests import abuse
abuse.try_arguments(random.Random({seed}), {count})
abuse.try_buffers(random.Random({seed}), {count} // 10)
assert not abuse.faults, abuse.faults
"""


def interpreters():
    for name in ("_interpreters", "_xxsubinterpreters"):
        with contextlib.suppress(ImportError):
            return importlib.import_module(name)
    return None


def try_interpreters(chance, count):
    """Interpreters that come and go, each with types of its own."""
    module = interpreters()
    if module is None:
        return 0
    for _ in range(5):
        one = module.create()
        try:
            body = BODY.format(path=sys.path, seed=chance.randrange(1 << 30), count=count // 5)
            failed = module.run_string(one, body)
            if failed is not None:
                fault("an interpreter", failed)
        except Exception as error:
            fault("an interpreter", error)
        finally:
            module.destroy(one)
    return count


# ---- Leaks


def use_all():
    """Some calls of each kind, also of errors: how many."""
    ack = q.Ack(ranges=[(1, 3), range(5, 9)], ect0=1)
    frames = [ack, q.Stream(1, 2, True, b"abc"), q.NewConnectionId(5, 2, b"ab", bytes(16)), q.Padding(3)]
    payload = bytearray(q.write_frames(frames))
    for frame in q.frames(payload, checks=q.Checks.RFC):
        frame.check_permitted(q.PacketType.ONE_RTT, q.Side.CLIENT, checks=0)
        repr(frame), hash(frame), frame.as_dict(), frame.encode(last=True), pickle.loads(pickle.dumps(frame))
    q.RangeSet(ack).insert(4), q.acknowledged(q.RangeSet([(0, 9)]), ack), q.canonical(payload)
    header = q.write_header(q.PacketType.INITIAL, b"ab", b"cd", b"token", number=5, key_phase=True)
    packet = bytearray(header + bytes(20))
    q.set_length(packet, len(header) - 4), q.protect(packet, len(header) - 4, bytes(5))
    read = q.read_packet(packet, cid_len=0, checks=q.Checks.RFC)
    repr(read), read.dcid, read.token, read.sample(), q.unprotect(read.data, read.number_at, bytes(5), expected=2)
    made = q.TransportParameters(initial_max_data=5, initial_source_connection_id=b"ab")
    again = q.TransportParameters.read(q.Side.SERVER, made.write(q.Side.CLIENT, [(27, b"x")]), checks=q.Checks.RFC)
    again.present, repr(again), list(q.parameters(made.write(0)))
    rejected = [
        lambda: q.read_frames(b"\x10"), lambda: q.read_packets(b"\xc0", 0), lambda: q.frames(b"\1", at=2),
        lambda: q.TransportParameters.read(0, b"\4"), lambda: q.Ack(ranges=[range(0, 9, 2)]), lambda: q.Stream(other=1),
        lambda: q.read_varint(b""), lambda: q.unprotect(bytes(9), 8, mask=bytes(5)), lambda: q.read_packet(b"\1"),
        lambda: q.Ping().encode(check=1), lambda: q.protect(b"", 0, bytes(5)), lambda: q.write_header(0, bytes(21)),
    ]  # fmt: skip
    for call in rejected:
        with contextlib.suppress(*EXPECTED):
            call()
    return 60


def held():
    """What must not grow: the interpreter's blocks of memory, all references in a debug build, and on Linux the pages
    of the process, which also count what the interpreter leaves to malloc."""
    gc.collect()
    found = {"blocks": sys.getallocatedblocks()}
    if hasattr(sys, "gettotalrefcount"):
        found["references"] = sys.gettotalrefcount()
    with contextlib.suppress(OSError), open("/proc/self/statm") as pages:
        found["pages"] = int(pages.read().split()[1])
    return found


def does_grow(calls, count, what):
    """Repeats calls, of which there are so many. What the interpreter keeps is left by some of the times, by the first
    ones above all, and what leaks by each."""
    after = []
    for _ in range(TIMES):
        calls()
        after.append(held())
    last = after[TIMES // 2 :]
    left = {name: min(later[name] - one[name] for one, later in zip(last, last[1:])) for name in after[0]}
    print(f"{what}: {count:,} calls, done again, leave {left}", flush=True)
    for name, number in left.items():
        if number > SLACK:
            fault(f"{name} grow", [one[name] for one in after])


def try_leaks(chance, count):
    """What is held doesn't grow with the number of calls: those of each kind, and the same hostile ones again."""
    rounds, seed = max(2 * SLACK, count // use_all() // TIMES), chance.random()

    def use():
        for _ in range(rounds):
            use_all()

    does_grow(use, 60 * rounds, "calls of each kind")
    hostile, buffered = count // TIMES, count // TIMES // 20
    does_grow(lambda: try_arguments(random.Random(seed), hostile), hostile, "hostile arguments")
    does_grow(lambda: try_buffers(random.Random(seed), buffered), buffered, "buffers")
    return TIMES * (60 * rounds + hostile + buffered)


def limit_memory():
    """No call takes more than MEMORY, if the system can see to that and doesn't set a lower limit already."""
    if resource is not None:
        with contextlib.suppress(ValueError, OSError):
            resource.setrlimit(resource.RLIMIT_AS, (MEMORY, resource.getrlimit(resource.RLIMIT_AS)[1]))


def main():
    words = sys.argv[1:]
    if len(words) > 2 or not all(word.isdigit() for word in words):
        print("usage: python -m tests.abuse [SEED [CALLS]]", file=sys.stderr)
        return 2
    seed, count = [int(word) for word in words] + [1, 1_000_000][len(words) :]
    limit_memory()
    parts = {try_arguments: count, try_buffers: count // 20, try_threads: count // 200, try_interpreters: count // 50}
    for part, share in (*parts.items(), (try_leaks, count)):
        made = part(random.Random(seed), max(share, 50))
        print(f"{part.__name__[4:]}: {made:,} calls, {len(faults)} faults so far", flush=True)
    return 1 if faults else 0


if __name__ == "__main__":
    sys.exit(main())
