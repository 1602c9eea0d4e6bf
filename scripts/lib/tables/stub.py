"""python/src/quic_wire/_wire.pyi: _wire.pyi.in with the constants, the classes of frames and packets, the parameters."""
from lib.tables import classes
from lib.tables.formats import FILE, read

PATH = "python/src/quic_wire/_wire.pyi"
BEGIN = f"# Made by scripts/make/tables from {PATH.rsplit('/', 1)[1]}.in and {FILE}: change nothing here.\n"
# What a field is given as, and what it is.
TYPES = {
    "number": ("int = 0", "int"), "count": ("int = 1", "int"), "ecn": ("Optional[int] = None", "Optional[int]"),
    "ranges": ("Optional[_Ranges] = None", "tuple[range, ...]"), "fin": ("bool = False", "bool"),
    "data": ('Buffer = b""', "memoryview"), "bytes": ('Buffer = b""', "bytes"), "token": ("Buffer = ...", "bytes"),
    "path": (r'Buffer = b"\0\0\0\0\0\0\0\0"', "bytes"),
}
PACKET_TYPES = {
    "token": "bytes", "retry_token": "bytes", "retry_tag": "Optional[bytes]", "length": "int",
    "token_at": "int", "spin": "bool", "versions": "tuple[int, ...]",
}
# What is in every frame or packet.
COMMON_TYPES = {
    "begin": "int", "end": "int", "type": "int", "kind": "int", "name": "str", "rule": "bool", "rule_not": "bool",
    "first": "int", "number_at": "Optional[int]", "data": "memoryview", "version": "int", "dcid": "bytes",
    "scid": "bytes",
}
PARAMETER_TYPES = {
    "id": "Optional[Buffer] = None", "bytes": "Optional[Buffer] = None", "flag": "bool = False",
    "preferred_address": "Optional[PreferredAddress] = None",
}


def init(arguments):
    """A constructor, in as few lines as there is room for."""
    line = ", ".join(arguments)
    if len(line) <= 92:
        return f"    def __init__({line}) -> None: ...\n"
    lines = [line] if len(line) <= 112 else [f"{it}," for it in arguments]
    return "    def __init__(\n" + "".join(f"        {it}\n" for it in lines) + "    ) -> None: ...\n"


def properties(types):
    return "".join(f"    @property\n    def {name}(self) -> {kind}: ...\n" for name, kind in types.items())


def common(some):
    return properties({it.name: COMMON_TYPES[it.how] for it in some})


def names(some):
    listed = ", ".join(f'"{it.name}"' for it in some) + "," * (len(some) == 1)
    return f"    __match_args__ = ({listed})\n" if some else ""


def given(field):
    """What a field of a frame is given as."""
    kind = TYPES[field.how][0]
    return kind.replace('b""', "...") if field.is_needed else kind


def inits(fields):
    """The constructor of a frame. If bytes must be given, there are two: for all fields, by position or by name, and for
    those bytes by name."""
    arguments = [f"{it.name}: {given(it)}" for it in fields]
    if not any(it.is_needed for it in fields):
        return init(["self", *arguments])
    required = [one.removesuffix(" = ...") if it.is_needed else one for one, it in zip(arguments, fields)]
    first = next(i for i, it in enumerate(fields) if it.is_needed)
    ways = [[one.split(" = ")[0] for one in arguments], [*required[:first], "*", *required[first:]]]
    return "".join(f"    @overload\n{init(['self', *way])}" for way in ways)


def frame(one):
    return (
        f"@final\nclass {one.name}(Frame):\n    KIND: ClassVar[int]\n{names(one.fields)}{inits(one.fields)}"
        f"{properties({it.name: TYPES[it.how][1] for it in one.fields})}")


def packet(one):
    own = {it.name: PACKET_TYPES[it.how] for it in one.fields if it.how in PACKET_TYPES}
    return f"@final\nclass {one.name}(Packet):\n{names(one.fields)}{properties(own)}"


def given_parameters(formats):
    """What transport parameters are given as, by name."""
    for one in classes.parameters(formats):
        number = f"int = {one['default']}" if "default" in one else "Optional[int] = None"
        yield one["name"], PARAMETER_TYPES.get(one["kind"], number)


def signature(given):
    """How a class is called, by what is given by each name."""
    return ", ".join(f"{name}={kind.split(' = ')[1]}" for name, kind in given).replace('"', "'")


def parameters(formats):
    types = dict(given_parameters(formats))
    results = {name: kind.split(" = ")[0].replace("Buffer", "bytes") for name, kind in types.items()}
    return init(["self", "*", *(f"{name}: {kind}" for name, kind in types.items())]) + properties(results)


def made(formats):
    constants = [*classes.results(formats), *(f"READ_{word}" for word in classes.flags())]
    parts = {
        "constants": "".join(f"{word}: int\n" for word in constants),
        "frame": common(classes.OF_FRAMES),
        "packet": common(classes.OF_PACKETS),
        "frames": "\n".join(map(frame, classes.frames(formats))),
        "packets": "\n".join(map(packet, classes.packets(formats))),
        "parameters": parameters(formats),
    }
    text = read(f"{PATH}.in")
    for name, part in parts.items():
        text = text.replace(f"@{name}@\n", part)
    return BEGIN + text
