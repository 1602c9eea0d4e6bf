"""Which stacks exchange what, as scenes of vectors/captures/scenes.py."""

import sys
from dataclasses import replace
from pathlib import Path

import scenes
from scenes import KEPT, LATE, MOVE, PORT, Scene

HERE = Path(__file__).resolve().parent
# Where clients send if there is a relay before the server.
RELAYED = "4434"
BIG = {"big": 8_000_000, "middle": 1_500_000}
CAPTURE = ("-P", "-i", "lo", "-B", "256", "-s", "0")

# HAProxy takes files from a server by HTTP/1.
BEHIND = "8080"


def url(file):
    return f"https://localhost:{PORT}/{file}"


def curl(*options, files=("big",)):
    outputs = [word for file in files for word in ("--output", "/dev/null", url(file))]
    return ["curl", "--ipv4", "--http3-only", "--insecure", "--silent", "--show-error", *options, *outputs]


def several(count):
    """A curl of many streams at once."""
    return curl("--parallel", "--parallel-max", "100", files=["small"] * count)


def ngtcp2(*options, files=("big",)):
    return [*scenes.ngtcp2_client(*options)[:-1], *map(url, files)]


def aioquic(*options):
    # The name could stand for an address of IPv6, on which not all servers listen.
    return scenes.aioquic_client("alpn=h3", "name=localhost", *options)


def openssl(request="GET /big\\r\\n"):
    """OpenSSL's client sends what it reads, as HTTP/0.9."""
    command = [*scenes.S_CLIENT[:4], "hq-interop", *scenes.S_CLIENT[5:-1], f"127.0.0.1:{PORT}"]
    return ["sh", "-c", f"(printf '{request}'; sleep 4) | {' '.join(command)} >/dev/null"]


def server(name, also=""):
    """The command of a server with more options, its files, and the programs that it needs."""
    if name == "ngtcp2":
        return scenes.ngtcp2_server(*also.split()), {}, ()
    if name == "aioquic":
        return scenes.aioquic_server("alpn=h3", *also.split()), {}, ()
    file, text = scenes.SERVERS[name]
    if name != "haproxy":
        return scenes.server_of(name), {file: text.replace("root www", also + "root www")}, ()
    front = text[: text.index("  http-request return")].replace("alpn h3", f"alpn h3 {also}")
    back = f"  default_backend files\nbackend files\n  server one 127.0.0.1:{BEHIND}\n"
    files = [sys.executable, "-m", "http.server", "-b", "127.0.0.1", "-d", "www", BEHIND]
    return scenes.server_of(name), {file: f"global\n  cluster-secret traffic\n{front}{back}"}, (files,)


SERVERS = ("ngtcp2", "aioquic", "caddy", "nginx", "haproxy")
CLIENTS = {
    "curl": curl(),
    "ngtcp2": ngtcp2(),
    "aioquic": aioquic("file=big"),
}


def scene(says, name, clients, also="", **others):
    command, files, helpers = server(name, also)
    patience = 1 if name == "ngtcp2" else 2
    fields = {"capture": CAPTURE, "sizes": BIG, "only": f"udp port {PORT}", "limit": 120, "patience": patience}
    return Scene(says, command, clients, files=files, helpers=helpers, **{**fields, **others})


def relayed(one, leg, lost, late, seed):
    """A scene with a relay before the server, captured on the client's or the server's leg."""
    clients = [[word.replace(PORT, RELAYED) for word in client] for client in one.clients]
    relay = [sys.executable, "-B", str(HERE / "relay.py"), RELAYED, PORT, str(lost), str(late), str(seed)]
    port = RELAYED if leg == "client" else PORT
    return replace(one, clients=clients, helpers=(*one.helpers, relay), only=f"udp port {port}")


def plain():
    for name in SERVERS:
        for client, command in CLIENTS.items():
            yield f"{client}-{name}", scene("a download", name, [command])
    yield "openssl-nginx", scene("a download", "nginx", [openssl()], "http3_hq on; ")
    yield "curl-caddy-streams", scene("400 streams", "caddy", [several(400)])
    yield "curl-nginx-streams", scene("400 streams", "nginx", [several(400)])
    yield "ngtcp2-ngtcp2-streams", scene("100 streams", "ngtcp2", [ngtcp2("--nstreams=100", files=["small"] * 100)])
    upload = ["--data=www/middle", "--http-method=POST"]
    yield "ngtcp2-ngtcp2-upload", scene("an upload", "ngtcp2", [ngtcp2(*upload, files=["small"])])


def special():
    """What happens in a connection."""
    for name, client in {"migration": (MOVE, LATE), "rebinding": (MOVE, "--nat-rebinding", LATE)}.items():
        yield f"ngtcp2-ngtcp2-{name}", scene(name, "ngtcp2", [ngtcp2(*client)])
    yield "ngtcp2-ngtcp2-update", scene("a key update", "ngtcp2", [ngtcp2("--key-update=30ms", LATE)])
    yield "ngtcp2-ngtcp2-retry", scene("a Retry", "ngtcp2", [ngtcp2()], "-V")
    yield "ngtcp2-ngtcp2-0-rtt", scene("0-RTT", "ngtcp2", [ngtcp2(*KEPT)] * 2)
    yield "ngtcp2-ngtcp2-close", scene("the server closes", "ngtcp2", [ngtcp2()], "--verify-client")
    yield "curl-nginx-retry", scene("a Retry", "nginx", [curl()], "quic_retry on; ")
    yield "aioquic-nginx-retry", scene("a Retry", "nginx", [aioquic("file=middle")], "quic_retry on; ")
    yield "curl-haproxy-retry", scene("a Retry", "haproxy", [curl()], "quic-force-retry")
    for name in ("aioquic", "caddy", "nginx", "ngtcp2"):
        for option in ("update", "ids", "move"):
            client = aioquic("file=middle", f"{option}=1")
            yield f"aioquic-{name}-{option}", scene(option, name, [client])
    own = ("alpn=h3", "file=middle")
    for name, client, also in (
        ("version-2", ["version=2"], "version=2"),
        ("negotiated", ["version=2", "first=1"], "version=2"),
        ("0-rtt", ["again=1"], ""),
        ("close", ["code=42", "reason=enough"], ""),
        ("datagram", ["datagram=1"], "datagram=1"),
    ):
        yield f"aioquic-aioquic-{name}", scene(name, "aioquic", [scenes.aioquic_client(*own, *client)], also)


def lossy():
    """Losses, and datagrams that come late, on either leg."""
    for seed, (leg, lost, late) in enumerate((("client", 1, 2), ("server", 1, 2), ("client", 5, 5), ("server", 5, 5))):
        for name in SERVERS:
            for client, command in CLIENTS.items():
                one = relayed(scene("losses", name, [command]), leg, lost, late, seed)
                yield f"{client}-{name}-{leg}-{lost}", one
        retry = relayed(scene("losses, a Retry", "ngtcp2", [ngtcp2()], "-V"), leg, lost, late, seed)
        yield f"ngtcp2-ngtcp2-retry-{leg}-{lost}", retry
        update = scene("losses, a key update", "ngtcp2", [ngtcp2("--key-update=30ms", LATE)])
        yield f"ngtcp2-ngtcp2-update-{leg}-{lost}", relayed(update, leg, lost, late, seed)
        move = scene("losses, a migration", "ngtcp2", [ngtcp2(MOVE, LATE)])
        yield f"ngtcp2-ngtcp2-migration-{leg}-{lost}", relayed(move, leg, lost, late, seed)


def quinn():
    """quinn's client and server, which speak HTTP/0.9, as aioquic's do."""
    fields = {"capture": CAPTURE, "sizes": BIG, "only": f"udp port {PORT}", "limit": 120}
    big, middle = scenes.quinn_client("file=big"), scenes.quinn_client("file=middle")
    own = Scene("a download", scenes.quinn_server(), [big], **fields)
    yield "quinn-quinn", own
    yield "quinn-aioquic", Scene("a download", scenes.aioquic_server(), [big], patience=2, **fields)
    yield "aioquic-quinn", Scene("a download", scenes.quinn_server(), [scenes.aioquic_client("file=big")], **fields)
    yield "quinn-quinn-retry", replace(own, server=scenes.quinn_server("retry=1"))
    for option in ("update", "move", "datagram"):
        yield f"quinn-quinn-{option}", replace(own, says=option, clients=[[*middle, f"{option}=1"]])
    for seed, (leg, lost, late) in enumerate((("client", 1, 2), ("server", 1, 2), ("client", 5, 5), ("server", 5, 5))):
        yield f"quinn-quinn-{leg}-{lost}", relayed(replace(own, says="losses"), leg, lost, late, seed)


TRAFFIC = dict([*plain(), *special(), *lossy(), *quinn()])
