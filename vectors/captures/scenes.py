"""The scenes that are recorded: which programs run, and how they are captured."""

import os
from dataclasses import dataclass, field
from pathlib import Path

PORT = "4433"
PYTHON = os.environ.get("AIOQUIC", "python3")
QUINN = os.environ.get("QUINN", "quinn-peer")
PEER = str(Path(__file__).resolve().parent / "aioquic_peer.py")

LOOPBACK = ("-P", "-i", "lo")

# The files that servers read, by the names of their programs.
SERVERS = {
    "caddy": (
        "Caddyfile",
        f"""{{
	admin off
	auto_https disable_redirects
}}
https://localhost:{PORT} {{
	tls cert.pem key.pem
	root * www
	file_server
}}
""",
    ),
    "nginx": (
        "nginx.conf",
        f"""daemon off; master_process off; user root root; pid nginx.pid; error_log nginx.log;
events {{}}
http {{
  access_log off;
  client_body_temp_path tmp; proxy_temp_path tmp; fastcgi_temp_path tmp; uwsgi_temp_path tmp; scgi_temp_path tmp;
  server {{
    listen 127.0.0.1:{PORT} quic;
    ssl_certificate cert.pem; ssl_certificate_key key.pem;
    root www;
  }}
}}
""",
    ),
    "haproxy": (
        "haproxy.cfg",
        f"""defaults
  mode http
  timeout client 10s
  timeout server 10s
  timeout connect 10s
frontend front
  bind quic4@127.0.0.1:{PORT} ssl crt both.pem alpn h3
  http-request return status 200 content-type text/plain string hello
""",
    ),
}


@dataclass
class Scene:
    """A server, the clients that run one after another, and the options of dumpcap."""

    says: str
    server: list
    clients: list
    capture: tuple = LOOPBACK
    succeeds: bool = True
    secrets_inside: bool = False
    compressed: bool = False
    # How many bytes the kernel cuts datagrams into after they were captured.
    segment: int = 0
    # How many bytes a datagram has at most that isn't cut.
    uncut: int = 0
    # Files that the programs read.
    files: dict = field(default_factory=dict)
    # How long the server takes to begin, in seconds.
    patience: float = 0.7
    # The server's stack, if its command doesn't say so.
    behind: str = ""
    # Whether the client sends another ClientHello after a Retry.
    anew: bool = False
    # Files that the server has beside `small` and `large`, by their sizes.
    sizes: dict = field(default_factory=dict)
    # Programs that run before the server and as long as it does.
    helpers: tuple = ()
    # Which datagrams are captured.
    only: str = "udp"
    # How long a client takes at most, in seconds.
    limit: float = 30

    def stacks(self):
        """The client and the server, or the only one."""
        server = self.behind or name_of(self.server)
        return list(dict.fromkeys([*map(name_of, self.clients), server]))

    def programs(self):
        """What must be installed."""
        stacks = {command[0] for command in (self.server, *self.clients, *self.helpers)}
        return sorted(stacks | {"unshare", "ip", "dumpcap", "editcap", "tshark", "openssl"})


STACKS = {
    "chromium": "Chromium",
    "firefox-esr": "Firefox",
    "gtlsclient": "ngtcp2 0.12",
    "gtlsserver": "ngtcp2 0.12",
    "curl": "ngtcp2 1",
    "caddy": "quic-go",
    "nginx": "nginx",
    "haproxy": "HAProxy",
    "openssl": "OpenSSL",
}


def name_of(command):
    """The stack of a command."""
    return "quinn" if command[0] == QUINN else STACKS.get(command[0], "aioquic")


def suite(name):
    return f"--ciphers=NORMAL:-VERS-ALL:+VERS-TLS1.3:-CIPHER-ALL:+{name}"


def ngtcp2_client(*options, address="127.0.0.1", file="small"):
    command = ["gtlsclient", "-q", "--exit-on-all-streams-close", *options]
    return [*command, address, PORT, f"https://localhost:{PORT}/{file}"]


def ngtcp2_server(*options, address="127.0.0.1"):
    # Segments aren't left to the kernel unless a scene wants that.
    return ["gtlsserver", "-q", "-d", "www", "--max-gso-dgrams=1", *options, address, PORT, "key.pem", "cert.pem"]


def ngtcp2(says, *client, server=(), file="small", address="127.0.0.1", **others):
    """ngtcp2's client and server with options."""
    clients = [ngtcp2_client(*client, address=address, file=file)]
    return Scene(says, ngtcp2_server(*server, address=address), clients, **others)


LATE = "--delay-stream=100ms"
MOVE = "--change-local-addr=30ms"
KEPT = ("--session-file=session", "--tp-file=parameters", "--token-file=token")
LOSS = ("-t", "0.1", "-r", "0.1")

NGTCP2 = {
    "ngtcp2-handshake": ngtcp2("a file of 6 bytes by HTTP/3, TLS_AES_128_GCM_SHA256"),
    "ngtcp2-retry": ngtcp2("the server validates the client's address by a Retry", server=["-V"]),
    "ngtcp2-ipv6": ngtcp2("IPv6", address="::1"),
    "ngtcp2-aes-256": ngtcp2("TLS_AES_256_GCM_SHA384", suite("AES-256-GCM")),
    "ngtcp2-chacha20": ngtcp2("TLS_CHACHA20_POLY1305_SHA256", suite("CHACHA20-POLY1305")),
    "ngtcp2-no-id": ngtcp2("the client's ids have no bytes", "--scid="),
    "ngtcp2-key-update": ngtcp2("the client updates the keys", "--key-update=30ms", LATE, file="large"),
    "ngtcp2-migration": ngtcp2("the client moves to another port", MOVE, LATE, file="large"),
    "ngtcp2-rebinding": ngtcp2("the client's port changes without its knowledge", MOVE, "--nat-rebinding", LATE),
    "ngtcp2-loss": ngtcp2("both sides drop a tenth of what they send and get", *LOSS, server=LOSS, file="large"),
    "ngtcp2-close": ngtcp2("the client has no certificate, so the server closes", server=["--verify-client"]),
    "ngtcp2-negotiation": ngtcp2(
        "the server doesn't know the client's version", "--version=0x1a2a3a4a", "--preferred-versions=v1"
    ),
    "ngtcp2-offload": ngtcp2(
        "segmentation offload: a record has several datagrams",
        "--no-pmtud",
        server=["--no-pmtud", "--max-gso-dgrams=64"],
        file="large",
        segment=1200,
    ),
    "ngtcp2-0-rtt": Scene(
        "two connections, of which the second sends 0-RTT packets", ngtcp2_server(), [ngtcp2_client(*KEPT)] * 2
    ),
    "ngtcp2-secrets": ngtcp2("pcapng with the secrets", capture=("-i", "lo"), secrets_inside=True),
    "ngtcp2-cooked": ngtcp2("Linux cooked capture", capture=("-P", "-i", "any", "-y", "LINUX_SLL")),
    "ngtcp2-cooked-2": ngtcp2(
        "Linux cooked capture of the second version", capture=("-P", "-i", "any", "-y", "LINUX_SLL2")
    ),
    "ngtcp2-gzip": ngtcp2("the same as ngtcp2-handshake, compressed by gzip", compressed=True),
}


def aioquic_server(*options, address="127.0.0.1"):
    return [PYTHON, "-B", PEER, "serve", address, PORT, *options]


def aioquic_client(*options, address="127.0.0.1"):
    return [PYTHON, "-B", PEER, "ask", address, PORT, *options]


def aioquic(says, *client, server=(), address="127.0.0.1", **others):
    """aioquic's client and server with options."""
    clients = [aioquic_client(*client, address=address)]
    return Scene(says, aioquic_server(*server, address=address), clients, patience=2, **others)


CHACHA20 = "suite=CHACHA20_POLY1305_SHA256"

AIOQUIC = {
    "aioquic-handshake": aioquic("a file of 6 bytes by HTTP/0.9"),
    "aioquic-version-2": aioquic("version 2", "version=2", server=["version=2"]),
    # aioquic 1.3.0 seals the client's acknowledgment in an Initial packet of version 2 with the keys of version 1.
    "aioquic-negotiated": aioquic(
        "version 1 becomes 2 during the handshake; no key of version 2 opens the client's Initial packet of version 2",
        "version=2",
        "first=1",
        server=["version=2"],
    ),
    "aioquic-version-2-retry": aioquic(
        "version 2 and a Retry, after which the client sends another ClientHello",
        "version=2",
        server=["version=2", "retry=1"],
        anew=True,
    ),
    "aioquic-0-rtt": aioquic("two connections, of which the second sends 0-RTT packets", "again=1"),
    "aioquic-key-update": aioquic("the client updates the keys", "update=1", "file=large"),
    "aioquic-ids": aioquic("both sides change their ids", "ids=1"),
    "aioquic-migration": aioquic("the client moves to another port with another id", "move=1"),
    "aioquic-datagram": aioquic("a DATAGRAM frame (RFC 9221)", "datagram=1", server=["datagram=1"]),
    "aioquic-chacha20": aioquic("TLS_CHACHA20_POLY1305_SHA256 over IPv6", CHACHA20, address="::1"),
    "aioquic-close": aioquic("the client closes with an application's error and a reason", "code=42", "reason=enough"),
}


def quinn_server(*options):
    return [QUINN, "serve", f"127.0.0.1:{PORT}", *options]


def quinn_client(*options):
    return [QUINN, "ask", f"127.0.0.1:{PORT}", *options]


def quinn(says, *client, server=()):
    """quinn's client and server with options."""
    return Scene(says, quinn_server(*server), [quinn_client(*client)])


QUINNS = {
    "quinn-handshake": quinn("a file of 6 bytes by HTTP/0.9"),
    "quinn-retry": quinn("the server validates the client's address by a Retry", server=["retry=1"]),
    "quinn-key-update": quinn("the client updates the keys", "update=1", "file=large"),
    "quinn-migration": quinn("the client's port changes", "move=1", "file=large"),
    "quinn-datagram": quinn("a DATAGRAM frame (RFC 9221)", "datagram=1"),
    "quinn-aioquic": Scene("quinn's client, and aioquic's server", aioquic_server(), [quinn_client()], patience=2),
    "aioquic-quinn": Scene("aioquic's client, and quinn's server", quinn_server(), [aioquic_client()]),
}


def server_of(name):
    """The command of a server that reads a file of SERVERS."""
    return {
        "caddy": ["caddy", "run", "--config", "Caddyfile", "--adapter", "caddyfile"],
        "nginx": ["nginx", "-p", ".", "-c", "nginx.conf"],
        "haproxy": ["haproxy", "-db", "-f", "haproxy.cfg"],
    }[name]


def served(says, name, client, also=""):
    """A server that reads a file, and a client. nginx's file may say more."""
    file, text = SERVERS[name]
    text = text.replace("root www", also + "root www")
    return Scene(says, server_of(name), [client], files={file: text}, patience=3)


CURL = ["curl", "--ipv4", "--http3-only", "--insecure", "--silent", "--show-error", f"https://localhost:{PORT}/small"]
S_CLIENT = ["openssl", "s_client", "-quic", "-alpn", "h3", "-keylogfile", "keys", "-connect", f"localhost:{PORT}"]

AGAIN = "{0} & while [ ! -e again ]; do sleep 0.1; done; kill -KILL $!; exec {0}"

OTHERS = {
    "aioquic-ngtcp2": Scene("aioquic's client, and ngtcp2's server", ngtcp2_server(), [aioquic_client("alpn=h3")]),
    "ngtcp2-quic-go": served("ngtcp2's client, and Caddy with quic-go", "caddy", ngtcp2_client()),
    "aioquic-quic-go": served(
        "aioquic's client, and Caddy with quic-go", "caddy", aioquic_client("alpn=h3", address="localhost")
    ),
    "curl-quic-go": served("curl with a newer ngtcp2, and Caddy with quic-go", "caddy", CURL),
    "curl-nginx": served("curl with a newer ngtcp2, and nginx", "nginx", CURL),
    "curl-nginx-retry": served("the same after a Retry", "nginx", CURL, "quic_retry on; "),
    "curl-haproxy": served("curl with a newer ngtcp2, and HAProxy", "haproxy", CURL),
    "ngtcp2-nginx": served("ngtcp2's client, and nginx", "nginx", ngtcp2_client(file="large")),
    # A server that begins again with the same key for its tokens.
    "aioquic-nginx-reset": Scene(
        "the server forgets the connection, and answers with stateless resets",
        ["sh", "-c", AGAIN.format("nginx -p . -c nginx.conf")],
        [aioquic_client("alpn=h3", "late=3")],
        files={
            "nginx.conf": SERVERS["nginx"][1].replace("root www", "quic_host_key host.key; root www"),
            "host.key": "so many bytes that are always the same",
        },
        patience=3,
        behind="nginx",
    ),
    "openssl-nginx": served("OpenSSL's client, and nginx", "nginx", S_CLIENT),
    "openssl-haproxy": served("OpenSSL's client, and HAProxy", "haproxy", S_CLIENT),
    "aioquic-haproxy": served("aioquic's client, and HAProxy", "haproxy", aioquic_client("alpn=h3")),
}

# What record.py puts in for words of commands and files that a scene can't know.
PIN, PRINT = "@PIN@", "@PRINT@"

PAGE = f"https://localhost:{PORT}/page.html"

# Nothing but the page is asked for, and its certificate is taken by its key.
CHROMIUM = [
    "chromium",
    *("--headless=new", "--no-sandbox", "--disable-gpu", "--user-data-dir=profile", "--disable-background-networking"),
    f"--origin-to-force-quic-on=localhost:{PORT}",
    "--host-resolver-rules=MAP localhost 127.0.0.1",
    f"--ignore-certificate-errors-spki-list={PIN}",
    *("--dump-dom", PAGE),
]

FIREFOX = ["firefox-esr", "--headless", "--no-remote", "--profile", "profile", "--screenshot", "page.png", PAGE]
PREFERENCES = {
    "network.http.http3.alt-svc-mapping-for-testing": f'"localhost;h3=:{PORT}"',
    "network.http.http3.disable_when_third_party_roots_found": "false",
    "network.dns.disableIPv6": "true",
    "network.manage-offline-status": "false",
    "browser.aboutwelcome.enabled": "false",
}
FIREFOX_FILES = {
    "profile/user.js": "".join(f'user_pref("{name}", {value});\n' for name, value in PREFERENCES.items()),
    "profile/cert_override.txt": f"localhost:{PORT}:\tOID.2.16.840.1.101.3.4.2.1\t{PRINT}\t\n",
}


def browser(says, client, server, files, **others):
    """A browser that loads a page."""
    fields = {"files": files, "only": f"udp port {PORT}", "limit": 120, "patience": 3}
    return Scene(says, server, [client], **fields, **others)


# Firefox leaves the two datagrams of its ClientHello to the kernel.
FIREFOX_CUTS = {"segment": 1252, "uncut": 1500}

BROWSERS = {
    "chromium-ngtcp2": browser("Chromium loads a page from ngtcp2's server", CHROMIUM, ngtcp2_server(), {}),
    "chromium-quic-go": browser(
        "Chromium loads a page from Caddy with quic-go", CHROMIUM, server_of("caddy"), dict([SERVERS["caddy"]])
    ),
    "firefox-ngtcp2": browser(
        "Firefox loads a page from ngtcp2's server", FIREFOX, ngtcp2_server(), FIREFOX_FILES, **FIREFOX_CUTS
    ),
    "firefox-quic-go": browser(
        "Firefox loads a page from Caddy with quic-go",
        FIREFOX,
        server_of("caddy"),
        {**FIREFOX_FILES, **dict([SERVERS["caddy"]])},
        **FIREFOX_CUTS,
    ),
}

SCENES = {**NGTCP2, **AIOQUIC, **QUINNS, **OTHERS, **BROWSERS}
