"""A server and a client by aioquic, for record.py.

aioquic_peer.py serve|ask HOST PORT [NAME=VALUE ..]

A client asks for a file as HTTP/0.9 does, unless `alpn` is h3: then it asks for `file` by HTTP/3, or only sends PING if
there is none. It writes its secrets to the file that SSLKEYLOGFILE names. Names of both: alpn, version (1 or 2, the
preferred one), suite, datagram; of a server: retry; of a client: first (the version of its first packet), name (of the
server), file, update (of keys), move (to another port), ids (changed), datagram (sent), again (another connection, with
0-RTT), late (a PING after so many seconds), code and reason (of the close).
"""

import asyncio
import functools
import os
import ssl
import sys
from pathlib import Path

from aioquic.asyncio import QuicConnectionProtocol, connect, serve
from aioquic.h3.connection import H3Connection
from aioquic.h3.events import HeadersReceived
from aioquic.quic.configuration import QuicConfiguration
from aioquic.quic.packet import QuicProtocolVersion
from aioquic.tls import CipherSuite

VERSIONS = {"1": QuicProtocolVersion.VERSION_1, "2": QuicProtocolVersion.VERSION_2}


def configuration(options, is_client):
    made = QuicConfiguration(
        is_client=is_client,
        server_name=options.get("name"),
        alpn_protocols=[options.get("alpn", "hq-interop")],
        max_datagram_frame_size=65535 if "datagram" in options else None,
        cipher_suites=[CipherSuite[options["suite"]]] if "suite" in options else None,
    )
    if "version" in options:
        preferred = VERSIONS[options["version"]]
        made.supported_versions = [preferred] + [one for one in VERSIONS.values() if one != preferred]
    if is_client:
        made.original_version = VERSIONS[options["first"]] if "first" in options else None
        made.verify_mode = ssl.CERT_NONE
    else:
        made.load_cert_chain("cert.pem", "key.pem")
    return made


class Http3(QuicConnectionProtocol):
    """HTTP/3: a server sends the file that a request names; a client asks for one."""

    def __init__(self, *arguments, is_client, **others):
        super().__init__(*arguments, **others)
        self.is_client, self.ends = is_client, {}
        self.http = H3Connection(self._quic) if is_client else None

    def quic_event_received(self, event):
        self.http = self.http or H3Connection(self._quic)
        for one in self.http.handle_event(event):
            if not self.is_client and isinstance(one, HeadersReceived):
                self.send(one.stream_id, dict(one.headers)[b":path"].decode())
            elif one.stream_ended and one.stream_id in self.ends:
                self.ends.pop(one.stream_id).set_result(None)

    def send(self, stream, name):
        self.http.send_headers(stream, [(b":status", b"200")])
        self.http.send_data(stream, (Path("www") / name.strip("/")).read_bytes(), end_stream=True)
        self.transmit()

    async def get(self, name):
        stream = self._quic.get_next_available_stream_id()
        self.ends[stream] = end = asyncio.get_running_loop().create_future()
        names = (b":method", b":scheme", b":authority", b":path")
        values = (b"GET", b"https", b"localhost", f"/{name}".encode())
        self.http.send_headers(stream, list(zip(names, values)), end_stream=True)
        self.transmit()
        await end


def protocol_of(options, is_client):
    """What handles connections: HTTP/3 only if it is asked for."""
    is_http3 = options.get("alpn") == "h3" and (not is_client or "file" in options)
    return functools.partial(Http3, is_client=is_client) if is_http3 else QuicConnectionProtocol


async def answer(reader, writer):
    """Sends the file that a stream asks for."""
    name = (await reader.read()).decode().split()[1]
    writer.write((Path("www") / name.strip("/")).read_bytes())
    writer.write_eof()


def answer_soon(reader, writer):
    asyncio.get_running_loop().create_task(answer(reader, writer))


async def run_server(host, port, options):
    tickets = {}
    await serve(
        host,
        port,
        configuration=configuration(options, False),
        create_protocol=protocol_of(options, False),
        retry="retry" in options,
        stream_handler=answer_soon,
        session_ticket_fetcher=lambda label: tickets.pop(label, None),
        session_ticket_handler=lambda ticket: tickets.__setitem__(ticket.ticket, ticket),
    )
    await asyncio.Future()


async def move(protocol):
    """Goes on from another port; aioquic has no call for that."""
    loop = asyncio.get_running_loop()
    made = loop.create_datagram_endpoint(lambda: Other(protocol), local_addr=("::", 0))
    protocol._transport, _ = await made


class Other(asyncio.DatagramProtocol):
    """Passes on what comes to the new port."""

    def __init__(self, protocol):
        self.protocol = protocol

    def datagram_received(self, data, addr):
        self.protocol.datagram_received(data, addr)


async def get(protocol, file):
    if isinstance(protocol, Http3):
        return await protocol.get(file)
    reader, writer = await protocol.create_stream()
    writer.write(f"GET /{file}\r\n".encode())
    writer.write_eof()
    return await reader.read()


async def use(protocol, options):
    """What a client does with a connection."""
    if options.get("alpn") == "h3" and "file" not in options:
        await protocol.ping()
    else:
        await get(protocol, options.get("file", "small"))
    if "update" in options:
        protocol.request_key_update()
    if "ids" in options:
        protocol.change_connection_id()
    if "move" in options:
        protocol.change_connection_id()
        await move(protocol)
    if "datagram" in options:
        protocol._quic.send_datagram_frame(b"a datagram")
        protocol.transmit()
    if "late" in options:
        # For a server that waits for this to begin again.
        Path("again").touch()
        await asyncio.sleep(float(options["late"]))
        protocol._quic.send_ping(0)
        protocol.transmit()
        await asyncio.sleep(0.5)
    if {"update", "ids", "move", "datagram"} & set(options):
        await protocol.ping()
        await get(protocol, "small")
    protocol.close(int(options.get("code", "0"), 0), options.get("reason", ""))


async def run_client(host, port, options):
    tickets = []
    with open(os.environ["SSLKEYLOGFILE"], "a") as log:
        for early in (False, True)[: 2 if "again" in options else 1]:
            made = configuration(options, True)
            made.secrets_log_file = log
            made.session_ticket = tickets[-1] if early else None
            async with connect(
                host,
                port,
                configuration=made,
                create_protocol=protocol_of(options, True),
                session_ticket_handler=tickets.append,
                wait_connected=not early,
            ) as protocol:
                await use(protocol, options)


def main(mode, host, port, *options):
    options = dict(option.split("=", 1) for option in options)
    asyncio.run({"serve": run_server, "ask": run_client}[mode](host, int(port), options))


if __name__ == "__main__":
    main(*sys.argv[1:])
