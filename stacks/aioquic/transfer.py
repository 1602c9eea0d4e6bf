"""transfer.py TREE serve [--retry]: aioquic of a tree as a server on loopback that sends back what it gets. It prints
its port, and runs until it is stopped.

transfer.py TREE fetch PORT BYTES: as a client, which sends so many bytes and must get them back; it prints how many
Retries there were.
"""

import asyncio
import os
import ssl
import sys

tree = os.path.abspath(sys.argv[1])
sys.path.insert(0, os.path.join(tree, "src"))
from aioquic.asyncio import connect, serve  # noqa: E402
from aioquic.quic.configuration import QuicConfiguration  # noqa: E402

HOST = "127.0.0.1"


async def echo(reader, writer):
    writer.write(await reader.read())
    writer.write_eof()


def handle(reader, writer):
    asyncio.ensure_future(echo(reader, writer))


async def run_server(retry):
    configuration = QuicConfiguration(is_client=False, alpn_protocols=["echo"])
    configuration.load_cert_chain(*(os.path.join(tree, "tests", name) for name in ("ssl_cert.pem", "ssl_key.pem")))
    server = await serve(HOST, 0, configuration=configuration, stream_handler=handle, retry=retry)
    print(server._transport.get_extra_info("sockname")[1], flush=True)
    await asyncio.Event().wait()


async def run_client(port, size):
    configuration = QuicConfiguration(is_client=True, alpn_protocols=["echo"], verify_mode=ssl.CERT_NONE)
    data = os.urandom(size)
    async with connect(HOST, port, configuration=configuration) as client:
        reader, writer = await client.create_stream()
        writer.write(data)
        writer.write_eof()
        assert await reader.read() == data
        print(client._quic._retry_count)


if sys.argv[2] == "serve":
    asyncio.run(run_server("--retry" in sys.argv))
else:
    asyncio.run(run_client(int(sys.argv[3]), int(sys.argv[4])))
