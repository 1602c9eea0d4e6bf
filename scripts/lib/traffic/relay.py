"""Passes on datagrams between a client and a server, of which some are lost and some come late.

relay.py FROM TO LOST LATE SEED

It listens on port FROM of 127.0.0.1, and passes on to port TO. Of 100 datagrams LOST are lost, and LATE come up to 8 ms
later than the others.
"""

import asyncio
import random
import sys

HOST = "127.0.0.1"
MOST_DELAY = 0.008


class Side(asyncio.DatagramProtocol):
    """One end: what comes to it is given away."""

    def __init__(self, take):
        self.take = take

    def connection_made(self, transport):
        self.transport = transport

    def datagram_received(self, data, address):
        self.take(data, address)


class Relay:
    def __init__(self, to, lost, late, seed):
        self.to, self.lost, self.late = to, lost, late
        self.random, self.servers, self.client = random.Random(seed), {}, None

    def pass_on(self, send):
        """Sends now, later, or never."""
        chance = self.random.uniform(0, 100)
        if chance < self.lost:
            return
        if chance < self.lost + self.late:
            asyncio.get_running_loop().call_later(self.random.uniform(0, MOST_DELAY), send)
        else:
            send()

    def from_client(self, data, address):
        """Each address of a client has a socket of its own to the server."""
        if address not in self.servers:
            self.servers[address] = asyncio.get_running_loop().create_task(self.connect(address))
        self.servers[address].add_done_callback(lambda task: self.pass_on(lambda: task.result().sendto(data)))

    async def connect(self, address):
        def back(data, _):
            self.pass_on(lambda: self.client.sendto(data, address))

        make = asyncio.get_running_loop().create_datagram_endpoint
        transport, _ = await make(lambda: Side(back), remote_addr=(HOST, self.to))
        return transport


async def main(listen, to, lost, late, seed):
    relay = Relay(int(to), float(lost), float(late), int(seed))
    make = asyncio.get_running_loop().create_datagram_endpoint
    relay.client, _ = await make(lambda: Side(relay.from_client), local_addr=(HOST, int(listen)))
    await asyncio.Future()


if __name__ == "__main__":
    try:
        asyncio.run(main(*sys.argv[1:]))
    except KeyboardInterrupt:
        pass
