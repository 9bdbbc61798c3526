#!/usr/bin/env python3
"""The same as receive.py with asyncio: aio.py SETUP LAG GROUP PORT INTERFACE"""
import asyncio
import signal
import sys

import tesla
from clocks import receiver_reading
from groups import joined


class Messages(asyncio.DatagramProtocol):
    """Judges each datagram, and hands on the messages that are released."""

    def __init__(self, receiver, handle):
        self.receiver, self.handle = receiver, handle

    def datagram_received(self, datagram, address):
        self.receiver.arrive(datagram, receiver_reading())
        for message in self.receiver:
            self.handle(message)

    def error_received(self, error):
        print(error, file=sys.stderr)


def show(message):
    """Prints a message."""
    print(f"{message.interval}/{message.number} {message.payload.decode(errors='replace')}", flush=True)


async def main(setup, lag, *place):
    """Runs until a signal comes."""
    with open(setup, "rb") as file, tesla.Receiver(file.read(4097), int(lag)) as receiver:
        loop, stop = asyncio.get_running_loop(), asyncio.Event()
        for it in (signal.SIGINT, signal.SIGTERM):
            loop.add_signal_handler(it, stop.set)
        transport, _ = await loop.create_datagram_endpoint(lambda: Messages(receiver, show), sock=joined(*place))
        await stop.wait()
        transport.close()


if len(sys.argv) != 6:
    sys.exit(__doc__)
asyncio.run(main(*sys.argv[1:]))
