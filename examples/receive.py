#!/usr/bin/env python3
"""Prints the authentic messages that come to a multicast group: receive.py SETUP LAG GROUP PORT INTERFACE

A line has the interval of a message, its number in it, and its text. LAG is by how many microseconds the sender's clock is ahead of
this machine's at most. It runs until SIGINT or SIGTERM comes, and then tells on standard error what came.
"""
import selectors
import signal
import sys

import tesla
from clocks import receiver_reading
from groups import joined


def take_in(receiver, link):
    """Judges all that waits at the link, and prints what that releases."""
    while True:
        try:
            datagram = link.recv(2048)
        except BlockingIOError:
            return
        receiver.arrive(datagram, receiver_reading())
        for message in receiver:
            print(f"{message.interval}/{message.number} {message.payload.decode(errors='replace')}", flush=True)


def main():
    """Runs until a signal comes."""
    if len(sys.argv) != 6:
        sys.exit(__doc__)
    setup, lag, *place = sys.argv[1:]
    signal.signal(signal.SIGTERM, signal.default_int_handler)
    with open(setup, "rb") as file:
        text = file.read(4097)
    try:
        receiver = tesla.Receiver(text, int(lag))
    except tesla.Refused as why:
        sys.exit(f"{why} ({setup})")
    with receiver, joined(*place) as link, selectors.DefaultSelector() as selector:
        selector.register(link, selectors.EVENT_READ)
        try:
            while selector.select():
                take_in(receiver, link)
        except KeyboardInterrupt:
            report = receiver.report()
            print(f"arrivals {report.arrivals} late {report.late} given {report.given}", file=sys.stderr)


main()
