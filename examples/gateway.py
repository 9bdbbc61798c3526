#!/usr/bin/env python3
"""Publishes a feed that comes to a multicast group to a broker of MQTT: gateway.py SETUP LAG GROUP PORT INTERFACE BROKER BROKER-PORT TOPIC

It follows the feed from stream to stream, and publishes each message once: as soon as it is authentic, which is on its arrival where a
message before promised it. What hands over isn't published. The setup is that of the first stream. It runs until SIGINT or SIGTERM
comes. A broker is mosquitto, a Debian package. Of its protocol, MQTT 3.1.1, three packets are needed, which stand here.
"""
import selectors
import signal
import socket
import struct
import sys

import tesla
from clocks import receiver_reading
from groups import joined

HANDOVER = b"TNXT\1"
# Of so many messages that were published early it is known that they were.
MOST_EARLY = 65_536
CONNECT, CONNACK, PUBLISH, DISCONNECT = 0x10, 0x20, 0x30, 0xE0


def packet(kind, body):
    """A packet of MQTT: its kind, its length in sevenths, and its body."""
    length, sevenths = len(body), bytearray()
    while length > 127:
        sevenths.append(length & 127 | 128)
        length >>= 7
    return bytes([kind, *sevenths, length]) + body


def text(data):
    """Bytes behind their length."""
    return struct.pack(">H", len(data)) + data


class Broker:
    """A connection to a broker."""

    def __init__(self, host, port, name):
        self.link = socket.create_connection((host, int(port)), timeout=10)
        self.link.setsockopt(socket.IPPROTO_TCP, socket.TCP_NODELAY, 1)
        # (a clean session that is kept alive by nothing)
        self.link.sendall(packet(CONNECT, text(b"MQTT") + bytes([4, 2, 0, 0]) + text(name.encode())))
        answer = self.link.recv(4, socket.MSG_WAITALL)
        if answer != bytes([CONNACK, 2, 0, 0]):
            raise ConnectionRefusedError(f"the broker answers {answer.hex()}")

    def publish(self, topic, payload):
        """Publishes a payload, of which no receipt is asked for."""
        self.link.sendall(packet(PUBLISH, text(topic) + payload))

    def close(self):
        """Ends the connection in order."""
        self.link.sendall(packet(DISCONNECT, b""))
        self.link.close()


class Gateway:
    """What comes of a feed, and what was published of it before its key came."""

    def __init__(self, follower, broker, topic):
        self.follower, self.broker, self.topic, self.early = follower, broker, topic.encode(), {}

    def take_in(self, link):
        """Judges all that waits at the link, and publishes what that gives."""
        while True:
            try:
                datagram = link.recv(2048)
            except BlockingIOError:
                return
            self.follower.arrive(datagram, receiver_reading())
            for record in self.follower:
                self.give(record)

    def give(self, record):
        """Publishes a record that is the first of its message."""
        name = record.epoch, record.interval, record.number
        if record.is_early:
            self.early[name] = None
            if len(self.early) > MOST_EARLY:
                del self.early[next(iter(self.early))]
        elif name in self.early:
            del self.early[name]
            return
        if not record.payload.startswith(HANDOVER):
            self.broker.publish(self.topic, record.payload)


def main():
    """Runs until a signal comes."""
    if len(sys.argv) != 9:
        sys.exit(__doc__)
    setup, lag, group, port, interface, *broker, topic = sys.argv[1:]
    signal.signal(signal.SIGTERM, signal.default_int_handler)
    with open(setup, "rb") as file, tesla.Follower(file.read(4097), int(lag)) as follower:
        gateway = Gateway(follower, Broker(*broker, f"tesla-{interface}-{port}"), topic)
        with joined(group, port, interface) as link, selectors.DefaultSelector() as selector:
            selector.register(link, selectors.EVENT_READ)
            try:
                while selector.select():
                    gateway.take_in(link)
            except KeyboardInterrupt:
                gateway.broker.close()


main()
