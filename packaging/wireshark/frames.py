"""Datagrams and what is to be shown of them, for packaging/wireshark/generate and check.

`fields_of` tells the fields of a datagram as the model reads it, and `stored` reads frames.txt, which was written by hand from
docs/FORMATS.md.
`pcap` writes datagrams as a file of packets, each over Ethernet, IPv4 and UDP.
"""
import os
import re
import struct
import sys

HERE = os.path.dirname(os.path.abspath(__file__))
# (what imports this first finds the modules at the top of the repository)
sys.path.insert(0, os.path.dirname(os.path.dirname(HERE)))

from model.epochs import handover_text  # noqa: E402
from model.frames import DataFrame, frame_of  # noqa: E402

SENDER, RECEIVER = (bytes([192, 0, 2, 7]), 40000), (bytes([192, 0, 2, 9]), 5001)
# 2026-01-01, in microseconds.
TIME = 1_767_225_600_000_000
NUMBERS = ("version", "kind", "stream", "interval", "number", "length", "next_stream", "count", "tag_length", "flag", "chain",
           "index", "t_r", "t_s")
BYTES = ("payload", "tag", "key")
TEXTS = ("line",)


def printable(text):
    """A text in which every byte that is no printable character of ASCII stands as \\x and two digits, and \\ as \\\\."""
    return "".join("\\\\" if byte == 0x5c else chr(byte) if 0x20 <= byte <= 0x7e else f"\\x{byte:02x}" for byte in text)


def fields_of_handover(payload):
    """The values of the fields of a payload beside its bytes: of one that begins as a handover."""
    text = handover_text(payload)
    if text is None:
        return {}
    named = re.match(rb"tesla [12]\nstream ([0-9a-f]{16})\n", text)
    lines = text.removesuffix(b"\n").split(b"\n") if text else []
    return {"next_stream": [int(named[1], 16)] if named else [], "line": [printable(line) for line in lines]}


def fields_of_frame(frame):
    """The values of the fields of a frame behind its magic."""
    values = {"version": [frame.version], "kind": [1 if isinstance(frame, DataFrame) else 2], "stream": [frame.stream]}
    rows, told = frame.rows, {"count": [len(frame.rows)]}
    if isinstance(frame, DataFrame):
        keyed = [(chain, row.key) for chain, row in enumerate(rows) if row.key is not None]
        told |= {"interval": [frame.interval], "number": [frame.number], "length": [len(frame.payload)]}
        told |= {"payload": [frame.payload][:len(frame.payload)], "tag_length": [frame.tag_length][:frame.version - 1]}
        told |= fields_of_handover(frame.payload)
        told |= {"tag": [row.tag for row in rows], "flag": [int(row.key is not None) for row in rows]}
        told |= {"chain": [chain for chain, _ in keyed], "key": [key for _, key in keyed]}
    else:
        told |= {name: [getattr(row, name) for row in rows] for name in ("chain", "index", "key")}
    return {**values, **{name: them for name, them in told.items() if them}}


def fields_of_exchange(datagram):
    """The values of the fields of an ask or a reply behind its magic; None where it is malformed."""
    if datagram[4:5] != b"\1" or len(datagram) != {b"TASK": 13, b"TREP": 53}.get(datagram[:4]):
        return None
    times = dict(zip(("t_r", "t_s"), ([it] for it in struct.unpack_from(f">{len(datagram[:21]) // 8}Q", datagram, 5))))
    return {"version": [1], **times, **({"tag": [datagram[21:]]} if datagram[21:] else {})}


def fields_of(datagram):
    """The values of the fields of a frame, an ask or a reply; None where it is malformed."""
    if datagram[:4] != b"TSLA":
        return fields_of_exchange(datagram)
    frame = frame_of(datagram)
    return frame and fields_of_frame(frame)


class Packet:
    """A datagram with its name, what the column says of it, and the values of its fields as they are written."""

    def __init__(self, name):
        self.name = name
        self.datagram = b""
        self.said = ""
        self.values = {}


def stored():
    """The packets of frames.txt."""
    packets = []
    with open(f"{HERE}/frames.txt", encoding="ascii") as file:
        for line in file:
            kind, _, rest = line.rstrip("\n").partition(" ")
            if kind == "packet":
                packets.append(Packet(rest))
            elif kind == "bytes":
                packets[-1].datagram += bytes.fromhex(rest)
            elif kind == "text":
                packets[-1].datagram += f"{rest}\n".encode("ascii")
            elif kind == "repeat":
                times, byte = rest.split()
                packets[-1].datagram += bytes.fromhex(byte) * int(times)
            elif kind == "said":
                packets[-1].said = rest
            elif kind not in ("", "#"):
                packets[-1].values.setdefault(kind, []).append(rest)
    return packets


def summed(data):
    """The checksum of the internet."""
    total = sum(struct.unpack(f">{len(data) // 2}H", data))
    while total >> 16:
        total = (total & 0xffff) + (total >> 16)
    return 0xffff - total


def over_ethernet(datagram, source=SENDER, target=RECEIVER):
    """A packet of Ethernet that carries the datagram over IPv4 and UDP."""
    size = len(datagram) + 8
    head = struct.pack(">BBHIBBH", 0x45, 0, 20 + size, 0, 64, 17, 0) + source[0] + target[0]
    head = head[:10] + struct.pack(">H", summed(head)) + head[12:]
    ethernet = bytes.fromhex("020000000002 020000000001 0800")
    return ethernet + head + struct.pack(">HHHH", source[1], target[1], size, 0) + datagram


PCAP = struct.pack("<IHHiIII", 0xa1b2c3d4, 2, 4, 0, 0, 65535, 1)


def packet(at, datagram, most=65535, target=RECEIVER):
    """A packet with the datagram, so many milliseconds after the first. The file holds so many bytes of the datagram at most."""
    sent = over_ethernet(datagram, target=target)
    held = sent[:len(sent) - len(datagram) + most]
    time = TIME + 1000 * at
    return struct.pack("<IIII", time // 1_000_000, time % 1_000_000, len(held), len(sent)) + held


def pcap(datagrams):
    """A file of packets with these datagrams, one each millisecond."""
    return PCAP + b"".join(packet(at, datagram) for at, datagram in enumerate(datagrams))
