"""A real run, for packaging/wireshark/record and check: what was sent, and what tshark has to show of its recording.

The seeds of both streams are known, so each tag and each key that live.pcap holds is made here once more, by the model.
"""
import os
import struct

from frames import HERE, fields_of
from model.keys import hmac_of, tag_of, walk
from running import seeds

MESSAGES = [b"hello ", b"world"]
SHARED = bytes([0x33]) * 32
# The ports at which the frames, the asks and the replies arrive.
FRAMES, FRAMES_2, ASKS, REPLIES = 5001, 5011, 5020, 5021
ASKED, REPLIED = 5_000_000, 5_020_000


class Sent:
    """A stream of the run: its version, its number, the bytes of a tag, its last interval, its delays, and its seeds."""

    def __init__(self, version, stream, tag, last, delays):
        self.version, self.stream, self.tag, self.last, self.delays = version, stream, tag, last, delays
        self.seeds = seeds(len(delays))

    def key(self, chain, index):
        """A key of a chain."""
        return walk(self.seeds[chain], self.last - index)

    def tagged(self, chain, values):
        """The tag of a message for a chain."""
        [interval], [number], payload = values["interval"], values["number"], values["payload"][0]
        return tag_of(self.tag, self.key(chain, interval), self.stream, chain, interval, number, payload)

    def faults(self, values):
        """What is wrong with a frame."""
        told = list(zip(values.get("chain", []), self.indices(values), values.get("key", []), strict=True))
        if (values["version"], values["stream"]) != ([self.version], [self.stream]):
            yield f"a frame of another stream: {values}"
        elif [self.key(chain, index) for chain, index, _ in told] != [key for *_, key in told]:
            yield f"another key: {values}"
        elif values["kind"] == [1] and values["tag"] != [self.tagged(chain, values) for chain in range(len(self.delays))]:
            yield f"another tag: {values}"

    def indices(self, values):
        """The index of each key that a frame tells."""
        if "index" in values:
            return values["index"]
        return [values["interval"][0] - self.delays[chain] for chain in values.get("chain", [])]


STREAMS = {FRAMES: Sent(1, 0xa7, 16, 200, (2, 5)), FRAMES_2: Sent(2, 0xa8, 12, 200, (2, 3, 5))}


def ask():
    """An ask."""
    return b"TASK\1" + struct.pack(">Q", ASKED)


def reply():
    """The reply to it."""
    text = b"TREP\1" + struct.pack(">QQ", ASKED, REPLIED)
    return text + hmac_of(SHARED, text)


def recorded():
    """The port and the bytes of each datagram of live.pcap, whose packets are Ethernet, IPv4 without options, and UDP."""
    with open(f"{HERE}/live.pcap", "rb") as file:
        data = file.read()
    at = 24
    while at < len(data):
        [size] = struct.unpack_from("<I", data, at + 8)
        packet = data[at + 16:at + 16 + size]
        yield struct.unpack_from(">H", packet, 36)[0], packet[42:]
        at += 16 + size


def faults_of(datagrams):
    """What is wrong with the recording itself: what the program sent."""
    for port, stream in STREAMS.items():
        frames = [fields_of(datagram) for to, datagram in datagrams if to == port]
        yield from (fault for values in frames for fault in stream.faults(values))
        sent = [values["payload"][0] for values in frames if values["kind"] == [1]]
        if sent != MESSAGES:
            yield f"messages {sent}"
    if [datagram for to, datagram in datagrams if to in (ASKS, REPLIES)] != [ask(), reply()]:
        yield "another exchange"


def said_of(values):
    """What the column says of a datagram."""
    if "t_r" in values:
        return f"reply t_r {ASKED}, t_s {REPLIED}" if "t_s" in values else f"ask t_r {ASKED}"
    if values["kind"] == [2]:
        return "disclosure " + " ".join(f"{chain}/{index}" for chain, index in zip(values["chain"], values["index"]))
    return f"data {values['interval'][0]}/{values['number'][0]} {values['length'][0]} bytes, keys {len(values.get('key', []))}"


def cases(check, judged, compared):
    """The recording of the run."""
    if not os.path.exists(f"{HERE}/live.pcap"):
        check.entered("live.pcap", ["it isn't there: packaging/wireshark/record makes it"])
        return
    datagrams = list(recorded())
    check.entered(f"live.pcap: what the program sent in {len(datagrams)} datagrams", faults_of(datagrams))
    shown = check.shown(f"{HERE}/live.pcap")
    said = [fault for (_, datagram), it in zip(datagrams, shown, strict=True) for fault in
            judged(datagram, it) + compared("the column", it.said, said_of(fields_of(datagram)))]
    check.entered("live.pcap: what is shown of it", said)
