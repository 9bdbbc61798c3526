"""Setups, streams, payloads and lines of refusals, for .ci/texts: made by the model."""
from model.clock import Times
from model.files import Arrives, record_text
from model.frames import KeyRow, KeysFrame, frame_text, without_keys
from model.promises import Promise, promising_text, sha256
from model.records import Accepted, Record, accepted_text, marked_text, release_text
from model.senders import key_of, message_frame, stream_of
from model.setups import ChainRow, Setup, setup_text
from model.verdicts import report_text


def report(**counts):
    """The report of a replay with these counts, of which the others are 0."""
    return report_text(counts).encode()


def refused(what):
    """The line of a refusal."""
    return f"refused {what}\n".encode()


# The commitments of the chains whose seeds are 32 bytes 11 and 32 bytes 22.
ONE = bytes.fromhex("d37e38b1539f22b758d1e34d417c1032bee6369ad6cd313ca36c4c745fa2a941")
TWO = bytes.fromhex("9ce5072017e83d06da080924aa2251a73ea445e5986eb68ca2d8fb6a3bf70ced")


def setup_of(*rows, tag=None):
    """The setup of chains of a delay, an index and a key; of version 2 where a length of tags is told."""
    rows = [ChainRow(*row) for row in rows]
    return setup_text(Setup(1 if tag is None else 2, 0xa7, Times(1_000_000, 100_000, 8), tag, rows))


SETUP_OF_ONE = setup_of((2, 0, ONE))
FALLING = setup_of((5, 0, TWO), (2, 0, ONE))


class Stream:
    """A stream whose chains have these delays, and whose intervals are 1 to 8. The first one of delays 2 and 5 is that of
    crates/tesla/data."""

    def __init__(self, number, *delays):
        self.number, self.times = number, Times(1_000_000 * (number + 1), 100_000, 8)
        seeds = [bytes([0x11 * (1 + chain) + number]) * 32 for chain in range(len(delays))]
        self.made = stream_of(1, 0xa7 + number, self.times, 16, delays, seeds)

    def setup(self):
        """The text of its setup."""
        return setup_text(self.made.setup)

    def arrival(self, interval, frame):
        """The record of a frame that comes in the middle of an interval."""
        return record_text(Arrives(self.times.start + self.times.length * interval + 50_000, frame))

    def frame(self, interval, payload, number=0, keyed=False):
        """A packet, without keys if not said."""
        frame = message_frame(self.made, interval, number, payload)
        return frame_text(frame if keyed else without_keys(frame))

    def message(self, interval, payload, number=0):
        """The record of a packet without keys."""
        return self.arrival(interval, self.frame(interval, payload, number))

    def told(self, *keys):
        """A frame that tells keys, each of a chain and an index."""
        rows = [KeyRow(chain, index, key_of(self.made, chain, index)) for chain, index in keys]
        return frame_text(KeysFrame(1, self.made.setup.stream, rows))

    def disclosure(self, interval):
        """The record of the disclosure of an interval's key of the first chain, and a take."""
        return self.arrival(interval + self.made.setup.rows[0].delay, self.told((0, interval))) + b"\2"

    def packet(self, interval, payload):
        """A packet, its key, and a take."""
        return self.message(interval, payload) + self.disclosure(interval)

    def record(self, position, interval, payload):
        """What roll writes of such a packet."""
        return marked_text(self.number, Record(position, interval, 0, 0, payload))


def released(position, interval, payload, number=0):
    """The release record of a packet that the first chain proved."""
    return release_text(Record(position, interval, number, 0, payload))


def accepted(interval, payload, number=0):
    """What early writes of a message that is accepted on arrival."""
    return accepted_text(Accepted(interval, number, payload))


def plain(body):
    """The payload of a body that promises nothing."""
    return b"\0" + body


def promising(body, interval, payload, number=0):
    """The payload of a body that promises the message of this name with this payload."""
    return promising_text(Promise((interval, number), sha256(payload)), body)
