"""What texts, datagrams and exchanges of times tell. Nothing is kept."""
import ctypes
from typing import NamedTuple, Optional, Sequence, Tuple

from ._errors import KINDS, REFUSED, BadNumber, Refused, failed, within
from ._library import bytes_of, calls
from ._structures import MOST_SETUP, CFrame, CParameters, CSetup, Refusal, SenderRefusal

# Of which text a refused exchange tells, and why.
EXCHANGES = {1: ("ask", "BadAsk"), 2: ("reply", "Malformed"), 3: ("reply", "BadTag"), 4: ("reply", "OtherAsk"), 5: ("reply", "TooLarge")}


class Chain(NamedTuple):
    """A chain of a setup: its delay in intervals, and the index and the key that it commits to."""
    delay: int
    index: int
    key: bytes


class Setup(NamedTuple):
    """What a setup says: the stream, the microseconds at which interval 0 begins and those of an interval, the last interval, the
    version, the bytes of a tag, and the chains."""
    stream: int
    start: int
    interval: int
    last: int
    version: int
    tag_length: int
    chains: Tuple[Chain, ...]


class Frame(NamedTuple):
    """The head of a frame: its stream, whether it is a disclosure, its version, and how many keys it tells; of a message its
    interval, its number, and the bytes of its payload and of a tag, which are 0 in a disclosure."""
    stream: int
    is_disclosure: bool
    version: int
    keys: int
    interval: int
    number: int
    length: int
    tag_length: int


def read_setup(text: bytes) -> Setup:
    """What the text of a setup says. Refused tells the line and the kind."""
    text, it, refusal = bytes_of(text), CSetup(), Refusal()
    status = calls["setup_read"](text, len(text), it, refusal)
    if status == REFUSED:
        raise Refused("setup", refusal.line, KINDS[refusal.kind])
    if status:
        raise failed(status)
    chains = tuple(Chain(row.delay, row.index, bytes(row.key)) for row in it.rows[:it.chains])
    return Setup(it.stream, it.start, it.interval, it.last, it.version, it.tag_length, chains)


def _parameters(stream, start, interval, last, delays, version, tag_length):
    """The structure of these numbers, each within its limits."""
    most = (1 << 64) - 1
    within("stream", stream, 0, most), within("start", start, 0, most)
    within("interval", interval, 1000, 3_600_000_000), within("last", last, 1, 1 << 20)
    within("version", version, 1, 2)
    within("tag_length", tag_length, *((16, 16) if version == 1 else (10, 32)))
    if not 1 <= len(delays) <= 4 * version:
        raise BadNumber("delays", len(delays), 1, 4 * version)
    for before, delay in zip((0, *delays), delays):
        within("delay", delay, before + 1, 4096)
    return CParameters(stream, start, interval, last, version, tag_length, len(delays), (ctypes.c_uint32 * 8)(*delays))


def make_setup(seeds: bytes, stream: int, start: int, interval: int, last: int, delays: Sequence[int], version: int = 1,
               tag_length: int = 16) -> bytes:
    """The text of the setup whose chains commit to the keys to which the seeds of this text lead: as many seeds as delays, which are
    of 1 to 4096 intervals and rise. Interval 0 begins at `start`, and an interval has `interval` microseconds. It takes a second or
    two for a chain of a million keys. Refused tells the line and the kind of the seeds."""
    seeds, told = bytes_of(seeds), _parameters(stream, start, interval, last, delays, version, tag_length)
    room, size, refusal = ctypes.create_string_buffer(MOST_SETUP), ctypes.c_size_t(), SenderRefusal()
    status = calls["setup_make"](told, seeds, len(seeds), room, MOST_SETUP, size, refusal)
    if status == REFUSED:
        raise Refused("seeds", refusal.line, KINDS[refusal.kind])
    if status:
        raise failed(status)
    return room.raw[:size.value]


def read_frame(datagram: bytes) -> Optional[Frame]:
    """The head of the frame that a datagram is, which proves nothing of it; None where it is no frame."""
    datagram, it = bytes_of(datagram), CFrame()
    if calls["frame_read"](datagram, len(datagram), it):
        return None
    return Frame(it.stream, it.kind == 1, it.version, it.keys, it.interval, it.number, it.length, it.tag_length)


def lag(key: bytes, ask: bytes, reply: bytes, drift: int) -> int:
    """By how many microseconds the sender's clock is ahead at most: from a receiver's ask, the sender's reply to it under the key of
    32 bytes that both share, and the microseconds that the clocks drift apart until the next exchange. Refused, whose `text` is
    "ask" or "reply", says why there is none."""
    key, ask, reply = bytes_of(key), bytes_of(ask), bytes_of(reply)
    if len(key) != 32:
        raise ValueError(f"the key has {len(key)} bytes, and not 32")
    within("drift", drift, 0, (1 << 32) - 1)
    found, kind = ctypes.c_int64(), ctypes.c_uint32()
    if calls["lag_of"](key, ask, len(ask), reply, len(reply), drift, found, kind):
        text, why = EXCHANGES[kind.value]
        raise Refused(text, 0, why)
    return found.value
