"""Keys and tags (DEFINITIONS.md, "Keys and tags")."""
import functools
import hmac
import struct


def hmac_of(key, text):
    """HMAC-SHA-256 of a text under a key (RFC 2104)."""
    return hmac.digest(key, text, "sha256")


def next_of(key):
    """`F`: the key of the interval before."""
    return hmac_of(key, b"\0")


def mac_of(key):
    """`F'`: the MAC key of the key's own interval."""
    return hmac_of(key, b"\1")


# (what was walked once is looked up the next time)
@functools.lru_cache(maxsize=65_536)
def walk(key, distance):
    """`F` applied a number of times: the key that many intervals before."""
    for _ in range(distance):
        key = next_of(key)
    return key


def tag_text(stream, chain, interval, number, payload):
    """What is tagged."""
    return struct.pack(">QBIH", stream, chain, interval, number) + payload


def tag_under(size, mac, stream, chain, interval, number, payload):
    """The tag of a message under a MAC key."""
    return hmac_of(mac, tag_text(stream, chain, interval, number, payload))[:size]


def tag_of(size, key, stream, chain, interval, number, payload):
    """The tag of a message whose interval has this key."""
    return tag_under(size, mac_of(key), stream, chain, interval, number, payload)
