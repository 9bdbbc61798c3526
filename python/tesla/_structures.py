"""The structures of tesla.h."""
from ctypes import Structure, c_uint8, c_uint16, c_uint32, c_uint64, c_void_p

NUMBERS = "arrivals malformed foreign misfit future badkey late repeat full kept keys given".split()
FOLLOW_NUMBERS = "epochs open_epochs early unqueued dropped records".split()
# The frame of a sender has this room.
MOST_DATAGRAM, MOST_PAYLOAD = 2048, 1200
# No text of a setup is longer.
MOST_SETUP = 4096


class Slot(Structure):
    """What holds an object."""
    _fields_ = [("full", c_uint64), ("at", c_void_p)]


class Refusal(Structure):
    _fields_ = [("line", c_uint32), ("kind", c_uint32)]


class CVerdict(Structure):
    _fields_ = [("kind", c_uint32), ("chains", c_uint32), ("number", c_uint64)]


class Head(Structure):
    _fields_ = [("position", c_uint64), ("interval", c_uint32), ("number", c_uint16), ("length", c_uint16), ("chain", c_uint32)]


class CReport(Structure):
    _fields_ = [(it, c_uint64) for it in NUMBERS]


class SenderRefusal(Structure):
    _fields_ = [(it, c_uint32) for it in ("text", "line", "kind", "chain")]


class CCause(Structure):
    _fields_ = [("kind", c_uint32), ("number", c_uint64)]


class CFollowVerdict(Structure):
    _fields_ = [*((it, c_uint32) for it in ("epoch", "kind", "chains", "acceptance")), ("number", c_uint64)]


class CRecord(Structure):
    _fields_ = [("kind", c_uint32), ("epoch", c_uint32), ("position", c_uint64), ("interval", c_uint32), ("number", c_uint16),
                ("length", c_uint16), ("chain", c_uint32)]


class CFollowReport(Structure):
    _fields_ = [("counts", CReport), *((it, c_uint64) for it in FOLLOW_NUMBERS)]


class CChain(Structure):
    _fields_ = [("delay", c_uint32), ("index", c_uint32), ("key", c_uint8 * 32)]


class CSetup(Structure):
    _fields_ = [*((it, c_uint64) for it in ("stream", "start", "interval")),
                *((it, c_uint32) for it in ("last", "version", "tag_length", "chains")), ("rows", CChain * 8)]


class CParameters(Structure):
    _fields_ = [*((it, c_uint64) for it in ("stream", "start", "interval")),
                *((it, c_uint32) for it in ("last", "version", "tag_length", "chains")), ("delays", c_uint32 * 8)]


class CFrame(Structure):
    _fields_ = [("stream", c_uint64), ("interval", c_uint32), ("number", c_uint16), ("length", c_uint16),
                *((it, c_uint32) for it in ("version", "kind", "tag_length", "keys"))]
