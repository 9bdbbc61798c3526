"""Finds libtesla, and makes its functions callable."""
import ctypes
import os
from ctypes import POINTER, c_char_p, c_int64, c_size_t, c_uint8, c_uint32, c_uint64, c_void_p

from ._structures import CFollowReport, CFrame, CParameters, CReport, CSetup, Refusal, SenderRefusal

NAME = "libtesla.so.0"
# The version of the header whose functions stand here.
VERSION = 0x000100

# The parameters of each function. Addresses are passed as such, since that is the fastest.
SIGNATURES = {
    "receiver_open": (c_void_p, c_char_p, c_size_t, c_int64, c_uint32, c_uint32, c_uint8, POINTER(Refusal)),
    "receiver_arrive": (c_void_p, c_uint8, c_uint64, c_char_p, c_size_t, c_void_p),
    "receiver_take": (c_void_p, c_uint8, c_void_p, c_void_p),
    "receiver_end": (c_void_p, c_uint8),
    "receiver_report": (c_void_p, POINTER(CReport)),
    "receiver_waiting": (c_void_p, POINTER(c_uint64)),
    "receiver_close": (c_void_p,),
    "sender_open": (c_void_p, c_char_p, c_size_t, c_char_p, c_size_t, POINTER(SenderRefusal)),
    "sender_message": (c_void_p, c_uint64, c_char_p, c_size_t, c_void_p, c_void_p, c_void_p),
    "sender_disclose": (c_void_p, c_uint64, c_void_p, c_void_p, c_void_p),
    "sender_begin_at": (c_void_p, c_uint64),
    "sender_make_next": (c_void_p,),
    "sender_interval_at": (c_void_p, c_uint64, POINTER(c_uint64)),
    "sender_close": (c_void_p,),
    "follower_open": (c_void_p, c_char_p, c_size_t, c_int64, c_uint32, c_uint32, c_uint8, POINTER(Refusal)),
    "follower_arrive": (c_void_p, c_uint8, c_uint64, c_char_p, c_size_t, c_void_p),
    "follower_take": (c_void_p, c_uint8, c_void_p, c_void_p),
    "follower_end": (c_void_p, c_uint8),
    "follower_report": (c_void_p, POINTER(CFollowReport)),
    "follower_waiting": (c_void_p, POINTER(c_uint64)),
    "follower_close": (c_void_p,),
    "setup_read": (c_char_p, c_size_t, POINTER(CSetup), POINTER(Refusal)),
    "setup_make": (POINTER(CParameters), c_char_p, c_size_t, c_char_p, c_size_t, POINTER(c_size_t), POINTER(SenderRefusal)),
    "frame_read": (c_char_p, c_size_t, POINTER(CFrame)),
    "lag_of": (c_char_p, c_char_p, c_size_t, c_char_p, c_size_t, c_uint32, POINTER(c_int64), POINTER(c_uint32)),
    "version": (),
}


def loaded():
    """The library beside this file, or that of the system."""
    beside = os.path.join(os.path.dirname(os.path.abspath(__file__)), NAME)
    try:
        library = ctypes.CDLL(beside if os.path.isfile(beside) else NAME)
    except OSError as error:
        raise ImportError(f"there is no {NAME}, neither beside this package nor in the system: {error}") from error
    if library.tesla_version() >> 8 != VERSION >> 8:
        raise ImportError(f"{NAME} is of version {library.tesla_version():#08x}, and this package is for {VERSION:#08x}")
    return library


def function(library, name):
    """A function of the library with its parameters."""
    it = getattr(library, f"tesla_{name}")
    it.argtypes, it.restype = SIGNATURES[name], c_uint32
    return it


LIBRARY = loaded()
calls = {name: function(LIBRARY, name) for name in SIGNATURES}


def library_version() -> str:
    """The version of the library that was found."""
    number = calls["version"]()
    return f"{number >> 16}.{number >> 8 & 255}.{number & 255}"


def bytes_of(it) -> bytes:
    """Bytes of anything that has bytes, but of no number."""
    return it if type(it) is bytes else bytes(memoryview(it))
