"""Receivers and senders of TESLA streams (RFC 4082), over libtesla, which has to be beside this package or in the system.

    with tesla.Receiver(setup, lag=30_000) as receiver:
        while True:
            datagram = socket.recv(2048)
            receiver.arrive(datagram, time.time_ns() // 1000)
            for message in receiver:
                handle(message.payload)

    with tesla.Sender(setup, seeds) as sender:
        socket.send(sender.message(b"hello", time.time_ns() // 1000))

A Receiver is of one stream, and a Follower of a feed whose streams hand over one to the next. Messages come only when their keys do,
which a sender tells with later messages, or by `disclose` where none comes.

Times are in microseconds: readings of your own clock, which doesn't go back, each taken after its datagram came, and the lag, by
which the sender's clock is ahead of it at most. A reading that is too late, or a lag that is too great, loses packets; one that
is too early, or too small, may let a forged packet pass. Threads may share an object: it holds a lock around each call.
"""
from ._errors import BadNumber, Cause, Closed, Error, Refused, Spent, Unsent
from ._library import library_version
from ._receiving import Kind, Report
from .follower import Acceptance, Follower, FollowReport, FollowVerdict, Record
from .receiver import Message, Receiver, Verdict
from .sender import Sender
from .texts import Chain, Frame, Setup, lag, make_setup, read_frame, read_setup

__version__ = "0.1.0"
__all__ = ["Acceptance", "BadNumber", "Cause", "Chain", "Closed", "Error", "Follower", "FollowReport", "FollowVerdict", "Frame", "Kind",
           "Message", "Receiver", "Record", "Refused", "Report", "Sender", "Setup", "Spent", "Unsent", "Verdict", "lag",
           "library_version", "make_setup", "read_frame", "read_setup"]
