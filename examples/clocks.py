"""Readings of this machine's clock in microseconds, on the safe side where its date is set while a program runs: a receiver takes the
later of the date and of a clock that can't be set, and a sender the earlier."""
import time

# The date as this was loaded, less what the clock that can't be set showed then.
_AHEAD = time.time_ns() - time.clock_gettime_ns(time.CLOCK_BOOTTIME)


def _readings():
    return time.time_ns() // 1000, (_AHEAD + time.clock_gettime_ns(time.CLOCK_BOOTTIME)) // 1000


def receiver_reading():
    """The later of both."""
    return max(_readings())


def sender_reading():
    """The earlier of both."""
    return min(_readings())
