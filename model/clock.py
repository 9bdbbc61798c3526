"""Intervals, the bound on the sender's interval, and safe chains (DEFINITIONS.md, "Time")."""
import collections

# When interval 0 begins, how long an interval is, in microseconds, and the last interval.
Times = collections.namedtuple("Times", "start length last")


def interval_of(times, reading):
    """The interval of a reading of the sender's clock; there is none before the start."""
    return (reading - times.start) // times.length if reading >= times.start else None


def bound_of(times, lag, reading):
    """The last interval that the sender may be in when the receiver's clock gives the reading."""
    after = reading + lag - times.start
    return after // times.length if after >= 0 else None


def is_safe(bound, interval, delay, newest):
    """By the bound the chain's key of the interval can't have been told, and none that reaches it was taken."""
    return bound < interval + delay and newest < interval


def chain_set(test, count):
    """The set of the chains that pass: bit c for chain c."""
    return sum(1 << chain for chain in range(count) if test(chain))


def has_chain(chains, chain):
    """Bit c of the set is set."""
    return chains >> chain & 1 == 1
