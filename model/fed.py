"""What a live feed over a list of streams sends of messages that come and of what the clock shows (DEFINITIONS.md, "A feed over a
list of streams"). A feed of one stream is one over a list that has it alone.
"""
import collections

from .epochs import MARK
from .files import Discloses, Sends
from .frames import frame_text
from .senders import due_rows, interval_at, latest_of, made_disclosure, message_frame, messages_of
from .setups import setup_text

UNREAD = 2 ** 64 - 1
WINDOW, FURTHER = 64, 64

# A stream of the list: its first interval, the setup of the one behind it, the calls that were made, and the interval of the last
# handover.
Part = collections.namedtuple("Part", "stream first next log handed")
# The streams, the frames that were sent, how many messages, disclosures and handovers these are, and why messages were refused.
Fed = collections.namedtuple("Fed", "parts frames messages disclosures handovers refused unread")


# ---- the list

def begin_of(times):
    """When interval 1 begins."""
    return times.start + times.length


def end_of(times):
    """When the last interval ends."""
    return times.start + (times.last + 1) * times.length


def first_disorder(setups):
    """The first pair of streams that isn't in order: what is wrong, and the places of both; None where all are."""
    for place, setup in enumerate(setups):
        if setups[place + 1:] and begin_of(setups[place + 1].times) < end_of(setup.times):
            return "Overlap", place, place + 1
        for other, behind in enumerate(setups[place + 1:], place + 1):
            if behind.stream == setup.stream:
                return "SameStream", place, other
    return None


def greatest_delay(setup):
    """The greatest delay of the chains."""
    return max(row.delay for row in setup.rows)


def is_told_before(times, delay, following, interval):
    """The interval's key of the slowest chain is due before interval 1 of the next stream begins."""
    due = times.start + (interval + delay) * times.length
    return 1 <= interval <= times.last and due < begin_of(following)


def is_in_window(times, delay, following, interval):
    """The interval is one of the last 64 of these."""
    told = [is_told_before(times, delay, following, it) for it in (interval, interval + WINDOW)]
    return told == [True, False]


def has_ended(setup, reading):
    """The feed of a stream is over: its last key is due on every chain since more than 64 intervals."""
    times = setup.times
    return all(times.start + (times.last + 1 + row.delay + FURTHER) * times.length < reading for row in setup.rows)


def opened(streams, reading):
    """The feed over a list that is opened at a reading: the streams in front that are over are left out."""
    lasting = list(streams)
    while lasting and has_ended(lasting[0].setup, reading):
        lasting.pop(0)
    following = [stream.setup for stream in lasting[1:]] + [None]
    parts = tuple(Part(stream, interval_at(stream.setup.times, reading) + 1, behind, (), 0)
                  for stream, behind in zip(lasting, following))
    return Fed(parts, (), 0, 0, 0, (), 0)


# ---- one event

def name_of(part, reading, payload):
    """The name of a message of a stream, or why it is refused."""
    times = part.stream.setup.times
    interval = interval_at(times, reading)
    number = messages_of(times, interval, part.log)
    if len(payload) > 1_200:
        return "TooLong"
    if interval == 0:
        return "Early"
    if interval > times.last:
        return "Over"
    if interval < max(part.first, latest_of(times, part.log)):
        return "Backward"
    return (interval, number) if number < 65_536 else "IntervalFull"


def told_by(part):
    """The index of the newest key of each chain that the calls of a stream told."""
    setup = part.stream.setup
    intervals = [interval_at(setup.times, call.reading) for call in part.log]
    return [max([0, *(min(interval - row.delay, setup.times.last) for interval in intervals)]) for row in setup.rows]


def is_due(part, reading):
    """A disclosure tells a newer key on some chain."""
    times = part.stream.setup.times
    interval = interval_at(times, reading)
    if reading == UNREAD or interval < part.first or interval < latest_of(times, part.log):
        return False
    told = dict(enumerate(told_by(part)))
    return any(row.index > told[row.chain] for row in due_rows(part.stream, interval))


def on_at(parts, reading):
    """The place of the stream that is on: the first whose last interval hasn't ended, or the last one; None where there is none."""
    for place, part in enumerate(parts):
        times = part.stream.setup.times
        if interval_at(times, reading) <= times.last:
            return place
    return len(parts) - 1 if parts else None


def with_part(fed, place, part, **more):
    """The same with another stream at a place."""
    return fed._replace(parts=fed.parts[:place] + (part,) + fed.parts[place + 1:], **more)


def sent(part, reading, payload, name):
    """The frame of a message that has a name, and the stream behind it."""
    return frame_text(message_frame(part.stream, *name, payload)), part._replace(log=part.log + (Sends(reading, payload),))


def after_handover(fed, reading):
    """A handover of the stream that is on, where one is due that isn't refused."""
    place = on_at(fed.parts, reading)
    part = fed.parts[place] if place is not None else None
    if part is None or part.next is None:
        return fed
    setup = part.stream.setup
    interval, payload = interval_at(setup.times, reading), MARK + setup_text(part.next)
    name = name_of(part, reading, payload)
    if interval <= part.handed or not is_in_window(setup.times, greatest_delay(setup), part.next.times, interval) or isinstance(name, str):
        return fed
    frame, part = sent(part, reading, payload, name)
    return with_part(fed, place, part._replace(handed=interval), frames=fed.frames + (frame,), handovers=fed.handovers + 1)


def after_message(fed, reading, payload):
    """A message of the stream that is on, or why it is refused."""
    place = on_at(fed.parts, reading)
    if place is None:
        return fed
    name = name_of(fed.parts[place], reading, payload)
    if isinstance(name, str):
        return fed._replace(refused=fed.refused + (name,))
    frame, part = sent(fed.parts[place], reading, payload, name)
    return with_part(fed, place, part, frames=fed.frames + (frame,), messages=fed.messages + 1)


def after_keys(fed, reading):
    """Disclosures of all streams of which one is due, in order."""
    for place, part in enumerate(fed.parts):
        if is_due(part, reading):
            frame = frame_text(made_disclosure(part.stream, list(part.log), reading))
            part = part._replace(log=part.log + (Discloses(reading),))
            fed = with_part(fed, place, part, frames=fed.frames + (frame,), disclosures=fed.disclosures + 1)
    return fed


def after_event(fed, reading, payload=None):
    """What a message that came, or none, makes at a reading."""
    if reading == UNREAD:
        return fed if payload is None else fed._replace(unread=fed.unread + 1)
    fed = after_handover(fed, reading)
    fed = fed if payload is None else after_message(fed, reading, payload)
    return after_keys(fed, reading)


def is_all_told(fed):
    """The keys of all messages and handovers are told on every chain."""
    for part in fed.parts:
        last = max([0, *(interval_at(part.stream.setup.times, it.reading) for it in part.log if isinstance(it, Sends))])
        if any(index < last for index in told_by(part)):
            return False
    return True
