"""The epochs of a feed without end, and the messages that are accepted on arrival (DEFINITIONS.md, "A follower").

What events make is a `Followed`; each answer is worked out of the one before. The history of each epoch's receiver is kept whole.
"""
import collections

from . import histories
from .epochs import handover_text
from .frames import frame_of
from .histories import Arrival, Config, Ended, Taken
from .listed import Listed
from .promises import candidate, is_early
from .records import Record, follow_text
from .setups import Refused, judged

MOST_OPEN, MOST_CLOSED_KNOWN, EARLY_CHAIN = 3, 64, 255

# An epoch: its configuration, its receiver's history, and the same as far as it teaches promises.
Epoch = collections.namedtuple("Epoch", "cfg history teaching")
# The epochs in order, the messages that wait as (epoch, frame), whether one of them is next, the ingests that ended, and counts.
Followed = collections.namedtuple("Followed", "epochs queue turn ended records early unqueued dropped")


def nothing_followed(cfg):
    """Nothing has happened: the epoch of the trusted setup is open."""
    return Followed((Epoch(cfg, Listed(), Listed()),), (), True, (), 0, 0, 0, 0)


def oldest(it):
    """The number of the oldest epoch that is open."""
    return max(0, len(it.epochs) - MOST_OPEN)


def with_epoch(it, number, epoch):
    """The same with another epoch of this number."""
    return it._replace(epochs=it.epochs[:number] + (epoch,) + it.epochs[number + 1:])


# ---- arrivals

def epoch_for(it, text):
    """The number of the epoch that a datagram goes to: of those open that of its frame's stream, and else the oldest."""
    frame = frame_of(text)
    streams = [epoch.cfg.setup.stream for epoch in it.epochs[oldest(it):]]
    return oldest(it) + (streams.index(frame.stream) if frame is not None and frame.stream in streams else 0)


def arrived(cfg, it, event):
    """The answer to an arrival, and what it makes."""
    number = epoch_for(it, event.bytes)
    epoch = it.epochs[number]
    arrival = histories.entry_of(epoch.cfg, epoch.history, event)
    promised = is_early(epoch.cfg, epoch.teaching, arrival)
    room = len(it.queue) < cfg.capacity
    taught = Ended(0) if promised and not room else arrival
    after = with_epoch(it, number, Epoch(epoch.cfg, epoch.history.having(arrival), epoch.teaching.having(taught)))
    if not promised:
        return (number, arrival.verdict, "Unpromised"), after
    if not room:
        return (number, arrival.verdict, "Unqueued"), after._replace(unqueued=it.unqueued + 1)
    return (number, arrival.verdict, "Queued"), after._replace(queue=it.queue + ((number, candidate(arrival)),))


# ---- takes

def given_early(it):
    """The first message that waits is given."""
    (number, frame), *others = it.queue
    record = Record(it.records, frame.interval, frame.number, EARLY_CHAIN, frame.payload)
    return ("Early", number, record), it._replace(queue=tuple(others), turn=False, records=it.records + 1, early=it.early + 1)


def asked(it, releaser):
    """What the open epochs answer that are asked, from the oldest on, and what that makes."""
    replies = []
    for number in range(oldest(it), len(it.epochs)):
        epoch = it.epochs[number]
        replies.append(histories.reply_to(epoch.cfg, epoch.history))
        entry = Taken(releaser, replies[-1])
        it = with_epoch(it, number, Epoch(epoch.cfg, epoch.history.having(entry), epoch.teaching.having(entry)))
        if replies[-1][0] == "Given":
            break
    return replies, it


def taken(cfg, it, event):
    """The answer to a take, and what it makes."""
    if it.queue and it.turn:
        return given_early(it)
    replies, after = asked(it, event.releaser)
    if replies[-1][0] == "Given":
        return given_released(cfg, after, oldest(it) + len(replies) - 1, Record(*replies[-1][1:]))
    if it.queue:
        return given_early(after)
    return ("Over",) if all(reply == ("Over",) for reply in replies) else ("Empty",), after


def given_released(cfg, it, number, record):
    """A packet of an epoch is given, which may open the next one."""
    following = next_of(it, number, record.payload)
    after = it._replace(turn=True, records=it.records + 1)
    if following == ("Opened",):
        after = opened(cfg, after, judged(handover_text(record.payload)))
    return ("Released", number, record._replace(position=it.records), following), after


# ---- handovers

def first_equal(setup):
    """The first chain whose commitment a chain before has, or None."""
    keys = [row.key for row in setup.rows]
    return next((chain for chain, key in enumerate(keys) if key in keys[:chain]), None)


def next_of(it, number, payload):
    """What a packet of an epoch comes to."""
    text = handover_text(payload)
    if text is None:
        return ("Plain",)
    if number + 1 != len(it.epochs):
        return "Old", len(it.epochs) - 1
    try:
        setup = judged(text)
    except Refused as refused:
        return "BadSetup", refused.line, refused.kind
    if first_equal(setup) is not None:
        return "EqualCommitments", first_equal(setup)
    known = [epoch.cfg.setup.stream for epoch in it.epochs[-(MOST_OPEN + MOST_CLOSED_KNOWN):]]
    return ("UsedStream", setup.stream) if setup.stream in known else ("Opened",)


def undelivered_in(epoch):
    """How many packets of an epoch are held that weren't given."""
    cfg, history = epoch.cfg, epoch.history
    arrivals, given = histories.arrivals_in(cfg, history), histories.given_in(cfg, history)
    held = [(place, histories.packet_of(arrival)) for place, arrival in enumerate(arrivals)]
    return sum(1 for place, packet in held if packet and not histories.is_gone(cfg, arrivals, given, place, packet)
               and place not in histories.places_released(cfg, arrivals, given))


def opened(cfg, it, setup):
    """The next epoch is opened; where three are open the oldest is closed."""
    ends = [Ended(ingest) for ingest in range(cfg.ingests) if ingest in it.ended]
    config = Config(setup, cfg.lag, cfg.capacity, cfg.quota, cfg.ingests)
    closing = it.epochs[oldest(it):][:-(MOST_OPEN - 1)] if len(it.epochs) >= MOST_OPEN else ()
    epoch = Epoch(config, Listed().having(*ends), Listed().having(*ends))
    return it._replace(epochs=it.epochs + (epoch,), dropped=it.dropped + sum(map(undelivered_in, closing)))


# ---- any event

def ended(it, event):
    """An ingest ends in every epoch that is open."""
    for number in range(oldest(it), len(it.epochs)):
        epoch = it.epochs[number]
        it = with_epoch(it, number, Epoch(epoch.cfg, epoch.history.having(event), epoch.teaching.having(event)))
    return None, it._replace(ended=it.ended + (event.ingest,))


def answered(cfg, it, event):
    """The answer to an event, and what it makes. An event is an entry of a receiver whose answer isn't looked at."""
    if isinstance(event, Arrival):
        return arrived(cfg, it, event)
    return taken(cfg, it, event) if isinstance(event, Taken) else ended(it, event)


def answers_of(cfg, events):
    """The answers to events in order, and what they make."""
    it, answers = nothing_followed(cfg), []
    for event in events:
        answer, it = answered(cfg, it, event)
        answers.append(answer)
    return answers, it


# ---- what is told

def records_of(answers):
    """The records of these answers, in order."""
    return b"".join(follow_text(int(it[0] == "Early"), it[1], it[2]) for it in answers if it and it[0] in ("Released", "Early"))


def report_over(it):
    """The counts of all epochs together."""
    return [sum(counts) for counts in zip(*(histories.report_of(epoch.history) for epoch in it.epochs))]
