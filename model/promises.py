"""Messages that promise later ones, and which arrivals are early (DEFINITIONS.md, "Promises")."""
import collections
import hashlib
import struct

from .files import SCRIPT, Sends, file_text, outline_of
from .frames import DataFrame, frame_of
from .histories import Arrival, given_by, gives, name_of
from .listed import each_after, remembered
from .records import Accepted, accepted_text, marked_text
from . import senders

MOST_PROMISES = 4_096
LONGEST_BODY = 1_161

# The name of a message, and the digest of its payload.
Promise = collections.namedtuple("Promise", "name hash")
# A promise, and whether an early arrival has used it.
Learnt = collections.namedtuple("Learnt", "promise used")


def sha256(text):
    """The digest of a payload."""
    return hashlib.sha256(text).digest()


def promising_text(promise, body):
    """A payload that promises, with a body of its own."""
    return b"\1" + struct.pack(">IH", *promise.name) + promise.hash + body


def promise_of(payload):
    """The promise of a payload: there is one where it has at least 39 bytes, and the first is 1."""
    if len(payload) < 39 or payload[0] != 1:
        return None
    return Promise(struct.unpack_from(">IH", payload, 1), payload[7:39])


# ---- weaving

def woven(gap, names, bodies):
    """Payload k is body k behind the promise of payload k + gap under name k + gap, and behind a zero where there is none."""
    payloads = [None] * len(bodies)
    for k in reversed(range(len(bodies))):
        payloads[k] = b"\0" + bodies[k]
        if k + gap < len(bodies):
            payloads[k] = promising_text(Promise(names[k + gap], sha256(payloads[k + gap])), bodies[k])
    return payloads


def answer_to(setup, log, record):
    """What a record of a script that is woven comes to: a name or an interval, None, or the kind with which it is refused."""
    if not isinstance(record, Sends):
        return senders.disclosed_of(setup, log, record.reading)
    name = senders.name_of(setup.times, log, record.reading)
    return "LongBody" if not isinstance(name, str) and len(record.payload) > LONGEST_BODY else name


def weaving(setup, gap, text):
    """The script with woven payloads and how many messages it has, and the first place that is refused with its kind, or None."""
    records, fault = outline_of(SCRIPT, text)
    log, names = [], []
    for place, record in records:
        answer = answer_to(setup, log, record)
        if isinstance(answer, str):
            return None, 0, (place, answer)
        log += [record] if answer is not None else []
        names += [answer] if isinstance(record, Sends) else []
    payloads = iter(woven(gap, names, [record.payload for _, record in records if isinstance(record, Sends)]))
    others = [Sends(record.reading, next(payloads)) if isinstance(record, Sends) else record for _, record in records]
    return file_text(SCRIPT, others), len(names), fault


# ---- what a receiver learns

def candidate(arrival):
    """The frame of an arrival whose keys were taken and that brought a packet."""
    frame = frame_of(arrival.bytes)
    return frame if arrival.verdict[0] in ("Late", "Repeat", "Full", "Kept") and isinstance(frame, DataFrame) else None


def taught_by(payload):
    """What a payload teaches that is given, or accepted."""
    promise = promise_of(payload)
    return [Learnt(promise, False)] if promise else []


def promise_used(learnt_before, frame):
    """The place of the first promise of this message that isn't used, among the last ones that count; None if there is none."""
    wanted = Learnt(Promise(name_of(frame), sha256(frame.payload)), False)
    first = max(0, len(learnt_before) - MOST_PROMISES)
    return learnt_before.index(wanted, first) if wanted in learnt_before[first:] else None


@remembered
def learnt(cfg, history):
    """The promises that were learnt in a history, in order."""
    if len(history) == 0:
        return []
    before, entry = learnt(cfg, history.before), history.last
    if gives(entry):
        return before + taught_by(entry.reply[-1])
    if not isinstance(entry, Arrival) or not is_early(cfg, history.before, entry):
        return before
    frame = candidate(entry)
    used = promise_used(before, frame)
    return before[:used] + [before[used]._replace(used=True)] + before[used + 1:] + taught_by(frame.payload)


def is_early(cfg, history, arrival):
    """An arrival behind this history is early: of the last promises that were learnt one that isn't used is of its message."""
    frame = candidate(arrival)
    return frame is not None and promise_used(learnt(cfg, history), frame) is not None


def early_record_in(cfg, history, entry):
    """What is written of an entry behind a history."""
    if gives(entry):
        return [marked_text(0, given_by(entry))]
    if isinstance(entry, Arrival) and is_early(cfg, history, entry):
        return [accepted_text(Accepted(*name_of(candidate(entry)), candidate(entry).payload))]
    return []


@remembered
def early_records_of(cfg, history):
    """What is written of a history, in the order of its entries."""
    return each_after(early_record_in, cfg, history, early_records_of)


def early_count(cfg, history):
    """How many arrivals of a history are early."""
    return sum(text[0] == 1 for text in early_records_of(cfg, history))
