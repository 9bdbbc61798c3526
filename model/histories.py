"""What happened to a receiver, and the one answer to each event (DEFINITIONS.md, "Histories").

A history is a list of entries: arrivals with their verdicts, takes with their replies, and ends of ingests. The definitions look
at all of it. A verdict is a tuple of its name and of what it tells; so is a reply,
of which `Given` tells what stands in the release record.
"""
import collections

from . import clock, frames
from .files import CAPTURE, Arrives, outline_of
from .frames import DataFrame, KeyRow, frame_of
from .keys import tag_of, walk
from .listed import Listed, each_after, remembered
from .records import Record, release_text
from .verdicts import COUNTS, VERDICTS, report_text

Packet = collections.namedtuple("Packet", "chains frame")
# A packet that is released: its place among the arrivals, its name, and the chain that proves it.
Release = collections.namedtuple("Release", "place name chain")
Taken = collections.namedtuple("Taken", "releaser reply")
Ended = collections.namedtuple("Ended", "ingest")


class Config:
    """A setup, the lag, the capacity, the quota and the number of ingests."""

    def __init__(self, setup, lag, capacity, quota, ingests=1):
        self.setup, self.lag, self.capacity, self.quota, self.ingests = setup, lag, capacity, quota, ingests


class Arrival(collections.namedtuple("Arrival", "ingest reading bytes verdict")):
    """What came: its ingest, its reading, its bytes, and its verdict."""


def chains(cfg):
    """The numbers of the stream's key chains."""
    return range(len(cfg.setup.rows))


def chain_row(cfg, chain):
    """The commitment and the delay of a chain."""
    return cfg.setup.rows[chain]


def name_of(frame):
    """The name of a packet: its interval and its number."""
    return frame.interval, frame.number


# ---- keys

def keys_of(cfg, frame):
    """The keys that a frame carries, each with its chain and index."""
    if isinstance(frame, frames.KeysFrame):
        return list(frame.rows)
    told = [(chain, frame.interval - chain_row(cfg, chain).delay, row.key) for chain, row in enumerate(frame.rows)]
    return [KeyRow(*row) for row in told if row[2] is not None and row[1] >= 0]


def takes_keys(verdict):
    """An arrival takes its keys unless it was refused before them."""
    return verdict[0] in ("Late", "Repeat", "Full", "Kept", "Keys")


@remembered
def keys_taken(cfg, arrival):
    """The keys that an arrival takes."""
    return keys_of(cfg, frame_of(arrival.bytes)) if takes_keys(arrival.verdict) else []


@remembered
def newest(cfg, arrivals, chain):
    """The newest index of a chain: the greatest of the commitment's and of those of its keys that were taken."""
    if len(arrivals) == 0:
        return chain_row(cfg, chain).index
    taken = [row.index for row in keys_taken(cfg, arrivals.last) if row.chain == chain]
    return max([newest(cfg, arrivals.before, chain), *taken])


def new_keys(cfg, before, arrival):
    """The keys that an arrival takes and that are newer than those taken before."""
    return [row for row in keys_taken(cfg, arrival) if row.index > newest(cfg, before, row.chain)]


@remembered
def fresh_keys(cfg, arrivals):
    """All keys that were new when they were taken."""
    return each_after(new_keys, cfg, arrivals, fresh_keys)


def leads_to(row, index, key):
    """The key walks to the other, which is of the same chain and not above it."""
    return walk(row.key, row.index - index) == key


def is_good(cfg, arrivals, row):
    """A key that is newer than those taken before, and walks to the commitment's key and to each of its chain that was new."""
    commitment = chain_row(cfg, row.chain)
    return (row.index > newest(cfg, arrivals, row.chain) and leads_to(row, commitment.index, commitment.key)
            and all(leads_to(row, other.index, other.key) for other in fresh_keys(cfg, arrivals) if other.chain == row.chain))


def is_bad(cfg, arrivals, row):
    """A key that is newer than those taken before and isn't good."""
    return row.index > newest(cfg, arrivals, row.chain) and not is_good(cfg, arrivals, row)


# ---- packets

def is_safe(cfg, arrivals, bound, interval, chain):
    """The chain is safe for a packet of the interval."""
    return clock.is_safe(bound, interval, chain_row(cfg, chain).delay, newest(cfg, arrivals, chain))


def safe_chains(cfg, arrivals, bound, interval):
    """The set of the chains that are safe; none is where there is no bound."""
    return 0 if bound is None else clock.chain_set(lambda chain: is_safe(cfg, arrivals, bound, interval, chain), len(chains(cfg)))


def packet_of(arrival):
    """The packet that an arrival brought, if it was kept."""
    return Packet(arrival.verdict[1], frame_of(arrival.bytes)) if arrival.verdict[0] == "Kept" else None


def verifies(cfg, frame, chain, row):
    """The packet's tag for the chain is the one under the key that this key walks to at the packet's interval."""
    key = walk(row.key, row.index - frame.interval)
    return frame.rows[chain].tag == tag_of(cfg.setup.tag_length, key, cfg.setup.stream, chain, *name_of(frame), frame.payload)


def is_proof(cfg, frame, chain, row):
    """The key is of the chain, reaches the packet's interval, and verifies its tag."""
    return row.chain == chain and row.index >= frame.interval and verifies(cfg, frame, chain, row)


def proves(cfg, before, new, packet, chain):
    """On this chain, which was safe, one of these new keys is the first to reach the packet's interval, and verifies its tag."""
    return (clock.has_chain(packet.chains, chain) and newest(cfg, before, chain) < packet.frame.interval
            and any(is_proof(cfg, packet.frame, chain, row) for row in new))


def proved_by(cfg, before, new):
    """The packets before that these new keys prove, in order of arrival, each with the least chain that proves it."""
    found = []
    for place, packet in enumerate(map(packet_of, before)):
        proofs = [chain for chain in chains(cfg) if proves(cfg, before, new, packet, chain)] if packet and new else []
        found += [Release(place, name_of(packet.frame), proofs[0])] if proofs else []
    return found


def batch(cfg, before, arrival):
    """The packets that an arrival proves."""
    return proved_by(cfg, before, new_keys(cfg, before, arrival))


@remembered
def candidates(cfg, arrivals):
    """All pairs of an arrival and a packet that it proves, by the arrival and then by the packet."""
    return each_after(batch, cfg, arrivals, candidates)


@remembered
def released(cfg, arrivals):
    """What is released, in order: the first of each name."""
    first = {}
    for release in candidates(cfg, arrivals):
        first.setdefault(release.name, release)
    return list(first.values())


# ---- places

def has_passed(cfg, arrivals, interval, chain):
    """A key of the chain that reaches the interval was taken."""
    return interval <= newest(cfg, arrivals, chain)


def is_past(cfg, arrivals, packet, chain):
    """The chain can't prove the packet any more: it wasn't safe, or it has passed the packet."""
    return not clock.has_chain(packet.chains, chain) or has_passed(cfg, arrivals, packet.frame.interval, chain)


@remembered
def places_proved(cfg, arrivals):
    """The places of the packets that were proved."""
    return {release.place for release in candidates(cfg, arrivals)}


@remembered
def places_released(cfg, arrivals, count=None):
    """The places of the packets that are released, or of the first so many of them."""
    return {release.place for release in released(cfg, arrivals)[:count]}


def is_settled(cfg, arrivals, place, packet):
    """The packet was proved, or no chain can prove it any more."""
    return place in places_proved(cfg, arrivals) or all(is_past(cfg, arrivals, packet, chain) for chain in chains(cfg))


def is_gone(cfg, arrivals, given, place, packet):
    """The packet is settled and isn't released, or it was given and every chain has passed it."""
    passed = all(has_passed(cfg, arrivals, packet.frame.interval, chain) for chain in chains(cfg))
    return (is_settled(cfg, arrivals, place, packet) and place not in places_released(cfg, arrivals)
            or place in places_released(cfg, arrivals, given) and passed)


def held_of(cfg, arrivals, given, asked=None):
    """How many kept packets aren't gone: of one interval, or of all."""
    packets = [(place, packet_of(arrival)) for place, arrival in enumerate(arrivals)]
    return sum(1 for place, packet in packets
               if packet and asked in (None, packet.frame.interval) and not is_gone(cfg, arrivals, given, place, packet))


# ---- the verdict on an arrival

def fields_misfit(cfg, frame):
    """The fields of the frame don't fit the setup."""
    times = cfg.setup.times
    if isinstance(frame, frames.KeysFrame):
        return any(row.chain not in chains(cfg) or row.index > times.last for row in frame.rows)
    return (frame.interval == 0 or frame.interval > times.last or len(frame.rows) != len(cfg.setup.rows)
            or frame.tag_length != cfg.setup.tag_length
            or any(row.key is not None and frame.interval < chain_row(cfg, chain).delay for chain, row in enumerate(frame.rows)))


def is_misfit(cfg, frame):
    """The frame's version isn't the setup's, or its fields don't fit the setup."""
    return frame.version != cfg.setup.version or fields_misfit(cfg, frame)


def is_future(cfg, bound, frame):
    """The sender's interval can't have reached the frame's yet, or can't have come to tell one of its keys."""
    if bound is None:
        return True
    if isinstance(frame, DataFrame):
        return bound < frame.interval
    return any(bound < row.index + chain_row(cfg, row.chain).delay for row in frame.rows)


def refusal(cfg, arrivals, bound, frame):
    """Why a frame is refused before its keys are taken."""
    if frame.stream != cfg.setup.stream:
        return "Foreign", frame.stream
    if is_misfit(cfg, frame):
        return ("Misfit",)
    if is_future(cfg, bound, frame):
        return "Future", bound
    bad = [row for row in keys_of(cfg, frame) if is_bad(cfg, arrivals, row)]
    return ("BadKey", bad[0].chain) if bad else None


def packet_verdict(cfg, arrivals, given, chain_set, frame):
    """The verdict on a data frame whose keys are taken."""
    if chain_set == 0:
        return ("Late",)
    if name_of(frame) in [release.name for release in released(cfg, arrivals)]:
        return ("Repeat",)
    if held_of(cfg, arrivals, given) == cfg.capacity or held_of(cfg, arrivals, given, frame.interval) == cfg.quota:
        return ("Full",)
    return "Kept", chain_set


def verdict_taken(cfg, arrivals, given, bound, frame):
    """The verdict on a frame whose keys are taken; the arrivals have it at their end."""
    if isinstance(frame, frames.KeysFrame):
        return ("Keys",)
    return packet_verdict(cfg, arrivals, given, safe_chains(cfg, arrivals, bound, frame.interval), frame)


def verdict_of(cfg, arrivals, given, ingest, reading, text):
    """The verdict on an arrival after the earlier ones, when so many packets were given."""
    frame, bound = frame_of(text), clock.bound_of(cfg.setup.times, cfg.lag, reading)
    if frame is None:
        return ("Malformed",)
    late = Arrival(ingest, reading, text, ("Late",))
    return refusal(cfg, arrivals, bound, frame) or verdict_taken(cfg, arrivals.having(late), given, bound, frame)


# ---- histories

@remembered
def arrivals_in(cfg, history):
    """The arrivals of a history, in order."""
    if len(history) == 0:
        return Listed()
    before = arrivals_in(cfg, history.before)
    return before.having(history.last) if isinstance(history.last, Arrival) else before


def gives(entry):
    """A take that gave a packet."""
    return isinstance(entry, Taken) and entry.reply[0] == "Given"


def given_by(entry):
    """The record of the packet that a take gave."""
    return Record(*entry.reply[1:])


@remembered
def given_in(_, history):
    """How many takes gave a packet."""
    return sum(map(gives, history))


def has_end(history, ingest):
    """The ingest has ended."""
    return Ended(ingest) in [entry for entry in history if isinstance(entry, Ended)]


def record_of(position, release, payload):
    """The release record of a packet."""
    return Record(position, *release.name, release.chain, payload)


def reply_to(cfg, history):
    """The answer to a take: the next released packet, or whether all ingests have ended."""
    arrivals, given = arrivals_in(cfg, history), given_in(cfg, history)
    if given < len(released(cfg, arrivals)):
        release = released(cfg, arrivals)[given]
        payload = frame_of(arrivals.items[release.place].bytes).payload
        return "Given", *record_of(given, release, payload)
    return ("Over",) if all(has_end(history, ingest) for ingest in range(cfg.ingests)) else ("Empty",)


def arrival_after(cfg, history, ingest, reading, text):
    """An arrival with its verdict."""
    arrivals, given = arrivals_in(cfg, history), given_in(cfg, history)
    return Arrival(ingest, reading, text, verdict_of(cfg, arrivals, given, ingest, reading, text))


def entry_of(cfg, history, event):
    """The entry of an event after a history: the event with its answer. An event is an entry whose answer isn't looked at."""
    if isinstance(event, Arrival):
        return arrival_after(cfg, history, event.ingest, event.reading, event.bytes)
    return Taken(event.releaser, reply_to(cfg, history)) if isinstance(event, Taken) else event


# ---- what a capture plays

def event_in(record):
    """A record of a capture, as an arrival of ingest 0 or a take of releaser 0."""
    return Arrival(0, *record, None) if isinstance(record, Arrives) else Taken(0, None)


def after_events(cfg, history, events):
    """The history after these events, each with its answer."""
    for event in events:
        history = history.having(entry_of(cfg, history, event))
    return history


def waiting_in(cfg, history):
    """How many released packets wait to be taken."""
    return len(released(cfg, arrivals_in(cfg, history))) - given_in(cfg, history)


def finished(cfg, history):
    """The history after the end of ingest 0 and takes up to and with the first that is over."""
    ended = after_events(cfg, history, [Ended(0)])
    return after_events(cfg, ended, [Taken(0, None)] * (1 + waiting_in(cfg, history)))


def played(cfg, records, whole):
    """The history that the records of a capture play, with its end where the capture is whole."""
    history = after_events(cfg, Listed(), map(event_in, records))
    return finished(cfg, history) if whole else history


def history_of(cfg, text):
    """The one history that a file plays."""
    records, fault = outline_of(CAPTURE, text)
    return played(cfg, [record for _, record in records], fault is None)


# ---- what is told of a history

def report_of(history):
    """How many arrivals there are, how many have each verdict, and how many takes gave a packet."""
    verdicts = [entry.verdict[0] for entry in history if isinstance(entry, Arrival)]
    return [len(verdicts), *map(verdicts.count, VERDICTS), sum(map(gives, history))]


def report_lines(history):
    """The lines of the report of a history."""
    return report_text(dict(zip(COUNTS, report_of(history))))


def records_of(releaser, history):
    """The release records of a releaser's takes that gave a packet, in order."""
    return b"".join(release_text(given_by(entry)) for entry in history if gives(entry) and entry.releaser == releaser)


def released_text(cfg, arrivals):
    """The release records of all that is released."""
    payloads = [frame_of(arrivals.items[release.place].bytes).payload for release in released(cfg, arrivals)]
    numbered = enumerate(zip(released(cfg, arrivals), payloads))
    return b"".join(release_text(record_of(position, release, payload)) for position, (release, payload) in numbered)
