"""A stream and those that it hands over to (DEFINITIONS.md, "Epochs").

A history of epochs is a list of calls with their answers. The history of each epoch's receiver is looked up in it.
"""
import collections

from . import histories
from .files import CAPTURE, outline_of
from .frames import frame_of
from .histories import Arrival, Config, Ended, Taken
from .listed import Listed, remembered
from .records import Record, marked_text
from .setups import Refused, judged

MOST_EPOCHS = 16
MARK = b"TNXT\1"

RollArrived = collections.namedtuple("RollArrived", "epoch arrival")
# A take with the answers of the epochs that were asked, and what became of the payload that the last of them gave.
RollTaken = collections.namedtuple("RollTaken", "releaser answers next")
RollEnded = collections.namedtuple("RollEnded", "ingest")


def handover_text(payload):
    """The text behind the mark, where the payload begins with it."""
    return payload[5:] if payload[:5] == MARK else None


# ---- which epochs there are

def setup_opened(entry):
    """The setup of the epoch that an entry opened, if it did."""
    opened = isinstance(entry, RollTaken) and entry.next == ("Opened",)
    return [judged(handover_text(entry.answers[-1][-1]))] if opened else []


@remembered
def configs_in(cfg, history):
    """The configurations of the epochs: the first, and one for each that was opened, of the setup handed over to."""
    if len(history) == 0:
        return (cfg,)
    others = [Config(setup, cfg.lag, cfg.capacity, cfg.quota, cfg.ingests) for setup in setup_opened(history.last)]
    return (*configs_in(cfg, history.before), *others)


def epoch_count(cfg, history):
    """How many epochs there are."""
    return len(configs_in(cfg, history))


# ---- the history of an epoch's receiver

def ends_before(cfg, history):
    """The ends that an epoch begins with: one for each ingest that has ended, in the order of the ingests."""
    ended = {entry.ingest for entry in history if isinstance(entry, RollEnded)}
    return [Ended(ingest) for ingest in range(cfg.ingests) if ingest in ended]


def entries_on(cfg, epoch, before, entry):
    """What an entry is in the history of an epoch's receiver, behind the entries before it."""
    if isinstance(entry, RollArrived):
        return [entry.arrival] if entry.epoch == epoch else []
    if isinstance(entry, RollEnded):
        return [Ended(entry.ingest)] if epoch < epoch_count(cfg, before) else []
    asked = [Taken(entry.releaser, entry.answers[epoch])] if epoch < len(entry.answers) else []
    begins = entry.next == ("Opened",) and epoch == epoch_count(cfg, before)
    return asked + (ends_before(cfg, before) if begins else [])


@remembered
def history_at(cfg, history, epoch):
    """The history of an epoch's receiver."""
    if len(history) == 0:
        return Listed()
    return history_at(cfg, history.before, epoch).having(*entries_on(cfg, epoch, history.before, history.last))


# ---- the answers

def epoch_for(cfg, history, text):
    """The epoch that a datagram goes to: that of its frame's stream, and the first where there is none or it isn't a frame."""
    frame, streams = frame_of(text), [config.setup.stream for config in configs_in(cfg, history)]
    return streams.index(frame.stream) if frame is not None and frame.stream in streams else 0


def answers_in(cfg, history):
    """The answers of the epochs that a take asks: in order, up to the first that gives a packet."""
    answers = []
    for epoch, config in enumerate(configs_in(cfg, history)):
        answers.append(histories.reply_to(config, history_at(cfg, history, epoch)))
        if answers[-1][0] == "Given":
            break
    return answers


def next_judged(configs, text):
    """What a text of a setup comes to, while these epochs are open."""
    try:
        setup = judged(text)
    except Refused as refused:
        return "BadSetup", refused.line, refused.kind
    return ("UsedStream", setup.stream) if setup.stream in [config.setup.stream for config in configs] else ("Opened",)


def next_of(configs, epoch, payload):
    """What a packet of an epoch comes to that was given."""
    text = handover_text(payload)
    if text is None:
        return ("Plain",)
    if epoch + 1 != len(configs):
        return "Old", len(configs) - 1
    return ("EpochsSpent",) if len(configs) == MOST_EPOCHS else next_judged(configs, text)


def roll_entry_of(cfg, history, event):
    """The entry of an event after a history: the event with its answers."""
    if isinstance(event, Arrival):
        epoch = epoch_for(cfg, history, event.bytes)
        return RollArrived(epoch, histories.entry_of(configs_in(cfg, history)[epoch], history_at(cfg, history, epoch), event))
    if isinstance(event, Ended):
        return RollEnded(event.ingest)
    answers = answers_in(cfg, history)
    if answers[-1][0] != "Given":
        return RollTaken(event.releaser, answers, None)
    return RollTaken(event.releaser, answers, next_of(configs_in(cfg, history), len(answers) - 1, answers[-1][-1]))


# ---- what a capture plays

def roll_after_events(cfg, history, events):
    """The history after these events, each with its answers."""
    for event in events:
        history = history.having(roll_entry_of(cfg, history, event))
    return history


def roll_waiting_in(cfg, history):
    """How many released packets wait in all epochs."""
    configs = enumerate(configs_in(cfg, history))
    return sum(histories.waiting_in(config, history_at(cfg, history, epoch)) for epoch, config in configs)


def roll_finished(cfg, history):
    """The history after the end of ingest 0 and takes up to and with the first that is over."""
    ended = roll_after_events(cfg, history, [Ended(0)])
    return roll_after_events(cfg, ended, [Taken(0, None)] * (1 + roll_waiting_in(cfg, history)))


def roll_history_of(cfg, text):
    """The one history of epochs that a file plays."""
    records, fault = outline_of(CAPTURE, text)
    history = roll_after_events(cfg, Listed(), [histories.event_in(record) for _, record in records])
    return roll_finished(cfg, history) if fault is None else history


def roll_gives(entry):
    """A take that gave a packet."""
    return isinstance(entry, RollTaken) and entry.next is not None


def roll_records_of(history):
    """The records of what the takes gave, in order, each behind the number of its epoch."""
    given = [entry.answers for entry in history if roll_gives(entry)]
    return b"".join(marked_text(len(answers) - 1, Record(*answers[-1][1:])) for answers in given)
