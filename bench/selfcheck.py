"""Checks of the model and of the cases, without a program."""
import collections
import contextlib
import struct

from model import commands, epochs, frames
from model.cases import case_of
from model.changes import CHANGES
from model.commands import performed
from model.met import WANTED, met_by
from running import Check, stored

COUNT = 2_000
SEED = "selfcheck"


def stored_runs():
    """The stored runs of words that are a form: the name of each, its words, its inputs, and what is expected."""
    for group in ("early", "handover"):
        for name, line, status, printed, outputs, inputs in stored(group):
            if status != 1:
                made = {it: data for it, data in outputs.items() if data is not None}
                yield f"{group}/{name.split()[-1]}", line.split(), inputs, (status, printed, made)


def forget():
    """Forgets what was worked out, so that a changed model works it out anew."""
    for function in (commands.config_of, commands.history_of, frames.frame_of):
        function.cache_clear()


@contextlib.contextmanager
def changed(module, name, make):
    """A model in which one definition is another one."""
    right = getattr(module, name)
    setattr(module, name, make(right))
    forget()
    try:
        yield
    finally:
        setattr(module, name, right)
        forget()


def answers(case):
    """What the runs of a case come to; an error, in a model that is changed, is an answer too."""
    try:
        return [performed(words, case.files)[:3] for words in case.runs]
    except (ArithmeticError, LookupError, TypeError, ValueError, AttributeError, struct.error, epochs.Refused) as error:
        return repr(error)


def tried(case, met):
    """A case with what its runs come to, which is counted."""
    came = [performed(words, case.files) for words in case.runs]
    for words, it in zip(case.runs, came):
        met.update(met_by(words, it))
    return case, [it[:3] for it in came]


def found_out(expected):
    """The number of the first case that the model, as it is now, answers otherwise; None where there is none."""
    return next((number for number, (case, came) in enumerate(expected) if answers(case) != came), None)


def selfcheck():
    """How many checks passed and how many failed."""
    check, met = Check(None), collections.Counter()
    for name, words, inputs, expected in stored_runs():
        check.compared(f"stored run {name}", performed(words, inputs)[:3], expected)
    expected = [tried(case_of(SEED, number), met) for number in range(COUNT)]
    for name in WANTED:
        check.entered(f"{met[name]:8} {name}", [] if met[name] else [f"it isn't met in {COUNT} cases"])
    for name, *change in CHANGES:
        with changed(*change):
            place = found_out(expected)
        faults = ["no case finds it out"] if place is None else []
        check.entered(f"{'-' if faults else place:>8} is the first case that finds out: {name}", faults)
    return check.passed, check.failed
