"""What is raised where a call isn't done."""
import enum

OK, REFUSED, BAD_NUMBER, NO_MEMORY, WRONG_SLOT, SPENT, EMPTY, OVER = range(8)
KINDS = dict(enumerate(("BadLine", "BadNumber", "BadHex", "NoChain", "TooManyChains", "DelaysNotRising", "IndexPastLast", "LimitPassed",
                        "TooLong", "EqualCommitments"), 1))
KINDS.update(enumerate(("BadLine", "BadHex", "WrongCount", "TooLong"), 16))
KINDS[32] = "WrongSeed"
TEXTS = {1: "setup", 2: "seeds"}


class Error(Exception):
    """A call that wasn't done."""


class Refused(Error):
    """A text is refused: `line` is its first refused line, counted from 1, or 0 for the whole text, and `kind` says why, by its name
    in FORMATS.md; `text` says which one it is."""

    def __init__(self, text: str, line: int, kind: str):
        super().__init__(text, line, kind)
        self.text, self.line, self.kind = text, line, kind

    def __str__(self) -> str:
        return f"{self.text}, line {self.line}: {self.kind}" if self.line else f"{self.text}: {self.kind}"


class BadNumber(Error, ValueError):
    """A number is outside its limits: `name` is that of the parameter, and `least` and `most` are the limits."""

    def __init__(self, name: str, value: int, least: int, most: int):
        super().__init__(name, value, least, most)
        self.name, self.value, self.least, self.most = name, value, least, most

    def __str__(self) -> str:
        return f"{self.name} is {self.value}, and not in {self.least} to {self.most}"


class Cause(enum.IntEnum):
    """Why a sender doesn't accept a message or a disclosure."""
    PAYLOAD_TOO_LONG = 1
    TOO_EARLY = 2
    PAST_LAST = 3
    BACKWARD = 4
    INTERVAL_FULL = 5


_SENTENCES = {
    Cause.PAYLOAD_TOO_LONG: "the payload has {} bytes, more than 1200",
    Cause.TOO_EARLY: "the reading {} is before the start, or in interval 0",
    Cause.PAST_LAST: "the reading is in interval {}, after the last one",
    Cause.BACKWARD: "the last accepted call was of interval {}, which is after that of the reading",
    Cause.INTERVAL_FULL: "the 65536 numbers of interval {} are used",
}


class Unsent(Error):
    """A message or a disclosure isn't accepted, and the sender is as it was: `cause` is the first that applies, and `number` the
    length, the reading or the interval that it is about."""

    def __init__(self, cause: Cause, number: int):
        super().__init__(cause, number)
        self.cause, self.number = cause, number

    def __str__(self) -> str:
        return _SENTENCES[self.cause].format(self.number)


class Closed(Error):
    """The object was closed."""


class Spent(Error):
    """So many calls were made of the object that they can't be counted further."""


def within(name: str, value: int, least: int, most: int) -> int:
    """The number, which has to be within these limits."""
    if not isinstance(value, int):
        raise TypeError(f"{name} is no int")
    if not least <= value <= most:
        raise BadNumber(name, value, least, most)
    return value


def failed(status: int) -> Exception:
    """What is raised for a status of a call that wasn't done."""
    if status == WRONG_SLOT:
        return Closed("it is closed")
    if status == SPENT:
        return Spent("too many calls were made")
    if status == NO_MEMORY:
        return MemoryError("there wasn't enough memory")
    return Error(f"status {status}")
