"""Reads a trace or a tail, and counts what the pictures of tesla-trace-to-html show."""
import bisect
import hmac
import re
import struct

VERDICTS = ["Malformed", "Foreign", "Misfit", "Future", "BadKey", "Late", "Repeat", "Full", "Kept", "Keys"]
ANSWERS = ["End", *VERDICTS, "Empty", "Over", "Given"]
MALFORMED, FOREIGN, MISFIT, FUTURE, BADKEY, LATE, REPEAT, FULL, KEPT, KEYS = range(1, 11)
GIVEN, NOTHING = 13, 2 ** 64 - 1
# The columns of a picture over time at most, the bins of a histogram, the rows that are kept, and the bytes of their text.
COLUMNS, BINS, ROWS, LISTED = 480, 40, 1_200_000, 2_250_000
# Names that are told apart, and gaps that are listed.
NAMES, GAPS = 1_000, 40
PIECE, LONGEST = 1 << 20, 4_096
# A row of the lists: the answer, the link or the sink, the reading, interval and number, what the answer tells, and the entry.
ROW, READING_AT = struct.Struct(">BBQIHQI"), 2
# Where the numbers hang on a choice of delays or LAG, these are the choices.
CHOICES = ["as it is", "half the delays", "1.5 times the delays", "twice the delays", "LAG plus 10 ms", "LAG plus 50 ms", "LAG plus 100 ms"]


class Refused(Exception):
    """What is no setup or no trace: what is printed, and the status."""


class Disagrees(Exception):
    """An entry whose verdict isn't that of the time left."""


# ---- what is read

class Setup:
    """A setup: its stream, version, times, the size of a tag, and of each chain the delay and the index that is committed to."""

    FORM = re.compile(rb"tesla ([12])\nstream ([0-9a-f]{16})\nstart (\d{1,20})\ninterval (\d{4,10})\nlast (\d{1,7})\n"
                      rb"(?:tag (\d\d)\n)?((?:chain \d{1,4} \d{1,7} [0-9a-f]{64}\n){1,8})")

    def __init__(self, text):
        found = self.FORM.fullmatch(text)
        if not found or (found[1] == b"2") != bool(found[6]):
            raise Refused("refused setup", 2)
        self.name = found[2].decode()
        self.version, self.start, self.length, self.last = (int(found[at]) for at in (1, 3, 4, 5))
        self.size = int(found[6] or 16)
        rows = [line.split() for line in found[7].splitlines()]
        self.delays, self.committed = ([int(row[at]) for row in rows] for at in (1, 2))
        self.stream = int(self.name, 16)


def answer_in(data, at):
    """The answer that stands behind a datagram: its number, what it tells, and the place behind it."""
    code = data[at]
    if not 1 <= code <= 10 or code == FUTURE and data[at + 1] > 1:
        raise Refused("BadCode")
    if code == FOREIGN:
        return code, struct.unpack_from(">Q", data, at + 1)[0], at + 9
    if code == FUTURE and data[at + 1]:
        return code, struct.unpack_from(">Q", data, at + 2)[0], at + 10
    if code == FUTURE:
        return code, NOTHING, at + 2
    return (code, data[at + 1], at + 2) if code in (KEPT, BADKEY) else (code, 0, at + 1)


def arrival_in(data, at, fields=struct.Struct(">BQH").unpack_from):
    """An arrival: its answer, its link, its reading, its datagram, what the answer tells, and the place behind it."""
    ingest, reading, size = fields(data, at + 1)
    if size > 2_048:
        raise Refused("TooLong")
    behind = at + 12 + size
    code = data[behind]
    if code == KEPT:
        return code, ingest, reading, data[at + 12:behind], data[behind + 1], behind + 2
    code, told, end = answer_in(data, behind)
    return code, ingest, reading, data[at + 12:behind], told, end


def other_in(data, at):
    """A take or an end, in the same form; of a packet that was given, its name stands in the place of the datagram, and what is told is its
    position, with the chain above that."""
    if data[at] == 3:
        return 0, data[at + 1], 0, b"", 0, at + 2
    if data[at] != 2:
        raise Refused("BadKind")
    code = data[at + 2]
    if code > 2:
        raise Refused("BadCode")
    if code < 2:
        return 11 + code, data[at + 1], 0, b"", 0, at + 3
    position, interval, number, chain, size = struct.unpack_from(">QIHBH", data, at + 3)
    if size > 1_200:
        raise Refused("TooLong")
    data[at + 20 + size - 1]
    return GIVEN, data[at + 1], 0, (interval, number), chain << 56 | position & (1 << 56) - 1, at + 20 + size


def entries_of(file, place):
    """The entries of a file from a place on."""
    data, at, ended = b"", 0, False
    while True:
        if len(data) - at < LONGEST and not ended:
            more = file.read(PIECE)
            data, place, at, ended = data[at:] + more, place + at, 0, not more
            continue
        if at == len(data):
            return
        try:
            *entry, at = (arrival_in if data[at] == 1 else other_in)(data, at)
        except (struct.error, IndexError):
            raise Refused(f"refused trace {place + at} Truncated", 3) from None
        except Refused as kind:
            raise Refused(f"refused trace {place + at} {kind}", 3) from None
        yield entry


def head_of(file):
    """The number of the first entry of a trace, 0, or of a tail; whether it is a tail; and the place of that entry."""
    head = file.read(6)
    if head[:5] == b"TTRC\1" and len(head) == 6 and 1 <= head[5] <= 32:
        return 0, False, 6
    head += file.read(7) if head[:5] == b"TTAL\1" else b""
    if len(head) != 13:
        raise Refused("refused trace 0 BadHead", 3)
    return struct.unpack(">Q", head[5:])[0], True, 13


# ---- what is counted

class Spread:
    """How values are spread: of each the first ten bits count, so a part of them is known to 0.2 percent; the most is exact."""

    def __init__(self):
        self.cells, self.count, self.most = {}, 0, None

    def add(self, value):
        """Counts a value."""
        drop = max(0, value.bit_length() - 10)
        cell = value >> drop << drop
        self.cells[cell] = self.cells.get(cell, 0) + 1
        self.count += 1
        self.most = value if self.most is None else max(self.most, value)

    def at(self, part):
        """The value that this part of all, in percent, doesn't pass; None where there is none."""
        left = -(-self.count * part // 100)
        for cell in sorted(self.cells):
            left -= self.cells[cell]
            if left <= 0:
                return cell
        return None


class Column:
    """What is counted of an interval, or of some that stand side by side: answers, the packets held at most, by chain how late keys came
    at most and how many were missing, and the rows of its list."""

    def __init__(self, chains):
        self.counts, self.held, self.rows, self.total = [0] * 14, 0, bytearray(), 0
        self.late, self.missing = [None] * chains, [0] * chains

    def join(self, other):
        """Takes what was counted of the intervals behind."""
        self.counts = [one + more for one, more in zip(self.counts, other.counts)]
        self.missing = [one + more for one, more in zip(self.missing, other.missing)]
        self.late = [max((it for it in pair if it is not None), default=None) for pair in zip(self.late, other.late)]
        self.held, self.total = max(self.held, other.held), self.total + other.total
        self.rows += other.rows


class Lost:
    """The packets of an interval, or of some, that came, and that didn't though later ones did."""

    def __init__(self):
        self.came = self.lost = 0

    def join(self, other):
        """Takes what was counted of the intervals behind."""
        self.came, self.lost = self.came + other.came, self.lost + other.lost


class Columns:
    """The columns of a picture over time: one for each interval, and where these are too many one for 2, 4, 8 and so on."""

    def __init__(self, make):
        self.make, self.width, self.found, self.low, self.high = make, 1, {}, None, None

    def at(self, interval):
        """The column of an interval."""
        while True:
            key = interval // self.width
            if key in self.found:
                return self.found[key]
            low, high = (key, key) if self.low is None else (min(key, self.low), max(key, self.high))
            if high - low < COLUMNS:
                self.low, self.high = low, high
                self.found[key] = self.make()
                return self.found[key]
            self.widen()

    def widen(self):
        """Joins each two columns."""
        found, self.found, self.width = self.found, {}, 2 * self.width
        for key in sorted(found):
            if key // 2 in self.found:
                self.found[key // 2].join(found[key])
            else:
                self.found[key // 2] = found[key]
        self.low, self.high = self.low // 2, self.high // 2

    def listed(self):
        """The columns that hold something: the place in the picture, the first interval, and what was counted."""
        return [(key - self.low, key * self.width, self.found[key]) for key in sorted(self.found)]

    def count(self):
        """How many places a picture has."""
        return 0 if self.low is None else self.high - self.low + 1

    def named(self, first):
        """The intervals of a column."""
        return f"{first}" if self.width == 1 else f"{first} to {first + self.width - 1}"


class Margins:
    """The times left. All hang on one number, the start of the packet's interval less the reading and LAG, which is at most 0: the time
    left on a chain is that and the chain's delay. It is counted between edges, by the first safe chain or as late."""

    def __init__(self, setup):
        self.spans = [delay * setup.length for delay in setup.delays]
        self.widths = [-(-span // BINS) for span in self.spans]
        edges = {0} | {at * width - span for span, width in zip(self.spans, self.widths) for at in range(BINS + 1)}
        edges |= {-self.spans[-1] - at * self.widths[-1] for at in range(BINS)}
        edges |= {self.threshold(choice, span) for choice in range(len(CHOICES)) for span in self.spans}
        self.edges = sorted(edges)
        self.cells = [[0] * (len(self.edges) + 1) for _ in range(len(self.spans) + 1)]
        self.count = self.by_key = self.unknown = 0

    @staticmethod
    def threshold(choice, span):
        """Up to which number the chain of this delay isn't safe, with a choice."""
        return [-span, -span // 2, -3 * span // 2, -2 * span, 10_000 - span, 50_000 - span, 100_000 - span][choice]

    def add(self, which, number):
        """Counts an arrival that is safe on that chain first, or late, which stands behind the chains."""
        self.cells[which][bisect.bisect_left(self.edges, number)] += 1
        self.count += 1

    def between(self, which, low, high):
        """How many are above the one edge, if there is one, and not above the other."""
        first = 0 if low is None else bisect.bisect_left(self.edges, low) + 1
        last = len(self.edges) + 1 if high is None else bisect.bisect_left(self.edges, high) + 1
        return sum(self.cells[which][first:last])

    def histogram(self, chain):
        """The bins of a chain: above which and up to which time left, in microseconds, how many packets were safe on it first."""
        span, width = self.spans[chain], self.widths[chain]
        bins = [(at * width, (at + 1) * width) for at in range(BINS)]
        return [(low, high, self.between(chain, low - span, high - span)) for low, high in bins]

    def late_histogram(self):
        """The bins of the late ones, by the slowest chain: the lowest and the highest have no end."""
        which, span, width = len(self.spans), self.spans[-1], self.widths[-1]
        bins = [(-(at + 1) * width if at + 1 < BINS else None, -at * width) for at in reversed(range(BINS))] + [(0, None)]
        return [(low, high, self.between(which, None if low is None else low - span, None if high is None else high - span))
                for low, high in bins]

    def unsafe(self, choice, chain):
        """How many wouldn't be safe on a chain by the clock, with a choice."""
        high = self.threshold(choice, self.spans[chain])
        return sum(self.between(which, None, high) for which in range(len(self.cells)))


class Packet:
    """A packet that is held: its place among the entries, the chains that may prove it yet, its number and reading, its datagram, and
    whether it was given."""

    __slots__ = ("place", "chains", "number", "reading", "datagram", "is_given", "is_proved")

    def __init__(self, place, chains, number, reading, datagram):
        self.place, self.chains, self.number, self.reading, self.datagram = place, chains, number, reading, datagram
        self.is_given = self.is_proved = False


class Held:
    """The packets that are held, as the receiver holds them: which are proved by which keys, when they are released, and when their
    places are free."""

    def __init__(self, setup):
        self.setup, self.count, self.by_interval, self.released, self.names = setup, 0, {}, {}, {}
        self.floor, self.waits = min(setup.committed), [Spread() for _ in setup.delays]
        self.head = struct.Struct(">QBIH")

    def keep(self, interval, packet):
        """Holds a packet."""
        self.by_interval.setdefault(interval, []).append(packet)
        self.count += 1

    def is_proof(self, mac, chain, interval, packet):
        """Whether the tag of a packet for a chain is right under the MAC key of its interval."""
        data = packet.datagram
        end = 22 + (data[20] << 8 | data[21])
        at, size = end + self.setup.version, self.setup.size
        for _ in range(chain):
            at += size + 33 if data[at + size] else size + 1
        text = self.head.pack(self.setup.stream, chain, interval, packet.number) + data[22:end]
        return hmac.digest(mac, text, "sha256")[:size] == data[at:at + size]

    def reach(self, chain, before, index, key):
        """Tries the packets that a new key of a chain reaches: those that it proves, each with interval and chain."""
        near = index - before <= len(self.by_interval)
        span = range(index, before, -1) if near else sorted((it for it in self.by_interval if before < it <= index), reverse=True)
        proved, at = [], index
        for interval in span:
            if interval not in self.by_interval:
                continue
            for at in range(at, interval, -1):
                key = hmac.digest(key, b"\0", "sha256")
            at, mac = interval, hmac.digest(key, b"\1", "sha256")
            for packet in self.by_interval[interval]:
                if packet.chains >> chain & 1 and not packet.is_proved:
                    packet.is_proved = self.is_proof(mac, chain, interval, packet)
                    packet.chains &= ~(1 << chain)
                    proved += [(interval, packet, chain)] if packet.is_proved else []
                    self.count -= not packet.is_proved and not packet.chains
        return proved

    def release(self, proved, reading):
        """Releases what an arrival proved, in order of arrival, of each name the first."""
        for interval, packet, chain in sorted(proved, key=lambda it: it[1].place):
            names = self.names.setdefault(interval, set())
            if packet.number in names:
                self.count -= 1
                continue
            names.add(packet.number)
            self.released[interval << 16 | packet.number] = packet
            self.waits[chain].add(reading - packet.reading)

    def settle(self, floor):
        """All chains have passed the intervals up to that one: the places of what was given are free."""
        if floor > self.floor:
            for interval in [it for it in self.by_interval if it <= floor]:
                self.count -= sum(it.is_given for it in self.by_interval.pop(interval))
                self.names.pop(interval, None)
            self.floor = floor

    def give(self, interval, number):
        """A packet was given; of a tail it may be one that isn't known."""
        packet = self.released.pop(interval << 16 | number, None)
        if packet is not None:
            packet.is_given = True
            self.count -= interval <= self.floor


class Arrived:
    """Which numbers of an interval came, and the greatest of all and of those that were released."""

    __slots__ = ("seen", "most")

    def __init__(self):
        self.seen, self.most = 0, -1


class Story:
    """All that is counted of a trace."""

    def __init__(self, setup, lag, is_tail, number):
        self.setup, self.lag, self.is_tail, self.number, self.entries = setup, lag, is_tail, number, 0
        chains = len(setup.delays)
        self.columns, self.losses = Columns(lambda: Column(chains)), Columns(Lost)
        self.margins, self.held = Margins(setup), Held(setup)
        self.newest, self.begun = list(setup.committed), [False] * chains
        self.lateness, self.gaps, self.gap_counts = [Spread() for _ in range(chains)], [], [[0, 0] for _ in range(chains)]
        self.named = {FOREIGN: {}, MISFIT: {}, BADKEY: {}}
        self.open, self.top, self.now = {}, 0, None
        # (what stands before the first arrival is counted with that)
        self.column = Column(chains)
        self.first = self.last = None
        self.rows, self.quota = 0, ROWS

    def entry(self, code, who, reading, carried, told):
        """Counts an entry."""
        interval = number = 0
        if code == GIVEN:
            interval, number = carried
            self.held.give(interval, number)
        elif 0 < code < 11:
            self.move(reading)
            if code != MALFORMED and carried[5] == 1:
                interval, number = carried[14] << 24 | carried[15] << 16 | carried[16] << 8 | carried[17], carried[18] << 8 | carried[19]
            if LATE <= code <= KEPT:
                self.packet(code, reading, carried, told, interval, number)
            elif code == KEYS:
                self.take([struct.unpack_from(">BI", carried, at) + (carried[at + 5:at + 37],) for at in range(15, len(carried), 37)], reading)
            elif code in self.named:
                self.name(code, carried, told, interval)
        column = self.column
        column.counts[code] += 1
        column.total += 1
        if column.total <= self.quota:
            column.rows += ROW.pack(code, who, reading, interval, number, told, self.entries & 0xffffffff)
            self.rows += 1
            if self.rows > ROWS:
                self.thin()
        self.entries += 1

    def end(self):
        """Counts what waits for that."""
        self.close(self.top + 1)
        if self.now is None and self.column.total:
            self.columns.at(0).join(self.column)

    def move(self, reading):
        """Goes to the column of a reading."""
        self.first = reading if self.first is None else self.first
        self.last = reading
        now = (reading - self.setup.start) // self.setup.length
        if now != self.now:
            before, self.column = self.column, self.columns.at(now)
            if self.now is None:
                self.column.join(before)
            self.now = now
            self.column.held = max(self.column.held, self.held.count)

    def thin(self):
        """Leaves fewer rows in each list."""
        columns = list(self.columns.found.values())
        while self.rows > ROWS // 2:
            self.quota = min(self.quota, max(len(it.rows) // ROW.size for it in columns)) // 2
            for column in columns:
                del column.rows[self.quota * ROW.size:]
            self.rows = sum(len(it.rows) for it in columns) // ROW.size

    # Packets and keys.

    def packet(self, code, reading, datagram, told, interval, number):
        """Takes the keys of a packet that came to the test of its chains, and then reckons its times left."""
        setup, newest = self.setup, self.newest
        at, size = 22 + (datagram[20] << 8 | datagram[21]) + setup.version, setup.size
        keys = []
        for chain, delay in enumerate(setup.delays):
            at += size + 1
            if datagram[at - 1]:
                if interval - delay > newest[chain]:
                    keys.append((chain, interval - delay, datagram[at:at + 32]))
                at += 32
        if at != len(datagram):
            raise Disagrees
        if keys:
            self.take(keys, reading)
        self.reckon(code, setup.start + interval * setup.length - reading - self.lag, told, interval)
        self.came(interval, number)
        if code == KEPT:
            self.held.keep(interval, Packet(self.entries, told, number, reading, datagram))
            self.column.held = max(self.column.held, self.held.count)

    def reckon(self, code, left, told, interval):
        """Counts an arrival by its times left, and compares them with its verdict."""
        margins, by_clock, safe, first = self.margins, 0, 0, None
        for chain, span in enumerate(margins.spans):
            if left + span > 0:
                by_clock |= 1 << chain
                if self.newest[chain] < interval:
                    safe |= 1 << chain
                    first = chain if first is None else first
        if left > 0 or (not safe) > (code == LATE) or code == KEPT and told & ~safe:
            raise Disagrees
        if code == LATE and safe or code == KEPT and told != safe:
            if not self.is_tail:
                raise Disagrees
            margins.unknown += 1
        if code == LATE:
            margins.by_key += by_clock != 0
            first = len(margins.spans)
        elif code == KEPT:
            first = (told & -told).bit_length() - 1
        margins.add(first, left)

    def take(self, keys, reading):
        """Takes the keys of a frame, of which those that are new count."""
        proved = []
        for chain, index, key in keys:
            before = self.newest[chain]
            if index > before:
                self.new_key(chain, index, reading)
                proved += self.held.reach(chain, before, index, key)
                self.newest[chain] = index
        if proved:
            for interval, packet, _ in proved:
                found = self.open.get(interval)
                if found:
                    found.most = max(found.most, packet.number)
            self.held.release(proved, reading)
        self.held.settle(min(self.newest))

    def new_key(self, chain, index, reading):
        """Counts a new key, and the gap before it. The first one that comes isn't behind a gap, and of a tail it may have come before."""
        start, length = self.setup.start + self.setup.delays[chain] * self.setup.length, self.setup.length
        late, gap = reading - start - index * length, index - self.newest[chain] - 1
        if self.begun[chain] or not self.is_tail:
            self.lateness[chain].add(late)
            before = self.column.late[chain]
            self.column.late[chain] = late if before is None else max(before, late)
        if self.begun[chain] and gap:
            self.column.missing[chain] += gap
            self.gap_counts[chain][0] += 1
            self.gap_counts[chain][1] += gap
            self.gaps.append((reading - start - (index - gap) * length, chain, index - gap, index - 1, reading))
            if len(self.gaps) > 4 * GAPS:
                self.gaps = sorted(self.gaps, reverse=True)[:GAPS]
        self.begun[chain] = True

    # What came, and what is named.

    def came(self, interval, number):
        """Notes the number of a packet. Intervals that are long past are counted, and closed."""
        found = self.open.get(interval)
        if found is None:
            if interval + 2 * self.setup.delays[-1] + 64 < self.top:
                return
            found = self.open[interval] = Arrived()
            if interval > self.top:
                self.top = interval
                self.close(interval - 2 * self.setup.delays[-1] - 64)
        found.seen |= 1 << number

    def close(self, below):
        """Counts what was lost of the intervals below one."""
        if len(self.open) > 2 * self.setup.delays[-1] + 128 or below > self.top:
            for interval in sorted(it for it in self.open if it < below):
                found, column = self.open.pop(interval), self.losses.at(interval)
                top = found.most if found.most >= 0 else found.seen.bit_length() - 1
                came = bin(found.seen & (2 << top) - 1).count("1")
                column.came, column.lost = column.came + came, column.lost + top + 1 - came

    def name(self, code, datagram, told, interval):
        """Counts what a refused frame names."""
        name = f"{told:016x}" if code == FOREIGN else f"chain {told}" if code == BADKEY else self.misfit(datagram, interval)
        names = self.named[code]
        name = name if name in names or len(names) < NAMES else "others"
        names[name] = names.get(name, 0) + 1

    def misfit(self, datagram, interval):
        """What of a frame doesn't fit the setup first."""
        setup, chains = self.setup, len(self.setup.delays)
        if datagram[4] != setup.version:
            return f"version {datagram[4]}"
        if datagram[5] == 2:
            rows = [struct.unpack_from(">BI", datagram, at) for at in range(15, len(datagram), 37)]
            return next((f"chain {chain}" for chain, _ in rows if chain >= chains), "a key beyond the last interval")
        if not 0 < interval <= setup.last:
            return "interval 0" if interval == 0 else "an interval beyond the last"
        at = 22 + (datagram[20] << 8 | datagram[21])
        if datagram[at] != chains:
            return f"{datagram[at]} chains"
        if setup.version == 2 and datagram[at + 1] != setup.size:
            return f"tags of {datagram[at + 1]} bytes"
        return "a key before the delay"
