"""The player of player.c through the package of python/: each function is one of its first words, and answers a `Came`."""
import collections
import struct

# What a way of playing came to: the status, what was printed, and the files that were written.
Came = collections.namedtuple("Came", "status console outputs")
NAMES = ("Malformed", "Foreign", "Misfit", "Future", "BadKey", "Late", "Repeat", "Full", "Kept", "Keys")
CAUSES = {2: "Early", 3: "Over", 4: "Backward", 5: "IntervalFull"}
RECORD, FOLLOWED = struct.Struct(">QIHBH"), struct.Struct(">BI")


class Player:
    """What plays, over the package that is told."""

    def __init__(self, tesla):
        self.tesla = tesla

    def __call__(self, mode, files, words, env):
        """Plays files with words behind them."""
        play = getattr(self, f"play_{mode}")
        try:
            return play(files, *words, **({"env": env} if env else {}))
        except self.tesla.Refused as why:
            return Came(2 if why.text == "setup" else 3, f"refused {why.text} {why.line} {why.kind}\n".encode(), {})

    def play_replay(self, files, lag, capacity, quota):
        """A capture is replayed."""
        given, shown, numbers = [], [], iter(range(1 << 60))

        def take(receiver):
            message = receiver.take()
            said = "Over" if receiver.is_over else "Empty"
            if message is not None:
                size = len(message.payload)
                given.append(RECORD.pack(message.position, message.interval, message.number, message.chain, size) + message.payload)
                said = f"Given {message.position} {message.interval} {message.number} {message.chain} {size}"
            shown.append(f"{next(numbers)} take 0 {said}\n")
            return message is not None

        with self.tesla.Receiver(files["setup"], int(lag), int(capacity), int(quota)) as receiver:
            for reading, datagram in records_of(files["capture"], 0):
                if reading is None:
                    take(receiver)
                    continue
                verdict = receiver.arrive(memoryview(datagram), reading)
                shown.append(f"{next(numbers)} arrival 0 {reading} {answer_of(verdict)} {self.name_of(datagram)}\n")
            receiver.end()
            shown.append(f"{next(numbers)} end 0\n")
            waiting = receiver.waiting
            while take(receiver):
                waiting -= 1
            assert waiting == 0 and receiver.is_over and list(receiver) == []
            return Came(0, lines_of(receiver.report()), {"out": b"".join(given), "shown": "".join(shown).encode()})

    def play_follow(self, files, lag, capacity, quota):
        """A capture is followed."""
        given, shown, kinds = [], [], ("Unpromised", "Queued", "Unqueued")

        def take(record):
            if record is not None:
                given.append(FOLLOWED.pack(record.is_early, record.epoch) + RECORD.pack(
                    record.position, record.interval, record.number, record.chain, len(record.payload)) + record.payload)

        with self.tesla.Follower(files["setup"], int(lag), int(capacity), int(quota)) as follower:
            for reading, datagram in records_of(files["capture"], 0):
                if reading is None:
                    take(follower.take())
                    continue
                verdict = follower.arrive(datagram, reading)
                shown.append(f"{verdict.epoch} {answer_of(verdict)} {kinds[verdict.acceptance]}\n")
            follower.end()
            waiting, rest = follower.waiting, list(follower)
            assert waiting == len(rest) and follower.is_over
            for record in rest:
                take(record)
            report = follower.report()
        said = f"epochs {report.epochs}\n".encode() + lines_of(report.counts)
        said += b"".join(b"%s %d\n" % (it.encode(), getattr(report, it)) for it in ("early", "unqueued", "dropped"))
        return Came(0, said, {"out": b"".join(given), "shown": "".join(shown).encode()})

    def play_send(self, files, env=None):
        """A script is sent."""
        env, frames, place = env or {}, [], 5
        with self.tesla.Sender(files["setup"], files["secret"]) as sender:
            if "BEGIN" in env:
                sender.begin_at(int(env["BEGIN"]))
            for reading, payload in records_of(files["script"], 8):
                try:
                    frame = sender.disclose(reading) if payload is None else sender.message(payload, reading)
                except self.tesla.Unsent as why:
                    said = f"refused script {place} {CAUSES[why.cause]}\n".encode()
                    return Came(3, said, {"out": b"TCAP\1" + b"".join(frames)})
                frames += [b"\1" + struct.pack(">QH", reading, len(frame)) + frame + b"\2"] if frame is not None else []
                place += 9 if payload is None else 11 + len(payload)
                if "AHEAD" in env:
                    sender.make_next()
        return Came(0, b"frames %d\n" % len(frames), {"out": b"TCAP\1" + b"".join(frames)})

    def play_setup(self, files):
        """What a setup says."""
        it = self.tesla.read_setup(files["setup"])
        said = [f"stream {it.stream:016x}", f"version {it.version}", f"tag {it.tag_length}", f"interval {it.interval}", f"last {it.last}",
                f"start {it.start}"]
        said += [f"chain {k} delay {row.delay} index {row.index} key {row.key.hex()}" for k, row in enumerate(it.chains)]
        return Came(0, "".join(f"{line}\n" for line in said).encode(), {})

    def play_make(self, files, version, stream, start, interval, last, tag_length, delays):
        """A setup is made."""
        rows = [int(it) for it in delays.split(",")]
        try:
            made = self.tesla.make_setup(files["secret"], int(stream, 16), int(start), int(interval), int(last), rows, int(version),
                                         int(tag_length))
        except self.tesla.BadNumber:
            return Came(62, b"", {})
        return Came(0, b"chains %d\n" % len(rows), {"made": made})

    def play_frames(self, files):
        """The heads of the frames of a capture."""
        said = [self.head_of(datagram) for reading, datagram in records_of(files["capture"], 0) if reading is not None]
        return Came(0, "".join(f"{line}\n" for line in said).encode(), {})

    def play_lag(self, files, drift):
        """The lag of an exchange."""
        try:
            said = f"lag {self.tesla.lag(files['key'], files['ask'], files['reply'], int(drift))}\n"
        except self.tesla.Refused as why:
            said = "refused " + {"BadAsk": "ask 0 BadAsk", "TooLarge": "TooLarge"}.get(why.kind, f"reply {why.kind}") + "\n"
        return Came(0, said.encode(), {})

    def head_of(self, datagram):
        """The line of a frame."""
        it = self.tesla.read_frame(datagram)
        if it is None:
            return "none"
        if it.is_disclosure:
            return f"disclosure {it.stream:016x} version {it.version} keys {it.keys}"
        return (f"message {it.stream:016x} {it.interval} {it.number} {it.length} version {it.version} tag {it.tag_length}"
                f" keys {it.keys}")

    def name_of(self, datagram):
        """The name of the message that a datagram brings."""
        it = self.tesla.read_frame(datagram)
        return f"{it.interval}/{it.number}" if it is not None and not it.is_disclosure else "-"


def records_of(text, bare):
    """The records of a capture or of a script: a reading and bytes, or those of a record of kind 2, which has so many bytes."""
    at = 5
    while at < len(text):
        size = int.from_bytes(text[at + 9:at + 11], "big")
        if text[at] == 2:
            yield (int.from_bytes(text[at + 1:at + 9], "big"), None) if bare else (None, None)
            at += 1 + bare
        else:
            yield int.from_bytes(text[at + 1:at + 9], "big"), text[at + 11:at + 11 + size]
            at += 11 + size


def answer_of(verdict):
    """An answer to an arrival, as `show` prints it."""
    told = {1: f" {verdict.number}", 3: f" {verdict.number}" if verdict.chains else " none", 4: f" {verdict.chains}", 8: f" {verdict.chains}"}
    return NAMES[verdict.kind] + told.get(verdict.kind, "")


def lines_of(report):
    """The lines of a report."""
    return "".join(f"{name} {value}\n" for name, value in report._asdict().items()).encode()
