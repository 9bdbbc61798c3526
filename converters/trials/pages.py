"""Trials of tesla-trace-to-html: the numbers of its pages are those that are reckoned here of the same histories, by the model's definitions
alone, and a browser shows them and lists the entries of an interval."""
import html.parser
import io
import os
import shutil
import subprocess
import sys
import tempfile
from fractions import Fraction

import browser
import recorded
from model import histories as told
from model.captures import Way, records_drawn
from model.frames import frame_of
from model.listed import Listed
from model.setups import judged, setup_text
from model.streams import Draw, capacity_drawn, lag_drawn, stream_drawn
from model.traces import answer_line, shown_line, tail_text, trace_text
from model.verdicts import VERDICTS

HERE = os.path.dirname(os.path.abspath(__file__))
CONVERTERS = os.path.dirname(HERE)
sys.path.append(CONVERTERS)

import tesla_pictures  # noqa: E402
import tesla_trace  # noqa: E402

FILES = ("tesla-trace-to-html", "tesla_trace.py", "tesla_pictures.py")
NAMES, BINS = ("good", "late", "flood"), 40
CFG = told.Config(recorded.STREAM.setup, recorded.LAG, recorded.CAPACITY, recorded.CAPACITY)
START, LENGTH, LAG = recorded.START, recorded.LENGTH, recorded.LAG
DELAYS = [row.delay for row in recorded.STREAM.setup.rows]
TABLES = ["choices", "margins-table", "keys-told", "gaps", "keys-table", "waits", "held-table", "totals", "named", "verdicts-table", "losses-table"]


# ---- what is expected

def left_of(frame, reading, chain):
    """The time left on a chain."""
    return START + (frame.interval + DELAYS[chain]) * LENGTH - reading - LAG


def ms(value):
    """A time in milliseconds as a page has it."""
    return f"{value / 1000:,.3f}"


class Expected:
    """The numbers of a history."""

    def __init__(self, history):
        self.history, self.cases, self.columns = history, [], {}
        self.keys, self.waits, self.held = [], [[], []], {}
        arrivals, given, now, self.lines = Listed(), 0, None, {}
        for number, entry in enumerate(history):
            if isinstance(entry, told.Arrival):
                now = (entry.reading - START) // LENGTH
                self.mark(now, told.held_of(CFG, arrivals, given))
                before, arrivals = arrivals, arrivals.having(entry)
                self.arrived(now, before, arrivals, entry)
            given += told.gives(entry)
            self.mark(now, told.held_of(CFG, arrivals, given))
            self.lines.setdefault(now, []).append((number, entry))
        self.arrivals = arrivals

    def mark(self, now, held):
        """Notes how many are held in an interval."""
        self.held[now] = max(self.held.get(now, 0), held)

    def arrived(self, now, before, after, entry):
        """Notes an arrival."""
        counts = self.columns.setdefault(now, [0] * 10)
        counts[VERDICTS.index(entry.verdict[0])] += 1
        for row in told.new_keys(CFG, before, entry):
            due = START + (row.index + DELAYS[row.chain]) * LENGTH
            self.keys.append((now, row.chain, told.newest(CFG, before, row.chain), row.index, entry.reading - due, entry.reading))
        for release in told.released(CFG, after)[len(told.released(CFG, before)):]:
            self.waits[release.chain].append(entry.reading - after.items[release.place].reading)
        if entry.verdict[0] in ("Late", "Repeat", "Full", "Kept"):
            frame = frame_of(entry.bytes)
            safe = [chain for chain in (0, 1) if left_of(frame, entry.reading, chain) > 0 and told.newest(CFG, after, chain) < frame.interval]
            self.cases.append((frame, entry.reading, safe, entry.verdict))

    def margins(self):
        """The rows of the histogram."""
        rows = []
        for chain, delay in enumerate(DELAYS):
            width = -(-delay * LENGTH // BINS)
            lefts = [left_of(frame, reading, chain) for frame, reading, safe, _ in self.cases if safe[:1] == [chain]]
            rows += [[f"chain {chain}", at * width, (at + 1) * width, sum(at * width < it <= (at + 1) * width for it in lefts)] for at in range(BINS)]
        lefts = [left_of(frame, reading, 1) for frame, reading, safe, _ in self.cases if not safe]
        rows.append(["late", "", -39 * width, sum(it <= -39 * width for it in lefts)])
        rows += [["late", -at * width, (1 - at) * width, sum(-at * width < it <= (1 - at) * width for it in lefts)] for at in range(39, 0, -1)]
        return [*rows, ["late", 0, "", sum(it > 0 for it in lefts)]]

    def choices(self):
        """How many aren't safe with other delays and lags."""
        rows = []
        for words, times, more in (("as it is", 1, 0), ("half the delays", Fraction(1, 2), 0), ("1.5 times the delays", Fraction(3, 2), 0),
                                   ("twice the delays", 2, 0), *((f"LAG plus {it} ms", 1, it * 1000) for it in (10, 50, 100))):
            counts = [sum(START + frame.interval * LENGTH + times * DELAYS[chain] * LENGTH - reading - LAG - more <= 0
                          for frame, reading, _, _ in self.cases) for chain in (0, 1)]
            rows.append([words, *(f"{it} ({100 * it / len(self.cases):.2f} %)" for it in counts)])
        return rows

    def missing(self):
        """The gaps of keys: what they cost, and where they are. The first key of a chain has none before it."""
        begun, rows = set(), []
        for now, chain, before, index, _, reading in self.keys:
            if chain in begun and index > before + 1:
                rows.append((reading - START - (before + 1 + DELAYS[chain]) * LENGTH, chain, before + 1, index - 1, reading, now))
            begun.add(chain)
        return sorted(rows, reverse=True)

    def gaps(self):
        """The rows of the gaps."""
        return [[f"chain {chain}", first, last, last - first + 1, ms(cost), reading] for cost, chain, first, last, reading, _ in self.missing()]

    def of_columns(self):
        """The rows of keys, held packets and verdicts by interval."""
        keys, held, verdicts = [], [], []
        for now in sorted(self.columns):
            lates = [[late for at, chain, _, _, late, _ in self.keys if (at, chain) == (now, it)] for it in (0, 1)]
            gaps = [sum(last - first + 1 for _, chain, first, last, _, at in self.missing() if (at, chain) == (now, it)) for it in (0, 1)]
            keys.append([now, *(ms(max(it)) if it else "" for it in lates), *gaps])
            held.append([now, self.held[now], self.columns[now][VERDICTS.index("Full")]])
            verdicts.append([now, *self.columns[now]])
        return keys, held, verdicts

    def named(self):
        """What refused frames name: Foreign and BadKey, whose verdicts tell it."""
        counts = {}
        for entry in self.arrivals:
            name, *rest = entry.verdict
            if name in ("Foreign", "BadKey"):
                key = name, f"{rest[0]:016x}" if name == "Foreign" else f"chain {rest[0]}"
                counts[key] = counts.get(key, 0) + 1
        return {(*key, count) for key, count in counts.items()}

    def losses(self):
        """The numbers that came and that didn't, by the packets' intervals."""
        seen, rows = {}, []
        for frame, _, _, _ in self.cases:
            seen.setdefault(frame.interval, set()).add(frame.number)
        names = [it.name for it in told.released(CFG, self.arrivals)]
        for interval in sorted(seen):
            most = max([number for it, number in names if it == interval] or seen[interval])
            came = len([it for it in seen[interval] if it <= most])
            rows.append([interval, came, most + 1 - came])
        return rows

    def listed(self, now):
        """What `show` prints of the entries of an interval, but for the bytes of a packet that was given."""
        return [line_of(number, entry) for number, entry in self.lines[now]]


def line_of(number, entry):
    """The line of an entry in a list: its number, what it is, its reading and interval, its answer, and its packet."""
    if isinstance(entry, told.Arrival):
        answer = f"Foreign {entry.verdict[1]:016x}" if entry.verdict[0] == "Foreign" else answer_line(entry.verdict)
        return [str(number), f"arrival {entry.ingest}", str(entry.reading), str((entry.reading - START) // LENGTH), answer,
                shown_line(entry).split()[-1]]
    if isinstance(entry, told.Ended):
        return [str(number), f"end {entry.ingest}", "", "", "End", "-"]
    name, *rest = entry.reply
    given = name == "Given"
    return [str(number), f"take {entry.releaser}", "", "", f"Given {rest[0]} by chain {rest[3]}" if given else name,
            f"{rest[1]}/{rest[2]}" if given else "-"]


# ---- what a page has

class Tables(html.parser.HTMLParser):
    """The tables of a page, by the names of what is around them, and the texts of named spans."""

    def __init__(self, text):
        super().__init__()
        self.found, self.spans, self.name, self.into = {}, {}, None, None
        self.feed(text)

    def handle_starttag(self, tag, attrs):
        if tag == "details":
            self.name = dict(attrs)["id"]
        elif tag == "span" and "id" in dict(attrs):
            self.into = self.spans[dict(attrs)["id"]] = [""]
        elif tag == "tbody" and self.name:
            self.found[self.name] = []
        elif tag == "tr" and self.name in self.found:
            self.found[self.name].append([])
        elif tag in ("td", "th") and self.found.get(self.name):
            self.into = self.found[self.name][-1]
            self.into.append("")

    def handle_endtag(self, tag):
        if tag in ("table", "span"):
            self.into = None
        if tag == "details":
            self.name = None

    def handle_data(self, data):
        if self.into:
            self.into[-1] += data.rstrip("\n")


def near(found, values, part):
    """Whether a text is a time that this part of the values, in percent, doesn't pass, to a part in 500."""
    want = sorted(values)[-(-len(values) * part // 100) - 1] / 1000
    return abs(float(found.replace(",", "")) - want) <= abs(want) / 500 + 0.001


def faults_of_spread(name, row, values):
    """What is wrong with how many values there are, and with their median, 99th of 100 and most."""
    count, half, high, most = row[1:5]
    if not values:
        return [] if row[1:5] == ["0", "", "", ""] else [f"{name}: {row}"]
    right = count == str(len(values)) and near(half, values, 50) and near(high, values, 99) and most == ms(max(values))
    return [] if right else [f"{name}: {row} of {len(values)} values, {sorted(values)}"[:300]]


def faults_of(want, tables):
    """What is wrong with the tables of a page."""
    keys, held, verdicts = want.of_columns()
    rows = {"choices": want.choices(), "margins-table": want.margins(), "gaps": want.gaps(), "keys-table": keys, "held-table": held,
            "verdicts-table": verdicts, "losses-table": want.losses(), "totals": [[sum(it[1 + at] for it in verdicts) for at in range(10)]]}
    said = [f"not there: {name}" for name in TABLES if name not in tables]
    for name, right in rows.items():
        right, found = [[str(it) for it in row] for row in right], tables.get(name, [])
        said += [f"{name}: {one} and not {other}" for one, other in zip(found, right) if one != other][:3]
        said += [f"{name}: {len(found)} rows and not {len(right)}"] if len(found) != len(right) else []
    if said:
        return said
    for chain in (0, 1):
        lates = [late for _, it, _, _, late, _ in want.keys if it == chain]
        said += faults_of_spread(f"keys of chain {chain}", tables["keys-told"][chain], lates)
        said += faults_of_spread(f"waits of chain {chain}", tables["waits"][chain], want.waits[chain])
    named = {(verdict, name, int(count)) for verdict, name, count in tables["named"]}
    misfits = sum(count for verdict, _, count in named if verdict == "Misfit")
    said += [f"named: {named}"] if {it for it in named if it[0] != "Misfit"} != want.named() else []
    return said + ([] if misfits == rows["totals"][0][2] else [f"{misfits} of Misfit are named"])


def made_by(folder, room, trace, *words, setup=recorded.SETUP):
    """Runs the script of a folder over a trace: its status, what it prints, and the page; None where that isn't made."""
    for name, data in (("traced", trace), ("setup", setup)):
        with open(f"{room}/{name}", "wb") as file:
            file.write(data)
    page = f"{room}/page.html"
    if os.path.exists(page):
        os.remove(page)
    ran = subprocess.run([sys.executable, f"{folder}/tesla-trace-to-html", "traced", "setup", *words], cwd=room, capture_output=True, text=True)
    if not os.path.exists(page):
        return ran.returncode, ran.stdout, None
    with open(page, encoding="utf-8") as file:
        return ran.returncode, ran.stdout, file.read()


def faults_of_page(folder, room, name, want):
    """What is wrong with what the script of a folder makes of a history."""
    status, printed, page = made_by(folder, room, recorded.traces()[name], str(LAG), "page.html", str(recorded.CAPACITY))
    count = sum(1 for _ in want.history)
    if (status, printed) != (0, f"entries {count}\nmargins {len(want.cases)}\n"):
        return [f"status {status}, {printed!r}"]
    return faults_of(want, Tables(page).found)


# ---- in a browser

ROWS = "[...document.querySelectorAll('%s tbody tr')].map(it=>[...it.cells].map(it=>it.textContent.trim()))"
CLICK = """(async()=>{{document.querySelector('#{0} [data-c="{1}"]').dispatchEvent(new MouseEvent('click',{{bubbles:true}}));
for(let k=0;k<200&&document.getElementById('list').dataset.c!='{1}';k++)await new Promise(it=>setTimeout(it,25));return {2}}})()"""
BACK = "getComputedStyle(document.body).backgroundColor"


def faults_in(shown, want):
    """What is wrong with a page that a browser shows."""
    tables = {name: shown.value(ROWS % f"#{name}") for name in TABLES}
    said = faults_of(want, tables)
    first = min(want.columns)
    flooded = max(want.columns, key=lambda it: sum(want.columns[it]))
    for where, now in (("verdicts", flooded), ("waiting", flooded + 1), ("keys-table", first + 2)):
        came, right = shown.value(CLICK.format(where, now - first, ROWS % "#list")), want.listed(now)
        said += [] if came == right else [f"the list of interval {now}: {came} and not {right}"[:800]]
    pictures = shown.value("[...document.querySelectorAll('svg[role=img]')].map(it=>[it.getBBox().width>0,!!it.getAttribute('aria-label')])")
    said += [] if pictures == 5 * [[True, True]] else [f"pictures: {pictures}"]
    said += [] if shown.value("performance.getEntriesByType('resource').length") == 0 else ["it asks for something else"]
    for scheme, media, right in (("light", "screen", 255), ("dark", "screen", 20), ("dark", "print", 255)):
        shown.ask("Emulation.setEmulatedMedia", media=media, features=[{"name": "prefers-color-scheme", "value": scheme}])
        back = shown.value(BACK)
        said += [] if back.startswith(f"rgb({right},") else [f"in {scheme} and {media} the background is {back}"]
    shown.ask("Emulation.setEmulatedMedia", media="", features=[])
    return said


def of_browser(check, wants):
    """A browser shows each page."""
    if not browser.program():
        print("skipped what a browser shows: there is no Chromium, of the Debian package chromium")
        return
    print(f"tried in a browser: {browser.program()}")
    with browser.Browser() as shown:
        for name in NAMES:
            made_by(CONVERTERS, check.room, recorded.traces()[name], str(LAG), "page.html", str(recorded.CAPACITY))
            shown.open(f"{check.room}/page.html")
            check.entered(f"a page in a browser: {name}", faults_in(shown, wants[name]))


# ---- scripts that are wrong

# A file, a part of it, and what stands in its place: a script that is so has to be refused by the trials of at least one page.
WRONG = {
    "a time left that is one interval longer": ("tesla_trace.py", "setup.start + interval * setup.length - reading",
                                                "setup.start + (interval + 1) * setup.length - reading"),
    "a time left that is one interval shorter": ("tesla_trace.py", "setup.start + interval * setup.length - reading",
                                                 "setup.start + (interval - 1) * setup.length - reading"),
    "a picture alone whose times left are one interval shorter": ("tesla_trace.py", "margins.add(first, left)",
                                                                  "margins.add(first, left - self.setup.length)"),
    "a histogram without its last bin": ("tesla_trace.py", "bins = [(at * width, (at + 1) * width) for at in range(BINS)]",
                                         "bins = [(at * width, (at + 1) * width) for at in range(BINS - 1)]"),
    "a histogram whose last bin counts nothing": ("tesla_trace.py", "for low, high in bins]\n\n    def late",
                                                  "for low, high in bins[:-1]] + [(*bins[-1], 0)]\n\n    def late"),
    "late ones without the bin that is next to 0": ("tesla_trace.py", "for at in reversed(range(BINS))]", "for at in reversed(range(1, BINS))]"),
    "a margin of 0 that is safe": ("tesla_trace.py", "if left + span > 0:", "if left + span >= 0:"),
    "keys that are due an interval late": ("tesla_trace.py", "late, gap = reading - start - index * length,",
                                           "late, gap = reading - start - (index + 1) * length,"),
    "a gap that is one key shorter": ("tesla_trace.py", "index - self.newest[chain] - 1\n", "max(0, index - self.newest[chain] - 2)\n"),
    "packets that never leave": ("tesla_trace.py", "self.count -= interval <= self.floor", "pass"),
    "waits that count from the reading before": ("tesla_trace.py", "self.waits[chain].add(reading - packet.reading)",
                                                 "self.waits[chain].add(reading - packet.reading + 1_000)"),
    "losses that count what nobody released": ("tesla_trace.py", "found.most if found.most >= 0 else", "-1 if False else"),
    "a verdict in the place of the next": ("tesla_pictures.py", "*it.counts[1:11]) for place, first, it in columns]",
                                           "*it.counts[0:10]) for place, first, it in columns]"),
}


def exact():
    """A history with a packet whose time left is 0, or one more, on each chain: it is late there, or is not. And with one whose time left is
    the greatest that there can be."""
    found = [(START + 2 * LENGTH - LAG, recorded.frame_text(recorded.message_frame(recorded.STREAM, 2, 0, b"edge")))]
    for chain, interval in ((0, 3), (1, 9)):
        for more in (0, 1):
            frame = recorded.message_frame(recorded.STREAM, interval, more, b"edge")
            bare = recorded.frame_text(told.frames.without_keys(frame))
            found.append((START + (interval + DELAYS[chain]) * LENGTH - LAG - more, bare))
    return recorded.history_of(found)


def of_wrong(check, wants):
    """Scripts that are wrong are refused."""
    for name, (file, old, new) in WRONG.items():
        with tempfile.TemporaryDirectory() as folder:
            for it in FILES:
                shutil.copy(f"{CONVERTERS}/{it}", folder)
            with open(f"{folder}/{file}", encoding="utf-8") as source:
                text = source.read()
            if text.count(old) != 1:
                check.entered(f"a wrong script: {name}", [f"{old!r} stands {text.count(old)} times in {file}"])
                continue
            with open(f"{folder}/{file}", "w", encoding="utf-8") as source:
                source.write(text.replace(old, new))
            refused = next((it for it in wants if faults_of_page(folder, check.room, it, wants[it])), None)
        check.entered(f"a wrong script: {name}", [] if refused else ["no page of it is refused"])


# ---- drawn histories

def faults_of_drawn(number):
    """What is wrong with what is counted of a drawn history, and of a tail of it: no verdict disagrees, and of the whole as many packets are
    held at the end and were released by each chain as the model says."""
    draw = Draw(number)
    stream = stream_drawn(draw)
    lag, (capacity, _, quota) = lag_drawn(draw, stream.setup.times), capacity_drawn(draw).partition("/")
    cfg = told.Config(stream.setup, lag, int(capacity), int(quota or capacity))
    history = told.played(cfg, records_drawn(draw, Way(draw, stream, lag)), True)
    entries, arrivals = list(history), told.arrivals_in(cfg, history)
    chains = [it.chain for it in told.released(cfg, arrivals)]
    want = told.held_of(cfg, arrivals, told.given_in(cfg, history)), [chains.count(it) for it in range(len(stream.setup.rows))]
    for first in (0, len(entries) // 2):
        file = io.BytesIO(tail_text(first, entries[first:]) if first else trace_text(entries))
        number, is_tail, place = tesla_trace.head_of(file)
        story = tesla_trace.Story(tesla_trace.Setup(setup_text(stream.setup)), lag, is_tail, number)
        try:
            for entry in tesla_trace.entries_of(file, place):
                story.entry(*entry)
            story.end()
            tesla_pictures.page_of(story)
        except tesla_trace.Disagrees:
            yield f"draw {number}, from entry {first} on: entry {story.entries} disagrees"
            return
        came = story.held.count, [it.count for it in story.held.waits]
        if not first and came != want:
            yield f"draw {number}: {came} and not {want}"


def of_drawn(check):
    """Drawn histories of drawn streams."""
    check.entered("80 drawn histories", [line for number in range(80) for line in faults_of_drawn(number)])


# ---- all

REFUSED = {
    "an empty trace": (b"", "0 BadHead"), "a capture": (b"TCAP\1", "0 BadHead"), "no links": (b"TTRC\1\0", "0 BadHead"),
    "33 links": (b"TTRC\1\x21", "0 BadHead"), "a kind 04": (b"TTRC\1\1\4", "6 BadKind"), "a cut take": (b"TTRC\1\1\2\0", "6 Truncated"),
    "a verdict 0": (b"TTRC\1\1\1\0" + bytes(10) + b"\0", "6 BadCode"), "a verdict 11": (b"TTRC\1\1\1\0" + bytes(10) + b"\x0b", "6 BadCode"),
    "a datagram of 2,049 bytes": (b"TTRC\1\1\1\0" + bytes(8) + b"\x08\1", "6 TooLong"),
    "a payload of 1,201 bytes": (b"TTRC\1\1\2\0\2" + bytes(15) + b"\x04\xb1", "6 TooLong"), "an answer 3": (b"TTRC\1\1\2\0\3", "6 BadCode"),
    "a cut tail": (b"TTAL\1" + bytes(7), "0 BadHead"), "an end that is cut": (b"TTRC\1\1\3\0\3", "8 Truncated"),
}


def of_words(check):
    """Faulty command lines, files that can't be opened, and traces that are refused or disagree."""
    good = recorded.traces()["good"]
    for words in ((), ("0",), ("00", "page.html"), ("-0", "page.html"), ("x", "page.html"), ("1", "page.html", "0"), ("1", "page.html", "1", "2")):
        check.compared(f"a page: words {words}", made_by(CONVERTERS, check.room, good, *words), (1, "", None))
    for name, (data, why) in REFUSED.items():
        check.compared(f"a page of {name}", made_by(CONVERTERS, check.room, data, "0", "page.html"), (3, f"refused trace {why}\n", None))
    check.compared("a page of no setup", made_by(CONVERTERS, check.room, good, "0", "page.html", setup=recorded.SETUP[:-1]), (2, "refused setup\n", None))
    check.compared("a page over its trace", made_by(CONVERTERS, check.room, good, str(LAG), "traced"), (7, "", None))
    check.compared("a page on a full disk", made_by(CONVERTERS, check.room, good, str(LAG), "/dev/full"), (7, "", None))
    # With another lag the first packet whose time left changes sign disagrees.
    for name, lag in (("a lag that is larger by three intervals", LAG + 3 * LENGTH), ("a lag that is smaller by three", LAG - 3 * LENGTH)):
        status, printed, page = made_by(CONVERTERS, check.room, good, str(lag), "page.html")
        check.compared(f"a page with {name}", (status, printed.split()[0], page), (8, "disagrees", None))
    check.compared("a page of an empty tail", made_by(CONVERTERS, check.room, b"TTAL\1" + bytes(8), "0", "page.html")[:2],
                   (0, "entries 0\nmargins 0\n"))


def of_tails(check):
    """A tail says what it doesn't know."""
    for name in NAMES:
        status, printed, page = made_by(CONVERTERS, check.room, recorded.traces()[f"{name}, its tail"], str(LAG), "page.html")
        count = len(list(recorded.histories()[name]))
        check.compared(f"the page of a tail: {name}", (status, printed.split()[1], "unknown" in Tables(page or "").spans, "This is a tail" in (page or "")),
                       (0, str(count - count // 3), True, True))


def of_pages(check):
    """All trials of pages."""
    assert judged(recorded.SETUP) == recorded.STREAM.setup
    wants = {name: Expected(history) for name, history in recorded.histories().items()}
    edge = Expected(exact())
    recorded.extra["edge"] = edge.history
    wants["edge"] = edge
    for name, want in wants.items():
        check.entered(f"a page: {name}", faults_of_page(CONVERTERS, check.room, name, want))
    of_tails(check)
    of_words(check)
    of_drawn(check)
    of_browser(check, wants)
    of_wrong(check, wants)
