"""Makes the page of tesla-trace-to-html of what was counted: pictures in SVG, a table behind each, and the lists of entries."""
import array
import base64
import datetime
import html
import json
import zlib

from tesla_trace import (
    ANSWERS, BADKEY, BINS, CHOICES, COLUMNS, FOREIGN, FUTURE, GAPS, KEPT, KEYS, LATE, LISTED, MALFORMED, MISFIT, READING_AT, ROW, ROWS, VERDICTS)

WIDE, LEFT, HIGH = 960, 70, 170
# From below: what a healthy stream has, and then the others.
STACKED = [KEPT, KEYS, *range(LATE, KEPT), *range(MALFORMED, LATE)]
HEADS = {
    "margins": ("Time left", "Of each packet that came to the test of its chains, the time until the key of the first safe chain might have "
                             "been out; of a late one, by how much it was late for the slowest chain.",
                "A bad one has bars that stand near 0, or in the row of the late: choose longer delays or intervals, or a smaller LAG where "
                "the clocks allow it."),
    "keys": ("Keys", "How long behind the moment at which it was due the first frame with a key came, at most, and where keys were missing.",
             "A bad one has points far above 0, or marks of missing keys, for as long as which packets wait: look at the path and at the "
             "sender, and let a feed tell its keys in each interval."),
    "waiting": ("Waiting", "How long packets waited from their arrival to their release, and how many were held.",
                "A bad one has waits much longer than the delay, or places that fill up: look at the keys above and at the sinks, and choose a "
                "larger CAPACITY or a shorter delay."),
    "verdicts": ("Verdicts", "How many arrivals had each verdict.",
                 "A bad one has another colour than those of Kept and Keys, and a flood stands above all else: find who sends it and put a "
                 "filter before the receiver, or a quota where packets are forged."),
    "losses": ("Losses", "How many packets of an interval came, and how many didn't though later ones of it did.",
               "A bad one has columns of lost packets: look at what the network and the system drop, send less at once, or use a second path."),
}


# ---- words and numbers

def time_of(value):
    """A time in microseconds, in milliseconds."""
    return "" if value is None else f"{value / 1000:,.3f}"


def date_of(reading):
    """A reading, as a date."""
    try:
        return datetime.datetime.fromtimestamp(reading // 1_000_000, datetime.timezone.utc).strftime("%Y-%m-%d %H:%M:%S UTC")
    except (OverflowError, ValueError, OSError):
        return str(reading)


def share(count, whole):
    """A part of a whole."""
    return f"{100 * count / whole:.2f} %" if whole else ""


def table(name, caption, heads, rows):
    """A table behind a picture; each first cell of a row is a head, and may have the column that a click lists."""
    def cell(it):
        return f"<td>{it[1]}" if isinstance(it, tuple) else f"<td>{it}"

    def first(it):
        return f'<th scope=row><a href="#entries" data-c={it[0]}>{it[1]}</a>' if isinstance(it, tuple) else f"<th scope=row>{it}"
    lines = ["<tr>" + first(row[0]) + "".join(map(cell, row[1:])) for row in rows]
    return (f'<details id="{name}"><summary>{caption}</summary><div class=scroll><table><thead><tr>'
            + "".join(f"<th scope=col>{it}" for it in heads) + "<tbody>" + "\n".join(lines) + "</table></div></details>")


# ---- pictures

def text(x, y, words, more=""):
    """A text in a picture."""
    return f'<text x="{x:.1f}" y="{y:.1f}" {more}>{words}</text>'


def bars(colour, rects):
    """Bars of one colour, of each left, top, width and height."""
    parts = "".join(f"M{x:.1f} {y:.1f}h{w:.1f}v{h:.1f}h{-w:.1f}z" for x, y, w, h in rects if h > 0)
    return f'<path class="{colour}" d="{parts}"/>' if parts else ""


def svg(label, high, parts):
    """A picture."""
    return f'<svg viewBox="0 0 {WIDE} {high}" role="img" aria-label="{html.escape(label)}">{"".join(parts)}</svg>'


def axis(top, bottom, most, named=str):
    """The lines of a scale from 0, or another least value, to the most."""
    lines = []
    for part in (0, 0.5, 1):
        y = bottom - (bottom - top) * part
        lines.append(f'<path class="grid" d="M{LEFT} {y:.1f}H{WIDE - 10}"/>' + text(LEFT - 6, y + 4, named(part * most), 'text-anchor="end"'))
    return "".join(lines)


class Over:
    """The places of columns over time."""

    def __init__(self, columns):
        self.columns, self.count = columns, columns.count()
        self.wide = min(40, (WIDE - 10 - LEFT) / max(1, self.count))

    def left(self, place):
        """Where a column begins."""
        return LEFT + place * self.wide

    def hits(self, high):
        """What a click on a column hits."""
        rows = [f'<rect data-c="{place}" x="{self.left(place):.1f}" y="0" width="{self.wide:.1f}" height="{high}"/>'
                for place, _, _ in self.columns.listed()]
        return f'<g class="hits">{"".join(rows)}</g>'

    def scale(self, bottom):
        """The intervals below the columns."""
        if not self.count:
            return ""
        places = sorted({0, self.count // 4, self.count // 2, 3 * self.count // 4, self.count - 1}) if self.count * self.wide > 300 else [0]
        first = self.columns.low * self.columns.width
        return "".join(text(self.left(it), bottom + 16, first + it * self.columns.width) for it in places) + text(
            WIDE - 10, bottom + 32, "interval of the receiver's clock", 'text-anchor="end"')


def figure(name, picture, legend, tables):
    """A picture with its head, what it tells, its legend and its tables."""
    title, tells, bad = HEADS[name]
    return (f'<section id="{name}"><h2>{title}</h2><p>{tells} <strong>{bad}</strong></p><figure>{picture}'
            f'<figcaption>{legend}</figcaption></figure>{"".join(tables)}</section>')


def legend(items):
    """What the colours are."""
    return " ".join(f'<span class="key"><i class="{colour}"></i>{words}</span>' for colour, words in items)


def of_margins(story):
    """The picture of the times left: a row for each chain, and one of the late."""
    margins, parts, rows = story.margins, [], []
    chains = range(len(margins.spans))
    for chain in [*chains, None]:
        is_late = chain is None
        found = margins.late_histogram() if is_late else margins.histogram(chain)
        name = "late" if is_late else f"chain {chain}"
        top, most, wide = 24 + len(parts) // 2 * 100, max(max(it[2] for it in found), 1), (WIDE - 10 - LEFT) / len(found)
        parts.append(text(LEFT, top - 8, name) + axis(top, top + 60, most, lambda it: f"{it:,.0f}"))
        parts.append(bars("v6" if is_late else f"c{chain}", [(LEFT + at * wide, top + 60 - 60 * it[2] / most, max(wide - 1, 1), 60 * it[2] / most)
                                                           for at, it in enumerate(found)])
                     + "".join(text(LEFT + at * wide, top + 75, "earlier" if low is None else f"{time_of(low)} ms",
                                    'text-anchor="end"' if at == BINS else "") for at, (low, _, _) in enumerate(found) if at % 10 == 0))
        rows += [(name, "" if low is None else low, "" if high is None else high, count) for low, high, count in found]
    picture = svg("how many packets had so much time left, by chain", 24 + len(chains) * 100 + 90, parts)
    choices = [(words, *(f"{margins.unsafe(at, chain)} ({share(margins.unsafe(at, chain), margins.count)})" for chain in chains))
               for at, words in enumerate(CHOICES)]
    by_key = f", of which {margins.by_key} were late on a chain that was safe by the clock: its key had come" if margins.by_key else ""
    notes = [f'<span id="tested">{margins.count}</span> packets came to this test{by_key}.']
    others = [f"{count} of {VERDICTS[code - 1]}" for code, count in totals(story).items() if code in (FUTURE, BADKEY) and count]
    notes += [f"Not among them: {' and '.join(others)}, which fit the stream and were refused before."] if others else []
    if story.is_tail:
        notes.append(f'This is a tail, which doesn\'t know the keys before it: of <span id="unknown">{margins.unknown}</span> of these packets the '
                     "verdict hangs on such a key, and isn't checked against the time left.")
    notes.append("The last chain is safe the longest: what isn't safe on it is late.")
    return figure("margins", picture, " ".join(notes), [
        table("choices", "Packets that wouldn't be safe on a chain, by the clock alone", ["with", *(f"chain {it}" for it in chains)], choices),
        table("margins-table", "Table of the picture", ["first safe chain", "above, in microseconds", "up to", "packets"], rows)])


def of_keys(story):
    """The picture of the keys."""
    over, chains = Over(story.columns), range(len(story.setup.delays))
    columns = over.columns.listed()
    most = max([1, *(late for _, _, it in columns for late in it.late if late is not None)])
    least = min([0, *(late for _, _, it in columns for late in it.late if late is not None)])
    parts = [axis(10, HIGH, most - least, lambda it: time_of(least + it))]
    for chain in chains:
        points = [(over.left(place) + chain * over.wide / len(chains), it.late[chain]) for place, _, it in columns if it.late[chain] is not None]
        parts.append(bars(f"c{chain}", [(x, 8 + (HIGH - 10) * (most - late) / (most - least), max(2, over.wide / len(chains) - 1), 4)
                                        for x, late in points]))
    parts.append(bars("v6", [(over.left(place), HIGH + 2, max(1.5, over.wide - 1), 6) for place, _, it in columns if any(it.missing)]))
    picture = svg("how late keys came, in milliseconds, by interval", HIGH + 44, [*parts, over.scale(HIGH + 6), over.hits(HIGH + 10)])
    told = [(f"chain {chain}", story.lateness[chain].count, *(time_of(story.lateness[chain].at(it)) for it in (50, 99)),
             time_of(story.lateness[chain].most), *story.gap_counts[chain]) for chain in chains]
    gaps = [(f"chain {chain}", first, last, last - first + 1, time_of(cost), reading)
            for cost, chain, first, last, reading in sorted(story.gaps, reverse=True)[:GAPS]]
    rows = [((place, over.columns.named(first)), *(time_of(late) for late in it.late), *it.missing) for place, first, it in columns]
    heads = ["interval", *(f"chain {it}, ms" for it in chains), *(f"chain {it}, missing" for it in chains)]
    return figure("keys", picture, legend([*((f"c{it}", f"chain {it}") for it in chains), ("v6", "keys were missing")]), [
        table("keys-told", "Keys that came, and how late in milliseconds", ["", "keys", "median", "99th of 100", "most", "gaps", "missing"], told),
        table("gaps", f"Gaps, and what they cost: the {GAPS} dearest", ["", "first missing", "last", "keys", "waiting, ms", "until reading"], gaps),
        table("keys-table", "Table of the picture", heads, rows)])


def of_waiting(story, capacity):
    """The picture of waits and places."""
    over, chains = Over(story.columns), range(len(story.setup.delays))
    waits, columns = story.held.waits, over.columns.listed()
    spans = [delay * story.setup.length for delay in story.setup.delays]
    most = max([1, *spans, *(it.most for it in waits if it.count)])
    wide, parts = (WIDE - 10 - LEFT) / most, []
    for chain in chains:
        y, wait = 22 + 26 * chain, waits[chain]
        parts.append(text(LEFT - 6, y + 5, f"chain {chain}", 'text-anchor="end"') + bars("v0", [(LEFT + spans[chain] * wide - 1, y - 8, 2, 20)]))
        if wait.count:
            half, high = (wait.at(it) * wide for it in (50, 99))
            parts.append(bars(f"c{chain}", [(LEFT, y - 4, half, 12), (LEFT, y, high, 4), (LEFT + wait.most * wide - 2, y - 6, 3, 16)]))
    top = 50 + 26 * len(chains)
    full = max([1, capacity or 0, *(it.held for _, _, it in columns)])
    parts.append(axis(top, top + 120, full, lambda it: f"{it:,.0f}"))
    parts.append(bars("c0", [(over.left(place), top + 120 * (1 - it.held / full), max(1, over.wide - 1), 120 * it.held / full)
                             for place, _, it in columns]))
    parts += [bars("v6", [(LEFT, top + 120 * (1 - capacity / full) - 1, WIDE - 10 - LEFT, 2)])] if capacity else []
    picture = svg("how long packets waited, by chain, and how many were held at most, by interval", top + 164,
                  [*parts, over.scale(top + 124), f'<g transform="translate(0 {top})">{over.hits(124)}</g>'])
    told = [(f"chain {chain}", it.count, time_of(it.at(50)), time_of(it.at(99)), time_of(it.most), time_of(spans[chain]))
            for chain, it in enumerate(waits)]
    rows = [((place, over.columns.named(first)), it.held, it.counts[ANSWERS.index("Full")]) for place, first, it in columns]
    said = [("c0", "wide up to the median, narrow up to the 99th of 100, and a mark at the most"), ("v0", "the delay"),
            *([("v6", "CAPACITY")] if capacity else [])]
    return figure("waiting", picture, legend(said) + (" This is a tail: packets that were held before it aren't counted." if story.is_tail else ""), [
        table("waits", "Waits by chain, in milliseconds", ["", "released", "median", "99th of 100", "most", "delay"], told),
        table("held-table", "Table of the picture", ["interval", "held at most", "Full"], rows)])


def totals(story):
    """How many arrivals had each verdict."""
    found = {code: 0 for code in range(MALFORMED, KEYS + 1)}
    for _, _, column in story.columns.listed():
        for code in found:
            found[code] += column.counts[code]
    return found


def of_verdicts(story):
    """The picture of the verdicts."""
    over, columns = Over(story.columns), story.columns.listed()
    most = max([1, *(sum(it.counts[1:11]) for _, _, it in columns)])
    parts, below = [axis(10, HIGH, most, lambda it: f"{it:,.0f}")], {}
    for code in STACKED:
        rects = []
        for place, _, it in columns:
            high = (HIGH - 10) * it.counts[code] / most
            below[place] = below.get(place, HIGH) - high
            rects.append((over.left(place), below[place], max(1, over.wide - 1), high))
        parts.append(bars(f"v{code}", rects))
    picture = svg("how many arrivals had each verdict, by interval", HIGH + 44, [*parts, over.scale(HIGH), over.hits(HIGH)])
    whole = totals(story)
    named = [(VERDICTS[code - 1], name, count) for code in (FOREIGN, MISFIT, BADKEY)
             for name, count in sorted(story.named[code].items(), key=lambda it: (-it[1], it[0]))[:50]]
    rows = [((place, over.columns.named(first)), *it.counts[1:11]) for place, first, it in columns]
    return figure("verdicts", picture, legend((f"v{code}", f"{VERDICTS[code - 1]} {whole[code]}") for code in STACKED), [
        table("totals", "All arrivals", VERDICTS, [tuple(whole.values())]),
        table("named", "What refused frames name", ["verdict", "named", "arrivals"], named),
        table("verdicts-table", "Table of the picture", ["interval", *VERDICTS], rows)])


def of_losses(story):
    """The picture of the losses. Its columns are of the packets' own intervals."""
    over, columns = Over(story.losses), story.losses.listed()
    most = max([1, *(it.came + it.lost for _, _, it in columns)])
    parts, high = [axis(10, HIGH, most, lambda it: f"{it:,.0f}")], (HIGH - 10) / most
    parts.append(bars("v9", [(over.left(place), HIGH - it.came * high, max(1, over.wide - 1), it.came * high) for place, _, it in columns]))
    parts.append(bars("v6", [(over.left(place), HIGH - (it.came + it.lost) * high, max(1, over.wide - 1), it.lost * high)
                             for place, _, it in columns]))
    scale = over.scale(HIGH).replace("interval of the receiver's clock", "interval of the packets")
    lost, came = (sum(getattr(it, name) for _, _, it in columns) for name in ("lost", "came"))
    words = (f'<span id="lost">{lost}</span> lost, {came} came. '
             "Packets behind the last one of an interval that came aren't known, nor intervals of which none did. Where packets of an interval were released, the last of these counts, and else the last that came.")
    rows = [(over.columns.named(first), it.came, it.lost) for place, first, it in columns]
    return figure("losses", svg("how many packets came and were lost, by interval", HIGH + 44, [*parts, scale]),
                  legend([("v9", "came"), ("v6", "lost")]) + " " + words,
                  [table("losses-table", "Table of the picture", ["interval", "came", "lost"], rows)])


# ---- lists of entries

def packed(columns, quota):
    """The rows of all columns, of each at most so many, byte by byte of a row, compressed. A reading stands as what it is above
    the one before in its column."""
    whole = bytearray()
    for _, _, column in columns:
        rows = column.rows[:quota * ROW.size]
        reading = bytearray(len(rows) // ROW.size * 8)
        for at in range(8):
            reading[at::8] = rows[READING_AT + 7 - at::ROW.size]
        values = array.array("Q", bytes(reading))
        if array.array("H", b"\1\0")[0] != 1:
            values.byteswap()
        steps = array.array("Q", [(value - before) & (1 << 64) - 1 for value, before in zip(values, [0, *values])])
        steps = steps.tobytes()
        for at in range(8):
            rows[READING_AT + 7 - at::ROW.size] = steps[at::8]
        whole += rows
    pack = zlib.compressobj(6)
    return b"".join([*(pack.compress(whole[at::ROW.size]) for at in range(ROW.size)), pack.flush()])


def lists_of(story):
    """The lists of entries as the page has them: their text, and how many rows of a column there are at most."""
    columns, quota = story.columns.listed(), ROWS
    while True:
        found = packed(columns, quota)
        if len(found) * 4 <= LISTED * 3 or quota == 0:
            return base64.b64encode(found).decode(), quota
        listed = sum(min(quota, len(it.rows) // ROW.size) for _, _, it in columns)
        fits = listed * LISTED * 3 * 9 // (len(found) * 4 * 10)
        while sum(min(quota, len(it.rows) // ROW.size) for _, _, it in columns) > fits:
            quota = quota * 3 // 4


STYLE = """
:root{color-scheme:light dark;--back:#fff;--ink:#1b1f24;--faint:#d5d9de;--box:#f5f6f8}
@media (prefers-color-scheme:dark){:root{--back:#14171a;--ink:#e4e7ea;--faint:#3b4248;--box:#1e2327}}
@media print{:root{--back:#fff;--ink:#000;--faint:#ccc;--box:#fff}section{break-inside:avoid}}
body{font:15px/1.45 system-ui,sans-serif;background:var(--back);color:var(--ink);max-width:1000px;margin:1em auto;padding:0 1em;
print-color-adjust:exact;-webkit-print-color-adjust:exact}
figure{margin:0}svg{width:100%;height:auto;display:block}svg text{fill:var(--ink);font-size:12px}
.grid{stroke:var(--faint);fill:none}.hits rect{fill:transparent;cursor:pointer}.hits rect:hover,.hits rect.on{fill:#8884}
figcaption,summary{font-size:14px}.key{white-space:nowrap;margin-right:1em}.key i{display:inline-block;width:.8em;height:.8em;margin-right:.3em}
.scroll{max-height:24em;overflow:auto}table{border-collapse:collapse;font-size:13px;font-variant-numeric:tabular-nums}
th,td{padding:1px 9px;text-align:right;border-bottom:1px solid var(--faint)}thead th{position:sticky;top:0;background:var(--box)}
#list td:nth-child(n+2){text-align:left}a{color:inherit}@media print{.scroll{max-height:none}.hits{display:none}}
"""
COLOURS = {"v0": "#888", "v1": "#d73027", "v2": "#c51b7d", "v3": "#8c510a", "v4": "#e6a700", "v5": "#762a83", "v6": "#f46d43", "v7": "#35978f",
           "v8": "#e377c2", "v9": "#4393c3", "v10": "#5aae61", "c0": "#3b82c4", "c1": "#e08a1e", "c2": "#3f9b57", "c3": "#9a5fb5", "c4": "#c44e52",
           "c5": "#8c7a4f", "c6": "#2aa5b5", "c7": "#7f7f7f"}
SCRIPT = """
const meta=JSON.parse(document.getElementById('meta').textContent),names=meta.answers,size=28;let rows=null;
async function unpacked(){if(rows)return rows;const bytes=Uint8Array.from(atob(document.getElementById('rows').textContent),it=>it.charCodeAt(0));
const stream=new Blob([bytes]).stream().pipeThrough(new DecompressionStream('deflate'));
return rows=new Uint8Array(await new Response(stream).arrayBuffer())}
function field(all,row,at,bytes){const count=all.length/size;let value=0n;
for(let k=0;k<bytes;k++)value=value*256n+BigInt(all[(at+k)*count+row]);return value}
function told(code,value){const name=names[code];if(name=='Foreign')return name+' '+value.toString(16).padStart(16,'0');
if(name=='Future')return name+' '+(value==(1n<<64n)-1n?'none':value);if(name=='Kept'||name=='BadKey')return name+' '+value;
return name=='Given'?name+' '+(value&(1n<<56n)-1n)+' by chain '+(value>>56n):name}
function cells(all,row,reading){const code=Number(field(all,row,0,1)),who=field(all,row,1,1),interval=field(all,row,10,4),number=field(all,row,14,2);
const is=code>0&&code<11,entry=BigInt(meta.first)+field(all,row,24,4);
const at=is?(reading-BigInt(meta.start)-((reading<BigInt(meta.start))?BigInt(meta.length)-1n:0n))/BigInt(meta.length):'';
return [entry,is?'arrival '+who:code?'take '+who:'end '+who,is?reading:'',at,told(code,field(all,row,16,8)),(is&&interval+number||code==13)?interval+'/'+number:'-']}
async function show(c){const place=meta.columns.findIndex(it=>it[0]==c);if(place<0)return;
for(const it of document.querySelectorAll('.hits rect'))it.classList.toggle('on',it.dataset.c==c);
const all=await unpacked();let row=0;for(const it of meta.columns.slice(0,place))row+=it[2];
const [,name,listed,total]=meta.columns[place];let reading=0n;const body=document.createElement('tbody');
for(let k=0;k<listed;k++){reading=BigInt.asUintN(64,reading+field(all,row+k,2,8));const line=body.insertRow();
for(const it of cells(all,row+k,reading))line.insertCell().textContent=it}
const list=document.getElementById('list');list.tBodies[0].replaceWith(body);list.dataset.c=c;
document.getElementById('of').textContent='Interval '+name+': '+total+' entries'+(listed<total?', of which the first '+listed+' are listed; `tesla show` prints all':'')+'.';
document.getElementById('entries').scrollIntoView({block:'nearest'})}
document.addEventListener('click',it=>{const on=it.target.closest('[data-c]');if(on&&on.id!='list'){it.preventDefault();show(on.dataset.c)}});
"""


def page_of(story, capacity=None):
    """The page."""
    setup, (rows, quota) = story.setup, lists_of(story)
    columns = story.columns.listed()
    meta = {"answers": ANSWERS, "first": str(story.number), "start": str(setup.start), "length": str(setup.length), "columns": [
        [place, story.columns.named(first), min(quota, len(it.rows) // ROW.size), it.total] for place, first, it in columns]}
    when = f"{date_of(story.first)} to {date_of(story.last)}" if story.first is not None else "no arrival"
    kind = f"a tail, from entry {story.number} on" if story.is_tail else "a whole trace"
    width = story.columns.width
    joined = f" A column is {width} intervals, since a picture has {COLUMNS} columns at most." if width > 1 else ""
    colours = "".join(f".{name}{{fill:{it};background:{it}}}" for name, it in COLOURS.items())
    policy = "default-src 'none'; style-src 'unsafe-inline'; script-src 'unsafe-inline'"
    heads = "".join(f"<th scope=col>{it}" for it in ("entry", "what", "reading", "interval", "answer", "packet"))
    return "".join([
        f'<!doctype html><html lang="en"><meta charset="utf-8"><meta http-equiv="Content-Security-Policy" content="{policy}">',
        '<meta name="viewport" content="width=device-width"><meta name="color-scheme" content="light dark">',
        f"<title>Stream {setup.name}: {story.entries} entries</title><style>{STYLE}{colours}</style><h1>Stream {setup.name}</h1>",
        f'<p id="about">{story.entries} entries of {kind}, {when}; intervals of {time_of(setup.length)} ms, delays of '
        f'{", ".join(map(str, setup.delays))} intervals, LAG {time_of(story.lag)} ms{f", CAPACITY {capacity}" if capacity else ""}.{joined} '
        "Times are in milliseconds where nothing else is said. A click on an interval lists its entries at the end.</p>",
        of_margins(story), of_keys(story), of_waiting(story, capacity), of_verdicts(story), of_losses(story),
        '<section id="entries"><h2>Entries</h2><p id="of" role="status">A click on an interval of a picture or a table lists its entries here.</p>',
        f'<div class=scroll><table id="list"><thead><tr>{heads}<tbody></tbody></table></div></section>',
        f'<script type="application/json" id="meta">{json.dumps(meta)}</script>',
        f'<script type="text/plain" id="rows">{rows}</script><script>{SCRIPT}</script></html>\n'])
