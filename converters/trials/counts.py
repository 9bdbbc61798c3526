"""Trials of tesla-status-to-prometheus, and of the alarms and the dashboard that use its metrics."""
import json
import os
import re
import shutil
import stat
import subprocess
import sys
from importlib.machinery import SourceFileLoader

HERE = os.path.dirname(os.path.abspath(__file__))
CONVERTERS = os.path.dirname(HERE)
KIT = f"{os.path.dirname(CONVERTERS)}/packaging"
FILES = f"{KIT}/prometheus"
sys.dont_write_bytecode = True

VERDICTS = "malformed=1 foreign=2 misfit=3 future=4 badkey=5 late=6 repeat=7 full=8 kept=90 keys=10"
ARRIVALS = "".join(f'tesla_arrivals_total{{{"verdict="}"{name}"}} {count}\n' for name, count in (it.split("=") for it in VERDICTS.split()))
FIRST = f"time=1767225590000000 arrivals=136 {VERDICTS} given=80 chain0=70 chain1=10 held=1 failedsinks=2\n"
SECOND = FIRST.replace("1767225590000000", "1767225600500000")
BASE = 'tesla_build_info{version="0.1.0"} 1\ntesla_status_time_seconds '
RECEIVED = ARRIVALS + 'tesla_given_total 80\ntesla_released_total{chain="0"} 70\ntesla_released_total{chain="1"} 10\n' + (
    "tesla_clock_held_total 1\ntesla_sinks_failed 2\n")
FED = "messages=1 disclosures=2 handovers=3 toolong=4 early=5 over=6 backward=7 full=8 unread=9 held=10 unsent=11 left=12\n"
REFUSED = "".join(f'tesla_feed_refused_total{{reason="{name}"}} {count}\n'
                  for name, count in zip(("toolong", "early", "over", "backward", "full"), range(4, 9)))
FEED = "tesla_feed_messages_total 1\ntesla_feed_disclosures_total 2\ntesla_feed_handovers_total 3\n" + REFUSED + (
    "tesla_feed_clock_unread_total 9\ntesla_feed_clock_held_total 10\ntesla_feed_unsent_total 11\ntesla_feed_intervals_left 12\n")

# What STATUS holds, and the samples that are made of it.
MADE = {
    "one line": (FIRST, BASE + "1767225590.000000\ntesla_run_ended 0\n" + RECEIVED),
    "two lines": (FIRST + SECOND, BASE + "1767225600.500000\ntesla_status_every_seconds 10\ntesla_run_ended 0\n" + RECEIVED),
    "a line that isn't whole": (FIRST + SECOND[:-1], BASE + "1767225590.000000\ntesla_run_ended 0\n" + RECEIVED),
    "the last line of a run": (FIRST + SECOND + SECOND.replace("time=1767225600", "end=1767225601"),
                               BASE + "1767225601.500000\ntesla_status_every_seconds 10\ntesla_run_ended 1\n" + RECEIVED),
    "other lines": (f"tesla: receive: something\n{FIRST}{SECOND}Stopped.\ntime=x\n",
                    BASE + "1767225600.500000\ntesla_status_every_seconds 10\ntesla_run_ended 0\n" + RECEIVED),
    "a long file": ("x" * 99 + "\n" + FIRST * 2_000 + SECOND,
                    BASE + "1767225600.500000\ntesla_status_every_seconds 10\ntesla_run_ended 0\n" + RECEIVED),
    "a follower": (FIRST.replace("\n", " epoch=3 open=2 early=4 unqueued=5 dropped=6\n"),
                   BASE + "1767225590.000000\ntesla_run_ended 0\n" + RECEIVED + "tesla_epoch 3\ntesla_epochs_open 2\ntesla_accepted_early_total 4\n"
                   "tesla_promises_unqueued_total 5\ntesla_epoch_dropped_total 6\n"),
    "a feed": (f"time=7000000 {FED}", BASE + "7.000000\ntesla_run_ended 0\n" + FEED),
    "a feed of one stream": (f"time=7000000 {FED.replace('handovers=3 ', '')}",
                             BASE + "7.000000\ntesla_run_ended 0\n" + FEED.replace("tesla_feed_handovers_total 3\n", "")),
    "a relay": ("end=8000000 sent0=1 dropped0=2 sent1=3 dropped1=4 unsent=5\n",
                BASE + '8.000000\ntesla_run_ended 1\ntesla_relay_sent_total{post="0"} 1\ntesla_relay_sent_total{post="1"} 3\n'
                'tesla_relay_dropped_total{post="0"} 2\ntesla_relay_dropped_total{post="1"} 4\ntesla_relay_unsent_total 5\n'),
}


def script():
    """The script, as a module."""
    return SourceFileLoader("status", f"{CONVERTERS}/tesla-status-to-prometheus").load_module()


def metrics():
    """All metrics that it makes."""
    it = script()
    return {f"tesla_{row[1]}" for table in (it.RECEIVER, it.FEED, it.RELAY) for row in table} | {f"tesla_{row[0]}" for row in it.ALL}


def ran(check, data, *words, out="counts.prom"):
    """Runs the script over a STATUS: the status, and what OUT holds; None where it isn't there."""
    check.file(data.encode(), "status")
    path = f"{check.room}/{out}"
    done = subprocess.run([sys.executable, f"{CONVERTERS}/tesla-status-to-prometheus", "status", out, *words], cwd=check.room, capture_output=True)
    if not os.path.isfile(path):
        return done.returncode, None
    with open(path, encoding="ascii") as file:
        return done.returncode, file.read()


def of_lines(check):
    """What is made of each kind of line."""
    judge = shutil.which("promtool")
    for name, (data, want) in MADE.items():
        status, text = ran(check, data)
        samples = "".join(line for line in (text or "").splitlines(True) if not line.startswith("#"))
        check.compared(f"counts of {name}", (status, sorted(samples.splitlines())), (0, sorted(want.splitlines())))
        heads = re.findall(r"^# TYPE (\w+) (\w+)$", text or "", re.MULTILINE)
        wrong = [it for it, kind in heads if (kind == "counter") != it.endswith("_total") or f"# HELP {it} " not in text]
        used = set(re.findall(r"^(tesla_\w+)", text or "", re.MULTILINE))
        check.compared(f"heads of {name}", (wrong, used - {it for it, _ in heads}, used - metrics()), ([], set(), set()))
        if judge:
            done = subprocess.run([judge, "check", "metrics"], input=text, capture_output=True, text=True)
            check.compared(f"promtool on {name}", (done.returncode, done.stdout + done.stderr), (0, ""))
    print(f"tried by {judge}" if judge else "skipped what promtool says of metrics: it is in the Debian package prometheus")


def of_names(check):
    """A name is a label of each number; OUT is replaced at once, and stays where there is nothing to tell."""
    _, text = ran(check, SECOND, "market")
    samples = [line for line in text.splitlines() if not line.startswith("#")]
    check.compared("counts with a name", [line for line in samples if 'run="market"' not in line], [])
    before = os.stat(f"{check.room}/counts.prom")
    with open(f"{check.room}/counts.prom", encoding="ascii") as file:
        check.compared("counts of no line", ran(check, "nothing\ntime=5", "market"), (3, text))
        ran(check, FIRST)
        check.compared("a file that was open when it was replaced", file.read(), text)
    after = os.stat(f"{check.room}/counts.prom")
    check.compared("a file that is replaced", (before.st_ino != after.st_ino, stat.S_IMODE(after.st_mode)), (True, 0o644))
    check.compared("nothing beside it", [it for it in os.listdir(check.room) if it.startswith(".")], [])
    for words in (("a b",), ('"',), ("x", "y")):
        check.compared(f"counts with the words {words}", ran(check, FIRST, *words, out="none.prom"), (1, None))
    check.compared("counts in a folder that isn't there", ran(check, FIRST, out="none/none.prom"), (7, None))
    check.compared("counts on a full disk", ran(check, FIRST, out="/dev/full"), (7, None))
    check.compared("counts over STATUS", ran(check, FIRST, out="status"), (7, FIRST))
    done = subprocess.run([sys.executable, f"{CONVERTERS}/tesla-status-to-prometheus", "/dev/stdin", "/dev/stdout"], input=FIRST, cwd=check.room,
                          capture_output=True, text=True)
    check.compared("counts through pipes", (done.returncode, "tesla_given_total 80\n" in done.stdout), (0, True))
    with open(f"{KIT}/debian/changelog", encoding="utf-8") as file:
        check.compared("the version", script().VERSION, re.match(r"tesla \(([^)]+)\)", file.read())[1])


def of_alarms(check):
    """The alarms and the dashboard name metrics that there are, and the alarms tell what they should."""
    with open(f"{FILES}/tesla.rules.yml", encoding="utf-8") as file:
        rules = file.read()
    with open(f"{FILES}/dashboard.json", encoding="utf-8") as file:
        board = json.load(file)
    exprs = [target["expr"] for panel in board["panels"] for target in panel["targets"]]
    asked = [board["templating"]["list"][1]["query"], *exprs]
    for name, text in (("the alarms", rules), ("the dashboard", "\n".join(asked))):
        used = set(re.findall(r"\btesla_\w+", text))
        check.compared(f"metrics of {name}", (used - metrics(), len(used) > 3), (set(), True))
    check.compared("panels of the dashboard", len({it["id"] for it in board["panels"]}), len(board["panels"]))
    if not shutil.which("promtool"):
        print("skipped what promtool says of the alarms: it is in the Debian package prometheus")
        return
    for words in (["check", "rules", "tesla.rules.yml"], ["test", "rules", "tesla.rules.test.yml"]):
        done = subprocess.run(["promtool", *words], cwd=FILES, capture_output=True, text=True)
        check.compared(f"promtool {' '.join(words)}", (done.returncode, done.stdout + done.stderr if done.returncode else ""), (0, ""))
    # The expressions of the dashboard are judged as rules are, with a span in the place of Grafana's.
    spelled = [re.sub(r"\$__rate_interval", "5m", it) for it in exprs]
    rows = "".join(f"  - record: tesla:panel:{at}\n    expr: {json.dumps(it)}\n" for at, it in enumerate(spelled))
    path = check.file(f"groups:\n- name: panels\n  rules:\n{rows}".encode(), "panels.yml")
    done = subprocess.run(["promtool", "check", "rules", path], capture_output=True, text=True)
    check.compared("promtool on the dashboard's expressions", (done.returncode, done.stderr if done.returncode else ""), (0, ""))
    of_wrong_alarms(check, rules)


# An alarm that is wrong: what stands in the place of a part of the rules.
WRONG = {"an alarm of late packets at 3 %": ("> 0.01", "> 0.03"), "an alarm of late packets at 0.1 %": ("> 0.01", "> 0.001"),
         "an alarm of silence after ten lines": ("> 3 * tesla_status", "> 10 * tesla_status"),
         "an alarm of keys that looks at given packets alone": (' and ignoring (verdict) increase(tesla_arrivals_total{verdict="keys"}[3m]) == 0', ""),
         "an alarm of floods of one kind": ("badkey|foreign", "foreign"), "an alarm of places at two": ("[5m]) > 0\n", "[5m]) > 2\n")}


def of_wrong_alarms(check, rules):
    """Alarms that are wrong are refused by the tests of the alarms."""
    shutil.copy(f"{FILES}/tesla.rules.test.yml", check.room)
    for name, (old, new) in WRONG.items():
        check.file(rules.replace(old, new).encode(), "tesla.rules.yml")
        done = subprocess.run(["promtool", "test", "rules", "tesla.rules.test.yml"], cwd=check.room, capture_output=True)
        check.compared(f"a wrong script: {name}", (rules.count(old), done.returncode != 0), (1, True))


def of_counts(check):
    """All trials of counts."""
    of_lines(check)
    of_names(check)
    of_alarms(check)
