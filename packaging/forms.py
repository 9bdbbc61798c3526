"""The forms of the commands and the statuses, as `tesla --help` tells them: the one source of what is generated here."""
import re
import subprocess

# A line that tells what words of a form are: `LAG: how many microseconds ..`, or `START, INTERVAL: microseconds ..`.
TOLD = re.compile(r"^([A-Z][A-Z0-9-]*(?:, [A-Z][A-Z0-9-]*)*): (.*)$")
# The line before an example: `Example:`, or `Example, a drift of 0.01 seconds:`, which may go on in the next line.
EXAMPLE = re.compile(r"^Example[:,]")
STATUS = re.compile(r"(\d+) ([^,.]+)[,.]")

# What kind of thing a word of a form is, for completions. A word that isn't here is refused, so a new one has to be added.
KINDS = {
    "file": {"SETUP", "SECRET", "SCRIPT", "CAPTURE", "ASK", "REPLY", "KEY", "TRACE",
             "SETUP-OUT", "SECRET-OUT", "SCRIPT-OUT", "OUT", "ASK-OUT", "REPLY-OUT", "TAIL", "STATUS"},
    "files": {"SINKS", "SETUPS", "SECRETS"},
    "address": {"LINK", "LINKS", "POSTS"},
    "number": {"LAG", "CAPACITY", "STREAM", "START", "INTERVAL", "LAST", "TAG", "DELAY", "DRIFT", "READING", "SEED", "COUNT",
               "GAP", "KEEP", "EVERY", "RATE"},
}


class Form:
    """A form of a command: its line, the words of it, what the command does, what its words are, and an example of it with what
    is told of that."""

    def __init__(self, line):
        self.line = line
        self.command, *self.words = line.split()[1:]
        self.does = []
        self.told = []
        self.about_example = []
        self.example = ""

    def add(self, line):
        """Takes a further line of what is told of the form."""
        found = TOLD.match(line)
        if self.about_example and line.startswith("tesla "):
            self.example = line
        elif self.about_example or EXAMPLE.match(line):
            self.about_example.append(line)
        elif found:
            self.told.append([found[1].split(", "), found[2]])
        elif self.told:
            self.told[-1][1] += f" {line}"
        else:
            self.does.append(line)

    def text(self):
        """What the command does, as one text."""
        return " ".join(self.does)

    def short(self):
        """What the command does, up to the first pause of the text."""
        return re.split(r"[,.](?: |$)", self.text())[0]

    def told_of(self, word):
        """What is told of a word of the form; empty where nothing is."""
        return next((text for words, text in self.told if word in words), "")


def kind_of(word):
    """The kind of a word of a form."""
    for kind, words in KINDS.items():
        if word.strip("[]") in words:
            return kind
    raise SystemExit(f"no kind is known of the word {word}: add it to KINDS in packaging/forms.py")


class Help:
    """What `tesla --help` tells: what the program is for, its forms, and its statuses with their meaning."""

    def __init__(self, text):
        head, rest = text.split("\n\n", 1)
        self.purpose = head
        self.forms = []
        listed, _, foot = rest.partition("\n\nStatus: ")
        for line in listed.splitlines():
            if line.startswith("    "):
                self.forms[-1].add(line.strip())
            else:
                self.forms.append(Form(line))
        self.statuses = {int(number): meaning for number, meaning in STATUS.findall(" ".join(foot.splitlines()))}

    def commands(self):
        """The forms of commands, without those of `--help` and `--version`."""
        return [form for form in self.forms if not form.command.startswith("-")]

    def longest(self):
        """A form of each command, with what is told of all its forms: the one with the most words, whose first ones are those of the
        others."""
        found = {}
        for form in self.commands():
            one = found.setdefault(form.command, Form(form.line))
            if len(one.words) < len(form.words):
                one.line, one.words = form.line, form.words
            one.does = one.does or form.does
            one.told += form.told
        return list(found.values())

    def lines(self):
        """The lines of all forms."""
        return [form.line for form in self.forms]


def help_of(program):
    """What the built program tells."""
    return Help(subprocess.run([program, "--help"], check=True, capture_output=True, text=True).stdout)
