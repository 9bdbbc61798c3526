"""What `tesla --help` will tell, read from the sources: the forms in their tables, and the text around them. It wants no built program."""
import re

ABOUT = "crates/tesla_cli/src/program/about.rt"
# The tables in the order of `--help`: where each stands, and its name.
TABLES = (
    ("crates/tesla_cli/src/here.rt", "FORMS"),
    ("crates/tesla_cli_live/src/live.rt", "FORMS"),
    ("crates/tesla_cli_live/src/recorded.rt", "FORMS"),
    ("crates/tesla_cli_live/src/live_tools.rt", "FORMS"),
    ("crates/tesla_cli/src/tools.rt", "TOOLS"),
)
FILES = "crates/tesla_run_*/src/**/form*.rt"
FORM = re.compile(r'^pub const (\w+): FormText = FormText \{\s*words: "([^"\\]*)",\s*about: "([^"\\]*)",\s*\};', re.MULTILINE)


class Missing(Exception):
    """A source hasn't what is looked for in it."""


def forms_in(read, names):
    """The forms of the commands: where each stands, its words, and what is told of it."""
    return {name: (path, words, about) for path in names(FILES) for name, words, about in FORM.findall(read(path))}


def table_in(text, path, name):
    """The names of the forms of a table."""
    found = re.search(rf"^pub const {name}: \[FormText; (\d+)\] = \[(.*?)\];", text, re.MULTILINE | re.DOTALL)
    forms = re.findall(r"\w+", found[2]) if found else []
    if not found or len(forms) != int(found[1]):
        raise Missing(f"{path} has no table {name}")
    return forms


def bytes_in(text, name):
    """A constant of bytes that is told as it stands."""
    found = re.search(rf'^const {name}: &\[u8\] = b"([^"\\]*)";', text, re.MULTILINE)
    if not found:
        raise Missing(f"{ABOUT} has no {name}")
    return found[1]


def help_in(read, names):
    """The text of `tesla --help`. `read` gives a file of the repository, and `names` the files of a pattern."""
    forms, about = forms_in(read, names), read(ABOUT)
    told = []
    for path, table in TABLES:
        for name in table_in(read(path), path, table):
            if name not in forms:
                raise Missing(f"no file {FILES} has the form {name}")
            told.append(f"tesla {forms[name][1]}\n{forms[name][2]}")
    return bytes_in(about, "HEAD") + "".join(told) + bytes_in(about, "FOOT")
