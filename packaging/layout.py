"""Which files are installed, and where: the one table for packaging/install, packaging/remove and packaging/package."""
import glob
import gzip
import os
import tempfile

HERE = os.path.dirname(os.path.abspath(__file__))
TOP = os.path.dirname(HERE)
PROGRAM = os.path.normpath(f"{HERE}/../crates/tesla/out/tesla")
LIST = "share/tesla/installed"
# What is written in the sources for the folder under which all is installed.
WRITTEN = ("/usr/bin/tesla ", "/usr/bin/tesla-status-to-prometheus ", "/usr/libexec/tesla/")

# The pages of the guide, and those beside it that it names, below the top of the repository. They lie there as here, so that
# the links between them lead to files.
GUIDE = ["README.md", "docs/COSTS.md", "docs/EMBEDDING.md", "docs/FORMATS.md", "docs/LAWS.md", "docs/OPERATING.md", "docs/PROTOCOL.md", "docs/RECEIVER.md",
         "docs/TRUST.md", *sorted(glob.glob("docs/operating/*.md", root_dir=TOP))]
PICTURES = sorted(glob.glob("docs/operating/pictures/*.png", root_dir=TOP))
MANUALS = ["tesla.1", "tesla-capture-to-pcap.1", "tesla-pcap-to-capture.1", "tesla-text-to-script.1", "tesla-join.1",
           "tesla-trace-to-html.1", "tesla-status-to-prometheus.1", "tesla-records.1",
           "tesla-readers.3", "tesla-formats.5", "tesla-units.7", "tesla-wireshark.7"]
# The scripts that are commands, and where they stand below the top of the repository.
SCRIPTS = {**dict.fromkeys(("tesla-capture-to-pcap", "tesla-pcap-to-capture", "tesla-text-to-script", "tesla-join", "tesla-trace-to-html",
                             "tesla-status-to-prometheus"), "converters"),
           "tesla-records": "readers"}

# A source below this folder, where it goes below the prefix, and its rights. In a path that ends with .gz it is compressed.
FILES = [
    *((f"../{folder}/{name}", f"bin/{name}", 0o755) for name, folder in SCRIPTS.items()),
    *((f"manuals/{name}", f"share/man/man{name[-1]}/{name}.gz", 0o644) for name in MANUALS),
    ("completions/tesla.bash", "share/bash-completion/completions/tesla", 0o644),
    ("completions/_tesla", "share/zsh/site-functions/_tesla", 0o644),
    ("systemd/tesla-receive@.service", "lib/systemd/system/tesla-receive@.service", 0o644),
    ("systemd/tesla-receive@.socket", "lib/systemd/system/tesla-receive@.socket", 0o644),
    ("systemd/tesla-follow@.service", "lib/systemd/system/tesla-follow@.service", 0o644),
    ("systemd/tesla-feed@.service", "lib/systemd/system/tesla-feed@.service", 0o644),
    ("systemd/tesla-prometheus@.service", "lib/systemd/system/tesla-prometheus@.service", 0o644),
    ("systemd/tesla-prometheus@.timer", "lib/systemd/system/tesla-prometheus@.timer", 0o644),
    ("systemd/sinks", "libexec/tesla/sinks", 0o755),
    ("systemd/stream.env", "share/doc/tesla/examples/stream.env", 0o644),
    *((f"../crates/tesla/data/{name}", f"share/doc/tesla/examples/data/{name}", 0o644)
      for name in ("setup", "secret", "script", "capture")),
    *((f"prometheus/{name}", f"share/tesla/prometheus/{name}", 0o644) for name in ("tesla.rules.yml", "tesla.rules.test.yml", "dashboard.json")),
    *((f"../converters/{name}", f"share/tesla/converters/{name}", 0o644) for name in ("tesla_trace.py", "tesla_pictures.py")),
    ("../readers/tesla_release.h", "include/tesla_release.h", 0o644),
    ("../readers/tesla_order.h", "include/tesla_order.h", 0o644),
    ("../readers/tesla_once.h", "include/tesla_once.h", 0o644),
    ("../readers/tesla_release.py", "share/tesla/readers/tesla_release.py", 0o644),
    ("../readers/tesla_order.py", "share/tesla/readers/tesla_order.py", 0o644),
    ("../readers/tesla_once.py", "share/tesla/readers/tesla_once.py", 0o644),
    ("../readers/show.py", "share/tesla/readers/show.py", 0o755),
    ("../readers/show.c", "share/tesla/readers/show.c", 0o644),
    *((f"../{page}", f"share/doc/tesla/{page}", 0o644) for page in [*GUIDE, *PICTURES]),
    ("wireshark/tesla.lua", "lib/wireshark/plugins/tesla.lua", 0o644),
]
# Where Debian wants something else.
DEBIAN = {"completions/_tesla": "share/zsh/vendor-completions/_tesla"}


def data_of(source, target, prefix):
    """What is installed of a source."""
    with open(f"{HERE}/{source}", "rb") as file:
        data = file.read()
    if source.startswith("systemd/"):
        for written in WRITTEN:
            data = data.replace(written.encode(), written.replace("/usr", prefix, 1).encode())
    return gzip.compress(data, 9, mtime=0) if target.endswith(".gz") else data


def files_of(program, prefix, places=None):
    """Each file that is installed under the prefix: its path below it, its rights, and its bytes. The dissector is left out
    where it isn't there."""
    with open(program, "rb") as file:
        yield "bin/tesla", 0o755, file.read()
    for source, target, rights in FILES:
        target = (places or {}).get(source, target)
        if os.path.exists(f"{HERE}/{source}") or not source.startswith("wireshark/"):
            yield target, rights, data_of(source, target, prefix)


def write(path, rights, data):
    """Writes a file under a new name and then moves it to its own, so that a program that runs from it isn't disturbed."""
    descriptor, name = tempfile.mkstemp(dir=os.path.dirname(path))
    try:
        with open(descriptor, "wb") as file:
            file.write(data)
        os.chmod(name, rights)
        os.rename(name, path)
    except BaseException:
        os.remove(name)
        raise


def made(folder):
    """Makes a folder and those above it, and answers the ones that weren't there."""
    if os.path.isdir(folder):
        return []
    above = made(os.path.dirname(folder))
    os.mkdir(folder)
    os.chmod(folder, 0o755)
    return [*above, folder]


def listed(prefix):
    """What was installed under a prefix: its folders, and its files."""
    if not os.path.exists(f"{prefix}/{LIST}"):
        return [], []
    with open(f"{prefix}/{LIST}", encoding="utf-8") as file:
        rows = [line.split(" ", 1) for line in file.read().splitlines()]
    return [name for kind, name in rows if kind == "folder"], [name for kind, name in rows if kind == "file"]


def note(prefix, folders, files):
    """Writes the list of what is installed under a prefix."""
    rows = [f"folder {it}\n" for it in folders] + [f"file {it}\n" for it in files]
    write(f"{prefix}/{LIST}", 0o644, "".join(rows).encode())


def install(program, prefix):
    """Installs all under a prefix, takes away what an earlier version had installed beside it, and answers what is there. An
    installation that breaks off can be taken away, or made again."""
    folders, before = listed(prefix)
    files = list(files_of(program, prefix))
    now = [path for path, _, _ in files]
    gone = sorted({*before} - {*now})
    for path in (LIST, *now):
        new = [os.path.relpath(it, prefix) for it in made(os.path.dirname(f"{prefix}/{path}"))]
        folders += new
        if new or path == LIST:
            note(prefix, folders, [*now, *gone])
    for path, rights, data in files:
        write(f"{prefix}/{path}", rights, data)
    take_away(prefix, [], gone)
    note(prefix, folders, now)
    return now


def take_away(prefix, folders, files):
    """Takes away these files, and these folders where they are empty."""
    for name in files:
        if os.path.islink(f"{prefix}/{name}") or os.path.isfile(f"{prefix}/{name}"):
            os.remove(f"{prefix}/{name}")
    for name in sorted(folders, key=len, reverse=True):
        if os.path.isdir(f"{prefix}/{name}") and not os.listdir(f"{prefix}/{name}"):
            os.rmdir(f"{prefix}/{name}")


def remove(prefix):
    """Takes away all that was installed under a prefix, and answers how many files those were."""
    folders, files = listed(prefix)
    take_away(prefix, folders, [*files, LIST] if files else [])
    return len(files)
