"""The ways in which recordings are played to the library: programs in C and in C++, and the package of python/."""
import importlib
import os
import pathlib
import shutil
import subprocess
import sys
import tempfile

from embedding.package import Came, Player
from libraries import HEADERS, SHARED, STATIC, make, run

TOP = pathlib.Path(__file__).resolve().parent.parent.parent
HERE = TOP / ".ci/embedding"
WARNED = ("-Wall", "-Wextra", "-Werror", f"-I{TOP}/include")
WRAPS = [f"-Wl,--wrap={name}" for name in ("malloc", "realloc", "free")]
SANITIZERS = {"addresses": ("-fsanitize=address,undefined", {"ASAN_OPTIONS": "detect_leaks=1"}), "threads": ("-fsanitize=thread", {})}
STANDARDS = ("c++11", "c++14", "c++17", "c++20")
# What each first word reads, in order, and what it writes.
READS = {"replay": ("setup", "capture"), "follow": ("setup", "capture"), "send": ("setup", "secret", "script"), "setup": ("setup",),
         "make": ("secret",), "frames": ("capture",), "lag": ("ask", "reply", "key")}
WRITES = {"replay": ("out", "shown"), "follow": ("out", "shown"), "send": ("out",), "make": ("made",)}


def arranged(mode, words):
    """The words behind a first word: the names of files, with the others where they belong."""
    reads = READS[mode]
    front, back = (reads[:1], reads[1:]) if mode in ("replay", "follow") else (reads, ())
    return [*front, *words, *back, *WRITES.get(mode, ())]


class Program:
    """A program that plays, with its environment. `memory` is what the last run told of its memory."""

    def __init__(self, name, path, env, counts):
        self.name, self.path, self.env, self.counts, self.memory = name, path, env, counts, None

    def __call__(self, mode, files, words, env):
        """Plays files with words in a folder of its own."""
        with tempfile.TemporaryDirectory() as folder:
            for name, data in files.items():
                (pathlib.Path(folder) / name).write_bytes(data)
            ran = subprocess.run([self.path, mode, *arranged(mode, words)], cwd=folder, capture_output=True,
                                 env={**os.environ, **self.env, **env}, check=False)
            held = {it: pathlib.Path(folder) / it for it in WRITES.get(mode, ())}
            self.memory = ran.stderr.decode(errors="replace").split()
            return Came(ran.returncode, ran.stdout, {it: path.read_bytes() for it, path in held.items() if path.exists()})

    def faults(self):
        """What is wrong with the memory of the last run."""
        wanted = ["after", "0", "left", "0"] if self.counts else []
        return [] if self.memory[2:] == wanted else [" ".join(self.memory)]


class Package(Player):
    """The package of python/, which plays."""
    name, faults = "Python", staticmethod(list)


def is_made(*words):
    """Whether gcc makes a program of these words."""
    return subprocess.run([*map(str, words)], capture_output=True, check=False).returncode == 0


def in_c(folder):
    """The programs in C."""
    sources = sorted(HERE.glob("*.c"))
    words = ["-std=gnu11", "-pthread", *WARNED, *WRAPS, *sources, folder / STATIC]
    run("gcc", "-O2", "-o", folder / "player", *words)
    ways = [Program("C", folder / "player", {}, True), Program("four threads", folder / "player", {"THREADS": "4"}, True)]
    (folder / "empty.c").write_text("int main(void) { return 0; }\n")
    for name, (flag, env) in SANITIZERS.items():
        if is_made("gcc", flag, "-o", folder / "empty", folder / "empty.c") and is_made(folder / "empty"):
            run("gcc", "-O1", "-g", flag, "-o", folder / name, *words)
            ways += [Program(name, folder / name, env, True), Program(f"{name}, four threads", folder / name, {**env, "THREADS": "4"}, True)]
        else:
            print(f"not tried: gcc has no sanitizer of {name} here")
    return ways


def in_cpp(folder):
    """The programs in C++, one for each standard."""
    if not shutil.which("g++"):
        print("not tried: there is no g++ here")
        return []
    for it in STANDARDS:
        run("g++", f"-std={it}", "-O1", "-pedantic", "-fno-exceptions", *WARNED, "-o", folder / it, HERE / "player.cpp", folder / STATIC)
    return [Program(it, folder / it, {}, False) for it in STANDARDS]


def build(folder, archive):
    """Makes both libraries; answers all ways, and the package, which has the library beside it."""
    make(folder, archive)
    for language, name in (("c", "-std=c99"), ("c++", "-std=c++11")):
        run("gcc", "-x", language, name, "-pedantic", *WARNED, "-fsyntax-only", TOP / "include" / HEADERS[0])
    shutil.copytree(TOP / "python/tesla", folder / "tesla", ignore=shutil.ignore_patterns("__pycache__", SHARED))
    shutil.copy(folder / SHARED, folder / "tesla")
    sys.path.insert(0, str(folder))
    tesla = importlib.import_module("tesla")
    return [*in_c(folder), *in_cpp(folder), Package(tesla)], tesla
