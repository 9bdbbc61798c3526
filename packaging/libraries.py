"""Makes libtesla.a, libtesla.so.0 and what pkg-config reads of the static library of the crate tesla_c."""
import os
import pathlib
import re
import shutil
import subprocess
import sys

TOP = pathlib.Path(__file__).resolve().parent.parent
CRATE = TOP / "crates/tesla_c"
HEADERS = ("tesla.h", "tesla.hpp")
STATIC, SHARED = "libtesla.a", "libtesla.so.0"
# Everything else that the objects define stays inside.
SHOWN = "{ global: tesla_*; local: *; };\n"


def run(*words, **how):
    """Runs words that have to succeed; what they print is taken."""
    return subprocess.run([*map(str, words)], check=True, capture_output=True, **how)


def toolchain():
    """The folder of the toolchain, above the `rt` that is called."""
    return pathlib.Path(shutil.which("rt")).resolve().parent.parent


def version():
    """Major, minor and patch of the header."""
    number = int(re.search(r"#define TESLA_VERSION 0x(\w+)", (TOP / "include/tesla.h").read_text())[1], 16)
    return ".".join(str(number >> shift & 255) for shift in (16, 8, 0))


def uses():
    """The libraries that each crate of crates.txt names."""
    rows = [line.partition("#")[0].partition(":") for line in (TOP / "crates.txt").read_text().splitlines()]
    return {name.split()[0]: named.split() for name, _, named in rows if name.strip()}


def below(crates, name):
    """The crates of the repository that a crate stands on, each once."""
    return list(dict.fromkeys(it for used in crates[name] if used in crates for it in (*below(crates, used), used)))


def built(name):
    """The library of a crate, where `rt ci` leaves it."""
    return TOP / f"crates/{name}/out/rlib/{name}.rlib"


def is_made(path, crate, used=()):
    """Whether what is made of a crate is there, and no file of it nor a library that it uses is younger."""
    files = [it for part in ("src", "specs", "proofs") for it in (TOP / f"crates/{crate}/{part}").rglob("*") if it.is_file()]
    return path.exists() and all(it.stat().st_mtime <= path.stat().st_mtime for it in (*files, *used))


def build_over(crates, archive):
    """Proves and builds the crate over libraries that are built."""
    kit, own = toolchain(), below(crates, CRATE.name)
    words = [f"--extern={it}={kit}/rlibs/{it}.rlib" for it in ("std", *crates[CRATE.name]) if it not in crates]
    words += [f"--extern={it}={built(it)}" for it in crates[CRATE.name] if it in crates]
    words += [f"-Ldependency={it}" for it in (kit / "rlibs", *(built(it).parent for it in own))]
    words += [f"--antt-project={kit}/rattle/logic/antt-project.json", f"--logic-built={kit}/logic_built", f"--toolchain={kit}/toolchain"]
    words += [f"--links={CRATE.name}=", f"--jobs={os.cpu_count()}", "--crate-type=staticlib", f"-o={archive}"]
    run(kit / "bin/rattle", "build", f"--crate-name={CRATE.name}", "src/lib.rt", *words, cwd=CRATE)


def made_by_crate():
    """The archive of the crate, which is proved and built where it isn't: over the libraries that `rt ci` left, or else by `rt lib`."""
    crates, archive = uses(), CRATE / "out/libtesla_c.a"
    libraries = below(crates, CRATE.name)
    if not all(is_made(built(it), it) for it in libraries):
        subprocess.run(["rt", "lib"], cwd=CRATE, check=True, stdout=sys.stderr)
    elif not is_made(archive, CRATE.name, map(built, libraries)):
        archive.parent.mkdir(exist_ok=True)
        build_over(crates, archive)
    return archive


def make(folder, archive=None):
    """Makes both libraries in a folder, of the crate's archive with the heap of the toolchain."""
    folder = pathlib.Path(folder)
    parts = folder / "parts"
    parts.mkdir()
    for it in (archive or made_by_crate(), toolchain() / "c/liblibc_c.a"):
        run("ar", "x", os.path.abspath(it), cwd=parts)
    objects = sorted(parts.glob("*.o"))
    (parts / "shown").write_text(SHOWN)
    run("gcc", "-shared", f"-Wl,-soname,{SHARED}", "-Wl,-z,defs", "-Wl,-z,relro,-z,now", f"-Wl,--version-script={parts}/shown",
        "-o", folder / SHARED, *objects)
    run("strip", "--strip-unneeded", "--remove-section=.comment", folder / SHARED)
    run("strip", "--strip-debug", "--remove-section=.comment", *objects)
    run("ar", "rcsD", folder / STATIC, *objects)
    shutil.rmtree(parts)


def pkg_config(prefix, libraries):
    """What pkg-config reads of the library: the folders of headers and of libraries below a prefix."""
    return f"""prefix={prefix}
includedir=${{prefix}}/include
libdir=${{prefix}}/{libraries}

Name: libtesla
Description: receivers and senders of TESLA streams (RFC 4082)
Version: {version()}
Libs: -L${{libdir}} -ltesla
Cflags: -I${{includedir}}
"""
