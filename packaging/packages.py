"""The Debian packages: which files each has, and how it is laid out and made."""
import email.utils
import glob
import gzip
import hashlib
import os
import re
import subprocess
import sys
import tempfile

from layout import DEBIAN, HERE, TOP, files_of, made, write
from libraries import HEADERS, SHARED, STATIC, make, pkg_config

sys.path.append(f"{TOP}/python")
from backend import metadata, project, sources, write_wheel  # noqa: E402

# What else a package's folder DEBIAN has: what the linker's cache, other packages and Python want to know.
TRIGGERS = b"activate-noawait ldconfig\n"
SHLIBS = "libtesla 0 libtesla0 (>= {version})\n"
COMPILE = b"""#!/bin/sh
set -e
if command -v py3compile > /dev/null 2>&1; then
    py3compile -p python3-tesla
fi
"""
CLEAN = b"""#!/bin/sh
set -e
if command -v py3clean > /dev/null 2>&1; then
    py3clean -p python3-tesla
fi
"""


def said(*words, **more):
    """What a program prints."""
    return subprocess.run(words, check=True, capture_output=True, text=True, **more).stdout


def read(path):
    """The bytes of a file."""
    with open(path, "rb") as file:
        return file.read()


def newest():
    """The version and the time of the newest entry of the changelog."""
    text = read(f"{HERE}/debian/changelog").decode()
    version = re.match(r"tesla \(([^)]+)\)", text)[1]
    time = re.search(r"^ -- .*>  (.*)$", text, re.MULTILINE)[1]
    return version, int(email.utils.parsedate_to_datetime(time).timestamp())


def multiarch():
    """The folder of this machine's libraries."""
    return f"lib/{said('dpkg-architecture', '-qDEB_HOST_MULTIARCH').strip()}"


def stripped(program, room):
    """A copy of the program without the names that only a debugger needs."""
    said("strip", "--strip-unneeded", "--remove-section=.comment", "--remove-section=.note", "-o", f"{room}/tesla", program)
    return f"{room}/tesla"


def needs_of(binary):
    """The packages whose libraries a binary needs, as a field of debian/control."""
    with tempfile.TemporaryDirectory() as room:
        os.mkdir(f"{room}/debian")
        write(f"{room}/debian/control", 0o644, b"Source: tesla\n\nPackage: tesla\nArchitecture: any\n")
        found = re.search(r"^shlibs:Depends=(.*)$", said("dpkg-shlibdeps", "-O", binary, cwd=room), re.MULTILINE)
    return found[1] if found else ""


# ---- what each package has

class Package:
    """A package: its files, each a path below /usr, its rights and its bytes; links; further files of DEBIAN; and the binary whose
    needs it has."""

    def __init__(self, name, files, links=(), control=(), binary=None):
        self.name, self.files, self.links, self.control, self.binary = name, list(files), dict(links), list(control), binary

    def documented(self):
        """Its files, with its changelog and its copyright."""
        changes = gzip.compress(read(f"{HERE}/debian/changelog"), 9, mtime=0)
        return sorted([*self.files, (f"share/doc/{self.name}/changelog.gz", 0o644, changes),
                       (f"share/doc/{self.name}/copyright", 0o644, read(f"{HERE}/debian/copyright"))])


def of_program(program, room):
    """The package of the program and of what belongs to it."""
    places = {**DEBIAN, "wireshark/tesla.lua": f"{multiarch()}/wireshark/plugins/tesla.lua"}
    binary = stripped(program, room)
    return Package("tesla", files_of(binary, "/usr", places), binary=binary)


def of_library(folder, version):
    """The package of the shared library."""
    names = re.findall(r" T (tesla_\w+)$", said("nm", "-D", "--defined-only", f"{folder}/{SHARED}"), re.MULTILINE)
    symbols = f"{SHARED} libtesla0 #MINVER#\n".replace("#MINVER#", f"(>= {version})")
    symbols += "".join(f" {name}@Base {version}\n" for name in sorted(names))
    control = [("triggers", 0o644, TRIGGERS), ("shlibs", 0o644, SHLIBS.format(version=version).encode()), ("symbols", 0o644, symbols.encode())]
    return Package("libtesla0", [(f"{multiarch()}/{SHARED}", 0o644, read(f"{folder}/{SHARED}"))], control=control,
                   binary=f"{folder}/{SHARED}")


def examples():
    """The files of examples/, and those that their text names."""
    for path in sorted(glob.glob(f"{TOP}/examples/*")):
        if os.path.isfile(path):
            rights = 0o755 if os.access(path, os.X_OK) else 0o644
            yield f"share/doc/libtesla-dev/examples/{os.path.basename(path)}", rights, read(path)


def of_development(folder):
    """The package of the headers, the static library and what pkg-config reads."""
    place = multiarch()
    files = [(f"include/{name}", 0o644, read(f"{TOP}/include/{name}")) for name in HEADERS]
    files += [(f"{place}/{STATIC}", 0o644, read(f"{folder}/{STATIC}")),
              (f"{place}/pkgconfig/libtesla.pc", 0o644, pkg_config("/usr", place).encode()),
              ("share/doc/libtesla-dev/EMBEDDING.md", 0o644, read(f"{TOP}/docs/EMBEDDING.md")), *examples()]
    return Package("libtesla-dev", files, links={f"{place}/libtesla.so": SHARED})


def of_python():
    """The package of what Python imports."""
    place, (name, version, _, _) = "lib/python3/dist-packages", project()
    files = [(f"{place}/{it}", 0o644, read(f"{TOP}/python/{it}")) for it in sources()]
    files.append((f"{place}/{name}-{version}.dist-info/METADATA", 0o644, metadata().encode()))
    return Package("python3-tesla", files, control=[("postinst", 0o755, COMPILE), ("prerm", 0o755, CLEAN)])


# ---- how it is made

def control_of(package, version):
    """The fields of a package."""
    texts = read(f"{HERE}/debian/control").decode().split("\n\n")
    text = next(it for it in texts if it.startswith(f"Package: {package.name}\n")).rstrip("\n") + "\n"
    size = sum(-(-len(data) // 1024) for _, _, data in package.documented())
    fields = {"VERSION": version, "ARCHITECTURE": said("dpkg", "--print-architecture").strip(), "SIZE": str(size),
              "DEPENDS": needs_of(package.binary) if package.binary else ""}
    for name, value in fields.items():
        text = text.replace(f"@{name}@", value)
    return text.replace("Depends: \n", "")


def lay_out(package, root, version):
    """Lays a package out below a root."""
    files = [(f"usr/{path}", rights, data) for path, rights, data in package.documented()]
    sums = "".join(f"{hashlib.md5(data).hexdigest()}  {path}\n" for path, _, data in files)
    files += [(f"DEBIAN/{name}", rights, data) for name, rights, data in package.control]
    files += [("DEBIAN/control", 0o644, control_of(package, version).encode()), ("DEBIAN/md5sums", 0o644, sums.encode())]
    for path, rights, data in files:
        made(os.path.dirname(f"{root}/{path}"))
        write(f"{root}/{path}", rights, data)
    for path, target in package.links.items():
        made(os.path.dirname(f"{root}/usr/{path}"))
        os.symlink(target, f"{root}/usr/{path}")
    if package.name == "tesla":
        made(f"{root}/etc/tesla")


def set_times(root, time):
    """Gives all below a root, and itself, one time."""
    for folder, _, names in os.walk(root):
        for name in [*names, "."]:
            os.utime(f"{folder}/{name}", (time, time), follow_symlinks=False)


def made_package(package, folder):
    """Makes a package, and answers its path."""
    version, time = newest()
    with tempfile.TemporaryDirectory() as room:
        root = f"{room}/root"
        made(root)
        lay_out(package, root, version)
        set_times(root, time)
        env = {**os.environ, "SOURCE_DATE_EPOCH": str(time), "LC_ALL": "C"}
        told = said("dpkg-deb", "--root-owner-group", "-Zxz", "--build", root, folder, env=env)
    return re.search(r"in '([^']+)'", told)[1]


def made_of_library(archive, folder):
    """Makes the packages of the library of the crate, and the wheel, and answers their paths."""
    version, time = newest()
    os.environ["SOURCE_DATE_EPOCH"] = str(time)
    with tempfile.TemporaryDirectory() as room:
        make(room, archive)
        for it in (of_library(room, version), of_development(room), of_python()):
            yield made_package(it, folder)
        yield f"{folder}/{write_wheel(folder, read(f'{room}/{SHARED}'))}"


def made_of_program(program, folder):
    """Makes the package of the program, and answers its path."""
    with tempfile.TemporaryDirectory() as room:
        return made_package(of_program(program, room), folder)
