"""Builds the wheel of the package tesla, as pip asks for it (PEP 517), with nothing but Python's own library.

Where libtesla.so.0 lies in the folder of the package, it is put into the wheel, which then is of this machine's kind.
"""
import base64
import glob
import hashlib
import os
import platform
import re
import time
import zipfile

HERE = os.path.dirname(os.path.abspath(__file__))
LIBRARY = "tesla/libtesla.so.0"
# No file of a zip has an earlier time.
FIRST = 315_532_800


def read(path):
    """The bytes of a file of this folder."""
    with open(f"{HERE}/{path}", "rb") as file:
        return file.read()


def project():
    """The name, the version, the least Python and the sentence of pyproject.toml."""
    text = read("pyproject.toml").decode()
    return [re.search(rf'^{key} = "([^"]+)"$', text, re.MULTILINE)[1] for key in ("name", "version", "requires-python", "description")]


def sources():
    """The paths of the package."""
    return [os.path.relpath(it, HERE) for it in sorted(glob.glob(f"{HERE}/tesla/*.py"))] + ["tesla/py.typed"]


def metadata():
    """What is told of the package."""
    name, version, least, sentence = project()
    return f"Metadata-Version: 2.1\nName: {name}\nVersion: {version}\nSummary: {sentence}\nRequires-Python: {least}\n"


def tag(has_library):
    """For which Pythons and machines the wheel is."""
    return f"py3-none-linux_{platform.machine()}" if has_library else "py3-none-any"


def row(path, data):
    """A line of RECORD."""
    digest = base64.urlsafe_b64encode(hashlib.sha256(data).digest()).rstrip(b"=").decode()
    return f"{path},sha256={digest},{len(data)}\n"


def write_wheel(folder, library):
    """Writes the wheel, with the bytes of the library or without any, and answers its name."""
    name, version, _, _ = project()
    told, kind = f"{name}-{version}.dist-info", tag(library is not None)
    wheel = f"Wheel-Version: 1.0\nGenerator: {name}\nRoot-Is-Purelib: {str(library is None).lower()}\nTag: {kind}\n"
    files = {it: read(it) for it in sources()}
    if library is not None:
        files[LIBRARY] = library
    files.update({f"{told}/METADATA": metadata().encode(), f"{told}/WHEEL": wheel.encode()})
    record = "".join(row(*it) for it in files.items()) + f"{told}/RECORD,,\n"
    when = time.gmtime(max(FIRST, int(os.environ.get("SOURCE_DATE_EPOCH", FIRST))))[:6]
    made = f"{name}-{version}-{kind}.whl"
    with zipfile.ZipFile(f"{folder}/{made}", "w", zipfile.ZIP_DEFLATED) as file:
        for path, data in {**files, f"{told}/RECORD": record.encode()}.items():
            entry = zipfile.ZipInfo(path, when)
            entry.external_attr, entry.compress_type = 0o100644 << 16, zipfile.ZIP_DEFLATED
            file.writestr(entry, data)
    return made


def build_wheel(wheel_directory, config_settings=None, metadata_directory=None):
    """Called by pip."""
    return write_wheel(wheel_directory, read(LIBRARY) if os.path.isfile(f"{HERE}/{LIBRARY}") else None)


def build_sdist(sdist_directory, config_settings=None):
    """Called by what makes archives of sources, of which none is made here."""
    raise NotImplementedError("the package is installed from this tree, or as a wheel")
