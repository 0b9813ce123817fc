"""Builds the wheel and the source archive with Python alone, so that `pip install .` needs no network.

The wheel has the shared library in it if there is one: that of `make lib`, or the file that the environment's
ADDRMAN_LIBRARY names. Then it is for Linux on x86-64; else it is for any machine, and the module looks for the library of
the system.
"""
import base64
import gzip
import hashlib
import io
import os
import tarfile
import zipfile
from pathlib import Path

NAME, VERSION, HERE = "addrman", "0.1.0", Path(__file__).resolve().parent
INFO = f"{NAME}-{VERSION}.dist-info"
METADATA = f"Metadata-Version: 2.1\nName: {NAME}\nVersion: {VERSION}\nSummary: The proved address manager of a Bitcoin node\nRequires-Python: >=3.9\n"
SOURCES = ("addrman/__init__.py", "addrman/py.typed", "backend.py", "pyproject.toml", "examples/pick.py")
LIBRARY = "addrman/libaddrman.so.1"


def library():
    """The bytes of the shared library, if there is one."""
    place = Path(os.environ.get("ADDRMAN_LIBRARY") or HERE.parent.parent / "bin/lib/libaddrman.so.1")
    return place.read_bytes() if place.is_file() else None


def build_wheel(wheel_directory, config_settings=None, metadata_directory=None):
    shared = library()
    tag = "py3-none-linux_x86_64" if shared else "py3-none-any"
    files = {name: (HERE / name).read_bytes() for name in SOURCES if name.startswith("addrman/")}
    if shared:
        files[LIBRARY] = shared
    files[f"{INFO}/METADATA"] = METADATA.encode()
    files[f"{INFO}/WHEEL"] = f"Wheel-Version: 1.0\nGenerator: backend\nRoot-Is-Purelib: {'false' if shared else 'true'}\nTag: {tag}\n".encode()
    record = "".join("%s,sha256=%s,%d\n" % (name, base64.urlsafe_b64encode(hashlib.sha256(data).digest()).rstrip(b"=").decode(), len(data))
                     for name, data in files.items())
    files[f"{INFO}/RECORD"] = f"{record}{INFO}/RECORD,,\n".encode()
    wheel = f"{NAME}-{VERSION}-{tag}.whl"
    with zipfile.ZipFile(Path(wheel_directory) / wheel, "w", zipfile.ZIP_DEFLATED) as out:
        for name, data in files.items():
            out.writestr(zipfile.ZipInfo(name), data, zipfile.ZIP_DEFLATED)
    return wheel


def build_sdist(sdist_directory, config_settings=None):
    """The sources of the module alone: the library is built from the repository."""
    archive, top = f"{NAME}-{VERSION}.tar.gz", f"{NAME}-{VERSION}"
    files = {f"{top}/{name}": (HERE / name).read_bytes() for name in SOURCES}
    files[f"{top}/PKG-INFO"] = METADATA.encode()
    packed = io.BytesIO()
    with tarfile.open(fileobj=packed, mode="w", format=tarfile.PAX_FORMAT) as out:
        for name, data in files.items():
            entry = tarfile.TarInfo(name)
            entry.size, entry.mode = len(data), 0o644
            out.addfile(entry, io.BytesIO(data))
    (Path(sdist_directory) / archive).write_bytes(gzip.compress(packed.getvalue(), mtime=0))
    return archive
