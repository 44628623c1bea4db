"""Builds the wheel, by the standard library alone. The wheel brings libsto.so: the one that STO_LIBRARY names, or else one that rustc makes
of the plain sources, of which nothing is proved. `sto.build()` tells which it is."""
import base64
import hashlib
import io
import os
import re
import subprocess
import sys
import sysconfig
import tarfile
import tempfile
import zipfile

HERE = os.path.dirname(os.path.abspath(__file__))
# (a source distribution brings the plain sources; in the repository they are made of the proved ones)
BROUGHT = os.path.join(HERE, "plain_library")
SCRIPT = os.path.join(HERE, "..", "plain", "plain.py")
PACKAGE = ("pyproject.toml", "build_wheel.py", "README.md", "sto", "tests")
BASE = (1980, 1, 1, 0, 0, 0)


def read(path):
    with open(path, "rb") as file:
        return file.read()


NAME = "sto"
VERSION = re.search(r'(?m)^version = "(.*)"', read(os.path.join(HERE, "pyproject.toml")).decode())[1]
INFO = f"{NAME}-{VERSION}.dist-info"


def metadata():
    readme = read(os.path.join(HERE, "README.md")).decode()
    return (f"Metadata-Version: 2.1\nName: {NAME}\nVersion: {VERSION}\nSummary: Transactions over shared objects\n"
            f"License: MIT OR Apache-2.0\nRequires-Python: >=3.8\nDescription-Content-Type: text/markdown\n\n{readme}").encode()


def plain_sources(folder):
    """Returns the folder of the plain sources, which are made where they are not brought."""
    if os.path.isdir(BROUGHT):
        return BROUGHT
    if not os.path.exists(SCRIPT):
        raise SystemExit("the sources of the library are not there: build in a clone of the repository, or name a library by STO_LIBRARY")
    subprocess.run([sys.executable, "-B", SCRIPT, "--library", folder], check=True)
    return folder


def library():
    """Returns the library that the wheel is to bring."""
    given = os.environ.get("STO_LIBRARY")
    if given:
        return read(given)
    with tempfile.TemporaryDirectory() as folder:
        sources, made = plain_sources(os.path.join(folder, "plain")), os.path.join(folder, "libsto.so")
        print("building the plain library by rustc: nothing is proved of it", flush=True)
        rustc = [os.environ.get("RUSTC", "rustc"), "--edition", "2021", "-O", "-C", "panic=abort", "-C", "strip=symbols"]
        subprocess.run([*rustc, "--crate-type", "cdylib", "--crate-name", "sto", os.path.join(sources, "lib.rs"), "-o", made], check=True)
        return read(made)


def record(files):
    """Returns the list of the wheel's files, with their sums."""
    digest = lambda data: base64.urlsafe_b64encode(hashlib.sha256(data).digest()).rstrip(b"=").decode()
    lines = [f"{name},sha256={digest(data)},{len(data)}\n" for name, data in files.items()]
    return "".join([*lines, f"{INFO}/RECORD,,\n"]).encode()


def build_wheel(wheel_directory, config_settings=None, metadata_directory=None):
    tag = "py3-none-" + re.sub(r"[-.]", "_", sysconfig.get_platform())
    names = sorted(it for it in os.listdir(os.path.join(HERE, NAME)) if it.endswith((".py", ".typed")))
    files = {f"{NAME}/{it}": read(os.path.join(HERE, NAME, it)) for it in names}
    files[f"{NAME}/libsto.so"] = library()
    files[f"{INFO}/METADATA"] = metadata()
    files[f"{INFO}/WHEEL"] = f"Wheel-Version: 1.0\nGenerator: {NAME}\nRoot-Is-Purelib: false\nTag: {tag}\n".encode()
    files[f"{INFO}/RECORD"] = record(files)
    wheel = f"{NAME}-{VERSION}-{tag}.whl"
    with zipfile.ZipFile(os.path.join(wheel_directory, wheel), "w", zipfile.ZIP_DEFLATED) as out:
        for name, data in files.items():
            entry = zipfile.ZipInfo(name, BASE)
            entry.compress_type = zipfile.ZIP_DEFLATED
            entry.external_attr = (0o755 if name.endswith(".so") else 0o644) << 16
            out.writestr(entry, data)
    return wheel


def build_sdist(sdist_directory, config_settings=None):
    base = f"{NAME}-{VERSION}"
    is_source = lambda entry: None if "__pycache__" in entry.name or entry.name.endswith(".so") else entry
    with tempfile.TemporaryDirectory() as folder, tarfile.open(os.path.join(sdist_directory, f"{base}.tar.gz"), "w:gz") as out:
        for name in PACKAGE:
            out.add(os.path.join(HERE, name), f"{base}/{name}", filter=is_source)
        out.add(plain_sources(os.path.join(folder, "plain")), f"{base}/plain_library")
        info, data = tarfile.TarInfo(f"{base}/PKG-INFO"), metadata()
        info.size = len(data)
        out.addfile(info, io.BytesIO(data))
    return f"{base}.tar.gz"
