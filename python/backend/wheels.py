"""Builds the wheel: the package and its shared library. It needs a C compiler, the archive and no network.

The archive is that of the repository, or the one that the variable CRON_C_ARCHIVE names.
"""

from __future__ import annotations

import base64
import hashlib
import io
import os
import pathlib
import re
import shlex
import subprocess
import tarfile
import tempfile
import zipfile
from typing import Dict, Optional, Tuple

NAME = "cron_c"
HERE = pathlib.Path(__file__).resolve().parent.parent
SOURCES = HERE / "src"
PACKAGE = SOURCES / NAME
TAG = "py3-none-linux_x86_64"
LICENSES = ("LICENSE-APACHE", "LICENSE-MIT")
WHEEL = f"""Wheel-Version: 1.0
Generator: {NAME}
Root-Is-Purelib: false
Tag: {TAG}
"""
MISSING = "no archive at {}: make it by crates/cron_c/archive, or name one in CRON_C_ARCHIVE"

Files = Dict[str, bytes]
Settings = Optional[Dict[str, object]]


def version() -> str:
    """The version that the package names."""
    found = re.search(r'^__version__ = "(.+)"$', (PACKAGE / "__init__.py").read_text(), re.MULTILINE)
    if found is None:
        raise ValueError("the package names no version")
    return found[1]


VERSION = version()


def told(key: str) -> str:
    """The text that pyproject.toml gives this key. Python 3.10 has no reader of such files."""
    found = re.search(rf'^{key} = "(.+)"$', (HERE / "pyproject.toml").read_text(), re.MULTILINE)
    if found is None:
        raise ValueError(f"pyproject.toml gives no {key}")
    return found[1]


def told_list(key: str, pattern: str) -> list[str]:
    """What the list of pyproject.toml under this key has, by a pattern of each entry."""
    _, _, rest = (HERE / "pyproject.toml").read_text().partition(f"\n{key} = [\n")
    return re.findall(pattern, rest.partition("\n]")[0])


def metadata() -> bytes:
    """What the wheel says of itself, and behind it the page."""
    lines = [
        "Metadata-Version: 2.1",
        f"Name: {NAME}",
        f"Version: {VERSION}",
        f"Summary: {told('description')}",
        *[f"Author: {it}" for it in told_list("authors", r'name = "(.+?)"')],
        "License: MIT OR Apache-2.0",
        *[f"License-File: {it}" for it in LICENSES],
        *[f"Classifier: {it}" for it in told_list("classifiers", r'"(.+?)"')],
        f"Requires-Python: {told('requires-python')}",
        "Description-Content-Type: text/markdown",
    ]
    page = (HERE / "README.md").read_text(encoding="utf-8")
    return ("\n".join(lines) + "\n\n" + page).encode()


def license_text(name: str) -> bytes:
    """The text of a licence, which in a checkout stands above this folder."""
    beside = HERE / name
    return (beside if beside.exists() else HERE.parent / name).read_bytes()


def archive() -> str:
    """The path of the archive."""
    path = os.environ.get("CRON_C_ARCHIVE") or HERE.parent / "crates" / NAME / "out" / "whole" / f"lib{NAME}.a"
    if not os.path.exists(path):
        raise FileNotFoundError(MISSING.format(path))
    return os.fspath(path)


def library() -> bytes:
    """The bytes of the shared library."""
    with tempfile.TemporaryDirectory() as room:
        target = os.path.join(room, f"lib{NAME}.so")
        whole = ["-Wl,--whole-archive", archive(), "-Wl,--no-whole-archive"]
        compiler = shlex.split(os.environ.get("CC", "cc"))
        subprocess.run([*compiler, "-shared", "-o", target, *whole], check=True)
        return pathlib.Path(target).read_bytes()


def information() -> Files:
    """What each wheel says of itself, by its paths."""
    room = f"{NAME}-{VERSION}.dist-info"
    texts = {f"{room}/licenses/{it}": license_text(it) for it in LICENSES}
    return {**texts, f"{room}/METADATA": metadata(), f"{room}/WHEEL": WHEEL.encode()}


def files() -> Files:
    """What the wheel holds, by its paths."""
    sources = sorted(PACKAGE.glob("*.py")) + [PACKAGE / "py.typed"]
    held = {f"{NAME}/{it.name}": it.read_bytes() for it in sources}
    held[f"{NAME}/lib{NAME}.so"] = library()
    return {**held, **information()}


def editable_files() -> Files:
    """What a wheel holds by which the package is imported from its sources. The shared library is put beside these."""
    target = PACKAGE / f"lib{NAME}.so"
    target.unlink(missing_ok=True)
    target.write_bytes(library())
    return {f"{NAME}.pth": f"{SOURCES}\n".encode(), **information()}


def record(held: Files) -> Tuple[str, bytes]:
    """The line of each file with its hash and its size."""
    path = f"{NAME}-{VERSION}.dist-info/RECORD"
    lines = []
    for name, data in held.items():
        digest = base64.urlsafe_b64encode(hashlib.sha256(data).digest()).rstrip(b"=").decode()
        lines.append(f"{name},sha256={digest},{len(data)}\n")
    return path, "".join([*lines, f"{path},,\n"]).encode()


def write_wheel(folder: str, held: Files) -> str:
    """Writes a wheel with these files into the folder, and returns its name."""
    name = f"{NAME}-{VERSION}-{TAG}.whl"
    path, lines = record(held)
    with zipfile.ZipFile(os.path.join(folder, name), "w", zipfile.ZIP_DEFLATED) as wheel:
        for inside, data in {**held, path: lines}.items():
            wheel.writestr(inside, data)
    return name


def build_wheel(wheel_directory: str, config_settings: Settings = None, metadata_directory: Optional[str] = None) -> str:
    """Writes the wheel into the folder, and returns its name."""
    return write_wheel(wheel_directory, files())


def build_editable(wheel_directory: str, config_settings: Settings = None, metadata_directory: Optional[str] = None) -> str:
    """Writes a wheel that names the sources into the folder, and returns its name."""
    return write_wheel(wheel_directory, editable_files())


def without_what_is_made(file: tarfile.TarInfo) -> Optional[tarfile.TarInfo]:
    """Leaves out what Python compiled, and a shared library."""
    return None if "__pycache__" in file.name or file.name.endswith(".so") else file


def add_bytes(sources: tarfile.TarFile, path: str, data: bytes) -> None:
    """Adds a file with these bytes."""
    about = tarfile.TarInfo(path)
    about.size = len(data)
    sources.addfile(about, io.BytesIO(data))


def build_sdist(sdist_directory: str, config_settings: Settings = None) -> str:
    """Writes the sources into the folder as an archive, and returns its name."""
    name = f"{NAME}-{VERSION}"
    with tarfile.open(os.path.join(sdist_directory, f"{name}.tar.gz"), "w:gz") as sources:
        for part in ("pyproject.toml", "README.md", "backend", "src", "tests"):
            sources.add(HERE / part, f"{name}/{part}", filter=without_what_is_made)
        for text in LICENSES:
            add_bytes(sources, f"{name}/{text}", license_text(text))
        add_bytes(sources, f"{name}/PKG-INFO", metadata())
    return f"{name}.tar.gz"
