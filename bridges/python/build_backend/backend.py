"""The build backend of this package, by the standard library alone: wheels and source archives (PEP 517, 660)."""

import base64
import csv
import hashlib
import io
import re
import tarfile
import zipfile
from pathlib import Path

TOP = Path(__file__).resolve().parent.parent
NAME = "gannetdivan"
VERSION = re.search(r'^__version__ = "(.+)"$', (TOP / NAME / "__init__.py").read_text("utf-8"), re.MULTILINE)[1]
INFO = f"{NAME}-{VERSION}.dist-info"

METADATA = f"""\
Metadata-Version: 2.1
Name: {NAME}
Version: {VERSION}
Summary: Coherent configurations and association schemes, by the program cohere
Requires-Python: >=3.9
Provides-Extra: draw
Requires-Dist: matplotlib; extra == "draw"
Requires-Dist: networkx; extra == "draw"
"""

WHEEL = f"""\
Wheel-Version: 1.0
Generator: {NAME} in-tree backend
Root-Is-Purelib: true
Tag: py3-none-any
"""


def build_wheel(wheel_directory, config_settings=None, metadata_directory=None):
    """Write the wheel, and tell its name."""
    files = {f"{NAME}/{it.name}": it.read_bytes() for it in _sources()}
    return _write_wheel(wheel_directory, files)


def build_editable(wheel_directory, config_settings=None, metadata_directory=None):
    """Write a wheel that has the package where it stands, and tell its name."""
    return _write_wheel(wheel_directory, {f"{NAME}.pth": f"{TOP}\n".encode()})


def build_sdist(sdist_directory, config_settings=None):
    """Write the source archive, and tell its name."""
    base = f"{NAME}-{VERSION}"
    with tarfile.open(Path(sdist_directory, f"{base}.tar.gz"), "w:gz") as archive:
        for it in [TOP / "pyproject.toml", Path(__file__).resolve(), *_sources()]:
            archive.add(it, f"{base}/{it.relative_to(TOP)}")
        _add_text(archive, f"{base}/PKG-INFO", METADATA)
    return f"{base}.tar.gz"


def _sources():
    return sorted(it for it in (TOP / NAME).iterdir() if it.suffix == ".py" or it.name == "py.typed")


def _add_text(archive, name, text):
    entry = tarfile.TarInfo(name)
    entry.size = len(text.encode())
    archive.addfile(entry, io.BytesIO(text.encode()))


def _write_wheel(folder, files):
    files = {**files, f"{INFO}/METADATA": METADATA.encode(), f"{INFO}/WHEEL": WHEEL.encode()}
    files[f"{INFO}/RECORD"] = _record(files).encode()
    name = f"{NAME}-{VERSION}-py3-none-any.whl"
    with zipfile.ZipFile(Path(folder, name), "w", zipfile.ZIP_DEFLATED) as wheel:
        for path, content in files.items():
            # (without a date, the same files give the same wheel)
            entry = zipfile.ZipInfo(path)
            entry.external_attr = 0o644 << 16
            entry.compress_type = zipfile.ZIP_DEFLATED
            wheel.writestr(entry, content)
    return name


def _record(files):
    """Write the list of the files, each with its checksum and length."""
    text = io.StringIO()
    rows = csv.writer(text, lineterminator="\n")
    for path, content in files.items():
        digest = base64.urlsafe_b64encode(hashlib.sha256(content).digest()).rstrip(b"=").decode()
        rows.writerow([path, f"sha256={digest}", len(content)])
    rows.writerow([f"{INFO}/RECORD", "", ""])
    return text.getvalue()
