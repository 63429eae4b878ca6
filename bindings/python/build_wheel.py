"""Builds the wheel of this folder by what PEP 517 asks for, with Python alone: so `pip install` of it needs no network.

The wheel has the module `hazoxe`, the package `rxline`, and the library of the former where it stands beside it."""

import base64
import hashlib
import re
import zipfile
from pathlib import Path

HERE = Path(__file__).resolve().parent
MODULES = ["hazoxe.py", "rxline/*.py", "rxline/aio/*.py", "rxline/py.typed"]
LIBRARY = HERE / "libhazoxe.so"
WHEN = (1980, 1, 1, 0, 0, 0)  # the earliest that an archive can tell, so that the same files make the same wheel


def project():
    """Returns the texts of pyproject.toml by their keys."""
    return dict(re.findall(r'^([a-z-]+) = "(.*)"$', (HERE / "pyproject.toml").read_text(encoding="utf-8"), re.MULTILINE))


def contents(folder, tag):
    """Returns the names of the wheel's files, and their bytes."""
    of = project()
    for pattern in MODULES:
        for path in sorted(HERE.glob(pattern)):
            yield path.relative_to(HERE).as_posix(), path.read_bytes()
    if LIBRARY.exists():
        yield LIBRARY.name, LIBRARY.read_bytes()
    metadata = ["Metadata-Version: 2.1", f"Name: {of['name']}", f"Version: {of['version']}"]
    metadata += [f"Summary: {of['description']}", f"Requires-Python: {of['requires-python']}"]
    is_pure = str(not LIBRARY.exists()).lower()
    wheel = ["Wheel-Version: 1.0", "Generator: build_wheel.py", f"Root-Is-Purelib: {is_pure}", f"Tag: {tag}"]
    for name, lines in (("METADATA", metadata), ("WHEEL", wheel)):
        yield f"{folder}/{name}", "\n".join([*lines, ""]).encode()


def build_wheel(wheel_directory, config_settings=None, metadata_directory=None):
    """Writes the wheel into this directory, and returns its name."""
    tag = "py3-none-linux_x86_64" if LIBRARY.exists() else "py3-none-any"
    stem = f"{project()['name']}-{project()['version']}"
    folder, record = f"{stem}.dist-info", []
    with zipfile.ZipFile(Path(wheel_directory) / f"{stem}-{tag}.whl", "w") as wheel:
        for name, content in contents(folder, tag):
            wheel.writestr(zipfile.ZipInfo(name, WHEN), content, zipfile.ZIP_DEFLATED)
            digest = base64.urlsafe_b64encode(hashlib.sha256(content).digest()).rstrip(b"=").decode()
            record.append(f"{name},sha256={digest},{len(content)}")
        wheel.writestr(zipfile.ZipInfo(f"{folder}/RECORD", WHEN), "\n".join([*record, f"{folder}/RECORD,,", ""]))
    return f"{stem}-{tag}.whl"
