"""Packs the package with the library that `make library` has built, and as a script the program `yaml_cli` where
`make program` has built it: what `pip install ./bindings/python` calls (PEP 517).

A wheel is a zip archive with a list of what it holds, and nothing is compiled here, so that no other tool is needed and
nothing is downloaded.
"""

from __future__ import annotations

import base64
import hashlib
import os
import re
import sys
import zipfile
from collections.abc import Iterator
from typing import Any

_HERE = os.path.dirname(os.path.abspath(__file__))
_TOP = os.path.normpath(os.path.join(_HERE, "..", ".."))
_LIBRARY = os.path.join(_TOP, "out", "library", "libyaml_c.so")
_PROGRAM = os.path.join(_TOP, "crates", "yaml_cli", "out", "yaml_cli")
_NAME = "yaml_c"
_METADATA = """\
Metadata-Version: 2.1
Name: {name}
Version: {version}
Summary: A proved YAML 1.1 engine, parser and emitter, with libyaml's answers
Author: The Zurkjoft authors
License: MIT
License-File: LICENSE
Keywords: yaml,parser,emitter,verified
Requires-Python: >=3.10
Classifier: Development Status :: 5 - Production/Stable
Classifier: Intended Audience :: Developers
Classifier: License :: OSI Approved :: MIT License
Classifier: Operating System :: POSIX :: Linux
Classifier: Programming Language :: Python :: 3
Classifier: Programming Language :: Python :: 3.10
Classifier: Programming Language :: Python :: 3.11
Classifier: Programming Language :: Python :: 3.12
Classifier: Programming Language :: Python :: Implementation :: CPython
Classifier: Topic :: Text Processing :: Markup
Classifier: Typing :: Typed
Description-Content-Type: text/markdown

"""
_WHEEL = """\
Wheel-Version: 1.0
Generator: {name} {version}
Root-Is-Purelib: false
Tag: {tag}
"""


def _read(*path: str) -> bytes:
    with open(os.path.join(*path), "rb") as file:
        return file.read()


def _version() -> str:
    stated = re.search(rb'^VERSION = "(.+)"$', _read(_HERE, _NAME, "_version.py"), re.MULTILINE)
    assert stated
    return stated[1].decode()


def _tag() -> str:
    """Any Python 3, since the library is called by no interface of Python's, and the glibc that what is in it needs (`make dist-test`)."""
    return f"py3-none-manylinux_{'2_34' if os.path.exists(_PROGRAM) else '2_17'}_x86_64"


def _files() -> Iterator[tuple[str, bytes]]:
    """What the wheel holds, except the list of that. An installer puts the program beside Python's own."""
    for name in sorted(os.listdir(os.path.join(_HERE, _NAME))):
        if name.endswith((".py", ".pyi", ".typed")):
            yield f"{_NAME}/{name}", _read(_HERE, _NAME, name)
    yield f"{_NAME}/libyaml_c.so", _read(_LIBRARY)
    if os.path.exists(_PROGRAM):
        yield f"{_NAME}-{_version()}.data/scripts/yaml_cli", _read(_PROGRAM)
    told = {"name": _NAME, "version": _version(), "tag": _tag()}
    info = f"{_NAME}-{told['version']}.dist-info"
    yield f"{info}/LICENSE", _read(_TOP, "LICENSE")
    yield f"{info}/METADATA", _METADATA.format(**told).encode() + _read(_HERE, "README.md")
    yield f"{info}/WHEEL", _WHEEL.format(**told).encode()


def get_requires_for_build_wheel(config_settings: Any = None) -> list[str]:
    """Nothing except the library, and one line where that isn't there."""
    if not os.path.exists(_LIBRARY):
        sys.exit(f"{_NAME}: {_LIBRARY} isn't there, and the wheel holds it: run make library first")
    return []


def build_wheel(wheel_directory: str, config_settings: Any = None, metadata_directory: str | None = None) -> str:
    """Writes the wheel into the folder, and answers its name."""
    get_requires_for_build_wheel()
    name, rows = f"{_NAME}-{_version()}-{_tag()}.whl", []
    record = f"{_NAME}-{_version()}.dist-info/RECORD"
    with zipfile.ZipFile(os.path.join(wheel_directory, name), "w", zipfile.ZIP_DEFLATED) as wheel:
        for path, data in _files():
            digest = base64.urlsafe_b64encode(hashlib.sha256(data).digest()).decode().rstrip("=")
            rows.append(f"{path},sha256={digest},{len(data)}\n")
            entry = zipfile.ZipInfo(path)
            entry.external_attr = (0o100755 if "/scripts/" in path else 0o100644) << 16
            wheel.writestr(entry, data, zipfile.ZIP_DEFLATED)
        wheel.writestr(zipfile.ZipInfo(record), "".join([*rows, f"{record},,\n"]), zipfile.ZIP_DEFLATED)
    return name


def build_sdist(sdist_directory: str, config_settings: Any = None) -> str:
    """There is none: the library comes from the repository."""
    sys.exit(f"{_NAME}: the library is built from the repository, so that the package has no source distribution")
