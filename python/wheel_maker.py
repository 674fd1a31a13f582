"""Makes the package for pip, with the standard library alone, so that it is installed without a network: the module, and the library that ./build
made, where there is one. A package with the library is for the kind of machine that it was made on."""

from __future__ import annotations

import base64
import hashlib
import sysconfig
import tarfile
import zipfile
from pathlib import Path

HERE = Path(__file__).resolve().parent
MADE = HERE.parent / "target" / "mengkiloh" / "libmengkiloh.so"
ROWS = dict(
    line.split(" = ", 1) for line in (HERE / "pyproject.toml").read_text().split("[project]")[1].splitlines() if " = " in line
)
NAME, VERSION, SUMMARY, PYTHON = (ROWS[row].strip('"') for row in ("name", "version", "description", "requires-python"))


def files() -> dict[str, bytes]:
    """What is installed, by its place."""
    sources = sorted([*HERE.glob("mengkiloh/*.py"), HERE / "mengkiloh" / "py.typed"])
    found = {file.relative_to(HERE).as_posix(): file.read_bytes() for file in sources}
    if MADE.exists():
        found[f"mengkiloh/{MADE.name}"] = MADE.read_bytes()
    return found


def metadata() -> str:
    head = f"Metadata-Version: 2.1\nName: {NAME}\nVersion: {VERSION}\nSummary: {SUMMARY}\nRequires-Python: {PYTHON}\n"
    return f"{head}Description-Content-Type: text/markdown\n\n{(HERE / 'README.md').read_text()}"


def build_wheel(folder: str, config_settings: object = None, metadata_directory: object = None) -> str:
    """The package, as pip asks for it."""
    machine = sysconfig.get_platform().replace("-", "_").replace(".", "_") if MADE.exists() else "any"
    tag = f"py3-none-{machine}"
    about = f"{NAME}-{VERSION}.dist-info"
    pure = str(machine == "any").lower()
    held = files() | {
        f"{about}/METADATA": metadata().encode(),
        f"{about}/WHEEL": f"Wheel-Version: 1.0\nGenerator: {NAME}\nRoot-Is-Purelib: {pure}\nTag: {tag}\n".encode(),
    }
    rows = []
    for place, content in held.items():
        digest = base64.urlsafe_b64encode(hashlib.sha256(content).digest()).rstrip(b"=").decode()
        rows.append(f"{place},sha256={digest},{len(content)}\n")
    held[f"{about}/RECORD"] = "".join([*rows, f"{about}/RECORD,,\n"]).encode()
    name = f"{NAME}-{VERSION}-{tag}.whl"
    with zipfile.ZipFile(Path(folder, name), "w", zipfile.ZIP_DEFLATED) as wheel:
        for place, content in held.items():
            wheel.writestr(place, content)
    return name


def build_sdist(folder: str, config_settings: object = None) -> str:
    """The source of the package."""
    name = f"{NAME}-{VERSION}.tar.gz"
    with tarfile.open(Path(folder, name), "w:gz") as source:
        for file in sorted([*HERE.glob("*.*"), *HERE.glob("mengkiloh/*.*"), *HERE.glob("tests/*.py")]):
            source.add(file, f"{NAME}-{VERSION}/{file.relative_to(HERE).as_posix()}")
    return name
