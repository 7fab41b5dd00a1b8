"""Makes the package of this folder for `pip`, with nothing but Python's own library (PEP 517 and 660): so nothing is fetched.

    pip install --no-index clients/python

pyproject.toml names this module, and has what the package is called. The bytes that it makes hang on the files alone.
"""
from __future__ import annotations

import base64
import hashlib
import io
import pathlib
import re
import tarfile
import zipfile
from collections.abc import Mapping

TOP = pathlib.Path(__file__).resolve().parents[1]
Settings = Mapping[str, object] | None
# The first moment that a zip file can tell, and the mode of a file.
MOMENT, MODE = (1980, 1, 1, 0, 0, 0), 0o644


def project() -> dict[str, str]:
    """The texts that pyproject.toml says of the package."""
    told = (TOP / "pyproject.toml").read_text(encoding="utf-8").partition("[project]\n")[2].partition("\n[")[0]
    return dict(re.findall(r'^([a-z-]+) = "([^"]*)"$', told, re.MULTILINE))


def stem(it: Mapping[str, str]) -> str:
    return f"{it['name']}-{it['version']}"


def metadata(it: Mapping[str, str]) -> bytes:
    """What pip reads of the package."""
    lines = ["Metadata-Version: 2.1", f"Name: {it['name']}", f"Version: {it['version']}", f"Summary: {it['description']}",
             "License: MIT", f"Requires-Python: {it['requires-python']}", "Classifier: Typing :: Typed"]
    return "".join(f"{line}\n" for line in lines).encode()


def sources(*patterns: str) -> dict[str, bytes]:
    """The files of this folder that are so called."""
    return {str(it.relative_to(TOP)): it.read_bytes() for pattern in patterns for it in sorted(TOP.glob(pattern))}


def wheel(folder: str, files: dict[str, bytes]) -> str:
    """Writes a wheel of these files, and returns its name."""
    it = project()
    info, name = f"{stem(it)}.dist-info", f"{stem(it)}-py3-none-any.whl"
    says = b"Wheel-Version: 1.0\nGenerator: make_wheel\nRoot-Is-Purelib: true\nTag: py3-none-any\n"
    files = {**files, f"{info}/METADATA": metadata(it), f"{info}/WHEEL": says}
    record = ""
    for path, text in files.items():
        digest = base64.urlsafe_b64encode(hashlib.sha256(text).digest()).decode().rstrip("=")
        record += f"{path},sha256={digest},{len(text)}\n"
    files[f"{info}/RECORD"] = f"{record}{info}/RECORD,,\n".encode()
    with zipfile.ZipFile(pathlib.Path(folder) / name, "w", zipfile.ZIP_DEFLATED) as out:
        for path, text in files.items():
            entry = zipfile.ZipInfo(path, MOMENT)
            entry.compress_type, entry.external_attr = zipfile.ZIP_DEFLATED, MODE << 16
            out.writestr(entry, text)
    return name


def build_wheel(wheel_directory: str, config_settings: Settings = None, metadata_directory: str | None = None) -> str:
    return wheel(wheel_directory, sources("pathclient/*.py", "pathclient/py.typed"))


def build_editable(wheel_directory: str, config_settings: Settings = None, metadata_directory: str | None = None) -> str:
    """A wheel that only says where this folder is: `pip install -e`."""
    return wheel(wheel_directory, {"pathclient.pth": f"{TOP}\n".encode()})


def build_sdist(sdist_directory: str, config_settings: Settings = None) -> str:
    it = project()
    files = {"PKG-INFO": metadata(it), **sources("pyproject.toml", "backend/*.py", "pathclient/*.py", "pathclient/py.typed")}
    with tarfile.open(pathlib.Path(sdist_directory) / f"{stem(it)}.tar.gz", "w:gz", format=tarfile.PAX_FORMAT) as out:
        for path, text in files.items():
            entry = tarfile.TarInfo(f"{stem(it)}/{path}")
            entry.size, entry.mode = len(text), MODE
            out.addfile(entry, io.BytesIO(text))
    return f"{stem(it)}.tar.gz"
