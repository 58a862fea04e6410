"""Makes the wheel of this package: what pip calls by PEP 517, and by PEP 660 for `pip install -e`.

The wheel is a zip of the modules and of the released libraries. So nothing is compiled, nothing has to be fetched from a
network, and nothing is left in the checkout, which may be one that can't be written.
"""

from __future__ import annotations

import base64
import hashlib
import sys
import zipfile
from pathlib import Path

if sys.version_info >= (3, 11):
    import tomllib
else:
    import tomli as tomllib

HERE = Path(__file__).resolve().parent
RELEASE = HERE.parent / "release"
LIBRARIES = [f"{level}/libjlsrec.so.0.1.0" for level in ("x86-64-v2", "x86-64-v3")]

PROJECT = tomllib.loads((HERE / "pyproject.toml").read_text())["project"]
NAME = f"{PROJECT['name']}-{PROJECT['version']}"
INFO = f"{NAME}.dist-info"
# For any Python 3. It isn't manylinux, since the libraries want a processor of x86-64-v2.
TAG = "py3-none-linux_x86_64"


def build_wheel(folder: str, config_settings: dict | None = None, metadata: str | None = None) -> str:
    """Puts the wheel into a folder, and answers its name."""
    files = {}
    for path in sorted(HERE.glob("jlsrec/**/*")):
        if path.is_file() and "__pycache__" not in path.parts:
            files[path.relative_to(HERE).as_posix()] = path.read_bytes()
    files.update((f"jlsrec/{file}", data) for file, data in released().items())
    return write_wheel(folder, files)


def build_editable(folder: str, config_settings: dict | None = None, metadata: str | None = None) -> str:
    """The same of a wheel that has no modules, and by which Python finds those of the checkout."""
    return write_wheel(folder, {"jlsrec.pth": f"{HERE}\n".encode()})


def released() -> dict[str, bytes]:
    """The released libraries. Ends with a line where one isn't there, or isn't what was released."""
    for file in ("SHA256SUMS", *LIBRARIES):
        if not (RELEASE / file).is_file():
            sys.exit(f"jlsrec: there is no release/{file}, which the package is made of")
    sums = (RELEASE / "SHA256SUMS").read_text().splitlines()
    files = {file: (RELEASE / file).read_bytes() for file in LIBRARIES}
    for file, data in files.items():
        if f"{hashlib.sha256(data).hexdigest()}  {file}" not in sums:
            sys.exit(f"jlsrec: release/{file} isn't what release/SHA256SUMS says")
    return files


def write_wheel(folder: str, files: dict[str, bytes]) -> str:
    """Writes a wheel of these files, and of what pip wants to know of it: of the same files always the same bytes."""
    scripts = "".join(f"{name} = {place}\n" for name, place in PROJECT["scripts"].items())
    about = {
        "METADATA": about_project(),
        "WHEEL": f"Wheel-Version: 1.0\nGenerator: jlsrec\nRoot-Is-Purelib: false\nTag: {TAG}\n",
        "entry_points.txt": f"[console_scripts]\n{scripts}",
    }
    files = {**files, **{f"{INFO}/{name}": text.encode() for name, text in about.items()}}
    record = f"{INFO}/RECORD"
    files[record] = "".join([*(line_of(name, data) for name, data in files.items()), f"{record},,\n"]).encode()

    wheel = f"{NAME}-{TAG}.whl"
    with zipfile.ZipFile(Path(folder, wheel), "w") as archive:
        for name, data in files.items():
            entry = zipfile.ZipInfo(name)
            entry.external_attr = 0o100644 << 16
            archive.writestr(entry, data, zipfile.ZIP_DEFLATED)
    return wheel


def about_project() -> str:
    """What pyproject.toml says of the project, as a wheel says it."""
    lines = [
        "Metadata-Version: 2.1",
        f"Name: {PROJECT['name']}",
        f"Version: {PROJECT['version']}",
        f"Summary: {PROJECT['description']}",
        f"Requires-Python: {PROJECT['requires-python']}",
        *(f"Requires-Dist: {wanted}" for wanted in PROJECT["dependencies"]),
    ]
    for extra, list_of_wanted in PROJECT["optional-dependencies"].items():
        lines.append(f"Provides-Extra: {extra}")
        lines += [f'Requires-Dist: {wanted}; extra == "{extra}"' for wanted in list_of_wanted]
    return "".join(f"{line}\n" for line in lines)


def line_of(name: str, data: bytes) -> str:
    """The line of a wheel's list for one of its files."""
    digest = base64.urlsafe_b64encode(hashlib.sha256(data).digest()).rstrip(b"=").decode()
    return f"{name},sha256={digest},{len(data)}\n"
