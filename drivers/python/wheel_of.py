"""Makes the wheel of the package, for pip: PEP 517's hooks, with the standard library alone, so that a build needs no
network and no setuptools.

It reads those lines of pyproject.toml that are a name and a text, or a list of texts. Two wheels of the same files are
the same bytes. scripts/release makes a wheel with programs and a library in it by `write_whole_wheel`.
"""
from __future__ import annotations

import ast
import base64
import hashlib
import io
import re
import tarfile
import zipfile
from pathlib import Path
from typing import Any, Dict, Iterable, Optional, Sequence, Tuple

HERE = Path(__file__).resolve().parent
PACKAGE = "nigbaru"
BUILT = f"{PACKAGE}/built"  # what was built for one platform
FIELD = re.compile(r'^([\w-]+) = (".*"|\[.*\])$', re.MULTILINE)
ANY = "py3-none-any"
WHEEL = "Wheel-Version: 1.0\nGenerator: wheel_of\nRoot-Is-Purelib: {pure}\nTag: {tag}\n"
COMMANDS = """[console_scripts]
nigbaru-server = nigbaru.programs:nigbaru_server
xa_script = nigbaru.programs:xa_script
"""
Files = Sequence[Tuple[str, bytes]]


def project() -> Dict[str, Any]:
    """The fields of the table [project]."""
    _, _, table = (HERE / "pyproject.toml").read_text(encoding="utf-8").partition("[project]\n")
    return {name: ast.literal_eval(value) for name, value in FIELD.findall(table)}


def metadata(fields: Dict[str, Any]) -> bytes:
    """What METADATA says."""
    lines = ["Metadata-Version: 2.1", f"Name: {fields['name']}", f"Version: {fields['version']}",
             f"Summary: {fields['description']}", f"Requires-Python: {fields['requires-python']}",
             *(f"Classifier: {it}" for it in fields["classifiers"]), "Description-Content-Type: text/markdown", "",
             (HERE / "README.md").read_text(encoding="utf-8")]
    return "\n".join(lines).encode()


def record(files: Iterable[Tuple[str, bytes]], info: str) -> bytes:
    """What RECORD says: each file with its sum and size."""
    sums = ((name, base64.urlsafe_b64encode(hashlib.sha256(data).digest()).rstrip(b"=").decode(), len(data))
            for name, data in files)
    return "".join([*(f"{name},sha256={sum_of},{size}\n" for name, sum_of, size in sums),
                    f"{info}/RECORD,,\n"]).encode()


def sources_of_package() -> Files:
    """The package's files."""
    found = sorted(path for path in (HERE / PACKAGE).rglob("*") if path.suffix == ".py" or path.name == "py.typed")
    return [(path.relative_to(HERE).as_posix(), path.read_bytes()) for path in found]


def write_wheel(folder: str, files: Files, tag: str = ANY, more: Files = ()) -> str:
    """Writes a wheel of these files of the package, with more files of its description, and gives its name."""
    fields = project()
    whole = f"{fields['name']}-{fields['version']}"
    info = f"{whole}.dist-info"
    kind = WHEEL.format(pure=str(tag == ANY).lower(), tag=tag)
    files = [*files, *((f"{info}/{name}", data) for name, data in more), (f"{info}/METADATA", metadata(fields)),
             (f"{info}/WHEEL", kind.encode())]
    name = f"{whole}-{tag}.whl"
    with zipfile.ZipFile(Path(folder) / name, "w", zipfile.ZIP_DEFLATED) as wheel:
        for path, data in [*files, (f"{info}/RECORD", record(files, info))]:
            entry = zipfile.ZipInfo(path)  # its time is 1980, whenever it is made
            mode = 0o100755 if path.startswith(f"{BUILT}/") else 0o100644
            entry.compress_type, entry.external_attr = zipfile.ZIP_DEFLATED, mode << 16
            wheel.writestr(entry, data)
    return name


def write_whole_wheel(folder: str, built: Iterable[Path], tag: str) -> str:
    """Writes a wheel for one platform, with these programs and libraries in it, and gives its name."""
    files = [(f"{BUILT}/{path.name}", path.read_bytes()) for path in built]
    return write_wheel(folder, [*sources_of_package(), *files], tag, [("entry_points.txt", COMMANDS.encode())])


def build_wheel(wheel_directory: str, config_settings: Optional[Dict[str, Any]] = None,
                metadata_directory: Optional[str] = None) -> str:
    """PEP 517's: a wheel of the package."""
    return write_wheel(wheel_directory, sources_of_package())


def build_editable(wheel_directory: str, config_settings: Optional[Dict[str, Any]] = None,
                   metadata_directory: Optional[str] = None) -> str:
    """PEP 660's: a wheel that leads to this folder, for `pip install -e`."""
    return write_wheel(wheel_directory, [(f"{PACKAGE}.pth", f"{HERE}\n".encode())])


def build_sdist(sdist_directory: str, config_settings: Optional[Dict[str, Any]] = None) -> str:
    """PEP 517's: an archive of what a wheel is made from."""
    fields = project()
    whole = f"{fields['name']}-{fields['version']}"
    sources = ["pyproject.toml", "wheel_of.py", "README.md", *(name for name, _ in sources_of_package())]
    files = [*((name, (HERE / name).read_bytes()) for name in sources), ("PKG-INFO", metadata(fields))]
    with tarfile.open(Path(sdist_directory) / f"{whole}.tar.gz", "w:gz", format=tarfile.PAX_FORMAT) as archive:
        for name, data in files:
            entry = tarfile.TarInfo(f"{whole}/{name}")
            entry.size = len(data)
            archive.addfile(entry, io.BytesIO(data))
    return f"{whole}.tar.gz"
