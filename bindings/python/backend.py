"""The build backend of the Python binding (PEP 517): a wheel of the package, the proved library as a shared object, and the modules that read sheets.

In a clone these are in target/shared, which tools/archive makes, and in tools/; where the binding is installed they are in the package already."""
import ast
import base64
import hashlib
import pathlib
import re
import zipfile
from typing import Any, Dict, List, Optional

HERE = pathlib.Path(__file__).resolve().parent
CLONE = HERE.parents[1]
LIBRARY = "libsivorandra.so"
TAG = "py3-none-linux_x86_64"
TIME = (1980, 1, 1, 0, 0, 0)  # of every file, so that a wheel of the same files is the same


def found(*places: pathlib.Path) -> pathlib.Path:
    """The first of these files that is there."""
    for place in places:
        if place.is_file():
            return place
    raise SystemExit(f"sivorandra: {places[-1]} is missing; in a clone tools/archive makes it")


def version() -> str:
    return found(HERE / "VERSION", CLONE / "VERSION").read_text(encoding="utf-8").strip()


def sheet_tools() -> List[str]:
    """The files that read sheets, by the line of sheets.py that names them."""
    line = re.search(r"^MODULES = (.*)$", (HERE / "sivorandra" / "sheets.py").read_text(encoding="utf-8"), re.M)
    return [f"{name}.py" for name in ast.literal_eval(line[1])]


def contents() -> Dict[str, bytes]:
    """The files of the package by their names in a wheel."""
    package = HERE / "sivorandra"
    files = {f"sivorandra/{path.name}": path for path in sorted(package.iterdir()) if path.suffix == ".py" or path.name == "py.typed"}
    files[f"sivorandra/{LIBRARY}"] = found(package / LIBRARY, CLONE / "target" / "shared" / LIBRARY)
    for name in sheet_tools():
        files[f"sivorandra/sheet_tools/{name}"] = found(package / "sheet_tools" / name, CLONE / "tools" / name)
    return {name: path.read_bytes() for name, path in files.items()}


def metadata() -> Dict[str, bytes]:
    folder = f"sivorandra-{version()}.dist-info"
    said = ["Metadata-Version: 2.1", "Name: sivorandra", f"Version: {version()}", "Summary: Typed calls of Sivorandra, a proved timing judge for tables of gang tasks", "Requires-Python: >=3.9", ""]
    wheel = ["Wheel-Version: 1.0", "Generator: sivorandra", "Root-Is-Purelib: false", f"Tag: {TAG}", ""]
    return {f"{folder}/METADATA": "\n".join(said).encode(), f"{folder}/WHEEL": "\n".join(wheel).encode()}


def digest(data: bytes) -> str:
    return base64.urlsafe_b64encode(hashlib.sha256(data).digest()).rstrip(b"=").decode()


def get_requires_for_build_wheel(config_settings: Optional[Dict[str, Any]] = None) -> List[str]:
    return []


def build_wheel(wheel_directory: str, config_settings: Optional[Dict[str, Any]] = None, metadata_directory: Optional[str] = None) -> str:
    """Writes the wheel, and returns its name."""
    files = {**contents(), **metadata()}
    record = f"sivorandra-{version()}.dist-info/RECORD"
    lines = [f"{name},sha256={digest(data)},{len(data)}\n" for name, data in files.items()] + [f"{record},,\n"]
    name = f"sivorandra-{version()}-{TAG}.whl"
    with zipfile.ZipFile(pathlib.Path(wheel_directory, name), "w", zipfile.ZIP_DEFLATED) as wheel:
        for path, data in {**files, record: "".join(lines).encode()}.items():
            entry = zipfile.ZipInfo(path, TIME)
            entry.external_attr = 0o644 << 16
            entry.compress_type = zipfile.ZIP_DEFLATED
            wheel.writestr(entry, data)
    return name
