"""Build backend (PEP 517) by the standard library: a wheel with the package, its table and the shared object, which is
made from libgateway.a; and an archive of the sources."""
import base64
import hashlib
import io
import sysconfig
import tarfile
import zipfile
from pathlib import Path
from typing import Any, Dict, List, Mapping, Optional

from peng_robinson_board import __version__, library

FOLDER = Path(__file__).resolve().parent
PACKAGE = "peng_robinson_board"
NAME = f"{PACKAGE}-{__version__}"
SOURCES = ("*.py", "*.csv", "py.typed")

METADATA = f"""\
Metadata-Version: 2.1
Name: peng-robinson-board
Version: {__version__}
Summary: Densities, spinodals and critical points of blends by the Peng-Robinson equation, from a proved library
License: MIT OR Apache-2.0
Requires-Python: >=3.9
Description-Content-Type: text/markdown

"""

WHEEL = """\
Wheel-Version: 1.0
Generator: build_backend
Root-Is-Purelib: false
Tag: {tag}
"""

ENTRY_POINTS = f"""\
[console_scripts]
prboard = {PACKAGE}.cli:main
"""

Settings = Optional[Mapping[str, Any]]


def _package_files() -> List[Path]:
    return sorted(path for pattern in SOURCES for path in (FOLDER / PACKAGE).glob(pattern))


def _metadata() -> bytes:
    return METADATA.encode() + (FOLDER / "README.md").read_bytes()


def _shared_object() -> bytes:
    try:
        return library.checkout_shared().read_bytes()
    except library.LibraryMissing as fault:
        raise SystemExit(f"build_backend: {fault}") from None


def _row(name: str, data: bytes) -> str:
    digest = base64.urlsafe_b64encode(hashlib.sha256(data).digest()).rstrip(b"=").decode()
    return f"{name},sha256={digest},{len(data)}\n"


def build_wheel(
    wheel_directory: str, config_settings: Settings = None, metadata_directory: Optional[str] = None
) -> str:
    platform = sysconfig.get_platform().replace("-", "_").replace(".", "_")
    tag = f"py3-none-{platform}"
    about = f"{NAME}.dist-info"
    contents: Dict[str, bytes] = {f"{PACKAGE}/{path.name}": path.read_bytes() for path in _package_files()}
    contents[f"{PACKAGE}/{library.SHARED_OBJECT.name}"] = _shared_object()
    contents[f"{about}/METADATA"] = _metadata()
    contents[f"{about}/WHEEL"] = WHEEL.format(tag=tag).encode()
    contents[f"{about}/entry_points.txt"] = ENTRY_POINTS.encode()
    record = "".join(_row(name, data) for name, data in contents.items()) + f"{about}/RECORD,,\n"
    contents[f"{about}/RECORD"] = record.encode()
    wheel = f"{NAME}-{tag}.whl"
    with zipfile.ZipFile(Path(wheel_directory) / wheel, "w", zipfile.ZIP_DEFLATED) as file:
        for name, data in contents.items():
            entry = zipfile.ZipInfo(name)
            entry.compress_type = zipfile.ZIP_DEFLATED
            entry.external_attr = (0o755 if name.endswith(".so") else 0o644) << 16
            file.writestr(entry, data)
    return wheel


def build_sdist(sdist_directory: str, config_settings: Settings = None) -> str:
    """The sources without the library: installing them needs PENG_ROBINSON_BOARD_LIB."""
    names = ["README.md", "build_backend.py", "make-shared", "pyproject.toml"]
    paths = [FOLDER / name for name in names] + _package_files() + sorted((FOLDER / "tests").glob("*.py"))
    with tarfile.open(Path(sdist_directory) / f"{NAME}.tar.gz", "w:gz") as file:
        for path in paths:
            file.add(path, f"{NAME}/{path.relative_to(FOLDER)}")
        about = _metadata()
        entry = tarfile.TarInfo(f"{NAME}/PKG-INFO")
        entry.size = len(about)
        file.addfile(entry, io.BytesIO(about))
    return f"{NAME}.tar.gz"
