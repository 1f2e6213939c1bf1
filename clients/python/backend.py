"""Builds the package for pip, with the standard library alone. pip calls the functions that PEP 517 and PEP 660 name."""

import base64
import hashlib
import io
import tarfile
import zipfile
from pathlib import Path

FOLDER = Path(__file__).resolve().parent
NAME = "jutkariq"
VERSION = "0.1.0"
ABOUT = f"{NAME}-{VERSION}.dist-info"
METADATA = f"""Metadata-Version: 2.1
Name: {NAME}
Version: {VERSION}
Summary: Tests of consumers of Amazon SQS in which the test holds the clock
Requires-Python: >=3.9
Provides-Extra: boto3
Requires-Dist: boto3>=1.28.82; extra == "boto3"
Description-Content-Type: text/markdown

"""
WHEEL = f"Wheel-Version: 1.0\nGenerator: {NAME}\nRoot-Is-Purelib: true\nTag: py3-none-any\n"
ENTRY_POINTS = f"[pytest11]\n{NAME} = {NAME}.pytest_plugin\n"
# so that the same files always make the same archive
FIRST_DATE = (1980, 1, 1, 0, 0, 0)


def build_wheel(wheel_directory, config_settings=None, metadata_directory=None):
    """Writes the wheel to a folder, and returns its name."""
    package = {path.relative_to(FOLDER).as_posix(): path.read_bytes() for path in sorted((FOLDER / NAME).iterdir()) if path.is_file()}
    return write_wheel(wheel_directory, package)


def build_editable(wheel_directory, config_settings=None, metadata_directory=None):
    """Writes a wheel that points to the package where it lies, and returns its name."""
    return write_wheel(wheel_directory, {f"{NAME}.pth": f"{FOLDER}\n".encode()})


def build_sdist(sdist_directory, config_settings=None):
    """Writes an archive of the sources to a folder, and returns its name."""
    name = f"{NAME}-{VERSION}.tar.gz"
    with tarfile.open(Path(sdist_directory, name), "w:gz", format=tarfile.PAX_FORMAT) as archive:
        head = tarfile.TarInfo(f"{NAME}-{VERSION}/PKG-INFO")
        head.size = len(metadata())
        archive.addfile(head, io.BytesIO(metadata()))
        for part in ("pyproject.toml", "backend.py", "README.md", NAME):
            archive.add(FOLDER / part, f"{NAME}-{VERSION}/{part}", filter=lambda it: None if "__pycache__" in it.name else it)
    return name


def metadata():
    """Returns what pip is told of the package."""
    return METADATA.encode() + (FOLDER / "README.md").read_bytes()


def write_wheel(folder, files):
    """Writes a wheel of some files, and returns its name."""
    name, record = f"{NAME}-{VERSION}-py3-none-any.whl", ""
    about = {"METADATA": metadata(), "WHEEL": WHEEL.encode(), "entry_points.txt": ENTRY_POINTS.encode()}
    files = {**files, **{f"{ABOUT}/{part}": text for part, text in about.items()}}
    with zipfile.ZipFile(Path(folder, name), "w", zipfile.ZIP_DEFLATED) as archive:
        for path, text in files.items():
            digest = base64.urlsafe_b64encode(hashlib.sha256(text).digest()).rstrip(b"=").decode()
            record += f"{path},sha256={digest},{len(text)}\n"
            write(archive, path, text)
        write(archive, f"{ABOUT}/RECORD", f"{record}{ABOUT}/RECORD,,\n".encode())
    return name


def write(archive, path, text):
    """Writes one file of a wheel."""
    entry = zipfile.ZipInfo(path, FIRST_DATE)
    entry.compress_type = zipfile.ZIP_DEFLATED
    entry.external_attr = 0o644 << 16
    archive.writestr(entry, text)
