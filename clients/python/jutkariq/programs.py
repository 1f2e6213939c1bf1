"""Where the programs are, what configuration they are given, and how they fail."""

from __future__ import annotations

import os
import shutil
from pathlib import Path
from typing import Optional, Union

FilePath = Union[str, "os.PathLike[str]"]


class ProgramNotFound(RuntimeError):
    """There is no program to run; the text says where it was looked for, and how to get it."""


class ProgramFailed(RuntimeError):
    """The program has ended, or has not begun to serve; the text has its status and what it said."""


def find_program(name: str, given: Optional[FilePath], variable: str) -> str:
    """Returns the path of a program: the one given, that of an environment variable, one on the PATH, or one built in the repository.

    The repository is the one that this package or the working directory lies in. A proved program comes before an unproved one.
    """
    named = given or os.environ.get(variable)
    if named:
        found = shutil.which(os.fspath(named))
        if found is None:
            where = "the argument `program`" if given else variable
            raise ProgramNotFound(f"{where} names {os.fspath(named)}, where there is no program that can be run")
        return found
    found = shutil.which(name) or built_program(name)
    if found is None:
        raise ProgramNotFound(
            f"There is no {name}: not as the argument `program`, not in {variable}, not on the PATH, and not built in a repository of Jutkariq "
            f"around {Path(__file__).parent} or {Path.cwd()}. Build it in the repository: `make build` proves it first, which takes long; "
            f"`tools/compile {name}` does without the proof, and takes a minute or two."
        )
    return found


def built_program(name: str) -> Optional[str]:
    """Returns the path of a program that was built in the repository that this package or the working directory lies in."""
    for start in (Path(__file__).resolve().parent, Path.cwd()):
        for folder in (start, *start.parents):
            if (folder / "crates" / name).is_dir():
                for path in (folder / "crates" / name / "out" / name, folder / "out" / "unproved" / name):
                    if path.is_file() and os.access(path, os.X_OK):
                        return str(path)
    return None


def is_text(config: FilePath) -> bool:
    """Returns whether a configuration is given as a text, which has a line feed; any other names the file."""
    return isinstance(config, str) and "\n" in config


def configuration_of(config: FilePath) -> bytes:
    """Returns the text of a configuration."""
    return str(config).encode() if is_text(config) else Path(config).read_bytes()


def configuration_file(config: FilePath, text: bytes, folder: str) -> str:
    """Returns the path of a file that has a configuration, by which its faults are told: the file that was named, or one in a folder for a text."""
    if not is_text(config):
        return os.fspath(config)
    path = Path(folder, "config.toml")
    path.write_bytes(text)
    return str(path)


def failure(name: str, status: Optional[int], errors: bytes) -> ProgramFailed:
    """Returns the error for a program that has ended with a status, or still runs where that is None."""
    said = errors.decode(errors="replace").strip()
    how = "does not answer" if status is None else f"was ended by signal {-status}" if status < 0 else f"has ended with status {status}"
    return ProgramFailed(f"{name} {how}{': ' if said else ''}{said}")
