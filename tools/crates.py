"""What the other tools know of a repository: its crates, what each stands on, files and their sums, and the kit at hand."""
import functools
import hashlib
import os
import subprocess
import sys

ROOT = os.path.normpath(os.path.join(os.path.dirname(os.path.abspath(__file__)), ".."))


def stop(why):
    """Ends the tool, which cannot work."""
    print(f"{os.path.basename(sys.argv[0])}: {why}", file=sys.stderr)
    sys.exit(2)


def files_below(folder):
    """Returns the paths of the files below a folder, sorted, or the file itself. What editors leave beside a file is none of them."""
    if not os.path.isdir(folder):
        return [folder] if os.path.isfile(folder) else []
    found = []
    for at, folders, names in os.walk(folder):
        folders[:] = [it for it in folders if not it.startswith(".")]
        found += [os.path.join(at, it) for it in names if not it.startswith(".") and not it.endswith("~")]
    return sorted(found)


def text_of(path):
    """Returns the text of a file, whatever bytes it has, or None where it is not there."""
    if not os.path.isfile(path):
        return None
    with open(path, encoding="utf-8", errors="replace") as it:
        return it.read()


def sum_of(root, paths, texts=()):
    """Returns the SHA-256 of texts and of files, each by its path in the folder and its bytes."""
    made = hashlib.sha256()
    for text in texts:
        made.update(f"text {len(text)}\n".encode() + text)
    for path in paths:
        with open(path, "rb") as it:
            data = it.read()
        made.update(os.fsencode(f"file {os.path.relpath(path, root)} {len(data)}\n") + data)
    return made.hexdigest()


@functools.cache
def kit_here():
    """Returns what `rt version` prints."""
    try:
        ran = subprocess.run(["rt", "version"], capture_output=True, text=True, errors="replace", stdin=subprocess.DEVNULL)
    except OSError:
        stop("there is no command rt: it belongs to the kit of the Rattle toolchain (README.md says where that comes from)")
    if ran.returncode or len(ran.stdout.split("\n")) != 2:
        stop("rt version does not print one line")
    return ran.stdout.strip()


class Crates:
    """The crates of a repository, lowest first."""

    def __init__(self, root=ROOT):
        self.root, self.lines, self.names = root, {}, []
        text = text_of(f"{root}/crates.txt")
        if text is None:
            stop("there is no crates.txt")
        for line in text.splitlines():
            line = line.split("#")[0].strip()
            words = line.partition(":")[0].split()
            if line and (not words or ":" not in line or words[0] in self.lines):
                stop(f"crates.txt: a crate is named once, and a line is 'NAME: NAME ..': {line}")
            if line:
                self.lines[words[0]] = line
        for name in self.lines:
            self.place(name, ())
        self.below = functools.cache(self.below)

    def place(self, name, above):
        """Puts a crate behind those that it stands on."""
        if name in above:
            stop(f"{name} stands on itself")
        if name in self.names:
            return
        for it in self.named(name):
            self.place(it, (*above, name))
        self.names.append(name)

    def named(self, name):
        """Returns the crates of the repository that a crate's line names."""
        return [it for it in self.lines[name].partition(":")[2].split() if it in self.lines]

    def below(self, name):
        """Returns all crates that a crate stands on, lowest first."""
        found = {it for low in self.named(name) for it in (low, *self.below(low))}
        return [it for it in self.names if it in found]

    def folder(self, name):
        """Returns a crate's folder."""
        return f"{self.root}/crates/{name}"

    def is_program(self, name):
        """Returns whether a crate is a program."""
        return os.path.isfile(f"{self.folder(name)}/src/main.rt")


def build_sum(repository, name):
    """Returns a sum of all that a build of the crate is made of."""
    names = [*repository.below(name), name]
    paths = [path for it in names for part in ("src", "specs", "proofs") for path in files_below(f"{repository.folder(it)}/{part}")]
    texts = [kit_here(), text_of(f"{repository.root}/HANDLES") or "", *(repository.lines[it] for it in names)]
    return sum_of(repository.root, paths, [it.encode() for it in texts])


def mark(repository, name, out, total):
    """Returns what stands beside something that was built: the sum of what it is made of, and what `rt` says of what it made there."""
    return total + (text_of(f"{out}/{name}.stamp" if repository.is_program(name) else f"{out}/rlib/stamp") or " none")


def built(repository, name):
    """Returns the path of what was built of a crate, or None where the crate has changed since, was built otherwise since, or was never built."""
    out = f"{repository.folder(name)}/out"
    made = f"{out}/{name}" if repository.is_program(name) else f"{out}/rlib/{name}.rlib"
    is_here = os.path.exists(made) and os.path.exists(f"{out}/{name}.built")
    return made if is_here and text_of(f"{out}/{name}.built") == mark(repository, name, out, build_sum(repository, name)) else None
