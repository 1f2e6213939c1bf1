#!/usr/bin/env python3
"""Shows how both programs end where a device, a file or an argument is not what they need, and ends with one line 'N passed, M failed'.

usage: clients/ends.py [REPLAY SERVER]     by default those that `make replay` and `make run` start

Status, standard output and standard error are compared to the byte with what docs/PROFILE.md says in sections 18, 19 and 25. It needs Linux, and no port.
"""
import contextlib
import errno
import os
import re
import resource
import signal
import subprocess
import sys
import tempfile
import threading

ROOT = os.path.dirname(os.path.dirname(os.path.abspath(__file__)))
# How long a program may take to end, in seconds.
LIMIT = 30
LINES = [b'1 CreateQueue {"QueueName":"jobs"}\n', b"2 ListQueues {}\n"]
ANSWERS = [b'200 {"QueueUrl":"http://localhost:9324/000000000000/jobs"}\n', b'200 {"QueueUrls":["http://localhost:9324/000000000000/jobs"]}\n']
# Section 19 has what is told of this file.
FAULT = "\n" * 4 + '[[queue]]\nname = "jobs"\ndelay_seconds = 901\n'
FAULT_TOLD = 'config: OutOfRange\nexample.toml:7: [[queue]] "jobs": delay_seconds = 901 is not in 0 to 900\n'
# An argument or a variable that is no UTF-8.
NO_TEXT = b"\xff.toml"


def system(number):
    """Returns what is told of an error of the system."""
    return f"{os.strerror(number)} (os error {number})"


class Ends:
    """Runs programs in a folder of its own, and counts those that end as they should."""

    def __init__(self, room):
        self.room, self.passed, self.failed = room, 0, 0
        os.mkdir(f"{room}/folder")
        for name, text in (("input", b"".join(LINES).decode()), ("example.toml", FAULT), ("good.toml", "")):
            with open(f"{room}/{name}", "w", encoding="utf-8") as it:
                it.write(text)

    def opened(self, path, way=os.O_RDONLY):
        """Returns a descriptor of a file, which is closed with this program."""
        return os.open(os.path.join(self.room, path), way | os.O_CREAT if way == os.O_WRONLY else way)

    def equal(self, what, found, wanted):
        """Counts one check, and prints it where it failed."""
        self.passed, self.failed = self.passed + (found == wanted), self.failed + (found != wanted)
        if found != wanted:
            print(f"ends.py: {what}: found {found!r}, and {wanted!r} is wanted", flush=True)

    def ends(self, what, words, status, said, out=b"", given="input", closed=(), most=None, **how):
        """Checks how a program ends, some of whose standard descriptors are closed at its start, and which may write a file of at most so many bytes."""

        def begin():
            for it in closed:
                os.close(it)
            if most is not None:
                resource.setrlimit(resource.RLIMIT_FSIZE, (most, most))

        how = {"stdin": self.opened(given) if isinstance(given, str) else given, "stdout": subprocess.PIPE, "stderr": subprocess.PIPE, "env": {}, **how}
        try:
            ran = subprocess.run(words, cwd=self.room, preexec_fn=begin, timeout=LIMIT, **how)
        except subprocess.TimeoutExpired:
            self.equal(what, f"it had not ended after {LIMIT} s", status)
            return
        self.equal(what, (ran.returncode, ran.stdout, ran.stderr), (status, None if how["stdout"] != subprocess.PIPE else out, said.encode()))


def outputs(it, replay):
    """The output of the replay fails."""
    failed = "sqs_replay: write failed\n"
    it.ends("output to a full device", [replay], 1, failed, stdout=it.opened("/dev/full", os.O_RDWR))
    reader, writer = os.pipe()
    os.close(reader)
    it.ends("output to a reader that left", [replay], 1, failed, stdout=writer)
    os.close(writer)
    it.ends("output to a descriptor that cannot be written", [replay], 1, failed, stdout=it.opened("input"))
    it.ends("output that is closed", [replay], 1, failed, closed=(1,))
    it.ends("output that is closed, and a configuration", [replay, "good.toml"], 1, failed, closed=(1,))
    with subprocess.Popen([replay], stdin=subprocess.PIPE, stdout=subprocess.PIPE, stderr=subprocess.PIPE, bufsize=0, env={}) as ran:
        timer = threading.Timer(LIMIT, ran.kill)
        timer.start()
        with contextlib.suppress(BrokenPipeError):
            ran.stdin.write(LINES[0])
        it.equal("the first answer, before the second line", ran.stdout.readline(), ANSWERS[0])
        ran.stdout.close()
        with contextlib.suppress(BrokenPipeError):
            ran.stdin.write(LINES[1])
        it.equal("output to a reader that leaves behind an answer", (ran.wait(), ran.stderr.read()), (1, failed.encode()))
        timer.cancel()
    size = len(ANSWERS[0]) + 5
    it.ends("output to a file that may not grow", [replay], -signal.SIGXFSZ, "", stdout=it.opened("limited", os.O_WRONLY), most=size)
    with open(f"{it.room}/limited", "rb") as made:
        it.equal("what it wrote", made.read(), b"".join(ANSWERS)[:size])
    # Python ignores that signal, and then so does what it starts
    it.ends("the same where the signal is ignored", [replay], 1, failed, stdout=it.opened("ignored", os.O_WRONLY), most=size, restore_signals=False)


def inputs(it, replay):
    """The input of the replay fails, at once or behind a line."""
    failed = "sqs_replay: read failed\n"
    it.ends("input that is a folder", [replay], 1, failed, given="folder")
    it.ends("input that is closed", [replay], 1, failed, closed=(0,))
    it.ends("input that is closed, and a configuration", [replay, "good.toml"], 1, failed, closed=(0,))
    it.ends("input from a descriptor that cannot be read", [replay], 1, failed, given=it.opened("written", os.O_WRONLY))
    reader, writer = os.pipe()
    it.ends("input from the wrong end of a pipe", [replay], 1, failed, given=writer)
    os.write(writer, LINES[0] + LINES[1][:5])
    os.set_blocking(reader, False)
    it.ends("input that fails behind a line", [replay], 1, failed, ANSWERS[0], given=reader)
    it.ends("input and output that are as they should be", [replay, "good.toml"], 0, "", b"".join(ANSWERS))


def arguments(it, name, program, usage):
    """What both programs make of their file and their arguments."""
    unread, wrong = f"{name}: read failed\n", f"usage: {usage}\n"
    it.ends(f"{name}: a configuration that is a folder", [program, "folder"], 1, f"{unread}folder: {system(errno.EISDIR)}\n")
    it.ends(f"{name}: one that is not there", [program, "missing.toml"], 1, f"{unread}missing.toml: {system(errno.ENOENT)}\n")
    it.ends(f"{name}: one below a file", [program, "input/x.toml"], 1, f"{unread}input/x.toml: {system(errno.ENOTDIR)}\n")
    it.ends(f"{name}: one with a fault", [program, "example.toml"], 1, f"{name}: {FAULT_TOLD}")
    it.ends(f"{name}: an argument that is no text", [program, NO_TEXT], 2, wrong)
    it.ends(f"{name}: a second one that is no text", [program, "good.toml", NO_TEXT], 2, wrong)
    it.ends(f"{name}: an option that there is not", [program, "--verbose"], 2, f"{wrong}there is no option --verbose; --help explains\n")
    it.ends(f"{name}: too many arguments", [program, "good.toml", "1", "1"], 2, wrong)
    for option, wanted in (("--version", rf"{name} \d+\.\d+\.\d+\n"), ("--help", rf"(?s).*^usage: {re.escape(usage)}\n.*")):
        ran = subprocess.run([program, option], capture_output=True, text=True, env={}, timeout=LIMIT)
        told = re.fullmatch(wanted, ran.stdout, re.MULTILINE) is not None
        it.equal(f"{name}: {option}, and standard output is as wanted", (ran.returncode, told, ran.stderr), (0, True, ""))
    # what was to be told goes nowhere
    it.ends(f"{name}: one that is not there, and standard error is closed", [program, "missing.toml"], 1, "", closed=(2,))
    it.ends(f"{name}: one with a fault, and standard error is closed", [program, "example.toml"], 1, "", closed=(2,))


def variables(it, server):
    """What the server makes of its environment."""
    for name, wanted in (("PORT", "a port number, 0 to 65535"), ("STATISTICS_PORT", "a port number, 0 to 65535"), ("LOG", "refused, all or none")):
        variable = f"JUTKARIQ_{name}"
        it.ends(f"{variable} that is no text", [server, "good.toml"], 2, f"sqs_server: {variable} must be {wanted}\n", env={variable: NO_TEXT})
        unread = f"sqs_server: read failed\nmissing.toml: {system(errno.ENOENT)}\n"
        it.ends(f"{variable} that is empty, as if it were not set", [server, "missing.toml"], 1, unread, env={variable: ""})


def main(words):
    """Checks it all, and returns the status."""
    if len(words) not in (0, 2):
        print(__doc__, file=sys.stderr)
        return 2
    which = [subprocess.check_output([f"{ROOT}/tools/run", "--which", name], text=True).strip() for name in ("sqs_replay", "sqs_server")] if not words else words
    replay, server = map(os.path.abspath, which)
    with tempfile.TemporaryDirectory(prefix="ends-") as room:
        it = Ends(room)
        outputs(it, replay)
        inputs(it, replay)
        arguments(it, "sqs_replay", replay, "sqs_replay [config.toml]")
        arguments(it, "sqs_server", server, "sqs_server config.toml [connections]")
        variables(it, server)
    print(f"{it.passed} passed, {it.failed} failed")
    return 1 if it.failed else 0


if __name__ == "__main__":
    sys.exit(main(sys.argv[1:]))
