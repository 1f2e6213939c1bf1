"""Queues whose clock a test holds."""

from __future__ import annotations

import json
import re
import subprocess
import tempfile
import threading
from datetime import datetime, timedelta, timezone
from types import TracebackType
from typing import Any, BinaryIO, Dict, List, Mapping, Optional, Type, Union, cast

from jutkariq import boto
from jutkariq.answers import Answer, Queues, Row, Statistics, success_of
from jutkariq.programs import FilePath, ProgramFailed, configuration_file, configuration_of, failure, find_program
from jutkariq.waits import Waits

ANSWER = re.compile(r"(\d{3}) (.*)\n")
EPOCH = datetime(1970, 1, 1, tzinfo=timezone.utc)
MILLISECOND = timedelta(milliseconds=1)
LAST_MOMENT = 2**62 - 1
CLOSED = "the replay was closed"


class Replay(Queues):
    """A process of `sqs_replay`: queues that are asked over a pipe, and whose time passes only where this object says so.

    The clock begins at 0 and counts milliseconds. It never goes back. All requests of one moment are answered at that very moment, in the
    order in which they come, also from several threads: each request and each move of the clock is one step.

    config: a file, or the text of a configuration, which has a line feed. program: the path of `sqs_replay`; otherwise it is that of the
    environment variable JUTKARIQ_REPLAY, one on the PATH, or one built in the repository. record: a file to which each line is written
    that the program is given; `sqs_replay < FILE`, with the same configuration, answers the same to the byte.

    waits: what becomes of a receive that may wait (WaitTimeSeconds, or else the queue's setting) while nothing is visible.

    - "run": the clock runs on to the first moment, up to the end of the wait and that included, at which a message of the queue is visible;
      where there is none, to the end of the wait. The receive is done there, once, and is one entry of the queue's journal, as on the
      server. All of it is one step: no request of another thread comes in between, so nothing is sent meanwhile. A message becomes
      visible by time alone only where its delay or its timeout ends. The replay keeps the moments of these ends from the requests that
      went through it, and asks the program at each whether a message is visible, so the moment is exact to the millisecond. A receive
      that is refused for its members, or whose queue is not there, moves no clock. One difference from the server: where the in-flight
      limit is reached and nothing is visible, the server answers OverLimit at once, and a replay at the end of its wait.
    - "skip": no receive waits, and the clock stands still.
    """

    def __init__(
        self,
        config: Optional[FilePath] = None,
        program: Optional[FilePath] = None,
        record: Optional[FilePath] = None,
        waits: str = "run",
    ) -> None:
        if waits not in ("run", "skip"):
            raise ValueError(f"waits is 'run' or 'skip', and not {waits!r}")
        self._program = find_program("sqs_replay", program, "JUTKARIQ_REPLAY")
        words = [self._program]
        text = b"" if config is None else configuration_of(config)
        self._lock = threading.Lock()
        self._now = 0
        self._waits = Waits(self._step) if waits == "run" else None
        self._ended = ""
        self._folder = tempfile.TemporaryDirectory(prefix="jutkariq-")
        if config is not None:
            words.append(configuration_file(config, text, self._folder.name))
        self._record = None if record is None else open(record, "wb")
        self._errors = open(f"{self._folder.name}/errors", "w+b")
        self._process = subprocess.Popen(words, stdin=subprocess.PIPE, stdout=subprocess.PIPE, stderr=self._errors)
        try:
            self._write_line("Tick", b"{}", 0)
        except BaseException:
            self.close()
            raise

    def __enter__(self) -> Replay:
        return self

    def __exit__(self, kind: Optional[Type[BaseException]], error: Optional[BaseException], trace: Optional[TracebackType]) -> None:
        self.close()

    def close(self) -> None:
        """Ends the process. A second call does nothing."""
        with self._lock:
            if self._ended == CLOSED:
                return
            self._ended = CLOSED
            # it keeps nothing, so there is nothing that it would do at an end of its own
            self._process.kill()
            self._end()
            cast(BinaryIO, self._process.stdout).close()
            self._errors.close()
            if self._record:
                self._record.close()
            self._folder.cleanup()

    @property
    def now(self) -> int:
        """The moment that the clock shows, in milliseconds since it began."""
        with self._lock:
            return self._now

    def advance(self, *, days: float = 0, hours: float = 0, minutes: float = 0, seconds: float = 0, milliseconds: float = 0) -> int:
        """Moves the clock on, by a whole number of milliseconds, and returns the moment that it shows then."""
        span = timedelta(days=days, hours=hours, minutes=minutes, seconds=seconds, milliseconds=milliseconds)
        if span % MILLISECOND:
            raise ValueError("the clock moves by whole milliseconds")
        with self._lock:
            return self._move(self._now + span // MILLISECOND)

    def at(self, moment: Union[int, datetime]) -> int:
        """Moves the clock on to a moment, in milliseconds, or to a date with a time zone, as milliseconds since 1970; returns the moment."""
        reached = moment if isinstance(moment, int) else (moment - EPOCH) // MILLISECOND
        with self._lock:
            return self._move(reached)

    def client(self, **options: Any) -> Any:
        """Returns a boto3 client for SQS whose requests go to this replay. The options are those of boto3; nothing is tried again."""
        return boto.made("client", self.ask, options)

    def resource(self, **options: Any) -> Any:
        """Returns a boto3 resource for SQS whose requests go to this replay."""
        return boto.made("resource", self.ask, options)

    def ask(self, action: str, request: Union[Mapping[str, Any], bytes]) -> Answer:
        """Asks for one action of SQS, or one of the replay's own, without boto3. The request is an object, or the bytes of its JSON.

        Returns the answer, which may be a refusal. It is what `client()` does with each request.
        """
        if not (action.isascii() and action.isalpha()):
            raise ValueError(f"an action has ASCII letters alone: {action!r}")
        body = request if isinstance(request, bytes) else json.dumps(request).encode()
        if b"\n" in body or b"\r" in body:
            raise ValueError("the JSON of a request stands in one line")
        with self._lock:
            if self._waits is None:
                return self._write_line(action, body, self._now)
            members = object_in(body)
            if action == "ReceiveMessage":
                self._now = self._waits.moment_of(members, self._now)
            answer = self._write_line(action, body, self._now)
            self._waits.passed(action, members, answer, self._now)
            return answer

    def statistics(self, queue: str) -> Statistics:
        """Returns the numbers of a queue now."""
        return cast(Statistics, self._asked("Statistics", queue))

    def rows(self, queue: str) -> List[Row]:
        """Returns what happened to a queue in each of the last 180 minutes that are over, oldest first."""
        return cast(List[Row], self._asked("Rows", queue)["rows"])

    def alarms(self, queue: str) -> Dict[str, str]:
        """Returns the state of each alarm of a queue now, by its name: OK, ALARM or INSUFFICIENT_DATA."""
        return {alarm["name"]: alarm["state"] for alarm in self._asked("Alarms", queue)["alarms"]}

    def _asked(self, action: str, queue: str) -> Any:
        """Returns what is answered to an action of the replay's own about a queue."""
        return success_of(f"{action} of {queue}", self.ask(action, {"QueueUrl": queue}))

    def _move(self, moment: int) -> int:
        """Moves the clock to a moment."""
        if not self._now <= moment <= LAST_MOMENT:
            raise ValueError(f"the clock never goes back, nor beyond 2^62 - 1: from {self._now} to {moment}")
        self._now = moment
        return moment

    def _step(self, action: str, request: Mapping[str, Any], moment: int) -> Answer:
        """Asks for an action in the name of a receive that waits."""
        return self._write_line(action, json.dumps(request).encode(), moment)

    def _write_line(self, action: str, body: bytes, moment: int) -> Answer:
        """Gives the program one line, and returns its answer."""
        if self._ended:
            raise ProgramFailed(self._ended)
        line = b"%d %s %s\n" % (moment, action.encode(), body)
        if self._record:
            self._record.write(line)
            self._record.flush()
        found = ANSWER.fullmatch(self._exchange(line).decode(errors="replace"))
        if not found:
            self._end()
            self._errors.seek(0)
            raise failure(self._program, self._process.returncode, self._errors.read())
        return Answer(int(found[1]), found[2])

    def _exchange(self, line: bytes) -> bytes:
        """Writes a line to the program and reads one: what there is of it where the program ends."""
        try:
            into, out = cast(BinaryIO, self._process.stdin), cast(BinaryIO, self._process.stdout)
            into.write(line)
            into.flush()
            return out.readline()
        except (OSError, ValueError):
            return b""
        except BaseException:
            # the answer that was not taken is not to be given to the next request
            self._ended = "the replay was ended, since a request to it was interrupted"
            self._process.kill()
            raise

    def _end(self) -> None:
        """Lets the program come to the end of its input, and waits until it has ended."""
        try:
            cast(BinaryIO, self._process.stdin).close()
        except OSError:
            pass
        try:
            self._process.wait(5)
        except subprocess.TimeoutExpired:
            self._process.kill()
            self._process.wait()


def object_in(body: bytes) -> Dict[str, Any]:
    """Returns the object that a body holds, and an empty one where it holds none."""
    try:
        found = json.loads(body)
    except ValueError:
        return {}
    return found if isinstance(found, dict) else {}
