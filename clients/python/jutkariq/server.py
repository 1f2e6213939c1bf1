"""The server over HTTP, at free ports."""

from __future__ import annotations

import atexit
import http.client
import json
import os
import queue as queues
import re
import subprocess
import tempfile
import threading
import time
import urllib.error
import urllib.request
from pathlib import Path
from types import TracebackType
from typing import Any, BinaryIO, Dict, List, Mapping, Optional, Type, Union, cast

from jutkariq import boto
from jutkariq.answers import Answer, Counts, Queues, Row, Statistics, name_of, success_of
from jutkariq.programs import FilePath, ProgramFailed, configuration_file, configuration_of, failure, find_program

READY = re.compile(r"sqs_server: requests at (http://localhost:\d+), statistics at (http://localhost:\d+), (\d+) queues? from (.+)\n")
# the lines that tell of requests on standard error have the time of day, an action, a queue and a status
OF_A_REQUEST = re.compile(rb"(?m)^\d\d:\d\d:\d\d\.\d{3}Z \S+ \S+ \d{3}\b.*\n?")
PAUSE = 0.01
# how many seconds a process has to end before it is killed
PATIENCE = 5.0


class Server(Queues):
    """A process of `sqs_server` at ports that the system chooses. It serves when the constructor returns, and until `close`, or else until Python ends.

    config: a file, or the text of a configuration, which has a line feed. program: the path of `sqs_server`; otherwise it is that of the
    environment variable JUTKARIQ_SERVER, one on the PATH, or one built in the repository. ready_within: how many seconds it has to begin.

    `endpoint` and `statistics_endpoint` are its two addresses, as `http://localhost:41673`. The URLs that it gives to its queues begin with the first.
    """

    def __init__(self, config: Optional[FilePath] = None, program: Optional[FilePath] = None, ready_within: float = 10.0) -> None:
        self._program = find_program("sqs_server", program, "JUTKARIQ_SERVER")
        given = "\n" if config is None else config
        text = configuration_of(given)
        self._closed = False
        self._open = urllib.request.build_opener(urllib.request.ProxyHandler({})).open
        self._folder = tempfile.TemporaryDirectory(prefix="jutkariq-")
        file = configuration_file(given, text, self._folder.name)
        self._errors = open(f"{self._folder.name}/errors", "wb")
        self._said = b""
        ports = {"JUTKARIQ_PORT": "0", "JUTKARIQ_STATISTICS_PORT": "0"}
        self._process = subprocess.Popen(
            [self._program, file], stdin=subprocess.DEVNULL, stdout=subprocess.PIPE, stderr=self._errors, env={**os.environ, **ports}
        )
        atexit.register(self.close)
        self._first: queues.Queue[bytes] = queues.Queue()
        self._reader = threading.Thread(target=self._read, daemon=True)
        self._reader.start()
        try:
            self.endpoint, self.statistics_endpoint = self._addresses(ready_within)
        except BaseException:
            self.close()
            raise

    def __enter__(self) -> Server:
        return self

    def __exit__(self, kind: Optional[Type[BaseException]], error: Optional[BaseException], trace: Optional[TracebackType]) -> None:
        self.close()

    def close(self) -> None:
        """Ends the process. A second call does nothing."""
        if self._closed:
            return
        self._closed = True
        atexit.unregister(self.close)
        self._process.terminate()
        if not self._has_ended():
            self._process.kill()
            self._process.wait()
        self._reader.join()
        cast(BinaryIO, self._process.stdout).close()
        self._said = self._errors_so_far()
        self._errors.close()
        self._folder.cleanup()

    def client(self, **options: Any) -> Any:
        """Returns a boto3 client for SQS at the server. The options are those of boto3; nothing is tried again unless they say so."""
        return boto.made("client", None, {"endpoint_url": self.endpoint, **options})

    def resource(self, **options: Any) -> Any:
        """Returns a boto3 resource for SQS at the server."""
        return boto.made("resource", None, {"endpoint_url": self.endpoint, **options})

    def ask(self, action: str, request: Union[Mapping[str, Any], bytes]) -> Answer:
        """Asks for one action of SQS, without boto3, and returns the answer, which may be a refusal."""
        body = request if isinstance(request, bytes) else json.dumps(request).encode()
        return self._fetched(urllib.request.Request(self.endpoint, body, {"X-Amz-Target": f"AmazonSQS.{action}"}))

    def statistics(self, queue: str) -> Statistics:
        """Returns the numbers of a queue, which may be some tenth of a second old where it is quiet."""
        return cast(Statistics, self._told(queue, ""))

    def rows(self, queue: str) -> List[Row]:
        """Returns what happened to a queue in each of the last 180 minutes that are over, oldest first."""
        return cast(List[Row], self._told(queue, "/rows")["rows"])

    def alarms(self, queue: str) -> Dict[str, str]:
        """Returns the state of each alarm of a queue, by its name: OK, ALARM or INSUFFICIENT_DATA."""
        return {alarm["name"]: alarm["state"] for alarm in self._told(queue, "/alarms")["alarms"]}

    def wait_until(
        self, queue: str, *, visible: Optional[int] = None, delayed: Optional[int] = None, in_flight: Optional[int] = None, timeout: float = 5.0
    ) -> Counts:
        """Waits until a queue has so many messages, and returns its counts. TimeoutError says what it had when the seconds were over."""
        wanted = Counts(visible, delayed, in_flight)  # type: ignore[arg-type]
        end = time.monotonic() + timeout
        while True:
            found = self.counts(queue)
            if all(want is None or want == have for want, have in zip(wanted, found)):
                return found
            if time.monotonic() >= end:
                said = ", ".join(f"{name}={want}" for name, want in wanted._asdict().items() if want is not None)
                raise TimeoutError(f"{queue} has {found} after {timeout} s, and {said} was waited for")
            time.sleep(PAUSE)

    def log(self) -> List[str]:
        """Returns the lines that the server has told on standard error so far: of requests that were refused, unless JUTKARIQ_LOG has another word.

        A line may come a moment after its answer. When the server was closed, they are there still.
        """
        text = (self._said if self._closed else self._errors_so_far()).decode(errors="replace")
        return text[: text.rfind("\n") + 1].splitlines()

    def _told(self, queue: str, part: str) -> Any:
        """Returns what the port of the statistics tells of a queue."""
        path = f"/statistics/queues/{name_of(queue)}{part}"
        return success_of(path, self._fetched(urllib.request.Request(self.statistics_endpoint + path)))

    def _fetched(self, request: urllib.request.Request) -> Answer:
        """Returns the answer to a request. Where there is none since the process has ended, the error has its status and what it said."""
        if self._closed:
            raise ProgramFailed("the server was closed")
        try:
            with self._open(request, timeout=60) as response:
                return Answer(response.status, response.read().decode())
        except urllib.error.HTTPError as refusal:
            with refusal:
                return Answer(refusal.code, refusal.read().decode())
        except (OSError, http.client.HTTPException) as error:
            if not self._has_ended():
                raise
            raise self._failure() from error

    def _has_ended(self) -> bool:
        """Returns whether the process has ended, or does so in time."""
        try:
            self._process.wait(PATIENCE)
        except subprocess.TimeoutExpired:
            return False
        return True

    def _errors_so_far(self) -> bytes:
        """Returns what the process has written to standard error, whose place in the file stays as it is."""
        return Path(self._errors.name).read_bytes()

    def _failure(self) -> ProgramFailed:
        """Returns the error for a process that has ended, or does not answer, with what it said of anything but requests."""
        return failure(self._program, self._process.poll(), OF_A_REQUEST.sub(b"", self._errors_so_far()))

    def _read(self) -> None:
        """Takes what the server writes, so that it never waits for a reader, and keeps the first line; an empty one where it ends before."""
        out = cast(BinaryIO, self._process.stdout)
        self._first.put(out.readline())
        for _ in out:
            pass

    def _addresses(self, seconds: float) -> List[str]:
        """Returns the two addresses that the first line has."""
        try:
            line = self._first.get(timeout=seconds).decode(errors="replace")
        except queues.Empty:
            line = None
        found = READY.fullmatch(line or "")
        if found:
            return [found[1], found[2]]
        if line == "" and self._has_ended():
            raise self._failure()
        said = f"it said nothing in {seconds:g} s" if line is None else f"its first line was {line!r}"
        raise ProgramFailed(f"{self._failure()} ({said}, where `sqs_server: requests at ..` was to come)")
