#!/usr/bin/env python3
"""Shows that a wall clock which is put back under the server prolongs nothing, and that the server follows one that is put on.

Usage: clock.py [PROGRAM], by default the one that `make run` starts. It needs Debian's package faketime, which tells the server another time of day, and not
the time since the machine was started. Each part but the last puts the time of day back by an hour while something is to happen in some seconds. The first part
that does not hold ends the program with status 1.
"""
import os
import subprocess
import sys
import tempfile
import threading
import time

sys.dont_write_bytecode = True
from rate_servers import AGE, Server, faketime, write

ROOT = os.path.dirname(os.path.dirname(os.path.abspath(__file__)))
# All times are in seconds. How long each part lasts, when the clock is put back in it, and how much later it may end: faketime looks once a second whether
# it was put back, and the server ten times a second whether a wait is over.
LASTS, PUT, LATE = 4, 1, 0.5
# How far the server's time of day may be from the machine's, once both go on.
APART = 1
HOUR = 3600


class Moving:
    """The server's clock, as faketime has it: by how many seconds it is behind."""

    def __init__(self, server):
        self.server, self.behind = server, 60 * AGE

    def put_back_soon(self):
        self.behind += HOUR
        threading.Timer(PUT, write, [self.server.clock, f"-{self.behind}"]).start()

    def put_on(self):
        write(self.server.clock, "+0")
        time.sleep(2)


def fail(text):
    sys.exit(f"clock.py: {text}")


def tell(what, begun):
    """Tells how long a part took that was to last for some seconds, and fails where it did not."""
    took = time.monotonic() - begun
    if not LASTS - 0.1 <= took <= LASTS + LATE:
        fail(f"{what} took {took:.2f} s, not {LASTS} s")
    print(f"{what}: {took:.2f} s")


def receive(server, url, **members):
    return server.ask("ReceiveMessage", QueueUrl=url, **members).get("Messages", [])


def waits(server, moving):
    url, begun = server.make("waits"), time.monotonic()
    moving.put_back_soon()
    if receive(server, url, WaitTimeSeconds=LASTS):
        fail("an empty queue gave a message")
    tell("a receive that waits", begun)


def hides(server, moving):
    url = server.make("hides")
    server.ask("SendMessage", QueueUrl=url, MessageBody="a")
    if not receive(server, url, VisibilityTimeout=LASTS):
        fail("a message that was sent did not come")
    begun = time.monotonic()
    moving.put_back_soon()
    if not receive(server, url, WaitTimeSeconds=20):
        fail("a message did not come back behind its timeout")
    tell("a visibility timeout", begun)


def delays(server, moving):
    url = server.make("delays")
    server.ask("SendMessage", QueueUrl=url, MessageBody="a", DelaySeconds=LASTS)
    begun = time.monotonic()
    moving.put_back_soon()
    if not receive(server, url, WaitTimeSeconds=20):
        fail("a message did not come behind its delay")
    tell("a delay", begun)


def follows(server, moving):
    url = server.make("follows")
    moving.put_on()
    server.ask("SendMessage", QueueUrl=url, MessageBody="a")
    now = time.time()
    sent = int(receive(server, url, AttributeNames=["SentTimestamp"])[0]["Attributes"]["SentTimestamp"]) / 1000
    if abs(now - sent) > APART:
        fail(f"a message was sent {now - sent:.1f} s ago, by a server whose clock was put on")
    print(f"a clock that is put on: {now - sent:+.3f} s apart")


def main():
    if not faketime():
        fail("no faketime: install Debian's package faketime")
    program = sys.argv[1] if len(sys.argv) > 1 else subprocess.check_output([f"{ROOT}/tools/run", "--which", "sqs_server"], text=True).strip()
    with tempfile.TemporaryDirectory() as room, Server(program, room, "server", is_early=True) as server:
        moving = Moving(server)
        for part in (waits, hides, delays, follows):
            part(server, moving)


main()
