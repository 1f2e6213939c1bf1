#!/usr/bin/env python3
"""Times sends to the server while its statistics are read: by nobody, by 10 readers, by 100, and by one that reads without a pause.

Usage: watched.py [PORT STATISTICS_PORT], by default 9324 and 9325, with the server started before, as clients/run.sh does. Each reader has
a connection of its own to the port of the statistics, and asks for the queue, its rows and its alarms once a second, as the page does. The
sends go through one connection to the other port, one after another. It prints the middle of the runs, with the shortest and the longest,
in microseconds a send, and how much more that is than without a reader; and how long a read takes that nothing else is done beside.
"""

import multiprocessing
import os
import socket
import statistics
import sys
import threading
import time

PORT, STATISTICS_PORT = map(int, sys.argv[1:3] or (9324, 9325))
SENDS = 40_000
READS = 5_000
RUNS = 5
READERS = (("no reader", 0, 1.0), ("10 readers", 10, 1.0), ("100 readers", 100, 1.0), ("one reader without a pause", 1, 0.0))
PATHS = ("/statistics/queues/watched", "/statistics/queues/watched/rows", "/statistics/queues/watched/alarms")


class Line:
    """A connection that is kept open."""

    def __init__(self, port):
        self.socket = socket.create_connection(("127.0.0.1", port), 60)
        self.socket.setsockopt(socket.IPPROTO_TCP, socket.TCP_NODELAY, 1)
        self.kept = b""

    def ask(self, request):
        """Sends the bytes of a request, and returns the bytes of the body of its reply. One that is no success ends the program."""
        self.socket.sendall(request)
        while b"\r\n\r\n" not in self.kept:
            self.more()
        head, self.kept = self.kept.split(b"\r\n\r\n", 1)
        if not head.startswith(b"HTTP/1.1 200 "):
            sys.exit(f"watched.py: refused: {head.decode()}")
        size = int(head.lower().split(b"content-length:", 1)[1].split(b"\r\n", 1)[0])
        while len(self.kept) < size:
            self.more()
        body, self.kept = self.kept[:size], self.kept[size:]
        return body

    def more(self):
        """Takes what has come."""
        piece = self.socket.recv(1 << 16)
        if not piece:
            sys.exit("watched.py: the server has closed the connection")
        self.kept += piece


def call(action, body):
    """Returns the bytes of a request for an action."""
    return f"POST / HTTP/1.1\r\nHost: localhost\r\nX-Amz-Target: AmazonSQS.{action}\r\nContent-Length: {len(body)}\r\n\r\n{body}".encode()


def view(path):
    """Returns the bytes of a request for a path of the statistics."""
    return f"GET {path} HTTP/1.1\r\nHost: localhost\r\n\r\n".encode()


def read_until(done, pause):
    """Reads again and again."""
    line = Line(STATISTICS_PORT)
    while not done.wait(pause):
        for path in PATHS:
            line.ask(view(path))


def read_all(done, readers, pause):
    """Has so many readers read, in a process of their own."""
    threads = [threading.Thread(target=read_until, args=(done, pause)) for _ in range(readers)]
    for it in threads:
        it.start()
    for it in threads:
        it.join()


def timed(line, request, times):
    """Returns how many microseconds one request takes, asked so many times."""
    start = time.perf_counter()
    for _ in range(times):
        line.ask(request)
    return 1e6 * (time.perf_counter() - start) / times


def sends(readers, pause):
    """Returns how many microseconds a send takes while so many read."""
    done = multiprocessing.Event()
    reading = multiprocessing.Process(target=read_all, args=(done, readers, pause))
    reading.start()
    time.sleep(1.5)
    line = Line(PORT)
    line.ask(call("PurgeQueue", '{"QueueUrl":"watched"}'))
    taken = timed(line, call("SendMessage", '{"QueueUrl":"watched","MessageBody":"a"}'), SENDS)
    done.set()
    reading.join()
    return taken


def main():
    Line(PORT).ask(call("CreateQueue", '{"QueueName":"watched"}'))
    found = {}
    for _ in range(RUNS):
        for name, readers, pause in READERS:
            found.setdefault(f"a send, {name}", []).append(sends(readers, pause))
        for path in (*PATHS, "/statistics/queues", "/metrics"):
            found.setdefault(f"GET {path}", []).append(timed(Line(STATISTICS_PORT), view(path), READS))
    print(f"on {os.cpu_count()} processors: the middle of {RUNS} runs, the shortest and the longest, in microseconds")
    without = statistics.median(found["a send, no reader"])
    for name, taken in found.items():
        middle = statistics.median(taken)
        more = f", {100 * (middle / without - 1):+.1f} %" if name.startswith("a send, ") and name != "a send, no reader" else ""
        print(f"{name}: {middle:.1f} ({min(taken):.1f} to {max(taken):.1f}){more}")
    Line(PORT).ask(call("DeleteQueue", '{"QueueUrl":"watched"}'))


if __name__ == "__main__":
    main()
