#!/usr/bin/env python3
"""Serves the statistics page and numbers that were made up for it: to look at the page, and to test it, without a queue.

Usage: stand_in.py [PORT [QUEUES]], 9325 and 5 by default; with port 0 the system chooses one. It prints its address, and goes on until
it is ended. The page is the text of crates/statistics_api/src/page.rt as it stands; the texts have the members and the order of
section 24 of docs/PROFILE.md. Some of its queues and alarms have names that no queue can have, so that one sees that the page takes
every name as a text.
"""

import json
import math
import os
import random
import re
import sys
import time
from http.server import BaseHTTPRequestHandler, ThreadingHTTPServer
from urllib.parse import unquote

ROOT = os.path.normpath(os.path.join(os.path.dirname(os.path.abspath(__file__)), ".."))
MINUTE = 60_000
WINDOW = 180
FLOWS = ("deadLettersArrived", "deleted", "emptyReceives", "received", "refused", "sent", "sentSize")
ODD = ("<b>bold</b>", "a&amp;b", "it's \"quoted\"", "</script><script>document.title='taken'</script>")
STATES = ("OK", "ALARM", "INSUFFICIENT_DATA")


def page():
    """Returns the page: the literal of the constant in page.rt, which has no escapes."""
    with open(f"{ROOT}/crates/statistics_api/src/page.rt", encoding="utf-8") as it:
        found = re.search(r'(?s)pub const PAGE: &str =\s+r##"(.*)"##;\n', it.read())
    if not found:
        sys.exit("stand_in.py: there is no page in crates/statistics_api/src/page.rt")
    return found[1]


class Queue:
    """A queue whose numbers follow from its place and from the time alone, so that a row never changes."""

    def __init__(self, place, name, since):
        self.place, self.name, self.since = place, name, since

    def visible(self, second):
        """Returns how many messages are visible in a second, counted since 1970."""
        return int(max(0, 40 + 30 * math.sin((second / 60 + 29 * self.place) / 17) + 4 * math.sin(second / (9 + self.place % 5))))

    def share(self, minute, over):
        """Returns which share of what happens in a minute has happened when so many of its milliseconds are over: some seconds have more of it."""
        if over == MINUTE:
            return 1.0
        chance = random.Random(minute * 1009 + self.place)
        weights = [chance.random() ** 2 for _ in range(60)]
        second = over // 1000
        return (sum(weights[:second]) + weights[second] * (over / 1000 - second)) / sum(weights)

    def minute(self, minute, over=MINUTE):
        """Returns a minute as a row has it, or what has happened when so many of its milliseconds are over."""
        share = self.share(minute, over)
        wave = 1 + math.sin((minute + 13 * self.place) / 11) + 0.4 * math.sin((minute * (self.place + 3)) / 5)
        sent = int(max(0, 140 * wave + (minute * 7919 + self.place) % 50) * share)
        received = int(max(0, 120 * wave + (minute * 104729 + self.place) % 70) * share)
        refused = 2 if self.place % 4 == 1 and minute % 37 < 2 else 0
        visible = self.visible(minute * 60 + min(59, over // 1000))
        return {
            "age": visible * 3, "deadLettersArrived": received // 90 if self.place == 0 else 0, "delayed": (minute + self.place) % 4,
            "deleted": int(received * 0.9), "emptyReceives": (minute + self.place) % 3, "inFlight": received // 40, "minute": minute,
            "received": received, "refused": refused, "sent": sent, "sentSize": sent * 57, "visible": visible,
        }

    def sheet(self, now):
        """Returns what stands in the queue at a time in milliseconds."""
        row = self.minute(now // MINUTE, now % MINUTE)
        return {
            "age": row["age"], "clock": now, "current": {key: row[key] for key in FLOWS}, "delayed": row["delayed"],
            "inFlight": row["inFlight"], "lines": (now - self.since) // 1000 + 100, "name": self.name, "visible": row["visible"],
        }

    def rows(self, now):
        """Returns the rows of the last minutes that are over."""
        end = now // MINUTE
        return [self.minute(minute) for minute in range(max(self.since // MINUTE, end - WINDOW), end)]

    def alarms(self, now):
        """Returns its alarms: none, one or three, and one of an odd name where its own is odd."""
        names = [(), ("backlog",), ("backlog", "refusals", "stalled")][self.place % 3] + (("<i>odd</i> & \"more\"",) if self.name in ODD else ())
        return [{"name": name, "state": STATES[(number + self.place + now // MINUTE) % 3]} for number, name in enumerate(names)]


class One(Queue):
    """A queue with one of everything: one message, one entry, and one call of each kind in each minute."""

    def minute(self, minute, over=MINUTE):
        """Returns a minute in which each thing happened once."""
        return {**dict.fromkeys(super().minute(minute), 1), "minute": minute}

    def sheet(self, now):
        """Returns what stands in it."""
        return {**super().sheet(now), "lines": 1}


class Large(Queue):
    """A queue as large as one can be: its name and those of its alarms are the longest, and so are its numbers."""

    def __init__(self, place, _, since):
        super().__init__(place, f"{place:03}{'W' * 77}", since)

    def minute(self, minute, over=MINUTE):
        """Returns a minute of millions."""
        millions = {key: 16_000_000 + number for key, number in super().minute(minute, over).items()}
        return {**millions, "age": 1_209_599, "inFlight": 120_000, "minute": minute, "sentSize": 16_000_000 * 1_048_576}

    def sheet(self, now):
        """Returns what stands in it."""
        return {**super().sheet(now), "lines": 16_777_216}

    def alarms(self, now):
        """Returns as many alarms as a queue can have."""
        return [{"name": f"{number:02}{'W' * 78}", "state": STATES[(number + now // MINUTE) % 3]} for number in range(16)]


def names(count):
    """Returns so many names: some as queues have them, then the odd ones, then numbers."""
    first = ["dead", "jobs", "mail-out", "thumbnails_v2", *ODD]
    return [*first, *(f"many-{number:04}" for number in range(count))][:count]


class Answers(BaseHTTPRequestHandler):
    """Answers as section 24 of docs/PROFILE.md says, but that names are decoded."""

    queues = ()
    asked = {}
    start = None  # where this is a time in milliseconds, a second passes with each request for the list, and otherwise none

    @classmethod
    def now(cls):
        """Returns the time in milliseconds."""
        return cls.start + 1000 * cls.asked.get("/", 0) if cls.start else int(time.time() * 1000)

    def text_of(self):
        """Returns the status, the content type and the text."""
        if self.path == "/":
            return 200, "text/html; charset=utf-8", page()
        found = re.fullmatch(r"/statistics/queues(?:/([^/]+)(/rows|/alarms)?)?", self.path)
        if self.path == "/asked":
            return 200, "application/json", json.dumps(self.asked)
        if not found:
            return 404, "application/json", '{"message":"not found"}'
        self.asked[found[2] or "/"] = self.asked.get(found[2] or "/", 0) + 1
        now, by_name = self.now(), sorted(self.queues, key=lambda it: it.name.encode())
        if found[1] is None:
            told = {"queues": [it.sheet(now) for it in by_name]}
        else:
            queue = next((it for it in by_name if it.name == unquote(found[1])), None)
            if not queue:
                return 404, "application/json", '{"message":"not found"}'
            told = {None: queue.sheet, "/rows": lambda at: {"rows": queue.rows(at)}, "/alarms": lambda at: {"alarms": queue.alarms(at)}}[found[2]](now)
        return 200, "application/json", json.dumps(told, separators=(",", ":"), ensure_ascii=False)

    def answer(self):
        """Sends an answer; a method other than GET is refused where there is such a path."""
        status, kind, text = self.text_of()
        if self.command != "GET" and status == 200:
            status, kind, text = 405, "application/json", '{"message":"method not allowed"}'
        self.send_response(status)
        self.send_header("Content-Type", kind)
        self.send_header("Content-Length", str(len(text.encode())))
        self.end_headers()
        self.wfile.write(text.encode())

    do_GET = do_POST = answer

    def log_message(self, *_):
        """Says nothing."""


def serving(port, count, kind=Queue, minutes=200, start=None):
    """Returns a server of so many queues of a kind, which are so many minutes old. It listens already. With a start its clock is its own."""
    Answers.start, Answers.asked = start, {}
    since = Answers.now() - minutes * MINUTE
    Answers.queues = [kind(place, name, since) for place, name in enumerate(names(count))]
    return ThreadingHTTPServer(("127.0.0.1", port), Answers)


def main(words):
    """Serves until it is ended."""
    if len(words) > 2 or not all(it.isdigit() for it in words):
        sys.exit("usage: stand_in.py [PORT [QUEUES]]")
    try:
        server = serving(int(words[0]) if words else 9325, int(words[1]) if len(words) > 1 else 5)
    except OSError as error:
        sys.exit(f"stand_in.py: the port cannot be opened: {error.strerror}")
    print(f"http://127.0.0.1:{server.server_address[1]}/", flush=True)
    try:
        server.serve_forever()
    except KeyboardInterrupt:
        pass


if __name__ == "__main__":
    main(sys.argv[1:])
