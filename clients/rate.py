#!/usr/bin/env python3
"""Times the server beside nginx, which gives constant replies, and writes what it finds as a table and as a picture.

usage: clients/rate.py [--seconds S] [--runs R] [--connections N,..] [--polls N] [--only WORDS] [--to FOLDER] [PROGRAM]
       clients/rate.py --rest [--seconds S] [PROGRAM]
       clients/rate.py --parked [--seconds S] [--polls N] [PROGRAM]

The program is the proved server, as `make build` makes it, unless another is named. Server and nginx are started here, at free ports, and so
is moto's server where it is installed, which gets sends of 1 letter alone, once. With what is given in brackets it takes some 15 minutes.

  --seconds S        how long each run takes, 1 to 15 (2)
  --runs R           how often each is run (5)
  --connections N,.. over how many connections requests come, each waiting for its reply before the next (1,8,64)
  --polls N          how many polls are parked, or wait for what is sent (1000)
  --only WORDS       only requests whose name in the table has these words, and no moto
  --to FOLDER        where rate.md and rate.svg go: docs/bench for the proved server and all requests, else out/bench
  --rest             no requests: what part of a processor a server takes that has 1,000 quiet queues, in S seconds (60), and its memory: 5 % or 64 MB are
                     too much, and end with status 1. The same is told, without a limit, where each of the queues has a policy for dead letters
  --parked           nothing is sent: what a server takes in S seconds (60) at whose one queue N polls (2000) wait, and each again that ends after 20 s

It needs Debian's packages wrk and nginx, and faketime for queues of 180 rows. Rows are of minutes of the wall clock. So one more server begins
with a clock that is three hours behind, makes its queues, and then gets the true time: 180 minutes are over at once, without a send in them.
What faketime itself costs this server shows beside it, where the queue is new.

How it keeps from flattering:

  - The load comes from wrk, which is written in C, by rate.lua. It asks nginx for the same in the same way, and looks at each reply in the same
    way. What it costs is in both numbers: over one connection it brings them nearer to each other than the servers alone are. The table has what
    part of its threads' time it was busy at most, and names below where that was more than 90 %.
  - nginx has a worker for each processor and reads a request at once, and its replies are the server's own, to the byte.
  - Runs take turns: nginx, the server, nginx, the server. A part of nginx's rate is that of a run and of the run of nginx just before it.
    The table has the middle of all runs, with the slowest and the fastest, and the middle of their p50 and p99.
  - Sends that are refused by their heads ask no queue: their reply is a constant here too, and the log is off, so they show what HTTP alone takes.
  - Each run has a new queue, so that none profits from what another left.
  - Each reply has to have status 200, and the MD5 of what was sent or an empty list of failures. Behind each run the statistics of the queue
    have to tell as many messages sent, received and deleted as wrk has replies to, and neither a refusal nor an empty receive. Where heads are
    refused, each reply has to have status 403 and that refusal's text, and the queue must have got no message. Polls that are
    parked have to be silent until the run is over, and then each to be answered by a message. Else there is no table.
  - Polls stay parked while others send to their queue only where no message is visible in time: those sends have a delay of 15 minutes, and so
    have those beside which no poll is parked. Where each message is taken by a poll, there are 900 at most, since a queue turns requests away
    where 1,000 mails wait: they come again and delete what they got, three requests a message, of which one is counted.
"""
import argparse
import contextlib
import hashlib
import os
import re
import resource
import shutil
import signal
import statistics
import subprocess
import sys
import tempfile
import time
from typing import NamedTuple

sys.dont_write_bytecode = True
ROOT = os.path.normpath(os.path.join(os.path.dirname(os.path.abspath(__file__)), ".."))
sys.path.insert(0, f"{ROOT}/tools")
import crates
from rate_servers import SIGNED, Load, Moto, Nginx, Parked, Server, Void, faketime, loaded
from rate_table import picture, short, table

# From what part of its threads' time on wrk may be what is slow.
BUSY = 0.9
# How many polls come again at most, since a queue has 1,000 mails at most: all of these at once, and those of the sends beside them.
AGAIN = 900
# A server with 1,000 quiet queues takes less of a processor, and fewer millions of bytes.
REST_PART, REST_MEMORY = 0.05, 64


class Kind(NamedTuple):
    """Requests: their name in the table, the path of nginx's reply, the function of rate.lua, the body of a message, its delay or wait, and what is beside."""

    name: str
    path: str
    shape: str
    beside: str = ""
    text: str = "a"
    seconds: int = 0


# Requests at which no queue is asked: what they take is what HTTP takes here.
REFUSED = "sends of 1 letter, refused by their heads"
# The kinds of a line take turns with one run of nginx.
KINDS = (
    (Kind("sends of 1 letter", "/send/", "send"),),
    (Kind(REFUSED, "/page/", "page"),),
    (Kind("sends of 1 KB", "/kilobyte/", "send", text="x" * 1024),),
    (Kind("receives and deletes", "/receive/", "receive", "filled"),),
    (Kind("batches of ten sends", "/batch/", "batch"),),
    (Kind("receives of ten and batches of ten deletes", "/ten/", "ten", "filled"),),
    (Kind("sends under faketime", "/send/", "send", "new"), Kind("sends under faketime, 180 rows", "/send/", "send", "aged")),
    (Kind("sends, polls parked at another queue", "/send/", "send", "other"),),
    (
        Kind("sends with a delay", "/send/", "send", seconds=900),
        Kind("sends with a delay, polls parked at the queue", "/send/", "send", "same", seconds=900),
        Kind("sends, each received by a poll and deleted", "/send/", "send", "served"),
    ),
)
FILL, POLL = Kind("", "/batch/", "batch"), Kind("", "/receive/", "receive", seconds=20)


def words_of(kind, url):
    """Returns the words of rate.lua for requests to a queue."""
    return [kind.path, kind.shape, url, kind.text, hashlib.md5(kind.text.encode()).hexdigest(), str(kind.seconds)]


class Dry(Exception):
    """A receive found no message: too few were sent before."""


def verify(told, wrk, kind, connections):
    """Compares what a queue tells with what wrk has replies to. Of the requests that were under way in the end each may be done or not."""
    each = 10 if kind.shape in ("batch", "ten") else 1
    if told["refused"]:
        raise Void(f"{told['refused']} commands were refused")
    if kind.shape == "page":
        if told["sent"]:
            raise Void("a request that was to be refused was done")
        return
    if kind.beside == "aged" and told["rows"] != 180:
        raise Void(f"there are {told['rows']} rows")
    if kind.beside == "filled" and told["emptyReceives"] + wrk["short"]:
        raise Dry
    wanted = {"received": wrk["offers"], "deleted": wrk["requests"] - wrk["offers"]} if kind.beside == "filled" else {"sent": wrk["requests"]}
    for name, count in wanted.items():
        if not each * count <= told[name] <= each * (count + connections):
            raise Void(f"wrk has replies to {count} requests of {each} each, and the queue tells {told[name]} {name}")


class Bench:
    """Server and nginx while they are timed."""

    def __init__(self, stack, room, program, options):
        self.stack, self.room, self.program, self.seconds, self.options = stack, room, program, options.seconds, options
        self.server = stack.enter_context(Server(program, room, "server"))
        self.nginx = stack.enter_context(Nginx(room, self.server.replies()))
        # a server whose clock was put on, and the URLs of its queues of 180 rows
        self.early, self.aged = None, []
        # how long a queue is filled, as a part of a run
        self.fills = {}

    def early_server(self):
        """Returns the server whose clock is put on, which is started, and gets its queues of 180 rows, where that is not done."""
        if not self.early:
            self.early = self.stack.enter_context(Server(self.program, self.room, "early-server", is_early=True))
            names = [f"aged-{it}" for it in range(self.options.runs * len(self.options.connections))]
            self.aged = [self.early.make(it) for it in names]
            self.early.put_on(names)
        return self.early

    def nginx_run(self, kind, connections):
        """Times requests to nginx once."""
        return loaded(self.nginx.port, words_of(kind, "http://localhost:9324/000000000000/rate"), connections, self.seconds)

    def server_run(self, kind, connections):
        """Times requests to the server once."""
        how = {"filled": self.filled_run, "other": self.parked_run, "same": self.parked_run, "served": self.served_run}.get(kind.beside, self.one_run)
        server = self.early_server() if kind.beside in ("new", "aged") else self.server
        url = self.aged.pop() if kind.beside == "aged" else server.make("rate")
        result = how(server, url, kind, connections)
        server.ask("DeleteQueue", QueueUrl=url)
        # what the queue held is given back meanwhile
        time.sleep(0.2)
        return result

    def one_run(self, server, url, kind, connections):
        """Times requests to a queue, and asks the queue whether it did all of them."""
        wrk = loaded(server.port, words_of(kind, url), connections, self.seconds)
        told = server.tallies(url.rsplit("/", 1)[1])
        verify(told, wrk, kind, connections)
        return wrk | {"received": told["received"] / max(1, told["sent"])}

    def filled_run(self, server, url, kind, connections):
        """Times receives from a queue that was filled, and once more with a longer filling where they found no message at last."""
        while self.fills.setdefault((kind, connections), 0.5) <= 16:
            seconds = max(1, round(self.seconds * self.fills[kind, connections]))
            loaded(server.port, words_of(FILL, url), 8, seconds)
            try:
                return self.one_run(server, url, kind, connections)
            except Dry:
                self.fills[kind, connections] *= 2
                server.ask("DeleteQueue", QueueUrl=url)
                server.make("rate")
        raise Void("the queue cannot be filled as fast as it is emptied")

    def parked_run(self, server, url, kind, connections):
        """Times sends while polls are parked, at another queue or, where no message is visible in time, at this one."""
        place = url if kind.beside == "same" else server.make("other")
        with Parked(server, place, self.options.polls) as parked:
            wrk = self.one_run(server, url, kind, connections)
            parked.check()
        if place != url:
            server.ask("DeleteQueue", QueueUrl=place)
        return wrk

    def served_run(self, server, url, kind, connections):
        """Times sends to a queue while connections, as many as there are polls but for AGAIN at most, receive from it, waiting, and delete."""
        with Load(server.port, words_of(POLL, url), min(self.options.polls, AGAIN), self.seconds + 2) as polls:
            time.sleep(1)
            wrk = self.one_run(server, url, kind, connections)
            polls.result()
        return wrk


def kinds_of(line, options):
    """Returns those kinds of a line that are asked for and can be had."""
    return [it for it in line if options.only in it.name and (it.beside not in ("new", "aged") or faketime())]


def round_of(bench, kinds, connections):
    """Times nginx and then each of the kinds once, and returns the pairs."""
    what = "nginx"
    try:
        nginx, pairs = bench.nginx_run(kinds[0], connections), []
        for kind in kinds:
            what = kind.name
            pairs.append((bench.server_run(kind, connections), nginx))
        return pairs
    except Void as why:
        raise Void(f"{what}, connections: {connections}: {why}") from None


def measure(bench, options, found):
    """Finds, by name and number of connections, the pairs of a run and the run of nginx before it."""
    for kinds in filter(None, (kinds_of(line, options) for line in KINDS)):
        for connections in options.connections:
            rounds = [round_of(bench, kinds, connections) for _ in range(options.runs)]
            for kind, *pairs in zip(kinds, *rounds):
                found[kind.name, connections] = pairs
                middle = statistics.median(ours["rate"] for ours, _ in pairs)
                print(f"{kind.name}, connections: {connections}: {short(middle)}", file=sys.stderr, flush=True)


def notes(found):
    """Returns what is to be known of the runs beside the table."""
    lines, served = [], {}
    if any(it["busy"] > BUSY for pairs in found.values() for pair in pairs for it in pair):
        where = f"- Where wrk was busy for more than {100 * BUSY:.0f} % of a run's time (the last two columns), what is told may be wrk's own rate."
        lines.append(f"{where} Where that is nginx's, the part of it is an upper bound.")
    for (name, connections), pairs in found.items():
        if any(name == it.name and it.beside == "served" for line in KINDS for it in line):
            parts = sorted(ours["received"] for ours, _ in pairs)
            served.setdefault(name, []).append(f"{100 * parts[len(parts) // 2]:.0f} % over {connections}")
    for name, parts in served.items():
        lines.append(f"- {name}: at the end of a run so much of what was sent had been received: {', '.join(parts)}.")
    if not faketime():
        lines.append("- Without faketime no queue has 180 rows, so sends to one were not timed.")
    return lines


def moto_note(room, seconds):
    """Returns how many sends a second moto's server answers, which is only for comparison."""
    try:
        with Moto(room) as moto:
            words = words_of(KINDS[0][0]._replace(path="/"), moto.url)
            rates = {count: loaded(moto.port, words, count, seconds, [f"Authorization: {SIGNED}"])["rate"] for count in (1, 8)}
        return f"- moto's server, one run each: {short(rates[1])} sends of 1 letter a second over one connection, {short(rates[8])} over 8."
    except (Void, OSError) as why:
        print(f"rate: moto's server: {why}", file=sys.stderr)
        return "- moto's server is installed, and could not be timed."


def version(words):
    """Returns the version that a program tells."""
    ran = subprocess.run(words, capture_output=True, text=True)
    return (re.search(r"\d+(\.\d+)+", ran.stdout + ran.stderr) or ["of an unknown version"])[0]


def taken_by(process):
    """Returns how many seconds of a processor a process has taken."""
    with open(f"/proc/{process.pid}/stat", encoding="utf-8") as it:
        words = it.read().rpartition(")")[2].split()
    # user and system time, fields 14 and 15 of proc(5); the first here is the third there
    return (int(words[11]) + int(words[12])) / os.sysconf("SC_CLK_TCK")


def at_rest(server, seconds, polls=0):
    """Returns what part of a processor a server takes that is not asked, or at whose first queue so many polls wait, and its resident memory in millions of
    bytes."""
    with server, Parked(server, "queue-0", polls) as parked:
        parked.wait(2)
        begin, start = taken_by(server.process), time.monotonic()
        parked.wait(seconds)
        part = (taken_by(server.process) - begin) / (time.monotonic() - start)
        with open(f"/proc/{server.process.pid}/status", encoding="utf-8") as it:
            return part, int(re.search(r"VmRSS:\s+(\d+) kB", it.read())[1]) * 1024 / 1e6


def rest(program, room, seconds):
    """Prints what a server takes that has 1,000 quiet queues, and what one whose queues have a policy. Returns 1 where the first takes too much, and else 0."""
    part, memory = at_rest(Server(program, room, "server", queues=1000), seconds)
    print(f"1,000 quiet queues, {seconds} s: {100 * part:.1f} % of a processor, {memory:.0f} MB resident", flush=True)
    other, more = at_rest(Server(program, room, "letters", queues=1000, has_letters=True), seconds)
    print(f"1,000 quiet queues with a policy, {seconds} s: {100 * other:.1f} % of a processor, {more:.0f} MB resident", flush=True)
    if part < REST_PART and memory < REST_MEMORY:
        return 0
    print(f"rate: 1,000 quiet queues have to take less than {100 * REST_PART:.0f} % of a processor and {REST_MEMORY} MB", file=sys.stderr)
    return 1


def parked(program, room, seconds, polls):
    """Prints what a server takes at whose one queue polls wait, each again once it ends."""
    part, memory = at_rest(Server(program, room, "server", queues=1), seconds, polls)
    print(f"{polls:,} polls parked at a queue, {seconds} s: {100 * part:.1f} % of a processor, {memory:.0f} MB resident", flush=True)


def timed(program, room, options, is_proved):
    """Times all, prints the table, and writes it and the picture."""
    load, found = os.getloadavg()[0], {}
    try:
        with contextlib.ExitStack() as stack:
            measure(Bench(stack, room, program, options), options, found)
    except Void:
        if found:
            print(f"What was found before, and is not written:\n{table(found)}", file=sys.stderr)
        raise
    lines = [f"- {REFUSED}: the server answers them with a constant, so what they take is what HTTP takes here."] if (REFUSED, options.connections[0]) in found else []
    lines += notes(found) + ([moto_note(room, options.seconds)] if shutil.which("moto_server") and not options.only else [])
    named = "The proved server" if is_proved else "A server that was named, and not the proved one,"
    head = f"{named} beside nginx {version(['nginx', '-v'])}, asked by wrk {version(['wrk', '-v'])}, on {os.cpu_count()} processors, whose load was {load:.1f} before:\n"
    head += f"the middle of {options.runs} runs of {options.seconds} s each, with the slowest and the fastest. Rates are requests a second;"
    head += f" of polls there are {options.polls:,}, of those that come again {min(options.polls, AGAIN)}."
    text = "\n".join([head, "", table(found), *lines]).rstrip("\n") + "\n\n![Requests a second, as a part of nginx's, against the number of connections](rate.svg)\n"
    os.makedirs(options.to, exist_ok=True)
    for name, it in (("rate.md", text), ("rate.svg", picture(found))):
        with open(f"{options.to}/{name}", "w", encoding="utf-8") as to:
            to.write(it)
    print(text, end="")


def options_of(words):
    """Returns the options that the words give."""
    def counts(text):
        return [int(it) for it in text.split(",")]

    reader = argparse.ArgumentParser(usage=argparse.SUPPRESS, add_help=False)
    reader.add_argument("--help", "-h", action="store_true")
    reader.add_argument("--seconds", type=int)
    reader.add_argument("--runs", type=int, default=5)
    reader.add_argument("--connections", type=counts, default=[1, 8, 64])
    reader.add_argument("--polls", type=int)
    reader.add_argument("--only", default="")
    reader.add_argument("--rest", action="store_true")
    reader.add_argument("--parked", action="store_true")
    reader.add_argument("--to")
    reader.add_argument("program", nargs="?")
    options = reader.parse_args(words)
    is_quiet = options.rest or options.parked
    options.seconds = options.seconds or (60 if is_quiet else 2)
    if options.polls is None:
        options.polls = 2000 if options.parked else 1000
    is_allowed = 1 <= options.seconds <= (3600 if is_quiet else 15) and options.runs >= 1 and not (options.rest and options.parked)
    is_allowed = is_allowed and all(1 <= it <= 1000 for it in options.connections) and 1 <= options.polls <= (8000 if options.parked else 1000)
    if options.help or not is_allowed or not any(kinds_of(line, options) for line in KINDS):
        print(__doc__, file=sys.stderr)
        sys.exit(0 if options.help else 2)
    return options


def main(words):
    """Does what the words ask, and returns the status."""
    options = options_of(words)
    proved = None if options.program else crates.built(crates.Crates(), "sqs_server")
    program = os.path.abspath(options.program) if options.program else proved
    if not program or not os.path.isfile(program):
        sys.exit("rate: there is no proved server of the code as it stands: `make build` makes it" if not options.program else f"rate: there is no {program}")
    options.to = options.to or (f"{ROOT}/docs/bench" if proved and not options.only else f"{ROOT}/out/bench")
    # where Debian has nginx
    os.environ["PATH"] += ":/usr/sbin"
    for name in () if options.rest or options.parked else ("wrk", "nginx"):
        if not shutil.which(name):
            sys.exit(f"rate: no {name}: install Debian's package {name}")
    hard = resource.getrlimit(resource.RLIMIT_NOFILE)[1]
    resource.setrlimit(resource.RLIMIT_NOFILE, (hard if hard != resource.RLIM_INFINITY and hard < 8192 else 8192, hard))
    with tempfile.TemporaryDirectory(prefix="rate-") as room:
        try:
            if options.rest:
                return rest(program, room, options.seconds)
            if options.parked:
                return parked(program, room, options.seconds, options.polls)
            timed(program, room, options, bool(proved))
        except (Void, OSError) as why:
            sys.exit(f"rate: void: {why}")
    return 0


if __name__ == "__main__":
    signal.signal(signal.SIGTERM, lambda number, _: sys.exit(128 + number))
    sys.exit(main(sys.argv[1:]))
