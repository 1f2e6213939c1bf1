#!/usr/bin/env python3
"""Shows what becomes of large bodies that come together, of too many queues, of connections that stand still, and of want of memory, and which threads take
part in a request, by servers of its own.

usage: clients/limits.py [--quick] [PROGRAM]

The program is the one that `make run` starts, unless another is named. It takes a minute and a half, and one that is not proved two to four: what is given up
after 30 to 40 seconds has to be waited for. With --quick it does not look at connections that stand still, and takes 10 to 20 seconds. Each line of what it
prints names a check, and the last says 'N passed, M failed'; the status is 1 where one fails.

  - Bodies of 8 MB are announced over more connections than all threads together may take, four times over, and once as many bodies come in chunks, whose size
    is not announced. Each time as many are taken as one thread takes at the least, and as all threads may at the most. All others are answered 503, each of
    these is closed, and it is counted. A small request is answered all the same, over each of many connections. Once the large ones are cut, one more is
    taken, and answered.
  - A large body counts until its request is answered. Receives wait whose bodies have 8 MB, or come in chunks, each sent when the one before has come: as many
    are taken as may count at once, and others are turned away. Once those are answered, large bodies are taken again over the same connections.
  - As many queues are created as there may be. One more is refused, leaves no name, and is created once another one was deleted.
  - Sends and batches over one connection are answered by its thread: no other one is woken for each.
  - A body of which no byte comes any more, and a reply of which none is taken, end their connection between 30 and 45 seconds later. A receive that
    waits for 20 seconds does not: it is answered, and so is what is asked next over its connection.
  - The proved server may have no more than some bytes of addresses beyond those of its start, fewer than a thread takes for large bodies. A request that finds
    no memory is answered 500 OutOfMemory, or its connection ends. That has a line, or the one that tells of a line without memory stands in its place, at most
    once a second. The server goes on, and answers what is asked once the memory is there again. A program that is compiled without a proof may have an address
    sanitizer, which takes terabytes of addresses at its start and ends the program where it gets no more: with it this is left out.
"""
import atexit
import contextlib
import json
import os
import re
import resource
import select
import socket
import subprocess
import sys
import tempfile
import threading
import time

ROOT = os.path.normpath(os.path.join(os.path.dirname(os.path.abspath(__file__)), ".."))
# The largest body, and the most threads that answer requests: docs/PROFILE.md, section 25.
LARGEST, THREADS, LARGE_AT_ONCE = 8_388_608, 16, 4
# What a request is answered that finds no memory, what is told where a line finds none, and lines that may be told of a request or a connection without memory.
MEMORY = '{"__type":"com.amazonaws.sqs#OutOfMemory","message":"Out of memory."}'
SHORT = "sqs_server: out of memory"
WANT = r"\d\d:\d\d:\d\d\.\d{3}Z (\S+ \S+ 500 OutOfMemory\b.*|(accept|connection|port for requests): .+)"
# How many queues there may be, what one more is answered, and what is answered then to who asks for it: docs/PROFILE.md, sections 7 and 20.
QUEUES = 1000
OVER = (400, '{"__type":"com.amazonaws.sqs#OverLimit","message":"A limit is reached."}')
ABSENT = (400, '{"__type":"com.amazonaws.sqs#QueueDoesNotExist","message":"The specified queue does not exist."}')
# How many sends and batches of ten come one after another, in which part of them a thread has slept that takes part in each, and how often a second at the most
# one has that looks at the queues ten times a second.
SENDS, BATCHES, PARTS, LOOKS = 1000, 200, 0.5, 30
# How often large bodies come together, and how long no reply has to come until none is waited for, in seconds: where as many wait as may be taken at the most,
# and where more do.
ROUNDS, QUIET, LATE = 4, 1, 30
# On how many processors the server runs whose receives wait, so that few are too many, and how long a body may take to come that is sent, in seconds.
PROCESSORS, COMES = 2, 0.1
# For how long receives that may wait 20 seconds wait for sure, in seconds.
WAITED = 19
# How many bytes of addresses the server may have more than at its start, where memory is to be short: not those of three of the largest bodies; and how many
# it has at the most where it has no address sanitizer.
MORE, USUAL = 20 * 2**20, 2**40


class Server:
    """A server at free ports, with one queue, on so many processors, where a number is given, and else on all. It tells of no request, or of those named."""

    def __init__(self, program, processors=None, log="none"):
        places = sorted(os.sched_getaffinity(0))[:processors]
        # how many answer requests
        self.threads = max(2, min(THREADS, len(places)))
        self.room = tempfile.TemporaryDirectory()
        with open(f"{self.room.name}/config.toml", "w", encoding="utf-8") as it:
            it.write('[[queue]]\nname = "jobs"\n')
        self.said = open(f"{self.room.name}/said", "w+", encoding="utf-8")
        self.process = subprocess.Popen(
            [program, f"{self.room.name}/config.toml"],
            stdout=subprocess.PIPE,
            stderr=self.said,
            text=True,
            env={**os.environ, "JUTKARIQ_PORT": "0", "JUTKARIQ_STATISTICS_PORT": "0", "JUTKARIQ_LOG": log},
            preexec_fn=lambda: os.sched_setaffinity(0, places),
        )
        # also where this program ends before it has ended it
        atexit.register(self.process.kill)
        first = self.process.stdout.readline()
        found = re.search(r"requests at http://localhost:(\d+), statistics at http://localhost:(\d+)", first)
        if not found:
            raise SystemExit(f"clients/limits.py: the server does not say where it listens: {first!r}")
        self.port, self.statistics = int(found[1]), int(found[2])

    def addresses(self):
        """Returns how many bytes of addresses it has."""
        with open(f"/proc/{self.process.pid}/statm", encoding="utf-8") as it:
            return int(it.read().split()[0]) * resource.getpagesize()

    def wakings(self):
        """Returns how often each of its threads has slept, by their numbers."""
        found = {}
        for number in os.listdir(f"/proc/{self.process.pid}/task"):
            with contextlib.suppress(FileNotFoundError), open(f"/proc/{self.process.pid}/task/{number}/status", encoding="utf-8") as it:
                found[number] = int(re.search(r"(?m)^voluntary_ctxt_switches:\s*(\d+)$", it.read())[1])
        return found

    def told(self):
        """Returns the lines that it has told on standard error."""
        self.said.seek(0)
        return self.said.read().splitlines()

    def end(self):
        """Ends it, and returns whether it still went."""
        went = self.process.poll() is None
        self.process.kill()
        self.process.wait()
        return went

    def connect(self, room=None, port=None):
        """Returns a connection, which takes in no more than so many bytes at once, where a number is given, to the port for requests or to another."""
        it = socket.socket()
        if room:
            it.setsockopt(socket.SOL_SOCKET, socket.SO_RCVBUF, room)
        it.settimeout(60)
        it.connect(("127.0.0.1", port or self.port))
        return it

    def counted(self, action, status):
        """Returns how many requests its statistics tell of that had an action and a status, as they are told."""
        it = self.connect(port=self.statistics)
        it.sendall(b"GET /metrics HTTP/1.1\r\nHost: localhost\r\n\r\n")
        _, text = reply(it) or (0, "")
        line = f'jutkariq_requests_total{{action="{action}",status="{status}"}} '
        return re.findall(f"(?m)^{re.escape(line)}(.*)$", text)


def head(action, length=None):
    """Returns the head of a request, whose body comes in chunks where it has no length."""
    size = "Transfer-Encoding: chunked" if length is None else f"Content-Length: {length}"
    return f"POST / HTTP/1.1\r\nHost: localhost\r\nX-Amz-Target: AmazonSQS.{action}\r\n{size}\r\n\r\n".encode()


def ask(it, action, **members):
    """Asks, and returns the status and the body of the reply, or None where the connection ends before."""
    body = json.dumps(members).encode()
    # where the connection is closed meanwhile, a reply may have come before
    with contextlib.suppress(ConnectionError):
        it.sendall(head(action, len(body)) + body)
    return reply(it)


def reply(it):
    """Returns the status and the body of the next reply, or None where the connection ends before."""
    came = b""
    while b"\r\n\r\n" not in came:
        piece = next_of(it)
        if not piece:
            return None
        came += piece
    front, _, body = came.partition(b"\r\n\r\n")
    length = int(re.search(rb"content-length: (\d+)", front)[1])
    while len(body) < length:
        piece = next_of(it)
        if not piece:
            return None
        body += piece
    return int(front.split()[1]), body.decode()


def next_of(it):
    """Returns the bytes that come next over a connection, none where it has ended."""
    try:
        return it.recv(65_536)
    except ConnectionError:
        return b""


def has_ended(it):
    """Returns whether nothing more comes over a connection but its end."""
    try:
        return next_of(it) == b""
    except TimeoutError:
        return False


def replies(lines, most):
    """Returns the connections over which a reply comes, each with its reply. Where more than so many are left, the next reply may come late."""
    ready, waiting, found = select.poll(), {it.fileno(): it for it in lines}, []
    for it in lines:
        ready.register(it, select.POLLIN)
    while waiting and (events := ready.poll(1000 * (QUIET if len(waiting) <= most else LATE))):
        for number, _ in events:
            ready.unregister(number)
            it = waiting.pop(number)
            found.append((it, reply(it)))
    return found


class Checks:
    """What was found, told line by line."""

    def __init__(self):
        self.passed = self.failed = 0

    def see(self, what, holds, found=""):
        """Tells of a check."""
        print(f"{'ok' if holds else 'FAILED'}: {what}{'' if holds else f': {found!s:.300}'}", flush=True)
        self.passed, self.failed = self.passed + bool(holds), self.failed + (not holds)


def come_together(checks, server, which, made):
    """Has large bodies come over more connections than may be taken, each behind this head. Returns how many were turned away."""
    many = [server.connect() for _ in range(THREADS * LARGE_AT_ONCE + 1)]
    for it in many:
        it.sendall(made)
    left = taken_of(checks, server, which, many)
    checks.see(f"{which}: the connections of those that are too many are closed", all(has_ended(it) for it in many if it not in left))
    for it in many:
        it.close()
    # until the server knows of it
    time.sleep(0.5)
    return len(many) - len(left)


def taken_of(checks, server, which, many):
    """Looks which of these connections are turned away, over which large bodies come or have come. Returns the others, over which no reply came."""
    refused = replies(many, LARGE_AT_ONCE * server.threads)
    told, gone = {answer for _, answer in refused}, {it for it, _ in refused}
    left = [it for it in many if it not in gone]
    text = '{"__type":"com.amazonaws.sqs#ServiceUnavailable","message":"Too much of other requests is on its way."}'
    checks.see(f"{which}: some are too many, and told so", told == {(503, text)}, told)
    is_right = LARGE_AT_ONCE + (server.threads > 1) <= len(left) <= LARGE_AT_ONCE * server.threads
    checks.see(f"{which}: more are not than one thread takes, where there are several, and as many as all take at the most", is_right, len(left))
    answers = {(ask(server.connect(), "GetQueueUrl", QueueName="jobs") or ["none"])[0] for _ in range(40)}
    checks.see(f"{which}: small requests are answered beside them", answers == {200}, answers)
    return left


def bodies(checks, program):
    """Large bodies that come together."""
    server = Server(program)
    refused = sum(come_together(checks, server, f"bodies of 8 MB, time {it + 1}", head("SendMessage", LARGEST)) for it in range(ROUNDS))
    refused += come_together(checks, server, "bodies in chunks", head("SendMessage"))
    counted = server.counted("-", 503)
    checks.see("each of those that are too many is counted", counted == [str(refused)], f"{counted}, and {refused} is wanted")
    answers = [ask(server.connect(), "SendMessage", QueueUrl="jobs", MessageBody="x" * 200_000) for _ in range(8)]
    statuses = {(it or ["none"])[0] for it in answers}
    checks.see("once they are gone large ones are answered again", statuses == {200}, statuses)
    checks.see("the server goes on", server.end())


def waits(checks, program):
    """Large bodies that have come, of receives that wait."""
    server = Server(program, PROCESSORS)
    ask(server.connect(), "CreateQueue", QueueName="quiet")
    body = json.dumps({"QueueUrl": "quiet", "WaitTimeSeconds": 20}).encode()
    whole = head("ReceiveMessage", LARGEST) + body.ljust(LARGEST)
    parts = head("ReceiveMessage") + b"%x\r\n%s\r\n0\r\n\r\n" % (len(body), body)
    many, begun = [server.connect() for _ in range(server.threads * LARGE_AT_ONCE + 1)], time.monotonic()
    for place, it in enumerate(many):
        it.sendall(whole if place < server.threads else parts)
        time.sleep(COMES)
    left = taken_of(checks, server, "receives that wait", many)
    ask(server.connect(), "SendMessageBatch", QueueUrl="quiet", Entries=[{"Id": f"{it}", "MessageBody": "a"} for it in range(len(left))])
    is_late = time.monotonic() - begun > WAITED
    answers = [reply(it) or (0, "none") for it in left]
    if is_late:
        print("left out: that receives are answered once there are messages. This machine took so long that they may not have waited any more")
    else:
        checks.see("receives that wait: they are answered once there are messages", all('"Body":"a"' in text for _, text in answers), answers)
    # over the same connections, so that the same threads are asked
    statuses = {(ask(it, "SendMessage", QueueUrl="jobs", MessageBody="x" * 200_000) or ["none"])[0] for it in left}
    checks.see("once they are answered large ones are taken again", statuses == {200}, statuses)
    checks.see("the server goes on", server.end())


def queues(checks, program):
    """As many queues as there may be, of which the server has one at its start."""
    server = Server(program)
    it = server.connect()
    statuses = {(ask(it, "CreateQueue", QueueName=f"q{place}") or ["none"])[0] for place in range(1, QUEUES)}
    checks.see("as many queues are created as there may be", statuses == {200}, statuses)
    found = ask(it, "CreateQueue", QueueName="more")
    checks.see("one more is refused", found == OVER, found)
    found = ask(it, "GetQueueUrl", QueueName="more")
    checks.see("it leaves no name", found == ABSENT, found)
    found = [(ask(it, "CreateQueue", QueueName="q1") or ["none"])[0], (ask(it, "DeleteQueue", QueueUrl="q1") or ["none"])[0]]
    checks.see("one that is there is found, and can be deleted", found == [200, 200], found)
    found = [(ask(it, "CreateQueue", QueueName="more") or ["none"])[0], ask(it, "CreateQueue", QueueName="q1")]
    checks.see("then one more is created, and no other", found == [200, OVER], found)
    checks.see("the server goes on", server.end())


def woken(server, it, times, action, **members):
    """Asks so often over a connection. Returns the statuses, and how many threads have slept about as often meanwhile."""
    before, begun = server.wakings(), time.monotonic()
    statuses = {(ask(it, action, **members) or ["none"])[0] for _ in range(times)}
    least = times * PARTS + LOOKS * (time.monotonic() - begun)
    return statuses, sum(slept - before.get(number, 0) >= least for number, slept in server.wakings().items())


def alone(checks, program):
    """Which threads take part in a request."""
    server = Server(program)
    it = server.connect()
    statuses, threads = woken(server, it, SENDS, "SendMessage", QueueUrl="jobs", MessageBody="a")
    checks.see("sends are answered by one thread", statuses == {200} and threads <= 1, (statuses, threads))
    entries = [{"Id": f"{place}", "MessageBody": "a"} for place in range(10)]
    statuses, threads = woken(server, it, BATCHES, "SendMessageBatch", QueueUrl="jobs", Entries=entries)
    checks.see("so are batches of ten", statuses == {200} and threads <= 1, (statuses, threads))
    checks.see("the server goes on", server.end())


def stillness(checks, program):
    """Connections at which nothing happens."""
    server = Server(program)
    begun, ends = time.monotonic(), {}

    def body_stops():
        it = server.connect()
        it.sendall(head("SendMessage", 1000) + b" " * 500)
        ends["body"] = (reply(it), time.monotonic() - begun)

    def reply_is_left():
        it = server.connect(room=4096)
        for _ in range(10):
            ask(it, "SendMessage", QueueUrl="jobs", MessageBody="x" * 800_000)
        body = json.dumps({"QueueUrl": "jobs", "MaxNumberOfMessages": 10}).encode()
        it.sendall(head("ReceiveMessage", len(body)) + body)
        # a program that is not proved writes long at the reply
        it.recv(1, socket.MSG_PEEK)
        time.sleep(46)
        ends["reply"] = reply(it)

    def receive_waits():
        it = server.connect()
        first = ask(it, "ReceiveMessage", QueueUrl="quiet", WaitTimeSeconds=20)
        ends["receive"] = (first, time.monotonic() - begun, ask(it, "GetQueueUrl", QueueName="jobs")[0])

    ask(server.connect(), "CreateQueue", QueueName="quiet")
    threads = [threading.Thread(target=it) for it in (body_stops, reply_is_left, receive_waits)]
    for it in threads:
        it.start()
    for it in threads:
        it.join()
    came, after = ends.get("body", ("nothing", 60))
    checks.see("a body that stops ends its connection after 30 to 45 seconds", came is None and 30 <= after <= 45, ends)
    checks.see("a reply that nobody takes is cut", ends.get("reply", "nothing") is None, ends)
    first, after, second = ends.get("receive", (None, 0, None))
    checks.see("a receive that waits is answered", first == (200, "{}") and 19 <= after <= 25 and second == 200, ends)
    checks.see("the server goes on", server.end())


def shortage(checks, program):
    """Want of memory."""
    server = Server(program, log="refused")
    # all its threads have begun then, and have what they take at their beginning
    time.sleep(1)
    limit = server.addresses() + MORE
    if limit > USUAL:
        server.end()
        print("left out: want of memory. This program has an address sanitizer, as one that is not proved may have")
        return
    resource.prlimit(server.process.pid, resource.RLIMIT_AS, (limit, limit))
    held, begun = [], time.monotonic()
    for _ in range(60):
        try:
            it = server.connect()
            it.settimeout(5)
            held.append(it)
            it.sendall(head("SendMessage", 8_000_000) + b" " * 7_999_999)
        except OSError:
            pass
        if select.select(held, [], [], 0)[0]:
            break
    ended = {answer for _, answer in replies(held, len(held))}
    # what a line repeats is told a second later
    time.sleep(2)
    lines = server.told()
    checks.see("a request that finds no memory is told so, or its connection ends", ended and ended <= {(500, MEMORY), None}, ended)
    others = [it for it in lines if it != SHORT and not re.fullmatch(WANT, it)]
    checks.see("the server tells of it, or that it has no memory for that, and nothing else", lines and not others, others[:3])
    checks.see("it does not tell that more than once a second", lines.count(SHORT) <= time.monotonic() - begun + 2, lines.count(SHORT))
    for it in held:
        it.close()
    time.sleep(1)
    answer = ask(server.connect(), "SendMessage", QueueUrl="jobs", MessageBody="a")
    checks.see("once the memory is there again it answers", answer and answer[0] == 200, answer)
    checks.see("the server goes on", server.end())


def main():
    """Does all of it, or what is quick."""
    is_quick, words = sys.argv[1:2] == ["--quick"], sys.argv[1:]
    words = words[is_quick:]
    if len(words) > 1 or words[:1] and words[0].startswith("-"):
        raise SystemExit("usage: clients/limits.py [--quick] [PROGRAM]")
    program = words[0] if words else subprocess.run([f"{ROOT}/tools/run", "--which", "sqs_server"], stdout=subprocess.PIPE, text=True, check=True).stdout.strip()
    checks = Checks()
    for part in (bodies, waits, queues, alone, shortage) if is_quick else (bodies, waits, queues, alone, shortage, stillness):
        try:
            part(checks, program)
        except OSError as error:
            checks.see(f"what {part.__name__} asks is answered", False, repr(error))
    print(f"{checks.passed} passed, {checks.failed} failed")
    raise SystemExit(1 if checks.failed else 0)


main()
