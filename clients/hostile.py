#!/usr/bin/env python3
"""Shows what the server does with heads that it does not take and with HEAD, with more requests than may wait for a queue, and where the system gives it no
descriptor, no thread, no standard error or no more connections for statistics. Ends with one line 'N passed, M failed'.

usage: clients/hostile.py [PROGRAM]     by default the one that `make run` starts

What is wanted stands in docs/PROFILE.md, sections 7, 16, 20 and 25, and in RFC 9112 (two lengths, and a length beside chunks), RFC 9110 (414) and RFC 6585
(431). It needs Linux. Each part has a server of its own, at free ports.
"""
import contextlib
import ctypes
import errno
import glob
import http.client
import json
import math
import os
import re
import resource
import select
import shutil
import socket
import subprocess
import sys
import tempfile
import time

sys.dont_write_bytecode = True
from rate_servers import unread

ROOT = os.path.dirname(os.path.dirname(os.path.abspath(__file__)))
# How long an answer may take, how long none must come before none is waited for, and when a connection counts as open behind one, in seconds.
LIMIT, QUIET, SHORT = 30, 2, 0.5
# A head has at most so many bytes and fields.
HEAD, FIELDS = 64 * 1024, 100
# Descriptors of the server, connections to it, and how many of these stay. It runs on so many processors, since each more would take eight.
DESCRIPTORS, CONNECTIONS, STAYING, PROCESSORS = 64, 300, 5, 4
# Threads that the server may have besides those of its queues, and some queues.
THREADS = 16
# How many requests may wait for a queue. One is held up that has so many messages, by at most so many changes, for some seconds, and for more where that is
# too short.
WAITING, HELD, CHANGES, HELD_UP = 1_000, 20_000, 500, (3, 10, 20)
CHANGE = {"QueueUrl": "jobs", "Attributes": {"VisibilityTimeout": "77"}}
LOOK = {"QueueUrl": "jobs", "AttributeNames": ["VisibilityTimeout", "ApproximateNumberOfMessages"]}
# The call of Linux by which a program gets a descriptor of another one, and how long the port for statistics is closed behind its eleventh failure, with the
# ten pauses between these, in seconds; a tenth less, since timers are not exact.
PIDFD_GETFD, CLOSED = 438, 10 * 0.05 + 1 - 0.1
SERIALIZATION = '{"__type":"com.amazonaws.sqs#SerializationException","message":"The request cannot be read."}'
MEMORY = '{"__type":"com.amazonaws.sqs#OutOfMemory","message":"Out of memory."}'
ATTRIBUTES = '{"Attributes":{"ApproximateNumberOfMessages":"20000","VisibilityTimeout":"77"}}'
BUSY = '{"__type":"com.amazonaws.sqs#ServiceUnavailable","message":"Too many requests wait for the queue."}'
ABSENT = '{"__type":"com.amazonaws.sqs#QueueDoesNotExist","message":"The specified queue does not exist."}'


class Checks:
    """What was checked."""

    def __init__(self):
        self.passed = self.failed = 0

    def equal(self, what, found, wanted):
        """Counts one check, and prints it where it failed."""
        self.passed, self.failed = self.passed + (found == wanted), self.failed + (found != wanted)
        if found != wanted:
            print(f"{os.path.basename(sys.argv[0])}: {what}: found {found!r}, and {wanted!r} is wanted", flush=True)


class Server:
    """The server at free ports, without a queue, and what it tells on standard error. `text` is its configuration."""

    def __init__(self, program, room, begin=lambda: None, text="", **how):
        self.log = f"{room}/log"
        with open(f"{room}/config.toml", "w", encoding="utf-8") as config:
            config.write(text)
        with open(self.log, "w", encoding="utf-8") as log:
            way = {"JUTKARIQ_PORT": "0", "JUTKARIQ_STATISTICS_PORT": "0", "JUTKARIQ_LOG": "all"}
            self.process = subprocess.Popen([program, f"{room}/config.toml"], stdout=subprocess.PIPE, stderr=log, env=way, text=True, preexec_fn=begin, **how)
        line = self.process.stdout.readline()
        ports = [int(it) for it in re.findall(r"http://localhost:(\d+)", line)]
        if len(ports) != 2:
            self.process.kill()
            sys.exit(f"{os.path.basename(sys.argv[0])}: the server does not name its ports: {line}")
        self.port, self.statistics = ports

    def __enter__(self):
        return self

    def __exit__(self, *_):
        self.process.kill()
        self.process.communicate()

    def ask(self, action, **members):
        """Asks for an action on a connection of its own, and returns the status and the text of the answer."""
        return self.reply("POST", self.port, json.dumps(members).encode(), {"X-Amz-Target": f"AmazonSQS.{action}"})

    def reply(self, method, port, body=b"", headers=None, path="/"):
        """Asks at a port, and returns the status and the text of the answer, or what went wrong."""
        it = http.client.HTTPConnection("127.0.0.1", port, timeout=LIMIT)
        try:
            it.request(method, path, body, headers or {})
            answer = it.getresponse()
            return answer.status, answer.read().decode()
        except (OSError, http.client.HTTPException) as error:
            return 0, repr(error)
        finally:
            it.close()

    def connect(self, port):
        """Returns a connection to a port."""
        return socket.create_connection(("127.0.0.1", port), LIMIT)

    def health(self):
        return self.reply("GET", self.statistics, path="/health")

    def url(self, name):
        return f"http://localhost:{self.port}/000000000000/{name}"


HEALTHY = (200, '{"status":"ok"}')


def head(fields=b"Content-Length: 2\r\n", path=b"/"):
    """Returns the head of a request for the list of queues, which has three fields with these."""
    return b"POST " + path + b" HTTP/1.1\r\nHost: localhost\r\nX-Amz-Target: AmazonSQS.ListQueues\r\n" + fields + b"\r\n"


def look(path=b"/health", fields=b""):
    """Returns the head of a request for the health of the server, which has one field with these."""
    return b"GET " + path + b" HTTP/1.1\r\nHost: localhost\r\n" + fields + b"\r\n"


def padded(made):
    """Returns a head with one field more, by which it has as many bytes as a head may have."""
    return made[:-2] + b"a: " + b"x" * (HEAD - len(made) - len(b"a: \r\n")) + b"\r\n\r\n"


def told(port, sent):
    """Sends bytes, and returns the status and the body of the first answer and whether the connection closes behind it."""
    with socket.create_connection(("127.0.0.1", port), LIMIT) as line:
        with contextlib.suppress(ConnectionError):
            line.sendall(sent)
        reply = received(line)
        line.settimeout(SHORT if whole(reply) and b"connection: close" not in reply else LIMIT)
        return *answer_of(reply), is_cut(line)


def received(line):
    """Returns what comes over a connection, until that is an answer or the connection closes."""
    reply = b""
    with contextlib.suppress(ConnectionError):
        while not whole(reply) and (piece := line.recv(1 << 16)):
            reply += piece
    return reply


def answer_of(reply):
    """Returns the status and the text of an answer; the status is 0 where it is none."""
    status, _, body = reply.partition(b"\r\n\r\n")
    return int(status.split()[1]) if status.startswith(b"HTTP/1.1 ") else 0, body.decode()


def is_cut(line):
    """Returns whether a connection closes while nothing comes over it."""
    try:
        return line.recv(1 << 16) == b""
    except ConnectionError:
        return True
    except TimeoutError:
        return False


def whole(reply):
    """Returns whether bytes are an answer with its whole body, or more."""
    top, end, body = reply.partition(b"\r\n\r\n")
    size = re.search(rb"(?i)content-length: (\d+)", top)
    return bool(end) and len(body) >= (int(size[1]) if size else 0)


def heads(it, program, room):
    """Heads that are as large as they may be are answered, and those beyond are refused without a body, and their connection is closed."""
    with Server(program, room) as server:
        port, statistics, empty, body = server.port, server.statistics, '{"QueueUrls":[]}', b"{}"
        answered, fine = (200, empty, False), (200, HEALTHY[1], False)
        large, long, bad = (431, "", True), (414, "", True), (400, "", True)
        field, length = b"a: b\r\n", b"Content-Length: 2\r\n"
        it.equal("a head of 100 fields", told(port, head(length + field * (FIELDS - 3)) + body), answered)
        it.equal("a head of 101 fields", told(port, head(length + field * (FIELDS - 2)) + body), large)
        it.equal("a head of 64 KiB", told(port, padded(head()) + body), answered)
        it.equal("a head of a byte more", told(port, padded(head()).replace(b"a: ", b"a: x") + body), large)
        it.equal("a path of 1 MB", told(port, head(path=b"/" + b"x" * 1_000_000) + body), long)
        it.equal("two lengths that differ", told(port, head(length + b"Content-Length: 3\r\n") + body), bad)
        it.equal("two lengths that differ, in one field", told(port, head(b"Content-Length: 2, 3\r\n") + body), bad)
        chunks, chunked = b"2\r\n{}\r\n0\r\n\r\n", b"Transfer-Encoding: chunked\r\n"
        it.equal("chunks", told(port, head(chunked) + chunks), answered)
        # the second request stands where the one reading has the body's end, and the other one has more of the body
        for name, fields in (("a length beside chunks", b"Content-Length: 4\r\n" + chunked), ("chunks beside a length", chunked + b"Content-Length: 4\r\n")):
            it.equal(name, told(port, head(fields) + chunks + head() + body), bad)
        it.equal("statistics: a head of 100 fields", told(statistics, look(fields=field * (FIELDS - 1))), fine)
        it.equal("statistics: a head of 101 fields", told(statistics, look(fields=field * FIELDS)), large)
        it.equal("statistics: a head of 64 KiB", told(statistics, padded(look())), fine)
        it.equal("statistics: a head of a byte more", told(statistics, padded(look()).replace(b"a: ", b"a: x")), large)
        it.equal("statistics: a path of 1 MB", told(statistics, look(b"/" + b"x" * 1_000_000)), long)
        it.equal("the next request", server.ask("ListQueues"), (200, empty))
        # what is no HTTP is not counted
        counted = re.findall(r"(?m)^jutkariq_requests_total.*", server.reply("GET", statistics, path="/metrics")[1])
        it.equal("the requests that are counted", counted, ['jutkariq_requests_total{action="ListQueues",status="200"} 4'])


def answers(lines, sent, quiet=LIMIT):
    """Sends the same over connections, and returns how many are answered, once all are or none has been for a time."""
    ready, found, waiting = select.poll(), 0, {it.fileno(): it for it in lines}
    for line in lines:
        ready.register(line, select.POLLIN)
        with contextlib.suppress(ConnectionError):
            line.sendall(sent)
    while waiting and (events := ready.poll(1000 * quiet)):
        for number, _ in events:
            ready.unregister(number)
            with contextlib.suppress(ConnectionError):
                found += waiting.pop(number).recv(1 << 16).startswith(b"HTTP/1.1 200 ")
    return found


def request_for(action, **members):
    """Returns a request for an action."""
    body = json.dumps(members).encode()
    return b"POST / HTTP/1.1\r\nHost: localhost\r\nX-Amz-Target: AmazonSQS.%b\r\nContent-Length: %d\r\n\r\n%b" % (action.encode(), len(body), body)


def sends(server, lines, sent):
    """Sends the same over connections, and waits until the server has read it, and a moment more, in which it comes to the queue."""
    end = time.monotonic() + LIMIT
    for line in lines:
        line.sendall(sent)
    while unread(server.port) and time.monotonic() < end:
        time.sleep(0.01)
    time.sleep(0.1)


def filled(server):
    """Makes a queue whose journal has room for one entry: so each change of its settings first copies what it holds. Returns how long one takes."""
    server.ask("CreateQueue", QueueName="jobs")
    batch = request_for("SendMessageBatch", QueueUrl="jobs", Entries=[{"Id": str(number), "MessageBody": "a"} for number in range(10)])
    with contextlib.ExitStack() as stack:
        lines = [stack.enter_context(server.connect(server.port)) for _ in range(20)]
        for _ in range(HELD // 200):
            answers(lines, batch)
    begun = time.monotonic()
    for _ in range(10):
        server.ask("SetQueueAttributes", **CHANGE)
    return (time.monotonic() - begun) / 10


def crowded(server, seconds):
    """Has changes hold up a queue, 1,000 requests for its attributes wait behind them, and then others come. Returns how many of the 1,000 were answered before
    the last of these was, and all answers: to two purges, before and behind a deletion, to the changes, to requests for attributes, and to the deletion."""
    changes = min(CHANGES, math.ceil(seconds / filled(server)))
    with contextlib.ExitStack() as stack:
        lines, ready = [stack.enter_context(server.connect(server.port)) for _ in range(changes + WAITING + 2)], select.poll()
        changing, asking, last, deleting = lines[:changes], lines[changes:-2], lines[-2], lines[-1]
        for line in asking:
            ready.register(line, select.POLLIN)
        sends(server, changing, request_for("SetQueueAttributes", **CHANGE))
        sends(server, asking, request_for("GetQueueAttributes", **LOOK))
        purges = [server.ask("PurgeQueue", QueueUrl="jobs")]
        sends(server, [last], request_for("GetQueueAttributes", **LOOK))
        sends(server, [deleting], request_for("DeleteQueue", QueueUrl="jobs"))
        purges.append(server.ask("PurgeQueue", QueueUrl="jobs"))
        early = len(ready.poll(0))
        said = [answer_of(received(line)) for line in lines]
    return early, purges, {*said[:changes]}, {*said[changes:-1]}, said[-1]


def behind(it, program, room):
    """While 1,000 requests wait for a queue one more is turned away, and is not done. But the queue's attributes are told, and it is deleted, in its turn."""
    few, most = resource.getrlimit(resource.RLIMIT_NOFILE)
    resource.setrlimit(resource.RLIMIT_NOFILE, (max(few, min(4_096, most)), most))
    for seconds in HELD_UP:
        with Server(program, room, text=f"[limits]\nmax_lines = {HELD + 2}\n") as server:
            early, purges, changes, attributes, deletion = crowded(server, seconds)
            queues = server.ask("ListQueues")
        if not early:
            break
    it.equal("how many of 1,000 requests that are to wait are answered too early", early, 0)
    it.equal("a PurgeQueue while they wait, and one behind a DeleteQueue", purges, [(500, BUSY)] * 2)
    it.equal("the changes before them", changes, {(200, "{}")})
    it.equal("attributes, while they wait and behind the first PurgeQueue", attributes, {(200, ATTRIBUTES)})
    it.equal("the DeleteQueue", deletion, (200, "{}"))
    it.equal("the queues then", queues, (200, '{"QueueUrls":[]}'))


def descriptors(it, program, room):
    """Where there are no descriptors for connections, those that have one are served, the others wait, and once some have left they are served too."""
    places = sorted(os.sched_getaffinity(0))[:PROCESSORS]

    def begin():
        os.sched_setaffinity(0, places)
        resource.setrlimit(resource.RLIMIT_NOFILE, (DESCRIPTORS, DESCRIPTORS))

    # a thread for statistics, and for requests as many as there are processors, but two at the least; each takes eight, and a connection one
    free = DESCRIPTORS - 3 - 8 * (max(2, len(places)) + 1)
    with Server(program, room, begin) as server, contextlib.ExitStack() as stack:

        def connected(port):
            return stack.enter_context(socket.create_connection(("127.0.0.1", port), LIMIT))

        # a thread may take its own a moment after the server has named its ports
        end = time.monotonic() + LIMIT
        while len(os.listdir(f"/proc/{server.process.pid}/fd")) < DESCRIPTORS - free and time.monotonic() < end:
            time.sleep(0.01)
        watcher, request = connected(server.statistics), head() + b"{}"
        it.equal("the health, before", answers([watcher], look()), 1)
        lines = [connected(server.port) for _ in range(CONNECTIONS)]
        # the one that watches has a descriptor, too
        it.equal(f"how many of {CONNECTIONS} connections are served with {DESCRIPTORS} descriptors", answers(lines, request, QUIET), free - 1)
        waiting = [connected(server.statistics) for _ in range(STAYING)]
        it.equal("connections for statistics that come then", answers(waiting, look(), QUIET), 0)
        it.equal("the health meanwhile, on the connection that was there", answers([watcher], look()), 1)
        for line in lines[:-STAYING]:
            line.close()
        it.equal("how many of those that stay are served", answers(lines[-STAYING:], b""), STAYING)
        it.equal("the next request", server.ask("ListQueues"), (200, '{"QueueUrls":[]}'))
        it.equal("connections for statistics that waited", answers(waiting, b""), STAYING)
        it.equal("the health afterwards, on the connection that was there", answers([watcher], look()), 1)
        it.equal("whether the server goes on", server.process.poll(), None)
        with open(server.log, encoding="utf-8") as log:
            it.equal("what it tells", any(line.endswith("Z accept: Too many open files (os error 24)\n") for line in log), True)


def files(server):
    """Returns what the descriptors of the server are, by their numbers."""
    found = {}
    for number in os.listdir(f"/proc/{server.process.pid}/fd"):
        with contextlib.suppress(FileNotFoundError):
            found[int(number)] = os.readlink(f"/proc/{server.process.pid}/fd/{number}")
    return found


def shut(server):
    """Has the socket by which the server listens for statistics listen no more, as where the system ends it, and returns its name among its descriptors."""
    with open("/proc/net/tcp", encoding="utf-8") as table:
        lines = [line.split() for line in table]
    # the address, the state of one that listens, and the inode
    name = next(f"socket:[{words[9]}]" for words in lines if words[1] == f"0100007F:{server.statistics:04X}" and words[3] == "0A")
    process = os.pidfd_open(server.process.pid)
    own = ctypes.CDLL(None, use_errno=True).syscall(PIDFD_GETFD, process, next(it for it, one in files(server).items() if one == name), 0)
    why = ctypes.get_errno()
    os.close(process)
    if own < 0:
        raise OSError(why, os.strerror(why))
    with socket.socket(fileno=own) as it:
        it.shutdown(socket.SHUT_RDWR)
    return name


def reopened(it, program, room):
    """Where nothing can be accepted any more at the port for statistics, that is told, its connections are cut, and it is closed, and opened again a second
    later. What is asked at the other port is answered all the while."""
    cause, found, kept, health = "Invalid argument (os error 22)", set(), set(), None
    with Server(program, room) as server, server.connect(server.statistics) as watcher, server.connect(server.port) as other:
        it.equal("the health, before the port fails", answers([watcher], look()), 1)
        begun = time.monotonic()
        try:
            failed = shut(server)
        except OSError as error:
            if error.errno not in (errno.EPERM, errno.ENOSYS):
                raise
            print(f"skipped: what becomes of a port that fails: the system gives no descriptor of another program: {error.strerror}", flush=True)
            return
        while health != HEALTHY and time.monotonic() < begun + LIMIT:
            time.sleep(0.02)
            found.add(server.ask("ListQueues"))
            kept.add(answers([other], head() + b"{}"))
            health = server.health()
        it.equal("the health behind that", health, HEALTHY)
        it.equal("whether the port was closed for a second", time.monotonic() - begun > CLOSED, True)
        it.equal("what is asked at the other port meanwhile", found, {(200, '{"QueueUrls":[]}')})
        it.equal("what is asked over a connection that was there", kept, {1})
        it.equal("whether the connection for statistics is cut", is_cut(watcher), True)
        it.equal("descriptors of the socket that failed", [*files(server).values()].count(failed), 0)
        with open(server.log, encoding="utf-8") as log:
            lines = [line.partition(" ")[2] for line in log.read().splitlines()]
        # but for those of requests, which have an action, a queue and a status
        lines = [line for line in lines if not re.match(r"\S+ \S+ \d{3}\b", line)]
        refused = [re.fullmatch(rf"accept: {re.escape(cause)}(?: \((\d+) times? more\))?", line) for line in lines]
        it.equal("how often nothing could be accepted", sum(int(one[1] or 1) for one in refused if one), 11)
        it.equal("what is told besides", [line for line, one in zip(lines, refused) if not one], [f"statistics port: {cause}"])


def owner():
    """Returns a user whom a limit of threads holds for, as it does for no root, how to start a program as that user, and how many threads it has."""
    taken = [os.stat(it).st_uid for it in glob.glob("/proc/[0-9]*/task/*") if os.path.exists(it)]
    if os.geteuid():
        return {}, taken.count(os.geteuid())
    # of those that are given for a time
    user = next(it for it in range(61184, 65520) if it not in taken)
    return {"user": user, "group": user, "extra_groups": []}, 0


def started(words, **how):
    """Starts a program that is to end at once, and returns its status and what it tells on standard error."""
    try:
        ran = subprocess.run(words, env={"JUTKARIQ_PORT": "0", "JUTKARIQ_STATISTICS_PORT": "0"}, capture_output=True, text=True, timeout=LIMIT, **how)
    except subprocess.TimeoutExpired:
        return f"it had not ended after {LIMIT} s"
    return ran.returncode, ran.stderr


def threads(it, program, room):
    """Where the system starts no thread for a queue, it is refused for want of memory and leaves no name, and is made once another queue was deleted. One that
    is configured ends the start."""
    how, others = owner()
    os.chmod(room, 0o755)
    shutil.copy(program, f"{room}/program")
    limit = others + THREADS

    def begin():
        resource.setrlimit(resource.RLIMIT_NPROC, (limit, limit))

    with Server(f"{room}/program", room, begin, **how) as server:
        made = []
        while len(made) < limit:
            name = f"queue-{len(made):03}"
            status, text = server.ask("CreateQueue", QueueName=name)
            if status != 200:
                break
            made.append(name)
        it.equal("queues that are made", 0 < len(made) < limit, True)
        it.equal("a CreateQueue without a thread", (status, text), (500, MEMORY))
        it.equal("the names then", server.ask("ListQueues"), (200, json.dumps({"QueueUrls": [*map(server.url, made)]}, separators=(",", ":"))))
        it.equal("its URL", server.ask("GetQueueUrl", QueueName=name), (400, ABSENT))
        it.equal("another queue", server.ask("SendMessage", QueueUrl=made[0], MessageBody="a")[0], 200)
        it.equal("its deletion", server.ask("DeleteQueue", QueueUrl=made[0]), (200, "{}"))
        # its thread ends soon
        end = time.monotonic() + LIMIT
        while (found := server.ask("CreateQueue", QueueName=name)) == (500, MEMORY) and time.monotonic() < end:
            time.sleep(0.1)
        it.equal("the same CreateQueue then", found, (200, json.dumps({"QueueUrl": server.url(name)}, separators=(",", ":"))))
        it.equal("a message to it", server.ask("SendMessage", QueueUrl=name, MessageBody="a")[0], 200)
        it.equal("the names at last", server.ask("ListQueues"), (200, json.dumps({"QueueUrls": [*map(server.url, [*made[1:], name])]}, separators=(",", ":"))))
    with open(f"{room}/many.toml", "w", encoding="utf-8") as file:
        file.writelines(f'[[queue]]\nname = "queue-{number:03}"\n' for number in range(THREADS * 10))
    found = started([f"{room}/program", f"{room}/many.toml"], preexec_fn=begin, **how)
    it.equal("a start with more queues than threads", found, (1, "sqs_server: out of memory\n"))


def silence(it, program, room):
    """A server whose standard error is closed answers all the same."""
    with Server(program, room, lambda: os.close(2)) as server:
        for _ in range(3):
            it.equal("a refused request, with standard error closed", server.reply("POST", server.port, b"[]", {"X-Amz-Target": "AmazonSQS.ListQueues"}), (400, SERIALIZATION))
        it.equal("the health, with standard error closed", server.health(), HEALTHY)


def without_text(it, program, room):
    """An answer to HEAD has no text, and what is asked behind it on its connection is answered as ever."""
    found = []
    with Server(program, room) as server:
        line = http.client.HTTPConnection("127.0.0.1", server.statistics, timeout=LIMIT)
        for method, path in (("HEAD", "/health"), ("GET", "/health"), ("HEAD", "/metrics"), ("GET", "/health")):
            line.request(method, path)
            answer = line.getresponse()
            found.append((answer.status, answer.read().decode()))
        line.close()
    it.equal("HEAD, and GET behind it", found, [(200, ""), HEALTHY, (405, ""), HEALTHY])


def main(words):
    """Does all parts, and returns the status."""
    if len(words) > 1:
        print(__doc__, file=sys.stderr)
        return 2
    program = words[0] if words else subprocess.check_output([f"{ROOT}/tools/run", "--which", "sqs_server"], text=True).strip()
    it = Checks()
    for part in (heads, behind, descriptors, reopened, threads, silence, without_text):
        with tempfile.TemporaryDirectory(prefix="hostile-") as room:
            part(it, os.path.abspath(program), room)
    print(f"{it.passed} passed, {it.failed} failed")
    return 1 if it.failed else 0


if __name__ == "__main__":
    sys.exit(main(sys.argv[1:]))
