"""What clients/rate.py times: this project's server, nginx with constant replies and moto's server, each at a free port, and the load that wrk makes."""
import contextlib
import glob
import json
import os
import re
import select
import socket
import subprocess
import tempfile
import time
import urllib.error
import urllib.request

CLIENTS = os.path.dirname(os.path.abspath(__file__))
# Threads of wrk where there are as many connections.
THREADS = 2
# By this header moto's server knows the service; it checks no signature.
SIGNED = "AWS4-HMAC-SHA256 Credential=x/20240101/us-east-1/sqs/aws4_request, SignedHeaders=host, Signature=x"
# Minutes that a queue's rows go back, and one more.
AGE = 181
# The statuses of replies that are no success, by the path that rate.lua asks.
STATUSES = {"/page/SendMessage": 403}


class Void(Exception):
    """A run that counts for nothing, and why."""


def write(path, text):
    with open(path, "w", encoding="utf-8") as it:
        it.write(text)
    return path


def free_port():
    """Returns a port at which nothing listens now."""
    with socket.socket() as it:
        it.bind(("127.0.0.1", 0))
        return it.getsockname()[1]


def fetched(request, status=200):
    """Returns the text of the reply to a request. One of another status makes the run void."""
    try:
        with urllib.request.urlopen(request, timeout=60) as it:
            found, text = it.status, it.read().decode()
    except urllib.error.HTTPError as error:
        found, text = error.code, error.read().decode(errors="replace")
    if found != status:
        raise Void(f"{request.full_url}: {found} {text[:300]}")
    return text


def asked(port, action, members, path="/", status=200, **more):
    """Asks for an action, with more headers than each request has, and returns the text of its reply."""
    headers = {"X-Amz-Target": f"AmazonSQS.{action}", "Content-Type": "application/x-amz-json-1.0", "Authorization": SIGNED, **more}
    return fetched(urllib.request.Request(f"http://127.0.0.1:{port}{path}", json.dumps(members).encode(), headers), status)


def unread(port):
    """Returns how many bytes have come to a port and were not read there yet, as /proc/net/tcp has them."""
    with open("/proc/net/tcp", encoding="utf-8") as it:
        lines = [line.split() for line in it.readlines()[1:]]
    # local address, then behind the state the bytes that wait to be sent and those that wait to be read
    return sum(int(words[4].split(":")[1], 16) for words in lines if int(words[1].split(":")[1], 16) == port and words[3] == "01")


def faketime():
    """Returns the path of the library of faketime that programs with threads load, or None where it is not installed."""
    return next(iter(sorted(glob.glob("/usr/lib/*/faketime/libfaketimeMT.so.1"))), None)


class Started:
    """A program that is started, and ended with the block that it was started for."""

    def __init__(self, words, room, name, **how):
        self.name, self.log = name, f"{room}/{name}.log"
        with open(self.log, "w", encoding="utf-8") as to:
            self.process = subprocess.Popen(words, stdin=subprocess.DEVNULL, stderr=to, **{"stdout": to, **how})

    def begin(self):
        """Waits until the program can be asked."""

    def __enter__(self):
        try:
            self.begin()
        except BaseException:
            self.__exit__()
            raise
        return self

    def __exit__(self, *_):
        self.process.terminate()
        try:
            self.process.wait(10)
        except subprocess.TimeoutExpired:
            self.process.kill()
            self.process.wait()

    def fails(self, why):
        """Makes the run void, and tells with the end of what the program said why it cannot be timed."""
        with open(self.log, encoding="utf-8", errors="replace") as it:
            raise Void(f"{self.name} {why}: {it.read()[-1000:]}")

    def listens(self, port):
        """Waits until the program listens at its port."""
        for _ in range(300):
            if self.process.poll() is not None:
                break
            try:
                return socket.create_connection(("127.0.0.1", port), 1).close()
            except OSError:
                time.sleep(0.1)
        self.fails("does not listen")


class Server(Started):
    """This project's server. With `has_letters` each of its queues has a policy, by which its dead letters go to the next. With `is_early` its clock is three
    hours behind, as faketime has it, until `put_on`."""

    def __init__(self, program, room, name, queues=0, has_letters=False, is_early=False):
        policy = [f'dead_letter_queue = "queue-{(it + 1) % queues}"\nmax_receive_count = 5\n' if has_letters else "" for it in range(queues)]
        tables = "".join(f'[[queue]]\nname = "queue-{it}"\n{policy[it]}' for it in range(queues))
        config = write(f"{room}/{name}.toml", f"[limits]\nmax_lines = 16777216\n{tables}")
        way = {**os.environ, "JUTKARIQ_PORT": "0", "JUTKARIQ_STATISTICS_PORT": "0", "JUTKARIQ_LOG": "none"}
        self.clock = None
        if is_early:
            self.clock = write(f"{room}/{name}.clock", f"-{60 * AGE}")
            way |= {"LD_PRELOAD": faketime(), "FAKETIME_TIMESTAMP_FILE": self.clock, "FAKETIME_CACHE_DURATION": "1"}
            # the second is for a program of tools/compile: what it was linked with would read the clock before faketime is ready
            way |= {"FAKETIME_DONT_FAKE_MONOTONIC": "1", "ASAN_OPTIONS": "allocator_release_to_os_interval_ms=-1"}
        super().__init__([program, config], room, name, env=way, stdout=subprocess.PIPE, text=True)

    def begin(self):
        line = self.process.stdout.readline()
        ports = [int(it) for it in re.findall(r"http://localhost:(\d+)", line)]
        if len(ports) != 2:
            self.fails(f"does not name its ports: {line}")
        self.port, self.statistics = ports

    def __exit__(self, *_):
        super().__exit__()
        # what faketime leaves of a program that was ended by a signal
        for name in ("faketime_shm_", "sem.faketime_sem_") if self.clock else ():
            with contextlib.suppress(FileNotFoundError):
                os.remove(f"/dev/shm/{name}{self.process.pid}")

    def ask(self, action, **members):
        return json.loads(asked(self.port, action, members))

    def make(self, queue):
        """Makes a queue, and returns its URL."""
        return self.ask("CreateQueue", QueueName=queue)["QueueUrl"]

    def view(self, queue, of=""):
        return json.loads(fetched(urllib.request.Request(f"http://127.0.0.1:{self.statistics}/statistics/queues/{queue}{of}")))

    def tallies(self, queue):
        """Returns all that happened at a queue in its rows and its current minute, by the names of the statistics, and the number of its rows."""
        while True:
            sheet, rows, again = self.view(queue), self.view(queue, "/rows")["rows"], self.view(queue)
            if sheet["clock"] // 60_000 == again["clock"] // 60_000:
                return {name: count + sum(it[name] for it in rows) for name, count in again["current"].items()} | {"rows": len(rows)}

    def put_on(self, queues):
        """Puts the clock on to that of the machine, and waits until each of the queues has all rows."""
        write(self.clock, "+0")
        end = time.monotonic() + 60
        while any(self.tallies(it)["rows"] < AGE - 1 for it in queues):
            if time.monotonic() > end:
                self.fails("does not see the clock that faketime puts on")
            time.sleep(0.2)

    def replies(self):
        """Returns replies of the server as nginx is to give them, by the path that rate.lua asks."""
        url, ids = self.make("replies"), [str(it) for it in range(10)]
        def text(path, **members):
            return asked(self.port, path.split("/")[2], {"QueueUrl": url, **members})
        def handles(path):
            return [it["ReceiptHandle"] for it in json.loads(found[path])["Messages"]]
        found = {"/send/SendMessage": text("/send/SendMessage", MessageBody="a")}
        found["/receive/ReceiveMessage"] = text("/receive/ReceiveMessage")
        found["/receive/DeleteMessage"] = text("/receive/DeleteMessage", ReceiptHandle=handles("/receive/ReceiveMessage")[0])
        found["/page/SendMessage"] = asked(self.port, "SendMessage", {"QueueUrl": url, "MessageBody": "a"}, status=403, Origin="http://localhost")
        found["/kilobyte/SendMessage"] = text("/kilobyte/SendMessage", MessageBody="x" * 1024)
        self.ask("PurgeQueue", QueueUrl=url)
        found["/batch/SendMessageBatch"] = text("/batch/SendMessageBatch", Entries=[{"Id": it, "MessageBody": "a"} for it in ids])
        found["/ten/ReceiveMessage"] = text("/ten/ReceiveMessage", MaxNumberOfMessages=10)
        entries = [{"Id": one, "ReceiptHandle": it} for one, it in zip(ids, handles("/ten/ReceiveMessage"), strict=True)]
        found["/ten/DeleteMessageBatch"] = text("/ten/DeleteMessageBatch", Entries=entries)
        self.ask("DeleteQueue", QueueUrl=url)
        return found


class Nginx(Started):
    """nginx with a constant reply for each path, a worker for each processor, and requests whole in one buffer."""

    def __init__(self, room, replies):
        self.port, self.replies = free_port(), replies
        folders = "".join(f"{it}_temp_path {room}/{it};\n" for it in ("client_body", "proxy", "fastcgi", "uwsgi", "scgi"))
        places = "".join(f"location = {path} {{ return {STATUSES.get(path, 200)} '{text}'; }}\n" for path, text in replies.items())
        config = write(
            f"{room}/nginx.conf",
            f"worker_processes auto; daemon off; pid {room}/nginx.pid;\nevents {{ worker_connections 4096; }}\n"
            f"http {{ access_log off; keepalive_requests 1000000000; client_header_buffer_size 16k; default_type application/x-amz-json-1.0;\n"
            f"{folders}server {{ listen 127.0.0.1:{self.port} reuseport;\n{places}}} }}\n",
        )
        super().__init__(["nginx", "-p", room, "-e", "stderr", "-c", config], room, "nginx")

    def begin(self):
        self.listens(self.port)
        for path, text in self.replies.items():
            if asked(self.port, "Any", {}, path, STATUSES.get(path, 200)) != text:
                self.fails(f"does not reply as told at {path}")


class Moto(Started):
    """moto's server, with one queue."""

    def __init__(self, room):
        self.port = free_port()
        super().__init__(["moto_server", "-H", "127.0.0.1", "-p", str(self.port)], room, "moto_server")

    def begin(self):
        self.listens(self.port)
        self.url = json.loads(asked(self.port, "CreateQueue", {"QueueName": "rate"}))["QueueUrl"]


class Load:
    """wrk that asks for so many seconds; `words` are those of rate.lua, `headers` what each request has besides."""

    def __init__(self, port, words, connections, seconds, headers=()):
        self.threads, self.said, self.start = min(connections, THREADS), tempfile.TemporaryFile("w+"), time.monotonic()
        how = [f"-t{self.threads}", f"-c{connections}", f"-d{seconds}s", "--timeout", "60s", "-s", f"{CLIENTS}/rate.lua", *(f"-H{it}" for it in headers)]
        self.ran = subprocess.Popen(["wrk", *how, f"http://127.0.0.1:{port}", "--", *words], stdout=self.said, stderr=subprocess.STDOUT)

    def __enter__(self):
        return self

    def __exit__(self, *_):
        if self.ran.returncode is None:
            self.ran.kill()
            self.ran.wait()
        self.said.close()

    def result(self):
        """Waits for its end. Returns requests a second, p50 and p99 in microseconds, and what part of its threads' time it was busy, with its counts."""
        _, status, spent = os.wait4(self.ran.pid, 0)
        taken, self.ran.returncode = time.monotonic() - self.start, os.waitstatus_to_exitcode(status)
        self.said.seek(0)
        text = self.said.read()
        told = dict(re.findall(r"(?m)^told (\w+) (.*)$", text))
        if status or "requests" not in told:
            raise Void(f"wrk ended with status {self.ran.returncode}: {text[-1000:]}")
        if float(told["wrong"]) or float(told["failed"]):
            raise Void(f"{told['wrong']} replies were not as wanted, the first of them {told['example']!r}, and {told['failed']} failed")
        found = {name: int(float(told[name])) for name in ("requests", "offers", "short", "p50", "p99")}
        if not found["requests"]:
            raise Void("nothing was answered")
        busy = (spent.ru_utime + spent.ru_stime) / (taken * self.threads)
        return found | {"rate": 1e6 * found["requests"] / float(told["microseconds"]), "busy": busy}


def loaded(*how):
    """Has wrk ask, and returns its result."""
    with Load(*how) as load:
        return load.result()


class Parked:
    """Receives that wait at a queue, each over a connection of its own, from before a run until behind it."""

    def __init__(self, server, url, count):
        self.server, self.url, self.lines = server, url, []
        body = json.dumps({"QueueUrl": url, "WaitTimeSeconds": 20}).encode()
        head = f"POST / HTTP/1.1\r\nHost: localhost\r\nX-Amz-Target: AmazonSQS.ReceiveMessage\r\nContent-Length: {len(body)}\r\n\r\n".encode()
        self.request = head + body
        for _ in range(count):
            self.lines.append(socket.create_connection(("127.0.0.1", server.port), 30))
            self.lines[-1].sendall(self.request)
        while unread(server.port):
            time.sleep(0.1)
        time.sleep(0.2)
        # where it goes by mail it is answered behind all that was mailed to the queue before
        server.ask("GetQueueAttributes", QueueUrl=url)

    def __enter__(self):
        return self

    def __exit__(self, *_):
        for it in self.lines:
            it.close()

    def wait(self, seconds):
        """Waits so many seconds. Each that ends meanwhile without a message asks again. Another answer makes the run void."""
        ready, lines, end = select.poll(), {it.fileno(): it for it in self.lines}, time.monotonic() + seconds
        for number in lines:
            ready.register(number, select.POLLIN)
        while (left := end - time.monotonic()) > 0:
            for number, _ in ready.poll(1000 * left):
                said = lines[number].recv(1 << 16)
                if not said.startswith(b"HTTP/1.1 200 ") or not said.endswith(b"\r\n\r\n{}"):
                    raise Void(f"a receive that was to end without a message was answered {said[:300]!r}")
                lines[number].sendall(self.request)

    def check(self):
        """Makes the run void where one was answered in it, or where not each is answered once as many messages are sent."""
        ready = select.poll()
        for it in self.lines:
            ready.register(it, select.POLLIN)
        if ready.poll(0):
            raise Void("a receive that was to wait was answered")
        for first in range(0, len(self.lines), 10):
            entries = [{"Id": str(it), "MessageBody": "a"} for it in range(min(10, len(self.lines) - first))]
            self.server.ask("SendMessageBatch", QueueUrl=self.url, Entries=entries)
        for it in self.lines:
            said = b""
            while b'"ReceiptHandle"' not in said:
                piece = it.recv(1 << 16)
                said += piece
                if not piece or said.endswith(b"{}"):
                    raise Void("a receive that was to wait, 20 s at most, did not get a message behind the run")
