"""What docs/USING.md says that a user sees, made to happen: a function for each row of its table, which returns the texts that were seen."""

import contextlib
import http.client
import json
import os
import re
import resource
import select
import socket
import struct
import subprocess
import sys
import tempfile
import time
from pathlib import Path

ROOT = Path(__file__).resolve().parent.parent
sys.path.insert(0, str(ROOT / "clients" / "python"))
sys.dont_write_bytecode = True
from jutkariq import Server  # noqa: E402

# How long what is to come soon may take, in seconds.
PATIENCE = 30
# How many messages take so long to purge that 1,000 requests come meanwhile.
MANY = 300_000
QUEUES = '[[queue]]\nname = "dead"\n[[queue]]\nname = "jobs"\n'
DEAD_LETTERS = 'visibility_timeout = 0\ndead_letter_queue = "dead"\nmax_receive_count = 1\n'
# That the C library takes no memory in advance; and that the sanitizer, which a program compiled without a proof may have, refuses where there is none, and
# keeps none that was given back.
REFUSING = {"MALLOC_ARENA_MAX": "1", "ASAN_OPTIONS": "allocator_may_return_null=1:quarantine_size_mb=0"}


class Rows:
    """The rows, each made to happen with servers of its own. `check` takes words and whether they hold."""

    def __init__(self, program, check):
        self.program, self.check = program, check

    def server(self, text=QUEUES):
        """Starts a server."""
        return Server(text, program=self.program)

    def logged(self, server, *words):
        """Checks that the log of a server has lines with these words, and no more of requests, and returns them. They may come a moment after an answer."""
        end = time.monotonic() + PATIENCE
        while not all(any(it in line for line in server.log()) for it in words) and time.monotonic() < end:
            time.sleep(0.01)
        lines = server.log()
        for it in words:
            self.check(f"the log says {it}", any(it in line for line in lines))
        of_requests = [line for line in lines if re.match(r"\d\d:\d\d:\d\d\.\d{3}Z \S+ \S+ \d{3}\b", line)]
        self.check(f"no line of the log but these: {of_requests}", all(any(it in line for it in words) for line in of_requests))
        return "".join(f"{line}\n" for line in lines)

    def ended(self, words, **environment):
        """Runs the program where it is to end, and returns its status and what it said."""
        ports = {"JUTKARIQ_PORT": "0", "JUTKARIQ_STATISTICS_PORT": "0", **environment}
        with tempfile.TemporaryDirectory(prefix="using-") as room:
            ran = subprocess.run([self.program, *words], cwd=room, env={**os.environ, **ports}, capture_output=True, text=True, timeout=PATIENCE)
        return ran.returncode, ran.stdout + ran.stderr

    def port_is_taken(self):
        """Another server has the port."""
        with self.server() as server:
            with tempfile.NamedTemporaryFile(suffix=".toml") as empty:
                port = port_of(server.endpoint)
                status, said = self.ended([empty.name], JUTKARIQ_PORT=str(port))
        self.check("a server that cannot listen has status 3", status == 3)
        return said.replace(f"port {port}", "port 9324")

    def no_file(self):
        """The file is not there."""
        status, said = self.ended(["shop.toml"])
        self.check("a file that cannot be read is status 1", status == 1)
        return said

    def no_port(self):
        """A variable names no port."""
        found = [self.ended(["shop.toml"], JUTKARIQ_PORT=port)[1] for port in ("http", "65536")]
        self.check("each is told", all("must be a port number, 0 to 65535" in said for said in found))
        return found[0]

    def no_level(self):
        """The variable of the log has another word; each of its own is taken, up to the file, which is not there."""
        status, said = self.ended(["shop.toml"], JUTKARIQ_LOG="off")
        self.check("another word is status 2", status == 2)
        taken = [self.ended(["shop.toml"], JUTKARIQ_LOG=word) for word in ("refused", "all", "none")]
        self.check("each word is taken", all("read failed" in found for _, found in taken))
        return said

    def nobody_listens(self):
        """The server has ended."""
        with self.server() as server:
            client = server.client()
        return refusal(client.list_queues) + curl(server.endpoint)

    def elsewhere(self):
        """Other addresses of this machine than 127.0.0.1."""
        with self.server() as server:
            for endpoint in (server.endpoint, server.statistics_endpoint):
                said = [curl(f"http://{host}:{port_of(endpoint)}") for host in ("127.0.0.1", "127.0.0.2", "[::1]")]
                self.check("only 127.0.0.1 is listened at", ["Failed to connect" in it for it in said] == [False, True, True])
        return said[2]

    def https(self):
        """The endpoint has TLS."""
        with self.server() as server:
            said = refusal(server.client(endpoint_url=server.endpoint.replace("http:", "https:")).list_queues)
            self.logged(server, "connection: what came is not HTTP/1.1 or 1.0; TLS is not served, use http:// (")
        return said

    def no_region(self):
        """The SDK wants a region, and keys."""
        bare = {key: value for key, value in os.environ.items() if not key.startswith("AWS_")}
        bare |= {"AWS_CONFIG_FILE": os.devnull, "AWS_SHARED_CREDENTIALS_FILE": os.devnull, "AWS_EC2_METADATA_DISABLED": "true"}
        code = "import boto3, sys; boto3.client('sqs', endpoint_url=sys.argv[1]).list_queues()"
        said = []
        with self.server() as server:
            for more in ({}, {"AWS_DEFAULT_REGION": "elasticmq"}):
                ran = subprocess.run([sys.executable, "-c", code, server.endpoint], env=bare | more, capture_output=True, text=True, timeout=PATIENCE)
                said.append(ran.stderr)
            keys = {"AWS_ACCESS_KEY_ID": "any", "AWS_SECRET_ACCESS_KEY": "words", "AWS_DEFAULT_REGION": "will-do"}
            ran = subprocess.run([sys.executable, "-c", code, server.endpoint], env=bare | keys, capture_output=True, text=True, timeout=PATIENCE)
        self.check("any words will do", ran.returncode == 0)
        return "".join(said)

    def older_protocol(self):
        """A client of another service, which speaks the protocol that SDKs for SQS spoke before."""
        import boto3

        with self.server() as server:
            other = boto3.client("sns", endpoint_url=server.endpoint, region_name="x", aws_access_key_id="x", aws_secret_access_key="x")
            return refusal(other.list_topics)

    def gone_behind_a_start(self):
        """Queues and messages end with the server; those of the configuration are there again, and empty."""
        with self.server() as server:
            server.client().create_queue(QueueName="made")
            server.client().send_message(QueueUrl="jobs", MessageBody="a")
        with self.server() as server:
            self.check("a configured queue is there again, and empty", sum(server.counts("jobs")) == 0)
            said = refusal(server.client().send_message, QueueUrl="made", MessageBody="a")
            self.logged(server, "SendMessage made 400 QueueDoesNotExist: ")
        return said

    def other_attributes(self):
        """CreateQueue asks for other attributes than the queue has."""
        with self.server() as server:
            sqs = server.client()
            same = sqs.create_queue(QueueName="jobs", Attributes={"VisibilityTimeout": "30"})["QueueUrl"]
            self.check("the same attributes, and none, are answered with the URL", same == sqs.create_queue(QueueName="jobs")["QueueUrl"])
            return refusal(sqs.create_queue, QueueName="jobs", Attributes={"VisibilityTimeout": "5"})

    def handle_of_before(self):
        """The handle was given before the server was started anew."""
        with self.server() as server:
            server.client().send_message(QueueUrl="jobs", MessageBody="a")
            handle = server.client().receive_message(QueueUrl="jobs")["Messages"][0]["ReceiptHandle"]
        with self.server() as server:
            return refusal(server.client().delete_message, QueueUrl="jobs", ReceiptHandle=handle)

    def changed_too_late(self):
        """The message came back, or was deleted."""
        with self.server(QUEUES + "visibility_timeout = 0\n") as server:
            sqs, found = server.client(), []
            sqs.send_message(QueueUrl="jobs", MessageBody="a")
            one = {"QueueUrl": "jobs", "ReceiptHandle": sqs.receive_message(QueueUrl="jobs")["Messages"][0]["ReceiptHandle"]}
            found.append(refusal(sqs.change_message_visibility, VisibilityTimeout=5, **one))
            sqs.delete_message(**one)
            found.append(refusal(sqs.change_message_visibility, VisibilityTimeout=5, **one))
        return self.alike("MessageNotInflight", found)

    def parameters(self):
        """A message that is too large, one that is empty, a name of a FIFO queue, a number out of range."""
        with self.server(QUEUES + "maximum_message_size = 1024\n") as server:
            sqs = server.client()
            found = [refusal(sqs.send_message, QueueUrl="jobs", MessageBody=body) for body in ("a" * 1025, "")]
            found.append(refusal(sqs.create_queue, QueueName="jobs.fifo"))
            found.append(refusal(sqs.receive_message, QueueUrl="jobs", WaitTimeSeconds=21))
            allowed = ("MessageBody has 1,025 bytes", "MessageBody is empty", "QueueName is jobs.fifo, and", "WaitTimeSeconds is 21, and 0 to 20 is wanted")
            self.logged(server, *allowed)
        return self.alike("InvalidParameterValue", found)

    def fifo(self):
        """A FIFO queue is asked for."""
        with self.server() as server:
            said = refusal(server.client().create_queue, QueueName="new", Attributes={"FifoQueue": "true"})
            self.logged(server, "Attributes has the unknown name FifoQueue")
        return said

    def attribute_values(self):
        """A size that is one byte too large, and a dead-letter queue that is not there; 1,048,576 is allowed."""
        policy = json.dumps({"deadLetterTargetArn": "arn:aws:sqs:elasticmq:000000000000:nowhere", "maxReceiveCount": 3})
        with self.server() as server:
            sqs, found = server.client(), []
            for attributes in ({"MaximumMessageSize": "1048577"}, {"RedrivePolicy": policy}):
                found.append(refusal(sqs.create_queue, QueueName="new", Attributes=attributes))
            sqs.create_queue(QueueName="new", Attributes={"MaximumMessageSize": "1048576"})
            self.logged(server, "Attributes.MaximumMessageSize is 1048577, and 1,024 to 1,048,576", "names the queue nowhere, and no open queue has this name")
        return self.alike("InvalidAttributeValue", found)

    def not_served(self):
        """Tags, permissions and message move tasks; a request without a header for its action."""
        with self.server() as server:
            sqs = server.client()
            found = [refusal(sqs.list_queue_tags, QueueUrl="jobs"), refusal(sqs.start_message_move_task, SourceArn="arn:aws:sqs:::dead")]
            found.append(refusal(sqs.add_permission, QueueUrl="jobs", Label="a", AWSAccountIds=["1"], Actions=["*"]))
            found.append(curl(server.endpoint, "-d", "{}"))
            actions = [f"The action {it} is not served" for it in ("ListQueueTags", "StartMessageMoveTask", "AddPermission")]
            self.logged(server, *actions, "X-Amz-Target is missing, or names no action of AmazonSQS")
        return self.alike("UnsupportedOperation", found)

    def other_kinds(self):
        """JSON of another kind."""
        with self.server() as server:
            requests = ({"QueueUrl": "jobs", "MessageBody": "a", "DelaySeconds": "5"}, {"QueueUrl": "jobs", "Attributes": {"DelaySeconds": 5}})
            found = [server.ask(action, request).text for action, request in zip(("SendMessage", "SetQueueAttributes"), requests)]
            self.logged(server, "DelaySeconds is a string, and a whole number is wanted", "Attributes.DelaySeconds is a number, and a string is wanted")
        return self.alike("SerializationException", found)

    def failed_entries(self):
        """Entries of a batch are refused: boto3 raises nothing."""
        entries = [{"Id": "a", "MessageBody": "a"}, {"Id": "b", "MessageBody": ""}]
        with self.server() as server:
            answer = server.client().send_message_batch(QueueUrl="jobs", Entries=entries)
            self.check("its status is 200", answer["ResponseMetadata"]["HTTPStatusCode"] == 200)
            self.logged(server, "SendMessageBatch jobs 200 InvalidParameterValue: Entries[1].MessageBody is empty; 1 entry was refused: \"b\"")
        return json.dumps(answer)

    def get(self):
        """A browser asks at the port for requests."""
        with self.server() as server:
            return curl(server.endpoint, "-w", " %{http_code}")

    def web_page(self):
        """A request of a web page."""
        with self.server() as server:
            return curl(server.endpoint, "-w", " %{http_code}", "-H", "Origin: http://shop.example", "-H", "X-Amz-Target: AmazonSQS.ListQueues", "-d", "{}")

    def foreign_host(self):
        """The statistics are asked by another name; localhost, 127.0.0.1 and [::1] are served."""
        with self.server() as server:
            url, port = f"{server.statistics_endpoint}/metrics", port_of(server.statistics_endpoint)
            names = [curl(url, "-o", os.devnull, "-w", "%{http_code}", "-H", f"Host: {name}:{port}") for name in ("localhost", "127.0.0.1", "[::1]")]
            self.check("these names are served", names == ["200"] * 3)
            return curl(url, "-w", " %{http_code}", "-H", f"Host: host.docker.internal:{port}")

    def too_large(self):
        """A request that announces a byte too many."""
        with self.server() as server:
            it = http.client.HTTPConnection("127.0.0.1", port_of(server.endpoint), timeout=PATIENCE)
            it.putrequest("POST", "/")
            it.putheader("X-Amz-Target", "AmazonSQS.ListQueues")
            it.putheader("Content-Length", "8388609")
            it.endheaders()
            answer = it.getresponse()
            said = f"{answer.status} {answer.read().decode()}"
            it.close()
        return said

    def idle(self):
        """Nothing is asked on a connection for so long that the server closes it, of which nothing is told; boto3 opens another."""
        with self.server() as server:
            sqs = server.client()
            sqs.list_queues()
            other, begun = socket.create_connection(("127.0.0.1", port_of(server.endpoint)), 2 * PATIENCE), time.monotonic()
            with other:
                self.check("it is closed", other.recv(1) == b"")
            self.check("it is closed after 30 s", 29 < time.monotonic() - begun < 40)
            sqs.list_queues()
            self.check("nothing is told", server.log() == [])
        return ""

    def cut(self):
        """A client resets a connection at rest, and another sends what is no HTTP; what goes on beside them is answered."""
        with self.server() as server:
            with contextlib.ExitStack() as stack:
                one, other, third, left = (stack.enter_context(socket.create_connection(("127.0.0.1", port_of(server.endpoint)), PATIENCE)) for _ in range(4))
                self.check("it is answered before it is reset", asked_over(one).startswith(b"HTTP/1.1 200 "))
                one.setsockopt(socket.SOL_SOCKET, socket.SO_LINGER, struct.pack("ii", 1, 0))
                one.close()
                said = self.logged(server, "connection: the connection failed (connection error: Connection reset by peer (os error 104))")
                other.sendall(b"\x16\x03\x01\x02\x00\x01\x00\x01\xfc")
                self.check("what is no HTTP is refused", other.recv(100).startswith(b"HTTP/1.1 400 "))
                left.sendall(b"POST / HTTP/1.1\r\n")
                left.close()
                self.logged(server, "connection: the client left before it had sent all of a request, or before it was answered (")
                self.check("the third connection is open", asked_over(third).startswith(b"HTTP/1.1 200 "))
        return said

    def nothing(self):
        """Each reason for which a receive gives nothing."""
        with self.server(QUEUES + "max_receive_count = 1\ndead_letter_queue = \"dead\"\n") as server, self.server() as other:
            sqs = server.client()
            receives = lambda url="jobs": len(sqs.receive_message(QueueUrl=url).get("Messages", []))
            sqs.send_message(QueueUrl="jobs", MessageBody="received")
            self.check("it was received by others", (receives(), receives(), server.counts("jobs").in_flight) == (1, 0, 1))
            sqs.send_message(QueueUrl="jobs", MessageBody="later", DelaySeconds=900)
            self.check("its delay is not over", (receives(), server.counts("jobs").delayed) == (0, 1))
            handle = "%016x%016x%016x" % (2, 0, 1)
            sqs.change_message_visibility(QueueUrl="jobs", ReceiptHandle=handle, VisibilityTimeout=0)
            self.check("it is among the dead letters", (receives(), server.wait_until("dead", visible=1).visible, receives("dead")) == (0, 1, 1))
            other.client().send_message(QueueUrl="jobs", MessageBody="elsewhere")
            self.check("it is with another server", (receives(), other.counts("jobs").visible) == (0, 1))
        return ""

    def twice(self):
        """A message that was not deleted in time comes again."""
        with self.server(QUEUES + "visibility_timeout = 1\n") as server:
            sqs = server.client()
            sqs.send_message(QueueUrl="jobs", MessageBody="a")
            found = [sqs.receive_message(QueueUrl="jobs", WaitTimeSeconds=5)["Messages"][0]["MessageId"] for _ in range(2)]
        self.check("the same message comes twice", found[0] == found[1])
        return ""

    def gone(self):
        """A message that was received as often as it may be is in the dead-letter queue."""
        with self.server(QUEUES + DEAD_LETTERS) as server:
            sqs = server.client()
            sent = sqs.send_message(QueueUrl="jobs", MessageBody="a")["MessageId"]
            found = [len(sqs.receive_message(QueueUrl="jobs").get("Messages", [])) for _ in range(2)]
            dead = sqs.receive_message(QueueUrl="dead", WaitTimeSeconds=5)["Messages"][0]["MessageId"]
        self.check("it is among the dead letters", (found, dead) == ([1, 0], sent))
        return ""

    def in_flight(self):
        """As many messages are in flight as may be."""
        with self.server(f"[limits]\nin_flight = 1\n{QUEUES}") as server:
            sqs = server.client()
            for body in ("a", "b"):
                sqs.send_message(QueueUrl="jobs", MessageBody=body)
            sqs.receive_message(QueueUrl="jobs")
            return refusal(sqs.receive_message, QueueUrl="jobs")

    def journal_full(self):
        """The journal is full: boto3 tries again before it fails, and a queue that was made again takes messages."""
        from botocore.config import Config

        with self.server(f"[limits]\nmax_lines = 2\n{QUEUES}") as server:
            sqs = server.client(config=Config(retries={"mode": "standard"}))
            sqs.send_message(QueueUrl="jobs", MessageBody="a")
            said = refusal(sqs.send_message, QueueUrl="jobs", MessageBody="b")
            self.check("it was tried again", "reached max retries: 2" in said)
            sqs.delete_queue(QueueUrl="jobs")
            sqs.create_queue(QueueName="jobs")
            self.check("the new queue takes a message", "MessageId" in sqs.send_message(QueueUrl="jobs", MessageBody="b"))
        return said

    def busy(self):
        """While a large queue is purged, more requests for it come than may wait."""
        few, most = resource.getrlimit(resource.RLIMIT_NOFILE)
        resource.setrlimit(resource.RLIMIT_NOFILE, (max(few, min(4_096, most)), most))
        with self.server() as server, contextlib.ExitStack() as opened:
            batch = json.dumps({"QueueUrl": "jobs", "Entries": [{"Id": str(it), "MessageBody": "a"} for it in range(10)]})
            filling = self.connection(server, opened)
            for _ in range(MANY // 10):
                answer_to(filling, "SendMessageBatch", batch)
            waiting = [self.connection(server, opened) for _ in range(1_100)]
            filling.sendall(request_for("PurgeQueue", '{"QueueUrl":"jobs"}'))
            for it in waiting:
                it.sendall(request_for("PurgeQueue", '{"QueueUrl":"jobs"}'))
            said = {it.recv(10_000).decode() for it in waiting}
            self.check("the others are served", any(" 200 " in it for it in said))
        return "".join(said)

    def crowded(self):
        """More large bodies are announced than all threads take together, of which there are at most 16; a small request is answered beside them."""
        head = "POST / HTTP/1.1\r\nHost: localhost\r\nX-Amz-Target: AmazonSQS.SendMessage\r\nContent-Length: 8388608\r\n\r\n".encode()
        with self.server() as server, contextlib.ExitStack() as opened:
            waiting = [self.connection(server, opened) for _ in range(16 * 4 + 1)]
            for it in waiting:
                it.sendall(head)
            refused = select.select(waiting, [], [], PATIENCE)[0]
            said = refused[0].recv(10_000).decode() if refused else ""
            self.check("a small request is answered", asked_over(self.connection(server, opened)).startswith(b"HTTP/1.1 200 "))
        return said

    def connection(self, server, opened):
        """Opens a connection that is closed at the end."""
        return opened.enter_context(socket.create_connection(("127.0.0.1", port_of(server.endpoint)), timeout=PATIENCE))

    def no_memory(self):
        """The system gives no more memory than the server has, and then ever more: some request finds enough to come, and too little to be done."""
        before = {name: os.environ.get(name) for name in REFUSING}
        os.environ.update(REFUSING)
        try:
            with self.server() as server:
                number = server._process.pid
                # behind an answer all its threads have begun
                server.ask("SendMessage", {"QueueUrl": "jobs", "MessageBody": "a"})
                sizes = dict(line.split(":", 1) for line in Path(f"/proc/{number}/status").read_text().splitlines())
                found = (self.asked_within(server, int(sizes["VmSize"].split()[0]) * 1024 + more) for more in range(0, 16_000_000, 125_000))
                return next((said for said in found if "OutOfMemory" in said), "no call was answered so")
        finally:
            for name, value in before.items():
                os.environ.pop(name) if value is None else os.environ.update({name: value})

    def asked_within(self, server, most):
        """Returns what a large message is answered where the server may have so many bytes of memory, or nothing where its connection finds none, and ends."""
        resource.prlimit(server._process.pid, resource.RLIMIT_AS, (most, resource.RLIM_INFINITY))
        message = json.dumps({"QueueUrl": "jobs", "MessageBody": "a" * 250_000})
        it = http.client.HTTPConnection("127.0.0.1", port_of(server.endpoint), timeout=PATIENCE)
        with contextlib.closing(it), contextlib.suppress(OSError, http.client.HTTPException):
            it.request("POST", "/", message, {"X-Amz-Target": "AmazonSQS.SendMessage"})
            return it.getresponse().read().decode()
        return ""

    def state_of_an_alarm(self):
        """An alarm in the first of its minutes."""
        rule = 'queue = "jobs"\nname = "deep"\nmetric = "NumberOfMessagesSent"\noperator = "GreaterThanThreshold"\nthreshold = 0\nminutes = 180\n'
        with self.server(f"{QUEUES}[[alarm]]\n{rule}") as server:
            return server.alarms("jobs")["deep"]

    def page_without_server(self):
        """The text that the page has for a server that has ended; clients/page_test.py sees it there."""
        with self.server() as server:
            return curl(f"{server.statistics_endpoint}/")

    def alike(self, name, found):
        """Returns the texts that were found, each of which is to have a name."""
        for number, said in enumerate(found, 1):
            self.check(f"{name}, reason {number}", name in said)
        return "".join(found)


# What the first cell of a row has first: a text of its own in backticks, or else its words.
ROWS = {
    "cannot listen": Rows.port_is_taken,
    "read failed": Rows.no_file,
    "must be a port number, 0 to 65535": Rows.no_port,
    "must be refused, all or none": Rows.no_level,
    "Could not connect to the endpoint URL": Rows.nobody_listens,
    "the same from a container, from another machine, or at `::1`": Rows.elsewhere,
    "SSL validation failed": Rows.https,
    "You must specify a region": Rows.no_region,
    "Unable to parse response": Rows.older_protocol,
    "QueueDoesNotExist": Rows.gone_behind_a_start,
    "QueueNameExists": Rows.other_attributes,
    "ReceiptHandleIsInvalid": Rows.handle_of_before,
    "MessageNotInflight": Rows.changed_too_late,
    "InvalidParameterValue": Rows.parameters,
    "InvalidAttributeName": Rows.fifo,
    "InvalidAttributeValue": Rows.attribute_values,
    "UnsupportedOperation": Rows.not_served,
    "SerializationException": Rows.other_kinds,
    "Failed": Rows.failed_entries,
    "method not allowed": Rows.get,
    "requests of web pages are not answered": Rows.web_page,
    "this host is not served": Rows.foreign_host,
    "body too large": Rows.too_large,
    "a connection that the server closes": Rows.idle,
    "connection:": Rows.cut,
    "a receive that gives nothing": Rows.nothing,
    "a message that comes twice": Rows.twice,
    "a message that is gone": Rows.gone,
    "OverLimit": Rows.in_flight,
    "JournalFull": Rows.journal_full,
    "`ServiceUnavailable`, 500": Rows.busy,
    "`ServiceUnavailable`, 503": Rows.crowded,
    "OutOfMemory": Rows.no_memory,
    "INSUFFICIENT_DATA": Rows.state_of_an_alarm,
    "No answer from the server": Rows.page_without_server,
}


def port_of(endpoint):
    """Returns the port of an address."""
    return int(endpoint.rpartition(":")[2])


def curl(*words):
    """Returns what curl prints, and what it says where it fails."""
    ran = subprocess.run(["curl", "-sS", "--max-time", str(PATIENCE), *words], capture_output=True, text=True)
    return ran.stdout + ran.stderr


def request_for(action, body):
    """Returns a request as it goes over a connection."""
    return f"POST / HTTP/1.1\r\nHost: localhost\r\nX-Amz-Target: AmazonSQS.{action}\r\nContent-Length: {len(body)}\r\n\r\n{body}".encode()


def answer_to(connection, action, body):
    """Asks over a connection, and returns the beginning of the answer."""
    connection.sendall(request_for(action, body))
    return connection.recv(10_000)


def asked_over(connection):
    """Asks for the queues over a connection that is open, and returns the beginning of the answer."""
    connection.sendall(b"POST / HTTP/1.1\r\nHost: localhost\r\nX-Amz-Target: AmazonSQS.ListQueues\r\nContent-Length: 2\r\n\r\n{}")
    return connection.recv(1000)


def refusal(call, **request):
    """Returns the text of the error that a call ends in, or an empty one where it succeeds."""
    try:
        call(**request)
    except Exception as error:
        return f"{type(error).__name__}: {error}\n"
    return ""
