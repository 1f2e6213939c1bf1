#!/usr/bin/env python3
"""Refuses memory to the server while it serves, and looks what becomes of its clients. Ends with one line 'N passed, M failed'.

usage: clients/refused.py [--quick] [PROGRAM]     by default the one that `make run` starts

A conversation is gone through step by step. At each step each allocation of the server is refused in turn, over a connection that was open before and over one
that is made then, and besides all from it on, until the request is answered. Allocations of all its threads count, as those of its clock. Before that the queue
is brought to where the step begins, with memory, and behind it is looked, with memory:

  - The request is answered as without a refusal, or 500 OutOfMemory; an entry of a batch may fail with OutOfMemory by itself; or the connection is closed.
    Where the answer does not come while memory is refused, it comes once there is some again. Nothing takes longer than the limit.
  - On a new connection the queue has the counts that the answer leaves, and its statistics have the same. Where OutOfMemory or nothing was told, what was asked
    may have been done or not, of a batch some. What was not done is done when it is asked again, and what was done is not harmed: the next step goes right.
  - A connection for each port that is open all the time is answered as always.
  - The server goes on, tells `sqs_server: out of memory`, but once a second at most and no more once there is memory, and when all is over has no thread of a
    queue that is gone.

Where nothing was refused, that is a failed check, and so it is where no entry of a batch of sends failed by itself. A step is left after ten requests with
faults: what stays of queues that are gone could make it longer each time. It needs Linux and a C compiler, on x86-64.
With --quick it goes through batches of sends and statistics alone, where it refuses one allocation at a time, and through a list of queues, where all from one
on, over a connection that was open before: that takes a minute or two, and `make test` does it.
"""
import collections
import contextlib
import ctypes
import itertools
import json
import mmap
import os
import platform
import re
import shutil
import socket
import subprocess
import sys
import tempfile
import threading
import time
from typing import NamedTuple

sys.dont_write_bytecode = True
from hostile import MEMORY, ROOT, Checks

SHORT = "sqs_server: out of memory"
# How long memory is refused to a request that gets no answer, and how long an answer may take besides, in seconds.
HOLD, LIMIT = 0.3, 20
# How far apart two lines about a shortage are at the least, as they are read, which on a busy machine may be late, and how long threads of queues that are
# gone may stay, in seconds.
APART, STAYS = 0.5, 20
# How long a queue may be in the making whose client is gone, and how long the server takes to start, in seconds.
SETTLES = 2
# How long a line about a shortage may come once there is memory, and how long none must come after that, in seconds.
CALM = 3
# When a receive counts as one that waits, in seconds.
WAITS = 0.05
# How many faults of a step are told, and after how many requests with faults it is left.
TOLD, ENOUGH = 3, 10
NAMES = ["ApproximateNumberOfMessages", "ApproximateNumberOfMessagesDelayed", "ApproximateNumberOfMessagesNotVisible"]
# Each step has what is asked, what is answered, and the messages that are visible, delayed and in flight then; of a batch, behind each entry. A * stands for
# any text in an answer, and UID for the number of the queue, and for what of an identity has it. What is asked behind `beside` is asked while a receive waits at
# the queue, on a connection of its own: then some entries of a batch go to the queue's thread by mail.
STEPS = """CreateQueue {"QueueName":"jobs","Attributes":{"VisibilityTimeout":"600"}}
200 {"QueueUrl":"http://localhost:PORT/000000000000/jobs"}
0 0 0

SendMessage {"QueueUrl":"jobs","MessageBody":"hello"}
200 {"MD5OfMessageBody":"5d41402abc4b2a76b9719d911017c592","MessageId":"UID-0000-000000000000"}
1 0 0

SendMessage {"QueueUrl":"jobs","MessageBody":"later","DelaySeconds":900,"MessageAttributes":{"kind":{"DataType":"String","StringValue":"a"}}}
200 {"MD5OfMessageAttributes":"fb72dec7a16b6ccb08a928e255fd6b21","MD5OfMessageBody":"c18788c2f274c779da72d9854ea4bfbf","MessageId":"UID-0000-000000000001"}
1 1 0

SendMessageBatch {"QueueUrl":"jobs","Entries":[{"Id":"v","MessageBody":"a"},{"Id":"w","MessageBody":"a"},{"Id":"x","MessageBody":"a"},{"Id":"y","MessageBody":"a"},{"Id":"z","MessageBody":"a"}]}
200 {"Failed":[],"Successful":[{"Id":"v","MD5OfMessageBody":"0cc175b9c0f1b6a831c399e269772661","MessageId":"UID-0000-000000000002"},{"Id":"w","MD5OfMessageBody":"0cc175b9c0f1b6a831c399e269772661","MessageId":"UID-0000-000000000003"},{"Id":"x","MD5OfMessageBody":"0cc175b9c0f1b6a831c399e269772661","MessageId":"UID-0000-000000000004"},{"Id":"y","MD5OfMessageBody":"0cc175b9c0f1b6a831c399e269772661","MessageId":"UID-0000-000000000005"},{"Id":"z","MD5OfMessageBody":"0cc175b9c0f1b6a831c399e269772661","MessageId":"UID-0000-000000000006"}]}
2 1 0, 3 1 0, 4 1 0, 5 1 0, 6 1 0

ReceiveMessage {"QueueUrl":"jobs","MaxNumberOfMessages":10}
200 {"Messages":[{"Body":"hello","MD5OfBody":"5d41402abc4b2a76b9719d911017c592","MessageId":"UID-0000-000000000000","ReceiptHandle":"UID00000000000000000000000000000001"},{"Body":"a",*
0 1 6

ChangeMessageVisibility {"QueueUrl":"jobs","ReceiptHandle":"UID00000000000000000000000000000001","VisibilityTimeout":0}
200 {}
1 1 5

ChangeMessageVisibilityBatch {"QueueUrl":"jobs","Entries":[{"Id":"v","ReceiptHandle":"UID00000000000000020000000000000001","VisibilityTimeout":0},{"Id":"w","ReceiptHandle":"UID00000000000000030000000000000001","VisibilityTimeout":0}]}
200 {"Failed":[],"Successful":[{"Id":"v"},{"Id":"w"}]}
2 1 4, 3 1 3

DeleteMessage {"QueueUrl":"jobs","ReceiptHandle":"UID00000000000000040000000000000001"}
200 {}
3 1 2

DeleteMessageBatch {"QueueUrl":"jobs","Entries":[{"Id":"y","ReceiptHandle":"UID00000000000000050000000000000001"},{"Id":"z","ReceiptHandle":"UID00000000000000060000000000000001"}]}
200 {"Failed":[],"Successful":[{"Id":"y"},{"Id":"z"}]}
3 1 1, 3 1 0

GetQueueAttributes {"QueueUrl":"jobs","AttributeNames":["ApproximateNumberOfMessages","VisibilityTimeout"]}
200 {"Attributes":{"ApproximateNumberOfMessages":"3","VisibilityTimeout":"600"}}
3 1 0

SetQueueAttributes {"QueueUrl":"jobs","Attributes":{"RedrivePolicy":"{\\"deadLetterTargetArn\\":\\"arn:aws:sqs:elasticmq:000000000000:beside\\",\\"maxReceiveCount\\":9}"}}
200 {}
3 1 0

ListDeadLetterSourceQueues {"QueueUrl":"beside"}
200 {"queueUrls":["http://localhost:PORT/000000000000/jobs"]}
3 1 0

ListQueues {}
200 {"QueueUrls":["http://localhost:PORT/000000000000/beside","http://localhost:PORT/000000000000/jobs"]}
3 1 0

GetQueueUrl {"QueueName":"jobs"}
200 {"QueueUrl":"http://localhost:PORT/000000000000/jobs"}
3 1 0

ReceiveMessage {"QueueUrl":"jobs","WaitTimeSeconds":20}
200 {"Messages":[{"Body":"hello","MD5OfBody":"5d41402abc4b2a76b9719d911017c592","MessageId":"UID-0000-000000000000","ReceiptHandle":"UID00000000000000000000000000000002"}]}
2 1 1

GET /statistics/queues/jobs
200 {"age":*
2 1 1

GET /statistics/queues/beside
200 {"age":*"name":"beside",*
2 1 1

GET /statistics/queues
200 {"queues":[{"age":*"name":"beside",*"name":"jobs",*
2 1 1

GET /metrics
200 # HELP *{queue="jobs"} *jutkariq_requests_total{action="CreateQueue",status="200"} *jutkariq_build_info{version="*.*"} 1*process_start_time_seconds *
2 1 1

GET /
200 <!doctype html>*
2 1 1

PurgeQueue {"QueueUrl":"jobs"}
200 {}
0 0 0

ReceiveMessage {"QueueUrl":"jobs","WaitTimeSeconds":1}
200 {}
0 0 0

CreateQueue {"QueueName":"jobs","Attributes":{"VisibilityTimeout":"600"}}
200 {"QueueUrl":"http://localhost:PORT/000000000000/jobs"}
0 0 0

DeleteQueue {"QueueUrl":"jobs"}
200 {}
none

CreateQueue {"QueueName":"jobs"}
200 {"QueueUrl":"http://localhost:PORT/000000000000/jobs"}
0 0 0

beside SendMessageBatch {"QueueUrl":"jobs","Entries":[{"Id":"v","MessageBody":"a","DelaySeconds":900},{"Id":"w","MessageBody":"a","DelaySeconds":900},{"Id":"x","MessageBody":"a","DelaySeconds":900},{"Id":"y","MessageBody":"a","DelaySeconds":900},{"Id":"z","MessageBody":"a","DelaySeconds":900}]}
200 {"Failed":[],"Successful":[{"Id":"v","MD5OfMessageBody":"0cc175b9c0f1b6a831c399e269772661","MessageId":"UID-0000-000000000000"},{"Id":"w","MD5OfMessageBody":"0cc175b9c0f1b6a831c399e269772661","MessageId":"UID-0000-000000000001"},{"Id":"x","MD5OfMessageBody":"0cc175b9c0f1b6a831c399e269772661","MessageId":"UID-0000-000000000002"},{"Id":"y","MD5OfMessageBody":"0cc175b9c0f1b6a831c399e269772661","MessageId":"UID-0000-000000000003"},{"Id":"z","MD5OfMessageBody":"0cc175b9c0f1b6a831c399e269772661","MessageId":"UID-0000-000000000004"}]}
0 1 0, 0 2 0, 0 3 0, 0 4 0, 0 5 0"""
CONFIGURATION = """[[queue]]
name = "beside"
[[alarm]]
queue = "beside"
name = "deep"
metric = "ApproximateNumberOfMessagesVisible"
operator = "GreaterThanThreshold"
threshold = 0
minutes = 3
"""
NO_TEXT = '{"message":"out of memory"}'
ABSENT = "none"


class Step(NamedTuple):
    """A step of the conversation: what is asked, the answer that is wanted, the counts before it, and those that it leaves, of a batch behind each entry."""

    action: str
    asked: str
    wanted: str
    before: str
    after: list
    is_beside: bool

    def name(self):
        """Returns in a word or two what is asked."""
        return f"GET {self.asked}" if self.action == "GET" else f"{self.action}{' beside a receive' if self.is_beside else ''}"

    def is_quick(self):
        """Returns whether it is one of the few that are gone through with --quick."""
        return self.action in ("SendMessageBatch", "ListQueues") or self.is_look()

    def is_look(self):
        """Returns whether it asks for statistics, as the step behind it may do too."""
        return self.action == "GET" and self.asked != "/"

    def is_change(self):
        """Returns whether it changes the queue."""
        return self.before != self.after[-1] or self.action == "SetQueueAttributes"

    def is_batch(self):
        """Returns whether it has entries, each of which is done by itself."""
        return self.action.endswith("Batch")


def steps():
    """Returns the steps of the conversation."""
    found, before = [], ABSENT
    for text in STEPS.split("\n\n"):
        asked, wanted, after = text.split("\n")
        is_beside = asked.startswith("beside ")
        action, _, asked = asked.removeprefix("beside ").partition(" ")
        found.append(Step(action, asked, wanted, before, after.split(", "), is_beside))
        before = found[-1].after[-1]
    return found


class Memory:
    """The switch by which a program that goes on is refused memory, tools/refuse_allocation.c: a file that both have mapped."""

    def __init__(self, path):
        with open(path, "w+b") as it:
            it.write(bytes(32))
            it.flush()
            self.numbers = (ctypes.c_int64 * 4).from_buffer(mmap.mmap(it.fileno(), 32))

    def refuse(self, first, is_rest):
        """Counts from now on, and refuses the allocation of a number, or all from it on."""
        self.numbers[0] = self.numbers[1] = 0
        self.numbers[2] = first
        self.numbers[3] = 2**62 if is_rest else first

    def give_back(self):
        """Refuses nothing any more. Returns how many allocations were asked for, and how many refused."""
        self.numbers[3] = 0
        return self.numbers[0], self.numbers[1]


class Server:
    """A server at free ports that can be refused memory, with the queue `beside`, whose statistics take memory for its alarm, and what it tells."""

    def __init__(self, program, library, room):
        self.memory = Memory(f"{room}/counts")
        with open(f"{room}/config.toml", "w", encoding="utf-8") as it:
            it.write(CONFIGURATION)
        way = {**os.environ, "JUTKARIQ_PORT": "0", "JUTKARIQ_STATISTICS_PORT": "0", "LD_PRELOAD": library, "REFUSE_COUNTS": f"{room}/counts"}
        self.process = subprocess.Popen([program, f"{room}/config.toml"], stdout=subprocess.PIPE, stderr=subprocess.PIPE, env=way, text=True)
        self.told, line = [], self.process.stdout.readline()
        threading.Thread(target=self.listen, daemon=True).start()
        ports = [int(it) for it in re.findall(r"http://localhost:(\d+)", line)]
        if len(ports) != 2:
            self.process.kill()
            sys.exit(f"refused.py: the server does not name its ports: {line}")
        self.port, self.statistics = ports

    def __enter__(self):
        return self

    def __exit__(self, *_):
        self.process.kill()
        self.process.wait()

    def listen(self):
        """Keeps what it tells on standard error, and when."""
        for line in self.process.stderr:
            self.told.append((time.monotonic(), line.rstrip("\n")))

    def shortages(self):
        """Returns when it told of a shortage."""
        return [when for when, line in self.told if line == SHORT]

    def threads(self):
        """Returns how many threads it has."""
        return len(os.listdir(f"/proc/{self.process.pid}/task"))


class Line:
    """A connection to a port of the server."""

    def __init__(self, server, action=""):
        self.server, self.port = server, server.statistics if action == "GET" else server.port
        self.socket = socket.create_connection(("127.0.0.1", self.port), LIMIT)
        self.came = b""

    def close(self):
        """Closes it."""
        self.socket.close()

    def ask(self, action, asked):
        """Sends a request. That the server has closed the connection shows when the answer is read."""
        head = f"GET {asked} HTTP/1.1\r\nHost: localhost\r\n\r\n"
        if action != "GET":
            head = f"POST / HTTP/1.1\r\nHost: localhost\r\nX-Amz-Target: AmazonSQS.{action}\r\nContent-Length: {len(asked)}\r\n\r\n{asked}"
        try:
            self.socket.sendall(head.encode())
        except ConnectionError:
            pass

    def reply(self, limit=LIMIT):
        """Returns the status and the body of the next answer, `closed` where the connection ends before, or None where nothing more comes in so many seconds."""
        self.socket.settimeout(limit)
        while (whole := reply_in(self.came)) is None:
            try:
                piece = self.socket.recv(1 << 16)
            except TimeoutError:
                return None
            except ConnectionError:
                piece = b""
            if not piece:
                return "closed"
            self.came += piece
        self.came = b""
        return f"{whole[0]} {whole[1]}".replace(f":{self.server.port}/", ":PORT/")

    def call(self, action, asked):
        """Asks, and returns the answer."""
        self.ask(action, asked)
        return self.reply()


def reply_in(came):
    """Returns the status and the body of an answer that has come whole, or None."""
    front, end, body = came.partition(b"\r\n\r\n")
    length = re.search(rb"content-length: (\d+)", front) if end else None
    return (front.split()[1].decode(), body.decode()) if length and len(body) >= int(length[1]) else None


def plain(answer):
    """Returns an answer without the number of its queue."""
    answer = re.sub(r'("MessageId":")[0-9a-f]{8}-[0-9a-f]{4}-[0-9a-f]{4}', r"\1UID", answer or "nothing")
    return re.sub(r'("ReceiptHandle":")[0-9a-f]{16}', r"\1UID", answer)


def is_right(step, answer):
    """Returns whether an answer is the one that is wanted."""
    return re.fullmatch(".*".join(map(re.escape, step.wanted.split("*"))), plain(answer), re.DOTALL) is not None


def entries_done(step, answer):
    """Returns how many entries of a batch were done, where all others are told OutOfMemory by themselves, or else None."""
    if not step.is_batch() or not (answer or "").startswith('200 {"Failed":[{'):
        return None
    found, wanted = json.loads(answer[4:]), json.loads(step.wanted[4:])["Successful"]
    failed = [{"Code": "OutOfMemory", "Id": it["Id"], "Message": "Out of memory.", "SenderFault": False} for it in found["Failed"]]
    done = [{**it, "MessageId": ""} if "MessageId" in it else it for it in found["Successful"]]
    left = [{**it, "MessageId": ""} if "MessageId" in it else it for it in wanted if it["Id"] in {one["Id"] for one in done}]
    return len(done) if found["Failed"] == failed and done == left and len(done) + len(failed) == len(wanted) else None


def outcome(step, answer):
    """Returns in a word what became of a request, and the counts that it may leave. An answer of another kind leaves none."""
    done = entries_done(step, answer)
    if is_right(step, answer):
        return "right", step.after[-1:]
    if done is not None:
        return "in part", [[step.before, *step.after][done]]
    if answer == "closed" or answer == (f"500 {NO_TEXT}" if step.action == "GET" and step.asked != "/" else f"500 {MEMORY}"):
        return "closed" if answer == "closed" else "OutOfMemory", [step.before, *step.after]
    return "another answer", []


class Refusals:
    """Goes through the conversation with a server that is refused memory."""

    def __init__(self, server):
        self.server, self.steps, self.uid = server, steps(), ""
        self.other, self.viewer = Line(server), Line(server, "GET")

    def asked(self, step):
        """Returns what a step asks of the queue that is there."""
        return step.asked.replace("UID", self.uid)

    def goes_right(self, step, line):
        """Asks with memory what a step asks. Returns a fault in words, or None."""
        line.ask(step.action, self.asked(step))
        answer = line.reply()
        if found := re.search(r'"MessageId":"([0-9a-f-]{18})', answer or ""):
            self.uid = found[1].replace("-", "")
        return None if is_right(step, answer) else f"with memory {step.name()} is answered {answer!r:.300}"

    def begin(self, place):
        """Brings the queue to where a step begins, from the last time on that it was not there. Returns a fault in words, or None."""
        self.other.call("DeleteQueue", '{"QueueUrl":"jobs"}')
        first = max(it for it in range(place + 1) if self.steps[it].before == ABSENT)
        return next((fault for it in self.steps[first:place] if it.is_change() and (fault := self.goes_right(it, self.other))), None)

    def counts(self, line):
        """Returns the counts of the queue."""
        answer = line.call("GetQueueAttributes", json.dumps({"QueueUrl": "jobs", "AttributeNames": NAMES})) or ""
        if answer.startswith("400 "):
            return ABSENT if "QueueDoesNotExist" in answer else answer
        return " ".join(json.loads(answer[4:])["Attributes"].get(it) for it in NAMES) if answer.startswith("200 ") else answer

    def shown(self):
        """Returns the counts of the queue that its statistics have, over the connection that is open all the time."""
        answer = self.viewer.call("GET", "/statistics/queues/jobs") or ""
        if not answer.startswith("200 "):
            return ABSENT if answer == '404 {"message":"not found"}' else answer
        found = json.loads(answer[4:])
        return f"{found['visible']} {found['delayed']} {found['inFlight']}"

    def waiter(self):
        """Returns a connection on which a receive waits at the queue."""
        line = Line(self.server)
        line.ask("ReceiveMessage", '{"QueueUrl":"jobs","WaitTimeSeconds":20}')
        time.sleep(WAITS)
        return line

    def refused(self, step, first, is_rest, is_new):
        """Refuses memory to a request. Returns its answer, whether that came while it was refused, and how many allocations were asked for and refused."""
        line, waiter = None if is_new else Line(self.server, step.action), self.waiter() if step.is_beside else None
        if line:
            line.call(*(("GET", "/health") if step.action == "GET" else ("GetQueueUrl", '{"QueueName":"beside"}')))
        self.server.memory.refuse(first, is_rest)
        line = line or Line(self.server, step.action)
        line.ask(step.action, self.asked(step))
        answer = line.reply(HOLD if is_rest else LIMIT)
        asked, refused = self.server.memory.give_back()
        is_late = answer is None
        if is_late:
            answer = line.reply()
        line.close()
        if waiter:
            waiter.close()
        return answer, is_late, asked, refused

    def left(self, line):
        """Returns the counts of the queue, and those that its statistics have. A queue whose client is gone may just then be made or go: both are then read again."""
        end = time.monotonic() + SETTLES
        while (found := self.counts(line)) != (shown := self.shown()) and time.monotonic() < end:
            time.sleep(0.01)
        return found, shown

    def faults_behind(self, place, allowed, is_right):
        """Looks what a request has left that was answered rightly or not, where some counts are allowed. Returns faults in words."""
        step = self.steps[place]
        with contextlib.closing(Line(self.server)) as line:
            found, shown = self.left(line)
        faults = [] if found in allowed else [f"the counts are {found}, and of {allowed} one is wanted"]
        faults += [] if shown == found else [f"the statistics have {shown}, and the queue {found}"]
        is_done = is_right or step.before != step.after[-1] and found == step.after[-1]
        if found in (step.before, step.after[-1]) and not (is_done and place + 1 == len(self.steps)):
            again = self.steps[place + is_done]
            with contextlib.closing(Line(self.server, again.action)) as line:
                faults += [it for it in [self.goes_right(again, line)] if it]
        answers = (self.other.call("GetQueueUrl", '{"QueueName":"beside"}'), self.viewer.call("GET", "/health"))
        wanted = ('200 {"QueueUrl":"http://localhost:PORT/000000000000/beside"}', '200 {"status":"ok"}')
        faults += [] if answers == wanted else [f"other connections are answered {answers}"]
        if answers != wanted:
            self.other, self.viewer = Line(self.server), Line(self.server, "GET")
        return faults

    def trial(self, place, first, is_rest, is_new):
        """Has one request that is refused memory. Returns what became of it in a word, whether it was late, how many allocations were asked for and refused, and faults."""
        # a look leaves all as it was, and so does the one behind it
        fault = None if first > 1 and self.steps[place].is_look() and self.steps[place + 1].is_look() else self.begin(place)
        if fault:
            return "not begun", False, 0, 0, [fault]
        answer, is_late, asked, refused = self.refused(self.steps[place], first, is_rest, is_new)
        word, allowed = outcome(self.steps[place], answer)
        faults = [] if allowed else [f"it is answered {answer!r:.300}"]
        return word, is_late, asked, refused, faults + self.faults_behind(place, allowed or [self.steps[place].before, *self.steps[place].after], word == "right")


def gone_through(it, refusals, place, is_rest, is_new):
    """Refuses memory to a step at each number, until one is beyond what it asks for or enough had faults. Returns how often what became of it, and the faults."""
    words, faults, failed = collections.Counter(), [], it.failed
    for first in itertools.count(1):
        word, is_late, asked, refused, told = refusals.trial(place, first, is_rest, is_new)
        words.update([word] if refused else [], late=is_late)
        faults += [f"allocation {first}: {word}: {one}" for one in told]
        it.passed, it.failed = it.passed + (not told), it.failed + bool(told)
        if it.failed - failed == ENOUGH or refusals.server.process.poll() is not None or not refused and asked < first:
            break
    it.equal(f"whether {refusals.steps[place].name()} was refused memory", first > 1, True)
    if refusals.steps[place].action == "SendMessageBatch" and not is_rest:
        it.equal(f"whether an entry of {refusals.steps[place].name()} failed by itself", words["in part"] > 0, True)
    return words, faults


def told_of(words):
    """Returns in words what became of requests."""
    # a receive that waits is late in any case
    own = ", ".join(f"{words[it]} {it}" for it in ("right", "OutOfMemory", "in part", "closed", "another answer", "not begun") if words[it])
    return own + (f"; {words['late']} answered later, with memory again" if words["late"] else "")


def ways(step, is_quick):
    """Returns in which ways a step is gone through: whether all is refused from one allocation on, and whether the connection is a new one."""
    if is_quick:
        # of a shortage alone that leaves no memory for a line is told
        return [(step.action == "ListQueues", False)] if step.is_quick() else []
    return itertools.product((False, True), repeat=2)


def all_steps(it, server, is_quick):
    """Goes through all steps in each of four ways, or through some in one, and tells what became of them."""
    refusals = Refusals(server)
    for place, step in enumerate(refusals.steps):
        for is_rest, is_new in ways(step, is_quick):
            begun = time.monotonic()
            words, faults = gone_through(it, refusals, place, is_rest, is_new)
            way = f"{'all from one on' if is_rest else 'one'}, {'a new connection' if is_new else 'an open connection'}"
            print(f"{step.name()}, {way}: {told_of(words)}; {time.monotonic() - begun:.0f} s", flush=True)
            print("".join(f"  {one}\n" for one in faults[:TOLD]) + (f"  {len(faults) - TOLD} more\n" if faults[TOLD:] else ""), end="", flush=True)
            if server.process.poll() is not None:
                return
    refusals.other.call("DeleteQueue", '{"QueueUrl":"jobs"}')


def refused(it, program, library, room, is_quick):
    """Refuses memory to a server, and looks what it tells and leaves."""
    with Server(program, library, room) as server:
        begun = time.monotonic()
        # all its threads have started then
        time.sleep(SETTLES)
        threads = server.threads()
        all_steps(it, server, is_quick)
        time.sleep(CALM)
        before = len(server.shortages())
        time.sleep(CALM)
        it.equal("lines about a shortage while there is memory", len(server.shortages()) - before, 0)
        it.equal("whether the server goes on", server.process.poll(), None)
        end = time.monotonic() + STAYS
        while server.process.poll() is None and server.threads() != threads and time.monotonic() < end:
            time.sleep(0.1)
        it.equal("its threads in the end", server.threads() if server.process.poll() is None else None, threads)
        if server.process.poll() is not None:
            print("".join(f"refused.py: it told last: {line}\n" for _, line in server.told[-TOLD:]), end="")
        at = server.shortages()
        it.equal(f"times below {APART} s between two of its lines about a shortage", [one for one in (b - a for a, b in zip(at, at[1:])) if one < APART], [])
        it.equal("whether it told of a shortage", at != [], True)
        it.equal("lines about a shortage that are too many", max(0, len(at) - int(at[-1] - at[0] + 2) if at else 0), 0)
        print(f"It took {(time.monotonic() - begun) / 60:.1f} minutes. The server told {len(server.told):,} lines, of which {len(at)} are of a shortage.")


def main(words):
    """Does it, and returns the status."""
    is_quick, words = words[:1] == ["--quick"], words[words[:1] == ["--quick"] :]
    if len(words) > 1 or words[:1] and words[0].startswith("-"):
        print(__doc__, file=sys.stderr)
        return 2
    if is_quick and not (shutil.which("cc") and platform.system() == "Linux" and platform.machine() == "x86_64"):
        print("skipped: clients/refused.py, which needs Linux and a C compiler, on x86-64\n0 passed, 0 failed")
        return 0
    program = words[0] if words else subprocess.check_output([f"{ROOT}/tools/run", "--which", "sqs_server"], text=True).strip()
    it = Checks()
    with tempfile.TemporaryDirectory(prefix="refused-") as room:
        library = f"{room}/refuse.so"
        subprocess.run(["cc", "-O1", "-shared", "-fPIC", "-o", library, f"{ROOT}/tools/refuse_allocation.c"], check=True)
        refused(it, os.path.abspath(program), library, room, is_quick)
    print(f"{it.passed} passed, {it.failed} failed")
    return 1 if it.failed else 0


if __name__ == "__main__":
    sys.exit(main(sys.argv[1:]))
