#!/usr/bin/env python3
"""Shows what senders are told whose queue is deleted and made anew beside them. Ends with one line 'N passed, M failed'.

usage: clients/ended.py [PROGRAM]     by default the one that `make run` starts

In each round connections that stay open send to a queue, some before and some behind a DeleteQueue of another, with a receive that waits and a CreateQueue of the
name beside. A request that found the queue before its actor ended, and came to it behind that, is answered 500 ActorGone. Others are done, or told
QueueDoesNotExist; nothing else will do. A CreateQueue is never told of it. Then the queue is made anew and sent to, and has just what was told as sent to it.
Rounds go on until ActorGone came often enough. Where it has not come once after a minute, that is a failed check.
"""
import collections
import contextlib
import http.client
import json
import os
import random
import subprocess
import sys
import tempfile
import time

sys.dont_write_bytecode = True
from hostile import ABSENT, LIMIT, ROOT, Checks, Server

GONE = '{"__type":"com.amazonaws.sqs#ActorGone","message":"The queue has stopped."}'
SENDERS = 8
# How often ActorGone is to come, how many rounds there are at the least, and after how many seconds there is none more.
OFTEN, ROUNDS, LONG = 50, 50, 60
# In how many seconds all are answered. A thread whose queue is deleted waits 10 s for those who still have its desk: nobody is to wait for that.
SOON = 8
DONE = "done"


class Line:
    """A connection that stays open."""

    def __init__(self, port):
        self.line = http.client.HTTPConnection("127.0.0.1", port, timeout=LIMIT)
        self.line.connect()
        self.first = self.line.sock

    def ask(self, action, **members):
        """Sends a request, and waits for nothing."""
        self.line.request("POST", "/", json.dumps(members).encode(), {"X-Amz-Target": f"AmazonSQS.{action}"})

    def reply(self):
        """Returns the status and the text of the answer."""
        answer = self.line.getresponse()
        return answer.status, answer.read().decode()

    def call(self, action, **members):
        """Sends a request, and returns the status and the text of its answer."""
        self.ask(action, **members)
        return self.reply()


def told(answer):
    """Returns what an answer says, in a word where it is one of those that are wanted."""
    return {(400, ABSENT): "QueueDoesNotExist", (500, GONE): "ActorGone"}.get(answer, DONE if answer[0] == 200 else answer)


def identity(answer):
    """Returns the identity of the message that was sent, or None."""
    return json.loads(answer[1])["MessageId"] if answer[0] == 200 else None


def uid(message):
    """Returns the number of the queue that a message was sent to, as its identity has it."""
    return message[:18]


def received(line):
    """Returns the identities of all messages that are in the queue."""
    found = []
    while messages := json.loads(line.call("ReceiveMessage", QueueUrl="jobs", MaxNumberOfMessages=10)[1]).get("Messages"):
        found += [it["MessageId"] for it in messages]
    return sorted(found)


def beside(lines, deleter, waiter, creator):
    """Has requests go beside a deletion. Returns what the senders, the deleter, the waiter and the creator were answered, and how long that took."""
    before, begun = random.randrange(len(lines)), time.monotonic()
    waiter.ask("ReceiveMessage", QueueUrl="jobs", WaitTimeSeconds=20, VisibilityTimeout=0)
    for it in lines[:before]:
        it.ask("SendMessage", QueueUrl="jobs", MessageBody="a")
    deleter.ask("DeleteQueue", QueueUrl="jobs")
    for it in lines[before:]:
        it.ask("SendMessage", QueueUrl="jobs", MessageBody="a")
    creator.ask("CreateQueue", QueueName="jobs")
    sent, deleted, made = [it.reply() for it in lines], deleter.reply(), creator.reply()
    # where the receive waits at the queue that was made anew, this ends its wait
    deleter.call("CreateQueue", QueueName="jobs")
    last = deleter.call("SendMessage", QueueUrl="jobs", MessageBody="a")
    return [*sent, last], deleted, waiter.reply(), made, time.monotonic() - begun


def round_of(it, lines, others, faults):
    """Has one round, whose answers are counted."""
    deleter = others[0]
    begun = deleter.call("CreateQueue", QueueName="jobs")
    sent, deleted, waited, made, took = beside(lines, *others)
    faults.update([*map(told, sent), told(waited)])
    it.equal("the creations, the deletion, and a send to the queue that is made anew", [*map(told, (begun, deleted, made, sent[-1]))], [DONE] * 4)
    it.equal(f"whether all are answered within {SOON} s", took < SOON, True)
    if identity(sent[-1]):
        own = [one for one in map(identity, sent) if one and uid(one) == uid(identity(sent[-1]))]
        it.equal("what the queue has that was made anew", received(deleter), sorted(own))
    it.equal("its deletion", deleter.call("DeleteQueue", QueueUrl="jobs"), (200, "{}"))


def ended(it, program, room):
    """Has rounds until ActorGone has come often enough."""
    faults, begun, rounds = collections.Counter(), time.monotonic(), 0
    with Server(program, room) as server, contextlib.ExitStack() as stack:
        lines = [Line(server.port) for _ in range(SENDERS)]
        others = [Line(server.port) for _ in range(3)]
        for one in [*lines, *others]:
            stack.callback(one.line.close)
        while (rounds < ROUNDS or faults["ActorGone"] < OFTEN) and not it.failed and time.monotonic() - begun < LONG:
            round_of(it, lines, others, faults)
            rounds += 1
        it.equal("connections that are closed", [one for one in [*lines, *others] if one.line.sock is not one.first], [])
        it.equal("whether ActorGone came", faults["ActorGone"] > 0, True)
        it.equal("answers of another kind", {*faults} - {DONE, "QueueDoesNotExist", "ActorGone"}, set())
        it.equal("whether the server goes on", (server.process.poll(), server.ask("ListQueues")), (None, (200, '{"QueueUrls":[]}')))
    print(f"{rounds} rounds in {time.monotonic() - begun:.0f} s: {faults[DONE]} done, {faults['QueueDoesNotExist']} QueueDoesNotExist, {faults['ActorGone']} ActorGone")


def main(words):
    """Does it, and returns the status."""
    if len(words) > 1:
        print(__doc__, file=sys.stderr)
        return 2
    program = words[0] if words else subprocess.check_output([f"{ROOT}/tools/run", "--which", "sqs_server"], text=True).strip()
    it = Checks()
    with tempfile.TemporaryDirectory(prefix="ended-") as room:
        ended(it, os.path.abspath(program), room)
    print(f"{it.passed} passed, {it.failed} failed")
    return 1 if it.failed else 0


if __name__ == "__main__":
    sys.exit(main(sys.argv[1:]))
