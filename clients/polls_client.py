"""What the parts of clients/polls.py share: clients of a server that was started before, how long a part waits for what, and limits of delays."""
import contextlib
import http.client
import json
import os
import random
import statistics
import sys
import time
from typing import NamedTuple

from rate_servers import unread

PORT = int(sys.argv[1]) if len(sys.argv) > 1 else 9324
# All times are in seconds. The longest pause between a receive that waits and its send.
PAUSE = 0.003
# A receive that was read counts as parked behind so many round trips, and not before the first of these times nor behind the second. A tick of the server's
# clock comes every 0.1: had each round one before its send, what it puts right would not show.
TRIPS, SETTLES = 20, (0.01, 0.05)
# How long the server may take to read what was sent to it.
READ = 15
HEADERS = {"Content-Type": "application/x-amz-json-1.0"}


def few(count):
    """Returns how often something is done: so many times, or by POLLS_SHARE=N in the environment an Nth of them, and twice at the least."""
    return max(2, count // int(os.environ.get("POLLS_SHARE", "1")))


def fail(text):
    """Ends the part, or the thread that then has the part end."""
    sys.exit(f"polls.py: {text}")


class Client:
    """A connection to the server that is kept open, and when its last answer had been read."""

    def __init__(self):
        self.connection, self.answered = http.client.HTTPConnection("127.0.0.1", PORT, timeout=60), None

    def __enter__(self):
        return self

    def __exit__(self, *_):
        self.leave()

    def leave(self):
        """Closes the connection, whether an answer is due or not. The next request opens another."""
        self.connection.close()

    def ask(self, action, **members):
        """Sends a request, and waits for nothing."""
        self.action = action
        self.connection.request("POST", "/", json.dumps(members).encode(), {**HEADERS, "X-Amz-Target": f"AmazonSQS.{action}"})

    def cut(self, action, **members):
        """Sends a request, and leaves in the middle of its body."""
        body = json.dumps(members).encode()
        headers = {**HEADERS, "X-Amz-Target": f"AmazonSQS.{action}", "Content-Length": str(len(body))}
        self.connection.request("POST", "/", body[: len(body) // 2], headers)
        pause()
        self.leave()

    def reply(self):
        """Waits for the answer to the request that was sent, and returns its status and its text."""
        reply = self.connection.getresponse()
        text = reply.read().decode()
        self.answered = time.monotonic()
        return reply.status, text

    def answer(self):
        """Waits for the answer to the request that was sent, and returns its members. One that is no success ends the part."""
        status, text = self.reply()
        if status != 200:
            fail(f"{self.action}: {status} {text}")
        return json.loads(text or "{}")

    def call(self, action, **members):
        """Asks for an action, and returns the members of its answer."""
        self.ask(action, **members)
        return self.answer()

    def make(self, name, **attributes):
        """Makes a queue whose name begins so, and returns its URL."""
        return self.call("CreateQueue", QueueName=f"{name}-{random.randrange(16**8):08x}", Attributes=attributes)["QueueUrl"]

    def send(self, url, body):
        """Sends a message, and returns its id."""
        return self.call("SendMessage", QueueUrl=url, MessageBody=body)["MessageId"]

    def receive(self, url, **members):
        """Returns the messages that a receive offers."""
        return self.call("ReceiveMessage", QueueUrl=url, **members).get("Messages", [])

    def delete(self, url, handles):
        """Deletes one message by itself, and several in a batch."""
        if len(handles) == 1:
            self.call("DeleteMessage", QueueUrl=url, ReceiptHandle=handles[0])
            return
        failed = self.call("DeleteMessageBatch", QueueUrl=url, Entries=[{"Id": str(at), "ReceiptHandle": it} for at, it in enumerate(handles)])["Failed"]
        if failed:
            fail(f"DeleteMessageBatch: failed {failed}")

    def drop(self, *urls):
        """Deletes queues."""
        for it in urls:
            self.call("DeleteQueue", QueueUrl=it)


def clients(count):
    """Returns so many clients, and what closes them all."""
    stack = contextlib.ExitStack()
    return stack, [stack.enter_context(Client()) for _ in range(count)]


def pause():
    """Waits not at all, or some part of the longest pause."""
    time.sleep(random.choice((0, random.uniform(0, PAUSE))))


def is_read():
    """Waits until the server has read all that was sent to it. Tells whether it has."""
    end = time.monotonic() + READ
    while unread(PORT):
        if time.monotonic() > end:
            return False
        time.sleep(0.001)
    return True


def is_taken(client, url):
    """Waits until the server has read all that was sent to it and the queue has come to it. Tells whether it has."""
    if not is_read():
        return False
    time.sleep(0.05)
    # this is answered behind all that was mailed to the queue before
    client.call("GetQueueAttributes", QueueUrl=url)
    return True


def settle(client, url):
    """Waits until the server has read all that was sent to it, and then for long against a round trip: so a receive is parked, and whoever serves the queue is
    idle. The round trip does not come to the queue itself, which could notice there what waits."""
    if not is_read():
        fail(f"the server did not read what was sent to it within {READ} s")
    start = time.monotonic()
    client.call("GetQueueUrl", QueueName=url.rsplit("/", 1)[1])
    time.sleep(min(max(TRIPS * (client.answered - start), SETTLES[0]), SETTLES[1]))


def handle_of(messages, identity, body, what):
    """Returns the receipt handle of the one message that was to come. Any others end the part."""
    found = [(it["MessageId"], it["Body"]) for it in messages]
    if found != [(identity, body)]:
        fail(f"{what}: received {found}, and not the message {identity} with the body {body!r} alone")
    return messages[0]["ReceiptHandle"]


def check_empty(url, what):
    """Ends the part where a queue has messages."""
    names = ["ApproximateNumberOfMessages", "ApproximateNumberOfMessagesDelayed", "ApproximateNumberOfMessagesNotVisible"]
    with Client() as client:
        found = client.call("GetQueueAttributes", QueueUrl=url, AttributeNames=names)["Attributes"]
    if found != dict.fromkeys(names, "0"):
        fail(f"{what}: in the end the queue has {found}")


class Limit(NamedTuple):
    """How long delays may be: each; all but so many; the middle one."""

    each: float
    most: float = 0
    but: int = 0
    middle: float = 0

    def fault(self, delays):
        """Returns in words which limit the delays are beyond."""
        late, half = sum(it > self.most for it in delays), statistics.median(delays)
        if max(delays) > self.each:
            return f"{1000 * self.each:.0f} ms are allowed"
        if self.most and late > self.but:
            return f"{self.but} may be beyond {1000 * self.most:.0f} ms"
        if self.middle and half > self.middle:
            return f"the middle may be {1000 * self.middle:.0f} ms"
        return None


def tell(what, delays, limit):
    """Prints the slowest delay and the middle one. Those beyond a limit end the part."""
    line = f"{what}: the slowest {1000 * max(delays):.1f} ms, the middle {1000 * statistics.median(delays):.1f} ms"
    if limit.most:
        line += f", {sum(it > limit.most for it in delays)} beyond {1000 * limit.most:.0f} ms"
    print(line, flush=True)
    fault = limit.fault(delays)
    if fault:
        fail(f"{line}; {fault}")
