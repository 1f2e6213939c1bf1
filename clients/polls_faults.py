"""Clients of one queue that are cut, leave, forget what they received and are refused: a part of clients/polls.py."""
import collections
import itertools
import random
import time
from concurrent.futures import ThreadPoolExecutor
from typing import NamedTuple

from polls_client import Client, check_empty, fail, few, pause

# All times are in seconds. How many clients there are, the messages of all, and how long one that was received is in flight.
WORKERS, MESSAGES, TIMEOUT = 8, few(10_000), 1
# So much earlier a message may come back: the server's moments are whole milliseconds, and a receive that waited has the moment of what ended its wait, which
# was taken before.
EARLY = 0.01
# Where all was sent and none has come for so long, none is left. Before, the rest counts as lost after so long without any.
OVER, QUIET = 5, 60
# How many of the steps of a client that has still to send are faults, and of the others sends; how many of the messages it receives it does not delete.
FAULTY, SENDING, FORGOTTEN = 0.04, 0.8, 0.05
# One that is misspelled, and one that no queue gave.
BAD_HANDLES = ("no handle", "0" * 48)
REFUSAL = "com.amazonaws.sqs#ReceiptHandleIsInvalid"


class Receipt(NamedTuple):
    """That a message was received: how often it had been by then, as the server says, its body, when it was asked for, and when the answer had been read."""

    count: int
    body: str
    asked: float
    answered: float


class Book:
    """What all clients have sent, received and deleted, by the ids of the messages, and the faults that they made, by their names."""

    def __init__(self):
        self.sent, self.receipts, self.deleted, self.gone = {}, collections.defaultdict(list), set(), {}
        self.faults, self.last = [], time.monotonic()

    def take(self, messages, asked, answered):
        """Adds messages that were received."""
        for it in messages:
            self.receipts[it["MessageId"]].append(Receipt(int(it["Attributes"]["ApproximateReceiveCount"]), it["Body"], asked, answered))
        if messages:
            self.last = answered

    def drop(self, messages, asked, answered):
        """Adds messages that were deleted. They are gone for sure where their timeout cannot have ended before: else the handle may have been an older one."""
        for it in messages:
            self.deleted.add(it["MessageId"])
            if answered < asked + TIMEOUT - EARLY:
                self.gone.setdefault(it["MessageId"], answered)

    def is_over(self):
        """Tells whether all were sent and none is left, or none has come for so long that no more will."""
        return time.monotonic() > self.last + (OVER if len(self.sent) >= MESSAGES else QUIET)

    def pairs(self):
        """Returns each receipt of a message with the next one of the same message."""
        return [pair for found in self.receipts.values() for pair in itertools.pairwise(sorted(found))]

    def fault(self):
        """Returns in words what is wrong where a message was lost, shared, came back behind its deletion, or was never sent."""
        if len(self.sent) != MESSAGES:
            return f"{MESSAGES} sends gave {len(self.sent)} ids"
        lost, strange = self.sent.keys() - self.receipts.keys(), self.receipts.keys() - self.sent.keys()
        if lost or strange:
            return f"{len(lost)} messages were not received, and {len(strange)} that were not sent"
        if kept := self.sent.keys() - self.deleted:
            return f"{len(kept)} messages were not deleted"
        if other := sum(any(it.body != body for it in self.receipts[identity]) for identity, body in self.sent.items()):
            return f"{other} messages came with another body"
        if shared := sum(apart(pair) < TIMEOUT - EARLY for pair in self.pairs()):
            return f"{shared} times a message was received again within its timeout"
        if back := sum(it.asked > gone for identity, gone in self.gone.items() for it in self.receipts[identity]):
            return f"{back} times a message was received that had been deleted before"
        return None

    def told(self):
        """Returns in words what was seen."""
        found, faults = list(map(apart, self.pairs())), collections.Counter(self.faults)
        times = f", the least {1000 * min(found):.0f} ms apart" if found else ""
        return f"{len(found)} times one was received again{times}; {', '.join(f'{count} {it}' for it, count in sorted(faults.items()))}"


def apart(pair):
    """Returns how far apart two receipts of a message are at most, divided by how often it was received from the one to the other. Where the server takes both
    for the same they are not apart."""
    first, second = pair
    return (second.answered - first.asked) / (second.count - first.count) if second.count > first.count else 0


def is_cut(client, url, book):
    """Sends a message, and leaves in the middle of its body."""
    client.cut("SendMessage", QueueUrl=url, MessageBody=f"cut {random.random()}")
    book.faults.append("sends were cut")


def does_not_read(client, url, book):
    """Receives messages, and leaves without reading which."""
    client.ask("ReceiveMessage", QueueUrl=url, MaxNumberOfMessages=10, WaitTimeSeconds=random.choice((0, 1)))
    pause()
    client.leave()
    book.faults.append("receives were not read")


def is_refused(client, url, book):
    """Deletes by a bad handle."""
    client.ask("DeleteMessage", QueueUrl=url, ReceiptHandle=random.choice(BAD_HANDLES))
    status, text = client.reply()
    if status != 400 or REFUSAL not in text:
        fail(f"a delete by a bad handle: {status} {text}")
    book.faults.append("deletes were refused")


FAULTS = (is_cut, does_not_read, is_refused)


def receives(client, url, book, wait):
    """Receives messages, and deletes them but for some that it forgets."""
    asked = time.monotonic()
    found = client.receive(url, MaxNumberOfMessages=random.randint(1, 10), WaitTimeSeconds=wait, AttributeNames=["ApproximateReceiveCount"])
    book.take(found, asked, client.answered)
    kept = [it for it in found if random.random() >= FORGOTTEN]
    book.faults += ["messages were forgotten"] * (len(found) - len(kept))
    if kept:
        client.delete(url, [it["ReceiptHandle"] for it in kept])
        book.drop(kept, asked, client.answered)


def works(url, book, bodies):
    """Sends these bodies, with faults in between, and receives and deletes what all clients send, until all is over."""
    waits = itertools.cycle((0, 1))
    with Client() as client:
        while bodies or not book.is_over():
            if bodies and random.random() < FAULTY:
                random.choice(FAULTS)(client, url, book)
            elif bodies and random.random() < SENDING:
                body = bodies.pop()
                book.sent[client.send(url, body)] = body
            else:
                receives(client, url, book, next(waits))


def faulty_work():
    """Clients that make faults, on one queue: no message is lost or shared, and none comes that was not sent."""
    what, book, start = f"{WORKERS} clients on one queue send {MESSAGES} messages and make faults", Book(), time.monotonic()
    with Client() as client:
        url = client.make("polls-faults", VisibilityTimeout=str(TIMEOUT))
    bodies = [f"message {it}" for it in range(MESSAGES)]
    with ThreadPoolExecutor(WORKERS) as pool:
        for it in [pool.submit(works, url, book, bodies[it::WORKERS]) for it in range(WORKERS)]:
            it.result()
    taken, fault = time.monotonic() - start, book.fault()
    if fault:
        fail(f"{what}: {fault}; {book.told()}")
    check_empty(url, what)
    print(f"{what}: each was received and deleted, after {taken:.1f} s; {book.told()}", flush=True)
    with Client() as client:
        client.drop(url)
