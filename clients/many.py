#!/usr/bin/env python3
"""Times a server that has 1,000 queues: how long it takes to find one, to list all, and to send while another client lists.

Usage: many.py [PORT], by default 9324, with the server started before, as clients/run.sh does. Each request is one of its own over a
connection that is kept open, and is answered before the next. It makes the queues that are missing, up to the limit of 1,000 with the
configured ones, and prints milliseconds: the middle, and the largest of the best 99 in a hundred.
"""

import http.client
import statistics
import sys
import threading
import time

PORT = int(sys.argv[1]) if len(sys.argv) > 1 else 9324
QUEUES = 1_000
REQUESTS = 2_000
PREFIX = "many"


class Client:
    """A connection to the server that is kept open."""

    def __init__(self):
        self.connection = http.client.HTTPConnection("127.0.0.1", PORT)

    def call(self, action, body):
        """Asks one action, and returns the status and the bytes of the reply."""
        self.connection.request("POST", "/", body, {"X-Amz-Target": f"AmazonSQS.{action}"})
        reply = self.connection.getresponse()
        return reply.status, reply.read()

    def timed(self, action, body, times):
        """Asks one action many times, and returns what each took, in milliseconds. A reply that is no success ends the program."""
        taken = []
        for _ in range(times):
            start = time.perf_counter()
            status, said = self.call(action, body)
            taken.append(1000 * (time.perf_counter() - start))
            if status != 200:
                raise SystemExit(f"many.py: {action}: {status} {said.decode()}")
        return taken


def told(name, taken):
    """Prints the middle and the largest of the best 99 in a hundred."""
    best = sorted(taken)[: max(1, len(taken) * 99 // 100)]
    print(f"{name}: {statistics.median(taken):.2f} ms, {best[-1]:.2f} ms")


def lists_until(done):
    """Lists all queues again and again, and tells how often in the end."""
    client, count = Client(), 0
    while not done.is_set():
        client.timed("ListQueues", "{}", 1)
        count += 1
    print(f"meanwhile all queues were listed {count} times")


def main():
    client = Client()
    # The last is made first, so that none of the orders is the one of their names.
    start = time.perf_counter()
    for number in reversed(range(QUEUES)):
        status, said = client.call("CreateQueue", f'{{"QueueName":"{PREFIX}-{number:04}"}}')
        if status != 200 and b"OverLimit" not in said:
            raise SystemExit(f"many.py: CreateQueue: {status} {said.decode()}")
    print(f"{QUEUES} queues: the last of them after {time.perf_counter() - start:.1f} s")
    last = f"{PREFIX}-0500"
    told("a queue is found by its name", client.timed("GetQueueUrl", f'{{"QueueName":"{last}"}}', REQUESTS))
    told("all queues are listed", client.timed("ListQueues", "{}", REQUESTS // 20))
    client.timed("PurgeQueue", f'{{"QueueUrl":"{last}"}}', 1)
    send = f'{{"QueueUrl":"{last}","MessageBody":"a"}}'
    told("a send", client.timed("SendMessage", send, REQUESTS // 4))
    done = threading.Event()
    lister = threading.Thread(target=lists_until, args=(done,))
    lister.start()
    told("a send while another client lists in a loop", client.timed("SendMessage", send, REQUESTS // 4))
    done.set()
    lister.join()


if __name__ == "__main__":
    main()
