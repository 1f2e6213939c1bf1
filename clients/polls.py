#!/usr/bin/env python3
"""Shows that a send ends a receive that waits, that dead letters move on, and that clients beside one another neither lose messages nor share one.

Usage: polls.py [PORT], by default 9324, with the server started before, as clients/run.sh does. It makes queues of its own, under names that end by chance,
and deletes them where their part is done. Each part says in a line what it saw. Where one does not hold, it says why and leaves its queues to be looked at,
the others are done all the same, and the program ends with status 1. A delay begins when the answer to what was asked just before has been read, as that to
the send, and ends when that to the receive has. The environment can name the parts that are wanted, as POLLS_ONLY=one_waits,letter_moves does, and with
POLLS_SHARE=N each is done an Nth as often.
"""
import collections
import http.client
import itertools
import json
import os
import random
import resource
import select
import statistics
import sys
import time
from concurrent.futures import ThreadPoolExecutor

sys.dont_write_bytecode = True
from polls_client import READ, Client, Limit, check_empty, clients, fail, few, handle_of, is_taken, pause, settle, tell
from polls_faults import faulty_work

# All times are in seconds. How much later than its send a receive that waits is answered. Ten ticks a second end waits, too: where no send did, half of the
# rounds would be beyond 0.05. A busy machine may hold up three rounds of the 500 of a kind.
WOKEN = Limit(each=0.1, most=0.05, but=3, middle=0.03)
# How much later than the last of many sends the last of as many receives is answered.
CROWD_WOKEN = Limit(each=0.1)
# How much later than the receive by which it left its queue a dead letter is received. By the ticks alone the middle one would be some 0.05.
MOVED = Limit(each=0.3, middle=0.03)
# Where a client left while it waited, another receives the message at most so long behind its send: one that went to the first comes back after 1.
RETURNED = Limit(each=2.5)
# The same for a client whose leaving is not seen, and for how long a message that it took is in flight.
UNSEEN_RETURNED, UNSEEN_TIMEOUT = Limit(each=2.5), 2
# How often each part is done.
ROUNDS, CROWD_ROUNDS, LETTERS, LEAVERS, UNSEEN = few(1_000), few(20), few(100), few(100), few(10)
CROWD = 50
# The eight clients: all messages, with how many that it did not delete a client receives no more, and after how long without any the rest counts as lost.
WORKERS, MESSAGES, HELD, QUIET = 8, few(10_000), 20, 60
# A client that sends does it more often than it receives: else all of them would soon wait for one another.
STEPS = ("send",) * 8 + ("receive", "delete")
# The last part: how often the kinds take turns, how many sends are timed in each turn, how many receives wait, and how many times as long the middle one of
# all sends may take. Where other programs keep the processors busy, sends to the queue at which receives wait take twice as long for some seconds at times. So
# it is too long where each of so many attempts says so.
TURNS, SENDS, WAITING, FACTOR, ATTEMPTS = few(10), 20, 1_000, 2, 3


def one_waits():
    """A send ends a receive on another connection, which in every other round is parked before for sure. Else it has just been sent, is parked at that moment,
    or was before."""
    delays = {True: [], False: []}
    with Client() as sender, Client() as receiver:
        url = sender.make("polls-one")
        for number in range(ROUNDS):
            is_parked = number % 2 == 0
            receiver.ask("ReceiveMessage", QueueUrl=url, WaitTimeSeconds=5)
            settle(sender, url) if is_parked else pause()
            identity = sender.send(url, str(number))
            messages = receiver.answer().get("Messages", [])
            delays[is_parked].append(receiver.answered - sender.answered)
            receiver.delete(url, [handle_of(messages, identity, str(number), f"a send ends a receive that waits, round {number}")])
        tell(f"a send ends a receive that is parked, {len(delays[True])} times", delays[True], WOKEN)
        tell(f"a send ends a receive that comes to be parked, {len(delays[False])} times", delays[False], WOKEN)
        sender.drop(url)


def crowd_waits():
    """Receives that wait on many connections get one message each where as many are sent. In every other round all wait before the first send."""
    what, delays = f"{CROWD} sends end {CROWD} receives that wait, {CROWD_ROUNDS} times", []
    stack, crowd = clients(CROWD)
    with stack, Client() as sender, ThreadPoolExecutor(CROWD) as pool:
        url = sender.make("polls-crowd")
        for number in range(CROWD_ROUNDS):
            for it in crowd:
                it.ask("ReceiveMessage", QueueUrl=url, WaitTimeSeconds=5)
            answers = [pool.submit(it.answer) for it in crowd]
            if number % 2:
                pause()
            elif not is_taken(sender, url):
                fail(f"{what}: the server did not read the receives within {READ} s")
            bodies = [f"{number} {it}" for it in range(CROWD)]
            sent = sorted((sender.send(url, it), it) for it in bodies)
            last = sender.answered
            found = [it.result().get("Messages", []) for it in answers]
            counts = collections.Counter(len(it) for it in found)
            if counts != {1: CROWD}:
                fail(f"{what}, round {number}: {CROWD - counts[1]} receives did not get one message: {dict(counts)} by how many messages came")
            messages = [it[0] for it in found]
            if sorted((it["MessageId"], it["Body"]) for it in messages) != sent:
                fail(f"{what}, round {number}: the messages that were received are not those that were sent")
            delays.append(max(it.answered for it in crowd) - last)
            for it, message in zip(crowd, messages, strict=True):
                it.delete(url, [message["ReceiptHandle"]])
        tell(what, delays, CROWD_WOKEN)
        sender.drop(url)


def with_letters(client):
    """Makes a queue whose messages leave behind their first receive, and the one for its dead letters. Returns the URLs of both."""
    dead = client.make("polls-dead")
    policy = {"deadLetterTargetArn": f"arn:aws:sqs:elasticmq:000000000000:{dead.rsplit('/', 1)[1]}", "maxReceiveCount": 1}
    return client.make("polls-jobs", RedrivePolicy=json.dumps(policy)), dead


def leave(client, jobs, text, what):
    """Sends a message, and has it leave by a receive that is answered at once, for which the queue's actor was idle. Returns its id."""
    identity = client.send(jobs, text)
    handle_of(client.receive(jobs, VisibilityTimeout=0), identity, text, f"{what}, at first")
    settle(client, jobs)
    again = client.receive(jobs)
    if again:
        fail(f"{what}: received {again}, where the message was to leave")
    return identity


def letters_move(name, is_parked):
    """Has dead letters move to a client whose receive waits for them, or to one that asks again and again and does not wait."""
    what, delays = f"a dead letter moves behind a receive that does not wait, to {name}, {LETTERS} times", []
    with Client() as client, Client() as reader:
        jobs, dead = with_letters(client)
        for number in range(LETTERS):
            text = str(number)
            if is_parked:
                reader.ask("ReceiveMessage", QueueUrl=dead, WaitTimeSeconds=5)
            identity = leave(client, jobs, text, f"{what}, round {number}")
            messages = reader.answer().get("Messages", []) if is_parked else asked_again(reader, dead, client.answered + 5)
            delays.append(reader.answered - client.answered)
            reader.delete(dead, [handle_of(messages, identity, text, f"{what}, round {number}, as a dead letter")])
        tell(what, delays, MOVED)
        client.drop(jobs, dead)


def asked_again(client, url, end):
    """Receives without a wait until a message comes or the time is over, and returns what came."""
    while True:
        messages = client.receive(url, WaitTimeSeconds=0)
        if messages or client.answered > end:
            return messages


def letter_moves():
    """A dead letter moves on behind the receive by which it leaves its queue, though that does not wait."""
    letters_move("one that waits", True)
    letters_move("one that asks again and again", False)
class Ledger:
    """What clients have sent and received, all together."""

    def __init__(self):
        self.sent, self.received, self.last = [], [], time.monotonic()

    def take(self, messages):
        """Adds messages that were received: each by its id, its body and how often it was received, as the server says."""
        self.received += [(it["MessageId"], it["Body"], it["Attributes"]["ApproximateReceiveCount"]) for it in messages]
        if messages:
            self.last = time.monotonic()

    def is_over(self):
        """Tells whether as many were received as are sent in all, or none for so long that no more will come."""
        return len(self.received) >= MESSAGES or time.monotonic() > self.last + QUIET

    def fault(self):
        """Returns in words what is wrong where not each message was received once, as it was sent."""
        sent, received = dict(self.sent), collections.Counter(identity for identity, _, _ in self.received)
        if len(sent) != MESSAGES:
            return f"{MESSAGES} sends gave {len(sent)} ids"
        lost, strange, twice = len(sent.keys() - received.keys()), len(received.keys() - sent.keys()), sum(it > 1 for it in received.values())
        if lost or strange or twice:
            return f"{lost} messages were not received, {twice} more than once, and {strange} that were not sent"
        other, again = sum(sent[it] != body for it, body, _ in self.received), sum(count != "1" for _, _, count in self.received)
        if other or again:
            return f"{other} messages came with another body, and {again} by a receive that was not their first"
        return None


def works(url, ledger, bodies):
    """Sends these bodies, and receives and deletes what all clients send, in no order, until all was received."""
    held, waits = [], itertools.cycle((0, 1))
    with Client() as client:
        while bodies or held or not ledger.is_over():
            step = random.choice(STEPS)
            if step == "send" and bodies:
                body = bodies.pop()
                ledger.sent.append((client.send(url, body), body))
            elif step == "receive" and len(held) < HELD and not ledger.is_over():
                count, wait = random.randint(1, 10), next(waits)
                found = client.receive(url, MaxNumberOfMessages=count, WaitTimeSeconds=wait, AttributeNames=["ApproximateReceiveCount"])
                ledger.take(found)
                held += [it["ReceiptHandle"] for it in found]
            elif step == "delete" and held:
                random.shuffle(held)
                client.delete(url, [held.pop() for _ in range(random.randint(1, min(10, len(held))))])


def leaves(url, what):
    """A client sends a receive that waits, and is gone; a message that is sent then comes to another client. Returns the delays."""
    delays = []
    with Client() as sender, Client() as receiver:
        for number in range(LEAVERS):
            with Client() as leaver:
                leaver.ask("ReceiveMessage", QueueUrl=url, WaitTimeSeconds=5)
            pause()
            identity = sender.send(url, str(number))
            messages = receiver.receive(url, WaitTimeSeconds=5)
            delays.append(receiver.answered - sender.answered)
            receiver.delete(url, [handle_of(messages, identity, str(number), f"{what}, round {number}")])
    return delays


def many_work():
    """Clients that send, receive and delete on one queue, each message in flight once at most; beside them clients leave another queue while they wait."""
    what = f"{WORKERS} clients on one queue, of which {WORKERS // 2} send {MESSAGES} messages"
    beside, ledger, start = f"a client leaves while it waits, {LEAVERS} times", Ledger(), time.monotonic()
    with Client() as client:
        url, left = client.make("polls-many", VisibilityTimeout="30"), client.make("polls-left", VisibilityTimeout="1")
    bodies = [f"message {it}" for it in range(MESSAGES)]
    shares = [bodies[it :: WORKERS // 2] for it in range(WORKERS // 2)] + [[] for _ in range(WORKERS - WORKERS // 2)]
    with ThreadPoolExecutor(WORKERS + 1) as pool:
        leaving = pool.submit(leaves, left, beside)
        for it in [pool.submit(works, url, ledger, share) for share in shares]:
            it.result()
        taken = time.monotonic() - start
        delays = leaving.result()
    fault = ledger.fault()
    if fault:
        fail(f"{what}: {fault}")
    check_empty(url, what)
    print(f"{what}: each was received once, and none is left, after {taken:.1f} s", flush=True)
    tell(f"{beside}, and another gets the message", delays, RETURNED)
    print(f"  {sum(it > 0.9 for it in delays)} of these messages went to the one that had left, and came back", flush=True)
    check_empty(left, beside)
    with Client() as client:
        client.drop(url, left)


def unseen_leaves():
    """A client leaves while it waits, and has sent a byte more, so that its leaving need not be seen: the next message comes to another client, at the latest
    behind its timeout."""
    what, delays = f"a client leaves behind one byte more, {UNSEEN} times, and another gets the message", []
    with Client() as sender, Client() as receiver:
        url = sender.make("polls-unseen", VisibilityTimeout=str(UNSEEN_TIMEOUT))
        for number in range(UNSEEN):
            with Client() as leaver:
                leaver.ask("ReceiveMessage", QueueUrl=url, WaitTimeSeconds=5)
                leaver.connection.sock.sendall(b"~")
            settle(sender, url)
            identity = sender.send(url, str(number))
            messages = receiver.receive(url, WaitTimeSeconds=10)
            delays.append(receiver.answered - sender.answered)
            receiver.delete(url, [handle_of(messages, identity, str(number), f"{what}, round {number}")])
        tell(what, delays, UNSEEN_RETURNED)
        print(f"  {sum(it > UNSEEN_TIMEOUT - 0.1 for it in delays)} of these messages went to the one that had left, and came back", flush=True)
        sender.drop(url)


def times_of_sends(client, url):
    """Returns how many milliseconds each of some sends takes."""
    taken = []
    for number in range(SENDS):
        start = time.monotonic()
        client.send(url, str(number))
        taken.append(1000 * (client.answered - start))
    return taken


def files_allowed(wanted):
    """Lets this program open so many files, and tells whether the system allows it."""
    soft, hard = resource.getrlimit(resource.RLIMIT_NOFILE)
    if soft != resource.RLIM_INFINITY and soft < wanted:
        soft = wanted if hard == resource.RLIM_INFINITY else min(wanted, hard)
        resource.setrlimit(resource.RLIMIT_NOFILE, (soft, hard))
    return soft == resource.RLIM_INFINITY or soft >= wanted


def answers_come(waiting, quiet):
    """Returns how many messages came to each of the clients that wait and have an answer, once none has come for a time."""
    ready, by_number, found = select.poll(), {it.connection.sock.fileno(): it for it in waiting}, []
    for number in by_number:
        ready.register(number, select.POLLIN)
    while events := ready.poll(1000 * quiet):
        for number, _ in events:
            ready.unregister(number)
            found.append(len(by_number[number].answer().get("Messages", [])))
    return found


def beside_many(client, waited, other, what):
    """Times sends to a queue where none waits, then to the same while many receives wait at another, and then to that, where each send ends one wait."""
    stack, waiting = clients(WAITING)
    alone = times_of_sends(client, other)
    with stack:
        for it in waiting:
            it.ask("ReceiveMessage", QueueUrl=waited, WaitTimeSeconds=20)
        if not is_taken(client, waited):
            fail(f"{what}: not measured: the server did not read them within {READ} s: it is slow, or may not open so many files")
        beside = times_of_sends(client, other)
        early = answers_come(waiting, 0)
        same = times_of_sends(client, waited)
        found = answers_come(waiting, 1)
    if early:
        fail(f"{what}: not measured: {len(early)} of the receives were answered before a message was sent to them")
    if found != [1] * SENDS:
        fail(f"{what}: {len(found)} receives were answered, with {sum(found)} messages, where {SENDS} were to be with one each")
    # those that have left are gone before the next round
    is_taken(client, waited)
    return alone, beside, same


def longest_beside(client, waited, other, what):
    """Prints how long sends take, and returns how many times as long they take where many receives wait, at one queue or the other. The kinds take turns: so
    what slows the machine for a while slows all of them."""
    turns = [beside_many(client, waited, other, what) for _ in range(TURNS)]
    alone, beside, same = (statistics.median(itertools.chain(*it)) for it in zip(*turns))
    line = f"{what}: the middle {beside:.2f} ms where they wait at another queue, {same:.2f} ms at the same, and {alone:.2f} ms where none waits"
    print(f"{line}: {beside / alone:.2f} and {same / alone:.2f} times as long", flush=True)
    return max(beside, same) / alone


def sends_beside_many():
    """A send is answered as fast where many receives wait, at another queue or at the same, as where none does."""
    what = f"{SENDS * TURNS} sends beside {WAITING} receives that wait"
    if not files_allowed(WAITING + 100):
        fail(f"{what}: not measured: this program may not open so many files")
    with Client() as client:
        waited, other = client.make("polls-waited"), client.make("polls-other")
        if all(longest_beside(client, waited, other, what) > FACTOR for _ in range(ATTEMPTS)):
            fail(f"{what}: {FACTOR} times as long as where none waits is allowed, in one of {ATTEMPTS} attempts")
        client.drop(waited, other)


PARTS = (one_waits, crowd_waits, letter_moves, many_work, faulty_work, unseen_leaves, sends_beside_many)


def holds(part):
    """Does a part, and tells whether it holds. Of one that does not it says why."""
    try:
        part()
        return True
    except SystemExit as error:
        print(error.code, file=sys.stderr, flush=True)
    except (OSError, http.client.HTTPException) as error:
        print(f"polls.py: {part.__name__}: the server did not answer: {error!r}", file=sys.stderr, flush=True)
    return False


def main():
    names = os.environ.get("POLLS_ONLY", ",".join(it.__name__ for it in PARTS)).split(",")
    unknown = set(names) - {it.__name__ for it in PARTS}
    if unknown:
        fail(f"no parts of these names: {', '.join(sorted(unknown))}")
    failed = [it.__name__ for it in PARTS if it.__name__ in names and not holds(it)]
    if failed:
        fail(f"these parts do not hold: {', '.join(failed)}")
    print("the polls are done")


if __name__ == "__main__":
    main()
