#!/usr/bin/env python3
"""Measures what checkpoints cost the replay: memory behind many cycles of send, receive and delete, and the time of the calls that make one.

usage: clients/checkpoints.py [--most N] [PROGRAM]

The program is crates/sqs_replay/out/sqs_replay, as `make build` makes it, unless another is named. Behind 10^5 cycles and ten times as many up to N
(10^7; N alone where it is below 10^5) it notes the memory that is resident, for journals of at most 100,000 and of 1,000,000 entries, and behind as many
dead letters, up to 10^6, that were accepted and deleted. It counts what each journal weighs, so it knows which call makes a checkpoint, and times
those, each alone, from the line to its answer: while nothing, 1,000 and 100,000 messages wait, and in a queue that stays within ten of its limit. Of
the other calls it times as many as it writes at once: none of them takes longer. The status is 1 where a cycle takes more than 1.2 times the
processor time of one of the first 1,000, in the middle of 21 queues: on a busy machine that says nothing. Any other answer than the one that is
foreseen ends it. It prints what it finds, and writes it to docs/bench/checkpoints.md, or to out/bench/checkpoints.md where N or a program is named.
"""
import os
import signal
import subprocess
import sys
import tempfile
import time

sys.dont_write_bytecode = True
from bench import ROOT, created, delete, receive, send

sys.path.insert(0, f"{ROOT}/tools")
import crates

# How many cycles, and dead letters, are written at once, where no call is timed alone: no more than a pipe holds, of lines and of answers.
MANY, MANY_LETTERS = 60, 20
# The limits at which nothing waits; the limits, and how many messages wait there; the same of a queue that stays close to its limit, and for how many cycles.
LIMITS = (100_000, 1_000_000)
WAITING = ((1_000_000, 1000), (1_000_000, 100_000))
CLOSE = (100_000, 99_990, 300)
# How many cycles are the first ones, and in how many queues; how many times as much a later one may cost.
FIRST, QUEUES, SLOWER = 1000, 21, 1.2
# What stands before the deletion in a cycle.
BEFORE = send(1000) + receive(1000)
CALLS = f"checkpoints | the middle one | the longest | {3 * MANY} other calls at once, the longest"


class Queue:
    """A queue of a replay of its own, and what its journal weighs."""

    def __init__(self, program, most_lines):
        self.room = tempfile.TemporaryDirectory(prefix="checkpoints-")
        path = f"{self.room.name}/config.toml"
        with open(path, "w", encoding="utf-8") as it:
            it.write(f"[limits]\nmax_lines = {most_lines}\n")
        self.program = subprocess.Popen([program, path], stdin=subprocess.PIPE, stdout=subprocess.PIPE, bufsize=0)
        self.most_lines, self.weight, self.held, self.taken = most_lines, 1, 0, 0
        self.times, self.longest = [], 0.0
        self.ask(created())

    def ask(self, lines):
        """Writes lines, and reads as many answers, none of which may be a refusal. Returns the answers and how many seconds they took."""
        start = time.perf_counter()
        self.program.stdin.write(lines.encode())
        answers, wanted = b"\n", lines.count("\n")
        while answers.count(b"\n") <= wanted:
            more = os.read(self.program.stdout.fileno(), 1 << 16)
            if not more:
                sys.exit("checkpoints: the replay ended")
            answers += more
        spent = time.perf_counter() - start
        if answers.count(b"\n200 ") != wanted:
            sys.exit(f"checkpoints: refused: {answers}")
        return answers, spent

    def call(self, line, held):
        """Writes one line, which changes by so much how many messages are held, and may make a checkpoint."""
        _, spent = self.ask(line)
        if self.weight < self.most_lines:
            self.longest = max(self.longest, spent)
        else:
            self.times.append(spent)
            self.weight = 1 + self.held
        self.weight += 1
        self.held += held

    def calls(self, lines):
        """Writes lines of which none makes a checkpoint."""
        _, spent = self.ask(lines)
        self.longest = max(self.longest, spent)
        self.weight += lines.count("\n")

    def fill(self, count):
        """Sends so many messages, of which none makes a checkpoint."""
        for first in range(0, count, MANY):
            self.calls(send(1000) * min(MANY, count - first))
        self.held += count

    def cycles(self, count):
        """As often sends a message, and receives and deletes the one that has waited longest."""
        while 0 < count:
            some = min(count, MANY, (self.most_lines - self.weight) // 3)
            if 0 < some:
                self.calls("".join(BEFORE + delete(1000, self.taken + it) for it in range(some)))
            else:
                some = 1
                self.call(send(1000), 1)
                self.call(receive(1000), 0)
                self.call(delete(1000, self.taken), -1)
            self.taken, count = self.taken + some, count - some

    def resident(self):
        """Returns the bytes of memory that are resident now, and at most."""
        with open(f"/proc/{self.program.pid}/status", encoding="utf-8") as it:
            rows = dict(line.split(":", 1) for line in it)
        return [1024 * int(rows[name].split()[0]) for name in ("VmRSS", "VmHWM")]

    def spent(self):
        """Returns the seconds that the program, which has one thread, ran on a processor so far."""
        with open(f"/proc/{self.program.pid}/schedstat", encoding="utf-8") as it:
            return int(it.read().split()[0]) / 1e9

    def check(self):
        """Ends where the journal does not weigh what was counted, or something else is there than is held."""
        told, _ = self.ask('1000 Statistics {"QueueUrl":"jobs"}\n')
        wanted = f'"inFlight":0,"lines":{self.weight},"name":"jobs","visible":{self.held}}}'
        if wanted.encode() not in told:
            sys.exit(f"checkpoints: {wanted} was wanted, and {told} told")

    def end(self):
        self.program.stdin.close()
        if self.program.stdout.read() or self.program.wait():
            sys.exit("checkpoints: the replay did not end well")
        self.room.cleanup()


def told(queue):
    """Returns how many calls made a checkpoint, their middle and the longest, and the longest of others that were written at once."""
    times, others = sorted(queue.times), f"{1000 * queue.longest:.1f} ms"
    if not times:
        return f"none | | | {others}"
    return f"{len(times)} | {1000 * times[len(times) // 2]:.1f} ms | {1000 * times[-1]:.1f} ms | {others}"


def first_cost(program, most_lines):
    """Returns the seconds of one of the first cycles, in the middle of some queues."""
    costs = []
    for _ in range(QUEUES):
        queue = Queue(program, most_lines)
        before = queue.spent()
        queue.cycles(FIRST)
        costs.append((queue.spent() - before) / FIRST)
        queue.check()
        queue.end()
    return sorted(costs)[QUEUES // 2]


def memory(tell, program, most_lines, counts):
    """Tells a row for each number of cycles. Returns the bytes behind each, and texts on those in which a cycle costs too much."""
    first, slow = first_cost(program, most_lines), []
    tell(f"| {most_lines:,} | {FIRST:,} | | | {1e6 * first:.1f} us | | | | |")
    queue, found, done = Queue(program, most_lines), {}, 0
    for count in counts:
        more, before = count - done, queue.spent()
        queue.cycles(more)
        done = count
        cost = (queue.spent() - before) / more
        queue.check()
        found[count], highest = queue.resident()
        tell(f"| {most_lines:,} | {count:,} | {found[count] / 1e6:.0f} MB | {highest / 1e6:.0f} MB | {1e6 * cost:.1f} us | {told(queue)} |")
        if SLOWER * first < cost:
            slow.append(f"a cycle up to {count:,} at {most_lines:,}: {1e6 * cost:.1f} us, and {1e6 * first:.1f} at first")
    queue.end()
    return found, slow


def letters(tell, program, most_lines, counts):
    """Tells a row for each number of dead letters: each leaves its source at its second receive, and is received and deleted where it arrives. Returns the
    bytes behind each."""
    queue, found, count = Queue(program, most_lines), {}, 0
    policy = '"{\\"deadLetterTargetArn\\":\\"arn:aws:sqs:elasticmq:000000000000:jobs\\",\\"maxReceiveCount\\":1}"'
    queue.ask(created("source", f'{{"VisibilityTimeout":"0","RedrivePolicy":{policy}}}'))
    one = send(1000, "source") + 2 * receive(1000, queue="source") + receive(1000)
    for most in counts:
        while count < most:
            some = min(MANY_LETTERS, most - count)
            # A handle that was not given is refused: so each has arrived.
            queue.ask("".join(one + delete(1000, count + it) for it in range(some)))
            count += some
        found[count], highest = queue.resident()
        tell(f"| {most_lines:,} | {count:,} | {found[count] / 1e6:.0f} MB | {highest / 1e6:.0f} MB |")
    queue.end()
    return found


def waiting(tell, program, most_lines, held, count):
    """Tells the row of a queue in which so many messages wait, for so many cycles."""
    queue = Queue(program, most_lines)
    queue.fill(held)
    queue.longest = 0.0
    queue.cycles(count)
    queue.check()
    tell(f"| {most_lines:,} | {held:,} | {count:,} | {told(queue)} |")
    queue.end()


def million(found):
    """Returns the megabytes that a million more take, from the last number but one to the last, where there are two."""
    if len(found) < 2:
        return "an unknown number of MB"
    one, other = sorted(found)[-2:]
    return f"{(found[other] - found[one]) / (other - one):.0f} MB"


def measure(tell, program, most):
    """Measures all, tells the page, and returns texts on what was too slow."""
    counts, slow = [it for it in (10**5, 10**6, 10**7) if it <= most] or [most], []
    tell(f"| `max_lines` | cycles | memory | at most | a cycle | {CALLS} |")
    tell("|---|---|---|---|---|---|---|---|---|")
    grown = []
    for most_lines in LIMITS:
        found, late = memory(tell, program, most_lines, counts)
        grown.append(f"{million(found)} at {most_lines:,}")
        slow += late
    tell(f"\nA million messages more take {', '.join(grown)}.\n")
    tell("| `max_lines` | dead letters accepted and deleted | memory of both queues | at most |")
    tell("|---|---|---|---|")
    found = letters(tell, program, LIMITS[0], [it for it in counts if it <= 10**6])
    tell(f"\nA million dead letters more take {million(found)}, what stays of them at their source among it.\n")
    tell(f"| `max_lines` | messages that wait | cycles | {CALLS} |")
    tell("|---|---|---|---|---|---|---|")
    for most_lines, held in WAITING:
        waiting(tell, program, most_lines, held, most)
    waiting(tell, program, *CLOSE)
    return slow


def main(words):
    """Measures as the words say, and returns the status."""
    most, named, words = None, None, list(words)
    while words:
        word = words.pop(0)
        if word == "--most" and words and words[0].isdigit() and int(words[0]):
            most = int(words.pop(0))
        elif not word.startswith("-"):
            named = os.path.abspath(word)
        else:
            print(__doc__, file=sys.stderr)
            return 2
    program = named or f"{ROOT}/crates/sqs_replay/out/sqs_replay"
    if not os.path.isfile(program):
        print(f"checkpoints: there is no {program}; `make build` proves and builds it", file=sys.stderr)
        return 2
    lines = []

    def tell(line):
        print(line, flush=True)
        lines.append(line)

    kind = "A replay that was named, and not the proved one," if named else "The proved replay"
    tell(f"{kind} on {os.cpu_count()} processors, whose load was {os.getloadavg()[0]:.1f} before, with {crates.kit_here().split()[0]}.\n")
    slow = measure(tell, program, most or 10**7)
    folder = f"{ROOT}/out/bench" if named or most else f"{ROOT}/docs/bench"
    os.makedirs(folder, exist_ok=True)
    with open(f"{folder}/checkpoints.md", "w", encoding="utf-8") as it:
        it.write("\n".join([*lines, ""]))
    for it in slow:
        print(f"checkpoints: too slow: {it}", file=sys.stderr)
    return 1 if slow else 0


if __name__ == "__main__":
    signal.signal(signal.SIGTERM, lambda number, _: sys.exit(128 + number))
    sys.exit(main(sys.argv[1:]))
