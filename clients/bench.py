#!/usr/bin/env python3
"""Times the replay against the number of messages, and writes what it finds as a table and as a picture.

usage: clients/bench.py [--most N] [--seconds S] [--runs R] [--moto] [PROGRAM..]

The program is crates/sqs_replay/out/sqs_replay, as `make build` makes it, unless others are named, which then take turns. It makes its
inputs itself, of 1,000 messages and ten times as many up to N (100,000 unless another is named), and runs each R times (3) with at most
S processor seconds (60). With N from 100,000 on the kind of which a quarter is taken and that of the other commands run at 400,000 messages too, each
in at most 20 processor seconds; where one takes more, the status is 1. With --moto the same work goes through moto's queues in memory, by boto3, where both
are installed. It prints the middle of the runs in processor seconds (user time) and the most memory that was resident, where less than some 12 MB shows as
that, since a program begins as a copy of this tool. It writes docs/bench/table.md and docs/bench/speed.svg. What passes the limit is told as such, and is not tried with more messages.
"""
import math
import os
import random
import resource
import subprocess
import sys
import tempfile
import time

ROOT = os.path.normpath(os.path.join(os.path.dirname(os.path.abspath(__file__)), ".."))
BODY = "x" * 100
# How many queues there are in the kind that has many: as many as there may be.
QUEUES = 1000
COLOURS = ("#1b6ca8", "#c2571a", "#3a7d44", "#8a4f9e", "#b03a48", "#5b6770")


def handle(uid, number, receipt):
    """Returns the text of a receipt handle."""
    return f"{uid:016x}{number:016x}{receipt:016x}"


def send(at, queue="jobs"):
    return f'{at} SendMessage {{"QueueUrl":"{queue}","MessageBody":"{BODY}"}}\n'


def receive(at, most=1, queue="jobs"):
    return f'{at} ReceiveMessage {{"QueueUrl":"{queue}","MaxNumberOfMessages":{most}}}\n'


def delete(at, number, receipt=1, uid=1, queue="jobs"):
    return f'{at} DeleteMessage {{"QueueUrl":"{queue}","ReceiptHandle":"{handle(uid, number, receipt)}"}}\n'


def created(name="jobs", attributes="{}"):
    return f'0 CreateQueue {{"QueueName":"{name}","Attributes":{attributes}}}\n'


def sends(count):
    """Sends, and nothing else."""
    yield created()
    for _ in range(count):
        yield send(1000)


def cycles(count, waiting=0):
    """Each message is sent, and the one that has waited longest is received and deleted, with so many that wait meanwhile."""
    yield created()
    for _ in range(waiting):
        yield send(1000)
    for number in range(count):
        yield send(1000) + receive(1000) + delete(1000, number)


def cycles_of_1000(count):
    return cycles(count, 1000)


def cycles_of_100000(count):
    return cycles(count, 100_000)


def cycles_over_queues(count):
    """There are 1,000 queues. Each message is sent to the next of them, received there and deleted."""
    names = [f"jobs-{place}" for place in range(QUEUES)]
    for name in names:
        yield created(name)
    for number in range(count):
        turn, place = divmod(number, QUEUES)
        name = names[place]
        yield send(1000, name) + receive(1000, queue=name) + delete(1000, turn, uid=place + 1, queue=name)


def quarter(count):
    """All are sent, then a quarter of them is received one by one, and each deleted. Last comes the question what is left."""
    yield created()
    for _ in range(count):
        yield send(0)
    for number in range(count // 4):
        yield receive(1) + delete(1, number)
    yield '1 Statistics {"QueueUrl":"jobs"}\n'


def left_of_quarter(count):
    """Returns a part of what is told then: nothing is in flight, and the journal has the queue's opening and an entry for each call."""
    taken = count // 4
    return f'"inFlight":0,"lines":{1 + count + 2 * taken},"name":"jobs","visible":{count - taken}}}'


def others(count):
    """All are sent, and one is received. Then each other command that leaves them there comes an eighth as often, the question what is there as the last."""
    yield created()
    for _ in range(count):
        yield send(0)
    yield receive(1)
    change = f'{{"QueueUrl":"jobs","ReceiptHandle":"{handle(1, 0, 1)}","VisibilityTimeout":30}}'
    for _ in range(count // 8):
        yield '1 GetQueueAttributes {"QueueUrl":"jobs","AttributeNames":["All"]}\n'
        yield f"1 ChangeMessageVisibility {change}\n"
        yield '1 SetQueueAttributes {"QueueUrl":"jobs","Attributes":{"DelaySeconds":"0"}}\n'
        yield '1 Tick {}\n1 Rows {"QueueUrl":"jobs"}\n1 Alarms {"QueueUrl":"jobs"}\n1 Statistics {"QueueUrl":"jobs"}\n'


def left_by_others(count):
    """Returns a part of what is told then: one is in flight, and the journal has an entry for each change and each setting too."""
    return f'"inFlight":1,"lines":{2 + count + 2 * (count // 8)},"name":"jobs","visible":{count - 1}}}'


def backlog(count):
    """All are sent, then received in tens; half of those offered are deleted, in any order."""
    chosen = random.Random(1)
    yield created()
    for _ in range(count):
        yield send(1000)
    for first in range(0, count, 10):
        yield receive(1001, 10)
        ten = list(range(first, min(first + 10, count)))
        for number in chosen.sample(ten, len(ten) // 2):
            yield delete(1001, number)


def failing(count):
    """Each message is received twice and never deleted, and leaves for the dead-letter queue at its third receive."""
    yield created("dead")
    policy = '"{\\"deadLetterTargetArn\\":\\"arn:aws:sqs:elasticmq:000000000000:dead\\",\\"maxReceiveCount\\":2}"'
    yield created("jobs", f'{{"VisibilityTimeout":"1","RedrivePolicy":{policy}}}')
    for number in range(count):
        at = 3000 * number
        yield send(at) + receive(at) + receive(at + 1000) + receive(at + 2000)


def watched(count):
    """Sends of a thousand a minute; behind each thousand the counts and the rows are asked for."""
    yield created()
    for number in range(count):
        at = 60 * number
        yield send(at)
        if number % 1000 == 999:
            yield f'{at} Statistics {{"QueueUrl":"jobs"}}\n{at} Rows {{"QueueUrl":"jobs"}}\n'


WORK = {
    "sends": sends,
    "cycles of send, receive, delete": cycles,
    "cycles while 1,000 wait": cycles_of_1000,
    "cycles while 100,000 wait": cycles_of_100000,
    "cycles over 1,000 queues": cycles_over_queues,
    "sends, a quarter received and deleted": quarter,
    "the other commands while all wait": others,
    "a backlog received in tens": backlog,
    "messages that fail twice": failing,
    "sends, watched each minute": watched,
}
# How many messages are sent, or queues made, before what is counted.
WAITING = {"cycles while 1,000 wait": 1000, "cycles while 100,000 wait": 100_000, "cycles over 1,000 queues": QUEUES}
# What has to stand in the last answer, by the number of messages.
LAST = {"sends, a quarter received and deleted": left_of_quarter, "the other commands while all wait": left_by_others}
# Kinds that run once more with so many messages, and may take so many processor seconds then. For the first a proved program takes about a fifth of them.
WHOLE = {"sends, a quarter received and deleted": (400_000, 20), "the other commands while all wait": (400_000, 20)}


def run(program, room, limit, last):
    """Runs the program on the folder's lines. Returns its processor seconds and its most resident bytes, or None where it passed the limit. A text
    has to stand in the last answer."""
    def bound():
        resource.setrlimit(resource.RLIMIT_CPU, (limit, limit + 1))

    with open(f"{room}/lines", "rb") as lines, open(f"{room}/answers", "wb") as answers:
        ran = subprocess.Popen([program, f"{room}/config.toml"], stdin=lines, stdout=answers, preexec_fn=bound)
        _, status, spent = os.wait4(ran.pid, 0)
        ran.returncode = status
    if os.WIFSIGNALED(status):
        return None
    answer, refused = b"", None
    with open(f"{room}/answers", "rb") as answers:
        for answer in answers:
            if not answer.startswith(b"200 "):
                refused = answer
                break
    if refused or os.WEXITSTATUS(status):
        sys.exit(f"bench: {program} ended with status {os.WEXITSTATUS(status)}, and refused a line: {refused}")
    if last.encode() not in answer:
        sys.exit(f"bench: {program} did not answer {last} at the end, but {answer}")
    return spent.ru_utime, spent.ru_maxrss * 1024


def moto(count):
    """Sends, receives and deletes so many messages one by one through moto. Returns its processor seconds."""
    import boto3
    from moto import mock_aws

    with mock_aws():
        queues = boto3.client("sqs", region_name="us-east-1", aws_access_key_id="x", aws_secret_access_key="x")
        url = queues.create_queue(QueueName="jobs")["QueueUrl"]
        start = time.process_time()
        for _ in range(count):
            queues.send_message(QueueUrl=url, MessageBody=BODY)
            message = queues.receive_message(QueueUrl=url)["Messages"][0]
            queues.delete_message(QueueUrl=url, ReceiptHandle=message["ReceiptHandle"])
        return time.process_time() - start


def counts_of(work, most):
    """Returns with how many messages a kind of work runs: 1,000 and ten times as many up to the most, and then as it runs whole."""
    counts = [10**power for power in range(3, 10) if 10**power <= most]
    return counts + [WHOLE[work][0]] if work in WHOLE and most >= 100_000 else counts


def measured(programs, most, limit, runs):
    """Returns, of each kind of work and program, by the number of messages, the middle of the seconds and of the bytes, or None past the limit."""
    found = {}
    with tempfile.TemporaryDirectory(prefix="bench-") as room:
        with open(f"{room}/config.toml", "w", encoding="utf-8") as it:
            it.write("[limits]\nmax_lines = 16777216\n")
        for work, lines in WORK.items():
            for count in counts_of(work, most):
                whole, seconds = WHOLE.get(work, (None, limit))
                bound = seconds if count == whole else limit
                last = LAST[work](count) if work in LAST else ""
                with open(f"{room}/lines", "w", encoding="utf-8") as it:
                    it.writelines(lines(count))
                for program in programs:
                    if found.get((work, program), {0: True}).get(count // 10, True) is None:
                        found[work, program][count] = None
                        continue
                    told = [run(program, room, bound, last) for _ in range(runs)]
                    middle = None if None in told else (sorted(it[0] for it in told)[runs // 2], sorted(it[1] for it in told)[runs // 2])
                    found.setdefault((work, program), {})[count] = middle
                    print(f"{work}, {count}, {os.path.basename(program)}: {cell(middle, bound)}", flush=True)
    return found


def cell(middle, limit):
    """Returns the text of one measurement."""
    return f"over {limit} s" if middle is None else f"{middle[0]:.2f} s, {middle[1] / 1e6:.0f} MB"


def table(found, names, limit):
    """Returns the measurements as a table."""
    counts = sorted({count for row in found.values() for count in row})
    lines = ["| work | program | " + " | ".join(f"{it:,} messages" for it in counts) + " |", "|---|---|" + "---|" * len(counts)]
    for (work, program), row in found.items():
        whole, seconds = WHOLE.get(work, (None, limit))
        cells = [cell(row[it], seconds if it == whole else limit) if it in row else "" for it in counts]
        lines.append(f"| {work} | {names[program]} | {' | '.join(cells)} |")
    return "\n".join(lines) + "\n"


def picture(found, names):
    """Returns a picture: microseconds a message that was sent against the number of messages, both in powers of ten."""
    points = {key: [(count, 1e6 * it[0] / (count + WAITING.get(key[0], 0))) for count, it in sorted(row.items()) if it and it[0] > 0] for key, row in found.items()}
    counts = [count for row in points.values() for count, _ in row]
    costs = [cost for row in points.values() for _, cost in row]
    if not counts:
        return None
    left, right = math.floor(math.log10(min(counts))), math.ceil(math.log10(max(counts)))
    low, high = math.floor(math.log10(min(costs))), math.ceil(math.log10(max(costs)))
    high, right = max(high, low + 1), max(right, left + 1)
    place = lambda count, cost: (80 + 480 * (math.log10(count) - left) / (right - left), 340 - 300 * (math.log10(cost) - low) / (high - low))
    parts = ['<svg xmlns="http://www.w3.org/2000/svg" viewBox="0 0 900 400" font-family="sans-serif" font-size="12">']
    parts.append('<rect width="900" height="400" fill="white"/><text x="80" y="24" font-size="14">Microseconds a message (processor time), against the number of messages</text>')
    for power in range(left, right + 1):
        x, _ = place(10**power, 10**low)
        parts.append(f'<path d="M{x:.0f} 40V340" stroke="#ddd"/><text x="{x:.0f}" y="360" text-anchor="middle">{10**power:,}</text>')
    for power in range(low, high + 1):
        _, y = place(10**left, 10**power)
        parts.append(f'<path d="M80 {y:.0f}H560" stroke="#ddd"/><text x="72" y="{y + 4:.0f}" text-anchor="end">{10**power:,}</text>')
    for index, ((work, program), row) in enumerate(it for it in points.items() if it[1]):
        colour, dash = COLOURS[index % len(COLOURS)], "" if index < len(COLOURS) else ' stroke-dasharray="6 3"'
        path = "M" + "L".join("{:.1f} {:.1f}".format(*place(*it)) for it in row)
        parts.append(f'<path d="{path}" fill="none" stroke="{colour}" stroke-width="2"{dash}/>')
        parts += ['<circle cx="{:.1f}" cy="{:.1f}" r="3" fill="{}"/>'.format(*place(*it), colour) for it in row]
        parts.append(f'<path d="M580 {50 + 22 * index}h24" stroke="{colour}" stroke-width="2"{dash}/><text x="612" y="{54 + 22 * index}">{names[program]}: {work}</text>')
    return "\n".join([*parts, "</svg>", ""])


def main(words):
    """Measures as the words say, and returns the status."""
    most, limit, runs, with_moto, programs = 100_000, 60, 3, False, []
    words = list(words)
    while words:
        word = words.pop(0)
        if word in ("--most", "--seconds", "--runs") and words and words[0].isdigit() and int(words[0]):
            number = int(words.pop(0))
            most, limit, runs = (number if word == name else old for name, old in (("--most", most), ("--seconds", limit), ("--runs", runs)))
        elif word == "--moto":
            with_moto = True
        elif not word.startswith("-"):
            programs.append(os.path.abspath(word))
        else:
            print(__doc__, file=sys.stderr)
            return 2
    programs = programs or [f"{ROOT}/crates/sqs_replay/out/sqs_replay"]
    for it in programs:
        if not os.path.isfile(it):
            print(f"bench: there is no {it}; `make build` proves and builds it", file=sys.stderr)
            return 2
    names = {it: "the replay" if len(programs) == 1 else f"{'before' if at == 0 else 'after'}" for at, it in enumerate(programs)}
    found = measured(programs, most, limit, runs)
    if with_moto:
        names["moto"], row = "moto", found.setdefault(("cycles of send, receive, delete", "moto"), {})
        for count in (1000, 10_000):
            row[count] = (moto(count), resource.getrusage(resource.RUSAGE_SELF).ru_maxrss * 1024) if count <= most else None
    text, drawn = table(found, names, limit), picture(found, names)
    os.makedirs(f"{ROOT}/docs/bench", exist_ok=True)
    for name, it in (("table.md", text), ("speed.svg", drawn or "")):
        with open(f"{ROOT}/docs/bench/{name}", "w", encoding="utf-8") as to:
            to.write(it)
    print(text, end="")
    slow = [f"{work}, {count}, {names[program]}" for (work, program), row in found.items() for count, it in row.items() if it is None and count == WHOLE.get(work, (None,))[0]]
    for it in slow:
        print(f"bench: too slow: {it}", file=sys.stderr)
    return 1 if slow else 0


if __name__ == "__main__":
    sys.exit(main(sys.argv[1:]))
