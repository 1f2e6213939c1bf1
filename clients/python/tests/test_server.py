"""A server at free ports. Expected: docs/PROFILE.md, sections 2, 19, 24 and 25. Programs in its place show what becomes of one that is not well."""

import json
import os
import re
import socket
import subprocess
import sys
import threading
import time
import unittest
import urllib.error
from concurrent.futures import ThreadPoolExecutor
from pathlib import Path
from unittest import mock
from urllib.parse import urlsplit

from support import FOLDER, needs_boto3, needs_server, room, script

from jutkariq import ProgramFailed, ProgramNotFound, Refused, Server

CONFIG = """
[[queue]]
name = "jobs"

[[alarm]]
queue = "jobs"
name = "deep"
metric = "ApproximateNumberOfMessagesVisible"
operator = "GreaterThanThreshold"
threshold = 0
minutes = 180
"""


# What is told of the requests that are refused, behind the time of day: lines like those of PROFILE 25 and USING, whose requests are asked below.
REFUSED = [
    "SendMessage jobs 400 InvalidParameterValue: MessageBody is empty",
    "SendMessageBatch jobs 200 InvalidParameterValue: Entries[1].DelaySeconds is 901, and 0 to 900 is wanted; 1 entry was refused: \"b\"",
    "- - 405 MethodNotAllowed: its method is not POST; the page, statistics and metrics are at the other port",
]


def listens(endpoint):
    """Returns whether something listens at an address."""
    try:
        socket.create_connection(("127.0.0.1", urlsplit(endpoint).port), 20).close()
        return True
    except ConnectionRefusedError:
        return False


@needs_server
class ServerCase(unittest.TestCase):
    """A server for each test, and requests that must succeed, without boto3."""

    def setUp(self):
        self.server = self.started()

    def started(self):
        """Returns a server that ends with the test."""
        server = Server(config=CONFIG)
        self.addCleanup(server.close)
        return server

    def done(self, action, **request):
        """Returns what a request is answered, which must be a success."""
        answer = self.server.ask(action, request)
        self.assertEqual(answer.status, 200, answer.text)
        return json.loads(answer.text)

    def send(self, body="a", **request):
        """Sends a message."""
        return self.done("SendMessage", QueueUrl="jobs", MessageBody=body, **request)


class Starting(ServerCase):
    def test_it_serves_when_the_constructor_returns(self):
        self.assertTrue(listens(self.server.endpoint))
        self.assertTrue(listens(self.server.statistics_endpoint))

    def test_it_takes_free_ports_whatever_the_environment_names(self):
        with socket.create_server(("127.0.0.1", 0)) as taken:
            port = str(taken.getsockname()[1])
            with mock.patch.dict(os.environ, {"JUTKARIQ_PORT": port, "JUTKARIQ_STATISTICS_PORT": port}):
                server = self.started()
        ports = [urlsplit(it).port for it in (server.endpoint, server.statistics_endpoint)]
        self.assertEqual(len({*ports, int(port)}), 3)

    def test_each_port_answers_as_its_own(self):
        self.assertEqual(self.server.ask("ListQueues", {}).status, 200)
        self.assertEqual(self.server.statistics("jobs")["name"], "jobs")

    def test_it_needs_no_configuration(self):
        with Server() as server:
            self.assertEqual(json.loads(server.ask("ListQueues", {}).text), {"QueueUrls": []})

    def test_a_configuration_with_a_fault_says_where(self):
        file = room(self) / "queues.toml"
        file.write_text('[[queue]]\nname = "jobs"\ndelay_seconds = 901\n')
        with self.assertRaises(ProgramFailed) as caught:
            Server(config=file)
        where = f'{file}:3: [[queue]] "jobs": delay_seconds = 901 is not in 0 to 900'
        self.assertTrue(str(caught.exception).endswith(f"/sqs_server has ended with status 1: sqs_server: config: OutOfRange\n{where}"), caught.exception)
        self.assertRaises(FileNotFoundError, Server, config="no such file.toml")

    def test_a_text_with_a_fault_says_where(self):
        with self.assertRaises(ProgramFailed) as caught:
            Server(config='[[queue]]\nname = "j b"\n')
        where = r'/config\.toml:2: \[\[queue\]\] "j b": name = "j b" is '
        self.assertRegex(str(caught.exception), rf"has ended with status 1: sqs_server: config: OutOfRange\n\S+{where}")


class Ending(ServerCase):
    def test_it_is_closed(self):
        with self.server as server:
            folder = Path(server._folder.name)
        self.assertIsNotNone(server._process.returncode)
        self.assertFalse(listens(server.endpoint))
        self.assertFalse(listens(server.statistics_endpoint))
        self.assertFalse(folder.exists())
        server.close()
        with self.assertRaisesRegex(ProgramFailed, "the server was closed"):
            server.counts("jobs")

    def test_it_ends_with_the_program_that_has_not_closed_it(self):
        code = "import jutkariq\nserver = jutkariq.Server()\nassert server.ask('ListQueues', {}).status == 200\nprint(server.endpoint)"
        way = {**os.environ, "PYTHONPATH": str(FOLDER)}
        endpoint = subprocess.run([sys.executable, "-c", code], env=way, stdout=subprocess.PIPE, text=True, check=True).stdout.strip()
        self.assertRegex(endpoint, r"^http://localhost:\d+$")
        self.assertFalse(listens(endpoint))

    def test_it_dies(self):
        self.server._process.kill()
        for asked in (self.server.counts, self.server.statistics, self.server.rows, self.server.alarms):
            with self.assertRaisesRegex(ProgramFailed, "/sqs_server was ended by signal 9"):
                asked("jobs")

    def test_it_dies_while_it_is_asked(self):
        killing = threading.Timer(0.3, self.server._process.kill)
        killing.start()
        with self.assertRaisesRegex(ProgramFailed, "/sqs_server was ended by signal 9"):
            self.server.ask("ReceiveMessage", {"QueueUrl": "jobs", "WaitTimeSeconds": 20})
        killing.join()

    def test_it_dies_while_it_is_waited_for(self):
        killing = threading.Timer(0.3, self.server._process.kill)
        killing.start()
        with self.assertRaisesRegex(ProgramFailed, "/sqs_server was ended by signal 9"):
            self.server.wait_until("jobs", visible=1, timeout=60)
        killing.join()


class Numbers(ServerCase):
    def test_counts(self):
        self.assertEqual(self.server.counts("jobs"), (0, 0, 0))
        self.send()
        self.send(DelaySeconds=900)
        self.assertEqual(self.server.counts("jobs"), (1, 1, 0))
        self.assertEqual(len(self.done("ReceiveMessage", QueueUrl="jobs")["Messages"]), 1)
        self.assertEqual(self.server.counts(f"{self.server.endpoint}/000000000000/jobs"), (0, 1, 1))

    def test_statistics(self):
        self.send()
        self.send("bb", DelaySeconds=900)
        self.done("ReceiveMessage", QueueUrl="jobs")
        for queue in ("jobs", f"{self.server.endpoint}/000000000000/jobs"):
            told = self.server.statistics(queue)
            self.assertEqual((told["name"], told["visible"], told["delayed"], told["inFlight"]), ("jobs", 0, 1, 1))
            self.assertEqual(self.server.alarms(queue), {"deep": "INSUFFICIENT_DATA"})

    def test_rows_are_of_minutes_that_are_over(self):
        begun = time.time() // 60
        server = self.started()
        rows = server.rows("jobs")
        self.assertLessEqual(len(rows), time.time() // 60 - begun)

    def test_its_clock_is_that_of_this_machine(self):
        before = time.time()
        self.done("CreateQueue", QueueName="late")
        clock = self.server.statistics("late")["clock"]
        self.assertTrue(int(1000 * before) <= clock <= int(1000 * time.time()), clock)

    def test_what_is_not_there(self):
        for asked in (self.server.statistics, self.server.rows, self.server.alarms):
            with self.assertRaisesRegex(Refused, "404"):
                asked("none")
        for asked in (self.server.counts, self.server.wait_until):
            with self.assertRaises(Refused) as caught:
                asked("none")
            self.assertEqual(caught.exception.name, "QueueDoesNotExist")


class Waiting(ServerCase):
    def test_counts_that_come(self):
        sending = threading.Timer(0.1, self.send)
        sending.start()
        self.assertEqual(self.server.wait_until("jobs", visible=1, in_flight=0, timeout=20), (1, 0, 0))
        sending.join()

    def test_counts_that_come_by_time_alone(self):
        self.send(DelaySeconds=1)
        self.assertEqual(self.server.wait_until("jobs", delayed=0, timeout=20), (1, 0, 0))
        self.assertEqual(len(self.done("ReceiveMessage", QueueUrl="jobs", VisibilityTimeout=1)["Messages"]), 1)
        self.assertEqual(self.server.wait_until("jobs", in_flight=0, timeout=20), (1, 0, 0))

    def test_counts_that_are_there(self):
        self.send()
        self.assertEqual(self.server.wait_until("jobs", visible=1, timeout=0), (1, 0, 0))
        self.assertEqual(self.server.wait_until("jobs"), (1, 0, 0))

    def test_counts_that_do_not_come(self):
        begun = time.monotonic()
        with self.assertRaisesRegex(TimeoutError, r"jobs has Counts\(visible=0, delayed=0, in_flight=0\) after 0.2 s, and visible=1 was waited for"):
            self.server.wait_until("jobs", visible=1, timeout=0.2)
        self.assertGreaterEqual(time.monotonic() - begun, 0.2)


class Log(ServerCase):
    def told(self, **environment):
        """Returns the lines of a server in this environment, behind their time of day, when it has answered four requests and met what is no HTTP."""
        others = {name: value for name, value in os.environ.items() if name != "JUTKARIQ_LOG"}
        with mock.patch.dict(os.environ, {**others, **environment}, clear=True):
            self.server = self.started()
        entries = [{"Id": "a", "MessageBody": "a"}, {"Id": "b", "MessageBody": "b", "DelaySeconds": 901}]
        self.server.ask("SendMessage", {"QueueUrl": "jobs", "MessageBody": ""})
        self.done("SendMessageBatch", QueueUrl="jobs", Entries=entries)
        with socket.create_connection(("127.0.0.1", urlsplit(self.server.endpoint).port), 20) as other:
            other.sendall(b"GET / HTTP/1.1\r\nHost: localhost\r\n\r\n")
            self.assertIn(b" 405 ", other.recv(1000))
            self.done("ReceiveMessage", QueueUrl="jobs")
            other.sendall(b"this is no HTTP\r\n\r\n")
            self.assertIn(b" 400 ", other.recv(1000))
        return self.behind_the_time(self.lines_until("connection: what came is not HTTP/1.1"))

    def lines_until(self, beginning):
        """Returns the lines that are told before one that begins so behind its time of day, once that is there."""
        end = time.monotonic() + 20
        while not any(line.partition(" ")[2].startswith(beginning) for line in self.server.log()):
            self.assertLess(time.monotonic(), end, self.server.log())
            time.sleep(0.01)
        self.assertTrue(self.behind_the_time(self.server.log())[-1].startswith(beginning), self.server.log())
        return self.server.log()[:-1]

    def behind_the_time(self, lines):
        """Returns what is said behind the time of day, which is that of now in UTC."""
        for line in lines:
            hours, minutes, seconds = re.match(r"(\d\d):(\d\d):(\d\d\.\d{3})Z ", line).groups()
            age = (time.time() - 3600 * int(hours) - 60 * int(minutes) - float(seconds)) % 86400
            self.assertLess(age, 60, line)
        return [line.partition(" ")[2] for line in lines]

    def test_what_is_refused_is_told(self):
        self.assertEqual(self.told(), REFUSED)

    def test_levels(self):
        self.assertEqual(self.told(JUTKARIQ_LOG="refused"), REFUSED)
        self.assertEqual(self.told(JUTKARIQ_LOG="all"), [*REFUSED, "ReceiveMessage jobs 200"])
        self.assertEqual(self.told(JUTKARIQ_LOG="none"), [])

    def test_another_level(self):
        with self.assertRaisesRegex(ProgramFailed, "has ended with status 2: sqs_server: JUTKARIQ_LOG must be refused, all or none$"):
            self.told(JUTKARIQ_LOG="off")

    def test_it_is_there_when_the_server_was_closed(self):
        self.told()
        before = self.server.log()
        self.server.close()
        self.assertEqual(self.server.log(), before)

    def test_an_error_has_no_line_of_a_request(self):
        self.told()
        self.server._process.kill()
        with self.assertRaisesRegex(ProgramFailed, r"/sqs_server was ended by signal 9: \d\d:\d\d:\d\d\.\d{3}Z connection: .*\Z"):
            self.server.counts("jobs")


class SideBySide(ServerCase):
    def test_eight_at_once(self):
        with ThreadPoolExecutor(8) as pool:
            servers = [*pool.map(lambda _: self.started(), range(8))]
            endpoints = {endpoint for it in servers for endpoint in (it.endpoint, it.statistics_endpoint)}
            self.assertEqual(len(endpoints), 16)

            def talk(number):
                for _ in range(number):
                    servers[number].ask("SendMessage", {"QueueUrl": "jobs", "MessageBody": "a"})
                return servers[number].counts("jobs").visible

            self.assertEqual([*pool.map(talk, range(8))], [*range(8)])

    @needs_boto3
    def test_two_by_boto3_each_by_its_own_urls(self):
        servers = [self.server, self.started()]
        urls = [it.client().create_queue(QueueName="mail")["QueueUrl"] for it in servers]
        self.assertEqual(urls, [f"{it.endpoint}/000000000000/mail" for it in servers])
        self.assertNotEqual(*urls)
        for it, url in zip(servers, urls):
            it.client().send_message(QueueUrl=url, MessageBody=url)
        for it, url in zip(servers, urls):
            client = it.client()
            messages = client.receive_message(QueueUrl=url, MaxNumberOfMessages=10)["Messages"]
            self.assertEqual([message["Body"] for message in messages], [url])
            client.delete_message(QueueUrl=url, ReceiptHandle=messages[0]["ReceiptHandle"])
            self.assertEqual(it.counts(url), (0, 0, 0))

    @needs_boto3
    def test_an_url_says_where_to_send(self):
        for it in (self.server, self.started()):
            url = it.client().get_queue_url(QueueName="jobs")["QueueUrl"]
            there = it.client(endpoint_url=url)
            self.assertEqual(there.meta.endpoint_url, url)
            there.send_message(QueueUrl=url, MessageBody=url)
            self.assertEqual(there.receive_message(QueueUrl=url)["Messages"][0]["Body"], url)

    @needs_boto3
    def test_each_url_that_is_told_carries_the_port(self):
        for it in (self.server, self.started()):
            client, wanted = it.client(), [f"{it.endpoint}/000000000000/{name}" for name in ("dead", "jobs")]
            dead = client.create_queue(QueueName="dead")["QueueUrl"]
            policy = '{"deadLetterTargetArn":"arn:aws:sqs:elasticmq:000000000000:dead","maxReceiveCount":1}'
            client.set_queue_attributes(QueueUrl="jobs", Attributes={"RedrivePolicy": policy})
            self.assertEqual([dead, client.get_queue_url(QueueName="jobs")["QueueUrl"]], wanted)
            self.assertEqual(client.list_queues()["QueueUrls"], wanted)
            self.assertEqual(client.list_dead_letter_source_queues(QueueUrl=dead)["queueUrls"], wanted[1:])


@needs_boto3
class Clients(ServerCase):
    def test_a_client(self):
        client = self.server.client()
        client.send_message(QueueUrl="jobs", MessageBody="hello")
        self.assertEqual(client.receive_message(QueueUrl="jobs")["Messages"][0]["Body"], "hello")
        self.assertRaises(client.exceptions.QueueDoesNotExist, client.get_queue_url, QueueName="none")

    def test_a_resource(self):
        queue = self.server.resource().Queue("jobs")
        queue.send_message(MessageBody="hello")
        self.assertEqual([it.body for it in queue.receive_messages()], ["hello"])
        self.assertEqual(queue.attributes["ApproximateNumberOfMessagesNotVisible"], "1")

    def test_a_receive_waits_for_a_message_of_another(self):
        with ThreadPoolExecutor(1) as pool:
            waiting = pool.submit(self.server.client().receive_message, QueueUrl="jobs", WaitTimeSeconds=20)
            time.sleep(0.2)
            begun = time.monotonic()
            self.server.client().send_message(QueueUrl="jobs", MessageBody="hello")
            self.assertEqual(waiting.result()["Messages"][0]["Body"], "hello")
        self.assertLess(time.monotonic() - begun, 15)


READY = 'print("sqs_server: requests at http://localhost:1, statistics at http://localhost:2, 1 queue from it", flush=True)\n'


class Programs(unittest.TestCase):
    """Programs in the place of a server."""

    def start(self, text, seconds=20.0):
        """Starts a program of this text."""
        server = Server(program=script(room(self), "failing", text), ready_within=seconds)
        self.addCleanup(server.close)
        return server

    def test_it_ends_at_once(self):
        with self.assertRaisesRegex(ProgramFailed, r"/failing has ended with status 3: sqs_server: cannot listen"):
            self.start("import sys\nprint('sqs_server: cannot listen', file=sys.stderr)\nsys.exit(3)\n")

    def test_it_says_nothing(self):
        with self.assertRaisesRegex(ProgramFailed, r"does not answer.*it said nothing in 0.2 s"):
            self.start("import time\ntime.sleep(600)\n", 0.2)

    def test_it_says_something_else(self):
        with self.assertRaisesRegex(ProgramFailed, "its first line was 'hello"):
            self.start("import time\nprint('hello', flush=True)\ntime.sleep(600)\n")

    def test_it_will_say_nothing_more_and_goes_on(self):
        with mock.patch("jutkariq.server.PATIENCE", 0.2), self.assertRaisesRegex(ProgramFailed, "does not answer.*its first line was ''"):
            self.start("import os, time\nos.close(1)\ntime.sleep(600)\n")

    def test_it_dies_when_it_has_said_where_it_listens(self):
        server = self.start(READY + "import sys\nsys.exit('out of luck')\n")
        self.assertEqual((server.endpoint, server.statistics_endpoint), ("http://localhost:1", "http://localhost:2"))
        with self.assertRaisesRegex(ProgramFailed, "/failing has ended with status 1: out of luck"):
            server.counts("jobs")

    def test_it_says_more_than_anybody_reads(self):
        server = self.start(READY + "print('and more\\n' * 100_000, flush=True)\n")
        self.assertEqual(server._process.wait(20), 0)

    def test_it_does_not_listen_and_goes_on(self):
        server = self.start(READY + "import time\ntime.sleep(600)\n")
        with mock.patch("jutkariq.server.PATIENCE", 0.2):
            self.assertRaises(urllib.error.URLError, server.counts, "jobs")

    def test_it_does_not_end_when_it_is_told_to(self):
        server = self.start("import signal, time\nsignal.signal(signal.SIGTERM, signal.SIG_IGN)\n" + READY + "time.sleep(600)\n")
        with mock.patch("jutkariq.server.PATIENCE", 0.2):
            server.close()
        self.assertEqual(server._process.returncode, -9)

    def test_it_is_not_there(self):
        with self.assertRaisesRegex(ProgramNotFound, "the argument `program` names"):
            Server(program=os.devnull)


if __name__ == "__main__":
    unittest.main()
