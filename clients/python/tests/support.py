"""What the tests of this package share."""

import importlib.util
import json
import os
import sys
import tempfile
import unittest
from pathlib import Path

FOLDER = Path(__file__).resolve().parent.parent
sys.path.insert(0, str(FOLDER))

from jutkariq import ProgramNotFound, Replay  # noqa: E402
from jutkariq.programs import find_program  # noqa: E402

needs_boto3 = unittest.skipUnless(importlib.util.find_spec("boto3"), "boto3 is not installed")


def has_server():
    """Returns whether there is a server to run. One that the environment names is taken to be there, so that tests fail where it is not."""
    try:
        return bool(os.environ.get("JUTKARIQ_SERVER") or find_program("sqs_server", None, "JUTKARIQ_SERVER"))
    except ProgramNotFound:
        return False


needs_server = unittest.skipUnless(has_server(), "no sqs_server is built")


class ReplayCase(unittest.TestCase):
    """A replay for each test, and requests that must succeed, without boto3."""

    config = None
    waits = "run"

    def setUp(self):
        self.replay = self.started(config=self.config, waits=self.waits)

    def started(self, **options):
        """Returns a replay that ends with the test."""
        replay = Replay(**options)
        self.addCleanup(replay.close)
        return replay

    def done(self, action, **request):
        """Returns what a request is answered, which must be a success."""
        answer = self.replay.ask(action, request)
        self.assertEqual(answer.status, 200, answer.text)
        return json.loads(answer.text)

    def refused(self, action, **request):
        """Returns the name of the refusal that a request is answered."""
        answer = self.replay.ask(action, request)
        self.assertGreaterEqual(answer.status, 400, answer.text)
        return json.loads(answer.text)["__type"].rpartition("#")[2]

    def queue(self, name="jobs", **attributes):
        """Makes a queue."""
        self.done("CreateQueue", QueueName=name, Attributes={key: str(value) for key, value in attributes.items()})

    def send(self, body="a", queue="jobs", **request):
        """Sends a message."""
        return self.done("SendMessage", QueueUrl=queue, MessageBody=body, **request)

    def receive(self, queue="jobs", **request):
        """Returns the messages that a receive offers."""
        return self.done("ReceiveMessage", QueueUrl=queue, **request).get("Messages", [])

    def bodies(self, queue="jobs", **request):
        """Returns the bodies of the messages that a receive offers."""
        return [message["Body"] for message in self.receive(queue, **request)]


def room(case):
    """Returns a folder that is removed behind a test."""
    folder = tempfile.TemporaryDirectory()
    case.addCleanup(folder.cleanup)
    return Path(folder.name)


def script(folder, name, text):
    """Writes a program in Python, or in the language that its first line names, and returns its path."""
    path = folder / name
    path.write_text(text if text.startswith("#!") else f"#!{sys.executable}\n{text}")
    os.chmod(path, 0o755)
    return path
