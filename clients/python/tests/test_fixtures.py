"""The fixtures for pytest, in runs of their own."""

import importlib.util
import os
import shlex
import subprocess
import sys
import unittest

from support import FOLDER, needs_boto3, needs_server, room

from jutkariq.programs import find_program

PASSING = '''
import pytest

@pytest.mark.parametrize("seconds", [0, 900])
def test_a_delay(sqs, sqs_clock, seconds):
    url = sqs.create_queue(QueueName="jobs")["QueueUrl"]
    sqs.send_message(QueueUrl=url, MessageBody="a", DelaySeconds=seconds)
    assert sqs_clock.counts("jobs").visible == (seconds == 0)
    assert sqs_clock.advance(seconds=seconds) == 1000 * seconds
    assert sqs_clock.counts("jobs").visible == 1
'''
FAILING = '''
import pytest

@pytest.fixture
def sqs_config():
    return '[[queue]]\\nname = "jobs"\\n'

def test_it(sqs, sqs_clock):
    sqs.send_message(QueueUrl="jobs", MessageBody="a")
    sqs_clock.advance(minutes=1)
    assert sqs_clock.counts("jobs").visible == 2

def test_it_(sqs_clock):
    assert sqs_clock.now == 1

def test_no_queue():
    assert False
'''
SERVER = '''
import pytest
from jutkariq import ProgramFailed

EARLIER = []

@pytest.fixture
def sqs_config():
    return '[[queue]]\\nname = "jobs"\\ndelay_seconds = 900\\n'

@pytest.mark.parametrize("time", ["first", "second"])
def test_a_server(sqs_server, time):
    for server in EARLIER:
        with pytest.raises(ProgramFailed, match="the server was closed"):
            server.counts("jobs")
    EARLIER.append(sqs_server)
    sqs_server.client().send_message(QueueUrl="jobs", MessageBody="a")
    assert sqs_server.wait_until("jobs", delayed=1) == (0, 1, 0)
'''


def for_pytest(program):
    """Returns the environment of a run of pytest with this package and this program, and with no plug-in but that of the package."""
    path = os.pathsep.join([str(FOLDER), os.environ.get("PYTHONPATH", "")])
    words = "-p jutkariq.pytest_plugin -p no:cacheprovider -p no:warnings --color=no"
    return {**os.environ, "PYTHONPATH": path, "JUTKARIQ_REPLAY": program, "PYTEST_DISABLE_PLUGIN_AUTOLOAD": "1", "PYTEST_ADDOPTS": words}


@unittest.skipUnless(importlib.util.find_spec("pytest"), "pytest is not installed")
class Fixtures(unittest.TestCase):
    def setUp(self):
        self.folder = room(self)
        self.program = find_program("sqs_replay", None, "JUTKARIQ_REPLAY")

    def said(self, text, *words):
        """Runs pytest on a text in the folder, and returns what it says."""
        (self.folder / "test_given.py").write_text(text)
        command = [sys.executable, "-m", "pytest", *words]
        return subprocess.run(command, cwd=self.folder, env=for_pytest(self.program), capture_output=True, text=True).stdout

    @needs_boto3
    def test_a_client_and_a_clock(self):
        self.assertRegex(self.said(PASSING), r"\b2 passed in ")
        self.assertFalse((self.folder / "records").exists())

    @needs_boto3
    def test_each_test_is_recorded(self):
        said = self.said(PASSING, "--jutkariq-record=records", "-rP")
        self.assertRegex(said, r"\b2 passed in ")
        self.assertNotIn("repeat its replay", said)
        names = sorted(path.name for path in (self.folder / "records").iterdir())
        self.assertEqual(names, ["test_given.py-test_a_delay-0.txt", "test_given.py-test_a_delay-900.txt"])
        record = (self.folder / "records/test_given.py-test_a_delay-900.txt").read_text()
        self.assertIn('\n0 SendMessage {"QueueUrl": "http://localhost:9324/000000000000/jobs", "MessageBody": "a", "DelaySeconds": 900}\n', record)

    @needs_boto3
    def test_a_failing_test_says_what_repeats_it(self):
        said = self.said(FAILING, "--jutkariq-record=records")
        self.assertRegex(said, r"\b3 failed in ")
        wanted = "sqs_replay records/test_given.py-test_it.toml < records/test_given.py-test_it.txt"
        self.assertIn("repeat its replay -----", said)
        self.assertIn(f"\n{wanted}\n", said)
        self.assertIn("\nsqs_replay records/test_given.py-test_it_.toml < records/test_given.py-test_it_.txt\n", said)
        self.assertEqual(said.count("repeat its replay"), 2)
        command = wanted.replace("sqs_replay", shlex.quote(self.program), 1)
        again = subprocess.run(command, shell=True, cwd=self.folder, capture_output=True, text=True, check=True).stdout
        self.assertIn('"ApproximateNumberOfMessages":"1"', again.splitlines()[-1])

    def test_names_that_would_be_the_same_are_told_apart(self):
        text = 'import pytest\n\n@pytest.mark.parametrize("it", ["a/b", "a b"])\ndef test_it(sqs_clock, it):\n    pass\n'
        self.assertRegex(self.said(text, "--jutkariq-record=records"), r"\b2 passed in ")
        names = sorted(path.name for path in (self.folder / "records").iterdir())
        self.assertEqual(names, ["test_given.py-test_it-a-b-too.txt", "test_given.py-test_it-a-b.txt"])

    @needs_boto3
    @needs_server
    def test_a_server_for_each_test(self):
        self.assertRegex(self.said(SERVER), r"\b2 passed in ")

    def test_there_is_no_program(self):
        self.program = "/nowhere/sqs_replay"
        self.assertIn("JUTKARIQ_REPLAY names /nowhere/sqs_replay", self.said(PASSING))


if __name__ == "__main__":
    unittest.main()
