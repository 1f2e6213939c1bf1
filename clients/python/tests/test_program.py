"""Where the program is looked for, and what is said where it is not there or ends."""

import os
import re
import signal
import stat
import threading
import unittest
from unittest import mock

from support import ReplayCase, room, script

from jutkariq import ProgramFailed, ProgramNotFound, Refused, Replay, programs
from jutkariq.programs import built_program, find_program

NAME, VARIABLE = "sqs_replay", "JUTKARIQ_REPLAY"


class Finding(unittest.TestCase):
    def setUp(self):
        self.folder = room(self)
        for place in ("bin", "repository/crates/sqs_replay/out", "repository/out/unproved", "elsewhere"):
            (self.folder / place).mkdir(parents=True)
        self.given = script(self.folder, "given", "")
        self.named = script(self.folder, "named", "")
        self.on_path = script(self.folder / "bin", NAME, "")
        self.proved = script(self.folder / "repository/crates/sqs_replay/out", NAME, "")
        self.unproved = script(self.folder / "repository/out/unproved", NAME, "")
        for patch in (
            mock.patch.dict(os.environ, {VARIABLE: str(self.named), "PATH": str(self.folder / "bin")}),
            mock.patch.object(programs, "__file__", str(self.folder / "elsewhere/programs.py")),
        ):
            patch.start()
            self.addCleanup(patch.stop)
        self.addCleanup(os.chdir, os.getcwd())
        os.chdir(self.folder / "repository/crates")

    def found(self, given=None):
        """Returns the path that is found, without links."""
        return os.path.realpath(find_program(NAME, given, VARIABLE))

    def test_the_order(self):
        self.assertEqual(self.found(self.given), os.path.realpath(self.given))
        self.assertEqual(self.found(), os.path.realpath(self.named))
        del os.environ[VARIABLE]
        self.assertEqual(self.found(), os.path.realpath(self.on_path))
        self.on_path.unlink()
        self.assertEqual(self.found(), os.path.realpath(self.proved))
        self.proved.chmod(stat.S_IRUSR)
        self.assertEqual(self.found(), os.path.realpath(self.unproved))

    def test_the_repository_of_the_package(self):
        os.chdir(self.folder / "elsewhere")
        self.assertIsNone(built_program(NAME))
        with mock.patch.object(programs, "__file__", str(self.folder / "repository/clients/python/programs.py")):
            self.assertEqual(os.path.realpath(built_program(NAME)), os.path.realpath(self.proved))

    def test_there_is_none(self):
        os.environ[VARIABLE] = ""
        os.environ["PATH"] = ""
        os.chdir(self.folder / "elsewhere")
        with self.assertRaisesRegex(ProgramNotFound, r"no sqs_replay.*JUTKARIQ_REPLAY.*`make build`.*`tools/compile sqs_replay`"):
            Replay()

    def test_what_is_named_must_be_there(self):
        with self.assertRaisesRegex(ProgramNotFound, "the argument `program` names /nowhere/it"):
            Replay(program="/nowhere/it")
        self.named.chmod(stat.S_IRUSR)
        with self.assertRaisesRegex(ProgramNotFound, "JUTKARIQ_REPLAY names .*/named"):
            Replay()


DYING = """
import sys
input()
print("200 {}", flush=True)
input()
print("200 {", end="", flush=True)
sys.exit("out of luck")
"""


class Ending(ReplayCase):
    def test_a_program_that_dies(self):
        self.queue()
        os.kill(self.replay._process.pid, signal.SIGKILL)
        for _ in range(2):
            with self.assertRaisesRegex(ProgramFailed, "/sqs_replay was ended by signal 9"):
                self.send()

    def test_a_program_that_dies_while_it_is_asked(self):
        program = script(room(self), "dying", DYING)
        replay = self.started(program=program)
        with self.assertRaisesRegex(ProgramFailed, "/dying has ended with status 1: out of luck"):
            replay.ask("ListQueues", {})

    def test_a_program_that_dies_frees_the_threads_that_wait_for_it(self):
        program = script(room(self), "stuck", 'import time\ninput()\nprint("200 {}", flush=True)\ntime.sleep(600)\n')
        replay = self.started(program=program)
        failures = []

        def ask():
            try:
                replay.ask("ListQueues", {})
            except ProgramFailed as error:
                failures.append(error)

        threads = [threading.Thread(target=ask) for _ in range(3)]
        for thread in threads:
            thread.start()
        os.kill(replay._process.pid, signal.SIGTERM)
        for thread in threads:
            thread.join(20)
        self.assertEqual(len(failures), 3)

    def test_an_answer_that_was_not_waited_for_is_not_taken_for_the_next(self):
        with mock.patch.object(self.replay, "_process", Interrupted(self.replay._process)):
            self.assertRaises(KeyboardInterrupt, self.replay.ask, "ListQueues", {})
        with self.assertRaisesRegex(ProgramFailed, "the replay was ended, since a request to it was interrupted"):
            self.replay.ask("CreateQueue", {"QueueName": "jobs"})

    def test_it_is_closed(self):
        with Replay() as replay:
            process = replay._process
        self.assertIsNotNone(process.returncode)
        replay.close()
        with self.assertRaisesRegex(ProgramFailed, "the replay was closed"):
            replay.ask("ListQueues", {})

    def test_a_program_that_is_another(self):
        program = script(room(self), "other", 'input()\nprint("hello", flush=True)\n')
        with self.assertRaisesRegex(ProgramFailed, "/other has ended with status 0"):
            Replay(program=program)


class Interrupted:
    """A process from which no answer is read, since Ctrl-C comes before."""

    def __init__(self, process):
        self.stdin, self.kill, self.stdout = process.stdin, process.kill, self

    def readline(self):
        raise KeyboardInterrupt


class Configuration(ReplayCase):
    def test_a_text_or_a_file(self):
        text = '[[queue]]\nname = "jobs"\n'
        file = room(self) / "queues.toml"
        file.write_text(text)
        for config in (text, file, str(file)):
            with Replay(config=config) as replay:
                self.assertEqual(replay.counts("jobs"), (0, 0, 0))

    def test_faults(self):
        with self.assertRaisesRegex(ProgramFailed, "/sqs_replay has ended with status 1: sqs_replay: config: UnknownKey"):
            Replay(config="[nothing]\n")
        file = room(self) / "queues.toml"
        file.write_text('[[queue]]\nname = "jobs"\ndelay_seconds = 901\n')
        where = f'{file}:3: [[queue]] "jobs": delay_seconds = 901 is not in 0 to 900'
        with self.assertRaisesRegex(ProgramFailed, rf"sqs_replay: config: OutOfRange\n{re.escape(where)}$"):
            Replay(config=file)
        self.assertRaises(FileNotFoundError, Replay, config="no such file.toml")


class Asking(ReplayCase):
    def test_a_request_is_one_line(self):
        self.assertRaises(ValueError, self.replay.ask, "ListQueues", b"{}\n5 Tick {}")
        self.assertRaises(ValueError, self.replay.ask, "Tick {}\n5 Tick", {})
        self.assertEqual(self.replay.ask("ListQueues", b'{"QueueNamePrefix":"x"}'), (200, '{"QueueUrls":[]}'))

    def test_a_refusal_of_what_is_asked_without_boto3(self):
        for asked in (self.replay.counts, self.replay.statistics, self.replay.rows, self.replay.alarms):
            with self.assertRaisesRegex(Refused, "none: 400") as caught:
                asked("none")
            self.assertEqual(caught.exception.name, "QueueDoesNotExist")


if __name__ == "__main__":
    unittest.main()
