"""A record of a run, given to the program again, is answered the same to the byte."""

import subprocess
import unittest
from pathlib import Path

from support import ReplayCase, room, script

from jutkariq.programs import find_program

CONFIG = '[[queue]]\nname = "jobs"\nvisibility_timeout = 7\n'

# Runs the program, and keeps a copy of what it answers.
KEEPING = """
import subprocess, sys
run = subprocess.Popen([{program!r}, *sys.argv[1:]], stdout=subprocess.PIPE)
with open({answers!r}, "wb") as copy:
    for line in run.stdout:
        copy.write(line)
        copy.flush()
        sys.stdout.buffer.write(line)
        sys.stdout.flush()
sys.exit(run.wait())
"""


class Record(ReplayCase):
    def setUp(self):
        self.program = find_program("sqs_replay", None, "JUTKARIQ_REPLAY")
        self.folder = room(self)
        self.answers = str(self.folder / "answers")
        keeping = script(self.folder, "keeping", KEEPING.format(program=self.program, answers=self.answers))
        self.replay = self.started(program=keeping, config=CONFIG, record=self.folder / "run.txt")

    def test_it_is_answered_the_same(self):
        self.send("Umlaut ä and \u2028", DelaySeconds=2)
        self.assertEqual(self.bodies(WaitTimeSeconds=20), ["Umlaut ä and \u2028"])
        self.assertEqual(self.bodies(WaitTimeSeconds=20), ["Umlaut ä and \u2028"])
        self.assertEqual(self.refused("Nothing"), "UnsupportedOperation")
        self.replay.advance(minutes=5)
        self.assertEqual(len(self.replay.rows("jobs")), 5)
        self.replay.close()
        (self.folder / "config.toml").write_text(CONFIG)
        with open(self.folder / "run.txt", "rb") as record:
            again = subprocess.run([self.program, self.folder / "config.toml"], stdin=record, capture_output=True, check=True)
        self.assertIn(b"Umlaut", again.stdout)
        self.assertEqual(again.stdout, Path(self.answers).read_bytes())

    def test_each_line_is_there_at_once(self):
        self.replay.advance(milliseconds=5)
        self.done("ListQueues")
        self.assertEqual((self.folder / "run.txt").read_bytes(), b"0 Tick {}\n5 ListQueues {}\n")


if __name__ == "__main__":
    unittest.main()
