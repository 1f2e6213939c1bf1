"""What docs/TESTING.md and README.md show is run here as it stands there, and says what stands there."""

import importlib.util
import os
import re
import shlex
import shutil
import subprocess
import sys
import unittest

from support import FOLDER, has_server, needs_boto3, needs_server, room, script
from test_fixtures import for_pytest

from jutkariq import Replay
from jutkariq.programs import find_program

PAGE = FOLDER.parent.parent / "docs" / "TESTING.md"
FILE = re.compile(r"`([\w.]+)`:\n\n```\w+\n(.*?)^```\n", re.M | re.S)
RUN = re.compile(r"^```\n\$ (.+?)\n(.*?)^```\n", re.M | re.S)
# what the commands of each part of the page have in them, and no others
REPLAY, UNITTEST, SERVER, JAVASCRIPT, JAVA = "test_(consumer|configured|flaky)", "test_unit", "test_worker", r"delay\.mjs", r"Delay\.java"


@unittest.skipUnless(PAGE.is_file(), "the package does not stand in its repository")
class Page(unittest.TestCase):
    def setUp(self):
        self.folder = room(self)
        text = PAGE.read_text()
        for name, code in FILE.findall(text):
            (self.folder / name).write_text(code)
        for path in (PAGE.parent.parent / "clients" / "examples").iterdir():
            shutil.copy(path, self.folder)
        self.runs = RUN.findall(text)
        (self.folder / "bin").mkdir()
        replay = find_program("sqs_replay", None, "JUTKARIQ_REPLAY")
        programs = {"python": sys.executable, "sqs_replay": replay}
        if has_server():
            programs["sqs_server"] = find_program("sqs_server", None, "JUTKARIQ_SERVER")
        for name, path in programs.items():
            script(self.folder / "bin", name, f'#!/bin/sh\nexec {shlex.quote(os.path.abspath(path))} "$@"\n')
        # as the page has it, the programs are found on the PATH
        self.environment = {**for_pytest(replay), "PATH": os.pathsep.join([str(self.folder / "bin"), os.environ["PATH"]])}
        for name in ("JUTKARIQ_REPLAY", "JUTKARIQ_SERVER", "JUTKARIQ_LOG"):
            self.environment.pop(name, None)

    def check(self, words):
        """Runs the commands that have these words, and compares what each prints, but for the seconds that it took."""
        chosen = [(command, wanted) for command, wanted in self.runs if re.search(words, command)]
        self.assertTrue(chosen)
        for command, wanted in chosen:
            ran = subprocess.run(command, shell=True, cwd=self.folder, env=self.environment, capture_output=True, text=True)
            said = [re.sub(r"\d+\.\d+s", "0.0s", text) for text in (ran.stdout, wanted)]
            self.assertEqual(*said, f"{command}\n{ran.stderr}")

    @needs_boto3
    def test_what_the_two_readme_show(self):
        for folder in (FOLDER, PAGE.parent.parent):
            shown = re.findall(r"^```python\n(def (test_\w+)\(sqs, sqs_clock\):.*?)^```\n", (folder / "README.md").read_text(), re.M | re.S)
            self.assertEqual(len(shown), 1)
            names = {}
            exec(shown[0][0], names)
            with Replay() as replay:
                names[shown[0][1]](replay.client(), replay)

    def test_each_command_is_run_by_a_test_below(self):
        for command, _ in self.runs:
            self.assertEqual(sum(bool(re.search(words, command)) for words in (REPLAY, UNITTEST, SERVER, JAVASCRIPT, JAVA)), 1, command)

    @needs_boto3
    @unittest.skipUnless(importlib.util.find_spec("pytest"), "pytest is not installed")
    def test_pytest(self):
        self.check(REPLAY)

    @needs_boto3
    @needs_server
    @unittest.skipUnless(importlib.util.find_spec("pytest"), "pytest is not installed")
    def test_server(self):
        self.check(SERVER)

    @needs_boto3
    def test_unittest(self):
        self.check(UNITTEST)

    @unittest.skipUnless(shutil.which("node"), "node is not installed")
    def test_javascript(self):
        self.check(JAVASCRIPT)

    @unittest.skipUnless(shutil.which("java"), "java is not installed")
    def test_java(self):
        self.check(JAVA)


if __name__ == "__main__":
    unittest.main()
