"""Tests of consumers of Amazon SQS in which the test holds the clock.

- `Replay`: queues of Jutkariq in a process of their own, over a pipe. Time passes there only where a test says so.
- `Server`: Jutkariq's server over HTTP, at free ports and at the time of this machine.
- `ReplayMixin`: a replay for each test of a `unittest.TestCase`. The fixtures for pytest stand in `jutkariq.pytest_plugin`.
"""

from jutkariq.answers import Answer, Counts, Current, Refused, Row, Statistics
from jutkariq.mixin import ReplayMixin
from jutkariq.programs import ProgramFailed, ProgramNotFound
from jutkariq.replay import Replay
from jutkariq.server import Server

__all__ = [
    "Answer", "Counts", "Current", "ProgramFailed", "ProgramNotFound", "Refused", "Replay", "ReplayMixin", "Row", "Server", "Statistics",
]
