"""Fixtures for pytest: `sqs`, `sqs_clock` and `sqs_server`, and the option `--jutkariq-record`."""

from __future__ import annotations

import re
from pathlib import Path
from typing import Any, Dict, Iterator, Optional

import pytest

from jutkariq.programs import FilePath, configuration_of
from jutkariq.replay import Replay
from jutkariq.server import Server

REPEAT = pytest.StashKey[str]()
TAKEN = pytest.StashKey[Dict[str, str]]()


def pytest_addoption(parser: pytest.Parser) -> None:
    """Adds the option."""
    text = "write each replay of the fixtures `sqs` and `sqs_clock` to a file in DIR, whose name is that of the test"
    parser.getgroup("jutkariq").addoption("--jutkariq-record", metavar="DIR", help=text)


@pytest.fixture
def sqs_config() -> Optional[FilePath]:
    """The configuration of the replay or server of a test: a file or a text. A fixture of the same name in a test takes its place."""
    return None


@pytest.fixture
def sqs_clock(request: pytest.FixtureRequest, sqs_config: Optional[FilePath]) -> Iterator[Replay]:
    """A fresh replay, which ends with the test: its clock, its counts and all else that a `Replay` has."""
    with Replay(config=sqs_config, record=record_of(request.node, sqs_config)) as replay:
        yield replay


@pytest.fixture
def sqs(sqs_clock: Replay) -> Any:
    """A boto3 client of the test's replay."""
    return sqs_clock.client()


@pytest.fixture
def sqs_server(sqs_config: Optional[FilePath]) -> Iterator[Server]:
    """A fresh server at free ports, which ends with the test."""
    with Server(config=sqs_config) as server:
        yield server


def record_of(item: pytest.Item, config: Optional[FilePath]) -> Optional[Path]:
    """Returns the file that a test's replay is written to, or None without the option. A configuration is copied beside it."""
    folder = item.config.getoption("--jutkariq-record")
    if not folder:
        return None
    Path(folder).mkdir(parents=True, exist_ok=True)
    record = Path(folder, f"{name_for(item)}.txt")
    words = "sqs_replay"
    if config is not None:
        beside = record.with_suffix(".toml")
        beside.write_bytes(configuration_of(config))
        words += f" {beside}"
    item.stash[REPEAT] = f"{words} < {record}"
    return record


def name_for(item: pytest.Item) -> str:
    """Returns a name for the files of a test, which no other test of this run has."""
    nothing: Dict[str, str] = {}
    taken = item.config.stash.setdefault(TAKEN, nothing)
    name = re.sub(r"[^\w.-]+", "-", item.nodeid)[-200:].strip("-")
    while taken.setdefault(name, item.nodeid) != item.nodeid:
        name += "-too"
    return name


@pytest.hookimpl(hookwrapper=True)  # type: ignore[misc]
def pytest_runtest_makereport(item: pytest.Item) -> Iterator[None]:
    """Says behind a test that has failed how its replay is repeated."""
    outcome: Any = yield
    report = outcome.get_result()
    if report.failed and REPEAT in item.stash:
        report.sections.append(("repeat its replay", item.stash[REPEAT]))
