"""A replay for each test of a `unittest.TestCase`."""

from __future__ import annotations

from typing import Any, Callable, Optional

from jutkariq.programs import FilePath
from jutkariq.replay import Replay


class ReplayMixin:
    """Gives each test of a `unittest.TestCase`, which stands behind it in the list of base classes, a replay of its own.

    `replay` is the replay and `sqs` a boto3 client of it. The configuration is that of `sqs_config`, a file or a text.
    """

    sqs_config: Optional[FilePath] = None
    replay: Replay
    sqs: Any
    addCleanup: Callable[..., Any]

    def setUp(self) -> None:
        """Starts the replay before the test, which ends it."""
        super().setUp()  # type: ignore[misc]
        self.replay = Replay(config=self.sqs_config)
        self.addCleanup(self.replay.close)
        self.sqs = self.replay.client()
