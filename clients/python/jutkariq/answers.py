"""What queues answer, as a replay and a server tell it."""

from __future__ import annotations

import json
from abc import ABC, abstractmethod
from typing import Any, Mapping, NamedTuple, TypedDict, Union

COUNTED = ("ApproximateNumberOfMessages", "ApproximateNumberOfMessagesDelayed", "ApproximateNumberOfMessagesNotVisible")


class Answer(NamedTuple):
    """The answer to one request: its status of HTTP, and its text, which is JSON."""

    status: int
    text: str


class Counts(NamedTuple):
    """How many messages of a queue are visible, delayed and in flight."""

    visible: int
    delayed: int
    in_flight: int


class Current(TypedDict):
    """What has happened to a queue in the minute that its clock is in."""

    deadLettersArrived: int
    deleted: int
    emptyReceives: int
    received: int
    refused: int
    sent: int
    sentSize: int


class Statistics(TypedDict):
    """The numbers of a queue. The page docs/PROFILE.md, section 24, says what each is."""

    age: int
    clock: int
    current: Current
    delayed: int
    inFlight: int
    lines: int
    name: str
    visible: int


class Row(TypedDict):
    """What has happened to a queue in a minute that is over, and how it stood at the end of it."""

    age: int
    deadLettersArrived: int
    delayed: int
    deleted: int
    emptyReceives: int
    inFlight: int
    minute: int
    received: int
    refused: int
    sent: int
    sentSize: int
    visible: int


class Refused(RuntimeError):
    """A request that was not made with boto3 was refused. `answer` has the whole answer, and `name` the name of the refusal, if it has one."""

    def __init__(self, asked: str, answer: Answer) -> None:
        super().__init__(f"{asked}: {answer.status} {answer.text}")
        self.answer = answer
        self.name = str(json.loads(answer.text).get("__type", "")).rpartition("#")[2]


def name_of(queue: str) -> str:
    """Returns the name of a queue of which the name, the URL or a path is given: what stands behind the last slash."""
    return queue.rpartition("/")[2]


def success_of(asked: str, answer: Answer) -> Any:
    """Returns what an answer holds, which must be a success."""
    if answer.status != 200:
        raise Refused(asked, answer)
    return json.loads(answer.text)


class Queues(ABC):
    """What a replay and a server have in common. A queue is given by its name or by its URL."""

    @abstractmethod
    def ask(self, action: str, request: Union[Mapping[str, Any], bytes]) -> Answer:
        """Asks for one action of SQS, without boto3, and returns the answer, which may be a refusal."""

    def counts(self, queue: str) -> Counts:
        """Returns how many messages are visible, delayed and in flight now."""
        asked = {"QueueUrl": queue, "AttributeNames": COUNTED}
        attributes = success_of(f"counts of {queue}", self.ask("GetQueueAttributes", asked))["Attributes"]
        return Counts(*(int(attributes[name]) for name in COUNTED))
