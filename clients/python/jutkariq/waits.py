"""When a receive that waits is done, as a clock has it that only a test moves."""

from __future__ import annotations

import json
from typing import Any, Callable, Dict, List, Mapping, Optional, Set

from jutkariq.answers import Answer, name_of

# What makes a message visible some seconds later, and the member that says how many. A setting of the queue of the same name counts without it.
DUE = {
    "SendMessage": "DelaySeconds",
    "SendMessageBatch": "DelaySeconds",
    "ReceiveMessage": "VisibilityTimeout",
    "ChangeMessageVisibility": "VisibilityTimeout",
    "ChangeMessageVisibilityBatch": "VisibilityTimeout",
}
SETTINGS = ("DelaySeconds", "VisibilityTimeout", "ReceiveMessageWaitTimeSeconds")
VISIBLE = "ApproximateNumberOfMessages"

# A receive asked of this queue is refused for what is wrong with it, and otherwise because there is no such queue.
NO_QUEUE = "this-name-is-for-no-queue-so-that-a-request-can-be-judged-without-doing-it"

Line = Callable[[str, Mapping[str, Any], int], Answer]


class Waits:
    """The moments at which messages may become visible by time alone, gathered from all requests that pass.

    Each end of a delay or of a timeout is such a moment, and there is no other. Some are of messages that are gone by then; so at each one
    the program itself is asked whether a message is visible. Who uses it lets every request pass, and one at a time.
    """

    def __init__(self, line: Line) -> None:
        self._line = line
        self._due: Dict[str, Set[int]] = {}
        self._settings: Dict[str, Dict[str, int]] = {}

    def passed(self, action: str, request: Mapping[str, Any], answer: Answer, moment: int) -> None:
        """Takes note of a request that was answered at a moment."""
        if answer.status != 200:
            return
        if action in ("CreateQueue", "SetQueueAttributes", "DeleteQueue"):
            self._settings.pop(name_of(request["QueueName" if action == "CreateQueue" else "QueueUrl"]), None)
        elif action in DUE and not (action == "ReceiveMessage" and answer.text == "{}"):
            queue = name_of(request["QueueUrl"])
            for entry in request.get("Entries") or [request]:
                seconds = self._seconds(queue, entry, DUE[action], moment)
                if seconds:
                    self._due.setdefault(queue, set()).add(moment + 1000 * seconds)

    def moment_of(self, request: Mapping[str, Any], now: int) -> int:
        """Returns the moment at which a receive that is asked now is done: Replay says which. The program is asked at moments up to that one."""
        if not isinstance(request.get("QueueUrl"), str):
            return now
        queue = name_of(request["QueueUrl"])
        wait = self._seconds(queue, request, "ReceiveMessageWaitTimeSeconds", now, "WaitTimeSeconds")
        if not wait or self._visible(queue, now) != 0 or self._is_refused(request, now):
            return now
        end = now + 1000 * wait
        for moment in self._due_after(queue, now):
            if moment > end:
                break
            if self._visible(queue, moment):
                return moment
        return end

    def _seconds(self, queue: str, entry: Mapping[str, Any], setting: str, moment: int, member: Optional[str] = None) -> Optional[int]:
        """Returns the seconds that a request or one of its entries says, or else a setting of the queue, or None where there is no such queue."""
        given: Optional[int] = entry.get(member or setting)
        if given is not None:
            return given
        if queue not in self._settings:
            found = self._attributes(queue, SETTINGS, moment)
            if not found:
                return None
            self._settings[queue] = found
        return self._settings[queue][setting]

    def _visible(self, queue: str, moment: int) -> Optional[int]:
        """Returns how many messages are visible at a moment, or None where there is no such queue."""
        return self._attributes(queue, [VISIBLE], moment).get(VISIBLE)

    def _attributes(self, queue: str, names: Any, moment: int) -> Dict[str, int]:
        """Asks the program for attributes of a queue at a moment; none where there is no such queue."""
        answer = self._line("GetQueueAttributes", {"QueueUrl": queue, "AttributeNames": names}, moment)
        attributes = json.loads(answer.text).get("Attributes", {})
        return {name: int(value) for name, value in attributes.items()}

    def _is_refused(self, request: Mapping[str, Any], now: int) -> bool:
        """Returns whether a receive is refused before a queue is looked at, without receiving anything."""
        answer = self._line("ReceiveMessage", {**request, "QueueUrl": NO_QUEUE}, now)
        return not json.loads(answer.text)["__type"].endswith("#QueueDoesNotExist")

    def _due_after(self, queue: str, now: int) -> List[int]:
        """Returns the moments after now at which messages may become visible, in order. Those that are over are forgotten."""
        self._due[queue] = {moment for moment in self._due.get(queue, ()) if moment > now}
        return sorted(self._due[queue])
