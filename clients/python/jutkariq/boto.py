"""Clients and resources of boto3, which is imported only here, and only where one is made."""

from __future__ import annotations

import functools
import io
import threading
from typing import Any, Callable, Dict, Iterator, Optional

from jutkariq.answers import Answer

Ask = Callable[[str, bytes], Answer]

# Neither a session of boto3 nor what it keeps of services may be used by two threads at a time.
_MAKING = threading.Lock()


@functools.lru_cache(maxsize=None)
def _session() -> Any:
    """Returns the session that all clients come from: to read what boto3 knows of SQS takes a while."""
    import boto3  # type: ignore[import]

    return boto3.session.Session(aws_access_key_id="x", aws_secret_access_key="x", region_name="elasticmq")


def made(kind: str, ask: Optional[Ask], options: Dict[str, Any]) -> Any:
    """Returns a "client" or a "resource" for SQS. Its requests go to `ask`, where that is given, and else to the option `endpoint_url`."""
    from botocore.config import Config  # type: ignore[import]

    config = Config(retries={"total_max_attempts": 1}, proxies={}).merge(options.get("config") or Config())
    with _MAKING:
        it = getattr(_session(), kind)("sqs", **{"endpoint_url": "http://localhost:9324", **options, "config": config})
    if ask:
        client = it if kind == "client" else it.meta.client
        client.meta.events.register("before-send.sqs", functools.partial(_answered, ask))
    return it


def _answered(ask: Ask, request: Any, **_: Any) -> Any:
    """Returns the response to a request of boto3, in the place of one that comes over a network."""
    from botocore.awsrequest import AWSResponse  # type: ignore[import]

    target = request.headers.get("X-Amz-Target")
    if target is None:
        raise RuntimeError("this boto3 speaks the older protocol of SQS: 1.28.82 or later is needed")
    action = (target.decode() if isinstance(target, bytes) else target).rpartition(".")[2]
    answer = ask(action, request.body)
    body = answer.text.encode()
    headers = {"Content-Type": "application/x-amz-json-1.0", "Content-Length": str(len(body))}
    return AWSResponse(request.url, answer.status, headers, _Body(body))


class _Body(io.BytesIO):
    """The bytes of a response as boto3 reads them."""

    def stream(self, **_: Any) -> Iterator[bytes]:
        """Gives the bytes in one piece."""
        yield self.read()
