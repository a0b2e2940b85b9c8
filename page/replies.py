"""Replies of the server to questions."""

import json
from typing import NamedTuple


class Reply(NamedTuple):
    """The status of HTTP, and the body, which is JSON."""

    status: int
    body: bytes


def refusal(status: int, reason: str) -> Reply:
    """The reply with the reason why there is no answer."""
    return Reply(status, json.dumps({'refusal': reason}).encode())
