"""The gate before every handler: who may call, and how much is read of a body.

It stands before the framework, so that nothing is read of a body that nobody may send, and no more than its limit of any other."""

import asyncio
import hashlib
import hmac
import json
import re
from dataclasses import dataclass
from typing import Any, Awaitable, Callable, MutableMapping, Optional

Scope = MutableMapping[str, Any]
Message = MutableMapping[str, Any]
Receive = Callable[[], Awaitable[Message]]
Send = Callable[[Message], Awaitable[None]]
Application = Callable[[Scope, Receive, Send], Awaitable[None]]

SECONDS_OF_A_BODY = 20
KIBIBYTE = 1024

# 1,024 answers of a script, by two digits a byte, and its other lines are below the 64 MiB that a script may have.
ANSWER_LIMIT = 31 * KIBIBYTE
ENROL_LIMIT = 2 * KIBIBYTE * KIBIBYTE


@dataclass(frozen=True)
class Rule:
    """Of the calls with a method and a path: the longest body, and whether they need the owner's token."""

    method: str
    path: str
    limit: int
    owner: bool

    def holds_of(self, scope: Scope) -> bool:
        return scope["method"] in self.method.split("|") and re.fullmatch(self.path, scope["path"]) is not None


# The first rule that holds is taken.
RULES = [
    Rule("POST", r"/scripts/[0-9]+/answers", ANSWER_LIMIT, owner=False),
    Rule("GET", r"/devices/[0-9]+/challenge", 0, owner=False),
    Rule("GET|HEAD", r"/|/page/.*|/docs.*|/openapi\.json|/keys", 0, owner=False),
    Rule("POST", r"/devices", ENROL_LIMIT, owner=True),
    Rule("POST", r".*", 4 * KIBIBYTE, owner=True),
]
OTHERWISE = Rule("", "", 0, owner=True)


class TooLong(Exception):
    pass


class Gone(Exception):
    """Whoever called went away before the body's end."""


class Gate:
    """An application before another: it calls that one for those calls alone that its rules let through, with their whole body."""

    def __init__(self, application: Application, digest_of_token: str) -> None:
        self._application, self._digest = application, digest_of_token

    async def __call__(self, scope: Scope, receive: Receive, send: Send) -> None:
        if scope["type"] != "http":
            await self._application(scope, receive, send)
            return
        rule = next((rule for rule in RULES if rule.holds_of(scope)), OTHERWISE)
        if rule.owner and not self._is_owner(scope):
            await refuse(send, 401, "the owner's token is needed", "header Authorization", [(b"www-authenticate", b"Bearer")])
            return
        try:
            body = await asyncio.wait_for(whole_body(scope, receive, rule.limit), SECONDS_OF_A_BODY)
        except TooLong:
            await refuse(send, 413, f"the body has more than {rule.limit} bytes", "body")
        except asyncio.TimeoutError:
            await refuse(send, 408, f"the body didn't end within {SECONDS_OF_A_BODY} s", "body")
        except Gone:
            pass
        else:
            await self._application(scope, read_once(body, receive), send)

    def _is_owner(self, scope: Scope) -> bool:
        words = (header(scope, b"authorization") or b"").split(b" ")
        digest = hashlib.sha256(words[-1]).hexdigest()
        return len(words) == 2 and words[0].lower() == b"bearer" and hmac.compare_digest(digest, self._digest)


def header(scope: Scope, name: bytes) -> Optional[bytes]:
    return next((value for key, value in scope["headers"] if key == name), None)


async def whole_body(scope: Scope, receive: Receive, limit: int) -> bytes:
    """The body, of which no more is kept than the limit."""
    length = header(scope, b"content-length")
    if length is not None and int(length) > limit:
        raise TooLong
    body = bytearray()
    while True:
        message = await receive()
        if message["type"] == "http.disconnect":
            raise Gone
        body += message.get("body", b"")
        if len(body) > limit:
            raise TooLong
        if not message.get("more_body", False):
            return bytes(body)


def read_once(body: bytes, receive: Receive) -> Receive:
    """What receives a body that was read, and then what comes behind it."""
    pieces = [body]

    async def read() -> Message:
        if pieces:
            return {"type": "http.request", "body": pieces.pop(), "more_body": False}
        return await receive()

    return read


async def refuse(send: Send, status: int, what: str, where: str, headers: list[tuple[bytes, bytes]] = []) -> None:
    """Answers an error, and lets the server close the connection, since the body may not have been read."""
    body = json.dumps({"what": what, "where": where}).encode()
    own = [(b"content-type", b"application/json"), (b"content-length", str(len(body)).encode()), (b"connection", b"close")]
    await send({"type": "http.response.start", "status": status, "headers": [*own, *headers]})
    await send({"type": "http.response.body", "body": body})
