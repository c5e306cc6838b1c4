"""Bodies that no service should fall over: malformed ones, and one without end."""

import json
import random
import socket
from collections import Counter
from typing import Any

from gate import ANSWER_LIMIT
from load import by_clients, have
from served import Served

GIBIBYTE = 1024**3
PIECE = b"x" * 65536


def malformed(draws: random.Random, frame: bytes) -> tuple[str, str, bytes, bool]:
    """A call that has to be refused: its method, path and body, and whether it has the owner's token."""
    answers = "/scripts/1/answers"
    damaged = bytearray(frame)
    damaged[draws.randrange(len(damaged))] ^= 1 << draws.randrange(8)
    operations = [b"", b"[]", b"{}", b'{"operation": 0}', b'{"operation": 9}', b"\xff", b"[" * 2000]
    return draws.choice(
        [
            ("POST", answers, draws.randbytes(draws.randrange(0, 400)), False),
            ("POST", answers, draws.randbytes(draws.randrange(0, ANSWER_LIMIT)), False),
            ("POST", answers, frame[: draws.randrange(len(frame))], False),
            ("POST", answers, frame + draws.randbytes(draws.randrange(1, 50)), False),
            ("POST", answers, bytes(damaged), False),
            ("POST", answers, draws.randbytes(ANSWER_LIMIT + draws.randrange(1, 5000)), False),
            ("POST", f"/scripts/{draws.randrange(2, 10**12)}/answers", frame, False),
            ("POST", "/devices", draws.randbytes(draws.randrange(0, 3000)), False),
            ("POST", "/devices", draws.randbytes(draws.randrange(0, 3000)), True),
            ("POST", "/devices", json.dumps({"id": draws.choice([-1, 2**40, "x", None, 1]), "image": 7, "key": "0"}).encode(), True),
            ("POST", "/devices/1/challenges", draws.choice(operations), True),
            ("POST", f"/devices/{draws.randrange(2, 10**12)}/challenges", b'{"operation": 1}', True),
            ("GET", f"/devices/{draws.choice(['x', '-1', '9' * 30, '%00'])}/challenge", b"", False),
            ("GET", f"/challenges/{draws.choice(['1', '1.9', '9.0', '..', '%2e%2e', '1.0.0'])}", b"", True),
            ("PUT", "/devices", draws.randbytes(100), True),
        ]
    )


def send_malformed(served: Served, frame: bytes, count: int) -> Counter:
    """Sends malformed bodies by the clients at once: each has to be refused with what and where. The statuses are counted."""

    def client(number: int, places: list[Any]) -> Counter:
        draws, statuses = random.Random(number), Counter()
        owner, device = served.owner(), served.device()
        for _ in places:
            method, path, body, by_owner = malformed(draws, frame)
            status, answer = (owner if by_owner else device).call(method, path, body or None)
            have(400 <= status < 500, f"{method} {path} was answered with {status}: {answer[:200]!r}")
            told = json.loads(answer)
            have(bool(told.get("what")) and bool(told.get("where")), f"{method} {path} was refused without what and where: {told}")
            statuses[status] += 1
        return statuses

    return sum(by_clients(client, range(count)), Counter())


def send_endless(served: Served, told: bool) -> int:
    """Sends 1 GiB in one body, whose length is told before or not, as long as the service takes it: how many bytes it took."""
    host, port = served.address.removeprefix("http://").split(":")
    length = f"Content-Length: {GIBIBYTE}" if told else "Transfer-Encoding: chunked"
    sent = 0
    with socket.create_connection((host, int(port)), timeout=60) as connection:
        connection.sendall(f"POST /scripts/1/answers HTTP/1.1\r\nHost: {host}\r\n{length}\r\n\r\n".encode())
        try:
            while sent < GIBIBYTE:
                connection.sendall(PIECE if told else b"%x\r\n%s\r\n" % (len(PIECE), PIECE))
                sent += len(PIECE)
        except (BrokenPipeError, ConnectionResetError):
            pass
    return sent
