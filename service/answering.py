"""A device that answers challenges, as its simulation by `oat device` does."""

import json
import subprocess
import tempfile
import urllib.error
import urllib.request
from dataclasses import dataclass
from typing import Any, Optional

ANSWER = b"OATA\1"


class Unsealed(Exception):
    """The device's run came to no blob, or the program refused the image or the case."""


@dataclass(frozen=True)
class Asked:
    """What a challenge frame asks for (docs/FORMATS.md, "Frames")."""

    device: int
    operation: int
    nonce: bytes


def read_challenge(frame: bytes) -> Asked:
    return Asked(int.from_bytes(frame[5:9], "big"), int.from_bytes(frame[9:11], "big"), frame[11:])


def answer_frame(device: int, nonce: bytes, blob: bytes) -> bytes:
    return ANSWER + device.to_bytes(4, "big") + nonce + len(blob).to_bytes(4, "big") + blob


def forged(frame: bytes) -> bytes:
    """An answer whose last byte is another, so that its blob isn't under the key."""
    return frame[:-1] + bytes([frame[-1] ^ 1])


class Device:
    """Runs an image on a case, which has the device's key."""

    def __init__(self, program: str, image: str, case: str) -> None:
        self._program, self._image = program, image
        with open(case) as file:
            self._lines = file.read().splitlines()

    def _case(self, asked: Asked) -> str:
        """The case under a challenge's nonce, with one window of its operation."""
        own = [line for line in self._lines if line.split()[:1] not in (["nonce"], ["operation"], ["calls"])]
        return "\n".join([*own, f"nonce {asked.nonce.hex()}", f"operation {asked.operation}"]) + "\n"

    def answer(self, frame: bytes) -> bytes:
        """The answer frame to a challenge frame."""
        asked = read_challenge(frame)
        with tempfile.NamedTemporaryFile("w") as file:
            file.write(self._case(asked))
            file.flush()
            words = [self._program, "device", self._image, file.name]
            done = subprocess.run(words, capture_output=True, text=True, stdin=subprocess.DEVNULL)
        blobs = [line.split()[1] for line in done.stdout.splitlines() if line.startswith("blob ")]
        if not blobs:
            raise Unsealed(done.stderr.strip())
        return answer_frame(asked.device, asked.nonce, bytes.fromhex(blobs[0]))


class Client:
    """Calls of a service at an address, with the owner's token where one is given."""

    def __init__(self, address: str, token: Optional[str] = None, seconds: float = 60) -> None:
        self.address = address
        self._headers = {"Authorization": f"Bearer {token}"} if token else {}
        self._seconds = seconds

    def call(self, method: str, path: str, body: Any = None) -> tuple[int, bytes]:
        """The status and the body that a call is answered with. A body is sent as its bytes, or as JSON."""
        own = isinstance(body, bytes) or body is None
        headers = {**self._headers, "Content-Type": "application/octet-stream" if own else "application/json"}
        data = body if own else json.dumps(body).encode()
        request = urllib.request.Request(self.address + path, data, headers, method=method)
        try:
            with urllib.request.urlopen(request, timeout=self._seconds) as answer:
                return answer.status, answer.read()
        except urllib.error.HTTPError as refusal:
            with refusal:
                return refusal.code, refusal.read()

    def told(self, method: str, path: str, body: Any = None) -> Any:
        """What is told in JSON."""
        return json.loads(self.call(method, path, body)[1])
