"""Runs of `oat owner`, the one source of replies.

What is read here of a reply is its form alone (docs/FORMATS.md, "Frames"): which lines belong to one reply, and the words of its first
line. No frame is read, and no verdict is found, anywhere in the service."""

import os
import resource
import signal
import subprocess
from dataclasses import dataclass
from typing import Iterable, Optional

SECONDS = 20
OUTPUT_LIMIT = 64 * 1024 * 1024
LIMITS = {resource.RLIMIT_CPU: SECONDS, resource.RLIMIT_FSIZE: OUTPUT_LIMIT}
WANT_OF_MEMORY = 6

FIRST_WORDS = (b"challenge ", b"accepted ", b"refused ")


class NoReply(Exception):
    """The program gave no reply to a call: it refused the script, took too long, or wanted memory."""


class TooMuch(NoReply):
    """A run wanted memory, took more processor time than a run may, or put more."""


@dataclass(frozen=True)
class Reply:
    """A reply as it was put: its line, and behind an acceptance the path lines, each with its LF."""

    text: bytes

    @property
    def line(self) -> str:
        return self.text.split(b"\n", 1)[0].decode()

    @property
    def path(self) -> bytes:
        return self.text.split(b"\n", 1)[1]

    @property
    def issued(self) -> Optional[tuple[int, str]]:
        """The number and the frame of a challenge that was issued."""
        words = self.line.split(" ")
        return (int(words[1]), words[2]) if words[0] == "challenge" else None

    @property
    def accepted(self) -> Optional[int]:
        """The number of the challenge whose answer was accepted."""
        words = self.line.split(" ")
        return int(words[1]) if words[0] == "accepted" else None

    @property
    def refused(self) -> Optional[str]:
        """The kind of a refused answer: frame, device, challenge, spent or verdict."""
        words = self.line.split(" ")
        return words[2] if words[:2] == ["refused", "answer"] else None

    @property
    def verdict(self) -> Optional[tuple[int, str]]:
        """The challenge whose answer the verdict refused, and the cause."""
        words = self.line.split(" ", 4)
        return (int(words[3]), words[4]) if self.refused == "verdict" else None


def replies_of(text: bytes) -> list[Reply]:
    """The replies that a text has one behind the other."""
    replies: list[list[bytes]] = []
    for line in text.splitlines(keepends=True):
        if line.startswith(FIRST_WORDS) or not replies:
            replies.append([])
        replies[-1].append(line)
    return [Reply(b"".join(lines)) for lines in replies]


def script_of(devices: Iterable[str], calls: Iterable[str]) -> bytes:
    """The text of a script with these lines."""
    return "".join(line + "\n" for part in (devices, calls) for line in part).encode()


class Program:
    """The program `oat`, run in the folder that has the files which a script names."""

    def __init__(self, program: str, folder: str) -> None:
        self._program, self._folder = program, folder

    def put(self, script: bytes) -> bytes:
        """What `oat owner` puts for a script, which has keys: so it goes through a pipe, and into no file."""
        status, out, err = self._run(["owner", "/dev/stdin"], script)
        if status:
            line = err.decode(errors="replace").strip() or f"oat ended with status {status}"
            raise TooMuch(line) if status == WANT_OF_MEMORY else NoReply(line)
        return out

    def _run(self, words: list[str], text: bytes) -> tuple[int, bytes, bytes]:
        """The status and the outputs of a run. It reads the whole text before it puts anything, so its limits are set before that."""
        with open(os.memfd_create("out"), "w+b") as out:
            with subprocess.Popen(
                [self._program, *words], cwd=self._folder, stdin=subprocess.PIPE, stdout=out, stderr=subprocess.PIPE
            ) as run:
                for limit, most in LIMITS.items():
                    resource.prlimit(run.pid, limit, (most, most))
                _, err = run.communicate(text)
            if run.returncode < 0:
                raise TooMuch(f"a run was ended by {signal.Signals(-run.returncode).name}: {err[-1000:].decode(errors='replace')}")
            out.seek(0)
            return run.returncode, out.read(), err
