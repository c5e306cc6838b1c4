"""A service that a check starts, kills and starts again."""

import os
import re
import signal
import subprocess
import time

from answering import Client
from needs import TOP

SECONDS_OF_A_SERVICE = 3600


class Served:
    """A service on a store, in a process of its own, which ends by itself after an hour."""

    def __init__(self, program: str, folder: str) -> None:
        self.folder = folder
        self._environment = {**os.environ, "OAT": program}
        self._port = 0
        self.kills = 0
        self.peak = 0
        self.start()

    def start(self) -> None:
        """Starts the service, at the port that it had before, and waits until it serves."""
        words = [os.path.join(TOP, "service/start"), self.folder, "--port", str(self._port), "--seconds", str(SECONDS_OF_A_SERVICE)]
        with open(self.folder + ".log", "a") as log:
            self._process = subprocess.Popen(
                words, env=self._environment, stdin=subprocess.DEVNULL, stdout=subprocess.PIPE, stderr=log, text=True
            )
        assert self._process.stdout
        lines = [self._process.stdout.readline() for _ in range(3)]
        found = re.match(r"address (\S+:([0-9]+))\ntoken   (\S+)\n", "".join(lines))
        if not found:
            raise RuntimeError(f"the service didn't start: see {self.folder}.log")
        self.address, self._port, self.token = found[1], int(found[2]), found[3]

    def owner(self) -> Client:
        return Client(self.address, self.token)

    def device(self) -> Client:
        return Client(self.address)

    def memory(self) -> int:
        """The most memory, in MiB, that its process, or one that was killed, had so far."""
        try:
            with open(f"/proc/{self._process.pid}/status") as file:
                now = int(re.search(r"VmHWM:\s+([0-9]+) kB", file.read())[1]) // 1024
        except (OSError, TypeError):
            now = 0
        self.peak = max(self.peak, now)
        return self.peak

    def kill(self) -> None:
        """Kills its process (kill -9), at whatever it was."""
        self.memory()
        self._process.kill()
        self._process.wait()
        self.kills += 1

    def stop(self) -> None:
        self.memory()
        if self._process.poll() is None:
            self._process.send_signal(signal.SIGTERM)
            try:
                self._process.wait(20)
            except subprocess.TimeoutExpired:
                self._process.kill()
                self._process.wait()


def audit(program: str, folder: str) -> tuple[int, str]:
    """The status and the line of `service/audit`."""
    words = [os.path.join(TOP, "service/audit"), folder]
    done = subprocess.run(words, env={**os.environ, "OAT": program}, capture_output=True, text=True, stdin=subprocess.DEVNULL)
    return done.returncode, (done.stdout + done.stderr).strip()


def wait_until(holds, seconds: float, pause: float = 0.1) -> bool:
    """Whether something came to hold within so many seconds."""
    end = time.monotonic() + seconds
    while not holds():
        if time.monotonic() > end:
            return False
        time.sleep(pause)
    return True
