"""Pictures of paths, by `picture/draw` where the repository has it."""

import os
import subprocess
import tempfile
import threading
from typing import Optional

from needs import TOP

SECONDS = 30
LIMIT = 4 * 1024 * 1024


class Painter:
    """Draws one picture at a time."""

    def __init__(self) -> None:
        self._script = os.path.join(TOP, "picture/draw")
        self._turn = threading.Lock()

    @property
    def is_here(self) -> bool:
        return os.access(self._script, os.X_OK)

    def draw(self, image: str, verdict: str, path: bytes) -> Optional[bytes]:
        """The picture of an image, and on it the path of a verdict; None where none was drawn."""
        if not self.is_here:
            return None
        with self._turn, tempfile.TemporaryDirectory() as folder:
            lines, drawn = os.path.join(folder, "path"), os.path.join(folder, "path.svg")
            with open(lines, "wb") as file:
                file.write(verdict.encode() + b"\n" + path)
            try:
                done = subprocess.run([self._script, image, lines, drawn], stdin=subprocess.DEVNULL, capture_output=True, timeout=SECONDS)
                if done.returncode or os.path.getsize(drawn) > LIMIT:
                    return None
                with open(drawn, "rb") as file:
                    return file.read()
            except (OSError, subprocess.TimeoutExpired):
                return None
