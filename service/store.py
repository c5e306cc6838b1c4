"""The store: devices, scripts and their calls, in SQLite.

A call is an issued challenge or an accepted answer: just those change what the owner replies later. Refused answers are counted.
Each method is one transaction, which is on the disk when the method returns (write-ahead log, full synchronization)."""

import hashlib
import os
import sqlite3
import threading
import time
from dataclasses import dataclass
from typing import Any, Iterable, Optional

from program import Reply

DEVICES_OF_A_SCRIPT = 16
CALLS_OF_AN_OPEN_SCRIPT = 1024

TABLES = """
CREATE TABLE IF NOT EXISTS devices (id INTEGER PRIMARY KEY, circle INTEGER NOT NULL, image TEXT NOT NULL, key BLOB NOT NULL,
    enrolled INTEGER NOT NULL);
CREATE TABLE IF NOT EXISTS scripts (number INTEGER PRIMARY KEY, circle INTEGER NOT NULL, calls INTEGER NOT NULL);
CREATE TABLE IF NOT EXISTS calls (script INTEGER NOT NULL, place INTEGER NOT NULL, line TEXT NOT NULL, reply BLOB NOT NULL,
    time INTEGER NOT NULL, PRIMARY KEY (script, place)) WITHOUT ROWID;
CREATE TABLE IF NOT EXISTS challenges (script INTEGER NOT NULL, number INTEGER NOT NULL, device INTEGER NOT NULL,
    operation INTEGER NOT NULL, nonce TEXT NOT NULL UNIQUE, frame TEXT NOT NULL, asked INTEGER NOT NULL, refused INTEGER NOT NULL,
    accepted INTEGER, place INTEGER, decided INTEGER, PRIMARY KEY (script, number)) WITHOUT ROWID;
CREATE INDEX IF NOT EXISTS challenges_of_devices ON challenges (device, decided);
CREATE INDEX IF NOT EXISTS open_challenges ON challenges (device, refused, script, number) WHERE accepted IS NULL;
CREATE TABLE IF NOT EXISTS refusals (script INTEGER NOT NULL, number INTEGER NOT NULL, kind TEXT NOT NULL, cause TEXT NOT NULL,
    count INTEGER NOT NULL, time INTEGER NOT NULL, PRIMARY KEY (script, number, kind)) WITHOUT ROWID;
CREATE TABLE IF NOT EXISTS counts (kind TEXT PRIMARY KEY, count INTEGER NOT NULL) WITHOUT ROWID;
"""


class Known(Exception):
    """A device with this id is enrolled."""


@dataclass(frozen=True)
class Call:
    """A line of a script. Of a challenge the device, operation and nonce are told too."""

    line: str
    challenge: Optional[tuple[int, int, str]] = None


def challenge_call(device: int, operation: int, nonce: str) -> Call:
    return Call(f"challenge {device} {operation} {nonce}", (device, operation, nonce))


def answer_call(frame: bytes) -> Call:
    return Call(f"answer {frame.hex()}")


@dataclass(frozen=True)
class Script:
    """The lines of a script that is kept, and the replies that were given to its calls."""

    devices: list[str]
    calls: list[str]
    replies: list[bytes]


def now() -> int:
    """Milliseconds since 1970."""
    return time.time_ns() // 1_000_000


class Store:
    """A store in a folder that the owner alone can read. Several threads may use it."""

    def __init__(self, folder: str) -> None:
        self.folder = folder
        os.makedirs(os.path.join(folder, "images"), mode=0o700, exist_ok=True)
        path = os.path.join(folder, "store.sqlite")
        os.close(os.open(path, os.O_CREAT | os.O_RDWR, 0o600))
        self._lock = threading.Lock()
        self._base = sqlite3.connect(path, check_same_thread=False, isolation_level=None, timeout=20)
        self._base.row_factory = sqlite3.Row
        self._base.execute("PRAGMA journal_mode = WAL")
        self._base.execute("PRAGMA synchronous = FULL")
        self._base.executescript(TABLES)

    def close(self) -> None:
        self._base.close()

    def _rows(self, query: str, *values: Any) -> list[dict[str, Any]]:
        with self._lock:
            return [dict(row) for row in self._base.execute(query, values)]

    def _row(self, query: str, *values: Any) -> Optional[dict[str, Any]]:
        rows = self._rows(query, *values)
        return rows[0] if rows else None

    # Devices

    def keep_image(self, text: bytes) -> str:
        """Writes an image's file, which is named by its digest, and answers the name."""
        digest = hashlib.sha256(text).hexdigest()
        folder = os.path.join(self.folder, "images")
        path = os.path.join(folder, digest)
        if not os.path.exists(path):
            part = f"{path}.{os.getpid()}.{threading.get_ident()}"
            with open(part, "wb") as file:
                file.write(text)
                file.flush()
                os.fsync(file.fileno())
            os.rename(part, path)
            holder = os.open(folder, os.O_RDONLY)
            os.fsync(holder)
            os.close(holder)
        return digest

    def drop_unused_images(self, digests: Optional[Iterable[str]] = None) -> None:
        """Removes those of some image files, or of all, that no device names: such as a refused enrolment leaves, or a cut off one."""
        used = {row["image"] for row in self._rows("SELECT DISTINCT image FROM devices")}
        folder = os.path.join(self.folder, "images")
        for name in set(os.listdir(folder) if digests is None else digests) - used:
            os.unlink(os.path.join(folder, name))

    def image_file(self, digest: str) -> str:
        return os.path.join(self.folder, "images", digest)

    def enrol(self, device: int, image: str, key: bytes) -> None:
        """Takes a device into the newest circle that has room: the devices of a circle share their scripts."""
        with self._lock, self._base:
            self._base.execute("BEGIN IMMEDIATE")
            if self._base.execute("SELECT 1 FROM devices WHERE id = ?", (device,)).fetchone():
                raise Known(device)
            circle, count = self._base.execute(
                "SELECT circle, count(*) FROM devices GROUP BY circle ORDER BY circle DESC LIMIT 1"
            ).fetchone() or (0, DEVICES_OF_A_SCRIPT)
            if count == DEVICES_OF_A_SCRIPT:
                circle += 1
                self._base.execute("INSERT INTO scripts (circle, calls) VALUES (?, 0)", (circle,))
            values = (device, circle, image, key, now())
            self._base.execute("INSERT INTO devices (id, circle, image, key, enrolled) VALUES (?, ?, ?, ?, ?)", values)

    def device(self, device: int) -> Optional[dict[str, Any]]:
        return self._row("SELECT id, circle, image, enrolled FROM devices WHERE id = ?", device)

    def devices(self) -> list[dict[str, Any]]:
        """All devices in the order of their ids, each with the number of its open challenges, and its last decided one."""
        return self._rows(
            """SELECT id, image, enrolled,
                (SELECT count(*) FROM challenges c WHERE c.device = d.id AND c.accepted IS NULL) AS open,
                (SELECT c.script || '.' || c.number FROM challenges c WHERE c.device = d.id AND c.decided IS NOT NULL
                    ORDER BY c.decided DESC LIMIT 1) AS last
            FROM devices d ORDER BY id"""
        )

    # Scripts

    def open_script(self, circle: int) -> int:
        """The script of the circle that takes new challenges: a new one where the last is closed."""
        with self._lock, self._base:
            self._base.execute("BEGIN IMMEDIATE")
            number, calls = self._base.execute(
                "SELECT number, calls FROM scripts WHERE circle = ? ORDER BY number DESC LIMIT 1", (circle,)
            ).fetchone()
            if calls >= CALLS_OF_AN_OPEN_SCRIPT:
                number = self._base.execute("INSERT INTO scripts (circle, calls) VALUES (?, 0)", (circle,)).lastrowid
            return number

    def scripts(self) -> list[int]:
        return [row["number"] for row in self._rows("SELECT number FROM scripts ORDER BY number")]

    def has_script(self, number: int) -> bool:
        return self._row("SELECT 1 FROM scripts WHERE number = ?", number) is not None

    def script(self, number: int) -> Optional[Script]:
        """A script as it is kept now."""
        with self._lock:
            found = self._base.execute("SELECT circle FROM scripts WHERE number = ?", (number,)).fetchone()
            if found is None:
                return None
            devices = self._base.execute("SELECT id, image, key FROM devices WHERE circle = ? ORDER BY id", (found[0],))
            lines = [f"device {row['id']} images/{row['image']} {row['key'].hex()}" for row in devices]
            kept = "SELECT line, CAST(reply AS BLOB) AS reply FROM calls WHERE script = ? ORDER BY place"
            calls = self._base.execute(kept, (number,)).fetchall()
            return Script(lines, [row["line"] for row in calls], [row["reply"] for row in calls])

    def keep(self, script: int, put: Iterable[tuple[Call, Reply]]) -> None:
        """Keeps the calls that were put to a script behind those that it had, with their replies, and counts the refused ones."""
        time = now()
        with self._lock, self._base:
            self._base.execute("BEGIN IMMEDIATE")
            place = self._base.execute("SELECT calls FROM scripts WHERE number = ?", (script,)).fetchone()[0]
            for call, reply in put:
                if reply.issued is not None or reply.accepted is not None:
                    values = (script, place, call.line, reply.text, time)
                    self._base.execute("INSERT INTO calls (script, place, line, reply, time) VALUES (?, ?, ?, ?, ?)", values)
                    self._note(script, call, reply, place, time)
                    place += 1
                elif reply.refused is not None:
                    self._count(script, reply, time)
            self._base.execute("UPDATE scripts SET calls = ? WHERE number = ?", (place, script))

    def _note(self, script: int, call: Call, reply: Reply, place: int, time: int) -> None:
        """What is looked up later of a kept call."""
        if reply.issued is not None and call.challenge is not None:
            number, frame = reply.issued
            values = (script, number, *call.challenge, frame, time)
            self._base.execute(
                """INSERT INTO challenges (script, number, device, operation, nonce, frame, asked, refused)
                VALUES (?, ?, ?, ?, ?, ?, ?, 0)""",
                values,
            )
        else:
            self._base.execute(
                "UPDATE challenges SET accepted = ?, decided = ?, place = ? WHERE script = ? AND number = ?",
                (time, time, place, script, reply.accepted),
            )

    def _count(self, script: int, reply: Reply, time: int) -> None:
        """Counts a refused answer: of a challenge by the first word of the cause, with the last one of each, and all by their kinds."""
        self._base.execute(
            "INSERT INTO counts (kind, count) VALUES (?, 1) ON CONFLICT (kind) DO UPDATE SET count = count + 1", (reply.refused,)
        )
        if reply.verdict is None:
            return
        number, cause = reply.verdict
        self._base.execute(
            """INSERT INTO refusals (script, number, kind, cause, count, time) VALUES (?, ?, ?, ?, 1, ?)
            ON CONFLICT (script, number, kind) DO UPDATE SET count = count + 1, cause = excluded.cause, time = excluded.time""",
            (script, number, cause.split(" ")[0], cause, time),
        )
        self._base.execute(
            """UPDATE challenges SET refused = refused + 1, decided = CASE WHEN accepted IS NULL THEN ? ELSE decided END
            WHERE script = ? AND number = ?""",
            (time, script, number),
        )

    # Challenges

    def uses_nonce(self, nonce: str) -> bool:
        return self._row("SELECT 1 FROM challenges WHERE nonce = ?", nonce) is not None

    def next_of(self, device: int) -> Optional[dict[str, Any]]:
        """The challenge that a device is to answer next: of those that are open, the first with the fewest refused answers."""
        return self._row(
            """SELECT script, number, frame FROM challenges WHERE device = ? AND accepted IS NULL
            ORDER BY refused, script, number LIMIT 1""",
            device,
        )

    def challenge(self, script: int, number: int) -> Optional[dict[str, Any]]:
        return self._row(
            "SELECT c.*, d.image FROM challenges c JOIN devices d ON d.id = c.device WHERE script = ? AND number = ?", script, number
        )

    def refusals(self, script: int, number: int) -> list[dict[str, Any]]:
        """The refused answers of a challenge by their causes, the last first."""
        return self._rows(
            "SELECT kind, cause, count, time FROM refusals WHERE script = ? AND number = ? ORDER BY time DESC", script, number
        )

    def challenges(self, only_open: bool, device: Optional[int], most: int) -> list[dict[str, Any]]:
        """The newest challenges, or the newest of those that are open, of one device or of all."""
        return self._rows(
            """SELECT c.*, d.image FROM challenges c JOIN devices d ON d.id = c.device
            WHERE (? OR c.accepted IS NULL) AND (? IS NULL OR c.device = ?)
            ORDER BY c.script DESC, c.number DESC LIMIT ?""",
            not only_open,
            device,
            device,
            most,
        )

    def reply(self, script: int, place: int) -> Reply:
        row = self._row("SELECT CAST(reply AS BLOB) AS reply FROM calls WHERE script = ? AND place = ?", script, place)
        assert row is not None
        return Reply(row["reply"])

    def counts(self) -> dict[str, int]:
        """How many answers were refused, by their kinds."""
        return {row["kind"]: row["count"] for row in self._rows("SELECT kind, count FROM counts ORDER BY kind")}
