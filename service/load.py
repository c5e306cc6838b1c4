"""Devices and owners in numbers: what is measured, and what has to hold whatever is lost, doubled, late, forged or killed."""

import http.client
import json
import os
import random
import sqlite3
import threading
import time
from collections import Counter, deque
from concurrent.futures import ThreadPoolExecutor
from dataclasses import dataclass, field
from typing import Any, Callable, Iterable, Optional

from answering import Client, Device, forged
from program import Program, replies_of, script_of
from served import Served, audit
from store import CALLS_OF_AN_OPEN_SCRIPT, DEVICES_OF_A_SCRIPT, Store

CLIENTS = 4
SECONDS_OF_PERSISTING = 120

LOSE, DOUBLE, DELAY, FORGE, REPEAT = 0.1, 0.1, 0.1, 0.1, 0.05


class Failure(Exception):
    """Something that has to hold doesn't."""


def have(holds: bool, text: str) -> None:
    if not holds:
        raise Failure(text)


@dataclass(frozen=True)
class Kind:
    """Devices of a kind have one image, and a case with their key."""

    image: str
    case: str

    def key(self) -> str:
        with open(self.case) as file:
            return next(line.split()[1] for line in file if line.startswith("key "))


@dataclass
class Fleet:
    """Devices by their ids."""

    program: str
    kinds: dict[int, Kind]
    devices: dict[int, Device] = field(init=False)

    def __post_init__(self) -> None:
        self.devices = {number: Device(self.program, kind.image, kind.case) for number, kind in self.kinds.items()}

    def enrol(self, owner: Client) -> None:
        for number, kind in self.kinds.items():
            with open(kind.image) as file:
                status, body = owner.call("POST", "/devices", {"id": number, "image": file.read(), "key": kind.key()})
            have(status == 201, f"device {number} wasn't enrolled: {body.decode()}")


def by_clients(work: Callable[[int, list[Any]], Any], items: Iterable[Any]) -> list[Any]:
    """Deals items to the clients, which work at once, and answers what each came to."""
    dealt: list[list[Any]] = [[] for _ in range(CLIENTS)]
    for place, item in enumerate(items):
        dealt[place % CLIENTS].append(item)
    with ThreadPoolExecutor(CLIENTS) as pool:
        return list(pool.map(work, range(CLIENTS), dealt))


@dataclass(frozen=True)
class Speed:
    """How many calls were answered a second, and how long they took, in milliseconds."""

    count: int
    seconds: float
    times: list[float]

    def part(self, share: float) -> float:
        return sorted(self.times)[min(len(self.times) - 1, int(share * len(self.times)))]

    def __str__(self) -> str:
        parts = f"median {self.part(0.5):.1f} ms, p99 {self.part(0.99):.1f} ms, longest {max(self.times):.1f} ms"
        return f"{self.count / self.seconds:.0f} a second, {parts}"


def timed(work: Callable[[Any], None], items: list[Any]) -> Speed:
    """Works on all items by the clients at once."""

    def client(_: int, mine: list[Any]) -> list[float]:
        times = []
        for item in mine:
            began = time.perf_counter()
            work(item)
            times.append(1000 * (time.perf_counter() - began))
        return times

    began = time.perf_counter()
    times = [one for mine in by_clients(client, items) for one in mine]
    return Speed(len(items), time.perf_counter() - began, times)


def measure(served: Served, fleet: Fleet, challenges: int) -> tuple[Speed, Speed]:
    """The speed of challenges, and that of their answers, which are made before: all of them have to be accepted."""
    owner, device = served.owner(), served.device()
    fleet.enrol(owner)
    issued: "deque[dict[str, str]]" = deque()

    def ask(number: int) -> None:
        told = owner.told("POST", f"/devices/{number}/challenges", {"operation": 1})
        have("frame" in told, f"no challenge: {told}")
        issued.append({**told, "device": number})

    numbers = list(fleet.kinds)
    asking = timed(ask, [numbers[place % len(numbers)] for place in range(challenges)])
    with ThreadPoolExecutor(os.cpu_count()) as pool:
        frames = list(pool.map(lambda told: fleet.devices[told["device"]].answer(bytes.fromhex(told["frame"])), issued))

    def answer(item: tuple[dict[str, str], bytes]) -> None:
        told, frame = item
        status, body = device.call("POST", f"/scripts/{told['challenge'].split('.')[0]}/answers", frame)
        have(status == 200 and json.loads(body)["challenge"] == told["challenge"], f"challenge {told['challenge']}: {body.decode()}")

    return asking, timed(answer, list(zip(issued, frames)))


@dataclass
class Seen:
    """What clients saw of a service."""

    replies: list[tuple[str, str]] = field(default_factory=list)
    accepted: Counter = field(default_factory=Counter)
    others: Counter = field(default_factory=Counter)
    lock: threading.Lock = field(default_factory=threading.Lock)

    def reply(self, script: str, line: str) -> None:
        with self.lock:
            self.replies.append((script, line))
            if line.startswith("accepted "):
                self.accepted[f"{script}.{line.split()[1]}"] += 1

    def other(self, line: str) -> None:
        with self.lock:
            self.others[" ".join(word for word in line.split() if not word.isdecimal())] += 1


class Lossy:
    """A client with devices of its own, whose answers are lost, doubled, late, forged and sent again, and which persists."""

    def __init__(self, served: Served, fleet: Fleet, seen: Seen, number: int, devices: list[int]) -> None:
        self._owner, self._device = served.owner(), served.device()
        self._fleet, self._seen, self._devices = fleet, seen, devices
        self._random = random.Random(number)
        self._late: list[tuple[str, bytes]] = []
        self._sent: list[tuple[str, bytes]] = []

    def _persist(self, client: Client, method: str, path: str, body: Any = None) -> tuple[int, bytes]:
        """Calls until there is an answer, since the service may be killed at any time."""
        end = time.monotonic() + SECONDS_OF_PERSISTING
        while True:
            try:
                return client.call(method, path, body)
            except (OSError, http.client.HTTPException):
                have(time.monotonic() < end, f"{method} {path} had no answer for {SECONDS_OF_PERSISTING} s")
                time.sleep(0.05)

    def ask(self, device: int) -> None:
        status, body = self._persist(self._owner, "POST", f"/devices/{device}/challenges", {"operation": 1})
        have(status == 201, f"no challenge: {body.decode()}")
        told = json.loads(body)
        self._seen.reply(told["challenge"].split(".")[0], told["reply"])

    def serve(self, device: int) -> bool:
        """Takes a challenge of a device and answers it in some way; whether there was one."""
        status, body = self._persist(self._device, "GET", f"/devices/{device}/challenge")
        if status == 204:
            return False
        told = json.loads(body)
        frame = self._fleet.devices[device].answer(bytes.fromhex(told["frame"]))
        path, draw = told["answer"], self._random.random
        if draw() < FORGE:
            self._post(path, forged(frame), ("verdict mac", "spent"))
        if draw() < LOSE:
            return True
        if draw() < DELAY:
            self._late.append((path, frame))
            return True
        for _ in range(2 if draw() < DOUBLE else 1):
            self._post(path, frame, ("accepted", "spent"))
        self._sent.append((path, frame))
        if draw() < REPEAT:
            self._post(*self._random.choice(self._sent), ("spent",))
        return True

    def flush(self) -> None:
        """Sends what was late."""
        late, self._late = self._late, []
        for path, frame in late:
            self._post(path, frame, ("accepted", "spent"))

    def _post(self, path: str, frame: bytes, allowed: tuple[str, ...]) -> None:
        _, body = self._persist(self._device, "POST", path, frame)
        line = json.loads(body).get("reply", body.decode())
        kind = " ".join(word for word in line.removeprefix("refused answer ").split() if not word.isdecimal())
        have(kind in allowed, f"{path}: '{line}', where one of {allowed} is wanted")
        if line.startswith("accepted "):
            self._seen.reply(path.split("/")[2], line)
        else:
            self._seen.other(line)

    def work(self, challenges: int) -> None:
        """Asks for so many challenges, a device after the other, and serves all devices until none has an open one."""
        for place in range(challenges):
            device = self._devices[place % len(self._devices)]
            self.ask(device)
            self.serve(device)
            if place % 20 == 0:
                self.flush()
        self.flush()
        while any([self.serve(device) for device in self._devices]):
            self.flush()


class Killer(threading.Thread):
    """Kills the service at random times of the work, and starts it again at once."""

    def __init__(self, served: Served, seen: Seen, kills: int, challenges: int) -> None:
        super().__init__(daemon=True)
        self._served, self._seen = served, seen
        draws = random.Random(kills)
        self._at = sorted(draws.randrange(1, max(2, challenges * 9 // 10)) for _ in range(kills))
        self._pauses = [draws.uniform(0, 0.1) for _ in range(kills)]
        self.ended = threading.Event()
        self.failure: Optional[Exception] = None

    def run(self) -> None:
        try:
            for at, pause in zip(self._at, self._pauses):
                while len(self._seen.accepted) < at and not self.ended.is_set():
                    time.sleep(0.01)
                time.sleep(pause)
                self._served.kill()
                self._served.start()
        except Exception as failure:
            self.failure = failure


def survive(served: Served, fleet: Fleet, challenges: int, kills: int) -> Seen:
    """Lossy clients on a service that is killed again and again: all challenges have to end accepted."""
    fleet.enrol(served.owner())
    seen = Seen()
    killer = Killer(served, seen, kills, challenges)
    killer.start()

    def client(number: int, devices: list[int]) -> None:
        Lossy(served, fleet, seen, number, devices).work(challenges // CLIENTS)

    try:
        by_clients(client, fleet.kinds)
    finally:
        killer.ended.set()
        killer.join()
    if killer.failure:
        raise killer.failure
    return seen


def judge(program: str, folder: str, seen: Seen) -> str:
    """Whether what clients saw is what the store has and `oat owner` puts now, and what the store has keeps the rules of scripts."""
    status, line = audit(program, folder)
    have(status == 0, line)
    store, owner = Store(folder), Program(program, folder)
    lines, accepted, calls = set(), Counter(), 0
    for number in store.scripts():
        script = store.script(number)
        assert script is not None
        have(len(script.devices) <= DEVICES_OF_A_SCRIPT, f"script {number} has {len(script.devices)} devices")
        late = [line for line in script.calls[CALLS_OF_AN_OPEN_SCRIPT:] if line.startswith("challenge ")]
        have(not late, f"script {number} took a challenge behind {CALLS_OF_AN_OPEN_SCRIPT} calls")
        replies = replies_of(owner.put(script_of(script.devices, script.calls)))
        calls += len(replies)
        lines |= {(str(number), reply.line) for reply in replies}
        accepted += Counter(f"{number}.{reply.accepted}" for reply in replies if reply.accepted is not None)
    wrong = [reply for reply in seen.replies if reply not in lines]
    have(not wrong, f"a client saw a reply that isn't the audit's: {wrong[:1]}")
    have(max(accepted.values()) == 1 and max(seen.accepted.values()) == 1, "a challenge was accepted twice")
    issued = {f"{row['script']}.{row['number']}" for row in store.challenges(False, None, 10**6)}
    have(issued == set(accepted), f"{len(issued - set(accepted))} challenges of honest devices weren't accepted")
    scripts = len(store.scripts())
    store.close()
    kept = f"{len(issued)} challenges, all accepted once, in {calls} calls of {scripts} scripts"
    return f"{kept}; {len(seen.replies)} replies that clients saw are the audit's"


def spoil(folder: str, program: str) -> str:
    """Changes a stored reply, and answers what the audit says of it."""
    base = sqlite3.connect(os.path.join(folder, "store.sqlite"))
    with base:
        number = base.execute("SELECT max(script) FROM calls").fetchone()[0]
        changed = "UPDATE calls SET reply = CAST(replace(reply, 'challenge 0', 'challenge 1') AS BLOB) WHERE script = ? AND place = 0"
        base.execute(changed, (number,))
    base.close()
    status, line = audit(program, folder)
    have(status == 1 and f"script {number}, call 1" in line, f"the audit doesn't see a changed reply: {line}")
    return line
