"""The desk: puts each call to `oat owner` behind the calls that its script has, keeps it, and only then gives the reply.

Calls of one script that come while it is asked wait, and are put together in the next run: so a run serves many, and a script is
asked once at a time. Refused answers change nothing for those behind them, so that each reply is that of its own call alone."""

import asyncio
import logging
import os
import secrets
import threading
from collections import deque
from concurrent.futures import ThreadPoolExecutor
from dataclasses import dataclass, field
from typing import Callable, Optional, TypeVar

from comparison import difference_of
from program import Program, Reply, TooMuch, replies_of, script_of
from store import CALLS_OF_AN_OPEN_SCRIPT, Call, Script, Store, answer_call, challenge_call

CALLS_OF_A_RUN = 64

T = TypeVar("T")
log = logging.getLogger("oat.service")


class Closed(Exception):
    """The script takes no new challenges any more."""


class Missing(Exception):
    """There is no such script or device."""


class Stopped(Exception):
    """The stored replies of a script aren't those that are put now."""


@dataclass
class Asked:
    """A call that waits for its reply."""

    call: Call
    reply: "asyncio.Future[Reply]" = field(default_factory=lambda: asyncio.get_running_loop().create_future())

    def give(self, reply: Reply) -> None:
        if not self.reply.done():
            self.reply.set_result(reply)

    def fail(self, failure: Exception) -> None:
        if not self.reply.done():
            self.reply.set_exception(failure)


class Changes:
    """Counts what happened, so that whoever looks on can wait for more."""

    def __init__(self) -> None:
        self.number = secrets.randbits(40)
        self._more = asyncio.Condition()

    async def tell(self) -> None:
        async with self._more:
            self.number += 1
            self._more.notify_all()

    async def other_than(self, number: int, seconds: float) -> int:
        """The count, at once where it is another than the number, else when it changes or the time has passed."""
        async with self._more:
            try:
                await asyncio.wait_for(self._more.wait_for(lambda: self.number != number), seconds)
            except asyncio.TimeoutError:
                pass
            return self.number


class Desk:
    """Puts calls to the owner, for the handlers of one event loop."""

    def __init__(self, store: Store, program: Program, changes: Changes) -> None:
        self._store, self._program, self._changes = store, program, changes
        self._runs = ThreadPoolExecutor(os.cpu_count())
        self._enrolling = threading.Lock()
        self._asked: dict[int, deque[Asked]] = {}
        self._serving: set[asyncio.Task[None]] = set()

    async def enrol(self, device: int, image: bytes, key: bytes) -> str:
        """Takes a device where `oat owner` takes a script of it alone, and answers its image's digest."""
        digest = await self._in_run(self._enrol, device, image, key)
        await self._changes.tell()
        return digest

    def _enrol(self, device: int, image: bytes, key: bytes) -> str:
        with self._enrolling:
            digest = self._store.keep_image(image)
            try:
                self._program.put(script_of([f"device {device} images/{digest} {key.hex()}"], []))
                self._store.enrol(device, digest, key)
            finally:
                self._store.drop_unused_images([digest])
        return digest

    async def challenge(self, device: int, operation: int) -> tuple[int, Reply]:
        """Asks for a challenge under a nonce of the system's randomness: the script that it was put to, and the reply."""
        found = await asyncio.to_thread(self._store.device, device)
        if found is None:
            raise Missing(f"no device {device} is enrolled")
        while True:
            nonce = secrets.token_hex(16)
            if await asyncio.to_thread(self._store.uses_nonce, nonce):
                continue
            script = await asyncio.to_thread(self._store.open_script, found["circle"])
            try:
                return script, await self._put(script, challenge_call(device, operation, nonce))
            except Closed:
                continue

    async def answer(self, script: int, frame: bytes) -> Reply:
        """Puts an answer to a script."""
        if script not in self._asked and not await asyncio.to_thread(self._store.has_script, script):
            raise Missing(f"there is no script {script}")
        return await self._put(script, answer_call(frame))

    async def _put(self, script: int, call: Call) -> Reply:
        asked = Asked(call)
        if script in self._asked:
            self._asked[script].append(asked)
        else:
            self._asked[script] = deque([asked])
            serving = asyncio.create_task(self._serve(script))
            self._serving.add(serving)
            serving.add_done_callback(self._serving.discard)
        return await asked.reply

    async def _serve(self, script: int) -> None:
        """Serves a script until nobody waits for a reply of it."""
        waiting = self._asked[script]
        while waiting:
            taken = [waiting.popleft() for _ in range(min(len(waiting), CALLS_OF_A_RUN))]
            # Challenges come first, so that how many a script still takes depends on its stored calls alone.
            taken.sort(key=lambda asked: asked.call.challenge is None)
            await self._serve_together(script, taken)
            await self._changes.tell()
        del self._asked[script]

    async def _serve_together(self, script: int, taken: list[Asked]) -> None:
        """Serves some calls by one run; where that is too much for one, each by a run of its own."""
        try:
            replies = await self._in_run(self._round, script, [asked.call for asked in taken])
        except TooMuch as failure:
            if len(taken) == 1:
                taken[0].fail(failure)
            else:
                for asked in taken:
                    await self._serve_together(script, [asked])
        except Exception as failure:
            log.error("script %s: %s", script, failure)
            for asked in taken:
                asked.fail(failure)
        else:
            for asked, reply in zip(taken, replies):
                if reply is None:
                    asked.fail(Closed(script))
                else:
                    asked.give(reply)

    def _round(self, number: int, calls: list[Call]) -> list[Optional[Reply]]:
        """One run for some calls, challenges first: what changes the owner is kept, what was refused is counted, and then each has its
        reply. A challenge for which the script has no room has none."""
        script = self._store.script(number)
        if script is None:
            raise Missing(f"there is no script {number}")
        challenges = sum(call.challenge is not None for call in calls)
        late = max(0, challenges - max(0, CALLS_OF_AN_OPEN_SCRIPT - len(script.calls)))
        put = calls[: challenges - late] + calls[challenges:]
        replies = self._replies(number, script, put)
        self._store.keep(number, zip(put, replies))
        return [*replies[: challenges - late], *[None] * late, *replies[challenges - late :]]

    def _replies(self, number: int, script: Script, put: list[Call]) -> list[Reply]:
        """The replies to some calls behind those of a script."""
        if not put:
            return []
        out = self._program.put(script_of(script.devices, [*script.calls, *(call.line for call in put)]))
        difference = difference_of(number, script, out)
        if difference:
            raise Stopped(str(difference))
        replies = replies_of(out[sum(map(len, script.replies)) :])
        if len(replies) != len(put):
            raise Stopped(f"script {number}: {len(put)} calls have {len(replies)} replies")
        return replies

    async def _in_run(self, work: Callable[..., T], *values: object) -> T:
        """Work that runs the program: as many at once as there are processors."""
        return await asyncio.get_running_loop().run_in_executor(self._runs, work, *values)
