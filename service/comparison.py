"""Compares the stored replies with those that `oat owner` puts now."""

import os
from concurrent.futures import ThreadPoolExecutor
from dataclasses import dataclass
from typing import Optional

from program import FIRST_WORDS, NoReply, Program, replies_of, script_of
from store import Script, Store

SHOWN = 160


@dataclass(frozen=True)
class Difference:
    """The first call of a script whose stored reply isn't the one that is put now. Calls count from 1."""

    script: int
    call: int
    line: str
    stored: str
    now: str

    def __str__(self) -> str:
        return f"script {self.script}, call {self.call}, '{self.line}': stored '{self.stored}', now '{self.now}'"


def shortened(text: str) -> str:
    """The first line of a text, or its front."""
    line = text.partition("\n")[0]
    return line if len(line) <= SHOWN else line[:SHOWN] + ".."


def difference_of(number: int, script: Script, out: bytes) -> Optional[Difference]:
    """Where what was put for a script doesn't begin with its stored replies: the first of them that differs."""
    front = b"".join(script.replies)
    if out.startswith(front) and (len(out) == len(front) or out.startswith(FIRST_WORDS, len(front))):
        return None
    replies = [reply.text for reply in replies_of(out)]
    replies += [b"nothing"] * (len(script.replies) - len(replies))
    pairs = enumerate(zip(script.calls, script.replies, replies), 1)
    place, (line, stored, new) = next(pair for pair in pairs if pair[1][1] != pair[1][2])
    return Difference(number, place, shortened(line), *(shortened(text.decode(errors="replace")) for text in (stored, new)))


def compare(store: Store, program: Program, number: int) -> tuple[int, Optional[Difference]]:
    """The number of calls of a script, and the first difference."""
    script = store.script(number)
    assert script is not None
    if not script.devices:
        return 0, None
    try:
        out = program.put(script_of(script.devices, script.calls))
    except NoReply as failure:
        return len(script.calls), Difference(number, 1, shortened(script.calls[0] if script.calls else ""), "a reply", str(failure))
    difference = difference_of(number, script, out)
    if difference is None and len(out) > sum(map(len, script.replies)):
        difference = Difference(number, len(script.calls) + 1, "", "nothing", "more replies than calls")
    return len(script.calls), difference


def compare_all(store: Store, program: Program) -> tuple[int, int, Optional[Difference]]:
    """How many scripts and calls the store has, and the first difference of the first script that has one."""
    with ThreadPoolExecutor(os.cpu_count()) as pool:
        compared = list(pool.map(lambda number: compare(store, program, number), store.scripts()))
    differences = [difference for _, difference in compared if difference]
    return len(compared), sum(count for count, _ in compared), differences[0] if differences else None
