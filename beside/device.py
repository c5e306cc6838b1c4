"""Texts of images and cases, and what `oat device` answers to them."""

import os
import subprocess
import tempfile


def image_text(words, rows=(), functions=(), blocks=(), data=(), cells=()):
    version = 2 if any(row[1] in ("useat", "defat") for row in rows) else 1
    lines = [f"oat-image {version}", f"code {len(words)}", *(f"{word:08X}" for word in words)]
    lines += [f"data {len(data)}", *(f"{index} {value:016X}" for index, value in sorted(dict(data).items()))]
    lines += [f"cells {len(cells)}", *map(str, cells)]
    lines += [f"functions {len(functions)}", *(f"{at:08X} {name} 0 1" for at, name in sorted(functions))]
    lines += [f"blocks {len(blocks)}", *(f"{at:08X} {label}" for at, label in sorted(blocks))]
    lines += [f"rows {len(rows)}", *(row_text(*row) for row in sorted(rows))]
    return "\n".join([*lines, "end", ""])


def row_text(at, kind, *fields):
    numbers = {"icall", "begin", "end", "use", "def", "useat", "defat"}
    return " ".join([kind, f"{at:08X}", *(str(field) if kind in numbers else f"{field:08X}" for field in fields)])


def case_text(steps=1, inputs=(), writes=(), key="00", nonce="00" * 16, operation=1, calls=None):
    lines = ["oat-case 1", f"key {key}", f"nonce {nonce}", f"operation {operation}", f"steps {steps}"]
    lines += [f"calls {calls}"] if calls else []
    lines += [f"input {value - 2**64 if value >> 63 else value}" for value in inputs]
    lines += [f"write {at} {address:X} {content.hex()}" for at, address, content in writes]
    return "\n".join([*lines, ""])


class Device:
    """The program `oat`, and a folder for its files."""

    def __init__(self, program):
        self.program, self.folder = program, tempfile.TemporaryDirectory()

    def answer(self, image, case):
        """The status and the lines of `oat device`: those put on its output, or where there are none, its refusal."""
        for name, text in (("image", image), ("case", case)):
            with open(os.path.join(self.folder.name, name), "w") as file:
                file.write(text)
        done = subprocess.run([self.program, "device", "image", "case"], cwd=self.folder.name, capture_output=True, text=True)
        return done.returncode, (done.stdout or done.stderr).splitlines()
