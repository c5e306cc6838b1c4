"""The job of a run: what the monitor finds in the machine's memory (monitor/job.h), of texts that oat has taken."""

import struct

STEPPED, COUNTED, TRACED, PLAIN = 1, 2, 4, 8
KEY_BYTES, LOG_ROOM = 1024, 4194304


def read_case(text):
    """The lines of a case by their first words: the values of inputs and writes, and the word of each other line."""
    case = {"input": [], "write": [], "calls": "0"}
    for line in text.split(b"\n"):
        words = line.removesuffix(b"\r").replace(b"\t", b" ").split()
        if not words or words[0].startswith((b";", b"oat-case")):
            continue
        word, *values = (word.decode() for word in words)
        if word == "input":
            case["input"].append(int(values[0]))
        elif word == "write":
            case["write"].append((int(values[0]), int(values[1], 16), bytes.fromhex(values[2])))
        else:
            case[word] = values[0]
    return case


def numbers(values):
    return b"".join(struct.pack("<Q", value % 2**64) for value in values)


def filled(content):
    return content + bytes(-len(content) % 8)


def job_of(image, text, options=0, log_room=LOG_ROOM, trace_from=0):
    case = read_case(text)
    key = bytes.fromhex(case["key"])
    head = [options, trace_from, log_room, len(image)]
    head += [int(case[name]) for name in ("operation", "calls", "steps")] + [len(case["input"]), len(case["write"]), len(key)]
    writes = (numbers([at, address, len(content)]) + filled(content) for at, address, content in case["write"])
    return b"".join([numbers(head), key.ljust(KEY_BYTES, b"\0"), bytes.fromhex(case["nonce"]), numbers(case["input"]), *writes, image])
