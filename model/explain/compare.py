#!/usr/bin/env python3
"""compare.py SEED COUNT [LINES]: random runs through `explain` and `monitor`, answer for answer.

The words of each line are read back: its number, the core, the world that speaks, what it asks, and what came of it. They have to be
the request of the line, and the monitor's own answer to it: the status, or the caller, the number in x0 and the world that runs then.
EXPLAIN and MONITOR are whole commands (crates/explain/out/explain and crates/monitor/out/monitor where they are not set). Every fourth run reaches
`explain` in random pieces. The first difference is printed and ends the comparison with status 1."""

import collections
import os
import re
import shlex
import sys
from importlib.machinery import SourceFileLoader
from pathlib import Path

sys.dont_write_bytecode = True
TOP = Path(__file__).resolve().parent.parent.parent
sys.path.insert(0, str(TOP / "model"))
from runs import run  # noqa: E402

compare = SourceFileLoader("compare", str(TOP / "model/compare")).load_module()
WORLDS = {"Secure": 1, "Normal": 2, "Realm": 3}
OWNERS = ["Root", "Secure", "Normal", "Realm"]
HANDLERS = ["architecture", "board", "standard", "trusted system"]
KINDS = ["yielding", "fast"]
ATTRIBUTES = ["read only", "writable", "executable"]
STATUS = re.compile(r"(accepted|accepted: ON in Normal|refused (7[1-5])(: [a-zA-Z ]+)?)$")
REFUSAL = re.compile(r"refused -(\d+), ([a-zA-Z0-9 ']+)$")
ANSWER = re.compile(r"answered (\d+)(?:, (ON|OFF|pending|yes|no|known))?$")
VERSION = re.compile(r"answered version (\d)\.(\d)$")
LEADS = re.compile(r"to ([0-9a-f]+), (read only|writable|executable)$")
RUNS = re.compile(r"(Secure|Normal|Realm) runs now$")
LINE = re.compile(r" *(\d+) (set-up|no frame|core (\d+)(?: (Root|Secure|Normal|Realm):)?) +(.*)$")


REASONS = {
    1: ["not served", "overlaps another"], 2: ["invalid argument"], 3: ["not the giver's"], 4: ["already ON"],
    5: ["already pending", "asks for no page"], 6: ["a page is mapped"], 9: ["bad address"], 12: ["has 16 mappings"],
    13: ["not its page"], 14: ["leads nowhere"], 22: ["not well formed", "no such mapping"], 34: ["past the limits"],
}
MEANINGS = {"ON": (0x84000004, 0), "OFF": (0x84000004, 1), "pending": (0x84000004, 2), "yes": (0xC2000012, 1), "no": (0xC2000012, 0)}
VERSIONS = {0x80000000: (1, 3), 0x84000000: (1, 1)}
QUESTIONS = (0x80000001, 0x8400000A)


def address(x):
    return "%0*x" % (8 if x < 2**32 else 12 if x < 2**48 else 16, x)


def value(x):
    return "%02x" % x if x < 2**8 else "%04x" % x if x < 2**16 else address(x)


def key_of(numbers):
    key = numbers[0] % 2**32
    return key & ~0x10000 if key >> 31 else key


def many(n, one):
    return f"{n} {one}{'' if n == 1 else 's'}"


def named(n, names, other):
    return names[n] if n < len(names) else f"{other} {n}"


def call_asked(numbers, handed):
    """What a call asks, from its numbers, and whether it was handed over."""
    key = key_of(numbers)
    x = [n if key >> 30 & 1 else n % 2**32 for n in numbers]
    page = address(x[1])
    words = {
        0x80000000: "tell the version of calls", 0x80000001: f"tell whether this call is known: {page}",
        0x84000000: "tell the version of core power", 0x84000002: "turn this core OFF",
        0x84000003: f"start core {x[1]} at {address(x[2])} with {value(x[3])}", 0x84000004: f"tell the state of core {x[1]} at level {x[2]}",
        0x8400000A: f"tell whether core power knows {page}", 0xC40001B0: f"take the page at {page}", 0xC40001B1: f"give back the page at {page}",
        0xC2000010: f"take {many(x[2], 'page')} from {page}", 0xC2000011: f"give back {many(x[2], 'page')} from {page}",
        0xC2000012: f"tell whether it owns {page}", 0xC2000022: f"tell where this address leads: {page}",
        0xC2000020: f"map {page} at {address(x[2])}, {many(x[3], 'byte')}, {named(x[4], ATTRIBUTES, 'attributes')}",
        0xC2000021: f"unmap {page}, {many(x[2], 'byte')}", 0xC2000030: "count the cores that are ON",
        0xC400018F: "finish with " + " ".join(map(value, x[1:6])), 0xF2000000: "finish with " + " ".join(map(value, x[1:5])),
    }
    words[0xC4000003], words[0xC4000004] = words[0x84000003], words[0x84000004]
    return not handed and words.get(key) or f"call {address(key)} with {value(x[1])} {value(x[2])} {value(x[3])}"


def asked(line, status, handed):
    """Who speaks, on which core, and what is asked, from the bytes of a line, its status where it has one, and whether it was handed over."""
    if status in (0x71, 0x72):
        return "no frame", None, ["not 1 to 66 pairs of digits 0 to 9 and a to f", "of an unknown kind, or a wrong length"][status - 0x71]
    frame = bytes.fromhex(line.decode())
    whole = lambda at, size: int.from_bytes(frame[at:at + size], "big")
    if frame[0] == 0x11:
        return "set-up", None, f"window of {many(whole(9, 2), 'page')} at {address(whole(1, 8))}, {many(frame[11], 'core')}"
    if frame[0] == 0x10:
        return "set-up", None, f"{named(frame[3], KINDS, 'type')} calls, owners {frame[1]} to {frame[2]}: {named(frame[4], HANDLERS, 'handler')}"
    if frame[0] == 0x12:
        return "set-up", None, f"{many(whole(3, 2), 'page')} from page {whole(1, 2)} for {named(frame[5], OWNERS, 'owner')}"
    if frame[0] == 0x21:
        return "core", frame[1], "arrives"
    return "core", frame[1], call_asked([whole(2 + 8 * i, 8) for i in range(8)], handed)


def came(text, answer, key, caller):
    """Whether what came of a line is the monitor's answer, a status or (core, world, x0 to x3)."""
    found = STATUS.match(text)
    if found or isinstance(answer, int):
        return bool(found) and answer == (int(found[2], 16) if found[2] else 0)
    _, world, x = answer
    found = RUNS.match(text)
    if found:
        return WORLDS[found[1]] == world and world != caller
    if text == "the core is OFF now":
        return world == 0xFF
    if world != caller:
        return False
    found = REFUSAL.match(text)
    if found:
        return x[0] == 2 ** (64 if key >> 30 & 1 else 32) - int(found[1]) and found[2] in REASONS[int(found[1])]
    found = LEADS.match(text)
    if found:
        return x[:3] == [0, int(found[1], 16), ATTRIBUTES.index(found[2])]
    found = VERSION.match(text)
    if found:
        major, minor = int(found[1]), int(found[2])
        return x[0] == major * 2**16 + minor and VERSIONS[key] == (major, minor)
    found = ANSWER.match(text)
    if found:
        asks = key & ~0x40000000 if key in (0xC4000003, 0xC4000004) else key
        right = key in QUESTIONS and found[1] == "0" if found[2] == "known" else MEANINGS[found[2]] == (asks, x[0]) if found[2] else key == 0xC2000030
        return x[0] == int(found[1]) and right
    return text == "granted" and x[0] == 0 and key not in QUESTIONS


class Reader:
    """Holds the words of a run against the monitor's answers, with the world that runs on each core."""

    def __init__(self):
        self.world = collections.defaultdict(lambda: 2)
        self.seen = collections.Counter()

    def right(self, number, line, words, reply):
        reply = bytes.fromhex(reply.decode())
        answer = reply[1] if reply[0] == 0xA0 else (reply[1], reply[2], [int.from_bytes(reply[3 + 8 * i:11 + 8 * i], "big") for i in range(4)])
        status = answer if isinstance(answer, int) else None
        handed = status is None and self.world[answer[0]] == 2 and answer[1] in (1, 3)
        who, core, what = asked(line, status, handed)
        found = LINE.match(words.decode())
        if not found or int(found[1]) != number or not found[2].startswith(who) or (core is not None and int(found[3]) != core):
            return False
        caller = None if isinstance(answer, int) else self.world[core]
        if (WORLDS.get(found[4]) if found[4] else None) != caller or not found[5].startswith(what + " "):
            return False
        text = found[5][len(what):].lstrip()
        moved = max(6, len(str(number)))
        begins = (found.start(2), found.start(4) if found[4] else moved + 8, found.start(5), len(words) - len(text))
        if begins[:3] != (moved + 1, moved + 8, moved + 16) or begins[3] != moved + 66 and len(what) < 50 or len(words) > moved + 94 and len(what) < 50:
            return False
        key = key_of([int(line[4:20], 16)]) if core is not None and what != "arrives" else None
        if not came(text, answer, key, caller):
            return False
        if caller is not None and answer[1] != 0xFF:
            self.world[core] = answer[1]
        elif caller is not None or what == "arrives" and answer == 0:
            self.world[core] = 2
        self.seen[re.sub(r"[0-9a-f]{8,}|\d+", "n", text.split(",")[0])] += 1
        return True


def main():
    seed, count = int(sys.argv[1]), int(sys.argv[2])
    length = int(sys.argv[3]) if len(sys.argv) > 3 else 500
    explain = shlex.split(os.environ.get("EXPLAIN", "crates/explain/out/explain"))
    monitor = shlex.split(os.environ.get("MONITOR", "crates/monitor/out/monitor"))
    seen = collections.Counter()
    for number in range(seed, seed + count):
        data = run(number, length)
        lines = data[:-1].split(b"\n") if data.endswith(b"\n") else data.split(b"\n") if data else []
        replies = compare.answers(monitor, data)[0].splitlines()
        words = (compare.answers_in_pieces(explain, data, number, (3, 150, 800)) if number % 4 == 0 else compare.answers(explain, data))[0].split(b"\n")
        reader = Reader()
        for at, (line, reply) in enumerate(zip(lines, replies, strict=True)):
            said = words[at] if at < len(words) else b""
            if not reader.right(at + 1, line, said, reply):
                print(f"seed {number}, line {at + 1}\nline    {ascii(line[:140])}\nmonitor {ascii(reply)}\nexplain {ascii(said)}")
                sys.exit(1)
        seen.update(reader.seen)
    print(f"{count} runs of {length} lines, {sum(seen.values())} answers, no difference")
    if os.environ.get("SEEN"):
        print("\n".join(f"{n:8} {text}" for text, n in seen.most_common()))


if __name__ == "__main__":
    main()
