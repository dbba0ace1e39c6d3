#!/usr/bin/env python3
"""Tables built and vetted: the models against each other, and the programs against the models.

compare.py models COUNT SEED    build.py, walk.py, vet.py and vendor.py on COUNT random lists
compare.py tables COUNT SEED    the program that TABLES names against build.py on COUNT random lists
compare.py vet COUNT SEED       the program that VET names against vet.py on COUNT tables, most of them damaged
compare.py cases                the models against the cases worked out by hand, and the programs that are named

TABLES and VET are whole commands (crates/tables/out/tables and crates/vet/out/vet where they are not set);
`python3 model/tables/build.py` and `python3 model/tables/vet.py` are such commands, too.
The first difference ends the comparison with status 1."""

import collections
import os
import random
import re
import shlex
import subprocess
import sys
import tempfile

sys.dont_write_bytecode = True

import cases
import judged
from build import MOST, as_bytes, build, tables
from damage import damage
from lists import GIB, NAME, PAGE, SLOT, Random, run_of
from check import Refusal
from vendor import vendor
from vet import vet
from walk import walk

PER_LIST = 20
LONGEST = 32768  # the most numbers of a file that the program judges; what is past them is cut off for both sides


def differ(*words):
    print(*words)
    sys.exit(1)


def program(name):
    return shlex.split(os.environ.get(name, f"crates/{name.lower()}/out/{name.lower()}"))


def started(command, *arguments, run):
    done = subprocess.run([*command, *map(str, arguments)], input=run, stdout=subprocess.PIPE, stderr=subprocess.PIPE)
    return done.stdout, done.stderr.decode(errors="replace")


# The programs' answers.


def built_by(command, run, lent, world=None):
    """Status and bytes, as TABLES says them."""
    out, error = started(command, NAME[world or run.world], *([] if lent is None else [lent]), run=run.text())
    if not error:
        return 0, out
    return (0x88, out) if re.fullmatch("88[^\n]*\n?", error) else (error, out)


def vetted_by(command, run, numbers):
    """Status and address, as VET says them."""
    with tempfile.NamedTemporaryFile() as file:
        file.write(as_bytes(numbers))
        file.flush()
        out, error = started(command, NAME[run.world], file.name, run=run.text())
    if (out, error) == (b"accepted\n", ""):
        return 0, 0
    found = re.fullmatch("(8[a-d]) ([0-9a-f]+): [^\n]+\n?", error)
    return (int(found[1], 16), int(found[2], 16)) if found and not out else (out, error)


# Random lists.


def edges(mappings, dice):
    """Addresses at the edges of mappings, of their slots and of GiB, and every page that is mapped."""
    found = {0, 2**32 - 1, 2**32, 2**32 + PAGE, 2**48, 2**64 - 1}
    for virtual, size, _, _ in mappings:
        found.update(range(virtual, virtual + size, PAGE))
        for end in (virtual, virtual + size):
            for step in (PAGE, SLOT, GIB):
                found.update(end // step * step + at for at in (-1, 0, 1, step - 1, step))
            found.add(end + 2**32)
    found.update(dice.randrange(2**32) for _ in range(20))
    return sorted(address for address in found if address >= 0)


def said(run, address):
    """C2000022, as the machine of check.py answers it."""
    try:
        _, physical, attributes = run.machine.where(None, run.world, address)
    except Refusal:
        return None
    return physical, attributes == 1, attributes == 2


def models(count, seed):
    asked, blocks, most = 0, 0, 0
    for number in range(seed, seed + count):
        run, dice = Random(number), random.Random(-number)
        numbers, others = tables(run.mappings), vendor(run.mappings, dice)
        blocks += sum(entry & 3 == 1 for entry in numbers)
        most = max(most, len(numbers) // 512)
        for made in (numbers, others):
            if vet(made, run.mappings) != (0, 0):
                differ(f"seed {number}: vet.py refuses {vet(made, run.mappings)}")
        for address in edges(run.mappings, dice):
            asked += 1
            for made in (numbers, others):
                if walk(made, address) != said(run, address):
                    differ(f"seed {number}: {address:x} walks to {walk(made, address)}, the list says {said(run, address)}")
    print(f"{count} lists, {blocks} blocks, at most {most} tables: built ones and a vendor's are accepted, and {asked} addresses walk as the list says")


def compare_tables(count, seed):
    command, tally = program("TABLES"), collections.Counter()
    for number in range(seed, seed + count):
        run, dice = Random(number), random.Random(-number)
        world = run.world if dice.randrange(10) else dice.choice(list(NAME))
        mappings = run.machine.maps[world]
        needed = len(tables(mappings))
        lent = dice.choice((None, None, needed, needed - 1, needed + 1, needed - 512, 0, dice.randrange(MOST + 1)))
        status, numbers = build(mappings, MOST if lent is None else lent)
        theirs = built_by(command, run, lent, world)
        if theirs != (status, as_bytes(numbers)):
            differ(f"seed {number}, {lent} numbers: {len(numbers)} and status {status:x} expected, got {theirs[0]} and {len(theirs[1]) // 8}")
        tally[f"{status:02x}"] += 1
    print(f"{count} lists, no difference;", ", ".join(f"{key}: {tally[key]}" for key in sorted(tally)))


def compare_vet(count, seed):
    command, tally = program("VET"), collections.Counter()
    for number in range(seed, seed + count):
        dice = random.Random(-number)
        if number == seed or number % PER_LIST == 0:
            run = Random(number // PER_LIST)
        numbers = tables(run.mappings) if dice.randrange(2) else vendor(run.mappings, dice)
        if dice.randrange(20):
            numbers = damage(numbers, dice)
        numbers = numbers[:LONGEST]
        ours, theirs = vet(numbers, run.mappings), vetted_by(command, run, numbers)
        if ours != theirs:
            differ(f"seed {number}: {ours[0]:x} {ours[1]:x} expected, got {theirs}")
        tally[f"{ours[0]:02x}"] += 1
    print(f"{count} tables, no difference;", ", ".join(f"{key}: {tally[key]}" for key in sorted(tally)))


# Cases by hand.


class Nothing:
    """A run with no frame at all."""

    world = 1

    @staticmethod
    def text():
        return b""


def compare_cases():
    named = [name for name in ("TABLES", "VET") if name in os.environ]
    for name, world, window, mappings, lent, expected in cases.CASES:
        run = run_of(world, *window, mappings)
        status, numbers = build(run.mappings, lent)
        shown = (status, len(numbers) // 512, {place: entry for place, entry in enumerate(numbers) if entry})
        if shown != expected:
            differ(f"{name}: build.py makes otherwise: {shown}")
        if "TABLES" in named and built_by(program("TABLES"), run, lent) != (status, as_bytes(numbers)):
            differ(f"{name}: the program makes otherwise")
    if "TABLES" in named and built_by(program("TABLES"), Nothing, None) != (0, bytes(4096)):
        differ("no frames: the program does not make one table of zeros")
    for name, mappings, numbers, expected in judged.cases():
        run = run_of(1, judged.BASE, judged.PAGES, mappings)
        if vet(numbers, run.mappings) != expected:
            differ(f"{name}: by hand {expected}, by vet.py {vet(numbers, run.mappings)}")
        if "VET" in named and vetted_by(program("VET"), run, numbers) != expected:
            differ(f"{name}: by hand {expected}, the program says {vetted_by(program('VET'), run, numbers)}")
    print(f"{len(cases.CASES)} lists built and {len(list(judged.cases()))} tables vetted as by hand, by", ", ".join(["the models"] + named))


def main():
    if sys.argv[1:] == ["cases"]:
        compare_cases()
        return
    kind, count, seed = sys.argv[1], int(sys.argv[2]), int(sys.argv[3])
    {"models": models, "tables": compare_tables, "vet": compare_vet}[kind](count, seed)


if __name__ == "__main__":
    main()
