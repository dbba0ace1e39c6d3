"""compare.py FIP COUNT SEED: the program FIP against reader.py on COUNT packages from SEED on.

A difference shows the seed of its package: `compare.py FIP 1 THAT_SEED` repeats it.
"""

import collections
import multiprocessing
import os
import re
import shutil
import signal
import subprocess
import sys
import tempfile

sys.dont_write_bytecode = True

import damage
import reader

SECONDS = 10
STATUSES = ("accepted", 81, 82, 83, 84, 85, 86)


# The names that the installed fiptool knows.

def names_of_fiptool():
    """Names by identifier, from fiptool itself; None when fiptool is absent."""
    tool = shutil.which("fiptool")
    if tool is None:
        return None
    names = {}
    usage = subprocess.run([tool, "create"], capture_output=True, text=True)
    options = re.findall(r"^\s+(--\S+)\s+FILENAME\s", usage.stdout + usage.stderr, re.MULTILINE)
    with tempfile.TemporaryDirectory() as folder:
        one_byte = os.path.join(folder, "image")
        package = os.path.join(folder, "package")
        with open(one_byte, "wb") as file:
            file.write(b"x")
        for option in options:
            subprocess.run([tool, "create", option, one_byte, package], check=True)
            with open(package, "rb") as file:
                identifier = file.read()[16:32]
            shown = subprocess.run([tool, "info", package], check=True, capture_output=True, text=True)
            names[identifier] = shown.stdout.partition(":")[0]
    if not names or len(names) != len(options):
        sys.exit("compare.py: fiptool's usage was not understood")
    return names


# One run of FIP.

class Late(Exception):
    pass


def late(_signal, _frame):
    raise Late


def run(program, arguments, output_path, error_path):
    """Runs the program: (exit status, output, error), the exit status None when it did not end."""
    write_new = os.O_WRONLY | os.O_CREAT | os.O_TRUNC
    child = os.posix_spawn(program, [program] + arguments, os.environ, file_actions=(
        (os.POSIX_SPAWN_OPEN, 0, os.devnull, os.O_RDONLY, 0),
        (os.POSIX_SPAWN_OPEN, 1, output_path, write_new, 0o600),
        (os.POSIX_SPAWN_OPEN, 2, error_path, write_new, 0o600)))
    signal.setitimer(signal.ITIMER_REAL, SECONDS)
    try:
        ended = os.waitstatus_to_exitcode(os.waitpid(child, 0)[1])
        signal.setitimer(signal.ITIMER_REAL, 0)
    except Late:
        os.kill(child, signal.SIGKILL)
        os.waitpid(child, 0)
        ended = None
    with open(output_path, "rb") as file:
        output = file.read()
    with open(error_path, "rb") as file:
        error = file.read()
    return ended, output, error


def complaint(status, expected, ended, output, error):
    """What is wrong with one run, or None."""
    if ended is None:
        return f"no end within {SECONDS} seconds"
    if ended < 0:
        return f"ended by signal {-ended}"
    if status == "accepted":
        if error:
            return f"should be accepted; standard error {error[:200]!r}"
        if output != expected:
            return f"other output: expected {expected[:300]!r}, got {output[:300]!r}"
        return None
    if output:
        return f"should be refused with {status}; standard output {output[:200]!r}"
    if not re.fullmatch(rb"%d(?!\d)[^\n]*\n" % status, error):
        return f"should be refused with {status}; standard error {error[:200]!r}"
    return None


def answer_of(action):
    """What reader.py says: (status, output)."""
    try:
        return "accepted", bytes(action())
    except reader.Refusal as refusal:
        return refusal.number, b""


# The comparison.

def prepare(program, names, folder):
    """Makes a worker ready."""
    global settings
    signal.signal(signal.SIGALRM, late)
    own = tempfile.mkdtemp(dir=folder)
    settings = (program, names, [os.path.join(own, name) for name in ("package", "output", "error")])


def compare_one(seed):
    program, names, (package_path, output_path, error_path) = settings
    kinds, package, questions = damage.make(seed, sorted(names or ()))
    with open(package_path, "wb") as file:
        file.write(package)
    differences = []
    status, expected = answer_of(lambda: reader.listing(package, names or {}).encode())
    ended, output, error = run(program, [package_path], output_path, error_path)
    if names is None:
        output = re.sub(rb"^((?:[^ \n]* ){3}[^ \n]*) [^\n]+", rb"\1", output, flags=re.MULTILINE)
    wrong = complaint(status, expected, ended, output, error)
    if wrong:
        differences.append(f"seed {seed} ({', '.join(kinds)}): list: {wrong}")
    asked = []
    for identifier in questions:
        text = reader.text_of(identifier)
        asked_status, expected = answer_of(lambda: reader.find(package, identifier))
        asked.append(asked_status)
        wrong = complaint(asked_status, expected,
                          *run(program, [package_path, text], output_path, error_path))
        if wrong:
            differences.append(f"seed {seed} ({', '.join(kinds)}): {text}: {wrong}")
    return kinds, damage.edges(package), len(package), status, asked, differences


def row(title, counts):
    return f"{title:<48}" + "".join(f"{counts.get(status, 0):>9}" for status in STATUSES)


def main():
    if len(sys.argv) != 4:
        sys.exit("usage: compare.py FIP COUNT SEED")
    program, count, first = os.path.abspath(sys.argv[1]), int(sys.argv[2]), int(sys.argv[3])
    if not os.access(program, os.X_OK):
        sys.exit(f"compare.py: {sys.argv[1]} cannot be run")
    names = names_of_fiptool()
    lists, questions = collections.Counter(), collections.Counter()
    by_kind = collections.defaultdict(collections.Counter)
    by_edge = collections.defaultdict(collections.Counter)
    bytes_read = wrong_packages = wrong_runs = 0
    memory = "/dev/shm" if os.access("/dev/shm", os.W_OK) else None
    with tempfile.TemporaryDirectory(dir=memory) as folder, multiprocessing.Pool(
            initializer=prepare, initargs=(program, names, folder)) as workers:
        for kinds, edges, length, status, asked, differences in workers.imap(
                compare_one, range(first, first + count), chunksize=16):
            bytes_read += length
            lists[status] += 1
            questions.update(asked)
            by_kind[kinds[0] if len(kinds) == 1 else "two or three of these"][status] += 1
            for edge in edges:
                by_edge[edge][status] += 1
            wrong_packages += bool(differences)
            wrong_runs += len(differences)
            for difference in differences:
                print("DIFFERENCE", difference, flush=True)
    print(row("", {status: str(status) for status in STATUSES}))
    print(row("lists", lists))
    print(row("questions", questions))
    print("\nlists by damage")
    for kind in sorted(by_kind):
        print(row(kind, by_kind[kind]))
    print("\nlists by edge")
    for edge in sorted(by_edge):
        print(row(edge, by_edge[edge]))
    print("\nnames: " + ("not compared, fiptool is absent" if names is None
                         else f"{len(names)} from the installed fiptool"))
    print(f"compared {count} packages ({bytes_read} bytes), {sum(lists.values())} lists and "
          f"{sum(questions.values())} questions, seeds {first} to {first + count - 1}: "
          f"{wrong_runs} differences in {wrong_packages} packages")
    sys.exit(1 if wrong_runs else 0)


if __name__ == "__main__":
    main()
