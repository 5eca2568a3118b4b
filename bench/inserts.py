#!/usr/bin/env python3
"""INSERTs per second over real files: the program, a plain loop of its writes and syncs, and SQLite.

Each INSERT is one commit, and each commit is on the disk before it is answered. The plain loop makes the writes and
syncs of the program's log on a file of the same folder, which grows in the same steps: a record of 8,209 bytes and a
sync, then one byte and a sync. It writes no homes and makes no checkpoint; the program's are in its time. SQLite runs
with synchronous=FULL and one INSERT per transaction, once with journal_mode=WAL and once with its rollback journal. A
line of the table says so where its tool is missing.

The last column is the longest single commit: for the program the longest time between two replies that follow each
other, the first of them left out; for SQLite it isn't measured.

usage: inserts.py [--program PATH] [--folder PATH] [COUNT ..]     (counts: 1000 100000)

The files of a count stand in a new folder inside --folder, which is made where it is missing; only that new folder is
removed.
"""
import argparse
import os
import shutil
import subprocess
import sys
import tempfile
import time

RECORD_BYTES = 8209
STEP_BYTES = 262144


def ended_well(words, status, out, errors):
    if status != 0:
        last = "".join(out.decode(errors="replace").splitlines()[-1:])
        said = errors.decode(errors="replace")[:200]
        sys.exit(f"{words[0]} ended with {status}: {said} {last}")


def replies(words, script):
    """Runs a program over a script; how long it took, the longest time between two replies, and what it printed."""
    with tempfile.TemporaryFile() as errors:
        start = last = time.perf_counter()
        done = subprocess.Popen(words, stdin=script, stdout=subprocess.PIPE, stderr=errors, bufsize=0)
        longest, out = 0.0, []
        while piece := os.read(done.stdout.fileno(), 1 << 16):
            now = time.perf_counter()
            if out:
                longest = max(longest, now - last)
            last = now
            out.append(piece)
        status = done.wait()
        took = time.perf_counter() - start
        errors.seek(0)
        ended_well(words, status, b"".join(out), errors.read())
    return took, longest, b"".join(out)


def program(path, folder, count):
    if not os.path.exists(path):
        return None
    base = os.path.join(folder, "base")
    os.mkdir(base)
    with tempfile.TemporaryFile(dir=folder) as script:
        script.writelines(b"1 INSERT INTO V SET name = 'name %d'\n" % i for i in range(count))
        script.seek(0)
        took, longest, out = replies([path, base, "script"], script)
    if out.count(b"1 OK 1\n") != count:
        sys.exit(f"{path}: not each INSERT was accepted")
    return took, longest


def plain(folder, count):
    file = os.open(os.path.join(folder, "plain"), os.O_CREAT | os.O_RDWR, 0o644)
    os.pwrite(file, b"\0", 0)
    body = b"\xa5" * (RECORD_BYTES - 1) + b"\0"
    length, longest = 1, 0.0
    start = last = time.perf_counter()
    for i in range(count):
        at = RECORD_BYTES * i
        end = at + RECORD_BYTES + 1
        grown = max(length, -(-end // STEP_BYTES) * STEP_BYTES) if end > length else length
        os.pwrite(file, body + bytes(grown - end if grown > length else 0), at + 1)
        length = grown
        os.fdatasync(file)
        os.pwrite(file, b"\xa5", at)
        os.fdatasync(file)
        now = time.perf_counter()
        longest = max(longest, now - last)
        last = now
    took = time.perf_counter() - start
    os.close(file)
    return took, longest


def sqlite(folder, count, mode):
    if shutil.which("sqlite3") is None:
        return None
    words = ["sqlite3", os.path.join(folder, f"sqlite_{mode}.db")]
    script = f"PRAGMA journal_mode={mode};\nPRAGMA synchronous=FULL;\n"
    script += "CREATE TABLE v (id INTEGER PRIMARY KEY, name TEXT);\n"
    script += "".join(f"INSERT INTO v (name) VALUES ('name {i}');\n" for i in range(count))
    start = time.perf_counter()
    done = subprocess.run(words, input=script.encode(), stdout=subprocess.PIPE, stderr=subprocess.PIPE)
    took = time.perf_counter() - start
    ended_well(words, done.returncode, done.stdout, done.stderr)
    return took, None


def rate(count, seconds):
    """`count` per second, in 11 columns."""
    return f"{count / seconds:>11.0f}" if seconds > 0 else f"{'-':>11}"


def part(seconds, of):
    """The part that `seconds` are of `of`, in 9 columns."""
    return f"{seconds / of:>9.2f}" if of > 0 else f"{'-':>9}"


def milliseconds(seconds):
    """The milliseconds, in 11 columns."""
    return f"{'-':>11}" if seconds is None else f"{1000 * seconds:>11.1f}"


def table(given, count):
    """The lines of the table for one count."""
    os.makedirs(given.folder, exist_ok=True)
    with tempfile.TemporaryDirectory(prefix="inserts", dir=given.folder) as folder:
        loop = plain(folder, count)
        rows = [
            ("program", program(given.program, folder, count)),
            ("plain", loop),
            ("sqlite WAL", sqlite(folder, count, "WAL")),
            ("sqlite DELETE", sqlite(folder, count, "DELETE")),
        ]
    for name, measured in rows:
        if measured is None:
            print(f"{count:>8} {name:>13} {'missing':>9}")
        else:
            took, longest = measured
            told = f"{took:>9.2f} {rate(count, took)} {part(loop[0], took)} {milliseconds(longest)}"
            print(f"{count:>8} {name:>13} {told}")


def main():
    parser = argparse.ArgumentParser()
    here = os.path.dirname(os.path.abspath(__file__))
    parser.add_argument("--program", default=os.path.join(here, "../crates/orient_run/out/orient_run"))
    parser.add_argument("--folder", default=os.path.join(here, "../out/bench"))
    parser.add_argument("counts", nargs="*", type=int, default=[1000, 100000])
    given = parser.parse_args()
    print(f"{'inserts':>8} {'':>13} {'seconds':>9} {'per second':>11} {'of plain':>9} {'longest ms':>11}")
    if min(given.counts) < 0:
        sys.exit("a count has no sign")
    for count in given.counts:
        table(given, count)


if __name__ == "__main__":
    main()
