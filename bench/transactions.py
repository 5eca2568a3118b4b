#!/usr/bin/env python3
"""Time per line of a script of 20,000 lines over 64 sessions, whose transactions make ten changes each.

    bench/transactions.py crates/orient_run/out/orient_run [lines]

Each session in turn begins, updates nine records of its own and inserts one, and commits; the lines of the sessions are
interleaved, a line of each after the other. Prints microseconds a line for each tenth of the script, as the replies
come, and for `! history` at the end.
"""
import os
import subprocess
import sys
import tempfile
import time

SESSIONS = 64
OWN = 9


def lines():
    for position in range(SESSIONS * OWN):
        yield f"{position % SESSIONS + 1} INSERT INTO V SET n = 0"
    turn = 0
    while True:
        turn += 1
        yield from (f"{s + 1} BEGIN" for s in range(SESSIONS))
        for k in range(OWN):
            yield from (f"{s + 1} UPDATE #1:{s + k * SESSIONS} SET n = {turn}" for s in range(SESSIONS))
        yield from (f"{s + 1} INSERT INTO V SET m = {turn}" for s in range(SESSIONS))
        yield from (f"{s + 1} COMMIT" for s in range(SESSIONS))


def say(run, line):
    """Says a line; ends this program where the other has ended."""
    try:
        run.stdin.write(line + "\n")
        run.stdin.flush()
    except BrokenPipeError:
        died(run, line)


def hear(run, line):
    """One line of the reply to a line."""
    text = run.stdout.readline()
    if not text:
        died(run, line)
    return text


def died(run, line):
    sys.exit(f"{run.args[0]} ended with {run.wait()} at the line: {line}")


def main():
    if len(sys.argv) not in (2, 3):
        sys.exit(__doc__)
    program = os.path.abspath(sys.argv[1])
    wanted = int(sys.argv[2]) if len(sys.argv) > 2 else 20_000
    step = max(wanted // 10, 1)
    with tempfile.TemporaryDirectory() as folder:
        pipes = {"stdin": subprocess.PIPE, "stdout": subprocess.PIPE, "text": True, "bufsize": 1}
        run = subprocess.Popen([program, folder, "script"], **pipes)
        start = time.perf_counter()
        commits = 0
        for number, line in zip(range(1, wanted + 1), lines()):
            say(run, line)
            reply = ["", "ROW"]
            while reply[1] not in ("OK", "ERR"):
                reply = hear(run, line).split()
            if reply[1] != "OK":
                sys.exit(f"{line}: {' '.join(reply)}")
            commits += line.endswith("COMMIT")
            if number % step == 0:
                now = time.perf_counter()
                print(f"to line {number}: {(now - start) / step * 1e6:.0f} us a line")
                start = now
        start = time.perf_counter()
        say(run, "! history")
        entries = 0
        while not hear(run, "! history").startswith("! OK"):
            entries += 1
        took = time.perf_counter() - start
        print(f"{commits} commits of ten changes; ! history of {entries} entries: {took * 1e3:.1f} ms")
        run.stdin.close()
        run.wait()


if __name__ == "__main__":
    main()
