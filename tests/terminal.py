"""A program on a terminal, for the scripts of this folder: they run python3 with PYTHONPATH on it.

    run = Run([program, "--tally", game], clock=clock)
    run.read_until(lambda told: b"slices done" in told)
    run.kill()
"""
import os
import pty
import re
import subprocess
import sys


class Run:
    """A program whose standard error is a terminal, and its standard output too where it says so. Its clock is that of a compiled
    preloaded/clock.c, if one is named: it goes on by some tenths of a second each time the program reads it."""

    def __init__(self, words, stdout=subprocess.DEVNULL, both=False, clock=None, tenths=1):
        self.leader, follower = pty.openpty()
        own = {**os.environ, "LD_PRELOAD": clock, "CLOCK_TENTHS": str(tenths)} if clock else None
        self.process = subprocess.Popen(words, stdin=subprocess.DEVNULL, stdout=follower if both else stdout, stderr=follower, env=own)
        os.close(follower)
        # what it has said so far
        self.told = b""

    def read(self):
        """Reads what it says next; whether it said something before it ended."""
        try:
            more = os.read(self.leader, 4096)
        except OSError:
            return False
        self.told += more
        return bool(more)

    def read_until(self, has_enough):
        """Reads until it has said enough."""
        while not has_enough(self.told):
            assert self.read(), f"it ended, and said {self.told[-80:]}"

    def read_all(self):
        """Reads until it has ended; its status."""
        while self.read():
            pass
        return self.process.wait()

    def kill(self):
        self.process.kill()
        self.read_all()


def show(told, width):
    """The lines that a terminal of this width shows after these bytes, the last one with the cursor."""
    lines, at, column, wraps = [b""], 0, 0, True
    for it in re.findall(rb"\x1b\[\??\d*[A-Za-z]|[^\x1b]", told):
        if it == b"\x1b[A":
            at -= 1
        elif it == b"\x1b[K":
            lines[at] = lines[at][:column]
        elif it in (b"\x1b[?7l", b"\x1b[?7h"):
            wraps = it.endswith(b"h")
        elif it == b"\r":
            column = 0
        elif it == b"\n":
            at += 1
        else:
            if column == width:
                at, column = (at + 1, 0) if wraps else (at, column - 1)
            lines += [b""] * (at + 1 - len(lines))
            lines[at] = lines[at][:column] + it + lines[at][column + 1 :]
            column += 1
        lines += [b""] * (at + 1 - len(lines))
    return lines[: at + 1]


def type_in(words, typed):
    """Runs a program whose standard input is a terminal, on which this is typed; the status, and what it wrote to standard
    output and to standard error."""
    leader, follower = pty.openpty()
    made = subprocess.Popen(words, stdin=follower, stdout=subprocess.PIPE, stderr=subprocess.PIPE)
    os.close(follower)
    os.write(leader, typed)
    out, err = made.communicate(timeout=60)
    return made.returncode, out, err


if __name__ == "__main__":
    # runs the words with a terminal as standard error, with --both as standard output too, and
    # passes on what it shows
    both = sys.argv[1] == "--both"
    run = Run(sys.argv[1 + both :], stdout=None, both=both)
    status = run.read_all()
    os.write(2, run.told)
    sys.exit(status)
