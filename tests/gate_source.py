#!/usr/bin/env python3
"""Calls that no contract can count: a gate is passed at one place, and std reads and writes at three.

    gate_source.py [CRATES]

goes through the src/ of all crates, but for their tests, and looks for each `::pass`, `::announce` and `::admit`, and
each call of these names but those of one argument, which are no calls of a gate. There are to be four: a gate is passed
only where it is announced a slice; `Guarded::admit` announces it and gives the game; and `admit` is called by the one
function that sends a slice, and by `Guarded::pass`, for callers.
No contract can count these calls, but whatever goes through that function passes once for each slice that it sends.

And it looks for the calls that hand the number of a worker on to that function: a contract knows of it only from there
on. Last, std's `read`, `write` and `flush` are each called by one function, which does nothing else, since std's contract
of a call is also that of one that is tried again; and no other file names std's traits `Read` and `Write`.

Prints `ok gate_source` or `FAILED gate_source: why`.
"""
import glob
import os
import re
import sys

WANTED = {
    ("mwc_gather/src/observer.rt", "self.pass(worker, slice)"),
    ("mwc_gather/src/guarded.rt", "self.gate.announce(worker, slice);"),
    ("mwc_gather/src/guarded.rt", "self.admit(worker, slice)"),
    ("mwc_gather/src/send.rt", "let mut walk = Walk::new(guarded.admit(worker, slice), bits, slice);"),
    ("mwc_gather/src/send.rt", "send_slice_in_rows::<WordByWord, _, _, _>(rt, guarded, bits, slice, worker, left, buffer, out, pair,"),
    ("mwc_gather/src/worker.rt", "let sent = send_slice_in_rows::<RowByRow, _, _, _>(rt,"),
    ("mwc_gather/src/worker.rt", "run_worker(rt, &job, worker, &mut row, out, tasks, pair)"),
    ("council_game/src/source.rt", "use std::io::Read;"),
    ("council_game/src/source.rt", "fn read_once(&mut self, buffer: &mut [u8]) -> io::Result<usize> { self.read(buffer) }"),
    ("council_game/src/sink.rt", "use std::io::Write;"),
    ("council_game/src/sink.rt", "fn write_once(&mut self, bytes: &[u8]) -> io::Result<usize> { self.write(bytes) }"),
    ("council_game/src/sink.rt", "fn flush_once(&mut self) -> io::Result<()> { self.flush() }"),
    # a writer of its own
    ("council_c/src/page.rt", "use std::io::Write;"),
    ("mwc_gather/src/worker_handle.rt", "{ run_worker(rt, &own, worker, row.as_mut_slice(), out, list, pair) };"),
}
PASSES = re.compile(r"::(?:pass|announce|admit)\b|\.(?:pass|announce|admit)\((?!\w+\))|\brun_worker\(|\bsend_slice_in_rows::")
# std's reads and writes, and its traits, without which no code has them
READS = re.compile(r"\bself\.(?:read|write|flush)\(")
TRAITS = re.compile(r"\bio::(?:\{[^}]*\b)?(?:Read\b|Write\b|\*)")


def main(words):
    top = words[0] if words else os.path.join(os.path.dirname(os.path.abspath(__file__)), "..", "crates")
    found = []
    for path in sorted(glob.glob(f"{top}/*/src/**/*.rt", recursive=True)):
        name = os.path.relpath(path, top)
        # that workers of a tally pass each slice once is tested: `each_slice_is_passed_once`
        if "_tests/" in name or name.startswith("mwc_tally/"):
            continue
        with open(path, encoding="utf-8") as it:
            lines = [line.split("//")[0].strip() for line in it]
        for before, code, after in zip(["", *lines], lines, [*lines[1:], ""]):
            # arguments that have no room beside the call are in the next line
            whole = code + after if code.endswith("(") else code
            found += [(name, whole)] * len(PASSES.findall(code))
            found += [(name, f"{before} {code} {after}")] * len(READS.findall(code)) + [(name, code)] * len(TRAITS.findall(code))
    faults = [f"such a call is in {name} too: {code}" for name, code in found if (name, code) not in WANTED]
    faults += [f"{name} has this {found.count((name, code))} times, and not once: {code}" for name, code in sorted(WANTED) if found.count((name, code)) != 1]
    for fault in faults:
        print(f"FAILED gate_source: {fault}")
    if not faults:
        print("ok gate_source")
    return 1 if faults else 0


if __name__ == "__main__":
    sys.exit(main(sys.argv[1:]))
