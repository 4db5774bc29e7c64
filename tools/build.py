#!/usr/bin/env python3
"""Proves what the program stands on, side by side, and builds the program.

    tools/build.py [--keep]
    tools/build.py --preview WORD..   shows early what the program will print for these words
    tools/build.py --library          the library for other languages in place of the program
    tools/build.py --take             for .ci/run: takes what `rt ci` has just proved

For whoever wants the program, each library is proved once, from nothing, as `rt ci` does it: what is built of it
holds its statements, and not its proofs, so that the crates above do not load these. It stands in
crates/NAME/out/rlib/statements (elsewhere `rt verdict` takes it for sources that no check reads), and is proved again
where its text or that of a library below has changed. `rt check` of a crate above takes it from there: see `give`.

The library for other languages is crates/council_c/out/libcouncil.a: the crate council_c, and tools/heap.c. Its LLVM module, council.bc beside it, is what tools/web.sh makes the module for browsers of.

For whoever works on the sources (--keep, or where an earlier run of `rt` has kept work) it is `rt lib` that proves
each, and keeps its work: more at first, and after a change only what changed. `rt` itself proves one library after
the other, since each of its runs keeps all others out of the folders of the libraries below. So each has a room
of its own, crates/council/out/rooms/NAME, with the libraries below it as they were built, and what was kept goes
back to crates/NAME/out, where every other command of `rt` finds it.

After an interrupt, what was proved by then stays. As many libraries are proved at once as there are processors, and
memory for (some 3 GB each). What only the program waits for, and does not take long, gives way to all others, and has
a lane more: it fills the time in which the last library is proved. The log goes to crates/council/out/build.log, and
a line for each library to standard error. How long each took stands in crates/council/out/seconds; the order of the
next build rests on it, and where it has nothing on the lines of code.

With --preview the sources are run beside the proofs, without a proof, by tools/preview. What they print goes to
standard error, and is compared with what the proved program prints: the status is 3 if that is something else.

A second start beside the first waits, and has nothing to do where that has built the program. What was built of
what is kept by tools/built.sh.
"""
import fcntl
import functools
import hashlib
import importlib.machinery
import importlib.util
import os
import re
import shlex
import shutil
import signal
import subprocess
import sys
import tempfile
import threading
import time
from concurrent.futures import FIRST_COMPLETED, ThreadPoolExecutor, wait

TOP = os.path.dirname(os.path.dirname(os.path.realpath(__file__)))
PROGRAM = "council"
LIBRARY = "council_c"
OUT = f"{TOP}/crates/{PROGRAM}/out"
ROOMS = f"{OUT}/rooms"
LOG = f"{OUT}/build.log"
# what a proof may take
MEMORY = 3_000_000_000
# how far a proof gives way to the first one: any other, and one that fills the time at the end
NICE, NICE_LAST = 10, 19
# what only the program waits for fills the time at the end if it takes at most this many seconds
FILLS = 100
# what fills the time at the end may use this many lanes beside those that there are processors for
MORE_LANES = 1
# how long each proof took when it was last made from nothing
MEASURED = f"{OUT}/seconds"
# where that is not known: a second for this many lines of code (not of comments, contracts and
# imports), as most crates take
LINES_A_SECOND = 6
NO_CODE = (b"//", b"use ", b"ghost ", b"requires ", b"ensures ")
# how long the statements below a library are read, and how long the program is compiled and linked,
# in seconds
READ, COMPILED = 15, 60
# how many processors a proof keeps busy, on the whole
BUSY = 1.3
# how many seconds must have been measured until they count as much as what was guessed
GUESSED = 120
# what ends a build
SIGNALS = (signal.SIGTERM, signal.SIGINT, signal.SIGHUP)
# the proofs under way, and whether they are to end
PROOFS: list = []
STOPPED: list = []


def say(text):
    """Says a line on standard error, if that is open and takes it."""
    try:
        if sys.stderr:
            print(f"council: {text}", file=sys.stderr, flush=True)
    except OSError:
        # (what is still to be written, as at the end, goes nowhere)
        os.dup2(os.open(os.devnull, os.O_WRONLY), sys.stderr.fileno())


def lines_of_crates():
    """The line of crates.txt of each crate, by its name."""
    with open(f"{TOP}/crates.txt", encoding="utf-8") as it:
        texts = [line.partition("#")[0].strip() for line in it]
    return {text.split(":")[0].split()[0]: text for text in texts if ":" in text}


def below(name, lines):
    """The crates of the repository that a crate stands on, near or far, the lowest first."""
    found = []
    for other in lines[name].split(":")[1].split():
        if other in lines:
            found += [it for it in [*below(other, lines), other] if it not in found]
    return found


def measured():
    """How long the proofs took in the last builds, in seconds, by the names of the crates."""
    try:
        with open(MEASURED, encoding="utf-8") as it:
            return {name: float(seconds) for name, seconds in (line.split() for line in it)}
    except (OSError, ValueError):
        return {}


def keep_measured(seconds):
    """Keeps how long proofs took just now, beside what is known of others."""
    with open(f"{MEASURED}.new", "w", encoding="utf-8") as it:
        it.writelines(f"{name} {took:.1f}\n" for name, took in sorted({**measured(), **seconds}.items()))
    os.replace(f"{MEASURED}.new", MEASURED)


def costs(names, lines):
    """How long the proof of each crate takes, in seconds: as measured, or guessed by its lines of code. The order of the
    proofs rests on it, and what is said of the time that is left."""
    guessed = {}
    for name in names:
        files = [f"{at}/{file}" for at, _, found in os.walk(f"{TOP}/crates/{name}/src") for file in found]
        guessed[name] = COMPILED if name == PROGRAM else READ
        for file in files:
            with open(file, "rb") as it:
                guessed[name] += sum(bool(line := text.strip()) and not line.startswith(NO_CODE) for text in it) / LINES_A_SECOND
    # (the last library has several processors)
    guessed[last_of(names[:-1], lines)] /= 2
    return {**guessed, **{name: took for name, took in measured().items() if name in guessed}}


def last_of(names, lines):
    """The library that uses the most others."""
    return max(names, key=lambda it: len(below(it, lines)))


def chains(names, lines, cost):
    """How long the longest chain of proofs takes that begins with each crate, of those that are named."""
    behind = {}
    for name in reversed(names):
        behind[name] = cost[name] + max((behind[it] for it in behind if name in below(it, lines)), default=0)
    return behind


def minutes(left, lines, cost, took, few):
    """How many minutes what is left takes: as the processors share it, or as its longest chain does; as much longer or
    shorter as what was proved took."""
    # (the lowest first: what a crate stands on stands on fewer)
    names = sorted(left, key=lambda it: len(below(it, lines)))
    pace = (GUESSED + sum(took.values())) / (GUESSED + sum(cost[it] for it in took))
    shared = BUSY * sum(left.values()) / few
    return max(1, round(pace * max(shared, *chains(names, lines, left).values()) / 60))


def lanes():
    """How many proofs may be under way at once, of what other libraries wait for, and of all."""
    with open("/proc/meminfo", encoding="utf-8") as it:
        free = 1024 * int(re.search(r"MemAvailable:\s+(\d+)", it.read())[1])
    processors, room = len(os.sched_getaffinity(0)), max(1, free // MEMORY)
    return min(processors, room), min(processors + MORE_LANES, room)


def hold(names):
    """Keeps other runs out of these crates, as `rt` does."""
    held = []
    for name in names:
        folder = os.open(f"{TOP}/crates/{name}", os.O_RDONLY)
        try:
            fcntl.flock(folder, fcntl.LOCK_EX | fcntl.LOCK_NB)
        except BlockingIOError:
            say(f"another run works in crates/{name}: waiting until it has ended")
            fcntl.flock(folder, fcntl.LOCK_EX)
        held.append(folder)
    return held


def release(held):
    """Lets other runs into the crates that were held."""
    while held:
        os.close(held.pop())


def bring_back(name):
    """Puts what was kept of a crate's work from its room to its folder."""
    kept, own = f"{ROOMS}/{name}/crates/{name}/out", f"{TOP}/crates/{name}/out"
    if os.path.isdir(kept):
        shutil.rmtree(own, ignore_errors=True)
        os.rename(kept, own)
    shutil.rmtree(f"{ROOMS}/{name}", ignore_errors=True)


def make_room(name, lines):
    """The room of a crate: its sources, those below it with what was built of them, and what is kept of its work."""
    room = f"{ROOMS}/{name}"
    for it in [*below(name, lines), name]:
        for part in ("src", "specs", "proofs"):
            if os.path.isdir(f"{TOP}/crates/{it}/{part}"):
                shutil.copytree(f"{TOP}/crates/{it}/{part}", f"{room}/crates/{it}/{part}")
        if it != name:
            shutil.copytree(f"{TOP}/crates/{it}/out/rlib", f"{room}/crates/{it}/out/rlib", copy_function=os.link)
    with open(f"{room}/crates.txt", "w", encoding="utf-8") as it:
        it.write("".join(f"{lines[other]}\n" for other in [*below(name, lines), name]))
    shutil.copy(f"{TOP}/HANDLES", f"{room}/HANDLES")
    if os.path.isdir(f"{TOP}/crates/{name}/out"):
        os.rename(f"{TOP}/crates/{name}/out", f"{room}/crates/{name}/out")
    return f"{room}/crates/{name}"


def do(words, folder, name, nice=0):
    """Does a command in a folder, which gives way to others by `nice`; what it says goes to the log of a crate. Its status."""
    with open(f"{ROOMS}/{name}.log", "a", encoding="utf-8") as log:
        how = {"cwd": folder, "stdin": subprocess.DEVNULL, "stdout": log, "stderr": subprocess.STDOUT}
        if STOPPED:
            return 1
        proof = subprocess.Popen(["nice", "-n", str(nice), *words], **how)
        PROOFS.append(proof)
        if STOPPED:
            proof.terminate()
        return proof.wait()


def prove_and_keep(name, lines, nice, jobs):
    """Proves a library by `rt lib`, by a number of jobs, which give way to others by `nice`; its status."""
    folder = make_room(name, lines)
    try:
        return do(["rt", "lib", "--jobs", str(jobs)], folder, name, nice)
    finally:
        bring_back(name)


def kit():
    """The folder of the toolchain, where all that a proof without `rt` needs is in its place; else none."""
    found = os.path.dirname(os.path.dirname(os.path.realpath(shutil.which("rt") or "rt")))
    parts = ("KIT-ID", "bin/rattle", "bin/rattle-link", "c", "logic_built", "rlibs", "rattle/logic/antt-project.json", "toolchain")
    return found if all(os.path.exists(f"{found}/{it}") for it in parts) else None


def statements(name):
    """What is built of a library."""
    return f"{TOP}/crates/{name}/out/rlib/statements/{name}.rlib"


def sum_of(name, lines):
    """A sum of all that a crate is proved from."""
    sum = hashlib.sha256(repr([lines[it] for it in [*below(name, lines), name]]).encode())
    files = [f"{kit()}/KIT-ID"]
    for it in [*below(name, lines), name]:
        for part in ("src", "specs", "proofs"):
            files += sorted(f"{at}/{file}" for at, _, found in os.walk(f"{TOP}/crates/{it}/{part}") for file in found)
    for file in files:
        with open(file, "rb") as it:
            sum.update(repr((file.replace(TOP, ""), it.read())).encode())
    return sum.hexdigest()


def words_of(name, lines, root):
    """What the prover is told of a crate: its root, its libraries, and the logic."""
    own = lines[name].split(":")[1].split()
    words = ["--crate-name", name, root]
    for it in ["std", *own]:
        words += ["--extern", f"{it}={statements(it) if it in lines else f'{kit()}/rlibs/{it}.rlib'}"]
    for it in below(name, lines):
        words += ["-L", f"dependency={os.path.dirname(statements(it))}"]
    words += ["-L", f"dependency={kit()}/rlibs", "--antt-project", f"{kit()}/rattle/logic/antt-project.json"]
    return [*words, "--logic-built", f"{kit()}/logic_built", "--links", f"{name}="]


@functools.cache
def toolchain():
    """What `rt` itself is made of."""
    loader = importlib.machinery.SourceFileLoader("rtlib", f"{kit()}/bin/rtlib.py")
    made = importlib.util.module_from_spec(importlib.util.spec_from_loader("rtlib", loader))
    sys.modules["rtlib"], sys.dont_write_bytecode = made, True
    loader.exec_module(made)
    return made


def stamp_of(name):
    """The stamp of a library's sources, as `rt` makes it; none where this `rt` has another way."""
    try:
        return toolchain().Crate(f"{TOP}/crates/{name}", TOP, {}).stamp()
    except (Exception, SystemExit):
        return None


def text_of(file):
    try:
        with open(file, encoding="utf-8") as it:
            return it.read()
    except OSError:
        return None


def link(found, to):
    """Puts what was built of a library in another place too: the same files, by another name."""
    shutil.rmtree(to, ignore_errors=True)
    shutil.copytree(found, to, copy_function=os.link)


def take_back(name):
    """Takes from `rt` what it has built of a library, or was given; the statements stay."""
    own = f"{TOP}/crates/{name}/out/rlib"
    shutil.rmtree(f"{own}/{name}.rlib", ignore_errors=True)
    if os.path.exists(f"{own}/stamp"):
        os.remove(f"{own}/stamp")


def give(name, stamp):
    """Gives `rt` what was proved here: it takes what stands in out/rlib beside the stamp of the sources, and so proves none of
    the libraries again when it checks a crate above them. (The gate asks for none of this: `rt ci` sets all of out/ aside.)"""
    made, own = statements(name), f"{TOP}/crates/{name}/out/rlib"
    has_it = os.path.isfile(f"{own}/{name}.rlib/format") and os.path.samefile(f"{own}/{name}.rlib/format", f"{made}/format")
    if not stamp or (has_it and text_of(f"{own}/stamp") == stamp):
        return
    try:
        if not has_it:
            take_back(name)
            link(made, f"{own}/{name}.rlib")
        with open(f"{own}/stamp", "w", encoding="utf-8") as it:
            it.write(stamp)
    except OSError:
        # some file systems have no links
        take_back(name)


def prove_once(name, lines, nice, jobs):
    """Proves a library from nothing, unless it is proved, by a number of jobs; its status."""
    made, stamp, sum = os.path.dirname(statements(name)), stamp_of(name), sum_of(name, lines)
    if text_of(f"{made}/sum") == sum:
        give(name, stamp)
        return 0
    shutil.rmtree(f"{TOP}/crates/{name}/out/rlib", ignore_errors=True)
    # (where an earlier version of this kept it)
    shutil.rmtree(f"{TOP}/crates/{name}/out/statements", ignore_errors=True)
    os.makedirs(made)
    words = [f"{kit()}/bin/rattle", "build", *words_of(name, lines, "src/lib.rt"), "--jobs", str(jobs)]
    status = do([*words, "--statements", "-o", statements(name)], f"{TOP}/crates/{name}", name, nice)
    if status == 0 and sum == sum_of(name, lines):
        with open(f"{made}/sum", "w", encoding="utf-8") as it:
            it.write(sum)
        give(name, stamp)
    return status


def take(names, lines):
    """Takes what `rt ci` has just proved of these libraries, if it stands in out/rlib with no stamp, as `rt ci` leaves it;
    the status."""
    left = {it: f"{TOP}/crates/{it}/out/rlib" for it in names}
    if any(not os.path.isdir(f"{own}/{it}.rlib") or os.path.exists(f"{own}/stamp") for it, own in left.items()):
        return 1
    for name, own in left.items():
        made = os.path.dirname(statements(name))
        shutil.rmtree(made, ignore_errors=True)
        link(f"{own}/{name}.rlib", statements(name))
        with open(f"{made}/sum", "w", encoding="utf-8") as it:
            it.write(sum_of(name, lines))
        give(name, stamp_of(name))
    return 0


def build_once(lines):
    """Proves the program over what was built of its libraries, and makes it; the status."""
    folder, to = f"{TOP}/crates/{PROGRAM}", f"out/{PROGRAM}"
    words = [f"{kit()}/bin/rattle", "build", *words_of(PROGRAM, lines, "src/main.rt"), "--jobs", str(lanes()[0])]
    link = [f"{kit()}/bin/rattle-link", "--target", "x86_64-unknown-linux-gnu", "--toolchain", f"{kit()}/toolchain", "-o", to, f"{to}.o"]
    return (
        do([*words, "--toolchain", f"{kit()}/toolchain", "-o", f"{to}.o"], folder, PROGRAM)
        or do([*link, f"{kit()}/c/libos_c.a", f"{kit()}/c/liblibc_c.a"], folder, PROGRAM)
        or do([to, "--version"], folder, PROGRAM)
    )


def keeping_toolchain():
    """A copy of the toolchain's folder by links, whose clang keeps the LLVM module that it compiles."""
    copy = f"{ROOMS}/toolchain"
    for part in ("bin", "lib"):
        os.makedirs(f"{copy}/{part}")
        for it in os.listdir(f"{kit()}/toolchain/{part}"):
            os.symlink(f"{kit()}/toolchain/{part}/{it}", f"{copy}/{part}/{it}")
    os.remove(f"{copy}/bin/clang")
    # (it is called without variables)
    keep, clang = shlex.quote(f"{TOP}/crates/{LIBRARY}/out/council.bc"), shlex.quote(f"{kit()}/toolchain/bin/clang")
    lines = ["#!/bin/sh", f'for it; do case $it in *.bc) cp "$it" {keep} ;; esac; done', f'exec {clang} "$@"']
    with open(f"{copy}/bin/clang", "w", encoding="utf-8", opener=lambda path, flags: os.open(path, flags, 0o755)) as it:
        it.writelines(f"{line}\n" for line in lines)
    return copy


def library_once(lines):
    """Proves the crate for other languages over what was built of its libraries, and makes its archive; the status. The
    LLVM module stays beside it, for tools/web.sh."""
    words = [f"{kit()}/bin/rattle", "build", *words_of(LIBRARY, lines, "src/lib.rt"), "--jobs", str(lanes()[0])]
    words += ["--crate-type", "staticlib", "--toolchain", keeping_toolchain(), "-o", f"out/lib{LIBRARY}.a"]
    return do(words, f"{TOP}/crates/{LIBRARY}", LIBRARY)


def with_memory(sources):
    """Puts the heap beside the object of the crate, under names that clash with those of no other library of Rattle, and
    keeps of which sources the archive is; the status."""
    out, tools = f"{TOP}/crates/{LIBRARY}/out", f"{kit()}/toolchain/bin"
    with tempfile.TemporaryDirectory(dir=out) as room:

        def run(*words):
            return subprocess.run(words, cwd=room, check=False).returncode

        if run(f"{tools}/llvm-ar", "x", f"{out}/lib{LIBRARY}.a") or run(
            f"{tools}/clang", "-O2", "-fPIC", "-fvisibility=hidden", "-c", f"{TOP}/tools/heap.c", "-o", "heap.o"
        ):
            return 1
        objects = sorted(os.listdir(room))
        for it in objects:
            with open(f"{room}/{it}", "r+b") as file:
                renamed = re.sub(rb"\0rattle_((re|de)?alloc)(?=\0)", rb"\0council\1", file.read())
                file.seek(0)
                file.write(renamed)
        if run(f"{tools}/llvm-ar", "rcs", "libcouncil.a", *objects):
            return 1
        os.replace(f"{room}/libcouncil.a", f"{out}/libcouncil.a")
    with open(f"{out}/built", "w", encoding="utf-8") as it:
        it.write(f"{sources}\n")
    return 0


def log_of(name):
    """Puts the log of a crate behind the others."""
    with open(f"{ROOMS}/{name}.log", encoding="utf-8", errors="replace") as log, open(LOG, "a", encoding="utf-8") as whole:
        whole.write(f"== {name}\n{log.read()}")


def plan(names, lines, cost):
    """The libraries in the order in which they begin, with how far each gives way: what fills the time at the end comes
    last, and among the others the one with the longest chain above it first."""
    behind, nice = chains(names, lines, cost), {}
    last = last_of(names, lines)
    for name in names:
        above = any(name in below(it, lines) for it in names)
        nice[name] = NICE if above or cost[name] > FILLS or name == last else NICE_LAST
    return sorted(names, key=lambda it: (nice[it], -behind[it])), nice


class Told:
    """What is told of a build while it goes on."""

    def __init__(self, names, goal, lines, cost):
        self.lines, self.cost, self.start = lines, cost, time.time()
        self.begun, self.took, self.left = {}, {}, [*names, goal]
        self.count = len(self.left)
        self.few = lanes()[0]
        say(f"{self.count} proofs, {self.few} at once: some {self.minutes()} minutes where nothing else runs")

    def costs_left(self):
        """How many seconds each proof that has not ended still takes."""
        now = time.time()
        return {it: max(1, self.cost[it] - (now - self.begun.get(it, now))) for it in self.left}

    def minutes(self):
        return minutes(self.costs_left(), self.lines, self.cost, self.took, self.few)

    def begin(self, name):
        self.begun[name] = time.time()

    def end(self, name):
        self.left.remove(name)
        took = time.time() - self.begun[name]
        if took > 1:
            # (one that was proved before takes no time)
            self.took[name] = took
        text = f"{name} is proved, {self.count - len(self.left)} of {self.count}, {time.time() - self.start:.0f} s"
        say(f"{text}; some {self.minutes()} min left")


class Preview:
    """What the sources print for some words, run without a proof beside the proofs."""

    def __init__(self, words, told):
        self.words, self.told, self.report = words, told, None
        how = {"stdin": subprocess.DEVNULL, "stdout": subprocess.PIPE, "stderr": subprocess.DEVNULL, "start_new_session": True}
        self.run = subprocess.Popen([f"{TOP}/tools/preview", *words], **how)
        threading.Thread(target=self.show, daemon=True).start()

    def show(self):
        report = self.run.communicate()[0]
        if self.run.returncode == 0 and self.told:
            self.report = report
            say(f"not proved yet; the proof goes on, some {self.told.minutes()} minutes:")
            os.write(2, report)

    def end(self):
        self.told = None
        if self.run.poll() is None:
            os.killpg(self.run.pid, signal.SIGTERM)

    def is_proved(self):
        """Whether the program prints the same; also if nothing was shown."""
        if self.report is None:
            return True
        return self.report == subprocess.run([f"{OUT}/{PROGRAM}", *self.words], stdin=subprocess.DEVNULL, stdout=subprocess.PIPE, check=False).stdout


def prove_all(names, lines, prove, told):
    """Proves the libraries, each after those below it; whether all were. The one with the longest chain above it
    begins at once, and the others give way to it. The processors that are free are shared among those that can begin: a further
    job is work of its own, since it reads the statements below once more, so that no other has one, but for the very last, beside
    which only what fills the time at the end is left: it has what that leaves."""
    left, nice = plan(names, lines, told.cost)
    few, all_lanes = lanes()
    running, jobs, done, first = {}, {}, [], None
    with ThreadPoolExecutor(len(names)) as pool:
        while left or running:
            ready = [it for it in left if all(other in done for other in below(it, lines))]
            for name in ready:
                busy = sum(jobs[it] for it in running.values())
                others = sum(nice[it] == NICE for it in running.values())
                if nice[name] == NICE:
                    has_lane = others < few
                else:
                    # what fills the time at the end takes what the others leave
                    has_lane = len(running) < all_lanes and (busy < few or all(nice[it] != NICE for it in left))
                if not first and name == left[0] and few > 1:
                    first = name
                if name == first or has_lane:
                    can = [it for it in ready if it != name and it in left]
                    # (what fills the time at the end counts where nothing else is left)
                    waiting = sum(nice[it] == NICE for it in can) or (len(can) if len(can) + 1 == len(left) else 0)
                    jobs[name] = max(1, (few - busy) // (waiting + 1))
                    left.remove(name)
                    if name == first and all(nice[it] == NICE_LAST for it in [*left, *running.values()]):
                        # (what is left beside it needs one of them)
                        jobs[name] = few - 1 if left or running else few
                    told.begin(name)
                    running[pool.submit(prove, name, lines, 0 if name == first else nice[name], jobs[name])] = name
            for it in wait(running, return_when=FIRST_COMPLETED).done:
                name = running.pop(it)
                first = None if name == first else first
                open(f"{ROOMS}/{name}.log", "a", encoding="utf-8").close()
                log_of(name)
                if it.result():
                    say(f"{name} was not proved")
                    left.clear()
                    done.append(None)
                else:
                    done.append(name)
                    told.end(name)
    return None not in done


def stop(number, _):
    """Ends the proofs under way; what they kept is brought back."""
    for it in SIGNALS:
        signal.signal(it, signal.SIG_IGN)
    say(f"{signal.Signals(number).name}: stopping")
    STOPPED.append(number)
    for proof in PROOFS:
        proof.terminate()
    sys.exit(128 + number)


def built(*words):
    """What tools/built.sh says."""
    return subprocess.run(["sh", f"{TOP}/tools/built.sh", *words], stdout=subprocess.PIPE, text=True, check=True).stdout.strip()


def wait_for_others():
    """Waits until no other build works here; whether one did."""
    held = os.open(OUT, os.O_RDONLY)
    try:
        fcntl.flock(held, fcntl.LOCK_EX | fcntl.LOCK_NB)
        return False
    except BlockingIOError:
        say("another start builds the program: waiting until it has ended")
        fcntl.flock(held, fcntl.LOCK_EX)
        return True
    except OSError:
        # some file systems have no locks
        return False


def build(names, goal, lines, keeps, held, sources, early):
    """Proves the libraries, and builds the program or the library for other languages; the status. These crates are held
    until then. The words `early` are previewed, if there are any."""
    proved = [it for it in names if (stamp := stamp_of(it)) and text_of(f"{TOP}/crates/{it}/out/rlib/stamp") == stamp]
    told = Told(names, goal, lines, {**costs([*names, goal], lines), **dict.fromkeys(proved, 0)})
    preview = Preview(early, told) if early else None
    try:
        if not prove_all(names, lines, prove_and_keep if keeps else prove_once, told):
            return 1
        status = build_goal(names, goal, lines, keeps, held, told)
    finally:
        if preview:
            preview.end()
    if status == 0 and preview and not preview.is_proved():
        say("the proved program prints something else than its sources did without a proof: please report this")
        status = 3
    return status or (with_memory(sources) if goal == LIBRARY else 0)


def build_goal(names, goal, lines, keeps, held, told):
    """Builds the program or the library for other languages over what was proved; the status."""
    told.begin(goal)
    if goal == LIBRARY:
        for name in names if keeps else []:
            link(f"{TOP}/crates/{name}/out/rlib/{name}.rlib", statements(name))
        status = library_once(lines)
    elif not keeps:
        status = build_once(lines)
    else:
        # `rt` takes these crates for itself
        release(held)
        status = do(["rt", "run", "--", "--version"], f"{TOP}/crates/{goal}", goal)
    if not keeps:
        told.took[goal] = time.time() - told.begun[goal]
        keep_measured(told.took)
    log_of(goal)
    return status


def main():
    for it in SIGNALS:
        # (one that `nohup` has set aside stays so)
        if it != signal.SIGHUP or signal.getsignal(it) != signal.SIG_IGN:
            signal.signal(it, stop)
    lines, words, early = lines_of_crates(), sys.argv[1:], []
    if words[:1] == ["--preview"]:
        words, early = [], words[1:]
    if not set(words) <= {"--keep", "--library", "--take"}:
        print(__doc__.split("\n\n")[1], file=sys.stdout if words == ["--help"] else sys.stderr)
        return 0 if words == ["--help"] else 2
    goal = LIBRARY if "--library" in words else PROGRAM
    names = below(goal, lines) if goal in lines else []
    os.makedirs(OUT, exist_ok=True)
    os.makedirs(f"{TOP}/crates/{goal}/out", exist_ok=True)
    if wait_for_others() and not words and not built("why"):
        say("the other start has built the program")
        return 0
    held = hold(names)
    if goal == LIBRARY and not kit():
        say("the folder of the toolchain was not found")
        return 1
    if "--take" in words:
        return take(names, lines) if kit() else 1
    open(LOG, "w", encoding="utf-8").close()
    if os.path.isdir(ROOMS):
        # a run that was killed left them
        for name in lines:
            bring_back(name)
        shutil.rmtree(ROOMS, ignore_errors=True)
    os.makedirs(ROOMS)
    if goal == PROGRAM and os.path.isdir(f"{OUT}/{PROGRAM}"):
        # what is no file stands in the way of the program
        shutil.rmtree(f"{OUT}/{PROGRAM}")
    sources = built("sources")
    keeps = "--keep" in words or not kit() or any(os.path.isdir(f"{TOP}/crates/{it}/out/incremental") for it in names)
    try:
        status = build(names, goal, lines, keeps, held, sources, early)
        if status in (0, 3) and goal == PROGRAM:
            built("keep", sources)
        return status
    finally:
        shutil.rmtree(ROOMS, ignore_errors=True)
        release(held)


try:
    sys.exit(main())
except (OSError, subprocess.CalledProcessError) as error:
    say(error)
    sys.exit(1)
