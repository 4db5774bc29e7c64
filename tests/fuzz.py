#!/usr/bin/env python3
"""Runs the program on files that are noise.

    fuzz.py PROGRAM COUNT SEED

makes COUNT files from the games of examples/, and from as many random games of two to four rules with many
zeros and up to 40 members, half of them with ways, each by some flips, cuts, repeats and joins of bytes, and runs PROGRAM on each, as FILE or on standard input and with options of all kinds. Whatever the
file, the program ends by itself within a second, of the clock or of processor time, or on a slower or
busier machine within three times what the slowest of the untouched games takes there, with a status
from 0 to 5 that is not 2. A run that takes longer is tried again, for five minutes: a machine that others
use too has slow spells. At 0 there is a report
on standard output and nothing on standard error; at any other status there is one line on standard
error, which begins with `council: `, and nothing on standard output. The same SEED makes the same
files. A file that fails is kept, and its name is printed.

A long run: python3 tests/fuzz.py crates/council/out/council 20000 $RANDOM

    fuzz.py PROGRAM COUNT SEED statutes

instead runs it on COUNT statutes of two to four rules and up to 40 members, and on as many share
registers, each in the order that it is made in and in the opposite order of its rules. A game with
fewer than 100,000 coalitions must end within five seconds of processor time, and every game within a
minute.
"""
import glob
import os
import random
import re
import resource
import subprocess
import sys
import tempfile
import time
from collections import Counter

import random_games

# A run that takes longer, by the clock and in processor time, may take `TIMES` times what the
# slowest untouched game takes at that time. Else it is tried again after `PAUSE` seconds.
SECONDS = 1.0
TIMES = 3
PAUSE = 5
# After this many seconds a run has not ended. Where other work holds all processors, each hand-over
# of a full ring waits for its turn, so a long list may take half a minute.
HANGS = 5 * int(os.environ.get("SECONDS_EACH", 60))
# Bytes that mean something in one of the two forms.
TELLING = [b"[", b"]", b"[[", b"]]", b"=", b"\n", b"\r\n", b'"', b"'", b'"""', b"#", b",", b";", b".", b"-", b"{", b"}",
           b"0", b"9", b"1000000000000", b"9223372036854775807", b"1e3", b"inf", b"0x10", b"1_0", b"\\u0000", b"\\",
           b"\x00", b"\x7f", b"\x80", b"\xff", b"\xef\xbb\xbf", b"\t", b" ",
           b"quota", b"quotas", b"ways = [[1, 2], [3]]\n", b"ways", b"weight", b"weights", b"member", b"[[member]]\n", b"name", b"title = "]


def several_rules(rng):
    """A game file whose rules are vetoes, houses, heads, or random weights, most of them zeros."""
    members = rng.randint(2, 40)
    rules = []
    for _ in range(rng.randint(2, 4)):
        kind = rng.randrange(4)
        if kind == 0:
            chosen = rng.sample(range(members), rng.randint(1, min(3, members)))
            weights = [int(member in chosen) for member in range(members)]
            quota = rng.choice([1, len(chosen)])
        elif kind == 1:
            start = rng.randrange(members)
            end = rng.randint(start + 1, members)
            weights = [int(start <= member < end) for member in range(members)]
            quota = rng.randint(1, min(3, end - start))
        elif kind == 2:
            weights = [1] * members
            quota = rng.randint(1, min(4, members))
        else:
            weights = [0 if rng.randrange(3) else rng.randint(1, 50) for _ in range(members)]
            weights[rng.randrange(members)] = 50
            quota = rng.randint(1, max(1, sum(weights) // 4))
        rules.append((quota, weights))
    ways = random_games.ways_of(rng, len(rules)) if rng.randrange(2) else []
    return game_file(rules, ways)


def statute(rng):
    """Two to four rules as statutes have them, heads first: many small members, and after them a small
    group with much weight, as owners, founders, vetoers or regions."""
    small, large = rng.randint(20, 38), rng.randint(1, 8)
    large = min(large, 40 - small)
    members = small + large
    heads = [rng.randint(1, 2)] * small + [rng.randint(0, 1)] * large
    rules = [(rng.randint(1, 8), heads)]
    for _ in range(rng.randint(1, 3)):
        kind = rng.randrange(5)
        if kind == 0:
            # shares: no coalition has the quota without one or some of the large
            weights = [1] * small + [rng.randint(small, 4 * small)] * large
            quota = small + rng.randint(1, sum(weights) - small)
        elif kind == 1:
            # the large, all or some of them
            weights = [0] * small + [1] * large
            quota = rng.randint(1, large)
        elif kind == 2:
            # a region of the small, and its part of the large
            start = rng.randrange(small)
            weights = [int(start <= member < start + 12 or member >= small + large // 2) for member in range(members)]
            quota = rng.randint(1, max(1, sum(weights) // 2))
        elif kind == 3:
            # shares as 1, 1/2, 1/3 of the largest, the largest last
            weights = [1000 * small // (members - member) for member in range(members)]
            quota = sum(weights) * rng.randint(30, 95) // 100
        else:
            # the small bring little, and each large one something of its own
            weights = [rng.choice([0, 1]) for _ in range(small)] + [rng.randint(10, 100) for _ in range(large)]
            quota = rng.randint(1, sum(weights))
        rules.append((min(quota, sum(weights)), weights))
    return rules


def register(rng):
    """The rules of a share register: some of the holders sign, and have a part of the shares; maybe with seats."""
    members = rng.randint(34, 40)
    if rng.randrange(2):
        shares = [10 ** 6 // (holder + 1) for holder in range(members)]
    else:
        shares = [rng.choice([1, 10, 100, 1000]) * rng.randint(1, 9) for _ in range(members)]
    rng.choice([shares.sort, shares.reverse, lambda: rng.shuffle(shares)])()
    part = rng.choice([(1, 2), (2, 3), (3, 4)])
    rules = [(rng.choice([2, 3, 5]), [1] * members), (sum(shares) * part[0] // part[1] + 1, shares)]
    if rng.randrange(3) == 0:
        seats = [int(rng.randrange(4) == 0) for _ in range(members)]
        seats[rng.randrange(members)] = 1
        rules.append((rng.randint(1, sum(seats)), seats))
    return rules


def game_file(rules, ways=()):
    """The game file of rules, each of a quota and weights, and of ways, if there are some."""
    lines = [f"quotas = {[quota for quota, _ in rules]}"]
    if ways:
        lines.append(f"ways = {[[r + 1 for r in way] for way in ways]}")
    for member in range(len(rules[0][1])):
        lines += ["[[member]]", f'name = "M{member}"', f"weights = {[weights[member] for _, weights in rules]}"]
    return "".join(f"{line}\n" for line in lines).encode()


def noisy(rng, games):
    text = bytearray(rng.choice(games) if rng.randrange(2) else several_rules(rng))
    for _ in range(rng.choice([0, 1, 1, 1, 1, 2, 2, 3, 5, 20])):
        at = rng.randrange(len(text) + 1)
        end = min(len(text), at + rng.choice([1, 1, 1, 2, 5, 20, 100]))
        kind = rng.randrange(11)
        if kind == 0 and at < len(text):
            text[at] ^= 1 << rng.randrange(8)
        elif kind == 1 and at < len(text):
            text[at] = rng.randrange(256)
        elif kind == 2:
            del text[at:end]
        elif kind == 3:
            text[at:at] = rng.choice(TELLING)
        elif kind == 4:
            text[at:at] = text[at:end] * rng.choice([1, 1, 2, 10])
        elif kind == 5:
            text = text[:at] if rng.randrange(2) else text[at:]
        elif kind == 6:
            other = rng.choice(games)
            text[at:] = other[rng.randrange(len(other) + 1):]
        else:
            # another number instead of one
            numbers = list(re.finditer(rb"[0-9]+", text))
            if numbers:
                it = rng.choice(numbers)
                text[it.start():it.end()] = str(rng.choice([0, 1, 2, rng.randrange(100), rng.randrange(10 ** 13)])).encode()
    return bytes(text)


def options(rng):
    words = [word for word in ("--list", "--sizes", "--notation") if rng.randrange(3) == 0]
    if rng.randrange(2):
        words += ["--workers", str(rng.randrange(1, 17))]
    if rng.randrange(2):
        words += ["--bits", str(rng.randrange(11))]
    if rng.randrange(4) == 0:
        words += ["--most", str(rng.choice([1, 10, 1000, 200000]))]
    return words


def processor_time():
    """What all programs that were run here have taken, in seconds."""
    it = resource.getrusage(resource.RUSAGE_CHILDREN)
    return it.ru_utime + it.ru_stime


def run(program, file, words, by_name):
    """What is wrong with the run, the status, and the seconds."""
    start, used = time.monotonic(), processor_time()
    with open(file, "rb") as it:
        try:
            made = subprocess.run([program, *words, *([file] if by_name else [])], stdin=subprocess.DEVNULL if by_name else it,
                                  stdout=subprocess.PIPE, stderr=subprocess.PIPE, timeout=HANGS)
        except subprocess.TimeoutExpired:
            return f"it had not ended after {HANGS} seconds", None, float(HANGS)
    took = min(time.monotonic() - start, processor_time() - used)
    status, out, err = made.returncode, made.stdout, made.stderr
    why = None
    if status < 0:
        why = f"signal {-status}"
    elif status > 5 or status == 2:
        why = f"status {status}"
    elif status == 0:
        if err:
            why = f"standard error holds {err[:80]!r}"
        elif not out.endswith(b"\n") or not out.startswith((b"title\t", b"members\t")):
            why = f"the report begins with {out[:80]!r}"
    elif out:
        why = f"status {status} and standard output holds {out[:80]!r}"
    elif not re.fullmatch(rb"council: [^\n]+\n", err):
        why = f"status {status} and standard error holds {err[:80]!r}"
    return why, status, took


def statutes(program, count, rng):
    """Runs the program on whole statutes and registers; whether none was slow."""
    slow, longest = 0, 0.0
    room = tempfile.mkdtemp(prefix="statutes-")
    games = []
    for _ in range(count):
        for rules in (statute(rng), register(rng)):
            games += [rules, rules[::-1]]
    for number, rules in enumerate(games):
        file = f"{room}/{number}"
        with open(file, "wb") as it:
            it.write(game_file(rules))
        used = processor_time()
        try:
            status = subprocess.run([program, "--most", "99999", file], stdin=subprocess.DEVNULL, stdout=subprocess.DEVNULL,
                                    stderr=subprocess.DEVNULL, timeout=60).returncode
        except subprocess.TimeoutExpired:
            status = None
        took = processor_time() - used
        if status == 0:
            longest = max(longest, took)
        if status not in (0, 4) or status == 0 and took > 5:
            slow += 1
            print(f"FAILED statutes: {file}: status {status} after {took:.1f} seconds", flush=True)
        else:
            os.remove(file)
    if not slow:
        os.rmdir(room)
        print(f"ok statutes: {len(games)}; the longest that was not refused took {longest:.2f} seconds")
    return not slow


def main(words):
    if len(words) == 4 and words[3] == "statutes":
        return 0 if statutes(os.path.abspath(words[0]), int(words[1]), random.Random(int(words[2]))) else 1
    if len(words) != 3:
        sys.exit("usage: fuzz.py PROGRAM COUNT SEED [statutes]")
    program, count, seed = os.path.abspath(words[0]), int(words[1]), int(words[2])
    rng = random.Random(seed)
    here = os.path.dirname(os.path.abspath(__file__))
    games = []
    untouched = sorted(glob.glob(f"{here}/../examples/*.toml") + glob.glob(f"{here}/../examples/*.txt"))
    for file in untouched:
        with open(file, "rb") as it:
            games.append(it.read())
    statuses, longest, failed = Counter(), 0.0, 0
    room = tempfile.mkdtemp(prefix="noise-")
    for number in range(count):
        file = f"{room}/{seed}-{number}"
        with open(file, "wb") as it:
            it.write(noisy(rng, games))
        chosen, by_name = options(rng), bool(rng.randrange(2))
        begun = time.monotonic()
        while True:
            why, status, took = run(program, file, chosen, by_name)
            if why or took <= SECONDS:
                break
            slowest = max(run(program, game, chosen, True)[2] for game in untouched)
            if took <= TIMES * slowest:
                break
            if time.monotonic() - begun > HANGS:
                why = f"it took {took:.1f} seconds, and the slowest untouched game {slowest:.1f}"
                break
            time.sleep(PAUSE)
        statuses[status] += 1
        longest = max(longest, took)
        if why:
            failed += 1
            print(f"FAILED fuzz {number} of seed {seed}: {why}: {file} {' '.join(chosen)}{'' if by_name else ' <'}", flush=True)
        else:
            os.remove(file)
    if not failed:
        os.rmdir(room)
        met = ", ".join(f"{number} of status {status}" for status, number in sorted(statuses.items()))
        print(f"ok fuzz: {count} files of seed {seed}: {met}; the longest run took {longest:.2f} seconds")
    return 1 if failed else 0


if __name__ == "__main__":
    sys.exit(main(sys.argv[1:]))
