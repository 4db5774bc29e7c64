"""Whether `council_double` of council.h gives the nearest double of a fraction, as Python does:

    doubles.py ARRAYS COUNT

ARRAYS is the program of arrays.c.
"""
import random
import subprocess
import sys

rng = random.Random(1)
fractions = [(0, 1), (1, 1), (1, 10**30), (10**30 - 1, 10**30)]
for _ in range(int(sys.argv[2])):
    bottom = rng.randint(1, min(2 ** rng.choice([1, 5, 20, 53, 54, 64, 99]), 10**30))
    fractions.append((rng.randint(0, bottom), bottom))
    # half between two doubles, and beside it
    half, up = (2 * rng.getrandbits(53) + 1) << 39, rng.randint(-1, 1)
    fractions.append((half + up, 1 << 93))
words = "".join(f"{top >> 64} {top % 2**64} {bottom >> 64} {bottom % 2**64}\n" for top, bottom in fractions)
found = subprocess.run([sys.argv[1], "double"], input=words, stdout=subprocess.PIPE, text=True, check=True).stdout.split()
wrong = [it for it, text in zip(fractions, found) if float.fromhex(text) != it[0] / it[1]]
sys.exit(f"not the nearest double: {wrong[0]}" if wrong or len(found) != len(fractions) else 0)
