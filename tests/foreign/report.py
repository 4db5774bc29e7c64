"""The program, over the call of the library as a shared object:

    python3 report.py LIBRARY [--tally] [--list] [--sizes] [--notation] [--most N] [--room N] <GAME
"""
import ctypes
import sys


# the words of the options that this caller knows
NAMES = ["size", "most", "visits", "states", "tally", "list", "sizes", "notation"]
words_type = ctypes.c_uint64 * len(NAMES)

call = ctypes.CDLL(sys.argv[1]).council_report_raw
call.restype = ctypes.c_uint32
call.argtypes = [
    *[ctypes.c_char_p, ctypes.c_size_t, words_type, ctypes.c_size_t, ctypes.c_char_p, ctypes.c_size_t],
    ctypes.POINTER(ctypes.c_uint64),
]


def report(game, options, room):
    """The status and the text."""
    length = ctypes.c_uint64()
    while True:
        # (a buffer of no byte is none: ctypes would give no address)
        text = ctypes.create_string_buffer(max(1, room))
        status = call(game, len(game), options, len(options), text, room, ctypes.byref(length))
        if length.value <= room:
            return status, text.raw[: length.value]
        room = length.value


options, room, words = words_type(8 * len(NAMES)), 4096, iter(sys.argv[2:])
for word in words:
    if word == "--room":
        room = int(next(words))
    else:
        options[NAMES.index(word[2:])] = int(next(words)) if word == "--most" else 1
status, text = report(sys.stdin.buffer.read(), options, room)
if status:
    sys.stderr.buffer.write(b"council: " + text + b"\n")
else:
    sys.stdout.buffer.write(text)
sys.exit(status)
