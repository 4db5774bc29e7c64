"""The calls of the library council, libcouncil.so, as council.h declares them.

A call of the main thread begins there. If it takes longer than LONG seconds, it begins again in a
thread of its own, so an interrupt is heard, and ends the computation too.
"""
from __future__ import annotations

import ctypes
import math
import os
import threading
import time
from array import array
from ctypes import byref, sizeof
from fractions import Fraction
from typing import Any, Optional, Sequence

from .platforms import wait
from .ways import WAYS, Ways

U32, U64, Size = ctypes.c_uint32, ctypes.c_uint64, ctypes.c_size_t
# room for a report without a list and with one, in bytes; a longer one is made again
ROOM, LIST_ROOM = 1 << 16, 1 << 26
# the words of `struct council_member`, whose fractions begin at the third, and of `struct
# council_summary`: some of them, and where Coleman's power to act begins
MEMBER, SUMMARY = 36, 68
RULE, COALITIONS, WINNING, ACT = 4, 5, 6, 52
# statuses of council.h
GAME, TOO_MANY, MEMORY, STATES, TOO_LONG = 3, 4, 5, 6, 7
LONG = 0.05


class Options(ctypes.Structure):
    """`struct council_options`, without its last field, which callers of raw functions do not have."""

    _fields_ = [*[(it, U64) for it in ("size", "most", "visits", "states", "tally", "list", "sizes", "notation", "swings", "only_swings")], ("ways", U64 * WAYS)]


def read_fractions(words: Sequence[int]) -> list[Fraction]:
    """Reads fractions, each of two numbers of 128 bits."""
    return [Fraction(words[at] << 64 | words[at + 1], words[at + 2] << 64 | words[at + 3]) for at in range(0, len(words), 4)]


class NoAnswer(Exception):
    """The library has no numbers of a game, with this status and fault. `rule` is the rule of the
    fault, from 1, or None."""

    def __init__(self, status: int, fault: str, rule: Optional[int] = None):
        super().__init__(fault)
        self.status, self.fault, self.rule = status, fault, rule


class Alarm:
    """Sets its flag if a call of the main thread takes longer than LONG seconds. Its thread ends a
    second after the last call."""

    def __init__(self) -> None:
        self.flag, self.due, self.is_busy = U32(), 0.0, False
        self._has_thread, self._lock = False, threading.Lock()

    def begin(self) -> None:
        with self._lock:
            self.flag.value, self.due, self.is_busy = 0, time.monotonic() + LONG, True
            if not self._has_thread:
                threading.Thread(target=self._run, name="council", daemon=True).start()
                self._has_thread = True

    def _run(self) -> None:
        late = 0.0
        while late < 1:
            time.sleep(LONG / 2)
            with self._lock:
                late = time.monotonic() - self.due
                if self.is_busy and late > 0:
                    self.flag.value = 1
                self._has_thread = late < 1


ALARM = Alarm()
if hasattr(os, "register_at_fork"):
    # (a forked child has the lock, but not the thread)
    os.register_at_fork(after_in_child=ALARM.__init__)  # type: ignore[misc]


class Library:
    """The library as a shared object. Instead of its numbers or masks there may be a NoAnswer."""

    def __init__(self, path: str):
        self.path = path
        self._calls: Any = ctypes.CDLL(path)

    def report(self, game: bytes, **options: int) -> tuple[int, str]:
        """Returns the status, and the report of a game file or its fault."""
        room, length, words = 0, U64(LIST_ROOM if options.get("list") else ROOM), Options(size=sizeof(Options), **options)
        while length.value > room:
            room = length.value
            text = ctypes.create_string_buffer(room)
            status = self._run(self._calls.council_report_raw, game, Size(len(game)), byref(words), Size(sizeof(words) // 8), text, Size(room), byref(length))
        return status, ctypes.string_at(text, length.value).decode("utf-8")

    def count(self, quotas: Sequence[int], columns: Sequence[Sequence[int]], ways: Optional[Ways], **options: int) -> tuple[Sequence[int], list[list[int]]]:
        """Returns the words of a game, and those of each member."""
        members = len(columns[0])
        words = (U64 * (MEMBER * members))()
        summary = self._ask(self._calls.council_indices_raw, quotas, columns, ways, options, words, Size(members))
        return summary, [words[MEMBER * at : MEMBER * (at + 1)] for at in range(members)]

    def list_masks(self, quotas: Sequence[int], columns: Sequence[Sequence[int]], ways: Optional[Ways], most: int, **options: int) -> Sequence[int]:
        """Returns the coalitions of a game, which has at most `most`."""
        members = len(columns[0])
        # (none is a part of another, so there are at most as many as sets of half of the members)
        masks = (U64 * min(most, math.comb(members, members // 2)))()
        summary = self._ask(self._calls.council_list_raw, quotas, columns, ways, options, Size(members), masks, Size(len(masks)))
        return array("Q", bytes(memoryview(masks)[: summary[COALITIONS]]))

    def _ask(self, call: Any, quotas: Sequence[int], columns: Sequence[Sequence[int]], ways: Optional[Ways], options: dict[str, int], *words: Any) -> Sequence[int]:
        """Calls with a game as arrays, `columns` being the weights of each rule."""
        weights = [it for its in columns for it in its]
        arrays = [word for its in (quotas, weights) for word in ((U64 * len(its))(*its), Size(len(its)))]
        asked = Options(size=sizeof(Options), **options)
        asked.ways[:] = [sum(1 << rule - 1 for rule in it) for it in ways or ()] + [0] * (WAYS - len(ways or ()))
        summary = (U64 * SUMMARY)(8 * SUMMARY, 8 * MEMBER)
        status = self._run(call, *arrays, byref(asked), Size(sizeof(asked) // 8), *words, summary)
        if status:
            text, length = ctypes.create_string_buffer(ROOM), U64()
            self._calls.council_explain(status, summary, text, Size(ROOM), byref(length))
            raise NoAnswer(status, ctypes.string_at(text, length.value).decode("utf-8"), summary[RULE] or None)
        return summary[:]

    def _run(self, call: Any, *words: Any) -> int:
        """Calls in this thread, and if that takes long, in one of its own. No other thread than the
        main one hears of interrupts."""
        if threading.current_thread() is not threading.main_thread():
            return int(call(*words))
        ALARM.begin()
        self._calls.council_watch(byref(ALARM.flag))
        try:
            status: int = call(*words)
        finally:
            self._calls.council_watch(None)
            ALARM.is_busy = False
        return self._run_aside(call, *words) if status == MEMORY and ALARM.flag.value else status

    def _run_aside(self, call: Any, *words: Any) -> int:
        """Calls in a thread of its own, which an interrupt ends too."""
        answers: list[int] = []
        stop = U32()

        def work() -> None:
            self._calls.council_watch(byref(stop))
            answers.append(call(*words))

        worker = threading.Thread(target=work, name="council", daemon=True)
        worker.start()
        try:
            wait(worker)
        finally:
            stop.value = 1
            wait(worker)
        return answers[0]
