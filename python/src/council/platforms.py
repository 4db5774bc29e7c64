"""What the package does by the system that it runs on."""
from __future__ import annotations

import os
import sys
import threading
from typing import Optional, TextIO


def library_name(system: str = sys.platform) -> str:
    """Returns the name of the file that is the library."""
    return "council.dll" if system in ("win32", "cygwin") else "libcouncil.so"


def find_file(home: str, system: str = sys.platform) -> Optional[str]:
    """Returns the path of the library in the folder of the package, or in its archive, or None."""
    paths = (os.path.join(it, library_name(system)) for it in (home, os.path.join(home, os.pardir, "lib")))
    # (a whole path, so Windows looks for it nowhere else)
    return next((os.path.realpath(it) for it in paths if os.path.isfile(it)), None)


def wait(worker: threading.Thread) -> None:
    """Waits until a thread has ended. Windows hears an interrupt only between waits."""
    while worker.is_alive():
        worker.join(0.1 if sys.platform == "win32" else None)


def prepare_streams(stdout: Optional[TextIO], stderr: Optional[TextIO]) -> None:
    """Makes what is printed UTF-8 with LF at the end of lines, whatever the console has. What a
    console cannot show, messages escape."""
    for stream, errors in ((stdout, "strict"), (stderr, "backslashreplace")):
        reconfigure = getattr(stream, "reconfigure", None)
        if reconfigure:
            reconfigure(encoding="utf-8", errors=errors, newline="\n")
