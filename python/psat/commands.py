"""What the programs of this package share: how they begin, end and tell what is wrong."""
from __future__ import annotations

import io
import os
import signal
import sys
from collections.abc import Callable, Sequence

USAGE, NO_PROBLEM, UNREAD, UNWRITTEN = 2, 3, 5, 6


def printable(text: str) -> str:
    """A text without what a terminal may take for a command, with `?` in place of each."""
    return "".join(letter if letter.isprintable() else "?" for letter in text)


def tell(name: str, message: str) -> None:
    """Writes a message on standard error, each of its lines behind the name."""
    for line in message.split("\n"):
        print(printable(f"{name}: {line}"), file=sys.stderr)


def run(name: str, main: Callable[[Sequence[str]], int]) -> int:
    """Runs a program of this name with the words of the command line: its exit status."""
    signal.signal(signal.SIGINT, signal.SIG_DFL)
    for stream in (sys.stdout, sys.stderr):
        if isinstance(stream, io.TextIOWrapper):
            stream.reconfigure(encoding="utf-8", errors="backslashreplace", newline="\n")
    try:
        status = main(sys.argv[1:])
        sys.stdout.flush()
    except BrokenPipeError:
        # (what is left in its buffer would be tried again at the end)
        os.dup2(os.open(os.devnull, os.O_WRONLY), sys.stdout.fileno())
        status = UNWRITTEN
    except OSError as error:
        tell(name, f"writing failed: {error.strerror}")
        status = UNWRITTEN
    return status
