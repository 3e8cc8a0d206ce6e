"""What can go wrong, as exceptions."""
from __future__ import annotations

from dataclasses import dataclass


@dataclass(frozen=True)
class Fault:
    """A place at which a text is refused, counted from 1, and how to put it right."""

    line: int
    column: int
    message: str
    hint: str | None = None

    def __str__(self) -> str:
        hint = "" if self.hint is None else f"; hint: {self.hint}"
        return f"line {self.line}, column {self.column}: {self.message}{hint}"


class PsatError(Exception):
    """The base of all exceptions of this package."""


class ProgramMissing(PsatError):
    """The program isn't there, or can't be started."""


class ProgramFailed(PsatError):
    """The program ended without an answer: `status` is its exit status."""

    def __init__(self, message: str, status: int) -> None:
        super().__init__(message, status)
        self.status = status

    def __str__(self) -> str:
        return str(self.args[0])


class AnswerError(PsatError, ValueError):
    """What should be an answer of `psat_ask --json` isn't one."""


class ProblemError(PsatError, ValueError):
    """A name, a formula or a value that can't stand in a problem. `hint` says what to write."""

    def __init__(self, message: str, hint: str | None = None) -> None:
        super().__init__(message, hint)
        self.hint = hint

    def __str__(self) -> str:
        return str(self.args[0]) if self.hint is None else f"{self.args[0]}; {self.hint}"


class TextError(PsatError):
    """A text that is no problem, with all faults that the program could tell apart.

    `line`, `column` and `hint` are those of the first one. They are None where a text has no
    place to show, as one that is too long.
    """

    def __init__(self, message: str, faults: tuple[Fault, ...] = ()) -> None:
        super().__init__(message, faults)
        self.faults = faults
        first = faults[0] if faults else None
        self.line = first.line if first else None
        self.column = first.column if first else None
        self.hint = first.hint if first else None

    def __str__(self) -> str:
        return "\n".join(map(str, self.faults)) or str(self.args[0])
