"""Calls the installed programs, `psat_ask` and `psat`."""
from __future__ import annotations

import os
import re
import shutil
import subprocess
import tempfile
from collections.abc import Iterator, Sequence
from dataclasses import dataclass, replace
from pathlib import Path
from typing import Union

from .answers import Answer, TextWarning, answers_of
from .errors import AnswerError, Fault, ProgramFailed, ProgramMissing, TextError
from .problems import Problem

Text = Union[str, bytes, Problem]
Program = Union[str, "os.PathLike[str]", None]

_ANSWERED = frozenset({0, 1, 4})
_NO_PROBLEM = 3
_REFUSED = 8
_INPUT = "standard input"
_FAULT = re.compile(rf"{_INPUT}:([0-9]+):([0-9]+): (.*)")
_WARNING = re.compile(rf"{_INPUT}(?::([0-9]+))?: warning: (.*)")
_HINT = "  hint: "
_UNREADABLE = re.compile(r"unreadable: (.*) at ([0-9]+):([0-9]+)\n")
_ACCEPTED = re.compile(r"accepted: claims ([0-9]+), open ([0-9]+)\n")


@dataclass(frozen=True)
class Judgement:
    """What `psat check` says of a report. It counts as true where the report is accepted."""

    accepted: bool
    claims: int
    open: int
    message: str

    def __bool__(self) -> bool:
        return self.accepted


def _bytes_of(text: Text) -> bytes:
    """The bytes of a text. What was read with `surrogateescape` is what it was before."""
    return text if isinstance(text, bytes) else str(text).encode("utf-8", "surrogateescape")


def _found(name: str, program: Program) -> str:
    if program is not None:
        return os.fspath(program)
    found = shutil.which(name)
    if found is None:
        raise ProgramMissing(
            f"the program {name} isn't on the PATH: install psat by its scripts/install and put "
            f"its bin folder on the PATH, or hand in program='/path/to/{name}'"
        )
    return found


def _run(words: Sequence[str], given: bytes) -> tuple[int, str, str]:
    """Runs a program: its status, and what it wrote to its output and its errors."""
    try:
        ran = subprocess.run(words, input=given, capture_output=True, check=False)
    except OSError as error:
        raise ProgramMissing(f"{words[0]} can't be started: {error.strerror}") from error
    output, errors = (each.decode("utf-8", "replace") for each in (ran.stdout, ran.stderr))
    return ran.returncode, output, errors


def _failure(status: int, message: str) -> ProgramFailed:
    how = f"ended by signal {-status}" if status < 0 else f"status {status}"
    return ProgramFailed(f"{message.strip() or 'nothing was answered'} ({how})", status)


def _is_caret(line: str) -> bool:
    return line.strip() == "^"


def _hint_of(block: Sequence[str]) -> str | None:
    """The hint below a fault, which stands behind the line and its caret where these are shown."""
    behind = block[2:] if len(block) > 1 and _is_caret(block[1]) else block
    return next((line[len(_HINT) :] for line in behind if line.startswith(_HINT)), None)


def _faults(errors: str) -> Iterator[Fault]:
    """The faults that are told: each with the lines below it, up to the next."""
    lines = errors.split("\n")
    heads = [at for at, line in enumerate(lines) if _FAULT.fullmatch(line)]
    for at, end in zip(heads, [*heads[1:], len(lines)]):
        line, column, message = _FAULT.fullmatch(lines[at]).groups()  # type: ignore[union-attr]
        yield Fault(int(line), int(column), message, _hint_of(lines[at + 1 : end]))


def _warnings(errors: str) -> Iterator[tuple[int | None, str]]:
    for found in filter(None, map(_WARNING.fullmatch, errors.split("\n"))):
        yield (int(found[1]) if found[1] else None), found[2]


def _limits(**limits: int | None) -> list[str]:
    given = {name: value for name, value in limits.items() if value is not None}
    return [f"--{name.replace('_', '-')}={value}" for name, value in given.items()]


def _call(words: Sequence[str], text: Text) -> tuple[str, str]:
    """Calls `psat_ask` on a text: what it wrote to its output and its errors."""
    status, output, errors = _run([*words, "-"], _bytes_of(text))
    if status == _NO_PROBLEM:
        raise TextError(errors.replace(f"{_INPUT}: ", "").strip(), tuple(_faults(errors)))
    if status not in _ANSWERED:
        raise _failure(status, errors)
    return output, errors


def _answer(output: str, errors: str) -> Answer:
    """The answer of an object. Warnings that stand beside it alone are on conditions."""
    answers = answers_of(output)
    if len(answers) != 1:
        raise AnswerError(f"{len(answers)} answers were written, not one")
    answer = answers[0]
    known = {(warning.line, warning.text) for warning in answer.warnings}
    beside = (told for told in _warnings(errors) if told not in known)
    more = tuple(TextWarning(line, "condition", text) for line, text in beside)
    return replace(answer, warnings=answer.warnings + more)


def ask(
    text: Text,
    *,
    digits: int | None = None,
    pivots: int | None = None,
    conflicts: int | None = None,
    time_limit: int | None = None,
    program: Program = None,
) -> Answer:
    """Asks `psat_ask`: the verdict and the bounds of each query.

    The options are those of the program, and it says what they may be. A text that is no problem
    raises `TextError`, which has the line, the column and a hint.
    """
    limits = _limits(digits=digits, pivots=pivots, conflicts=conflicts, time_limit=time_limit)
    return _answer(*_call([_found("psat_ask", program), "--json", *limits], text))


def ask_with_report(
    text: Text, options: Sequence[str] = (), program: Program = None
) -> tuple[Answer, bytes | None]:
    """The answer and its report in one call. There is no report where time was over before."""
    with tempfile.TemporaryDirectory() as folder:
        place = Path(folder, "report")
        words = [_found("psat_ask", program), "--json", f"--report={place}", *options]
        output, errors = _call(words, text)
        return _answer(output, errors), place.read_bytes() if place.exists() else None


def report(
    text: Text,
    *,
    pivots: int | None = None,
    conflicts: int | None = None,
    program: Program = None,
) -> str:
    """The report of the answer, which `check` accepts: each claim with what shows it."""
    limits = _limits(pivots=pivots, conflicts=conflicts)
    return _call([_found("psat_ask", program), "--report=-", *limits], text)[0]


def check(text: Text, report: str | bytes, *, program: Program = None) -> Judgement:
    """Has `psat check` judge a report on a problem, whoever wrote it."""
    given = _bytes_of(text) + b"\n" + _bytes_of(report)
    status, output, errors = _run([_found("psat", program), "check"], given)
    accepted = _ACCEPTED.fullmatch(output)
    if status == 0 and accepted:
        return Judgement(True, int(accepted[1]), int(accepted[2]), output.strip())
    if status == _REFUSED:
        return Judgement(False, 0, 0, output.strip())
    unreadable = _UNREADABLE.fullmatch(output)
    if status == _NO_PROBLEM and unreadable:
        kind, line, column = unreadable.groups()
        raise TextError(output.strip(), (Fault(int(line), int(column), kind),))
    if status == _NO_PROBLEM:
        raise TextError(output.strip())
    raise _failure(status, errors)
