"""Answers as `docs/answer-json.md` describes them, and programs that write them."""
from __future__ import annotations

import contextlib
import io
import json
import os
import tempfile
import unittest
from collections.abc import Callable, Sequence
from pathlib import Path
from typing import Any
from unittest import mock


def side(exact: str | None, decimal: str | None, why: str | None = None) -> dict[str, Any]:
    return {"exact": exact, "decimal": decimal, "why": why}


def open_side(why: str, proved: str, *reached: str) -> dict[str, Any]:
    """A side that is open; `reached` are a value and its decimal, or nothing."""
    told = dict(zip(("exact", "decimal"), reached)) if reached else None
    return {**side(None, None, why), "proved": proved, "reached": told}


def query(text: str, status: str, lower: Any, upper: Any, why: str | None = None) -> dict[str, Any]:
    return {"query": text, "status": status, "why": why, "lower": lower, "upper": upper}


def answer(**members: Any) -> dict[str, Any]:
    counts = {"atoms": 2, "sentences": 1, "bounds": 1, "queries": 1, "open": 0}
    common: dict[str, Any] = {
        "file": "standard input",
        "verdict": "consistent",
        "why": None,
        "queries": [],
        "clash": None,
    }
    return {**common, "counts": counts, "warnings": [], "status": 0, **members}


def clash(*lines: int, irreducible: bool = True, why: str | None = None) -> dict[str, Any]:
    sentences = [
        {"number": number, "line": line, "text": f"P(a{number}) = 1;", "without": "met"}
        for number, line in enumerate(lines, 1)
    ]
    return {"irreducible": irreducible, "why": why, "sentences": sentences}


CONSISTENT = answer(
    queries=[
        query("P(a)", "bounds", side("1/3", "0.33"), side("1", "1.00")),
        query("P(b)", "one value", side("25/322", "0.07"), side("25/322", "0.08")),
        query("P(c given d)", "impossible", None, None),
        query("P(e)", "bounds", open_side("stopped", "0", "2/5", "0.40"), side("1/2", "0.50")),
        query(
            "P(f)",
            "open",
            open_side("not finished", "0"),
            open_side("not finished", "1"),
            "not finished",
        ),
    ],
    status=4,
)
INCONSISTENT = answer(verdict="inconsistent", clash=clash(2, 4), status=1)
OPEN = answer(verdict="open", why="a search stopped", status=4)


def said(main: Callable[[Sequence[str]], int], *words: str) -> tuple[int, str, str]:
    """What a program with these words ends with, and writes to its output and its errors."""
    with contextlib.redirect_stdout(io.StringIO()) as out, contextlib.redirect_stderr(
        io.StringIO()
    ) as err:
        status = main(words)
    return status, out.getvalue(), err.getvalue()


class WithPrograms(unittest.TestCase):
    """A test with programs of its own on the PATH, and nothing else."""

    def setUp(self) -> None:
        self.folder = Path(self.entered(tempfile.TemporaryDirectory()))
        self.entered(mock.patch.dict(os.environ, {"PATH": str(self.folder)}))

    def entered(self, context: Any) -> Any:
        """As `enterContext` of Python 3.11."""
        self.addCleanup(context.__exit__, None, None, None)
        return context.__enter__()

    def program(
        self, name: str, output: str | dict[str, Any] = "", errors: str = "", status: int = 0
    ) -> Path:
        """A program that keeps its words and its input, writes these texts and ends so."""
        written = output if isinstance(output, str) else json.dumps(output) + "\n"
        (self.folder / "output").write_text(written, encoding="utf-8")
        (self.folder / "errors").write_text(errors, encoding="utf-8")
        path = self.folder / name
        path.write_text(
            f'#!/bin/sh\ncd "{self.folder}" || exit 9\n'
            f'printf "%s\\n" "$@" >words\n/bin/cat >input\n'
            f"/bin/cat output\n/bin/cat errors >&2\nexit {status}\n"
        )
        path.chmod(0o755)
        return path

    def kept(self, name: str) -> str:
        """What a program kept: `words` or `input`."""
        return (self.folder / name).read_text(encoding="utf-8")
